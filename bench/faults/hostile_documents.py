"""Documents of hostile.py: JSON of Zipkin and of OTLP that is made to be slow or large, and what is written as such."""
import base64
import itertools
import os
import sys

sys.path.insert(1, os.path.dirname(os.path.dirname(os.path.realpath(__file__))))
import rooms  # first: it finds the others
import otlp
from hostile_units import (
    filled, group, GROUP_ROOM, SCOPE_ROOM, REST_ROOM, one_scope, one_span, one_value, LIST_ROOM, list_value, shuffled, writes, same,
    refused, GOOD_SPAN, DEEP_LIST, spans_list, REQUEST_SPAN, SPAN, faulted, LAST_DOUBLE,
)
from json_text import LIMIT
from otlp import DEEPEST, UNIT
from wire import bytes_field

# ---- Zipkin documents

SAME_DOCUMENT, FROM_DOCUMENT, TO_DOCUMENT = ("zipkin-json", "zipkin-json"), ("zipkin-json", "otlp-proto"), ("otlp-proto", "zipkin-json")
DOCUMENT_TO_BATCH, BATCH_TO_DOCUMENT = ("zipkin-json", "jaeger-binary"), ("jaeger-binary", "zipkin-json")
MANY = LIMIT // 64
DIGITS = LIMIT // 67


def json_span(front=b"", middle=b""):
    """The span that spans here are, with members before its identifier and behind it."""
    return b'{%b"id":"0000000000000002"%b,"traceId":"00000000000000000000000000000001"}' % (front, middle)


JSON_SPAN = json_span()


def document(*spans):
    return b"[" + b",".join(spans) + b"]"


ONE_SPAN, NAMELESS = document(JSON_SPAN), document(json_span(middle=b',"name":""'))


def listed_parts(piece, size, last=None):
    """A piece as often as it fits a size, with commas between, and perhaps another last one."""
    count = (size + 1) // (len(piece) + 1) - (last is not None)
    return b",".join([piece] * count + [last] * (last is not None))


def one_member(held):
    """A document of one span with an unknown member, or another one behind its identifier, which goes."""
    return writes(document(json_span(middle=b"," + held)), ONE_SPAN)


def one_json_tag_again():
    around = document(json_span(middle=b',"tags":{}'))
    tags = listed_parts(b'"a":"x"', LIMIT - len(around), b'"a":"y"')
    return writes(document(json_span(middle=b',"tags":{%b}' % tags)), document(json_span(middle=b',"tags":{"a":"y"}')))


def many_json_tags(order):
    """One span with as many different tags as fit 16 MiB."""
    keys = [bytes(key) for key in itertools.islice(itertools.product(bytes(range(48, 91)), repeat=5), UNIT // len(b'"00000":"",'))]
    tags = lambda keys: document(json_span(middle=b',"tags":{%b}' % b",".join(b'"%b":""' % key for key in keys)))
    return writes(tags(order(list(keys))), tags(keys))


def json_name(spelled, said):
    """A span whose name is a piece again and again, spelled with escapes, and as it is written."""
    count = (LIMIT - len(NAMELESS)) // len(spelled)
    texts = [document(json_span(middle=b',"name":"%b"' % (piece * count))) for piece in [spelled, said]]
    return writes(*texts)


def filled_document(more):
    """A document of 64 MiB and so many bytes."""
    return document(json_span(middle=b',"name":"%b"' % (b"x" * (LIMIT - len(NAMELESS) + more))))


def annotated(texts):
    """A span with annotations whose values are spelled so."""
    return document(json_span(b'"annotations":[%b],' % b",".join(b'{"timestamp":1,"value":"%b"}' % text for text in texts)))


def good_spans(last=None):
    return document(listed_parts(JSON_SPAN, UNIT - 2, last))


def changing_services():
    """Spans of which each has another service than the one before, as a document and as requests."""
    spans = [json_span(middle=b',"localEndpoint":{"serviceName":"%b"}' % name) for name in [b"a", b"b"]]
    count = UNIT // (2 * len(spans[0]) + 2)
    resources = [{"service.name": ("text", name)} for name in ["a", "b"]]
    groups = b"".join(otlp.write_group(otlp.Group(resource, scopes=[otlp.Scope(spans=[otlp.Span(1, 2, kind=1)])])) for resource in resources)
    return writes(document(*spans * count), groups * count)


def json_spans():
    """As many smallest good spans as fit a request, as a document."""
    count = SCOPE_ROOM // len(GOOD_SPAN)
    return writes(one_scope(GOOD_SPAN * count), document(*[JSON_SPAN] * count))


def heavy_resource():
    """A resource that is written in each of many spans."""
    heavy, count = b"x" * (UNIT // 1600), UNIT // 3200
    resource = bytes_field(1, bytes_field(1, bytes_field(1, b"a") + bytes_field(2, bytes_field(1, heavy))))
    span = json_span(middle=b',"tags":{"otel.resource.a":"%b"}' % heavy)
    return writes(group(resource + bytes_field(2, GOOD_SPAN * count)), document(*[span] * count))


def many_resource_tags(order):
    """One span of a resource with as many attributes as fit, in an order of their rising keys."""
    digits = sorted(b"-0123456789ABCDEFGHIJKLMNOPQRSTUVWXYZ_abcdefghijklmnopqrstuvwxyz")
    attribute = lambda key: bytes_field(1, bytes_field(1, key) + bytes_field(2, bytes_field(1, b"")))
    count = (GROUP_ROOM - len(GOOD_SPAN) - 16) // len(attribute(b"0000"))
    keys = [bytes(key) for key in itertools.islice(itertools.product(digits, repeat=4), count)]
    tags = b",".join(b'"otel.resource.%b":""' % key for key in keys)
    resource = bytes_field(1, b"".join(attribute(key) for key in order(list(keys))))
    return writes(group(resource + bytes_field(2, GOOD_SPAN)), document(json_span(middle=b',"tags":{%b}' % tags)))


def many_empty_scopes():
    """Half a group of attributes of a resource, and half of scopes without spans, for which nothing is written."""
    attributes = (bytes_field(1, bytes_field(1, b"%06d" % n) + bytes_field(2, bytes_field(1, b""))) for n in range(GROUP_ROOM // 28 - 16))
    resource = bytes_field(1, b"".join(attributes))
    return writes(group(resource + filled(bytes_field(2, b""), GROUP_ROOM - len(resource))), document())


def text_in_tag(value, text):
    return writes(one_value(value), document(json_span(middle=b',"tags":{"a":"%b"}' % text)))


def document_causes():
    """The name of each case of a document that is refused, with its text, the number of what is refused, and the cause."""
    last = (UNIT - 1) // (len(JSON_SPAN) + 1)
    member = lambda held: document(json_span(middle=b"," + held))
    return [
        ("empty objects as spans", lambda: document(*[b"{}"] * MANY), 1, "8 Missing"),
        ("64 MiB of empty arrays as spans", lambda: document(listed_parts(b"[]", LIMIT - 2)), 1, "11 BadShape"),
        ("empty objects as annotations", lambda: member(b'"annotations":[%b]' % b",".join([b"{}"] * MANY)), 1, "8 Missing"),
        ("128 deep", lambda: member(b'"x":' + b"[" * 126 + b"]" * 126), 0, "10 BadJson"),
        ("arrays without an end", lambda: b"[" * (LIMIT * 10 // 67), 0, "10 BadJson"),
        ("objects without an end", lambda: b'{"a":' * (LIMIT // 5), 0, "10 BadJson"),
        ("escaped pairs, the last half a pair", lambda: member(b'"name":"%b\\ud800"' % (b"\\ud83d\\ude00" * (UNIT // 12))), 0, "10 BadJson"),
        ("a text without an end", lambda: b'["' + b"x" * (LIMIT - 2), 0, "10 BadJson"),
        ("a text, its last byte no UTF-8", lambda: filled_document(0).replace(b'x"', b'\xff"', 1), 0, "10 BadJson"),
        ("a time of a million digits", lambda: member(b'"timestamp":' + b"9" * DIGITS), 0, "10 BadJson"),
        ("a time with a million digits behind the point", lambda: member(b'"timestamp":1.' + b"9" * DIGITS), 1, "11 BadShape"),
        ("an exponent of a million digits", lambda: member(b'"x":1e' + b"9" * DIGITS), 0, "10 BadJson"),
        ("64 MiB + 1", lambda: filled_document(1), 0, "17 InputTooLong"),
        ("64 MiB + 1, no JSON", lambda: b"[" * (LIMIT + 1), 0, "17 InputTooLong"),
        ("blanks behind it up to 64 MiB + 1", lambda: b"[]".ljust(LIMIT + 1), 0, "17 InputTooLong"),
        ("smallest good spans, the last empty", lambda: good_spans(b"{}"), last, "8 Missing"),
        ("smallest good spans, cut", lambda: good_spans()[:-1], 0, "10 BadJson"),
    ]


def event_spelled(held):
    """The text of an event with an attribute, as it is spelled within a text."""
    return b'\\"e\\":{\\"k\\":%b}' % held


def document_cases():
    """The name of each case of documents with its pair of forms, and what makes its input and what must be seen."""
    fault, batch = json_span(middle=b',"tags":{"jaeger.flags":"x"}'), DOCUMENT_TO_BATCH
    request = lambda text: bytes_field(1, bytes_field(2, REQUEST_SPAN * text.count(b"{")))
    chains = lambda: listed_parts(b"[" * 124 + b"]" * 124, UNIT)
    cases = [
        ("one tag again and again, 64 MiB", one_json_tag_again), ("different tags, rising", lambda: many_json_tags(list)),
        ("different tags, falling", lambda: many_json_tags(lambda keys: keys[::-1])), ("different tags, shuffled", lambda: many_json_tags(shuffled)),
        ("empty objects in an unknown member", lambda: one_member(b'"x":[%b]' % b",".join([b"{}"] * MANY))),
        ("one unknown member again and again", lambda: one_member(b",".join([b'"x":[]'] * MANY))),
        ("127 deep", lambda: one_member(b'"x":' + b"[" * 125 + b"]" * 125)),
        ("127 deep, again and again", lambda: one_member(b'"x":[%b]' % chains())),
        ("a text of escapes", lambda: json_name(b"\\u0041", b"A")), ("a text of escaped pairs", lambda: json_name(b"\\ud83d\\ude00", "😀".encode())),
        ("a text of control characters", lambda: json_name(b"\\u0001", b"\\u0001")),
        ("a member of a million digits", lambda: one_member(b'"x":0.' + b"9" * DIGITS)), ("64 MiB", lambda: same(filled_document(0))),
        ("blanks behind it up to 64 MiB", lambda: writes(b"[]".ljust(LIMIT), b"[]")), ("smallest good spans", lambda: same(good_spans())),
        ("annotations", lambda: same(annotated([b""] * (MANY // 4)))), ("event texts", lambda: same(annotated([event_spelled(b"1")] * (MANY // 4)))),
        ("one long event text", lambda: same(annotated([event_spelled(b'\\"%b\\"' % (b"x" * (UNIT // 2)))]))),
        ("an event text too deep to be one", lambda: same(annotated([event_spelled(b"[" * (UNIT // 2))]))),
        ("annotations of one quote each", lambda: same(annotated([b'\\"'] * (MANY // 4)))),
    ]
    out = [(name, SAME_DOCUMENT, make) for name, make in cases]
    out.append(("spans of other services than the one before", FROM_DOCUMENT, changing_services))
    out.append(("smallest good spans", FROM_DOCUMENT, lambda: writes(good_spans(), request(good_spans()))))
    out.append(("smallest good spans, the last with a tag that a batch can't hold", batch, lambda: faulted(good_spans(fault), 1, '22 OwnKey "jaeger.flags"')))
    return out + [(name, FROM_DOCUMENT, lambda make=make, unit=unit, cause=cause: refused(make(), unit, cause)) for name, make, unit, cause in document_causes()]


def to_document_cases():
    """The same of what is written in a document."""
    nothings = LIST_ROOM // 2
    empty_events = lambda: annotated([b""] * (REST_ROOM // 2)).replace(b":1,", b":0,")
    last_double = lambda: one_value(list_value(filled(DEEP_LIST, LIST_ROOM - 11) + LAST_DOUBLE))
    many_nulls = lambda: text_in_tag(list_value(b"\x0a\0" * nothings), b"[" + b",".join([b"null"] * nothings) + b"]")
    cases = [
        ("smallest good spans", json_spans), ("empty groups", lambda: writes(b"\x0a\0" * UNIT, b"[]")), ("a heavy resource of many spans", heavy_resource),
        ("many attributes of a resource, rising", lambda: many_resource_tags(list)), ("many attributes of a resource, shuffled", lambda: many_resource_tags(shuffled)),
        ("many attributes of a resource, many scopes without spans", many_empty_scopes),
        ("empty events", lambda: writes(one_span(filled(b"\x5a\0", REST_ROOM)), empty_events())), ("a list of empty values", many_nulls),
        ("a byte value", lambda: text_in_tag(bytes_field(7, bytes(LIST_ROOM)), base64.b64encode(bytes(LIST_ROOM)))),
        ("a double in the last of many lists", lambda: faulted(last_double(), 1, "25 DoubleInText")),
    ]
    batches = lambda: writes(spans_list(SPAN)[0], document(*[JSON_SPAN] * spans_list(SPAN)[1]))
    return [(name, TO_DOCUMENT, make) for name, make in cases] + [("smallest good spans", BATCH_TO_DOCUMENT, batches)]


# ---- documents of OTLP/JSON

SAME_GROUPS, FROM_GROUPS, TO_GROUPS = ("otlp-json", "otlp-json"), ("otlp-json", "otlp-proto"), ("otlp-proto", "otlp-json")


def group_span(front=b"", behind=b""):
    """The span that spans here are, with members before its identifiers and behind them."""
    return b'{%b"spanId":"0000000000000002","traceId":"00000000000000000000000000000001"%b}' % (front, behind)


GROUP_SPAN = group_span()


def of_groups(*groups):
    return b'{"resourceSpans":[%b]}' % b",".join(groups)


def of_spans(*spans):
    return of_groups(b'{"scopeSpans":[{"spans":[%b]}]}' % b",".join(spans))


GOOD_GROUPS = of_spans(GROUP_SPAN)


def attributed(*pairs):
    return of_spans(group_span(b'"attributes":[%b],' % b",".join(pairs)))


def json_value(held):
    """A document of one span with one attribute of this value."""
    return attributed(b'{"key":"a","value":%b}' % held)


def json_list(*values):
    return b'{"arrayValue":{"values":[%b]}}' % b",".join(values)


def chain(levels):
    """A value of so many lists within each other, the last of which is empty."""
    inner = levels - 1
    return b'{"arrayValue":{"values":[' * inner + b'{"arrayValue":{}}' + b"]}}" * inner


def text_pair(text):
    return b'{"key":"a","value":{"stringValue":"%b"}}' % text


def named_groups(text):
    return of_spans(group_span(b'"name":"%b",' % text))


def filled_groups(more):
    """A document of 64 MiB and so many bytes."""
    return named_groups(b"x" * (LIMIT - len(named_groups(b"")) + more))


def one_attribute_again():
    pairs = listed_parts(text_pair(b"x"), LIMIT - len(attributed()), text_pair(b"y"))
    return writes(attributed(pairs), attributed(text_pair(b"y")))


def many_attributes(order):
    """One span with as many different keys as fit 16 MiB, each without a value."""
    keys = [bytes(key) for key in itertools.islice(itertools.product(bytes(range(48, 91)), repeat=5), UNIT // len(b'{"key":"00000"},'))]
    pairs = lambda keys: attributed(*[b'{"key":"%b"}' % key for key in keys])
    return writes(pairs(order(list(keys))), pairs(keys))


def unknown_member(held):
    """A document with an unknown member in its span, which goes."""
    return writes(of_spans(group_span(b"", b"," + held)), GOOD_GROUPS)


def spelled_name(spelled, said):
    count = (LIMIT - len(named_groups(b""))) // len(spelled)
    return writes(named_groups(spelled * count), named_groups(said * count))


def arrays(levels):
    return b"[" * levels + b"]" * levels


def chains(last=None):
    """A list of lists that are as deep as they may be with it, in 16 MiB, and perhaps a last one."""
    return json_value(json_list(listed_parts(chain(DEEPEST - 1), UNIT, last)))


def groups_causes():
    """The name of each case of a document of groups that is refused, with its text, the number of what is refused, and the cause."""
    member = lambda held: of_spans(group_span(b"", b"," + held))
    values = lambda count: b'{"intValue":"1"},' * count
    good = listed_parts(GROUP_SPAN, UNIT)
    return [
        ("empty objects as spans", lambda: of_spans(*[b"{}"] * MANY), 1, "12 BadId"),
        ("empty arrays as groups, 64 MiB", lambda: of_groups(listed_parts(b"[]", LIMIT - len(of_groups()))), 1, "11 BadShape"),
        ("empty groups, the last an empty array", lambda: of_groups(*[b"{}"] * MANY, b"[]"), MANY + 1, "11 BadShape"),
        ("empty texts as events", lambda: member(b'"events":[%b]' % b",".join([b'""'] * MANY)), 1, "11 BadShape"),
        ("128 deep", lambda: member(b'"x":' + arrays(121)), 0, "10 BadJson"),
        ("arrays without an end", lambda: b"[" * (LIMIT * 10 // 67), 0, "10 BadJson"),
        ("a text without an end", lambda: b'{"' + b"x" * (LIMIT - 2), 0, "10 BadJson"),
        ("a value 39 lists deep", lambda: json_value(chain(39)), 1, "5 TooDeep"), ("a value 40 lists deep", lambda: json_value(chain(40)), 0, "10 BadJson"),
        (f"lists {DEEPEST} deep, the last {DEEPEST + 1}", lambda: chains(json_list(chain(DEEPEST - 1))), 1, "5 TooDeep"),
        ("numbers, the last a double", lambda: json_value(json_list(values(MANY) + b'{"doubleValue":1}')), 1, "15 DoubleInJson"),
        ("numbers, the last with two members", lambda: json_value(json_list(values(MANY) + b'{"doubleValue":1,"intValue":1}')), 1, "11 BadShape"),
        ("a time of a million digits", lambda: member(b'"startTimeUnixNano":' + b"9" * DIGITS), 0, "10 BadJson"),
        ("a time with a million digits behind the point", lambda: member(b'"startTimeUnixNano":1.' + b"9" * DIGITS), 1, "11 BadShape"),
        ("a time of a million digits, a text", lambda: member(b'"startTimeUnixNano":"%b"' % (b"9" * DIGITS)), 1, "11 BadShape"),
        ("an identifier of a million digits", lambda: member(b'"parentSpanId":"%b"' % (b"1" * DIGITS)), 1, "12 BadId"),
        ("bytes, the last no base64", lambda: json_value(b'{"bytesValue":"%b="}' % (b"A" * (DIGITS // 4 * 4))), 1, "11 BadShape"),
        ("64 MiB + 1", lambda: filled_groups(1), 0, "17 InputTooLong"),
        ("smallest good spans, the last empty", lambda: of_spans(good, b"{}"), 1, "12 BadId"),
        ("smallest good spans, cut", lambda: of_spans(good)[:-1], 0, "10 BadJson"),
    ]


def groups_cases():
    """The name of each case of documents of groups with its pair of forms, and what makes its input and what must be seen."""
    time = lambda held: of_spans(group_span(b"", b"," + held))
    zeros = lambda: writes(time(b'"flags":"%b7"' % (b"0" * DIGITS)), of_spans(group_span(b'"flags":7,')))
    cases = [
        ("one attribute again and again, 64 MiB", one_attribute_again), ("different keys, rising", lambda: many_attributes(list)),
        ("different keys, falling", lambda: many_attributes(lambda keys: keys[::-1])), ("different keys, shuffled", lambda: many_attributes(shuffled)),
        ("empty pairs", lambda: writes(attributed(*[b"{}"] * MANY), attributed(b"{}"))), ("empty groups", lambda: same(of_groups(*[b"{}"] * MANY))),
        ("empty events", lambda: same(of_spans(group_span(b'"events":[%b],' % b",".join([b"{}"] * MANY))))),
        ("empty links", lambda: unknown_member(b'"links":[%b]' % b",".join([b"{}"] * MANY))),
        ("empty values", lambda: same(json_value(json_list(*[b"{}"] * MANY)))),
        ("empty objects in an unknown member", lambda: unknown_member(b'"x":[%b]' % b",".join([b"{}"] * MANY))),
        ("one unknown member again and again", lambda: unknown_member(b",".join([b'"x":[]'] * MANY))),
        ("127 deep", lambda: unknown_member(b'"x":' + arrays(120))), ("127 deep, again and again", lambda: unknown_member(b'"x":[%b]' % listed_parts(arrays(119), UNIT))),
        (f"lists {DEEPEST} deep, again and again", lambda: same(chains())), ("a text of escapes", lambda: spelled_name(b"\\u0041", b"A")),
        ("a text of control characters", lambda: spelled_name(b"\\u0001", b"\\u0001")), ("64 MiB", lambda: same(filled_groups(0))),
        ("a number with a million zeros in front", zeros), ("a member of a million digits", lambda: unknown_member(b'"x":0.' + b"9" * DIGITS)),
        ("a byte value", lambda: same(json_value(b'{"bytesValue":"%b"}' % (b"/" * ((LIMIT - len(json_value(b'{"bytesValue":""}'))) // 4 * 4))))),
        ("smallest good spans", lambda: same(of_spans(listed_parts(GROUP_SPAN, UNIT)))),
    ]
    out = [(name, SAME_GROUPS, make) for name, make in cases]
    count = LIMIT // 2 // (len(GROUP_SPAN) + 1)
    written = lambda: group(bytes_field(2, GOOD_SPAN * min(count, SCOPE_ROOM // len(GOOD_SPAN))))
    out.append(("smallest good spans", FROM_GROUPS, lambda: writes(of_spans(*[GROUP_SPAN] * min(count, SCOPE_ROOM // len(GOOD_SPAN))), written())))
    return out + [(name, FROM_GROUPS, lambda make=make, unit=unit, cause=cause: refused(make(), unit, cause)) for name, make, unit, cause in groups_causes()]


def to_groups_cases():
    """The same of what is written in a document of groups."""
    count, empties = SCOPE_ROOM // len(GOOD_SPAN), REST_ROOM // 2
    controls = lambda: (bytes_field(1, b"\1" * LIST_ROOM), b'{"stringValue":"%b"}' % (b"\\u0001" * LIST_ROOM))
    held_bytes = lambda: (bytes_field(7, bytes(LIST_ROOM)), b'{"bytesValue":"%b"}' % base64.b64encode(bytes(LIST_ROOM)))
    empty_values = lambda: (list_value(b"\x0a\0" * (LIST_ROOM // 2)), json_list(*[b"{}"] * (LIST_ROOM // 2)))
    deep_values = lambda: (list_value(filled(DEEP_LIST, LIST_ROOM)), json_list(*[chain(DEEPEST - 1)] * (LIST_ROOM // len(DEEP_LIST))))
    value = lambda make: writes(one_value(make()[0]), json_value(make()[1]))
    last_double = lambda: one_value(list_value(filled(DEEP_LIST, LIST_ROOM - 11) + LAST_DOUBLE))
    return [(name, TO_GROUPS, make) for name, make in [
        ("smallest good spans", lambda: writes(one_scope(GOOD_SPAN * count), of_spans(*[GROUP_SPAN] * count))),
        ("empty groups", lambda: writes(b"\x0a\0" * UNIT, of_groups(*[b"{}"] * UNIT))),
        ("empty events", lambda: writes(one_span(b"\x5a\0" * empties), of_spans(group_span(b'"events":[%b],' % b",".join([b"{}"] * empties))))),
        ("a text of control characters", lambda: value(controls)), ("a byte value", lambda: value(held_bytes)),
        ("a list of empty values", lambda: value(empty_values)), (f"lists {DEEPEST} deep", lambda: value(deep_values)),
        ("a double in the last of many lists", lambda: faulted(last_double(), 1, "25 DoubleInText")),
    ]]
