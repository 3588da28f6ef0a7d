#!/usr/bin/python3
"""Checks the readers, tables and writers of otlp.py, otlp_json.py, jaeger.py and zipkin.py, on which other scripts rest,
without the program.

It is run at the top as bench/readers/check_readers.py. Worked texts must have their verdicts, random traces must have the stock
protobuf library's text, each front of a spoilt batch must be judged as the whole is, JSON must be read as Python's `json` reads
it, random Zipkin spans and groups of OTLP/JSON must be read in each spelling, and what is written of a random trace must be read
back as its normal form. It prints a line for each part, and ends with 1 where one is wrong.
"""
import itertools
import json
import os
import random
import re
import sys

sys.path.insert(1, os.path.dirname(os.path.dirname(os.path.realpath(__file__))))
import rooms  # first: it finds the others
import forms
import jaeger
import json_text
import otlp
import otlp_json
import stock_json
import zipkin
from drawn import Batches, Traces
from drawn_groups import GroupDocuments, GroupSpoiler, JsonTraces
from drawn_spans import Documents, DocumentSpoiler, ZipkinTraces
from protocols import PROTOCOLS
from real_input import Maker, newer, normal, request_class, schema
from refused_batches import BatchSpoiler
from worked_texts import worked_texts

SEEDS = 150
OTLP, JSON, JAEGER, COMPACT, ZIPKIN = "otlp-proto", "otlp-json", "jaeger-binary", "jaeger-compact", "zipkin-json"


def hexed(text):
    return bytes.fromhex(text)


def unwrapped(text):
    """The bytes of a text without its line breaks."""
    return text.replace("\n", "").encode()


# ---- worked texts

TEXTS = worked_texts()

# One span of an SDK, as a request and as a batch.
REQUEST = TEXTS["SDK_REQUEST"]
BATCH = TEXTS["SDK_BATCH"]
# The request that the batch means: times in whole microseconds, and of the flags the first bit.
FLOORED = REQUEST.replace(hexed("15cd85"), hexed("00ca85")).replace(hexed("15ae7b"), hexed("00ab7b"))[:-4] + hexed("01000000")
SMALL_BATCH = TEXTS["SPAN_BATCH"]
PROCESS = SMALL_BATCH[:12]
DOUBLE_BATCH = SMALL_BATCH[:-2] + hexed("0f000a0c00000001 0b00010000000164 08000200000001 0400043ff0000000000000 00") + SMALL_BATCH[-2:]
SMALL = TEXTS["ONE_SPAN"]
UNKNOWN = TEXTS["UNKNOWN_FIELDS"]


def longer(more):
    """The small request with more fields in its span."""
    more = hexed(more)
    sizes = {at: SMALL[at] + len(more) for at in [1, 3, 5]}
    return bytes(sizes.get(at, byte) for at, byte in enumerate(SMALL)) + more


NO_SERVICE = SMALL_BATCH.replace(hexed("0b00010000000173"), hexed("0b000100000000"))
# A truth value under the key `error`, which both have for the status of a span, as a request and as a batch.
ERROR_REQUEST = longer("4a0b 0a056572726f72 12021001")
ERROR_BATCH = NO_SERVICE[:-2] + hexed("0f000a0c00000001 0b00010000000f 6f74656c2e617474722e6572726f72 08000200000002 02000501 00") + NO_SERVICE[-2:]


def worked():
    """Each worked text with its two forms, and the status, note and output that it must have."""
    refused = lambda cause, unit=1: (3, f"unit {unit}: cause {cause}\n", b"")
    faulted = lambda fault: (4, f"unit 1: fault {fault}\n", b"")
    written = lambda text: (0, "", text)
    return [
        (REQUEST, OTLP, OTLP, written(REQUEST)), (REQUEST, OTLP, JAEGER, written(BATCH)),
        (BATCH, JAEGER, OTLP, written(FLOORED)), (BATCH, JAEGER, JAEGER, written(BATCH)),
        (SMALL_BATCH + DOUBLE_BATCH, JAEGER, JAEGER, written(SMALL_BATCH + DOUBLE_BATCH)),
        (SMALL, OTLP, OTLP, written(SMALL)), (UNKNOWN, OTLP, OTLP, written(SMALL)), (b"", JAEGER, OTLP, written(b"")),
        (longer("39d107000000000000 41d007000000000000"), OTLP, JAEGER, faulted("20 EndBeforeStart")),
        (ERROR_REQUEST, OTLP, JAEGER, written(ERROR_BATCH)), (ERROR_BATCH, JAEGER, JAEGER, written(ERROR_BATCH)),
        (ERROR_BATCH, JAEGER, OTLP, written(longer("3001 4a0b 0a056572726f72 12021001"))),
        (longer("4a12 0a0c6a61656765722e666c616773 12021801"), OTLP, JAEGER, faulted('22 OwnKey "jaeger.flags"')),
        (longer("3006"), OTLP, OTLP, refused("13 BadEnum")), (longer("2a0161"), OTLP, JAEGER, refused("7 FieldTwice")),
        (SMALL[:-1] + b"\xff", OTLP, JAEGER, refused("9 NotText")), (SMALL + SMALL[:-1], OTLP, OTLP, (3, "unit 2: cause 1 Truncated\n", SMALL)),
        (hexed("0a19 1217 1215 0a1000000000000000000000000000000001 2a0161"), OTLP, JAEGER, refused("12 BadId")),
        (hexed("0b0001ffffffff"), JAEGER, JAEGER, refused("4 BadSize")), (hexed("0b0001ff"), JAEGER, JAEGER, refused("4 BadSize")),
        (hexed("0b0001ff")[:-1], JAEGER, JAEGER, refused("1 Truncated")), (b"\0", JAEGER, OTLP, refused("8 Missing")),
        (hexed("0c0001") * 31 + b"\x0c", JAEGER, JAEGER, refused("5 TooDeep")), (hexed("0c0001") * 31, JAEGER, JAEGER, refused("1 Truncated")),
        (hexed("050001"), JAEGER, JAEGER, refused("3 BadWire")), (hexed("0f000905 00000000 0f000105 000001"), JAEGER, JAEGER, refused("3 BadWire")),
        (hexed("0b00017fffffff"), JAEGER, JAEGER, refused("6 UnitTooLong")), (hexed("0f00017fffffff"), JAEGER, JAEGER, refused("3 BadWire")),
        (hexed("0f00010c7fffffff"), JAEGER, JAEGER, refused("1 Truncated")),
        (PROCESS + hexed("0f00020b00000001 00000000 00"), JAEGER, OTLP, refused("14 BadElement")),
        (PROCESS + hexed("0f00020b00000000 00"), JAEGER, JAEGER, written(PROCESS + hexed("0f00020c00000000 00"))),
        (SMALL_BATCH.replace(hexed("0a0008 0000"), hexed("0a0008 8000")), JAEGER, JAEGER, refused("16 BadTime")),
        (SMALL_BATCH.replace(hexed("0a0003 0000000000000002"), hexed("0a0003 0000000000000000")), JAEGER, JAEGER, refused("12 BadId")),
        (SMALL_BATCH[:-2] + hexed("0f00060c00000001 08000100000002 0000 00") + SMALL_BATCH[-2:], JAEGER, OTLP, refused("13 BadEnum")),
        (SMALL_BATCH[:-2] + hexed("080007 00000000") + SMALL_BATCH[-2:], JAEGER, OTLP, refused("7 FieldTwice")),
    ]


def check_worked():
    wrong = 0
    texts = worked() + worked_compact() + worked_zipkin() + worked_documents() + worked_causes() + worked_groups() + worked_refusals()
    for number, (text, source, target, wanted) in enumerate(texts):
        got = forms.verdict(text, source, target)[:3]
        if got != wanted:
            print(f"WRONG: worked text {number}, {source} to {target}: {got}; wanted {wanted}")
            wrong += 1
    return wrong


# The same in the compact protocol: the span of an SDK; one and two batches; a root with two CHILD_OF references, as a client
# sends it and as it is written; all that a client's batch has; and repeated tags.
BATCH_COMPACT = TEXTS["SDK_COMPACT"]
SMALL_COMPACT = TEXTS["SPAN_COMPACT"]
DOUBLE_COMPACT = TEXTS["DOUBLE_COMPACT"]
REFERENCES = TEXTS["ROOT_COMPACT"]
ONE_REFERENCE = TEXTS["PARENT_COMPACT"]
FLAGS = TEXTS["FLAGS_COMPACT"]
LONG_LIST = hexed("1c18017300 19fc01 1602 1600 1604 1600 180161 2506 1600 1600 00 00")
KEY_COMPACT = hexed("1c180000 191c 1602 1600 1604 1600 180161 2500 1600 1600 191c 180f6f74656c2e617474722e6572726f72 1504 31 00 00 00")
CLIENT = TEXTS["CLIENT_COMPACT"]
REPEATED = hexed("""
1c18017300 191c 1602 1600 1604 1600 180161 2500 1600 1600
193c 18016b 1500 180131 00 18016b 1500 180132 00 18056572726f72 1500 180474727565 00 00 00
""")
# The last of equal tags counts; `error` as a text is the code, which is written as a text and a truth value.
REPEATED_WRITTEN = hexed("""
1c18017300 191c 1602 1600 1604 1600 180161 2500 1600 1600
193c 18056572726f72 1504 31 00 18016b 1500 180132 00 18106f74656c2e7374617475735f636f6465 1500 18054552524f52 00 00 00
""")


def worked_compact():
    """Each worked text that has to do with the compact protocol."""
    refused = lambda text, cause: (hexed(text), COMPACT, JAEGER, (3, f"unit 1: cause {cause}\n", b""))
    written = lambda text: (0, "", text)
    two = DOUBLE_COMPACT, SMALL_BATCH + DOUBLE_BATCH
    return [
        (REQUEST, OTLP, COMPACT, written(BATCH_COMPACT)), (BATCH, JAEGER, COMPACT, written(BATCH_COMPACT)),
        (BATCH_COMPACT, COMPACT, JAEGER, written(BATCH)), (BATCH_COMPACT, COMPACT, OTLP, written(FLOORED)),
        (SMALL_BATCH + DOUBLE_BATCH, JAEGER, COMPACT, written(SMALL_COMPACT + two[0])), (SMALL_COMPACT + two[0], COMPACT, JAEGER, written(two[1])),
        (REFERENCES, COMPACT, COMPACT, written(ONE_REFERENCE)), (ONE_REFERENCE, COMPACT, COMPACT, written(ONE_REFERENCE)),
        (FLAGS, COMPACT, COMPACT, written(FLAGS)), (LONG_LIST, COMPACT, COMPACT, written(FLAGS)),
        (KEY_COMPACT, COMPACT, COMPACT, written(KEY_COMPACT)), (CLIENT, COMPACT, COMPACT, written(CLIENT)),
        (REPEATED, COMPACT, COMPACT, written(REPEATED_WRITTEN)),
        (ERROR_REQUEST, OTLP, COMPACT, written(KEY_COMPACT)), (KEY_COMPACT, COMPACT, JAEGER, written(ERROR_BATCH)),
        refused("1c" * 32, "5 TooDeep"), refused("1c" * 31, "1 Truncated"), refused("1c18017300 1915 00 00", "14 BadElement"),
        refused("00", "8 Missing"), refused("1d", "3 BadWire"), refused("10", "3 BadWire"), refused("0c 80800400", "3 BadWire"),
        refused("15 8080808010", "2 BadVarint"), refused("14 808004", "2 BadVarint"), refused("16" + "80" * 9 + "02", "2 BadVarint"),
        refused("16" + "80" * 9, "1 Truncated"), refused("18 8080808008", "4 BadSize"), refused("18 ffffffff07", "6 UnitTooLong"),
        refused("1b 8080808008", "4 BadSize"), refused("1b 01 0d", "3 BadWire"), refused("191d", "3 BadWire"), refused("19fd 01", "3 BadWire"),
    ]


# The same in Zipkin's JSON: the span of an SDK, a client's batch, a client span with a null and as it is written, and two
# spans of one identifier.
SPAN_ZIPKIN = TEXTS["SDK_SPANS"]
CLIENT_ZIPKIN = TEXTS["SPANS_OF_CLIENT"]
REFUSED_CALL = TEXTS["CLIENT_SPANS"]
REFUSED_CALL_WRITTEN = TEXTS["CLIENT_SPANS_WRITTEN"]
SHARED = unwrapped("""
[{"traceId":"463ac35c9f6413ad","id":"a2fb4a1d1a96d312","kind":"CLIENT"},
{"traceId":"463ac35c9f6413ad","id":"a2fb4a1d1a96d312","kind":"SERVER","shared":true}]
""")
SHARED_WRITTEN = TEXTS["SHARED_SPANS"]
NAMELESS = NO_SERVICE.replace(hexed("0b00050000000161"), hexed("0b000500000000"))
IDS = b'"traceId":"1","id":"2"'


def request(**parts):
    """The request of the small span with more parts."""
    return otlp.write_group(otlp.Group(scopes=[otlp.Scope(spans=[otlp.Span(1, 2, name="a", **parts)])]))


def small_zipkin(front="", middle="", behind=""):
    """The small span in Zipkin, with these members before its identifier, before its name and behind it, without the end."""
    return f'[{{{front}"id":"0000000000000002",{middle}"name":"a"{behind},"traceId":"00000000000000000000000000000001"}}'.encode()


SERVICE = '"localEndpoint":{"serviceName":"s"},'
FLAGS_ZIPKIN = small_zipkin("", SERVICE, ',"tags":{"jaeger.flags":"2"}') + b"]"


def attribute(key, kind, held):
    return {"attributes": {key: (kind, held)}}


def event(name, attributes=()):
    return {"events": [otlp.Event(1000, name, dict(attributes))]}


def worked_zipkin():
    """Each worked text that is written in Zipkin's JSON."""
    to = lambda text, *parts: (text, OTLP, ZIPKIN, (0, "", small_zipkin(*parts) + b"]"))
    faulted = lambda text, fault: (text, OTLP, ZIPKIN, (4, f"unit 1: fault {fault}\n", b""))
    written = lambda text: (0, "", text)
    link = otlp.Link(1, 1, attributes=dict(jaeger.CHILD_OF))
    annotation = '"annotations":[{"timestamp":1,"value":"\\"e\\":{\\"event\\":\\"x\\"}"}],'
    return [
        (b"", OTLP, ZIPKIN, written(b"[]")), (b"", JAEGER, ZIPKIN, written(b"[]")), (b"\x0a\0" * 2, OTLP, ZIPKIN, written(b"[]")),
        (REQUEST, OTLP, ZIPKIN, written(SPAN_ZIPKIN)), (BATCH, JAEGER, ZIPKIN, written(SPAN_ZIPKIN)),
        (CLIENT, COMPACT, ZIPKIN, written(CLIENT_ZIPKIN)),
        to(request(start=1999, end=2000), '"duration":1,', "", ',"timestamp":1'), to(request(start=5000, end=5000), "", "", ',"timestamp":5'),
        to(request(**attribute("ok", "truth", True)), "", "", ',"tags":{"ok":"true"}'), to(request(links=[link])),
        to(request(**event("e", {"event": ("text", "x")})), annotation), (FLAGS, COMPACT, ZIPKIN, written(FLAGS_ZIPKIN)),
        (REPEATED, COMPACT, ZIPKIN, written(small_zipkin("", SERVICE, ',"tags":{"error":"","k":"2","otel.status_code":"ERROR"}') + b"]")),
        to(ERROR_REQUEST, "", "", ',"tags":{"otel.attr.error":"true"}'),
        (SMALL + SMALL, OTLP, ZIPKIN, written(small_zipkin() + b"," + small_zipkin()[1:] + b"]")),
        faulted(request(start=2001, end=2000), "20 EndBeforeStart"), faulted(request(**event('"a":{"b":"c"}')), "23 EventText"),
        faulted(request(**attribute("zipkin.debug", "truth", True)), '22 OwnKey "zipkin.debug"'),
        (SMALL_BATCH + DOUBLE_BATCH, JAEGER, ZIPKIN, (4, "unit 2: fault 25 DoubleInText\n", small_zipkin("", SERVICE))),
        (b"\x0a\0" * 2 + request(start=1), OTLP, ZIPKIN, (4, "unit 3: fault 20 EndBeforeStart\n", b"[")),
        (b"\x0a\0" + SMALL[:-1], OTLP, ZIPKIN, (3, "unit 2: cause 1 Truncated\n", b"[")),
    ]


def worked_documents():
    """Each worked document that is read."""
    written = lambda text: (0, "", text)
    good = written(otlp.write_group(otlp.Group(scopes=[otlp.Scope(spans=[otlp.Span(1, 2, kind=1)])])))
    two = lambda key: b'[{%b},{%b,"tags":{"otel.resource.a":"","%b":"x"}}]' % (IDS, IDS, key)
    kind = hexed("0f000a0c00000001 0b000100000013 6f74656c2e617474722e7370616e2e6b696e64 08000200000000 0b00030000000178 00")
    second = NAMELESS.replace(hexed("0b000100000000"), hexed("0b000100000000 0f00020c00000001 0b00010000000161 08000200000000 0b000300000000 00"))
    return [
        (b"[]", ZIPKIN, OTLP, written(b"")), (b" [ ] ", ZIPKIN, ZIPKIN, written(b"[]")), (SPAN_ZIPKIN, ZIPKIN, ZIPKIN, written(SPAN_ZIPKIN)),
        (CLIENT_ZIPKIN, ZIPKIN, COMPACT, written(CLIENT.replace(hexed("2502"), hexed("2500")))),
        (small_zipkin("", "", ',"timestamp":5') + b"]", ZIPKIN, OTLP, written(request(kind=1, start=5000, end=5000))),
        (FLAGS_ZIPKIN, ZIPKIN, COMPACT, written(FLAGS.replace(hexed("2506"), hexed("2504")))),
        (SHARED, ZIPKIN, ZIPKIN, written(SHARED_WRITTEN)), (REFUSED_CALL, ZIPKIN, ZIPKIN, written(REFUSED_CALL_WRITTEN)),
        (deep(127), ZIPKIN, OTLP, good),
        (b'[{"id":7,"traceId":"1","id":"0002","parentId":"00","kind":null}]', ZIPKIN, OTLP, good),
        (b'[{%b,"tags":{"error":""}},{"id":"0"}]' % IDS, ZIPKIN, JAEGER, (3, "unit 2: cause 8 Missing\n", b"")),
        (two(b"span.kind"), ZIPKIN, JAEGER, written(NAMELESS + second[:-2] + kind + second[-2:])),
        (two(b"jaeger.flags"), ZIPKIN, JAEGER, (4, 'unit 2: fault 22 OwnKey "jaeger.flags"\n', NAMELESS)),
    ]


def deep(levels):
    """A document that is so deep."""
    return b'[{%b,"x":%b}]' % (IDS, b"[" * (levels - 2) + b"]" * (levels - 2))


def worked_causes():
    """Documents that are refused."""
    refused = lambda text, cause, unit=1: (text, ZIPKIN, OTLP, (3, f"unit {unit}: cause {cause}\n", b""))
    with_member = lambda member, cause: refused(b"[{%b,%b}]" % (IDS, member), cause)
    no_json = [b"", b"[1e400]", b'[{%b,"x":"\\ud800"}]' % IDS, b"[{%b}" % IDS, b"[NaN]", b"[01]", b"\xef\xbb\xbf[]", b'["\x01"]', deep(128)]
    return [refused(text, "10 BadJson", 0) for text in no_json] + [
        refused(b"{}", "11 BadShape", 0), refused(b"[null]", "11 BadShape"), refused(b'[{"traceId":"0","id":"1"}]', "12 BadId"),
        with_member(b'"timestamp":-1', "16 BadTime"), with_member(b'"timestamp":1.0', "11 BadShape"), with_member(b'"timestamp":-0', "11 BadShape"),
        with_member(b'"timestamp":18446744073709551616', "11 BadShape"), with_member(b'"timestamp":18446744073709552', "16 BadTime"),
        with_member(b'"duration":1,"timestamp":18446744073709551', "16 BadTime"), with_member(b'"duration":"1","kind":"x"', "13 BadEnum"),
        with_member(b'"parentId":""', "12 BadId"), with_member(b'"annotations":[{"value":"x"}]', "8 Missing"),
        with_member(b'"tags":{"a":1}', "11 BadShape"),
        with_member(b'"localEndpoint":{"port":65536}', "11 BadShape"), with_member(b'"debug":0', "11 BadShape"),
        refused(b'[{"id":"g"}]', "8 Missing"), refused(b"[{%b},{}]" % IDS, "8 Missing", 2),
    ]


# The same in OTLP/JSON: the span of an SDK, and a root with two CHILD_OF references.
REQUEST_JSON = TEXTS["SDK_GROUPS"]
REFERENCES_JSON = TEXTS["LINKED"]
NO_GROUPS = b'{"resourceSpans":[]}'
JSON_IDS = '"traceId":"00000000000000000000000000000001","spanId":"0000000000000002","name":"a"'


def groups_of(span):
    return f'{{"resourceSpans":[{{"scopeSpans":[{{"spans":[{span}]}}]}}]}}'.encode()


def small_json(more=""):
    """The small span in OTLP/JSON as a client may send it, with more members behind its name."""
    return groups_of(f"{{{JSON_IDS}{more}}}")


def written_json(front="", middle="", behind=""):
    """The same as it is written, with members in front, behind its name, and before its end."""
    return groups_of(f'{{{front}"name":"a"{middle},"spanId":"0000000000000002"{behind},"traceId":"00000000000000000000000000000001"}}')


def valued(held):
    """The small span with an attribute of this value."""
    return small_json(f',"attributes":[{{"key":"k","value":{held}}}]')


def nested_value(levels, last):
    """A value of so many lists and maps within each other, of which the last, a map, holds this."""
    for level in range(levels):
        nest = "arrayValue" if level % 2 else "kvlistValue"
        last = f'{{"{nest}":{last}}}' if level == 0 else f'{{"{nest}":{{"values":[{last if level % 2 else f"""{{"value":{last}}}"""}]}}}}'
    return last


# The keys of tags that Zipkin has of attributes of these keys.
ZIPKIN_TAGS = {
    "ok": "ok", "error": "otel.attr.error", "otel.attr.error": "otel.attr.otel.attr.error", "otel.attr.ok": "otel.attr.ok", "otel.attr.": "otel.attr.",
    "otel.resource.x": "otel.attr.otel.resource.x", "span.kind": "span.kind", "event": "event",
}
# The batch of a span whose event `e` has an attribute `event`.
EVENT_BATCH = NO_SERVICE[:-2] + hexed("""
0f000b0c00000001 0a00010000000000000001 0f00020c00000002
0b0001000000056576656e74 08000200000000 0b00030000000165 00
0b00010000000f6f74656c2e617474722e6576656e74 08000200000000 0b00030000000178 00
00
""") + NO_SERVICE[-2:]


def worked_groups():
    """Each worked text that has to do with OTLP/JSON, and is written or has a fault."""
    written = lambda text: (0, "", text)
    faulted = lambda fault: (4, f"unit 1: fault {fault}\n", b"")
    to_itself = lambda text, *parts: (small_json(text), JSON, JSON, written(written_json(*parts)))
    of_value = lambda held, out: (valued(held), JSON, JSON, written(written_json(f'"attributes":[{{"key":"k","value":{out}}}],')))
    ends_before = ',"startTimeUnixNano":"2001","endTimeUnixNano":"2000"'
    an_event = ',"events":[{"timeUnixNano":"1000","name":"e","attributes":[{"key":"event","value":{"stringValue":"x"}}]}]'
    event_text = ',"events":[{"timeUnixNano":"1000","name":"\\"a\\":{\\"b\\":\\"c\\"}"}]'
    child_of = '"attributes":[{"key":"opentracing.ref_type","value":{"stringValue":"child_of"}}]'
    link = f',"links":[{{"traceId":"{1:032x}","spanId":"{1:016x}",{child_of}}}]'
    annotation = '"annotations":[{"timestamp":1,"value":"\\"e\\":{\\"event\\":\\"x\\"}"}],'
    one_key = ',"attributes":[{"key":"%s","value":{"boolValue":true}}]'
    error = (one_key % "error")[1:] + ',"kind":1,'
    twice = ',"attributes":[{"key":"k","value":{"intValue":"1"}},{"key":"k","value":{"intValue":2}}],"links":[{"traceId":"","spanId":""}]'
    to_zipkin = lambda more, *parts: (small_json(more), JSON, ZIPKIN, written(small_zipkin(*parts) + b"]"))
    stopped = lambda more, target, fault: (small_json(more), JSON, target, faulted(fault))
    deepest = nested_value(otlp.DEEPEST, "{}")
    return [
        (b"", OTLP, JSON, written(NO_GROUPS)), (b"", JAEGER, JSON, written(NO_GROUPS)), (b"[]", ZIPKIN, JSON, written(NO_GROUPS)),
        (NO_GROUPS, JSON, OTLP, written(b"")), (b"{}", JSON, ZIPKIN, written(b"[]")), (b'{"resourceSpans":null,"x":1}', JSON, JSON, written(NO_GROUPS)),
        (b'{"resource_spans":[7]}', JSON, JSON, written(NO_GROUPS)), (b'{"resourceSpans":[{},{}]}', JSON, OTLP, written(b"\x0a\0" * 2)),
        (REQUEST, OTLP, JSON, written(REQUEST_JSON)), (REQUEST_JSON, JSON, OTLP, written(REQUEST)), (REQUEST_JSON, JSON, JSON, written(REQUEST_JSON)),
        (REQUEST_JSON, JSON, JAEGER, written(BATCH)), (REQUEST_JSON, JSON, COMPACT, written(BATCH_COMPACT)), (REQUEST_JSON, JSON, ZIPKIN, written(SPAN_ZIPKIN)),
        (REFERENCES, COMPACT, JSON, written(REFERENCES_JSON)), (REFERENCES_JSON, JSON, COMPACT, written(ONE_REFERENCE)),
        (SMALL_BATCH + DOUBLE_BATCH, JAEGER, JSON, (4, "unit 2: fault 25 DoubleInText\n", SMALL_SERVICE_JSON[:-2])),
        to_zipkin(',"startTimeUnixNano":"1999","endTimeUnixNano":"2000"', '"duration":1,', "", ',"timestamp":1'),
        to_zipkin(',"startTimeUnixNano":"5000","endTimeUnixNano":"5000"', "", "", ',"timestamp":5'),
        (small_zipkin("", "", ',"timestamp":5') + b"]", ZIPKIN, JSON, written(groups_of(FIVE_JSON))),
        stopped(ends_before, JAEGER, "20 EndBeforeStart"), stopped(ends_before, ZIPKIN, "20 EndBeforeStart"),
        to_itself(ends_before, '"endTimeUnixNano":"2000",', "", ',"startTimeUnixNano":"2001"'),
        (small_json(one_key % "error"), JSON, COMPACT, written(KEY_COMPACT)), (KEY_COMPACT, COMPACT, JSON, written(written_json(error))),
        *(to_zipkin(one_key % key, "", "", ',"tags":{"%s":"true"}' % tag) for key, tag in ZIPKIN_TAGS.items()),
        (small_json(an_event), JSON, JAEGER, written(EVENT_BATCH)), to_zipkin(an_event, annotation), stopped(event_text, ZIPKIN, "23 EventText"),
        stopped(one_key % "zipkin.debug", ZIPKIN, '22 OwnKey "zipkin.debug"'), stopped(link, JAEGER, "24 ChildOfLink"), to_zipkin(link),
        to_itself(twice, '"attributes":[{"key":"k","value":{"intValue":"2"}}],'),
        to_itself(',"parentSpanId":"","kind":0,"status":{"code":0},"flags":"-0","startTimeUnixNano":"000","events":[],"links":[{}],"attributes":null'),
        to_itself(',"parentSpanId":"0000000000000000","status":{"code":2,"message":""}', "", "", ',"status":{"code":2}'),
        to_itself(',"flags":"00000000004294967295"', '"flags":4294967295,'), to_itself(',"events":[{}]', '"events":[{}],'),
        to_itself(',"startTimeUnixNano":18446744073709551615', "", "", ',"startTimeUnixNano":"18446744073709551615"'),
        of_value('{"arrayValue":{}}', '{"arrayValue":{}}'), of_value('{"kvlistValue":{"values":[]}}', '{"kvlistValue":{}}'),
        of_value('{"arrayValue":{"values":[{},{"stringValue":""}]}}', '{"arrayValue":{"values":[{},{"stringValue":""}]}}'),
        of_value('{"intValue":-9223372036854775808,"stringValue":null}', '{"intValue":"-9223372036854775808"}'),
        of_value('{"bytesValue":"/+8="}', '{"bytesValue":"/+8="}'), of_value('{"boolValue":false}', '{"boolValue":false}'),
        of_value('{"intValue":"-0"}', '{"intValue":"0"}'), of_value(deepest, deepest), of_value(nested_value(otlp.DEEPEST, '{"values":[]}'), deepest),
        *((valued(held), JSON, JSON, written(written_json('"attributes":[{"key":"k"}],'))) for held in ["{}", "null", '{"x":1}']),
        (REQUEST_JSON.replace(b"0af7651916cd43dd8448eb211c80319c", b"0AF7651916cd43DD8448EB211C80319C"), JSON, JSON, written(REQUEST_JSON)),
    ]


# What the small batch means, and the span of a time without a duration.
SMALL_SERVICE_JSON = unwrapped("""
{"resourceSpans":[{"resource":{"attributes":[{"key":"service.name","value":{"stringValue":"s"}}]},
"scopeSpans":[{"spans":[{"kind":1,"name":"a","spanId":"0000000000000002","traceId":"00000000000000000000000000000001"}]}]}]}
""")
FIVE_JSON = f'{{"endTimeUnixNano":"5000","kind":1,"name":"a","spanId":"{2:016x}","startTimeUnixNano":"5000","traceId":"{1:032x}"}}'


def worked_refusals():
    """Documents of OTLP/JSON that are refused."""
    refused = lambda text, cause, unit=1: (text, JSON, ZIPKIN, (3, f"unit {unit}: cause {cause}\n", b""))
    member = lambda held, cause: refused(small_json("," + held), cause)
    value = lambda held, cause: refused(valued(held), cause)
    ids = lambda trace, span: refused(groups_of(f'{{"traceId":"{trace}","spanId":"{span}"}}'), "12 BadId")
    behind = lambda held: refused(small_json()[:-2] + b"," + held + b"]}", "11 BadShape", 2)
    return [
        refused(b"", "10 BadJson", 0), refused(b"[]", "11 BadShape", 0), refused(b'{"resourceSpans":{}}', "11 BadShape", 0), behind(b"null"),
        refused(b'{"resourceSpans":[1]}', "11 BadShape"), refused(groups_of('{"spanId":"g","name":1}'), "12 BadId"), ids("0" * 32, "1" * 16),
        ids("1" * 32, "0" * 16), ids("AAAAAAAAAAAAAAAAAAAAAQ==", "AAAAAAAAAAI="), ids("1" * 31, "1" * 16), ids("1" * 32, "1" * 17), ids("1" * 32, ""),
        member('"kind":6', "13 BadEnum"), member('"kind":-1', "13 BadEnum"), member('"kind":"SPAN_KIND_SERVER"', "11 BadShape"), member('"kind":"1"', "11 BadShape"),
        member('"kind":1.0', "11 BadShape"), member('"status":{"code":3}', "13 BadEnum"), member('"flags":4294967296', "11 BadShape"),
        member('"flags":-1', "11 BadShape"), member('"flags":"+1"', "11 BadShape"), member('"startTimeUnixNano":"18446744073709551616"', "11 BadShape"),
        member('"startTimeUnixNano":18446744073709551616', "11 BadShape"), member('"startTimeUnixNano":1.0', "11 BadShape"),
        member('"endTimeUnixNano":-0', "11 BadShape"), member('"endTimeUnixNano":""', "11 BadShape"), member('"endTimeUnixNano":"1.0"', "11 BadShape"),
        member('"parentSpanId":"1"', "12 BadId"), member('"links":[{"traceId":"0","spanId":""}]', "12 BadId"), member('"links":[{"flags":true}]', "11 BadShape"),
        member('"attributes":[{"key":"d","value":{"doubleValue":1.5}}]', "15 DoubleInJson"), member('"attributes":{}', "11 BadShape"),
        value('{"doubleValue":"NaN"}', "15 DoubleInJson"), value('{"doubleValue":1,"intValue":1}', "11 BadShape"), value('{"doubleValue":0}', "15 DoubleInJson"),
        value('{"intValue":9223372036854775808}', "11 BadShape"), value('{"intValue":"-9223372036854775809"}', "11 BadShape"), value('"x"', "11 BadShape"),
        value('{"bytesValue":"/+9="}', "11 BadShape"), value('{"bytesValue":"_-8="}', "11 BadShape"), value('{"bytesValue":"/+8"}', "11 BadShape"),
        value('{"boolValue":"true"}', "11 BadShape"), value('{"arrayValue":[]}', "11 BadShape"), value('{"arrayValue":{"values":{}}}', "11 BadShape"),
        value(nested_value(otlp.DEEPEST + 1, "{}"), "5 TooDeep"), value(nested_value(otlp.DEEPEST, '{"values":[7]}'), "5 TooDeep"),
        value(nested_value(otlp.DEEPEST, '{"values":7}'), "11 BadShape"),
        value(nested_value(34, "{}"), "5 TooDeep"), refused(valued(nested_value(35, "{}")), "10 BadJson", 0),
    ]


# ---- against the stock protobuf library


def check_requests():
    """The texts of random requests are those that the stock library writes of its normal form."""
    file = schema()
    request, later = request_class(file), request_class(newer(file))
    wrong = 0
    for seed in range(SEEDS):
        maker = Maker(later, seed, plain=seed % 4 == 0)
        made = maker.make()
        if seed % 2:
            maker.add_later(made)
        text = made.SerializeToString()
        if forms.verdict(text, OTLP, OTLP)[:3] != (0, "", normal(request, text)):
            print(f"WRONG: random request {seed}")
            wrong += 1
    return wrong


# ---- fronts


def judged(text, limit, form):
    """The cause of a text's first struct, or the place where it ends."""
    try:
        found = jaeger.next_unit(text, 0, limit, form)
        return "empty" if found is None else f"ends at {found[2]}"
    except otlp.Refused as why:
        return why.args[0]


def check_fronts():
    """A front is open, and Truncated, until one of them decides; from there on each longer one has the same answer."""
    wrong = 0
    for seed, form in itertools.product(range(SEEDS), PROTOCOLS):
        text = BatchSpoiler(seed, form).spoil(Batches(seed).structs())[:600]
        limit = random.Random(seed).choice([40, 200, 599, 10_000])
        answers = [judged(text[:end], limit, form) for end in range(1, len(text) + 1)]
        decided = [answer for answer in answers if answer != 1]
        if answers != [1] * (len(answers) - len(decided)) + decided or len(set(decided)) > 1:
            print(f"WRONG: fronts of batch {seed}, {form}: {answers}")
            wrong += 1
    return wrong


# ---- Zipkin's JSON


def may_refuse(text):
    """Whether Python's `json` may read what has no reading: numbers too large for a float, halves of surrogate pairs, deep values."""
    return re.search(rb"[eE]\+?[0-9]{3}|[0-9]{309}|\\u[dD][89a-fA-F]", text) or text.count(b"[") + text.count(b"{") > json_text.DEEPEST


def stock_number(text):
    """An integer, as a float where it doesn't fit 64 bits or is -0."""
    return int(text) if text != "-0" and -(2**63) <= int(text) < 2**64 else float(text)


def stock_value(text):
    """What Python's `json` reads."""
    refuse = lambda text: json_text.Reader(text).must(False)
    try:
        return json.loads(text.decode(), parse_constant=refuse, parse_int=stock_number)
    except (ValueError, RecursionError, json_text.NoReading):
        return "no reading"


def check_json():
    """JSON is read as Python's `json` reads it, but for what that reads beyond."""
    wrong = 0
    for seed in range(SEEDS * 10):
        text = DocumentSpoiler(seed).spoil()
        try:
            own = json_text.read(text)
        except json_text.NoReading:
            own = "no reading"
        if repr(own) != repr(stock_value(text)) and not (own == "no reading" and may_refuse(text)):
            print(f"WRONG: JSON of document {seed}")
            wrong += 1
    return wrong


def check_spellings():
    """Spans are read of each of their spellings; what they mean is its own normal form, without a fault, and is read back."""
    wrong = 0
    for seed in range(SEEDS * 10):
        documents = Documents(seed)
        state = documents.random.getstate()
        spans = documents.spans()
        documents.random.setstate(state)
        groups = zipkin.groups_of_spans(spans)
        text = forms.write(groups, ZIPKIN)
        is_normal = zipkin.normal(groups) == groups and not any(map(zipkin.faults, groups))
        is_read = zipkin.read_spans(documents.document()) == spans and list(forms.groups(text, ZIPKIN)) == groups
        if not is_normal or not is_read or zipkin.read_spans(b"[" + b",".join(map(zipkin.write_span, spans)) + b"]") != spans:
            print(f"WRONG: Zipkin spans {seed}")
            wrong += 1
    return wrong


def check_normal():
    """What is written in Zipkin of a trace without a fault is read back as its normal form, has no fault, is the stock library's
    JSON of the spans, and converts to itself, also by way of the other forms where they can hold it."""
    wrong = 0
    for seed in range(SEEDS * 4):
        text = ZipkinTraces(seed, 0).whole()
        status, note, written, _ = forms.verdict(text, OTLP, ZIPKIN)
        groups = list(forms.groups(text, OTLP))
        normal = zipkin.normal(groups)
        spans = [zipkin.span_json(span) for group in groups for span in zipkin.spans_of_group(group)]
        is_right = (status, note) == (0, "") and list(forms.groups(written, ZIPKIN)) == normal == zipkin.normal(normal)
        is_right = is_right and json.loads(written) == spans and forms.verdict(written, ZIPKIN, ZIPKIN)[:3] == (0, "", written)
        is_right = is_right and forms.verdict(forms.verdict(written, ZIPKIN, OTLP)[2], OTLP, ZIPKIN)[2] == written
        if not is_right or forms.write(normal, ZIPKIN) != written:
            print(f"WRONG: normal form {seed}: {note}")
            wrong += 1
    return wrong


def check_limit():
    """An input of more bytes than its limit is refused, whatever it is."""
    wrong = 0
    for read, text in [(zipkin.read_spans, b"[ ]"), (otlp_json.read_groups, b"{ }")]:
        try:
            wrong += read(text, 3) != []
            read(text, 2)
            wrong += 1
        except json_text.Refusal as why:
            wrong += why.args != (0, 17)
    return wrong


# ---- OTLP/JSON


def check_groups():
    """Groups are read of each of their spellings. What is written is read back, converts to itself, and is the stock library's
    JSON, with members by name and hex for identifiers, of the request that is written of them."""
    wrong, request = 0, request_class(schema())
    for seed in range(SEEDS * 4):
        documents = GroupDocuments(seed)
        state = documents.random.getstate()
        groups = documents.groups()
        documents.random.setstate(state)
        is_read = otlp_json.read_groups(documents.document()) == groups
        groups = JsonTraces(seed, 0).groups()
        text, binary = forms.write(groups, JSON), forms.write(groups, OTLP)
        is_back = otlp_json.read_groups(text) == groups and not any(map(otlp_json.faults, groups))
        stock = stock_json.text(request.FromString(binary))
        if not is_read or not is_back or stock != text or stock_json.parsed(request, text).SerializeToString(deterministic=True) != binary:
            print(f"WRONG: groups {seed}")
            wrong += 1
    return wrong


def check_refused():
    """What is said of a group of a spoilt document is the same where it stands alone, in front of a good group and behind one."""
    wrong, good = 0, small_json()[len(NO_GROUPS) - 2 : -2]
    for seed in range(SEEDS * 4):
        try:
            held = json_text.read(GroupSpoiler(seed).spoil())
        except json_text.NoReading:
            continue
        groups = held.get("resourceSpans") if isinstance(held, dict) else []
        for element in groups if isinstance(groups, list) else []:
            text = json.dumps(element).encode()
            alone, behind, before = (forms.verdict(b'{"resourceSpans":[%b]}' % b",".join(all), JSON, OTLP)[:2] for all in [[text], [good, text], [text, good]])
            if alone != before or behind != (alone[0], alone[1].replace("unit 1", "unit 2")):
                print(f"WRONG: a group of spoilt document {seed}")
                wrong += 1
    return wrong


# ---- there and back


def check_back():
    """What is written of a trace without a fault is read back, has no fault, and is written again as it is, also by way
    of the other protocol."""
    wrong = 0
    for seed, form in itertools.product(range(SEEDS * 4), PROTOCOLS):
        text = Traces(seed, 0).whole()
        status, note, batches, _ = forms.verdict(text, OTLP, form)
        back = forms.verdict(batches, form, OTLP)
        again = forms.verdict(back[2], OTLP, form)
        by_way = [forms.verdict(forms.verdict(batches, form, other)[2], other, form)[2] for other in PROTOCOLS]
        if {(status, note), back[:2], again[:2]} != {(0, "")} or {again[2], *by_way} != {batches}:
            print(f"WRONG: there and back {seed}, {form}: {note}{back[1]}{again[1]}")
            wrong += 1
    return wrong


def main():
    wrong = 0
    for check in [check_worked, check_requests, check_fronts, check_back, check_json, check_spellings, check_normal, check_limit, check_groups, check_refused]:
        found = check()
        print(f"{check.__name__}: {found} wrong")
        wrong += found
    sys.exit(1 if wrong else 0)


if __name__ == "__main__":
    main()
