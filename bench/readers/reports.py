"""What `show` and `check` must print of an input, by the readers beside this.

A remark says that reading left something out. It is said here once more, from what the standards and the pages say of each form:

- OTLP has attributes with unique keys (common.proto: "Attribute keys MUST be unique"). Where a key stands more than once in one
  list or map, the last value is kept. It is remarked at the resource, scope, span, event or link around it, once for each key,
  however deep the map lies that has it, and also where a later value of the same attribute is the one that is kept.
- A link without a trace or a span (trace.proto: an identifier of zeros is invalid) is left out, and remarked once at its span.
  Nothing else is remarked of it, and the links that stay are counted without it.
- Jaeger's tags are a list in which a key may stand twice: the last one counts. A tag or a log field that the table of docs/JAEGER.md
  reserves, and that doesn't have the form in which it says something, is left out; so is one that another tag or a field of the
  batch outdoes. A reference without a trace or a span is as a link without one.
- Zipkin's tags are the members of an object, of which JSON gives the last of a name: no key stands twice. What docs/ZIPKIN.md
  reserves is left out as in Jaeger, but where the member that outdoes it says the same.

Fields and members that a table doesn't know are never remarked. All remarks of a unit are gathered as a set here, and then sorted:
by place, at one place by kind, and then by the bytes of the key.
"""
import itertools
import json

import forms
import jaeger
import json_text
import otlp
import otlp_json
import zipkin
from forms import JSON, OTLP, ZIPKIN
from jaeger import CODES_BY_TEXT, DROPPED_KEYS, KINDS_BY_TEXT, number_of
from json_text import Refusal, given
from otlp import NAMES, Fields
from protocols import PROTOCOLS

SHOW, CHECK = "show", "check"
MODES = [SHOW, CHECK]
EQUAL_KEY, LINK_DROPPED, TAG_DROPPED = 0, 1, 2
KINDS = {EQUAL_KEY: "equal key", LINK_DROPPED: "link dropped", TAG_DROPPED: "tag dropped"}

# Places sort as they stand in a trace: the unit as a whole, the resource, then each scope, its spans, and in a span its events and then
# its links. Spans are counted through their group.
WHOLE = ()
RESOURCE = (0,)


def scope_at(scope):
    return (scope, 0)


def span_at(scope, span):
    return (scope, span)


def event_at(scope, span, event):
    return (scope, span, 0, event)


def link_at(scope, span, link):
    return (scope, span, 1, link)


def place_words(number, place):
    """A place in the unit of this number."""
    unit = f"unit {number}"
    if place == WHOLE:
        return unit
    if place == RESOURCE:
        return f"{unit} resource"
    scope, span, *inner = place
    if span == 0:
        return f"{unit} scope {scope}"
    return f"{unit} span {span}" + (f" {['event', 'link'][inner[0]]} {inner[1]}" if inner else "")


# ---- OTLP: each form says how its messages lie, and what is remarked of them is said once


class Proto:
    """Messages of a request in protobuf, as bytes."""

    @staticmethod
    def pairs(name, text, number):
        return [Fields("KeyValue", pair) for pair in Fields(name, text).all(number)]

    @staticmethod
    def key(pair):
        return pair.text(1)

    @staticmethod
    def inside(pair):
        return Proto.value(pair.bytes(2))

    @staticmethod
    def value(text):
        """The lists of pairs that are in a value: those of a map, and those of values in it."""
        value = Fields("AnyValue", text)
        elements = [element for held in value.all(5) for element in Fields("ArrayValue", held).all(1)]
        maps = [[Fields("KeyValue", pair) for pair in Fields("KeyValueList", held).all(1)] for held in value.all(6)]
        return maps + [pairs for element in elements for pairs in Proto.value(element)]

    @staticmethod
    def resource(group):
        return Proto.pairs("Resource", Fields("ResourceSpans", group).bytes(1), 1)

    @staticmethod
    def scopes(group):
        for scope in Fields("ResourceSpans", group).all(2):
            held = Fields("ScopeSpans", scope)
            yield Proto.pairs("InstrumentationScope", held.bytes(1), 3), held.all(2)

    @staticmethod
    def span(text):
        """The attributes of a span, of each of its events, and of each of its links, which are None where it points nowhere."""
        span, links = Fields("Span", text), []
        for held in span.all(13):
            link = Fields("Link", held)
            links.append(Proto.pairs("Link", held, 4) if link.id(1) and link.id(2) else None)
        return Proto.pairs("Span", text, 9), [Proto.pairs("Event", held, 3) for held in span.all(11)], links


class Document:
    """Messages of a request in JSON, as Python's values."""

    @staticmethod
    def pairs(held, member="attributes"):
        return given(held, member, [])

    @staticmethod
    def key(pair):
        return given(pair, "key", "")

    @staticmethod
    def inside(pair):
        return Document.value(given(pair, "value", {}))

    @staticmethod
    def value(held):
        elements = given(given(held, "arrayValue", {}), "values", [])
        maps = [Document.pairs(held["kvlistValue"], "values")] if held.get("kvlistValue") is not None else []
        return maps + [pairs for element in elements for pairs in Document.value(element)]

    @staticmethod
    def resource(group):
        return Document.pairs(given(group, "resource", {}))

    @staticmethod
    def scopes(group):
        for held in given(group, "scopeSpans", []):
            yield Document.pairs(given(held, "scope", {})), given(held, "spans", [])

    @staticmethod
    def span(held):
        is_kept = lambda link: all(given(link, name, "").strip("0") for name in ["traceId", "spanId"])
        links = [Document.pairs(link) if is_kept(link) else None for link in given(held, "links", [])]
        return Document.pairs(held), [Document.pairs(event) for event in given(held, "events", [])], links


def twice(keys):
    """The keys that stand more than once."""
    keys = sorted(keys)
    return {key for key, next_key in zip(keys, keys[1:]) if key == next_key}


def equal_keys(messages, pairs):
    """The keys that stand more than once in one list of pairs: in these, or in a map that one of their values is or has in it."""
    found = twice(messages.key(pair) for pair in pairs)
    for pair in pairs:
        for inner in messages.inside(pair):
            found |= equal_keys(messages, inner)
    return found


def group_remarks(messages, group):
    """What is remarked of a group of OTLP."""
    found = set()

    def note(place, pairs):
        found.update((place, EQUAL_KEY, key) for key in equal_keys(messages, pairs))

    note(RESOURCE, messages.resource(group))
    number = itertools.count(1)
    for c, (pairs, spans) in enumerate(messages.scopes(group), 1):
        note(scope_at(c), pairs)
        for held, s in zip(spans, number):
            pairs, events, links = messages.span(held)
            note(span_at(c, s), pairs)
            for e, event in enumerate(events, 1):
                note(event_at(c, s, e), event)
            if None in links:
                found.add((span_at(c, s), LINK_DROPPED, ""))
            for n, link in enumerate((link for link in links if link is not None), 1):
                note(link_at(c, s, n), link)
    return found


# ---- Jaeger


def texts_of(tags):
    """The texts among values, by key."""
    return {key: held for key, (kind, held) in tags.items() if kind == "text"}


def is_count(value):
    kind, held = value
    return number_of(held) is not None if kind == "text" else kind == "number" and 0 <= held < 2**32


def idle_tags(tags):
    """The reserved keys of a Jaeger span whose tags say nothing, of tags by key."""
    texts, idle = texts_of(tags), set()

    def must(key, is_right):
        if key in tags and not is_right:
            idle.add(key)

    must("span.kind", texts.get("span.kind") in KINDS_BY_TEXT)
    must("otel.status_code", texts.get("otel.status_code") in CODES_BY_TEXT)
    code = texts.get("otel.status_code") if texts.get("otel.status_code") in CODES_BY_TEXT else None
    error = {("truth", True): True, ("truth", False): False, ("text", "true"): True, ("text", "false"): False}.get(tags.get("error"))
    must("error", error is not None and (code is None or error == (code == "ERROR")))
    must("otel.status_description", "otel.status_description" in texts and (code is not None or error is True))
    for part in ["name", "version"]:
        newer, older = f"otel.scope.{part}", f"otel.library.{part}"
        must(newer, newer in texts)
        must(older, older in texts and texts.get(newer, texts[older]) == texts[older])
    for key in DROPPED_KEYS:
        must(key, key in tags and is_count(tags[key]))
    must("w3c.tracestate", "w3c.tracestate" in texts)
    must("jaeger.flags", False)
    return idle


def points_nowhere(reference):
    held = jaeger.known(reference, "SpanRef")
    return not (held[2] or held[3]) or not held[4]


def batch_remarks(unit):
    """What is remarked of a batch. Nothing is remarked of a scope, so that all spans may count as of one."""
    batch, found = jaeger.read_batch(unit), set()

    def note(place, tags):
        found.update((place, EQUAL_KEY, key) for key in twice(key for key, _ in tags))
        return dict(tags)

    if "service.name" in note(RESOURCE, batch.tags):
        found.add((RESOURCE, TAG_DROPPED, "service.name"))
    for s, (span, made) in enumerate(zip(batch.spans, jaeger.known(unit, "Batch")[2][1]), 1):
        tags = note(span_at(1, s), span.tags)
        found.update((span_at(1, s), TAG_DROPPED, key) for key in idle_tags(tags))
        if any(map(points_nowhere, jaeger.read_list(jaeger.known(made, "Span"), 6))):
            found.add((span_at(1, s), LINK_DROPPED, ""))
        for e, log in enumerate(span.logs, 1):
            fields = note(event_at(1, s, e), log.fields)
            if fields.get("event", ("text", ""))[0] != "text":
                found.add((event_at(1, s, e), TAG_DROPPED, "event"))
    return found


# ---- Zipkin

# Keys under which a trace has what Zipkin's members say; a tag under one is never read.
OWN_KEYS = ["zipkin.debug", "zipkin.shared"] + [f"zipkin.{side}.{part}" for side in ["local", "remote"] for part in ["ipv4", "ipv6", "port"]]


def idle_zipkin_tags(span):
    """The reserved keys of a Zipkin span whose tags say nothing."""
    tags, idle = span.tags, {key for key in [*OWN_KEYS, "otel.resource.service.name"] if key in span.tags}
    code = tags.get("otel.status_code")
    if code not in [None, "OK", "ERROR"]:
        idle.add("otel.status_code")
    if code == "OK" and "error" in tags:
        idle.add("error")
    for part in ["name", "version"]:
        older, newer = (tags.get(f"otel.{family}.{part}") for family in ["library", "scope"])
        if None not in [older, newer] and older != newer:
            idle.add(f"otel.library.{part}")
    idle.update(key for key in DROPPED_KEYS if key in tags and number_of(tags[key]) is None)
    peer = tags.get("peer.service")
    if peer == "" or peer is not None and span.remote.service not in ["", peer]:
        idle.add("peer.service")
    return idle


def spans_remarks(groups, spans):
    """What is remarked of each group of spans, which stand in it in their order."""
    spans = iter(spans)
    for group in groups:
        own = enumerate(itertools.islice(spans, len(spans_of(group))), 1)
        yield {(span_at(1, s), TAG_DROPPED, key) for s, span in own for key in idle_zipkin_tags(span)}


# ---- units


def document_units(text, source):
    """The groups of a document, each with what is remarked of it."""
    if source == JSON:
        groups = otlp_json.read_groups(text)
        made = given(json_text.read(text), "resourceSpans", [])
        return zip(groups, (group_remarks(Document, group) for group in made), strict=True)
    spans = zipkin.read_spans(text)
    groups = zipkin.groups_of_spans(spans)
    return zip(groups, spans_remarks(groups, spans), strict=True)


def binary_units(text, source):
    """The same of units one after the other, until one is refused."""
    remarks = batch_remarks if source in PROTOCOLS else lambda unit: group_remarks(Proto, unit)
    find, offences_of, read = forms.SOURCES[source]
    at = 0
    for number in itertools.count(1):
        try:
            found = find(text, at)
        except otlp.Refused as why:
            raise Refusal(number, why.args[0]) from None
        if found is None:
            return
        _, unit, at = found
        bad = offences_of(unit)
        if bad:
            raise Refusal(number, min(bad)[1])
        yield read(unit), remarks(unit)


def units(text, source):
    return document_units(text, source) if source in [JSON, ZIPKIN] else binary_units(text, source)


# ---- lines


def quoted(text):
    return json.dumps(text, ensure_ascii=False)


def remark_lines(number, remarks):
    out = []
    for place, kind, key in sorted(remarks, key=lambda remark: (remark[0], remark[1], remark[2].encode())):
        said = KINDS[kind] + ("" if kind == LINK_DROPPED else f" {quoted(key)}")
        out.append(f"{place_words(number, place)}: {said}\n")
    return out


def span_line(span):
    parent = f"{span.parent:016x}" if span.parent else "-"
    kind = ["UNSPECIFIED", "INTERNAL", "SERVER", "CLIENT", "PRODUCER", "CONSUMER"][span.kind]
    code = ["UNSET", "OK", "ERROR"][span.code]
    return f"{span.trace:032x} {span.id:016x} {parent} {kind} {span.start} {span.end} {code} {quoted(span.name)}\n"


def spans_of(group):
    return [span for scope in group.scopes for span in scope.spans]


def verdict(text, source, mode):
    """The status, the note and the output that an input must have, and the name of that outcome."""
    lines, counted = [], [0, 0, 0]
    try:
        for number, (group, remarks) in enumerate(units(text, source), 1):
            lines += map(span_line, spans_of(group)) if mode == SHOW else remark_lines(number, remarks)
            counted = [number, counted[1] + len(spans_of(group)), counted[2] + len(remarks)]
    except Refusal as why:
        number, cause = why.args
        return 3, f"unit {number}: cause {cause} {NAMES[cause]}\n", "".join(lines).encode(), NAMES[cause]
    if mode == CHECK:
        lines.append("units {}, spans {}, remarks {}\n".format(*counted))
    return 0, "", "".join(lines).encode(), "written"
