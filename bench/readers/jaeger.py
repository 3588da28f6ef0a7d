"""Jaeger batches in both protocols of Thrift: what offends in their bytes, what they mean as a trace, and their text.

The tables are those of jaeger.thrift and of the OpenTelemetry exporter page for Jaeger. The reader lists every offence
of a unit, each a place and the number of a cause, and every fault of a group; what is answered is the least of them.
"""
import base64
import dataclasses
import itertools
import json
import re

import otlp
from escapes import escaped, unescaped
from otlp import UNIT, by_key, is_text
from protocols import BINARY, DOUBLE, I32, I64, LIST, PROTOCOLS, STRUCT, TRUTH, Struct

FORMS = ["otlp-proto", *PROTOCOLS]
PAIRS = list(itertools.product(FORMS, FORMS))
FAULTS = [20, 22, 24, 25]
LAST_MICROS = (2**64 - 1) // 1000

# Of each struct its known fields: the id with the type and what the field is.
TAGS = (LIST, ("list", "Tag"))
ROWS = {
    "Batch": {1: (STRUCT, ("one", "Process")), 2: (LIST, ("list", "Span")), 3: (I64, "number"), 4: (STRUCT, "free")},
    "Process": {1: (BINARY, "text"), 2: TAGS},
    "Span": {
        1: (I64, "number"), 2: (I64, "number"), 3: (I64, "number"), 4: (I64, "number"), 5: (BINARY, "text"),
        6: (LIST, ("list", "SpanRef")), 7: (I32, "number"), 8: (I64, "time"), 9: (I64, "time"), 10: TAGS, 11: (LIST, ("list", "Log")),
    },
    "SpanRef": {1: (I32, ("enum", 1)), 2: (I64, "number"), 3: (I64, "number"), 4: (I64, "number")},
    "Log": {1: (I64, "time"), 2: TAGS},
    "Tag": {
        1: (BINARY, "text"), 2: (I32, ("enum", 4)), 3: (BINARY, "text"), 4: (DOUBLE, "double"), 5: (TRUTH, "truth"),
        6: (I64, "number"), 7: (BINARY, "bytes"),
    },
}
REQUIRED = {
    "Batch": {1, 2}, "Process": {1}, "Span": {1, 2, 3, 4, 5, 7, 8, 9}, "SpanRef": {1, 2, 3, 4}, "Log": {1, 2}, "Tag": {1, 2},
}
# By vType: the kind of value, the field that holds it, and the value where that is absent.
TAG_VALUES = [("text", 3, b""), ("double", 4, bytes(8)), ("truth", 5, False), ("number", 6, 0), ("bytes", 7, b"")]


# ---- structs


def known(held, name):
    """What the known fields of a struct hold, by id."""
    return {id: value for id, kind, value in held.fields if ROWS[name].get(id, [None])[0] == kind}


def next_unit(text, at, limit=UNIT, form="jaeger-binary"):
    """The place of the next unit, the unit as a struct, and the place behind it; None at the end."""
    if at == len(text):
        return None
    reader = PROTOCOLS[form].reader(text, at, limit)
    unit = reader.struct(1)
    return at, unit, reader.at


# ---- offences


def inner_offences(what, held, place):
    """The offences of what a known field holds."""
    if what == "text" and not is_text(held):
        return [(place, 9)]
    if what == "time" and not 0 <= held <= LAST_MICROS:
        return [(place, 16)]
    if what[0] == "enum" and not 0 <= held <= what[1]:
        return [(place, 13)]
    if what[0] == "one":
        return offences(held, what[1])
    if what[0] == "list" and held[1] and held[0] != STRUCT:
        return [(place, 14)]
    return [offence for member in held[1] for offence in offences(member, what[1])] if what[0] == "list" else []


def offences(unit, name="Batch"):
    """The offences of a struct, each a place and a number."""
    found, seen = [], set()
    for place, (id, kind, held) in zip(unit.places, unit.fields):
        row = ROWS[name].get(id)
        if row is None or row[0] != kind:
            continue
        if id in seen:
            found.append((place, 7))
        seen.add(id)
        found += inner_offences(row[1], held, place)
    if REQUIRED[name] - seen:
        found.append((unit.end, 8))
    if name == "Span":
        held = known(unit, name)
        if not (held.get(1) or held.get(2)) or not held.get(3):
            found.append((unit.end, 12))
        if held.get(8, 0) + held.get(9, 0) > LAST_MICROS:
            found.append((unit.end, 16))
    return found


# ---- batches


@dataclasses.dataclass
class Reference:
    child_of: bool
    trace: int
    id: int


@dataclasses.dataclass
class Log:
    """Its fields are pairs of a key and a value, as tags are."""

    time: int
    fields: list


@dataclasses.dataclass
class Span:
    """Identifiers are numbers without a sign; times are microseconds."""

    trace: int
    id: int
    parent: int
    name: str
    references: list
    flags: int
    start: int
    duration: int
    tags: list
    logs: list


@dataclasses.dataclass
class Batch:
    service: str
    tags: list
    spans: list


def unsigned(n):
    return n % 2**64


def signed(n, bits=64):
    return n - 2**bits if n >= 2 ** (bits - 1) else n


def read_list(held, id):
    return held[id][1] if id in held else []


def read_tags(held, id):
    tags = []
    for tag in read_list(held, id):
        fields = known(tag, "Tag")
        kind, field, absent = TAG_VALUES[fields[2]]
        value = fields.get(field, absent)
        tags.append((fields[1].decode(), (kind, value.decode() if kind == "text" else value)))
    return tags


def read_reference(reference):
    held = known(reference, "SpanRef")
    return Reference(held[1] == 0, unsigned(held[3]) * 2**64 + unsigned(held[2]), unsigned(held[4]))


def read_log(log):
    held = known(log, "Log")
    return Log(held[1], read_tags(held, 2))


def read_span(span):
    held = known(span, "Span")
    references = [read_reference(reference) for reference in read_list(held, 6)]
    return Span(
        unsigned(held[2]) * 2**64 + unsigned(held[1]), unsigned(held[3]), unsigned(held[4]), held[5].decode(),
        [reference for reference in references if reference.trace and reference.id],
        held[7], held[8], held[9], read_tags(held, 10), [read_log(log) for log in read_list(held, 11)],
    )


def read_batch(unit):
    """The batch that a unit without an offence means."""
    held = known(unit, "Batch")
    process = known(held[1], "Process")
    return Batch(process[1].decode(), read_tags(process, 2), [read_span(span) for span in held[2][1]])


def list_of(id, structs):
    return id, LIST, (STRUCT, structs)


def list_unless_empty(id, structs):
    return [list_of(id, structs)] if structs else []


def tag_structs(tags):
    out = []
    for key, (kind, held) in tags:
        number = [row[0] for row in TAG_VALUES].index(kind)
        field = TAG_VALUES[number][1]
        value = held.encode() if kind == "text" else held
        out.append(Struct([(1, BINARY, key.encode()), (2, I32, number), (field, ROWS["Tag"][field][0], value)]))
    return out


def reference_struct(reference):
    low, high = signed(reference.trace % 2**64), signed(reference.trace >> 64)
    return Struct([(1, I32, int(not reference.child_of)), (2, I64, low), (3, I64, high), (4, I64, signed(reference.id))])


def log_struct(log):
    return Struct([(1, I64, log.time), list_of(2, tag_structs(log.fields))])


def span_struct(span):
    ids = [signed(n) for n in [span.trace % 2**64, span.trace >> 64, span.id, span.parent]]
    fields = [(id, I64, n) for id, n in enumerate(ids, 1)] + [(5, BINARY, span.name.encode())]
    fields += list_unless_empty(6, [reference_struct(reference) for reference in span.references])
    fields += [(7, I32, span.flags), (8, I64, span.start), (9, I64, span.duration)]
    fields += list_unless_empty(10, tag_structs(span.tags))
    return Struct(fields + list_unless_empty(11, [log_struct(log) for log in span.logs]))


def batch_struct(batch):
    process = Struct([(1, BINARY, batch.service.encode())] + list_unless_empty(2, tag_structs(batch.tags)))
    return Struct([(1, STRUCT, process), list_of(2, [span_struct(span) for span in batch.spans])])


def write_batch(batch, form="jaeger-binary"):
    """The canonical text of a batch."""
    return PROTOCOLS[form].struct(batch_struct(batch))


# ---- from a batch to a group

KINDS_BY_TEXT = {"internal": 1, "server": 2, "client": 3, "producer": 4, "consumer": 5}
CODES_BY_TEXT = {"OK": 1, "ERROR": 2}
DROPPED_KEYS = ["otel.dropped_attributes_count", "otel.dropped_events_count", "otel.dropped_links_count"]
CHILD_OF = {"opentracing.ref_type": ("text", "child_of")}
# The keys of a span's tags, and of a log's fields, that say something of the span or the log.
RESERVED = [
    "span.kind", "error", "otel.status_code", "otel.status_description", "otel.scope.name", "otel.scope.version",
    "otel.library.name", "otel.library.version", *DROPPED_KEYS, "w3c.tracestate",
]
EVENT = "event"


def is_reserved(key):
    return key in RESERVED


def is_event_key(key):
    return key == EVENT


def take_text(attributes, key):
    """Takes a key out of attributes: its text, or None where it has none."""
    kind, held = attributes.pop(key, (None, None))
    return held if kind == "text" else None


def number_of(text):
    """The number below 2^32 that a text is the decimal of, or None."""
    number = int(text) if re.fullmatch("0|[1-9][0-9]{0,9}", text) else 2**32
    return number if number < 2**32 else None


def take_count(attributes, key):
    """The same of a dropped count, 0 where it has none."""
    kind, held = attributes.pop(key, (None, None))
    if kind == "text":
        return number_of(held) or 0
    return held if kind == "number" and 0 <= held < 2**32 else 0


def take_status(attributes):
    """The code and the message."""
    code = CODES_BY_TEXT.get(take_text(attributes, "otel.status_code"))
    error = attributes.pop("error", None)
    if code is None:
        code = 2 if error in [("truth", True), ("text", "true")] else 0
    message = take_text(attributes, "otel.status_description")
    return code, message if code and message else ""


def take_scope(attributes, part):
    newer, older = take_text(attributes, f"otel.scope.{part}"), take_text(attributes, f"otel.library.{part}")
    return newer if newer is not None else older if older is not None else ""


def group_event(log):
    attributes = dict(log.fields)
    name = take_text(attributes, EVENT)
    return otlp.Event(log.time * 1000, name or "", unescaped(attributes, is_event_key))


def parent_and_links(span):
    """The parent of a span, 0 where there is none, and the links that its references are."""
    own = [reference.id for reference in span.references if reference.child_of and reference.trace == span.trace]
    parent = span.parent or (own[0] if own else 0)
    links = []
    for reference in span.references:
        if not (reference.child_of and reference.trace == span.trace and reference.id == parent):
            links.append(otlp.Link(reference.trace, reference.id, attributes=dict(CHILD_OF) if reference.child_of else {}))
    return parent, links


def group_span(span):
    """A span of a trace, with the name and the version of its scope."""
    attributes = dict(span.tags)
    kind = KINDS_BY_TEXT.get(take_text(attributes, "span.kind"), 1)
    code, message = take_status(attributes)
    scope = take_scope(attributes, "name"), take_scope(attributes, "version")
    dropped = [take_count(attributes, key) for key in DROPPED_KEYS]
    state = take_text(attributes, "w3c.tracestate") or ""
    attributes.pop("jaeger.flags", None)
    attributes = unescaped(attributes, is_reserved)
    others = span.flags % 2**32 - span.flags % 2
    if others:
        attributes["jaeger.flags"] = ("text", str(others))
    parent, links = parent_and_links(span)
    return scope, otlp.Span(
        trace=span.trace, id=span.id, state=state, parent=parent, name=span.name, kind=kind, start=span.start * 1000,
        end=(span.start + span.duration) * 1000, attributes=attributes, dropped_attributes=dropped[0],
        events=[group_event(log) for log in span.logs], dropped_events=dropped[1], links=links, dropped_links=dropped[2],
        code=code, message=message, flags=span.flags % 2,
    )


def group_of_batch(batch):
    """The group that a batch means."""
    resource = dict(batch.tags)
    resource.pop("service.name", None)
    if batch.service:
        resource["service.name"] = ("text", batch.service)
    runs = itertools.groupby((group_span(span) for span in batch.spans), key=lambda pair: pair[0])
    return otlp.Group(resource, scopes=[otlp.Scope(*scope, spans=[span for _, span in run]) for scope, run in runs])


# ---- from a group to a batch

TEXTS_BY_KIND = {number: text for text, number in KINDS_BY_TEXT.items() if text != "internal"}


def value_json(value):
    """A value as JSON's values of Python, its maps in the order of their keys' bytes."""
    kind, held = value
    if kind == "bytes":
        return base64.b64encode(held).decode()
    if kind == "list":
        return [value_json(element) for element in held]
    if kind == "map":
        return {key: value_json(element) for key, element in by_key(held)}
    return held


def value_text(value):
    kind, held = value
    if kind in ["list", "map"]:
        return json.dumps(value_json(value), ensure_ascii=False, separators=(",", ":"))
    if kind == "truth":
        return "true" if held else "false"
    if kind == "nothing":
        return ""
    return str(held) if kind == "number" else value_json(value)


def tags_of(attributes):
    """The tags of attributes, in the order of their keys."""
    return [(key, ("text", value_text(value)) if value[0] in ["list", "map", "nothing"] else value) for key, value in by_key(attributes)]


def own_tags(span, scope):
    """What a span has beside its attributes and a batch says in tags."""
    texts = {
        "span.kind": TEXTS_BY_KIND.get(span.kind, ""), "otel.status_code": ["", "OK", "ERROR"][span.code],
        "otel.status_description": span.message if span.code else "", "otel.scope.name": scope.name,
        "otel.scope.version": scope.version, "w3c.tracestate": span.state,
    }
    out = {key: ("text", text) for key, text in texts.items() if text}
    counts = [span.dropped_attributes, span.dropped_events, span.dropped_links]
    out |= {key: ("number", count) for key, count in zip(DROPPED_KEYS, counts) if count}
    return out | ({"error": ("truth", True)} if span.code == 2 else {})


def batch_span(span, scope):
    attributes = dict(span.attributes)
    others = int(attributes.pop("jaeger.flags", ("text", "0"))[1])
    start = span.start // 1000
    logs = []
    for event in span.events:
        name = {EVENT: ("text", event.name)} if event.name else {}
        logs.append(Log(event.time // 1000, tags_of(escaped(event.attributes, is_event_key) | name)))
    return Span(
        span.trace, span.id, span.parent, span.name, [Reference(is_child_of(link), link.trace, link.id) for link in span.links],
        signed(span.flags % 2 + others, 32), start, span.end // 1000 - start, tags_of(escaped(attributes, is_reserved) | own_tags(span, scope)), logs,
    )


def is_child_of(link):
    return link.attributes.get("opentracing.ref_type") == CHILD_OF["opentracing.ref_type"]


def batch_of_group(group):
    """The batch that is written of a group without a fault."""
    resource = dict(group.resource)
    service = value_text(resource.pop("service.name", ("text", "")))
    return Batch(service, tags_of(resource), [batch_span(span, scope) for scope in group.scopes for span in scope.spans])


# ---- faults


def has_double(value):
    kind, held = value
    if kind in ["list", "map"]:
        return any(has_double(element) for element in (held if kind == "list" else held.values()))
    return kind == "double"


def has_double_inside(attributes):
    return any(value[0] in ["list", "map"] and has_double(value) for value in attributes.values())


def is_own_flags(value):
    number = number_of(value[1]) if value[0] == "text" else None
    return bool(number) and number % 2 == 0


def names_parent(span, link):
    """Whether a link is one that would be read as the span's parent."""
    return is_child_of(link) and link.trace == span.trace and span.parent in [0, link.id]


def span_faults(span):
    """The faults of a span and what stands in it, each a number and a key."""
    found = [(20, "")] if span.end < span.start else []
    if "jaeger.flags" in span.attributes and not is_own_flags(span.attributes["jaeger.flags"]):
        found.append((22, "jaeger.flags"))
    found += [(24, "") for link in span.links if names_parent(span, link)]
    found += [(25, "") for attributes in [span.attributes, *(event.attributes for event in span.events)] if has_double_inside(attributes)]
    return found


def faults(group):
    """The faults of a group, each a place, a number and a key; the resource has place 0, its spans are counted from 1."""
    found = []
    if has_double_inside(group.resource) or has_double(group.resource.get("service.name", ("nothing", None))):
        found.append((0, 25, ""))
    spans = [span for scope in group.scopes for span in scope.spans]
    return found + [(place, *fault) for place, span in enumerate(spans, 1) for fault in span_faults(span)]


# ---- the normal form


def texted(attributes):
    """Attributes, in which lists, maps and no value are texts."""
    return dict(tags_of(attributes))


def normal_resource(resource):
    """A resource whose `service.name` is a text, or goes where that is empty."""
    out = texted(resource)
    service = value_text(out.pop("service.name", ("text", "")))
    return out | ({"service.name": ("text", service)} if service else {})


def normal_event(event):
    return otlp.Event(event.time - event.time % 1000, event.name, texted(event.attributes))


def normal_span(span):
    links = [otlp.Link(link.trace, link.id, attributes=dict(CHILD_OF) if is_child_of(link) else {}) for link in span.links]
    return dataclasses.replace(
        span, kind=span.kind or 1, start=span.start - span.start % 1000, end=span.end - span.end % 1000, attributes=texted(span.attributes),
        events=[normal_event(event) for event in span.events], links=links, message=span.message if span.code else "", flags=span.flags % 2,
    )


def normal(groups):
    """The normal form of groups without a fault: what Jaeger can hold of them."""
    out = []
    for group in groups:
        named = [((scope.name, scope.version), normal_span(span)) for scope in group.scopes for span in scope.spans]
        runs = itertools.groupby(named, key=lambda pair: pair[0])
        out.append(otlp.Group(normal_resource(group.resource), scopes=[otlp.Scope(*names, spans=[span for _, span in run]) for names, run in runs]))
    return out
