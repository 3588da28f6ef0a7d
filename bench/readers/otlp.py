"""Traces in OTLP's protobuf form: what offends in their bytes, what they mean, and their canonical text.

The reader lists every offence of a unit, each a place and the number of a cause; the cause is the least of them.
"""
import collections
import dataclasses

from wire import bytes_field, fixed32_field, fixed64_field, number_field, records, varint

UNIT = 16_777_216
# How deep a value is at most: that of an attribute stands at level 1, and a list or map at the last level is empty.
DEEPEST = 24
NAMES = {
    1: "Truncated", 2: "BadVarint", 3: "BadWire", 4: "BadSize", 5: "TooDeep", 6: "UnitTooLong", 7: "FieldTwice", 8: "Missing",
    9: "NotText", 10: "BadJson", 11: "BadShape", 12: "BadId", 13: "BadEnum", 14: "BadElement", 15: "DoubleInJson", 16: "BadTime",
    17: "InputTooLong",
}

# Of each message its known fields: the number with the wire type and what the field is.
KEY_VALUES = ("list", "KeyValue")
TABLE = {
    "ResourceSpans": {1: (2, ("one", "Resource")), 2: (2, ("list", "ScopeSpans")), 3: (2, "text")},
    "Resource": {1: (2, KEY_VALUES), 2: (0, "number")},
    "ScopeSpans": {1: (2, ("one", "InstrumentationScope")), 2: (2, ("list", "Span")), 3: (2, "text")},
    "InstrumentationScope": {1: (2, "text"), 2: (2, "text"), 3: (2, KEY_VALUES), 4: (0, "number")},
    "Span": {
        1: (2, ("id", 16)), 2: (2, ("id", 8)), 3: (2, "text"), 4: (2, ("id", 8)), 5: (2, "text"), 6: (0, ("enum", 5)),
        7: (1, "number"), 8: (1, "number"), 9: (2, KEY_VALUES), 10: (0, "number"), 11: (2, ("list", "Event")), 12: (0, "number"),
        13: (2, ("list", "Link")), 14: (0, "number"), 15: (2, ("one", "Status")), 16: (5, "number"),
    },
    "Event": {1: (1, "number"), 2: (2, "text"), 3: (2, KEY_VALUES), 4: (0, "number")},
    "Link": {1: (2, ("id", 16)), 2: (2, ("id", 8)), 3: (2, "text"), 4: (2, KEY_VALUES), 5: (0, "number"), 6: (5, "number")},
    "Status": {2: (2, "text"), 3: (0, ("enum", 2))},
    "KeyValue": {1: (2, "text"), 2: (2, ("one", "AnyValue"))},
    "AnyValue": {
        1: (2, "text"), 2: (0, "number"), 3: (0, "number"), 4: (1, "number"), 5: (2, ("one", "ArrayValue")),
        6: (2, ("one", "KeyValueList")), 7: (2, "bytes"),
    },
    "ArrayValue": {1: (2, ("list", "AnyValue"))},
    "KeyValueList": {1: (2, KEY_VALUES)},
}


# ---- offences


class Refused(Exception):
    """No record or struct begins: the number of the cause."""


def spelled(text, at, end):
    """A number, and the place behind it."""
    n = 0
    for i in range(10):
        if at + i >= end:
            raise Refused(1)
        byte = text[at + i]
        if i == 9 and byte > 1:
            raise Refused(2)
        n += (byte & 127) << 7 * i
        if byte < 128:
            return n, at + i + 1


def record_at(text, at, end, limit=None):
    """The record that begins at a place: number, wire type, held number, places of the held bytes, place behind it."""
    begin = at
    key, at = spelled(text, at, end)
    number, wire = key >> 3, key & 7
    if not 1 <= number <= 536_870_911 or wire in [3, 4, 6, 7]:
        raise Refused(3)
    n, size = 0, {0: 0, 1: 8, 5: 4}.get(wire, 0)
    if wire == 0:
        n, at = spelled(text, at, end)
    if wire == 2:
        size, at = spelled(text, at, end)
        if limit is not None and at - begin + size > limit:
            raise Refused(6)
    if at + size > end:
        raise Refused(1)
    return number, wire, n, at, at + size


def is_text(held):
    try:
        held.decode()
        return True
    except UnicodeDecodeError:
        return False


def offences(text, begin, end, name, level):
    """The offences of a message, each a place and a number; places are counted from 1 through the unit."""
    found, seen, ids = [], set(), {}
    at = begin
    while at < end:
        place = at + 1
        try:
            number, wire, n, inner, at = record_at(text, at, end)
        except Refused as why:
            return found + [(place, why.args[0])]
        row = TABLE[name].get(number)
        if row is None or row[0] != wire:
            continue
        kind, held = row[1], text[inner:at]
        singular = "member" if name == "AnyValue" else number
        if kind[0] != "list":
            if singular in seen:
                found.append((place, 7))
            seen.add(singular)
        if kind == "text" and not is_text(held):
            found.append((place, 9))
        if kind[0] == "id":
            ids[number] = any(held)
            if held and len(held) != kind[1]:
                found.append((place, 12))
        if kind[0] == "enum" and n > kind[1]:
            found.append((place, 13))
        if name in ["ArrayValue", "KeyValueList"] and level == DEEPEST:
            found.append((place, 5))
            continue
        if kind[0] in ["list", "one"]:
            deeper = {"AnyValue": 0, "ArrayValue": 1, "KeyValueList": 1}.get(name, 0)
            found += offences(text, inner, at, kind[1], 1 if kind[1] == "KeyValue" and deeper == 0 else level + deeper)
    if name == "Span" and not (ids.get(1) and ids.get(2)):
        found.append((end, 12))
    return found


def next_unit(text, at):
    """The place and the bytes of the next unit, and the place behind it; None at the end. Frames that are no units are
    passed over."""
    while at < len(text):
        begin = at
        number, wire, n, inner, at = record_at(text, at, len(text), UNIT)
        if (number, wire) == (1, 2):
            return begin, text[inner:at], at
    return None


def unit_offences(unit):
    return offences(unit, 0, len(unit), "ResourceSpans", 0)


# ---- what a trace is


@dataclasses.dataclass
class Event:
    time: int = 0
    name: str = ""
    attributes: dict = dataclasses.field(default_factory=dict)
    dropped: int = 0


@dataclasses.dataclass
class Link:
    trace: int
    id: int
    state: str = ""
    attributes: dict = dataclasses.field(default_factory=dict)
    dropped: int = 0
    flags: int = 0


@dataclasses.dataclass
class Span:
    """Identifiers are numbers; a parent of 0 is none. An attribute's value is a pair: the name of its kind, and what it
    holds (of a double its eight bytes, the most significant first)."""

    trace: int
    id: int
    state: str = ""
    parent: int = 0
    name: str = ""
    kind: int = 0
    start: int = 0
    end: int = 0
    attributes: dict = dataclasses.field(default_factory=dict)
    dropped_attributes: int = 0
    events: list = dataclasses.field(default_factory=list)
    dropped_events: int = 0
    links: list = dataclasses.field(default_factory=list)
    dropped_links: int = 0
    code: int = 0
    message: str = ""
    flags: int = 0


@dataclasses.dataclass
class Scope:
    name: str = ""
    version: str = ""
    attributes: dict = dataclasses.field(default_factory=dict)
    dropped: int = 0
    schema_url: str = ""
    spans: list = dataclasses.field(default_factory=list)


@dataclasses.dataclass
class Group:
    resource: dict = dataclasses.field(default_factory=dict)
    dropped: int = 0
    schema_url: str = ""
    scopes: list = dataclasses.field(default_factory=list)


# ---- what bytes without an offence mean


class Fields:
    """What the known fields of a message hold."""

    def __init__(self, name, text):
        self.held = collections.defaultdict(list)
        for number, wire, held in records(text):
            if TABLE[name].get(number, [None])[0] == wire:
                self.held[number].append(held)

    def all(self, number):
        return self.held[number]

    def bytes(self, number):
        return (self.held[number] or [b""])[0]

    def text(self, number):
        return self.bytes(number).decode()

    def id(self, number):
        return int.from_bytes(self.bytes(number), "big")

    def fixed(self, number):
        return int.from_bytes(self.bytes(number), "little")

    def number(self, number):
        return (self.held[number] or [0])[0]

    def count(self, number):
        return self.number(number) % 2**32

    def attributes(self, number):
        return read_attributes(self.held[number])


def read_attributes(pairs):
    out = {}
    for text in pairs:
        pair = Fields("KeyValue", text)
        out[pair.text(1)] = read_value(pair.bytes(2))
    return out


def read_value(text):
    value = Fields("AnyValue", text)
    for number, held in value.held.items():
        if number == 1 and held:
            return "text", value.text(1)
        if number == 2 and held:
            return "truth", held[0] != 0
        if number == 3 and held:
            return "number", held[0] - 2**64 if held[0] >= 2**63 else held[0]
        if number == 4 and held:
            return "double", held[0][::-1]
        if number == 5 and held:
            return "list", [read_value(element) for element in Fields("ArrayValue", held[0]).all(1)]
        if number == 6 and held:
            return "map", Fields("KeyValueList", held[0]).attributes(1)
        if number == 7 and held:
            return "bytes", held[0]
    return "nothing", None


def read_event(text):
    event = Fields("Event", text)
    return Event(event.fixed(1), event.text(2), event.attributes(3), event.count(4))


def read_link(text):
    link = Fields("Link", text)
    return Link(link.id(1), link.id(2), link.text(3), link.attributes(4), link.count(5), link.fixed(6))


def read_span(text):
    span, links = Fields("Span", text), []
    for held in span.all(13):
        link = read_link(held)
        if link.trace and link.id:
            links.append(link)
    status = Fields("Status", span.bytes(15))
    return Span(
        trace=span.id(1), id=span.id(2), state=span.text(3), parent=span.id(4), name=span.text(5), kind=span.number(6),
        start=span.fixed(7), end=span.fixed(8), attributes=span.attributes(9), dropped_attributes=span.count(10),
        events=[read_event(held) for held in span.all(11)], dropped_events=span.count(12), links=links,
        dropped_links=span.count(14), code=status.number(3), message=status.text(2), flags=span.fixed(16),
    )


def read_scope(text):
    held = Fields("ScopeSpans", text)
    scope = Fields("InstrumentationScope", held.bytes(1))
    spans = [read_span(span) for span in held.all(2)]
    return Scope(scope.text(1), scope.text(2), scope.attributes(3), scope.count(4), held.text(3), spans)


def read_group(unit):
    """The group that a unit without an offence means."""
    held = Fields("ResourceSpans", unit)
    resource = Fields("Resource", held.bytes(1))
    return Group(resource.attributes(1), resource.count(2), held.text(3), [read_scope(scope) for scope in held.all(2)])


# ---- the canonical text


def unless_zero(field, number, n):
    return field(number, n) if n else b""


def unless_empty(number, held):
    return bytes_field(number, held) if held else b""


def by_key(attributes):
    """The pairs in the order of their keys' bytes."""
    return sorted(attributes.items(), key=lambda pair: pair[0].encode())


def write_attributes(number, attributes):
    pairs = [unless_empty(1, key.encode()) + unless_empty(2, write_value(value)) for key, value in by_key(attributes)]
    return b"".join(bytes_field(number, pair) for pair in pairs)


def write_value(value):
    kind, held = value
    if kind == "text":
        return bytes_field(1, held.encode())
    if kind == "truth":
        return number_field(2, int(held))
    if kind == "number":
        return number_field(3, held % 2**64)
    if kind == "double":
        return varint(4 * 8 + 1) + held[::-1]
    if kind == "list":
        return bytes_field(5, b"".join(bytes_field(1, write_value(element)) for element in held))
    if kind == "map":
        return bytes_field(6, write_attributes(1, held))
    if kind == "bytes":
        return bytes_field(7, held)
    return b""


def write_event(event):
    out = unless_zero(fixed64_field, 1, event.time) + unless_empty(2, event.name.encode())
    return out + write_attributes(3, event.attributes) + unless_zero(number_field, 4, event.dropped)


def write_link(link):
    out = bytes_field(1, link.trace.to_bytes(16, "big")) + bytes_field(2, link.id.to_bytes(8, "big"))
    out += unless_empty(3, link.state.encode()) + write_attributes(4, link.attributes)
    return out + unless_zero(number_field, 5, link.dropped) + unless_zero(fixed32_field, 6, link.flags)


def write_span(span):
    out = bytes_field(1, span.trace.to_bytes(16, "big")) + bytes_field(2, span.id.to_bytes(8, "big"))
    out += unless_empty(3, span.state.encode())
    out += bytes_field(4, span.parent.to_bytes(8, "big")) if span.parent else b""
    out += unless_empty(5, span.name.encode()) + unless_zero(number_field, 6, span.kind)
    out += unless_zero(fixed64_field, 7, span.start) + unless_zero(fixed64_field, 8, span.end)
    out += write_attributes(9, span.attributes) + unless_zero(number_field, 10, span.dropped_attributes)
    out += b"".join(bytes_field(11, write_event(event)) for event in span.events) + unless_zero(number_field, 12, span.dropped_events)
    out += b"".join(bytes_field(13, write_link(link)) for link in span.links) + unless_zero(number_field, 14, span.dropped_links)
    out += unless_empty(15, unless_empty(2, span.message.encode()) + unless_zero(number_field, 3, span.code))
    return out + unless_zero(fixed32_field, 16, span.flags)


def write_scope(scope):
    out = unless_empty(1, scope.name.encode()) + unless_empty(2, scope.version.encode())
    out = unless_empty(1, out + write_attributes(3, scope.attributes) + unless_zero(number_field, 4, scope.dropped))
    out += b"".join(bytes_field(2, write_span(span)) for span in scope.spans)
    return out + unless_empty(3, scope.schema_url.encode())


def write_group(group):
    """The record of a group."""
    out = unless_empty(1, write_attributes(1, group.resource) + unless_zero(number_field, 2, group.dropped))
    out += b"".join(bytes_field(2, write_scope(scope)) for scope in group.scopes)
    return bytes_field(1, out + unless_empty(3, group.schema_url.encode()))
