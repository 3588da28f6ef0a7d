"""OTLP/JSON: what offends in a document, what it means as groups, and their text.

The tables are those of opentelemetry-proto by rising field numbers; as OTLP has it, identifiers are hex and enums are numbers.
The reader lists every offence of a document, each a path and the number of a cause; what is answered is the least of them. A
path is a list of element numbers and of member numbers in the order of the tables.
"""
import base64
import re

import json_text
import otlp
from jaeger import has_double
from json_text import LIMIT, given, is_whole
from otlp import DEEPEST, by_key

# Of each message its members in the order in which offences are looked for: the name, and what it is.
ATTRIBUTES = ("attributes", ("list", "KeyValue"))
DROPPED = ("droppedAttributesCount", "count")
TABLE = {
    "ResourceSpans": [("resource", ("one", "Resource")), ("scopeSpans", ("list", "ScopeSpans")), ("schemaUrl", "text")],
    "Resource": [ATTRIBUTES, DROPPED],
    "ScopeSpans": [("scope", ("one", "InstrumentationScope")), ("spans", ("list", "Span")), ("schemaUrl", "text")],
    "InstrumentationScope": [("name", "text"), ("version", "text"), ATTRIBUTES, DROPPED],
    "Span": [
        ("traceId", ("id", 32)), ("spanId", ("id", 16)), ("traceState", "text"), ("parentSpanId", ("id or none", 16)), ("name", "text"),
        ("kind", ("enum", 5)), ("startTimeUnixNano", "time"), ("endTimeUnixNano", "time"), ATTRIBUTES, DROPPED,
        ("events", ("list", "Event")), ("droppedEventsCount", "count"), ("links", ("list", "Link")), ("droppedLinksCount", "count"),
        ("status", ("one", "Status")), ("flags", "count"),
    ],
    "Event": [("timeUnixNano", "time"), ("name", "text"), ATTRIBUTES, DROPPED],
    "Link": [
        ("traceId", ("id or none", 32)), ("spanId", ("id or none", 16)), ("traceState", "text"), ATTRIBUTES, DROPPED, ("flags", "count"),
    ],
    "Status": [("message", "text"), ("code", ("enum", 2))],
    "KeyValue": [("key", "text"), ("value", ("one", "AnyValue"))],
    "AnyValue": [
        ("stringValue", "text"), ("boolValue", "truth"), ("intValue", "signed"), ("doubleValue", "double"),
        ("arrayValue", ("one", "ArrayValue")), ("kvlistValue", ("one", "KeyValueList")), ("bytesValue", "bytes"),
    ],
    "ArrayValue": [("values", ("list", "AnyValue"))],
    "KeyValueList": [("values", ("list", "KeyValue"))],
}
RANGES = {"count": range(2**32), "time": range(2**64), "signed": range(-(2**63), 2**63)}
NESTS = ["ArrayValue", "KeyValueList"]


# ---- offences


def whole(held):
    """The whole number that a JSON value is or spells, or None. Of a spelling with very many digits the front is enough."""
    if is_whole(held):
        return held
    if not isinstance(held, str) or not re.fullmatch("-?[0-9]+", held):
        return None
    n = int(held.lstrip("-").lstrip("0")[:40] or "0")
    return -n if held.startswith("-") else n


def bytes_of(held):
    """The bytes whose base64 a JSON value is, or None."""
    try:
        out = base64.b64decode(held, validate=True)
    except (TypeError, ValueError):
        return None
    return out if isinstance(held, str) and base64.b64encode(out).decode() == held else None


def id_causes(held, digits, may_be_none):
    if not isinstance(held, str):
        return [11]
    is_none = held in ["", "0" * digits]
    is_right = may_be_none if is_none else re.fullmatch(f"[0-9a-fA-F]{{{digits}}}", held)
    return [] if is_right else [12]


def enum_causes(held, last):
    if not is_whole(held):
        return [11]
    return [] if 0 <= held <= last else [13]


def leaf_causes(what, held):
    """The causes of a member that holds no object and no array."""
    if what in RANGES:
        n = whole(held)
        return [] if n is not None and n in RANGES[what] else [11]
    if what[0] in ["id", "id or none"]:
        return id_causes(held, what[1], what[0] == "id or none")
    if what[0] == "enum":
        return enum_causes(held, what[1])
    if what == "double":
        return [15]
    is_right = bytes_of(held) is not None if what == "bytes" else isinstance(held, bool if what == "truth" else str)
    return [] if is_right else [11]


def member_offences(what, held, path, level, nests):
    """The offences of a member that is there. So many lists and maps are open, the message of this member perhaps the last."""
    if what[0] == "one":
        return object_offences(held, what[1], path, level)
    if what[0] != "list":
        return [(path, cause) for cause in leaf_causes(what, held)]
    if not isinstance(held, list):
        return [(path, 11)]
    if nests and level == DEEPEST and held:
        return [(path, 5)]
    return [offence for i, element in enumerate(held) for offence in object_offences(element, what[1], (*path, i), level)]


def object_offences(held, name, path, level=0):
    """The offences of what must be an object of this name, each a path and a number."""
    if not isinstance(held, dict):
        return [(path, 11)]
    level += name in NESTS
    there = [member for member, _ in TABLE[name] if held.get(member) is not None]
    if name == "AnyValue" and len(there) > 1:
        return [(path, 11)]
    found = []
    for number, (member, what) in enumerate(TABLE[name]):
        here = (*path, number)
        if member in there:
            found += member_offences(what, held[member], here, level, name in NESTS)
        elif what[0] == "id":
            found.append((here, 12))
    return found


def offences(document):
    """The offences of a document; the path of one of the whole is empty."""
    if not isinstance(document, dict):
        return [((), 11)]
    return member_offences(("list", "ResourceSpans"), given(document, "resourceSpans", []), (), 0, False)


# ---- what a document without an offence means


def read_text(held, member):
    return given(held, member, "")


def read_number(held, member):
    return whole(given(held, member, 0))


def read_id(held, member):
    return int(given(held, member, "") or "0", 16)


def read_list(held, member, read):
    return [read(element) for element in given(held, member, [])]


def read_attributes(held, member="attributes"):
    return dict(read_list(held, member, lambda pair: (read_text(pair, "key"), read_value(given(pair, "value", {})))))


def read_value(held):
    for member, kind in [("stringValue", "text"), ("boolValue", "truth")]:
        if held.get(member) is not None:
            return kind, held[member]
    if held.get("intValue") is not None:
        return "number", whole(held["intValue"])
    if held.get("bytesValue") is not None:
        return "bytes", bytes_of(held["bytesValue"])
    if held.get("arrayValue") is not None:
        return "list", read_list(held["arrayValue"], "values", read_value)
    if held.get("kvlistValue") is not None:
        return "map", read_attributes(held["kvlistValue"], "values")
    return "nothing", None


def read_event(held):
    return otlp.Event(read_number(held, "timeUnixNano"), read_text(held, "name"), read_attributes(held), read_number(held, DROPPED[0]))


def read_link(held):
    return otlp.Link(
        read_id(held, "traceId"), read_id(held, "spanId"), read_text(held, "traceState"), read_attributes(held), read_number(held, DROPPED[0]),
        read_number(held, "flags"),
    )


def read_span(held):
    status = given(held, "status", {})
    return otlp.Span(
        trace=read_id(held, "traceId"), id=read_id(held, "spanId"), state=read_text(held, "traceState"), parent=read_id(held, "parentSpanId"),
        name=read_text(held, "name"), kind=given(held, "kind", 0), start=read_number(held, "startTimeUnixNano"),
        end=read_number(held, "endTimeUnixNano"), attributes=read_attributes(held), dropped_attributes=read_number(held, DROPPED[0]),
        events=read_list(held, "events", read_event), dropped_events=read_number(held, "droppedEventsCount"),
        links=[link for link in read_list(held, "links", read_link) if link.trace and link.id],
        dropped_links=read_number(held, "droppedLinksCount"), code=given(status, "code", 0), message=read_text(status, "message"),
        flags=read_number(held, "flags"),
    )


def read_scope(held):
    scope = given(held, "scope", {})
    return otlp.Scope(
        read_text(scope, "name"), read_text(scope, "version"), read_attributes(scope), read_number(scope, DROPPED[0]),
        read_text(held, "schemaUrl"), read_list(held, "spans", read_span),
    )


def read_group(held):
    resource = given(held, "resource", {})
    scopes = read_list(held, "scopeSpans", read_scope)
    return otlp.Group(read_attributes(resource), read_number(resource, DROPPED[0]), read_text(held, "schemaUrl"), scopes)


def read_groups(text, limit=LIMIT):
    """The groups of a document, or its refusal."""
    document = json_text.document(text, limit)
    json_text.refuse(offences(document))
    return read_list(document, "resourceSpans", read_group)


# ---- the canonical text


def rising(**members):
    """An object of members by rising name, without those that hold their default."""
    return {name: members[name] for name in sorted(members) if members[name]}


def decimal(n):
    """A number of 64 bits, which is a text."""
    return str(n) if n else ""


def pairs_json(attributes):
    return [rising(key=key, value=value_json(value)) for key, value in by_key(attributes)]


def value_json(value):
    """A value as JSON's values of Python."""
    kind, held = value
    if kind == "list":
        return {"arrayValue": rising(values=[value_json(element) for element in held])}
    if kind == "map":
        return {"kvlistValue": rising(values=pairs_json(held))}
    if kind == "bytes":
        return {"bytesValue": base64.b64encode(held).decode()}
    if kind == "number":
        return {"intValue": str(held)}
    return {} if kind == "nothing" else {{"text": "stringValue", "truth": "boolValue"}[kind]: held}


def event_json(event):
    pairs = pairs_json(event.attributes)
    return rising(timeUnixNano=decimal(event.time), name=event.name, attributes=pairs, droppedAttributesCount=event.dropped)


def link_json(link):
    return rising(
        traceId=f"{link.trace:032x}", spanId=f"{link.id:016x}", traceState=link.state, attributes=pairs_json(link.attributes),
        droppedAttributesCount=link.dropped, flags=link.flags,
    )


def span_json(span):
    return rising(
        traceId=f"{span.trace:032x}", spanId=f"{span.id:016x}", traceState=span.state, parentSpanId=f"{span.parent:016x}" if span.parent else "",
        name=span.name, kind=span.kind, startTimeUnixNano=decimal(span.start), endTimeUnixNano=decimal(span.end),
        attributes=pairs_json(span.attributes), droppedAttributesCount=span.dropped_attributes, events=list(map(event_json, span.events)),
        droppedEventsCount=span.dropped_events, links=list(map(link_json, span.links)), droppedLinksCount=span.dropped_links,
        status=rising(message=span.message, code=span.code), flags=span.flags,
    )


def scope_json(scope):
    pairs = pairs_json(scope.attributes)
    instrumentation = rising(name=scope.name, version=scope.version, attributes=pairs, droppedAttributesCount=scope.dropped)
    return rising(scope=instrumentation, spans=list(map(span_json, scope.spans)), schemaUrl=scope.schema_url)


def group_json(group):
    """A group as JSON's values of Python, the members of its objects in the order of their bytes."""
    resource = rising(attributes=pairs_json(group.resource), droppedAttributesCount=group.dropped)
    return rising(resource=resource, scopeSpans=list(map(scope_json, group.scopes)), schemaUrl=group.schema_url)


def write_group(group):
    """The canonical text of a group."""
    return json_text.compact(group_json(group)).encode()


# ---- faults


def all_attributes(group):
    """The attributes of each part of a group."""
    yield group.resource
    for scope in group.scopes:
        yield scope.attributes
        for span in scope.spans:
            yield from [span.attributes, *(part.attributes for part in [*span.events, *span.links])]


def faults(group):
    """The faults of a group, each a place, a number and a key."""
    return [(0, 25, "") for attributes in all_attributes(group) if any(map(has_double, attributes.values()))]
