"""Zipkin v2 JSON: what offends in a document, what its spans mean as a trace, and their text.

The tables are those of the Zipkin API and of the OpenTelemetry exporter page for Zipkin, as docs/ZIPKIN.md has them. The
reader lists every offence of a document, each a path and the number of a cause, and every fault of a group; what is answered
is the least of them. A path is a list of element numbers and of member numbers in the order of the tables.
"""
import dataclasses
import itertools
import re

import jaeger
import json_text
import otlp
from escapes import escaped, unescaped
from jaeger import CODES_BY_TEXT, DROPPED_KEYS, LAST_MICROS, has_double, take_count, take_scope, value_json, value_text
from json_text import LIMIT, given, is_whole
from otlp import DEEPEST, by_key

FAULTS = [20, 22, 23, 25]
KINDS = {"SERVER": 2, "CLIENT": 3, "PRODUCER": 4, "CONSUMER": 5}
KINDS_BY_NUMBER = {number: text for text, number in KINDS.items()}
RESOURCE = "otel.resource."
RESERVED = [key for key in jaeger.RESERVED if key not in ["span.kind", "otel.status_description"]]

# Of each object its members in the order in which offences are looked for: the name, whether it is required, and what it is.
TABLE = {
    "span": [
        ("traceId", True, ("id", 32)), ("id", True, ("id", 16)), ("parentId", False, ("id or zero", 16)), ("name", False, "text"),
        ("kind", False, "kind"), ("timestamp", False, "time"), ("duration", False, "time"), ("debug", False, "truth"),
        ("shared", False, "truth"), ("localEndpoint", False, ("one", "endpoint")), ("remoteEndpoint", False, ("one", "endpoint")),
        ("annotations", False, ("list", "annotation")), ("tags", False, "tags"),
    ],
    "endpoint": [("serviceName", False, "text"), ("ipv4", False, "text"), ("ipv6", False, "text"), ("port", False, "port")],
    "annotation": [("timestamp", True, "time"), ("value", True, "text")],
}
TIMESTAMP, DURATION = 5, 6


def is_reserved(key):
    """Whether a span's tag of this key says something of the span or of its resource."""
    return key in RESERVED or key.startswith(RESOURCE)


# ---- offences


def id_causes(held, digits, zero):
    """The causes of an identifier of at most so many digits, which may be zero or not."""
    if not isinstance(held, str):
        return [11]
    is_right = re.fullmatch(f"[0-9a-fA-F]{{1,{digits}}}", held) and (zero or int(held, 16))
    return [] if is_right else [12]


def time_causes(held):
    if not is_whole(held):
        return [11]
    return [] if 0 <= held <= LAST_MICROS else [16]


def tags_causes(held):
    is_right = isinstance(held, dict) and all(value is None or isinstance(value, str) for value in held.values())
    return [] if is_right else [11]


def member_offences(what, held, path):
    """The offences of a member that is there."""
    if what[0] == "one":
        return object_offences(held, what[1], path)
    if what[0] == "list":
        if not isinstance(held, list):
            return [(path, 11)]
        return [offence for i, element in enumerate(held) for offence in object_offences(element, what[1], (*path, i))]
    if what[0] in ["id", "id or zero"]:
        causes = id_causes(held, what[1], what[0] == "id or zero")
    elif what == "kind" and isinstance(held, str):
        causes = [] if held in KINDS else [13]
    elif what == "time":
        causes = time_causes(held)
    elif what == "tags":
        causes = tags_causes(held)
    elif what == "port":
        causes = [] if is_whole(held) and 0 <= held <= 65535 else [11]
    else:
        causes = [] if isinstance(held, bool if what == "truth" else str) else [11]
    return [(path, cause) for cause in causes]


def object_offences(held, name, path):
    """The offences of what must be an object of this name, each a path and a number."""
    if not isinstance(held, dict):
        return [(path, 11)]
    found = []
    for number, (member, required, what) in enumerate(TABLE[name]):
        here = (*path, number)
        if held.get(member) is not None:
            found += member_offences(what, held[member], here)
        elif required:
            found.append((here, 8))
    if name == "span":
        times = [held.get(member) or 0 for member in ["timestamp", "duration"]]
        if not any(time_causes(time) for time in times) and sum(times) > LAST_MICROS:
            found.append(((*path, DURATION), 16))
    return found


def offences(document):
    """The offences of a document; the path of one of the whole is empty."""
    if not isinstance(document, list):
        return [((), 11)]
    return [offence for i, element in enumerate(document) for offence in object_offences(element, "span", (i,))]


# ---- spans


@dataclasses.dataclass
class Endpoint:
    service: str = ""
    ipv4: str = ""
    ipv6: str = ""
    port: int = 0


@dataclasses.dataclass
class Span:
    """Identifiers are numbers; times are microseconds. What is absent is 0, empty or False. Annotations are pairs of a time
    and a value; tags are a dictionary."""

    trace: int
    id: int
    parent: int = 0
    name: str = ""
    kind: str = ""
    start: int = 0
    duration: int = 0
    debug: bool = False
    shared: bool = False
    local: Endpoint = dataclasses.field(default_factory=Endpoint)
    remote: Endpoint = dataclasses.field(default_factory=Endpoint)
    annotations: list = dataclasses.field(default_factory=list)
    tags: dict = dataclasses.field(default_factory=dict)


def read_endpoint(held):
    return Endpoint(given(held, "serviceName", ""), given(held, "ipv4", ""), given(held, "ipv6", ""), given(held, "port", 0))


def read_span(held):
    """The span of an object without an offence."""
    annotations = [(annotation["timestamp"], annotation["value"]) for annotation in given(held, "annotations", [])]
    tags = {key: value for key, value in given(held, "tags", {}).items() if value is not None}
    return Span(
        int(held["traceId"], 16), int(held["id"], 16), int(given(held, "parentId", "0"), 16), given(held, "name", ""),
        given(held, "kind", ""), given(held, "timestamp", 0), given(held, "duration", 0), given(held, "debug", False),
        given(held, "shared", False), read_endpoint(given(held, "localEndpoint", {})), read_endpoint(given(held, "remoteEndpoint", {})),
        annotations, tags,
    )


def read_spans(text, limit=LIMIT):
    """The spans of a document, or its refusal."""
    document = json_text.document(text, limit)
    json_text.refuse(offences(document))
    return [read_span(held) for held in document]


def without_defaults(members):
    return {name: held for name, held in members.items() if held}


def endpoint_json(endpoint):
    return without_defaults({"ipv4": endpoint.ipv4, "ipv6": endpoint.ipv6, "port": endpoint.port, "serviceName": endpoint.service})


def span_json(span):
    """A span as JSON's values of Python, its members in the order of their bytes."""
    return without_defaults({
        "annotations": [{"timestamp": time, "value": value} for time, value in span.annotations], "debug": span.debug,
        "duration": span.duration, "id": f"{span.id:016x}", "kind": span.kind, "localEndpoint": endpoint_json(span.local),
        "name": span.name, "parentId": f"{span.parent:016x}" if span.parent else "", "remoteEndpoint": endpoint_json(span.remote),
        "shared": span.shared, "tags": dict(by_key(span.tags)), "timestamp": span.start, "traceId": f"{span.trace:032x}",
    })


def write_span(span):
    """The canonical text of a span."""
    return json_text.compact(span_json(span)).encode()


def write_spans(spans):
    return b"[" + b",".join(write_span(span) for span in spans) + b"]"


# ---- event texts


class NoEventText(Exception):
    pass


def value_of(held, levels=DEEPEST):
    """The value that JSON's value of Python is, in which lists and maps may be so deep."""
    if levels == 0:
        raise NoEventText
    if held is None:
        return "nothing", None
    if isinstance(held, bool):
        return "truth", held
    if isinstance(held, str):
        return "text", held
    if isinstance(held, list):
        return "list", [value_of(element, levels - 1) for element in held]
    if isinstance(held, dict):
        return "map", {key: value_of(element, levels - 1) for key, element in held.items()}
    if isinstance(held, int) and -(2**63) <= held < 2**63:
        return "number", held
    raise NoEventText


def read_event_text(text):
    """The name and the attributes of an event text, or None."""
    try:
        members = json_text.read(f"{{{text}}}".encode())
        if len(members) != 1:
            return None
        [(name, held)] = members.items()
        return (name, {key: value_of(value) for key, value in held.items()}) if isinstance(held, dict) and held else None
    except (json_text.NoReading, NoEventText):
        return None


def event_text(name, attributes):
    if not attributes:
        return name
    return f"{json_text.compact(name)}:{json_text.compact(value_json(('map', attributes)))}"


# ---- from spans to groups

FLAGS = {"zipkin.debug": "debug", "zipkin.shared": "shared"}
# Of each own key of an endpoint's member the endpoint and the member.
MEMBERS = {f"zipkin.{endpoint}.{member}": (endpoint, member) for endpoint in ["local", "remote"] for member in ["ipv4", "ipv6", "port"]}


def own_texts(span):
    """What a span says in members and a trace in own attributes."""
    out = {key: "true" for key, flag in FLAGS.items() if getattr(span, flag)}
    for key, (endpoint, member) in MEMBERS.items():
        held = getattr(getattr(span, endpoint), member)
        if held:
            out[key] = str(held)
    return out


def texts(pairs):
    return {key: ("text", text) for key, text in pairs.items()}


def resource_of(span):
    tags = {key[len(RESOURCE) :]: text for key, text in span.tags.items() if key.startswith(RESOURCE)}
    tags.pop("service.name", None)
    return texts(tags | ({"service.name": span.local.service} if span.local.service else {}))


def take_status(tags):
    """The code and the message."""
    code, error = CODES_BY_TEXT.get(tags.pop("otel.status_code", None)), tags.pop("error", None)
    if code is None:
        code = 0 if error is None else 2
    return code, (error or "") if code == 2 else ""


def group_event(time, value):
    name, attributes = read_event_text(value) or (value, {})
    return otlp.Event(time * 1000, name, attributes)


def group_span(span):
    """The resource and the scope of a span, and the span of a trace."""
    tags = {key: text for key, text in span.tags.items() if not key.startswith(RESOURCE) and key not in FLAGS and key not in MEMBERS}
    peer = span.remote.service or tags.get("peer.service")
    tags.pop("peer.service", None)
    code, message = take_status(tags)
    attributes = texts(tags | own_texts(span) | ({"peer.service": peer} if peer else {}))
    scope = take_scope(attributes, "name"), take_scope(attributes, "version")
    dropped = [take_count(attributes, key) for key in DROPPED_KEYS]
    state = attributes.pop("w3c.tracestate", ("text", ""))[1]
    attributes = unescaped(attributes, is_reserved)
    return resource_of(span), scope, otlp.Span(
        trace=span.trace, id=span.id, state=state, parent=span.parent, name=span.name, kind=KINDS.get(span.kind, 1),
        start=span.start * 1000, end=(span.start + span.duration) * 1000, attributes=attributes, dropped_attributes=dropped[0],
        events=[group_event(*annotation) for annotation in span.annotations], dropped_events=dropped[1], dropped_links=dropped[2],
        code=code, message=message,
    )


def runs(triples):
    """The groups of spans with their resources and scopes, in maximal runs."""
    out = []
    for resource, run in itertools.groupby(triples, key=lambda triple: triple[0]):
        scopes = [otlp.Scope(*scope, spans=[triple[2] for triple in same]) for scope, same in itertools.groupby(run, key=lambda triple: triple[1])]
        out.append(otlp.Group(resource, scopes=scopes))
    return out


def groups_of_spans(spans):
    """The groups that spans mean."""
    return runs(group_span(span) for span in spans)


# ---- from a group to spans


def own_tags(span, scope):
    """What a span has beside its attributes and Zipkin says in tags."""
    counts = [span.dropped_attributes, span.dropped_events, span.dropped_links]
    out = {"otel.scope.name": scope.name, "otel.scope.version": scope.version, "w3c.tracestate": span.state}
    out |= {key: str(count) for key, count in zip(DROPPED_KEYS, counts) if count}
    out = without_defaults(out | {"otel.status_code": ["", "OK", "ERROR"][span.code]})
    return out | ({"error": span.message} if span.code == 2 else {})


def endpoint(service, attributes, side):
    """An endpoint of this service, whose other members are taken out of attributes."""
    held = {member: attributes.pop(key, "") for key, (of, member) in MEMBERS.items() if of == side}
    return Endpoint(service, held["ipv4"], held["ipv6"], int(held["port"] or 0))


def zipkin_span(span, scope, resource):
    tags = {key: value_text(value) for key, value in span.attributes.items()}
    resource = {key: value_text(value) for key, value in resource.items()}
    local = endpoint(resource.pop("service.name", ""), tags, "local")
    remote = endpoint(tags.pop("peer.service", ""), tags, "remote")
    debug, shared = (tags.pop(key, None) is not None for key in FLAGS)
    tags = escaped(tags, is_reserved) | {RESOURCE + key: text for key, text in resource.items()} | own_tags(span, scope)
    start = span.start // 1000
    return Span(
        span.trace, span.id, span.parent, span.name, KINDS_BY_NUMBER.get(span.kind, ""), start, span.end // 1000 - start, debug, shared,
        local, remote, [(event.time // 1000, event_text(event.name, event.attributes)) for event in span.events], tags,
    )


def spans_of_group(group):
    """The spans that are written of a group without a fault."""
    return [zipkin_span(span, scope, group.resource) for scope in group.scopes for span in scope.spans]


# ---- faults


def is_own(key, value):
    """Whether an attribute under an own key has the form of that key."""
    kind, held = value
    if kind != "text":
        return False
    if key in FLAGS:
        return held == "true"
    if MEMBERS[key][1] == "port":
        return bool(re.fullmatch("[1-9][0-9]{0,4}", held)) and int(held) <= 65535
    return held != ""


def has_any_double(attributes):
    return any(has_double(value) for value in attributes.values())


def span_faults(span):
    """The faults of a span and what stands in it, each a number and a key."""
    found = [(20, "")] if span.end < span.start else []
    found += [(22, key) for key in [*FLAGS, *MEMBERS] if key in span.attributes and not is_own(key, span.attributes[key])]
    found += [(23, "") for event in span.events if not event.attributes and read_event_text(event.name) is not None]
    return found + [(25, "") for attributes in [span.attributes, *(event.attributes for event in span.events)] if has_any_double(attributes)]


def faults(group):
    """The faults of a group, each a place, a number and a key; the resource has place 0, its spans are counted from 1."""
    found = [(0, 25, "")] if has_any_double(group.resource) else []
    spans = [span for scope in group.scopes for span in scope.spans]
    return found + [(place, *fault) for place, span in enumerate(spans, 1) for fault in span_faults(span)]


# ---- the normal form


def texted(value):
    """A value, its bytes as texts."""
    kind, held = value
    if kind == "list":
        return kind, [texted(element) for element in held]
    if kind == "map":
        return kind, {key: texted(element) for key, element in held.items()}
    return ("text", value_text(value)) if kind == "bytes" else value


def value_texts(attributes, unless_empty):
    """Attributes with the texts of their values, and one that goes where it is empty."""
    out = {key: value_text(value) for key, value in attributes.items()}
    return texts({key: text for key, text in out.items() if text or key != unless_empty})


def normal_event(event):
    return otlp.Event(event.time - event.time % 1000, event.name, {key: texted(value) for key, value in event.attributes.items()})


def normal_span(span):
    return dataclasses.replace(
        span, kind=span.kind or 1, start=span.start - span.start % 1000, end=span.end - span.end % 1000,
        attributes=value_texts(span.attributes, "peer.service"), events=[normal_event(event) for event in span.events], links=[],
        message=span.message if span.code == 2 else "", flags=0,
    )


def normal_resource(resource):
    return value_texts(resource, "service.name")


def normal(groups):
    """The normal form of groups without a fault: what Zipkin can hold of them."""
    return runs(
        (normal_resource(group.resource), (scope.name, scope.version), normal_span(span))
        for group in groups for scope in group.scopes for span in scope.spans
    )
