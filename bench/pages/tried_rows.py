"""Tries what the pages say row by row: what is lost on the way from Jaeger and from Zipkin, what a double does in each target, what
datagrams, lengths and other bytes around a text give, and each cause of a request in protobuf.

Each case stands beside the beginning of the row or sentence that it tries, which must stand in the page. `bench/pages/pages.py`
runs it.
"""
import importlib
import json
import os
import re
import subprocess
import sys

sys.path.insert(1, os.path.dirname(os.path.dirname(os.path.realpath(__file__))))
import rooms  # first: it finds the others
import forms
import jaeger
import otlp
from jaeger import I32, I64, STRUCT, Batch, Log, Reference, Span, Struct
from program import TOP, convert
from protocols import PROTOCOLS, varint

EXAMPLES = os.path.join(TOP, "examples")
BINARY, COMPACT = "jaeger-binary", "jaeger-compact"
ONE = "0000000000000001"


def text(key, held):
    return key, ("text", held)


def number(key, held):
    return key, ("number", held)


def truth(key, held):
    return key, ("truth", held)


# ---- from Jaeger


def batch(tags=(), process=(), service="s", logs=(), references=(), parent=0):
    span = Span(1, 2, parent, "a", list(references), 1, 1, 2, list(tags), list(logs))
    return jaeger.write_batch(Batch(service, list(process), [span]), BINARY)


def child_of(trace, id):
    return Reference(True, trace, id)


def padded():
    """The batch with a number, counts and fields that its table doesn't have."""
    held = jaeger.batch_struct(jaeger.read_batch(jaeger.next_unit(batch(), 0, form=BINARY)[1]))
    stats = Struct([(id, I64, 7) for id in [1, 2, 3]])
    return PROTOCOLS[BINARY].struct(Struct(held.fields + [(3, I64, 5), (4, STRUCT, stats), (99, I32, 1)]))


OK, ERROR = text("otel.status_code", "OK"), text("otel.status_code", "ERROR")
NAME, OLD = text("otel.scope.name", "x"), text("otel.library.name", "y")
# Of each row pairs of batches that must give the same in each form, the second without what the row says is left out.
FROM_JAEGER = {
    "| a tag `otel.status_code` that isn't the text `OK` or `ERROR`": [
        *[(batch([tag]), batch()) for tag in [number("otel.status_code", 2), text("otel.status_code", "Ok"), text("otel.status_code", "Unset")]],
        (batch([number("otel.status_code", 1), truth("error", True)]), batch([ERROR])),
    ],
    "| a tag `error` that is another text": [(batch([tag]), batch()) for tag in [text("error", "declined"), text("error", "True"), number("error", 1)]]
    + [(batch([text("error", "true")]), batch([ERROR]))],
    "| a tag `error` beside a code": [(batch([OK, truth("error", True)]), batch([OK])), (batch([ERROR, truth("error", False)]), batch([ERROR]))],
    "| a tag `span.kind` in capitals": [(batch([tag]), batch()) for tag in [text("span.kind", "SERVER"), text("span.kind", "local"), number("span.kind", 2)]]
    + [(batch([text("span.kind", "internal")]), batch())],
    "| a tag `otel.status_description` where no code": [
        (batch([text("otel.status_description", "d")]), batch()),
        (batch([text("otel.status_description", "d"), truth("error", False)]), batch()),
        (batch([number("otel.status_description", 1), ERROR]), batch([ERROR])),
    ],
    "| a tag `otel.library.name` or `otel.library.version` beside": [
        (batch([NAME, OLD]), batch([NAME])),
        (batch([text("otel.scope.version", "1"), text("otel.library.version", "2")]), batch([text("otel.scope.version", "1")])),
        (batch([OLD]), batch([text("otel.scope.name", "y")])),
    ],
    "| a tag `otel.scope.name`, `otel.scope.version`,": [
        (batch([number(key, 1)]), batch())
        for key in ["otel.scope.name", "otel.scope.version", "otel.library.name", "otel.library.version", "w3c.tracestate"]
    ],
    "| a dropped count that isn't a number of 32 bits": [
        (batch([tag(f"otel.dropped_{what}_count", held)]), batch())
        for what in ["attributes", "events", "links"]
        for tag, held in [(number, -1), (number, 2**32), (text, "007"), (text, "x")]
    ],
    "| a tag `jaeger.flags` of a span": [(batch([text("jaeger.flags", "2")]), batch())],
    "| a tag `service.name` of the process": [
        (batch(process=[text("service.name", "other")], service=name), batch(service=name)) for name in ["s", ""]
    ],
    "| a field `event` of a log that is no text": [
        (batch(logs=[Log(5, [number("event", 1), text("k", "v")])]), batch(logs=[Log(5, [text("k", "v")])])),
    ],
    "| a key that stands twice": [
        (batch([text("k", "1"), text("k", "2")]), batch([text("k", "2")])),
        (batch(process=[text("k", "1"), number("k", 2)]), batch(process=[number("k", 2)])),
    ],
    "| a CHILD_OF reference of the same trace": [
        (batch(references=[child_of(1, 7)], parent=7), batch(parent=7)),
        (batch(references=[child_of(1, 7)]), batch(parent=7)),
    ],
    "| a reference with a zero identifier": [
        (batch(references=[reference]), batch()) for reference in [child_of(0, 7), child_of(1, 0), Reference(False, 0, 7), Reference(False, 1, 0)]
    ],
    "| `seqNo`, `stats`, and fields": [(padded(), batch())],
}


# ---- from Zipkin


def spans(tags=None, **members):
    span = {"traceId": ONE, "id": ONE, "name": "a", **members}
    return json.dumps([{**span, "tags": tags} if tags else span]).encode()


PEER = {"remoteEndpoint": {"serviceName": "db"}}
FROM_ZIPKIN = {
    "| a tag `peer.service` beside": [
        (spans({"peer.service": "other"}, **PEER), spans(**PEER)),
        (spans({"peer.service": ""}), spans()),
        (spans({"peer.service": "db"}), spans(**PEER)),
    ],
    "| a tag `otel.status_code` that isn't": [(spans({"otel.status_code": held}), spans()) for held in ["Ok", "UNSET", "2", ""]],
    "| a tag `error` beside": [(spans({"otel.status_code": "OK", "error": "x"}), spans({"otel.status_code": "OK"}))],
    "| a tag `otel.library.name` or": [(spans({"otel.scope.name": "x", "otel.library.name": "y"}), spans({"otel.scope.name": "x"}))],
    "| a dropped count": [(spans({"otel.dropped_links_count": held}), spans()) for held in ["007", "-1", "4294967296", "x"]],
    "| a tag `otel.resource.service.name`": [(spans({"otel.resource.service.name": "s"}), spans())],
    "| a tag under one of the keys": [
        (spans({f"zipkin.{key}": "1"}), spans()) for key in ["debug", "shared"] + [f"{side}.{part}" for side in ["local", "remote"] for part in ["ipv4", "ipv6", "port"]]
    ],
    "| an empty text or a port of 0": [
        (spans(localEndpoint={"serviceName": "", "ipv4": "", "port": 0}, debug=False, shared=False, parentId="0000"), spans()),
        (spans({"k": None}), spans()),
    ],
    "| a member, or a tag, that stands twice": [
        (spans().replace(b'"name": "a"', b'"name": "b", "name": "a"'), spans()),
        (spans({"k": "2"}).replace(b'"k": "2"', b'"k": "1", "k": "2"'), spans({"k": "2"})),
    ],
    "| members that API v2 doesn't have": [(spans(binaryAnnotations=[{"key": "k", "value": "v"}], version=2), spans())],
    "- **Without a code each tag `error` means ERROR**": [
        (spans({"error": held}), spans({"otel.status_code": "ERROR", "error": held})) for held in ["false", "", "boom"]
    ],
}


def shared():
    """A span that client and server share is two of one identifier in each form."""
    both = json.dumps([{"traceId": ONE, "id": ONE, "kind": "CLIENT"}, {"traceId": ONE, "id": ONE, "kind": "SERVER", "shared": True}]).encode()
    for form in forms.FORMS:
        status, written, _ = convert(both, "zipkin-json", form)
        ids = [span.id for group in forms.groups(written, form) for scope in group.scopes for span in scope.spans]
        if status or ids != [1, 1]:
            return f"to {form}: status {status}, identifiers {ids}"
    return None


def same(first, second, source):
    """Why two inputs don't give the same in each form, if so."""
    for form in forms.FORMS:
        one, other = convert(first, source, form), convert(second, source, form)
        if one != other or one[0]:
            return f"to {form}: {one}, and {other}"
    return None


# ---- doubles


HALF = ("double", bytes([0x3F, 0xE0, 0, 0, 0, 0, 0, 0]))


def request(resource=(), attributes=(), event=(), scope=(), link=()):
    """A request with these attributes in their places."""
    links = [otlp.Link(2, 3, attributes=dict(link))] if link else []
    events = [otlp.Event(1, "e", dict(event))] if event else []
    span = otlp.Span(1, 2, name="a", kind=1, start=1000, end=2000, attributes=dict(attributes), events=events, links=links)
    group = otlp.Group(resource=dict(resource), scopes=[otlp.Scope(attributes=dict(scope), spans=[span])])
    return otlp.write_group(group)


KEPT, LOST, FAULT = "kept", "lost", "fault 25"
IN_LISTS = [("k", ("list", [HALF])), ("k", ("map", {"x": HALF}))]
# Of each row its inputs, each with its form.
DOUBLES = {
    "| in a tag, or in a field of a log, of a batch |": [
        (batch([("k", HALF)]), BINARY), (batch(process=[("k", HALF)]), BINARY), (batch(logs=[Log(1, [("k", HALF)])]), BINARY),
    ],
    "| in an attribute of a resource, span or event of a request |": [
        (request(**{place: [("k", HALF)]}), "otlp-proto") for place in ["resource", "attributes", "event"]
    ],
    "| in a list or map of such an attribute, or as `service.name` |": [
        *[(request(**{place: [one]}), "otlp-proto") for place in ["resource", "attributes", "event"] for one in IN_LISTS],
        (request(resource=[("service.name", HALF)]), "otlp-proto"),
    ],
    "| in an attribute of a scope or of a link |": [(request(**{place: [("k", HALF)]}), "otlp-proto") for place in ["scope", "link"]],
}
COLUMNS = [["otlp-proto"], [BINARY, COMPACT], ["otlp-json"], ["zipkin-json"]]


def outcome(held, source, target):
    status, written, note = convert(held, source, target)
    if status == 4:
        return note.removeprefix("unit 1: ").removesuffix(" DoubleInText\n")
    return KEPT if HALF[1] in written or HALF[1][::-1] in written else LOST if status == 0 else note


def doubles(row, inputs):
    """Why a row of the table isn't what the program does, if so."""
    cells = [cell.strip() for cell in row.strip().strip("|").split("|")[1:]]
    for held, source in inputs:
        for cell, targets in zip(cells, COLUMNS):
            for target in targets:
                if (found := outcome(held, source, target)) != cell:
                    return f"from {source} to {target}: {found}, and the page says {cell}"
    return None


# ---- bytes around a batch


def classes():
    """What examples/write_checkout_batch.py writes batches with."""
    sys.path.insert(0, EXAMPLES)
    return importlib.import_module("write_checkout_batch")


def unwrapped(message):
    done = subprocess.run([sys.executable, os.path.join(EXAMPLES, "batch_of_datagram.py")], input=message, capture_output=True)
    return done.stdout


def datagrams():
    """Why datagrams of python3-thrift don't go as the page says, if so."""
    from thrift.protocol.TBinaryProtocol import TBinaryProtocolFactory
    from thrift.protocol.TCompactProtocol import TCompactProtocolFactory
    from thrift.Thrift import TMessageType
    from thrift.TSerialization import serialize

    stock = classes()
    made = stock.batch(stock.classes())
    for factory, form in [(TCompactProtocolFactory(), COMPACT), (TBinaryProtocolFactory(), BINARY), (TBinaryProtocolFactory(strictWrite=False), BINARY)]:
        alone = serialize(made, factory)
        for kind in [TMessageType.CALL, TMessageType.ONEWAY]:
            message = stock.datagram(made, factory, kind)
            if unwrapped(message) != alone:
                return f"the script doesn't give the batch of {message[:20]}"
            if convert(message, form)[2] not in ["unit 1: cause 8 Missing\n", "unit 1: cause 3 BadWire\n"]:
                return f"a message: {convert(message, form)}"
            status, written, note = convert(alone + b"\0", form)
            if (status, note) != (3, "unit 2: cause 8 Missing\n") or written != convert(alone, form)[1]:
                return f"a stop byte at the end: {status}, {note}"
    return None


def around_batches():
    """Why files of the other protocol, and with a newline at the end, don't go as the page says, if so."""
    with open(os.path.join(EXAMPLES, "checkout_batch.bin"), "rb") as file:
        binary = file.read()
    compact = convert(binary, BINARY, COMPACT)[1]
    for held, form, wanted in [
        (compact, BINARY, "unit 1: cause 3 BadWire"), (binary, COMPACT, "unit 1: cause 8 Missing"),
        (binary + b"\n", BINARY, "unit 2: cause 1 Truncated"), (compact + b"\n", COMPACT, "unit 2: cause 1 Truncated"),
    ]:
        if (found := convert(held, form)[2]) != f"{wanted}\n":
            return f"{form}: {found}, and not {wanted}"
    return None


# ---- requests in protobuf


def field(id, held):
    return varint(id << 3 | 2) + varint(len(held)) + held if isinstance(held, bytes) else varint(id << 3) + varint(held)


def group(*fields, trace=bytes(15) + b"\1", id=bytes(7) + b"\1"):
    """A request of one group with one span, which has these fields."""
    span = field(1, trace) + field(2, id) + b"".join(field(*one) for one in fields)
    return field(1, field(2, field(2, span)))


def nested(levels):
    """A value that is a list so many times, and then a number."""
    held = field(3, 1)
    for _ in range(levels):
        held = field(5, field(1, held))
    return 9, field(1, b"k") + field(2, held)


NESTED = nested(otlp.DEEPEST)
CAUSES = {
    "| 1 | Truncated |": [b"\x0a", group()[:-1], group() + b"\n"],
    "| 2 | BadVarint |": [b"\xff" * 10, b"\xff" * 9 + b"\2"],
    "| 3 | BadWire |": [b"\x0b", b"\0", b"\x0e", varint(536_870_912 << 3), b"\x1f\x8b\x08\0"],
    "| 5 | TooDeep |": [group(NESTED)],
    "| 6 | UnitTooLong |": [b"\x0a" + varint(16_777_216), field(9, bytes(16_777_216))],
    "| 7 | FieldTwice |": [group((5, b"a"), (5, b"a")), group((9, field(1, b"k") + field(2, field(3, 1) + field(2, 1))))],
    "| 9 | NotText |": [group((5, b"\xff"))],
    "| 12 | BadId |": [group(trace=b""), group(id=b""), group(trace=bytes(16)), group(id=bytes(8)), group(trace=b"a" * 15), group(id=b"a" * 9), group((4, b"a"))],
    "| 13 | BadEnum |": [group((6, 6)), group((15, field(3, 3)))],
}
GOOD = {
    "- A `parent_span_id` that is empty or zero": [(group((4, b"")), group()), (group((4, bytes(8))), group()), (group((13, field(1, b""))), group())],
    "- Counts and `flags` take the low 32 bits": [(group((10, 2**32 + 3)), group((10, 3)))],
    "- A value without a member": [
        (group((9, field(1, b"k") + field(2, b""))), group((9, field(1, b"k")))), (group(nested(otlp.DEEPEST - 1)), group(nested(otlp.DEEPEST - 1))),
    ],
    "The form is one request": [(group() + field(2, b"x") + group(), group() + group())],
}


def refused(row, inputs):
    """Why inputs aren't refused by the cause of their row, if so."""
    cause = " ".join(re.findall(r"\w+", row))
    for held in inputs:
        status, _, note = convert(held)
        if status != 3 or not note.endswith(f": cause {cause}\n"):
            return f"{held[:30]}: {status}, {note}"
    return None


def cases():
    """Of each case the page, the beginning of a line in it, and a function of that line that tells a difference."""
    for row, pairs in FROM_JAEGER.items():
        for first, second in pairs:
            yield "JAEGER.md", row, lambda _, first=first, second=second: same(first, second, BINARY)
    for row, pairs in FROM_ZIPKIN.items():
        for first, second in pairs:
            yield "ZIPKIN.md", row, lambda _, first=first, second=second: same(first, second, "zipkin-json")
    yield "ZIPKIN.md", "- **A span that client and server share", lambda _: shared()
    for row, inputs in DOUBLES.items():
        yield "JAEGER.md", row, lambda line, inputs=inputs: doubles(line, inputs)
    yield "JAEGER.md", "What a client sends to an agent", lambda _: datagrams()
    for row in ["| 1 | Truncated |", "| 3 | BadWire |", "| 8 | Missing |"]:
        yield "JAEGER.md", row, lambda _: around_batches()
    for row, inputs in CAUSES.items():
        yield "OTLP-PROTO.md", row, lambda _, row=row, inputs=inputs: refused(row, inputs)
    for row, pairs in GOOD.items():
        for first, second in pairs:
            yield "OTLP-PROTO.md", row, lambda _, first=first, second=second: same(first, second, "otlp-proto")


def tried(cases):
    """Prints what differs, and answers how many cases do."""
    wrong, rows = 0, {}
    for page, row, differs in cases:
        with open(os.path.join(TOP, "docs", page), encoding="utf-8") as file:
            line = next((line for line in file if line.startswith(row)), None)
        why = differs(line) if line else "the page has no such line"
        rows.setdefault(page, set()).add(row)
        if why:
            print(f"WRONG: docs/{page}, {row}: {why}")
            wrong += 1
    for page, held in rows.items():
        print(f"tried: docs/{page}: {len(held)} rows")
    return wrong


def main():
    return tried(cases())
