#!/usr/bin/python3
"""Runs the built program over Jaeger batches that Apache Thrift's Python library wrote, and compares what they mean.

It is run at the top as bench/comparisons/real_batches.py, after ./spanx has built the program. Each case is tried in both
protocols, and the files of folders that are given, named jaeger-binary or jaeger-compact, are taken too. Each input is converted
to each form. What is written is read back by the stock library of its form, and must mean what the tables of jaeger.py say of the
batches that python3-thrift reads in the input; it must be the very bytes that the stock library writes of it, and convert to the
same batches again. It prints a line for each case, and ends with 1 on a difference.
"""
import importlib
import itertools
import os
import re
import struct
import subprocess
import sys
import tempfile

from thrift.protocol import TBinaryProtocol, TCompactProtocol
from thrift.TSerialization import serialize
from thrift.transport import TTransport

sys.path.insert(1, os.path.dirname(os.path.dirname(os.path.realpath(__file__))))
import rooms  # first: it finds the others
import jaeger
import otlp
from drawn import Batches
from program import BUILD, PROGRAM, TOP, convert
from protocols import PROTOCOLS
from real_input import report, request_class, schema

HERE = os.path.dirname(os.path.abspath(__file__))
EXAMPLES = os.path.join(TOP, "examples")
SEEDS = 150
FACTORIES = {"jaeger-binary": TBinaryProtocol.TBinaryProtocolFactory(), "jaeger-compact": TCompactProtocol.TCompactProtocolFactory()}
TAG_FIELDS = [("text", "vStr"), ("double", "vDouble"), ("truth", "vBool"), ("number", "vLong"), ("bytes", "vBinary")]

# The types of fields that only a later schema has, each with a value of it. Its bytes are UTF-8, since python3-thrift can't pass
# over others.
LATER = {
    "bool": True, "i8": -3, "double": 2.5, "i16": -300, "i32": 70_000, "i64": -(2**40), "binary": b"\0 bytes", "string": "später",
    "map<string, list<i32>>": {"a": [1, 2], "b": []}, "set<i64>": {5, 6}, "list<map<i8, bool>>": [{1: True}, {}], "list<double>": [0.5],
    "map<i16, i16>": {}, "list<string>": ["x", ""], "set<binary>": {b"\1"}, "list<set<i32>>": [{9}],
}


# ---- schemas


def compiled(folder, name, text):
    """The classes that the compiler makes of a schema."""
    path = os.path.join(folder, "schema.thrift")
    with open(path, "w") as file:
        file.write(text.replace("jaeger_batches", name))
    subprocess.run(["thrift", "--gen", "py", "-out", folder, path], check=True)
    return importlib.import_module(f"{name}.ttypes")


def later_schema(text):
    """A later schema: each struct has fields of every type more, and one field has another type."""
    fields = "".join(f"  {100 + i}: optional {kind} later{i}\n" for i, kind in enumerate(LATER)) + "  32767: optional Later inner\n"
    text = re.sub(r"(struct \w+ \{\n[^}]*)\}", lambda found: found[1] + fields + "}", text)
    later = "struct Later {\n  1: optional bool own\n  2: optional list<Later> more\n}\n\n"
    return text.replace("struct Tag {", later + "struct Tag {").replace("optional i64 seqNo", "optional string seqNo")


def add_later(types, made, drawn):
    """Sets the fields that only the later schema has, in a struct and all in it."""
    for held in list(vars(made).values()):
        for inner in held if isinstance(held, list) else [held]:
            if hasattr(inner, "thrift_spec"):
                add_later(types, inner, drawn)
    for i, value in enumerate(LATER.values()):
        if drawn.chance(0.3):
            setattr(made, f"later{i}", value)
    if drawn.chance(0.2):
        made.inner = types.Later(True, [types.Later(False, []), types.Later()])


# ---- batches of the stock library


def tag(types, key, value):
    number = [kind for kind, _ in TAG_FIELDS].index(value[0])
    held = struct.unpack(">d", value[1])[0] if value[0] == "double" else value[1]
    return types.Tag(key=key, vType=number, **{TAG_FIELDS[number][1]: held})


def made_tags(types, tags):
    return [tag(types, key, value) for key, value in tags]


def made_span(types, span):
    low, high, id, parent = (jaeger.signed(n) for n in [span.trace % 2**64, span.trace >> 64, span.id, span.parent])
    references = [
        types.SpanRef(int(not one.child_of), jaeger.signed(one.trace % 2**64), jaeger.signed(one.trace >> 64), jaeger.signed(one.id))
        for one in span.references
    ]
    logs = [types.Log(log.time, made_tags(types, log.fields)) for log in span.logs]
    return types.Span(low, high, id, parent, span.name, references, span.flags, span.start, span.duration, made_tags(types, span.tags), logs)


def made_batch(types, batch):
    process = types.Process(batch.service, made_tags(types, batch.tags))
    return types.Batch(process, [made_span(types, span) for span in batch.spans])


def meant_tags(made):
    out = []
    for one in made or []:
        kind, field = TAG_FIELDS[one.vType]
        absent = {"text": "", "double": 0.0, "truth": False, "number": 0, "bytes": b""}[kind]
        held = absent if getattr(one, field) is None else getattr(one, field)
        out.append((one.key, (kind, struct.pack(">d", held) if kind == "double" else held)))
    return out


def meant_span(made):
    """The span that one of the stock library means."""
    number = lambda high, low: jaeger.unsigned(high) * 2**64 + jaeger.unsigned(low)
    references = [jaeger.Reference(one.refType == 0, number(one.traceIdHigh, one.traceIdLow), jaeger.unsigned(one.spanId)) for one in made.references or []]
    return jaeger.Span(
        number(made.traceIdHigh, made.traceIdLow), jaeger.unsigned(made.spanId), jaeger.unsigned(made.parentSpanId), made.operationName,
        [one for one in references if one.trace and one.id], made.flags, made.startTime, made.duration, meant_tags(made.tags),
        [jaeger.Log(one.timestamp, meant_tags(one.fields)) for one in made.logs or []],
    )


def meant_batch(made):
    return jaeger.Batch(made.process.serviceName, meant_tags(made.process.tags), [meant_span(span) for span in made.spans])


def read_batches(types, text, form):
    """The batches that the stock library reads in a text, one after the other."""
    transport = TTransport.TMemoryBuffer(text)
    protocol, out = FACTORIES[form].getProtocol(transport), []
    while transport.cstringio_buf.tell() < len(text):
        out.append(types.Batch())
        out[-1].read(protocol)
    return out


# ---- requests of the stock library


def meant_value(made):
    member = made.WhichOneof("value")
    if member is None:
        return "nothing", None
    held = getattr(made, member)
    return {
        "string_value": lambda: ("text", held), "bool_value": lambda: ("truth", held), "int_value": lambda: ("number", held),
        "double_value": lambda: ("double", struct.pack(">d", held)), "bytes_value": lambda: ("bytes", held),
        "array_value": lambda: ("list", [meant_value(one) for one in held.values]),
        "kvlist_value": lambda: ("map", meant_attributes(held.values)),
    }[member]()


def meant_attributes(pairs):
    return {pair.key: meant_value(pair.value) for pair in pairs}


def meant_request_span(made):
    number = lambda held: int.from_bytes(held, "big")
    events = [otlp.Event(one.time_unix_nano, one.name, meant_attributes(one.attributes), one.dropped_attributes_count) for one in made.events]
    links = [
        otlp.Link(number(one.trace_id), number(one.span_id), one.trace_state, meant_attributes(one.attributes), one.dropped_attributes_count, one.flags)
        for one in made.links
    ]
    return otlp.Span(
        number(made.trace_id), number(made.span_id), made.trace_state, number(made.parent_span_id), made.name, made.kind,
        made.start_time_unix_nano, made.end_time_unix_nano, meant_attributes(made.attributes), made.dropped_attributes_count, events,
        made.dropped_events_count, links, made.dropped_links_count, made.status.code, made.status.message, made.flags,
    )


def meant_scope(made):
    scope = made.scope
    return otlp.Scope(
        scope.name, scope.version, meant_attributes(scope.attributes), scope.dropped_attributes_count, made.schema_url,
        [meant_request_span(span) for span in made.spans],
    )


def meant_groups(request):
    return [
        otlp.Group(meant_attributes(made.resource.attributes), made.resource.dropped_attributes_count, made.schema_url, [meant_scope(scope) for scope in made.scope_spans])
        for made in request.resource_spans
    ]


# ---- cases

TRACE, PARENT = 0x0AF7651916CD43DD8448EB211C80319C, 0xB7AD6B7169203331
EVERY_TYPE = [
    ("text", ("text", "Grüße 😀\n\"\\")), ("double", ("double", struct.pack(">d", -0.001))), ("true", ("truth", True)), ("false", ("truth", False)),
    ("long", ("number", -(2**63))), ("binary", ("bytes", bytes(range(256)))), ("no text", ("text", "")), ("zero", ("double", bytes(8))),
    ("infinite", ("double", struct.pack(">d", float("inf")))), ("no bytes", ("bytes", b"")), ("", ("number", 2**63 - 1)),
]


def one_span(**changed):
    parts = {
        "trace": TRACE, "id": 7, "parent": 0, "name": "GET /cart", "references": [], "flags": 1, "start": 1_700_000_000_123_456,
        "duration": 100_000, "tags": [], "logs": [],
    }
    return jaeger.Span(**(parts | changed))


def reference(child_of, trace, id):
    return jaeger.Reference(child_of, trace, id)


def named_batches():
    """The name of each case with its batches."""
    many = [(f"key {i * 7 % 20:02}", ("number", i)) for i in range(20)]
    reserved = [(key, ("text", "x")) for key in jaeger.RESERVED] + [("jaeger.flags", ("text", "2"))]
    escaped = [("otel.attr." * copies + key, ("text", "x")) for copies in [1, 2] for key in [*jaeger.RESERVED, "", "event", "jaeger.flags", "x"]]
    own = [
        ("span.kind", ("text", "consumer")), ("error", ("truth", True)), ("otel.status_description", ("text", "declined")),
        ("otel.library.name", ("text", "older")), ("otel.scope.version", ("text", "1.0")), ("otel.dropped_events_count", ("number", 3)),
        ("otel.dropped_links_count", ("text", "4294967295")), ("w3c.tracestate", ("text", "a=b")),
    ]
    references = [
        reference(False, TRACE, 3), reference(True, TRACE, 5), reference(True, 9, 5), reference(True, TRACE, 4), reference(True, TRACE, 5),
        reference(True, 0, 5), reference(False, TRACE, 0),
    ]
    log = jaeger.Log(1_700_000_000_200_000, [("event", ("text", "retry")), *EVERY_TYPE])
    single = lambda **parts: [jaeger.Batch("shop", [], [one_span(**parts)])]
    every = jaeger.Batch("shop", EVERY_TYPE, [one_span(tags=EVERY_TYPE, logs=[log])])
    return [
        ("tags of every type", [every]), ("twenty tags", single(tags=many)), ("a key again and again", single(tags=many[:3] * 3 + EVERY_TYPE[:1] * 2)),
        ("references, of which the first of the own trace is the parent", single(references=references)),
        ("references beside a parent", single(parent=4, references=references)),
        ("reserved tags that mean nothing", single(tags=reserved)), ("reserved tags with a meaning", single(tags=own)),
        ("tags of attributes under reserved keys", single(tags=own + escaped, logs=[jaeger.Log(5, log.fields + escaped)])),
        ("all flags", single(flags=-1)), ("flags without the first", single(flags=-(2**31))),
        ("the last microsecond", single(start=jaeger.LAST_MICROS, duration=0)), ("logs without fields", single(logs=[jaeger.Log(0, [])] * 2)),
        ("log fields `event` of other types", single(logs=[jaeger.Log(5, [("event", value)]) for _, value in EVERY_TYPE])),
        ("no spans", [jaeger.Batch("", [], [])]), ("a process tag `service.name`", [jaeger.Batch("", [("service.name", ("text", "x"))], [])]),
        ("scopes that change", [jaeger.Batch("shop", [], [one_span(tags=[("otel.scope.name", ("text", name))]) for name in ["a", "a", "b", "", "a"]])]),
        ("four batches", [every, jaeger.Batch("", [], []), every, jaeger.Batch("other", EVERY_TYPE, [one_span(parent=PARENT)] * 3)]),
    ]


def odd_tags(types):
    """Tags without the value that their type names, and tags with all values."""
    made = made_batch(types, jaeger.Batch("shop", [], [one_span()]))
    values = {"vStr": "s", "vDouble": 1.5, "vBool": True, "vLong": -1, "vBinary": b"b"}
    made.spans[0].tags = [types.Tag(f"absent {i}", i) for i in range(5)] + [types.Tag(f"all {i}", i, **values) for i in range(5)]
    return made


def counted(types):
    """Batches with the numbers that clients send along."""
    made = made_batch(types, jaeger.Batch("shop", EVERY_TYPE, [one_span()]))
    made.seqNo, made.stats = 2**40, types.ClientStats(1, 2, 3)
    return made


def without_lists(types, made):
    """The same batch, its empty optional lists left out."""
    for held in [made.process, *made.spans]:
        for name in ["tags", "references", "logs"]:
            if getattr(held, name, None) == []:
                setattr(held, name, None)
    return made


def files(form, folders):
    """The files of the folders whose name is that of a form, and those that the repository ships of it."""
    folders = [folder for folder in folders if os.path.basename(os.path.normpath(folder)) == form]
    paths = [os.path.join(folder, name) for folder in folders for name in sorted(os.listdir(folder))]
    return paths + [os.path.join(EXAMPLES, "checkout_batch.bin")] if form == "jaeger-binary" else paths


def cases(types, later, form, folders):
    """The name and the bytes of each case in a form."""
    serialized = lambda made: serialize(made, FACTORIES[form])
    for path in files(form, folders):
        if os.path.isfile(path):
            with open(path, "rb") as file:
                yield f"file {os.path.basename(path)}", file.read()
    yield "empty input", b""
    yield "tags without their value, and with all values", serialized(odd_tags(types))
    yield "seqNo and stats", serialized(counted(types)) * 2
    for name, batches in named_batches():
        yield name, b"".join(serialized(made_batch(types, batch)) for batch in batches)
        yield f"{name}, without empty lists", b"".join(serialized(without_lists(types, made_batch(types, batch))) for batch in batches)
    for seed in range(SEEDS):
        drawn = Batches(seed)
        batches = [drawn.batch() for _ in range(drawn.some(3))]
        yield f"random {seed}", b"".join(serialized(made_batch(types, batch)) for batch in batches)
        made = [made_batch(later, batch) for batch in batches]
        for batch in made:
            add_later(later, batch, drawn)
        yield f"random {seed}, of a later schema", b"".join(serialized(batch) for batch in made)


# ---- comparing


def expected(types, text, form):
    """The groups that a text means, by the stock library and the tables, and whether the reader of jaeger.py agrees."""
    batches, own, at = [meant_batch(made) for made in read_batches(types, text, form)], [], 0
    while at < len(text):
        _, unit, at = jaeger.next_unit(text, at, form=form)
        own.append(jaeger.read_batch(unit))
    return [jaeger.group_of_batch(batch) for batch in batches], own == batches


def read_back(types, request, target, written):
    """What the stock library reads in what was written, and the bytes that it writes of that."""
    if target == "otlp-proto":
        made = request.FromString(written)
        return meant_groups(made), made.SerializeToString(deterministic=True)
    made = read_batches(types, written, target)
    return [meant_batch(batch) for batch in made], b"".join(serialize(batch, FACTORIES[target]) for batch in made)


def difference(types, request, text, source, target):
    """What is wrong with the program's answer to an input, if something is, and what must be written."""
    groups, agree = expected(types, text, source)
    batches = [jaeger.batch_of_group(group) for group in groups]
    texts = {form: b"".join(jaeger.write_batch(batch, form) for batch in batches) for form in PROTOCOLS}
    meant, wanted = (groups, b"".join(otlp.write_group(group) for group in groups)) if target == "otlp-proto" else (batches, texts[target])
    if not agree:
        return "the reader of jaeger.py and the stock library read different batches", wanted, b""
    status, written, note = convert(text, source, target)
    if status != 0 or note != "":
        return f"status {status}, note {note!r}", wanted, written
    try:
        got, stock = read_back(types, request, target, written)
    except Exception as error:
        return f"the stock library refuses what was written: {error!r}", wanted, written
    if got != meant:
        return "another meaning was written", wanted, written
    if stock != written or written != wanted:
        return "the same meaning in other bytes was written", wanted, written
    if convert(written, target, source) != (0, texts[source], ""):
        return "what was written converts to other batches", wanted, written
    return None, wanted, written


def batch_classes():
    """The stock library's classes, and those of a later schema."""
    with open(os.path.join(HERE, "jaeger.thrift")) as file, tempfile.TemporaryDirectory() as folder:
        text = file.read()
        sys.path.insert(0, folder)
        classes = compiled(folder, "jaeger_batches", text), compiled(folder, "later_batches", later_schema(text))
        sys.path.remove(folder)
        return classes


def main():
    if not os.path.exists(PROGRAM):
        sys.exit(BUILD)
    request, wrong = request_class(schema()), 0
    types, later = batch_classes()
    for source, target in itertools.product(PROTOCOLS, jaeger.FORMS):
        for name, text in cases(types, later, source, sys.argv[1:]):
            what, wanted, written = difference(types, request, text, source, target)
            if what is None:
                print(f"ok: {name}, {source} to {target}: {len(text)} bytes in, {len(written)} out")
            else:
                report(f"{name}, {source} to {target}", text, what, wanted, written)
                wrong += 1
    print(f"{wrong} differences")
    sys.exit(1 if wrong else 0)


if __name__ == "__main__":
    main()
