#!/usr/bin/python3
"""Runs the built program over Zipkin documents that py_zipkin, aiozipkin, zipkin-go and a seeded generator wrote, and compares
what they mean.

It is run at the top as bench/comparisons/real_spans.py, after ./spanx has built the program. What zipkin_go/main.go prints is
taken where Go and zipkin-go are there. The files of folders that are given, named zipkin-json, jaeger-binary or jaeger-compact,
are taken too. The requests and batches of real_input.py and real_batches.py are converted to documents, and these are cases as
well. Each document is converted to each form. What is written must be what forms.py says, byte by byte, be read back by the stock
library of its form with that meaning, and convert back as forms.py says; what Zipkin's own members say must stay in Zipkin. It
prints a line for each case, and ends with 1 on a difference.
"""
import itertools
import json
import os
import shutil
import subprocess
import sys

import aiozipkin
from aiozipkin.helpers import TraceContext
from aiozipkin.record import Record
from aiozipkin.transport import StubTransport
from py_zipkin import Encoding, Kind
from py_zipkin.encoding._encoders import get_encoder
from py_zipkin.encoding._helpers import Endpoint, SpanBuilder
from py_zipkin.zipkin import zipkin_client_span, zipkin_server_span, zipkin_span

sys.path.insert(1, os.path.dirname(os.path.dirname(os.path.realpath(__file__))))
import rooms  # first: it finds the others
import forms
import jaeger
import real_batches
import real_input
import stock_json
import zipkin
from drawn_spans import Documents, Spans, ZipkinTraces
from forms import FORMS, JSON, OTLP, ZIPKIN
from program import BUILD, PROGRAM, convert
from protocols import PROTOCOLS

SEEDS = 150
GO = {"GO111MODULE": "off", "GOPATH": "/usr/share/gocode"}
ZIPKIN_GO = os.path.join(GO["GOPATH"], "src", "github.com", "openzipkin", "zipkin-go")


# ---- documents of the stock libraries


def traced(tags):
    """What py_zipkin sends of spans within each other, the outermost of which has these tags."""
    sent = []
    sender = {"transport_handler": sent.append, "sample_rate": 100, "encoding": Encoding.V2_JSON, "use_128bit_trace_id": True}
    with zipkin_server_span("shop", "GET /bücher", port=8080, host="10.0.0.7", **sender) as outer:
        outer.update_binary_annotations(tags)
        with zipkin_client_span("shop", "redis.get", annotations={"wire": 1_700_000_000.25}) as inner:
            inner.add_sa_binary_annotation(port=6379, service_name="redis", host="2001:db8::c001")
            inner.update_binary_annotations({"peer.service": "redis"})
        with zipkin_span("shop", "local work"):
            pass
    return b"".join(one if isinstance(one, bytes) else one.encode() for one in sent)


def joined():
    """What aiozipkin has of a trace: a request, a call, and the call's other side, which shares its identifier."""
    transport = StubTransport()
    endpoint = aiozipkin.create_endpoint("bücher", ipv4="10.0.0.7", port=8080)
    tracer = aiozipkin.Tracer(transport, aiozipkin.Sampler(sample_rate=1.0), endpoint)
    with tracer.new_trace(sampled=True, debug=True) as root:
        root.name("GET /").kind(aiozipkin.SERVER).tag("http.path", "/ü?a=<b>")
        with root.new_child("call", aiozipkin.CLIENT) as call:
            call.annotate("wire").remote_endpoint("redis", ipv6="2001:db8::c001", port=6379).annotate('"e":{"k":1}')
        other = tracer.join_span(call.context).start().name("joined").kind(aiozipkin.SERVER)
        other.finish(exception=RuntimeError("boom"))
    return json.dumps([record.asdict() for record in transport.records]).encode()


def printed_by_go():
    """The name and the text of what zipkin-go prints, if it is there."""
    if not shutil.which("go") or not os.path.isdir(ZIPKIN_GO):
        print("left out: what zipkin-go prints, which needs golang-go and golang-github-openzipkin-zipkin-go-dev")
        return
    main = os.path.join(os.path.dirname(os.path.abspath(__file__)), "zipkin_go", "main.go")
    for name, words in [("a trace and spans of zipkin-go's model", []), ("spans of zipkin-go's model", ["model"])]:
        yield name, subprocess.run(["go", "run", main, *words], env=os.environ | GO, stdout=subprocess.PIPE, check=True).stdout


def py_zipkin_span(span):
    """A drawn span as py_zipkin writes it, times as it has them: seconds, as floats."""
    endpoint = lambda one: Endpoint(one.service, one.ipv4 or None, one.ipv6 or None, one.port)
    kind = {"CLIENT": Kind.CLIENT, "SERVER": Kind.SERVER}.get(span.kind, Kind.LOCAL)
    start, duration = span.start % 10**15 / 1e6, span.duration % 10**12 / 1e6
    annotations = {value: time % 10**15 / 1e6 for time, value in span.annotations}
    builder = SpanBuilder(
        f"{span.trace:x}", span.name, f"{span.parent:016x}" if span.parent else None, f"{span.id:016x}", start, duration, annotations,
        span.tags, kind, endpoint(span.local), span.local.service, endpoint(span.remote),
    )
    return get_encoder(Encoding.V2_JSON).encode_span(builder)


def aiozipkin_span(span):
    """A drawn span as aiozipkin has it, of which a duration is at least 1."""
    start, parent = span.start % 10**15, f"{span.parent:016x}" if span.parent else None
    endpoint = lambda one: aiozipkin.create_endpoint(one.service or None, ipv4=one.ipv4 or None, ipv6=one.ipv6 or None, port=one.port or None)
    context = TraceContext(f"{span.trace:032x}", parent, f"{span.id:016x}", True, span.debug, span.shared)
    record = Record(context, endpoint(span.local)).start(start).name(span.name).remote_endpoint(endpoint(span.remote))
    if span.kind:
        record.kind(span.kind)
    for key, value in span.tags.items():
        record.set_tag(key, value)
    for time, value in span.annotations:
        record.annotate(value, time)
    return record.finish(start + span.duration % 10**15).asdict()


# ---- cases


def drawn_cases():
    for seed in range(SEEDS):
        spans = Spans(seed).spans()
        yield f"random {seed}, in other spellings", Documents(seed).document()
        yield f"random {seed}, as py_zipkin writes it", get_encoder(Encoding.V2_JSON).encode_queue(list(map(py_zipkin_span, spans))).encode()
        yield f"random {seed}, as aiozipkin writes it", json.dumps(list(map(aiozipkin_span, spans))).encode()
        yield f"random {seed}, as Python's json writes it", json.dumps(list(map(zipkin.span_json, spans)), indent=seed % 3).encode()


def documents(folders):
    """The name and the bytes of each document."""
    for path in real_batches.files(ZIPKIN, folders):
        with open(path, "rb") as file:
            yield f"file {os.path.basename(path)}", file.read()
    ids = '"traceId":"1","id":"2"'
    escaped = {"otel.attr." * copies + key: "x" for copies in [0, 1, 2] for key in [*zipkin.RESERVED, "", "otel.resource.a", "span.kind", "x"]}
    controls = {chr(n): chr(n) for n in [*range(32), 127, 128, 0x2028, 0xFFFF, 0x10FFFF]}
    texts = {"http.url": "http://例え.jp/?q=ü&<b>", "error": 'boom "q"', "nul\0": "tab\t", "line\u2028": "\x7f"}
    yield "no spans", b"[]"
    yield "what py_zipkin sends", traced(texts)
    yield "what py_zipkin sends of a tag that is a number", traced({"count": 5})
    yield "what aiozipkin has", joined()
    yield from printed_by_go()
    yield "every control character", json.dumps([{"traceId": "1", "id": "2", "tags": controls}]).encode()
    yield "tags of attributes under reserved keys", json.dumps([{"traceId": "1", "id": "2", "tags": escaped}]).encode()
    yield "every escape", f'[{{{ids},"name":"\\"\\\\\\/\\b\\f\\n\\r\\t\\u00e9\\uD83d\\uDe00\\u0000\\uffff"}}]'.encode()
    yield "equal members", f'[{{"id":5,{ids},"tags":7,"tags":{{"a":"1","b":null,"a":"2"}},"name":"x","name":null}}]'.encode()
    yield "127 deep", f'[{{{ids},"x":{"[" * 125}{"]" * 125}}}]'.encode()
    yield "the last microsecond", f'[{{{ids},"timestamp":18446744073709551}},{{{ids},"timestamp":1,"duration":18446744073709550}}]'.encode()
    yield from drawn_cases()


def others(request, later_request, types, later, folders):
    """The name, the bytes and the form of each request and batch."""
    for name, text in real_input.cases(request, later_request, None):
        yield f"request, {name}", text, OTLP
    for form in PROTOCOLS:
        for name, text in real_batches.cases(types, later, form, folders):
            yield f"batches, {name}", text, form
    for seed in range(2 * SEEDS):
        yield f"trace {seed}", ZipkinTraces(seed, 0).whole(), OTLP


# ---- comparing


def said(held):
    """What a span of Python's `json` says that stays in Zipkin, with its tags that have no meaning of their own."""
    endpoints = [held.get(name) or {} for name in ["localEndpoint", "remoteEndpoint"]]
    sides = [{name: endpoint[name] for name in ["serviceName", "ipv4", "ipv6", "port"] if endpoint.get(name)} for endpoint in endpoints]
    tags = {key: value for key, value in (held.get("tags") or {}).items() if value is not None}
    if tags.get("peer.service"):
        sides[1].setdefault("serviceName", tags["peer.service"])
    special = ["error", "peer.service", "w3c.tracestate", *zipkin.FLAGS, *zipkin.MEMBERS]
    free = {key: value for key, value in tags.items() if not key.startswith("otel.") and key not in special}
    numbers = [int(held.get(name) or "0", 16) for name in ["traceId", "id", "parentId"]]
    rest = [held.get(name) or None for name in ["name", "kind", "timestamp", "duration", "debug", "shared"]]
    events = [(one["timestamp"], zipkin.read_event_text(one["value"]) or one["value"]) for one in held.get("annotations") or []]
    return numbers, rest, sides, events, free


def read_back(tools, target, written):
    """What the stock library reads in what was written, and the bytes that it writes of that."""
    if target == ZIPKIN:
        held = json.loads(written)
        return held, stock_json.compact(held)
    if target == JSON:
        held = stock_json.parsed(tools[1], written)
        return real_batches.meant_groups(held), stock_json.text(held)
    return real_batches.read_back(*tools, target, written)


def meant(groups, target):
    """The same of groups, by the tables."""
    if target == ZIPKIN:
        return [zipkin.span_json(span) for group in groups for span in zipkin.spans_of_group(group)]
    return groups if target in [OTLP, JSON] else [jaeger.batch_of_group(group) for group in groups]


def difference(tools, text, source, target):
    """What is wrong with the program's answer to an input, if something is, what must be written, what was, and the outcome."""
    status, note, wanted, name = forms.verdict(text, source, target)
    got, written, got_note = convert(text, source, target)
    if (got, got_note) != (status, note):
        return f"status {got}, note {got_note!r}; wanted {status}, {note!r}", wanted, written, name
    if written != wanted:
        return "another text was written", wanted, written, name
    if status != 0:
        return None, wanted, written, name
    try:
        held, stock = read_back(tools, target, written)
    except Exception as error:
        return f"the stock library refuses what was written: {error!r}", wanted, written, name
    if held != meant(list(forms.groups(text, source)), target):
        return "another meaning was written", wanted, written, name
    if stock != written:
        return "the same meaning in other bytes was written", wanted, written, name
    if (source, target) == (ZIPKIN, ZIPKIN) and list(map(said, json.loads(text))) != list(map(said, json.loads(written))):
        return "members say something else", wanted, written, name
    status, note, wanted, _ = forms.verdict(written, target, source)
    if convert(written, target, source) != (status, wanted, note):
        return "what was written converts back to something else", wanted, written, name
    return None, wanted, written, name


def try_case(tools, name, text, source, target):
    """Prints how a case ends; what was written, and whether it is right."""
    what, wanted, written, outcome = difference(tools, text, source, target)
    if what is None:
        print(f"ok: {name}, {source} to {target}: {len(text)} bytes in, {len(written)} out, {outcome}")
    else:
        real_input.report(f"{name}, {source} to {target}", text, what, wanted, written)
    return written, what is None, outcome


def classes():
    """The stock libraries' classes of batches and requests, and those of later schemas."""
    file = real_input.schema()
    types, later = real_batches.batch_classes()
    return types, real_input.request_class(file), later, real_input.request_class(real_input.newer(file))


def main():
    if not os.path.exists(PROGRAM):
        sys.exit(BUILD)
    types, request, later, later_request = classes()
    tools, wrong, made = (types, request), 0, {}
    for name, text, source in others(request, later_request, types, later, sys.argv[1:]):
        written, is_right, outcome = try_case(tools, name, text, source, ZIPKIN)
        wrong += not is_right
        if outcome == "written":
            made.setdefault(written, name)
    for name, text in itertools.chain(documents(sys.argv[1:]), ((name, text) for text, name in made.items())):
        for target in FORMS:
            wrong += not try_case(tools, name, text, ZIPKIN, target)[1]
    print(f"{wrong} differences")
    sys.exit(1 if wrong else 0)


if __name__ == "__main__":
    main()
