#!/usr/bin/python3
"""Tries each row of docs/CAUSES.md: that an input of the kind that it names has the note that it says, and that what it says to do
gives all spans, where that is a command.

Each case stands beside the beginning of the cell that tells the kind. A row without a case, a case without a row, and a script of
examples/ in a row that no case runs is a difference. It is run as bench/pages/likely_causes.py after ./spanx, ./spanx_agent and
./spanx_relay have built the programs. It ends with 1 on a difference.
"""
import base64
import gzip
import json
import os
import re
import resource
import socket
import subprocess
import sys
import tempfile
import time

sys.path.insert(1, os.path.dirname(os.path.dirname(os.path.realpath(__file__))))
import rooms  # first: it finds the others
import otlp
from agent import AGENT, Agent, binary_head, compact_head
from program import BUILD, PROGRAM, TOP, convert
from protocols import varint
from relay import RELAY, Peer, Relay, post_over, said
from tried_rows import BINARY, COMPACT, HALF, NESTED, batch, field, group, request

PAGE = os.path.join(TOP, "docs", "CAUSES.md")
PROTO, JSON, ZIPKIN = "otlp-proto", "otlp-json", "zipkin-json"
SECONDS = 20
TELLS = re.compile(r"datagram (\d+): (.*)\n")


def example(name):
    with open(os.path.join(TOP, "examples", name), "rb") as file:
        return file.read()


REQUEST, DOCUMENT, ZSPANS, BATCH, API = (
    example(name) for name in ["checkout.bin", "checkout.json", "checkout_spans.json", "checkout_batch.bin", "jaeger_trace.json"]
)
COMPACTED = convert(BATCH, BINARY, COMPACT)[1]
HEADED = b"HTTP/1.1 200 OK\r\nContent-Type: application/json\r\n\r\n"
PAGE_OF_ERROR = b"<!doctype html><title>502 Bad Gateway</title>\n"
STDOUT = (
    b'{"Name":"op","SpanContext":{"TraceID":"5b8efff798038103d269b633813fc60c","SpanID":"eee19b7ec3c1b174"},"SpanKind":1,'
    b'"StartTime":"2026-01-01T00:00:00Z"}\n'
)
METRICS = b'{"resourceMetrics":[{"scopeMetrics":[{"metrics":[{"name":"m"}]}]}]}'
LOGS = b'{"resourceLogs":[{"scopeLogs":[{"logRecords":[{"body":{"stringValue":"x"}}]}]}]}'
NO_TRACE = [b"{}", b'{"partialSuccess":{}}', b'{"data":null,"errors":[{"code":404,"msg":"trace not found"}]}']
JAEGER_MODEL = b"\x0a\x20\x0a\x10AAAAAAAAAAAAAAAA\x12\x08BBBBBBBB\x1a\x02go\x12\x03\x0a\x01s"
ZIPKIN_PROTO = b"\x0a\x20\x0a\x10AAAAAAAAAAAAAAAA\x1a\x08BBBBBBBB\x2a\x02go"
LENGTH = len(REQUEST).to_bytes(4, "big")
MEBI = 1 << 20


def with_members(held, names):
    """A JSON value whose members have other names."""
    if isinstance(held, list):
        return [with_members(element, names) for element in held]
    return {names(name): with_members(inner, names) for name, inner in held.items()} if isinstance(held, dict) else held


def stock(held):
    """A request in JSON as stock protobuf libraries print it: identifiers in base64."""
    if isinstance(held, list):
        return [stock(element) for element in held]
    if not isinstance(held, dict):
        return held
    ids = {name: base64.b64encode(bytes.fromhex(inner)).decode() for name, inner in held.items() if name in ["traceId", "spanId", "parentSpanId"]}
    return {name: stock(inner) for name, inner in held.items()} | ids


def as_text(held):
    """Bytes that were read as a text in UTF-8 and written again."""
    return held.decode(errors="replace").encode()


def dumped(held):
    return json.dumps(held).encode()


def zipkin(**members):
    """The spans of the example, the first of which has other members."""
    first, *others = json.loads(ZSPANS)
    return dumped([first | members, *others])


PRINTED = stock(json.loads(DOCUMENT))
OLD = {"scopeSpans": "instrumentationLibrarySpans", "scope": "instrumentationLibrary"}
OLDER = dumped(with_members(json.loads(DOCUMENT), lambda name: OLD.get(name, name)))
SNAKE = dumped(with_members(PRINTED, lambda name: re.sub("[A-Z]", lambda found: "_" + found[0].lower(), name)))
ONE_SPAN = dumped(json.loads(ZSPANS)[0])
OLDER_PROTO = field(1, field(1, b"") + field(1000, field(2, field(1, b"A" * 16) + field(2, b"B" * 8))) + field(3, b"u"))
KINDS = re.sub(rb'"kind": ?2', b'"kind":"SPAN_KIND_SERVER"', re.sub(rb'"code": ?2', b'"code":"STATUS_CODE_ERROR"', DOCUMENT))
HEX_IDS = field(1, field(2, field(2, field(1, b"5b8efff798038103d269b633813fc60c") + field(2, b"eee19b7ec3c1b174"))))
DATAGRAM = example("checkout_datagram.bin")
BINARY_DATAGRAM = b"\x80\1\0\4\0\0\0\x09emitBatch\0\0\0\0\x0c\0\1" + BATCH + b"\0"
DEEP = {"intValue": "1"}
for _ in range(otlp.DEEPEST):
    DEEP = {"arrayValue": {"values": [DEEP]}}


def document(**members):
    return dumped({"resourceSpans": [{"scopeSpans": [{"spans": [{"traceId": "1" * 32, "spanId": "1" * 16, **members}]}]}]})


def with_list(element):
    """A batch whose list of spans holds other elements than structs."""
    return b"\x0c\0\1\x0b\0\1\0\0\0\1s\0\x0f\0\2" + element + b"\0"


PREFIXED = [b"\0" + LENGTH + REQUEST, LENGTH + REQUEST]
# Of each row, by the page's heading, its note and what the kind's cell begins with, the inputs: of each form the same, or one by form.
# Behind them what is run to have all spans, with the form that it gives and how many these are.
EMPTY = "## Read as empty or poorer, with status 0"
CAUSES = "## Status 3: causes"
FAULTS = "## Status 4: faults"
NAMES = "examples/todays_names.py json"
HEX = "examples/hex_identifiers.py"
# FORM is the target of the row.
MEND = "./spanx convert --from otlp-proto --to otlp-json | examples/mend_faults.py FORM app. | ./spanx convert --from otlp-json --to FORM"
TEXTS = "examples/doubles_to_texts.py | ./spanx convert --from otlp-proto --to FORM"
CASES = [
    (EMPTY, "JSON of Jaeger's user interface", [API], "examples/batches_of_jaeger_json.py", BINARY, 2),
    (EMPTY, "an answer of Grafana Tempo", [dumped({"batches": PRINTED["resourceSpans"]}), dumped({"trace": PRINTED})], f"{NAMES} | {HEX}", JSON, 10),
    (EMPTY, "an answer of Jaeger's `/api/v3`", [dumped({"result": PRINTED}), dumped({"result": json.loads(DOCUMENT)})], f"{NAMES} | {HEX}", JSON, 10),
    (EMPTY, "a request in protobuf's own names", [SNAKE], f"{NAMES} | {HEX}", JSON, 10),
    (EMPTY, "a request of an older library", [OLDER], NAMES, JSON, 10),
    (EMPTY, "the same in protobuf", [OLDER_PROTO], "examples/todays_names.py protobuf", PROTO, 1),
    (EMPTY, "one span of OpenTelemetry's exporter `stdouttrace`", [STDOUT]),
    (EMPTY, "metrics or logs", [METRICS, LOGS]),
    (EMPTY, "one span of Zipkin", [ONE_SPAN], "examples/join_requests.py zipkin", ZIPKIN, 1),
    (EMPTY, "an answer without a trace", NO_TRACE),
    (EMPTY, "a file without a byte", [b""]),
    (EMPTY, "`[]`", [b"[]"]),
    (EMPTY, "Zipkin's v1", [example("checkout_v1.json")], "examples/zipkin_v2_of_v1.py", ZIPKIN, 2),
    (CAUSES, "a batch of Jaeger's protobuf model", [JAEGER_MODEL], "examples/batches_of_jaeger_protobuf.py Batch", BINARY, 1),
    (CAUSES, "spans of Zipkin's protobuf", [ZIPKIN_PROTO], "examples/zipkin_json_of_protobuf.py", ZIPKIN, 1),
    (CAUSES, "one that was cut", [{PROTO: REQUEST[:-20], BINARY: BATCH[:-20], COMPACT: COMPACTED[:-20]}]),
    (CAUSES, "one with a byte too many", [{PROTO: REQUEST + b"\n", BINARY: BATCH + b"\n", COMPACT: COMPACTED + b"\n"}], "head -c -1", None, None),
    (CAUSES, "one that `zstd` compressed", ["zstd"], "zstd -dc", PROTO, 10),
    (CAUSES, "JSON: an object", NO_TRACE[2:] + [METRICS, LOGS, ONE_SPAN]),
    (CAUSES, "no text of the form", [{PROTO: b"\xff" * 20, COMPACT: b"\x15" + b"\xff" * 20}]),
    (CAUSES, "gzip, as exporters send it", [gzip.compress(REQUEST, mtime=0)], "gzip -dc", PROTO, 10),
    (CAUSES, "frames of gRPC: the first byte is 0", PREFIXED[:1], "examples/request_of_frames.py grpc", PROTO, 10),
    (CAUSES, "requests with a length of four bytes", PREFIXED[1:], "examples/request_of_frames.py four", PROTO, 10),
    (CAUSES, "requests with a varint in front", [varint(len(REQUEST)) + REQUEST], "examples/request_of_frames.py varint", PROTO, 10),
    (CAUSES, "JSON: it begins with", [DOCUMENT, ZSPANS, API]),
    (CAUSES, "batches of Jaeger in Thrift", [BATCH, COMPACTED]),
    (CAUSES, "base64 of a request", [base64.b64encode(REQUEST)], "base64 -d", PROTO, 10),
    (CAUSES, "hexadecimal digits of a request", [REQUEST.hex().encode()], "xxd -r -p", PROTO, 10),
    (CAUSES, "a whole answer with its head", [HEADED + DOCUMENT, PAGE_OF_ERROR]),
    *[(CAUSES, "one whose bytes went through a text", [as_text(held)]) for held in [COMPACTED, BATCH, REQUEST]],
    (CAUSES, "a batch in the compact protocol", [COMPACTED]),
    (CAUSES, "a datagram of a Jaeger client in the compact protocol", [DATAGRAM], "examples/batch_of_datagram.py", COMPACT, 4),
    (CAUSES, "a datagram in the binary protocol", [BINARY_DATAGRAM], "examples/batch_of_datagram.py", BINARY, 4),
    (CAUSES, "a request in protobuf, JSON or gzip", [REQUEST, DOCUMENT, gzip.compress(BATCH, mtime=0)]),
    (CAUSES, "a batch that was spoilt", [BATCH[:6] + b"\xff" + BATCH[7:]]),
    (CAUSES, f"one with an attribute of more than {otlp.DEEPEST} levels", [{PROTO: group(NESTED), JSON: document(attributes=[{"key": "k", "value": DEEP}])}]),
    (CAUSES, "a request with more than 16 MiB of one resource", [field(1, field(2, field(2, bytes(16 * MEBI))))]),
    (CAUSES, "what was joined inside", [group((5, b"a"), (5, b"a"))]),
    (CAUSES, "a batch in the binary protocol", [BATCH]),
    (CAUSES, "a datagram of a Jaeger client, with the head", [DATAGRAM], "examples/batch_of_datagram.py", COMPACT, 4),
    (CAUSES, "a datagram whose head was taken off", [DATAGRAM[14:]], "head -c -1", COMPACT, 4),
    (CAUSES, "frames of gRPC, or a length in front", PREFIXED, None, None, None),
    (CAUSES, "an array of other things", [b"[" + DOCUMENT + b"]"]),
    (CAUSES, "one of a library that writes texts in Latin-1", [{PROTO: group((5, b"caf\xe9")), BINARY: BATCH.replace(b"storefront", b"st\xf6refront")}]),
    (CAUSES, "JSON lines: a request in each", [DOCUMENT + b"\n" + DOCUMENT + b"\n"], "examples/join_requests.py otlp", JSON, 20),
    (CAUSES, "JSON lines: a span or an array", [ZSPANS + b"\n" + ONE_SPAN + b"\n"], "examples/join_requests.py zipkin", ZIPKIN, 7),
    (CAUSES, "gzip", [{JSON: gzip.compress(DOCUMENT, mtime=0), ZIPKIN: gzip.compress(ZSPANS, mtime=0)}], "gzip -dc", None, None),
    (CAUSES, "JSON behind a byte order mark", [{JSON: b"\xef\xbb\xbf" + DOCUMENT, ZIPKIN: b"\xef\xbb\xbf" + ZSPANS}], "tail -c +4", None, None),
    (CAUSES, "JSON in UTF-16", [DOCUMENT.decode().encode("utf-16")], "iconv -f UTF-16 -t UTF-8", JSON, 10),
    (CAUSES, "one in protobuf or Thrift", [REQUEST, BATCH, COMPACTED]),
    (CAUSES, "an empty file, one that was cut", [b"", DOCUMENT[:-20], ZSPANS[:-20], HEADED + DOCUMENT, PAGE_OF_ERROR]),
    (CAUSES, "several spans of `stdouttrace`", [STDOUT * 2]),
    (CAUSES, "spans of Zipkin: it begins", [ZSPANS]),
    (CAUSES, "an array of requests", [b"[" + DOCUMENT + b"," + DOCUMENT + b"]"], "examples/join_requests.py otlp", JSON, 20),
    (CAUSES, "a request of OTLP", [DOCUMENT]),
    (CAUSES, "JSON of Jaeger's user interface", [API], "examples/batches_of_jaeger_json.py", BINARY, 2),
    (CAUSES, "one span, without an array", [ONE_SPAN], "examples/join_requests.py zipkin", ZIPKIN, 1),
    (CAUSES, "an array of traces", [b"[" + ZSPANS + b"," + ZSPANS + b"]"], "examples/join_requests.py zipkin", ZIPKIN, 12),
    (
        CAUSES, "spans with a tag that is a number", [zipkin(tags={"http.status_code": 402}), zipkin(tags={"retried": True})],
        "examples/texts_of_tags.py", ZIPKIN, 6,
    ),
    (CAUSES, "kinds or codes by their names", [KINDS], HEX, JSON, 10),
    (CAUSES, "identifiers in base64", [dumped(PRINTED)], HEX, JSON, 10),
    (CAUSES, "metrics or logs", [field(1, field(2, field(2, field(1, b"m")))), field(1, field(2, field(2, b"\x09" + bytes(8) + field(3, b""))))]),
    (CAUSES, "a request whose identifiers are hexadecimal texts", [HEX_IDS]),
    (CAUSES, "identifiers with dashes", [zipkin(traceId="5b8efff7-9803-8103-d269-b633813fc60c")]),
    (CAUSES, "a span whose trace or own identifier", [batch().replace(b"\x0a\0\1" + bytes(7) + b"\1", b"\x0a\0\1" + bytes(8))]),
    (CAUSES, "a kind in small letters", [zipkin(kind="server")]),
    (CAUSES, "a kind or a code outside", [{PROTO: group((6, 6)), JSON: document(kind=6)}, {PROTO: group((15, field(3, 3))), JSON: document(status={"code": 3})}]),
    (CAUSES, "a batch of a writer of its own", [with_list(b"\x08\0\0\0\1\0\0\0\1")]),
    (
        CAUSES, "a request with a number that has a fraction", [document(attributes=[{"key": "k", "value": {"doubleValue": 0.5}}])],
        "examples/mend_faults.py otlp-json app.", JSON, 1,
    ),
    (CAUSES, "times in nanoseconds", [{ZIPKIN: zipkin(timestamp=1_700_000_000_000_000_000), BINARY: BATCH.replace((1_700_000_000_000_000).to_bytes(8, "big"), (1_700_000_000_000_000_000).to_bytes(8, "big"))}]),
    (CAUSES, "a document of more than 64 MiB", ["lines"], "examples/join_requests.py otlp", None, None),
    (CAUSES, "a request with its body", [b"b3: 0\n" + b"x" * 16_384]),
    (CAUSES, "lines with the first line", [example("request_head.txt"), b'{"traceparent":"00"}']),
    (CAUSES, "a request without a context", [b"Host: shop.example\n", b"x-datadog-trace-id: 1\n"]),
    (CAUSES, "digits in capitals", [b"traceparent: 00-" + held for held in [b"A" * 32 + b"-" + b"1" * 16 + b"-01\n"]] + [b'traceparent: "00-' + b"a" * 32 + b"-" + b"1" * 16 + b'-01"\n']),
    (CAUSES, "identifiers of another length", [b"b3: 0af7-b7ad-1\n", b"X-B3-TraceId: 0af7651916cd43dd\n"]),
    (CAUSES, "one with other signs than colons", [b"uber-trace-id: 1;2;0;1\n", b"uber-trace-id: 1:2\n"]),
    (FAULTS, "a span whose end was never set", ["no end"], MEND, None, 1),
    (FAULTS, "the number of the flags", [request(attributes=[("jaeger.flags", ("number", 2))])], MEND, None, 1),
    (FAULTS, "a truth value in place", [request(attributes=[("zipkin.debug", ("truth", True))])], MEND, None, 1),
    (FAULTS, "an event whose name is itself", [group((11, field(2, b'"retry":{"attempt":1}')))], MEND, None, 1),
    (FAULTS, "a link marked as a child's", ["link"], MEND, None, 1),
    (FAULTS, "a double: a ratio", [request(attributes=[("ratio", HALF)])], TEXTS, None, 1),
    (FAULTS, "a double in a list or map", [request(attributes=[("ratio", ("list", [HALF]))])], TEXTS, None, 1),
    (FAULTS, "of `headers`: `b3: 0`", [b"b3: 0\n"]),
]


def made(held):
    """An input that is made when it is wanted."""
    if held == "zstd":
        return subprocess.run(["zstd", "-qc"], input=REQUEST, capture_output=True, check=True).stdout
    if held == "no end":
        return otlp.write_group(otlp.Group(scopes=[otlp.Scope(spans=[otlp.Span(1, 2, name="a", kind=1, start=5000, end=0)])]))
    if held == "link":
        link = otlp.Link(2, 3, attributes={"opentracing.ref_type": ("text", "child_of")})
        span = otlp.Span(2, 1, parent=3, name="a", kind=1, start=1000, end=2000, links=[link])
        return otlp.write_group(otlp.Group(scopes=[otlp.Scope(spans=[span])]))
    if held == "lines":
        return dumped({"resourceSpans": json.loads(DOCUMENT)["resourceSpans"] * 7000})
    return held


def told(heading, held, form):
    """What the program says of an input: the last line of a check, or the note of a conversion."""
    if heading == FAULTS and form in ["w3c", "uber"]:
        words = ["headers", "--to", form]
    elif heading == FAULTS:
        words = ["convert", "--from", PROTO, "--to", form]
    elif form == "headers":
        words = ["headers", "--to", "b3"]
    else:
        words = ["check", "--from", form]
    done = subprocess.run([PROGRAM, *words], input=held, capture_output=True)
    wanted = {EMPTY: 0, CAUSES: 3, FAULTS: 4}[heading]
    said = (done.stdout.decode().splitlines() or [""])[-1] if heading == EMPTY else done.stderr.decode().strip()
    return said if done.returncode == wanted else f"status {done.returncode}, {said}"


def mended(held, remedy, form):
    """How many spans what is done gives."""
    done = subprocess.run(["bash", "-o", "pipefail", "-c", remedy], input=held, capture_output=True, cwd=TOP)
    if done.returncode:
        return done.stderr.decode()
    counted = subprocess.run([PROGRAM, "check", "--from", form], input=done.stdout, capture_output=True)
    found = re.search(r"spans (\d+), ", counted.stdout.decode())
    return int(found[1]) if found and not counted.returncode else counted.stderr.decode()


def spans_in(form):
    return {PROTO: 10, JSON: 10, BINARY: 4, COMPACT: 4, ZIPKIN: 6}[form]


def rows_of(lines):
    """The rows of the page's tables, by their headings, as cells."""
    heading, rows = "", {}
    for line in lines:
        if line.startswith("## "):
            heading = line
        elif line.startswith("| ") and not line.startswith("|---"):
            rows.setdefault(heading, []).append([cell.strip() for cell in line.strip("|").split(" | ")])
    return {heading: held[1:] for heading, held in rows.items()}


def forms_in(cell):
    return re.findall(r"`([a-z0-9-]+)`", cell)


def try_row(heading, row, case):
    """What differs in a row."""
    _, _, inputs, *remedy = case
    said = re.match("`([^`]+)`", row[0])[1]
    for held in inputs:
        for form in forms_in(row[1]):
            now = made(held[form] if isinstance(held, dict) else held)
            if said not in (found := told(heading, now, form)):
                yield f"as {form}: {found}, for {now[:40]}"
            if remedy and remedy[0] and held != "lines":
                work = remedy[0].replace("FORM", form)
                if (number := mended(now, work, remedy[1] or form)) != (remedy[2] or spans_in(form)):
                    yield f"{work}: {number}"
    for words in re.findall(r"`((?:examples/|gzip |head |tail |zstd |base64 |xxd |iconv )[^`]*)`", row[3]):
        if not (remedy and words in (remedy[0] or "")) and words != "examples/request_of_frames.py":
            yield f"`{words}` isn't run"


def large_documents():
    """Lines of more than a document may have become documents below its size, with all spans."""
    with tempfile.TemporaryDirectory() as folder:
        line, front = DOCUMENT.strip() + b"\n", os.path.join(folder, "joined-")
        script = [os.path.join(TOP, "examples", "join_requests.py"), "otlp"]
        done = subprocess.run([*script, front], input=line * 7000, capture_output=True)
        if done.returncode:
            return done.stderr.decode()
        spans = 0
        for name in sorted(os.listdir(folder)):
            with open(os.path.join(folder, name), "rb") as file:
                found = re.search(rb"spans (\d+), ", subprocess.run([PROGRAM, "check", "--from", JSON], stdin=file, capture_output=True).stdout)
            spans += int(found[1]) if found else 0
        alone = subprocess.run(script, input=line * 7000, capture_output=True)
        if (alone.returncode, alone.stderr) != (1, b"more than 67108864 bytes: give a front of names, for several files\n"):
            return f"without a front: {alone.returncode} {alone.stderr.decode()}"
        return None if spans == 70_000 and len(os.listdir(folder)) == 2 else f"{spans} spans in {len(os.listdir(folder))} files"


# ---- what the agent notes

AGENT_NOTES = "## What `spanx_agent` notes"
# Of each row the beginning of what the datagram is, and datagrams of the kind.
DATAGRAMS = [
    ("none of a client of Jaeger's", [b"", b"page.views:1|c\n", b"GET / HTTP/1.1\r\n\r\n", b"\n"]),
    ("a batch without a message", [BATCH, COMPACTED]),
    ("a message in the older form", [b"\0\0\0\x09emitBatch\4\0\0\0\0\x0c\0\1" + BATCH + b"\0"]),
    ("JSON or protobuf", [REQUEST, DOCUMENT, ZSPANS]),
    ("Zipkin's spans in Thrift", [compact_head(name=b"emitZipkinBatch") + b"\x19\x0c\0", binary_head(name=b"emitZipkinBatch") + b"\x0f\0\1\x0c\0\0\0\0\0"]),
    ("one that was cut", [DATAGRAM[:-20], BINARY_DATAGRAM[:-20]]),
    ("one whose stop byte", [DATAGRAM[:-1], BINARY_DATAGRAM[:-1]]),
    ("one whose bytes went through a text", [as_text(DATAGRAM), as_text(BINARY_DATAGRAM)]),
    ("one that carries two batches", [compact_head() + b"\x1c" + COMPACTED + b"\x0c\2" + COMPACTED + b"\0"]),
    ("one of a writer of its own, whose batch has another number", [compact_head() + b"\x2c" + COMPACTED + b"\0", compact_head() + b"\0"]),
    ("two messages in one datagram", [DATAGRAM + DATAGRAM, BINARY_DATAGRAM + BINARY_DATAGRAM]),
    ("one with a byte too many", [DATAGRAM + b"\n", BINARY_DATAGRAM + b"\n"]),
    ("one of a writer of its own, whose batch lacks", [compact_head() + b"\x1c\0\0", binary_head() + b"\x0c\0\1" + batch().replace(b"\x08\0\7\0\0\0\1", b"") + b"\0"]),
    ("one with a span whose trace", [binary_head() + b"\x0c\0\1" + batch().replace(b"\x0a\0\1" + bytes(7) + b"\1", b"\x0a\0\1" + bytes(8)) + b"\0"]),
    ("one with a double in a tag", [binary_head() + b"\x0c\0\1" + batch([("ratio", HALF)]) + b"\0"]),
]


def lines_of(sent, to):
    """The line that the agent has for each datagram, without its number; nothing of a good one."""
    agent, found = Agent(to, len(sent) + 1), []
    for text in sent:
        agent.socket.sendto(text, agent.address)
        time.sleep(0.02)
    # A bad one at the end, behind which nothing is to be waited for.
    agent.socket.sendto(b"", agent.address)
    status, _, notes = agent.ends()
    told = {int(number): line for number, line in TELLS.findall(notes.decode())}
    found = [told.get(number, "") for number in range(1, len(sent) + 1)]
    return found if status == 0 else [f"status {status}"] * len(sent)


def try_datagrams(rows):
    """What differs in the rows of what the agent notes."""
    left = list(rows)
    for begin, sent in DATAGRAMS:
        row = next((row for row in left if row[1].startswith(begin)), None)
        if not row:
            yield f"no row begins with: {begin}"
            continue
        left.remove(row)
        for to in ["zipkin-json", "otlp-json"]:
            for text, line in zip(sent, lines_of(sent, to)):
                if line != row[0].strip("`"):
                    yield f"{begin}, to {to}: {line}, and not {row[0]}, for {text[:40]}"
        if "head -c -1" in row[2] and any(lines_of([text[:-1] for text in sent], JSON)):
            yield f"{begin}: it isn't good without its last byte"
        if "--to otlp-proto" in row[2] and any(line for to in [PROTO, BINARY, COMPACT] for line in lines_of(sent, to)):
            yield f"{begin}: another form doesn't hold it"
    yield from [f"not tried: {row[0]}, {row[1]}" for row in left]


# ---- the other statuses


def ended(words, program=PROGRAM, **settings):
    done = subprocess.run([program, *words], capture_output=True, timeout=SECONDS, **settings)
    return done.returncode, done.stderr.decode().strip()


def held_back():
    resource.setrlimit(resource.RLIMIT_AS, (60_000_000, 60_000_000))


def of_relay():
    """The rows of the relay among these."""
    right = ["--listen", "127.0.0.1:0", "--to", PROTO, "--peer", "127.0.0.1:1", "--count", "1"]
    changed = [(3, "jaeger-compact"), (3, "otlp"), (5, ""), (5, "a b:1"), (7, "0"), (7, "1000001")]
    for words in [*([*right[:at], word, *right[at + 1 :]] for at, word in changed), right[:6], right + right[:2]]:
        yield "usage: spanx_relay", 2, ended(words, RELAY)
    with socket.create_server(("127.0.0.1", 0)) as taken:
        for address in [f"127.0.0.1:{taken.getsockname()[1]}", "192.0.2.1:4330"]:
            yield "door failed", 5, ended(["--listen", address, *right[2:]], RELAY)
    with Peer(lambda *_: said(400)) as peer:
        for address in [peer.address, "127.0.0.1:1"]:
            with Relay(PROTO, address, 1) as relay:
                post_over(relay, b"[]")
                status, _, notes = relay.end()
                yield "left", 8, (status, notes.strip())


def statuses():
    """Of each row of the other statuses its note, its status and what the program does."""
    usages = [
        ["convert", "--from", "otlp", "--to", "jaeger-binary"], ["convert", "--from", "jaeger", "--to", PROTO], ["check", "--from=otlp-proto"],
        ["convert", "--from", PROTO], ["check", "--from", PROTO, "examples/checkout.bin"],
    ]
    for words in usages:
        yield "usage: spanx", 2, ended(words, input=REQUEST)
    here = ["--listen", "127.0.0.1:0"]
    for words in [[*here, "--to", "otlp", "--count", "1"], [*here, "--to", JSON], [*here, "--to", JSON, *here], [*here, "--to", JSON, "--count", "0"],
                  ["--listen=127.0.0.1:6831", "--to", JSON, "--count", "1"]]:
        yield "usage: spanx_agent", 2, ended(words, AGENT)
    with socket.socket(socket.AF_INET, socket.SOCK_DGRAM) as taken:
        taken.bind(("127.0.0.1", 0))
        for address in [f"127.0.0.1:{taken.getsockname()[1]}", "192.0.2.1:6831", "127.0.0.1"]:
            yield "post failed", 5, ended(["--listen", address, "--to", JSON, "--count", "1"], AGENT)
    folder = os.open(TOP, os.O_RDONLY)
    yield "input failed", 5, ended(["check", "--from", PROTO], stdin=folder)
    os.close(folder)
    with socket.create_server(("127.0.0.1", 0)) as taken:
        yield "door failed", 5, ended(["serve", "--listen", f"127.0.0.1:{taken.getsockname()[1]}", "--to", PROTO, "--count", "1"])
    yield "door failed", 5, ended(["serve", "--listen", "192.0.2.1:4318", "--to", PROTO, "--count", "1"])
    with open("/dev/full", "wb") as full:
        done = subprocess.run([PROGRAM, "show", "--from", PROTO], input=REQUEST, stdout=full, stderr=subprocess.PIPE)
    yield "output failed", 6, (done.returncode, done.stderr.decode().strip())
    large = b'{"resourceSpans":[' + b"{}," * 2_000_000 + b"{}]}"
    yield "out of memory", 7, ended(["check", "--from", JSON], input=large, preexec_fn=held_back)
    with tempfile.TemporaryDirectory() as room:
        launcher = os.path.join(room, "spanx")
        with open(os.path.join(TOP, "spanx"), "rb") as file, open(launcher, "wb") as copy:
            copy.write(file.read())
        path = os.pathsep.join(folder for folder in os.environ["PATH"].split(os.pathsep) if not os.path.exists(os.path.join(folder, "rt")))
        done = subprocess.run(["sh", launcher, "check"], capture_output=True, env=os.environ | {"PATH": path})
        yield "spanx: the program isn't built yet", 70, (done.returncode, done.stderr.decode().strip())


# ---- what serve answers


def post(path="/v1/traces", kind="application/x-protobuf", body=REQUEST, more=b""):
    return b"POST " + path.encode() + b" HTTP/1.1\r\nContent-Type: " + kind.encode() + b"\r\n" + more + b"Content-Length: %d\r\n\r\n" % len(body) + body


FAULTED = request(attributes=[("jaeger.flags", ("number", 2))])
NO_BODY = b"POST /v1/traces HTTP/1.1\r\nContent-Type: application/x-protobuf\r\n"
ANSWERED = [
    ("400, with a line", [post(body=DOCUMENT), post(kind="application/json", body=REQUEST)]),
    ("400, without content", [b"PRI * HTTP/2.0\r\n\r\nSM\r\n\r\n"]),
    ("404", [post("/"), post("/v1/metrics"), post("/v1/logs"), post("/api/v1/spans", "application/json")]),
    ("405", [b"GET /v1/traces HTTP/1.1\r\n\r\n", b"HEAD /v1/traces HTTP/1.1\r\n\r\n"]),
    ("411", [NO_BODY + b"\r\n"]),
    ("413", [NO_BODY + b"Content-Length: 67108865\r\n\r\n"]),
    ("415, of a body", [post(more=b"Content-Encoding: gzip\r\n", body=gzip.compress(REQUEST))]),
    ("415, of a type", [post(kind=kind) for kind in ["application/x-www-form-urlencoded", "application/grpc"]] + [post("/api/v2/spans")]),
    ("422, with a line", [post(body=FAULTED)]),
    ("431", [NO_BODY + b"Cookie: " + b"x" * 16_384 + b"\r\n\r\n", NO_BODY + b"A: b\r\n" * 64 + b"\r\n"]),
    ("501", [NO_BODY + b"Transfer-Encoding: chunked\r\n\r\n0\r\n\r\n"]),
]


def free_port():
    with socket.create_server(("127.0.0.1", 0)) as door:
        return door.getsockname()[1]


class Serving:
    """The program at an address, until its connections are through."""

    def __init__(self, count, target=BINARY, **settings):
        self.port = free_port()
        words = [PROGRAM, "serve", "--listen", f"127.0.0.1:{self.port}", "--to", target, "--count", str(count)]
        self.process = subprocess.Popen(words, stderr=subprocess.PIPE, **settings)

    def connect(self):
        for _ in range(100):
            try:
                return socket.create_connection(("127.0.0.1", self.port), timeout=SECONDS)
            except ConnectionRefusedError:
                time.sleep(0.05)
        raise ConnectionRefusedError

    def ask(self, sent):
        """All that is answered to these bytes."""
        with self.connect() as line:
            line.sendall(sent)
            line.shutdown(socket.SHUT_WR)
            parts = []
            try:
                while part := line.recv(65_536):
                    parts.append(part)
            except ConnectionResetError:
                pass
            return b"".join(parts)

    def end(self):
        notes = self.process.communicate(timeout=SECONDS)[1].decode().strip()
        return self.process.returncode, notes


def answers():
    """Of each row of what serve answers what differs."""
    for cell, asked in ANSWERED:
        for sent in asked:
            serving = Serving(1)
            answer = serving.ask(sent)
            serving.end()
            head, _, content = answer.partition(b"\r\n\r\n")
            good = head.startswith(b"HTTP/1.1 " + cell[:3].encode())
            good = good and ("with a line" in cell) == bool(re.fullmatch(rb"unit \d+: (cause|fault) .*\n?", content))
            yield cell, None if good else f"{answer[:100]} for {sent[:60]}, and not {cell}"
    yield "no answer", silent()


def silent():
    """Whether a client waits behind one that is silent, and is served when that ends."""
    serving = Serving(2)
    first = serving.connect()
    with serving.connect() as second:
        second.sendall(post())
        second.settimeout(0.5)
        try:
            early = second.recv(1)
        except TimeoutError:
            early = None
        first.close()
        second.settimeout(SECONDS)
        late = second.recv(12)
    serving.end()
    return None if early is None and late == b"HTTP/1.1 200" else f"before {early}, behind {late}"


def out_of_memory():
    """What a client has of serve that finds no memory."""
    serving = Serving(9, JSON, preexec_fn=held_back)
    answer = serving.ask(post(kind="application/json", body=b'{"resourceSpans":[' + b"{}," * 2_000_000 + b"{}]}"))
    status = serving.end()
    return None if (answer, status) == (b"", (7, "out of memory")) else f"{answer[:60]}, {status}"


def main():
    if not all(os.access(program, os.X_OK) for program in [PROGRAM, AGENT, RELAY]):
        sys.exit(BUILD)
    with open(PAGE, encoding="utf-8") as page:
        lines = page.read().split("\n")
    rows, wrong = rows_of(lines), []
    for heading in [EMPTY, CAUSES, FAULTS]:
        left = list(rows[heading])
        for case in [case for case in CASES if case[0] == heading]:
            row = next((row for row in left if row[2].startswith(case[1])), None)
            if not row:
                wrong.append(f"{heading}: no row begins with: {case[1]}")
                continue
            left.remove(row)
            wrong += [f"{heading}, {row[0]}, {case[1]}: {why}" for why in try_row(heading, row, case)]
        wrong += [f"{heading}: not tried: {row[0]}, {row[2]}" for row in left]
        print(f"tried: {heading[3:]}: {len(rows[heading])} rows")
    wrong += [f"{AGENT_NOTES}: {why}" for why in try_datagrams(rows[AGENT_NOTES])]
    print(f"tried: {AGENT_NOTES[3:]}: {len(rows[AGENT_NOTES])} rows")
    if why := large_documents():
        wrong.append(f"a document of more than 64 MiB: {why}")
    others, tried = {row[0].strip("`"): row[1] for row in rows["## The other statuses"]}, set()
    for note, status, (ends, told) in [*statuses(), *of_relay()]:
        tried.add(note)
        if others.get(note) != str(status) or ends != status or note not in told:
            wrong.append(f"{note}: status {ends}, {told}; the page says {others.get(note)}")
    wrong += [f"not tried: {note}" for note in others.keys() - tried]
    told_rows, asked = {row[0] for row in rows["## What `serve` answers"]}, set()
    for cell, why in answers():
        asked.add(cell)
        if why or cell not in told_rows:
            wrong.append(f"{cell}: {why or 'no such row'}")
    wrong += [f"not tried: {cell}" for cell in told_rows - asked]
    if why := out_of_memory():
        wrong.append(f"serve without memory: {why}")
    print(f"tried: statuses and answers: {len(others) + len(told_rows)} rows")
    for why in wrong:
        print(f"WRONG: docs/CAUSES.md: {why}")
    return 1 if wrong else 0


if __name__ == "__main__":
    sys.exit(main())
