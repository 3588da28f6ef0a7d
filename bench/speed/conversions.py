#!/usr/bin/env python3
"""Times the built program on spans as exporters write them, as a trace request in protobuf and in JSON, as Jaeger batches and as a
Zipkin document, beside `cat`, and beside `jq` where it counts the spans of a document.

Run it at the top as bench/speed/conversions.py, after ./spanx has built the program. It makes requests of about 1 MB and 25 MB
and the batches and documents of the same spans, runs each pair of forms, the losses of each beside it, and `show` and `check` of
each form five times over them, and prints the best time of each with its user time, and the peak of memory. Words that are given
choose the pairs and reports whose names, as in `otlp-proto to zipkin-json`, `otlp-proto to zipkin-json, losses` and `otlp-proto
to show`, hold one of them. These figures are no test: they hang on the machine and its load. With `--write FILE MEGABYTES` it
only writes such a request, and with the word of another form behind it the text of that form.
"""
import os
import struct
import subprocess
import sys
import tempfile

sys.path.insert(1, os.path.dirname(os.path.dirname(os.path.realpath(__file__))))
import rooms  # first: it finds the others
import forms
import losses
import program
import reports
from program import BUILD, PROGRAM, Measured, command, losses_command, report, report_command, seconds_of
from protocols import PROTOCOLS
from wire import bytes_field, fixed32_field, fixed64_field, number_field

RUNS = 5
BEGIN = 1_700_000_000_000_000_000
SPANS = 50
SCOPES = 2
DIFFERENT = 4_000
ROUTES = ["/", "/cart", "/checkout", "/orders/{id}", "/products/{sku}", "/users/{id}/addresses", "/health", "/search"]
METHODS = ["GET", "GET", "GET", "POST", "PUT", "DELETE"]
TABLES = ["orders", "customers", "shipments", "inventory", "prices"]
# What counts the spans of a document besides.
PEERS = {forms.JSON: "[.resourceSpans[].scopeSpans[].spans[]] | length", forms.ZIPKIN: "length"}
EXACT = 2_000_000


def text_value(text):
    return bytes_field(1, text.encode())


def truth_value(truth):
    return number_field(2, int(truth))


def number_value(n):
    return number_field(3, n % 2**64)


def pair(key, value):
    return bytes_field(1, key.encode()) + bytes_field(2, value)


def random_numbers(seed):
    """Numbers of 64 bits that look random and are the same in each run (splitmix64)."""
    state = seed
    while True:
        state = (state + 0x9E3779B97F4A7C15) % 2**64
        z = ((state ^ state >> 30) * 0xBF58476D1CE4E5B9) % 2**64
        z = ((z ^ z >> 27) * 0x94D049BB133111EB) % 2**64
        yield z ^ z >> 31


def attributes(n):
    """Ten attributes in the order in which an instrumentation sets them."""
    route, table = ROUTES[n % len(ROUTES)], TABLES[n // 7 % len(TABLES)]
    return [
        pair("http.request.method", text_value(METHODS[n // 3 % len(METHODS)])),
        pair("url.path", text_value(route.replace("{id}", str(n % 99_991)).replace("{sku}", f"A-{n % 9_973}"))),
        pair("http.route", text_value(route)),
        pair("http.response.status_code", number_value([200, 200, 200, 201, 404, 503][n // 11 % 6])),
        pair("server.address", text_value(f"node-{n % 40}.shop.internal")),
        pair("network.peer.port", number_value(32_768 + n % 28_000)),
        pair("db.query.text", text_value(f"SELECT id, state FROM {table} WHERE customer = {n % 65_521}")),
        pair("thread.id", number_value(n % 64)),
        pair("cache.hit", truth_value(n % 3 == 0)),
        pair("clock.skew", number_value(n % 2_001 - 1_000)),
    ]


def event(n, at):
    name = ["cache.lookup", "retry", "message", "lock.acquired"][n % 4]
    held = fixed64_field(1, at) + bytes_field(2, name.encode())
    held += bytes_field(3, pair("attempt", number_value(n % 5)))
    return held + bytes_field(3, pair("detail", text_value(f"shard {n % 128} answered in {n % 7_919} us")))


def span_rest(n):
    """All of a span but its identifiers."""
    start = BEGIN + n % 2**40
    end = start + 1_000 + n % 900_000_000
    held = bytes_field(5, f"{METHODS[n // 3 % len(METHODS)]} {ROUTES[n % len(ROUTES)]}".encode()) + number_field(6, 1 + n % 5)
    held += fixed64_field(7, start) + fixed64_field(8, end)
    held += b"".join(bytes_field(9, held_pair) for held_pair in attributes(n))
    held += b"".join(bytes_field(11, event(n // 13 + i, start + 500 * (i + 1))) for i in range(2))
    if n % 10 == 0:
        target = bytes_field(1, struct.pack(">QQ", n, n ^ 77)) + bytes_field(2, struct.pack(">Q", n | 1))
        held += bytes_field(13, target + bytes_field(4, pair("link.kind", text_value("follows"))) + fixed32_field(6, 1))
    if n % 17 == 0:
        held += bytes_field(15, bytes_field(2, f"upstream answered {n % 100}".encode()) + number_field(3, 2))
    return held + fixed32_field(16, 257)


def span(k, rest):
    """A span of a trace of ten, the first of which is the parent of the others."""
    held = bytes_field(1, struct.pack(">QQ", 0x5B8EFFF798038103, k // 10 + 1)) + bytes_field(2, struct.pack(">Q", k + 1))
    if k % 10:
        held += bytes_field(4, struct.pack(">Q", k - k % 10 + 1))
    return bytes_field(2, held + rest)


def resource(g):
    pairs = [
        pair("service.name", text_value(f"shop-{g % 23}")),
        pair("service.version", text_value(f"2.{g % 9}.1")),
        pair("host.name", text_value(f"node-{g % 40}")),
        pair("process.pid", number_value(1_000 + g)),
    ]
    return bytes_field(1, b"".join(bytes_field(1, held) for held in pairs))


def scope(g, spans):
    origin = bytes_field(1, f"io.shop.instrumentation.{g % 6}".encode()) + bytes_field(2, b"1.27.0")
    return bytes_field(2, bytes_field(1, origin) + b"".join(spans))


def request(size):
    """Groups of two scopes of fifty spans, as many as fit the size, and the number of spans."""
    numbers = random_numbers(7)
    rests = [span_rest(next(numbers)) for _ in range(DIFFERENT)]
    out, total, k, g = [], 0, 0, 0
    while True:
        scopes = []
        for _ in range(SCOPES):
            scopes.append(scope(g + len(scopes), [span(k + i, rests[next(numbers) % DIFFERENT]) for i in range(SPANS)]))
            k += SPANS
        group = bytes_field(1, resource(g) + b"".join(scopes))
        if total + len(group) > size:
            return b"".join(out), k - SCOPES * SPANS
        out.append(group)
        total += len(group)
        g += 1


def inputs(size):
    """The text of each form, and the number of spans."""
    text, spans = request(size)
    groups = list(forms.groups(text, forms.OTLP))
    return {form: text if form == forms.OTLP else forms.write(groups, form) for form in forms.FORMS}, spans


def converted(text, source, target):
    done = subprocess.run(command(source, target), input=text, stdout=subprocess.PIPE)
    if done.returncode != 0:
        sys.exit(f"the program refuses the input, {source} to {target}")
    return done.stdout


def check(texts):
    """What is written must be canonical: a request of the input's size, since that has no defaults, which is written again
    as it is, and the very batches and documents, also of what these are converted to. In Zipkin values are texts, so that
    of its document come other batches."""
    written = {pair: converted(texts[pair[0]], *pair) for pair in forms.PAIRS}
    first = written[forms.OTLP, forms.OTLP]
    if len(first) != len(texts[forms.OTLP]) or converted(first, forms.OTLP, forms.OTLP) != first:
        sys.exit("the program doesn't write the canonical text of the request")
    if {written[forms.JSON, forms.OTLP], converted(written[forms.OTLP, forms.JSON], forms.JSON, forms.OTLP)} != {first}:
        sys.exit("the program doesn't write the request of its JSON")
    if {written[forms.OTLP, forms.JSON], written[forms.JSON, forms.JSON]} != {texts[forms.JSON]}:
        sys.exit("the program doesn't write the JSON of the request")
    for form in PROTOCOLS:
        backs = [converted(written[form, request], request, form) for request in [forms.OTLP, forms.JSON]]
        if {*backs, *(written[source, form] for source in texts if source != forms.ZIPKIN)} != {texts[form]}:
            sys.exit("the program doesn't write the batches of the input")
    backs = {converted(written[forms.ZIPKIN, form], form, forms.ZIPKIN) for form in texts}
    if {*backs, *(written[source, forms.ZIPKIN] for source in texts)} != {texts[forms.ZIPKIN]}:
        sys.exit("the program doesn't write the document of the input")


def check_reports(texts, spans):
    """A line for each span, and no remark; of smaller inputs the lines of the readers of bench/readers."""
    for source, text in texts.items():
        shown, checked = (report(text, source, mode) for mode in reports.MODES)
        is_right = (shown[0], checked[0]) == (0, 0) and shown[1].count(b"\n") == spans and checked[1].endswith(b", spans %d, remarks 0\n" % spans)
        if is_right and len(text) < EXACT:
            is_right = [shown[1], checked[1]] == [reports.verdict(text, source, mode)[2] for mode in reports.MODES]
        if not is_right:
            sys.exit(f"the program doesn't report the spans of the input, {source}")


def check_losses(texts):
    """As many lines as the last one says, and of smaller inputs those of the readers."""
    for source, target in forms.PAIRS:
        text = texts[source]
        status, written, note = program.losses(text, source, target)
        is_right = (status, note) == (0, "") and written.endswith(b"losses %d\n" % (written.count(b"\n") - 1))
        if is_right and len(text) < EXACT:
            is_right = written == losses.verdict(text, source, target)[2]
        if not is_right:
            sys.exit(f"the program doesn't tell the losses of the input, {source} to {target}")


def show(name, words, path, size):
    """Prints what a command costs over a file."""
    seconds, user = min(seconds_of(words, path) for _ in range(RUNS))
    memory = Measured(words, path, 600).memory / 1e6
    speed = size / 1e6 / seconds
    print(f"  {name}: {seconds * 1000:.1f} ms, {user * 1000:.1f} ms of it user time, {speed:.0f} MB/s, memory {memory:.1f} MB")


def measure(size, words):
    texts, spans = inputs(size)
    check(texts)
    check_reports(texts, spans)
    check_losses(texts)
    is_chosen = lambda source, what: not words or any(word in f"{source} to {what}" for word in words)
    for source, text in texts.items():
        print(f"{source}: {len(text) / 1e6:.2f} MB, {spans} spans")
        with tempfile.NamedTemporaryFile() as file:
            file.write(text)
            file.flush()
            show("cat", ["cat"], file.name, len(text))
            if source in PEERS and any(is_chosen(source, mode) for mode in reports.MODES):
                show("jq, which counts the spans", ["jq", PEERS[source]], file.name, len(text))
            for target in texts:
                if is_chosen(source, target):
                    show(f"spanx to {target}", command(source, target), file.name, len(text))
                if is_chosen(source, f"{target}, {losses.LOSSES}"):
                    show(f"spanx to {target}, losses", losses_command(source, target), file.name, len(text))
            for mode in reports.MODES:
                if is_chosen(source, mode):
                    show(f"spanx {mode}", report_command(mode, source), file.name, len(text))


def main():
    if sys.argv[1:2] == ["--write"]:
        size, form = int(float(sys.argv[3]) * 1e6), (sys.argv[4:] or ["otlp-proto"])[0]
        with open(sys.argv[2], "wb") as out:
            out.write(request(size)[0] if form == "otlp-proto" else inputs(size)[0][form])
        return
    if not os.path.exists(PROGRAM):
        sys.exit(BUILD)
    for size in [1_000_000, 25_000_000]:
        measure(size, sys.argv[1:])


if __name__ == "__main__":
    main()
