#!/usr/bin/env python3
"""Drives `serve` with real clients and with hostile ones, and compares each answer with what `convert` makes of the same body.

Run it at the top as bench/services/gateway.py, after ./spanx has built the program. It takes two minutes. What exporters post is
taken where they are there, and nginx, as the page sets it up. It ends with 0 where all agree; its times and memory are no test.
Words that are given choose the parts whose names hold one of them.
"""
import concurrent.futures
import http.client
import os
import re
import socket
import struct
import subprocess
import sys
import tempfile
import threading
import time
import urllib.request

sys.path.insert(1, os.path.dirname(os.path.dirname(os.path.realpath(__file__))))
import rooms  # first: it finds the others
import forms
from program import BUILD, PROGRAM, TOP, convert
from protocols import PROTOCOLS

BINARY, COMPACT = PROTOCOLS

KINDS = {
    forms.OTLP: "application/x-protobuf", forms.JSON: "application/json", BINARY: "application/vnd.apache.thrift.binary",
    COMPACT: "application/vnd.apache.thrift.compact", forms.ZIPKIN: "application/json",
}
# The path, the media type and the form in which a body is read.
TAKEN = [
    ("/v1/traces", "application/x-protobuf", forms.OTLP), ("/v1/traces?a=b", "Application/JSON; charset=utf-8", forms.JSON),
    ("/api/traces", "application/x-thrift", BINARY), ("/api/traces", "application/vnd.apache.thrift.binary", BINARY),
    ("/api/v2/spans", "application/json", forms.ZIPKIN),
]
SPANS = b'[{"traceId":"1","id":"1","name":"a"}]'
HEAD = b"POST /api/v2/spans HTTP/1.1\r\nHost: x\r\nContent-Type: application/json\r\nContent-Length: %d\r\n\r\n"
MANY = 100_000
BODY = 64 * 2**20


def example(name):
    with open(os.path.join(TOP, "examples", name), "rb") as held:
        return held.read()


def bodies():
    """Bodies that are read, refused, or can't be held, by the form in which they are read."""
    yield forms.OTLP, example("checkout.bin")
    yield forms.OTLP, example("checkout.bin")[:-100]
    yield forms.OTLP, b""
    yield forms.JSON, example("checkout.json")
    yield forms.JSON, b"{"
    yield BINARY, example("checkout_batch.bin")
    yield BINARY, b"\x0b"
    yield forms.ZIPKIN, SPANS
    yield forms.ZIPKIN, b"{}"
    yield forms.ZIPKIN, b'[{"traceId":"1","id":"1","tags":{"otel.status_description":"x","span.kind":"y"}}]'


def free_port():
    with socket.socket() as probe:
        probe.bind(("127.0.0.1", 0))
        return probe.getsockname()[1]


def listens(port):
    with open("/proc/net/tcp") as table:
        return any(row.split()[1].endswith(f":{port:04X}") and row.split()[3] == "0A" for row in list(table)[1:])


class Gateway:
    """The program, serving so many connections on a port of its own."""

    def __init__(self, target, count, **more):
        self.port = free_port()
        streams = {"stdin": subprocess.DEVNULL, "stdout": subprocess.PIPE, "stderr": subprocess.PIPE, **more}
        self.process = subprocess.Popen(self.words(target, count), **streams)
        while not listens(self.port) and self.process.poll() is None:
            time.sleep(0.01)

    def words(self, target, count):
        return [PROGRAM, "serve", "--listen", f"127.0.0.1:{self.port}", "--to", target, "--count", str(count)]

    def __enter__(self):
        return self

    def __exit__(self, *_):
        if self.process.poll() is None:
            self.process.kill()
        self.process.wait()

    def connect(self):
        return socket.create_connection(("127.0.0.1", self.port))

    def end(self):
        """How the run ended: its status, output and notes."""
        output, notes = self.process.communicate(timeout=60)
        return self.process.returncode, output, notes.decode()

    def memory(self):
        with open(f"/proc/{self.process.pid}/status") as told:
            return next(int(row.split()[1]) * 1024 for row in told if row.startswith("VmHWM"))


def expected(body, source, target):
    """The status, the media type and the content of an answer."""
    status, text, note = convert(body, source, target)
    return {0: (200, KINDS[target], text), 3: (400, "text/plain", note.encode()), 4: (422, "text/plain", note.encode())}[status]


def answers(connection):
    """What came of a connection until its end."""
    held = b""
    while piece := connection.recv(2**20):
        held += piece
    return held


def text_of(status, words, kind, body, closes=False):
    lines = [f"HTTP/1.1 {status} {words}"] + [f"Content-Type: {kind}"] * bool(kind) + [f"Content-Length: {len(body)}"]
    return "".join(f"{line}\r\n" for line in lines + ["Connection: close"] * closes).encode() + b"\r\n" + body


def post(body=SPANS):
    return HEAD % len(body) + body


def numbered(number):
    """A body of Zipkin's that is another for each number, and longer for each."""
    return b'[{"traceId":"1","id":"%x","name":"%s"}]' % (number, b"a" * number)


def converted(target, body=SPANS):
    return text_of(200, "OK", KINDS[target], expected(body, forms.ZIPKIN, target)[2])


def raw(name, pieces, wanted, target=forms.OTLP, status=(0, ""), reset=False):
    """What differs where these pieces are sent over one connection."""
    with Gateway(target, 1) as gateway:
        with gateway.connect() as connection:
            connection.setsockopt(socket.IPPROTO_TCP, socket.TCP_NODELAY, 1)
            for piece in pieces:
                connection.sendall(piece)
            if reset:
                connection.setsockopt(socket.SOL_SOCKET, socket.SO_LINGER, struct.pack("ii", 1, 0))
            else:
                connection.shutdown(socket.SHUT_WR)
                came = answers(connection)
                if came != wanted:
                    yield f"{name}: {came[:200]} instead of {wanted[:200]}"
        done = gateway.end()
        if done != (status[0], b"", status[1]):
            yield f"{name}: ended with {done}"


def clients():
    """Each body to each form, by Python's client over one kept connection, and by curl over two."""
    for target in forms.FORMS:
        wanted = [(path, kind, body, expected(body, source, target)) for path, kind, source in TAKEN for form, body in bodies() if form == source]
        with Gateway(target, 2) as gateway:
            kept = http.client.HTTPConnection("127.0.0.1", gateway.port)
            for path, kind, body, (status, media, content) in wanted:
                kept.request("POST", path, body, {"Content-Type": kind})
                came = kept.getresponse()
                got = came.status, came.getheader("Content-Type"), came.read()
                if got != (status, media, content):
                    yield f"{path} of {kind} to {target}: {got}"
            kept.close()
            path, kind, body, answer = wanted[0]
            url = f"http://127.0.0.1:{gateway.port}{path}"
            one = ["-H", f"Content-Type: {kind}", "--data-binary", "@" + os.path.join(TOP, "examples", "checkout.bin"), "-w", "%{http_code} %{num_connects}\n", "-o", "/dev/null", url]
            came = subprocess.run(["curl", "-s", *one, "--next", "-s", *one], capture_output=True, text=True).stdout
            if came != f"{answer[0]} 1\n{answer[0]} 0\n":
                yield f"curl to {target}: {came}"
            if gateway.end() != (0, b"", ""):
                yield f"to {target}: didn't end with 0"


def edges():
    """Connections that end in each way."""
    one, to = post(), converted(forms.OTLP)
    bare = b"GET /v1/traces HTTP/1.1\r\nHost: x\r\n\r\n"
    yield from raw("two in one piece", [one + one], to + to)
    yield from raw("one byte at a time", [bytes([b]) for b in one + one], to + to)
    yield from raw("behind another method", [bare + one], text_of(405, "Method Not Allowed", "", b"") + to)
    yield from raw("no such path", [bare.replace(b"/v1", b"/v2")], text_of(404, "Not Found", "", b""))
    yield from raw("HTTP/1.0", [one.replace(b"HTTP/1.1", b"HTTP/1.0") + one], text_of(200, "OK", KINDS[forms.OTLP], expected(SPANS, forms.ZIPKIN, forms.OTLP)[2], True))
    yield from raw("asked to close", [one.replace(b"Host: x", b"connection: CLOSE") + one], text_of(200, "OK", KINDS[forms.OTLP], expected(SPANS, forms.ZIPKIN, forms.OTLP)[2], True))
    yield from raw("compressed", [one.replace(b"Host: x", b"Content-Encoding: gzip")], text_of(415, "Unsupported Media Type", "", b""))
    yield from raw("expecting", [one.replace(b"Host: x", b"Expect: 100-continue")], to)
    for name, bytes_, status, words in [
        ("chunks", one.replace(b"Host: x", b"Transfer-Encoding: chunked"), 501, "Not Implemented"),
        ("no length", b"POST /v1/traces HTTP/1.1\r\nHost: x\r\n\r\n", 411, "Length Required"),
        ("a length of 10^17", HEAD % 10**17, 413, "Content Too Large"),
        ("a length of 2^60", HEAD % 2**60, 400, "Bad Request"),
        ("a body of the limit and one more", HEAD % (BODY + 1), 413, "Content Too Large"),
        ("a lone line feed", one.replace(b"x\r\n", b"x\n", 1), 400, "Bad Request"),
        ("no request", b"\x16\x03\x01\r\n\r\n", 400, "Bad Request"),
        ("a head without an end", b"POST /" + b"a" * 16_384, 431, "Request Header Fields Too Large"),
        ("a head without an end, byte by byte", [b"P"] + [b"a"] * 16_383, 431, "Request Header Fields Too Large"),
    ]:
        pieces = bytes_ if isinstance(bytes_, list) else [bytes_]
        yield from raw(name, pieces, text_of(status, words, "", b"", True))
    yield from raw("cut in its head", [one + one[:20]], to)
    yield from raw("cut in its body", [one + one[:-1]], to)
    yield from raw("nothing", [], b"")
    yield from raw("a client that resets", [one[:20]], b"", status=(0, "connection 1: read failed\n"), reset=True)


def addresses():
    """Addresses at which nothing can be listened."""
    with socket.socket() as other:
        other.bind(("127.0.0.1", 0))
        other.listen()
        for address in [f"127.0.0.1:{other.getsockname()[1]}", "127.0.0.1", "nowhere:1", "", "127.0.0.1:99999"]:
            done = subprocess.run([PROGRAM, "serve", "--listen", address, "--to", forms.OTLP, "--count", "1"], input=b"x", capture_output=True, timeout=60)
            if (done.returncode, done.stdout, done.stderr) != (5, b"", b"door failed\n"):
                yield f"{address!r}: {done}"


def timed(name, gateway, connection, sent, wanted):
    """Sends bytes while the answers are read, and compares their number."""
    start = time.perf_counter()
    sender = threading.Thread(target=lambda: (connection.sendall(sent), connection.shutdown(socket.SHUT_WR)))
    sender.start()
    came = answers(connection)
    sender.join()
    print(f"{name}: {time.perf_counter() - start:.1f} s, {gateway.memory() / 2**20:.0f} MB")
    if came != wanted:
        yield f"{name}: {len(came)} bytes instead of {len(wanted)}"


def hostile():
    """Many requests in one piece, and bodies of the limit."""
    with Gateway(forms.OTLP, 4) as gateway:
        with gateway.connect() as connection:
            yield from timed("a thousand requests in one piece", gateway, connection, post() * 1000, converted(forms.OTLP) * 1000)
        with gateway.connect() as connection:
            yield from timed(f"{MANY} requests in one piece", gateway, connection, post() * MANY, converted(forms.OTLP) * MANY)
        refused = b"[" + b" " * (BODY - 1)
        status, media, content = expected(refused, forms.ZIPKIN, forms.OTLP)
        with gateway.connect() as connection:
            yield from timed("a body of 64 MiB that is refused", gateway, connection, post(refused), text_of(status, "Bad Request", media, content))
        # The program ends behind its last connection, and its memory couldn't be asked for any more.
        gateway.connect().close()
        if gateway.end() != (0, b"", ""):
            yield "didn't end with 0"


def says_nothing(client):
    """Sends nothing."""


def stops_in_a_body(client):
    client.sendall(post()[:-1])


def sends_one_byte_more(client):
    """Is silent for 20 seconds, sends a byte, and is silent again."""
    threading.Timer(20, client.sendall, [b"P"]).start()


def does_not_read(client):
    """Posts a span whose answer no buffer on the way holds."""
    client.sendall(post(b'[{"traceId":"1","id":"1","name":"%s"}]' % (b"a" * 2**23)))


# What a client does, how it is noted, and the least and the most seconds that another waits: a write that takes a part of the answer
# has waited as well.
SILENT = [(says_nothing, "read", 29, 45), (stops_in_a_body, "read", 29, 45), (sends_one_byte_more, "read", 49, 65), (does_not_read, "write", 29, 120)]


def late(does, noted, least, most, program=lambda: Gateway(forms.OTLP, 2), wanted=converted):
    """What differs where a client does so, and another posts beside it."""
    name, wanted = does.__name__.replace("_", " "), wanted(forms.OTLP)
    with program() as gateway, socket.socket() as client:
        client.setsockopt(socket.SOL_SOCKET, socket.SO_RCVBUF, 4096)
        client.connect(("127.0.0.1", gateway.port))
        does(client)
        start = time.monotonic()
        with gateway.connect() as other:
            other.sendall(post())
            other.shutdown(socket.SHUT_WR)
            came, seconds = answers(other), time.monotonic() - start
        print(f"a client that {name}: another is answered after {seconds:.1f} s")
        if came != wanted or not least < seconds < most:
            yield f"beside a client that {name} another has {came[:200]} after {seconds:.1f} s"
        done = gateway.end()
        if done != (0, b"", f"connection 1: {noted} failed\n"):
            yield f"a client that {name}: ended with {done}"


def silent():
    """Clients that are silent for longer than 30 seconds, each before a program of its own."""
    with concurrent.futures.ThreadPoolExecutor() as pool:
        for found in pool.map(lambda row: list(late(*row)), SILENT):
            yield from found


class Passing:
    """Passes one connection on to a port, and keeps what went both ways."""

    def __init__(self, port):
        self.listener = socket.create_server(("127.0.0.1", 0))
        self.port, self.to = self.listener.getsockname()[1], port
        self.sent, self.came = b"", b""
        self.thread = threading.Thread(target=self.run, daemon=True)
        self.thread.start()

    def run(self):
        client, _ = self.listener.accept()
        with client, socket.create_connection(("127.0.0.1", self.to)) as gateway:
            back = threading.Thread(target=self.back, args=(client, gateway), daemon=True)
            back.start()
            while piece := client.recv(2**16):
                self.sent += piece
                gateway.sendall(piece)
            gateway.shutdown(socket.SHUT_WR)
            back.join()

    def back(self, client, gateway):
        while piece := gateway.recv(2**16):
            self.came += piece
            client.sendall(piece)


def zipkin_posts(url):
    """Two spans by py_zipkin and Python's own client."""
    from py_zipkin import Encoding
    from py_zipkin.zipkin import zipkin_client_span, zipkin_server_span

    def transport(payload):
        # py_zipkin has no transport of its own for HTTP in every version: its pages show this one.
        urllib.request.urlopen(urllib.request.Request(url, payload.encode() if isinstance(payload, str) else payload, {"Content-Type": "application/json"})).read()

    with zipkin_server_span("shop", "GET /cart", port=8080, sample_rate=100.0, transport_handler=transport, encoding=Encoding.V2_JSON):
        with zipkin_client_span("shop", "SELECT"):
            pass


def runs(*words):
    """A client that is a command, to which the URL is added."""
    def post(url):
        environment = {**os.environ, "GO111MODULE": "off", "GOPATH": "/usr/share/gocode"}
        subprocess.run([*words, url], check=True, capture_output=True, env=environment, timeout=120)
    return post


def here(*names):
    return os.path.join(os.path.dirname(os.path.abspath(__file__)), *names)


# Each client, its path, and the form of what it posts.
EXPORTERS = {
    "py_zipkin": (zipkin_posts, "/api/v2/spans", forms.ZIPKIN),
    "zipkin-go": (runs("go", "run", here("posting_go", "zipkin.go")), "/api/v2/spans", forms.ZIPKIN),
    "OpenTelemetry's exporter for Jaeger, in Go": (runs("go", "run", here("posting_go", "jaeger.go")), "/api/traces", BINARY),
    "Jaeger's client in Ruby": (runs("ruby", here("posting_ruby", "main.rb")), "/api/traces", BINARY),
}


def body_of(message):
    head, _, body = message.partition(b"\r\n\r\n")
    return head, body


def exporters():
    """What real clients post, to each form."""
    for name, (post, path, source) in EXPORTERS.items():
        for target in forms.FORMS:
            with Gateway(target, 1) as gateway:
                passing = Passing(gateway.port)
                try:
                    post(f"http://127.0.0.1:{passing.port}{path}")
                except (ImportError, FileNotFoundError, subprocess.CalledProcessError) as why:
                    print(f"left out: {name}: {why}")
                    gateway.connect().close()
                    passing.listener.close()
                    break
                passing.thread.join(10)
                status, kind, text = expected(body_of(passing.sent)[1], source, target)
                head, came = body_of(passing.came)
                if not head.startswith(f"HTTP/1.1 {status} ".encode()) or f"Content-Type: {kind}".encode() not in head or came != text:
                    yield f"{name} to {target}: {passing.sent[:300]} was answered {passing.came[:300]}"
                if gateway.end() != (0, b"", ""):
                    yield f"{name} to {target}: didn't end with 0"
        else:
            print(f"{name}: {len(passing.sent)} bytes, answered {status}")


def proxied():
    """Chunks by curl, through nginx as docs/GATEWAY.md sets it up."""
    with open(os.path.join(TOP, "docs", "GATEWAY.md"), encoding="utf-8") as page:
        block = re.search(r"(?m)^ {8}server \{\n(?: {8}.*\n)+", page.read())[0]
    port, body = free_port(), example("checkout.bin")
    with Gateway(forms.ZIPKIN, 2) as gateway, tempfile.TemporaryDirectory() as folder:
        block = block.replace("listen 8080", f"listen 127.0.0.1:{port}").replace("127.0.0.1:4320", f"127.0.0.1:{gateway.port}")
        config = os.path.join(folder, "nginx.conf")
        with open(config, "w") as out:
            out.write(f"pid {folder}/pid; error_log {folder}/error; events {{}} http {{ access_log off; {block} }}")
        os.chmod(folder, 0o755)
        try:
            subprocess.run(["nginx", "-c", config], check=True, capture_output=True)
        except FileNotFoundError:
            print("left out: nginx isn't there")
            return
        words = ["curl", "-s", "-H", "Transfer-Encoding: chunked", "-H", "Content-Type: application/x-protobuf", "--data-binary", "@-"]
        for _ in range(2):
            came = subprocess.run([*words, f"http://127.0.0.1:{port}/v1/traces"], input=body, capture_output=True).stdout
            if came != expected(body, forms.OTLP, forms.ZIPKIN)[2]:
                yield f"by nginx: {came[:200]}"
        subprocess.run(["nginx", "-s", "stop", "-c", config], capture_output=True)
        if gateway.end() != (0, b"", ""):
            yield "by nginx: the two requests weren't two connections"


PARTS = {"exporters": exporters, "clients": clients, "edges": edges, "addresses": addresses, "proxied": proxied, "hostile": hostile, "silent": silent}

if __name__ == "__main__":
    if not os.path.exists(PROGRAM):
        sys.exit(BUILD)
    bad = 0
    for name, part in PARTS.items():
        if sys.argv[1:] and not any(word in name for word in sys.argv[1:]):
            continue
        found = list(part())
        bad += len(found)
        print(f"{name}: {len(found)} differences", *found, sep="\n  ")
    sys.exit(bool(bad))
