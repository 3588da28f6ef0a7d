"""Runs of the built program that a library of bench/faults/shims disturbs, which stands in front of the C library's calls
(LD_PRELOAD).

It needs a C compiler as `cc`. bench/faults/refused_memory.py and bench/faults/failing_calls.py say what must come of the runs.
"""
import collections
import concurrent.futures
import itertools
import os
import signal
import socket
import subprocess
import sys
import tempfile
import time

sys.path.insert(1, os.path.dirname(os.path.dirname(os.path.realpath(__file__))))
import rooms  # first: it finds the others
import agent
import forms
import otlp
from forms import FORMS, JSON, OTLP, ZIPKIN
from gateway import numbered, text_of
from program import PROGRAM, TOP, command, losses_command, report_command
from protocols import PROTOCOLS
from relay import PATHS, RELAY, Peer, made, standard
from there_and_back import samples
from worked_texts import worked_texts

BINARY, COMPACT = PROTOCOLS
SHIMS = os.path.join(rooms.BENCH, "faults", "shims")
EXAMPLES = [(OTLP, "checkout.bin"), (JSON, "checkout.json"), (BINARY, "checkout_batch.bin"), (ZIPKIN, "checkout_spans.json")]
# The path and the media type under which a form is posted; the compact protocol has none.
POSTED = {
    OTLP: ("/v1/traces", "application/x-protobuf"), JSON: ("/v1/traces", "application/json"),
    BINARY: ("/api/traces", "application/x-thrift"), ZIPKIN: ("/api/v2/spans", "application/json"),
}
TEXTS = worked_texts()
# Texts to forms, and what each becomes; the last two have a fault to some forms, and a cause.
WORKED = [
    (OTLP, "SDK_REQUEST", {
        OTLP: "SDK_REQUEST", JSON: "SDK_GROUPS", BINARY: "SDK_BATCH", COMPACT: "SDK_COMPACT", ZIPKIN: "SDK_SPANS",
    }),
    (BINARY, "SDK_BATCH", {COMPACT: "SDK_COMPACT"}),
    (COMPACT, "SDK_COMPACT", {BINARY: "SDK_BATCH"}),
    (COMPACT, "ROOT_COMPACT", {COMPACT: "PARENT_COMPACT", JSON: "LINKED"}),
    (COMPACT, "PARENT_COMPACT", {COMPACT: "PARENT_COMPACT"}),
    (ZIPKIN, "CLIENT_SPANS", {ZIPKIN: "CLIENT_SPANS_WRITTEN"}),
    (BINARY, "DOUBLE_BATCH", {BINARY: "DOUBLE_BATCH", COMPACT: "DOUBLE_COMPACT"}),
    (OTLP, "CUT_SPAN", {}),
]
# A span and an event of which attributes have keys of a target's own, some of them behind `otel.attr.` already.
KEYS = {key: ("text", "x") for key in ["error", "event", "otel.attr.error", "otel.attr.otel.resource.a", "otel.resource.a", "span.kind", "z"]}
KEYED = [otlp.Group(KEYS, scopes=[otlp.Scope(spans=[otlp.Span(1, 2, kind=1, attributes=KEYS, events=[otlp.Event(1000, "e", KEYS)])])])]
SHOWN = b'0000000000000000463ac35c9f6413ad 463ac35c9f6413ad - CLIENT 1472470996199000000 1472470996406000000 ERROR "get"\n'
TRACEPARENT = b"traceparent: 00-0af7651916cd43dd8448eb211c80319c-b7ad6b7169203331-01\ntracestate: a=1, b=2\n"
HEADERS = {
    "w3c": TRACEPARENT.replace(b", ", b","), "b3": b"b3: 0af7651916cd43dd8448eb211c80319c-b7ad6b7169203331-1\n",
    "uber": b"uber-trace-id: 0af7651916cd43dd8448eb211c80319c:b7ad6b7169203331:0:1\n", "b3-multi": None,
}
# Ports below those from which the kernel takes a client's own: a client that tries one too early is refused, and doesn't meet itself.
PORTS = range(20_000, 32_000)
SOCKETS = {"serve": socket.SOCK_STREAM, "agent": socket.SOCK_DGRAM, "relay": socket.SOCK_STREAM}
PROGRAMS = {"agent": agent.AGENT, "relay": RELAY}
SHARES = 40

# So many datagrams are sent to one agent, and so many bytes, that a socket holds them all.
AT_ONCE, HELD = 8, 50_000

# A run: its kind, its name, the words behind the program's name, its input, or for `serve` what is sent, for an agent the datagrams and
# for a relay what is sent over each connection, and its output where that is known.
Case = collections.namedtuple("Case", "kind name words text wanted")
# How a run ended: its status, its output, or for `serve` what was answered, of several connections as a list, and for a relay behind that
# each body that its peer got; its notes, and a mark for each call that the library saw.
Came = collections.namedtuple("Came", "status output notes marks")


def texts(folders):
    """The form, the name and the bytes of each sample: of these folders, or where there are none of examples/."""
    if folders:
        yield from samples(folders)
        return
    for form, name in EXAMPLES:
        with open(os.path.join(TOP, "examples", name), "rb") as file:
            yield form, name, file.read()


def post(form, text):
    path, kind = POSTED[form]
    return f"POST {path} HTTP/1.1\r\nHost: x\r\nContent-Type: {kind}\r\nContent-Length: {len(text)}\r\n\r\n".encode() + text


def commands(form, name, text, wanted):
    """Each command over a text, with what it is known to become."""
    for target in FORMS:
        yield Case("convert", f"{name} to {target}", command(form, target)[1:], text, wanted.get(target))
        yield Case("losses", f"{name} to {target}", losses_command(form, target)[1:], text, None)
    for mode in ["show", "check"]:
        lines = SHOWN if (mode, name) == ("show", "CLIENT_SPANS") else None
        yield Case(mode, name, report_command(mode, form)[1:], text, lines)


def serving(name, target, sent, wanted=None):
    words = ["serve", "--listen", "127.0.0.1:PORT", "--to", target, "--count", "1"]
    return Case("serve", f"{name} to {target}", words, sent, wanted)


def receiving(name, target, sent):
    words = ["--listen", "127.0.0.1:PORT", "--to", target, "--count", str(len(sent))]
    return Case("agent", f"{name} to {target}", words, tuple(sent), None)


def relaying(name, target, *sent, wanted=None):
    words = ["--listen", "127.0.0.1:PORT", "--to", target, "--peer", "127.0.0.1:PEER", "--count", str(len(sent))]
    return Case("relay", f"{name} to {target}", words, sent, wanted)


def relays(folders):
    """Two connections with posts, one of them refused, and the samples, each to each form that a relay sends."""
    for target in PATHS:
        posts, refused = [post(ZIPKIN, numbered(number)) for number in range(1, 5)], text_of(400, "Bad Request", "text/plain", b"unit 0: cause 10 BadJson\n")
        answered = [standard(ZIPKIN) + refused + standard(ZIPKIN), standard(ZIPKIN) * 2]
        first = posts[0] + post(ZIPKIN, b"[") + posts[1]
        yield relaying("two connections", target, first, posts[2] + posts[3], wanted=answered + made(range(1, 5), target))
        for form, name, text in texts(folders):
            if form in POSTED:
                yield relaying(name, target, post(form, text))


def together(datagrams):
    """Datagrams, so many together as a socket holds."""
    held = []
    for text in datagrams:
        if len(text) > HELD:
            continue
        if len(held) == AT_ONCE or sum(map(len, held)) + len(text) > HELD:
            yield held
            held = []
        held.append(text)
    if held:
        yield held


def agents(folders):
    """Datagrams of the batches of the examples and of folders, and such with bad ones between, to each form."""
    good = agent.DATAGRAM
    mixed = [good, b"", good + b"\0", agent.compact_message(forms.write(KEYED, COMPACT)), good]
    of_samples = list(together(agent.of_samples(folders)))
    for target in FORMS:
        yield receiving("good ones and bad ones", target, mixed)
        for number, sent in enumerate(of_samples, 1):
            yield receiving(f"datagrams {number}", target, sent)


def cases(folders):
    """The worked texts, a trace with keys of a target's own and the samples, by each command, headers, the gauge, served connections,
    datagrams to an agent and connections of a relay."""
    for form, name, becomes in WORKED:
        yield from commands(form, name, TEXTS[name], {target: TEXTS[text] for target, text in becomes.items()})
    for form in FORMS:
        text = forms.write(KEYED, form)
        yield from commands(form, f"keys of a target's own, {form}", text, {target: forms.verdict(text, form, target)[2] for target in FORMS})
    for form, name, text in texts(folders):
        yield from commands(form, name, text, {})
    for form, wanted in HEADERS.items():
        yield Case("headers", f"to {form}", ["headers", "--to", form], TRACEPARENT, wanted)
    yield Case("gauge", "of one span", ["gauge", "--spans", "1"], b"", None)
    one = post(ZIPKIN, b"[]")
    three = one + one + one.replace(b"Host: x", b"Host: x\r\nContent-Encoding: gzip")
    answered = text_of(200, "OK", "application/json", b"[]") * 2 + text_of(415, "Unsupported Media Type", "", b"")
    yield serving("three posts", ZIPKIN, three, answered)
    for form, name, text in texts(folders):
        if form in POSTED:
            for target in FORMS:
                yield serving(name, target, post(form, text))
    yield from agents(folders)
    yield from relays(folders)


def option(words, name, otherwise):
    """The word that a script is given as --NAME=WORD."""
    return next((word.partition("=")[2] for word in words if word.startswith(f"--{name}=")), otherwise)


def chosen(words):
    """The cases that a script's words choose: over the samples of folders, of which --only=WORD chooses those with this in their names."""
    folders = [word for word in words if not word.startswith("--")]
    return [case for case in cases(folders) if option(words, "only", "") in f"{case.kind} {case.name}"]


def file_of(text=b""):
    """A file in memory that holds a text."""
    file = os.memfd_create("spanx")
    os.write(file, text)
    os.lseek(file, 0, os.SEEK_SET)
    return file


def held(file):
    return os.pread(file, os.fstat(file).st_size, 0)


def answers(client):
    """What comes of a connection until it ends or breaks."""
    came = b""
    try:
        while piece := client.recv(2**20):
            came += piece
    except ConnectionError:
        pass
    return came


def sent_to(port, process, datagrams, seconds=20):
    """Sends datagrams to an agent once it listens; none where it ends before."""
    for _ in range(seconds * 2000):
        if agent.listens(port):
            break
        if process.poll() is not None:
            return
        time.sleep(0.0005)
    with socket.socket(socket.AF_INET, socket.SOCK_DGRAM) as client:
        for text in datagrams:
            client.sendto(text, ("127.0.0.1", port))


def connected(port, process, seconds=20):
    """A connection to the program once it listens; none where it ends before."""
    for _ in range(seconds * 2000):
        try:
            return socket.create_connection(("127.0.0.1", port))
        except ConnectionRefusedError:
            if process.poll() is not None:
                return None
            time.sleep(0.0005)
    raise TimeoutError(f"nothing listens at {port}")


class Shim:
    """A library of bench/faults/shims in a folder of its own, and runs of the program behind it."""

    def __init__(self, name):
        self.folder = tempfile.TemporaryDirectory()
        self.path = os.path.join(self.folder.name, name + ".so")
        source = os.path.join(SHIMS, name + ".c")
        subprocess.run(["cc", "-O2", "-Wall", "-shared", "-fPIC", "-o", self.path, source], check=True)
        self.process, self.ports = None, None

    def free_port(self, kind):
        """The next port at which nothing is, of connections or of datagrams; each process that runs cases has ports of its own."""
        if self.process != os.getpid():
            self.process = os.getpid()
            first = PORTS.start + self.process % SHARES * (len(PORTS) // SHARES)
            self.ports = itertools.cycle(range(first, first + len(PORTS) // SHARES))
        while True:
            port = next(self.ports)
            with socket.socket(type=kind) as probe:
                probe.setsockopt(socket.SOL_SOCKET, socket.SO_REUSEADDR, 1)
                try:
                    probe.bind(("127.0.0.1", port))
                    return port
                except OSError:
                    pass

    def run(self, case, **settings):
        """A case with the library in front, set so; without settings it isn't there."""
        output, notes, marks, text = file_of(), file_of(), file_of(), file_of(b"" if case.kind in SOCKETS else case.text)
        environment = {**os.environ, "SHIM_MARKS": str(marks), **{name: str(value) for name, value in settings.items()}}
        if settings:
            environment["LD_PRELOAD"] = self.path
        port = self.free_port(SOCKETS[case.kind]) if case.kind in SOCKETS else 0
        peer = Peer() if case.kind == "relay" else None
        words = [word.replace("PORT", str(port)).replace("PEER", str(peer and peer.port)) for word in case.words]
        streams = {"stdin": text, "stdout": output, "stderr": notes, "pass_fds": [marks]}
        process = subprocess.Popen([PROGRAMS.get(case.kind, PROGRAM), *words], **streams, env=environment)
        if case.kind == "agent":
            sent_to(port, process, case.text)
        if case.kind == "serve":
            answered = [self.answered(port, process, case.text) for _ in range(int(case.words[-1]))]
        if case.kind == "relay":
            answered = [self.answered(port, process, sent) for sent in case.text]
        status = process.wait()
        written = held(output)
        if case.kind == "serve":
            written = answered if len(answered) > 1 else answered[0] + written
        if case.kind == "relay":
            peer.stop()
            written = answered + [sent.body for sent in peer.got]
        came = Came(status, written, held(notes).decode(), held(marks).decode())
        for file in [output, notes, marks, text]:
            os.close(file)
        return came

    def answered(self, port, process, sent):
        """What a client that sends all at once has of the connection."""
        client = connected(port, process)
        if client is None:
            return b""
        with client:
            try:
                client.sendall(sent)
                client.shutdown(socket.SHUT_WR)
            except OSError:
                pass
            return answers(client)


def described(case, settings, came):
    """How a run is repeated, and what came of it."""
    words = " ".join(f"{name}={value}" for name, value in settings.items())
    status = signal.Signals(-came.status).name if came.status < 0 else came.status
    output = came.output if isinstance(came.output, list) else [came.output]
    ends = " and ".join(f"{len(one)} bytes ..{one[-40:]!r}" for one in output)
    return f"{case.kind} {case.name} ({' '.join(case.words)}) {words}: status {status}, {came.notes!r}, {ends}"


def told(words, tried, everything, bad=0):
    """Runs cases by a function that gives of one the differences, and counts of what came by what they are counted under; prints them
    all, and ends the script, with 1 where there are differences or were before."""
    workers = int(option(words, "jobs", "2"))
    counts = collections.defaultdict(collections.Counter)
    with concurrent.futures.ProcessPoolExecutor(workers) as pool:
        for differences, counted in pool.map(tried, everything):
            bad += len(differences)
            print(*differences[:5], sep="\n", end="\n" * bool(differences), flush=True)
            for under, came in counted.items():
                counts[under].update(came)
    for under, came in counts.items():
        print(f"{under}: " + ", ".join(f"{name} {count}" for name, count in came.items()))
    print(f"{bad} differences")
    sys.exit(bool(bad))
