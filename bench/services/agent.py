#!/usr/bin/python3
"""Compares the built agent with a reader in Python of the messages in datagrams, and the texts that it writes with what
`spanx convert` makes of the batch inside.

The agent listens on a loopback port and is sent one datagram after the other, each once the text or the line of the one before
came, to each form: datagrams of each batch of the examples and the samples in both protocols, and fronts of each and such with
one byte that is another; the same of drawn batches, with bytes behind, with other heads, and datagrams of drawn bytes; an empty
one and the largest that the loopback carries. What is told of each must be what the reader says. Then it listens at other
addresses, and ends in each way that it can but for memory that is refused.

It needs the built programs, ./spanx and ./spanx_agent, and is run at the top as bench/services/agent.py [SEED [FOLDER..]]. A
folder of samples is laid out as for bench/comparisons/there_and_back.py; where none is given it is ../shared/samples, if that
stands beside the checkout. It takes some minutes, and ends with 1 on a difference.
"""
import contextlib
import os
import random
import selectors
import socket
import subprocess
import sys
import time

sys.path.insert(1, os.path.dirname(os.path.dirname(os.path.realpath(__file__))))
import rooms  # first: it finds the others
import drawn
import jaeger
from otlp import NAMES, Refused
from program import BUILD, PROGRAM, TOP, convert
from protocols import PROTOCOLS, STRUCT, varint
from there_and_back import BESIDE, samples

AGENT = os.path.join(TOP, "crates", "spanx_agent", "out", "spanx_agent")
NAME = b"emitBatch"
MESSAGES = {40: "BadMessage", 41: "BadName", 42: "NoBatch", 43: "Tail"}
FORMS = ["otlp-json", "zipkin-json", "otlp-proto", "jaeger-binary", "jaeger-compact"]
LARGEST = 65507
EXAMPLES = {
    "checkout.bin": "otlp-proto", "checkout.json": "otlp-json", "checkout_batch.bin": "jaeger-binary",
    "checkout_spans.json": "zipkin-json",
}
# So many seconds what must be told of a datagram is waited for.
PATIENCE = 20


# ---- messages


def compact_head(kind=4, number=0, name=NAME):
    return b"\x82" + bytes([kind * 32 + 1]) + varint(number) + varint(len(name)) + name


def binary_head(kind=4, number=0, name=NAME):
    return b"\x80\1\0" + bytes([kind]) + len(name).to_bytes(4, "big") + name + number.to_bytes(4, "big")


def compact_message(batch, **head):
    return compact_head(**head) + b"\x1c" + batch + b"\0"


def binary_message(batch, **head):
    return binary_head(**head) + b"\x0c\0\1" + batch + b"\0"


def varint_at(text, at):
    n = 0
    for group in range(10):
        byte = text[at + group]
        if group == 9 and byte > 1:
            raise IndexError
        n += (byte & 127) << 7 * group
        if byte < 128:
            return n, at + group + 1
    raise IndexError


def name_at(text, at, size):
    if at + size > len(text):
        raise IndexError
    return text[at : at + size], at + size


def head_of(text):
    """The form of the batch, the name of the method and the place behind the head."""
    if text[0] == 0x82 and text[1] in [33, 129]:
        size, at = varint_at(text, varint_at(text, 2)[1])
        return "jaeger-compact", *name_at(text, at, size)
    if text[:3] == b"\x80\1\0" and text[3] in [1, 4] and len(text) >= 8 and text[4] < 128:
        name, at = name_at(text, 8, int.from_bytes(text[4:8], "big"))
        return "jaeger-binary", name, name_at(text, at, 4)[1]
    raise IndexError


def arguments_of(reader):
    """The fields of the struct behind the head, which is at no level, each with the bytes of its value."""
    found, last = [], 0
    while True:
        first = reader.byte()
        if first == 0:
            return found
        last, kind, held = reader.head(first, last, 1)
        begin = reader.at
        reader.value(kind, 1, held)
        found.append((last, kind, reader.text[begin : reader.at]))


def reading(text):
    """The form and the bytes of the batch in a datagram, or its first cause."""
    try:
        form, name, at = head_of(text)
    except IndexError:
        return 40
    if name != NAME:
        return 41
    reader = PROTOCOLS[form].reader(text, at, 2**62)
    try:
        batches = [value for id, kind, value in arguments_of(reader) if (id, kind) == (1, STRUCT)]
    except Refused as why:
        return why.args[0]
    if len(batches) > 1:
        return 7
    if reader.at < len(text):
        return 43
    return (form, batches[0]) if batches else 42


def expected(text, to):
    """The text of a datagram, and what its line says behind its number."""
    read = reading(text)
    if isinstance(read, int):
        return b"", f"cause {read} {MESSAGES.get(read) or NAMES[read]}"
    status, out, note = convert(read[1], read[0], to)
    if status == 0:
        return out + (b"\n" if to.endswith("json") else b""), ""
    return b"", note.strip().removeprefix("unit 1: ")


# ---- datagrams


def spoilt(text, chance):
    """Fronts of a datagram, and the datagram with one byte that is another, or is missing."""
    for at in range(len(text)):
        yield text[:at]
        yield text[:at] + bytes([chance.randrange(256)]) + text[at + 1 :]
        yield text[:at] + bytes([text[at] ^ 1 << chance.randrange(8)]) + text[at + 1 :]
        yield text[:at] + text[at + 1 :]


def heads(compact, binary, chance):
    """Messages with other heads, and with other fields beside the batch."""
    for kind in range(8):
        yield compact_message(compact, kind=kind)
        yield binary_message(binary, kind=kind)
    for number in [1, 127, 128, 2**31, 2**32 - 1]:
        yield compact_message(compact, number=number)
        yield binary_message(binary, number=number)
    for name in [b"", b"emitBatc", b"emitBatchs", b"emitZipkinBatch", b"\xff" * 9]:
        yield compact_message(compact, name=name)
        yield binary_message(binary, name=name)
    for message in [compact_message(compact), binary_message(binary)]:
        yield message + b"\0"
        yield message + message
    yield compact_head() + b"\x1c" + compact + b"\x0c\2" + compact + b"\0"
    yield compact_head() + b"\0"
    yield compact_head() + b"\x2c" + compact + b"\0"
    yield binary_head() + b"\0"
    yield binary_head() + b"\x0c\0\1" + binary + b"\x0c\0\1" + binary + b"\0"
    yield binary_head() + b"\x0b\0\1" + (2**31 - 1).to_bytes(4, "big") + b"\0"


def largest(compact):
    """A datagram of as many bytes as the loopback carries, of which most are in a field that is passed over."""
    most = LARGEST - len(compact_message(compact)) - 4
    return compact_head() + b"\x1c" + compact + b"\x18" + varint(most) + bytes(most) + b"\0"


def batches_in(text, form):
    """The batches of a text, one after the other."""
    reader = PROTOCOLS[form].reader(text, 0, 2**62)
    while reader.at < len(text):
        begin = reader.at
        reader.struct(0)
        yield text[begin : reader.at]


def of_samples(folders):
    """A datagram for each batch of the examples and samples, in each protocol, which `spanx` made of the other forms."""
    held = [(form, name, example(name)) for name, form in EXAMPLES.items()] + list(samples(folders))
    for source, name, text in held:
        for form, message in [("jaeger-compact", compact_message), ("jaeger-binary", binary_message)]:
            status, made, note = (0, text, "") if source == form else convert(text, source, form)
            if status:
                print(f"left out: {name} as {form}: {note.strip()}")
            yield from map(message, batches_in(made, form))


def some(of, chance, count):
    """So many of these, drawn."""
    of = list(of)
    return chance.sample(of, min(count, len(of)))


def example(name):
    with open(os.path.join(TOP, "examples", name), "rb") as file:
        return file.read()


def datagrams(chance, seed, folders):
    made = drawn.Batches(seed)
    small = jaeger.Batch("s", [], [jaeger.Span(1, 2, 0, "a", [], 0, 0, 0, [], [])])
    compact, binary = (jaeger.write_batch(small, form) for form in ["jaeger-compact", "jaeger-binary"])
    yield from [b"", example("checkout_datagram.bin"), largest(compact)]
    for text in of_samples(folders):
        yield text
        yield from some(spoilt(text, chance), chance, 100)
    yield from heads(compact, binary, chance)
    yield from spoilt(compact_message(compact), chance)
    yield from spoilt(binary_message(binary), chance)
    for _ in range(100):
        batch, head = made.batch(), {"kind": chance.choice([1, 4]), "number": chance.getrandbits(32)}
        yield compact_message(jaeger.write_batch(batch, "jaeger-compact"), **head)
        yield binary_message(jaeger.write_batch(batch, "jaeger-binary"), **head)
        yield chance.choice([b"", compact_head(), binary_head()]) + chance.randbytes(chance.randrange(60))


# ---- the agent


def words(address, to="otlp-json", count=1):
    return [AGENT, "--listen", address, "--to", to, "--count", str(count)]


def listens(port):
    """Whether a socket of this machine receives datagrams at a port."""
    for name in ["/proc/net/udp", "/proc/net/udp6"]:
        with contextlib.suppress(FileNotFoundError), open(name) as table:
            if any(row.split()[1].endswith(f":{port:04X}") for row in list(table)[1:]):
                return True
    return False


class Agent:
    """A running agent, to which datagrams are sent one by one."""

    def __init__(self, to, count, host="127.0.0.1", **more):
        self.family = socket.AF_INET6 if ":" in host else socket.AF_INET
        with socket.socket(self.family, socket.SOCK_DGRAM) as free:
            free.bind((host, 0))
            self.port = free.getsockname()[1]
        self.address = host, self.port
        written = f"[{host}]" if ":" in host else host
        pipes = {"stdout": subprocess.PIPE, "stderr": subprocess.PIPE, **more}
        self.process = subprocess.Popen(words(f"{written}:{self.port}", to, count), **pipes)
        self.socket = socket.socket(self.family, socket.SOCK_DGRAM)
        while not listens(self.port) and self.process.poll() is None:
            time.sleep(0.01)

    def __enter__(self):
        return self

    def __exit__(self, *_):
        self.socket.close()
        self.process.kill()
        self.process.communicate()

    def send(self, text):
        self.socket.sendto(text, self.address)

    def told(self, piece, line):
        """What came on the output and on the notes, until as much came as these have, or nothing more did."""
        came = {self.process.stdout: b"", self.process.stderr: b""}
        end = time.monotonic() + PATIENCE
        with selectors.DefaultSelector() as waiting:
            for pipe in came:
                waiting.register(pipe, selectors.EVENT_READ)
            while sum(map(len, came.values())) < len(piece) + len(line):
                ready = waiting.select(end - time.monotonic())
                for key, _ in ready:
                    some_more = os.read(key.fd, 2**20)
                    came[key.fileobj] += some_more
                    if not some_more:
                        waiting.unregister(key.fileobj)
                if not ready or not waiting.get_map():
                    break
        return tuple(came.values())

    def ends(self):
        out, notes = self.process.communicate(timeout=PATIENCE)
        return self.process.returncode, out, notes


def differences(to, sent):
    """How many datagrams are told otherwise than by the reader."""
    found, good = 0, 0
    with Agent(to, len(sent)) as agent:
        for number, text in enumerate(sent, 1):
            piece, why = expected(text, to)
            line = f"datagram {number}: {why}\n".encode() if why else b""
            good += not why
            agent.send(text)
            told = agent.told(piece, line)
            if told != (piece, line):
                found += 1
                print(f"{to}: {text.hex()[:200]}: {told} in place of {(piece, line)}"[:1000])
        if agent.ends() != (0, b"", b""):
            found += 1
            print(f"{to}: the agent ended otherwise")
    print(f"{to}: {len(sent)} datagrams, {good} of them good, {found} differences")
    return found


# ---- addresses and ends

DATAGRAM = example("checkout_datagram.bin")


def piece():
    return expected(DATAGRAM, "otlp-json")[0]


def at_addresses():
    """What differs at other addresses of this machine."""
    for host in ["127.0.0.2", "::1"]:
        with Agent("otlp-json", 1, host) as agent:
            agent.send(DATAGRAM)
            if (done := agent.ends()) != (0, piece(), b""):
                yield f"at {agent.address}: {done}"
    with Agent("otlp-json", 1) as agent, socket.socket(socket.AF_INET, socket.SOCK_DGRAM) as other:
        # Another address of the machine isn't the agent's, and a datagram to it is none of the agent's.
        other.sendto(b"", ("127.0.0.2", agent.port))
        agent.send(DATAGRAM)
        if (done := agent.ends()) != (0, piece(), b""):
            yield f"a datagram to another address: {done}"
    with Agent("otlp-json", 1, "0.0.0.0") as agent, socket.socket(socket.AF_INET, socket.SOCK_DGRAM) as other:
        other.sendto(DATAGRAM, ("127.0.0.2", agent.port))
        if (done := agent.ends()) != (0, piece(), b""):
            yield f"at every address: {done}"


def run(given, **more):
    done = subprocess.run(given, **{"stdout": subprocess.PIPE, "stderr": subprocess.PIPE, **more}, timeout=PATIENCE)
    return done.returncode, done.stdout, done.stderr


def at_once():
    """What differs where nothing is received."""
    right = words("127.0.0.1:1")[1:]
    counts = [[*right[:5], count] for count in ["0", "4294967296", "+1", "01", ""]]
    others = [[], ["--help"], right[:4], right + right[:2], [*right[:4], *right[:2]], [*right, b"\xff"]]
    for given in [*counts, *others, [*right[:3], "otlp", *right[4:]]]:
        if (done := run([AGENT, *given])) != (2, b"", b"usage: spanx_agent OPTIONS\n"):
            yield f"{given}: {done}"
    with socket.socket(socket.AF_INET, socket.SOCK_DGRAM) as other:
        other.bind(("127.0.0.1", 0))
        for address in [f"127.0.0.1:{other.getsockname()[1]}", "127.0.0.1", "nowhere:1", "", "127.0.0.1:65536", "192.0.2.1:6831"]:
            if (done := run(words(address))) != (5, b"", b"post failed\n"):
                yield f"at {address!r}: {done}"


def outputs():
    """What differs where the output or the notes take nothing."""
    with open("/dev/full", "wb") as full, Agent("otlp-json", 3, stdout=full) as agent:
        agent.send(b"")
        agent.send(DATAGRAM)
        if (done := agent.ends()) != (6, None, b"datagram 1: cause 40 BadMessage\noutput failed\n"):
            yield f"an output that is full: {done}"
    with Agent("otlp-json", 3) as agent:
        agent.process.stdout.close()
        agent.process.stdout = None
        agent.send(DATAGRAM)
        if (done := agent.ends()) != (6, None, b"output failed\n"):
            yield f"an output that was closed: {done}"
    with open("/dev/full", "wb") as full, Agent("otlp-json", 3, stderr=full) as agent:
        for text in [b"", DATAGRAM, b""]:
            agent.send(text)
        if (done := agent.ends()) != (0, piece(), None):
            yield f"notes that are full: {done}"


def main():
    seed = int(sys.argv[1]) if len(sys.argv) > 1 else 1
    if not os.path.exists(PROGRAM) or not os.path.exists(AGENT):
        sys.exit(BUILD)
    sent = list(datagrams(random.Random(seed), seed, sys.argv[2:] or [BESIDE]))
    found = sum([differences(to, sent) for to in FORMS])
    for part in [at_addresses, at_once, outputs]:
        bad = list(part())
        print(f"{part.__name__}: {len(bad)} differences", *bad, sep="\n  ")
        found += len(bad)
    sys.exit(bool(found))


if __name__ == "__main__":
    main()
