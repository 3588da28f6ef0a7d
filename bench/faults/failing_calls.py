#!/usr/bin/env python3
"""Shows what the built program does when something outside fails: devices, each read, write, receive, send, accept and connect in turn,
and signals.

bench/faults/shims/fail.c stands in front of the C library's calls, and lets the first read fail, the second one, and so on up to
the first run that makes no more, with each of the errors below; or give one byte, or none; likewise writes, and the calls of a
connection. Pieces are small, so that there are several. Run are the worked texts and the samples, each to each form by `convert`
and `losses` and by `show` and `check`, `headers` and `gauge`; two connections of `serve`, one after the other, with each sample
posted; an agent that is sent datagrams with the batches of the samples; and a relay with two connections, and one with each
sample.

An interrupted call, and one that gives or takes one byte, must change nothing. Behind a failed read of the input the status is 5, the
note `input failed`, and the output what the units in the bytes before have; behind one that gives none it is that of the input
that ends there. Behind a failed write the status is 6, the note `output failed`, and the output what the undisturbed one begins with;
behind one of the notes only they are shorter. A failed receive or send has the line of its connection, whose answers are those of the
requests before, and the other is answered in full; a receive that gives none is a connection that the client ended. Where no
connection can be accepted, or none set up, the status is 5 and the note `door failed`. A failed receive of an agent has the status 5,
the note `post failed`, and the pieces and lines of the datagrams before; one that gives one byte of a datagram or none is such a
datagram. Behind a failed write of its output the lines of bad datagrams before stand on the notes. A call of a relay that fails is one
line, of its connection or of the peer; what its clients have is what the undisturbed answers begin with, and its peer gets the bodies
that were kept, in order: one may come twice, and where bodies are left at the end, the status is 8 and their number noted.

Run it at the top as bench/faults/failing_calls.py FOLDER.., after ./spanx, ./spanx_agent and ./spanx_relay have built the
programs. A folder of samples is laid out as for bench/comparisons/there_and_back.py; where none is given the samples are those of
examples/. --jobs=N runs so many at once, or else two, and --only=WORD what has the word in its name. It ends with 0 where all is
so, and prints how often each came.
"""
import collections
import errno
import itertools
import os
import re
import signal
import socket
import subprocess
import sys
import time

sys.path.insert(1, os.path.dirname(os.path.dirname(os.path.realpath(__file__))))
import rooms  # first: it finds the others
import disturbed
import forms
from agent import AGENT
from disturbed import BINARY, COMPACT, Case
from forms import OTLP, ZIPKIN
from gateway import Gateway, converted, example, post
from program import BUILD, PROGRAM, TOP, command, report_command
from relay import RELAY

ERRORS = {name: getattr(errno, name) for name in ["EIO", "ENOSPC", "EPIPE", "EAGAIN", "ECONNRESET"]}
ONE, NONE = -1, -2
# What changes nothing: the answer, and of which calls it comes.
HARMLESS = [(errno.EINTR, 0), (errno.EINTR, 2), (ONE, 0), (ONE, 1)]
# A byte with which a unit begins, and isn't whole.
BEGUN = {OTLP: b"\x0a", BINARY: b"\x0c", COMPACT: b"\x1c"}
PIECES = 6
# What comes of a failed write, by the descriptor: of the output and of the notes.
WRITTEN = {"1": "status 6", "2": "shorter notes"}
DOOR = ["accept4", "setsockopt", "listen", "bind", "socket"]
POST = ["bind", "socket"]
FAILED = "output failed\n"


def settings(call, first, answer, every=0, most=0):
    return {"FAIL_CALL": call, "FAIL_FIRST": first, "FAIL_WITH": answer, "FAIL_EVERY": every, "FAIL_MOST": most}


def cut(case, size):
    """The case with as much of its input as that."""
    return SHIM.run(case._replace(text=case.text[:size]))


def partial(case, size):
    """What the units in so many bytes of the input have."""
    form = case.words[2] if case.words[1] == "--from" else None
    if form not in BEGUN:
        return b""
    came = cut(case, size)
    return came.output if came.status else SHIM.run(case._replace(text=case.text[:size] + BEGUN[form])).output


def wrong_read(case, came, answer, size):
    """What is wrong behind a read that failed, or gave none, where so many bytes were read."""
    if answer == NONE:
        return "" if came[:3] == cut(case, size)[:3] else "not as the input that ends there"
    if came[:3] == (5, partial(case, size), "input failed\n"):
        return ""
    return "not status 5 with the units before"


def ends_as_failed(case, whole, came):
    """Whether the last note is that the output failed, and those before, of an agent alone, are what the undisturbed ones begin with."""
    before = came.notes.removesuffix(FAILED)
    return came.notes.endswith(FAILED) and (case.kind == "agent" or not before) and whole.notes.startswith(before)


def wrong_write(case, whole, came, failed):
    """What is wrong behind a write that failed, of the output or of the notes."""
    if failed == "1":
        good = came.status == 6 and ends_as_failed(case, whole, came) and whole.output.startswith(came.output)
    else:
        good = came[:2] == whole[:2] and whole.notes.startswith(came.notes)
    return "" if good else "a failed write of " + {"1": "the output", "2": "the notes"}[failed]


def wrong_from_there(case, whole, came, failed):
    """The same where each write behind it failed as well: a failed output has no line on the notes, and an agent whose notes failed goes
    on to an output that fails."""
    if failed == "2" and came.status == 6:
        good = case.kind == "agent" and whole.output.startswith(came.output) and whole.notes.startswith(came.notes)
        return "" if good else "another status than of failed notes"
    if failed == "1" and not came.notes.endswith(FAILED):
        came = came._replace(notes=came.notes + FAILED)
    return wrong_write(case, whole, came, failed)


class Tries:
    """The differences of a case, and counts of what came."""

    def __init__(self, case):
        self.case, self.differences = case, []
        self.counts = collections.defaultdict(collections.Counter)

    def add(self, call, came_of, why, words, came):
        self.counts[call]["runs"] += 1
        self.counts[call][came_of] += 1
        if why:
            self.differences.append(f"{why}: {disturbed.described(self.case, words, came)}")

    def runs(self, call, answer, every, most):
        """Each run of which a call was disturbed, with its number."""
        first = 1
        while True:
            words = settings(call, first, answer, every, most)
            came = SHIM.run(self.case, **words)
            failed = came.marks.strip(".")
            if not failed:
                return
            yield first, words, came, failed[0]
            first += 1

    def harmless(self, call, whole, most, answers=HARMLESS):
        for answer, every in answers:
            for _, words, came, _ in self.runs(call, answer, every, most):
                self.add(call, "as undisturbed", "" if came[:3] == whole[:3] else "it changes what comes", words, came)


def tried(case):
    """What is wrong with the runs of a command, and how many ended in which way."""
    whole = SHIM.run(case)
    tries = Tries(case)
    most = len(case.text) // PIECES + 1
    tries.harmless("read", whole, most)
    for answer in [*ERRORS.values(), NONE]:
        for first, words, came, _ in tries.runs("read", answer, 0, most):
            size = min((first - 1) * most, len(case.text))
            came_of = "as an input that ends there" if answer == NONE else "status 5"
            tries.add("read", came_of, wrong_read(case, came, answer, size), words, came)
    written(case, whole, tries)
    return tries.differences, tries.counts


def written(case, whole, tries):
    """The same of its writes alone."""
    most = max(len(whole.output), len(whole.notes)) // PIECES + 1
    tries.harmless("write", whole, most)
    for answer in [*ERRORS.values(), NONE]:
        for _, words, came, failed in tries.runs("write", answer, 0, most):
            tries.add("write", WRITTEN[failed], wrong_write(case, whole, came, failed), words, came)
    for _, words, came, failed in tries.runs("write", errno.EIO, 1, most):
        tries.add("write", WRITTEN[failed], wrong_from_there(case, whole, came, failed), words, came)


def wrong_connection(whole, came, number, note, answers):
    """What is wrong where a call of a connection failed, which is to have this note and these answers."""
    if (came.status, came.notes) != (0, note):
        return "not the line of its connection"
    if came.output[2 - number] != whole.output[2 - number]:
        return "the other connection isn't answered in full"
    if answers is None:
        return "" if whole.output[number - 1].startswith(came.output[number - 1]) else "other answers before"
    return "" if came.output[number - 1] == answers else "not the answers of the requests before"


def served(case):
    """The same of two connections of `serve`."""
    whole = SHIM.run(case)
    tries = Tries(case)
    if whole.output[0] != whole.output[1] or whole.status or whole.notes:
        tries.differences.append(f"undisturbed: {disturbed.described(case, {}, whole)}")
    most = max(len(case.text), len(whole.output[0])) // 3 + 1
    alone = case._replace(words=case.words[:-1] + ["1"])
    for call, word in [("recv", "read"), ("send", "write")]:
        tries.harmless(call, whole, most)
        each = len(SHIM.run(case, **settings(call, 0, 0, 0, most)).marks) // 2
        for answer in [*ERRORS.values(), NONE]:
            for first, words, came, _ in tries.runs(call, answer, 0, most):
                number, before = (first - 1) // each + 1, (first - 1) % each
                answers = cut(alone, before * most).output if call == "recv" else None
                note, came_of = f"connection {number}: {word} failed\n", "the connection's line"
                if (call, answer) == ("recv", NONE):
                    note, came_of = "", "as a connection that ends there"
                tries.add(call, came_of, wrong_connection(whole, came, number, note, answers), words, came)
    for call in DOOR:
        tries.harmless(call, whole, 0, [(errno.EINTR, 0)] if call == "accept4" else [])
        for answer in ERRORS.values():
            for first, words, came, _ in tries.runs(call, answer, 0, 0):
                before = first - 1 if call == "accept4" else max(first - 2, 0) // 2
                good = came[:3] == (5, whole.output[:before] + [b""] * (2 - before), "door failed\n")
                tries.add(call, "status 5", "" if good else "not status 5 with the connections before", words, came)
    return tries.differences, tries.counts


def of_datagrams(case, sent):
    """An undisturbed agent that is sent these, and is asked for as many; one that is asked for none is none."""
    if not sent:
        return disturbed.Came(0, b"", "", "")
    return SHIM.run(case._replace(text=sent, words=[*case.words[:-1], str(len(sent))]))


def instead(case, answer, first):
    """The datagrams that an agent has of a receive that gives one byte, or none."""
    before, at, behind = case.text[: first - 1], case.text[first - 1], case.text[first:]
    return (*before, b"", at, *behind)[: len(case.text)] if answer == NONE else (*before, at[:1], *behind)


def wrong_receive(case, came, answer, first):
    """What is wrong where the receive of this number failed, or gave one byte or none."""
    if answer in [ONE, NONE]:
        good = came[:3] == of_datagrams(case, instead(case, answer, first))[:3]
        return "" if good else "not as such a datagram"
    before = of_datagrams(case, case.text[: first - 1])
    good = came[:3] == (5, before.output, before.notes + "post failed\n")
    return "" if good else "not status 5 with the datagrams before"


def received(case):
    """The same of an agent."""
    whole = SHIM.run(case)
    tries = Tries(case)
    if whole.status:
        tries.differences.append(f"undisturbed: {disturbed.described(case, {}, whole)}")
    tries.harmless("recvfrom", whole, 0, [(errno.EINTR, 0), (errno.EINTR, 2)])
    for answer in [*ERRORS.values(), NONE, ONE]:
        came_of = "as another datagram" if answer in [ONE, NONE] else "status 5"
        for first, words, came, _ in tries.runs("recvfrom", answer, 0, 0):
            tries.add("recvfrom", came_of, wrong_receive(case, came, answer, first), words, came)
    for call in POST:
        for answer in ERRORS.values():
            for _, words, came, _ in tries.runs(call, answer, 0, 0):
                good = came[:3] == (5, b"", "post failed\n")
                tries.add(call, "status 5", "" if good else "not status 5 at once", words, came)
    written(case, whole, tries)
    return tries.differences, tries.counts


def once_each(bodies):
    """Bodies of which one that comes several times in a row stands once."""
    return [body for body, _ in itertools.groupby(bodies)]


def kept_by(connections, answers):
    """What a relay may have kept: of each connection as many bodies as were answered as kept, or more of them."""
    least = [answer.count(b"HTTP/1.1 20") for answer in answers]
    for counts in itertools.product(*(range(few, len(bodies) + 1) for few, bodies in zip(least, connections))):
        yield [body for count, bodies in zip(counts, connections) for body in bodies[:count]]


def wrong_relay(case, whole, came):
    """What is wrong with a run of a relay of which one call failed."""
    count, lines, left = len(case.text), came.notes.splitlines(), 0
    answers, undisturbed, sent = came.output[:count], whole.output[:count], came.output[count:]
    if came.status == 8 and lines and re.fullmatch(r"left \d+", lines[-1]):
        left = int(lines.pop().split()[1])
    elif came.status == 5 and lines and lines[-1] == "door failed":
        lines.pop()
    elif came.status:
        return "another status"
    if len(lines) > 1 or not all(re.fullmatch(r"connection \d+: (read|write|peer) failed", line) for line in lines):
        return "other lines"
    if not all(one.startswith(other) for one, other in zip(undisturbed, answers)):
        return "other answers"
    told = [one == other for one, other in zip(undisturbed, answers)]
    if came.status != 5 and sum(told) < count - 1:
        return "more than one connection isn't answered in full"
    if len(sent) > len(once_each(sent)) + 1:
        return "more than one body twice"
    bodies, connections = whole.output[count:], []
    for answer in undisturbed:
        connections.append([bodies.pop(0) for _ in range(answer.count(b"HTTP/1.1 20"))])
    for kept in kept_by(connections, answers):
        if once_each(sent) in [kept[: len(kept) - left], kept[: len(kept) - left + 1]]:
            return ""
    return "the peer got other bodies than were kept"


def relayed(case):
    """The same of a relay and its peer."""
    whole = SHIM.run(case)
    tries = Tries(case)
    if whole.status or whole.notes or case.wanted is not None and whole.output != case.wanted:
        tries.differences.append(f"undisturbed: {disturbed.described(case, {}, whole)}")
    most = max(map(len, case.text)) // 3 + 1
    for call in ["recv", "send"]:
        tries.harmless(call, whole, most)
    tries.harmless("accept4", whole, 0, [(errno.EINTR, 0)])
    for call in ["recv", "send", "connect", *DOOR]:
        for answer in [*ERRORS.values(), NONE] if call in ["recv", "send"] else ERRORS.values():
            for _, words, came, _ in tries.runs(call, answer, 0, most if call in ["recv", "send"] else 0):
                tries.add(call, f"status {came.status}", wrong_relay(case, whole, came), words, came)
    return tries.differences, tries.counts


def each(case):
    """What a case does wrong, of `serve` with two connections, and how its runs ended."""
    if case.kind == "relay":
        return relayed(case)
    if case.kind == "agent":
        return received(case)
    if case.kind == "serve":
        return served(case._replace(words=case.words[:-1] + ["2"]))
    return tried(case)


# ---- devices


def ended(words, closed=None, **streams):
    """The status and the note of a command whose streams are these, one of which is closed."""
    notes = disturbed.file_of()
    streams = {"stdin": subprocess.DEVNULL, "stdout": subprocess.DEVNULL, "stderr": notes, **streams}
    done = subprocess.run([PROGRAM, *words], **streams, preexec_fn=None if closed is None else lambda: os.close(closed))
    return done.returncode, disturbed.held(notes).decode()


def without_reader():
    """The writing end of a pipe whose reader has gone."""
    reading, writing = os.pipe()
    os.close(reading)
    return writing


def devices():
    """What a device that fails leads to."""
    sample, directory = os.path.join(TOP, "examples", "checkout.bin"), os.open("/", os.O_RDONLY)
    to, good = command(OTLP, OTLP)[1:], (lambda: open(sample, "rb"))
    full = (lambda: open("/dev/full", "wb"))
    rows = [
        ("a full device", ended(to, stdin=good(), stdout=full()), (6, "output failed\n")),
        ("a closed output", ended(to, 1, stdin=good()), (6, "output failed\n")),
        ("a pipe whose reader has gone", ended(to, stdin=good(), stdout=without_reader()), (6, "output failed\n")),
        ("a directory as input", ended(to, stdin=directory), (5, "input failed\n")),
        ("a closed input", ended(to, 0), (5, "input failed\n")),
        ("closed notes, a directory as input", ended(to, 2, stdin=directory), (5, "")),
        ("closed notes, a good input", ended(to, 2, stdin=good()), (0, "")),
        ("closed notes, no command", ended([*to, "--more"], 2, stdin=good()), (2, "")),
        ("notes on a full device, a directory as input", ended(to, stdin=directory, stderr=full()), (5, "")),
    ]
    for mode in ["show", "check"]:
        words = report_command(mode, OTLP)[1:]
        rows.append((f"a full device, {mode}", ended(words, stdin=good(), stdout=full()), (6, "output failed\n")))
        rows.append((f"a directory as input, {mode}", ended(words, stdin=directory), (5, "input failed\n")))
    for name, came, wanted in rows:
        print(f"{name}: status {came[0]}, {came[1].strip()!r}")
        if came != wanted:
            yield f"{name}: {came} instead of {wanted}"


# ---- signals


def stop_and_go_on(process):
    """Stops a process, and lets it go on once it stands."""
    process.send_signal(signal.SIGSTOP)
    os.waitid(os.P_PID, process.pid, os.WSTOPPED)
    process.send_signal(signal.SIGCONT)


def ignore_hangup():
    signal.signal(signal.SIGHUP, signal.SIG_IGN)


def send(name, process):
    if name == "SIGSTOP, SIGCONT":
        stop_and_go_on(process)
    else:
        process.send_signal(getattr(signal, name.split(" ")[0]))


# Signals, the status of one that ends the program, and what is done before it begins.
SIGNALS = [
    ("SIGTERM", -signal.SIGTERM, None), ("SIGHUP", -signal.SIGHUP, None), ("SIGINT", -signal.SIGINT, None), ("SIGPIPE", 0, None),
    ("SIGSTOP, SIGCONT", 0, None), ("SIGHUP under nohup", 0, ignore_hangup),
]


def converting(words, **more):
    streams = {"stdin": subprocess.PIPE, "stdout": subprocess.PIPE, "stderr": subprocess.PIPE}
    return subprocess.Popen([PROGRAM, *words], **{**streams, **more})


def in_a_conversion(name, status, before):
    """A signal between two units, where the program waits for more to read."""
    text = example("checkout.bin")
    first = forms.SOURCES[OTLP][0](text, 0)[2]
    words = command(OTLP, ZIPKIN)[1:]
    written = Case("convert", "", words, text, None)
    whole, begun = SHIM.run(written).output, partial(written, first)
    process = converting(words, preexec_fn=before)
    process.stdin.write(text[:first])
    process.stdin.flush()
    came = process.stdout.read(len(begun))
    send(name, process)
    if status == 0:
        rest, notes = process.communicate(text[first:], timeout=60)
    else:
        process.wait(60)
        rest, notes = process.stdout.read(), process.stderr.read()
    wanted = whole if status == 0 else begun
    if (process.returncode, came + rest, notes) != (status, wanted, b""):
        lengths = f"{len(came + rest)} bytes instead of {len(wanted)}"
        yield f"{name} in a conversion: status {process.returncode}, {lengths}, {notes}"


def in_a_write(name, status, before):
    """A signal where the program waits for a reader of its output."""
    text = example("checkout.bin") * 100
    words = command(OTLP, OTLP)[1:]
    whole = SHIM.run(Case("convert", "", words, text, None)).output
    process = converting(words, stdin=disturbed.file_of(text), preexec_fn=before)
    time.sleep(0.3)
    send(name, process)
    came, notes = process.communicate(timeout=60)
    good = came == whole if status == 0 else whole.startswith(came) and len(came) < len(whole)
    if (process.returncode, notes) != (status, b"") or not good:
        yield f"{name} in a write: status {process.returncode}, {len(came)} bytes of {len(whole)}, {notes}"


def in_a_connection(name, status, before):
    """A signal behind an answer, where the program waits for more of a request, and before the next connection."""
    with Gateway(OTLP, 2, preexec_fn=before) as gateway:
        one, wanted = post(), converted(OTLP)
        with gateway.connect() as client:
            client.sendall(one + one[:-1])
            came = b""
            while len(came) < len(wanted):
                came += client.recv(len(wanted) - len(came))
            send(name, gateway.process)
            if status:
                rest = disturbed.answers(client)
            else:
                client.sendall(one[-1:])
                client.shutdown(socket.SHUT_WR)
                rest = disturbed.answers(client)
        if (came, rest) != (wanted, b"" if status else wanted):
            yield f"{name} in a connection: {came + rest}"
        if not status:
            send(name, gateway.process)
            with gateway.connect() as client:
                client.sendall(one)
                client.shutdown(socket.SHUT_WR)
                if disturbed.answers(client) != wanted:
                    yield f"{name} before a connection: it isn't answered"
        if (done := gateway.end()) != (status, b"", ""):
            yield f"{name} in `serve`: {done}"


def signals():
    """What signals do in the middle of a conversion and of `serve`."""
    # Where the script is run in the background or under `nohup`, these are ignored, and what it starts would ignore them, too.
    for told in [signal.SIGHUP, signal.SIGINT]:
        signal.signal(told, signal.SIG_DFL)
    for row in SIGNALS:
        found = [*in_a_conversion(*row), *in_a_write(*row), *in_a_connection(*row)]
        print(f"{row[0]}: {'WRONG' if found else 'it ends at once, by the signal' if row[1] else 'nothing changes'}")
        yield from found


def main(words):
    only = disturbed.option(words, "only", "")
    bad = [difference for name, part in [("devices", devices), ("signals", signals)] if only in name for difference in part()]
    print(*bad, sep="\n", end="\n" * bool(bad))
    disturbed.told(words, each, disturbed.chosen(words), len(bad))


if not all(map(os.path.exists, [PROGRAM, AGENT, RELAY])):
    sys.exit(BUILD)
SHIM = disturbed.Shim("fail")

if __name__ == "__main__":
    main(sys.argv[1:])
