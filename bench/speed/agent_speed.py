#!/usr/bin/python3
"""Times the built agent beside a small program in C that only receives datagrams and writes what it got: datagrams a second, lost
ones, and memory.

A sender in C sends the same datagram to a loopback port again and again. Sent as fast as it can, what is received in a second is
as many as the receiver can take, and the others are lost; the agent to each form and the program in C are sent so in turns.
Beside that stands the time of a processor for each, which hangs less on the load. Then each is sent half as many a second as it
took. How many were received is told by the number of a last datagram of one byte, which the agent notes as a bad one.

All of this is done with the system's receive buffer as it is, and the last part with a larger one, which is the setting
net.core.rmem_default; it is set for that time and set back, for which the script must be root. How many datagrams the buffer
holds is what is received of many that came while the agent was stopped. At last a million are sent, and its memory is told.

Outputs go to /dev/null; one row more tells of outputs that are piped to `cat`. The agent has the settings that its launcher gives
it. It needs the built program, ./spanx_agent, and is run at the top as bench/speed/agent_speed.py [TURNS [SECONDS]]; 3 turns of 1
second take some three minutes. These figures are no test: they hang on the machine and its load.
"""
import datetime
import os
import signal
import statistics
import subprocess
import sys
import tempfile
import time

sys.path.insert(1, os.path.dirname(os.path.dirname(os.path.realpath(__file__))))
import rooms  # first: it finds the others
import jaeger
from agent import AGENT, FORMS, compact_message, example, listens, words
from program import BUILD

HERE = os.path.join(rooms.BENCH, "speed", "datagrams")
SETTING = "/proc/sys/net/core/rmem_default"
LARGER = 4 * 2**20
MANY = 2**32 - 1
MILLION = 1_000_000
C = "in C"
PORT = 43931


def batch_of_one():
    """A batch of a span as a client sends it for each call."""
    texts = {"span.kind": "server", "http.method": "GET", "http.url": "http://shop/cart"}
    tags = [(key, ("text", text)) for key, text in texts.items()] + [("http.status_code", ("number", 200))]
    span = jaeger.Span(2**100 + 7, 2**60 + 3, 2**59 + 1, "GET /cart", [], 1, 1_700_000_000_000_000, 1_250, tags, [])
    return jaeger.Batch("shop", [("hostname", ("text", "shop-1"))], [span])


ONE = compact_message(jaeger.write_batch(batch_of_one(), "jaeger-compact"))
DATAGRAMS = {"1 span": ONE, "4 spans": example("checkout_datagram.bin")}


def of_kernel(process, name, row):
    """A number that the system tells of a process."""
    with open(f"/proc/{process.pid}/{name}") as told:
        return next(int(line.split()[1 if row else 0]) for line in told if line.startswith(row))


class Receiver:
    """A running receiver, the agent to a form or the program in C, to which datagrams of one kind are sent."""

    def __init__(self, folder, what, text, piped=False):
        self.folder, self.text, self.output = folder, text, subprocess.DEVNULL
        self.reader = subprocess.Popen(["cat"], stdin=subprocess.PIPE, stdout=subprocess.DEVNULL) if piped else None
        given = [os.path.join(folder, "receive"), str(PORT)] if what == C else words(f"127.0.0.1:{PORT}", what, MANY)
        output = self.reader.stdin if piped else subprocess.DEVNULL
        while listens(PORT):
            time.sleep(0.01)
        self.process = subprocess.Popen(given, stdout=output, stderr=subprocess.PIPE)
        while not listens(PORT):
            if self.process.poll() is not None:
                sys.exit(f"{given[0]} doesn't listen")
            time.sleep(0.01)

    def __enter__(self):
        return self

    def __exit__(self, *_):
        self.process.kill()
        self.process.communicate()
        if self.reader:
            self.reader.stdin.close()
            self.reader.wait()

    def send(self, rate, seconds, most=MANY, text=None):
        """Sends so, and answers how many were sent and in which time."""
        given = [os.path.join(self.folder, "send"), str(PORT), f"{rate:.0f}", str(seconds), str(most)]
        sent, took = subprocess.run(given, input=text or self.text, capture_output=True, check=True).stdout.split()
        return int(sent), float(took)

    def received(self):
        """How many were received; the program in C has ended then, and the agent goes on."""
        used = -1
        while used != (used := of_kernel(self.process, "schedstat", "")):
            time.sleep(0.1)
        self.send(0, 1, 1, b"x")
        return int(self.process.stderr.readline().split()[1].rstrip(b":")) - 1, used


def flooded(folder, what, text, seconds, piped=False):
    """How many a second a receiver takes of more than it can, and the microseconds of a processor for each."""
    with Receiver(folder, what, text, piped) as receiver:
        _, took = receiver.send(0, seconds)
        received, used = receiver.received()
        return received / took, used / received / 1000


def lost_at(folder, what, text, rate, seconds):
    """How many of those that are sent at a rate are lost, and how many are sent."""
    with Receiver(folder, what, text) as receiver:
        sent, _ = receiver.send(rate, seconds)
        return sent - receiver.received()[0], sent


def held(folder, text):
    """How many datagrams the system holds for an agent that is stopped."""
    with Receiver(folder, "otlp-json", text) as receiver:
        os.kill(receiver.process.pid, signal.SIGSTOP)
        receiver.send(0, 1, 20_000)
        os.kill(receiver.process.pid, signal.SIGCONT)
        return receiver.received()[0]


def in_words(values, form):
    return f"{statistics.median(values):{form}} ({min(values):{form}} to {max(values):{form}})"


def in_turns(folder, name, turns, seconds, targets, piped=False):
    """Floods the program in C and the agent to each form in turns, and answers the middle rate of each."""
    rates = {what: [] for what in [C, *targets]}
    costs = {what: [] for what in rates}
    for _ in range(turns):
        for what in rates:
            rate, cost = flooded(folder, what, DATAGRAMS[name], seconds, piped)
            rates[what].append(rate)
            costs[what].append(cost)
    for what, of in rates.items():
        share = in_words([one / other for one, other in zip(of, rates[C])], ".2f")
        told = f"{in_words(of, ',.0f')} a second, {statistics.median(costs[what]):.1f} us each, times as many as in C {share}"
        print(f"{name}, {what}{', piped' * piped}: {told}", flush=True)
    return {what: statistics.median(of) for what, of in rates.items()}


def at_half(folder, name, rates, seconds):
    """Sends half as many as each took, and tells how many were lost."""
    for what, rate in rates.items():
        lost, sent = lost_at(folder, what, DATAGRAMS[name], rate / 2, seconds)
        print(f"{name}, {what}, at {rate / 2:,.0f} a second: {lost:,} of {sent:,} lost", flush=True)


def with_larger(folder, part):
    """Does a part with a larger receive buffer."""
    with open(SETTING) as setting:
        before = setting.read()
    try:
        with open(SETTING, "w") as setting:
            setting.write(str(LARGER))
    except OSError as why:
        print(f"left out: net.core.rmem_default can't be set: {why.strerror}")
        return
    try:
        print(f"net.core.rmem_default is {LARGER:,}, and was {int(before):,}")
        part()
    finally:
        with open(SETTING, "w") as setting:
            setting.write(before)


def buffers(folder, rates, seconds):
    """What the receive buffer holds, and what is lost with it."""
    for name, text in DATAGRAMS.items():
        print(f"{name}, in {len(text)} bytes: the buffer holds {held(folder, text):,} datagrams", flush=True)
        at_half(folder, name, rates[name], seconds)


def memory(folder, rate):
    """The agent's memory after some datagrams and after a million, or as many as two minutes take."""
    with Receiver(folder, "otlp-json", DATAGRAMS["4 spans"]) as receiver:
        sent = 0
        for part, count in enumerate([10_000, MILLION - 10_000]):
            sent += receiver.send(rate, 120, count)[0]
            # The datagram of one byte behind the first part is one more.
            received = receiver.received()[0] - part
            peak, now = (of_kernel(receiver.process, "status", row) for row in ["VmHWM:", "VmRSS:"])
            print(f"4 spans, otlp-json: {received:,} of {sent:,} received, memory {now:,} kB, at most {peak:,} kB", flush=True)


def main():
    turns, seconds = (int(word) for word in (sys.argv[1:] + ["3", "1"][len(sys.argv) - 1 :])[:2])
    if not os.path.exists(AGENT):
        sys.exit(BUILD.replace("spanx convert --from otlp-proto --to otlp-proto < examples/checkout.bin", "spanx_agent"))
    load = " ".join(f"{of:.2f}" for of in os.getloadavg())
    print(f"{datetime.datetime.now():%Y-%m-%d %H:%M}, {os.cpu_count()} processors, load {load}, {turns} turns of {seconds} s")
    with tempfile.TemporaryDirectory() as folder:
        for name in ["receive", "send"]:
            subprocess.run(["gcc", "-O2", "-o", os.path.join(folder, name), os.path.join(HERE, f"{name}.c")], check=True)
        rates = {name: in_turns(folder, name, turns, seconds, FORMS) for name in DATAGRAMS}
        in_turns(folder, "4 spans", turns, seconds, ["otlp-json"], piped=True)
        print(f"net.core.rmem_default is {int(open(SETTING).read()):,}")
        buffers(folder, rates, seconds)
        with_larger(folder, lambda: buffers(folder, rates, seconds))
        memory(folder, rates["4 spans"]["otlp-json"] / 2)
    print(f"{datetime.datetime.now():%Y-%m-%d %H:%M}, load {' '.join(f'{of:.2f}' for of in os.getloadavg())}")


if __name__ == "__main__":
    main()
