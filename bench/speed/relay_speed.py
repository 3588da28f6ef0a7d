#!/usr/bin/env python3
"""Times the built relay beside `serve`: posts a second of 2 kB, forwarding included, where the time goes, and memory.

A client in C posts the same body over kept connections, one after the other, and waits for each answer. `serve` answers with the
converted body; the relay keeps it, and sends it on behind each connection to a server in C, which answers 200 and closes. A
connection has 500 posts, since the relay keeps 1,024 bodies at most. Both programs get the same, in turns; the time of the relay
is that until its end, when the last body has left. Each form is timed so; the share is that of the same turn.

The seconds are told by part: posting is what lies between the first answers of the connections and their last ones, forwarding the
rest, in which the client waits for the first answer of the next connection or the relay for its end. Beside that stands the
time of a processor that each program took, by the system's count, and the server in C; and what the client in C takes for a body
that it posts to that server over a connection of its own.

At last 100,000 posts go over 200 connections, and once over a connection each, and its memory is told behind 10,000 and at its
end. It needs the built programs, ./spanx and ./spanx_relay, and is run at the top as bench/speed/relay_speed.py [TURNS
[CONNECTIONS]]; 3 turns of 20 connections take two minutes. These figures are no test: they hang on the machine and its load;
where other work is on it, put them before that by `chrt -f 10 bench/speed/relay_speed.py`, as root.
"""
import datetime
import json
import os
import statistics
import subprocess
import sys
import tempfile
import time

sys.path.insert(1, os.path.dirname(os.path.dirname(os.path.realpath(__file__))))
import rooms  # first: it finds the others
import forms
from gateway import Gateway, answers, free_port, listens
from program import BUILD, PROGRAM, convert
from relay import PATHS, RELAY, Relay

POSTS = 500
SPAN = {
    "traceId": "463ac35c9f6413ad48485a3953bb6124", "name": "get /cart", "kind": "SERVER", "duration": 12345,
    "localEndpoint": {"serviceName": "shop", "ipv4": "10.0.0.1", "port": 8080},
    "tags": {"http.method": "GET", "http.path": "/cart/items", "http.status_code": "200"},
}


def spans(count):
    """The document of bench/speed/gateway_speed.sh with so many spans."""
    made = [{**SPAN, "id": f"{number:016x}", "timestamp": 1_700_000_000_000_000 + number} for number in range(1, count + 1)]
    return json.dumps(made, separators=(",", ":")).encode()


# What is posted, by its path, its type and the form in which it is read.
POSTED = {
    "JSON of Zipkin": ("/api/v2/spans", "application/json", spans(7)),
    "protobuf of OTLP": ("/v1/traces", "application/x-protobuf", convert(spans(10), forms.ZIPKIN, forms.OTLP)[1]),
}


def used(process):
    """The seconds of a processor that a process took, by itself and in the system."""
    with open(f"/proc/{process.pid}/stat") as told:
        fields = told.read().rpartition(")")[2].split()
    return [int(ticks) / os.sysconf("SC_CLK_TCK") for ticks in fields[11:13]]


def memory(process, row):
    with open(f"/proc/{process.pid}/status") as told:
        return next((int(line.split()[1]) for line in told if line.startswith(row)), None)


class Taking:
    """The server in C."""

    def __init__(self, folder):
        self.port = free_port()
        self.process = subprocess.Popen([os.path.join(folder, "take"), str(self.port)])
        while not listens(self.port):
            time.sleep(0.01)

    def __enter__(self):
        return self

    def __exit__(self, *_):
        self.process.kill()
        self.process.wait()


def posted(folder, port, name, connections, posts=POSTS):
    """The seconds in all, and those until first answers came, of posts that must all be taken."""
    path, kind, body = POSTED[name]
    words = [os.path.join(folder, "post"), str(port), path, kind, str(connections), str(posts)]
    good, bad, seconds, waited = subprocess.run(words, input=body, capture_output=True, check=True).stdout.split()
    if (int(good), int(bad)) != (connections * posts, 0):
        sys.exit(f"{bad.decode()} posts of {name} weren't taken")
    return float(seconds), float(waited)


def by_serve(folder, name, target, connections):
    """Posts a second, and microseconds of a processor for each."""
    with Gateway(target, connections + 1) as gateway:
        seconds, _ = posted(folder, gateway.port, name, connections)
        own = used(gateway.process)
        gateway.connect().close()
        gateway.process.wait()
    return connections * POSTS / seconds, [part / connections / POSTS * 1e6 for part in own]


def by_relay(folder, name, target, connections):
    """The same of the relay, the share of its time that is posting, and the server's microseconds for each."""
    with Taking(folder) as taking, Relay(target, f"127.0.0.1:{taking.port}", connections + 1) as relay:
        start = time.perf_counter()
        seconds, waited = posted(folder, relay.port, name, connections)
        # The next connection is taken once the last body has left.
        with relay.connect() as client:
            client.sendall(b"GET / HTTP/1.0\r\n\r\n")
            answers(client)
            whole = time.perf_counter() - start
            own, other = used(relay.process), used(taking.process)
        if (done := relay.end()) != (0, b"", ""):
            sys.exit(f"the relay ended with {done}")
    count = connections * POSTS
    return count / whole, [part / count * 1e6 for part in own], (seconds - waited) / whole, sum(other) / count * 1e6


def in_words(values, form=",.0f"):
    return f"{statistics.median(values):{form}} ({min(values):{form}} to {max(values):{form}})"


def middle(rows):
    return " + ".join(f"{statistics.median(part):.0f}" for part in zip(*rows))


def in_turns(folder, name, target, turns, connections):
    serve, relay = [], []
    for _ in range(turns):
        serve.append(by_serve(folder, name, target, connections))
        relay.append(by_relay(folder, name, target, connections))
    share = in_words([one[0] / other[0] for one, other in zip(relay, serve)], ".2f")
    rates = [in_words([one[0] for one in of]) for of in [serve, relay]]
    print(f"{name} to {target}: serve {rates[0]} posts a second, relay {rates[1]}, share {share}")
    costs = [middle([one[1] for one in of]) for of in [serve, relay]]
    cost = f"serve {costs[0]} us of a processor, its own and in the system, relay {costs[1]}"
    each = [1e6 / one[0] for one in relay]
    posting = [took * one[2] for took, one in zip(each, relay)]
    parts = f"of {statistics.median(each):.0f} us for each, posting takes {statistics.median(posting):.0f}"
    print(f"  {cost}, its server {statistics.median([one[3] for one in relay]):.0f}; {parts}, forwarding the rest", flush=True)


def in_c(folder, name, turns, connections):
    """The microseconds of a body that the client in C posts to the server in C over a connection of its own."""
    with Taking(folder) as taking:
        each = [posted(folder, taking.port, name, connections * POSTS, 1)[0] / connections / POSTS * 1e6 for _ in range(turns)]
    print(f"{name}, {len(POSTED[name][2])} bytes, in C over a connection of its own: {in_words(each, '.0f')} us for each", flush=True)


def flat(folder, connections, posts):
    """The relay's memory behind a tenth of so many posts, and behind all."""
    with Taking(folder) as taking, Relay(forms.OTLP, f"127.0.0.1:{taking.port}", connections + 1) as relay:
        told = []
        for part in [connections // 10, connections - connections // 10]:
            posted(folder, relay.port, "JSON of Zipkin", part, posts)
            told.append(f"{memory(relay.process, 'VmRSS:'):,} kB")
        told.append(f"{memory(relay.process, 'VmHWM:'):,} kB at the most")
        relay.connect().close()
        status = relay.end()[0]
    print(f"{connections * posts:,} posts over {connections:,} connections: {', '.join(told)}, status {status}", flush=True)


def main():
    turns, connections = (int(word) for word in (sys.argv[1:] + ["3", "20"][len(sys.argv) - 1 :])[:2])
    if not os.path.exists(PROGRAM) or not os.path.exists(RELAY):
        sys.exit(BUILD)
    load = " ".join(f"{of:.2f}" for of in os.getloadavg())
    print(f"{datetime.datetime.now():%Y-%m-%d %H:%M}, {os.cpu_count()} processors, load {load}")
    print(f"{turns} turns of {connections} connections with {POSTS} posts")
    with tempfile.TemporaryDirectory() as folder:
        for name in ["post", "take"]:
            source = os.path.join(rooms.BENCH, "speed", "posting_c", f"{name}.c")
            subprocess.run(["gcc", "-O2", "-o", os.path.join(folder, name), source], check=True)
        for name in POSTED:
            in_c(folder, name, turns, connections)
            for target in PATHS:
                in_turns(folder, name, target, turns, connections)
        flat(folder, 200, 500)
        flat(folder, 100_000, 1)


if __name__ == "__main__":
    main()
