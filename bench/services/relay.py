#!/usr/bin/env python3
"""Drives the built relay between real clients and real peers, and compares what a peer is sent with what `convert` makes of
each post.

Peers are a server in Python that keeps what it gets, `spanx serve` in another form, and nginx with a fixed answer. The server
in Python is stopped and started in the middle, answers 503 for a while, closes in the middle of its answer, or answers nothing
at all; clients are silent. Every body must arrive in order, and once, but one whose answer wasn't read, which arrives again;
and no silent end may hold the relay for longer than 30 seconds and what a machine needs, but one that takes a part of a long
body. Then come the ends of a run: bodies that are left, a spool without room, words and addresses that are wrong, signals, the
units, the lines of nginx and the script of docs/RELAY.md.

It needs the built programs, ./spanx and ./spanx_relay, and is run at the top as bench/services/relay.py; it takes two minutes.
The exporters are those of bench/services/gateway.py; they, nginx and systemd-analyze are taken where they are there. It ends with
1 on a difference. Words that are given choose the parts whose names hold one of them.
"""
import collections
import concurrent.futures
import contextlib
import http.client
import itertools
import os
import re
import shutil
import signal
import socket
import subprocess
import sys
import tempfile
import threading
import time

sys.path.insert(1, os.path.dirname(os.path.dirname(os.path.realpath(__file__))))
import rooms  # first: it finds the others
import forms
from gateway import (
    BINARY, EXPORTERS, KINDS, SPANS, TAKEN, Gateway, Passing, answers, bodies, body_of, example, expected, free_port, late,
    listens, numbered, post, says_nothing, stops_in_a_body, text_of,
)
from program import BUILD, PROGRAM, TOP

RELAY = os.path.join(TOP, "crates", "spanx_relay", "out", "spanx_relay")
UNIT, TICK = (os.path.join(TOP, "examples", f"{name}@.service") for name in ["spanx_relay", "spanx_relay_tick"])
NGINX = os.path.join(TOP, "examples", "spanx_relay.nginx")
EMPTY = os.path.join(TOP, "examples", "relay_empty.sh")
# The forms that a relay sends, and the path of each.
PATHS = {forms.OTLP: "/v1/traces", forms.JSON: "/v1/traces", BINARY: "/api/traces", forms.ZIPKIN: "/api/v2/spans"}
ROOM, AT_ONCE = 1_024, 1_000
USAGE = "usage: spanx_relay OPTIONS\n"

# A request that a peer got, and what it answered.
Sent = collections.namedtuple("Sent", "head body answer")


def said(status):
    """The whole answer of a peer with this status."""
    return f"HTTP/1.1 {status} Said\r\nContent-Length: 0\r\n\r\n".encode()


TAKEN_BY_PEER = said(200)
# Answers of which the head isn't whole, and none at all; the connection ends behind them.
BROKEN = [b"", TAKEN_BY_PEER[:20], TAKEN_BY_PEER[:-2], b"no answer of HTTP\r\n\r\n"]


def is_taken(answer):
    return answer not in BROKEN and answer.split()[1][:1] == b"2"


def request_of(connection):
    """A request with its body, or nothing where it breaks off."""
    held = b""
    while b"\r\n\r\n" not in held:
        piece = connection.recv(2**16)
        if not piece:
            return None
        held += piece
    head, body = body_of(held)
    size = int(re.search(rb"\r\nContent-Length: (\d+)", head)[1])
    while len(body) < size and (piece := connection.recv(2**20)):
        body += piece
    return (head, body) if len(body) == size else None


class Peer:
    """A server that keeps what it gets, and answers the request of each number as a function says; None is silence."""

    def __init__(self, answer=lambda *_: TAKEN_BY_PEER):
        self.port, self.got, self.answer = free_port(), [], answer
        self.address = f"127.0.0.1:{self.port}"
        self.start()

    def start(self):
        self.listener = socket.create_server(("127.0.0.1", self.port), backlog=128)
        self.thread = threading.Thread(target=self.run, args=(self.listener,), daemon=True)
        self.thread.start()

    def stop(self):
        self.listener.shutdown(socket.SHUT_RDWR)
        self.listener.close()
        self.thread.join()

    def __enter__(self):
        return self

    def __exit__(self, *_):
        if self.listener.fileno() >= 0:
            self.stop()

    def run(self, listener):
        while True:
            try:
                connection, _ = listener.accept()
            except OSError:
                return
            with connection, contextlib.suppress(ConnectionError):
                if request := request_of(connection):
                    self.take(connection, *request)

    def take(self, connection, head, body):
        answer = self.answer(len(self.got) + 1, head, body)
        self.got.append(Sent(head, body, answer or b""))
        if answer is None:
            connection.recv(1)
        else:
            connection.sendall(answer)

    def waits(self, count):
        """Waits until it has so many requests, and the relay their answers."""
        for _ in range(500):
            if len(self.got) >= count:
                break
            time.sleep(0.01)
        time.sleep(0.1)

    def taken(self):
        """The bodies that it answered with success, in order."""
        return [sent.body for sent in self.got if is_taken(sent.answer)]


class Relay(Gateway):
    """The relay, between clients at a port of its own and a peer."""

    def __init__(self, target, peer, count, **more):
        self.peer = peer
        super().__init__(target, count, **more)

    def words(self, target, count):
        return [RELAY, "--listen", f"127.0.0.1:{self.port}", "--to", target, "--peer", self.peer, "--count", str(count)]


def standard(source):
    """The answer to a good post in a form."""
    if source in [forms.OTLP, forms.JSON]:
        return text_of(200, "OK", KINDS[source], b"{}" if source == forms.JSON else b"")
    return text_of(202, "Accepted", "", b"")


def reply(text):
    """The status, the media type and the content of an answer."""
    head, content = body_of(text)
    kind = re.search(rb"\r\nContent-Type: (.*?)(\r\n|$)", head)
    return int(head.split()[1]), kind and kind[1].decode(), content


def head_to(peer, target, body):
    """The head by which a body is sent to a peer."""
    lines = [f"POST {PATHS[target]} HTTP/1.1", f"Host: {peer}", f"Content-Type: {KINDS[target]}", f"Content-Length: {len(body)}"]
    return "\r\n".join([*lines, "Connection: close"]).encode()


def made(numbers, target):
    """What bodies of these numbers become."""
    return [expected(numbered(number), forms.ZIPKIN, target)[2] for number in numbers]


def post_over(relay, *sent):
    return post_to(relay.port, *sent)


def post_to(port, *sent):
    """What is answered to these bodies over one connection."""
    with socket.create_connection(("127.0.0.1", port)) as connection:
        text = b"".join(map(post, sent))
        sender = threading.Thread(target=lambda: (connection.sendall(text), connection.shutdown(socket.SHUT_WR)))
        sender.start()
        came = answers(connection)
        sender.join()
        return came


def tick(relay):
    """A connection without a request, behind which the relay sends on what it has."""
    relay.connect().close()


def differs(name, peer, wanted, target, once=True, left=0):
    """What a peer has otherwise: each body with its head, in order, all but so many; where not once each, one comes again until it
    was taken."""
    if peer.taken() != wanted[: len(wanted) - left]:
        yield f"{name}: of {len(wanted)} bodies the peer took {len(peer.taken())}, or others"
    for sent in peer.got:
        if sent.head != head_to(peer.address, target, sent.body):
            yield f"{name}: the head {sent.head}"
    # What comes is always the first that wasn't taken.
    behind = 0
    for sent in peer.got:
        if behind >= len(wanted) or sent.body != wanted[behind]:
            yield f"{name}: body {behind + 1} was to come, and another did"
            return
        behind += is_taken(sent.answer)
    if once and len(peer.got) != len(wanted):
        yield f"{name}: {len(peer.got)} requests for {len(wanted)} bodies"


def ended(name, relay, status=0, notes=""):
    """What differs at the end of a run."""
    done = relay.end()
    if done != (status, b"", notes):
        yield f"{name}: ended with {done} instead of {(status, notes)}"


# ---- peers that take all


def clients():
    """Each body to each form, by Python's client over one kept connection, and by curl over one more."""
    for target in PATHS:
        rows = [(path, kind, body, source) for path, kind, source in TAKEN for form, body in bodies() if form == source]
        with Peer() as peer, Relay(target, peer.address, 2) as relay:
            kept, wanted = http.client.HTTPConnection("127.0.0.1", relay.port), []
            for path, kind, body, source in rows:
                kept.request("POST", path, body, {"Content-Type": kind})
                came = kept.getresponse()
                got = came.status, came.getheader("Content-Type"), came.read()
                whole = expected(body, source, target)
                if whole[0] == 200:
                    wanted.append(whole[2])
                    whole = reply(standard(source))
                if got != whole:
                    yield f"{path} of {kind} to {target}: {got} instead of {whole}"
            if peer.got:
                yield f"to {target}: the peer has bodies while a connection is served"
            kept.close()
            path, kind, body, source = rows[0]
            words = ["curl", "-s", "-w", "%{http_code}", "-H", f"Content-Type: {kind}", "--data-binary", "@-"]
            came = subprocess.run([*words, f"http://127.0.0.1:{relay.port}{path}"], input=body, capture_output=True).stdout.decode()
            if came != "200":
                yield f"curl to {target}: {came}"
            yield from ended(f"to {target}", relay)
            yield from differs(f"to {target}", peer, [*wanted, expected(body, source, target)[2]], target)
            print(f"to {target}: {len(rows) + 1} posts, {len(peer.got)} bodies sent on")


def exporters():
    """What real clients post, to each form."""
    for name, (send, path, source) in EXPORTERS.items():
        for target in PATHS:
            with Peer() as peer, Relay(target, peer.address, 1) as relay:
                passing = Passing(relay.port)
                try:
                    send(f"http://127.0.0.1:{passing.port}{path}")
                except (ImportError, FileNotFoundError, subprocess.CalledProcessError) as why:
                    print(f"left out: {name}: {why}")
                    tick(relay)
                    passing.listener.close()
                    break
                passing.thread.join(10)
                if reply(passing.came) != reply(standard(source)):
                    yield f"{name} to {target}: {passing.sent[:300]} was answered {passing.came[:300]}"
                yield from ended(f"{name} to {target}", relay)
                body = body_of(passing.sent)[1]
                yield from differs(f"{name} to {target}", peer, [expected(body, source, target)[2]], target)
        else:
            print(f"{name}: {len(passing.sent)} bytes, answered {passing.came.split()[1].decode()}")


def to_serve():
    """`spanx serve` as the peer, which makes another form of what it is sent; first through a server that keeps what goes both
    ways."""
    for target, further in zip(PATHS, reversed(PATHS)):
        wanted, came = made(range(1, 6), target), []
        with Gateway(further, len(wanted)) as gateway, Peer() as peer, Relay(target, peer.address, 2) as relay:
            def asked(number, head, body):
                with gateway.connect() as connection:
                    connection.sendall(head + b"\r\n\r\n" + body)
                    came.append(reply(answers(connection)))
                return said(came[-1][0])

            peer.answer = asked
            post_over(relay, *map(numbered, range(1, 4)))
            post_over(relay, *map(numbered, range(4, 6)))
            yield from ended(f"to serve, {target}", relay)
            yield from ended(f"serve behind a server, {target}", gateway)
            yield from differs(f"to serve, {target}", peer, wanted, target)
            if came != [expected(body, target, further) for body in wanted]:
                yield f"to serve, {target}: it answered {came}"
        with Gateway(further, 5) as gateway, Relay(target, f"127.0.0.1:{gateway.port}", 1) as relay:
            post_over(relay, *map(numbered, range(1, 6)))
            yield from ended(f"straight to serve, {target}", relay)
            yield from ended(f"serve behind it, {target}", gateway)


class Nginx:
    """nginx with these lines in its part for HTTP, where it is there."""

    def __init__(self, lines):
        self.folder = tempfile.TemporaryDirectory()
        os.chmod(self.folder.name, 0o755)
        self.config = os.path.join(self.folder.name, "nginx.conf")
        with open(self.config, "w") as out:
            out.write(f"worker_processes 1; pid {self.folder.name}/pid; error_log {self.folder.name}/error; events {{}}\n")
            out.write(f"http {{ client_body_temp_path {self.folder.name}/bodies; {lines.replace('FOLDER', self.folder.name)} }}\n")

    def __enter__(self):
        subprocess.run(["nginx", "-c", self.config], check=True, capture_output=True)
        return self

    def __exit__(self, *_):
        subprocess.run(["nginx", "-s", "stop", "-c", self.config], capture_output=True)

    def noted(self, name):
        with open(os.path.join(self.folder.name, name)) as file:
            return file.read().splitlines()


def to_nginx():
    """nginx with a fixed answer as the peer, which notes the path, the type and the length of each."""
    if not shutil.which("nginx"):
        print("left out: nginx isn't there")
        return
    for target in PATHS:
        port = free_port()
        lines = "log_format seen '$uri $content_type $content_length'; access_log FOLDER/seen seen;"
        with Nginx(f"{lines} server {{ listen 127.0.0.1:{port}; location / {{ return 202; }} }}") as nginx:
            with Relay(target, f"127.0.0.1:{port}", 3) as relay:
                for number in range(3):
                    post_over(relay, *map(numbered, range(1 + 20 * number, 21 + 20 * number)))
                yield from ended(f"to nginx, {target}", relay)
            wanted = [f"{PATHS[target]} {KINDS[target]} {len(body)}" for body in made(range(1, 61), target)]
            if nginx.noted("seen") != wanted:
                yield f"to nginx, {target}: {len(nginx.noted('seen'))} requests, or others than the {len(wanted)}"


# ---- peers that don't


def comes_back(peer):
    """Starts a peer again, once the relay was refused behind its last connection."""
    time.sleep(0.5)
    peer.start()


def stopped():
    """A peer that is stopped and started in the middle: what was kept comes when it is back, once and in order."""
    with Peer() as peer, Relay(forms.OTLP, peer.address, 10) as relay:
        post_over(relay, numbered(1), numbered(2))
        post_over(relay, numbered(3))
        peer.waits(3)
        peer.stop()
        for number in range(4, 8):
            if post_over(relay, numbered(number)) != standard(forms.ZIPKIN):
                yield f"while the peer is away, post {number} isn't answered as kept"
        comes_back(peer)
        post_over(relay, numbered(8))
        post_over(relay, numbered(9))
        for _ in range(2):
            tick(relay)
        yield from ended("a peer that was away", relay, 0, "".join(f"connection {number}: peer failed\n" for number in range(3, 7)))
        yield from differs("a peer that was away", peer, made(range(1, 10), forms.OTLP), forms.OTLP)


def busy():
    """A peer that answers 503 for a while, and others that don't take a body: it comes again, and none behind it before."""
    for status in [503, 100, 199, 300, 404, 599]:
        refuses = lambda number, *_: said(status if 3 <= number < 7 else 299)
        with Peer(refuses) as peer, Relay(forms.ZIPKIN, peer.address, 6) as relay:
            for number in range(1, 7):
                post_over(relay, numbered(number))
            notes = "".join(f"connection {number}: peer answered {status}\n" for number in range(3, 7))
            yield from ended(f"a peer that answers {status}", relay, 8, notes + "left 4\n")
            wanted = made(range(1, 7), forms.ZIPKIN)
            yield from differs(f"a peer that answers {status}", peer, wanted, forms.ZIPKIN, once=False, left=4)
            if len(peer.got) != 6:
                yield f"a peer that answers {status}: {len(peer.got)} requests"
        with Peer(refuses) as peer, Relay(forms.ZIPKIN, peer.address, 7) as relay:
            for number in range(1, 8):
                post_over(relay, numbered(number))
            yield from ended(f"a peer that answers {status} for a while", relay, 0, notes)
            wanted = made(range(1, 8), forms.ZIPKIN)
            yield from differs(f"a peer that answers {status} for a while", peer, wanted, forms.ZIPKIN, once=False)


def broken():
    """A peer that closes in the middle of its answer, or before: the body comes again, though the peer may have taken it."""
    for at, broken_answer in enumerate(BROKEN):
        breaks = lambda number, *_: broken_answer if number in [2, 3, 5] else TAKEN_BY_PEER
        with Peer(breaks) as peer, Relay(BINARY, peer.address, 5) as relay:
            for number in range(1, 6):
                post_over(relay, numbered(number))
            notes = "".join(f"connection {number}: peer failed\n" for number in [2, 3, 4])
            yield from ended(f"an answer that breaks, {at}", relay, 0, notes)
            yield from differs(f"an answer that breaks, {at}", peer, made(range(1, 6), BINARY), BINARY, once=False)


def interrupted():
    """A peer that goes away and comes back again and again while clients post side by side."""
    turns = itertools.cycle([TAKEN_BY_PEER, said(503), TAKEN_BY_PEER, b"", TAKEN_BY_PEER])
    with Peer(lambda *_: next(turns)) as peer, Relay(forms.JSON, peer.address, 240) as relay:
        def one(number):
            return post_over(relay, numbered(number))

        with concurrent.futures.ThreadPoolExecutor(4) as pool:
            posts = pool.map(one, range(1, 201))
            for _ in range(5):
                time.sleep(0.05)
                peer.stop()
                time.sleep(0.05)
                peer.start()
            if set(posts) != {standard(forms.ZIPKIN)}:
                yield "a post isn't answered as kept"
        peer.answer = lambda *_: TAKEN_BY_PEER
        for _ in range(40):
            tick(relay)
        status, _, notes = relay.end()
        if status or not set(re.sub(r"connection \d+", "", notes).splitlines()) <= {": peer failed", ": peer answered 503"}:
            yield f"interrupted: {status}, {notes[-500:]}"
        # Clients side by side: which comes first is theirs, and what is taken stays in one order.
        if sorted(peer.taken()) != sorted(made(range(1, 201), forms.JSON)):
            yield f"interrupted: {len(peer.taken())} bodies taken of 200, or others"
        yield from differs("interrupted", peer, peer.taken(), forms.JSON, once=False)
        print(f"interrupted: 200 bodies, {len(peer.got)} requests, {notes.count(chr(10))} lines")


def is_silent(peer_answers, name):
    """What differs where a peer doesn't answer the second body: the next client is answered behind 30 seconds."""
    answer = lambda number, *_: peer_answers if number == 2 else TAKEN_BY_PEER
    with Peer(answer) as peer, Relay(forms.OTLP, peer.address, 3) as relay:
        post_over(relay, numbered(1))
        post_over(relay, numbered(2))
        start = time.monotonic()
        came, seconds = post_over(relay, numbered(3)), time.monotonic() - start
        print(f"a peer that {name}: the next client is answered after {seconds:.1f} s")
        if came != standard(forms.ZIPKIN) or not 25 < seconds < 45:
            yield f"a peer that {name}: {came} after {seconds:.1f} s"
        yield from ended(name, relay, 0, "connection 2: peer failed\n")
        yield from differs(name, peer, made(range(1, 4), forms.OTLP), forms.OTLP, once=False)


def takes_no_connection():
    """The same where a peer listens, and its system takes no connection more."""
    with socket.socket() as listener:
        listener.bind(("127.0.0.1", 0))
        listener.listen(0)
        address = listener.getsockname()
        waiting = [socket.socket() for _ in range(4)]
        for one in waiting:
            one.setblocking(False)
            one.connect_ex(address)
        time.sleep(0.5)
        with Relay(forms.OTLP, f"127.0.0.1:{address[1]}", 2) as relay:
            post_over(relay, numbered(1))
            start = time.monotonic()
            post_over(relay, numbered(2))
            seconds = time.monotonic() - start
            print(f"a peer that takes no connection: the next client is answered after {seconds:.1f} s")
            if not 25 < seconds < 45:
                yield f"a peer that takes no connection: {seconds:.1f} s"
            relay.process.kill()
        for one in waiting:
            one.close()


def takes_no_more():
    """The same where a peer takes the connection, and doesn't read a long body."""
    with socket.create_server(("127.0.0.1", 0), backlog=1) as listener:
        listener.setsockopt(socket.SOL_SOCKET, socket.SO_RCVBUF, 4096)
        with Relay(forms.ZIPKIN, f"127.0.0.1:{listener.getsockname()[1]}", 2) as relay:
            post_over(relay, b'[{"traceId":"1","id":"1","name":"%s"}]' % (b"a" * 2**24))
            start = time.monotonic()
            post_over(relay, numbered(2))
            seconds = time.monotonic() - start
            print(f"a peer that takes no more of a body: the next client is answered after {seconds:.1f} s")
            if not 25 < seconds < 100:
                yield f"a peer that takes no more: {seconds:.1f} s"
            relay.process.kill()


def silent():
    """Silent peers and silent clients, each at a relay of its own: 30 seconds, and no longer."""
    with Peer() as peer, concurrent.futures.ThreadPoolExecutor() as pool:
        program, wanted = (lambda: Relay(forms.OTLP, peer.address, 2)), (lambda target: standard(forms.ZIPKIN))
        parts = [
            lambda: is_silent(None, "answers nothing"), takes_no_connection, takes_no_more,
            lambda: late(says_nothing, "read", 29, 45, program, wanted),
            lambda: late(stops_in_a_body, "read", 29, 45, program, wanted),
        ]
        for found in pool.map(lambda part: list(part()), parts):
            yield from found


# ---- ends


def room():
    """A spool without room, and what leaves it after each connection."""
    with Peer() as peer, Relay(forms.ZIPKIN, peer.address, 5) as relay:
        peer.stop()
        came = post_over(relay, *[SPANS] * (ROOM + 6))
        if came != standard(forms.ZIPKIN) * ROOM + text_of(503, "Service Unavailable", "", b"") * 6:
            yield f"a spool without room: {came[-200:]}"
        if post_over(relay, SPANS) != text_of(503, "Service Unavailable", "", b""):
            yield "a spool without room takes one more"
        comes_back(peer)
        tick(relay)
        peer.waits(AT_ONCE)
        if len(peer.got) != AT_ONCE:
            yield f"{len(peer.got)} bodies after one connection"
        # Behind the next connection the rest leaves, and what it posted.
        if post_over(relay, numbered(1)) != standard(forms.ZIPKIN):
            yield "there is no room again"
        tick(relay)
        yield from ended("a spool without room", relay, 0, "connection 1: peer failed\nconnection 2: peer failed\n")
        wanted = [expected(SPANS, forms.ZIPKIN, forms.ZIPKIN)[2]] * ROOM + made([1], forms.ZIPKIN)
        yield from differs("a spool without room", peer, wanted, forms.ZIPKIN)


def left():
    """Bodies that are left at the end, with the number of them; the next run has none of them."""
    for posts in [1, 2, 7]:
        with Relay(forms.OTLP, f"127.0.0.1:{free_port()}", 1) as relay:
            post_over(relay, *[SPANS] * posts)
            yield from ended(f"{posts} bodies left", relay, 8, f"connection 1: peer failed\nleft {posts}\n")
    with Peer() as peer, Relay(forms.OTLP, peer.address, 1) as relay:
        post_over(relay, *[SPANS] * (AT_ONCE + 5))
        yield from ended("more than leave after one connection", relay, 8, "left 5\n")
        if len(peer.got) != AT_ONCE:
            yield f"{len(peer.got)} bodies after one connection"


def run(words, **more):
    done = subprocess.run([RELAY, *words], capture_output=True, text=True, timeout=60, **more)
    return done.returncode, done.stdout, done.stderr


def words():
    """Words that are wrong, addresses that are, peers that can't be reached, and signals."""
    right = ["--listen", "127.0.0.1:1", "--to", forms.OTLP, "--peer", "127.0.0.1:1", "--count", "1"]
    wrong = [[], ["--help"], right[:6], right + right[:2]]
    wrong += [[*right[:3], form, *right[4:]] for form in ["jaeger-compact", "otlp", ""]]
    wrong += [[*right[:7], count] for count in ["0", "1000001", "01", "+1", ""]]
    wrong += [[*right[:5], peer, *right[6:]] for peer in ["", "a b:1", "ü:1", "a" * 256]]
    for given in wrong:
        if (done := run(given)) != (2, "", USAGE):
            yield f"{given}: {done}"
    with socket.socket() as other:
        other.bind(("127.0.0.1", 0))
        other.listen()
        for address in [f"127.0.0.1:{other.getsockname()[1]}", "127.0.0.1", "nowhere:1", "", "127.0.0.1:65536"]:
            if (done := run([*right[:1], address, *right[2:]])) != (5, "", "door failed\n"):
                yield f"at {address!r}: {done}"
    with Peer() as peer:
        address = f"127.0.0.1:{peer.port}"
        for name in ["nowhere.example:4318", "127.0.0.1", f"http://{address}", f"{address}/v1/traces", "127.0.0.1:65536", "a" * 255]:
            with Relay(forms.OTLP, name, 1) as relay:
                post_over(relay, SPANS)
                yield from ended(f"the peer {name[:40]}", relay, 8, "connection 1: peer failed\nleft 1\n")
        if peer.got:
            yield "a peer that is no address got something"
        with Relay(forms.OTLP, f"localhost:{peer.port}", 1) as relay:
            post_over(relay, SPANS)
            print(f"the peer localhost: {relay.end()}, {len(peer.got)} bodies")
    for number in [signal.SIGTERM, signal.SIGINT, signal.SIGHUP]:
        with Relay(forms.OTLP, f"127.0.0.1:{free_port()}", 5) as relay:
            post_over(relay, SPANS)
            time.sleep(0.3)
            relay.process.send_signal(number)
            yield from ended(f"signal {number}", relay, -number, "connection 1: peer failed\n")
            if listens(relay.port):
                yield f"signal {number} leaves its address taken"


def unit():
    """The unit by systemd itself, with the program at its place, and its settings with those of the launcher."""
    if not shutil.which("systemd-analyze"):
        print("left out: systemd-analyze isn't there")
        return
    with open(UNIT) as file:
        text = file.read()
    if f"Environment=GLIBC_TUNABLES={os.environ['GLIBC_TUNABLES']}\n" not in text:
        yield "the unit has another setting of the allocator than the launcher"
    with tempfile.TemporaryDirectory() as folder:
        with open(os.path.join(folder, "spanx_relay@.service"), "w") as file:
            file.write(text.replace("/usr/bin/spanx_relay", RELAY))
        shutil.copy(TICK, folder)
        for name in ["spanx_relay@.service", "spanx_relay@4330.service", "spanx_relay_tick@.service", "spanx_relay_tick@4330.service"]:
            done = subprocess.run(["systemd-analyze", "verify", "--man=no", os.path.join(folder, name)], capture_output=True, text=True)
            if done.returncode or done.stdout + done.stderr:
                yield f"systemd-analyze verify of {name}: {done.returncode} {done.stdout}{done.stderr}"
    with Peer() as peer:
        port = free_port()
        given = re.search(r"ExecStart=/usr/bin/spanx_relay (.*)", text)[1].replace("%i", str(port))
        given = given.replace("${TO}", forms.OTLP).replace("${PEER}", peer.address)
        with subprocess.Popen([RELAY, *given.split()], stderr=subprocess.DEVNULL) as process:
            while not listens(port) and process.poll() is None:
                time.sleep(0.01)
            if process.poll() is not None:
                yield f"the words of the unit end with {process.returncode}"
            # One connection of the second unit, without its pause.
            with open(TICK) as file:
                line = re.search(r"ExecStart=/bin/bash -c '(.*)'", file.read())[1].replace("sleep 5", "sleep 0.1").replace("%i", str(port))
            post_to(port, SPANS)
            peer.waits(1)
            peer.answer = lambda number, *_: said(503 if number == 2 else 200)
            post_to(port, SPANS)
            peer.waits(2)
            with subprocess.Popen(["/bin/bash", "-c", line]) as ticking:
                peer.waits(3)
                ticking.kill()
            if len(peer.taken()) != 2:
                yield f"the second unit: {len(peer.taken())} bodies are taken"
            process.kill()


def proxied():
    """The lines of nginx in front of the relay and behind it: chunks are taken off, a body that is refused for good goes, another
    stays."""
    if not shutil.which("nginx"):
        print("left out: nginx isn't there")
        return
    with open(NGINX) as file:
        lines = file.read()
    front, behind = free_port(), free_port()
    body, wanted = example("checkout.bin"), expected(example("checkout.bin"), forms.OTLP, forms.ZIPKIN)[2]
    with Peer() as backend, Relay(forms.ZIPKIN, f"127.0.0.1:{behind}", 8) as relay:
        for was, now in [
            ("listen 8080", f"listen 127.0.0.1:{front}"), ("127.0.0.1:4330", f"127.0.0.1:{relay.port}"),
            ("listen 127.0.0.1:4331", f"listen 127.0.0.1:{behind}"), ("https://backend.example:4318", f"http://{backend.address}"),
            ("/var/log/nginx/given_up.log", "FOLDER/given_up"),
        ]:
            assert lines.count(was) == 1, was
            lines = lines.replace(was, now)
        with Nginx(f"access_log off; {lines}") as nginx:
            heads = ["-H", "Transfer-Encoding: chunked", "-H", "Content-Type: application/x-protobuf"]
            words = ["curl", "-s", "-w", "%{http_code}", *heads, "--data-binary", "@-"]

            def by_curl():
                return subprocess.run([*words, f"http://127.0.0.1:{front}/v1/traces"], input=body, capture_output=True).stdout

            for number, (answer, taken) in enumerate([(said(202), 1), (said(503), 1), (said(200), 3), (said(400), 3), (said(200), 4)]):
                backend.answer = lambda *_: answer
                if by_curl() != b"200":
                    yield f"nginx in front: post {number + 1} isn't answered 200"
                for _ in range(50):
                    time.sleep(0.02)
                    if len(backend.got) > number and len(backend.taken()) >= taken:
                        break
                if len(backend.taken()) != taken:
                    yield f"nginx behind: after post {number + 1}, {len(backend.taken())} bodies are taken"
            for _ in range(3):
                tick(relay)
            yield from ended("nginx", relay, 0, "connection 2: peer answered 503\n")
            if set(sent.body for sent in backend.got) != {wanted}:
                yield "nginx behind: the backend has other bodies"
            given_up = nginx.noted("given_up")
            print(f"given up: {given_up}")
            if len(given_up) != 1 or not given_up[0].endswith(f" /api/v2/spans, {len(wanted)} bytes, answered 400"):
                yield f"nginx behind: given up is {given_up}"


def emptied():
    """The script that waits until nothing is kept: it goes on while the peer is away, and ends once all is sent."""
    with Peer() as peer, tempfile.NamedTemporaryFile() as notes, open(notes.name, "wb") as written:
        peer.stop()
        with Relay(forms.OTLP, peer.address, 1000, stderr=written) as relay:
            post_over(relay, *map(numbered, range(1, 4)))
            words = [EMPTY, f"127.0.0.1:{relay.port}", "cat", notes.name]
            waiting = subprocess.Popen(words, stdout=subprocess.PIPE, stderr=subprocess.STDOUT, text=True)
            time.sleep(3)
            if waiting.poll() is not None:
                yield f"it ended before all was sent: {waiting.communicate()}"
            peer.start()
            came = waiting.communicate(timeout=60)
            if waiting.returncode or len(peer.taken()) != 3:
                yield f"it ended with {waiting.returncode}, {came}, {len(peer.taken())} bodies taken"
            relay.process.terminate()
            relay.process.wait()
        done = subprocess.run(words, capture_output=True, text=True, timeout=60)
        if done.returncode == 0:
            yield f"without a relay it ends with 0: {done}"


PARTS = {
    "clients": clients, "exporters": exporters, "serve": to_serve, "nginx": to_nginx, "stopped": stopped, "busy": busy,
    "broken": broken, "interrupted": interrupted, "silent": silent, "room": room, "left": left, "words": words, "unit": unit,
    "proxied": proxied, "emptied": emptied,
}

if __name__ == "__main__":
    if not os.path.exists(PROGRAM) or not os.path.exists(RELAY):
        sys.exit(BUILD)
    # What a shell runs in the background ignores SIGINT, and so does what that runs.
    for told in [signal.SIGHUP, signal.SIGINT]:
        signal.signal(told, signal.SIG_DFL)
    bad = 0
    for name, part in PARTS.items():
        if sys.argv[1:] and not any(word in name for word in sys.argv[1:]):
            continue
        found = list(part())
        bad += len(found)
        print(f"{name}: {len(found)} differences", *found, sep="\n  ", flush=True)
    sys.exit(bool(bad))
