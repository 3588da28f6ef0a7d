#!/usr/bin/python3
"""Tries what docs/SERVICE.md says: the unit by `systemd-analyze verify`, how `serve` ends by a signal and is started again, what a
silent client does to it that goes, that stays and behind nginx as the page sets it up, four `serve` behind nginx, and examples/forward.py between
a client, `serve` and the servers of stand_ins.py.

It is run at the top as bench/services/service.py, after ./spanx has built the program. Words that are given choose the parts
whose names hold one of them. It ends with 1 on a difference.
"""
import concurrent.futures
import contextlib
import http.client
import json
import os
import re
import shutil
import signal
import socket
import subprocess
import sys
import tempfile
import time

sys.path.insert(1, os.path.dirname(os.path.dirname(os.path.realpath(__file__))))
import rooms  # first: it finds the others
import stand_ins
from gateway import Gateway, example, expected, free_port, late, listens
from program import BUILD, PROGRAM, TOP

PAGE = os.path.join(TOP, "docs", "SERVICE.md")
UNIT = os.path.join(TOP, "examples", "spanx@.service")
OTLP, ZIPKIN = "otlp-proto", "zipkin-json"
KIND = "application/x-protobuf"
HEAD = b"POST /v1/traces HTTP/1.1\r\nHost: x\r\nContent-Type: application/x-protobuf\r\nContent-Length: 100\r\n\r\n"


def post(port, body, path="/v1/traces", kind=KIND, seconds=20):
    """The status, the type and the content of an answer, or what stood in its way."""
    connection = http.client.HTTPConnection("127.0.0.1", port, timeout=seconds)
    try:
        connection.request("POST", path, body, {"Content-Type": kind})
        answer = connection.getresponse()
        return answer.status, answer.getheader("Content-Type"), answer.read()
    except OSError as why:
        return type(why).__name__
    finally:
        connection.close()


def unit():
    """The unit by systemd itself, with the program at its place, and its settings with those of the launcher."""
    with open(UNIT) as file:
        text = file.read()
    if f"Environment=GLIBC_TUNABLES={os.environ['GLIBC_TUNABLES']}\n" not in text:
        yield "the unit has another setting of the allocator than the launcher"
    with tempfile.TemporaryDirectory() as folder:
        path = os.path.join(folder, "spanx@.service")
        with open(path, "w") as file:
            file.write(text.replace("/usr/bin/spanx", PROGRAM))
        for name in ["spanx@.service", "spanx@4320.service"]:
            done = subprocess.run(["systemd-analyze", "verify", "--man=no", os.path.join(folder, name)], capture_output=True, text=True)
            if done.returncode or done.stdout + done.stderr:
                yield f"systemd-analyze verify of {name}: {done.returncode} {done.stdout}{done.stderr}"
    words = re.search(r"ExecStart=/usr/bin/spanx (.*)", text)[1].replace("%i", str(free_port())).replace("${TO}", OTLP).split()
    with subprocess.Popen([PROGRAM, *words]) as process:
        while not listens(int(words[2].rpartition(":")[2])) and process.poll() is None:
            time.sleep(0.01)
        if process.poll() is not None:
            yield f"the words of the unit end with {process.returncode}"
        process.kill()


def stopped():
    """SIGTERM and SIGINT end it at once, in a body too, without a note; another starts at the same address at once."""
    for number in [signal.SIGTERM, signal.SIGINT]:
        with Gateway(OTLP, 5) as gateway, gateway.connect() as client:
            client.sendall(HEAD)
            time.sleep(0.3)
            gateway.process.send_signal(number)
            if gateway.end() != (-number, b"", ""):
                yield f"{number} ends it otherwise"
            words = [PROGRAM, "serve", "--listen", f"127.0.0.1:{gateway.port}", "--to", ZIPKIN, "--count", "1"]
            with subprocess.Popen(words) as again:
                while not listens(gateway.port) and again.poll() is None:
                    time.sleep(0.01)
                wanted = expected(example("checkout.bin"), OTLP, ZIPKIN)
                if post(gateway.port, example("checkout.bin")) != wanted or again.wait(20):
                    yield f"behind {number} it doesn't start again"


def stops_in_a_head(client):
    client.sendall(HEAD[:20])


def silent():
    """A client that says nothing, or stops in a body, keeps the others waiting until it goes, and one that stays for 30 seconds."""
    wanted = expected(example("checkout.bin"), OTLP, ZIPKIN)
    for name, sent in [("says nothing", b""), ("stops in a head", HEAD[:20]), ("stops in a body", HEAD + b"abc")]:
        with Gateway(ZIPKIN, 2) as gateway:
            with gateway.connect() as client, concurrent.futures.ThreadPoolExecutor() as pool:
                client.sendall(sent)
                time.sleep(0.3)
                other = pool.submit(post, gateway.port, example("checkout.bin"), seconds=60)
                time.sleep(3)
                if other.done():
                    yield f"where a client {name}, another had {other.result()}"
                client.close()
                if other.result() != wanted:
                    yield f"behind a client that {name}, another had {other.result()}"
            if gateway.end() != (0, b"", ""):
                yield f"a client that {name} left a note"
    yield from late(stops_in_a_head, "read", 29, 45)


@contextlib.contextmanager
def nginx(gateways, seconds, workers=1):
    """nginx as the page sets it up, in front of these, with other times; its port, and where it notes which of them it asked."""
    with open(PAGE, encoding="utf-8") as page:
        block = re.search(r"(?m)^    upstream spanx \{\n(?:    .*\n)+", page.read())[0]
    port = free_port()
    block = block.replace("listen 8080", f"listen 127.0.0.1:{port}")
    for at, gateway in enumerate(gateways):
        block = block.replace(f"127.0.0.1:{4320 + at};", f"127.0.0.1:{gateway.port};")
    block = re.sub(r"server 127.0.0.1:432\d;", "", block)
    block, count = re.subn(r"(client_(?:header|body)_timeout) 10s", rf"\1 {seconds}s", block)
    assert count == 2
    with tempfile.TemporaryDirectory() as folder:
        os.chmod(folder, 0o755)
        config = os.path.join(folder, "nginx.conf")
        with open(config, "w") as out:
            out.write(f"worker_processes {workers}; pid {folder}/pid; error_log {folder}/error; events {{}} ")
            out.write(f"http {{ log_format asked $upstream_addr; access_log {folder}/asked asked; {block} }}")
        subprocess.run(["nginx", "-c", config], check=True, capture_output=True)
        try:
            yield port, os.path.join(folder, "asked")
        finally:
            subprocess.run(["nginx", "-s", "stop", "-c", config], capture_output=True)


def ended(connection):
    """What came of a connection until its end, and after how many seconds."""
    start, held = time.monotonic(), b""
    connection.settimeout(30)
    while piece := connection.recv(4096):
        held += piece
    return held.partition(b"\r\n")[0], time.monotonic() - start


def proxied():
    """Silent clients behind nginx: they are ended, and no other waits meanwhile."""
    wanted = expected(example("checkout.bin"), OTLP, ZIPKIN)
    with Gateway(ZIPKIN, 2**32 - 1) as gateway, nginx([gateway], 3) as (port, _):
        for name, sent, line in [("says nothing", b"", b""), ("stops in a head", HEAD[:20], b""), ("stops in a body", HEAD + b"abc", b"")]:
            with socket.create_connection(("127.0.0.1", port)) as client:
                client.sendall(sent)
                time.sleep(0.3)
                if post(port, example("checkout.bin")) != wanted:
                    yield f"beside a client behind nginx that {name}, another isn't answered"
                came, seconds = ended(client)
                print(f"a client behind nginx that {name} is ended after {seconds:.1f} s, {came}")
                if seconds > 10 or b" 200 " in came:
                    yield f"a client behind nginx that {name}: {came} after {seconds}"


def several():
    """Four behind nginx: all answer, each is used; where one is gone the others answer."""
    wanted = expected(example("checkout.bin"), OTLP, ZIPKIN)
    with contextlib.ExitStack() as stack:
        gateways = [stack.enter_context(Gateway(ZIPKIN, 2**32 - 1)) for _ in range(4)]
        port, asked = stack.enter_context(nginx(gateways, 10))
        with concurrent.futures.ThreadPoolExecutor(8) as pool:
            answers = list(pool.map(lambda _: post(port, example("checkout.bin")), range(80)))
        with open(asked) as notes:
            lines = notes.read().splitlines()
        shares = [lines.count(f"127.0.0.1:{one.port}") for one in gateways]
        print(f"80 posts, shared as {shares}")
        if answers != [wanted] * 80 or min(shares) < 1:
            yield f"of four, shared as {shares}, {sum(one != wanted for one in answers)} answers differ"
        gateways[0].process.kill()
        gateways[0].process.wait()
        if [post(port, example("checkout.bin")) for _ in range(8)] != [wanted] * 8:
            yield "with one of four gone, a post isn't answered"


@contextlib.contextmanager
def forwarder(converter, backend):
    port = free_port()
    words = [sys.executable, os.path.join(TOP, "examples", "forward.py"), f"127.0.0.1:{port}", converter, backend]
    with tempfile.TemporaryFile("w+") as notes, subprocess.Popen(words, stderr=notes) as process:
        while not listens(port) and process.poll() is None:
            time.sleep(0.05)
        try:
            yield port, notes
        finally:
            process.kill()


def forwarded():
    """Posts of each form through examples/forward.py: what the backend has, each status, and the words that are wrong."""
    bodies = [
        ("/v1/traces", KIND, example("checkout.bin")), ("/v1/traces", "application/json", example("checkout.json")),
        ("/api/traces", "application/x-thrift", example("checkout_batch.bin")), ("/api/v2/spans", "application/json", example("checkout_spans.json")),
    ]
    backend = "http://127.0.0.1:9411/api/v2/spans"
    with stand_ins.running(), Gateway(ZIPKIN, 1000) as gateway:
        converter = f"http://127.0.0.1:{gateway.port}"
        with forwarder(converter, backend) as (port, notes):
            with concurrent.futures.ThreadPoolExecutor(4) as pool:
                answers = list(pool.map(lambda one: post(port, one[2], one[0], one[1]), bodies))
            if [one[0] for one in answers] != [202] * 4:
                yield f"forwarded: {answers}"
            came = http.client.HTTPConnection("127.0.0.1", 9411)
            came.request("GET", "/api/v2/traces")
            count = sum(map(len, json.load(came.getresponse())))
            came.close()
            if count != 10 + 10 + 4 + 6:
                yield f"the backend has {count} spans"
            for name, answer, wanted in [
                ("a body that is cut", post(port, bodies[0][2][:-100]), (400, "text/plain", b"unit 2: cause 1 Truncated\n")),
                ("another type", post(port, b"", kind="text/plain"), (415, None, b"")),
                ("another path", post(port, b"", "/"), (404, None, b"")),
            ]:
                if (answer[0], answer[1] or None, answer[2]) != wanted:
                    yield f"{name}: {answer}"
            for name, sent, status in [
                ("chunks", HEAD.replace(b"Content-Length: 100", b"Transfer-Encoding: chunked"), b"501"),
                ("no length", HEAD.replace(b"Content-Length: 100", b"A: b"), b"411"),
                ("a length that is none", HEAD.replace(b"100", b"1x0"), b"400"),
                ("a length above the limit", HEAD.replace(b"100", b"67108865"), b"413"),
                ("another method", HEAD.replace(b"POST", b"PUT"), b"501"),
            ]:
                with socket.create_connection(("127.0.0.1", port)) as client:
                    client.sendall(sent)
                    line = ended(client)[0]
                    if not line.startswith(b"HTTP/1.1 " + status):
                        yield f"{name}: {line}"
            notes.seek(0)
            if "400 'unit 2: cause 1 Truncated'" not in notes.read():
                yield "a refused post has no line"
        for name, words, status in [
            ("a backend that refuses", (converter, "http://127.0.0.1:9411/nowhere"), 404),
            ("no backend", (converter, f"http://127.0.0.1:{free_port()}/"), 502),
            ("no converter", (f"http://127.0.0.1:{free_port()}", backend), 502),
        ]:
            with forwarder(*words) as (port, _):
                answer = post(port, bodies[0][2])
                print(f"{name}: {answer}")
                if answer[0] != status:
                    yield f"{name}: {answer}"
        for words in [[], ["a", "b", "c"], ["127.0.0.1:9411", converter, backend], ["127.0.0.1:99999", converter, backend], ["127.0.0.1:1", "x", backend]]:
            done = subprocess.run([sys.executable, os.path.join(TOP, "examples", "forward.py"), *words], capture_output=True, text=True, timeout=30)
            if done.returncode != 1 or "Traceback" in done.stderr or words and done.stderr.count("\n") != 1:
                yield f"the words {words}: {done}"


PARTS = {"unit": unit, "stopped": stopped, "silent": silent, "proxied": proxied, "several": several, "forwarded": forwarded}

if __name__ == "__main__":
    if not os.path.exists(PROGRAM):
        sys.exit(BUILD)
    for needed in ["systemd-analyze", "nginx"]:
        if not shutil.which(needed):
            sys.exit(f"there is no {needed}")
    # What a shell runs in the background ignores SIGINT, and so does what that runs.
    signal.signal(signal.SIGINT, signal.default_int_handler)
    bad = 0
    for name, part in PARTS.items():
        if sys.argv[1:] and not any(word in name for word in sys.argv[1:]):
            continue
        found = list(part())
        bad += len(found)
        print(f"{name}: {len(found)} differences", *found, sep="\n  ")
    sys.exit(bool(bad))
