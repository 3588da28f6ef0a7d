#!/usr/bin/python3
"""Times posts a second to four `serve` behind nginx, set up as docs/SERVICE.md says, beside one, in turns.

It is run at the top as bench/speed/several_speed.py [TURNS [SECONDS]], 5 turns of 3 seconds, after ./spanx has built the program.
The posts are requests in protobuf of 10 spans and of 1,000, to zipkin-json, over 16 connections to nginx, which has a worker for
each processor. Each answer must be one of success, and what nginx answers first must be what `convert` writes. It prints the rows
of the table in docs/PERFORMANCE.md. The program runs as ./spanx runs it. These figures are no test: they hang on the machine and
its load, and on how many processors there are for nginx, wrk and the program together.
"""
import os
import re
import shutil
import statistics
import subprocess
import sys
import tempfile

sys.path.insert(1, os.path.dirname(os.path.dirname(os.path.realpath(__file__))))
import rooms  # first: it finds the others
from gateway import Gateway, example, expected
from program import BUILD, PROGRAM
from service import KIND, OTLP, ZIPKIN, nginx, post

SEVERAL = 4
CONNECTIONS = 16
LUA = """wrk.method = "POST"
wrk.body = io.open("%s", "rb"):read("*a")
wrk.headers["Content-Type"] = "%s"
"""


def by_wrk(port, script, seconds):
    """Posts a second that are answered with success."""
    words = ["wrk", "-t", "1", "-c", str(CONNECTIONS), "-d", f"{seconds}s", "--timeout", "30s", "-s", script]
    said = subprocess.run([*words, f"http://127.0.0.1:{port}/v1/traces"], check=True, capture_output=True, text=True).stdout
    if "Non-2xx" in said or "Socket errors" in said:
        sys.exit(f"not each post was answered: {said}")
    return float(re.search(r"Requests/sec: *([0-9.]+)", said)[1])


def told(values, form):
    return f"{statistics.median(values):{form}} ({min(values):{form}} to {max(values):{form}})"


def in_turns(body, name, turns, seconds):
    """Prints what one answers a second, and what four do."""
    with tempfile.TemporaryDirectory() as folder:
        script, file = os.path.join(folder, "post.lua"), os.path.join(folder, "body")
        with open(file, "wb") as out:
            out.write(body)
        with open(script, "w") as out:
            out.write(LUA % (file, KIND))
        rows = []
        for _ in range(turns):
            row = []
            for count in [1, SEVERAL]:
                gateways = [Gateway(ZIPKIN, 2**32 - 1) for _ in range(count)]
                try:
                    with nginx(gateways, 10, os.cpu_count()) as (port, _):
                        if post(port, body) != expected(body, OTLP, ZIPKIN):
                            sys.exit(f"{name}: the answer isn't what convert writes")
                        row.append(by_wrk(port, script, seconds))
                finally:
                    for gateway in gateways:
                        gateway.__exit__()
            rows.append(row)
    one, four = zip(*rows)
    times = told([several / alone for alone, several in rows], ".2f")
    print(f"| {name} | {told(one, ',.0f')} | {told(four, ',.0f')} | {times} |", flush=True)


def main(turns=5, seconds=3):
    if not os.path.exists(PROGRAM):
        sys.exit(BUILD)
    for needed in ["nginx", "wrk"]:
        if not shutil.which(needed):
            sys.exit(f"there is no {needed}")
    print(f"{os.cpu_count()} processors, {turns} turns of {seconds} s: posts a second to one, to four, times as many")
    few = example("checkout.bin")
    for body, spans in [(few, "10"), (few * 100, "1,000")]:
        in_turns(body, f"{spans} spans in {len(body):,} bytes", turns, seconds)


if __name__ == "__main__":
    main(*map(int, sys.argv[1:3]))
