#!/usr/bin/env python3
"""Measures the built program in a pipe: its peak of memory over a long stream, how soon it writes what it read, and what pieces of one
byte cost.

Run it at the top as bench/speed/streaming.py, after ./spanx has built the program. It has three parts.

  memory   The request of bench/speed/conversions.py and the compact batches of the same spans, 1 MB each, are sent again and again through a pipe,
           2 GB of them, to each form; with `cat` beside them. The peak of memory must stay below 64 MB.
  first    One unit is sent and the pipe is left open: how long until its text has come. Before the next unit all of it must be there.
  cuts     A quarter of a megabyte, half of one and a whole of the same in pieces of one byte, each of which is one read (a pipe in
           packet mode), beside `cat`. Twice the bytes must take no more than three times as long.

Words that are given choose the parts. It ends with 1 where a text isn't what it must be, or a bound is passed. The figures hang on the
machine and its load.
"""
import fcntl
import os
import select
import subprocess
import sys
import threading
import time

sys.path.insert(1, os.path.dirname(os.path.dirname(os.path.realpath(__file__))))
import rooms  # first: it finds the others
import conversions
import forms
from program import BUILD, PROGRAM, answer, command
from protocols import PROTOCOLS

SIZE = 1_000_000
STREAM = 2_000_000_000
MOST_MEMORY = 64_000_000
SOURCES = [forms.OTLP, *PROTOCOLS]
CUT_SIZES = [250_000, 500_000, 1_000_000]
SECONDS = 600


def sent(out, text, size):
    """Sends a text again and again, as often as it fits."""
    for _ in range(size // len(text)):
        out.write(text)
    out.close()


def streamed(words, text, size):
    """The seconds, the user time and the peak of memory of a command in a pipe, with its status and the number of bytes that it wrote."""
    begun = time.monotonic()
    run = subprocess.Popen(words, stdin=subprocess.PIPE, stdout=subprocess.PIPE, bufsize=0)
    sender = threading.Thread(target=sent, args=(run.stdin, text, size), daemon=True)
    sender.start()
    written = 0
    while piece := run.stdout.read(1 << 20):
        written += len(piece)
    _, status, used = os.wait4(run.pid, 0)
    sender.join()
    return time.monotonic() - begun, used.ru_utime, used.ru_maxrss * 1024, os.waitstatus_to_exitcode(status), written


def memory(texts):
    """The peak of memory over long streams; returns how many bounds are passed."""
    passed = 0
    for source in [forms.OTLP, "jaeger-compact"]:
        text = texts[source]
        times = STREAM // len(text)
        print(f"{source}: {times * len(text) / 1e6:.0f} MB through a pipe")
        seconds, user, most, _, _ = streamed(["cat"], text, STREAM)
        print(f"  cat: {seconds:.1f} s, {user:.1f} s of it user time, memory {most / 1e6:.1f} MB")
        for target in forms.FORMS:
            seconds, user, most, status, written = streamed(command(source, target), text, STREAM)
            print(f"  to {target}: {seconds:.1f} s, {user:.1f} s of it user time, memory {most / 1e6:.1f} MB, {written / 1e6:.0f} MB written", flush=True)
            if status != 0 or most >= MOST_MEMORY:
                print(f"  PASSED: status {status}, memory {most / 1e6:.1f} MB")
                passed += 1
    return passed


def taken(pipe, size, seconds):
    """So many bytes that come of a pipe within the time, or those that did."""
    got, until = b"", time.monotonic() + seconds
    while len(got) < size and select.select([pipe], [], [], max(0, until - time.monotonic()))[0]:
        piece = os.read(pipe, 1 << 20)
        if not piece:
            break
        got += piece
    return got


def closing(target):
    """How many bytes close a text of the form."""
    return {forms.JSON: 2, forms.ZIPKIN: 1}.get(target, 0)


def first(units):
    """How soon the text of a unit comes, of several that are sent one after the other; returns how many came wrong."""
    wrong = 0
    for source in SOURCES:
        for target in forms.FORMS:
            run = subprocess.Popen(command(source, target), stdin=subprocess.PIPE, stdout=subprocess.PIPE, bufsize=0)
            times, fed, got = [], b"", b""
            for unit in units[source]:
                fed += unit
                whole = answer(command(source, target), fed)[1]
                begun = time.monotonic()
                run.stdin.write(unit)
                got += taken(run.stdout.fileno(), len(whole) - closing(target) - len(got), 5)
                times.append(time.monotonic() - begun)
                wrong += got != whole[: len(whole) - closing(target)]
            run.stdin.close()
            got += run.stdout.read()
            wrong += run.wait() != 0 or got != whole
            print(f"{source} to {target}: {', '.join(f'{seconds * 1e6:.0f}' for seconds in times)} us behind each unit of {len(units[source][0])} bytes")
    return wrong


def cut(words, text):
    """The user and system time of a command whose input comes a byte a read, and what it wrote."""
    reads, writes = os.pipe2(os.O_DIRECT)
    fcntl.fcntl(writes, fcntl.F_SETPIPE_SZ, 1 << 20)
    run = subprocess.Popen(words, stdin=reads, stdout=subprocess.PIPE)
    os.close(reads)
    got = []
    reader = threading.Thread(target=lambda: got.append(run.stdout.read()))
    reader.start()
    for i in range(len(text)):
        os.write(writes, text[i : i + 1])
    os.close(writes)
    reader.join()
    _, _, used = os.wait4(run.pid, 0)
    return used.ru_utime + used.ru_stime, got[0]


def cuts(texts):
    """Pieces of one byte; returns how many bounds are passed."""
    passed = 0
    for source in SOURCES:
        for name, words in [("cat", ["cat"]), *((target, command(source, target)) for target in [forms.OTLP, forms.ZIPKIN])]:
            times = []
            for size in CUT_SIZES:
                text = texts[source] * (size // len(texts[source]))
                seconds, got = cut(words, text)
                times.append(seconds)
                passed += name != "cat" and got != answer(words, text)[1]
            print(f"{source} to {name}, a byte a read: {', '.join(f'{seconds:.2f}' for seconds in times)} s of processor time for 0.25, 0.5 and 1 MB", flush=True)
            passed += any(later > 3 * earlier for earlier, later in zip(times, times[1:]))
    return passed


def main():
    if not os.path.exists(PROGRAM):
        sys.exit(BUILD)
    chosen = lambda part: not sys.argv[1:] or part in sys.argv[1:]
    failed = 0
    if chosen("first"):
        failed += first({source: [conversions.inputs(size)[0][source] for size in [60_000] * 3] for source in SOURCES})
    if chosen("cuts"):
        failed += cuts({source: text for source, text in conversions.inputs(110_000)[0].items()})
    if chosen("memory"):
        failed += memory(conversions.inputs(SIZE)[0])
    sys.exit(failed != 0)


if __name__ == "__main__":
    main()
