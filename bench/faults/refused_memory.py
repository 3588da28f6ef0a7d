#!/usr/bin/env python3
"""Runs the built program with each of its requests for memory refused in turn, and compares what comes with the undisturbed run.

bench/faults/shims/refuse.c stands in front of the C library's allocator, and refuses the first request, the second one, and so on
up to the first run that asks no more often; then, for each of these, it and all behind it; then it and every second one behind
it. Run are the worked texts and the samples, each to each form by `convert` and `losses` and by `show` and `check`, `headers`,
`gauge`, a connection of `serve` with each sample posted to each form, an agent that is sent datagrams with the batches of the
samples, and a relay to which each sample is posted, and several bodies over two connections. A run must end with status 7, with
`out of memory` on the notes or nothing, behind the lines of bad datagrams, and what was written or answered must be what the
undisturbed run begins with, and the bodies that the peer of a relay got as well; or all must be as in that run, where the program
goes on without what was refused. The next run with no request refused must be that run again. It ends with 0 where all is so, and
prints how often each came.

Run it at the top as bench/faults/refused_memory.py FOLDER.., after ./spanx, ./spanx_agent and ./spanx_relay have built the
programs. A folder of samples is laid out as for bench/comparisons/there_and_back.py; where none is given the samples are those of
examples/. --jobs=N runs so many at once, or else two, and --only=WORD what has the word in its name.
"""
import collections
import os
import sys

sys.path.insert(1, os.path.dirname(os.path.dirname(os.path.realpath(__file__))))
import rooms  # first: it finds the others
import disturbed
from agent import AGENT
from program import BUILD, PROGRAM
from relay import RELAY

HOW = {"one": 0, "all from one on": 1, "every second from one on": 2}


def wrong(case, whole, came):
    """What a run of which a request was refused does wrong; nothing else."""
    if came[:3] == whole[:3]:
        return ""
    if came.status != 7:
        return "another status than 7"
    before = came.notes.removesuffix("out of memory\n")
    if before and not (case.kind == "agent" and whole.notes.startswith(before)):
        return "another note than `out of memory`"
    if case.kind == "relay":
        return wrong_relay(case, whole, came)
    return "" if whole.output.startswith(came.output) else "what was written isn't what the undisturbed run begins with"


def wrong_relay(case, whole, came):
    """The same of what clients of a relay have, and its peer."""
    count = len(case.text)
    if not all(one.startswith(other) for one, other in zip(whole.output[:count], came.output[:count])):
        return "what was answered isn't what the undisturbed answers begin with"
    sent, bodies = came.output[count:], whole.output[count:]
    return "" if sent == bodies[: len(sent)] else "the peer got other bodies"


def outcome(whole, came):
    if came[:3] == whole[:3]:
        return "the same answer"
    return "status 7 with its note" if came.notes else "status 7 without a note"


def tried(case):
    """What a case does wrong, and how its runs ended."""
    whole = SHIM.run(case)
    differences, counts = [], collections.Counter()
    if case.wanted is not None and whole[:3] != (0, case.wanted, ""):
        differences.append(f"undisturbed: {disturbed.described(case, {}, whole)}")
    for every in HOW.values():
        first = 1
        while True:
            settings = {"REFUSE_FIRST": first, "REFUSE_EVERY": every}
            came = SHIM.run(case, **settings)
            if "x" not in came.marks:
                break
            counts["runs"] += 1
            if why := wrong(case, whole, came):
                differences.append(f"{why}: {disturbed.described(case, settings, came)}")
            counts[outcome(whole, came)] += 1
            first += 1
        counts["requests"] = first - 1
    counts["cases"] = 1
    for name, again in [("the last run, of which nothing was refused", came), ("the next run", SHIM.run(case))]:
        if again[:3] != whole[:3]:
            differences.append(f"{name}: {disturbed.described(case, {}, again)}")
    return differences, {case.kind: counts}


if not all(map(os.path.exists, [PROGRAM, AGENT, RELAY])):
    sys.exit(BUILD)
SHIM = disturbed.Shim("refuse")

if __name__ == "__main__":
    disturbed.told(sys.argv[1:], tried, disturbed.chosen(sys.argv[1:]))
