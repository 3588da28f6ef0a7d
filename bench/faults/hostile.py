#!/usr/bin/env python3
"""Runs the built program over inputs that are made to be slow or large, and prints what each costs.

Run it at the top as bench/faults/hostile.py, after ./spanx has built the program. Words that are given choose the cases whose
names, with those of the forms, hold them. It prints seconds, the peak of memory, the bytes written, status and note of each, and
ends with 1 where one takes more than 5 seconds or ends otherwise than it must. `--list` only makes the inputs and prints their
sizes; `--small` makes them for a limit of 40,000 bytes in place of 16 MiB, and has them judged by the readers of bench/readers in
place of the program.
"""
import os
import sys
import tempfile

sys.path.insert(1, os.path.dirname(os.path.dirname(os.path.realpath(__file__))))
import rooms  # first: it finds the others
import otlp

SMALL = "--small" in sys.argv
if SMALL:
    # Before the modules that stand on it are loaded.
    otlp.UNIT = 40_000

import forms
import losses
import reports
from hostile_documents import document_cases, to_document_cases, groups_cases, to_groups_cases
from hostile_keys import key_cases
from hostile_reports import report_cases
from hostile_units import SAME_FORM, cases, batch_cases, compact_cases
from program import BUILD, PROGRAM, Measured, command, losses_command, report_command

SLOW = 5.0


def parted(target):
    """A target, or a mode that reports of a form, and whether what is lost in it is asked for."""
    form, _, mode = target.partition(", ")
    return form, mode == losses.LOSSES


def words_of(source, target):
    """The words that convert a form into another, tell what is lost in that, or report of it in a mode."""
    form, is_lost = parted(target)
    if form in reports.MODES:
        return report_command(form, source)
    return (losses_command if is_lost else command)(source, form)


def verdict(text, source, target):
    form, is_lost = parted(target)
    table = reports if form in reports.MODES else losses if is_lost else forms
    return table.verdict(text, source, form)


def judge(name, pair, make):
    """Whether the readers say of a small input what must be seen."""
    try:
        text, status, note, output = make()
    except AssertionError:
        print(f"left out: {name}, {' to '.join(pair)}: larger than a small unit")
        return True
    got = verdict(text, *pair)[:3]
    right = got == (status, note and note + "\n", output)
    print(f"{'ok' if right else 'WRONG'}: {name}, {' to '.join(pair)}: {len(text)} bytes, status {got[0]} {got[1].strip()!r}, wrote {len(got[2])}")
    return right


def run(name, pair, text, status, note, output):
    """Whether the run was quick, and ended as it must."""
    with tempfile.NamedTemporaryFile() as file:
        file.write(text)
        file.flush()
        ran = Measured(words_of(*pair), file.name, 60)
    wrong = []
    if (ran.status, ran.note) != (status, note):
        wrong.append(f"wanted status {status} '{note}'")
    elif ran.output != output:
        wrong.append(f"wanted another output, of {len(output)} bytes")
    if ran.seconds > SLOW:
        wrong.append("slow")
    print(
        f"{'WRONG' if wrong else 'ok'}: {name}, {' to '.join(pair)}: {len(text)} bytes, {ran.seconds:.2f} s, {ran.memory / 1e6:.0f} MB of memory, "
        f"wrote {len(ran.output)}, status {ran.status} '{ran.note}'" + "".join(f"; {what}" for what in wrong),
        flush=True,
    )
    return not wrong


def main():
    words = [word for word in sys.argv[1:] if not word.startswith("--")]
    every = [(name, SAME_FORM, make) for name, make in cases()] + batch_cases() + compact_cases() + document_cases() + to_document_cases() + groups_cases() + to_groups_cases()
    every += key_cases() + report_cases()
    chosen = [(name, pair, make) for name, pair, make in every if not words or any(word in f"{name}, {' to '.join(pair)}" for word in words)]
    if "--list" in sys.argv:
        for name, pair, make in chosen:
            text, status, note, output = make()
            print(f"{name}, {' to '.join(pair)}: {len(text)} bytes, status {status} '{note}', output {len(output)}")
        return
    if SMALL:
        sys.exit(0 if all([judge(*case) for case in chosen]) else 1)
    if not os.path.exists(PROGRAM):
        sys.exit(BUILD)
    results = [run(name, pair, *make()) for name, pair, make in chosen]
    sys.exit(0 if all(results) else 1)


if __name__ == "__main__":
    main()
