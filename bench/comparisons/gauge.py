#!/usr/bin/env python3
"""Compares what `gauge` prints with the trace of so many spans that is made here by numbers alone, and written in each form by
the readers, tables and writers of bench/readers; and with the lengths of what `convert` makes of that trace's request.

Run it at the top as bench/comparisons/gauge.py, after ./spanx has built the program. Numbers that are given are tried instead of
its own. It also tries words that are no command, and a million spans, whose time and peak of memory it prints. It ends with 0
where all agree.
"""
import os
import sys

sys.path.insert(1, os.path.dirname(os.path.dirname(os.path.realpath(__file__))))
import rooms  # first: it finds the others
import forms
from program import BUILD, PROGRAM, Measured, answer, convert
from wire import bytes_field, fixed32_field, fixed64_field, number_field

NUMBERS = [1, 2, 3, 99, 100, 101, 199, 200, 201, 250, 1000, 12345]
MILLION = 1_000_000
BAD = ["0", "01", "+1", "-1", "1 ", " 1", "1.0", "1e3", "", "x", "1000001", "4294967297", "18446744073709551617", "１"]
USAGE = "usage: spanx convert|losses|show|check|headers|gauge|serve OPTIONS\n"


def pair(key, value):
    return bytes_field(1, key) + bytes_field(2, value)


def span(n):
    """The span of this number, in the order of its fields."""
    group = (n - 1) // 100 + 1
    start = n * 1_000_000
    end = start + n % 1000 * 1000
    parent = b"" if n % 100 == 1 else bytes_field(4, (n - 1).to_bytes(8, "big"))
    code = number_field(3, n % 3) if n % 3 else b""
    return b"".join([
        bytes_field(1, group.to_bytes(16, "big")),
        bytes_field(2, n.to_bytes(8, "big")),
        parent,
        bytes_field(5, b"op"),
        number_field(6, 1 + n % 5),
        fixed64_field(7, start),
        fixed64_field(8, end),
        bytes_field(9, pair(b"n", number_field(3, n))),
        bytes_field(9, pair(b"t", bytes_field(1, b"x"))),
        bytes_field(15, code) if code else b"",
        fixed32_field(16, 1),
    ])


def request(spans):
    """The request of the gauge of so many spans."""
    out = []
    for first in range(1, spans + 1, 100):
        last = min(first + 99, spans)
        held = b"".join(bytes_field(2, span(n)) for n in range(first, last + 1))
        scope = bytes_field(1, bytes_field(1, b"gauge")) + held
        resource = bytes_field(1, pair(b"service.name", bytes_field(1, b"gauge")))
        out.append(bytes_field(1, bytes_field(1, resource) + bytes_field(2, scope)))
    return b"".join(out)


def lines(spans, sizes):
    out = [f"spans {spans}", f"groups {(spans + 99) // 100}", *(f"{form} {size}" for form, size in sizes.items())]
    return "".join(f"{line}\n" for line in out).encode()


def differences(spans):
    """What differs for a gauge of so many spans."""
    text = request(spans)
    read = list(forms.groups(text, forms.OTLP))
    written = {form: forms.write(read, form) for form in forms.FORMS}
    found = []
    if written[forms.OTLP] != text:
        found.append("its request isn't canonical")
    status, printed, note = answer([PROGRAM, "gauge", "--spans", str(spans)], b"")
    if (status, printed, note) != (0, lines(spans, {form: len(held) for form, held in written.items()}), ""):
        found.append(f"{status}, {printed}, {note}")
    for form, held in written.items():
        if convert(text, forms.OTLP, form) != (0, held, ""):
            found.append(f"its text as {form}")
    return found


def main():
    if not os.path.exists(PROGRAM):
        sys.exit(BUILD)
    numbers = [int(word) for word in sys.argv[1:]] or NUMBERS
    bad = 0
    for spans in numbers:
        for found in differences(spans):
            bad += 1
            print(f"{spans} spans: {found}")
    for word in BAD:
        if answer([PROGRAM, "gauge", "--spans", word], b"") != (2, b"", USAGE):
            bad += 1
            print(f"{word!r} spans: not refused")
    run = Measured([PROGRAM, "gauge", "--spans", str(MILLION)], os.devnull, 600)
    bad += run.status != 0
    print(run.output.decode(), end="")
    print(f"a million spans: status {run.status}, {run.seconds:.1f} s, {run.memory / 2**20:.0f} MB")
    print(f"{len(numbers)} gauges, {len(BAD)} words that are no number: {bad} differences")
    return bool(bad)


if __name__ == "__main__":
    sys.exit(main())
