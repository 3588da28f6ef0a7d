#!/usr/bin/python3
"""Runs the built program over spoilt trace requests, and compares its status, note and output with what the reader of
otlp.py finds, which lists every offence of a unit and takes the first by place and then by number.

It is run at the top as bench/faults/refused_input.py, after ./spanx has built the program; a number that is given is how many
inputs are tried. It prints how often each outcome came, a line for each difference, and ends with 1 where there is one.
"""
import collections
import os
import random
import sys

from google.protobuf.message import DecodeError

sys.path.insert(1, os.path.dirname(os.path.dirname(os.path.realpath(__file__))))
import rooms  # first: it finds the others
from otlp import DEEPEST, NAMES, TABLE, Refused, next_unit, unit_offences
from program import BUILD, PROGRAM, convert
from real_input import Maker, checkout, newer, normal, report, request_class, schema
from wire import bytes_field, fixed64_field, number_field, padded_varint, records, varint


def verdict(text):
    """The number of units before the end or the first cause, the place behind them, and that cause's number or 0."""
    at, units = 0, 0
    while True:
        try:
            found = next_unit(text, at)
        except Refused as why:
            return units, at, why.args[0]
        if found is None:
            return units, len(text), 0
        begin, unit, at = found
        bad = unit_offences(unit)
        if bad:
            return units, begin, min(bad)[1]
        units += 1


# ---- spoiling


class Spoiler:
    """Spoils the records of messages, so that lengths around them stay right, or any bytes."""

    def __init__(self, seed):
        self.random = random.Random(seed)

    def bytes(self, text):
        """Changes, drops or adds some bytes, or cuts the end."""
        out = bytearray(text)
        for _ in range(self.random.choice([1, 1, 2, 5])):
            at = self.random.randrange(len(out) + 1)
            kind = self.random.randrange(4)
            if kind == 0 and at < len(out):
                out[at] = self.random.choice([0, 1, 127, 128, 255, self.random.randrange(256)])
            elif kind == 1:
                del out[at : at + 1]
            elif kind == 2:
                out[at:at] = self.random.choice([b"\0", b"\x80", b"\xff" * 10, b"\x80" * 9 + b"\1", b"\x80" * 10, b"\x0a\xff\xff\xff\x7f"])
            elif self.random.random() < 0.3:
                del out[at:]
        return bytes(out)

    def deep(self, levels):
        """A value within lists and maps."""
        value = b""
        for _ in range(levels):
            if self.random.random() < 0.5:
                value = bytes_field(5, bytes_field(1, value))
            else:
                value = bytes_field(6, bytes_field(1, bytes_field(2, value)))
        return value

    def record(self, name, number, held):
        """One record, spoilt by what its field is."""
        wire, kind = TABLE[name][number]
        if kind == "text":
            return bytes_field(number, held + self.random.choice([b"\xff", b"\xc3", b"\xed\xa0\x80", b"\xf4\x90\x80\x80", b"\xc0\x80", "é".encode()]))
        if kind[0] == "id":
            size = kind[1]
            return bytes_field(number, self.random.choice([b"", bytes(size), held[:-1], held + b"\0", bytes(size - 1), bytes(1)]))
        if kind[0] == "enum":
            return number_field(number, self.random.choice([kind[1], kind[1] + 1, 2**32, 2**64 - 1]))
        if kind == ("one", "AnyValue"):
            return bytes_field(number, self.deep(self.random.choice([DEEPEST - 1, DEEPEST, DEEPEST, DEEPEST + 1, 40])))
        if wire == 2:
            return bytes_field(number, self.bytes(held))
        return self.random.choice([number_field(number, 3), fixed64_field(number, 3), varint(number * 8 + 3), varint(7), padded_varint(number * 8, 10) + b"\0"])

    def message(self, name, text, chance):
        out = []
        for number, wire, held in records(text):
            row = TABLE[name].get(number)
            if wire == 2 and row and row[1][0] in ["list", "one"]:
                held = self.message(row[1][1], held, chance)
            whole = varint(number * 8 + wire) + (varint(held) if wire == 0 else varint(len(held)) + held if wire == 2 else held)
            if row and self.random.random() < chance:
                whole = self.random.choice([whole + whole, b"", self.record(name, number, held), self.record(name, number, held)])
            out.append(whole)
        if self.random.random() < chance:
            self.random.shuffle(out)
        return b"".join(out)

    def request(self, text):
        chance = self.random.choice([0.002, 0.01, 0.05])
        out = b"".join(bytes_field(1, self.message("ResourceSpans", held, chance)) for _, _, held in records(text))
        return self.bytes(out) if self.random.random() < 0.3 else out


def difference(request, text):
    """What is wrong with the program's answer, if something is, the cause, and what must be written: None where the stock
    parser refuses what this script's reader takes, as a key spelled in ten bytes."""
    units, end, cause = verdict(text)
    status, written, note = convert(text)
    wanted_note = f"unit {units + 1}: cause {cause} {NAMES[cause]}\n" if cause else ""
    try:
        wanted = normal(request, text[:end])
    except DecodeError:
        wanted = None
    if (status, note) != (3 if cause else 0, wanted_note):
        return f"status {status}, note {note!r}; wanted {wanted_note!r}", cause, wanted, written
    if wanted is not None and written != wanted:
        return "another text was written", cause, wanted, written
    return None, cause, wanted, written


def main():
    if not os.path.exists(PROGRAM):
        sys.exit(BUILD)
    file = schema()
    request, later = request_class(file), request_class(newer(file))
    made, wrong, unknown, outcomes = checkout(request), 0, 0, collections.Counter()
    for seed in range(int(sys.argv[1]) if len(sys.argv) > 1 else 2_000):
        base = made if seed % 2 else Maker(later, seed, plain=False).make().SerializeToString()
        text = Spoiler(seed).request(base)
        what, cause, wanted, written = difference(request, text)
        outcomes[NAMES.get(cause, "written")] += 1
        unknown += wanted is None
        if what is not None:
            report(f"spoilt {seed}", text, what, wanted or b"", written)
            wrong += 1
    print(", ".join(f"{name} {count}" for name, count in sorted(outcomes.items())))
    print(f"{wrong} differences; {unknown} outputs weren't compared, since the stock parser refuses the input")
    sys.exit(1 if wrong else 0)


if __name__ == "__main__":
    main()
