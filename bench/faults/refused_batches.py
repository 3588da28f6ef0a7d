#!/usr/bin/python3
"""Runs the built program over spoilt Jaeger batches and over traces that Jaeger can't hold, and compares its status, note
and output with what the independent reader and tables of jaeger.py say.

It is run at the top as bench/faults/refused_batches.py, after ./spanx has built the program; a number that is given is how many
inputs are tried, for each of them one of the pairs of forms. It prints how often each outcome came, a line for each difference,
and ends with 1 where there is one.
"""
import collections
import os
import random
import sys

sys.path.insert(1, os.path.dirname(os.path.dirname(os.path.realpath(__file__))))
import rooms  # first: it finds the others
import forms
import jaeger
from drawn import Batches, Loose, Traces
from program import BUILD, PROGRAM, convert
from protocols import BINARY, I8, KINDS, LIST, MAP, NUMBERS, PROTOCOLS, SET, STRUCT, Struct
from real_input import report
from refused_input import Spoiler

NOT_UTF8 = [b"\xff", b"\xc3", b"\xed\xa0\x80", b"\xf4\x90\x80\x80", b"\xc0\x80"]

# How often chance is asked to spoil a field: tags are so many that other fields would rarely be spoilt.
TRIES = {"Batch": 8, "Process": 4, "Span": 2, "SpanRef": 2, "Log": 2, "Tag": 1}


# ---- spoiling


class BatchSpoiler(Loose):
    """Spoils fields of structs, so that the texts around them stay right, or any bytes."""

    def __init__(self, seed, form):
        drawn = random.Random(seed)
        super().__init__(drawn, drawn.choice([0.001, 0.005, 0.03]))
        self.protocol = PROTOCOLS[form]

    def nested(self, levels):
        """A field of containers within each other."""
        kind, held = self.random.choice([(STRUCT, Struct([])), (LIST, (STRUCT, [])), (LIST, (I8, [7])), (MAP, (LIST, 77, [])), self.protocol.odd_head(self.random)])
        for _ in range(levels - 1):
            wrap = self.random.randrange(4)
            if wrap == 0:
                kind, held = STRUCT, Struct([(1, kind, held)])
            elif wrap == 1:
                kind, held = self.random.choice([LIST, SET]), (kind, [held])
            else:
                kind, held = MAP, (kind, I8, [(held, 1)]) if wrap == 2 else (I8, kind, [(1, held)])
        return 50, kind, held

    def wrong(self, id, kind, held, what):
        """A field with a value that its row may refuse."""
        if kind == BINARY:
            held += self.random.choice([*NOT_UTF8, "é".encode()])
        elif kind in NUMBERS:
            times = [0, 1, -1, jaeger.LAST_MICROS, jaeger.LAST_MICROS + 1, 2**63 - 1, -(2**63)]
            held = self.random.choice({"time": times, "number": [0, 0, 1, -1]}.get(what, [0, 1, 2, 4, 5, -1, 2**31 - 1]))
        elif what[0] == "list":
            held = self.random.choice([(I8, [1]), (I8, []), (BINARY, [b""]), (200, []), (STRUCT, [Struct([])]), (STRUCT, held[1] * 2)])
        else:
            held = self.value(kind)
        return id, kind, held

    def spoilt_field(self, field, name):
        id, kind, held = field
        row = jaeger.ROWS[name].get(id)
        if row is None or row[0] != kind:
            return [field, field]
        other = self.random.choice(KINDS)
        wrong = self.wrong(*field, row[1])
        levels = self.random.choice([26, 27, 28, 29, 30, 31, 32])
        others = [[field, field], [field, wrong], [], [(id, other, self.value(other))], [field, self.nested(levels)]]
        return [wrong] if self.random.random() < 0.6 else self.random.choice(others)

    def struct(self, held, name):
        out = []
        for field in held.fields:
            row = jaeger.ROWS[name].get(field[0])
            if row is not None and row[0] == field[1]:
                field = self.field(*field, name)
            spoilt = any(self.chance() for _ in range(TRIES[name]))
            out += self.spoilt_field(field, name) if spoilt else [field]
        if self.chance():
            self.random.shuffle(out)
        return Struct(out)

    def bytes(self, text):
        """Changes, drops, doubles or adds some bytes, or cuts the end."""
        out = bytearray(text)
        for _ in range(self.random.choice([1, 1, 2, 5])):
            at = self.random.randrange(len(out) + 1)
            kind = self.random.randrange(5)
            if kind == 0 and at < len(out):
                out[at] = self.random.choice([0, 1, 8, 10, 11, 12, 13, 14, 15, 127, 128, 255, 0x16, 0x19, 0x1C, self.random.randrange(256)])
            elif kind == 1:
                del out[at : at + self.random.choice([1, 1, 4, 30])]
            elif kind == 2:
                out[at:at] = out[at : at + self.random.choice([1, 4, 30, 1000])]
            elif kind == 3:
                out[at:at] = self.random.choice(self.protocol.PIECES)
            elif self.random.random() < 0.3:
                del out[at:]
        return bytes(out)

    def spoil(self, structs):
        """The text of batches, spoilt."""
        out = b"".join(self.protocol.struct(self.struct(struct, "Batch")) for struct in structs)
        return self.bytes(out) if self.random.random() < 0.3 else out


# ---- cases


def case(seed):
    """A text with the two forms between which it is converted."""
    source, target = jaeger.PAIRS[seed % len(jaeger.PAIRS)]
    drawn = random.Random(seed)
    if source in PROTOCOLS:
        if drawn.random() < 0.15:
            return Batches(seed).whole(source), source, target
        return BatchSpoiler(seed, source).spoil(Batches(seed).structs()), source, target
    text = Traces(seed, drawn.choice([0, 0.1, 0.3, 0.8])).whole()
    return Spoiler(seed).request(text) if drawn.random() < 0.2 else text, source, target


def difference(text, source, target):
    """What is wrong with the program's answer, if something is, the name of the outcome, and both outputs."""
    status, note, wanted, name = forms.verdict(text, source, target)
    got, written, got_note = convert(text, source, target)
    if (got, got_note) != (status, note):
        return f"status {got}, note {got_note!r}; wanted {status}, {note!r}", name, wanted, written
    return "another text was written" if written != wanted else None, name, wanted, written


def try_cases(case, count):
    """Tries the cases of so many seeds, or of as many as are given, and ends the script."""
    if not os.path.exists(PROGRAM):
        sys.exit(BUILD)
    wrong, outcomes = 0, collections.Counter()
    for seed in range(int(sys.argv[1]) if len(sys.argv) > 1 else count):
        text, source, target = case(seed)
        what, name, wanted, written = difference(text, source, target)
        outcomes[name] += 1
        if what is not None:
            report(f"spoilt {seed}, {source} to {target}", text, what, wanted, written)
            wrong += 1
    print(", ".join(f"{name} {count}" for name, count in sorted(outcomes.items())))
    print(f"{wrong} differences")
    sys.exit(1 if wrong else 0)


if __name__ == "__main__":
    try_cases(case, 4_000)
