#!/usr/bin/python3
"""Runs the built program over spoilt Zipkin documents and over traces and batches that Zipkin can't hold, and compares its
status, note and output with what the independent reader and tables of zipkin.py say.

It is run at the top as bench/faults/refused_spans.py, after ./spanx has built the program; a number that is given is how many
inputs are tried, for each of them one of the pairs of forms with Zipkin. It prints how often each outcome came, a line for each
difference, and ends with 1 where there is one.
"""
import os
import random
import sys

sys.path.insert(1, os.path.dirname(os.path.dirname(os.path.realpath(__file__))))
import rooms  # first: it finds the others
from drawn import Batches
from drawn_spans import Documents, DocumentSpoiler, ZipkinTraces
from forms import FORMS, OTLP, ZIPKIN
from protocols import PROTOCOLS
from refused_batches import BatchSpoiler, try_cases
from refused_input import Spoiler

# Documents are spoilt more often than requests and batches, which other scripts spoil.
PAIRS = [(ZIPKIN, target) for target in FORMS] * 2 + [(source, ZIPKIN) for source in [OTLP, *PROTOCOLS]]


def case(seed):
    """A text with the two forms between which it is converted."""
    source, target = PAIRS[seed % len(PAIRS)]
    drawn = random.Random(seed)
    if source == ZIPKIN:
        return Documents(seed).document() if drawn.random() < 0.15 else DocumentSpoiler(seed).spoil(), source, target
    if source == OTLP:
        text = ZipkinTraces(seed, drawn.choice([0, 0.1, 0.3, 0.8])).whole()
        return Spoiler(seed).request(text) if drawn.random() < 0.2 else text, source, target
    if drawn.random() < 0.5:
        return Batches(seed).whole(source), source, target
    return BatchSpoiler(seed, source).spoil(Batches(seed).structs()), source, target


if __name__ == "__main__":
    try_cases(case, 6_000)
