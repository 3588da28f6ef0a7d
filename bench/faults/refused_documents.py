#!/usr/bin/python3
"""Runs the built program over spoilt documents of OTLP/JSON, and over traces and batches that OTLP/JSON can't hold, and
compares its status, note and output with what the independent reader and writer of otlp_json.py say.

It is run at the top as bench/faults/refused_documents.py, after ./spanx has built the program; a number that is given is how many
inputs are tried, for each of them one of the pairs of forms with OTLP/JSON. It prints how often each outcome came, a line for
each difference, and ends with 1 where there is one.
"""
import os
import random
import sys

sys.path.insert(1, os.path.dirname(os.path.dirname(os.path.realpath(__file__))))
import rooms  # first: it finds the others
import forms
from drawn import Batches
from drawn_groups import GroupDocuments, GroupSpoiler, JsonTraces
from drawn_spans import DocumentSpoiler, ZipkinTraces
from forms import FORMS, JSON, OTLP, ZIPKIN
from refused_batches import BatchSpoiler, try_cases
from refused_input import Spoiler

# Documents are spoilt more often than requests, batches and spans, which other scripts spoil.
PAIRS = [(JSON, target) for target in FORMS] * 2 + [(source, JSON) for source in FORMS if source != JSON]


def case(seed):
    """A text with the two forms between which it is converted."""
    source, target = PAIRS[seed % len(PAIRS)]
    drawn = random.Random(seed)
    if source == JSON:
        if drawn.random() < 0.8:
            return GroupSpoiler(seed).spoil(), source, target
        groups = ZipkinTraces(seed, drawn.choice([0, 0.3])).groups() if drawn.random() < 0.5 else GroupDocuments(seed).groups()
        return forms.write([group for group in groups if not forms.TARGETS[JSON][0](group)], JSON), source, target
    if source == OTLP:
        text = forms.write(JsonTraces(seed, drawn.choice([0, 0.1, 0.5])).groups(), OTLP)
        return Spoiler(seed).request(text) if drawn.random() < 0.2 else text, source, target
    if source == ZIPKIN:
        return DocumentSpoiler(seed).spoil(), source, target
    if drawn.random() < 0.5:
        return Batches(seed).whole(source), source, target
    return BatchSpoiler(seed, source).spoil(Batches(seed).structs()), source, target


if __name__ == "__main__":
    try_cases(case, 6_000)
