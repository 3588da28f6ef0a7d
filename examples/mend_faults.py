#!/usr/bin/python3
"""Mends what a target can't hold of a trace request in OTLP/JSON, by one rule for each fault, and tells what it changed.

It is run as examples/mend_faults.py FORM PREFIX < request.json > mended.json, where FORM is the word of the target, as for
`spanx convert --to`, and PREFIX, as app., comes in front of keys and names:

  20 EndBeforeStart   the span ends where it starts; when it was to end stands in its attribute PREFIXendTimeUnixNano, as a text
  22 OwnKey           the attribute has its key with PREFIX in front
  23 EventText        the event has its name with PREFIX in front
  24 ChildOfLink      the link's mark, opentracing.ref_type, has its key with PREFIX in front: it is a link, and no parent
  25 DoubleInText, 15 DoubleInJson   the double is a text, with the letters that it had

Where a key with PREFIX is there already, PREFIX comes once more. Doubles become texts wherever they stand, since `spanx` reads
none in JSON. All else stays, numbers as they were written. The lines of examples/faults_by_service.py, of what was mended, go to
standard error. Wrong input is told there in one line, with status 1. It needs nothing but Python.
"""
import sys

from faults_by_service import (
    CHILD_OF, FORMS, attributes, groups_of, has_own_form, has_parts, is_event_text, is_own, listed, listing, names_parent, parts,
    spans_of, text, whole,
)
from written_json import Number, Wrong, given, read, run, write


def mend_value(value):
    """Doubles in a value become texts."""
    if value.get("doubleValue") is not None:
        value["stringValue"] = str(given(value, "doubleValue", (str, Number), ""))
        del value["doubleValue"]
    elif has_parts(value):
        for part in parts(value):
            mend_value(part)


def mend_doubles(held):
    for pair in listed(held, "attributes"):
        mend_value(given(pair, "value", dict, {}))


def free(key, held, prefix):
    """A key with the prefix in front, once or more, that isn't among these."""
    new = prefix + key
    while new in held:
        new = prefix + new
    return new


def rename(held, wrong, prefix):
    """Gives the attributes of these keys others."""
    for key in wrong:
        new = free(key, attributes(held), prefix)
        for pair in listed(held, "attributes"):
            if text(pair, "key") == key:
                pair["key"] = new


def wrong_keys(span, form):
    """The keys of a span that are faults."""
    return [key for key, value in attributes(span).items() if is_own(key, form) and not has_own_form(key, value)]


def mend_end(span, prefix):
    """A span that ends before it starts ends where it starts."""
    end = whole(span, "endTimeUnixNano")
    if end < whole(span, "startTimeUnixNano"):
        key = free("endTimeUnixNano", attributes(span), prefix)
        span["attributes"] = [*listed(span, "attributes"), {"key": key, "value": {"stringValue": str(end)}}]
        span["endTimeUnixNano"] = span["startTimeUnixNano"]


def mend_span(span, form, prefix):
    is_jaeger, is_zipkin = form.startswith("jaeger"), form == "zipkin-json"
    mend_doubles(span)
    rename(span, wrong_keys(span, form), prefix)
    if is_jaeger or is_zipkin:
        mend_end(span, prefix)
    for event in listed(span, "events"):
        mend_doubles(event)
        if is_zipkin and not listed(event, "attributes") and is_event_text(text(event, "name")):
            event["name"] = prefix + event["name"]
    for link in listed(span, "links"):
        mend_doubles(link)
        if is_jaeger and names_parent(span, link):
            rename(link, [CHILD_OF], prefix)


def main(given_text, form, prefix):
    document = read(given_text)
    lines, _ = listing(document, form)
    for group in groups_of(document):
        mend_doubles(given(group, "resource", dict, {}))
        for scope in listed(group, "scopeSpans"):
            mend_doubles(given(scope, "scope", dict, {}))
        for span in spans_of(group):
            mend_span(span, form, prefix)
    left, count_left = listing(document, form)
    sys.stderr.write("".join(line + "\n" for line in lines))
    if count_left:
        raise Wrong(f"this prefix mends too little, so nothing is written: {left[0]}")
    return write(document) + "\n", 0


if __name__ == "__main__":
    if len(sys.argv) != 3 or sys.argv[1] not in FORMS or not sys.argv[2]:
        sys.exit(__doc__)
    run(main, sys.argv[1], sys.argv[2])
