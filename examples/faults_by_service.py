#!/usr/bin/python3
"""Lists all that a target can't hold of a trace request in OTLP/JSON, by service, fault and key, and how often.

It is run as examples/faults_by_service.py FORM < request.json, where FORM is the word of the target, as for `spanx convert --to`.
`spanx` names the first fault and stops; this names each, with its number:

  20 EndBeforeStart   the name of a span that ends before it starts
  22 OwnKey           the key of one of the target's own attributes that doesn't have its form
  23 EventText        the name of an event that Zipkin would take for an event with attributes
  24 ChildOfLink      the name of a span with a link that Jaeger would take for its parent
  25 DoubleInText     the key of an attribute with a double, which the target would have to hold as a text
  15 DoubleInJson     the same of a double that the target could hold, but which `spanx` doesn't read in JSON

The last line says how many faults and spans there are. examples/mend_faults.py mends them. Wrong input is told in one line, with
status 1. It needs nothing but Python.
"""
import collections
import json
import re
import sys

from written_json import Number, Wrong, given, quoted, read, run

MARKS = ["zipkin.debug", "zipkin.shared"]
PORTS = ["zipkin.local.port", "zipkin.remote.port"]
ADDRESSES = [f"zipkin.{side}.{version}" for side in ["local", "remote"] for version in ["ipv4", "ipv6"]]
CHILD_OF = "opentracing.ref_type"
FORMS = ["otlp-proto", "otlp-json", "jaeger-binary", "jaeger-compact", "zipkin-json"]
NAMES = {15: "DoubleInJson", 20: "EndBeforeStart", 22: "OwnKey", 23: "EventText", 24: "ChildOfLink", 25: "DoubleInText"}


# ---- the parts of a request


def listed(held, name):
    """The objects of a list."""
    found = given(held, name, list, [])
    for element in found:
        if not isinstance(element, dict):
            raise Wrong(f"an element of {name} is no object")
    return found


def text(held, name):
    return given(held, name, str, "")


def whole(held, name):
    """A number, which may be a text; of one with very many digits the front is enough."""
    spelled = given(held, name, (str, Number), "0")
    if not re.fullmatch("-?[0-9]+", spelled):
        raise Wrong(f"{name} is {quoted(spelled)}, no whole number")
    size = int(spelled.lstrip("-").lstrip("0")[:40] or "0")
    return -size if spelled[0] == "-" else size


def attributes(held):
    """The values of a list of attributes by their keys, of equal ones the last."""
    return {text(pair, "key"): given(pair, "value", dict, {}) for pair in listed(held, "attributes")}


def identifier(held, name):
    """An identifier in small letters; one of zeros is none."""
    found = text(held, name).lower()
    return found if found.strip("0") else ""


def has_double(value):
    """Whether a value is a double, or one stands in it. Of equal keys all count, since reading refuses each."""
    if value.get("doubleValue") is not None:
        return True
    if has_parts(value):
        return any(map(has_double, parts(value)))
    return False


def has_parts(value):
    return value.get("arrayValue") is not None or value.get("kvlistValue") is not None


def parts(value):
    """The values in a list or a map."""
    if value.get("arrayValue") is not None:
        return listed(given(value, "arrayValue", dict, {}), "values")
    return [given(pair, "value", dict, {}) for pair in listed(given(value, "kvlistValue", dict, {}), "values")]


# ---- what a target can't hold


def is_count(spelled, most):
    """Whether a text is the decimal of a number up to this, without zeros in front."""
    return re.fullmatch("0|[1-9][0-9]{0,9}", spelled) is not None and int(spelled) <= most


def is_own(key, form):
    return form == "zipkin-json" and key in [*MARKS, *PORTS, *ADDRESSES] or form.startswith("jaeger") and key == "jaeger.flags"


def has_own_form(key, value):
    """Whether an own attribute has the form in which it is read back."""
    held = value.get("stringValue")
    if not isinstance(held, str) or isinstance(held, Number):
        return False
    if key in MARKS:
        return held == "true"
    if key in PORTS:
        return is_count(held, 65535) and held != "0"
    if key == "jaeger.flags":
        return is_count(held, 2**32 - 1) and held != "0" and int(held) % 2 == 0
    return held != ""


class NoEventText(Exception):
    """A text that is a name, and not an event text."""


def no_number(_):
    raise NoEventText


def number_of_64_bits(spelled):
    if spelled == "-0" or len(spelled) > 20 or not -(2**63) <= int(spelled) < 2**63:
        raise NoEventText
    return spelled


EVENT_TEXTS = json.JSONDecoder(parse_int=number_of_64_bits, parse_float=no_number, parse_constant=no_number)


def depth(held):
    if isinstance(held, dict):
        held = list(held.values())
    return 1 + max(map(depth, held), default=0) if isinstance(held, list) else 1


def is_event_text(name):
    """Whether the name of an event is JSON's text of a single member, once braces stand round it, with an object that isn't
    empty, whole numbers of 64 bits, and nothing deeper than 24."""
    if not name.rstrip(" \t\r\n").endswith("}"):
        return False
    try:
        held = EVENT_TEXTS.decode("{" + name + "}")
        quoted(held).encode("utf-8")
    except (NoEventText, ValueError, RecursionError):
        return False
    inner = list(held.values())
    return len(inner) == 1 and isinstance(inner[0], dict) and inner[0] != {} and depth(inner[0]) <= 25


def faults_of_double(key, value, form, place):
    """A double of an attribute, by what the target could do with it."""
    if not has_double(value):
        return []
    if place in ["scope", "link"]:
        is_text = form == "otlp-json"
    elif form.startswith("jaeger"):
        is_text = has_parts(value) or place == "resource" and key == "service.name"
    else:
        is_text = form != "otlp-proto"
    return [(25 if is_text else 15, key)]


def faults_of_doubles(held, form, place):
    """Those of all pairs of a list, also of equal keys."""
    return [
        fault
        for pair in listed(held, "attributes")
        for fault in faults_of_double(text(pair, "key"), given(pair, "value", dict, {}), form, place)
    ]


def names_parent(span, link):
    """Whether Jaeger would take a link for the parent of its span."""
    mark = attributes(link).get(CHILD_OF, {})
    parent, trace, id_ = identifier(span, "parentSpanId"), identifier(link, "traceId"), identifier(link, "spanId")
    is_there = mark.get("stringValue") == "child_of" and trace and id_
    return is_there and trace == identifier(span, "traceId") and parent in ["", id_]


def faults_of_span(span, form):
    """The faults of a span and what stands in it, each a number and a key or a name."""
    found, name, held = faults_of_doubles(span, form, "span"), text(span, "name"), attributes(span)
    is_jaeger, is_zipkin = form.startswith("jaeger"), form == "zipkin-json"
    if (is_jaeger or is_zipkin) and whole(span, "endTimeUnixNano") < whole(span, "startTimeUnixNano"):
        found.append((20, name))
    found += [(22, key) for key, value in held.items() if is_own(key, form) and not has_own_form(key, value)]
    for event in listed(span, "events"):
        found += faults_of_doubles(event, form, "event")
        if is_zipkin and not listed(event, "attributes") and is_event_text(text(event, "name")):
            found.append((23, text(event, "name")))
    for link in listed(span, "links"):
        found += faults_of_doubles(link, form, "link")
        if is_jaeger and names_parent(span, link):
            found.append((24, name))
    return found


def groups_of(document):
    """The groups of a request."""
    if not isinstance(document, dict) or "resourceSpans" not in document:
        raise Wrong("this has no resourceSpans: it is no request of OTLP/JSON")
    return listed(document, "resourceSpans")


def spans_of(group):
    return [span for scope in listed(group, "scopeSpans") for span in listed(scope, "spans")]


def faults_of_group(group, form):
    """The faults of a group."""
    found = faults_of_doubles(given(group, "resource", dict, {}), form, "resource")
    for scope in listed(group, "scopeSpans"):
        found += faults_of_doubles(given(scope, "scope", dict, {}), form, "scope")
    return found + [fault for span in spans_of(group) for fault in faults_of_span(span, form)]


def service_of(group):
    """The text of the resource's service.name, or of what it is instead."""
    value = attributes(given(group, "resource", dict, {})).get("service.name", {})
    return next((str(held) for held in value.values() if isinstance(held, str)), "")


def listing(document, form):
    """The lines on a document, and how many faults there are."""
    counts, spans = collections.Counter(), 0
    for group in groups_of(document):
        spans += len(spans_of(group))
        service = service_of(group)
        counts.update((service, *fault) for fault in faults_of_group(group, form))
    lines = [
        f"service {quoted(service)}: {'cause' if number == 15 else 'fault'} {number} {NAMES[number]} {quoted(key)}, {count}"
        for (service, number, key), count in sorted(counts.items())
    ]
    return [*lines, f"faults {sum(counts.values())}, spans {spans}"], sum(counts.values())


def main(given_text, form):
    lines, _ = listing(read(given_text), form)
    return "".join(line + "\n" for line in lines), 0


if __name__ == "__main__":
    if len(sys.argv) != 2 or sys.argv[1] not in FORMS:
        sys.exit(__doc__)
    run(main, sys.argv[1])
