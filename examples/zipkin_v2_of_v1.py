#!/usr/bin/env python3
"""Turns spans of Zipkin's v1 JSON, one array of them, into an array of v2.

It is run as examples/zipkin_v2_of_v1.py < v1.json > spans.json, and needs nothing but Python. A span of both sides becomes two,
that of the server marked as shared. The core annotations (cs, cr, sr, ss, ms, mr) say the kind, and where they are absent the
times; sa, ca and ma the other side. What has no place in v2 is left out: the endpoints of further annotations, the types of
binary annotations, whose values become texts, and parts of a message on its wire (ws, wr). What isn't such an array is told in
one line on standard error, nothing is written, and the status is 1; so is a span of v2, since what v1 doesn't have would be
left out of it.
"""
import json
import sys

# Of each side the annotations at which it begins and ends, its kind, and the address of the other.
SIDES = [
    ("cs", "cr", "CLIENT", "sa"), ("sr", "ss", "SERVER", "ca"), ("ms", None, "PRODUCER", "ma"), ("mr", None, "CONSUMER", "ma"),
]
CORE = {"cs", "cr", "sr", "ss", "ms", "mr", "ws", "wr"}
ADDRESSES = {"sa", "ca", "ma"}
OF_V2 = {"kind", "localEndpoint", "remoteEndpoint", "tags", "shared"}


def without_none(held):
    return {name: value for name, value in held.items() if value is not None and value != {}}


def text_of(value):
    return value if isinstance(value, str) else json.dumps(value)


def event_of(annotation):
    return {"timestamp": annotation["timestamp"], "value": annotation["value"]}


def side_of(span, side, is_other):
    """One side of a span as a span of v2; the other side of a shared span has the times of its own annotations alone."""
    begin, end, kind, address = side
    marks = {one["value"]: one for one in span.get("annotations") or []}
    start, stop = (marks.get(name, {}).get("timestamp") for name in [begin, end])
    timestamp, duration = (None, None) if is_other else (span.get("timestamp"), span.get("duration"))
    if timestamp is None:
        timestamp, duration = start, stop - start if start and stop else duration
    binary = span.get("binaryAnnotations") or []
    places = [marks.get(begin, {}), marks.get(end, {}), *marks.values(), *[one for one in binary if one["key"] not in ADDRESSES]]
    return without_none({
        "traceId": span["traceId"], "id": span["id"], "parentId": span.get("parentId"), "name": span.get("name"), "kind": kind,
        "timestamp": timestamp, "duration": duration, "debug": span.get("debug"), "shared": True if is_other else None,
        "localEndpoint": next((one["endpoint"] for one in places if one.get("endpoint")), None),
        "remoteEndpoint": next((one.get("endpoint") for one in binary if one["key"] == address), None),
        "annotations": None if is_other else [event_of(one) for one in span.get("annotations") or [] if one["value"] not in CORE],
        "tags": None if is_other else {one["key"]: text_of(one["value"]) for one in binary if one["key"] not in ADDRESSES},
    })


def spans_of(span):
    if not isinstance(span, dict):
        raise ValueError("it is no object")
    if OF_V2 & set(span):
        raise ValueError("it is of v2 already")
    values = {one["value"] for one in span.get("annotations") or []}
    found = [side for side in SIDES if values & {side[0], side[1]}]
    return [side_of(span, side, number > 0) for number, side in enumerate(found or [(None, None, None, "sa")])]


def main():
    made, at = [], 0
    try:
        spans = json.load(sys.stdin.buffer)
        if not isinstance(spans, list):
            sys.exit("this is no array of spans of Zipkin's v1")
        for at, span in enumerate(spans, 1):
            made += spans_of(span)
    except KeyError as why:
        sys.exit(f"span {at} is none of Zipkin's v1: there is no {why}")
    except (ValueError, TypeError, AttributeError, RecursionError) as why:
        sys.exit(f"{f'span {at} is none of Zipkin' if at else 'this is no JSON of Zipkin'}'s v1: {' '.join(str(why).split())}")
    json.dump(made, sys.stdout)


if __name__ == "__main__":
    main()
