#!/usr/bin/env python3
"""Turns the JSON of Jaeger's query API, which its user interface downloads, into batches of jaeger.thrift, one for each process
of each trace, in the binary protocol.

It is run as examples/batches_of_jaeger_json.py < trace.json > batches.bin, and needs nothing but Python. Spans keep their
order. What the tables of spanx say of batches then holds. Warnings of the query service are left out. What isn't such JSON is
told in one line on standard error, nothing is written, and the status is 1.
"""
import base64
import json
import struct
import sys

TRUTH, DOUBLE, I32, I64, BINARY, STRUCT, LIST = 2, 4, 8, 10, 11, 12, 15
STOP = b"\0"
WRONG = (ValueError, TypeError, LookupError, AttributeError, OverflowError, RecursionError, struct.error)
REFERENCES = {"CHILD_OF": 0, "FOLLOWS_FROM": 1}


def field(kind, id, held):
    return struct.pack(">bh", kind, id) + held


def number(id, held):
    return field(I64, id, struct.pack(">q", held))


def small(id, held):
    return field(I32, id, struct.pack(">i", held))


def binary(id, held):
    return field(BINARY, id, struct.pack(">i", len(held)) + held)


def structs(id, held):
    return field(LIST, id, struct.pack(">bi", STRUCT, len(held)) + b"".join(held))


def halves(text):
    """An identifier's lower and higher 64 bits, as signed numbers."""
    return struct.unpack(">qq", bytes.fromhex(text.zfill(32)))[::-1]


def tag(held):
    kind, value = held["type"], held["value"]
    if kind == "bool":
        of_kind = small(2, 2) + field(TRUTH, 5, bytes([value]))
    elif kind == "int64":
        of_kind = small(2, 3) + number(6, int(value))
    elif kind == "float64":
        of_kind = small(2, 1) + field(DOUBLE, 4, struct.pack(">d", float(value)))
    elif kind == "binary":
        of_kind = small(2, 4) + binary(7, base64.b64decode(value))
    else:
        of_kind = small(2, 0) + binary(3, value.encode())
    return binary(1, held["key"].encode()) + of_kind + STOP


def tags(id, held):
    return structs(id, [tag(one) for one in held or []])


def reference(held):
    low, high = halves(held["traceID"])
    return small(1, REFERENCES[held["refType"]]) + number(2, low) + number(3, high) + number(4, halves(held["spanID"])[0]) + STOP


def log(held):
    return number(1, held["timestamp"]) + tags(2, held["fields"]) + STOP


def span(held):
    low, high = halves(held["traceID"])
    parent = halves(held.get("parentSpanID", "0"))[0]
    out = number(1, low) + number(2, high) + number(3, halves(held["spanID"])[0]) + number(4, parent)
    out += binary(5, held["operationName"].encode()) + structs(6, [reference(one) for one in held.get("references") or []])
    out += small(7, held.get("flags", 0)) + number(8, held["startTime"]) + number(9, held["duration"])
    return out + tags(10, held.get("tags")) + structs(11, [log(one) for one in held.get("logs") or []]) + STOP


def batches(trace):
    for number, one in enumerate(trace["spans"], 1):
        if one["processID"] not in trace["processes"]:
            raise ValueError(f"span {number} is of a process that isn't there")
    for name, process in trace["processes"].items():
        spans = [span(one) for one in trace["spans"] if one["processID"] == name]
        about = binary(1, process["serviceName"].encode()) + tags(2, process.get("tags")) + STOP
        yield field(STRUCT, 1, about) + structs(2, spans) + STOP


def told(why):
    """Why a value is none of the model, in a line."""
    return " ".join(f"there is no {why}".split()) if isinstance(why, KeyError) else " ".join(str(why).split())


def main():
    try:
        held = json.load(sys.stdin.buffer)
        if held["data"] is None:
            said = "; ".join(str(one.get("msg")) for one in held.get("errors") or [])
            sys.exit(f"the query service answered no data{said and ': '}{said}".replace("\n", " "))
        made = b"".join(text for one in held["data"] for text in batches(one))
    except WRONG as why:
        sys.exit(f"this is no JSON of Jaeger's query API: {told(why)}")
    sys.stdout.buffer.write(made)


if __name__ == "__main__":
    main()
