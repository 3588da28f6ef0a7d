#!/usr/bin/python3
"""Turns the doubles of trace requests in OTLP's protobuf into texts, which JSON, Zipkin and Jaeger's lists can hold.

It is run as examples/doubles_to_texts.py < requests.bin > mended.bin, over one request or several one behind the other. A double
becomes the shortest decimal that is read as the same double, as Python writes it (0.1, 1.0, 1e+22), or NaN, Infinity, -Infinity;
how many there were goes to standard error. All else stays byte by byte, but for the lengths around it. What is no message of
protobuf is told in one line, and the status is 1. It needs nothing but Python.
"""
import math
import struct
import sys

from todays_names import record, records

# Of each message the fields that lead to a value, with the message that stands there.
TABLE = {
    "request": {1: "group"},
    "group": {1: "resource", 2: "scopes"},
    "resource": {1: "pair"},
    "scopes": {1: "scope", 2: "span"},
    "scope": {3: "pair"},
    "span": {9: "pair", 11: "event", 13: "link"},
    "event": {3: "pair"},
    "link": {4: "pair"},
    "pair": {2: "value"},
    "value": {5: "list", 6: "map"},
    "list": {1: "value"},
    "map": {1: "pair"},
}
DOUBLE, FIXED = 4, 1


def decimal(held):
    """The text of a double of eight bytes."""
    (double,) = struct.unpack("<d", held)
    if math.isnan(double):
        return "NaN"
    return repr(double) if math.isfinite(double) else "Infinity" if double > 0 else "-Infinity"


def mended(text, message, counts):
    """A message whose doubles are texts; each is counted."""
    out = []
    for number, key, whole, held in records(text):
        if held is not None and number in TABLE[message]:
            whole = record(key, mended(held, TABLE[message][number], counts))
        elif message == "value" and number == DOUBLE and key[0] & 7 == FIXED:
            counts.append(number)
            whole = record(b"\x0a", decimal(whole[-8:]).encode())
        out.append(whole)
    return b"".join(out)


def main():
    counts = []
    try:
        made = mended(sys.stdin.buffer.read(), "request", counts)
    except (IndexError, RecursionError):
        sys.exit("this is no message of protobuf")
    print(f"doubles {len(counts)}", file=sys.stderr)
    sys.stdout.buffer.write(made)


if __name__ == "__main__":
    if sys.argv[1:]:
        sys.exit(__doc__)
    main()
