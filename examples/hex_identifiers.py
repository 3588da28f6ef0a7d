#!/usr/bin/env python3
"""Turns a trace request as stock protobuf libraries print it into OTLP/JSON: identifiers in base64 become hex, and names of
enums their numbers.

It is run as examples/hex_identifiers.py < printed.json > request.json, and needs nothing but Python. What is hex already, and a
number already, stays. A text in base64 of an identifier has 24 or 12 characters, one in hex 32 or 16. What
isn't a request in JSON is told in one line on standard error, nothing is written, and the status is 1.
"""
import base64
import json
import sys

# One of these is in a request, or in what examples/todays_names.py makes one of.
LISTS = {"resourceSpans", "resource_spans", "batches", "trace"}
IDENTIFIERS = ["traceId", "spanId", "parentSpanId"]
KINDS = ["UNSPECIFIED", "INTERNAL", "SERVER", "CLIENT", "PRODUCER", "CONSUMER"]
NUMBERS = {f"SPAN_KIND_{name}": number for number, name in enumerate(KINDS)}
NUMBERS |= {f"STATUS_CODE_{name}": number for number, name in enumerate(["UNSET", "OK", "ERROR"])}


def changed(name, held):
    """What a member of this name must hold."""
    if name in IDENTIFIERS and isinstance(held, str):
        return base64.b64decode(held).hex() if len(held) in [12, 24] else held
    if name in ["kind", "code"] and isinstance(held, str):
        return NUMBERS.get(held, held)
    return mended(held)


def mended(held):
    """A JSON value with all its members changed."""
    if isinstance(held, list):
        return [mended(element) for element in held]
    return {name: changed(name, inner) for name, inner in held.items()} if isinstance(held, dict) else held


def main():
    try:
        held = json.load(sys.stdin.buffer)
        if not isinstance(held, dict) or held and not LISTS & set(held):
            raise ValueError("there is no resourceSpans")
        made = mended(held)
    except (ValueError, RecursionError) as why:
        sys.exit(f"this is no request in JSON: {why}")
    json.dump(made, sys.stdout)


if __name__ == "__main__":
    main()
