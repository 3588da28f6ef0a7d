#!/usr/bin/env python3
"""Turns a batch of Jaeger's protobuf model (model.proto) into batches of jaeger.thrift, in the binary protocol.

It is run as examples/batches_of_jaeger_protobuf.py Batch < batch.bin > batches.bin; the word is the message that the file
holds: Batch, PostSpansRequest or Trace. It needs nothing but Python. Spans of one process become a batch. Times are cut to
microseconds, and warnings and the identifiers of processes are left out. What isn't such a message is told in one line on
standard error, nothing is written, and the status is 1; so is an empty file.
"""
import base64
import struct
import sys

from batches_of_jaeger_json import batches, told
from protobuf_fields import WRONG, bytes_of, last, message

REFERENCES = ["CHILD_OF", "FOLLOWS_FROM"]


def signed(n):
    return n - 2**64 if n >= 2**63 else n


def text(held, number):
    return last(held, number, b"").decode()


def each(held, number, read):
    return [read(message(one)) for one in held.get(number, [])]


def micros(held):
    return signed(last(held, 1, 0)) * 1_000_000 + signed(last(held, 2, 0)) // 1000


def tag(held):
    kind = ["string", "bool", "int64", "float64", "binary"][last(held, 2, 0)]
    values = {
        "string": text(held, 3), "bool": bool(last(held, 4, 0)), "int64": signed(last(held, 5, 0)),
        "float64": struct.unpack("<d", struct.pack("<Q", last(held, 6, 0)))[0],
        "binary": base64.b64encode(last(held, 7, b"")).decode(),
    }
    return {"key": text(held, 1), "type": kind, "value": values[kind]}


def log(held):
    return {"timestamp": micros(message(last(held, 1, b""))), "fields": each(held, 2, tag)}


def reference(held):
    return {"traceID": bytes_of(held, 1, 16).hex(), "spanID": bytes_of(held, 2, 8).hex(), "refType": REFERENCES[last(held, 3, 0)]}


def process(held):
    return {"serviceName": text(held, 1), "tags": each(held, 2, tag)}


def span(held):
    return {
        "traceID": bytes_of(held, 1, 16).hex(), "spanID": bytes_of(held, 2, 8).hex(), "operationName": text(held, 3),
        "references": each(held, 4, reference),
        "flags": last(held, 5, 0), "startTime": micros(message(last(held, 6, b""))),
        "duration": micros(message(last(held, 7, b""))),
        "tags": each(held, 8, tag), "logs": each(held, 9, log), "process": held.get(10, [b""])[-1], "processID": text(held, 11),
    }


def batches_in(kind, whole):
    """The batches of what a message holds."""
    held = message(whole)
    if kind == "PostSpansRequest":
        held = message(last(held, 1, b""))
    spans = each(held, 1, span)
    if kind == "Trace":
        processes = {text(message(one), 1): process(message(last(message(one), 2, b""))) for one in held.get(2, [])}
    else:
        # A span that has a process of its own keeps it; the others have that of the batch.
        for one in spans:
            one["processID"] = one["process"] or last(held, 2, b"")
        processes = {one["processID"]: process(message(one["processID"])) for one in spans}
    return b"".join(batches({"spans": spans, "processes": processes}))


def main(kind):
    whole = sys.stdin.buffer.read()
    if not whole:
        sys.exit("the input is empty")
    try:
        made = batches_in(kind, whole)
    except WRONG as why:
        sys.exit(f"this is no {kind} of Jaeger's model in protobuf: {told(why)}")
    sys.stdout.buffer.write(made)


if __name__ == "__main__":
    if sys.argv[1:] not in [["Batch"], ["PostSpansRequest"], ["Trace"]]:
        sys.exit(__doc__)
    main(sys.argv[1])
