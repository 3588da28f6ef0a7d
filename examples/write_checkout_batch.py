#!/usr/bin/python3
"""Writes two files with Apache Thrift's Python library: examples/checkout_batch.bin, a checkout as a Jaeger client posts it to a
collector, and examples/checkout_datagram.bin, the same as it sends it to an agent.

It needs Debian's thrift-compiler and python3-thrift, and is run as examples/write_checkout_batch.py at the top.
"""
import importlib
import os
import struct
import subprocess
import sys
import tempfile

from thrift.protocol.TCompactProtocol import TCompactProtocolFactory
from thrift.Thrift import TMessageType, TType
from thrift.transport.TTransport import TMemoryBuffer
from thrift.TSerialization import serialize

HERE = os.path.dirname(os.path.abspath(__file__))
SCHEMA = os.path.join(HERE, "..", "bench", "comparisons", "jaeger.thrift")
TRACE_HIGH, TRACE_LOW = struct.unpack(">qq", bytes.fromhex("5b8efff798038103d269b633813fc60c"))
BEGIN = 1_700_000_000_000_000
SAMPLED, DEBUG = 1, 2


def classes():
    """The classes that the compiler makes of the schema."""
    with tempfile.TemporaryDirectory() as folder:
        subprocess.run(["thrift", "--gen", "py", "-out", folder, SCHEMA], check=True)
        sys.path.insert(0, folder)
        types = importlib.import_module("jaeger_batches.ttypes")
        sys.path.remove(folder)
    return types


def tag(types, key, value):
    """A tag whose type is that of a value of Python."""
    kinds = types.TagType
    for python, number, field in [
        (bool, kinds.BOOL, "vBool"), (int, kinds.LONG, "vLong"), (str, kinds.STRING, "vStr"), (bytes, kinds.BINARY, "vBinary"),
    ]:
        if isinstance(value, python):
            return types.Tag(key, number, **{field: value})
    raise TypeError(f"no type of tag: {value!r}")


def tags(types, values):
    return [tag(types, key, value) for key, value in values.items()]


def log(types, at, fields):
    """A log; times are microseconds from the trace's begin."""
    return types.Log(BEGIN + at, tags(types, fields))


def span(types, id, parent, name, start, duration, values, logs=(), follows=None, flags=SAMPLED):
    """A span, as a client of OpenTracing reports it, with a reference for what its parent is."""
    kind, other = types.SpanRefType.CHILD_OF, parent
    if follows is not None:
        kind, other = types.SpanRefType.FOLLOWS_FROM, follows
    references = [types.SpanRef(kind, TRACE_LOW, TRACE_HIGH, other)] if other else []
    return types.Span(
        TRACE_LOW, TRACE_HIGH, id, parent, name, references, flags, BEGIN + start, duration, tags(types, values), list(logs)
    )


def batch(types):
    process = types.Process("storefront", tags(types, {
        "jaeger.version": "Python-4.8.0", "hostname": "web-7", "ip": "10.0.0.7", "replicas": 3,
    }))
    root, pay, stock, mail = 0x1E0F, 0x1E10, 0x1E11, -0x0FF00FF00FF00FF0
    spans = [
        span(types, pay, root, "POST", 201_050, 679_260, {
            "span.kind": "client", "http.method": "POST", "peer.service": "payments", "http.status_code": 402, "error": True,
        }, [log(types, 880_000, {"event": "error", "error.kind": "PaymentDeclined", "message": "limit exceeded: 129,99 €"})]),
        span(types, stock, root, "reserve stock", 41_000, 157_777, {
            "rpc.system": "grpc", "span.kind": "client", "digest": bytes.fromhex("00ff10ab7f80"),
        }, [log(types, 90_000, {"event": "retry", "attempt": 1}), log(types, 140_500, {"event": "retry", "attempt": 2})]),
        span(types, mail, 0, "orders publish", 881_000, 3_020, {
            "span.kind": "producer", "messaging.system": "kafka", "tombstone": False,
        }, follows=pay),
        span(types, root, 0, "POST /checkout", 0, 912_400, {
            "sampler.type": "const", "sampler.param": True, "span.kind": "server", "http.url": "/checkout?lang=de",
            "http.status_code": 402,
        }, flags=SAMPLED | DEBUG),
    ]
    return types.Batch(process, spans, seqNo=1, stats=types.ClientStats(0, 0, 0))


def datagram(batch, factory, kind=TMessageType.ONEWAY):
    """The message in which a client sends a batch: a call of the agent's emitBatch."""
    transport = TMemoryBuffer()
    protocol = factory.getProtocol(transport)
    protocol.writeMessageBegin("emitBatch", kind, 1)
    protocol.writeStructBegin("emitBatch_args")
    protocol.writeFieldBegin("batch", TType.STRUCT, 1)
    batch.write(protocol)
    protocol.writeFieldEnd()
    protocol.writeFieldStop()
    protocol.writeStructEnd()
    protocol.writeMessageEnd()
    return transport.getvalue()


def main():
    made = batch(classes())
    sent = datagram(made, TCompactProtocolFactory())
    for name, text in [("checkout_batch.bin", serialize(made)), ("checkout_datagram.bin", sent)]:
        with open(os.path.join(HERE, name), "wb") as out:
            out.write(text)


if __name__ == "__main__":
    main()
