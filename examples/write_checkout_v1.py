#!/usr/bin/python3
"""Writes examples/checkout_v1.json with Yelp's py_zipkin: spans of a checkout in Zipkin's v1 JSON.

It needs Debian's python3-py-zipkin, and is run as examples/write_checkout_v1.py at the top. By `... v2` it prints the same
spans as py_zipkin writes them in v2.
"""
import os
import random
import sys
import time

from py_zipkin.encoding._types import Encoding, Kind
from py_zipkin.transport import BaseTransportHandler
from py_zipkin.zipkin import zipkin_span

HERE = os.path.dirname(os.path.abspath(__file__))
BEGIN = 1_700_000_000


class Kept(BaseTransportHandler):
    """Keeps what is sent."""

    def __init__(self):
        self.sent = []

    def get_max_payload_bytes(self):
        return None

    def send(self, payload):
        self.sent.append(payload)


def ticking(now=[BEGIN]):
    """A clock that goes on by an eighth of a second each time it is read."""
    now[0] += 0.125
    return now[0]


def spans(encoding):
    kept, time.time = Kept(), ticking
    random.seed(5)
    about = {"transport_handler": kept, "sample_rate": 100, "port": 8080, "host": "10.0.0.7", "encoding": encoding}
    with zipkin_span("storefront", "POST /checkout", kind=Kind.SERVER, binary_annotations={"http.path": "/checkout"}, **about):
        with zipkin_span("storefront", "charge", kind=Kind.CLIENT, annotations={"retry": BEGIN + 0.3}) as charge:
            charge.add_sa_binary_annotation(8443, "payments", "10.0.0.9")
            charge.update_binary_annotations({"http.status_code": "402"})
    return kept.sent[0]


if __name__ == "__main__":
    if sys.argv[1:] == ["v2"]:
        print(spans(Encoding.V2_JSON))
    else:
        with open(os.path.join(HERE, "checkout_v1.json"), "w", encoding="utf-8") as out:
            out.write(spans(Encoding.V1_JSON))
