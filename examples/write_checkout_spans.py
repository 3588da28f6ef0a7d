#!/usr/bin/python3
"""Writes examples/checkout_spans.json with py_zipkin: a checkout over two services, as they post it to Zipkin.

It needs Debian's python3-py-zipkin, and is run as examples/write_checkout_spans.py at the top.
"""
import os

from py_zipkin import Encoding, Kind
from py_zipkin.encoding._encoders import get_encoder
from py_zipkin.encoding._helpers import Endpoint, SpanBuilder

HERE = os.path.dirname(os.path.abspath(__file__))
TRACE = "5b8efff798038103d269b633813fc60c"
BEGIN = 1_700_000_000.0
STOREFRONT = Endpoint("storefront", "10.0.0.7", None, 8080)
PAYMENTS = Endpoint("payments", "10.0.0.21", None, 8443)
STOCK = Endpoint("stock", None, "2001:db8::c001", 50051)
CARDS = Endpoint("cards", "10.0.3.4", None, 5432)
ROOT, PAY, RESERVE = "00000000000a1e0f", "b7ad6b7169203331", "93564f51e1abe1c2"
SELECT, SCORE = "1a2b3c4d5e6f7081", "f00dfeed00c0ffee"


def span(id, parent, name, kind, start, duration, here, tags=None, there=None, notes=None, shared=False):
    """A span of the trace, with its start in microseconds from the trace's begin and what was noted at which microsecond."""
    annotations = {value: BEGIN + at / 1e6 for value, at in (notes or {}).items()}
    return SpanBuilder(
        TRACE, name, parent, id, BEGIN + start / 1e6, duration / 1e6, annotations, tags or {}, kind,
        local_endpoint=here, sa_endpoint=there, report_timestamp=not shared,
    )


def storefront():
    return [
        span(ROOT, None, "POST /checkout", Kind.SERVER, 0, 912_400, STOREFRONT, {
            "http.method": "POST", "http.path": "/checkout", "http.status_code": "402", "error": "payment declined",
        }),
        span(RESERVE, ROOT, "reserve stock", Kind.CLIENT, 41_000, 157_777, STOREFRONT, {"grpc.status_code": "0"}, STOCK, {
            '"retry":{"attempt":1,"delay_ms":50}': 90_000, '"retry":{"attempt":2,"delay_ms":100}': 140_500,
        }),
        span(PAY, ROOT, "POST", Kind.CLIENT, 201_050, 679_260, STOREFRONT, {
            "http.method": "POST", "http.status_code": "402",
        }, PAYMENTS),
    ]


def payments():
    """The first of these spans is the server's side of a client's span, and has its identifier."""
    return [
        span(PAY, ROOT, "POST /charges/{id}", Kind.SERVER, 203_400, 675_500, PAYMENTS, {
            "http.method": "POST", "http.path": "/charges/71", "http.status_code": "402",
        }, shared=True),
        span(SELECT, PAY, "SELECT cards", Kind.CLIENT, 204_000, 5_150, PAYMENTS, {
            "sql.query": "SELECT id, token FROM cards WHERE customer = ?",
        }, CARDS),
        span(SCORE, PAY, "Risiko prüfen", Kind.LOCAL, 209_300, 420_700, PAYMENTS, {
            "error": "limit exceeded: 129,99 € > 100,00 €", "risk.model": "r12",
        }, notes={"model loaded": 209_980}),
    ]


if __name__ == "__main__":
    encoder = get_encoder(Encoding.V2_JSON)
    with open(os.path.join(HERE, "checkout_spans.json"), "w", encoding="utf-8") as out:
        out.write(encoder.encode_queue([encoder.encode_span(made) for made in storefront() + payments()]))
