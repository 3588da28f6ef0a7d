#!/usr/bin/env python3
"""Turns spans of Zipkin's protobuf (ListOfSpans of zipkin.proto) into its v2 JSON.

It is run as examples/zipkin_json_of_protobuf.py < spans.bin > spans.json, and needs nothing but Python. Nothing is left out but
fields that zipkin.proto doesn't have. What isn't such a message is told in one line on standard error, nothing is written, and
the status is 1; so is an empty file.
"""
import ipaddress
import json
import sys

from protobuf_fields import WRONG, bytes_of, last, message

KINDS = [None, "CLIENT", "SERVER", "PRODUCER", "CONSUMER"]


def present(held):
    return {name: value for name, value in held.items() if value not in (None, "", 0, False, {}, [])}


def text(held, number):
    return last(held, number, b"").decode()


def endpoint(held):
    address = lambda number: str(ipaddress.ip_address(held[number][-1])) if last(held, number, b"") else None
    return present({"serviceName": text(held, 1), "ipv4": address(2), "ipv6": address(3), "port": last(held, 4, 0)})


def tag(held):
    return text(held, 1), text(held, 2)


def annotation(held):
    return {"timestamp": last(held, 1, 0), "value": text(held, 2)}


def span(held):
    return present({
        "traceId": bytes_of(held, 1, 16).hex(), "parentId": bytes_of(held, 2, 8).hex(), "id": bytes_of(held, 3, 8).hex(),
        "kind": KINDS[last(held, 4, 0)], "name": text(held, 5), "timestamp": last(held, 6, 0), "duration": last(held, 7, 0),
        "localEndpoint": endpoint(message(last(held, 8, b""))), "remoteEndpoint": endpoint(message(last(held, 9, b""))),
        "annotations": [annotation(message(one)) for one in held.get(10, [])],
        "tags": dict(tag(message(one)) for one in held.get(11, [])),
        "debug": bool(last(held, 12, 0)), "shared": bool(last(held, 13, 0)),
    })


def main():
    whole = sys.stdin.buffer.read()
    if not whole:
        sys.exit("the input is empty")
    try:
        made = [span(message(one)) for one in message(whole).get(1, [])]
    except WRONG as why:
        sys.exit(f"this is no ListOfSpans of Zipkin in protobuf: {' '.join(str(why).split())}")
    json.dump(made, sys.stdout)


if __name__ == "__main__":
    main()
