#!/usr/bin/python3
"""Writes examples/checkout.json with a stock protobuf library: the request of write_checkout.py as OTLP/JSON.

It needs Debian's python3-protobuf and protobuf-compiler, and is run as examples/write_checkout_json.py at the top.
"""
import json
import os

from google.protobuf import json_format

from hex_identifiers import mended
from write_checkout import HERE, messages, request

if __name__ == "__main__":
    with open(os.path.join(HERE, "checkout.json"), "w", encoding="utf-8") as out:
        json.dump(mended(json_format.MessageToDict(request(messages()))), out, ensure_ascii=False)
