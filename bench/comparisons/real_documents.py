#!/usr/bin/python3
"""Runs the built program over documents of OTLP/JSON that Python's protobuf library and a seeded generator wrote, and compares
what they mean.

It is run at the top as bench/comparisons/real_documents.py, after ./spanx has built the program. The files of folders that are
given, named otlp-json or as for real_spans.py, are taken too. The requests of real_input.py are printed by the library, with hex
for identifiers, plainly and with defaults and blanks; what is read of them must be what is read of the request itself, and what
the library prints untouched must be refused with BadId, and be read so once examples/hex_identifiers.py has changed it. The
requests, batches and Zipkin documents of the other scripts are converted to documents. Each document is converted to each form.
What is written must be what forms.py says, byte by byte, be read back by the stock library of its form with that meaning, and
convert back as forms.py says. It prints a line for each case, and ends with 1 on a difference.
"""
import json
import os
import sys

sys.path.insert(1, os.path.dirname(os.path.dirname(os.path.realpath(__file__))))
import rooms  # first: it finds the others
import forms
import real_batches
import real_spans
import stock_json
from drawn_groups import GroupDocuments, JsonTraces
from forms import FORMS, JSON, OTLP, ZIPKIN
from program import BUILD, PROGRAM
from real_input import EXAMPLES, cases, report, submessages

import hex_identifiers

SEEDS = 150


# ---- documents of the stock library


def without_doubles(message):
    """Puts a whole number in the place of each double."""
    if message.DESCRIPTOR.name == "AnyValue" and message.WhichOneof("value") == "double_value":
        message.int_value = 7
    for inner in submessages(message):
        without_doubles(inner)
    return message


def printed(message):
    """The name and the text of each way to print a request with hex for identifiers."""
    yield "plain", json.dumps(stock_json.document(message)).encode()
    yield "in UTF-8, indented", json.dumps(stock_json.document(message), ensure_ascii=False, indent=2).encode()
    yield "with defaults, in tabs", json.dumps(stock_json.document(message, including_default_value_fields=True), indent="\t").encode()


def of_requests(request, later_request):
    """The name of each request, the request without doubles, and its bytes."""
    for name, text in cases(request, later_request, None):
        message = request.FromString(text)
        message.DiscardUnknownFields()
        yield name, without_doubles(message), message.SerializeToString()


def check_printed(request, later_request):
    """The number of requests that the readers of bench/readers read otherwise than what is printed of them, and the documents."""
    wrong, out = 0, []
    for name, message, text in of_requests(request, later_request):
        wanted = list(forms.groups(text, OTLP))
        for how, document in printed(message):
            if list(forms.groups(document, JSON)) != wanted:
                report(f"{name}, {how}", document, "the readers read other groups than in the request", text, b"")
                wrong += 1
            out.append((f"request, {name}, {how}", document))
        for options in [{}, {"use_integers_for_enums": True, "indent": 0}]:
            document = stock_json.untouched(message, **options)
            changed = json.dumps(hex_identifiers.mended(json.loads(document))).encode()
            has_span = any(scope.spans for group in message.resource_spans for scope in group.scope_spans)
            if has_span != (forms.verdict(document, JSON, JSON)[3] == "BadId"):
                report(f"{name}, untouched", document, "the readers don't refuse identifiers in base64", text, b"")
                wrong += 1
            if list(forms.groups(changed, JSON)) != wanted:
                report(f"{name}, changed", changed, "the readers read other groups than in the request", text, b"")
                wrong += 1
            out.append((f"request, {name}, untouched", document))
    return wrong, out


# ---- cases


def documents(folders):
    """The name and the bytes of each other document."""
    for path in [os.path.join(EXAMPLES, "checkout.json"), *real_batches.files(JSON, folders)]:
        with open(path, "rb") as file:
            yield f"file {os.path.basename(path)}", file.read()
    yield "no groups", b'{"resourceSpans":[]}'
    yield "an empty object", b"{}"
    for seed in range(SEEDS):
        yield f"random {seed}, in other spellings", GroupDocuments(seed).document()
        yield f"random {seed}, as it is written", forms.write(JsonTraces(seed, 0).groups(), JSON)


def to_documents(classes, folders):
    """The name, the bytes and the form of each other input."""
    types, request, later, later_request = classes
    yield from real_spans.others(request, later_request, types, later, folders)
    for name, text in real_spans.documents(folders):
        yield f"spans, {name}", text, ZIPKIN


def main():
    if not os.path.exists(PROGRAM):
        sys.exit(BUILD)
    classes = real_spans.classes()
    tools = classes[:2]
    wrong, made = check_printed(classes[1], classes[3])
    for name, text, source in to_documents(classes, sys.argv[1:]):
        wrong += not real_spans.try_case(tools, name, text, source, JSON)[1]
    for name, text in [*documents(sys.argv[1:]), *made]:
        for target in FORMS:
            wrong += not real_spans.try_case(tools, name, text, JSON, target)[1]
    print(f"{wrong} differences")
    sys.exit(1 if wrong else 0)


if __name__ == "__main__":
    main()
