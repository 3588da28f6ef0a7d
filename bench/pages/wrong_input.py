#!/usr/bin/python3
"""Gives each script of examples/ inputs that it isn't for, and tries that each is answered in one line on standard error with
status 1, and never by a traceback; and that no line of these scripts is longer than 130 characters.

It needs nothing but Python, and is run at the top as bench/pages/wrong_input.py; words that are given choose the scripts whose
names hold one of them. A script that reads other things than a file, or that week.py tries, is named in NONE; one that is in no
table here is a difference. What is no wrong input for a script, as an empty file for one that reads lines, must end with 0. It
ends with 1 on a difference.
"""
import json
import os
import random
import subprocess
import sys

sys.path.insert(1, os.path.dirname(os.path.dirname(os.path.realpath(__file__))))
import rooms

EXAMPLES = os.path.join(rooms.TOP, "examples")


def example(name):
    with open(os.path.join(EXAMPLES, name), "rb") as held:
        return held.read()


def garbage(number, length):
    return random.Random(number).randbytes(length)


SPAN = {"traceId": "1", "id": "2", "name": "a"}
API = {"traceID": "1", "spanID": "2", "operationName": "a", "startTime": 1, "duration": 1, "processID": "p1"}
# Each by a name, by which the tables below speak of it.
INPUTS = {
    "empty": b"",
    "an empty line": b"\n",
    "errors of Jaeger's API": b'{"data":null,"total":0,"errors":[{"code":404,"msg":"trace not\\nfound"}]}',
    "no data of Jaeger's API": b'{"data":null}',
    "data that is a text": b'{"data":"a"}',
    "a trace without processes": json.dumps({"data": [{"spans": [API]}]}).encode(),
    "a span of another process": json.dumps({"data": [{"spans": [API], "processes": {}}]}).encode(),
    "a negative identifier": json.dumps({"data": [{"spans": [{**API, "spanID": "-1"}], "processes": {"p1": {"serviceName": "a"}}}]}).encode(),
    "a time of 2^64": json.dumps({"data": [{"spans": [{**API, "startTime": 2**64}], "processes": {"p1": {"serviceName": "a"}}}]}).encode(),
    "[]": b"[]",
    "null": b"null",
    "{}": b"{}",
    "a number": b"12",
    "a text": b'"a"',
    "OTLP/JSON": example("checkout.json"),
    "OTLP in protobuf": example("checkout.bin"),
    "half of OTLP in protobuf": example("checkout.bin")[:2000],
    "a batch": example("checkout_batch.bin"),
    "a datagram that is cut": example("checkout_datagram.bin")[:500],
    "Zipkin v2": example("checkout_spans.json"),
    "v1 with a number for a span": b'[{"traceId":"1","id":"2"},3]',
    "v1 without an identifier": b'[{"traceId":"1"}]',
    "v1 with annotations that are texts": b'[{"traceId":"1","id":"2","annotations":["cs"]}]',
    "Jaeger's API": example("jaeger_trace.json"),
    "JSON lines of OTLP": b'{"resourceSpans":[]}\n{"resourceSpans":[]}\n',
    "JSON lines of Zipkin": json.dumps(SPAN).encode() + b"\n" + json.dumps(SPAN).encode() + b"\n",
    "metrics": b'{"resourceMetrics":[{}]}',
    "an identifier in bad base64": b'{"resourceSpans":[{"scopeSpans":[{"spans":[{"spanId":"AAA!AAA=AAA="}]}]}]}',
    "JSON that is cut": example("checkout.json")[:500],
    "deep JSON": b"[" * 100_000,
    "a text of 5000 digits": b"[" + b"1" * 5000 + b"]",
    "gzip": b"\x1f\x8b\x08\x00" + garbage(1, 300),
    "a line of text": b"what is this\n",
    "a line of show with a bad name": b'%032x %016x - CLIENT 1 2 OK "\\q"\n' % (1, 2),
    "a line of show with a long time": b'%032x %016x - CLIENT %s 2 OK "q"\n' % (1, 2, b"1" * 5000),
    "a line of losses with a bad key": b'unit 1: value "\\q"\nlosses 1\n',
    "no UTF-8": b"\xff\xfe\xfd\n",
    "zeros": bytes(40),
    "a varint without an end": b"\xff" * 40,
    "a field that is longer than the rest": b"\x0a\x7fabc",
    "a number where a message must be": b"\x08\x01",
    "a span that is a number's": b"\x0a\x02\x08\x01",
    **{f"garbage {number}": b"\xf7" + garbage(number, length) for number, length in enumerate([1, 7, 60, 3000, 100_000], 2)},
}
# Each script with its words, and what is no wrong input for it.
SCRIPTS = {
    ("batch_of_datagram.py",): set(),
    ("batches_of_jaeger_json.py",): {"Jaeger's API"},
    ("batches_of_jaeger_protobuf.py", "Batch"): set(),
    ("batches_of_jaeger_protobuf.py", "PostSpansRequest"): set(),
    ("batches_of_jaeger_protobuf.py", "Trace"): set(),
    ("hex_identifiers.py",): {"OTLP/JSON", "{}"},
    ("join_requests.py", "otlp"): {"empty", "an empty line", "OTLP/JSON", "JSON lines of OTLP", "[]", "an identifier in bad base64"},
    ("join_requests.py", "zipkin"): {
        "empty", "an empty line", "Zipkin v2", "JSON lines of Zipkin", "[]", "v1 with annotations that are texts",
    },
    ("losses_by_key.py",): set(),
    ("losses_by_key.py", "html"): set(),
    ("request_of_frames.py", "grpc"): {"empty", "zeros"},
    ("request_of_frames.py", "four"): {"empty", "zeros"},
    ("request_of_frames.py", "varint"): {"empty", "zeros"},
    ("todays_names.py", "json"): {"OTLP/JSON", "{}", "an identifier in bad base64"},
    ("todays_names.py", "protobuf"): {"OTLP in protobuf", "a span that is a number's"},
    ("waterfall.py",): set(),
    ("zipkin_json_of_protobuf.py",): set(),
    ("zipkin_v2_of_v1.py",): {"[]"},
}
# These read no file, or are no commands; the others are tried by week.py.
NONE = {"protobuf_fields.py", "written_json.py", "forward.py"}
NONE |= {"doubles_to_texts.py", "faults_by_service.py", "mend_faults.py", "move.sh", "texts_of_tags.py"}
NONE |= {"relay_empty.sh"}


def difference(words, name, text):
    """Why a script doesn't answer an input as it must, if so."""
    command = [sys.executable, "-S", os.path.join(EXAMPLES, words[0]), *words[1:]]
    done = subprocess.run(command, input=text, capture_output=True, timeout=60)
    said = done.stderr.decode(errors="replace")
    what = f"{' '.join(words)} of {name}: status {done.returncode}, {len(done.stdout)} bytes, {said[-300:]!r}"
    if name in SCRIPTS[words]:
        return what if done.returncode or said else None
    is_line = said.endswith("\n") and len(said.splitlines()) == 1 and said.strip() and len(said) < 700
    return None if done.returncode == 1 and is_line and "Traceback" not in said else what


def main():
    wrong, tried = 0, {words[0] for words in SCRIPTS}
    for name in sorted(os.listdir(EXAMPLES)):
        if name.endswith((".py", ".sh")) and not name.startswith("write_") and name not in tried | NONE:
            print(f"WRONG: {name} is in no table of this script")
            wrong += 1
        if name.endswith((".py", ".sh", ".service")):
            lines = example(name).decode().split("\n")
            long = [number for number, line in enumerate(lines, 1) if len(line) > 130]
            print(*[f"WRONG: {name}, line {number} is longer than 130 characters\n" for number in long], sep="", end="")
            wrong += len(long)
    for words in SCRIPTS:
        if sys.argv[1:] and not any(word in " ".join(words) for word in sys.argv[1:]):
            continue
        found = [why for name, text in INPUTS.items() if (why := difference(words, name, text))]
        wrong += len(found)
        print(*[f"WRONG: {why}" for why in found] or [f"ok: {' '.join(words)}: {len(INPUTS)} inputs"], sep="\n")
    return 1 if wrong else 0


if __name__ == "__main__":
    sys.exit(main())
