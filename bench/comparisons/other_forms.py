#!/usr/bin/python3
"""Runs the scripts of examples/ that make what is read of forms that aren't, over what stock libraries write in these forms.

It is run at the top as bench/comparisons/other_forms.py, after ./spanx has built the program. What a script makes must be read,
and mean what the library itself tells of the same spans in a form that is read: py_zipkin in v2 beside v1, zipkin-go in JSON
beside protobuf. Jaeger has no library in Debian that writes its model: its messages are made by the stock protobuf library over
the fields of jaeger_model.proto, and must give the batches that the JSON of its API gives. It ends with 1 on a difference.
"""
import base64
import importlib
import json
import os
import subprocess
import sys
import tempfile

sys.path.insert(1, os.path.dirname(os.path.dirname(os.path.realpath(__file__))))
import rooms  # first: it finds the others
from program import BUILD, PROGRAM, TOP, convert
from real_spans import GO, ZIPKIN_GO

HERE = os.path.dirname(os.path.abspath(__file__))
EXAMPLES = os.path.join(TOP, "examples")


def compiled(folder, path):
    """The classes that protoc makes of a schema."""
    subprocess.run(["protoc", f"--proto_path={os.path.dirname(path)}", f"--python_out={folder}", path], check=True)
    return importlib.import_module(os.path.basename(path).replace(".proto", "_pb2"))


def made_by(script, text, *words):
    return subprocess.run([sys.executable, os.path.join(EXAMPLES, script), *words], input=text, capture_output=True, check=True).stdout


def differs(first, second, source):
    """Why two texts of a form aren't read as the same, if so."""
    one, other = convert(first, source), convert(second, source)
    return None if one == other and not one[0] and one[1] else f"{one[0]} {one[2]}{one[1][:200]}, and {other[0]} {other[2]}{other[1][:200]}"


def zipkin_v1():
    with open(os.path.join(EXAMPLES, "checkout_v1.json"), "rb") as file:
        made = made_by("zipkin_v2_of_v1.py", file.read())
    return differs(made, made_by("write_checkout_v1.py", b"", "v2"), "zipkin-json")


def zipkin_protobuf(folder):
    types = compiled(folder, os.path.join(ZIPKIN_GO, "proto", "v2", "zipkin.proto"))
    web = types.Endpoint(service_name="bücher", ipv4=bytes([10, 0, 0, 7]), port=8080)
    other = types.Endpoint(service_name="redis", ipv6=bytes.fromhex("20010db8000000000000000000c00001"))
    trace = bytes.fromhex("5b8efff798038103d269b633813fc60c")
    spans = [
        types.Span(
            trace_id=trace, id=b"\1" * 8, kind=types.Span.SERVER, name="POST /checkout", timestamp=1_700_000_000_000_000, duration=912_400,
            local_endpoint=web, annotations=[types.Annotation(timestamp=1_700_000_000_500_000, value="retry €")], tags={"http.path": "/a", "error": ""},
            shared=True,
        ),
        types.Span(
            trace_id=bytes(8) + trace[8:], id=b"\2" * 8, parent_id=b"\1" * 8, kind=types.Span.CLIENT, timestamp=1_700_000_000_000_001, duration=1, local_endpoint=web,
            remote_endpoint=other,
        ),
        types.Span(trace_id=trace, id=b"\3" * 8, kind=types.Span.PRODUCER, name="local", timestamp=1_700_000_000_000_002, duration=2, local_endpoint=web),
    ]
    text = types.ListOfSpans(spans=spans).SerializeToString()
    told = subprocess.run(["go", "run", os.path.join(HERE, "zipkin_go", "of_protobuf.go")], input=text, stdout=subprocess.PIPE, check=True, env=os.environ | GO).stdout
    return differs(made_by("zipkin_json_of_protobuf.py", text), told, "zipkin-json")


def jaeger_protobuf(folder):
    """Each of the three messages, beside the JSON of the same trace."""
    types = compiled(folder, os.path.join(HERE, "jaeger_model.proto"))
    with open(os.path.join(EXAMPLES, "jaeger_trace.json"), encoding="utf-8") as file:
        document = json.load(file)
    trace = document["data"][0]
    trace["spans"][0]["tags"] += [{"key": "ratio", "type": "float64", "value": 0.5}, {"key": "less", "type": "int64", "value": -7}]

    def set_time(made, micros):
        made.seconds, made.nanos = micros // 1_000_000, micros % 1_000_000 * 1000

    def tag(held):
        kind = held["type"].upper()
        value = base64.b64decode(held["value"]) if kind == "BINARY" else held["value"]
        field = {"STRING": "v_str", "BOOL": "v_bool", "INT64": "v_int64", "FLOAT64": "v_float64", "BINARY": "v_binary"}[kind]
        return types.KeyValue(key=held["key"], v_type=types.ValueType.Value(kind), **{field: value})

    def log(held):
        made = types.Log(fields=[tag(one) for one in held["fields"]])
        set_time(made.timestamp, held["timestamp"])
        return made

    def reference(held):
        ids = {"trace_id": bytes.fromhex(held["traceID"]), "span_id": bytes.fromhex(held["spanID"])}
        return types.SpanRef(ref_type=types.SpanRefType.Value(held["refType"]), **ids)

    def span(held, **more):
        made = types.Span(
            trace_id=bytes.fromhex(held["traceID"]), span_id=bytes.fromhex(held["spanID"]), operation_name=held["operationName"], flags=held["flags"],
            references=[reference(one) for one in held["references"]], tags=[tag(one) for one in held["tags"]], logs=[log(one) for one in held["logs"]],
            **more,
        )
        set_time(made.start_time, held["startTime"])
        set_time(made.duration, held["duration"])
        return made

    processes = {name: types.Process(service_name=held["serviceName"], tags=[tag(one) for one in held["tags"]]) for name, held in trace["processes"].items()}
    first, second = trace["spans"]
    batch = types.Batch(spans=[span(first), span(second, process=processes["p2"])], process=processes["p1"])
    whole = types.Trace(
        spans=[span(held, process_id=held["processID"]) for held in trace["spans"]],
        process_map=[types.Trace.ProcessMapping(process_id=name, process=held) for name, held in processes.items()],
    )
    told = made_by("batches_of_jaeger_json.py", json.dumps(document).encode())
    for name, made in [("Batch", batch), ("PostSpansRequest", types.PostSpansRequest(batch=batch)), ("Trace", whole)]:
        why = differs(made_by("batches_of_jaeger_protobuf.py", made.SerializeToString(), name), told, "jaeger-binary")
        if why:
            return f"{name}: {why}"
    return None


def main():
    if not os.access(PROGRAM, os.X_OK):
        sys.exit(BUILD)
    wrong = 0
    with tempfile.TemporaryDirectory() as folder:
        sys.path.insert(0, folder)
        for name, why in [("Zipkin's v1", zipkin_v1()), ("Zipkin's protobuf", zipkin_protobuf(folder)), ("Jaeger's protobuf", jaeger_protobuf(folder))]:
            print(f"WRONG: {name}: {why}" if why else f"ok: {name}")
            wrong += bool(why)
    return wrong


if __name__ == "__main__":
    sys.exit(1 if main() else 0)
