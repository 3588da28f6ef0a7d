#!/usr/bin/env python3
"""Gives a trace request the names of today's OTLP: what older libraries and Grafana Tempo write is else read as an empty trace.

It is run as examples/todays_names.py json < old.json > request.json, or as examples/todays_names.py protobuf < old.bin >
request.bin.
  batches, as Tempo answers                            becomes resourceSpans
  a trace or a result around them, as Tempo and        is taken off
    Jaeger's api/v3 answer
  instrumentationLibrarySpans, field 1000 in protobuf  becomes scopeSpans, and is dropped where that stands beside it and has
                                                       elements
  instrumentationLibrary                               becomes scope
  trace_id, start_time_unix_nano and so on             become traceId, startTimeUnixNano and so on
Tempo's identifiers are in base64 and its kinds are names: give its JSON to examples/hex_identifiers.py then. All else stays, and
numbers as they were written. An input that is no such text is told in one line, and the status is 1. It needs nothing but Python.
"""
import json
import sys

from protobuf_fields import varint_at

SNAKES = """resource_spans scope_spans instrumentation_library_spans instrumentation_library schema_url dropped_attributes_count
    trace_id span_id trace_state parent_span_id start_time_unix_nano end_time_unix_nano dropped_events_count dropped_links_count
    time_unix_nano string_value bool_value int_value double_value array_value kvlist_value bytes_value""".split()


def camel(name):
    first, *others = name.split("_")
    return first + "".join(other.capitalize() for other in others)


NAMES = {name: camel(name) for name in SNAKES}
OLD = {"instrumentationLibrarySpans": "scopeSpans", "instrumentationLibrary": "scope"}


def renamed(held):
    """A JSON value with the members of all its objects under today's names."""
    if isinstance(held, list):
        return [renamed(element) for element in held]
    if not isinstance(held, dict):
        return held
    camels = {NAMES.get(name, name): renamed(inner) for name, inner in held.items()}
    for old, new in OLD.items():
        if old in camels:
            camels[new] = camels.get(new) or camels[old]
            del camels[old]
    return camels


class Number(str):
    """A number as it was written."""


def refused(word):
    raise ValueError(f"{word} is no JSON")


def spelled(held):
    """The text of a JSON value."""
    if isinstance(held, Number):
        return str(held)
    if isinstance(held, list):
        return "[" + ",".join(spelled(element) for element in held) + "]"
    if isinstance(held, dict):
        return "{" + ",".join(f"{json.dumps(name, ensure_ascii=False)}:{spelled(inner)}" for name, inner in held.items()) + "}"
    return json.dumps(held, ensure_ascii=False)


def request_of(held):
    """What Tempo and Jaeger answer as a request."""
    if not isinstance(held, dict):
        raise ValueError("it is no object")
    inner = renamed(held)
    for around in ["trace", "result"]:
        if isinstance(inner.get(around), dict) and "resourceSpans" not in inner:
            inner = inner[around]
    if "batches" in inner and "resourceSpans" not in inner:
        inner["resourceSpans"] = inner.pop("batches")
    if inner and "resourceSpans" not in inner:
        sys.exit("this is no request: neither resourceSpans nor batches is in it")
    return inner


def record(key, held):
    """A record of bytes: its key as it is written, its length and what it holds."""
    length, spelled = len(held), bytearray()
    while length > 0x7F:
        spelled.append(length & 0x7F | 0x80)
        length >>= 7
    return key + bytes(spelled) + bytes([length]) + held


def records(text):
    """The number, the key as it is written, the whole record, and what it holds, of each record of bytes; others hold None."""
    at = 0
    while at < len(text):
        begin = at
        key, at = varint_at(text, at)
        behind = at
        if key < 8:
            raise IndexError
        if key & 7 == 0:
            _, at = varint_at(text, at)
        elif key & 7 == 2:
            length, at = varint_at(text, at)
            at += length
        elif key & 7 in [1, 5]:
            at += 8 if key & 7 == 1 else 4
        else:
            raise IndexError
        if at > len(text):
            raise IndexError
        yield key >> 3, text[begin:behind], text[begin:at], text[at - length : at] if key & 7 == 2 else None


def todays(group):
    """A `ResourceSpans` with its field 1000 as its field 2."""
    parts = list(records(group))
    has_scopes = any(number == 2 and held is not None for number, _, _, held in parts)
    kept = [part for part in parts if part[0] != 1000 or part[3] is not None and not has_scopes]
    return b"".join(record(b"\x12", held) if number == 1000 else whole for number, _, whole, held in kept)


def request_in(text):
    """A request in protobuf with each of its groups under today's numbers."""
    parts = list(records(text))
    if not parts or any(number == 1 and held is None for number, _, _, held in parts):
        raise IndexError
    return b"".join(
        record(key, todays(held)) if number == 1 and held is not None else whole for number, key, whole, held in parts
    )


def main(kind):
    try:
        if kind == "json":
            held = json.loads(sys.stdin.buffer.read(), parse_int=Number, parse_float=Number, parse_constant=refused)
            text = spelled(request_of(held)).encode() + b"\n"
        else:
            text = request_in(sys.stdin.buffer.read())
        sys.stdout.buffer.write(text)
    except (ValueError, RecursionError) as why:
        sys.exit(f"this is no request in JSON: {why}".partition("\n")[0])
    except IndexError:
        sys.exit("this is no message of protobuf")


if __name__ == "__main__":
    if sys.argv[1:] not in [["json"], ["protobuf"]]:
        sys.exit(__doc__)
    main(sys.argv[1])
