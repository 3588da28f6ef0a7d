"""Inputs of hostile.py whose keys are a target's own: as many as fit, which all move behind `otel.attr.`, one among very many others, and
keys of very many copies of it."""
import itertools
import os
import sys

sys.path.insert(1, os.path.dirname(os.path.dirname(os.path.realpath(__file__))))
import rooms  # first: it finds the others
import otlp
from escapes import FRONT as FRONT_TEXT
from hostile_documents import document, FROM_DOCUMENT, json_span, ONE_SPAN, TO_DOCUMENT
from hostile_units import (
    batch, BINARY, binary, field, LIST, list_of, NO_TEXT, numbers, one_attribute, one_scope, one_span, REST_ROOM, SCOPE_ROOM, shuffled,
    tag, TO_BATCHES, TO_REQUEST, UNIT, writes,
)
from jaeger import RESERVED
from wire import bytes_field

FRONT = FRONT_TEXT.encode()
# Characters that stand for themselves in a JSON string, in their order.
PLAIN = sorted(b"-0123456789ABCDEFGHIJKLMNOPQRSTUVWXYZ_abcdefghijklmnopqrstuvwxyz")


def attribute(key):
    """One of an empty text."""
    return bytes_field(9, bytes_field(1, key) + bytes_field(2, bytes_field(1, b"")))


def rising(count):
    return [bytes(key) for key in itertools.islice(itertools.product(PLAIN, repeat=4), count)]


def tagged(keys):
    """The span of Zipkin with such tags."""
    return document(json_span(middle=b',"tags":{%b}' % b",".join(b'"%b":""' % key for key in keys)))


def batched(keys, held=NO_TEXT):
    """The batch of the span with such tags."""
    return batch(spans=[field(LIST, 10, list_of(len(keys), b"".join(tag(key, held) for key in keys)))])


def requested(keys):
    """The request that is written of the span with such attributes."""
    return otlp.write_group(otlp.Group(scopes=[otlp.Scope(spans=[otlp.Span(1, 2, kind=1, attributes={key.decode(): ("text", "") for key in keys})])]))


# ---- as many keys as fit


def resource_keys(room_of, size):
    return [b"otel.resource." + key for key in rising(room_of // size)]


def touched_spans(order):
    """A span whose attributes have each a key of Zipkin's."""
    keys = resource_keys(REST_ROOM, len(attribute(b"otel.resource.0000")))
    return writes(one_span(b"".join(map(attribute, order(list(keys))))), tagged([FRONT + key for key in keys]))


def touched_back(order):
    """The same back, of a document that is no larger than a request."""
    keys = resource_keys(UNIT - len(ONE_SPAN), len(b'"otel.attr.otel.resource.0000":"",'))
    return writes(tagged(order([FRONT + key for key in keys])), requested(keys))


def one_among():
    """One key of a batch's own among as many others as fit, which stands elsewhere among them."""
    keys = [b"f" + key for key in rising((REST_ROOM - len(attribute(b"error"))) // len(attribute(b"f0000")))]
    return writes(one_span(b"".join(map(attribute, [b"error", *keys]))), batched([*keys, FRONT + b"error"]))


def one_back():
    """The same back, of a batch that is no larger than a request."""
    keys = [b"f" + key for key in rising((UNIT - len(batched([FRONT + b"error"]))) // len(tag(b"f0000", NO_TEXT)))]
    return writes(batched([*keys, FRONT + b"error"]), requested([b"error", *keys]))


# ---- keys of many copies


def one_long(key, is_touched):
    """An attribute with a key behind as many copies as fit, which is written behind one more where it is touched."""
    long = FRONT * ((UNIT - len(batched([key])) - len(FRONT)) // len(FRONT)) + key
    return long, FRONT * is_touched + long


def long_to_batch(key, is_touched):
    long, written = one_long(key, is_touched)
    return writes(one_span(attribute(long)), batched([written]))


def long_to_request(key, is_touched):
    long, written = one_long(key, is_touched)
    return writes(batched([written]), one_attribute(long))


def long_to_spans(key, is_touched):
    long, written = one_long(key, is_touched)
    return writes(one_span(attribute(long)), tagged([written]))


def long_of_spans(key, is_touched):
    long, written = one_long(key, is_touched)
    return writes(tagged([written]), requested([long]))


def copies(room_of, around):
    """Keys of rising numbers of copies, of each key of a batch, as many as fit."""
    out, size = [], 0
    for count in itertools.count():
        keys = [FRONT * count + key.encode() for key in RESERVED]
        size += sum(len(around(key)) for key in keys)
        if size > room_of:
            return out
        out += keys


def copies_to_batch():
    keys = copies(REST_ROOM, attribute)
    return writes(one_span(b"".join(map(attribute, shuffled(list(keys))))), batched(sorted(FRONT + key for key in keys)))


def copies_to_request():
    keys = copies(UNIT - len(batch()) - 8, lambda key: tag(FRONT + key, NO_TEXT))
    return writes(batched(shuffled([FRONT + key for key in keys])), requested(sorted(keys)))


# ---- many spans and events with one each


def spans_touched():
    span = bytes_field(2, bytes_field(1, bytes(15) + b"\1") + bytes_field(2, bytes(7) + b"\2") + attribute(b"error"))
    count = SCOPE_ROOM // len(span)
    return writes(one_scope(span * count), document(*[json_span(middle=b',"tags":{"otel.attr.error":""}')] * count))


def events_touched():
    """Events each of which has an attribute `event`."""
    event = bytes_field(11, bytes_field(3, bytes_field(1, b"event") + bytes_field(2, bytes_field(1, b""))))
    log = numbers((1, 0)) + field(LIST, 2, list_of(1, tag(FRONT + b"event", field(BINARY, 3, binary(b""))))) + b"\0"
    count = REST_ROOM // len(event)
    return writes(one_span(event * count), batch(spans=[field(LIST, 11, list_of(count, log * count))]))


def key_cases():
    """The name of each case with its pair of forms, and what makes its input and what must be seen."""
    falling = lambda keys: keys[::-1]
    return [
        *[(f"keys of the target's own, {name}", TO_DOCUMENT, lambda order=order: touched_spans(order)) for name, order in [("rising", list), ("shuffled", shuffled)]],
        *[(f"keys behind otel.attr., {name}", FROM_DOCUMENT, lambda order=order: touched_back(order)) for name, order in [("falling", falling), ("shuffled", shuffled)]],
        ("one key of the target's own among very many", TO_BATCHES, one_among),
        ("one key behind otel.attr. among very many", TO_REQUEST, one_back),
        ("a key of very many copies of otel.attr.", TO_BATCHES, lambda: long_to_batch(b"error", True)),
        ("a key of very many copies of otel.attr.", TO_REQUEST, lambda: long_to_request(b"error", True)),
        ("a key of very many copies of otel.attr.", TO_DOCUMENT, lambda: long_to_spans(b"otel.resource.", True)),
        ("a key of very many copies of otel.attr.", FROM_DOCUMENT, lambda: long_of_spans(b"w3c.tracestate", True)),
        ("a key of copies of otel.attr. alone", TO_BATCHES, lambda: long_to_batch(b"", False)),
        ("a key of copies of otel.attr. alone", FROM_DOCUMENT, lambda: long_of_spans(b"otel.attr", False)),
        ("keys of one copy, of two, of three and so on, shuffled", TO_BATCHES, copies_to_batch),
        ("keys of one copy, of two, of three and so on, shuffled", TO_REQUEST, copies_to_request),
        ("spans with a key of the target's own each", TO_DOCUMENT, spans_touched),
        ("events with an attribute `event` each", TO_BATCHES, events_touched),
    ]
