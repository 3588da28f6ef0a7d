"""Inputs of hostile.py of which much is reported: two million spans, keys that stand more than once, and losses everywhere."""
import itertools
import os
import sys

sys.path.insert(1, os.path.dirname(os.path.dirname(os.path.realpath(__file__))))
import rooms  # first: it finds the others
from hostile_units import BARE_ATTRIBUTE, GOOD_SPAN, REST_ROOM, SCOPE_ROOM, filled, group, one_scope, one_span, shuffled, writes
from losses import LOSSES
from reports import CHECK, SHOW
from wire import bytes_field

SHOWN, CHECKED = ("otlp-proto", SHOW), ("otlp-proto", CHECK)
JAEGER, ZIPKIN = (("otlp-proto", f"{target}, {LOSSES}") for target in ["jaeger-compact", "zipkin-json"])
# So many units of smallest good spans have two million of them.
UNITS = 4
# Characters that stand for themselves in a JSON string, in their order.
PLAIN = sorted(b"-0123456789ABCDEFGHIJKLMNOPQRSTUVWXYZ_abcdefghijklmnopqrstuvwxyz")


def many_spans():
    count = SCOPE_ROOM // len(GOOD_SPAN)
    line = f'{1:032x} {2:016x} - UNSPECIFIED 0 0 UNSET ""\n'.encode()
    return writes(one_scope(GOOD_SPAN * count) * UNITS, line * (UNITS * count))


def checked(held, keys, place=b"unit 1 span 1"):
    """A unit of one span in which these keys stand more than once."""
    lines = b"".join(b'%b: equal key "%b"\n' % (place, key) for key in keys)
    return writes(held, lines + b"units 1, spans 1, remarks %d\n" % len(keys))


def attribute(key):
    """One without a value."""
    return bytes_field(9, bytes_field(1, key))


def rising_keys(size):
    """As many different keys as fit, in their order."""
    return [bytes(key) for key in itertools.islice(itertools.product(PLAIN, repeat=4), size // len(attribute(b"0000")))]


def keys_twice(order):
    """One span with as many different keys as fit, each twice, in an order of all."""
    keys = rising_keys(REST_ROOM // 2)
    return checked(one_span(b"".join(map(attribute, order(keys * 2)))), keys)


def told(held, lines):
    """An input with the lines of its losses."""
    return writes(held, b"".join(lines) + b"losses %d\n" % len(lines))


def lossy_spans(joined):
    """As many spans as fit, none of which has a kind, in units of one resource; of a unit behind another there are these lines."""
    count, lines = SCOPE_ROOM // len(GOOD_SPAN), []
    for unit in range(1, UNITS + 1):
        lines += [b"unit %d%b\n" % (unit, line) for line in joined if unit > 1]
        lines += [b"unit %d span %d: kind\n" % (unit, span) for span in range(1, count + 1)]
    return told(one_scope(GOOD_SPAN * count) * UNITS, lines)


def lossy_attributes(order):
    """One span with as many attributes as fit, each of which becomes a text."""
    keys = rising_keys(REST_ROOM)
    lines = [b'unit 1 span 1: value "%b"\n' % key for key in keys] + [b"unit 1 span 1: kind\n"]
    return told(one_span(b"".join(map(attribute, order(keys)))), lines)


def empty_scopes():
    """A unit of two million scopes, which have no spans."""
    scope = bytes_field(2, b"")
    count = min(2_000_000, SCOPE_ROOM // len(scope))
    return told(group(scope * count), [b"unit 1 scope %d: scope-empty\n" % number for number in range(1, count + 1)])


def report_cases():
    """The name of each case with its form and mode, and what makes its input and what must be seen."""
    return [
        ("two million spans", SHOWN, many_spans),
        ("a key of one span three million times", CHECKED, lambda: checked(one_span(filled(BARE_ATTRIBUTE, REST_ROOM)), [b"a"])),
        ("a million keys of one span twice, shuffled", CHECKED, lambda: keys_twice(shuffled)),
        ("a million keys of one span, and once more in their order", CHECKED, lambda: keys_twice(list)),
        ("two million spans, each with a loss", JAEGER, lambda: lossy_spans([])),
        ("two million spans, each with a loss", ZIPKIN, lambda: lossy_spans([b": unit-joined", b" scope 1: scope-joined"])),
        ("two million attributes of one span that change, shuffled", JAEGER, lambda: lossy_attributes(shuffled)),
        ("two million attributes of one span that change, shuffled", ZIPKIN, lambda: lossy_attributes(shuffled)),
        ("two million scopes without spans", JAEGER, empty_scopes),
    ]
