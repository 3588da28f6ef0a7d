"""Units of hostile.py: requests in protobuf and batches of both protocols that are made to be slow or large."""
import itertools
import os
import random
import struct
import sys

sys.path.insert(1, os.path.dirname(os.path.dirname(os.path.realpath(__file__))))
import rooms  # first: it finds the others
import otlp
from jaeger import LAST_MICROS
from otlp import DEEPEST, UNIT
from protocols import BINARY, DOUBLE, I8, I32, I64, LIST, MAP, SET, STRUCT
from wire import bytes_field, varint

SAME_FORM = "otlp-proto", "otlp-proto"
TO_BATCHES, TO_REQUEST, BATCHES = ("otlp-proto", "jaeger-binary"), ("jaeger-binary", "otlp-proto"), ("jaeger-binary", "jaeger-binary")
IDS = bytes_field(1, bytes(15) + b"\1") + bytes_field(2, bytes(7) + b"\2")


def filled(piece, size):
    """A piece as often as it fits a size."""
    return piece * (size // len(piece))


def room(size):
    """How much a field of a small number can hold that has at most so many bytes with its key and length."""
    for digits in range(1, 6):
        held = size - 1 - digits
        if len(varint(held)) == digits:
            return held
    return size - 6


def group(held):
    """A frame: one group that holds this."""
    frame = bytes_field(1, held)
    assert len(frame) <= UNIT, len(frame)
    return frame


GROUP_ROOM = room(UNIT)
SCOPE_ROOM = room(GROUP_ROOM)
SPAN_ROOM = room(SCOPE_ROOM)
REST_ROOM = SPAN_ROOM - len(IDS)


def one_scope(held):
    """A frame of one scope that holds this."""
    return group(bytes_field(2, held))


def one_span(held):
    """A frame of one good span that holds this beside its identifiers."""
    return one_scope(bytes_field(2, IDS + held))


def one_value(held):
    """A frame of one span with one attribute of this value."""
    return one_span(bytes_field(9, bytes_field(1, b"a") + bytes_field(2, held)))


# How much the value of one_value may hold: key and length of the attribute, its key, and key and length of the value.
VALUE_ROOM = room(room(REST_ROOM) - 3)
# How much the one list or map of such a value may hold.
LIST_ROOM = room(VALUE_ROOM)
# How long a group's schema URL may be.
LARGEST_URL = room(GROUP_ROOM)


def list_value(members):
    return bytes_field(5, members)


def listed(value):
    return bytes_field(1, value)


def map_value(members):
    return bytes_field(6, members)


def mapped(value):
    return bytes_field(1, bytes_field(2, value))


def nested(value, wrap, member, levels):
    """A value within so many lists or maps of one member each."""
    for _ in range(levels):
        value = wrap(member(value))
    return value


def deep(levels):
    """The same of empty lists, for very many levels."""
    heads, size = [], 0
    for _ in range(levels):
        for key in [b"\x0a", b"\x2a"]:
            heads.append(key + varint(size))
            size += len(heads[-1])
    return b"".join(reversed(heads))


def wide(levels, leaf):
    """A list within so many lists, with as many leaves as fit."""
    size = room(VALUE_ROOM)
    for _ in range(levels):
        size = room(room(size))
    return nested(list_value(filled(listed(leaf), size)), list_value, listed, levels)


def many_keys(order, front=b""):
    """One span with as many different keys as fit, each without a value, in an order of the rising ones."""
    pair = bytes_field(1, front + b"0000")
    head = bytes_field(9, pair)[: -len("0000")]
    count = REST_ROOM // (len(head) + len("0000"))
    digits = bytes(range(48, 112))
    ends = [bytes(end) for end in itertools.islice(itertools.product(digits, repeat=len("0000")), count)]
    return one_span(b"".join(head + end for end in order(ends)))


def shuffled(names):
    """A random order, the same in each run."""
    random.Random(7).shuffle(names)
    return names


def writes(text, output):
    """An input and its canonical text."""
    return text, 0, "", output


def same(text):
    return writes(text, text)


def refused(text, unit, cause, output=b""):
    """An input, the note on it, and the text of the units before."""
    return text, 3, f"unit {unit}: cause {cause}", output


GOOD_SPAN = bytes_field(2, IDS)
GOOD_UNIT = one_span(b"")
BARE_PAIR = bytes_field(1, b"a")
BARE_ATTRIBUTE = bytes_field(9, BARE_PAIR)
FULL_ATTRIBUTE = bytes_field(9, BARE_PAIR + bytes_field(2, bytes_field(1, b"x")))
ONE_MAP = listed(map_value(bytes_field(1, BARE_PAIR)))
TWO_MAP = listed(map_value(bytes_field(1, BARE_PAIR) * 2))
DEEP_LIST = listed(nested(list_value(b""), list_value, listed, DEEPEST - 2))
DEEP_MAP = listed(nested(map_value(b""), map_value, mapped, DEEPEST - 2))
DEEP_ATTRIBUTE = bytes_field(9, bytes_field(2, nested(list_value(b""), list_value, listed, DEEPEST - 1)))
TOO_DEEP = listed(nested(b"", list_value, listed, DEEPEST - 1))


def repeated(piece):
    """A span with one attribute as often as it fits, of which the last counts."""
    return writes(one_span(filled(piece, REST_ROOM)), one_span(piece))


def without(held):
    """A span with fields that go."""
    return writes(one_span(held), GOOD_UNIT)


def keys_twice(levels):
    """Lists within lists, the innermost of maps with one key twice, of which the last counts."""
    size = LIST_ROOM
    for _ in range(levels):
        size = room(room(size))
    maps = [list_value(piece * (size // len(TWO_MAP))) for piece in [TWO_MAP, ONE_MAP]]
    return writes(*(one_value(nested(value, list_value, listed, levels)) for value in maps))


def fields_twice(size, wrap, piece, number):
    """Pieces that have one key twice in this field, as many as fit."""
    pairs = bytes_field(number, BARE_PAIR)
    count = size // len(piece(pairs * 2))
    return writes(wrap(piece(pairs * 2) * count), wrap(piece(pairs) * count))


def sorted_keys(order, front=b""):
    return writes(many_keys(order, front), many_keys(list, front))


def cases():
    """The name of each case with a function that makes its input and what must be seen: status, note and output."""
    return [
        ("one key again and again", lambda: repeated(BARE_ATTRIBUTE)),
        ("one key again and again, with values", lambda: repeated(FULL_ATTRIBUTE)),
        ("a list of maps with a key twice", lambda: keys_twice(0)),
        (f"the same, {DEEPEST - 2} lists deep", lambda: keys_twice(DEEPEST - 3)),
        ("events with a key twice", lambda: fields_twice(REST_ROOM, one_span, lambda pairs: bytes_field(11, pairs), 3)),
        ("spans with a key twice", lambda: fields_twice(SCOPE_ROOM, one_scope, lambda pairs: bytes_field(2, IDS + pairs), 9)),
        ("empty spans", lambda: refused(one_scope(filled(b"\x12\0", SCOPE_ROOM)), 1, "12 BadId")),
        ("smallest good spans", lambda: same(one_scope(filled(GOOD_SPAN, SCOPE_ROOM)))),
        ("smallest good spans, the last empty", lambda: refused(one_scope(filled(GOOD_SPAN, SCOPE_ROOM - 2) + b"\x12\0"), 1, "12 BadId")),
        ("empty scopes", lambda: same(group(filled(b"\x12\0", GROUP_ROOM)))),
        ("empty events", lambda: same(one_span(filled(b"\x5a\0", REST_ROOM)))),
        ("empty links", lambda: without(filled(b"\x6a\0", REST_ROOM))),
        ("a list of empty values", lambda: same(one_value(list_value(filled(b"\x0a\0", LIST_ROOM))))),
        ("a map of empty pairs", lambda: writes(one_value(map_value(filled(b"\x0a\0", LIST_ROOM))), one_value(map_value(b"\x0a\0")))),
        (f"empty values {DEEPEST - 1} lists deep", lambda: same(one_value(wide(DEEPEST - 2, b"")))),
        (f"empty lists {DEEPEST - 1} lists deep", lambda: same(one_value(wide(DEEPEST - 2, list_value(b""))))),
        (f"chains of lists {DEEPEST} deep", lambda: same(one_value(list_value(filled(DEEP_LIST, LIST_ROOM))))),
        (f"chains of maps {DEEPEST} deep", lambda: same(one_value(list_value(filled(DEEP_MAP, LIST_ROOM))))),
        (f"attributes of one key with lists {DEEPEST} deep", lambda: repeated(DEEP_ATTRIBUTE)),
        (f"a list {DEEPEST + 1} deep", lambda: refused(one_value(list_value(TOO_DEEP)), 1, "5 TooDeep")),
        (f"chains of lists {DEEPEST} deep, the last {DEEPEST + 1}", lambda: refused(one_value(list_value(filled(DEEP_LIST, LIST_ROOM - len(TOO_DEEP)) + TOO_DEEP)), 1, "5 TooDeep")),
        ("a list a million deep", lambda: refused(one_value(deep(1_000_000)), 1, "5 TooDeep")),
        ("unknown fields in a group", lambda: writes(group(filled(b"\x20\0", GROUP_ROOM)), b"\x0a\0")),
        ("unknown fields in a span", lambda: without(filled(b"\x88\1\0", REST_ROOM))),
        ("known numbers of another wire type in a span", lambda: without(filled(b"\x08\0", REST_ROOM))),
        ("unknown fields in a value", lambda: writes(one_value(filled(b"\x40\0", VALUE_ROOM)), one_span(BARE_ATTRIBUTE))),
        ("one long unknown field", lambda: without(bytes_field(20, bytes(room(REST_ROOM - 1))))),
        ("a text", lambda: same(one_value(bytes_field(1, b"x" * LIST_ROOM)))),
        ("a text of 4-byte characters", lambda: same(one_value(bytes_field(1, filled("😀".encode(), LIST_ROOM))))),
        ("a text, its last byte no UTF-8", lambda: refused(one_value(bytes_field(1, b"x" * (LIST_ROOM - 1) + b"\xff")), 1, "9 NotText")),
        ("a span's name", lambda: same(one_span(bytes_field(5, b"x" * room(REST_ROOM))))),
        ("a byte value", lambda: same(one_value(bytes_field(7, bytes(LIST_ROOM))))),
        ("different keys, rising", lambda: sorted_keys(list)),
        ("different keys, falling", lambda: sorted_keys(lambda names: names[::-1])),
        ("different keys, shuffled", lambda: sorted_keys(shuffled)),
        ("keys of 1,000 bytes that differ at the end, shuffled", lambda: sorted_keys(shuffled, b"k" * 996)),
        ("a length of 2^60, ten bytes in all", lambda: refused(b"\x0a" + varint(2**60), 1, "6 UnitTooLong")),
        ("a length of 16 MiB + 1, ten bytes in all", lambda: refused(b"\x0a" + varint(UNIT + 1) + bytes(5), 1, "6 UnitTooLong")),
        ("a whole frame of 16 MiB", lambda: same(group(bytes_field(3, b"x" * LARGEST_URL)))),
        ("a whole frame of 16 MiB + 1", lambda: refused(bytes_field(1, bytes_field(3, b"x" * (LARGEST_URL + 1))), 1, "6 UnitTooLong")),
        ("a length of 2^60 in a span", lambda: refused(one_span(b"\x2a" + varint(2**60)), 1, "1 Truncated")),
        ("a length of 2^60 behind a good unit", lambda: refused(GOOD_UNIT + b"\x0a" + varint(2**60), 2, "6 UnitTooLong", GOOD_UNIT)),
        ("empty groups", lambda: same(b"\x0a\0" * UNIT)),
        ("frames that are no units", lambda: writes(b"\x10\0" * UNIT, b"")),
        ("empty groups, then a cut one", lambda: refused(b"\x0a\0" * UNIT + b"\x0a\5", UNIT + 1, "1 Truncated", b"\x0a\0" * UNIT)),
        ("units of one span", lambda: same(GOOD_UNIT * (UNIT // len(GOOD_UNIT)))),
    ]


# ---- batches

MOST = 2**31 - 1
STOP = b"\0"


def field(kind, id, held=b""):
    return bytes([kind]) + struct.pack(">h", id) + held


def binary(held):
    return struct.pack(">i", len(held)) + held


def list_of(size, elements=b"", element=STRUCT):
    """What a list holds that says it has so many elements."""
    return bytes([element]) + struct.pack(">i", size) + elements


def tag(key, held=b""):
    """A tag, a text where nothing more is given."""
    return field(BINARY, 1, binary(key)) + field(I32, 2, bytes(4)) + held + STOP


NO_TEXT = field(BINARY, 3, binary(b""))
PROCESS = field(STRUCT, 1, field(BINARY, 1, binary(b"")) + STOP)
NO_SPANS = field(LIST, 2, list_of(0))
EMPTY_BATCH = PROCESS + NO_SPANS + STOP


def numbers(*pairs):
    """Fields of numbers of 64 bits."""
    return b"".join(field(I64, id, struct.pack(">q", n)) for id, n in pairs)


def span_begin(start=0, parent=0, references=b""):
    """The required fields of a span, which is otherwise the one that IDS are of."""
    ids = numbers((1, 1), (2, 0), (3, 2), (4, parent))
    return ids + field(BINARY, 5, binary(b"")) + references + field(I32, 7, bytes(4)) + numbers((8, start), (9, 0))


def batch(held=b"", spans=(b"",)):
    """A batch of an empty process, with fields behind the span, or behind each of some spans."""
    return PROCESS + held + field(LIST, 2, list_of(len(spans), b"".join(span_begin() + span + STOP for span in spans))) + STOP


def filled_batch(piece, around=batch):
    """A batch in whose unit a piece stands as often as it fits, and how often that is."""
    count = (UNIT - len(around(b""))) // len(piece)
    return around(piece * count), count


def listed_span(id, piece):
    """A span with a list of as many pieces as fit, behind its other fields."""
    around = lambda held: batch(spans=[field(LIST, id, list_of(0)) + held])
    count = filled_batch(piece, around)[1]
    return batch(spans=[field(LIST, id, list_of(count, piece * count))])


def spans_list(piece):
    """As many spans as fit, and how many these are."""
    count = (UNIT - len(EMPTY_BATCH)) // len(piece)
    return PROCESS + field(LIST, 2, list_of(count, piece * count)) + STOP, count


def containers(kinds):
    """A field of containers within each other, each of one member, the last empty."""
    kind, held = kinds[-1], {STRUCT: STOP, MAP: bytes([I8, I8]) + bytes(4)}.get(kinds[-1], list_of(0))
    for outer in reversed(kinds[:-1]):
        one = struct.pack(">i", 1)
        held = {
            STRUCT: lambda: field(kind, 1, held) + STOP, LIST: lambda: bytes([kind]) + one + held, SET: lambda: bytes([kind]) + one + held,
            MAP: lambda: bytes([I8, kind]) + one + b"\7" + held,
        }[outer]()
        kind = outer
    return field(kind, 99, held)


def deep_fields(kinds, last=b"", cause=None):
    """Unknown fields of a batch with containers to this depth, and perhaps a last one for which it is refused."""
    around = lambda held: PROCESS + held + last + NO_SPANS + STOP
    text = filled_batch(containers(kinds), around)[0]
    return refused(text, 1, cause) if cause else writes(text, EMPTY_BATCH)


def numbers_below(levels):
    """Lists within lists, the last of as many numbers as fit."""
    head = list_of(1, element=LIST) * (levels - 1)
    count = UNIT - len(PROCESS + field(LIST, 99, head + list_of(0)) + NO_SPANS + STOP)
    return writes(PROCESS + field(LIST, 99, head + list_of(count, bytes(count), I8)) + NO_SPANS + STOP, EMPTY_BATCH)


def unknown_list(element, size):
    """An unknown list of elements of so many zeros, as many as fit."""
    count = (UNIT - len(batch()) - 8) // size
    return writes(batch(field(LIST, 99, list_of(count, bytes(count * size), element))), batch())


def many_tags(order):
    """One span with as many different tags as fit, each without its value."""
    count = (UNIT - len(batch()) - 8) // len(tag(b"0000"))
    digits = bytes(range(48, 112))
    keys = [bytes(key) for key in itertools.islice(itertools.product(digits, repeat=4), count)]
    texts = [b"".join(tag(key, held) for key in keys) for keys, held in [(order(list(keys)), b""), (keys, NO_TEXT)]]
    return writes(*(batch(spans=[field(LIST, 10, list_of(count, text))]) for text in texts))


def one_tag(count, key, held):
    return batch(spans=[field(LIST, 10, list_of(count, tag(key, held) * count))])


def one_tag_again(key, held=b"", written=NO_TEXT):
    """A span with one tag as often as it fits, of which the last counts."""
    count = (UNIT - len(batch()) - 8) // len(tag(key, held))
    return writes(one_tag(count, key, held), one_tag(1, key, written))


def changing_scopes():
    """Spans of which each has another scope than the one before."""
    spans = [span_begin() + field(LIST, 10, list_of(1, tag(b"otel.scope.name", field(BINARY, 3, binary(name))))) + STOP for name in [b"a", b"b"]]
    count = (UNIT - len(EMPTY_BATCH)) // len(spans[0] + spans[1])
    scopes = b"".join(bytes_field(2, bytes_field(1, bytes_field(1, name)) + REQUEST_SPAN) for name in [b"a", b"b"])
    return writes(PROCESS + field(LIST, 2, list_of(2 * count, (spans[0] + spans[1]) * count)) + STOP, bytes_field(1, scopes * count))


# What is written in OTLP of the span that spans here are.
REQUEST_SPAN = bytes_field(2, otlp.write_span(otlp.Span(1, 2, kind=1)))
SPAN = span_begin() + STOP
GOOD_BATCH = batch()
LINK = field(I32, 1, struct.pack(">i", 1)) + numbers((2, 5), (3, 0), (4, 6)) + STOP
NO_LINK = LINK[:-9] + bytes(9)
TO_PARENT = field(I32, 1, bytes(4)) + numbers((2, 1), (3, 0), (4, 9)) + STOP
LOG = numbers((1, 0)) + field(LIST, 2, list_of(0)) + STOP
TEXT_ROOM = UNIT - len(PROCESS + field(LIST, 2, list_of(1, SPAN)) + STOP)


def named(name):
    """A batch of one span with this name."""
    span = SPAN.replace(field(BINARY, 5, binary(b"")), field(BINARY, 5, binary(name)))
    return PROCESS + field(LIST, 2, list_of(1, span)) + STOP


def batch_of(begin):
    """A batch of one span with these required fields."""
    return PROCESS + field(LIST, 2, list_of(1, begin + STOP)) + STOP


def links():
    """References behind a span's other fields, which are written where they belong."""
    text = listed_span(6, LINK)
    count = text.count(LINK)
    return writes(text, batch_of(span_begin(references=field(LIST, 6, list_of(count, LINK * count)))))


def text_of_value(value, text):
    """A span with one attribute, whose value has this text in a tag."""
    return writes(one_value(value), one_tag(1, b"a", field(BINARY, 3, binary(text))))


def many_nothings():
    """A list of as many empty values as fit."""
    count = LIST_ROOM // 2
    return text_of_value(list_value(b"\x0a\0" * count), b"[" + b",".join([b"null"] * count) + b"]")


def listed_controls():
    """A list of one text of control characters: no other text grows as much."""
    text = b"\1" * room(room(LIST_ROOM))
    return text_of_value(list_value(bytes_field(1, bytes_field(1, text))), b'["' + b"\\u0001" * len(text) + b'"]')


def many_chains():
    """A list of lists that are as deep as they may be with it."""
    count = LIST_ROOM // len(DEEP_LIST)
    chain = b"[" * (DEEPEST - 1) + b"]" * (DEEPEST - 1)
    return text_of_value(list_value(DEEP_LIST * count), b"[" + b",".join([chain] * count) + b"]")


def faulted(text, unit, fault, output=b""):
    """An input, the note on what its target can't hold, and the text of the units before."""
    return text, 4, f"unit {unit}: fault {fault}", output


def many_spans(pair):
    """As many spans as fit, as a batch and as a request."""
    if pair[0] == "otlp-proto":
        count = SCOPE_ROOM // len(GOOD_SPAN)
        return writes(one_scope(GOOD_SPAN * count), PROCESS + field(LIST, 2, list_of(count, SPAN * count)) + STOP)
    text, count = spans_list(SPAN)
    return writes(text, text if pair == BATCHES else group(bytes_field(2, REQUEST_SPAN * count)))


LAST_DOUBLE = listed(b"\x21" + bytes(8))


def plain_request():
    """The request of one such span."""
    return group(bytes_field(2, REQUEST_SPAN))


def one_attribute(key):
    """The request of one such span with an attribute that is an empty text."""
    span = otlp.Span(1, 2, kind=1, attributes={key.decode(): ("text", "")})
    return group(bytes_field(2, bytes_field(2, otlp.write_span(span))))


def last_span(last, cause):
    """As many good spans as fit, and a last one for which they are refused."""
    count = (UNIT - len(EMPTY_BATCH)) // len(SPAN) - 1
    return refused(PROCESS + field(LIST, 2, list_of(count + 1, SPAN * count + last)) + STOP, 1, cause)


def cut_batches():
    count = UNIT // len(GOOD_BATCH)
    return refused(GOOD_BATCH * count + GOOD_BATCH[:-1], count + 1, "1 Truncated", GOOD_BATCH * count)


def own_last():
    """One span with an attribute as often as it fits, and behind it one that is a batch's own without a value of its form."""
    last = bytes_field(9, bytes_field(1, b"jaeger.flags"))
    return one_span(filled(BARE_ATTRIBUTE, REST_ROOM - len(last)) + last)


def batch_cases():
    """The name of each case of batches with its pair of forms, and what makes its input and what must be seen."""
    levels = [STRUCT, LIST, MAP, SET] * 8
    claimed_list, claimed_binary = field(LIST, 2, list_of(MOST)), field(BINARY, 99, struct.pack(">i", MOST))
    return [
        ("structs 32 deep", BATCHES, lambda: deep_fields([STRUCT] * 31)),
        ("lists 32 deep", BATCHES, lambda: deep_fields([LIST] * 31)),
        ("maps 32 deep", BATCHES, lambda: deep_fields([MAP] * 31)),
        ("containers 32 deep", TO_REQUEST, lambda: writes(deep_fields(levels[:31])[0], b"\x0a\0")),
        ("numbers below lists 32 deep", BATCHES, lambda: numbers_below(31)),
        ("containers 32 deep, the last 33", BATCHES, lambda: deep_fields(levels[:31], containers(levels), "5 TooDeep")),
        ("structs without an end", BATCHES, lambda: refused(field(STRUCT, 1) * (UNIT // 3), 1, "5 TooDeep")),
        ("one list of empty structs", BATCHES, lambda: unknown_list(STRUCT, 1)),
        ("one list of empty maps", BATCHES, lambda: unknown_list(MAP, 6)),
        ("one list of numbers", BATCHES, lambda: unknown_list(I64, 8)),
        ("a map of numbers", BATCHES, lambda: writes(batch(field(MAP, 99, bytes([I8, DOUBLE]) + struct.pack(">i", UNIT // 10) + bytes(UNIT // 10 * 9))), batch())),
        ("spans that are empty structs", BATCHES, lambda: refused(spans_list(STOP)[0], 1, "8 Missing")),
        ("tags that are empty structs", TO_REQUEST, lambda: refused(listed_span(10, STOP), 1, "8 Missing")),
        ("smallest good spans", BATCHES, lambda: many_spans(BATCHES)),
        ("smallest good spans", TO_REQUEST, lambda: many_spans(TO_REQUEST)),
        ("smallest good spans", TO_BATCHES, lambda: many_spans(TO_BATCHES)),
        ("smallest good spans, the last one's times too late", BATCHES, lambda: last_span(span_begin(LAST_MICROS + 1) + STOP, "16 BadTime")),
        ("spans of other scopes than the one before", TO_REQUEST, changing_scopes),
        ("a list of 2^31-1 spans that aren't there", BATCHES, lambda: refused(PROCESS + claimed_list, 1, "1 Truncated")),
        ("a list of 2^31-1 spans, 16 MiB of them there", BATCHES, lambda: refused((PROCESS + claimed_list).ljust(UNIT, STOP), 1, "6 UnitTooLong")),
        ("the same, one byte less", BATCHES, lambda: refused((PROCESS + claimed_list).ljust(UNIT - 1, STOP), 1, "1 Truncated")),
        ("a list of 2^31-1 truth values that aren't there", BATCHES, lambda: refused(field(LIST, 99, list_of(MOST, element=2)), 1, "1 Truncated")),
        ("a map of 2^31-1 pairs that aren't there", BATCHES, lambda: refused(field(MAP, 99, bytes([I64, STRUCT]) + struct.pack(">i", MOST)), 1, "1 Truncated")),
        ("a binary of 2^31-1 bytes that aren't there", BATCHES, lambda: refused(claimed_binary, 1, "6 UnitTooLong")),
        ("the same behind a good batch", TO_REQUEST, lambda: refused(GOOD_BATCH + claimed_binary, 2, "6 UnitTooLong", bytes_field(1, bytes_field(2, REQUEST_SPAN)))),
        ("a binary of 16 MiB that isn't there", BATCHES, lambda: refused(field(BINARY, 99, struct.pack(">i", UNIT)), 1, "6 UnitTooLong")),
        ("a size below 0", BATCHES, lambda: refused(PROCESS + field(LIST, 2, list_of(-1)), 1, "4 BadSize")),
        ("one tag a million times", BATCHES, lambda: one_tag_again(b"a")),
        ("one tag a million times", TO_REQUEST, lambda: writes(one_tag_again(b"a")[0], one_attribute(b"a"))),
        ("one reserved tag again and again", TO_REQUEST, lambda: writes(one_tag_again(b"span.kind", field(BINARY, 3, binary(b"x")))[0], plain_request())),
        ("different tags, rising", BATCHES, lambda: many_tags(list)),
        ("different tags, falling", BATCHES, lambda: many_tags(lambda keys: keys[::-1])),
        ("different tags, shuffled", BATCHES, lambda: many_tags(shuffled)),
        ("logs without fields", BATCHES, lambda: same(listed_span(11, LOG))),
        ("references to other traces", BATCHES, links),
        ("references without a span", BATCHES, lambda: writes(listed_span(6, NO_LINK), GOOD_BATCH)),
        ("references to the parent", BATCHES, lambda: writes(listed_span(6, TO_PARENT), batch_of(span_begin(parent=9)))),
        ("unknown fields in a batch", BATCHES, lambda: writes(filled_batch(field(I8, 99, b"\1"))[0], GOOD_BATCH)),
        ("unknown fields in a span", TO_REQUEST, lambda: writes(filled_batch(field(I8, 99, b"\1"), lambda held: batch(spans=[held]))[0], plain_request())),
        ("a text", BATCHES, lambda: same(named(b"x" * TEXT_ROOM))),
        ("a text, its last byte no UTF-8", BATCHES, lambda: refused(named(b"x" * (TEXT_ROOM - 1) + b"\xff"), 1, "9 NotText")),
        ("a whole batch of 16 MiB + 1", BATCHES, lambda: refused(named(b"x" * (TEXT_ROOM + 1)), 1, "6 UnitTooLong")),
        ("batches without spans", TO_REQUEST, lambda: writes(EMPTY_BATCH * (UNIT // len(EMPTY_BATCH)), b"\x0a\0" * (UNIT // len(EMPTY_BATCH)))),
        ("batches of one span, the last cut", BATCHES, cut_batches),
        ("a list of empty values, as a tag's text", TO_BATCHES, many_nothings),
        (f"chains of lists {DEEPEST} deep, as a tag's text", TO_BATCHES, many_chains),
        ("a list of a text of control characters", TO_BATCHES, listed_controls),
        ("a double in the last of many lists", TO_BATCHES, lambda: faulted(one_value(list_value(filled(DEEP_LIST, LIST_ROOM - 11) + LAST_DOUBLE)), 1, "25 DoubleInText")),
        ("a batch's own key behind many others", TO_BATCHES, lambda: faulted(own_last(), 1, '22 OwnKey "jaeger.flags"')),
        ("empty events", TO_BATCHES, lambda: writes(one_span(filled(b"\x5a\0", REST_ROOM)), batch(spans=[field(LIST, 11, list_of(REST_ROOM // 2, LOG * (REST_ROOM // 2)))]))),
    ]


# ---- batches in the compact protocol

COMPACT, FROM_COMPACT = ("jaeger-compact", "jaeger-compact"), ("jaeger-compact", "jaeger-binary")
COMPACT_PROCESS = bytes.fromhex("1c180000")
COMPACT_END = bytes.fromhex("190c00")
EMPTY_COMPACT = COMPACT_PROCESS + COMPACT_END
# Behind these codes stands the id 99.
UNKNOWN_TRUTH, UNKNOWN_I8, UNKNOWN_I16, UNKNOWN_I32, UNKNOWN_I64, UNKNOWN_BINARY, UNKNOWN_LIST, UNKNOWN_MAP, UNKNOWN_STRUCT = (
    bytes([code]) + b"\xc6\1" for code in [1, 3, 4, 5, 6, 8, 9, 11, 12]
)
CLAIMED = b"\xff\xff\xff\xff\7"


def compact_filled(piece, output=EMPTY_COMPACT):
    """A batch without spans, with an unknown field as often as it fits in front of the spans, whose id stands behind then."""
    end = bytes.fromhex("09040c00")
    count = (UNIT - len(COMPACT_PROCESS + end)) // len(piece)
    return writes(COMPACT_PROCESS + piece * count + end, output)


def compact_refused(held, cause):
    return refused(COMPACT_PROCESS + held, 1, cause)


def ten_bytes(n):
    """A varint in ten bytes."""
    return bytes(n >> 7 * group & 127 | 128 for group in range(9)) + bytes([n >> 63])


def long_head(code, id):
    """The head of a field whose id has ten bytes."""
    return bytes([code]) + ten_bytes(2 * id)


LONG_TRUTH = long_head(1, 99)


def long_numbers(code, *pairs):
    """Fields of numbers of which each id and number has ten bytes."""
    return b"".join(long_head(code, id) + ten_bytes(2 * n) for id, n in pairs)


def long_spans():
    """As many good spans as fit, of which each id, number, length and size has ten bytes."""
    tag = long_head(8, 1) + ten_bytes(1) + b"k" + long_numbers(5, (2, 3)) + long_numbers(6, (6, 1)) + STOP
    tags = long_head(9, 10) + b"\xfc" + ten_bytes(1) + tag
    span = long_numbers(6, (1, 1), (2, 0), (3, 2), (4, 0)) + long_head(8, 5) + ten_bytes(0) + long_numbers(5, (7, 0)) + long_numbers(6, (8, 0), (9, 0)) + tags + STOP
    short = bytes.fromhex("16021600160416001800250016001600 191c18016b150646020000")
    begin = lambda count: long_head(12, 1) + long_head(8, 1) + ten_bytes(0) + STOP + long_head(9, 2) + b"\xfc" + ten_bytes(count)
    count = (UNIT - len(begin(0)) - 1) // len(span)
    return writes(begin(count) + span * count + STOP, COMPACT_PROCESS + b"\x19\xfc" + varint(count) + short * count + STOP)


def compact_cases():
    """The same of batches in the compact protocol."""
    zero, last = ten_bytes(0), [ten_bytes(n) for n in [2**16 - 1, 2**16 - 2, 2**32 - 1, 2**32 - 2]]
    ends = b"".join(head + n for head, n in zip([UNKNOWN_I16, UNKNOWN_I16, UNKNOWN_I32, UNKNOWN_I32], last))
    behind_many = lambda held, cause: compact_refused(LONG_TRUTH * (UNIT // 11 - 20) + held, cause)
    return [
        ("structs 32 deep", COMPACT, lambda: compact_filled(UNKNOWN_STRUCT + b"\x1c" * 30 + b"\0" * 31)),
        ("structs without an end", COMPACT, lambda: refused(b"\x1c" * UNIT, 1, "5 TooDeep")),
        ("lists 32 deep", COMPACT, lambda: compact_filled(UNKNOWN_LIST + b"\x19" * 30 + b"\0")),
        ("numbers in ten bytes each", FROM_COMPACT, lambda: compact_filled(UNKNOWN_I64 + zero, EMPTY_BATCH)),
        ("ids in ten bytes each", COMPACT, lambda: compact_filled(LONG_TRUTH)),
        ("the ends of 16 and of 32 bits in ten bytes each", FROM_COMPACT, lambda: compact_filled(ends, EMPTY_BATCH)),
        ("a list of numbers of 32 bits in ten bytes each", COMPACT, lambda: compact_filled(UNKNOWN_LIST + b"\xf5" + varint(UNIT // 10 - 10) + zero * (UNIT // 10 - 10))),
        ("spans of ids, numbers, lengths and sizes in ten bytes each", COMPACT, long_spans),
        ("an id above 32767 in ten bytes behind many", COMPACT, lambda: behind_many(b"\1" + ten_bytes(2**16), "3 BadWire")),
        ("a number above 16 bits in ten bytes behind many", COMPACT, lambda: behind_many(UNKNOWN_I16 + ten_bytes(2**16), "2 BadVarint")),
        ("a number above 32 bits in ten bytes behind many", COMPACT, lambda: behind_many(UNKNOWN_I32 + ten_bytes(2**32), "2 BadVarint")),
        ("empty binaries, maps and lists, each size in ten bytes", COMPACT, lambda: compact_filled(b"".join([UNKNOWN_BINARY, zero, UNKNOWN_MAP, zero, UNKNOWN_LIST, b"\xfc", zero]))),
        ("truth values held by heads", COMPACT, lambda: compact_filled(UNKNOWN_TRUTH)),
        ("ids that rise by one", COMPACT, lambda: compact_refused(b"\x11" * (UNIT - 4), "3 BadWire")),
        ("a number in eleven bytes behind many", COMPACT, lambda: compact_refused((UNKNOWN_I8 + b"\1") * (UNIT // 4 - 20) + UNKNOWN_I64 + b"\x80" * 10, "2 BadVarint")),
        ("a list of 2^31-1 spans that aren't there", COMPACT, lambda: compact_refused(b"\x19\xfc" + CLAIMED, "1 Truncated")),
        ("a list of 2^31-1 spans, 16 MiB of them there", COMPACT, lambda: refused((COMPACT_PROCESS + b"\x19\xfc" + CLAIMED).ljust(UNIT, STOP), 1, "6 UnitTooLong")),
        ("a list of 2^31-1 truth values that aren't there", COMPACT, lambda: compact_refused(UNKNOWN_LIST + b"\xf1" + CLAIMED, "1 Truncated")),
        ("a map of 2^31-1 pairs that aren't there", COMPACT, lambda: compact_refused(UNKNOWN_MAP + CLAIMED + b"\x6c", "1 Truncated")),
        ("a binary of 2^31-1 bytes that aren't there", COMPACT, lambda: compact_refused(UNKNOWN_BINARY + CLAIMED, "6 UnitTooLong")),
        ("a size above 2^31-1", COMPACT, lambda: compact_refused(UNKNOWN_BINARY + b"\x80\x80\x80\x80\x08", "4 BadSize")),
        ("batches without spans", ("jaeger-compact", "otlp-proto"), lambda: writes(EMPTY_COMPACT * (UNIT // len(EMPTY_COMPACT)), b"\x0a\0" * (UNIT // len(EMPTY_COMPACT)))),
    ]
