"""The protocols of Thrift, binary and compact: structs are read from bytes and written as bytes.

A reader takes byte by byte what can be refused, so that the shortest refused front decides; the causes are those that
docs/JAEGER.md names. The types of values are named by the codes of the binary protocol.
"""
import struct

from otlp import UNIT, Refused

LEVELS = 32
LAST_SIZE = 2**31 - 1

TRUTH, I8, DOUBLE, I16, I32, I64, BINARY, STRUCT, MAP, SET, LIST = 2, 3, 4, 6, 8, 10, 11, 12, 13, 14, 15
NUMBERS = {I8: ">b", I16: ">h", I32: ">i", I64: ">q"}
CONTAINERS = [STRUCT, MAP, SET, LIST]
KINDS = [TRUTH, DOUBLE, BINARY, *NUMBERS, *CONTAINERS]

# The compact codes of types, of which 2 is a truth value as well.
COMPACT = {TRUTH: 1, I8: 3, I16: 4, I32: 5, I64: 6, DOUBLE: 7, BINARY: 8, LIST: 9, SET: 10, MAP: 11, STRUCT: 12}
KIND_OF = {2: TRUTH, **{code: kind for kind, code in COMPACT.items()}}


class Struct:
    """The fields of a struct, each an id, a type and what it holds: a number, a truth value, bytes, a struct, the type and
    the elements of a list or set, or the two types and the pairs of a map. One that was read has the places of its fields
    and of its stop byte, counted from 1 through the unit."""

    def __init__(self, fields, places=(), end=0):
        self.fields, self.places, self.end = fields, places, end


class Spelled(bytes):
    """Bytes that are written in place of a value."""


def why_none(kind, level):
    """The cause for which no value of this type may stand at a level."""
    if kind in CONTAINERS and level > LEVELS:
        return 5
    return None if kind in KINDS else 3


def why_no_pair(key, value, level):
    """The same of a key and a value."""
    whys = [why for why in (why_none(kind, level) for kind in [key, value]) if why is not None]
    return max(whys, default=None)


# ---- reading


class Reader:
    """Reads one struct. What a protocol spells in its own way is in its class."""

    def __init__(self, text, at, limit=UNIT):
        self.text, self.at, self.begin, self.limit = text, at, at, limit

    def place(self):
        return self.at - self.begin

    def take(self, size):
        if self.place() + size > self.limit or self.at + size > len(self.text):
            raise Refused(6 if len(self.text) - self.begin >= self.limit else 1)
        self.at += size
        return self.text[self.at - size : self.at]

    def byte(self):
        return self.take(1)[0]

    def binary(self):
        size = self.size()
        if self.place() + size > self.limit:
            raise Refused(6)
        return self.take(size)

    def value(self, kind, level, held=None):
        """A value of which the head of its field may hold the truth; where it is a container, it stands at this level."""
        if kind == STRUCT:
            return self.struct(level)
        if kind in [LIST, SET]:
            element, size = self.list_head(level + 1)
            return element, [self.value(element, level + 1) for _ in range(size)]
        if kind == MAP:
            key, value, size = self.map_head(level + 1)
            return key, value, [(self.value(key, level + 1), self.value(value, level + 1)) for _ in range(size)]
        if kind == BINARY:
            return self.binary()
        if kind == DOUBLE:
            return self.double()
        if kind == TRUTH:
            return self.truth() if held is None else held
        return self.number(kind)

    def struct(self, level):
        fields, places, last = [], [], 0
        while True:
            first = self.byte()
            place = self.place()
            if first == 0:
                return Struct(fields, places, place)
            last, kind, held = self.head(first, last, level + 1)
            fields.append((last, kind, self.value(kind, level + 1, held)))
            places.append(place)


class BinaryReader(Reader):
    def size(self, why=None):
        """A size, which must be 0 where there is a cause for which no elements may stand."""
        n = 0
        for i in range(4):
            byte = self.byte()
            if why is not None and byte:
                raise Refused(why)
            if i == 0 and byte >= 128:
                raise Refused(4)
            n = n * 256 + byte
        return n

    def head(self, first, last, level):
        why = why_none(first, level)
        if why is not None:
            raise Refused(why)
        return struct.unpack(">h", self.take(2))[0], first, None

    def list_head(self, level):
        element = self.byte()
        return element, self.size(why_none(element, level))

    def map_head(self, level):
        key, value = self.byte(), self.byte()
        return key, value, self.size(why_no_pair(key, value, level))

    def double(self):
        return self.take(8)

    def truth(self):
        return self.byte() != 0

    def number(self, kind):
        return struct.unpack(NUMBERS[kind], self.take(struct.calcsize(NUMBERS[kind])))[0]


class CompactReader(Reader):
    def varint(self):
        n = 0
        for group in range(10):
            byte = self.byte()
            if group == 9 and byte > 1:
                raise Refused(2)
            n += (byte & 127) << 7 * group
            if byte < 128:
                return n

    def signed(self, bits, outside=2):
        n = self.varint()
        n = n >> 1 if n % 2 == 0 else -(n >> 1) - 1
        if not -(2 ** (bits - 1)) <= n < 2 ** (bits - 1):
            raise Refused(outside)
        return n

    def size(self, why=None):
        n = self.varint()
        if why is not None and n:
            raise Refused(why)
        if n > LAST_SIZE:
            raise Refused(4)
        return n

    def head(self, first, last, level):
        kind, beyond = KIND_OF.get(first % 16), first // 16
        why = why_none(kind, level)
        if why is not None:
            raise Refused(why)
        id = last + beyond if beyond else self.signed(16, 3)
        if id > 32767:
            raise Refused(3)
        return id, kind, first % 16 == 1 if kind == TRUTH else None

    def list_head(self, level):
        first = self.byte()
        element, size = KIND_OF.get(first % 16, 0), first // 16
        why = why_none(element, level)
        if size == 15:
            return element, self.size(why)
        if size and why is not None:
            raise Refused(why)
        return element, size

    def map_head(self, level):
        size = self.size()
        if size == 0:
            return 0, 0, 0
        types = self.byte()
        key, value = KIND_OF.get(types // 16, 0), KIND_OF.get(types % 16, 0)
        why = why_no_pair(key, value, level)
        if why is not None:
            raise Refused(why)
        return key, value, size

    def double(self):
        return self.take(8)[::-1]

    def truth(self):
        return self.byte() == 1

    def number(self, kind):
        if kind == I8:
            return struct.unpack(">b", self.take(1))[0]
        return self.signed(8 * struct.calcsize(NUMBERS[kind]))


# ---- writing


class BinaryWriter:
    reader = BinaryReader
    # A list that claims so many elements, a map, a binary, and bytes that are refused somewhere.
    PIECES = [b"\0", b"\x0c\0\1", b"\x0f\0\1\x0c\x7f\xff\xff\xff", b"\x0b\0\x09\x7f\xff\xff\xff", b"\x0d\0\1", b"\xff"]

    def value(self, kind, held):
        if isinstance(held, Spelled):
            return held
        if kind == STRUCT:
            return self.struct(held)
        if kind in [LIST, SET]:
            return bytes([held[0]]) + struct.pack(">i", len(held[1])) + b"".join(self.value(held[0], element) for element in held[1])
        if kind == MAP:
            pairs = b"".join(self.value(held[0], key) + self.value(held[1], value) for key, value in held[2])
            return bytes(held[:2]) + struct.pack(">i", len(held[2])) + pairs
        if kind == BINARY:
            return struct.pack(">i", len(held)) + held
        if kind == DOUBLE:
            return held
        if kind == TRUTH:
            return bytes([held])
        return struct.pack(NUMBERS[kind], held)

    def struct(self, held):
        return b"".join(bytes([kind]) + struct.pack(">h", id) + self.value(kind, value) for id, kind, value in held.fields) + b"\0"

    def odd_head(self, draw):
        """A list or map of types that may not stand there, or with a size that no value has."""
        kinds = [draw.choice([*KINDS, STRUCT, MAP, 0, 1, 7, 200]) for _ in range(2)]
        size = draw.choice([bytes(4), b"\0\0\0\1", b"\0\1", b"\x7f\xff\xff\xff", b"\x80\0\0\0", b"\xff"])
        return draw.choice([(LIST, Spelled(kinds[:1] + list(size))), (MAP, Spelled(kinds + list(size)))])


def varint(n):
    return bytes([n % 128 + 128]) + varint(n // 128) if n >= 128 else bytes([n])


def zigzag(n):
    return varint(2 * n if n >= 0 else -2 * n - 1)


class CompactWriter:
    reader = CompactReader
    PIECES = [b"\0", b"\x1c", b"\x19\xfc\xff\xff\xff\xff\7", b"\x18\xff\xff\xff\xff\7", b"\x1b", b"\xff", b"\x80" * 9, b"\x80" * 9 + b"\2", b"\x0c\xff\xff\3"]

    def value(self, kind, held):
        if isinstance(held, Spelled):
            return held
        if kind == STRUCT:
            return self.struct(held)
        if kind in [LIST, SET]:
            code, size = COMPACT.get(held[0], held[0] % 16), len(held[1])
            head = bytes([size * 16 + code]) if size < 15 else bytes([240 + code]) + varint(size)
            return head + b"".join(self.value(held[0], element) for element in held[1])
        if kind == MAP:
            types = [COMPACT.get(type, type % 16) for type in held[:2]]
            pairs = b"".join(self.value(held[0], key) + self.value(held[1], value) for key, value in held[2])
            return varint(len(held[2])) + (bytes([types[0] * 16 + types[1]]) if held[2] else b"") + pairs
        if kind == BINARY:
            return varint(len(held)) + held
        if kind == DOUBLE:
            return held[::-1]
        if kind == TRUTH:
            return bytes([1 if held else 0])
        return struct.pack(">b", held) if kind == I8 else zigzag(held)

    def struct(self, held):
        out, last = [], 0
        for id, kind, value in held.fields:
            code = (1 if value else 2) if kind == TRUTH else COMPACT[kind]
            out.append(bytes([(id - last) * 16 + code]) if 0 < id - last < 16 else bytes([code]) + zigzag(id))
            if kind != TRUTH:
                out.append(self.value(kind, value))
            last = id
        return b"".join(out) + b"\0"

    def odd_head(self, draw):
        """A list or map of types that may not stand there, or with a size that no value has; sizes that aren't the shortest."""
        codes = [draw.choice([*range(16), 12, 11]) for _ in range(2)]
        sizes = [b"\0", b"\1", b"\x81\0", b"\x80" * 9 + b"\0", b"\x80" * 9 + b"\1", b"\x80" * 9 + b"\2", b"\xff\xff\xff\xff\7", b"\x80\x80\x80\x80\x08", b"\x80"]
        size, few = draw.choice(sizes), draw.choice([0, 0, 1, 2, 14])
        lists = [bytes([240 + codes[0]]) + size, bytes([few * 16 + codes[0]])]
        return draw.choice([(LIST, Spelled(draw.choice(lists))), (MAP, Spelled(size + bytes([codes[0] * 16 + codes[1]])))])


PROTOCOLS = {"jaeger-binary": BinaryWriter(), "jaeger-compact": CompactWriter()}
