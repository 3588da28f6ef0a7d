"""Draws random Jaeger batches and OTLP traces for the scripts that compare the program with jaeger.py."""
import os
import random
import sys

sys.path.insert(1, os.path.dirname(os.path.dirname(os.path.realpath(__file__))))
import rooms  # first: it finds the others
import jaeger
import otlp
import zipkin
from escapes import FRONT
from protocols import BINARY, DOUBLE, I8, I16, I32, I64, KINDS, LIST, MAP, PROTOCOLS, SET, STRUCT, TRUTH, Struct

KEYS = ["a", "b", "", "a.b", "é", "\U00010000", "\uffff", "service.name", "event", "error", "span.kind", "jaeger.flags", "zz"]
# Keys that some target reserves on a span or an event.
RESERVED = [*jaeger.RESERVED, jaeger.EVENT, *(zipkin.RESOURCE + key for key in ["", "a", "service.name", FRONT + "error"])]
BAD_FLAGS = ["1", "3", "257", "0", "02", "4294967295", "4294967296", "+2", " 2", "2\n", "", "٢", "-2", "2" * 5000]
DOUBLES = [b"\x3f\xf0" + bytes(6), b"\x7f\xf8" + bytes(5) + b"\1", bytes(8)]


class Drawn:
    """Draws parts that batches and traces share. Each choice comes from the seed."""

    def __init__(self, seed):
        self.random = random.Random(seed)

    def chance(self, part):
        return self.random.random() < part

    def choice(self, *among):
        return self.random.choice(among)

    def some(self, most):
        return self.choice(0, 1, 1, 2, most)

    def text(self):
        alphabet = self.choice("ab", "aéЖ€😀", "k.\0\n\"\\\x7f\x1f", "xyz_-/09")
        return "".join(self.random.choice(alphabet) for _ in range(self.choice(0, 1, 3, 9, 40)))

    def bytes(self):
        return self.random.randbytes(self.choice(0, 1, 2, 3, 40))

    def number(self):
        edge = self.choice(0, 1, -1, 127, 2**31, 2**32 - 1, 2**32, 2**63 - 1, -(2**63))
        return edge if self.chance(0.6) else self.random.getrandbits(64) - 2**63

    def id(self, bits):
        return self.choice(1, 2, 3, 2**bits - 1, 2**63, self.random.getrandbits(bits) or 1)

    def behind_fronts(self, key):
        """A key, behind one copy or two of the front of escaped keys by chance."""
        return FRONT * self.choice(0, 0, 1, 1, 2) + key

    def reserved_key(self):
        """One that a target reserves, or one that is written or read otherwise for such a one."""
        return self.behind_fronts(self.choice(*RESERVED))

    def leaf(self):
        kind = self.choice("text", "truth", "number", "double", "bytes")
        held = {
            "text": self.text, "truth": lambda: self.chance(0.5), "number": self.number, "bytes": self.bytes,
            "double": lambda: self.random.choice(DOUBLES),
        }[kind]()
        return kind, held


# ---- batches


class Batches(Drawn):
    """Makes random batches; of their tags many have a meaning of their own, or would have it with another value."""

    def tag_value(self, key):
        texts = {
            "span.kind": list(jaeger.KINDS_BY_TEXT), "otel.status_code": ["OK", "ERROR", "ok", "UNSET"], "error": ["true", "false", "True"],
            **{key: ["0", "7", "4294967295", "4294967296", "07", "-1", "9" * 5000] for key in jaeger.DROPPED_KEYS},
        }
        if key in texts and self.chance(0.7):
            return "text", self.random.choice(texts[key])
        if key in jaeger.RESERVED and self.chance(0.4):
            return "text", self.choice("", "x", self.text())
        return self.leaf()

    def tags(self, reserved):
        keys = [self.random.choice(reserved) if self.chance(0.5) else self.random.choice(KEYS) for _ in range(self.some(12))]
        keys = [self.behind_fronts(key) if self.chance(0.2) else key for key in keys]
        return [(key, self.tag_value(key)) for key in keys]

    def reference(self, trace, id):
        return jaeger.Reference(self.chance(0.6), self.choice(trace, trace, self.id(128)), self.choice(id, 1, 2, 3))

    def span(self):
        trace, parent = self.choice(1, self.id(128)), self.choice(0, 0, 1, self.id(64))
        start = self.choice(0, 1, jaeger.LAST_MICROS, self.random.randrange(jaeger.LAST_MICROS))
        return jaeger.Span(
            trace, self.id(64), parent, self.text(), [self.reference(trace, parent or 1) for _ in range(self.some(4))],
            self.choice(0, 1, 2, 3, -1, -(2**31), 2**31 - 1), start, self.choice(0, 1, jaeger.LAST_MICROS - start) if start < jaeger.LAST_MICROS else 0,
            self.tags([*jaeger.RESERVED, "jaeger.flags"]),
            [jaeger.Log(self.random.randrange(jaeger.LAST_MICROS + 1), self.tags(["event"])) for _ in range(self.some(3))],
        )

    def batch(self):
        return jaeger.Batch(self.choice("", "shop", self.text()), self.tags(["service.name"]), [self.span() for _ in range(self.some(5))])

    def structs(self):
        """Batches as structs that no writer spells so: in another order, with fields that are passed over."""
        loose = Loose(self.random, self.choice(0, 0.05, 0.3))
        return [loose.struct(jaeger.batch_struct(self.batch()), "Batch") for _ in range(self.choice(1, 1, 2, 3))]

    def whole(self, form="jaeger-binary"):
        return b"".join(PROTOCOLS[form].struct(struct) for struct in self.structs())


class Values:
    """Draws values of Thrift's types."""

    def __init__(self, drawn):
        self.random = drawn

    def value(self, kind, levels=2):
        draw = self.random
        if kind == STRUCT:
            kinds = [draw.choice(KINDS) for _ in range(draw.choice([0, 1, 3]) if levels else 0)]
            return Struct([(draw.choice([0, 1, 5, -1, 32767]), kind, self.value(kind, levels - 1)) for kind in kinds])
        if kind in [LIST, SET]:
            element, size = self.elements(levels)
            return element, [self.value(element, levels - 1) for _ in range(size)]
        if kind == MAP:
            types = [self.elements(levels) for _ in range(2)]
            return *(kind for kind, _ in types), [tuple(self.value(kind, levels - 1) for kind, _ in types) for _ in range(min(size for _, size in types))]
        if kind in [BINARY, DOUBLE]:
            return draw.randbytes(8 if kind == DOUBLE else draw.choice([0, 1, 20]))
        if kind == TRUTH:
            return draw.choice([0, 1, 2, 255])
        bits = {I8: 8, I16: 16, I32: 32, I64: 64}[kind]
        return draw.choice([0, 1, -1, draw.getrandbits(bits) - 2 ** (bits - 1)])

    def elements(self, levels):
        """A type of elements and their number; where there are none the type may be any."""
        size = self.random.choice([0, 1, 2, 3]) if levels else 0
        return (self.random.choice(KINDS) if size else self.random.randrange(256)), size


class Loose(Values):
    """Changes structs so that they keep their meaning."""

    def __init__(self, drawn, part):
        super().__init__(drawn)
        self.part = part

    def chance(self):
        return self.random.random() < self.part

    def unknown(self, name):
        """A field that no table knows, or one of another type than its own."""
        kind = self.random.choice(KINDS)
        ids = [id for id, row in jaeger.ROWS[name].items() if row[0] != kind]
        return self.random.choice([self.random.choice(ids), 99, -1, 0, 32767]), kind, self.value(kind)

    def field(self, id, kind, held, name):
        what = jaeger.ROWS[name].get(id, [None, ""])[1]
        if what[0] == "one":
            held = self.struct(held, what[1])
        if what[0] == "list":
            held = held[0], [self.struct(element, what[1]) for element in held[1]]
        if what == "truth" and held:
            held = self.random.choice([1, 1, 2, 255])
        return id, kind, held

    def more(self, name, present):
        """Fields of the table that mean nothing where they are added."""
        out = []
        for id, (kind, what) in jaeger.ROWS[name].items():
            if id in present or not self.chance():
                continue
            if what in [jaeger.TAGS[1], ("list", "SpanRef"), ("list", "Log")]:
                out.append((id, kind, (self.random.randrange(256), [])))
            if name == "Tag" and id > 3:
                out.append((id, kind, self.value(kind)))
        if name == "Batch":
            out += [(id, jaeger.ROWS[name][id][0], self.value(jaeger.ROWS[name][id][0])) for id in [3, 4] if self.random.random() < 0.3]
        return out

    def struct(self, held, name):
        fields = [self.field(*field, name) for field in held.fields]
        if name == "Tag" and self.chance():
            fields = [field for field in fields if field[0] < 3]
        fields += self.more(name, {id for id, _, _ in fields})
        fields += [self.unknown(name) for _ in range(2) if self.chance()]
        if self.chance():
            self.random.shuffle(fields)
        return Struct(fields)


# ---- traces


class Traces(Drawn):
    """Makes random traces in OTLP. Of the faults for which Jaeger can't hold a part some are drawn, which parts have by
    this chance."""

    def __init__(self, seed, chance):
        super().__init__(seed)
        self.chances = {number: self.choice(0, chance) for number in jaeger.FAULTS}

    def fault(self, number, part=1):
        return self.chance(self.chances[number] * part)

    def value(self, levels=3):
        kind = self.choice("leaf", "leaf", "leaf", "nothing", "list", "map")
        if kind == "nothing" or kind == "leaf":
            return self.leaf() if kind == "leaf" else ("nothing", None)
        if kind == "list":
            return kind, [self.inner(levels) for _ in range(self.some(3) if levels else 0)]
        return kind, {self.choice("x", "é", "", self.text()): self.inner(levels) for _ in range(self.some(3) if levels else 0)}

    def inner(self, levels):
        if self.fault(25, 0.2):
            return "double", self.random.choice(DOUBLES)
        value = self.value(levels - 1)
        return ("text", "x") if value[0] == "double" else value

    def attributes(self):
        """Attributes under keys of all kinds, also such as a target reserves."""
        keys = [self.reserved_key() if self.chance(0.3) else self.choice(*KEYS, self.text()) for _ in range(self.some(6))]
        return {key: self.value() for key in keys}

    def resource(self):
        out = self.attributes()
        if self.chance(0.6):
            out["service.name"] = self.choice(("text", ""), ("text", "shop"), self.value())
        if out.get("service.name", [""])[0] == "double" and not self.fault(25):
            out["service.name"] = "number", 7
        return out

    def flags(self, out):
        """The attribute of a batch's other flags is there by chance."""
        out.pop("jaeger.flags", None)
        if self.chance(0.3):
            out["jaeger.flags"] = "text", self.choice("2", "256", "4294967294", "10")
        if self.fault(22):
            out["jaeger.flags"] = self.choice(("number", 2), ("nothing", None), ("text", self.choice(*BAD_FLAGS)))
        return out

    def link(self, span):
        link = otlp.Link(self.choice(span.trace, self.id(128)), self.choice(span.parent or 1, 9, self.id(64)), self.text(), self.attributes())
        link.dropped, link.flags = self.choice(0, 1, 2**32 - 1), self.choice(0, 257)
        if self.chance(0.6):
            link.attributes["opentracing.ref_type"] = self.choice(("text", "child_of"), ("text", "child_of"), ("text", "follows_from"), ("number", 1))
        if jaeger.names_parent(span, link):
            del link.attributes["opentracing.ref_type"]
        if self.fault(24):
            link.trace, link.id = span.trace, span.parent or link.id
            link.attributes |= jaeger.CHILD_OF
        return link

    def event(self):
        return otlp.Event(self.time(), self.choice("", "e", self.text()), self.attributes(), self.choice(0, 3))

    def time(self):
        return self.choice(0, 1, 999, 1000, 2**64 - 1, 2**64 - 616, self.random.getrandbits(64))

    def span(self):
        span = otlp.Span(self.choice(1, self.id(128)), self.id(64), self.choice("", "a=b", self.text()), self.choice(0, 0, 1, self.id(64)), self.text())
        span.kind, span.code, span.message = self.random.randrange(6), self.random.randrange(3), self.choice("", self.text())
        span.start, span.end = sorted([self.time(), self.time()], reverse=self.fault(20))
        span.attributes, span.flags = self.flags(self.attributes()), self.choice(0, 1, 257, 2**32 - 1)
        span.dropped_attributes, span.dropped_events, span.dropped_links = (self.choice(0, 1, 2**32 - 1) for _ in range(3))
        span.events = [self.event() for _ in range(self.some(3))]
        span.links = [self.link(span) for _ in range(self.some(4))]
        return span

    def scope(self):
        return otlp.Scope(
            self.choice("", "lib", self.text()), self.choice("", "1.0"), self.attributes(), self.choice(0, 4),
            self.choice("", "u"), [self.span() for _ in range(self.some(3))],
        )

    def group(self):
        return otlp.Group(self.resource(), self.choice(0, 5), self.choice("", "u"), [self.scope() for _ in range(self.some(3))])

    def groups(self):
        return [self.group() for _ in range(self.choice(0, 1, 1, 2, 4))]

    def whole(self):
        return b"".join(map(otlp.write_group, self.groups()))
