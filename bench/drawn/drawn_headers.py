"""Draws trace contexts, and blocks of header lines that tell them in many spellings or are spoilt, for the script that compares
the program with headers.py."""
import os
import sys

sys.path.insert(1, os.path.dirname(os.path.dirname(os.path.realpath(__file__))))
import rooms  # first: it finds the others
from drawn import Drawn
from headers import ABSENT, B3, B3_STATES, DEBUG, FORMS, LIMIT, MULTI, MULTI_NAMES, NO, UBER, W3C, YES, Context, told

OTHERS = [
    ("Host", "shop.example:8080"), ("baggage", "user=1,tenant=a b"), ("uberctx-user", "1"), ("X-Empty", ""), ("x_1", "a\tb"),
    ("X-B3-Other", "1"), ("traceparent2", "x"), ("b", "3"),
]
KEY_LETTERS = "abz09_-*/"
VALUE_LETTERS = "abzAZ09 !<>~@:;-+\"\\"
BAD_STATES = [
    "a", "=1", "A=1", "1a=1", "a=", "a= ", "a =1", "a=b=c", "a=\t1", "a=x\ty", "a=1,a=1", "t@1=1", "@s=1", "t@=1", "t@s@u=1", "a=1,,b",
    "a" + "k" * 256 + "=1", "t" * 242 + "@s=1", "t@" + "s" * 15 + "=1", "a=" + "v" * 257, ",".join(f"k{i}=v" for i in range(33)),
]


class Contexts(Drawn):
    """Makes random contexts; many identifiers have zeros in front, and those of traces 64 bits."""

    def id(self, bits):
        size = self.choice(bits, bits, 64, bits // 2, bits - 7, 4)
        return self.choice(1, 2**bits - 1, 2 ** (bits // 2), *[self.random.getrandbits(size) or 1] * 5)

    def letters(self, alphabet, most):
        return "".join(self.random.choice(alphabet) for _ in range(most if self.chance(0.02) else self.choice(0, 1, 3, 8)))

    def key(self):
        if self.chance(0.3):
            return self.choice("a", "z", "7") + self.letters(KEY_LETTERS, 240) + "@" + self.choice("a", "z") + self.letters(KEY_LETTERS, 13)
        return self.choice("a", "m", "z") + self.letters(KEY_LETTERS, 255)

    def value(self):
        return self.letters(VALUE_LETTERS, 255) + self.choice("1", "~", "!", "v")

    def state(self):
        members = {self.key(): self.value() for _ in range(self.choice(0, 0, 1, 2, 3, 32))}
        return ",".join(f"{key}={value}" for key, value in members.items())

    def context(self):
        sampling = self.choice(ABSENT, NO, YES, YES, DEBUG)
        return Context(self.id(128), self.id(64), self.choice(0, self.id(64)), sampling, self.state())


class Blocks(Contexts):
    """Spells contexts as blocks, in ways in which no client does, and spoils them."""

    # ---- headers of each form

    def digits(self, n, *widths):
        """The digits of an identifier, as many as one of the widths where it fits."""
        text = f"{n:0{self.choice(*[width for width in widths if n < 16**width])}x}"
        return text.upper() if self.chance(0.2) else text

    def traceparent(self, context):
        version = self.choice("00", "00", "00", "01", "cc", "fe")
        more = "" if version == "00" else self.choice("", "-", "-00", "-what: comes, later")
        flags = 2 * self.random.randrange(128) * self.choice(0, 0, 1) + (context.sampling == YES)
        # A member may stand in a line of its own.
        between = self.choice(",", ", ", " ,\t", ",,", "\n")
        states = context.state.replace(",", between).split("\n") if context.state else []
        return [("traceparent", f"{version}-{context.trace:032x}-{context.span:016x}-{flags:02x}{more}")] + [("tracestate", text) for text in states]

    def b3(self, context):
        parent = self.digits(context.parent, 16) if context.parent else ""
        ids = [self.digits(context.trace, 16, 32), self.digits(context.span, 16)]
        return [("b3", "-".join(filter(None, [*ids, B3_STATES.get(context.sampling), parent])))]

    def multi(self, context):
        ids = [self.digits(context.trace, 16, 32), self.digits(context.span, 16), self.digits(context.parent, 16) if context.parent else None]
        sampled = self.choice(*{NO: ["0", "false"], YES: ["1", "true"], ABSENT: [None], DEBUG: [None, "0", "1", "x"]}[context.sampling])
        flags = "1" if context.sampling == DEBUG else self.choice(None, None, "0", "true", "")
        return [(name, value) for name, value in zip(MULTI_NAMES, [*ids, sampled, flags]) if value is not None]

    def uber(self, context):
        flags = {NO: ["0", "00", "4", "F0"], YES: ["1", "01", "5", "f1"], DEBUG: ["2", "3", "03", "0A", "ff"]}[context.sampling]
        parent = self.digits(context.parent, 1, 2, 16)
        parts = [self.digits(context.trace, 1, 16, 32), self.digits(context.span, 1, 16), parent, self.choice(*flags)]
        return [("uber-trace-id", "".join(part + self.choice(":", ":", "%3A", "%3a") for part in parts[:3]) + parts[3])]

    def alone(self):
        """A sampling without identifiers."""
        return self.choice([("b3", self.choice("0", "1", "d"))], [("X-B3-Sampled", self.choice("0", "1", "true"))], [("x-b3-flags", "1")])

    def fields(self):
        """Headers of one form or of several."""
        out = []
        for form in self.random.sample(FORMS, self.choice(1, 1, 1, 2, 4)):
            write = {W3C: self.traceparent, B3: self.b3, MULTI: self.multi, UBER: self.uber}[form]
            out += self.alone() if self.chance(0.05) else write(told(self.context(), form))
        return out + [field for field in OTHERS if self.chance(0.1)]

    # ---- lines

    def cased(self, name):
        return self.choice(name, name, name.lower(), name.upper(), name.title(), name.swapcase())

    def line(self, name, value):
        before, after = self.choice(" ", " ", "", "  ", "\t"), self.choice("", "", "", " ", "\t ")
        return f"{self.cased(name)}:{before}{value}{after}"

    def lines(self, fields):
        lines = [self.line(*field) for field in fields]
        if self.chance(0.3):
            self.random.shuffle(lines)
        ends = self.choice(["\n"], ["\r\n"], ["\n", "\r\n", "\n\n", "\r\n\n"])
        text = "".join(line + self.choice(*ends) for line in lines)
        return (text.rstrip("\r\n") if self.chance(0.2) else text).encode("latin-1")

    def block(self):
        return self.lines(self.fields())

    # ---- what is wrong

    def spoilt_value(self, value):
        at = self.random.randrange(len(value) + 1)
        kind = self.random.randrange(8)
        if kind == 0:
            return value[:at] + value[at + 1 :]
        if kind == 1:
            return value[:at] + self.choice("0", "f", "F", "g", "-", ":", "%3A", "=", ",", " ", "\t", "@") + value[at:]
        if kind == 2:
            return value[:at] + self.choice("0", "f", "A", "g", "-", ":", "d", "1") + value[at + 1 :]
        if kind == 3:
            return value.upper()
        mark = "-" if "-" in value else ":"
        parts = value.split(mark)
        part = self.random.randrange(len(parts))
        if kind == 4:
            parts[part] = "0" * len(parts[part])
        elif kind == 5:
            del parts[part]
        elif kind == 6:
            parts.insert(part, self.choice("", "0", "1", "d", "00", parts[part]))
        else:
            parts[part] = self.choice("", "0", "1", "ff", "0" * 16, "0" * 32, "1" * 16, "1" * 17, "1" * 33)
        return mark.join(parts)

    def spoilt_fields(self):
        fields = self.fields()
        at = self.random.randrange(len(fields))
        name, value = fields[at]
        if name == "tracestate" or self.chance(0.2):
            fields.append(("tracestate", self.choice(*BAD_STATES)))
        elif name == "traceparent" and self.chance(0.2):
            fields[at] = name, self.choice("ff" + value[2:], value + self.choice("-", "-00", "0", "."), value.upper())
        elif self.chance(0.15):
            fields.append((name, self.choice(value, self.spoilt_value(value))))
        elif self.chance(0.15):
            del fields[at]
        else:
            fields[at] = name, self.spoilt_value(value)
        return fields

    def spoilt_bytes(self, block):
        out = bytearray(block)
        at = self.random.randrange(len(out) + 1)
        if self.chance(0.3):
            del out[at : at + self.choice(1, 1, 5)]
        else:
            out[at:at] = self.choice(b"\r", b"\n", b" ", b"\t", b":", b"\0", b"\x1f", b"\x7f", b"\x80", b"\xff", b"\xc3\xa9", b" \n", b": x\n")
        return bytes(out)

    def spoilt(self):
        block = self.lines(self.spoilt_fields() if self.chance(0.8) else self.fields())
        if self.chance(0.3):
            block = self.spoilt_bytes(block)
        if self.chance(0.02):
            block += b"\n" * (self.choice(LIMIT, LIMIT + 1) - len(block))
        return block
