"""Spells JSON's values in ways in which no writer does, and spoils them, for the scripts that draw documents.

A tree is a value of Python whose objects are `Members`.
"""
import json
import os
import sys

sys.path.insert(1, os.path.dirname(os.path.dirname(os.path.realpath(__file__))))
import rooms  # first: it finds the others
import json_text
from drawn import Drawn


class Members(list):
    """The members of an object, pairs of which some may have equal names."""


class Raw(str):
    """A piece of JSON as it stands."""


class Speller(Drawn):
    """Spells trees so that they keep their meaning."""

    # Names that the tables don't have.
    UNKNOWN = []

    def __init__(self, *drawn):
        super().__init__(*drawn)
        self.part = self.choice(0, 0, 0.05, 0.3)

    def is_odd(self):
        return self.chance(self.part)

    def any_value(self, levels=2):
        """A value as unknown members have it."""
        kind = self.choice("leaf", "leaf", "list", "map") if levels else "leaf"
        if kind == "list":
            return [self.any_value(levels - 1) for _ in range(self.some(3))]
        if kind == "map":
            return Members((self.text(), self.any_value(levels - 1)) for _ in range(self.some(3)))
        numbers = map(Raw, ["1.5e-3", "-0", "18446744073709551616", "1e308"])
        return self.choice(None, True, False, 7, "id", self.text(), self.number(), *numbers)

    def absent(self, *defaults):
        """Members for what is absent: none, or null or a default."""
        return [self.choice(None, *defaults)] if self.is_odd() else []

    def some_member(self, name, held, *defaults):
        return [(name, value) for value in ([held] if held else self.absent(*defaults))]

    def object(self, members):
        """An object with more members than it needs, in another order."""
        out = list(members)
        while self.is_odd():
            out.append((self.choice(*self.UNKNOWN, self.text() + "?"), self.any_value()))
        if self.is_odd():
            self.random.shuffle(out)
        elif self.chance(0.5):
            out.sort(key=lambda member: member[0])
        while out and self.is_odd():
            name = self.choice(*out)[0]
            out.insert(0, (name, self.any_value()))
        return Members(out)

    def character(self, one):
        """A character as itself or as an escape."""
        escapes = {held: [f"\\{letter}"] for letter, held in json_text.ESCAPED.items()} | {"/": ["/", "\\/"]}
        units = one.encode("utf-16-be", "surrogatepass")
        escape = "".join(f"\\u{int.from_bytes(units[i : i + 2], 'big'):04{self.random.choice('xX')}}" for i in range(0, len(units), 2))
        return self.choice(*escapes.get(one, [one if one >= " " else escape]), escape)

    def spelled_text(self, text):
        if self.is_odd():
            return '"' + "".join(map(self.character, text)) + '"'
        return json.dumps(text, ensure_ascii=self.chance(0.3))

    def blank(self):
        return self.choice(" ", "\n", "\r\n\t", "  ") if self.is_odd() else ""

    def spelled(self, tree):
        """The text of a tree."""
        if isinstance(tree, Raw):
            out = tree
        elif isinstance(tree, Members):
            members = [f"{self.blank()}{self.spelled_text(name)}{self.blank()}:{self.spelled(held)}" for name, held in tree]
            out = "{" + ",".join(members) + self.blank() + "}"
        elif isinstance(tree, list):
            out = "[" + ",".join(map(self.spelled, tree)) + self.blank() + "]"
        else:
            out = self.spelled_text(tree) if isinstance(tree, str) else json.dumps(tree)
        return self.blank() + out + self.blank()

    def document(self):
        """The text of a random tree."""
        return self.spelled(self.tree()).encode()


ANY = [
    None, True, False, 1, "x", "", [], Members(), [None], [Members()], [[]], Members([("a", None)]), Members([("a", 1)]),
    Members([("timestamp", 1)]), Raw("1.5"), Raw('"\\ud800"'), Raw("nul"),
]
PIECES = [
    b'"', b"\\", b"{", b"}", b"[", b"]", b",", b":", b"\xff", b"\xed\xa0\x80", b"\xc0\x80", b"\0", b"\x1f", b"\\ud83d", b"\\udc00", b"\\u12",
    b"1e999", b"NaN", b"-", b"0", b".5", b"null", b"\xef\xbb\xbf", b"\xe2\x80\xa8", b"/**/", b"[" * 126, b"\x0c",
]


class TreeSpoiler:
    """Spoils what a speller spells, so that the document stays JSON, or any bytes."""

    # Of known members values that they may refuse, and others.
    BAD = {}
    # A document with an unknown member of this text.
    AROUND = ""

    def __init__(self, seed):
        super().__init__(seed)
        self.chance_of_wrong = self.choice(0.002, 0.01, 0.05)
        # Whether members of one name alone are spoilt.
        self.aim = self.choice(None, self.choice(*self.BAD))

    def is_wrong(self, name=None):
        return self.chance(self.chance_of_wrong) if self.aim is None else name == self.aim and self.chance(0.2)

    def more_members(self, names):
        """Members that an object with these names gets in addition."""
        while "traceId" in names and self.chance(3 * self.chance_of_wrong):
            name = self.aim or self.choice(*self.BAD)
            yield name, self.choice(*self.BAD[name])

    def wrong_members(self, members):
        out = Members()
        for name, held in members:
            held = self.spoilt(held)
            if self.is_wrong(name):
                held = self.choice(*self.BAD[name]) if name in self.BAD and self.chance(0.8) else self.choice(*ANY)
                out += self.choice([(name, held)], [(name, held)], [], [(name, held), (name, held)])
            else:
                out.append((name, held))
        return Members([*out, *self.more_members(dict(members))])

    def spoilt(self, tree):
        """A tree with some of its parts spoilt."""
        if isinstance(tree, Members):
            return self.wrong_members(tree)
        if isinstance(tree, list):
            return [self.choice(*ANY) if self.is_wrong() else self.spoilt(element) for element in tree]
        return tree

    def spoilt_bytes(self, text):
        """Changes, drops, doubles or adds some bytes, or cuts the end."""
        out = bytearray(text)
        for _ in range(self.choice(1, 1, 2, 5)):
            at = self.random.randrange(len(out) + 1)
            kind = self.random.randrange(5)
            if kind == 0 and at < len(out):
                out[at] = self.choice(*b'"\\{}[],:0 \x7f', self.random.randrange(256))
            elif kind == 1:
                del out[at : at + self.choice(1, 1, 4, 30)]
            elif kind == 2:
                out[at:at] = out[at : at + self.choice(1, 4, 30, 1000)]
            elif kind == 3:
                out[at:at] = self.choice(*PIECES)
            elif self.chance(0.3):
                del out[at:]
        return bytes(out)

    def nested(self, levels):
        """A document with arrays and objects so deep in an unknown member."""
        begins = [self.choice("[", '{"a":') for _ in range(levels)]
        ends = ["]" if mark == "[" else "}" for mark in reversed(begins)]
        return (self.AROUND % "".join([*begins, self.choice("1", "null"), *ends])).encode()

    def spoil(self):
        """The text of a random tree, spoilt."""
        if self.chance(0.03):
            return self.nested(self.choice(0, 98, 124, 125, 126, 127, 128, 5000))
        tree = self.tree()
        out = self.spelled(self.choice(*ANY) if self.is_wrong() else self.spoilt(tree)).encode()
        return self.spoilt_bytes(out) if self.aim is None and self.chance(0.4) else out
