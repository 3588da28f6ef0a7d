"""Reads JSON texts as `serde_json` does, into values of Python.

An object is a dictionary of its members, of equal ones the last. A number is an int where it is whole and has at most 64
bits, with or without a sign, and a float else, as `-0` is. What has no reading there has none here: a text that isn't UTF-8,
an escape of half a surrogate pair, a number too large for a float, arrays and objects more than 127 deep.
"""
import json
import math
import re

from otlp import UNIT

LIMIT = 4 * UNIT
DEEPEST = 127

PLAIN = r'[^"\\\x00-\x1f]*'
TEXT = re.compile(rf'"({PLAIN}(?:\\(?:["\\/bfnrt]|u[0-9a-fA-F]{{4}}){PLAIN})*)"')
NUMBER = re.compile(r"(-?(?:0|[1-9][0-9]*))(\.[0-9]+)?([eE][+-]?[0-9]+)?")
WORD = re.compile("true|false|null")
BLANK = re.compile(r"[ \t\n\r]*")
ESCAPE = re.compile(r"\\(?:u(....)|(.))")
WORDS = {"true": True, "false": False, "null": None}
ESCAPED = {'"': '"', "\\": "\\", "/": "/", "b": "\b", "f": "\f", "n": "\n", "r": "\r", "t": "\t"}


class NoReading(Exception):
    """The text is no JSON."""


def unescaped(text):
    """What the inside of a JSON string says."""
    if "\\" not in text:
        return text
    units = ESCAPE.sub(lambda found: chr(int(found[1], 16)) if found[1] else ESCAPED[found[2]], text)
    try:
        return units.encode("utf-16-le", "surrogatepass").decode("utf-16-le")
    except UnicodeDecodeError:
        raise NoReading from None


def number(found):
    whole, point, exponent = found.groups()
    if point is None and exponent is None and whole != "-0" and len(whole) <= 20:
        n = int(whole)
        if -(2**63) <= n < 2**64:
            return n
    held = float(found[0])
    if math.isinf(held):
        raise NoReading
    return held


class Reader:
    def __init__(self, text):
        self.text, self.at = text, 0

    def take(self, form):
        """What stands at this place in a form, or None."""
        found = form.match(self.text, self.at)
        if found:
            self.at = found.end()
        return found

    def takes(self, mark):
        """Whether a mark stands behind blanks, which are then passed over with it."""
        self.take(BLANK)
        is_there = self.text.startswith(mark, self.at)
        self.at += is_there
        return is_there

    def must(self, is_right):
        if not is_right:
            raise NoReading

    def string(self):
        self.take(BLANK)
        found = self.take(TEXT)
        self.must(found)
        return unescaped(found[1])

    def parts(self, end, part):
        """What stands up to a closing mark, with commas between."""
        out = []
        if self.takes(end):
            return out
        while True:
            out.append(part())
            if self.takes(end):
                return out
            self.must(self.takes(","))

    def member(self, levels):
        name = self.string()
        self.must(self.takes(":"))
        return name, self.value(levels)

    def value(self, levels=DEEPEST):
        """A value, in which arrays and objects may be so deep."""
        for begin, end in ["[]", "{}"]:
            if self.takes(begin):
                self.must(levels > 0)
                if begin == "[":
                    return self.parts(end, lambda: self.value(levels - 1))
                return dict(self.parts(end, lambda: self.member(levels - 1)))
        if self.text.startswith('"', self.at):
            return self.string()
        found = self.take(WORD)
        if found:
            return WORDS[found[0]]
        found = self.take(NUMBER)
        self.must(found)
        return number(found)


def read(text):
    """The value of a text."""
    try:
        reader = Reader(text.decode())
    except UnicodeDecodeError:
        raise NoReading from None
    held = reader.value()
    reader.take(BLANK)
    reader.must(reader.at == len(reader.text))
    return held


# ---- documents of the forms


class Refusal(Exception):
    """The number of the element or unit that is refused, and the number of the cause."""


def document(text, limit):
    """The value of a text of at most so many bytes, or its refusal."""
    if len(text) > limit:
        raise Refusal(0, 17)
    try:
        return read(text)
    except NoReading:
        raise Refusal(0, 10) from None


def refuse(offences):
    """Refuses a document for the least of its offences, each a path and the number of a cause, if there are any."""
    if offences:
        path, cause = min(offences)
        raise Refusal(path[0] + 1 if path else 0, cause)


def is_whole(held):
    return isinstance(held, int) and not isinstance(held, bool)


def given(held, member, absent):
    """What a member holds, or something else where it is absent."""
    return absent if held.get(member) is None else held[member]


def compact(held):
    """The text of a value, its members as they stand."""
    return json.dumps(held, ensure_ascii=False, separators=(",", ":"))
