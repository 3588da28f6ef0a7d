"""JSON whose numbers stay as they were written, for the scripts beside it: a float would round what has more than 53 bits."""
import json
import sys


class Number(str):
    """A number, by its letters."""


class Wrong(Exception):
    """What was read is no JSON, or none of the shape that is asked for, for this reason."""


def number(text):
    return Number(text)


READER = json.JSONDecoder(parse_int=number, parse_float=number, parse_constant=number)


def read(text):
    """The value of a text in bytes. NaN and Infinity, which some libraries write, are numbers here."""
    try:
        return READER.decode(text.decode().lstrip(" \t\r\n"))
    except (ValueError, RecursionError) as why:
        raise Wrong(f"this is no JSON: {why}".partition("\n")[0]) from None


def write(held):
    """The text of a value, with nothing between its parts."""
    if isinstance(held, dict):
        return "{" + ",".join(f"{quoted(name)}:{write(inner)}" for name, inner in held.items()) + "}"
    if isinstance(held, list):
        return "[" + ",".join(map(write, held)) + "]"
    if isinstance(held, Number):
        return str(held)
    return quoted(held)


def quoted(held):
    return json.dumps(held, ensure_ascii=False)


def given(held, name, kind, absent):
    """The member of an object, which must be of this kind; one that isn't there, or is null, is what it is where absent."""
    if not isinstance(held, dict):
        raise Wrong(f"{quoted_short(held)} stands where an object must")
    inner = held.get(name)
    if inner is None:
        return absent
    if not isinstance(inner, kind) or isinstance(inner, Number) and kind is str:
        raise Wrong(f"{name} is {quoted_short(inner)}")
    return inner


def quoted_short(held):
    text = write(held)
    return text if len(text) <= 40 else text[:40] + ".."


def run(work, *words):
    """Does its work on standard input and writes what it makes; wrong input is told in one line, with status 1."""
    try:
        made, status = work(sys.stdin.buffer.read(), *words)
    except Wrong as why:
        sys.exit(str(why))
    sys.stdout.buffer.write(made.encode("utf-8", "surrogatepass"))
    sys.stdout.flush()
    sys.exit(status)
