"""The fields of a message of protobuf, for the scripts beside it."""
import struct

# What reading raises where a text isn't the message that it is taken for.
WRONG = (ValueError, TypeError, LookupError, OverflowError, RecursionError, struct.error)


def varint_at(text, at):
    """A varint, and where it ends; it raises IndexError where the text ends in it."""
    held, shift = 0, 0
    while text[at] & 0x80:
        held, shift, at = held | (text[at] & 0x7F) << shift, shift + 7, at + 1
    return held | text[at] << shift, at + 1


def fields(text):
    """Each field's number and what it holds: a number without a sign, or bytes. It raises what stands in WRONG."""
    at = 0
    while at < len(text):
        key, at = varint_at(text, at)
        if key < 8:
            raise ValueError("a field has the number 0")
        if key & 7 == 0:
            held, at = varint_at(text, at)
        elif key & 7 == 1:
            (held,), at = struct.unpack_from("<Q", text, at), at + 8
        elif key & 7 == 2:
            length, at = varint_at(text, at)
            held, at = text[at : at + length], at + length
            if at > len(text):
                raise ValueError("it ends inside a field")
        elif key & 7 == 5:
            (held,), at = struct.unpack_from("<I", text, at), at + 4
        else:
            raise ValueError(f"a field has the wire type {key & 7}")
        yield key >> 3, held


def message(text):
    """The lists of what the fields hold, by number."""
    held = {}
    if not isinstance(text, bytes):
        raise ValueError("a number stands where a message must")
    for number, value in fields(text):
        held.setdefault(number, []).append(value)
    return held


def last(held, number, default):
    """What a field holds last, which is of the kind of its default."""
    found = held.get(number, [default])[-1]
    if type(found) is not type(default):
        raise ValueError(f"field {number} has another wire type than it must")
    return found


def bytes_of(held, number, most):
    """The bytes of an identifier or an address."""
    found = last(held, number, b"")
    if len(found) > most:
        raise ValueError(f"field {number} has {len(found)} bytes, and not {most}")
    return found
