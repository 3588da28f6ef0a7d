"""Pieces of the proto3 wire format, as bytes."""
import struct


def varint(n):
    """The shortest spelling of a number."""
    out = bytearray()
    while n >= 128:
        out.append(n % 128 + 128)
        n //= 128
    out.append(n)
    return bytes(out)


def padded_varint(n, size):
    """A spelling of a number in so many bytes."""
    groups = [n >> (7 * i) & 127 for i in range(size)]
    return bytes(group + 128 for group in groups[:-1]) + bytes(groups[-1:])


def number_field(number, n):
    return varint(number * 8) + varint(n)


def fixed64_field(number, n):
    return varint(number * 8 + 1) + struct.pack("<Q", n)


def bytes_field(number, held):
    return varint(number * 8 + 2) + varint(len(held)) + held


def fixed32_field(number, n):
    return varint(number * 8 + 5) + struct.pack("<I", n)


def read_varint(text, at):
    """The number that is spelled at a place, and the place behind it."""
    n, shift = 0, 0
    while True:
        byte = text[at]
        n |= (byte & 127) << shift
        at, shift = at + 1, shift + 7
        if byte < 128:
            return n, at


def records(text):
    """The records of a message: of each the number, the wire type, and what it holds (a number or bytes)."""
    at, out = 0, []
    while at < len(text):
        key, at = read_varint(text, at)
        number, wire = key >> 3, key & 7
        if wire == 0:
            held, at = read_varint(text, at)
        elif wire == 2:
            size, at = read_varint(text, at)
            held, at = bytes(text[at : at + size]), at + size
        else:
            size = {1: 8, 5: 4}[wire]
            held, at = bytes(text[at : at + size]), at + size
        out.append((number, wire, held))
    return out
