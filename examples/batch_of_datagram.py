#!/usr/bin/env python3
"""Takes the head of the message off a datagram of a Jaeger client, and the stop byte at its end, so that its batch stays.

It is run as examples/batch_of_datagram.py < datagram.bin > batch.bin, or with the names of files, one datagram each, whose
batches it writes one after the other. The batch is in the protocol of the datagram: jaeger-compact (port 6831 of an agent) or
jaeger-binary (port 6832). What is no such message, or no file, is told in one line on standard error, and the status is 1; the
batches of the files before it were written. It needs nothing but Python.
"""
import struct
import sys


def skip_varint(text, at):
    while text[at] & 0x80:
        at += 1
    return at + 1


def read_varint(text, at):
    end = skip_varint(text, at)
    return sum((byte & 0x7F) << 7 * i for i, byte in enumerate(text[at:end])), end


def head_of_compact(text):
    """Where the arguments begin: behind the version and the number of the message, and its name."""
    length, at = read_varint(text, skip_varint(text, 2))
    return at + length


def head_of_binary(text):
    """The same; a message of the older form, that isn't strict, begins with the length of its name."""
    if text[0] == 0x80:
        return 8 + struct.unpack_from(">i", text, 4)[0] + 4
    return 4 + struct.unpack_from(">i", text)[0] + 5


def batch_of(text):
    """The bytes of the batch, which is the one argument of the call."""
    is_compact = text[:1] == b"\x82"
    try:
        at = head_of_compact(text) if is_compact else head_of_binary(text)
    except (IndexError, struct.error):
        at = len(text)
    field = b"\x1c" if is_compact else b"\x0c\0\1"
    if text[at : at + len(field)] != field or text[-2:] != b"\0\0":
        sys.exit("this is no message of Thrift with a batch in it: a batch alone needs no change")
    return text[at + len(field) : -1]


if __name__ == "__main__":
    for path in sys.argv[1:] or ["/dev/stdin"]:
        try:
            with open(path, "rb") as file:
                text = file.read()
        except OSError as why:
            sys.exit(f"{path}: {why.strerror}")
        sys.stdout.buffer.write(batch_of(text))
