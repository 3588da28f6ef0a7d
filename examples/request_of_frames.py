#!/usr/bin/env python3
"""Takes off what stands in front of each request in a file of several: requests one after the other are one request.

It is run as examples/request_of_frames.py KIND < frames.bin > request.bin, where KIND is one of
  grpc    a byte and a length of four bytes, as gRPC frames a message
  four    a length of four bytes, the most significant first, as the file exporter of a Collector writes protobuf
  varint  a length as a varint, as protobuf libraries write delimited messages
It needs nothing but Python. A frame of gRPC that is compressed is refused.
"""
import sys


def varint_at(text, at):
    length, shift = 0, 0
    while text[at] & 0x80:
        length, shift, at = length | (text[at] & 0x7F) << shift, shift + 7, at + 1
    return length | text[at] << shift, at + 1


def frame_at(text, at, kind):
    """The length of what stands in the frame, and where that begins."""
    if kind == "varint":
        return varint_at(text, at)
    if kind == "grpc":
        if text[at]:
            sys.exit("a frame is compressed, or this is no file of frames of gRPC")
        at += 1
    return int.from_bytes(text[at : at + 4], "big"), at + 4


def main(kind):
    text, at = sys.stdin.buffer.read(), 0
    while at < len(text):
        try:
            length, at = frame_at(text, at, kind)
        except IndexError:
            length = len(text) + 1
        if at + length > len(text):
            sys.exit("the last frame is cut, or this is no file of such frames")
        sys.stdout.buffer.write(text[at : at + length])
        at += length


if __name__ == "__main__":
    if sys.argv[1:] not in [["grpc"], ["four"], ["varint"]]:
        sys.exit(__doc__)
    main(sys.argv[1])
