#!/usr/bin/env python3
"""Joins JSON lines into documents that spanx reads: a request of OTLP in each line, or a span or an array of spans of Zipkin.

It is run as examples/join_requests.py KIND < lines.jsonl > document.json, where KIND is one of
  otlp    requests of OTLP, as the file exporter of a Collector writes them, or arrays of them: one request with all their
          resourceSpans
  zipkin  spans of Zipkin, arrays of them, or arrays of arrays as /api/v2/traces answers them: one array of all spans
A second word is the front of the names of files that are written in place of standard output, each of at most 67,108,864 bytes,
which spanx reads at once: examples/join_requests.py otlp joined- makes joined-0001.json, joined-0002.json and so on. Without it,
more than that is refused behind what fitted.

Every number and text stays as it was written, since nothing is written anew: jq before version 1.7 rounds numbers above 2^53. A
line that is no such text is named, and the status is 1; the files that are whole by then stand. It needs nothing but Python.
"""
import json
import signal
import sys
from json.decoder import scanstring

LIMIT = 67_108_864
BLANKS = " \t\r\n"
FRONTS = {"otlp": '{"resourceSpans":[', "zipkin": "["}
BACKS = {"otlp": "]}\n", "zipkin": "]\n"}


def refused(word):
    raise ValueError(f"{word} is no JSON")


READER = json.JSONDecoder(parse_int=str, parse_float=str, parse_constant=refused)


class Line:
    """The text of a line, and how far it was gone through."""

    def __init__(self, text):
        self.text, self.at = text, 0

    def next(self):
        """The next character that is no blank."""
        while self.text[self.at : self.at + 1] in BLANKS and self.at < len(self.text):
            self.at += 1
        return self.text[self.at : self.at + 1]

    def take(self, wanted):
        if self.next() != wanted:
            raise ValueError(f"no {wanted} at character {self.at + 1}")
        self.at += 1

    def value(self):
        """The text of the value that stands here."""
        self.next()
        begin = self.at
        _, self.at = READER.raw_decode(self.text, begin)
        return self.text[begin : self.at]

    def parts(self, first, last, part):
        """What `part` gives of each part of an array or an object."""
        self.take(first)
        found = []
        while self.next() != last:
            if found:
                self.take(",")
            found.append(part())
        self.at += 1
        return found

    def elements(self):
        """The texts of the elements of an array."""
        return self.parts("[", "]", self.value)

    def members(self):
        """The names and texts of the members of an object."""
        return self.parts("{", "}", self.member)

    def member(self):
        self.take('"')
        name, self.at = scanstring(self.text, self.at)
        self.take(":")
        return name, self.value()


def requests_in(text):
    """The texts of the elements of resourceSpans; of equal names the last counts, as spanx reads them."""
    line = Line(text)
    if line.next() == "[":
        found = [part for request in line.elements() for part in requests_in(request)]
    else:
        members = dict(line.members())
        if "resourceSpans" not in members:
            raise ValueError("no request of OTLP, since it has no resourceSpans")
        held = members["resourceSpans"]
        found = [] if held == "null" else Line(held).elements()
    if line.next():
        raise ValueError(f"more behind the request, at character {line.at + 1}")
    return found


def spans_in(text):
    """The texts of the spans of a line."""
    line = Line(text)
    if line.next() != "[":
        found = [line.value()]
        if line.next() or found[0][:1] != "{" or not {"traceId", "id"} <= set(dict(Line(found[0]).members())):
            raise ValueError("no span, and no array of spans")
        return found
    found = line.elements()
    if line.next():
        raise ValueError(f"more behind the array, at character {line.at + 1}")
    return [span for element in found for span in spans_in(element)]


class Documents:
    """The documents that are written: one on standard output, or files with this front of their names."""

    def __init__(self, kind, front):
        self.kind, self.front, self.count, self.parts, self.size = kind, front, 0, [], 0

    def add(self, part):
        room = LIMIT - len(FRONTS[self.kind]) - len(BACKS[self.kind]) - 1
        size = len(part.encode()) + 1
        if size > room:
            sys.exit(f"one of its parts has {size - 1} bytes, more than spanx reads at once")
        if self.size + size > room:
            if self.front is None:
                self.end()
                sys.exit(f"more than {LIMIT} bytes: give a front of names, for several files")
            self.end()
        self.parts.append(part)
        self.size += size

    def end(self):
        text = FRONTS[self.kind] + ",".join(self.parts) + BACKS[self.kind]
        self.count, self.parts, self.size = self.count + 1, [], 0
        if self.front is None:
            sys.stdout.buffer.write(text.encode())
            sys.stdout.flush()
            return
        try:
            with open(f"{self.front}{self.count:04}.json", "wb") as file:
                file.write(text.encode())
        except OSError as why:
            sys.exit(str(why))


def main(kind, front):
    documents, read = Documents(kind, front), requests_in if kind == "otlp" else spans_in
    for number, line in enumerate(sys.stdin.buffer, 1):
        if not line.strip():
            continue
        try:
            parts = read(line.decode().rstrip())
        except json.JSONDecodeError as why:
            sys.exit(f"line {number}: {why.msg} at character {why.pos + 1}")
        except (ValueError, RecursionError) as why:
            sys.exit(f"line {number}: {why}".partition("\n")[0])
        for part in parts:
            documents.add(part)
    if documents.parts or not documents.count:
        documents.end()


if __name__ == "__main__":
    if sys.argv[1:2] not in [["otlp"], ["zipkin"]] or len(sys.argv) > 3:
        sys.exit(__doc__)
    signal.signal(signal.SIGPIPE, signal.SIG_DFL)
    main(sys.argv[1], sys.argv[2] if len(sys.argv) == 3 else None)
