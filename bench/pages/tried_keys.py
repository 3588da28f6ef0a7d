"""Tries what docs/JAEGER.md, docs/ZIPKIN.md and docs/LOSSES.md say of keys that a target has for something else: which these are,
under which key an attribute is written, and that a tag of such a key is read as the attribute.

Each case stands beside the row or sentence that it tries, which must stand in the page. `bench/pages/pages.py` runs it.
"""
import os
import re
import sys

sys.path.insert(1, os.path.dirname(os.path.dirname(os.path.realpath(__file__))))
import rooms  # first: it finds the others
import forms
import jaeger
import tried_rows
import zipkin
from escapes import FRONT
from jaeger import Log
from program import TOP, convert, losses, report
from tried_rows import BINARY, COMPACT, batch, request, spans, text

TARGETS = {"JAEGER.md": [BINARY, COMPACT], "ZIPKIN.md": ["zipkin-json"]}
ROW = re.compile(r"\| an? (span|event|resource) \| `(.*)` \| `(.*)` \|")
# Of each page the beginning of the sentence that lists the keys of spans.
LISTED = {"JAEGER.md": "The keys of spans that are reserved so are ", "ZIPKIN.md": "The keys that are reserved so are "}
# The beginning of the sentence in front of its table of keys.
TOLD = {"JAEGER.md": "So that no two attributes", "ZIPKIN.md": "A key that is such a one"}
# Keys that may be taken for reserved ones.
OTHERS = ["event", "peer.service", "service.name", "kind", "otel.scope", "otel.library", "otel.resource", "otel.status", "Error"]
NAMES = {"span": "attributes", "event": "event", "resource": "resource"}


def lines_of(page):
    with open(os.path.join(TOP, "docs", page), encoding="utf-8") as file:
        return file.read().split("\n")


def tag_keys(written, target, place):
    """The keys that a text of one span has in a place."""
    if target == "zipkin-json":
        [span] = zipkin.read_spans(written)
        return list(zipkin.read_event_text(span.annotations[0][1])[1]) if place == "event" else list(span.tags)
    made = jaeger.read_batch(jaeger.next_unit(written, 0, form=target)[1])
    tags = {"span": made.spans[0].tags, "event": [log.fields for log in made.spans[0].logs][-1:], "resource": made.tags}[place]
    return [key for key, _ in (tags[0] if place == "event" else tags)]


def attribute_keys(text, form, place):
    """The keys of the attributes of a text of one span."""
    [group] = forms.groups(text, form)
    [span] = group.scopes[0].spans
    event = span.events[0].attributes if span.events else {}
    return list({"span": span.attributes, "event": event, "resource": group.resource}[place])


def written_key(place, key, target):
    """The key under which a target has an attribute, and why that isn't read back as it was, if so."""
    status, written, note = convert(request(**{NAMES[place]: [text(key, "x")]}), "otlp-proto", target)
    if status:
        return None, note
    found = [one for one in tag_keys(written, target, place) if (place, one) != ("event", "event") or target == "zipkin-json"]
    back = attribute_keys(convert(written, target, "otlp-proto")[1], "otlp-proto", place)
    return (found[0] if len(found) == 1 else found), None if back == [key] else f"read back as {back}"


def keyed(line, page):
    """Why a row of keys isn't what the program does, if so."""
    place, key, tag = ROW.fullmatch(line.strip()).groups()
    for target in TARGETS[page]:
        found, why = written_key(place, key, target)
        if (found, why) != (tag, None):
            return f"to {target}: {found}, {why}"
    return None


def listed(line, page):
    """Why the keys of a sentence aren't just those that are escaped, if so. Behind a semicolon it says which aren't."""
    said = set(re.findall(r"`([^`]+)`", line.split(";")[0]))
    for target in TARGETS[page]:
        for key in sorted(said | set(OTHERS) | set(jaeger.RESERVED)):
            found, why = written_key("span", key, target) if key != "peer.service" else (key, None)
            wanted = FRONT + key if key in said else key
            if (found, why) != (wanted, None):
                return f"{key} to {target}: {found}, {why}"
    return None


def same(one, other):
    return None if one == other else f"{one}, and not {other}"


def read_as(held, form, place, key):
    """A text has an attribute of this key alone in a place."""
    return lambda _: same(attribute_keys(convert(held, form, "otlp-proto")[1], "otlp-proto", place), [key])


def goes(held, forms_of_way, key):
    """A text that goes from form to form has a tag of this key alone in the last."""

    def differs(_):
        text = held
        for source, target in zip(forms_of_way, forms_of_way[1:]):
            text = convert(text, source, target)[1]
        return same(tag_keys(text, forms_of_way[-1], "span"), [key])

    return differs


def begins(ask, line):
    """A report begins with a line."""

    def differs(_):
        status, lines, _ = ask()
        return same((status, lines.decode().split("\n")[0]), (0, line))

    return differs


def checked(held, form, line):
    return begins(lambda: report(held, form, "check"), line)


def lost(held, form, line):
    return begins(lambda: losses(held, "otlp-proto", form), line)


def stays(held, form):
    return lambda _: same(convert(held, form, form), (0, held, ""))


ZIPKIN = "zipkin-json"
ERROR, KIND = FRONT + "error", FRONT + "span.kind"
HAS_TAGS, TAG_DROPPED, OTHER_FORM = "**A file that has such tags already", "**`tag dropped`**", "From Zipkin to Jaeger the keys"
QUIET = "units 1, spans 1, remarks 0"
BATCH, SPANS, KIND_SPANS = batch([text(ERROR, "x")]), spans({ERROR: "x"}), spans({"span.kind": "x"}, timestamp=1)
LISTED_ERROR = request(attributes=[("error", ("list", []))])
SENTENCES = [
    ("JAEGER.md", HAS_TAGS, read_as(BATCH, BINARY, "span", "error")),
    ("JAEGER.md", HAS_TAGS, read_as(batch([text(FRONT + ERROR, "x")]), BINARY, "span", ERROR)),
    ("JAEGER.md", HAS_TAGS, stays(BATCH, BINARY)),
    ("JAEGER.md", HAS_TAGS, checked(BATCH, BINARY, QUIET)),
    ("JAEGER.md", "| logs | events", read_as(batch(logs=[Log(1, [text(FRONT + "event", "x")])]), BINARY, "event", "event")),
    ("JAEGER.md", "| other tags | attributes; of a key like", read_as(BATCH, BINARY, "span", "error")),
    ("JAEGER.md", "A batch says these in a way", read_as(batch([text(KIND, "SERVER")]), BINARY, "span", "span.kind")),
    ("JAEGER.md", "`check` names a tag", checked(batch([text(ERROR, n) for n in "12"]), BINARY, f'unit 1 span 1: equal key "{ERROR}"')),
    ("JAEGER.md", "`check` names a tag", lost(LISTED_ERROR, BINARY, 'unit 1 span 1: value "error"')),
    ("ZIPKIN.md", HAS_TAGS, read_as(SPANS, ZIPKIN, "span", "error")),
    ("ZIPKIN.md", HAS_TAGS, read_as(spans({FRONT + ERROR: "x"}), ZIPKIN, "span", ERROR)),
    ("ZIPKIN.md", HAS_TAGS, stays(zipkin.write_spans(zipkin.read_spans(SPANS)), ZIPKIN)),
    ("ZIPKIN.md", HAS_TAGS, checked(SPANS, ZIPKIN, QUIET)),
    ("ZIPKIN.md", "| other tags | attributes, texts; of a key like", read_as(SPANS, ZIPKIN, "span", "error")),
    ("ZIPKIN.md", OTHER_FORM, goes(KIND_SPANS, [ZIPKIN, BINARY], KIND)),
    ("ZIPKIN.md", OTHER_FORM, goes(KIND_SPANS, [ZIPKIN, BINARY, ZIPKIN], "span.kind")),
    ("LOSSES.md", TAG_DROPPED, read_as(spans({FRONT + "zipkin.debug": "x"}), ZIPKIN, "span", FRONT + "zipkin.debug")),
    ("LOSSES.md", TAG_DROPPED, read_as(batch([text(FRONT + "otel.status_code", "Ok")]), BINARY, "span", "otel.status_code")),
]


def cases():
    """Of each case the page, the beginning of a line in it, and a function of that line that tells a difference."""
    for page in TARGETS:
        rows = [line for line in lines_of(page) if ROW.fullmatch(line)]
        yield page, TOLD[page], lambda _, rows=rows: None if len(rows) > 9 else "the page has few rows of keys"
        for row in rows:
            yield page, row, lambda line, page=page: keyed(line, page)
        yield page, LISTED[page], lambda line, page=page: listed(line, page)
    yield from SENTENCES


def main():
    return tried_rows.tried(cases())
