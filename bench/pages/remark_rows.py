#!/usr/bin/python3
"""Holds against the built program what docs/LOSSES.md says of inputs, and the last columns of the tables of docs/JAEGER.md and
docs/ZIPKIN.md that say of what reading leaves out whether `check` has a line for it. What it says of losses is held by loss_rows.py,
and the commands of the pages are run by pages.py.

It is run at the top as bench/pages/remark_rows.py, after ./spanx has built the program; with --without-program the readers of
reports.py answer in its place. It prints a line for each difference, and ends with 1 where there is one.
"""
import json
import os
import re
import subprocess
import sys

sys.path.insert(1, os.path.dirname(os.path.dirname(os.path.realpath(__file__))))
import rooms  # first: it finds the others
import jaeger
import otlp
import program
import reports
from jaeger import I32, I64, Batch, Log, Reference, Span, Struct
from protocols import BINARY as TEXT
from protocols import PROTOCOLS
from reports import CHECK, SHOW
from tried_rows import BINARY, FROM_JAEGER, FROM_ZIPKIN, HALF, ONE, batch, field, group, number, padded, request, spans, text, truth
from wire import fixed64_field

PAGE = "docs/LOSSES.md"
PROTO, JSON, ZIPKIN = "otlp-proto", "otlp-json", "zipkin-json"
TRACE, TWO = "0" * 31 + "1", "0" * 15 + "2"
NOWHERE = {"traceId": "", "spanId": ""}


def counts(remarks=0, units=1, spans=1):
    return f"units {units}, spans {spans}, remarks {remarks}\n"


def lines(*said, **counted):
    """The lines of a check of one span, with these remarks in its unit."""
    return "".join(f"unit 1 {line}\n" for line in said) + counts(len(said), **counted)


def checked(held, source, *said, **counted):
    return held, source, CHECK, lines(*said, **counted)


def document(*groups):
    return json.dumps({"resourceSpans": list(groups)}).encode()


def group_json(*spans, resource=(), scope=(), **members):
    return {"resource": {"attributes": list(resource)}, "scopeSpans": [{"scope": {"attributes": list(scope)}, "spans": list(spans)}], **members}


def span_json(**members):
    return {"traceId": TRACE, "spanId": TWO, "name": "a", **members}


def one(**members):
    """A document of one span with these members."""
    return document(group_json(span_json(**members)))


def pair(key, **value):
    return {"key": key, "value": value}


def map_of(*pairs):
    return {"kvlistValue": {"values": list(pairs)}}


K = [pair("k", intValue=1), pair("k", intValue=2)]
LINK = {"traceId": TRACE, "spanId": TWO}
FULL = document({
    "resource": {"attributes": K},
    "scopeSpans": [
        {"scope": {"attributes": K}, "spans": [span_json(attributes=[*K, pair("b"), pair("b")], links=[NOWHERE, {**LINK, "attributes": K}], events=[{}, {"attributes": K}])]},
        {"scope": {"attributes": K}, "spans": [span_json(), span_json(attributes=K)]},
    ],
})
IN_ORDER = [
    'resource: equal key "k"', 'scope 1: equal key "k"', 'span 1: equal key "b"', 'span 1: equal key "k"', "span 1: link dropped",
    'span 1 event 2: equal key "k"', 'span 1 link 1: equal key "k"', 'scope 2: equal key "k"', 'span 3: equal key "k"',
]
ALL_OF_A_BATCH = batch(
    [text("k", "1"), text("k", "2"), text("error", "x"), text("span.kind", "SERVER")], [text("k", "1"), text("k", "2"), text("service.name", "s")],
    logs=[Log(1, [text("k", "1"), text("k", "2"), number("event", 1)])], references=[Reference(True, 0, 7)],
)
IN_A_BATCH = [
    'resource: equal key "k"', 'resource: tag dropped "service.name"', 'span 1: equal key "k"', "span 1: link dropped", 'span 1: tag dropped "error"',
    'span 1: tag dropped "span.kind"', 'span 1 event 1: equal key "k"', 'span 1 event 1: tag dropped "event"',
]


def shown(parent="-", kind="INTERNAL", start=0, end=0, code="UNSET", name='"a"'):
    return f"{TRACE} {TWO} {parent} {kind} {start} {end} {code} {name}\n"


def odd_batch(change):
    """The text of a batch whose structs were changed: a function of the fields of its one span."""
    held = jaeger.batch_struct(Batch("s", [], [Span(1, 2, 0, "a", [], 1, 1, 2, [text("k", "v")], [])]))
    [span] = held.fields[1][2][1]
    span.fields = change(span.fields)
    return PROTOCOLS[BINARY].struct(held)


def other_values(fields):
    """The tag of a span with a value field that its type doesn't name."""
    tag = Struct([(1, TEXT, b"k"), (2, I32, 0), (3, TEXT, b"v"), (6, I64, 7)])
    return [(id, kind, (held[0], [tag]) if id == 10 else held) for id, kind, held in fields]


# What no form but OTLP in protobuf can hold: a fault to each of the others.
UNFIT = otlp.write_group(otlp.Group({"a": HALF}, scopes=[otlp.Scope(spans=[otlp.Span(1, 2, name="a", kind=1, start=2000, end=1000, attributes={"error": HALF})])]))

# Of sentences of the page the inputs that they are about: each with its form, the mode, and the lines or the note that must come.
SAID = {
    "The last line of a check says how many units, spans and remarks there are.": [
        (b"", PROTO, CHECK, counts(units=0, spans=0)), (b"[]", ZIPKIN, CHECK, counts(units=0, spans=0)), (group() + group(), PROTO, CHECK, counts(units=2, spans=2)),
        (document(group_json(), group_json(span_json(), span_json())), JSON, CHECK, counts(units=2, spans=2)), (b"", BINARY, SHOW, ""),
    ],
    "or a run of spans of Zipkin that have one resource.": [
        (json.dumps([{"traceId": ONE, "id": ONE, "localEndpoint": {"serviceName": name}} for name in "aab"]).encode(), ZIPKIN, CHECK, counts(units=2, spans=3)),
    ],
    "**`equal key`**: one list of attributes or tags, or one map in it, has a key more than once.": [
        checked(one(attributes=K), JSON, 'span 1: equal key "k"'), checked(one(attributes=[pair("m", **map_of(*K))]), JSON, 'span 1: equal key "k"'),
        checked(one(attributes=[pair("l", arrayValue={"values": [map_of(*K)]})]), JSON, 'span 1: equal key "k"'),
        checked(one(attributes=[pair("k", **map_of(pair("k")))]), JSON), checked(one(attributes=[{"value": {}}, {"key": ""}]), JSON, 'span 1: equal key ""'),
        checked(batch([text("k", "1"), number("k", 2)]), BINARY, 'span 1: equal key "k"'),
    ],
    "the identifier is absent, empty or zero.": [
        checked(one(links=[link]), JSON, "span 1: link dropped") for link in [{}, NOWHERE, {**LINK, "traceId": None}, {**LINK, "spanId": ""}, {**LINK, "spanId": "0" * 16}]
    ] + [
        checked(batch(references=[reference]), BINARY, "span 1: link dropped") for reference in [Reference(False, 0, 7), Reference(True, 1, 0)]
    ] + [checked(group((13, field(1, bytes(16)))), PROTO, "span 1: link dropped"), checked(one(links=[LINK]), JSON)],
    "A span has this line once, however many such links it has.": [
        checked(one(links=[NOWHERE, LINK, NOWHERE]), JSON, "span 1: link dropped"),
        checked(batch(references=[Reference(True, 0, 7)] * 3), BINARY, "span 1: link dropped"),
    ],
    "but a value that doesn't say it, or that another one outdoes.": [
        checked(batch([number("otel.status_code", 2)]), BINARY, 'span 1: tag dropped "otel.status_code"'),
        checked(batch([text("otel.status_code", "OK"), truth("error", True)]), BINARY, 'span 1: tag dropped "error"'),
        checked(spans({"otel.status_code": "OK", "error": "x"}), ZIPKIN, 'span 1: tag dropped "error"'),
    ],
    "| `unit U span S link L` |": [checked(one(links=[NOWHERE, LINK, NOWHERE, {**LINK, "attributes": K}]), JSON, "span 1: link dropped", 'span 1 link 2: equal key "k"')],
    "Remarks come in the order of the trace: the resource, then each scope with its spans, and behind a span its events and links.": [
        checked(FULL, JSON, *IN_ORDER, spans=3), checked(ALL_OF_A_BATCH, BINARY, *IN_A_BATCH),
    ],
    "One key is told once at one place, however often it stands there.": [
        checked(one(attributes=[*K, *K, pair("m", **map_of(*K))]), JSON, 'span 1: equal key "k"'),
        checked(batch([text("k", "1")] * 5), BINARY, 'span 1: equal key "k"'),
    ],
    "also where a later value of this attribute is the one that was kept.": [
        checked(one(attributes=[pair("m", **map_of(*K)), pair("m", intValue=1)]), JSON, 'span 1: equal key "k"', 'span 1: equal key "m"'),
        checked(one(events=[{"attributes": [pair("m", **map_of(*K))]}]), JSON, 'span 1 event 1: equal key "k"'),
    ],
    "Nothing is told of what is in a dropped link.": [checked(one(links=[{**NOWHERE, "attributes": K}]), JSON, "span 1: link dropped")],
    "| **never**: tags are one object, of which the last of equal names is read without a remark |": [
        checked(spans({"k": "2"}).replace(b'"k": "2"', b'"k": "1", "k": "2"'), ZIPKIN),
        checked(json.dumps([{"traceId": ONE, "id": ONE, "annotations": [{"timestamp": 1, "value": '"e":{"k":1,"k":2}'}]}]).encode(), ZIPKIN),
    ],
    "| never: all keys are attributes |": [checked(one(attributes=[pair("error", intValue=1), pair("span.kind", stringValue="SERVER")]), JSON)],
    "**Fields and members that the form's table doesn't know**": [
        checked(padded(), BINARY), checked(group((99, b"x")), PROTO), checked(one(unknown={"a": 1}), JSON), (b'{"batches":[{"a":1}]}', JSON, CHECK, counts(units=0, spans=0)),
        checked(spans(binaryAnnotations=[{"key": "k", "value": "v"}]), ZIPKIN),
    ],
    "**a known field of another type**": [
        checked(group((5, 7), (9, 7)), PROTO), checked(odd_batch(lambda fields: [*fields, (10, I32, 7), (11, I64, 1)]), BINARY),
        (fixed64_field(1, 1) + field(1, 5), PROTO, CHECK, counts(units=0, spans=0)),
    ],
    "**all but the last of equal names in one object**": [checked(one().replace(b'"name": "a"', b'"name": "b", "name": "a"'), JSON)],
    "A JSON member that is `null`, and what says nothing": [
        checked(one(parentSpanId=None, links=None), JSON), checked(one(parentSpanId="0" * 16), JSON),
        checked(spans({"k": None}, localEndpoint={"serviceName": "", "port": 0}, debug=False, parentId="0000"), ZIPKIN),
    ],
    "the value fields that its `vType` doesn't name.": [checked(odd_batch(other_values), BINARY)],
    "A reference of CHILD_OF of Jaeger, in the span's own trace, that names the parent is no link": [checked(batch(references=[Reference(True, 1, 7)], parent=7), BINARY), checked(batch(references=[Reference(True, 1, 7)]), BINARY)],
    "How something was spelled": [checked(group((10, 2**32 + 3)), PROTO), checked(spans(traceId="A"), ZIPKIN), checked(one(traceId="A" * 32), JSON)],
    "| 3 | the parent's, 16 digits, or `-` for none |": [(one(), JSON, SHOW, shown(kind="UNSPECIFIED")), (one(parentSpanId="00000000000000fF"), JSON, SHOW, shown(f"{255:016x}", "UNSPECIFIED"))],
    "`UNSPECIFIED`, `INTERNAL`, `SERVER`, `CLIENT`, `PRODUCER` or `CONSUMER`": [
        (one(kind=number), JSON, SHOW, shown(kind=word)) for number, word in enumerate(["UNSPECIFIED", "INTERNAL", "SERVER", "CLIENT", "PRODUCER", "CONSUMER"])
    ],
    "| 5, 6 | start and end, in nanoseconds since 1970 |": [
        (one(kind=1, startTimeUnixNano=str(2**64 - 1), endTimeUnixNano=5), JSON, SHOW, shown(start=2**64 - 1, end=5)),
        (batch(), BINARY, SHOW, shown(start=1000, end=3000)), (spans(id="2", timestamp=1, duration=2), ZIPKIN, SHOW, shown(start=1000, end=3000)),
    ],
    "`UNSET`, `OK` or `ERROR`": [(one(kind=1, status={"code": number}), JSON, SHOW, shown(code=word)) for number, word in enumerate(["UNSET", "OK", "ERROR"])],
    "the name, as a JSON string: it may have spaces, and a line feed in it is `\\n` |": [
        (one(kind=1, name='a b\n"\\\x01\x7fé\u2028😀'), JSON, SHOW, shown(name='"a b\\n\\"\\\\\\u0001\x7fé\u2028😀"')), (one(kind=1, name=None), JSON, SHOW, shown(name='""')),
    ],
    "Doubles are no obstacle": [(UNFIT, PROTO, SHOW, shown(start=2000, end=1000)), checked(UNFIT, PROTO), checked(batch([("k", HALF)]), BINARY)],
    "after the lines of the units before.": [
        (batch() + batch()[:-1], BINARY, SHOW, (shown(start=1000, end=3000), "unit 2: cause 1 Truncated\n")),
        (batch([text("span.kind", "x")]) + b"\0", BINARY, CHECK, ('unit 1 span 1: tag dropped "span.kind"\n', "unit 2: cause 8 Missing\n")),
        (group() + b"\x0b", PROTO, CHECK, ("", "unit 2: cause 3 BadWire\n")),
    ],
    "Of a file in JSON nothing is printed before a refusal.": [
        (document(group_json(span_json(attributes=K)), {"scopeSpans": 1}), JSON, mode, ("", "unit 2: cause 11 BadShape\n")) for mode in [SHOW, CHECK]
    ],
    "The number in a note of `zipkin-json` is that of the span in the array": [
        (json.dumps([{"traceId": ONE, "id": ONE}] * 2 + [{"traceId": ONE}]).encode(), ZIPKIN, CHECK, ("", "unit 3: cause 8 Missing\n")),
        (json.dumps([{"traceId": ONE, "id": ONE}, {"traceId": ONE, "id": ONE, "tags": {"zipkin.debug": ""}}]).encode(), ZIPKIN, CHECK,
         'unit 1 span 2: tag dropped "zipkin.debug"\n' + counts(1, spans=2)),
    ],
    "`show` and `check` aren't refused with status 4": [(UNFIT, PROTO, SHOW, shown(start=2000, end=1000)), checked(batch(logs=[Log(1, [("k", HALF)])]), BINARY)],
}
# Words that are no command.
USAGE = "usage: spanx convert|losses|show|check|headers|gauge|serve OPTIONS\n"
NO_COMMANDS = [
    *[[mode] + more for mode in [SHOW, CHECK] for more in [[], ["--from"], ["--to", JSON], ["--from", "x"], ["--from", JSON, "--to", JSON], ["--from", JSON, "--from", JSON]]],
    *[["losses"] + more for more in [[], ["--from", JSON], ["--to", ZIPKIN], ["--from", JSON, "--from", JSON], ["--from", JSON, "--to", "b3"], ["--from", JSON, "--to", ZIPKIN, "--to", JSON]]],
    ["Show", "--from", JSON],
]


def text_of(page):
    with open(os.path.join(program.TOP, page), encoding="utf-8") as file:
        return file.read()


def by_readers(held, source, mode):
    status, note, written, _ = reports.verdict(held, source, mode)
    return status, written, note


def is_answered(answer, held, source, mode, wanted):
    """Whether an input is answered by these lines, or by lines and a note."""
    written, note = wanted if isinstance(wanted, tuple) else (wanted, "")
    got = answer(held, source, mode)
    is_right = got == (3 if note else 0, written.encode(), note)
    if not is_right:
        print(f"WRONG: {mode} of {source}, {held[:200]!r}: {got}; wanted {wanted!r}")
    return is_right


def columns(page, rows, source, answer):
    """Of the rows of a page whether `check` has the lines for their inputs that the last column names: of some at least."""
    for row, pairs in rows.items():
        line = next(line for line in text_of(page).splitlines() if line.startswith(row))
        if not line.startswith("|"):
            continue
        column = line.strip("| ").split(" | ")[-1]
        found = [answer(held, source, CHECK) for held, _ in pairs]
        kinds = {kind for _, written, _ in found for kind in re.findall(rb": (\w+ \w+)", written)}
        is_right = kinds == ({column.strip("`").encode()} if column != "no line" else set())
        is_right = is_right and all(got == by_readers(held, source, CHECK) for got, (held, _) in zip(found, pairs))
        if not is_right:
            print(f"WRONG: {page}, {row}: {found}")
        yield is_right


def checks(answer):
    """Whether each of what the pages say is so."""
    yield from columns("docs/JAEGER.md", FROM_JAEGER, BINARY, answer)
    yield from columns("docs/ZIPKIN.md", FROM_ZIPKIN, ZIPKIN, answer)
    page = text_of(PAGE)
    for sentence, cases in SAID.items():
        if page.count(sentence) != 1:
            print(f"WRONG: the page says {page.count(sentence)} times: {sentence}")
        yield page.count(sentence) == 1
        yield from (is_answered(answer, *case) for case in cases)


def refused_words():
    """Whether words that are no command are answered so, with an input that isn't read."""
    for words in NO_COMMANDS:
        done = subprocess.run([program.PROGRAM, *words], input=b"{", capture_output=True)
        is_right = (done.returncode, done.stdout, done.stderr.decode()) == (2, b"", USAGE)
        if not is_right:
            print(f"WRONG: {words}: {done}")
        yield is_right


def main():
    is_alone = sys.argv[1:] == ["--without-program"]
    if not is_alone and not os.path.exists(program.PROGRAM):
        sys.exit(program.BUILD)
    found = list(checks(by_readers if is_alone else program.report)) + ([] if is_alone else list(refused_words()))
    print(f"{found.count(True)} right, {found.count(False)} wrong")
    sys.exit(0 if all(found) else 1)


if __name__ == "__main__":
    main()
