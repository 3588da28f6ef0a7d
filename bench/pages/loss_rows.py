#!/usr/bin/python3
"""Holds against the built program what docs/LOSSES.md says of losses: each row of its table with its example line, and its sentences.
The commands of the page are run by pages.py, and what it says of remarks and of spans by remark_rows.py.

It is run at the top as bench/pages/loss_rows.py, after ./spanx has built the program; with --without-program the readers of
losses.py answer in its place. It prints a line for each difference, and ends with 1 where there is one.
"""
import json
import os
import sys

sys.path.insert(1, os.path.dirname(os.path.dirname(os.path.realpath(__file__))))
import rooms  # first: it finds the others
import losses
import program
import remark_rows
from jaeger import Reference
from losses import OF_TARGET
from remark_rows import JSON, LINK, PROTO, UNFIT, ZIPKIN, document, map_of, pair, text_of
from tried_rows import BINARY, COMPACT, ONE, batch, number, spans, text

PAGE = remark_rows.PAGE
JAEGER = COMPACT
TARGETS = {"Jaeger": JAEGER, "Zipkin": ZIPKIN}
FAR = {**LINK, "traceId": "0" * 31 + "9"}
CHILD = pair("opentracing.ref_type", stringValue="child_of")
V = [pair("k", stringValue="v")]


def span(**members):
    return remark_rows.span_json(**{"kind": 1, **members})


def scope(*spans, name="", version="", attributes=(), **members):
    return {"scope": {"name": name, "version": version, "attributes": list(attributes)}, "spans": list(spans), **members}


def unit(*scopes, resource=(), dropped=0, **members):
    return {"resource": {"attributes": list(resource), "droppedAttributesCount": dropped}, "scopeSpans": list(scopes), **members}


def service(name):
    return pair("service.name", stringValue=name)


def one(*spans):
    return document(unit(scope(*spans)))


def told(held, target, *lines, source=JSON):
    """An input with the lines that must come of it in front of their number."""
    return held, source, target, (0, "".join(f"{line}\n" for line in [*lines, f"losses {len(lines)}"]).encode(), "")


def checkout():
    with open(os.path.join(program.TOP, "examples", "checkout.bin"), "rb") as file:
        return file.read()


def of_checkout(target):
    """The example with the lines of the readers; the lines that the page takes from it must be among them."""
    status, note, written, _ = losses.verdict(checkout(), PROTO, target)
    return checkout(), PROTO, target, (status, written, note)


def both(held, *lines):
    return [told(held, target, *lines) for target in [JAEGER, ZIPKIN]]


def flooring(row, started, ended):
    times = lambda start, end: span(startTimeUnixNano=str(start), endTimeUnixNano=str(end))
    return both(one(times(started, ended), times(1000, 2000)), f"unit 1 span 1: {row}")


L, M, B, N, T, Z = (pair(key, **held) for key, held in {
    "l": {"arrayValue": {}}, "m": map_of(pair("x")), "b": {"bytesValue": "/+8="}, "n": {"intValue": 7}, "t": {"stringValue": "7"}, "z": {},
}.items())
LIB = {"name": "lib", "version": "1"}

# Of each row of the table, by its name and targets, inputs with their lines. The line of the page must be a line of one of them.
ROWS = {
    ("value", "Jaeger"): [
        of_checkout(JAEGER), told(one(span(attributes=[L, M, B, N, T, Z])), JAEGER, 'unit 1 span 1: value "l"', 'unit 1 span 1: value "m"', 'unit 1 span 1: value "z"'),
        told(document(unit(scope(span()), resource=[N, pair("service.name", intValue=7)])), JAEGER, 'unit 1 resource: value "service.name"'),
        told(one(span(events=[{"attributes": [L, N]}])), JAEGER, 'unit 1 span 1 event 1: value "l"'),
    ],
    ("value", "Zipkin"): [
        of_checkout(ZIPKIN), told(one(span(attributes=[B, T, Z])), ZIPKIN, 'unit 1 span 1: value "b"', 'unit 1 span 1: value "z"'),
        told(document(unit(scope(span()), resource=[N, T])), ZIPKIN, 'unit 1 resource: value "n"'),
        told(one(span(events=[{"attributes": [L, M, N, T, Z]}, {"attributes": [pair("l", arrayValue={"values": [{"bytesValue": ""}]})]}])), ZIPKIN, 'unit 1 span 1 event 2: value "l"'),
    ],
    ("dropped-count", "Jaeger, Zipkin"): [
        *both(document(unit(scope(span(droppedAttributesCount=1, droppedEventsCount=1, droppedLinksCount=1)), dropped=1)), "unit 1 resource: dropped-count"),
        *both(document(unit({"scope": {"droppedAttributesCount": 1}, "spans": [span(events=[{"droppedAttributesCount": 1}])]})), "unit 1 scope 1: dropped-count", "unit 1 span 1 event 1: dropped-count"),
        told(one(span(links=[{**FAR, "droppedAttributesCount": 1}])), JAEGER, "unit 1 span 1 link 1: dropped-count"),
    ],
    ("schema-url", "Jaeger, Zipkin"): both(document(unit(scope(span(), schemaUrl="s"), schemaUrl="r")), "unit 1 resource: schema-url", "unit 1 scope 1: schema-url"),
    ("empty", "Jaeger, Zipkin"): [
        *both(document(unit(scope(span()), resource=[pair("k", stringValue=""), service("")])), 'unit 1 resource: empty "service.name"'),
        *both(document(unit(scope(span()), resource=[pair("service.name")])), 'unit 1 resource: empty "service.name"'), *both(document(unit(scope(span()), resource=[service("s")]))),
    ],
    ("empty", "Zipkin"): [
        told(one(span(attributes=[pair("k", stringValue=""), pair("peer.service", stringValue="")])), ZIPKIN, 'unit 1 span 1: empty "peer.service"'),
        told(one(span(attributes=[pair("peer.service", stringValue="")])), JAEGER),
    ],
    ("attributes", "Jaeger, Zipkin"): both(document(unit(scope(span(), **LIB), scope(span(), attributes=V))), "unit 1 scope 2: attributes"),
    ("attributes", "Jaeger"): [
        of_checkout(JAEGER), told(one(span(links=[{**FAR, "attributes": [CHILD]}, {**FAR, "attributes": [CHILD, *V]}, FAR])), JAEGER, "unit 1 span 1 link 2: attributes"),
    ],
    ("start", "Jaeger, Zipkin"): flooring("start", 1999, 2000),
    ("end", "Jaeger, Zipkin"): flooring("end", 1000, 1001),
    ("time", "Jaeger, Zipkin"): both(one(span(events=[{"timeUnixNano": 1000}, {"timeUnixNano": 999}])), "unit 1 span 1 event 2: time"),
    ("kind", "Jaeger, Zipkin"): [of_checkout(ZIPKIN), *both(one(span(), span(kind=0)), "unit 1 span 2: kind")],
    ("message", "Jaeger"): [told(one(*(span(status={"code": code, "message": "m"}) for code in range(3))), JAEGER, "unit 1 span 1: message")],
    ("message", "Zipkin"): [told(one(*(span(status={"code": code, "message": "m"}) for code in range(3))), ZIPKIN, "unit 1 span 1: message", "unit 1 span 2: message")],
    ("flags", "Jaeger"): [told(one(span(flags=257), span(flags=1, links=[FAR, {**FAR, "flags": 1}])), JAEGER, "unit 1 span 1: flags", "unit 1 span 2 link 2: flags")],
    ("flags", "Zipkin"): [told(one(span(flags=1), span()), ZIPKIN, "unit 1 span 1: flags")],
    ("state", "Jaeger"): [of_checkout(JAEGER), told(one(span(traceState="a=b", links=[FAR, {**FAR, "traceState": "a=b"}])), JAEGER, "unit 1 span 1 link 2: state")],
    ("link", "Zipkin"): [of_checkout(ZIPKIN), told(one(span(links=[{**FAR, "attributes": V, "flags": 1, "traceState": "a=b", "droppedAttributesCount": 1}])), ZIPKIN, "unit 1 span 1 link 1: link")],
    ("scope-empty", "Jaeger, Zipkin"): [of_checkout(ZIPKIN), *both(document(unit(scope(**LIB), scope(span()))), "unit 1 scope 1: scope-empty")],
    ("scope-joined", "Jaeger, Zipkin"): [
        *both(document(unit(scope(span(), **LIB), scope(span(), **LIB), scope(span(), name="lib", version="2"))), "unit 1 scope 2: scope-joined"),
        *both(document(unit(scope(span(), **LIB), scope(), scope(span(), **LIB))), "unit 1 scope 2: scope-empty", "unit 1 scope 3: scope-joined"),
    ],
    ("unit-empty", "Zipkin"): [told(document(unit(scope(span())), unit()), ZIPKIN, "unit 2: unit-empty"), told(document(unit(scope(span())), unit()), JAEGER)],
    ("unit-joined", "Zipkin"): [
        told(document(*(unit(scope(span(), name=name), resource=[service("s")]) for name in "ab")), ZIPKIN, "unit 2: unit-joined"),
        told(document(*(unit(scope(span()), resource=[service(name)]) for name in "sts")), ZIPKIN), told(document(*(unit(scope(span()), resource=[service("s")]) for _ in "ab")), JAEGER),
    ],
}
AT_ONE_PLACE = document(unit(scope(span(kind=0, flags=2, endTimeUnixNano=1, attributes=[Z, M, L], status={"message": "m"})), dropped=1, schemaUrl="r", resource=[service(""), L]))
FAULTED = document(unit(scope(span(flags=2))), unit(scope(span(flags=2, attributes=[pair("jaeger.flags", intValue=1)]))))
# Of sentences of the page the inputs that they are about.
SAID = {
    "the one line is `losses 0`; a double to `otlp-json` is a fault.": [
        told(checkout(), JSON, source=PROTO), told(checkout(), PROTO, source=PROTO), told(b"", JSON, source=PROTO), told(UNFIT, PROTO, source=PROTO),
        (UNFIT, PROTO, JSON, (4, b"", "unit 1: fault 25 DoubleInText\n")),
    ],
    "What was read of a batch has no loss to Jaeger, and what was read of Zipkin none to Zipkin.": [
        told(batch([number("n", 1)], logs=(), references=[Reference(False, 9, 7)], service=""), JAEGER, source=BINARY),
        told(spans({"peer.service": "", "error": "x", "otel.resource.k": ""}, duration=1), ZIPKIN, source=ZIPKIN), told(b"[]", ZIPKIN, source=ZIPKIN),
    ],
    "and a scope is joined within its unit alone.": [told(document(unit(scope(span(), **LIB)), unit(scope(span(), **LIB))), JAEGER)],
    "so that a scope can join one of the unit before.": [told(document(unit(scope(span(), **LIB)), unit(scope(span(), **LIB))), ZIPKIN, "unit 2: unit-joined", "unit 2 scope 1: scope-joined")],
    "the number 1 and the text `1` are, and so are an empty `service.name` and none.": [
        told(document(unit(scope(span(), name="a"), resource=[N]), unit(scope(span()), resource=[pair("n", stringValue="7")])), ZIPKIN, 'unit 1 resource: value "n"', "unit 2: unit-joined"),
        told(document(unit(scope(span(), name="a")), unit(scope(span()), resource=[service("")])), ZIPKIN, "unit 2: unit-joined", 'unit 2 resource: empty "service.name"'),
    ],
    "A unit without spans between two keeps none apart.": [
        told(document(unit(scope(span(), name="a")), unit(resource=[service("t")]), unit(scope(span()))), ZIPKIN, "unit 2: unit-empty", "unit 3: unit-joined"),
    ],
    "What its own resource and scopes lose is told besides,": [
        told(document(unit(scope(attributes=V), resource=[N])), ZIPKIN, "unit 1: unit-empty", 'unit 1 resource: value "n"', "unit 1 scope 1: attributes", "unit 1 scope 1: scope-empty"),
    ],
    "Units have the numbers that they have in the input, and so have scopes, spans and links.": [
        told(document(unit(), unit(scope(), scope(span(), span()), scope(span(flags=2, links=[FAR, {**FAR, "flags": 1}]), name="x"))), JAEGER, "unit 2 scope 1: scope-empty", "unit 2 span 3: flags", "unit 2 span 3 link 2: flags"),
        told(json.dumps([{"traceId": ONE, "id": ONE, "localEndpoint": {"serviceName": name}, "annotations": [{"timestamp": 1, "value": '"e":{"k":[]}'}]} for name in "aab"]).encode(), JAEGER,
             *(f'unit {place} event 1: value "k"' for place in ["1 span 1", "1 span 2", "2 span 1"]), source=ZIPKIN),
    ],
    "At one place they come in the order of the table, and those of one row by key.": [
        told(AT_ONE_PLACE, JAEGER, 'unit 1 resource: value "l"', "unit 1 resource: dropped-count", "unit 1 resource: schema-url", 'unit 1 resource: empty "service.name"',
             *(f"unit 1 span 1: {row}" for row in ['value "l"', 'value "m"', 'value "z"', "end", "kind", "message", "flags"])),
    ],
    "It has its note and status 4, the lines of the units before were written, and the last line is missing.": [
        (FAULTED, JSON, JAEGER, (4, b"unit 1 span 1: flags\n", 'unit 2: fault 22 OwnKey "jaeger.flags"\n')),
    ],
    "**Then a check has no counts line, and `losses` no last one**": [
        (batch([text("k", "1")]) + b"\0", BINARY, ZIPKIN, (3, b"unit 1 span 1: flags\n", "unit 2: cause 8 Missing\n")),
        (document(unit(scope(span(flags=2))), {"scopeSpans": 1}), JSON, JAEGER, (3, b"", "unit 2: cause 11 BadShape\n")),
    ],
    "(Of `losses` these are no losses: it begins with what was read.)": [told(document(unit(scope(span(unknown=1, attributes=[T, T], links=[{}])))), JAEGER)],
}


def by_readers(held, source, target):
    status, note, written, _ = losses.verdict(held, source, target)
    return status, written, note


def is_answered(answer, held, source, target, wanted):
    got = answer(held, source, target)
    if got != wanted:
        print(f"WRONG: losses of {source} to {target}, {held[:300]!r}: {got}; wanted {wanted}")
    return got == wanted


def table():
    """The rows of the page's table by name and targets, each with its line."""
    rows = [line.strip("| ").split(" | ") for line in text_of(PAGE).partition("| Row | To |")[2].partition("\n\n")[0].splitlines()[2:]]
    return {(row.strip("`"), to): line.strip("`") for row, to, _, line, _ in rows}


def checks(answer):
    """Whether each of what the page says is so."""
    rows = table()
    in_order = list(dict.fromkeys(row for row, _ in rows))
    of_targets = {form: [row for row in losses.ROWS if any(row == name and target in to for name, to in rows)] for target, form in TARGETS.items()}
    is_whole = in_order == losses.ROWS and of_targets == {form: OF_TARGET[form] for form in TARGETS.values()} and list(rows) == list(ROWS)
    if not is_whole:
        print(f"WRONG: the page has the rows {list(rows)}")
    yield is_whole
    for row, cases in ROWS.items():
        lines = {line for *_, (_, written, _) in cases for line in written.decode().splitlines()}
        if rows.get(row) not in lines:
            print(f"WRONG: the line of {row} comes of no input: {rows.get(row)}")
        yield rows.get(row) in lines
        yield from (is_answered(answer, *case) for case in cases)
    for sentence, cases in SAID.items():
        if text_of(PAGE).count(sentence) != 1:
            print(f"WRONG: the page says {text_of(PAGE).count(sentence)} times: {sentence}")
        yield text_of(PAGE).count(sentence) == 1
        yield from (is_answered(answer, *case) for case in cases)


def main():
    is_alone = sys.argv[1:] == ["--without-program"]
    if not is_alone and not os.path.exists(program.PROGRAM):
        sys.exit(program.BUILD)
    found = list(checks(by_readers if is_alone else program.losses))
    print(f"{found.count(True)} right, {found.count(False)} wrong")
    sys.exit(0 if all(found) else 1)


if __name__ == "__main__":
    main()
