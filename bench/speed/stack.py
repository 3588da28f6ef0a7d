#!/usr/bin/env python3
"""Measures the stack that a conversion by the built program takes, by how deep its input nests.

Run it at the top as bench/speed/stack.py, after ./spanx has built the program; words that are given choose the rows that hold
them. Each input nests one construct: lists or maps of a value, arrays or objects of JSON in a text that is no event's or in a
member that no table knows, structs, lists or maps of Thrift in such a field. For depth 1, for the last depth that is read and the
one before it, it finds the least stack under which the program answers as it does under the usual one: first the pages of `ulimit
-s`, and then to 16 bytes, by a setting of so many bytes that lies on the stack besides. In these runs addresses aren't random,
and the program has no other setting.

It prints the rows of docs/PERFORMANCE.md: the bytes of stack at depth 1 and at the last depth, all in all, of the form to which most
are taken, and what the last level takes of them. Inputs that nest a million times are answered under 256 KiB as they are under the usual stack. It
ends with 1 where an answer isn't what it must be, or one takes more than 256 KiB. `--write` puts the rows into the page, and `--check` ends with 1 where the page has others.
"""
import ctypes
import itertools
import os
import resource
import subprocess
import sys

sys.path.insert(1, os.path.dirname(os.path.dirname(os.path.realpath(__file__))))
import rooms  # first: it finds the others
import otlp
from hostile_documents import annotated, arrays, chain, document, event_spelled, group_span, json_span, of_spans
from hostile_units import (
    COMPACT_PROCESS, NO_SPANS, PROCESS, STOP, UNKNOWN_LIST, UNKNOWN_MAP, UNKNOWN_STRUCT, containers, deep, list_value, listed, map_value,
    mapped, nested, one_span,
)
from program import BUILD, PROGRAM, TOP, command
from protocols import LEVELS, LIST, MAP, STRUCT
from wire import bytes_field

PAGE = os.path.join(TOP, "docs", "PERFORMANCE.md")
HEAD = "| What nests | From | To | Last depth | Bytes at depth 1 | at the last | the last level |\n|---|---|---|---|---|---|---|\n"
PROTO, GROUPS, BINARY, COMPACT, ZIPKIN = "otlp-proto", "otlp-json", "jaeger-binary", "jaeger-compact", "zipkin-json"
FORMS = [PROTO, GROUPS, BINARY, COMPACT, ZIPKIN]
DEEPEST, JSON_LEVELS = otlp.DEEPEST, 127
USUAL, MOST = 8 * 1024 * 1024, 256 * 1024
PAGE_BYTES, STEP = resource.getpagesize(), 16
FIXED_ADDRESSES = 0x0040000
C = ctypes.CDLL(None)


# ---- inputs


def lists(depth):
    """A value of so many lists in protobuf, the last of which is empty."""
    return nested(list_value(b""), list_value, listed, depth - 1)


def maps(depth):
    return nested(map_value(b""), map_value, mapped, depth - 1)


def json_maps(depth):
    """The same as `chain` has it of lists."""
    inner = depth - 1
    return b'{"kvlistValue":{"values":[{"value":' * inner + b'{"kvlistValue":{}}' + b"}]}}" * inner


def objects(depth):
    """So many objects within each other in JSON, the last of which is empty."""
    return b'{"a":' * (depth - 1) + b"{}" + b"}" * (depth - 1)


def of_event(value):
    """A request of one span with an event that has this attribute."""
    return one_span(bytes_field(11, bytes_field(2, b"e") + bytes_field(3, bytes_field(1, b"k") + bytes_field(2, value))))


def json_event(value):
    """The same in JSON."""
    return of_spans(group_span(b'"events":[{"name":"e","attributes":[{"key":"k","value":%b}]}],' % value))


def event_text(held):
    """A document of a span with an annotation whose value is the text of an event with this attribute, or would be one."""
    return annotated([event_spelled(held.replace(b'"', b'\\"'))])


def unknown_field(kind, depth):
    """A batch with an unknown field of containers within each other."""
    return PROCESS + containers([kind] * depth) + NO_SPANS + STOP


def compact_field(head, opens, last, depth):
    """The same in the compact protocol, by the head of the field, what opens a container in another one, and what the last one holds."""
    ends = STOP * (depth - 1) if head == UNKNOWN_STRUCT else b""
    return COMPACT_PROCESS + head + opens * (depth - 1) + last + ends + bytes.fromhex("09040c00")


def unknown_member(held):
    return document(json_span(middle=b',"x":' + held))


def cases():
    """What nests, the form that is read, those that are written, the last depth that is read, and what makes the input of a depth."""
    values = [("lists", lists, chain, arrays), ("maps", maps, json_maps, objects)]
    out = [(f"{name} of an event", PROTO, FORMS, DEEPEST, lambda n, make=make: of_event(make(n))) for name, make, _, _ in values]
    out += [(f"{name} of an event", GROUPS, FORMS, DEEPEST, lambda n, make=make: json_event(make(n))) for name, _, make, _ in values]
    out += [(f"{name} of an event", ZIPKIN, FORMS, DEEPEST, lambda n, make=make: event_text(make(n))) for name, _, _, make in values]
    plain = [("arrays", arrays), ("objects", objects)]
    out += [(f"{name} in a text that is no event's", ZIPKIN, [ZIPKIN], JSON_LEVELS - 2, lambda n, make=make: event_text(make(n))) for name, make in plain]
    out += [(f"{name} in an unknown member", ZIPKIN, [ZIPKIN], JSON_LEVELS - 2, lambda n, make=make: unknown_member(make(n))) for name, make in plain]
    out += [(f"{name} in an unknown member", GROUPS, [GROUPS], JSON_LEVELS - 1, lambda n, make=make: b'{"x":%b}' % make(n)) for name, make in plain]
    kinds = [("structs", STRUCT), ("lists", LIST), ("maps", MAP)]
    out += [(f"{name} in an unknown field", BINARY, [BINARY], LEVELS - 1, lambda n, kind=kind: unknown_field(kind, n)) for name, kind in kinds]
    heads = [("structs", UNKNOWN_STRUCT, b"\x1c", STOP), ("lists", UNKNOWN_LIST, b"\x19", b"\0"), ("maps", UNKNOWN_MAP, b"\1\x3b\7", b"\0")]
    out += [
        (f"{name} in an unknown field", COMPACT, [COMPACT], LEVELS - 1, lambda n, parts=parts: compact_field(*parts, n))
        for name, *parts in heads
    ]
    return out


def bottomless():
    """Inputs that nest a million times, by what nests and the form."""
    many = 1_000_000
    return [
        ("lists", PROTO, of_event(deep(many))), ("arrays", GROUPS, b"[" * many), ("objects", GROUPS, b'{"a":' * many), ("arrays", ZIPKIN, b"[" * many),
        ("objects", ZIPKIN, b'{"a":' * many), ("arrays in a text that is no event's", ZIPKIN, event_text(arrays(many))),
        ("structs", BINARY, b"\x0c\0\1" * many), ("structs", COMPACT, b"\x1c" * many),
    ]


# ---- the least stack


def answer(words, text, limit, padding=0):
    """The status and the output under a stack of so many bytes, on which a setting of so many others lies; None where it can't run."""
    def limited():
        C.personality(FIXED_ADDRESSES)
        resource.setrlimit(resource.RLIMIT_STACK, (limit, limit))

    try:
        done = subprocess.run(words, input=text, capture_output=True, env={"PADDING": "x" * padding}, preexec_fn=limited)
    except OSError:
        return None
    return done.returncode, done.stdout


def first(holds, count):
    """The first of so many numbers from 0 on from which on something holds, or their count."""
    low, high = 0, count
    while low < high:
        middle = (low + high) // 2
        low, high = (low, middle) if holds(middle) else (middle + 1, high)
    return low


def least_stack(words, text):
    """The least stack under which an input is converted, in bytes, or None where it isn't converted under the most."""
    wanted = answer(words, text, USUAL)
    enough = lambda limit, padding=0: answer(words, text, limit, padding) == wanted
    if wanted[0] != 0 or not enough(MOST):
        return None
    pages = PAGE_BYTES * first(lambda n: enough(n * PAGE_BYTES), MOST // PAGE_BYTES)
    return pages - PAGE_BYTES + STEP * first(lambda n: enough(pages, PAGE_BYTES - n * STEP), PAGE_BYTES // STEP)


def most_stack(source, targets, text):
    """The most of what an input takes to some forms."""
    stacks = [least_stack(command(source, target), text) for target in targets]
    return None if None in stacks else max(stacks)


def row(name, source, targets, last, make):
    """The row of a case, or None where it takes too much or isn't converted."""
    stacks = [most_stack(source, targets, make(depth)) for depth in [1, last - 1, last]]
    if None in stacks:
        return None
    target = "each" if targets == FORMS else f"`{targets[0]}`"
    return f"| {name} | `{source}` | {target} | {last} | {stacks[0]:,} | {stacks[2]:,} | {stacks[2] - stacks[1]:,} |\n"


# ---- the page


def page_parts():
    """The page up to the rows, the rows, and what stands behind them."""
    with open(PAGE) as page:
        before, behind = page.read().split(HEAD)
    rows = "".join(itertools.takewhile(lambda line: line.startswith("|"), behind.splitlines(keepends=True)))
    return before + HEAD, rows, behind[len(rows) :]


def main():
    words = [word for word in sys.argv[1:] if not word.startswith("--")]
    if not os.path.exists(PROGRAM):
        sys.exit(BUILD)
    chosen = [case for case in cases() if not words or any(word in f"{case[0]} {case[1]}" for word in words)]
    print(HEAD, end="", flush=True)
    rows, wrong = [], 0
    for case in chosen:
        found = row(*case)
        print(found or f"WRONG: {case[0]}, {case[1]}", end="" if found else "\n", flush=True)
        rows.append(found or "")
        wrong += found is None
    for name, source, text in bottomless() if not words else []:
        words_of = command(source, source)
        is_same = answer(words_of, text, MOST) == answer(words_of, text, USUAL)
        print(f"{'ok' if is_same else 'WRONG'}: {name} a million deep, {source}")
        wrong += not is_same
    if {"--write", "--check"} & set(sys.argv) and not words and not wrong:
        before, old, behind = page_parts()
        wrong = "--check" in sys.argv and old != "".join(rows)
        if "--write" in sys.argv:
            with open(PAGE, "w") as page:
                page.write(before + "".join(rows) + behind)
        print("the page has " + ("other rows" if wrong else "these rows"))
    sys.exit(1 if wrong else 0)


if __name__ == "__main__":
    main()
