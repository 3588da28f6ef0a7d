#!/usr/bin/python3
"""Holds docs/HEADERS.md against the built program: the table of what becomes of which header, and what sentences of the page say of
inputs. Its commands are run by pages.py.

It is run at the top as bench/pages/header_rows.py, after ./spanx has built the program; with --without-program headers.py answers
in its place. It prints a line for each difference, and ends with 1 where there is one.
"""
import os
import re
import sys

sys.path.insert(1, os.path.dirname(os.path.dirname(os.path.realpath(__file__))))
import rooms  # first: it finds the others
import headers
import program
from headers import B3, FORMS, MULTI, UBER, W3C

T, S, P = "0af7651916cd43dd8448eb211c80319c", "b7ad6b7169203331", "00f067aa0ba902b7"
PAGE = "docs/HEADERS.md"

TRACEPARENT, B3_YES = f"traceparent: 00-{T}-{S}-01\n", f"b3: {T}-{S}-1\n"
MULTI_IDS = f"X-B3-TraceId: {T}\nX-B3-SpanId: {S}\n"
MULTI_YES = MULTI_IDS + "X-B3-Sampled: 1\n"
UBER_YES = f"uber-trace-id: {T}:{S}:0:1\n"
NO_IDS = "fault 36 NoIds\n"
LINE, NOTHING, BAD_W3C, BAD_B3, BAD_UBER = (f"cause {n} {headers.CAUSES[n]}\n" for n in [30, 31, 32, 34, 35])


def state(text, written=None):
    """What a `tracestate` of these lines becomes beside a good `traceparent`."""
    lines = "".join(f"tracestate: {line}\n" for line in text.split("\n"))
    return TRACEPARENT + lines, W3C, TRACEPARENT + (f"tracestate: {written}\n" if written else "")


# Of sentences of the page the blocks that they are about: each with a form, and the lines or the note that must come.
SAID = {
    "If that first form is bad, the block is refused, also where a later form is good.": [
        ("traceparent: 1\n" + B3_YES, W3C, BAD_W3C), ("b3: 1-2\n" + MULTI_YES, B3, BAD_B3), ("X-B3-Flags: 0\n" + UBER_YES, B3, BAD_B3),
    ],
    "**Lines** end in LF or CR LF, and the last may end without; a CR at the very end, without LF, is bad.": [
        (TRACEPARENT.replace("\n", "\r\n"), B3, B3_YES), (TRACEPARENT[:-1], B3, B3_YES), (TRACEPARENT[:-1] + "\r", B3, LINE),
    ],
    "Empty lines are passed over.": [("\n\r\n" + TRACEPARENT + "\n", B3, B3_YES)],
    "blanks at both ends of the value don't count.": [(TRACEPARENT.replace(": ", ":\t ").replace("\n", " \t\n"), B3, B3_YES)],
    "Names may be in capitals or small letters.": [(TRACEPARENT.replace("traceparent", "TraceParent"), B3, B3_YES)],
    "in digits of lower case.": [(TRACEPARENT.replace(T, T.upper()), B3, BAD_W3C)],
    "Version `ff` is bad.": [(TRACEPARENT.replace(" 00", " ff"), B3, BAD_W3C)],
    "Version `00` has 55 characters; of a later version the first 55 are read, and more may come behind a dash.": [
        (TRACEPARENT[:-1] + "-\n", B3, BAD_W3C), (TRACEPARENT.replace(" 00", " 01"), B3, B3_YES),
        (TRACEPARENT.replace(" 00", " 01")[:-1] + "-more\n", B3, B3_YES), (TRACEPARENT.replace(" 00", " 01")[:-1] + "more\n", B3, BAD_W3C),
    ],
    "Bit 0 of the flags is sampled, and the other bits aren't looked at.": [
        (f"traceparent: 00-{T}-{S}-ff\n", B3, B3_YES), (f"traceparent: 00-{T}-{S}-fe\n", B3, f"b3: {T}-{S}-0\n"),
    ],
    "**`tracestate`** is read beside `traceparent` alone.": [(B3_YES + "tracestate: a=1\n", W3C, TRACEPARENT)],
    "Its lines are joined; blanks round a member and empty members are left out.": [state("a=1, b=2\n,,c=3\t,", "a=1,b=2,c=3")],
    "It has at most 32 members with different keys, each a key, an equals sign and a value.": [
        state(",".join(f"k{i}=v" for i in range(32)), ",".join(f"k{i}=v" for i in range(32))),
        state(",".join(f"k{i}=v" for i in range(33))), state("a=1,a=2"), state("a"), state("=1"), state("a="),
    ],
    "A key has up to 256 characters, the first a small letter, the others small letters, digits, `_`, `-`, `*` and `/`;": [
        state("k" * 256 + "=1", "k" * 256 + "=1"), state("k" * 257 + "=1"), state("a0_-*/=1", "a0_-*/=1"), state("0a=1"), state("aA=1"),
    ],
    "or up to 241 of them, of which the first may be a digit, an `@`, and up to 14 more that begin with a letter.": [
        state("1" * 241 + "@" + "s" * 14 + "=1", "1" * 241 + "@" + "s" * 14 + "=1"), state("1" * 242 + "@s=1"), state("t@" + "s" * 15 + "=1"),
        state("t@1=1"),
    ],
    "A value has up to 256 characters from the space to `~` but commas and equals signs.": [
        state("a= ~" + "v" * 254, "a= ~" + "v" * 254), state("a=" + "v" * 257), state("a=b=c"), state("a=b\tc"),
    ],
    "A `tracestate` that isn't so is dropped, all of it, and the rest is written.": [state("a=1,B=2"), state("a=1\nB=2")],
    "**`b3`** is a trace of 16 or 32 digits, a span of 16, then maybe a state (`0`, `1`, or `d` for debug), and behind the state maybe a parent of 16 digits, with dashes between; or a state alone.": [
        (f"b3: {T[16:]}-{S}-1\n", B3, f"b3: {'0' * 16}{T[16:]}-{S}-1\n"), (f"b3: {T}-{S}\n", B3, f"b3: {T}-{S}\n"),
        (f"b3: {T}-{S}-d-{P}\n", B3, f"b3: {T}-{S}-d-{P}\n"), (f"b3: {T}-{S}-{P}\n", B3, BAD_B3), (f"b3: {T}-{S}-x\n", B3, BAD_B3),
        (f"b3: {T[1:]}-{S}-1\n", B3, BAD_B3), ("b3: d\n", B3, "b3: d\n"), (f"b3: {T.upper()}-{S.upper()}-1\n", B3, B3_YES),
    ],
    "**`X-B3-TraceId`** (16 or 32 digits) and **`X-B3-SpanId`** (16) stand both or neither, and `X-B3-ParentSpanId` (16) only with them.": [
        (f"X-B3-TraceId: {S}\nX-B3-SpanId: {S}\n", B3, f"b3: {'0' * 16}{S}-{S}\n"), (f"X-B3-TraceId: {T}\nX-B3-SpanId: {T}\n", B3, BAD_B3),
        (f"X-B3-TraceId: 1\nX-B3-SpanId: {S}\n", B3, BAD_B3), (f"{MULTI_YES}X-B3-ParentSpanId: 1\n", B3, BAD_B3),
        (f"X-B3-TraceId: {T}\nX-B3-Sampled: 1\n", B3, BAD_B3), (f"X-B3-SpanId: {S}\nX-B3-Sampled: 1\n", B3, BAD_B3),
        (f"X-B3-ParentSpanId: {P}\nX-B3-Sampled: 1\n", B3, BAD_B3), (f"{MULTI_YES}X-B3-ParentSpanId: {P}\n", B3, f"b3: {T}-{S}-1-{P}\n"),
    ],
    "`X-B3-Flags` of `1` is debug, and then `X-B3-Sampled` isn't looked at; of another value it says nothing.": [
        (f"{MULTI_IDS}X-B3-Sampled: no\nX-B3-Flags: 1\n", B3, f"b3: {T}-{S}-d\n"), (f"{MULTI_YES}X-B3-Flags: true\n", B3, B3_YES),
        (f"{MULTI_IDS}X-B3-Flags: 0\n", B3, f"b3: {T}-{S}\n"),
    ],
    "`X-B3-Sampled` is `1` or `true`, `0` or `false`, in small letters.": [
        (f"{MULTI_IDS}X-B3-Sampled: true\n", B3, B3_YES), (f"{MULTI_IDS}X-B3-Sampled: false\n", B3, f"b3: {T}-{S}-0\n"),
        (f"{MULTI_IDS}X-B3-Sampled: True\n", B3, BAD_B3), (f"{MULTI_IDS}X-B3-Sampled: yes\n", B3, BAD_B3),
    ],
    "Without identifiers something must be said of sampling.": [("X-B3-Flags: 0\n", B3, BAD_B3), ("X-B3-Sampled: 0\n", B3, "b3: 0\n")],
    "each of which may be spelled `%3A` or `%3a`.": [(f"uber-trace-id: {T}%3A{S}%3a0:1\n", UBER, UBER_YES), ("uber-trace-id: 1%252:0:1\n", UBER, BAD_UBER)],
    "a parent of 1 to 16 of which zeros are none, and flags of 1 or 2": [
        (f"uber-trace-id: {T}:{S}:0000:01\n", UBER, UBER_YES), (f"uber-trace-id: {T}:{S}:{'0' * 17}:1\n", UBER, BAD_UBER),
        (f"uber-trace-id: {T}:{S}:0:001\n", UBER, BAD_UBER), (f"uber-trace-id: {'0' * 33}1:{S}:0:1\n", UBER, BAD_UBER),
    ],
    "Bit 1 of the flags is debug, bit 0 sampled.": [
        (f"uber-trace-id: {T}:{S}:0:{flags}\n", B3, f"b3: {T}-{S}-{told}\n") for flags, told in [("0", "0"), ("1", "1"), ("2", "d"), ("3", "d"), ("F4", "0"), ("0A", "d")]
    ],
    "A trace, a span or a parent of zeros is bad, but for the parent of `uber-trace-id`.": [
        (TRACEPARENT.replace(T, "0" * 32), B3, BAD_W3C), (TRACEPARENT.replace(S, "0" * 16), B3, BAD_W3C), (f"b3: {T}-{S}-1-{'0' * 16}\n", B3, BAD_B3),
        (f"{MULTI_YES}X-B3-ParentSpanId: {'0' * 16}\n", B3, BAD_B3), ("uber-trace-id: 0:1:0:1\n", B3, BAD_UBER), ("uber-trace-id: 1:0:0:1\n", B3, BAD_UBER),
        (f"uber-trace-id: {T}:{S}:{'0' * 16}:1\n", UBER, UBER_YES),
    ],
    "So is a header of the form that is read, other than `tracestate`, that stands twice.": [
        (TRACEPARENT * 2, B3, BAD_W3C), (B3_YES * 2, B3, BAD_B3), (MULTI_YES + "X-B3-Sampled: 1\n", B3, BAD_B3), (UBER_YES * 2, B3, BAD_UBER),
        (B3_YES * 2 + TRACEPARENT, B3, B3_YES), state("a=1\nb=2", "a=1,b=2"),
    ],
    "Traces have 32 digits and spans and parents 16, in lower case, whatever was read.": [("uber-trace-id: A:B:C:1\n", B3, f"b3: {10:032x}-{11:016x}-1-{12:016x}\n")],
    "In `uber-trace-id` a parent that there isn't is `0`, and debug is `3`.": [(f"b3: {T}-{S}-d\n", UBER, f"uber-trace-id: {T}:{S}:0:3\n")],
    "**The parent.** `traceparent` has no place for it.": [(f"b3: {T}-{S}-1-{P}\n", W3C, TRACEPARENT)],
    "a context without a sampling becomes not sampled, `00`": [(f"b3: {T}-{S}\n", W3C, f"traceparent: 00-{T}-{S}-00\n")],
    "**Debug**: it becomes sampled, `01`.": [(f"b3: {T}-{S}-d\n", W3C, TRACEPARENT)],
    "**The `tracestate`. The parent, where no sampling is told**": [
        (TRACEPARENT + "tracestate: a=1\n", B3, B3_YES), (f"{MULTI_IDS}X-B3-ParentSpanId: {P}\n", B3, f"b3: {T}-{S}\n"),
    ],
    "| `b3-multi` | **The `tracestate`.**": [(TRACEPARENT + "tracestate: a=1\n", MULTI, MULTI_YES)],
    "a context without a sampling becomes not sampled, `0`.": [(f"b3: {T}-{S}\n", UBER, f"uber-trace-id: {T}:{S}:0:0\n")],
    "| `uber` | **The `tracestate`. That nothing was decided**": [(TRACEPARENT + "tracestate: a=1\n", UBER, UBER_YES)],
    "**A bad `tracestate` is dropped without a word**, with all its members.": [state("a=1,b")],
    "**Baggage and all other headers aren't read**": [
        ("baggage: a=1\nuberctx-a: 1\njaeger-debug-id: 1\n" + TRACEPARENT, W3C, TRACEPARENT), ("baggage: a=1\nuberctx-a: 1\njaeger-debug-id: 1\n", W3C, NOTHING),
    ],
    "a trace of 16 digits is written with 16 zeros in front.": [(f"b3: {S}-{S}\n", B3, f"b3: {'0' * 16}{S}-{S}\n")],
    "the input has more than 16,384 bytes": [("\n" * 16_378 + "b3: 0\n", B3, "b3: 0\n"), ("\n" * 16_379 + "b3: 0\n", B3, "cause 17 InputTooLong\n")],
    "a line is no header: it has no colon, or a name without characters or with others than letters, digits, `-` and `_`, or a blank before its colon; it begins with a blank, as a line that continues the one before; its value has a byte below the space that isn't a tab, or one above `~`": [
        (TRACEPARENT + line + "\n", B3, LINE) for line in ["b3", ": 1", "b.3: 1", "b3 : 1", " b: 2", " ", "\t", "x: \x1f", "x: \x7f", "x: é", "GET / HTTP/1.1", ":path: /"]
    ],
    "no header of the four forms is there; a `tracestate` alone is none, nor is an empty input": [("Host: x\n", B3, NOTHING), ("tracestate: a=1\n", W3C, NOTHING), ("", B3, NOTHING)],
    "the context is a sampling without identifiers, and the form is `w3c` or `uber`; the note is `fault 36 NoIds`": [
        (line, form, NO_IDS) for line in ["b3: 0\n", "X-B3-Sampled: true\n", "X-B3-Flags: 1\n"] for form in [W3C, UBER]
    ],
    "Of several causes 17 counts first, then 30 wherever the line stands, then the form that is read.": [
        ("x" * 16_385, B3, "cause 17 InputTooLong\n"), ("b3: bad\nx\n", B3, LINE), ("x\nHost: y\n", B3, LINE),
    ],
    "writes `x-b3-parentspanid: 0000000000000000` by its B3 codec for a span without a parent, which is BadB3.": [
        (f"x-b3-traceid: {T}\nx-b3-spanid: {S}\nx-b3-parentspanid: {'0' * 16}\nx-b3-sampled: 1\n", B3, BAD_B3),
        (f"x-b3-traceid: {T}\nx-b3-spanid: {S}\nx-b3-sampled: 1\n", B3, B3_YES),
    ],
    "it writes `x-b3-sampled: 3`, which is BadB3, too: write `X-B3-Flags: 1` for it.": [
        (f"{MULTI_IDS}x-b3-sampled: 3\n", B3, BAD_B3), (f"{MULTI_IDS}X-B3-Flags: 1\n", B3, f"b3: {T}-{S}-d\n"),
    ],
    "writes `X-B3-Flags: 0` for debug as well, so that in several headers it comes as sampled.": [(f"{MULTI_YES}X-B3-Flags: 0\n", B3, B3_YES)],
    "(`uber-trace-id: 1:2:0:1`). Both are read.": [
        ("uber-trace-id: 1:2:0:1\n", B3, f"b3: {1:032x}-{2:016x}-1\n"), (f"X-B3-Traceid: {T}\nx-b3-spanid: {S}\nX-B3-SAMPLED: 1\n", B3, B3_YES),
    ],
}


def text_of(page):
    with open(os.path.join(program.TOP, page)) as file:
        return file.read()


def spelled(cell):
    """The lines of a cell of the table, with digits in the place of their letters."""
    lines = re.findall("`([^`]*)`", cell)
    return "".join(re.sub(r"\b(?:3A)?[TSP]\b", lambda found: found[0][:-1] + {"T": T, "S": S, "P": P}[found[0][-1]], line) + "\n" for line in lines)


def rows():
    """The rows of the table of what becomes of which header: a block, a form, and what must come."""
    table = text_of(PAGE).split("| Lines that are read |")[1].split("\n\n")[0].splitlines()[2:]
    for row in table:
        block, *cells = [cell.strip() for cell in row.strip("|").split("|")]
        for form, cell in zip(FORMS, cells, strict=True):
            yield spelled(block), form, NO_IDS if cell == "NoIds" else spelled(cell)


def is_answered(answer, block, form, wanted):
    """Whether a block is answered by these lines or by this note."""
    status, output, note = answer(block.encode(), form)
    is_note = wanted.startswith(("cause", "fault"))
    is_right = (status, output.decode(), note) == ((4 if wanted == NO_IDS else 3, "", wanted) if is_note else (0, wanted, ""))
    if not is_right:
        print(f"WRONG: {block[:200]!r} to {form}: status {status}, {output!r}, {note!r}; wanted {wanted!r}")
    return is_right


def checks(answer):
    """Whether each of what the page says is so."""
    yield from (is_answered(answer, *row) for row in rows())
    page = text_of(PAGE)
    for sentence, cases in SAID.items():
        if page.count(sentence) != 1:
            print(f"WRONG: the page says {page.count(sentence)} times: {sentence}")
        yield page.count(sentence) == 1
        yield from (is_answered(answer, *case) for case in cases)


def main():
    is_alone = sys.argv[1:] == ["--without-program"]
    if not is_alone and not os.path.exists(program.PROGRAM):
        sys.exit(program.BUILD)
    found = list(checks(headers.answer if is_alone else program.headers))
    print(f"{found.count(True)} right, {found.count(False)} wrong")
    sys.exit(0 if all(found) else 1)


if __name__ == "__main__":
    main()
