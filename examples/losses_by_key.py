#!/usr/bin/python3
"""Counts the lines of `spanx losses` or `spanx check` by what they say: a row, or a remark, with its key, and how often.

It is run as examples/losses_by_key.py [html] < lines, and writes a table as text, or a page of HTML. Where the last line with
the count is missing, or says another number, since the run was cut or stopped at a fault, it says so and ends with 1. It needs
nothing but Python.
"""
import collections
import html
import json
import re
import signal
import sys

PLACE = r"unit \d+(?: (?:resource|scope \d+|span \d+(?: (?:event|link) \d+)?))?"
LINE = re.compile(rf'({PLACE}): ([a-z -]+?)(?: ("(?:[^"\\]|\\.)*"))?\n?')
LOSSES = re.compile(r"losses (\d+)\n?")
COUNTS = re.compile(r"units \d+, spans \d+, remarks (\d+)\n?")
STYLE = """
body { font: 14px sans-serif }
td, th { text-align: left; padding: 2px 12px }
td:last-child, th:last-child { text-align: right }
tr:nth-child(even) { background: #eee }
"""


def part_of(place):
    """Which part of a trace a place is in: a unit, its resource, a scope, a span, an event or a link."""
    return [word for word in place.split() if not word.isdigit()][-1]


def counted(lines):
    """How often each row stands at each part with each key, and how many the last line says there are."""
    rows, told = collections.Counter(), None
    for number, line in enumerate(lines, 1):
        last = LOSSES.fullmatch(line) or COUNTS.fullmatch(line)
        if last and told is None:
            told = int(last[1])
            continue
        try:
            place, row, key = LINE.fullmatch(line if told is None else "").groups()
            rows[row, json.loads(key or '""'), part_of(place)] += 1
        except (AttributeError, ValueError):
            sys.exit(f"line {number} is no line of losses or check: {line.strip()[:80]!a}")
    return rows, told


def table(rows):
    """The most first, and each row behind those before it in its letters."""
    return [("what", "key", "where", "count")] + [
        (what, key, where, str(count)) for (what, key, where), count in sorted(rows.items(), key=lambda row: (-row[1], row[0]))
    ]


def as_text(lines):
    widths = [max(len(line[column]) for line in lines) for column in range(3)]
    for what, key, where, count in lines:
        print(f"{what:{widths[0]}}  {key:{widths[1]}}  {where:{widths[2]}}  {count:>7}")


def as_page(lines):
    print(f'<!doctype html><meta charset="utf-8"><title>losses by key</title><style>{STYLE}</style><table>')
    for number, line in enumerate(lines):
        cell = "td" if number else "th"
        print("<tr>" + "".join(f"<{cell}>{html.escape(word)}</{cell}>" for word in line))
    print("</table>")


def main(is_page):
    sys.stdin.reconfigure(encoding="utf-8", errors="surrogateescape")
    sys.stdout.reconfigure(encoding="utf-8", errors="surrogateescape")
    rows, told = counted(sys.stdin)
    (as_page if is_page else as_text)(table(rows))
    sys.stdout.flush()
    if told is None:
        sys.exit("the last line, with their number, isn't there: the run stopped before its end")
    if told != sum(rows.values()):
        sys.exit(f"the last line says {told}, and {sum(rows.values())} were there")


if __name__ == "__main__":
    if sys.argv[1:] not in [[], ["html"]]:
        sys.exit(__doc__)
    signal.signal(signal.SIGPIPE, signal.SIG_DFL)
    main(sys.argv[1:] == ["html"])
