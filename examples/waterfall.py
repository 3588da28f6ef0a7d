#!/usr/bin/python3
"""Draws the spans that `spanx show` lists as one page of HTML: a bar for each span under its parent's, trace by trace.

It is run as examples/waterfall.py < lines > page.html. A span whose parent isn't in the file stands by itself and is marked
`parent absent`; spans that are each other's parents stand behind the others and are marked `parents go round`; an error has a bar
in red. Where two spans have one identifier, as both sides of a call have it in Zipkin, the children stand under the first. The
page needs no script and no other file, and this needs nothing but Python. A line that isn't one of `show` is named, and the
status is 1, as it is where there is no span.
"""
import collections
import html
import json
import re
import signal
import sys

LINE = re.compile(
    r"([0-9a-f]{32}) ([0-9a-f]{16}) (-|[0-9a-f]{16}) ([A-Z]+) ([0-9]{1,20}) ([0-9]{1,20}) (UNSET|OK|ERROR) "
    r"(\"(?:[^\"\\]|\\.)*\")\n?"
)
Span = collections.namedtuple("Span", "trace id parent kind start end code name")
STYLE = """
body { font: 13px sans-serif; margin: 1em 2em 1em 1em }
h2 { font-size: 15px; margin: 1em 0 .3em }
.row { display: flex; height: 18px; line-height: 18px; white-space: nowrap }
.row:hover { background: #eef }
.name { width: 34%; overflow: hidden; text-overflow: ellipsis; flex: none }
.name small { color: #888; padding-left: 4px }
.line { position: relative; flex: auto; background: repeating-linear-gradient(to right, #ddd 0 1px, transparent 1px 20%) }
.line i { position: absolute; top: 3px; height: 12px; min-width: 2px; background: #59c; border-radius: 2px }
.line b { position: absolute; font-weight: normal; padding: 0 4px; color: #555 }
.line .inside { color: #fff }
.error .line i { background: #c33 }
.error .name { color: #c33 }
.axis { color: #555; border-bottom: 1px solid #ccc }
em { color: #a60; font-style: normal }
"""


def spans_of(lines):
    """The spans of each trace, in the order of the file."""
    traces = collections.defaultdict(list)
    for number, line in enumerate(lines, 1):
        try:
            trace, id_, parent, kind, start, end, code, name = LINE.fullmatch(line).groups()
            traces[trace].append(Span(trace, id_, parent, kind, int(start), int(end), code, json.loads(name)))
        except (AttributeError, ValueError):
            sys.exit(f"line {number} is no line of show: {line.strip()[:80]!a}")
    if not traces:
        sys.exit("there is no span")
    return traces


def in_order(spans):
    """Each span with how deep it stands and what is to be said of its parent: parents before children, the earlier first."""
    firsts = {}
    for span in spans:
        firsts.setdefault(span.id, span)
    children = collections.defaultdict(list)
    for span in sorted(spans, key=lambda span: span.start, reverse=True):
        children[span.parent if span.parent in firsts else None].append(span)
    stack = [(span, 0, "" if span.parent == "-" else "parent absent") for span in children.pop(None, [])]
    left = iter(list(children))
    while stack or children:
        if not stack:
            id_ = next(id_ for id_ in left if id_ in children)
            stack = [(span, 0, "parents go round") for span in children.pop(id_)]
        span, depth, said = stack.pop()
        yield span, depth, said
        if firsts[span.id] is span:
            stack += [(child, depth + 1, "") for child in children.pop(span.id, [])]


def told(nanoseconds):
    """A length of time, in the largest unit of which there is one."""
    for unit, size in [("s", 1_000_000_000), ("ms", 1_000_000), ("us", 1_000)]:
        if abs(nanoseconds) >= size:
            return f"{nanoseconds / size:.4g} {unit}"
    return f"{nanoseconds} ns"


def length_at(span, left, width):
    """How long a span lasts, behind its bar, before it, or in it, where there is room."""
    lasts = told(span.end - span.start)
    if left + width <= 88:
        return f'<b style="left:{left + width:.3f}%">{lasts}</b>'
    if left >= 12:
        return f'<b style="right:{100 - left:.3f}%">{lasts}</b>'
    return f'<b class="inside" style="right:{max(100 - left - width, 0):.3f}%">{lasts}</b>'


def row(span, depth, said, begin, length):
    left = 100 * (span.start - begin) / length
    width = 100 * max(span.end - span.start, 0) / length
    name = f'<span style="padding-left:{min(depth, 30) * 12}px">{html.escape(span.name) or "(no name)"}</span>'
    marks = f" <small>{span.kind.lower()}</small>" if span.kind != "UNSPECIFIED" else ""
    marks += f" <em>{said}</em>" if said else ""
    told_of = f"{span.name}\nspan {span.id}, parent {span.parent}\n{span.kind}, {span.code}\nstart {span.start}, end {span.end}"
    title = html.escape(told_of)
    return (
        f'<div class="row{" error" if span.code == "ERROR" else ""}" title="{title}"><div class="name">{name}{marks}</div>'
        f'<div class="line"><i style="left:{left:.3f}%;width:{width:.3f}%"></i>{length_at(span, left, width)}</div></div>'
    )


def axis(length):
    marks = "".join(f'<b style="left:{part * 20}%">{told(length * part // 5)}</b>' for part in range(5))
    return f'<div class="row axis"><div class="name"></div><div class="line">{marks}</div></div>'


def write_trace(trace, spans):
    begin = min(span.start for span in spans)
    length = max(max(span.end, span.start) for span in spans) - begin or 1
    errors = sum(span.code == "ERROR" for span in spans)
    print(f"<h2>trace {trace}: spans {len(spans)}, errors {errors}, {told(length)}</h2>")
    print(axis(length))
    for span, depth, said in in_order(spans):
        print(row(span, depth, said, begin, length))


def main():
    traces = spans_of(sys.stdin)
    print(f'<!doctype html><meta charset="utf-8"><title>spans</title><style>{STYLE}</style>')
    print(f"<p>traces {len(traces)}, spans {sum(map(len, traces.values()))}</p>")
    for trace, spans in traces.items():
        write_trace(trace, spans)


if __name__ == "__main__":
    if sys.argv[1:]:
        sys.exit(__doc__)
    signal.signal(signal.SIGPIPE, signal.SIG_DFL)
    sys.stdin.reconfigure(encoding="utf-8", errors="surrogateescape")
    sys.stdout.reconfigure(encoding="utf-8", errors="replace")
    main()
