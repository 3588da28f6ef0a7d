"""Trace context in header lines: what a block of lines tells in each of four forms, and the lines that are written of it.

The forms are `traceparent` with `tracestate` (W3C Trace Context Level 1), the one header `b3`, the headers whose names begin
with `X-B3-` (B3 propagation), and Jaeger's `uber-trace-id`, as docs/HEADERS.md has them.
"""
import dataclasses
import re

W3C, B3, MULTI, UBER = "w3c", "b3", "b3-multi", "uber"
FORMS = [W3C, B3, MULTI, UBER]
LIMIT = 16_384
MOST_MEMBERS = 32
CAUSES = {17: "InputTooLong", 30: "HeaderLine", 31: "NoContext", 32: "BadTraceparent", 34: "BadB3", 35: "BadUber"}
NO_IDS = "NoIds"
MULTI_NAMES = ["X-B3-TraceId", "X-B3-SpanId", "X-B3-ParentSpanId", "X-B3-Sampled", "X-B3-Flags"]
# Of each form the number of its cause, and the names of its headers by which it is present.
PRESENT = {W3C: (32, ["traceparent"]), B3: (34, ["b3"]), MULTI: (34, MULTI_NAMES), UBER: (35, ["uber-trace-id"])}

ABSENT, NO, YES, DEBUG = "absent", "no", "yes", "debug"

LINE = re.compile(r"([A-Za-z0-9_-]+):([\x20-\x7e\t]*)")
TRACEPARENT = re.compile(r"(?!ff)([0-9a-f]{2})-([0-9a-f]{32})-([0-9a-f]{16})-([0-9a-f]{2})(-.*)?")
B3_VALUE = re.compile(r"(?:([0-9A-Fa-f]{16}|[0-9A-Fa-f]{32})-([0-9A-Fa-f]{16})(?:-([01d])(?:-([0-9A-Fa-f]{16}))?)?|([01d]))")
B3_STATES = {NO: "0", YES: "1", DEBUG: "d"}
STATES_OF_B3 = {text: sampling for sampling, text in B3_STATES.items()}
SAMPLED = {"0": NO, "false": NO, "1": YES, "true": YES}
UBER_VALUE = re.compile(r"([0-9A-Fa-f]{1,32}):([0-9A-Fa-f]{1,16}):([0-9A-Fa-f]{1,16}):([0-9A-Fa-f]{1,2})")
UBER_FLAGS = {ABSENT: "0", NO: "0", YES: "1", DEBUG: "3"}
KEY = r"[a-z][a-z0-9_\-*/]{0,255}|[a-z0-9][a-z0-9_\-*/]{0,240}@[a-z][a-z0-9_\-*/]{0,13}"
MEMBER = re.compile(rf"({KEY})=([\x20-\x2b\x2d-\x3c\x3e-\x7e]{{0,255}}[\x21-\x2b\x2d-\x3c\x3e-\x7e])")


class Refused(Exception):
    """A block that tells no context, with the number of its cause."""


@dataclasses.dataclass
class Context:
    """Identifiers are numbers, of which that of the trace and that of the span are both 0 where there are none; a parent of 0 is
    none."""

    trace: int = 0
    span: int = 0
    parent: int = 0
    sampling: str = ABSENT
    state: str = ""


# ---- lines


def lines_of(block):
    """The lines of a block. The last may end without LF, and a CR counts as an end before LF alone."""
    *ended, last = block.decode("latin-1").split("\n")
    return [line.removesuffix("\r") for line in ended] + [last]


def headers_of(block):
    """The names, in small letters, and the values of a block's headers."""
    found = []
    for line in filter(None, lines_of(block)):
        header = LINE.fullmatch(line)
        if not header:
            raise Refused(30)
        found.append((header[1].lower(), header[2].strip(" \t")))
    return found


def values(headers, name):
    return [value for other, value in headers if other == name.lower()]


# ---- the four forms


def id_of(digits):
    """The number of an identifier, which isn't zero, or None."""
    return int(digits, 16) or None


def read_tracestate(text):
    """The members joined by commas, or nothing where the text isn't of the form."""
    members = [member for member in (entry.strip(" \t") for entry in text.split(",")) if member]
    found = [MEMBER.fullmatch(member) for member in members]
    if not all(found) or len(found) > MOST_MEMBERS or len({one[1] for one in found}) < len(found):
        return ""
    return ",".join(members)


def read_traceparent(value):
    found = TRACEPARENT.fullmatch(value)
    if not found or (found[1] == "00" and found[5]) or not id_of(found[2]) or not id_of(found[3]):
        return None
    return Context(id_of(found[2]), id_of(found[3]), 0, YES if int(found[4], 16) & 1 else NO)


def read_b3(value):
    found = B3_VALUE.fullmatch(value)
    if not found:
        return None
    trace, span, state, parent, alone = found.groups()
    if alone:
        return Context(sampling=STATES_OF_B3[alone])
    if not all(map(id_of, filter(None, [trace, span, parent]))):
        return None
    return Context(id_of(trace), id_of(span), int(parent or "0", 16), STATES_OF_B3.get(state, ABSENT))


def exact(value, *lengths):
    """Whether a value is an identifier of one of these lengths."""
    return bool(re.fullmatch("[0-9A-Fa-f]+", value)) and len(value) in lengths and id_of(value) is not None


def read_multi(trace, span, parent, sampled, flags):
    """The context of these values, each None where the header isn't there."""
    if (trace is None) != (span is None) or (parent is not None and trace is None):
        return None
    if trace is not None and not (exact(trace, 16, 32) and exact(span, 16) and (parent is None or exact(parent, 16))):
        return None
    sampling = DEBUG if flags == "1" else ABSENT if sampled is None else SAMPLED.get(sampled)
    if sampling is None or (trace is None and sampling == ABSENT):
        return None
    return Context(*(int(id or "0", 16) for id in [trace, span, parent]), sampling)


def read_uber(value):
    found = UBER_VALUE.fullmatch(re.sub("%3[Aa]", ":", value))
    if not found or not id_of(found[1]) or not id_of(found[2]):
        return None
    flags = int(found[4], 16)
    return Context(int(found[1], 16), int(found[2], 16), int(found[3], 16), DEBUG if flags & 2 else YES if flags & 1 else NO)


# ---- blocks


def read_form(form, headers):
    """The context of the headers of a form, or None."""
    held = [values(headers, name) for name in PRESENT[form][1]]
    if any(len(one) > 1 for one in held):
        return None
    texts = [one[0] if one else None for one in held]
    context = {W3C: read_traceparent, B3: read_b3, MULTI: read_multi, UBER: read_uber}[form](*texts)
    if context and form == W3C:
        context.state = read_tracestate(",".join(values(headers, "tracestate")))
    return context


def read(block):
    """The context that a block tells."""
    if len(block) > LIMIT:
        raise Refused(17)
    headers = headers_of(block)
    for form, (cause, names) in PRESENT.items():
        if any(values(headers, name) for name in names):
            context = read_form(form, headers)
            if context is None:
                raise Refused(cause)
            return context
    raise Refused(31)


# ---- what is written


def told(context, form):
    """What a form holds of a context, which is None where it can't tell it."""
    if form in [W3C, UBER] and not context.trace:
        return None
    sampling = context.sampling
    if form in [W3C, UBER] and sampling == ABSENT:
        sampling = NO
    if form == W3C and sampling == DEBUG:
        sampling = YES
    has_parent = form in [MULTI, UBER] or (form == B3 and sampling != ABSENT)
    return Context(context.trace, context.span, context.parent if has_parent else 0, sampling, context.state if form == W3C else "")


def fields(context, form):
    """The headers of a context that the form can tell, each a name and a value."""
    context = told(context, form)
    trace, span, parent = f"{context.trace:032x}", f"{context.span:016x}", context.parent and f"{context.parent:016x}"
    if form == W3C:
        state = [("tracestate", context.state)] if context.state else []
        return [("traceparent", f"00-{trace}-{span}-{'01' if context.sampling == YES else '00'}"), *state]
    if form == UBER:
        return [("uber-trace-id", f"{trace}:{span}:{parent or 0}:{UBER_FLAGS[context.sampling]}")]
    if form == B3:
        parts = [trace, span] if context.trace else []
        return [("b3", "-".join(filter(None, [*parts, B3_STATES.get(context.sampling), parent])))]
    ids = [trace, span, parent] if context.trace else [None] * 3
    sampled = [None, "1"] if context.sampling == DEBUG else [B3_STATES.get(context.sampling), None]
    return [(name, value) for name, value in zip(MULTI_NAMES, ids + sampled) if value]


def text(fields):
    """The lines of headers."""
    return "".join(f"{name}: {value}\n" for name, value in fields).encode("latin-1")


def verdict(block, form):
    """The status, the note and the output that a block must have, and the name of that outcome."""
    try:
        context = read(block)
    except Refused as why:
        name = CAUSES[why.args[0]]
        return 3, f"cause {why.args[0]} {name}\n", b"", name
    if told(context, form) is None:
        return 4, f"fault 36 {NO_IDS}\n", b"", NO_IDS
    return 0, "", text(fields(context, form)), "written"


def answer(block, form):
    """The status, the output and the note for a block, in the order in which program.headers gives them."""
    status, note, output, _ = verdict(block, form)
    return status, output, note
