#!/usr/bin/python3
"""Runs the built program over header lines that tracing clients wrote and over drawn and spoilt ones, and compares what is
answered with headers.py; what the program writes must be read by the clients as the same context.

It is run at the top as bench/comparisons/real_headers.py, after ./spanx has built the program; a number that is given is how many
blocks are drawn. Jaeger's client in Ruby and the clients in Go are taken where they are there. With --without-program headers.py
answers in the program's place, so that the clients are compared with it alone. It prints a line for each client, how often each
outcome came, a line for each difference, and ends with 1 where there is one.
"""
import collections
import dataclasses
import json
import os
import re
import shutil
import subprocess
import sys

from aiozipkin.helpers import TraceContext, make_context, make_headers, make_single_header
from py_zipkin.storage import Stack
from py_zipkin.zipkin import ZipkinAttrs, create_http_headers_for_new_span

sys.path.insert(1, os.path.dirname(os.path.dirname(os.path.realpath(__file__))))
import rooms  # first: it finds the others
import headers
import program
from drawn_headers import Blocks, Contexts
from headers import ABSENT, B3, DEBUG, FORMS, MULTI, NO, UBER, W3C, YES, Context, told
from real_input import report

HERE = os.path.dirname(os.path.abspath(__file__))
GO = {"GO111MODULE": "off", "GOPATH": "/usr/share/gocode"}
CONTEXTS = 200
BLOCKS = 2_000
# Both bits of Jaeger's flags, which its client can have, too.
SAMPLED_DEBUG = "sampled debug"

# Blocks that clients' documents show, and what must be answered of them in each form: the output, or a note.
TRACE, SPAN, PARENT = "0af7651916cd43dd8448eb211c80319c", "b7ad6b7169203331", "00f067aa0ba902b7"
NO_IDS = "fault 36 NoIds\n"
WORKED = [
    (
        f"traceparent: 00-{TRACE}-{SPAN}-01\ntracestate: a=1, b=2\n",
        {
            W3C: f"traceparent: 00-{TRACE}-{SPAN}-01\ntracestate: a=1,b=2\n", B3: f"b3: {TRACE}-{SPAN}-1\n",
            MULTI: f"X-B3-TraceId: {TRACE}\nX-B3-SpanId: {SPAN}\nX-B3-Sampled: 1\n", UBER: f"uber-trace-id: {TRACE}:{SPAN}:0:1\n",
        },
    ),
    (
        f"X-B3-TraceId: {TRACE}\nX-B3-ParentSpanId: {PARENT}\nX-B3-SpanId: {SPAN}\n",
        {
            W3C: f"traceparent: 00-{TRACE}-{SPAN}-00\n", B3: f"b3: {TRACE}-{SPAN}\n",
            MULTI: f"X-B3-TraceId: {TRACE}\nX-B3-SpanId: {SPAN}\nX-B3-ParentSpanId: {PARENT}\n",
            UBER: f"uber-trace-id: {TRACE}:{SPAN}:{PARENT}:0\n",
        },
    ),
    ("b3: 0\n", {W3C: NO_IDS, B3: "b3: 0\n", MULTI: "X-B3-Sampled: 0\n", UBER: NO_IDS}),
    ("x-b3-flags: 1\r\n", {W3C: NO_IDS, B3: "b3: d\n", MULTI: "X-B3-Flags: 1\n", UBER: NO_IDS}),
    (
        "uber-trace-id: 1%3A2%3A0%3A3",
        {
            W3C: f"traceparent: 00-{1:032x}-{2:016x}-01\n", B3: f"b3: {1:032x}-{2:016x}-d\n",
            MULTI: f"X-B3-TraceId: {1:032x}\nX-B3-SpanId: {2:016x}\nX-B3-Flags: 1\n", UBER: f"uber-trace-id: {1:032x}:{2:016x}:0:3\n",
        },
    ),
    ("", dict.fromkeys(FORMS, "cause 31 NoContext\n")),
    ("traceparent", dict.fromkeys(FORMS, "cause 30 HeaderLine\n")),
    (f"traceparent: 00-{TRACE}-{SPAN}-01\n" * 2, dict.fromkeys(FORMS, "cause 32 BadTraceparent\n")),
    (f"b3: {TRACE}-{SPAN}-{PARENT}\n", dict.fromkeys(FORMS, "cause 34 BadB3\n")),
    ("uber-trace-id: 1:2:0\n", dict.fromkeys(FORMS, "cause 35 BadUber\n")),
    ("\n" * (headers.LIMIT + 1), dict.fromkeys(FORMS, "cause 17 InputTooLong\n")),
]


# ---- what clients tell and read


def with_sampling(context, **words):
    """A context with other words for samplings."""
    return dataclasses.replace(context, sampling=words.get(context.sampling, context.sampling))


def without_state(context):
    return dataclasses.replace(context, state="")


def has_ids(context):
    return context.trace != 0


def told_by(form):
    """A client that tells and reads all that its form holds."""
    return lambda context: told(context, form)


def opencensus_state(context):
    """It knows no tenant that begins with a digit, and leaves a state of more than 512 characters out."""
    is_known = len(context.state) <= 512 and not re.search(r"(?:^|,)\d", context.state)
    return context if is_known else without_state(context)


def opencensus_multi(context):
    """It tells whether a trace is sampled, and nothing else of sampling, and no parent; it reads no X-B3-Flags."""
    return Context(context.trace, context.span, 0, YES if context.sampling == YES else NO)


def ruby_multi(context):
    """It writes zeros where there is no parent, and X-B3-Sampled 3 for both bits of the flags, which aren't of the form."""
    return with_sampling(told(context, MULTI), absent=NO) if context.parent and context.sampling != SAMPLED_DEBUG else None


@dataclasses.dataclass(frozen=True)
class Client:
    """A client by its name: the form of its headers, for which contexts it writes headers, what these tell or None where they are
    bad, and what it reads of lines that tell a context, or None where it reads none."""

    name: str
    form: str
    writes: object
    tells: object
    reads: object = None


def client(name, form, writes=has_ids, tells=None, reads=None):
    return Client(name, form, writes, tells or told_by(form), reads or told_by(form))


PYTHON = [
    # It writes X-B3-Flags 0 for debug, too, and X-B3-Sampled 0 where nothing is told. It reads no flags, since it looks for their
    # name in capitals among those in small letters.
    client("aiozipkin, b3-multi", MULTI, tells=lambda c: with_sampling(told(c, MULTI), absent=NO, debug=YES), reads=lambda c: with_sampling(c, debug=ABSENT)),
    client("aiozipkin, b3", B3, tells=lambda c: told(with_sampling(c, absent=NO), B3), reads=lambda c: c),
    # It writes headers for a child of the span that runs, and has no call that reads some.
    Client("py_zipkin", MULTI, lambda c: c.trace and c.parent, lambda c: with_sampling(told(c, MULTI), absent=NO, debug=YES)),
]
RUBY = [
    client("jaeger text map", UBER), client("jaeger rack", UBER), client("jaeger b3", MULTI, tells=ruby_multi),
    client("jaeger w3c", W3C, tells=lambda c: without_state(told(c, W3C)), reads=without_state),
]
# By the file of the clients the folder of their library, its package, and the clients.
GO_CLIENTS = {
    "zipkin.go": ("github.com/openzipkin/zipkin-go", "golang-github-openzipkin-zipkin-go-dev", [client("zipkin-go", MULTI, writes=lambda c: True)]),
    "opentelemetry.go": ("go.opentelemetry.io/otel/propagation", "golang-opentelemetry-otel-dev", [client("opentelemetry", W3C)]),
    "opencensus.go": (
        "go.opencensus.io/plugin/ochttp", "golang-go.opencensus-dev",
        [
            client("opencensus w3c", W3C, tells=lambda c: opencensus_state(told(c, W3C)), reads=opencensus_state),
            client("opencensus b3-multi", MULTI, tells=lambda c: opencensus_multi(told(c, W3C)), reads=opencensus_multi),
        ],
    ),
}


# ---- running clients


def digits(context, is_short=False):
    """The identifiers of a context as texts, empty where there are none; that of a trace as 16 digits where they are enough."""
    trace = f"{context.trace:016x}" if is_short and context.trace < 2**64 else f"{context.trace:032x}"
    return trace if context.trace else "", f"{context.span:016x}" if context.span else "", f"{context.parent:016x}" if context.parent else ""


def context_of(held):
    """A context of what a client in another language read."""
    if held is None:
        return None
    ids = [int(held[name] or "0", 16) for name in ["trace", "span", "parent"]]
    return Context(*ids, held["sampling"], held["state"])


def written_by_aiozipkin(one, context, is_short):
    trace, span, parent = digits(context, is_short)
    # Of a context of debug it says that it is sampled.
    sampled = {ABSENT: None, NO: False, YES: True, DEBUG: True}[context.sampling]
    held = TraceContext(trace, parent or None, span, sampled, context.sampling == DEBUG, False)
    return list((make_single_header if one.form == B3 else make_headers)(held).items())


def written_by_py_zipkin(context, is_short):
    trace, _, parent = digits(context, is_short)
    attributes = ZipkinAttrs(trace, parent, None, "0", context.sampling in [YES, DEBUG])
    return list(create_http_headers_for_new_span(Stack([attributes])).items())


def written_in_python(one, context, is_short):
    write = written_by_py_zipkin if one.name == "py_zipkin" else lambda *told: written_by_aiozipkin(one, *told)
    return write(context, is_short)


def read_in_python(fields):
    held = make_context(dict(fields))
    if held is None:
        return None
    sampling = DEBUG if held.debug else {None: ABSENT, False: NO, True: YES}[held.sampled]
    return Context(int(held.trace_id, 16), int(held.span_id, 16), int(held.parent_id or "0", 16), sampling)


class Python:
    clients = PYTHON

    def write(self, tasks):
        return [written_in_python(one, context, i % 2) for i, (one, context) in enumerate(tasks)]

    def read(self, tasks):
        return [read_in_python(fields) for _, fields in tasks]


class Process:
    """Clients in another language, which answer a list of tasks at once."""

    def __init__(self, command, clients, variables):
        self.command, self.clients, self.variables = command, clients, variables

    def answers(self, tasks):
        done = subprocess.run(self.command, input=json.dumps(tasks), text=True, stdout=subprocess.PIPE, env=os.environ | self.variables, check=True)
        return json.loads(done.stdout)

    def write(self, tasks):
        names = ["trace", "span", "parent", "sampling", "state"]
        return self.answers([
            {"client": one.name, "context": dict(zip(names, [*digits(context), context.sampling, context.state]))} for one, context in tasks
        ])

    def read(self, tasks):
        return list(map(context_of, self.answers([{"client": one.name, "headers": fields} for one, fields in tasks])))


def ruby():
    """Jaeger's client in Ruby, if it is there."""
    command = ["ruby", os.path.join(HERE, "headers_ruby", "main.rb")]
    if shutil.which("ruby") and subprocess.run(["ruby", "-e", "require 'jaeger/client'"], stderr=subprocess.DEVNULL).returncode == 0:
        return [Process(command, RUBY, {})]
    print("left out: Jaeger's client in Ruby, which needs ruby-jaeger-client")
    return []


def go():
    """The clients in Go that are there."""
    files, clients = [], []
    for file, (folder, package, ones) in GO_CLIENTS.items():
        if shutil.which("go") and os.path.isdir(os.path.join(GO["GOPATH"], "src", folder)):
            files.append(os.path.join(HERE, "headers_go", file))
            clients += ones
        else:
            print(f"left out: {', '.join(one.name for one in ones)}, which needs golang-go and {package}")
    return [Process(["go", "run", os.path.join(HERE, "headers_go", "main.go"), *files], clients, GO)] if files else []


# ---- contexts and blocks


def contexts():
    """Random contexts, some without identifiers."""
    for seed in range(CONTEXTS):
        context = Contexts(seed).context()
        yield Context(sampling=context.sampling) if seed % 20 == 0 and context.sampling != ABSENT else context


def written_blocks(runner):
    """What clients write of contexts: the client, the context and the headers."""
    tasks = [(one, context) for one in runner.clients for context in contexts() if one.writes(context)]
    for one in runner.clients:
        if one in RUBY:
            tasks += [(one, dataclasses.replace(context, sampling=SAMPLED_DEBUG)) for context in contexts() if context.sampling == DEBUG and one.writes(context)]
    return [(one, context, fields) for (one, context), fields in zip(tasks, runner.write(tasks))]


def read_or_none(block):
    try:
        return headers.read(block)
    except headers.Refused:
        return None


def wanted_of(one, context, fields):
    """What a client's headers must tell of a context."""
    if context.sampling == SAMPLED_DEBUG and one.name != "jaeger b3":
        context = dataclasses.replace(context, sampling=DEBUG)
    wanted = one.tells(context)
    if one.name == "py_zipkin":
        # The identifier of the child is drawn by the client.
        wanted.span = int(dict(fields)["X-B3-SpanId"], 16)
    return wanted


def try_writers(runner):
    """The name and the block of each case that clients wrote, and how many say something else than they must."""
    cases, wrong, counts = [], 0, collections.Counter()
    for i, (one, context, fields) in enumerate(written_blocks(runner)):
        block = headers.text(fields) if i % 3 else headers.text(fields).replace(b"\n", b"\r\n")
        wanted, got = wanted_of(one, context, fields), read_or_none(block)
        if wanted != got:
            report(f"{one.name}, {context}", block, f"tells {got}; wanted {wanted}", b"", block)
            wrong += 1
        counts[one.name, "told" if wanted else "bad"] += 1
        cases.append((f"{one.name} {i}", block))
    for one in runner.clients:
        print(f"{one.name}: {counts[one.name, 'told']} contexts written, and {counts[one.name, 'bad']} in headers that aren't of the form")
    return cases, wrong


def drawn_cases(count):
    for seed in range(count):
        yield f"random {seed}", Blocks(seed).block()
        yield f"spoilt {seed}", Blocks(seed).spoilt()


# ---- comparing


def difference(answer, block, form):
    """What is wrong with an answer to a block, if something is, what must be written, what was, and the outcome."""
    status, note, wanted, name = headers.verdict(block, form)
    got, written, got_note = answer(block, form)
    if (got, got_note) != (status, note):
        return f"status {got}, note {got_note!r}; wanted {status}, {note!r}", wanted, written, name
    if written != wanted:
        return "other lines were written", wanted, written, name
    if status == 0 and (read_or_none(written) != told(headers.read(block), form) or answer(written, form) != (0, written, "")):
        return "what was written tells another context", wanted, written, name
    return None, wanted, written, name


def try_blocks(answer, cases):
    """How many blocks are answered otherwise in a form."""
    wrong, outcomes = 0, collections.Counter()
    for name, block in cases:
        for form in FORMS:
            what, wanted, written, outcome = difference(answer, block, form)
            outcomes[outcome] += 1
            if what is not None:
                report(f"{name}, to {form}", block, what, wanted, written)
                wrong += 1
    print("; ".join(f"{name} {count}" for name, count in sorted(outcomes.items())))
    return wrong


def try_worked(answer):
    """How many worked blocks have another answer than stands beside them."""
    wrong = 0
    for block, answers in WORKED:
        for form, wanted in answers.items():
            status, output, note = answer(block.encode(), form)
            if output.decode() + note != wanted or status != {"c": 3, "f": 4}.get(wanted[0], 0):
                print(f"WRONG: {block[:80]!r} to {form}: status {status}, {output!r}, {note!r}; wanted {wanted!r}")
                wrong += 1
    return wrong


def lines_for_clients(answer):
    """What is written in each form of contexts with a parent, and of contexts with a tracestate, and the context that it tells."""
    out = {form: [] for form in FORMS}
    for context in contexts():
        for source in [MULTI, W3C] if context.trace else [MULTI]:
            for form in FORMS:
                status, output, _ = answer(headers.text(headers.fields(context, source)), form)
                if status == 0 and read_or_none(output).trace:
                    out[form].append((headers.headers_of(output), told(told(context, source), form)))
    return out


def as_written(fields):
    """Headers with their names as the program writes them."""
    names = {name.lower(): name for name in headers.MULTI_NAMES}
    return [(names.get(name, name), value) for name, value in fields]


def try_readers(runner, lines):
    """How many of the lines a client reads as another context."""
    wrong = 0
    tasks = [(one, as_written(fields), context) for one in runner.clients if one.reads for fields, context in lines[one.form]]
    for (one, fields, context), got in zip(tasks, runner.read([task[:2] for task in tasks])):
        if got != one.reads(context):
            report(f"{one.name} reads", headers.text(fields), f"{got}; wanted {one.reads(context)}", b"", b"")
            wrong += 1
    for one in runner.clients:
        if one.reads:
            print(f"{one.name}: {len(lines[one.form])} contexts read in {one.form}")
    return wrong


def main():
    words = sys.argv[1:]
    is_alone = "--without-program" in words
    numbers = [int(word) for word in words if word.isdigit()]
    if not is_alone and not os.path.exists(program.PROGRAM):
        sys.exit(program.BUILD)
    answer = headers.answer if is_alone else program.headers
    wrong, cases = try_worked(answer), []
    lines = lines_for_clients(answer)
    for runner in [Python(), *ruby(), *go()]:
        made, bad = try_writers(runner)
        cases += made
        wrong += bad + try_readers(runner, lines)
    wrong += try_blocks(answer, [*cases, *drawn_cases(numbers[0] if numbers else BLOCKS)])
    print(f"{wrong} differences")
    sys.exit(1 if wrong else 0)


if __name__ == "__main__":
    main()
