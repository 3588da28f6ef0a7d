#!/usr/bin/python3
"""Runs the built program's modes `show`, `check` and, to each of the five targets, `losses` over files, over what stock libraries
wrote, and over drawn and spoilt inputs of each form, and compares status, note and lines, byte by byte, with what the independent
readers of reports.py and losses.py say. Of these it tries that a text without a loss, and no other, comes back from the target as the
very trace that it is, and that what comes back is the normal form.

It is run at the top as bench/comparisons/real_reports.py, after ./spanx has built the program. The files of folders that are
given, each named by its form, are taken too, words that name forms choose these, and `--seeds N` draws N inputs of each kind in
place of 300. With --without-program the lines are made and counted alone. It prints how often each outcome and each kind of
remark came of each form, and how often each row of losses, a line for each difference, and ends with 1 where there is one, and
where a kind of remark that a form has, or a row that a target has, came of no input.
"""
import collections
import os
import re
import sys

sys.path.insert(1, os.path.dirname(os.path.dirname(os.path.realpath(__file__))))
import rooms  # first: it finds the others
import forms
import losses
import otlp
import program
import real_batches
import real_input
import reports
from drawn import Batches, Traces
from drawn_groups import GroupDocuments, GroupSpoiler, JsonTraces
from drawn_spans import Documents, DocumentSpoiler, ZipkinTraces
from forms import FORMS, JSON, OTLP, ZIPKIN
from json_text import Refusal
from otlp import KEY_VALUES, TABLE
from program import BUILD, PROGRAM, TOP, report
from protocols import PROTOCOLS
from refused_batches import BatchSpoiler
from refused_input import Spoiler
from reports import CHECK, EQUAL_KEY, KINDS, LINK_DROPPED, MODES, TAG_DROPPED
from wire import bytes_field, fixed32_field, number_field, records, varint

EXAMPLES = os.path.join(TOP, "examples")
SEEDS = 300
# Of each form the kinds of remark that it can have.
REMARKED = {OTLP: [EQUAL_KEY, LINK_DROPPED], JSON: [EQUAL_KEY, LINK_DROPPED], ZIPKIN: [TAG_DROPPED], **{form: list(KINDS) for form in PROTOCOLS}}
SHIPPED = {
    OTLP: ["checkout.bin"], JSON: ["checkout.json", "jaeger_trace.json"], ZIPKIN: ["checkout_spans.json", "checkout_v1.json"],
    "jaeger-binary": ["checkout_batch.bin"], "jaeger-compact": ["checkout_datagram.bin"],
}


# ---- drawn requests and batches


class Requests(Traces):
    """Spells traces as requests in which keys stand more than once, those of maps too, and links point nowhere."""

    def __init__(self, seed):
        super().__init__(seed, 0)
        self.part = self.choice(0, 0.02, 0.1, 0.4)

    def pair(self, key):
        """An attribute, which may have keys that stand more than once in it."""
        inner = bytes_field(1, bytes_field(1, b"twice")) * self.choice(1, 2, 3)
        held = self.choice(b"", bytes_field(1, b"x"), bytes_field(6, inner), bytes_field(5, bytes_field(1, bytes_field(6, inner))))
        return bytes_field(1, key) + bytes_field(2, held)

    def lost_link(self):
        """A link that points nowhere, and has keys that stand more than once."""
        trace, id = bytes_field(1, b"t" * 16), bytes_field(2, b"s" * 8)
        ids = self.choice(b"", trace, id, trace + bytes_field(2, bytes(8)), bytes_field(1, bytes(16)) + id, bytes_field(1, b"") + id)
        return ids + bytes_field(3, b"a=b") + bytes_field(4, self.pair(b"k")) * self.choice(0, 1, 2)

    def message(self, text, name):
        """A message with more pairs of keys that stand in it, and with more links."""
        out = []
        for number, wire, held in records(text):
            what = TABLE[name][number][1]
            if what[0] in ["one", "list"]:
                held = self.message(held, what[1])
            before = after = b""
            if what == KEY_VALUES and self.chance(self.part):
                again = bytes_field(number, self.pair(dict((n, key) for n, _, key in records(held)).get(1, b"")))
                before, after = self.choice((again, b""), (b"", again), (again, again))
            whole = varint(number * 8 + wire) + (varint(held) if wire == 0 else varint(len(held)) + held if wire == 2 else held)
            out.append(before + whole + after)
        while name == "Span" and self.chance(self.part):
            out.insert(self.random.randrange(len(out) + 1), bytes_field(13, self.lost_link()))
        return b"".join(out)

    def units(self):
        for group in self.groups():
            [(_, _, held)] = records(otlp.write_group(group))
            yield bytes_field(1, self.message(held, "ResourceSpans"))

    def whole(self):
        return b"".join(self.units())

    def parted(self):
        """The text with records behind the units that are none."""
        return b"".join(unit + self.choice(b"", b"", number_field(1, 7), bytes_field(2, b"\xff"), fixed32_field(9, 1)) for unit in self.units())


class LostReferences(Batches):
    """Draws batches some of whose references point nowhere."""

    def reference(self, trace, id):
        made = super().reference(trace, id)
        if self.chance(0.1):
            made.trace, made.id = self.choice((0, id), (trace, 0), (0, 0), (2**64, id))
        return made


# ---- cases


def shipped(form, folders):
    """The name and the bytes of each file of a form."""
    paths = [os.path.join(EXAMPLES, name) for name in SHIPPED[form]]
    for folder in folders:
        if os.path.basename(os.path.normpath(folder)) == form:
            paths += [os.path.join(folder, name) for name in sorted(os.listdir(folder))]
    for path in paths:
        with open(path, "rb") as file:
            yield f"file {os.path.basename(path)}", file.read()


def requests(classes, seeds):
    _, request, _, later = classes
    for name, text in real_input.cases(request, later, None):
        yield name, text
    for seed in range(seeds):
        yield f"drawn {seed}", Requests(seed).parted()
        yield f"spoilt {seed}", Spoiler(seed).request(Requests(seed).whole())
    yield from alike(seeds, OTLP)


def documents(_, seeds):
    yield "no groups", b'{"resourceSpans":[]}'
    yield "an empty object", b"{}"
    yield "no JSON", b"{"
    for seed in range(seeds):
        yield f"drawn {seed}", GroupDocuments(seed).document()
        yield f"as it is written {seed}", forms.write(JsonTraces(seed, 0).groups(), JSON)
        yield f"spoilt {seed}", GroupSpoiler(seed).spoil()
    yield from alike(seeds, JSON)


def alike(seeds, form):
    """Traces of which some groups have the resource of the one before, and that Zipkin can hold."""
    for seed in range(seeds):
        yield f"groups alike {seed}", forms.write([] if unfit(seed) else ZipkinTraces(seed, 0).groups(), form)


def batches(classes, seeds, form):
    types, _, later, _ = classes
    for name, text in real_batches.cases(types, later, form, []):
        yield name, text
    for seed in range(seeds):
        yield f"drawn {seed}", LostReferences(seed).whole(form)
        yield f"spoilt {seed}", BatchSpoiler(seed, form).spoil(LostReferences(seed).structs())


def zipkin_documents(_, seeds):
    yield "no spans", b"[]"
    yield "no JSON", b""
    for seed in range(seeds):
        yield f"drawn {seed}", Documents(seed).document()
        yield f"as it is written {seed}", forms.write(ZipkinTraces(seed, 0).groups(), ZIPKIN) if not unfit(seed) else b"[]"
        yield f"spoilt {seed}", DocumentSpoiler(seed).spoil()


def unfit(seed):
    """Whether Zipkin can't hold a drawn trace."""
    return any(forms.TARGETS[ZIPKIN][0](group) for group in ZipkinTraces(seed, 0).groups())


def cases(form, classes, seeds, folders):
    yield from shipped(form, folders)
    if form in PROTOCOLS:
        yield from batches(classes, seeds, form)
    else:
        yield from {OTLP: requests, JSON: documents, ZIPKIN: zipkin_documents}[form](classes, seeds)


# ---- comparing


def difference(answer, wanted):
    """What is wrong with the program's answer, if something is, and what it wrote."""
    status, note, lines, _ = wanted
    got, written, got_note = answer
    if (got, got_note) != (status, note):
        return f"status {got}, note {got_note!r}; wanted {status}, {note!r}", written
    return "other lines were written" if written != lines else None, written


class Tried:
    """How many inputs were tried, and how many differ. The program isn't asked where the readers are alone."""

    def __init__(self, is_alone):
        self.is_alone, self.count, self.wrong = is_alone, 0, 0

    def compare(self, name, text, wanted, asked):
        self.count += 1
        what, written = (None, b"") if self.is_alone else difference(asked(), wanted)
        if what is not None:
            real_input.report(name, text, what, wanted[2], written)
            self.wrong += 1

    def expect(self, is_right, what):
        if not is_right:
            print(f"WRONG: {what}")
            self.wrong += 1

    def expect_all(self, found, wanted, what):
        """That all that is wanted was found, and nothing else."""
        for one in wanted:
            self.expect(found[one], f"{what}: `{one}` came of no input")
        for one in sorted(set(found) - set(wanted)):
            self.expect(False, f"{what}: `{one}` came and must not")


def words(counter, order=None):
    return ", ".join(f"{word} {counter[word]}" for word in order or sorted(counter) if counter[word]) or "none"


class Found:
    """The groups of an input, which is read once, and its refusal."""

    def __init__(self, text, form):
        self.groups, self.why = [], None
        try:
            for group in forms.groups(text, form):
                self.groups.append(group)
        except Refusal as why:
            self.why = why

    def __iter__(self):
        yield from self.groups
        if self.why is not None:
            raise self.why


class Reported:
    """The lines of `show` and `check` over the inputs of a form."""

    def __init__(self, form):
        self.form, self.outcomes, self.remarked, self.places = form, collections.Counter(), collections.Counter(), collections.Counter()

    def look(self, tried, name, text, _):
        for mode in MODES:
            wanted = reports.verdict(text, self.form, mode)
            tried.compare(f"{name}, {mode} of {self.form}", text, wanted, lambda: report(text, self.form, mode))
        self.outcomes[wanted[3]] += 1
        told = re.findall(rb"^unit \d+ (?:(resource|scope) ?\d*|span \d+(?: (event|link) \d+)?): (\w+ \w+)", wanted[2], re.MULTILINE)
        self.remarked.update(kind.decode() for _, _, kind in told)
        self.places.update((first or inner or b"span").decode() for first, inner, _ in told)

    def end(self, tried):
        print(f"{self.form}: {words(self.outcomes)}; remarks: {words(self.remarked)}; at: {words(self.places)}")
        tried.expect_all(self.remarked, [KINDS[kind] for kind in REMARKED[self.form]], self.form)


class Lost:
    """The lines of `losses` over the inputs of a form to a target."""

    def __init__(self, form, target):
        self.form, self.target, self.outcomes, self.rows, self.kept = form, target, collections.Counter(), collections.Counter(), 0

    def look(self, tried, name, text, found):
        wanted = losses.told(found, self.target)
        what = f"{name}, losses of {self.form} to {self.target}"
        tried.compare(what, text, wanted, lambda: program.losses(text, self.form, self.target))
        self.outcomes[wanted[3]] += 1
        self.rows.update(row.decode() for row in re.findall(rb"^unit [^:]*: ([\w-]+)", wanted[2], re.MULTILINE))
        if wanted[0] == 0:
            back = list(forms.groups(forms.write(found.groups, self.target), self.target))
            is_kept = back == found.groups
            self.kept += is_kept
            tried.expect(is_kept == (wanted[2] == b"losses 0\n"), f"{what}: {wanted[2][-20:]}, and what comes back is {'the same' if is_kept else 'other'}")
            tried.expect(back == losses.normal(found.groups, self.target), f"{what}: what comes back isn't the normal form")

    def end(self, _):
        print(f"  to {self.target}: {words(self.outcomes)}; without a loss: {self.kept}; losses: {words(self.rows, losses.ROWS)}")


def try_form(form, found, tried):
    """Tries the inputs of a form, and answers how often each row of losses came, by targets."""
    looks = [Reported(form), *(Lost(form, target) for target in FORMS)]
    for name, text in found:
        read = Found(text, form)
        for look in looks:
            look.look(tried, name, text, read)
    for look in looks:
        look.end(tried)
    return {look.target: look.rows for look in looks[1:]}


def main():
    words = sys.argv[1:]
    is_alone = "--without-program" in words
    seeds = int(words[words.index("--seeds") + 1]) if "--seeds" in words else SEEDS
    folders = [word for word in words if os.path.isdir(word)]
    chosen = [form for form in FORMS if form in words] or FORMS
    if not is_alone and not os.path.exists(PROGRAM):
        sys.exit(BUILD)
    file = real_input.schema()
    types, later = real_batches.batch_classes()
    classes = types, real_input.request_class(file), later, real_input.request_class(real_input.newer(file))
    tried, rows = Tried(is_alone), {target: collections.Counter() for target in FORMS}
    for form in chosen:
        for target, came in try_form(form, cases(form, classes, seeds, folders), tried).items():
            rows[target] += came
    # Each row comes of OTLP; a batch and a span of Zipkin have little to lose.
    if {OTLP, JSON} & set(chosen):
        for target in FORMS:
            tried.expect_all(rows[target], losses.OF_TARGET.get(target, []), f"losses to {target}")
    print(f"{tried.count} cases, {tried.wrong} differences")
    sys.exit(1 if tried.wrong else 0)


if __name__ == "__main__":
    main()
