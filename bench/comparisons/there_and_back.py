#!/usr/bin/python3
"""Runs the built program over samples of each form to each form, back to their own, and there again: what is written last must be
what was written first.

What is written in a form is a trace that both forms hold as it is. So neither the way back nor the second way there has a loss or a
fault, whichever the forms are, and what comes back is the sample's own canonical text exactly where the first way lost nothing. The
forms of OTLP lose nothing on that either, nor does the sample's own form, or for a batch the other protocol. It tries all of this, and
that `losses` ends each first way as `convert` does. The program is compared with itself alone; what a text must be is for the other
scripts to say.

It is run at the top as bench/comparisons/there_and_back.py FOLDER.., after ./spanx has built the program. A folder of samples has
a folder for each form, named by the form's word, of which the files are taken whose names end in .bin or, for the forms in JSON,
in .json. Where none is given it is ../shared/samples, if that stands beside the checkout. It prints a line for each sample and
target, with the number of losses of the first way and `ok` or what differs, or with the note where the sample is refused or the
target can't hold it, and how often each of these came. It ends with 1 where something differs, and where there are no samples.
"""
import collections
import os
import re
import sys

sys.path.insert(1, os.path.dirname(os.path.dirname(os.path.realpath(__file__))))
import rooms  # first: it finds the others
from forms import FORMS, JSON, OTLP, ZIPKIN
from program import BUILD, PROGRAM, TOP, convert, losses
from protocols import PROTOCOLS

BESIDE = os.path.join(os.path.dirname(TOP), "shared", "samples")
ENDINGS = {form: ".json" if form in [JSON, ZIPKIN] else ".bin" for form in FORMS}
NONE_LOST = 0, b"losses 0\n", ""
LAST_LINE = re.compile(rb"(?:^|\n)losses (\d+)\n\Z")
OK, WRONG = "ok", "WRONG"
# What is said of a first way that ends with these statuses.
STOPPED = {3: "refused", 4: "faulted"}


def samples(folders):
    """The form, the name and the bytes of each sample."""
    for folder, form in ((folder, form) for folder in folders for form in FORMS):
        place = os.path.join(folder, form)
        for name in sorted(os.listdir(place)) if os.path.isdir(place) else []:
            if name.endswith(ENDINGS[form]):
                with open(os.path.join(place, name), "rb") as file:
                    yield form, name, file.read()


def keeps_all(source, target):
    """Whether a target loses nothing of what is read of a form."""
    return target in [OTLP, JSON, source] or {source, target} <= set(PROTOCOLS)


def ended(answer):
    """How a command ended, in short."""
    status, output, note = answer
    return f"status {status}, {len(output)} bytes that end in {output[-30:]!r}, note {note.strip()!r}"


def other_from(text, wanted):
    """Where a text begins to differ from another."""
    at = next((at for at, (one, other) in enumerate(zip(text, wanted)) if one != other), min(len(text), len(wanted)))
    return f"from byte {at} of {len(text)} on"


def differences(text, source, target, there, count):
    """What is wrong with a sample of which this was written first, with so many losses."""
    if count and keeps_all(source, target):
        yield "the first way must lose nothing"
    back, own = convert(there, target, source), convert(text, source, source)
    if (back[0], back[2]) != (0, ""):
        yield f"the way back: {ended(back)}"
        return
    if (back == own) != (count == 0):
        yield f"what comes back {'is' if back == own else f'differs {other_from(back[1], own[1])} from'} the sample's own canonical text"
    again = convert(back[1], source, target)
    if again != (0, there, ""):
        yield f"the second way: {ended(again)}, other {other_from(again[1], there)}"
    for way, lost in [("way back", losses(there, target, source)), ("second way", losses(back[1], source, target))]:
        if lost != NONE_LOST:
            yield f"losses of the {way}: {ended(lost)}"


def come_of(text, source, target):
    """What a sample and a target come to, and what is told of it."""
    first, lost = convert(text, source, target), losses(text, source, target)
    status, there, note = first
    as_one, count = (status, note) == (lost[0], lost[2]), LAST_LINE.search(lost[1])
    may_stop = status == 3 or target == JSON or not keeps_all(source, target)
    if as_one and status in STOPPED and may_stop:
        return STOPPED[status], f"{STOPPED[status]}: {note.strip()}"
    if not as_one or status != 0 or note or count is None:
        return WRONG, f"{WRONG}: {ended(first)}; losses: {ended(lost)}"
    found = list(differences(text, source, target, there, int(count[1])))
    return WRONG if found else OK, f"losses {int(count[1])}, {f'{WRONG}: ' + '; '.join(found) if found else OK}"


def main():
    folders = sys.argv[1:] or [BESIDE]
    if not os.path.exists(PROGRAM):
        sys.exit(BUILD)
    counts, files = collections.Counter(), 0
    for source, name, text in samples(folders):
        files += 1
        for target in FORMS:
            outcome, told = come_of(text, source, target)
            counts[outcome] += 1
            print(f"{source} {name} to {target}: {told}")
    if not files:
        sys.exit(f"no samples in {' '.join(folders)}: name a folder that has folders {', '.join(FORMS)}")
    print(f"{files} samples, {files * len(FORMS)} ways: {', '.join(f'{counts[outcome]} {outcome}' for outcome in [OK, *STOPPED.values(), WRONG])}")
    sys.exit(1 if counts[WRONG] else 0)


if __name__ == "__main__":
    main()
