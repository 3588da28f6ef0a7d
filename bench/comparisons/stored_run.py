#!/usr/bin/python3
"""Writes the run of spanx that is stored in crates/spanx, its words and its output; or runs a built program on that and on a run that ends badly.

The stored run is the gauge of one span. It reads nothing, notes nothing and ends with 0, so it can't show that a program answers
its status, reads its input and tells its output from its notes. The other run shows these: it converts examples/checkout.bin
without its last bytes, a whole unit and one that ends too early. What both must answer is what the readers, tables and writers of
bench/readers say.

It is run at the top: bench/comparisons/stored_run.py writes, and bench/comparisons/stored_run.py --check [PROGRAM] runs PROGRAM,
or what ./spanx has built. It then ends with 0 where status, output and note of both runs are as they must be.
"""
import os
import sys

sys.path.insert(1, os.path.dirname(os.path.dirname(os.path.realpath(__file__))))
import rooms  # first: it finds the others
import forms
import gauge
from program import BUILD, PROGRAM, TOP, answer, command

RUN = os.path.join(TOP, "crates", "spanx")
SPANS = 1
CUT = 100


def gauged():
    """The words of the stored run, its input, and its status, output and note."""
    read = list(forms.groups(gauge.request(SPANS), forms.OTLP))
    sizes = {form: len(forms.write(read, form)) for form in forms.FORMS}
    return ["gauge", "--spans", str(SPANS)], b"", (0, gauge.lines(SPANS, sizes), "")


def cut():
    """The same of the run on a request that is cut."""
    with open(os.path.join(TOP, "examples", "checkout.bin"), "rb") as whole:
        text = whole.read()[:-CUT]
    status, note, written, _ = forms.verdict(text, forms.OTLP, forms.ZIPKIN)
    return command(forms.OTLP, forms.ZIPKIN)[1:], text, (status, written, note)


def store(name, text):
    with open(os.path.join(RUN, name), "wb") as out:
        out.write(text)


def write():
    words, _, (_, output, _) = gauged()
    store("args", "".join(f"{word}\n" for word in words).encode())
    store("stdout", output)
    print(output.decode(), end="")


def check(program):
    """How many of both runs a program answers otherwise."""
    wrong = 0
    for words, text, wanted in [gauged(), cut()]:
        got = answer([program, *words], text)
        wrong += got != wanted
        status, output, note = got
        print(f"{'ok' if got == wanted else 'WRONG'}: {' '.join(words)}: status {status}, {len(output)} bytes, {note.strip()!r}")
    return wrong


def main():
    if sys.argv[1:2] != ["--check"]:
        return write()
    program = os.path.abspath(sys.argv[2]) if len(sys.argv) > 2 else PROGRAM
    if not os.path.exists(program):
        sys.exit(BUILD)
    return bool(check(program))


if __name__ == "__main__":
    sys.exit(main())
