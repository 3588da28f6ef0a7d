#!/usr/bin/python3
"""Times the two lines of docs/MANY.md that convert many files side by side, beside `cp` of the same files.

It is run at the top as bench/speed/many_speed.py [COUNT], over 10,000 files or so many, after ./spanx has built the program. Each
file is a request of 100 spans as conversions.py makes it. They go to zipkin-json by `xargs`, a `sh` for each, as many side by
side as there are processors: by `cp`, and by the words of both lines of the page, for which `spanx` is in PATH, as where it is
installed. All outputs must be there, with the length of what `convert` writes here; between the runs they are deleted. It prints
the rows of the table in docs/PERFORMANCE.md. The program runs as ./spanx runs it. These figures are no test: they hang on the
machine and its load.
"""
import os
import re
import shutil
import subprocess
import sys
import tempfile
import time

sys.path.insert(1, os.path.dirname(os.path.dirname(os.path.realpath(__file__))))
import rooms  # first: it finds the others
from conversions import SCOPES, SPANS, bytes_field, random_numbers, resource, scope, span, span_rest
from program import BUILD, PROGRAM, TOP, convert

PAGE = os.path.join(TOP, "docs", "MANY.md")
FORMS = "otlp-proto", "zipkin-json"


def words_of_page(name):
    """What the page gives `sh -c` in each run, with the installed program."""
    with open(PAGE, encoding="utf-8") as page:
        found = re.search(rf"xargs -0 -n 1 -P 2 sh -c \\\n +'([^']*)' {name}\b", page.read())
    return found[1].replace("./spanx", "spanx")


def one_request():
    """A request of one resource with a hundred spans."""
    numbers = random_numbers(7)
    scopes = [scope(n, [span(SPANS * n + i, span_rest(next(numbers))) for i in range(SPANS)]) for n in range(SCOPES)]
    return bytes_field(1, resource(0) + b"".join(scopes))


def run(room, words, processes):
    """The seconds of the whole line over all files."""
    shutil.rmtree(os.path.join(room, "out"), ignore_errors=True)
    os.mkdir(os.path.join(room, "out"))
    line = 'find in -name "*.bin" -print0 | xargs -0 -n 1 -P "$1" sh -c "$2" move > moved.txt'
    settings = os.environ | {"PATH": os.path.join(room, "bin") + os.pathsep + os.environ["PATH"]}
    begin = time.monotonic()
    subprocess.run(["bash", "-o", "pipefail", "-c", line, "line", str(processes), words], cwd=room, check=True, env=settings)
    return time.monotonic() - begin


def lengths(room, end):
    folder = os.path.join(room, "out")
    return [os.stat(os.path.join(folder, name)).st_size for name in os.listdir(folder) if name.endswith(end)]


def main(count=10_000):
    if not os.path.exists(PROGRAM):
        sys.exit(BUILD)
    text, processes = one_request(), os.cpu_count()
    status, written, note = convert(text, *FORMS)
    if status or not written:
        sys.exit(f"the program refuses the input: {note}")
    with tempfile.TemporaryDirectory() as room:
        for folder in ["in", "bin"]:
            os.mkdir(os.path.join(room, folder))
        os.symlink(os.path.join(TOP, "examples"), os.path.join(room, "examples"))
        os.symlink(PROGRAM, os.path.join(room, "bin", "spanx"))
        for n in range(count):
            with open(os.path.join(room, "in", f"{n}.bin"), "wb") as file:
                file.write(text)
        print(f"{count:,} files of {len(text):,} bytes, {processes} side by side, to {len(written):,} bytes each", flush=True)
        copied = 'cp "$1" out/$(basename "$1" .bin).json'
        lines = {"`cp`": copied, "`convert`, `mv`": words_of_page("convert"), "`examples/move.sh`": words_of_page("move")}
        for name, words in lines.items():
            seconds = run(room, words, processes)
            wanted = len(text) if words == copied else len(written)
            if lengths(room, ".json") != [wanted] * count or lengths(room, ".part"):
                sys.exit(f"{name}: outputs are missing, or have another length")
            speed = len(text) * count / 1e6 / seconds
            print(f"| {name} | {seconds:.1f} s | {seconds / count * 1000:.2f} ms | {speed:.0f} |", flush=True)


if __name__ == "__main__":
    main(*map(int, sys.argv[1:2]))
