#!/usr/bin/python3
"""Runs every command of README.md, of the pages under docs/ and of the man page, and compares what it prints with what the page
says.

In an indented block, a line that begins with `$ ` is a command, which goes on in the next line where it ends with `|` or `\\`; what
stands below it is what it prints, on both outputs. The commands of a page run one after the other in a folder of its own, beside
which the examples lie. A command within a sentence must stand in one of these, or name a script that is there, or print nothing.
What they post goes to servers of Python's on this machine that take what a Collector, Jaeger and Zipkin take by their documents
(stand_ins.py). Then the rows of pages are tried that say what is lost and refused (tried_rows.py), and under which keys attributes
stand (tried_keys.py).

It needs the three built programs, and is run as bench/pages/pages.py [--update]; with --update it writes what was printed into
the pages. It ends with 1 on a difference.
"""
import glob
import os
import re
import shutil
import subprocess
import sys
import tempfile

sys.path.insert(1, os.path.dirname(os.path.dirname(os.path.realpath(__file__))))
import rooms  # first: it finds the others
import stand_ins
import tried_keys
import tried_rows
from agent import AGENT
from program import BUILD, PROGRAM, TOP
from relay import RELAY

MANUAL = os.path.join(TOP, "docs", "spanx.1")
PAGES = [os.path.join(TOP, "README.md"), *sorted(glob.glob(os.path.join(TOP, "docs", "*.md")))]
INDENT = "    "
COMMANDS = re.compile(r"(\./|examples/|bench/|spanx |jq |curl |gzip |tail |rt |python3 |diff |for |protoc )")
SECONDS = 60


class Command:
    """A command of a page, what it must print, and where its lines stand."""

    def __init__(self, lines, at):
        self.begin, taken = at, []
        while True:
            taken.append(lines[at].removeprefix(INDENT))
            at += 1
            if not re.search(r"[|\\]$", taken[-1]):
                break
        self.text = "\n".join(taken).removeprefix("$ ")
        self.end_of_text, self.printed = at, []
        while at < len(lines) and lines[at].startswith(INDENT) and not lines[at].startswith(INDENT + "$ "):
            self.printed.append(lines[at].removeprefix(INDENT))
            at += 1
        self.end = at


def commands(lines):
    """The commands of a page, in their order, and the numbers of lines that look like one and aren't marked."""
    found, unmarked, at, is_block = [], [], 0, False
    while at < len(lines):
        line = lines[at]
        is_block = line.startswith(INDENT) and (is_block or not lines[at - 1].strip())
        if is_block and line.startswith(INDENT + "$ "):
            found.append(Command(lines, at))
            at = found[-1].end
            continue
        if is_block and COMMANDS.match(line.removeprefix(INDENT)):
            unmarked.append(at + 1)
        at += 1
    return found, unmarked


def run(command, folder):
    """What a command prints, by lines."""
    try:
        done = subprocess.run(["bash", "-c", command], cwd=folder, stdin=subprocess.DEVNULL, stdout=subprocess.PIPE, stderr=subprocess.STDOUT, timeout=SECONDS)
    except subprocess.TimeoutExpired:
        return [f"ended after {SECONDS} seconds"]
    return done.stdout.decode(errors="replace").splitlines()


def odd_inside(text, texts_of_commands):
    """Commands within the sentences of a page that are none of those that run, and print something or can't be run."""
    odd = []
    for inside in re.findall(r"`([^`\n]+)`", re.sub(rf"(?m)^{INDENT}.*$", "", text)):
        inside = inside.replace(r"\|", "|")
        if not COMMANDS.match(inside) or any(inside in command for command in texts_of_commands):
            continue
        first = inside.split()[0]
        if first == "rt" or first.startswith(("bench/", "examples/")) and os.path.exists(os.path.join(TOP, first)):
            continue
        if first in ["./spanx", "./spanx_agent", "./spanx_relay", "./package"] and (inside == first or not run(inside, TOP)):
            continue
        odd.append(f"`{inside}` is no command that was run")
    return odd


def try_page(path, update, texts_of_commands):
    """Runs the commands of a page, before backends that have kept nothing, and answers how many there are and what differs."""
    stand_ins.KEPT.clear()
    with open(path, encoding="utf-8") as page:
        lines = page.read().split("\n")
    found, unmarked = commands(lines)
    wrong = odd_inside("\n".join(lines), texts_of_commands)
    wrong += [f"line {number} looks like a command and isn't marked: {lines[number - 1].strip()}" for number in unmarked]
    with tempfile.TemporaryDirectory() as folder:
        for name in ["spanx", "spanx_agent", "spanx_relay", "examples", "docs"]:
            os.symlink(os.path.join(TOP, name), os.path.join(folder, name))
        for command in found:
            command.now = run(command.text, folder)
            if command.now != command.printed:
                wrong.append(f"line {command.begin + 1}: {command.text}\n  printed: {command.now}\n  the page: {command.printed}")
    if update:
        for command in reversed(found):
            lines[command.end_of_text : command.end] = [INDENT + line for line in command.now]
        with open(path, "w", encoding="utf-8") as page:
            page.write("\n".join(lines))
    return len(found), wrong


def try_manual():
    """Runs the examples of the man page, and answers how many there are and what differs."""
    with open(MANUAL, encoding="utf-8") as page:
        examples = page.read().partition("\n.Sh EXAMPLES\n")[2].partition("\n.Sh ")[0]
    found = re.findall(r"\n\.Bd -literal[^\n]*\n(.*?)\n\.Ed\n.*?\n\.Ql ([^\n]*?)(?: [.,])?\n", examples, re.DOTALL)
    wrong = []
    for command, printed in found:
        now = run(f"export PATH={TOP}:$PATH; " + command.replace(r"\e", "\\"), TOP)
        if now != [printed]:
            wrong.append(f"{command}\n  printed: {now}\n  the page: {printed}")
    return len(found), wrong


def beyond_first_screen():
    """Lines of README in front of its first heading that are beyond 39, or wider than 100 columns."""
    with open(PAGES[0], encoding="utf-8") as page:
        lines = page.read().split("\n## ")[0].split("\n")
    return [f"line {number} is no part of a first screen: {line}" for number, line in enumerate(lines, 1) if number >= 40 or len(line) > 100]


def main():
    if not all(os.access(program, os.X_OK) for program in [PROGRAM, AGENT, RELAY]):
        sys.exit(BUILD)
    for needed in ["curl", "jq", "protoc"]:
        if not shutil.which(needed):
            sys.exit(f"there is no {needed}")
    wrong, texts_of_commands = 0, []
    for path in PAGES:
        with open(path, encoding="utf-8") as page:
            texts_of_commands += [command.text for command in commands(page.read().split("\n"))[0]]
    with stand_ins.running():
        for path in [*PAGES, MANUAL]:
            count, differences = try_manual() if path == MANUAL else try_page(path, "--update" in sys.argv, texts_of_commands)
            differences += beyond_first_screen() if path == PAGES[0] else []
            for difference in differences:
                print(f"WRONG: {os.path.relpath(path, TOP)}, {difference}")
            if count and not differences:
                print(f"ok: {os.path.relpath(path, TOP)}: {count} commands")
            wrong += len(differences)
    return wrong + tried_rows.main() + tried_keys.main()


if __name__ == "__main__":
    sys.exit(1 if main() else 0)
