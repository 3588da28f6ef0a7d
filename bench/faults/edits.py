#!/usr/bin/python3
"""Shows of each wrong body in crates/*/must-fail that the prover refuses it, and at which goal of which function.

A file there may hold several wrong bodies, one after the other, each in another function. The gate shows of such a file that it
is refused as a whole; this shows it of each body. A line `# NAME` begins one, and names it; without such a line a body has the
name of its file. All bodies of a crate are put into one copy of it, which is checked once. A contract is all that callers know
of a function, so what is open in one shows nothing of another. Where two bodies turn the same function, the second goes into a
second check. What is open is told by the check's lines, which name the goal: `returns-clause-ok` is the clause `ok`. Where the
prover finds values at which a goal is false, that is told, too. A body outside functions, as of a constant, is refused where a
function that names it has an open goal.

It is run anywhere: bench/faults/edits.py [--check COMMAND] [CRATE..]. Without names it takes all crates, which takes as long as
their checks do. It checks by `rt check` in a copy of the checkout in a temporary folder, which begins with what the toolchain
kept of earlier checks. A COMMAND checks in its place, with the folder of the copy and the crate's name behind it. It ends with 0
where each body is refused at a goal, and with 1 where one isn't, or only since a proof file cites a name that is gone, or where
one can't be put into its place.
"""
import argparse
import os
import re
import resource
import shlex
import shutil
import subprocess
import sys
import tempfile

sys.path.insert(1, os.path.dirname(os.path.dirname(os.path.realpath(__file__))))
import rooms

TOP = rooms.TOP
# What a checkout needs for a check.
PARTS = ["crates", "crates.txt", "HANDLES"]
FUNCTION = re.compile(r"( *)(?:pub(?:\([^)]*\))? )?(?:(?:final|const|unsafe) )*fn (\w+)")
OWNER = re.compile(r"( *)(?:pub(?:\([^)]*\))? )?(?:impl\b(?:<.*?>)? (?:([\w:]+)(?:<.*>)? for )?([\w:]+)|trait (\w+))")
NAMED = re.compile(r"(?:const|static) (\w+)|use .*?(\w+)(?: as (\w+))?;")
# What the check says of a goal, in a source file or in a proof file, and of a function.
OPEN = re.compile(r"(?:note: )?(?:\./)?(src/\S+?):(\d+):\d+: (?:error: )?.*is not proved.*\(`([^`]+)`\)(.*)")
MISFIT = re.compile(r"(?:note: )?(?:\./)?((proofs/\S+)/\w+\.antt:\d+):\d+: error: `([^`]+)`: (.*)")
LACKING = re.compile(r"fn (\S+): no proof: .*?`search` did not prove ((?:`[^`]+`(?:, )?)+)")
# What a proof file says that cites a name which is gone, and what rests on that proof.
GONE = re.compile(r"has no field|is not in scope|has no `|was not admitted|declarations? that depends? on")
# The prover met a limit of its own, which is no verdict on the function.
UNTOLD = re.compile(r"fn (\S+): could not tell")


class Unfit(Exception):
    """Why a wrong body can't be put into its place."""


class Body:
    """A wrong body: its name, and the pairs of texts by which it changes files."""

    def __init__(self, name):
        self.name, self.pairs = name, []

    def put_into(self, texts):
        """The places that it turns, as pairs of a file and a function or an item; the texts are changed."""
        turned = set()
        for path, old, new in self.pairs:
            if path not in texts or texts[path].count(old) != 1:
                raise Unfit(f"'{old}' stands {texts.get(path, '').count(old)} times in {path}")
            at = texts[path].count("\n", 0, texts[path].index(old))
            turned.add((path, *place(texts[path].split("\n"), at)))
            texts[path] = texts[path].replace(old, new)
        return turned


def bodies(path):
    """The wrong bodies of a file."""
    found, file, old = [Body(os.path.basename(path).removesuffix(".edit"))], "", None
    for line in open(path, encoding="utf-8").read().split("\n"):
        if line.startswith("# "):
            found.append(Body(line[2:].strip()))
        elif line.startswith("file: "):
            file = line[6:].strip()
        elif line.startswith("old: "):
            old = line[5:]
        elif line.startswith("new:"):
            found[-1].pairs.append((file, old, line[4:].removeprefix(" ")))
    return [body for body in found if body.pairs]


def above(lines, at, pattern, indent):
    """The nearest line before that fits the pattern and stands further left, as a match; the line itself may fit, too."""
    for line in reversed(lines[: at + 1]):
        match = pattern.match(line)
        if match and (len(match[1]) < indent or line is lines[at] and len(match[1]) == indent):
            return match
    return None


def place(lines, at):
    """The owner and the function in which a line stands; outside functions no owner, and the name of the item behind a dash."""
    while lines[at].lstrip().startswith("#["):
        at += 1
    indent = len(lines[at]) - len(lines[at].lstrip())
    function = above(lines, at, FUNCTION, indent)
    if not function:
        names = NAMED.search(lines[at])
        return "", "-" + (next(name for name in reversed(names.groups()) if name) if names else lines[at].strip())
    owner = above(lines, at, OWNER, len(function[1]))
    kinds = [kind.split("::")[-1] for kind in owner.groups()[1:] if kind] if owner else []
    # The check writes `MemSinkSink` for the `Sink` of a `MemSink`.
    return "".join(reversed(kinds)), function[2]


def sources(folder):
    """The texts of a crate's sources, by their paths in it."""
    found = {}
    for at, _, files in os.walk(os.path.join(folder, "src")):
        for name in files:
            path = os.path.join(at, name)
            found[os.path.relpath(path, folder)] = open(path, encoding="utf-8").read()
    return found


def stands_alone(turned):
    """Whether an item outside functions is turned, of which any function that names it may tell."""
    return any(name.startswith("-") for _, _, name in turned)


def rounds(texts, given):
    """The wrong bodies in lists of which none turns a place twice: each a list of bodies with their places, and the texts."""
    made = []
    for body in given:
        alone = stands_alone(body.put_into(dict(texts)))
        for those, changed in made:
            tried = dict(changed)
            try:
                turned = body.put_into(tried)
            except Unfit:
                continue
            if not alone and not any(turned & other or stands_alone(other) for _, other in those):
                those.append((body, turned))
                changed.update(tried)
                break
        else:
            changed = dict(texts)
            made.append(([(body, body.put_into(changed))], changed))
    return made


def file_of(parts, texts):
    """The file of a module in which a function of this path stands, and the path that is left of it."""
    for length in range(len(parts), -1, -1):
        path = "/".join(["src", *parts[:length]]) + ".rt" if length else "src/lib.rt"
        if path in texts:
            return path, parts[length:]
    return "", parts


def named(path, left):
    """A function as a place, by its file and by what is left of its path: `Type::name`, `name`, or with `fn` of its closures."""
    if "fn" in left[:-1]:
        at = left.index("fn")
        left = [*left[:at], left[at + 1]]
    return path, "".join(left[:-1]), left[-1] if left else ""


class Told:
    """What a check says: of each function its open goals, each with a line and how; and the functions without a verdict."""

    def __init__(self, lines, texts):
        self.goals, self.untold, self.texts = {}, set(), texts
        for line in lines:
            for read in self.read_open, self.read_misfit, self.read_lacking, self.read_untold:
                read(line)

    def add(self, function, goal, at, how):
        held = self.goals.setdefault(function, {})
        was = held.get(goal)
        # A goal that is open for itself counts before one whose answer cites a name that is gone.
        if was is None or was[1] == "gone" and how != "gone":
            held[goal] = at, how

    def read_open(self, line):
        match = OPEN.match(line)
        if match and match[1] in self.texts:
            function = match[1], *place(self.texts[match[1]].split("\n"), int(match[2]) - 1)
            how = "false" if "goal is false" in match[4] else "open"
            self.add(function, match[3], f"{match[1]}:{match[2]}", how)

    def read_misfit(self, line):
        match = MISFIT.match(line)
        if not match:
            return
        path, left = file_of(match[2].split("/")[1:], self.texts)
        at, how = match[1], "gone" if GONE.search(match[4]) else "open"
        if left and left[-1].startswith("+"):
            # The functions of a cycle have one proof, whose goals begin with their names.
            for name in {found[2] for found in functions(path, self.texts[path]) if match[3].startswith(found[2] + "-")}:
                self.add((path, "", name), match[3].removeprefix(name + "-"), at, how)
        elif left:
            self.add(named(path, left), match[3], at, how)

    def read_lacking(self, line):
        match = LACKING.match(line)
        if match:
            path, left = file_of(match[1].split("::")[1:], self.texts)
            for goal in re.findall(r"`([^`]+)`", match[2]) if left else []:
                self.add(named(path, left), goal, path, "open")

    def read_untold(self, line):
        match = UNTOLD.match(line)
        if match:
            path, left = file_of(match[1].split("::")[1:], self.texts)
            self.untold.add(named(path, left) if left else (path, "", ""))


def functions(path, text):
    """The functions of a file, as places."""
    lines = text.split("\n")
    return [(path, *place(lines, at)) for at, line in enumerate(lines) if FUNCTION.match(line)]


def same(one, other):
    """Whether two places are one function: a path of the check may tell more of the type than the source does."""
    short, long = sorted([one[1], other[1]], key=len)
    return one[0] == other[0] and one[2] == other[2] and long.startswith(short) and bool(short) == bool(long)


def bounds(text, function):
    """The text from a function's name to the next function."""
    lines = text.split("\n")
    starts = [at for at, line in enumerate(lines) if FUNCTION.match(line)] + [len(lines)]
    for begin, end in zip(starts, starts[1:]):
        if place(lines, begin) == function[1:]:
            return "\n".join(lines[begin:end])
    return ""


def at_goals(turned, told, others):
    """The open goals that show a wrong body, each as a function, a goal, a line and how; others are what other bodies turn."""
    items = [re.escape(spot[2][1:]) for spot in turned if spot[2].startswith("-")]
    for function, goals in told.goals.items():
        own = any(same(function, spot) for spot in turned)
        names = any(re.search(rf"\b{item}\b", bounds(told.texts.get(function[0], ""), function)) for item in items)
        if own or names and not any(same(function, spot) for spot in others):
            yield from ((function, goal, at, how) for goal, (at, how) in goals.items())


def spelled(function):
    path, owner, name = function
    return f"{path} {owner + '::' if owner else ''}{name.removeprefix('-')}"


def verdict(turned, told, others):
    """Whether a wrong body is refused, and what is said of it."""
    found = sorted(at_goals(turned, told, others), key=lambda it: (["false", "open", "gone"].index(it[3]), "clause" not in it[1]))
    own = [it for it in found if it[3] != "gone"]
    if not own:
        if found:
            return False, f"only for a name that is gone, at {found[0][1]} ({found[0][2]})"
        lost = any(same(function, spot) for function in told.untold for spot in turned)
        return False, "the prover met a limit of its own" if lost else "NOT REFUSED"
    function, goal, at, how = own[0]
    clause = re.search(r"clause-(\w+)", goal)
    more = f", and {len(own) - 1} more" if own[1:] else ""
    where = f"clause {clause[1]} of {function[2]}" if clause else f"{function[2]}"
    return True, f"at {where}: {goal} ({at}){', which can be false' if how == 'false' else ''}{more}"


def tried(command, copy, crate, texts):
    """The lines of a check of the copy with these texts in the crate, and the processor time that it took."""
    folder = os.path.join(copy, "crates", crate)
    was = sources(folder)
    write(folder, texts)
    used = resource.getrusage(resource.RUSAGE_CHILDREN)
    words = [*shlex.split(command), copy, crate] if command else ["rt", "check"]
    how = {"stdin": subprocess.DEVNULL, "stdout": subprocess.PIPE, "stderr": subprocess.STDOUT, "text": True, "errors": "replace"}
    done = subprocess.run(words, cwd=folder, **how)
    after = resource.getrusage(resource.RUSAGE_CHILDREN)
    write(folder, was)
    return done.stdout.split("\n"), after.ru_utime + after.ru_stime - used.ru_utime - used.ru_stime


def write(folder, texts):
    for path, text in texts.items():
        with open(os.path.join(folder, path), "w", encoding="utf-8") as out:
            out.write(text)


def kept(source, target):
    """Copies a file for a check; what was proved, which a check replaces and never changes, by a link where that can be."""
    if source.endswith(".oantt"):
        try:
            return os.link(source, target)
        except OSError:
            pass
    return shutil.copy2(source, target)


def copied(copy, crate, whole):
    """Puts what a check needs into a folder; with a command of one's own also what it kept in the crate's folder out."""
    os.makedirs(copy)
    for part in PARTS:
        source, target = os.path.join(TOP, part), os.path.join(copy, part)
        if os.path.isdir(source):
            shutil.copytree(source, target, ignore=shutil.ignore_patterns("out"))
        elif os.path.exists(source):
            shutil.copy2(source, target)
    out = os.path.join(TOP, "crates", crate, "out")
    if whole and os.path.isdir(out):
        shutil.copytree(out, os.path.join(copy, "crates", crate, "out"), symlinks=True, copy_function=kept)


def wrong_in(crate, command):
    """How many wrong bodies of a crate aren't refused as they must be, of how many; each is told in a line."""
    folder = os.path.join(TOP, "crates", crate)
    given, texts = given_of(folder), sources(folder)
    try:
        made = rounds(texts, given)
    except Unfit as why:
        print(f"WRONG: {crate}: can't be put into its place: {why}")
        return 1, len(given)
    wrong = 0
    for number, (those, changed) in enumerate(made, 1):
        with tempfile.TemporaryDirectory(prefix="edits-") as room:
            copied(f"{room}/copy", crate, bool(command))
            lines, seconds = tried(command, f"{room}/copy", crate, changed)
        wrong += judged(crate, those, lines, changed)
        print(f"{crate}: check {number} of {len(made)}: {len(those)} wrong bodies, {seconds:.0f} s of processor time", flush=True)
    return wrong, len(given)


def judged(crate, those, lines, texts):
    """How many wrong bodies of one check aren't refused."""
    if not any(line.startswith("logic=not-proved") or UNTOLD.match(line) for line in lines):
        last = [line[:200] for line in lines if line][-6:]
        print(f"WRONG: {crate}: the check came to no verdict that refuses", *last, sep="\n    ")
        return len(those)
    told, wrong = Told(lines, texts), 0
    for body, turned in those:
        others = [spot for other, spots in those for spot in spots if other is not body]
        refused, why = verdict(turned, told, others)
        wrong += not refused
        spots = ", ".join(spelled(spot) for spot in sorted(turned))
        print(f"{'ok' if refused else 'WRONG'}: {crate} {body.name}: {spots}: {'refused ' if refused else ''}{why}")
    return wrong


def given_of(folder):
    held = os.path.join(folder, "must-fail")
    files = sorted(name for name in os.listdir(held) if name.endswith(".edit"))
    return [body for name in files for body in bodies(os.path.join(held, name))]


def main():
    parser = argparse.ArgumentParser(description=__doc__.split("\n")[0])
    parser.add_argument("crates", nargs="*", metavar="CRATE")
    parser.add_argument("--check", default="", metavar="COMMAND")
    asked = parser.parse_args()
    folder = os.path.join(TOP, "crates")
    all_of = [name for name in sorted(os.listdir(folder)) if os.path.isdir(os.path.join(folder, name, "must-fail"))]
    wrong = count = 0
    for crate in asked.crates or all_of:
        more, of = wrong_in(crate, asked.check)
        wrong, count = wrong + more, count + of
    print(f"{count} wrong bodies, {wrong} of them not refused as they must be")
    return bool(wrong)


if __name__ == "__main__":
    sys.exit(main())
