#!/usr/bin/env python3
"""Checks that the man pages docs/spanx.1, docs/spanx_agent.1 and docs/spanx_relay.1 and the pages say what the specification files say:
the numbers and names of causes and faults, the statuses, the lines on standard error, the words, those of reports and the rows of
losses too, and the limits. It checks the man pages' own form by `mandoc`, too.

The words are looked up by their names in all files under crates/*/specs, whichever file they stand in. It ends with 0 where all
agree. Another folder of crates can be named: bench/pages/manual.py FOLDER.
"""
import glob
import os
import re
import subprocess
import sys

sys.path.insert(1, os.path.dirname(os.path.dirname(os.path.realpath(__file__))))
import rooms  # first: it finds the others
import json_text

TOP = rooms.TOP
MANUAL = os.path.join(TOP, "docs", "spanx.1")
AGENT = os.path.join(TOP, "docs", "spanx_agent.1")
RELAY = os.path.join(TOP, "docs", "spanx_relay.1")
PAGES = [os.path.join(TOP, "README.md"), *sorted(glob.glob(os.path.join(TOP, "docs", "*.md")))]


def specifications(crates, crate="*"):
    """The lines of all specification files, or of those of one crate."""
    return [line.rstrip("\n") for path in sorted(glob.glob(os.path.join(crates, crate, "specs", "**", "*.antt"), recursive=True)) for line in open(path, encoding="utf-8")]


def equations(lines, word):
    """What a function gives, by the constructor that it is given: `word (Constructor x) = held`."""
    found = (re.fullmatch(rf"{word} \(?(?:\w+\.)?(\w+)(?: \w+)*\)? = (.*)", line) for line in lines)
    return {match[1]: match[2] for match in found if match}


def texts(lines, word):
    return {name: re.fullmatch(r'codes "(.*)"', held)[1] for name, held in equations(lines, word).items()}


def numbered(lines, word):
    """The numbers and names of a table."""
    names = texts(lines, f"{word}_name")
    return {int(number): names[constructor] for constructor, number in equations(lines, f"{word}_number").items()}


def datagram_causes(lines):
    """The numbers and names that datagrams alone have: the others are those of reading."""
    return numbered([line for line in lines if "Reading" not in line], "agent_cause")


def whole_lines(lines):
    """The lines that are noted as they stand, without a part that hangs on the input."""
    held = (re.fullmatch(r'\w+(?: [\w.]+)? = codes "([^"]*)\\n"', line) for line in lines)
    return {match[1] for match in held if match}


def number_of(text):
    """A number as the specification writes it: `16384`, `2 ^ 40`."""
    base, _, power = text.partition("^")
    return int(base) ** int(power or 1)


class Manual:
    """The lists of the man page, by section and subsection, and the words in capitals of its lines of reports."""

    def __init__(self, path):
        self.items, self.capitals, at = {}, set(), ""
        for line in open(path, encoding="utf-8"):
            word, _, rest = line.rstrip("\n").partition(" ")
            if word in [".Sh", ".Ss"]:
                at = rest
            if word == ".It":
                self.items.setdefault(at, []).append(rest.replace(r"\(dq", '"'))
            if word == ".Ql" and at == "REPORT LINES" and rest.isupper():
                self.capitals.add(rest.split(" ")[0])

    def table(self, at):
        rows = [item.split(" ") for item in self.items[at]]
        return {int(number): name for number, name in rows}

    def words(self, at):
        return {item.removeprefix("Cm ") for item in self.items[at]}


def agent_checks(lines, agent_lines, manual):
    """The same of the man page of the agent."""
    own = datagram_causes(lines)
    items = [item.split(" ") for item in manual.items["DIAGNOSTICS"]]
    rows = {int(item[0]): item[1] for item in items if len(item) == 2}
    known = numbered(lines, "cause") | own
    yield "causes of datagrams", own, {number: name for number, name in rows.items() if number >= 40}
    yield "causes beside these", {number: known.get(number) for number in rows}, rows
    ends = {int(status) for status in equations(agent_lines, "end_status").values()} | {2}
    yield "statuses of the agent", ends, {int(item) for item in manual.items["EXIT STATUS"]}
    with open(AGENT, encoding="utf-8") as page:
        said = {line.removeprefix(".Li ").removesuffix(" .") for line in page.read().split("\n.Sh EXIT STATUS\n")[1].split("\n.Sh ")[0].split("\n") if line.startswith(".Li ")}
    yield "lines of the agent", whole_lines(agent_lines), said
    with open(AGENT, encoding="utf-8") as page:
        yield "forms of the agent", set(texts(lines, "form_word").values()), set(re.findall(r"^\.Cm ([a-z]+-[a-z]+)", page.read(), re.MULTILINE))


def relay_checks(lines, relay_lines, manual):
    """The same of the man page of the relay."""
    ends = {int(status) for status in equations(relay_lines, "end_status").values()} | {2}
    yield "statuses of the relay", ends, {int(item) for item in manual.items["EXIT STATUS"]}
    with open(RELAY, encoding="utf-8") as page:
        text = page.read()
    said = set(re.findall(r"(?m)^\.Li ([^\n]*?)(?: \.)?$", text.split("\n.Sh EXIT STATUS\n")[1].split("\n.Sh ")[0]))
    left = {f"{word} 7" for line in relay_lines for word in re.findall(r'end_line .* = codes "(\w+) " \+\+ decimal', line)}
    yield "lines of the end of the relay", whole_lines(relay_lines) | left, said
    ends_of_lines = {re.sub(r' " \+\+ decimal status \+\+ codes "\\n', " 503", end) for line in relay_lines for end in re.findall(r'_line number .* line_of number \(codes "(.*?)"\)', line)}
    wanted = {f"connection 1{end}".removesuffix("\\n") for end in ends_of_lines}
    yield "lines of connections of the relay", wanted, {item.removeprefix("Li ") for item in manual.items["DIAGNOSTICS"]}
    forms = set(texts(lines, "form_word").values()) - {"jaeger-compact"}
    yield "forms of the relay", forms, set(re.findall(r"^\.Cm ([a-z]+-[a-z]+)", text, re.MULTILINE))
    most = {int(number) for line in relay_lines for number in re.findall(r"pub most : count ≤ (\d+)", line)}
    most |= {int(number) for line in relay_lines for number in re.findall(r"^most_sent = (\d+)", line)}
    yield "numbers of the relay", most, {int(number.replace(",", "")) for number in re.findall(r"(?:at most|from 1 to) ([\d,]+)", text)}


def checks(lines, manual):
    """Pairs of what the specification says and what the man page says, each with a name."""
    causes, header_causes, faults = (numbered(lines, word) for word in ["cause", "header_cause", "fault"])
    fixed = whole_lines(lines)
    # What has no table of its own stands in its line: `fault 36 NoIds`.
    for line in fixed:
        match = re.fullmatch(r"fault (\d+) (\w+)", line)
        faults |= {int(match[1]): match[2]} if match else {}
    yield "causes of spans", causes, manual.table("Of spans")
    yield "causes of headers", {17: causes.get(17)} | header_causes, manual.table("Of headers")
    yield "faults", faults, manual.table("FAULTS")

    ends = {int(status) for status in equations(lines, "status_of").values()} | {2}
    listed = next(re.findall(r"(\d+) ∷", line) for line in lines if line.startswith("IsRunStatus status ="))
    statuses = {int(item) for item in manual.items["EXIT STATUS"]}
    yield "statuses", {int(status) for status in listed}, statuses
    yield "statuses of the ends of a run", ends, statuses

    said = {item.removeprefix("Li ") for item in manual.items["DIAGNOSTICS"]}
    for number, name in (causes | header_causes).items():
        said -= {f"unit 2: cause {number} {name}", f"cause {number} {name}"}
    for number, name in faults.items():
        said -= {f'unit 1: fault {number} {name} "jaeger.flags"'}
    # The lines of connections that are served begin with their number.
    said -= {f"connection 1{end}" for line in lines for end in re.findall(r'"connection " .* codes "([^"]*)\\n"', line)}
    # Those of the agent and of the relay stand in the other man pages.
    others = {"usage: spanx_agent OPTIONS", "post failed", "usage: spanx_relay OPTIONS"}
    yield "lines on standard error", fixed - others, said

    yield "forms", set(texts(lines, "form_word").values()), manual.words("Forms")
    yield "forms of headers", set(texts(lines, "header_form_word").values()), manual.words("Headers")

    remarks = {re.match('codes "(.*?)"', held)[1].strip() for held in equations(lines, "remarked").values()}
    yield "remarks", remarks, {item.removeprefix("Li ").removesuffix(' "k"') for item in manual.items["REPORT LINES"]}
    yield "rows of losses", set(texts(lines, "row_name").values()), {item.removeprefix("Li ").removesuffix(' "k"') for item in manual.items["LOSSES"]}
    yield "kinds and codes", set(texts(lines, "kind_word").values()) | set(texts(lines, "code_word").values()), manual.capitals

    limits = next(line for line in lines if line.startswith("shipped_limits ="))
    wanted = {number_of(re.search(rf"\b{word} = ([\d ^]+\d)", limits)[1]) for word in ["unit", "json", "binary"]}
    wanted |= {int(line.split()[-1]) for line in lines if re.fullmatch(r"header_limit = \d+", line)}
    yield "limits", wanted, {int(item.split(" ")[0].replace(",", "")) for item in manual.items["LIMITS"] if item.endswith("bytes")}
    wanted = {int(line.split()[-1]) for line in lines if re.fullmatch(r"(most|all)_levels = \d+", line)} | {json_text.DEEPEST}
    yield "levels", wanted, {int(item.split(" ")[0]) for item in manual.items["LIMITS"] if item.endswith("levels")}

    known = causes | header_causes | faults | datagram_causes(lines)
    for path in PAGES:
        rows = [(int(number), name) for number, name in re.findall(r"^\| (\d+) \| (\w+) \|", open(path, encoding="utf-8").read(), re.MULTILINE)]
        if rows:
            yield f"{os.path.basename(path)}'s {len(rows)} rows", {number: known.get(number) for number, _ in rows}, dict(rows)


if __name__ == "__main__":
    folder = sys.argv[1] if len(sys.argv) > 1 else os.path.join(TOP, "crates")
    wrong = 0
    held = specifications(folder)
    of_agent = agent_checks(held, specifications(folder, "span_agent"), Manual(AGENT))
    of_relay = relay_checks(held, specifications(folder, "span_relay"), Manual(RELAY))
    for name, wanted, found in [*checks(held, Manual(MANUAL)), *of_agent, *of_relay]:
        print(f"ok: {name}" if wanted == found else f"WRONG: {name}: specified {wanted}, on the page {found}")
        wrong += wanted != found
    # The other pages name that of spanx, which needn't be installed.
    lint = subprocess.run(["mandoc", "-Tlint", MANUAL, AGENT, RELAY], capture_output=True, text=True).stdout
    lint = [line for line in lint.splitlines() if line and "referenced manual not found: Xr spanx" not in line]
    print(f"WRONG: mandoc -Tlint: {lint}" if lint else "ok: mandoc -Tlint is silent")
    sys.exit(1 if wrong or lint else 0)
