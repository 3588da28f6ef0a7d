#!/usr/bin/env python3
"""Holds the page of each crate, crates/NAME/README.md, against the crate's source.

Of each crate of crates.txt there must be a page. Its headings are of the list HEADINGS, in that order. In the tables under "What is proved"
the first cell of a row names public functions, methods, traits and types of the crate. Each clause that the second cell names stands
at one of them, and each of them has one of these: `ensures NAME`, `requires NAME`, or a ghost member of the trait; `alone` is a clause
without a name. Where the row is of a law, the second cell may name a definition in its place, which the clause of the law cites and which
stands in a file of specs/, in one that the cell names if it names any. Each relative link, with its heading, and each file that a page
names is there. The list under "By crate" of docs/PROVED.md links to each page, in the order of crates.txt. What a row says of a clause,
this script doesn't try.

It is run as bench/pages/crate_pages.py [--examples] [NAME..], by names of crates for their pages alone. With --examples it has each block of
Rattle under "Example" compiled, one after the other, by `rt try`, which proves nothing and runs nothing of it; that takes half a minute
of processor each. It ends with 1 on a difference.
"""
import glob
import os
import re
import subprocess
import sys
import tempfile

sys.path.insert(1, os.path.dirname(os.path.dirname(os.path.realpath(__file__))))
import rooms

TOP = rooms.TOP
CRATES = os.path.join(TOP, "crates")
PROVED = os.path.join(TOP, "docs", "PROVED.md")
HEADINGS = ["Example", "What is proved", "Rows", "Words", "Decisions", "To change it", "Where it ends"]
EXAMPLE = "crate_page"
LEAST_LINES, MOST_LINES = 8, 25
ENDINGS = ("antt", "rt", "py", "md", "sh", "c", "json", "bin", "txt", "edit", "1")
FILE = re.compile(r"[\w./-]+\.(?:%s)" % "|".join(ENDINGS))


def text_of(path):
    with open(path, encoding="utf-8") as file:
        return file.read()


def libraries():
    """Each crate of crates.txt, in its order, with the libraries that it stands on."""
    rows = [line.partition("#")[0].strip() for line in text_of(os.path.join(TOP, "crates.txt")).split("\n")]
    return {row.partition(":")[0].strip(): row.partition(":")[2].split() for row in rows if row}


class Call:
    """A function: whether it is public, the module that it stands in, and the texts of its clauses by their names, of which "" is none."""

    def __init__(self, is_public, module):
        self.is_public, self.module, self.clauses = is_public, module, {}


class Source:
    """What a crate's src/ declares: calls by `name` and `Type::name`, ghost members by type and trait, and what lib.rt hands out."""

    def __init__(self, name):
        self.calls, self.types, self.ghosts = {}, set(), {}
        folder = os.path.join(CRATES, name, "src")
        root = os.path.join(folder, "lib.rt")
        said = text_of(root) if os.path.exists(root) else ""
        self.modules = set(re.findall(r"(?m)^pub mod (\w+)", said))
        self.handed = set(re.findall(r"\w+", " ".join(re.findall(r"(?m)^pub use (?:\w+::)*([^;]*);", said))))
        for path in sorted(glob.glob(os.path.join(folder, "**", "*.rt"), recursive=True)):
            self.module = os.path.splitext(os.path.relpath(path, folder))[0].replace(os.sep, "::")
            self.read(text_of(path).split("\n"))

    def read(self, lines):
        owner, is_open, call, at = "", False, None, 0
        while at < len(lines):
            line = lines[at]
            at += 1
            if re.match(r"\}", line):
                owner, is_open, call = "", False, None
            elif found := re.match(r"pub (?:enum|struct|type) (\w+)", line):
                self.types.add(found[1])
            elif found := re.match(r"pub trait (\w+)", line):
                owner, is_open = found[1], True
                self.types.add(owner)
            elif re.match(r"impl\b", line):
                owner, is_open = owner_of(line), re.search(r"\bfor\b", line) is not None
            elif found := re.match(r"\s+ghost (\w+)\s*[:=]", line):
                self.ghosts.setdefault(owner, set()).add(found[1])
            elif found := re.match(r"(?:    )?((?:pub(?:\([\w ]+\))? )?)(?:const )?fn (\w+)", line):
                call = self.add(owner, found[2], found[1] == "pub " or is_open and line.startswith(" "))
            elif call and (found := re.match(r"\s+(?:ensures|requires)\s*(\w*) \{(.*)", line)):
                text = found[2]
                while text.count("{") + 1 > text.count("}") and at < len(lines):
                    text += "\n" + lines[at]
                    at += 1
                call.clauses[found[1]] = call.clauses.get(found[1], "") + text

    def add(self, owner, name, is_public):
        call = Call(is_public, self.module.split("::")[0])
        names = [f"{owner}::{name}"] if owner else [name, f"{self.module}::{name}", f"{self.module.removeprefix('laws::')}::{name}"]
        for each in names:
            self.calls.setdefault(each, []).append(call)
        return call

    def public(self, name):
        return [call for call in self.calls.get(name, []) if call.is_public and self.is_handed(name, call)]

    def is_handed(self, name, call):
        """Whether callers in other crates can name a call: lib.rt hands it out, its type, or the module that it stands in."""
        return name.split("::")[0] in self.handed or call.module in self.modules

    def clauses_of_type(self, name):
        """The ghost members of a trait or type, and the clauses of its methods."""
        methods = [call for key, calls in self.calls.items() if key.startswith(name + "::") for call in calls]
        return self.ghosts.get(name, set()).union(*[call.clauses for call in methods])


def owner_of(line):
    """The type that an `impl` is of."""
    line, depth, plain = line.removeprefix("impl"), 0, ""
    for char in line:
        depth += {"<": 1, ">": -1}.get(char, 0)
        plain += char if depth == 0 and char != ">" else ""
    plain = re.split(r"\{|\bwhere\b", plain)[0]
    words = re.findall(r"\w+", plain.split(" for ")[-1])
    return words[-1] if words else ""


def cells(row):
    return [cell.strip() for cell in re.split(r"(?<!\\)\|", row.strip())[1:-1]]


def rows_under(text):
    """The rows of the tables of clauses of a text, by their cells."""
    rows, is_table = [], False
    for line in text.split("\n"):
        if line.startswith("| Call | Clause |"):
            is_table = True
        elif not line.startswith("|"):
            is_table = False
        elif is_table and not re.match(r"\|[-|]+$", line):
            rows.append(cells(line))
    return rows


def defined(name, word, paths):
    """Whether a definition stands in one of the files of specs/ that a row names, or in any of the crate where it names none."""
    places = [place for path in paths for place in places_of(name, path)]
    if not paths:
        places = glob.glob(os.path.join(CRATES, name, "specs", "**", "*.antt"), recursive=True)
    return any(re.search(rf"(?m)^(?:[a-z]+ )*pub (?:[a-z]+ )*{re.escape(word)}\b", text_of(place)) for place in places)


def said_at(name, source, call, clause, files, is_law):
    """Whether a clause stands at a call, or, at a law, is a definition which its clause cites."""
    if call in source.types:
        return clause in source.clauses_of_type(call)
    clauses = {key: text for each in source.public(call) for key, text in each.clauses.items()}
    if clause in clauses:
        return True
    return is_law and re.search(rf"\b{re.escape(clause)}\b", " ".join(clauses.values())) is not None and defined(name, clause, files)


def wrong_row(name, source, row):
    """What a row says of calls and clauses and isn't so: each call has a clause of the row, and each clause a call."""
    if len(row) != 3:
        return [f"a row has {len(row)} cells: {row}"]
    is_law = row[0].startswith("law ")
    calls = [call.removeprefix(name + "::") for call in re.findall(r"`([^`]+)`", row[0])]
    words = re.findall(r"`([^`]+)`", row[1])
    clauses, files = [word for word in words if not FILE.fullmatch(word)], [word for word in words if FILE.fullmatch(word)]
    has_alone = re.search(r"\balone\b", re.sub(r"`[^`]*`", "", row[1])) is not None
    if not calls:
        return []
    if not clauses and not has_alone:
        return [f"{row[0]}: the row names no clause"]
    types = source.types & source.handed
    unknown = [f"`{call}` is no public call, type or trait" for call in calls if call not in types and not source.public(call)]
    if unknown:
        return unknown
    found = {(call, clause) for call in calls for clause in clauses if said_at(name, source, call, clause, files, is_law)}
    without = {call for call in calls if has_alone and any("" in each.clauses for each in source.public(call))}
    wrong = [f"{row[0]}: none of them has a clause `{clause}`" for clause in clauses if clause not in {said for _, said in found}]
    wrong += [f"`{call}` has none of the clauses {row[1]}" for call in calls if call not in without | {one for one, _ in found}]
    return wrong + ([f"{row[0]}: none of them has a clause without a name"] if has_alone and not without else [])


def every_file():
    """The files of the repository, without what is built."""
    listed = ["git", "ls-files", "-co", "--exclude-standard"]
    return subprocess.run(listed, cwd=TOP, capture_output=True, text=True, check=True).stdout.split("\n")


FILES = every_file()


def places_of(name, word):
    """The files or folders that a page of a crate can mean by a word."""
    word = word.rstrip("/")
    ends = [path for path in FILES if ("/" + path).endswith("/" + word)]
    own = [path for path in ends if path.startswith(f"crates/{name}/")]
    folders = [path for path in ["crates/" + name + "/" + word, "crates/" + word, word] if os.path.exists(os.path.join(TOP, path))]
    folders += [path for part in ["src", "specs", "proofs"] if os.path.isdir(os.path.join(TOP, path := f"crates/{name}/{part}/{word}"))]
    return [os.path.join(TOP, path) for path in own or ends or folders]


def wrong_files(name, text):
    """Files that a page names and that aren't there."""
    text = re.sub(r"(?s)```.*?```", "", text)
    named = re.findall(r"`([^`\n]+)`", text)
    named = [word for word in named if FILE.fullmatch(word) or re.fullmatch(r"(?:[\w-]+/)+[\w.-]*", word)]
    named += re.findall(r"\b(?:docs|bench|examples|crates)/[\w./-]*\w", re.sub(r"`[^`\n]*`|\]\([^)]*\)", "", text))
    return [f"there is no {word}" for word in dict.fromkeys(named) if not places_of(name, word)]


def slugs(text):
    """The anchors of a page's headings."""
    titles = re.findall(r"(?m)^#+ (.+)$", re.sub(r"(?s)```.*?```", "", text))
    return {re.sub(r"[^\w -]", "", title.lower()).replace(" ", "-") for title in titles}


def wrong_links(page, text):
    """Relative links of a page that lead nowhere."""
    wrong = []
    for link in re.findall(r"\]\(([^)\s]+)\)", re.sub(r"(?s)```.*?```", "", text)):
        if re.match(r"\w+:", link):
            continue
        path, _, anchor = link.partition("#")
        target = os.path.normpath(os.path.join(os.path.dirname(page), path)) if path else page
        if not os.path.exists(target):
            wrong.append(f"the link {link} leads nowhere")
        elif anchor and anchor not in slugs(text_of(target)):
            wrong.append(f"the link {link} names no heading")
    return wrong


def parts_of(text):
    """A page's parts by their headings, in order; what stands before the first one has none."""
    pieces = re.split(r"(?m)^## (.+)$", text)
    return [("", pieces[0]), *zip(pieces[1::2], pieces[2::2])]


def wrong_form(name, text):
    """What of a page's headings isn't as it should be."""
    head, *parts = parts_of(text)
    wrong = [] if head[1].startswith(f"# `{name}`\n\n") else [f"the page doesn't begin with # `{name}`"]
    places = [HEADINGS.index(title) if title in HEADINGS else -1 for title, _ in parts]
    wrong += [f"the heading {title} isn't of the list" for (title, _), place in zip(parts, places) if place < 0]
    if places != sorted(set(places)):
        wrong.append(f"the headings aren't in order: {[title for title, _ in parts]}")
    wrong += [f"under {title} stands nothing" for title, part in parts if not part.strip()]
    return wrong + [f"there is no heading {title}" for title in ["To change it", "Where it ends"] if title not in dict(parts)]


def blocks(text):
    return [block for part in [dict(parts_of(text)).get("Example", "")] for block in re.findall(r"(?s)```rust\n(.*?)```", part)]


def wrong_lengths(text):
    counts = [block.rstrip("\n").count("\n") + 1 for block in blocks(text)]
    return [f"an example has {count} lines" for count in counts if not LEAST_LINES <= count <= MOST_LINES]


def wrong_example(name, below, block):
    """What the compiler says against an example, as a crate that stands on this one and on all that it stands on."""
    used = sorted(set(re.findall(r"\b(\w+)::", block)) & {*below, *below[name]} | {name})
    with tempfile.TemporaryDirectory() as room:
        os.makedirs(os.path.join(room, "crates", EXAMPLE, "src"))
        for crate in below:
            os.makedirs(os.path.join(room, "crates", crate))
            for part in ["src", "specs"]:
                if os.path.isdir(os.path.join(CRATES, crate, part)):
                    os.symlink(os.path.join(CRATES, crate, part), os.path.join(room, "crates", crate, part))
        with open(os.path.join(room, "crates.txt"), "w", encoding="utf-8") as listed:
            listed.write(text_of(os.path.join(TOP, "crates.txt")) + f"{EXAMPLE}: {' '.join(used)}\n")
        with open(os.path.join(room, "crates", EXAMPLE, "src", "lib.rt"), "w", encoding="utf-8") as source:
            source.write(block + "\n#[test]\nfn compiles() {\n    // Nothing is run.\n}\n")
        folder = os.path.join(room, "crates", EXAMPLE)
        outputs = {"stdout": subprocess.PIPE, "stderr": subprocess.STDOUT, "text": True}
        done = subprocess.run(["nice", "-n", "19", "rt", "try", "--test"], cwd=folder, stdin=subprocess.DEVNULL, **outputs)
    said = done.stdout.strip() or f"rt ended with {done.returncode} and said nothing, as where it has too little time"
    return [] if done.returncode == 0 else ["an example isn't compiled:\n" + said]


def wrong_page(name, below, tries):
    """All that is wrong with the page of a crate."""
    page = os.path.join(CRATES, name, "README.md")
    if not os.path.exists(page):
        return ["there is no page"]
    text, source = text_of(page), Source(name)
    wrong = wrong_form(name, text) + wrong_lengths(text) + wrong_links(page, text) + wrong_files(name, text)
    for row in rows_under(dict(parts_of(text)).get("What is proved", "")):
        wrong += wrong_row(name, source, row)
    return wrong + [said for block in blocks(text) if tries for said in wrong_example(name, below, block)]


def wrong_list(names):
    """What of the list of crates in docs/PROVED.md isn't as crates.txt has it."""
    part = dict(parts_of(text_of(PROVED))).get("By crate", "")
    linked = re.findall(r"(?m)^- \[`(\w+)`\]\(\.\./crates/(\w+)/README\.md\)", part)
    return [] if linked == [(name, name) for name in names] else ["the list under By crate isn't that of crates.txt"]


def main():
    known = libraries()
    asked = [word for word in sys.argv[1:] if not word.startswith("--")]
    if unknown := [name for name in asked if name not in known]:
        sys.exit(f"crates.txt has no {unknown[0]}")
    said = {os.path.relpath(PROVED, TOP): wrong_list(list(known))} if not asked else {}
    for name in asked or known:
        said[f"crates/{name}/README.md"] = wrong_page(name, known, "--examples" in sys.argv)
    for page, wrong in said.items():
        for each in wrong:
            print(f"WRONG: {page}: {each}")
        if not wrong:
            print(f"ok: {page}")
    return any(said.values())


if __name__ == "__main__":
    sys.exit(1 if main() else 0)
