#!/usr/bin/python3
"""Tries what pages on a migration week say and bench/pages/pages.py can't: the scripts of examples/ over drawn, large and wrong
inputs.

  faults     of drawn spans with the faults of Jaeger and of Zipkin, and with doubles: examples/faults_by_service.py has a fault
             exactly where the program refuses the span, and the program's among them; what examples/mend_faults.py makes of them is
             taken, and is the same span where it had no fault
  doubles    examples/doubles_to_texts.py over drawn requests, beside the same whose doubles are texts
  moves      examples/move.sh over a good, an empty, a refused, a faulted and an absent input, and outputs that fail
  pictures   examples/waterfall.py and examples/losses_by_key.py over 100,000 spans, spans that go round, and a deep trace
  bar        the line of docs/LOOK.md with `pv`, where that is installed
  wrong      wrong input of each script: one line, status 1
  many       the lines of docs/MANY.md for `xargs` and GNU parallel, where that is installed, over some hundreds of files

It needs the built program, and is run as bench/pages/week.py [COUNT [PART..]]: the parts that are named, or all, over 300 spans
of each target and 300 files, or so many. It ends with 1 on a difference.
"""
import json
import os
import re
import shlex
import shutil
import subprocess
import sys
import tempfile

sys.path.insert(1, os.path.dirname(os.path.dirname(os.path.realpath(__file__))))
import rooms  # first: it finds the others
import jaeger
import otlp
import otlp_json
import zipkin
from drawn import Traces
from drawn_spans import ZipkinTraces
from program import BUILD, PROGRAM, TOP, convert

EXAMPLES = os.path.join(TOP, "examples")
sys.path.insert(0, EXAMPLES)
import doubles_to_texts
import faults_by_service
import written_json

WRONG = []


def must(is_right, said):
    if not is_right:
        WRONG.append(said)
        print(f"WRONG: {said}")


def script(name, *words, text=b"", folder=TOP, **settings):
    """The status, the output and the note of a script of examples/."""
    done = subprocess.run(
        [os.path.join(EXAMPLES, name), *words], input=text, capture_output=True, cwd=folder, env=os.environ | settings
    )
    return done.returncode, done.stdout, done.stderr.decode(errors="replace")


# ---- faults


def with_doubles(held):
    """JSON's values of Python of what otlp_json.py has no text for: doubles."""
    otlp_json_value = otlp_json.value_json

    def value_json(value):
        if value[0] == "double":
            return {"doubleValue": 0.5}
        return otlp_json_value(value)

    otlp_json.value_json = value_json
    try:
        return otlp_json.group_json(held)
    finally:
        otlp_json.value_json = otlp_json_value


def single_spans(traces, count):
    """Groups of one span each, in a scope and a resource."""
    made = 0
    while made < count:
        for group in traces.groups():
            for scope in group.scopes:
                for span in scope.spans:
                    made += 1
                    yield otlp.Group(group.resource, group.dropped, group.schema_url, [otlp.Scope(scope.name, scope.version, scope.attributes, spans=[span])])


def said_faults(note):
    """The number and the key of a note with a fault."""
    words = note.split(" ", 5)
    return (int(words[3]), json.loads(words[5]) if len(words) > 5 else None) if words[2] == "fault" else (15, None)


def try_span(group, form, name):
    """Whether the script has a fault of a document where the program refuses it; the faults, what the program wrote, and the text."""
    text = json.dumps({"resourceSpans": [with_doubles(group)]}).encode()
    found = [fault for held in faults_by_service.groups_of(written_json.read(text)) for fault in faults_by_service.faults_of_group(held, form)]
    status, output, note = convert(text, "otlp-json", form)
    must((status == 0) == (found == []), f"{name}: {note.strip()}, and the script has {found}: {text}")
    # In protobuf a double is a fault only where the target can't hold it.
    held_of = [fault for fault in found if fault[0] != 15]
    status, _, note = convert(otlp.write_group(group), "otlp-proto", form)
    must((status == 0) == (held_of == []), f"{name}, in protobuf: {note.strip()}, and the script has {held_of}: {text}")
    if status:
        number, key = said_faults(note)
        is_named = any(number == fault[0] and key in [None, fault[1]] for fault in held_of)
        must(is_named, f"{name}: {note.strip()}, and the script has {held_of}")
    return found, output, text


def try_mending(found, output, text, form, name):
    """What is mended is taken, and is the same where there was no fault."""
    status, mended, note = script("mend_faults.py", form, "app.", text=text)
    must(status == 0, f"{name}: mending ends with {status}: {note}")
    again = convert(mended, "otlp-json", form)
    must(again[0] == 0, f"{name}: {again[2].strip()} of what was mended: {mended}")
    must(found or again[1] == output, f"{name}: mending changes a span without a fault")


def try_faults(count):
    for form, faults_of, traces in [
        ("jaeger-binary", jaeger.faults, Traces), ("zipkin-json", zipkin.faults, ZipkinTraces), ("otlp-json", otlp_json.faults, Traces),
    ]:
        numbers, drawn = set(), 0
        for seed in range((count + 19) // 20):
            for group in single_spans(traces(seed, 0.15), 20):
                drawn += 1
                name = f"{form}, seed {seed}, span {drawn}"
                found, output, text = try_span(group, form, name)
                expected = {fault[1] for fault in faults_of(group)}
                must({number for number, _ in found} - {15} == expected, f"{name}: {found}, and the tables have {expected}")
                numbers |= {number for number, _ in found}
                if drawn % 3 == 0:
                    try_mending(found, output, text, form, name)
        print(f"ok: faults of {drawn} spans for {form}: {sorted(numbers)}", flush=True)


def texted(value):
    """A value whose doubles are texts, as the script is to write them. In values of otlp.py their most significant byte is the first."""
    kind, held = value
    if kind == "list":
        return kind, list(map(texted, held))
    if kind == "map":
        return kind, {key: texted(inner) for key, inner in held.items()}
    return ("text", doubles_to_texts.decimal(held[::-1])) if kind == "double" else value


def try_doubles(count):
    for number, (eight, spelled) in enumerate([(b"\x3f\xf0", "1.0"), (b"\x7f\xf8", "NaN"), (b"\xff\xf0", "-Infinity"), (b"\x7f\xf0", "Infinity"), (b"\x80\0", "-0.0")]):
        must(doubles_to_texts.decimal(eight[::-1].rjust(8, b"\0")) == spelled, f"double {number} isn't {spelled}")
    found = 0
    for seed in range((count + 19) // 20):
        groups = Traces(seed, 0.5).groups()
        text = b"".join(map(otlp.write_group, groups))
        status, made, note = script("doubles_to_texts.py", text=text)
        found += int(note.split()[-1])
        for group in groups:
            for attributes in otlp_json.all_attributes(group):
                attributes.update({key: texted(value) for key, value in attributes.items()})
        must(status == 0 and made == b"".join(map(otlp.write_group, groups)), f"doubles, seed {seed}: {note}")
    print(f"ok: {found} doubles as texts", flush=True)


# ---- moves


def try_moves(room):
    """examples/move.sh over inputs that go well and don't."""

    def move(name, source, target, given, expected, said, output="out"):
        path = os.path.join(room, name)
        os.mkdir(path)
        with open(os.path.join(path, "in"), "wb") as file:
            file.write(given)
        with open(os.path.join(path, "out"), "w") as file:
            file.write("before")
        done = script("move.sh", source, target, "in", output, folder=path, SPANX=PROGRAM)
        must(done[0] == expected and said in (done[1].decode() + done[2]), f"move.sh, {name}: {done}")
        must((done[1] == b"") == (expected != 0) and len((done[1].decode() + done[2]).splitlines()) == 1, f"move.sh, {name}: {done}")
        must(not os.path.lexists(os.path.join(path, "out.part")), f"move.sh, {name}: its part is left")
        with open(os.path.join(path, "out"), "rb") as file:
            held = file.read()
        must((held == b"before") == (expected != 0), f"move.sh, {name}: the output is {held[:80]}")
        return held

    with open(os.path.join(EXAMPLES, "checkout.bin"), "rb") as file:
        good = file.read()
    held = move("good", "otlp-proto", "zipkin-json", good, 0, "units 2, spans 10, remarks 0, losses 64")
    must(held == convert(good, "otlp-proto", "zipkin-json")[1], "move.sh: the output is another one than the program's")
    must(os.path.exists(os.path.join(room, "good", "out.err")), "move.sh: losses have no file")
    move("lossless", "otlp-proto", "otlp-json", good, 0, "losses 0")
    must(not os.path.exists(os.path.join(room, "lossless", "out.err")), "move.sh: there is a file of no losses")
    move("empty", "otlp-proto", "otlp-json", b"", 1, "no spans were read")
    move("other kind", "otlp-json", "otlp-proto", b'{"data":[]}', 1, "no spans were read")
    move("refused", "otlp-proto", "otlp-json", good[:300], 3, "cause 1 Truncated")
    request_of = lambda key: otlp.write_group(otlp.Group({}, scopes=[otlp.Scope(spans=[otlp.Span(1, 1, kind=1, attributes={key: ("text", "x")})])]))
    move("faulted", "otlp-proto", "zipkin-json", request_of("zipkin.debug"), 4, 'fault 22 OwnKey "zipkin.debug"')
    held = move("escaped", "otlp-proto", "zipkin-json", request_of("error"), 0, "units 1, spans 1, remarks 0, losses 0")
    must(json.loads(held)[0]["tags"] == {"otel.attr.error": "x"}, f"move.sh, escaped: {held}")
    move("no folder", "otlp-proto", "otlp-json", good, 6, "can't be written", output="nowhere/out")
    done = script("move.sh", "otlp-proto", "otlp-json", "absent", "absent.out", folder=room, SPANX=PROGRAM)
    must(done[0] == 5 and "can't be read" in done[2], f"move.sh, absent: {done}")
    # A device that is full stands where the part would be.
    full = os.path.join(room, "full")
    os.symlink("/dev/full", full + ".part")
    done = script("move.sh", "otlp-proto", "otlp-json", os.path.join(EXAMPLES, "checkout.bin"), full, folder=room, SPANX=PROGRAM)
    must(done[0] == 6 and not os.path.lexists(full + ".part") and not os.path.lexists(full), f"move.sh, full: {done}")
    must(script("move.sh")[0] == 2, "move.sh without words doesn't end with 2")
    print("ok: moves", flush=True)


# ---- pictures


def show_line(id_, parent, start, end, name="n", code="UNSET"):
    return f'{1:032x} {id_:016x} {f"{parent:016x}" if parent else "-"} SERVER {start} {end} {code} {json.dumps(name)}\n'


def try_pictures():
    def rows_of(lines):
        status, page, note = script("waterfall.py", text="".join(lines).encode())
        must(status == 0, f"waterfall.py: {note}")
        return page.decode().split('<div class="row')[2:]

    many = [show_line(n, n // 3, 10**9 + n, 2 * 10**9 - n, "€<&>", "ERROR" if n % 5 else "OK") for n in range(1, 100_001)]
    rows = rows_of(many)
    must(len(rows) == 100_000 and sum(row.startswith(" error") for row in rows) == 80_000, f"waterfall.py draws {len(rows)} of 100,000 spans")
    must("€&lt;&amp;&gt;" in rows[0], "waterfall.py: a name isn't spelled for HTML")
    deep = rows_of([show_line(n, n - 1, n, 10**9) for n in range(1, 20_001)])
    must(len(deep) == 20_000, "waterfall.py leaves spans of a deep trace out")
    odd = rows_of([show_line(1, 2, 5, 9), show_line(2, 1, 6, 9), show_line(3, 9, 8, 7), show_line(4, 0, 1, 1), show_line(4, 4, 1, 2)])
    must(len(odd) == 5 and sum("parents go round" in row for row in odd) == 1, f"waterfall.py: {odd}")
    must(sum("parent absent" in row for row in odd) == 1 and any("-1 ns" in row for row in odd), f"waterfall.py: {odd}")
    lines = [f'unit {n // 100 + 1} span {n % 100 + 1}: value "key {n % 7}"\n' for n in range(100_000)]
    status, table, note = script("losses_by_key.py", text="".join([*lines, "losses 100000\n"]).encode())
    must(status == 0 and len(table.splitlines()) == 8 and table.splitlines()[1].split()[-1] == b"14286", f"losses_by_key.py: {table} {note}")
    for back, said in [("", "isn't there"), ("losses 99999\n", "the last line says 99999, and 100000 were there")]:
        status, table, note = script("losses_by_key.py", text="".join([*lines, back]).encode())
        must(status == 1 and said in note and len(table.splitlines()) == 8, f"losses_by_key.py: {status} {note}")
    print("ok: pictures and tables of 100,000 spans", flush=True)


def try_bar(room):
    """The line of docs/LOOK.md with `pv`, where that is installed, which must leave the bytes as they are."""
    if not shutil.which("pv"):
        print("left out: pv isn't there")
        return
    with open(os.path.join(TOP, "docs", "LOOK.md"), encoding="utf-8") as page:
        line = re.search(r"(?m)^    (pv .*)$", page.read())[1]
    shutil.copyfile(os.path.join(EXAMPLES, "checkout_batch.bin"), os.path.join(room, "batches.bin"))
    os.symlink(os.path.join(TOP, "spanx"), os.path.join(room, "spanx"))
    # -f draws the bar where there is no terminal, too.
    done = subprocess.run(["bash", "-c", line.replace("pv ", "pv -f ", 1)], cwd=room, capture_output=True)
    with open(os.path.join(room, "batches.bin"), "rb") as batches, open(os.path.join(room, "requests.bin"), "rb") as made:
        is_same = made.read() == convert(batches.read(), "jaeger-binary", "otlp-proto")[1]
    must(is_same and done.returncode == 0 and b"100%" in done.stderr, f"pv: {done}")
    print("ok: a bar", flush=True)


# ---- wrong inputs

NO_REQUESTS = [b'{"data":null,"errors":[{"code":404}]}', b"[]", b"", b"\xff\xfe", b"{}\n{}\n", b"1", b"[" * 100_000, b'{"resourceSpans":7}', b'{"resourceSpans":[7]}']
NO_REQUESTS += [b'{"resourceSpans":[{"scopeSpans":[{"spans":[%s]}]}]}' % span for span in [
    b"null", b'{"attributes":{}}', b'{"attributes":[{"key":7}]}', b'{"startTimeUnixNano":"x"}', b'{"startTimeUnixNano":1.5}', b'{"name":[]}',
    b'{"attributes":[{"key":"a","value":{"arrayValue":[]}}]}', b'{"events":[[]]}', b'{"links":[{"attributes":[{"key":"a","value":[]}]}]}',
]]
WRONG_INPUTS = {
    ("faults_by_service.py", "zipkin-json"): NO_REQUESTS,
    ("faults_by_service.py", "jaeger-binary"): NO_REQUESTS,
    ("mend_faults.py", "zipkin-json", "app."): NO_REQUESTS,
    ("texts_of_tags.py",): [b"{}", b"", b"[1]", b'[{"tags":[]}]', b'[{"tags":7}]', b"\xff", b"[]\n[]", b"[" * 100_000],
    ("doubles_to_texts.py",): [b"\xff", b"[]", b"\x0a\x05", b"\x0b", b"{}"],
    ("waterfall.py",): [b"", b"x\n", b"\xff\n", show_line(1, 0, 1, 2).encode().replace(b'"n"', rb'"\x"'), b"\n", b"units 0, spans 0, remarks 0\n"],
    ("losses_by_key.py",): [b"x\n", b"\xff\n", b'unit 1 span 1: value "\\x"\n', b"losses 0\nlosses 0\n", b"unit 1: cause 1 Truncated\n"],
}


def try_wrong():
    count = 0
    for words, inputs in WRONG_INPUTS.items():
        for text in inputs:
            count += 1
            status, output, note = script(*words, text=text)
            must(status == 1 and len(note.splitlines()) == 1 and "Traceback" not in note, f"{words} of {text[:80]}: {status} {note[-300:]}")
            must(not output or words[0] == "losses_by_key.py", f"{words} of {text[:80]} writes {output[:80]}")
        status, output, note = script(words[0], "no", "such", "words")
        must(status == 1 and not output and "It is run as" in note, f"{words[0]} with wrong words: {status} {note[-300:]}")
    print(f"ok: {count} wrong inputs", flush=True)


# ---- many files

ALONE = 'out=out/$(basename "$1" .bin).json; [ -e "$out" ] || examples/move.sh otlp-proto zipkin-json "$1" "$out"'


def try_elsewhere(room, line, count):
    """The line for several machines, of which GNU parallel says only what it would run."""
    if not shutil.which("rsync"):
        print("left out: rsync isn't there")
        return
    words = ["sh", "-c", line.replace("parallel ", "parallel --dry-run ", 1)]
    files = "".join(f"in/a file {n}.bin\n" for n in range(count)).encode()
    done = subprocess.run(words, cwd=room, input=files, capture_output=True, env=os.environ | {"SPANX": PROGRAM})
    said = sorted(map(shlex.split, done.stdout.decode().splitlines()))
    move = ["examples/move.sh", "otlp-proto", "zipkin-json"]
    right = sorted([*move, f"in/a file {n}.bin", f"out/a file {n}.json"] for n in range(count))
    must(done.returncode == 0 and said == right, f"parallel elsewhere: {done.returncode} {done.stderr.decode()} {said[:2]}")


def try_many(room, count):
    """The lines of docs/MANY.md over so many files, of which two can't be read."""
    with open(os.path.join(EXAMPLES, "checkout.bin"), "rb") as file:
        good = file.read()
    os.symlink(EXAMPLES, os.path.join(room, "examples"))
    os.mkdir(os.path.join(room, "in"))
    for n in range(count):
        with open(os.path.join(room, "in", f"a file {n}.bin"), "wb") as file:
            file.write(good[:300] if n in [3, 4] else good)
    find = ["find", "in", "-name", "*.bin", "-print0"]
    runs = {"xargs": ["xargs", "-0", "-n", "1", "-P", "2", "sh", "-c", ALONE, "move"]}
    if shutil.which("parallel"):
        with open(os.path.join(TOP, "docs", "MANY.md"), encoding="utf-8") as page:
            lines = [line.partition(" | ")[2] for line in page.read().replace("\\\n", "").splitlines() if "| parallel --" in line]
        runs |= {"parallel": ["sh", "-c", lines[0]], "parallel again": ["sh", "-c", lines[1]]}
        try_elsewhere(room, lines[2], count)
    for name, words in runs.items():
        out = os.path.join(room, "out")
        if name != "parallel again":
            shutil.rmtree(out, ignore_errors=True)
            os.mkdir(out)
        ends = "\n" if "parallel" in name else "\0"
        files = subprocess.run(find, cwd=room, capture_output=True, check=True).stdout.decode().replace("\0", ends)
        done = subprocess.run(words, cwd=room, input=files.encode(), capture_output=True, env=os.environ | {"SPANX": PROGRAM})
        made = [name for name in os.listdir(out) if name.endswith(".json")]
        notes = [line for line in done.stderr.decode().splitlines() if "Truncated" in line]
        must(len(made) == count - 2 and len(notes) == 2, f"{name}: {len(made)} of {count} files, {done.stderr.decode()[-500:]}")
        must(done.returncode == {"xargs": 123}.get(name, 2), f"{name} ends with {done.returncode}")
        must(not any(name.endswith(".part") for name in os.listdir(out)), f"{name}: parts are left")
    print(f"ok: {count} files by {', '.join(runs)}", flush=True)


def in_room(work, *words):
    with tempfile.TemporaryDirectory() as room:
        work(room, *words)


def main(count, chosen):
    if not os.access(PROGRAM, os.X_OK):
        sys.exit(BUILD)
    parts = {
        "wrong": try_wrong, "moves": lambda: in_room(try_moves), "many": lambda: in_room(try_many, count),
        "doubles": lambda: try_doubles(count), "faults": lambda: try_faults(count), "pictures": try_pictures, "bar": lambda: in_room(try_bar),
    }
    for name in chosen or parts:
        parts[name]()
    return len(WRONG)


if __name__ == "__main__":
    sys.exit(1 if main(int(sys.argv[1]) if sys.argv[1:] else 300, sys.argv[2:]) else 0)
