#!/usr/bin/python3
"""Takes the picture of docs/LOOK.md by the lines of that page, and compares it with docs/waterfall.png, which the page shows.

It is run at the top as bench/pages/screenshot.py [--update], after ./spanx has built the program; with --update it writes
docs/waterfall.png. The picture must have the size that the page's line asks for, a bar for each span, and the bars of
docs/waterfall.png, in their colors and their order, each where it is there or a few points beside it: fonts aren't the same on
each machine. It ends with 1 on a difference.
"""
import os
import re
import shutil
import struct
import subprocess
import sys
import tempfile
import zlib

sys.path.insert(1, os.path.dirname(os.path.dirname(os.path.realpath(__file__))))
import rooms  # first: it finds the others
from program import BUILD, PROGRAM, TOP

PAGE = os.path.join(TOP, "docs", "LOOK.md")
PICTURE = os.path.join(TOP, "docs", "waterfall.png")
# How far a bar may be from where it is, from side to side and up and down; where bars begin, in hundredths of the width.
ASIDE, UP = 2, 6
FIRST = 34
COLORFUL = 60
SECONDS = 300
BYTES = {2: 3, 6: 4}


def predicted(left, above, corner):
    """The value that PNG's last filter expects at a byte, from three beside it."""
    aim = left + above - corner
    return min([left, above, corner], key=lambda value: abs(aim - value))


def unfiltered(kind, line, above, step):
    """The bytes of a line, from what PNG's filter of this kind made of it."""
    out = bytearray(line)
    for at in range(len(out)):
        left, corner = (out[at - step], above[at - step]) if at >= step else (0, 0)
        added = [0, left, above[at], (left + above[at]) // 2, predicted(left, above[at], corner)][kind]
        out[at] = (out[at] + added) % 256
    return out


def points(path):
    """The width and height of a picture, and its points, each of three bytes."""
    with open(path, "rb") as file:
        text = file.read()
    at, held, size = 8, b"", None
    while at < len(text):
        length, kind = struct.unpack(">I4s", text[at : at + 8])
        part = text[at + 8 : at + 8 + length]
        if kind == b"IHDR":
            size = struct.unpack(">IIBBBBB", part)
        held += part if kind == b"IDAT" else b""
        at += length + 12
    width, height, depth, colors, *_, interlaced = size
    if depth != 8 or colors not in BYTES or interlaced:
        sys.exit(f"{path} is a picture of another kind")
    step, held = BYTES[colors], zlib.decompress(held)
    row = width * step + 1
    found, above = [], bytearray(row - 1)
    for line in range(height):
        above = unfiltered(held[line * row], held[line * row + 1 : (line + 1) * row], above, step)
        found += [bytes(above[n : n + 3]) for n in range(0, row - 1, step)]
    return width, height, found


def color(point):
    """Whether a point is of a bar in red or in blue, or of none."""
    red, _, blue = point
    return "red" if red - blue > COLORFUL else "blue" if blue - red > COLORFUL else None


def bars(width, height, found):
    """Each bar of a picture from the top: its color, its first row, and its left and right end."""
    made, last = [], None
    for row in range(height):
        begin = row * width
        colored = [(n, held) for n in range(width * FIRST // 100, width) if (held := color(found[begin + n]))]
        if colored:
            left, right = colored[0][0], colored[-1][0]
            if last == row - 1 and made[-1][0] == colored[0][1]:
                left, right, top = min(left, made[-1][2]), max(right, made[-1][3]), made.pop()[1]
            else:
                top = row
            made.append((colored[0][1], top, left, right))
            last = row
    return made


def is_like(one, other):
    aside = max(abs(one[2] - other[2]), abs(one[3] - other[3]))
    return one[0] == other[0] and abs(one[1] - other[1]) <= UP and aside <= ASIDE


def line_of_page(pattern):
    with open(PAGE, encoding="utf-8") as page:
        return re.search(rf"(?m)^    (?:\$ )?({pattern})$", page.read())[1]


def taken(folder):
    """The picture that the page's lines make, and the size that they ask for."""
    for name in ["spanx", "examples"]:
        os.symlink(os.path.join(TOP, name), os.path.join(folder, name))
    made = line_of_page(r"\./spanx show .* > spans\.html")
    browser = line_of_page("chromium .*")
    for line in [made, browser]:
        done = subprocess.run(["bash", "-o", "pipefail", "-c", line], cwd=folder, capture_output=True, text=True, timeout=SECONDS)
        if done.returncode:
            sys.exit(f"{line}: {done.returncode}, {done.stderr[-500:]}")
    name, *size = re.search(r"--screenshot=(\S+) --window-size=(\d+),(\d+)", browser).groups()
    return os.path.join(folder, name), list(map(int, size))


def main():
    if not os.path.exists(PROGRAM):
        sys.exit(BUILD)
    if not shutil.which("chromium"):
        sys.exit("there is no chromium")
    with tempfile.TemporaryDirectory() as folder:
        path, size = taken(folder)
        width, height, now = points(path)
        if [width, height] != size:
            print(f"WRONG: the picture has {width} by {height} points, and the page asks for {size}")
            return 1
        if "--update" in sys.argv:
            shutil.copyfile(path, PICTURE)
        before, shown = bars(*points(PICTURE)), bars(width, height, now)
        with open(os.path.join(folder, "spans.html"), encoding="utf-8") as page:
            count = page.read().count('<div class="row') - 1
    is_right = len(shown) == len(before) == count and all(map(is_like, shown, before))
    print(f"{'ok' if is_right else 'WRONG'}: {width} by {height} points, {len(shown)} bars of {count} spans")
    if not is_right:
        print(f"  now: {shown}\n  shown: {before}")
    return 0 if is_right else 1


if __name__ == "__main__":
    sys.exit(main())
