#!/usr/bin/env python3
"""Tries a spool over a table beside C's sqlite3 library: its time, its memory, and each request for memory refused in turn.

Run it at the top as bench/speed/spool.py. It builds bench/speed/spool_rattle, a program over the crate `span_spool`, in a copy of
the checkout in a temporary folder by `rt`, which proves what isn't kept; no crate of the repository stands for it. With
`--program FILE` a program that was built before is run. bench/speed/spool_c does the same by C's library, with the same
statements.

Time and memory: each program keeps 100,000 bodies of 2,000 bytes, and reads and drops all wherever there is no room for
another, with room for 1,024, for 10,000 and for 100,000; the least user time is printed of five turns, of three and of one,
which the programs take in turn. Then each works with room for 1,024 bodies until 10,000 and until 1,000,000 orders are done, a
third of them each of its three kinds, and the most memory that it took is printed.

Refused memory: the program carries out a row of seven orders on each keeper, with room for two, where bench/faults/shims/refuse.c
refuses the first request for memory, the second one, and so on up to the first run that asks no more often; then this one and all
behind it; then this one and every second one behind it. Where the orders stop, they go on at the one that found no memory, up to
100 times. In each run every order that took effect must have its reply, in the order of the undisturbed run, and every other one
none; no call may have failed; and as many rows must be held, and these, as are accepted and not acknowledged by those replies.

It ends with 1 where with room for 1,024 the table takes more than four times the time of the library, where a million orders
take half again as much memory as ten thousand, or where a refused request is answered otherwise.
"""
import argparse
import collections
import os
import subprocess
import sys
import tempfile

sys.path.insert(1, os.path.dirname(os.path.dirname(os.path.realpath(__file__))))
import rooms

TOP = rooms.TOP
BODIES, SIZE, ROOM = 100_000, 2_000, 1_024
# How often is timed what has so much room.
TURNS = {ROOM: 5, 10_000: 3, BODIES: 1}
ORDERS = [10_000, 1_000_000]
CRATE = "spool_tries"
LINE = f"{CRATE}: span_io span_spool\n"
KEEPERS = {"memory": "the spool in memory", "table": "the spool over a table"}
LIBRARY = "C's sqlite3 library"
HOW = {"one": 0, "all from one on": 1, "every second from one on": 2}
# The replies of the row, and by how many of them stand which rows are left.
REPLIES = ["kept 1", "kept 2", "full", "first 1 []", "stays", "dropped", "first 2 [1]"]
ROWS = ["left 1 []", "left 2 [1]"]


def left_behind(done):
    """The rows that are left behind so many orders."""
    return ROWS[1:] if done >= 6 else ROWS[:done]


def built_library(folder):
    """The program over C's library."""
    program = os.path.join(folder, "library")
    subprocess.run(["gcc", "-O2", "-o", program, os.path.join(rooms.BENCH, "speed", "spool_c", "main.c"), "-lsqlite3"], check=True)
    return program


def built_shim(folder):
    """The library that stands in front of the C library's allocator."""
    library = os.path.join(folder, "refuse.so")
    source = os.path.join(rooms.BENCH, "faults", "shims", "refuse.c")
    subprocess.run(["gcc", "-O2", "-shared", "-fPIC", "-o", library, source], check=True)
    return library


def built_spool(folder):
    """The program over `span_spool`, in a copy of the checkout."""
    for name in ["crates", "crates.txt", "HANDLES"]:
        subprocess.run(["cp", "-r", os.path.join(TOP, name), folder], check=True)
    place = os.path.join(folder, "crates", CRATE)
    os.makedirs(place)
    # The gate reads no .rt file outside crates, so the program has another name here.
    os.makedirs(os.path.join(place, "src"))
    subprocess.run(["cp", os.path.join(rooms.BENCH, "speed", "spool_rattle", "main.rattle"), os.path.join(place, "src", "main.rt")], check=True)
    with open(os.path.join(folder, "crates.txt"), "a", encoding="utf-8") as file:
        file.write(LINE)
    subprocess.run(["git", "init", "-q", folder], check=True)
    subprocess.run(["rt", "run", "--", "memory", "row"], cwd=place, check=True)
    return os.path.join(place, "out", CRATE)


def used(words):
    """The user time and the most memory of a run, in seconds and bytes."""
    words = ["time", "-f", "%U %M", *words]
    run = subprocess.run(words, stdout=subprocess.DEVNULL, stderr=subprocess.PIPE, text=True, check=False)
    if run.returncode:
        sys.exit(f"{words}: status {run.returncode}")
    user, peak = run.stderr.split()
    return float(user), int(peak) * 1024


def timed(programs, room):
    """Prints the least time that each program takes with so much room; and gives it by its name."""
    times = collections.defaultdict(list)
    for _ in range(TURNS[room]):
        for name, words in programs.items():
            times[name].append(used([*words, str(BODIES), str(room), str(SIZE)])[0])
    for name in programs:
        print(f"room for {room}, {name}: {min(times[name]):.2f} s", flush=True)
    return {name: min(times[name]) for name in programs}


def more_memory(name, words):
    """Prints the most memory that a program takes by the number of orders; and tells whether it grows."""
    few, many = (used([*words, str(orders // 3), str(ROOM), str(SIZE)])[1] for orders in ORDERS)
    print(f"{name}: {few / 1e6:.1f} MB for {ORDERS[0]} orders, {many / 1e6:.1f} MB for {ORDERS[1]}", flush=True)
    return many > 1.5 * few


def row_run(program, keeper, shim, first, every):
    """The status of a run of the row, its lines, and whether a request was refused."""
    reads, marks = os.pipe()
    with open(reads, "rb") as file:
        env = {"LD_PRELOAD": shim, "REFUSE_FIRST": str(first), "REFUSE_EVERY": str(every), "SHIM_MARKS": str(marks)}
        process = subprocess.Popen([program, keeper, "row"], stdout=subprocess.PIPE, env=env, pass_fds=[marks])
        os.close(marks)
        seen = file.read()
        output = process.communicate()[0]
    return process.returncode, output.decode().splitlines(), b"x" in seen


def wrong(status, lines, never_again):
    """What a run of the row does wrong, of which memory was never found again or was; nothing else."""
    if status == 7 and not lines:
        return ""
    if status:
        return f"status {status}"
    place = next(place for place, line in enumerate(lines) if line.startswith("holds"))
    done = at_stop = 0
    for line in lines[:place]:
        if line == f"wanted {done - at_stop}":
            at_stop = done
        elif done < len(REPLIES) and line == REPLIES[done]:
            done += 1
        else:
            return f"another reply behind {done}: {line}"
    left = left_behind(done)
    if done < len(REPLIES) and not never_again:
        return f"stopped behind {done}"
    if lines[place] != f"holds {len(left)}":
        return f"another number of rows: {lines[place]}"
    if lines[place + 1:] == [*left, "holds 0"]:
        return ""
    read = [line for line in lines[place + 1:-1] if line != "wanted"]
    if never_again and read in [[], left[:1] * len(left)] and lines[-1] == f"holds {len(left)}":
        return ""
    return f"other rows: {lines[place + 1:]}"


def how_it_ended(status, lines):
    if status == 7:
        return "status 7 before any order"
    if not any(line.startswith("wanted ") for line in lines):
        return "no order found that out"
    return "went on at the order that found no memory" if REPLIES[-1] in lines else "never found memory again"


def refused(program, keeper, shim):
    """Prints how the runs of the row ended on a keeper; and gives how many did wrong."""
    counts, differences = collections.Counter(), 0
    status, lines, _ = row_run(program, keeper, shim, 0, 0)
    if status or lines != [*REPLIES, "holds 1", ROWS[1], "holds 0"]:
        sys.exit(f"{keeper}: undisturbed it ends with status {status} and {lines}")
    for every in HOW.values():
        first = 1
        while True:
            status, lines, is_refused = row_run(program, keeper, shim, first, every)
            if not is_refused:
                break
            counts[how_it_ended(status, lines)] += 1
            if why := wrong(status, lines, every > 0):
                differences += 1
                print(f"{keeper}, request {first}, then by {every}: {why}", flush=True)
            first += 1
    told = ", ".join(f"{count} {name}" for name, count in counts.most_common())
    print(f"{KEEPERS[keeper]}: {sum(counts.values())} runs with refused memory: {told}; {differences} differences", flush=True)
    return differences


def main():
    parser = argparse.ArgumentParser(description=__doc__, formatter_class=argparse.RawDescriptionHelpFormatter)
    parser.add_argument("--program", metavar="FILE", help="a program of bench/speed/spool_rattle that was built before")
    parser.add_argument("--only", choices=["speed", "refused"], help="times and memory alone, or refused memory alone")
    parser.add_argument("--room", type=int, action="append", choices=list(TURNS), help="times with so much room alone")
    told = parser.parse_args()
    failed = 0
    with tempfile.TemporaryDirectory() as folder:
        library = built_library(folder)
        shim = built_shim(folder)
        program = told.program or built_spool(folder)
        if told.only != "speed":
            failed = sum(refused(program, keeper, shim) for keeper in KEEPERS)
        if told.only != "refused":
            programs = {LIBRARY: [library]}
            programs.update({name: [program, keeper] for keeper, name in KEEPERS.items()})
            failed += sum([more_memory(name, words) for name, words in programs.items()])
            for room in told.room or TURNS:
                times = timed(programs, room)
                often = times[KEEPERS["table"]] / times[LIBRARY]
                print(f"room for {room}: the table takes {often:.2f} times the time of the library", flush=True)
                failed += room == ROOM and often > 4
    return int(failed > 0)


if __name__ == "__main__":
    sys.exit(main())
