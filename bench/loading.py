#!/usr/bin/env python3
"""Measures what it takes to load a table: rows of two integers, of which the first is the primary key, each an INSERT of its
own, into as many slots, 16 rows in a block, with --batch. In files (oblidb) and in memory (oblitrace), beside SQLCipher,
whose program is fed with the same INSERTs in one transaction, with a raw key, and neither journal nor syncs, as our files
have none without --save. The keys ascend. Prints a table of the processor's time of whole runs, user and system, the least
of some rounds in each of which all run in turn; with the ratios to SQLCipher's, the quartiles of those of the rounds, and OK
or OVER for the files' beside its goal; and of the peak of memory. Ends with 1 where one is OVER. A run counts only with
status 0: then nothing was refused.

usage: bench/loading.py [ROUNDS]     (5 without it)
Needs `rt` (bench/build.py), `sqlcipher` (Debian has it as a package), python3, 1 GB, and 250 MB in the folder for temporary
files (TMPDIR), where the files lie. Takes five minutes once the programs are built.
"""
import pathlib
import shutil
import sys
import tempfile

from build import build, program
from driven import CIPHER_KEY, KEY, UNSYNCED, Limits, beside, create, machine, parser, print_head, print_row, whole

NAMES = "oblitrace", "oblidb"
MEMORY, FILES = map(program, NAMES)
PACK = "16"
SIDES = "files", "memory", "theirs"
# How many rows, the words that say how many INSERTs are served together, and the goal beside SQLCipher.
LOADS = [
    (65536, ["--batch", "4096", "--buffer", "8192"], 6),
    (65536, ["--batch", "65535", "--buffer", "65536"], 3),
    (1048576, ["--batch", "65535", "--buffer", "65536"], 6),
]


def write_inputs(folder, rows):
    """What the programs are fed with, each a file."""
    inserts = "".join(f"INSERT INTO t VALUES ({number}, {number % 16});\n" for number in range(rows))
    (folder / "ours").write_text(f"{KEY}{create('t', rows)}\n{inserts}")
    made = "CREATE TABLE t (id INTEGER PRIMARY KEY, v INT);"
    (folder / "theirs").write_text(f"{CIPHER_KEY}{UNSYNCED}{made}\nBEGIN;\n{inserts}COMMIT;\n")


def run(folder, command, fed):
    """The milliseconds of a run, user and system, and its peak of memory in megabytes."""
    for file in folder.glob("store*"):
        file.unlink()
    with (folder / fed).open() as stdin:
        ran = whole(command, stdin)
    if ran.status:
        sys.exit(f"{' '.join(command)} ended with status {ran.status}")
    return ran.spent, ran.peak


def sides(folder, words):
    """Of each side the command, and what it is fed with."""
    ours = ["--pack", PACK, *words]
    return {
        "files": ([FILES, "--store", f"{folder}/store", *ours], "ours"),
        "memory": ([MEMORY, *ours], "ours"),
        "theirs": (["sqlcipher", "-batch", f"{folder}/store.db"], "theirs"),
    }


def print_load(folder, load, rounds, limits):
    """Prints what a load takes."""
    rows, words, goal = load
    write_inputs(folder, rows)
    found = [{name: run(folder, *side) for name, side in sides(folder, words).items()} for _ in range(rounds)]
    files, memory, theirs = (min(one[name][0] for one in found) for name in SIDES)
    measured = beside([(one["files"][0], one["theirs"][0]) for one in found])
    print_row(
        f"{rows:,}", f"`{' '.join(words)}`", f"{files:.0f}", f"{memory:.0f}", f"{theirs:.0f}", f"{memory / theirs:.2f}",
        f"{measured.ratio:.2f}", measured.quartiles, goal, limits.verdict(files, goal * theirs),
        *(f"{max(one[name][1] for one in found):.0f}" for name in SIDES),
    )


def main():
    words = parser(__doc__)
    words.add_argument("rounds", metavar="ROUNDS", nargs="?", type=int, default=5, help="how often each load is made")
    rounds = words.parse_args().rounds
    if not shutil.which("sqlcipher"):
        print("there is no sqlcipher here", file=sys.stderr)
        sys.exit(2)
    build(*NAMES)
    limits = Limits()
    print(f"Loading, {PACK} rows in a block, on {machine()}: milliseconds of the processor, the least of {rounds} rounds.\n")
    print_head(
        "Rows:", "words", "files:", "memory:", "SQLCipher:", "memory's ratio:", "files' ratio:", "quartiles", "goal:", "",
        "MB in files:", "in memory:", "SQLCipher:",
    )
    with tempfile.TemporaryDirectory() as folder:
        for load in LOADS:
            print_load(pathlib.Path(folder), load, rounds, limits)
    limits.end()


if __name__ == "__main__":
    main()
