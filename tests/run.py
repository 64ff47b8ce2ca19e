#!/usr/bin/env python3
"""Runs the tests of the program over files: of files, marks, saving, slips, others at work, the guide and the documents whole, and
a part of those of what a power cut may leave and of calls that fail, drawn from a number that is always the same. Prints what
isn't as it should be and what this machine can't try, and last how much passed, of all of them together.

usage: tests/run.py [PROGRAMS]
Needs the programs oblidb and oblitrace in PROGRAMS (crates/ without it, where `rt ci` leaves them) and python3; what needs strace
or root is left out, with a word, where that isn't there. Takes a minute or two on two processors.
"""
import pathlib
import re
import subprocess
import sys

import runs

PARTS = [
    ["files.py"], ["keep.py"], ["save.py", "--calls", "80"], ["slips.py"], ["others.py"], ["guide.py"], ["documents.py"], ["power.py", "--states", "100"],
    ["faults.py", "--faults", "60"],
]
# No part is stopped that comes to its end: this is for one that never would.
NEVER = 3600
LAST = re.compile(r"([0-9]+) passed, ([0-9]+) failed")


def part(words, folder):
    """Runs a part, and gives how much of it passed and failed, with what it says of that."""
    name, *more = words
    command = [sys.executable, "-B", str(pathlib.Path(__file__).with_name(name)), folder, *more]
    try:
        ran = subprocess.run(command, stdin=subprocess.DEVNULL, stdout=subprocess.PIPE, stderr=subprocess.STDOUT, timeout=NEVER)
        lines = ran.stdout.decode(errors="replace").splitlines()
        status = ran.returncode
    except subprocess.TimeoutExpired as stopped:
        lines, status = [*(stopped.stdout or b"").decode(errors="replace").splitlines(), "it isn't over"], None
    last = LAST.fullmatch(lines[-1]) if lines else None
    if last is None or status != (last[2] != "0"):
        return 0, 1, [*lines[-40:], f"status {status}"]
    return int(last[1]), int(last[2]), [line for line in lines[:-1] if not line.endswith(": as it should be")]


def main():
    folder, passed, failed = sys.argv[1] if sys.argv[1:] else str(runs.TOP / "crates"), 0, 0
    for words in PARTS:
        well, wrong, told = part(words, folder)
        print(f"== tests/{' '.join(words)}: {well} passed, {wrong} failed", *told, sep="\n", flush=True)
        passed, failed = passed + well, failed + wrong
    print(f"{passed} passed, {failed} failed")
    sys.exit(failed > 0)


if __name__ == "__main__":
    main()
