#!/usr/bin/env python3
"""Serves an input as long as one may be, 1,073,741,823 bytes of short texts, and one a hundredth as long, and prints the
peak of memory of both: texts are served one by one, and nothing is kept of one. A third input is of 100,000 statements
that each ask something of the store. Ends with 1 where the long input, or the third one, takes 256 KB more than the short
one, or where an answer is missing.

usage: bench/long.py
Needs `rt` (bench/build.py) and python3. Takes half a minute once the program is built.
"""
import pathlib
import re
import subprocess
import sys
import tempfile
import time

from build import build, program
from driven import KEY, parser

NAME = "oblitrace"
SECRET = KEY.encode()
LONGEST = 1_073_741_823
# A text of a comment alone, which is passed over, and one that is refused.
COMMENT = b"-- " + b"a" * 500 + b"\n;\n"
REFUSED = b"SELECT a, b FROM t WHERE a = '" + b"x" * 250 + b"' OR b = '" + b"y" * 250 + b"';\n"
PAIR = COMMENT + REFUSED
# The statements that each ask something, and by how many kilobytes an input may take more than the short one.
COUNT, MORE = 100_000, 256


def served(pieces):
    """The status with which the program serves these bytes, how many lines it answers, and the peak of its memory in KB, once
    it waits for more."""
    with tempfile.TemporaryFile() as out:
        child = subprocess.Popen([program(NAME)], stdin=subprocess.PIPE, stdout=out, stderr=subprocess.DEVNULL)
        for piece in pieces:
            child.stdin.write(piece)
        child.stdin.flush()
        proc = pathlib.Path("/proc", str(child.pid))
        while (proc / "stat").read_text().rpartition(")")[2].split()[0] == "R":
            time.sleep(0.01)
        peak = re.search(r"VmHWM:\s+(\d+)", (proc / "status").read_text())
        child.stdin.close()
        status = child.wait()
        out.seek(0)
        lines = sum(chunk.count(b"\n") for chunk in iter(lambda: out.read(1 << 20), b""))
    return status, lines, int(peak[1])


def texts(size):
    """An input of so many bytes, piece by piece."""
    count, rest = divmod(size - len(SECRET), len(PAIR))
    yield SECRET
    block = PAIR * 1000
    for _ in range(count // 1000):
        yield block
    yield PAIR * (count % 1000) + b" " * rest


def refusals(size):
    """How many texts of such an input are refused."""
    return (size - len(SECRET)) // len(PAIR)


def print_texts(size):
    """Serves an input of so many bytes, and gives its peak, and whether it is answered as it should be."""
    status, lines, peak = served(texts(size))
    well = (status, lines) == (1, refusals(size))
    print(f"{size:>13,} bytes: {lines:,} refusals, at most {peak:,} KB{'' if well else ', WRONG'}", flush=True)
    return peak, well


def print_statements():
    """Likewise with statements that ask something."""
    made = b"CREATE TABLE t (id INT) CAPACITY 2;\n"
    status, lines, peak = served([SECRET, made, *[b"SELECT COUNT(*) FROM t;\n" * 1000] * (COUNT // 1000)])
    well = (status, lines) == (0, 1 + 3 * COUNT)
    print(f"{COUNT:,} statements that ask for an access each: at most {peak:,} KB{'' if well else ', WRONG'}")
    return peak, well


def main():
    parser(__doc__).parse_args()
    build(NAME)
    (short, *others), wells = zip(print_texts(LONGEST // 100), print_texts(LONGEST), print_statements())
    sys.exit(not all(wells) or max(others) > short + MORE)


if __name__ == "__main__":
    main()
