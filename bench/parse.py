#!/usr/bin/env python3
"""Times the parsing of three texts of 65,536 bytes, and of shorter ones of their kinds, which shows whether the
time grows with the length.

usage: bench/parse.py
Needs `rt` (bench/build.py) and python3. Takes half a minute once the program is built.
"""
import subprocess
import sys

from build import build, program
from driven import held, parser, whole

NAME = "ob_parse_bench"
# The program parses its text a hundred times.
ROUNDS, TIMES = 100, 5
SIZES = (16384, 32768, 65536)


def text(size, head, part, mark, tail):
    """A text of so many bytes: a head, as many parts as fit with a mark between them, a tail, and blanks; and how many parts."""
    count = 1 + (size - len(head) - len(part) - len(tail)) // len(mark + part)
    made = head + mark.join([part] * count) + tail
    return made + " " * (size - len(made)), count


def comparisons(size):
    """A text with a condition of many comparisons, and how many tokens it has."""
    made, count = text(size, "SELECT * FROM t WHERE ", "v=1", " OR ", ";")
    return made, 4 + 1 + 3 * count + (count - 1) + 1


def nested(size):
    """Likewise, each comparison in 32 parentheses."""
    made, count = text(size, "SELECT * FROM t WHERE ", "(" * 32 + "v=1" + ")" * 32, " OR ", ";")
    return made, 4 + 1 + 67 * count + (count - 1) + 1


def values(size):
    """A text with a list of many values."""
    made, count = text(size, "INSERT INTO t VALUES (", "1", ",", ");")
    return made, 5 + count + (count - 1) + 2


def least(given):
    """The milliseconds of user and system time that a round takes, the least of five."""
    spent = []
    for _ in range(TIMES):
        with held(given) as stdin:
            ran = whole([program(NAME)], stdin, subprocess.PIPE)
        if ran.status != 0 or (given and ran.said.strip() != "a statement"):
            sys.exit(f"the program said {ran.said.strip()!r}")
        spent.append(ran.spent)
    return min(spent) / ROUNDS


def main():
    parser(__doc__).parse_args()
    build(NAME)
    idle = least("")
    for name, make in (("comparisons", comparisons), ("32 parentheses", nested), ("INSERT list", values)):
        times = []
        for size in SIZES:
            given, tokens = make(size)
            times.append(f"{size:,} bytes {least(given) - idle:.2f} ms")
        print(f"{name}, {tokens:,} tokens at the longest: {', '.join(times)}")


if __name__ == "__main__":
    main()
