#!/usr/bin/env python3
"""Times each pass over tables of real rows, beside the bare seals and unseals of the same blocks, and prints their ratio
beside the limit that it has: the processor's time (bench/driven.py).

usage: bench/passes.py
Needs `rt` (bench/build.py), python3 and 1 GB. Takes a quarter of an hour once the program is built.
"""
import collections

from build import build, program
from driven import Limits, Passes, beside, machine, parser, print_head, print_row
from shapes import blocks, continuous, count, hashed, insert, join, large, rewrite, small

NAME = "ob_pass_bench"
SLOTS = MOST_OPEN = 65536
# A pass is timed so often, or once where it takes more than so many milliseconds.
TIMES, LONG = 3, 5000
# Each pass: its letter, the blocks that it seals and opens, its limit (or two, for 1 and 8 rows a block), its slots, the
# rows that may be open, and how many are selected; of a join, the slots of the left table. The program has 64 rows open at
# most; the last three lines have as many as fit all that is selected, the left table, or all groups, whose keys come in no
# order.
Pass = collections.namedtuple("Pass", "name letter shape limits slots open selected")
ALL = [
    Pass("count", "c", count, 1.5, SLOTS, 64, SLOTS // 2),
    Pass("INSERT", "i", insert, 1.5, SLOTS, 64, 1),
    Pass("UPDATE", "u", rewrite, 1.5, SLOTS, 64, SLOTS // 2),
    Pass("DELETE", "d", rewrite, 1.5, SLOTS, 64, SLOTS // 2),
    Pass("Large", "L", large, 1.5, SLOTS, 64, SLOTS // 2),
    Pass("emission", "e", count, 1.5, SLOTS, 64, SLOTS),
    Pass("Small", "S", small, 1.7, SLOTS, 64, 480),
    Pass("Continuous", "C", continuous, 1.7, SLOTS, 64, 4096),
    Pass("Hash", "H", hashed, 1.7, SLOTS, 64, 4096),
    Pass("aggregates", "a", count, 1.7, SLOTS, 64, SLOTS),
    Pass("GROUP BY", "g", count, 1.7, SLOTS, 64, SLOTS),
    Pass("join", "j", join, 1.7, SLOTS, 64, 256),
    Pass("Small", "S", small, 1.7, SLOTS, MOST_OPEN, SLOTS),
    Pass("join", "j", join, (2.0, 4.0), SLOTS // 16, MOST_OPEN, SLOTS // 16),
    Pass("GROUP BY", "G", count, 3.0, SLOTS, MOST_OPEN, 60000),
]


def join_bare(passes, sealed, opened, pack, right, lefts):
    """The milliseconds of the seals and unseals of a join: it opens blocks of the left table, whose rows have 17 bytes, and of
    the right one, and seals blocks of both rows with one mark."""
    reads = blocks(pack, lefts)
    of_left, of_right = passes.bare(0, reads, pack * 17), passes.bare(0, opened - reads, pack * right)
    return of_left + of_right + passes.bare(sealed, 0, pack * (16 + right))


def timed(passes, kind, width, pack):
    """Rounds of a pass and of its bare blocks: in each one comes behind the other, so that what slows the machine down slows
    both."""
    sealed, opened = kind.shape(kind.slots, pack, kind.open, kind.selected)
    pairs = []
    while len(pairs) < TIMES and max(map(max, pairs), default=0) <= LONG:
        spent = passes.run(kind.letter, width, pack, kind.slots, kind.open, kind.selected)[0]
        if kind.name == "join":
            alone = join_bare(passes, sealed, opened, pack, width, kind.selected)
        else:
            alone = passes.bare(sealed, opened, pack * width)
        pairs.append((spent, alone))
    return pairs


def print_pass(passes, kind, width, pack, limits):
    """Prints what a pass takes."""
    # A joined row has at most 1,024 bytes: with a left one of 17, the right one has these.
    given = 1008 if kind.name == "join" and width == 1024 else width
    limit = kind.limits if isinstance(kind.limits, float) else kind.limits[pack > 1]
    measured = beside(timed(passes, kind, given, pack))
    print_row(
        kind.name, width, pack, f"{kind.slots:,}", f"{kind.open:,}", f"{kind.selected:,}", f"{measured.one:.0f}",
        f"{measured.other:.0f}", f"{measured.ratio:.2f}", limit, limits.verdict(measured.ratio, limit),
    )


def main():
    parser(__doc__).parse_args()
    build(NAME)
    passes, limits = Passes(program(NAME)), Limits()
    print(f"Passes beside their bare blocks, on {machine()}:\n")
    print_head(
        "Pass", "bytes of a row:", "rows of a block:", "slots:", "open rows:", "k:", "pass, ms:", "bare, ms:", "ratio:", "limit:",
        "",
    )
    for kind in ALL:
        for width in (17, 128, 1024):
            for pack in (1, 8):
                print_pass(passes, kind, width, pack, limits)


if __name__ == "__main__":
    main()
