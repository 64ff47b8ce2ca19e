#!/usr/bin/env python3
"""Measures what printing adds to a SELECT of rows of two numbers, by Large, for 1, 8 and 16 rows in a block. Prints a table
with OK or OVER in each line, and ends with 1 where one is OVER: a SELECT that is printed is to take at most 1.3 times as
long as its passes with an emitter that keeps nothing.

It is measured twice. Over 65,536 rows by `ob_pass_bench` alone, the same passes with the printer of the program, for a
sink that keeps nothing, in place of that emitter: the rows are put into the table block by block, which 65,536 INSERTs
of as many accesses each would take days for, and both sides differ by nothing but the printer. And as a statement of the
program over 2,048 rows, which INSERTs have put there: parsing, planning and the log are in it, too, and the lines are
read by somebody.

Measured is the processor's time (bench/driven.py): in each round both sides run one behind the other, so that what slows
the machine down slows both; the ratio is that of the least of all rounds, and behind it stand the quartiles of the
rounds' ratios.

usage: bench/printing.py [ROUNDS]     (without it: 15)
Needs `rt` (bench/build.py), python3 and 200 MB. Takes three minutes once the programs are built.
"""
from build import build, program
from driven import Limits, Passes, Session, beside, create, machine, parser, print_head, print_row

NAMES = "oblitrace", "ob_pass_bench"
MEMORY, PASSES = map(program, NAMES)
MANY, FEW, WIDTH, OPEN = 65536, 2048, 17, 64
LIMIT = 1.3


def spent(passes, letter, pack, slots):
    """The milliseconds of a pass over so many slots, all of them with rows and all selected."""
    return passes.run(letter, WIDTH, pack, slots, OPEN, slots)[0]


def before(passes, pack, slots):
    """Those of the passes of a SELECT by Large, except for the emission of the result: a count, the copy, and its discard."""
    return sum(spent(passes, letter, pack, slots) for letter in "cLx")


def of_passes(passes, pack):
    """A round of the passes alone: with the printer, and with the emitter that keeps nothing."""
    alone = before(passes, pack, MANY)
    return alone + spent(passes, "p", pack, MANY), alone + spent(passes, "e", pack, MANY)


def of_statement(session, passes, pack):
    """A round of the statement, and of its passes."""
    taken = session.serve(f"SELECT * FROM t WHERE id < {FEW};")[1]
    return taken, before(passes, pack, FEW) + spent(passes, "e", pack, FEW)


def filled(pack):
    """A session with rows."""
    session = Session(MEMORY, "--pack", str(pack), "--plan", "large")
    session.serve(create("t", FEW))
    for number in range(FEW):
        session.serve(f"INSERT INTO t VALUES ({number}, {number % 16});")
    return session


def print_measured(pack, rounds, limits):
    """Prints what is measured of blocks of so many rows."""
    passes, session = Passes(PASSES), filled(pack)
    measures = [
        (f"{MANY:,}, of the passes", MANY, lambda: of_passes(passes, pack)),
        (f"{FEW:,}, of the program", FEW, lambda: of_statement(session, passes, pack)),
    ]
    for name, rows, measure in measures:
        # (the first round warms up)
        printed, alone, ratio, quartiles = beside([measure() for _ in range(rounds + 1)][1:])
        print_row(
            name, pack, f"{printed:.2f}", f"{alone:.2f}", f"{ratio:.2f}", quartiles, f"{1000 * (printed - alone) / rows:.2f}",
            limits.verdict(ratio, LIMIT),
        )
    for one in (passes, session):
        one.end()


def main():
    words = parser(__doc__)
    words.add_argument("rounds", metavar="ROUNDS", nargs="?", type=int, default=15, help="how often each side is measured")
    rounds = words.parse_args().rounds
    build(*NAMES)
    limits = Limits()
    print(f"Printing beside passes, limit {LIMIT}, on {machine()}:\n")
    print_head(
        "Rows", "rows of a block:", "printed, ms:", "its passes, ms:", "ratio:", "quartiles", "µs more for each row:", "",
    )
    for pack in (1, 8, 16):
        print_measured(pack, rounds, limits)
    limits.end()


if __name__ == "__main__":
    main()
