#!/usr/bin/env python3
"""Times accesses of an index beside the bare seals and unseals of the same blocks, and prints their ratio beside the limit
that it has: the processor's time (bench/driven.py), the least of 15 rounds, with the quartiles of the rounds' ratios.
Then does a million drawn operations beside a map, each answer compared. Last, for indexes with a row at each key, it
prints how many accesses of drawn keys go through before one finds a stash of 1, 2, 3 slots and so on full, up to the
least stash at which all do. Ends with 1 where a ratio is over the limit.

usage: bench/oram.py [ACCESSES]      of drawn keys with each index; if left out, a million with 1,024 keys, and fewer with more
Needs `rt` (bench/build.py), python3 and 2 GB. Takes ten minutes once the programs are built; with a million, 25.
"""
from build import build, program
from driven import Index, Limits, Passes, beside, machine, parser, print_head, print_row

NAMES = "ob_oram_bench", "ob_pass_bench"
INDEX, PASSES = map(program, NAMES)
LIMIT, SEED, WIDTH = 1.5, 1, 17
KEYS, SLOTS, COUNT, ROUNDS = 65536, 32, 1000, 15
# An access reads and writes the stash and a path of buckets of four.
BLOCKS = SLOTS + 4 * ((KEYS - 1).bit_length() + 1)
# Of the indexes that are filled, how many keys they have, and how many accesses follow where none were asked for.
FILLED = ((1024, 1_000_000), (16384, 500_000), (65536, 100_000))


def print_accesses(index, passes, limits):
    """An access beside the seals and unseals of its blocks."""
    print(f"Accesses of an index of {KEYS:,} keys with a stash of {SLOTS} slots, limit {LIMIT}, on {machine()}:\n")
    print_head("bytes of a row:", "us:", "its seals and unseals, us:", "ratio:", "quartiles", "")
    for width in (WIDTH, 128):
        measured = beside([
            (index.run("t", KEYS, width, SLOTS, COUNT, SEED)[0], passes.bare(COUNT * BLOCKS, COUNT * BLOCKS, width))
            for _ in range(ROUNDS)
        ])
        each, alone = (1000 * spent / COUNT for spent in (measured.one, measured.other))
        verdict = limits.verdict(measured.ratio, LIMIT)
        print_row(width, f"{each:.1f}", f"{alone:.1f}", f"{measured.ratio:.2f}", measured.quartiles, verdict)


def print_compared(index):
    """Operations beside a map."""
    done = sum(index.run("m", 50, WIDTH, 8, 50000, seed)[1] for seed in range(20))
    print(f"\n{done:,} operations answered what a map answers\n", flush=True)


def print_stash(index, asked):
    """The stash that is needed."""
    for keys, count in FILLED:
        accesses = count if asked is None else asked
        print(f"A row put in at each of {keys:,} keys, and then {accesses:,} accesses of drawn keys:\n")
        print_head("slots of the stash:", "accesses before it was full:")
        done = slots = 0
        while done < keys + accesses:
            slots += 1
            done = index.run("f", keys, WIDTH, slots, accesses, SEED)[1]
            print_row(slots, f"{done:,}" if done < keys + accesses else "all went through")
        print(flush=True)
    told = "89, 147 and 303, for a chance of 2^-80, 2^-128 and 2^-256 that more are needed."
    print(f"The paper's slots for buckets of four: {told}")


def main():
    words = parser(__doc__)
    words.add_argument("accesses", metavar="ACCESSES", nargs="?", type=int, help="how many there are with each index")
    asked = words.parse_args().accesses
    build(*NAMES)
    index, passes, limits = Index(INDEX), Passes(PASSES), Limits()
    print_accesses(index, passes, limits)
    print_compared(index)
    print_stash(index, asked)
    limits.end()


if __name__ == "__main__":
    main()
