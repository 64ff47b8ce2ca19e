#!/usr/bin/env python3
"""Times an INSERT into a table of 65,536 slots, beside the bare seals and unseals of its blocks, and prints beside them
what OpenSSL's HMAC-SHA-256 and ChaCha20 do, where `openssl` is there: the processor's time (bench/driven.py), the
least of nine.

usage: bench/insert.py
Needs `rt` (bench/build.py) and python3. Takes ten seconds once the programs are built.
"""
import shutil
import subprocess

from build import build, program
from driven import Passes, Session, beside, create, parser
from shapes import insert

NAMES = "oblitrace", "ob_pass_bench"
MEMORY, PASSES = map(program, NAMES)
SLOTS, WIDTH, ROWS, TIMES = 65536, 17, 64, 9


def print_insert():
    """Prints what an INSERT takes, and what its blocks do."""
    session, passes = Session(MEMORY), Passes(PASSES)
    session.serve(create("t", SLOTS))
    sealed, opened = insert(SLOTS, 1, ROWS, 1)
    measured = beside([
        (session.serve(f"INSERT INTO t VALUES ({number}, {number});")[1], passes.bare(sealed, opened, WIDTH))
        for number in range(TIMES)
    ])
    print(f"INSERT, {SLOTS:,} slots, {2 + sealed + opened:,} accesses: {measured.one:.0f} ms")
    print(f"its {sealed:,} seals and {opened:,} unseals alone: {measured.other:.0f} ms")
    print(f"ratio: {measured.ratio:.2f}")


def print_standards():
    """Prints what OpenSSL does."""
    for words in (["-hmac", "sha256"], ["-evp", "chacha20"]):
        command = ["openssl", "speed", "-seconds", "1", "-bytes", "64", *words]
        ran = subprocess.run(command, stdout=subprocess.PIPE, stderr=subprocess.DEVNULL, text=True)
        for line in ran.stdout.splitlines()[-1:]:
            print(line)


def main():
    parser(__doc__).parse_args()
    build(*NAMES)
    print_insert()
    if shutil.which("openssl"):
        print_standards()


if __name__ == "__main__":
    main()
