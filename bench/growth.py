#!/usr/bin/env python3
"""Serves 100,000 statements, fed by a pipe, and prints by how much the memory of the program grows from the first 1,000 of
them to the last: `oblitrace` and `oblidb`, INSERTs into 16 slots and point queries of an index of 1,024 keys, `oblitrace`
with `--trace`, too, and `oblidb` with `--save` over a hundredth of the statements. Ends with 1 where it is more than 1 MB.

usage: bench/growth.py [STATEMENTS]     (100,000 without it)
Needs `rt` (bench/build.py) and python3, on Linux. Takes five minutes once the programs are built, most of them for files.
"""
import collections
import itertools
import pathlib
import sys
import tempfile

from build import build, program
from driven import KEY, Driven, closes_all, create, parser

# The keys of the index, after how many statements is looked first, the kilobytes that may come to it from there on, and how many
# statements are typed at once.
KEYS, FIRST, MOST, PIECE = 1024, 1000, 1024, 200
# A kind of statement: its name, what stands before it, the words that it needs, and the statement by its number.
Kind = collections.namedtuple("Kind", "name before words statement")
INSERTS = Kind("INSERTs into 16 slots", [create("t", 16)], [], lambda number: f"INSERT INTO t VALUES ({number}, {number});")
QUERIES = Kind(
    "point queries of an index",
    [create("t", KEYS, " INDEXED"), *(f"INSERT INTO t VALUES ({key}, {key});" for key in range(KEYS))],
    ["--buffer", "158", "--stash", "89"],
    lambda number: f"SELECT * FROM t WHERE id = {number * 7 % KEYS};",
)


def runs(count):
    """Of each run the program, the kind of its statements, its words, and how many statements it serves."""
    return [
        ("oblitrace", INSERTS, [], count),
        ("oblitrace", QUERIES, [], count),
        ("oblitrace", INSERTS, ["--trace"], count),
        ("oblitrace", QUERIES, ["--trace"], count),
        ("oblidb", INSERTS, [], count),
        ("oblidb", QUERIES, [], count),
        ("oblidb", INSERTS, ["--save"], FIRST + count // 100),
    ]


def pieces(texts):
    """So many texts at once as are typed."""
    texts = iter(texts)
    while piece := list(itertools.islice(texts, PIECE)):
        yield piece


def answer_all(session, texts):
    """Types the texts in pieces, each once the one before it was answered."""
    for piece in pieces(texts):
        session.type("\n".join(piece) + "\n")
        session.read(closes_all(len(piece)))


def memory(session):
    """The kilobytes that are in use, and the most that were."""
    session.wait()
    lines = pathlib.Path(session.proc("status")).read_text().split("\n")
    return [next(int(line.split()[1]) for line in lines if line.startswith(name)) for name in ("VmRSS", "VmHWM")]


def grown(name, kind, words, count):
    """Prints how the memory of a run grows, and gives by how many kilobytes at most."""
    with tempfile.TemporaryDirectory() as folder:
        place = ["--store", f"{folder}/store"] if name == "oblidb" else []
        session = Driven(program(name), *words, *place, *kind.words)
        session.type(KEY)
        answer_all(session, kind.before)
        answer_all(session, map(kind.statement, range(FIRST)))
        early = memory(session)
        answer_all(session, map(kind.statement, range(FIRST, count)))
        late = memory(session)
        session.end()
    more, peak = (end - begin for begin, end in zip(early, late))
    said = " ".join([name, *words])
    print(
        f"{said}, {count:,} {kind.name}: {early[0]:,} KB behind {FIRST:,}, {more:+,} KB at the end, the peak {peak:+,}",
        flush=True,
    )
    return max(more, peak)


def main():
    words = parser(__doc__)
    words.add_argument("statements", metavar="STATEMENTS", nargs="?", type=int, default=100_000, help="how many are served")
    count = words.parse_args().statements
    build("oblitrace", "oblidb")
    sys.exit(max([grown(*run) for run in runs(count)]) > MOST)


if __name__ == "__main__":
    main()
