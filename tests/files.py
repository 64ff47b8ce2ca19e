#!/usr/bin/env python3
"""Runs the program over files, without a word that keeps its tables.

The sessions of examples/, with 1, 2 and 16 rows in a block, and in batches, whose answers stand beside them; and with others
at work: a folder that isn't there, a file that another program changes or cuts short while the session runs, a disk that is
full (a limit on the size of files), also behind a region that was written whole, and one that fails while a result is read
back; 1,500 statements that fail where few files may be open, and 200 in flight; and INSERTs that wait for the next text, where
they are served together. Prints a line for each, and ends with 1 where an answer, a status, or the files that lie there while
the run is at work or behind it are not as they should be.

usage: tests/files.py [PROGRAMS]
Needs the program in PROGRAMS (crates/ without it; `bench/build.py oblidb` builds it there) and python3, on a system whose limit
on the size of files binds (Linux), and for one test strace. Takes some seconds.
"""
import os
import re
import sys

import runs

MADE = "CREATE TABLE t (id INT PRIMARY KEY, v INT) CAPACITY 4;\nINSERT INTO t VALUES (1, 10);\n"
MADE_LINES = ["= created", "= inserted"]
COUNT = "SELECT COUNT(*) FROM t;\n"
ONE, TWO = (['"COUNT(*)"', f'"{count}"', "= 1 rows"] for count in (1, 2))
FAULT = ["E15 store fault"]
BIG = "CREATE TABLE big (id INT) CAPACITY {};\n"
# A join whose result, by Hash, is longer than the joined region: the disk is full after that one.
JOINED = MADE + "CREATE TABLE u (id INT, v INT) CAPACITY 8;\n" + "".join(f"INSERT INTO u VALUES (1, {n});\n" for n in range(8))
JOINED_LINES = MADE_LINES + ["= created"] + ["= inserted"] * 8
JOIN, HASH = "SELECT * FROM t JOIN u ON t.id = u.id;\n", ("--plan", "hash", "--depth", "8")
ROWS, MORE = "SELECT * FROM t;\n", "INSERT INTO t VALUES (2, 20);\n"
SCRATCH = "s.scratch"


def changed(folder):
    """Inverts a bit of the second region."""
    path = os.path.join(folder, "s.2")
    held = bytearray(runs.read(path))
    held[60] ^= 1
    runs.put(path, bytes(held))


def cut(folder):
    """Cuts the second region short."""
    os.truncate(os.path.join(folder, "s.2"), 100)


class Sessions:
    """Sessions, each in a folder of its own."""

    def __init__(self, tests, program, room):
        self.tests, self.program, self.room = tests, program, room

    def folder(self, name):
        folder = os.path.join(self.room, name.replace(" ", "_"))
        os.mkdir(folder)
        return folder

    def session(self, name, first, second, wanted, status, files, between=None, words=(), behind=(), **most):
        """A session whose statements come in two parts, with something done between them: what it answers, its status, and the
        files that lie there once it has answered; behind it there are none."""
        folder = self.folder(name)
        command = [*behind, self.program, "--store", os.path.join(folder, "s"), *words]
        typed = runs.Typed(command, limited=runs.limits(**most))
        typed.type(runs.KEY + first)
        got = typed.lines(len(MADE_LINES if first == MADE else JOINED_LINES))
        if between:
            between(folder)
        typed.type(second)
        got += typed.lines(len(wanted) - len(got))
        typed.until_it_waits()
        there = sorted(os.listdir(folder))
        rest, ended = typed.end()
        found = (got + rest, ended, there, sorted(os.listdir(folder)))
        self.tests.say(name, found == (wanted, status, files, []), f"{found}")


def disturbed(at):
    """Sessions with others at work on their files."""
    lies = ["s.2", SCRATCH]
    at.session("nobody at work", MADE, COUNT, MADE_LINES + ONE, 0, lies)
    at.session("a block that another program changed", MADE, COUNT + COUNT, MADE_LINES + ["! tampered 2 1"], 4, [], changed)
    at.session("a file that was cut short", MADE, COUNT + COUNT, MADE_LINES + FAULT * 2, 1, lies, cut)
    at.session("a full disk", MADE, BIG.format(4096) * 5 + COUNT, MADE_LINES + FAULT * 5 + ONE, 1, lies, size=65536)
    at.session("a file that was cut short before an INSERT", MADE, MORE, MADE_LINES + FAULT, 1, lies, cut)
    at.session("a table that is given up", MADE, "DROP TABLE t;\n", MADE_LINES + ["= dropped"], 0, [SCRATCH])
    joined = ["s.11", "s.2", SCRATCH]
    at.session("a full disk behind a joined region", JOINED, JOIN + COUNT, JOINED_LINES + FAULT + ONE, 1, joined, words=HASH, size=1000)
    last = ["s.1503", SCRATCH]
    at.session(
        "1500 failing statements where few files may be open", MADE, BIG.format(256) * 1500 + MORE + COUNT, MADE_LINES + FAULT * 1500 + ["= inserted"] + TWO, 1,
        last, size=4096, handles=16,
    )
    at.session(
        "200 failing joins where few files may be open", JOINED, JOIN * 200 + MORE + COUNT, JOINED_LINES + FAULT * 200 + ["= inserted"] + TWO, 1,
        ["s.11", "s.412", SCRATCH], words=HASH, size=1000, handles=16,
    )


def no_folder(at):
    """A folder that isn't there: nobody can be kept from it, and nothing is made."""
    folder = at.folder("a folder that is not there")
    ran = runs.run([at.program, "--store", os.path.join(folder, "none", "s")], runs.KEY + MADE + COUNT)
    well = (ran.lines, ran.status) == (["! keeper fault"], 10) and runs.complains(ran)
    at.tests.say("a folder that is not there", well and os.listdir(folder) == [], f"{ran}")


def reads_back(at):
    """A disk whose last read fails, which is that of a result."""
    name = "a disk that fails while a result is read back"
    if not runs.has("strace"):
        at.tests.skip(name, "there is no strace")
        return
    trace, folder = os.path.join(at.room, "reads.calls"), at.folder("reads")
    runs.run([*runs.behind_strace("pread64", to=trace), at.program, "--store", os.path.join(folder, "s")], runs.KEY + MADE + ROWS)
    count = len(re.findall(r"(?m)^(?:[0-9]+ +)?pread64", runs.read(trace).decode()))
    behind = runs.behind_strace("pread64", f"pread64:error=EIO:when={count}")
    wanted = MADE_LINES + ['"id","v"'] + FAULT + ['"id","v"', '"1","10"', "= 1 rows"]
    at.session(name, MADE, ROWS + ROWS, wanted, 1, ["s.2", SCRATCH], behind=behind)


def failing_flights(at):
    """SELECTs in flight whose results find no room: their regions are given up, and the next INSERT has what it needs."""
    flight = "SELECT * FROM t WHERE v > 0;\n" * 2 + "DROP TABLE none;\n"
    first = MADE + "".join(f"INSERT INTO t VALUES ({n}, 10);\n" for n in (2, 3))
    for words in ((), ("--flight", "2,0")):
        folder = at.folder(f"failing {len(words)}")
        typed = runs.Typed([at.program, "--store", os.path.join(folder, "s"), *words], limited=runs.limits(handles=24))
        typed.type(runs.KEY + first)
        made = typed.lines(4)
        runs.lower_size(typed.child, 49)
        typed.type(flight * 50)
        got = typed.lines(150)
        runs.lower_size(typed.child, None)
        typed.type("DELETE FROM t WHERE id = 3;\n" + COUNT + "DROP TABLE none;\n")
        got += typed.lines(5)
        typed.until_it_waits()
        there, opened = runs.numbered(folder, "s."), runs.open_regions(typed.child.pid)
        rest, status = typed.end()
        wanted = (FAULT * 2 + ["E02 no table"]) * 50 + ["= 1 deleted", *TWO, "E02 no table"]
        found = (made + got + rest, status, len(there), len(opened))
        name = f"100 SELECTs that fail{', in flight' if words else ''}, where few files may be open"
        at.tests.say(name, found == (MADE_LINES + ["= inserted"] * 2 + wanted, 1, 1, 1), f"{found[1:]}, {got[:3]}, {got[-4:]}, {opened}")


# With --batch an INSERT is answered with the text that ends its batch, or that makes it full. What is typed at once, and what
# comes then before more is typed.
TYPED = [
    ("CREATE TABLE t (id INT PRIMARY KEY, v INT) CAPACITY 4;\n", ["= created"]),
    ("INSERT INTO t VALUES (1, 10);\n", []),
    ("INSERT INTO t VALUES (2, 20);\n", ["= inserted", "= inserted"]),
    ("INSERT INTO t VALUES ('a', 20);\n", ["E05 wrong type"]),
    ("INSERT INTO t VALUES (1, 11);\n-- a comment;\n;\n", []),
    (COUNT, ["E10 duplicate", *TWO]),
    ("INSERT INTO t VALUES (3, 30);\n", []),
]


def waits_for_the_next(at):
    """INSERTs that wait for the next text."""
    typed = runs.Typed([at.program, "--store", os.path.join(at.folder("waits"), "s"), "--batch", "2"])
    os.set_blocking(typed.child.stdout.fileno(), False)
    typed.type(runs.KEY)
    found = []
    for text, _ in TYPED:
        typed.type(text)
        typed.until_it_waits()
        try:
            found.append(os.read(typed.child.stdout.fileno(), 65536).decode().splitlines())
        except BlockingIOError:
            found.append([])
    os.set_blocking(typed.child.stdout.fileno(), True)
    well = found == [wanted for _, wanted in TYPED] and typed.end() == (["= inserted"], 1)
    at.tests.say("an INSERT that waits for the next text", well, f"{found}")


# With more rows in a block, and in batches, the same rows are printed, in the same order.
PARTS = [*((f"{pack} rows in a block", ["--pack", str(pack)]) for pack in (1, 2, 16)), ("in batches", ["--batch", "3"])]


def examples(at):
    """The sessions of examples/, with what stands beside them."""
    store = os.path.join(at.folder("examples"), "s")
    for text in sorted((runs.TOP / "examples").glob("*.sql")):
        wanted = text.with_suffix(".out").read_text().splitlines()
        status = int(any(line.startswith("E") for line in wanted))
        for name, words in PARTS:
            ran = runs.run([at.program, "--store", store, *words], text.read_text())
            at.tests.say(f"examples/{text.name}, {name}", (ran.lines, ran.status) == (wanted, status), f"{ran}")


def main():
    tests, program = runs.Tests(), runs.program(*sys.argv[1:] or [runs.TOP / "crates"])
    with runs.room() as room:
        at = Sessions(tests, program, room)
        tests.each((disturbed, no_folder, reads_back, failing_flights, waits_for_the_next, examples), at)
    tests.end()


if __name__ == "__main__":
    main()
