#!/usr/bin/env python3
"""Measures whole sessions of the program over a table of 65,536 slots: in memory (oblitrace) and in files (oblidb), for 1,
8 and 16 rows in a block, beside the bare seals and unseals of their blocks, and beside SQLCipher with a table of 65,536
rows, where `sqlcipher` is there (Debian has it as a package). Prints a table of the processor's time (bench/driven.py,
the least of some rounds) and of the peak of memory, with OK or OVER where there is a goal: over files within 2 times
of over memory; with 16 rows in a block an UPDATE of every row no slower than SQLCipher's, and a COUNT with a condition
within 3 times. Ends with 1 where one is OVER.

A table of 65,536 rows can't be had cheaply: each INSERT is a pass, so that so many take hours. But a table that was
created has all of its slots, and each pass over it asks the same whatever they hold. Here 100 rows are inserted, which
SELECT and the join need; what a pass over a table that is full takes beside one over a table of 100 rows is measured of
the passes alone (ob_pass_bench), and stands in the table. A padded SELECT asks the same whatever is selected, so it runs in
sessions of its own (`--pad 128`), over a table without a row.

Then what it takes to open and to close 64 tables of 65,536 slots: runs with --keep that serve nothing, beside runs
without a table. Of these the time by the clock stands there, too, since files are waited for until they are on the disk.

Last, what it takes to have each INSERT on the disk before it is answered, by the clock: with --save into a table of 16 slots,
beside SQLite and SQLCipher with autocommit, a rollback journal and synchronous FULL, in turn; and into 65,536 slots with 16
rows in a block, beside one that isn't saved. Of the first the goal is 2.5 times SQLCipher's time, of the second 1.5 times.
The folder for temporary files has to be on a disk that is waited for, and not in memory.

SQLCipher has the table with the same columns and a raw key, and before the last part neither journal nor syncs, as our
files have none there. It finds rows by their key, so INSERT, SELECT of 100 rows and the join take no pass there. Each
statement comes in a connection of its own, so that it reads the file and not its cache.

And a row that is found by its key: in an index of 65,536 keys (`--buffer 158 --stash 89`), in memory and in files, beside
SQLCipher's, whose table has each of them. The index has 100 rows: how many it has changes no access.

usage: bench/sessions.py [ROUNDS]     (11 without it)
Needs `rt` (bench/build.py), python3, 300 MB, and 150 MB in the folder for temporary files (TMPDIR), where the files lie.
Takes six minutes once the programs are built.
"""
import collections
import resource
import shutil
import statistics
import subprocess
import sys
import tempfile
import time

from build import build, program
from driven import (
    CIPHER_KEY, KEY, UNSYNCED, Driven, Limits, Passes, Session, beside, closes, create, machine, parser, print_head, print_row,
    quartiles,
)
from shapes import blocks, count, insert, join, rewrite, small

NAMES = "oblitrace", "oblidb", "ob_pass_bench"
MEMORY, FILES, PASSES = map(program, NAMES)
SLOTS, WIDTH, JOINED, OPEN, SELECTED, PAD, LEFT, LEFTS, TABLES = 65536, 17, 33, 64, 100, 128, 32, 4, 64
PACKS = (1, 8, 16)
MOST_PACK = PACKS[-1]
# How many times as long as over memory a statement over files may take.
GOAL = 2
# A statement, its seals and unseals by the rows of a block, its passes over the table, its goal beside SQLCipher, and how many
# rows its result is padded to, if it is.
Statement = collections.namedtuple("Statement", "name text bare letters goal pad", defaults=(None, None))


# ---- the statements
def plain(shape):
    """The seals and unseals of a pass, and the bytes of the rows that are sealed, by the rows of a block."""
    return lambda pack: [(*shape(SLOTS, pack, OPEN, SELECTED), WIDTH)]


def selected(rows):
    """Those of a SELECT of so many rows."""
    return lambda pack: [
        (*count(SLOTS, pack, OPEN, 0), WIDTH),
        (*small(SLOTS, pack, OPEN, rows), WIDTH),
        (0, blocks(pack, rows), WIDTH),
    ]


def joined(pack):
    """Those of the join."""
    sealed, opened = join(SLOTS, pack, OPEN, LEFT)
    slots = sealed * pack
    return [
        (0, opened, WIDTH),
        (sealed, 0, JOINED),
        (*count(slots, pack, OPEN, 0), JOINED),
        (*small(slots, pack, OPEN, LEFTS), JOINED),
        (0, blocks(pack, LEFTS), JOINED),
    ]


STATEMENTS = [
    Statement("INSERT", "INSERT INTO t VALUES ({number}, 3);", plain(insert), "i"),
    Statement("UPDATE of every row", "UPDATE t SET v = 7;", plain(rewrite), "u", 1),
    Statement("COUNT with a condition", "SELECT COUNT(*) FROM t WHERE v < 8;", plain(count), "o", 3),
    Statement("SELECT of 100 rows", "SELECT * FROM t WHERE id < 100;", selected(SELECTED), "cS"),
    Statement("SELECT padded to 128 rows", "SELECT * FROM t WHERE id < 100;", selected(PAD), "cS", pad=PAD),
    Statement("GROUP BY", "SELECT v, COUNT(*), SUM(id) FROM t GROUP BY v;", plain(count), "g"),
    Statement("a join with 32 slots", "SELECT * FROM l JOIN t ON l.id = t.id;", joined, "j"),
]
SETUP = [
    create("t", SLOTS),
    create("l", LEFT),
    *(f"INSERT INTO l VALUES ({number}, {number});" for number in range(LEFTS)),
    *(f"INSERT INTO t VALUES ({number}, {number % 16});" for number in range(SELECTED)),
]
# A row by its key: our statement, and SQLCipher's.
BY_KEY = [
    ("SELECT of a row by its key", "SELECT * FROM o WHERE id = {key};", "SELECT * FROM t WHERE id = {key};"),
    ("UPDATE of a row by its key", "UPDATE o SET v = 7 WHERE id = {key};", "UPDATE t SET v = 7 WHERE id = {key};"),
]


# ---- the programs
class Cipher(Driven):
    """A run of `sqlcipher` over a file, with each statement in a connection of its own."""

    def __init__(self, folder):
        super().__init__("sqlcipher", "-batch")
        self.file = f"{folder}/cipher.db"
        self.open()
        self.ask(f"""
            CREATE TABLE t (id INTEGER PRIMARY KEY, v INT);
            WITH RECURSIVE n(x) AS (SELECT 0 UNION ALL SELECT x + 1 FROM n WHERE x < {SLOTS - 1})
            INSERT INTO t SELECT x, x % 16 FROM n;
            CREATE TABLE l (id INTEGER PRIMARY KEY, v INT);
            WITH RECURSIVE n(x) AS (SELECT 0 UNION ALL SELECT x + 1 FROM n WHERE x < {LEFTS - 1})
            INSERT INTO l SELECT x, x FROM n;
        """)

    def ask(self, text):
        """What a text is answered, and the milliseconds that it took."""
        return self.timed(text + "\n.print done\n", lambda line: line == "done")

    def open(self):
        """Opens the file in a new connection."""
        self.ask(f".open {self.file}\n{CIPHER_KEY}{UNSYNCED}SELECT COUNT(*) FROM sqlite_master;")

    def serve(self, text):
        """The milliseconds of a statement."""
        self.open()
        return self.ask(text)[1]


class Committed(Driven):
    """A run of `sqlite3` or `sqlcipher`, each of whose statements is on the disk once it is answered."""

    def __init__(self, folder, name, *first):
        super().__init__(name, "-batch", f"{folder}/{name}.committed")
        synced = "PRAGMA journal_mode = DELETE; PRAGMA synchronous = FULL;"
        for text in (*first, synced, "CREATE TABLE t (id INTEGER PRIMARY KEY, v INT);"):
            self.ask(text)

    def ask(self, text):
        """The milliseconds of a text by the clock."""
        return self.waited(text + "\n.print done\n", lambda line: line == "done")[1]


class Synced(Session):
    """A run of `oblidb`, by the clock."""

    def __init__(self, folder, name, slots, pack, *words):
        super().__init__(FILES, "--pack", str(pack), "--store", f"{folder}/{name}", *words)
        self.ask(create("t", slots))

    def ask(self, text):
        """The milliseconds of a statement by the clock."""
        lines, spent = self.waited(text + "\n", closes)
        if not lines[-1].startswith("= "):
            sys.exit(f"{text} is answered {lines[-1]}")
        return spent


# ---- statements, each in each of its forms, one after the other
class Found:
    """The milliseconds of each round, by the statement, the rows of a block and the form, and the peaks of memory."""

    def __init__(self):
        self.spent, self.peaks, self.their_peak = collections.defaultdict(list), collections.defaultdict(float), None

    def keep(self, statement, pack, form, spent):
        """Puts those of another round to them."""
        self.spent[statement.name, pack, form].append(spent)

    def rounds(self, statement, pack, form):
        """Those of the rounds, of which the first warmed up."""
        return self.spent[statement.name, pack, form][1:]

    def least(self, statement, pack, form):
        """The least of them."""
        return min(self.rounds(statement, pack, form))

    def when_full(self, statement, pack):
        """How many times as long its passes take over a table that is full."""
        return self.least(statement, pack, "full") / self.least(statement, pack, "part")


def opened_sessions(folder, pack):
    """The sessions in memory and in files, without padded results and with them, once they have their tables."""
    sessions = {}
    for pad in (None, PAD):
        words = ["--pack", str(pack), *(["--pad", str(pad)] if pad else [])]
        sessions["memory", pad] = Session(MEMORY, *words)
        sessions["files", pad] = Session(FILES, *words, "--store", f"{folder}/s{pack}-{pad}")
    for (_, pad), session in sessions.items():
        for text in SETUP[:1] if pad else SETUP:
            session.serve(text)
    return sessions


def of_passes(passes, statement, pack, full):
    """The milliseconds of the passes of a statement over a table of which so many slots have rows."""
    rows = LEFT if "j" in statement.letters else statement.pad or SELECTED
    # (an INSERT needs a slot without a row)
    most = {"i": SLOTS - 1}
    lines = [(letter, WIDTH, pack, SLOTS, OPEN, rows, min(full, most.get(letter, SLOTS))) for letter in statement.letters]
    return sum(passes.run(*line)[0] for line in lines)


def measure(found, statement, pack, number, sessions, passes, cipher):
    """A round of a statement."""
    for name in ("memory", "files"):
        session = sessions[name, statement.pad]
        session.forget_peak()
        found.keep(statement, pack, name, session.serve(statement.text.format(number=1000 + number))[1])
        found.peaks[statement.name, pack, name] = max(session.peak(), found.peaks[statement.name, pack, name])
    bare = sum(passes.bare(sealed, opened, pack * width) for sealed, opened, width in statement.bare(pack))
    found.keep(statement, pack, "bare", bare)
    found.keep(statement, pack, "part", of_passes(passes, statement, pack, SELECTED))
    found.keep(statement, pack, "full", of_passes(passes, statement, pack, SLOTS))
    if cipher and pack == MOST_PACK:
        found.keep(statement, pack, "theirs", cipher.serve(statement.text.format(number=SLOTS + 1000 + number)))


def all_measured(folder, cipher, rounds):
    """All that is found of the statements."""
    found, passes = Found(), Passes(PASSES)
    for pack in PACKS:
        sessions = opened_sessions(folder, pack)
        # (the first round warms up)
        for number in range(rounds + 1):
            for statement in STATEMENTS:
                measure(found, statement, pack, number, sessions, passes, cipher)
        for session in sessions.values():
            session.end()
    found.their_peak = cipher.peak() if cipher else None
    passes.end()
    return found


def print_statements(found, rounds, limits):
    """Prints the statements in memory and in files."""
    heading = f"A table of {SLOTS:,} slots, {OPEN} rows open, on {machine()}"
    print(f"{heading}: milliseconds of the processor, the least of {rounds} rounds.\n")
    print_head(
        "Statement", "rows of a block:", "memory:", "bare blocks:", "ratio:", "files:", "of memory's:", "quartiles",
        f"goal: {GOAL}", "memory, MB:", "files, MB:", "a full table:",
    )
    for pack in PACKS:
        for statement in STATEMENTS:
            bare = found.least(statement, pack, "bare")
            measured = beside(list(zip(found.rounds(statement, pack, "files"), found.rounds(statement, pack, "memory"))))
            files, memory = measured.one, measured.other
            print_row(
                statement.name, pack, f"{memory:.2f}", f"{bare:.2f}", f"{memory / bare:.2f}", f"{files:.2f}",
                f"{measured.ratio:.2f}", measured.quartiles, limits.verdict(measured.ratio, GOAL),
                *(f"{found.peaks[statement.name, pack, name]:.0f}" for name in ("memory", "files")),
                f"x {found.when_full(statement, pack):.2f}",
            )
    print("\n(a full table: how many times as long its passes take over a table of which each slot has a row)")


def print_beside_cipher(found, limits):
    """Prints the statements beside SQLCipher."""
    command = ["sqlcipher", ":memory:", "PRAGMA cipher_version;"]
    ran = subprocess.run(command, stdin=subprocess.DEVNULL, stdout=subprocess.PIPE, text=True)
    heading = f"Beside SQLCipher {ran.stdout.split()[0]}, with {MOST_PACK} rows in a block"
    print(f"\n{heading}; its peak of memory is {found.their_peak:.0f} MB.\n")
    print_head(
        "Statement", "SQLCipher:", "memory:", "ratio:", "were the table full:", "files:", "ratio:", "were the table full:",
        "goal:", "",
    )
    for statement in STATEMENTS:
        theirs, more = found.least(statement, MOST_PACK, "theirs"), found.when_full(statement, MOST_PACK)
        cells = []
        for name in ("memory", "files"):
            ours = found.least(statement, MOST_PACK, name)
            cells += [f"{ours:.2f}", f"{ours / theirs:.2f}", f"{more * ours / theirs:.2f}"]
        # (what stands last is the ratio of the files)
        met = [statement.goal, limits.verdict(more * ours / theirs, statement.goal)] if statement.goal else ["", ""]
        print_row(statement.name, f"{theirs:.2f}", *cells, *met)


# ---- a row by its key
def keyed_sessions(folder):
    """The sessions in memory and in files, once they have the index."""
    words = ["--buffer", "158", "--stash", "89"]
    sessions = {"memory": Session(MEMORY, *words), "files": Session(FILES, "--store", f"{folder}/index", *words)}
    for session in sessions.values():
        session.serve(create("o", SLOTS, " INDEXED"))
        for number in range(SELECTED):
            session.serve(f"INSERT INTO o VALUES ({number}, {number % 16});")
    return sessions


def all_keyed(folder, cipher, rounds):
    """The milliseconds of each round, by the statement and the side."""
    sessions, found = keyed_sessions(folder), collections.defaultdict(list)
    # (the first round warms up)
    for number in range(rounds + 1):
        for name, ours, theirs in BY_KEY:
            for side, session in sessions.items():
                found[name, side].append(min(session.serve(ours.format(key=key))[1] for key in range(SELECTED)))
            if cipher:
                found[name, "theirs"].append(cipher.serve(theirs.format(key=number)))
    for session in sessions.values():
        session.end()
    return {key: spent[1:] for key, spent in found.items()}


def print_keyed(folder, cipher, rounds, limits):
    """Prints what a row by its key takes."""
    found = all_keyed(folder, cipher, rounds)
    print(f"\nA row by its key, in an index of {SLOTS:,} keys with 89 slots of the stash:\n")
    print_head("Statement", "memory:", "files:", "of memory's:", f"goal: {GOAL}", "SQLCipher:", "memory, of SQLCipher's:")
    for name, _, _ in BY_KEY:
        memory, files = (min(found[name, side]) for side in ("memory", "files"))
        theirs = min(found[name, "theirs"]) if cipher else None
        last = [f"{theirs:.3f}", f"{memory / theirs:.1f}"] if cipher else ["|"]
        ratio = files / memory
        print_row(name, f"{memory:.3f}", f"{files:.3f}", f"{ratio:.2f}", limits.verdict(ratio, GOAL), *last)


# ---- opening and closing: whole runs that serve nothing
def whole_run(store, text, *words):
    """The milliseconds that a run takes, of the processor and by the clock."""
    used, begun = resource.getrusage(resource.RUSAGE_CHILDREN), time.monotonic()
    command = [FILES, "--store", store, *words]
    ran = subprocess.run(command, input=KEY + text, text=True, stdout=subprocess.DEVNULL)
    ended, after = time.monotonic(), resource.getrusage(resource.RUSAGE_CHILDREN)
    if ran.returncode:
        sys.exit(f"a run that serves nothing ended with status {ran.returncode}")
    return 1000 * (after.ru_utime + after.ru_stime - used.ru_utime - used.ru_stime), 1000 * (ended - begun)


def print_openings(folder, rounds):
    """Prints what it takes to open and to close tables."""
    words = ["--keep", "--pack", str(MOST_PACK)]
    tables = "".join(create(f"t{number}", SLOTS) + "\n" for number in range(TABLES))
    whole_run(f"{folder}/kept", tables, *words)
    kept = [whole_run(f"{folder}/kept", "", *words) for _ in range(rounds)]
    none = [whole_run(f"{folder}/plain", "") for _ in range(rounds)]
    heading = f"A run that serves nothing, with {TABLES} tables of {SLOTS:,} slots in files, {MOST_PACK} rows in a block"
    print(f"\n{heading}: milliseconds, the least of {rounds} runs.\n")
    print_head("", "of the processor:", "by the clock:")
    for name, runs in (("tables are opened and closed (`--keep`)", kept), ("no tables", none)):
        print_row(name, *(f"{min(side):.1f}" for side in zip(*runs)))


# ---- statements that are on the disk once they are answered
def inserted(sides, times):
    """The milliseconds of so many INSERTs of each, in turn; a row is deleted before the next one, so that none is full."""
    spent = {name: [] for name in sides}
    # (the first two warm up)
    for number in range(times + 2):
        for name, side in sides.items():
            spent[name].append(side.ask(f"INSERT INTO t VALUES ({number}, 3);"))
            side.ask(f"DELETE FROM t WHERE id = {number};")
    for side in sides.values():
        side.end()
    return {name: found[2:] for name, found in spent.items()}


def print_beside(spent, name, other, goal, limits):
    """Prints one side beside another."""
    ours, theirs = (statistics.median(spent[side]) for side in (name, other))
    low, high = quartiles([first / second for first, second in zip(spent[name], spent[other])])
    met = [goal, limits.verdict(ours / theirs, goal)] if goal else ["", ""]
    print_row(name, f"{ours:.2f}", other, f"{theirs:.2f}", f"{ours / theirs:.2f}", f"{low:.2f} to {high:.2f}", *met)


def print_committed(folder, rounds, limits):
    """Prints what an INSERT takes that is on the disk once it is answered."""
    few = {"saved, 16 slots": Synced(folder, "few", 16, 1, "--save")}
    if shutil.which("sqlite3"):
        few["SQLite"] = Committed(folder, "sqlite3")
    if shutil.which("sqlcipher"):
        few["SQLCipher"] = Committed(folder, "sqlcipher", CIPHER_KEY.rstrip("\n"))
    spent = inserted(few, 5 * rounds)
    many = {
        "saved, 65,536 slots": Synced(folder, "many", SLOTS, MOST_PACK, "--save"),
        "not saved": Synced(folder, "unsaved", SLOTS, MOST_PACK),
    }
    spent |= inserted(many, 2 * rounds)
    print("\nAn INSERT that is on the disk once it is answered: milliseconds by the clock, medians.\n")
    print_head("", "ms:", "beside", "ms:", "ratio:", "quartiles", "goal:", "")
    for other, goal in (("SQLite", None), ("SQLCipher", 2.5)):
        if other in spent:
            print_beside(spent, "saved, 16 slots", other, goal, limits)
    print_beside(spent, "saved, 65,536 slots", "not saved", 1.5, limits)


def main():
    words = parser(__doc__)
    words.add_argument("rounds", metavar="ROUNDS", nargs="?", type=int, default=11, help="how often each is measured")
    rounds = words.parse_args().rounds
    build(*NAMES)
    limits = Limits()
    with tempfile.TemporaryDirectory() as folder:
        cipher = Cipher(folder) if shutil.which("sqlcipher") else None
        found = all_measured(folder, cipher, rounds)
        print_statements(found, rounds, limits)
        if cipher:
            print_beside_cipher(found, limits)
        else:
            print("\nNot beside SQLCipher: there is no `sqlcipher` here.")
        print_keyed(folder, cipher, rounds, limits)
        print_openings(folder, rounds)
        print_committed(folder, rounds, limits)
    limits.end()


if __name__ == "__main__":
    main()
