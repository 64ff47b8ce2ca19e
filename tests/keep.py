#!/usr/bin/env python3
"""Runs the program with --keep over files.

Two runs that are one database; what a run finds that was killed, that has another secret or pack, whose files are of another
day or whose mark is another's or gone, whose disk is full when it closes, and whose mark is a link to another folder or lies
where `--mark` says; runs that are started together, 200 pairs, of which one serves; words that don't go together or were
forgotten; and pipes, links and folders that others put where the store has its files, none of which is waited for, followed
or cut. Then a run is killed just before each call on its files: what is left is the old mark, `in use` or a new one, and a run
that goes on from it answers as it should. Prints a line for each, and ends with 1 where an answer, a status or a mark is not
as it should be.

usage: tests/keep.py [PROGRAMS]
Needs the program in PROGRAMS (crates/ without it; `bench/build.py oblidb` builds it there) and python3, on a system whose limit
on the size of files binds (Linux), and for some tests strace. Takes a minute.
"""
import collections
import concurrent.futures
import os
import shutil
import sys

import runs
from runs import KEY, OTHER

MADE = "CREATE TABLE t (id INT PRIMARY KEY, v INT) CAPACITY 4;\nINSERT INTO t VALUES (1, 10);\n"
MORE = "INSERT INTO t VALUES (2, 20);\n"
COUNT = "SELECT COUNT(*) FROM t;\n"
MADE_LINES = ["= created", "= inserted"]
STORE, KEEPER, BUSY = ["! store fault"], ["! keeper fault"], ["! not closed"]
LOCKS = (runs.MARK_LOCK, runs.KEPT_LOCK)


def rows(count):
    """What COUNT is answered of so many rows."""
    return ['"COUNT(*)"', f'"{count}"', "= 1 rows"]


class Folders:
    """Folders with runs behind them."""

    def __init__(self, tests, program, room):
        self.tests, self.program, self.room = tests, program, room

    def folder(self, name):
        return os.path.join(self.room, name.replace(" ", "_"))

    def made(self, *names):
        """New folders with nothing in them."""
        for name in names:
            os.mkdir(self.folder(name))
        return [self.folder(name) for name in names]

    def command(self, folder, *words, keep=("--keep",)):
        return [self.program, *keep, "--store", os.path.join(folder, "s"), *words]

    def run(self, folder, text, *words, key=KEY, size=None, behind=(), keep=("--keep",)):
        return runs.run([*behind, *self.command(folder, *words, keep=keep)], key + text, limited=runs.limits(size))

    def expect(self, name, ran, lines, status, well=True):
        """Whether a run answered so, and ended so, and said why, and what else is looked at."""
        self.tests.say(name, well and (ran.lines, ran.status) == (lines, status) and runs.complains(ran), f"{ran}")

    def begun(self, name):
        """A folder with a run behind it."""
        folder, = self.made(name)
        self.expect(f"{name}, the first run", self.run(folder, MADE), MADE_LINES, 0)
        return folder

    def disturbed(self, name):
        """A folder with a run behind it, and beside it a file that is the user's own."""
        folder = self.begun(name)
        own = f"{folder}_own"
        runs.put(own, "mine")
        return folder, own


def mark_of(folder):
    """The mark beside the files."""
    return runs.text_of(folder, runs.MARK_FILE)


def regions_of(folder):
    """The files of the regions, by their numbers."""
    return runs.numbered(folder, runs.KEPT_REGION)


def bytes_of(folder):
    """The bytes of each of them."""
    return runs.contents(folder, regions_of(folder))


def is_own(own):
    """Whether the user's own file is as it was."""
    return runs.read(own) == b"mine"


def at_work(at, folder, text, *words):
    """A run that was begun, which answers one text and waits for more."""
    typed = runs.Typed(at.command(folder, *words))
    typed.type(KEY + text)
    return typed


def going_on(at):
    """Runs that go on, and that don't."""
    folder = at.begun("two runs")
    at.expect("the second run", at.run(folder, MORE + COUNT), ["= inserted"] + rows(2), 0)
    at.expect("the third run", at.run(folder, COUNT), rows(2), 0)
    names = sorted(os.listdir(folder))
    at.tests.say("its files", names[-3:] == [runs.KEPT_LOCK, runs.MARK_FILE, runs.MARK_LOCK] and len(regions_of(folder)) == 2 and len(names) == 5, names)
    folder = at.begun("another secret")
    before = mark_of(folder)
    closing = before.split()[1]
    at.expect("another secret", at.run(folder, COUNT, key=OTHER), [f"! tampered {closing} 0"], 4, mark_of(folder) == before)
    at.expect("and the right one again", at.run(folder, COUNT), rows(1), 0)
    folder = at.begun("another pack")
    before = mark_of(folder)
    at.expect("another pack", at.run(folder, COUNT, "--pack", "2"), ["! pack"], 2, mark_of(folder) == before)
    folder = at.begun("a killed run")
    typed = at_work(at, folder, MORE)
    typed.line()
    typed.kill()
    at.expect("a run that was killed", at.run(folder, COUNT), BUSY, 9, mark_of(folder) == "in use\n")


def other_days(at):
    """Files of another day, and of another store."""
    folder, copy = at.begun("yesterday"), at.folder("yesterday's copy")
    shutil.copytree(folder, copy)
    at.run(folder, MORE)
    today = mark_of(folder)
    shutil.rmtree(folder)
    shutil.copytree(copy, folder)
    runs.put(os.path.join(folder, runs.MARK_FILE), today)
    at.expect("yesterday's files and today's mark", at.run(folder, COUNT), STORE, 3, mark_of(folder) == today)
    shutil.rmtree(folder)
    shutil.copytree(copy, folder)
    at.expect("yesterday's files and yesterday's mark, which nobody notices", at.run(folder, COUNT), rows(1), 0)
    folder, (other,) = at.begun("a table of another store"), at.made("the other store")
    at.run(other, MADE.replace("(1, 10)", "(7, 70)"), key=OTHER)
    table = regions_of(folder)[0]
    shutil.copy(os.path.join(other, table), os.path.join(folder, table))
    wanted = [f"! tampered {runs.number(table)} 0"]
    at.expect("a table of another store", at.run(folder, COUNT), wanted, 4, mark_of(folder) == "in use\n")
    folder = at.begun("a mark of another store")
    for name, line, lines, status in (("a mark of another store", "closed 77 2 90 1\n", STORE, 3), ("no mark at all", "closed 77 2 90\n", KEEPER, 10)):
        runs.put(os.path.join(folder, runs.MARK_FILE), line)
        at.expect(name, at.run(folder, COUNT), lines, status, mark_of(folder) == line)


def links(at):
    """A full disk, and a mark that is a link to elsewhere."""
    folder = at.begun("a full disk")
    ran = at.run(folder, COUNT, size=1000)
    at.expect("a disk that is full for the closing", ran, rows(1) + STORE, 3, mark_of(folder) == "in use\n" and len(regions_of(folder)) == 1)
    folder, safe = at.made("a link", "a safe place")
    link, mark = os.path.join(folder, runs.MARK_FILE), os.path.join(safe, "mark")
    os.symlink(mark, link)
    at.expect("a mark that is a link, the first run", at.run(folder, MADE), MADE_LINES, 0)
    at.expect("the second run", at.run(folder, COUNT), rows(1), 0, os.path.islink(link) and os.path.isfile(mark))
    before = runs.read(mark)
    if runs.has("strace"):
        broken = runs.behind_strace("readlink,readlinkat", "readlink,readlinkat:error=EIO")
        at.expect("a link that can't be read", at.run(folder, COUNT, behind=broken), KEEPER, 10, runs.read(mark) == before)
    os.rename(safe, f"{safe} elsewhere")
    os.mkdir(safe)
    held = bytes_of(folder)
    at.expect("a link to a folder that isn't mounted", at.run(folder, MADE), ["! no mark"], 9, bytes_of(folder) == held)
    at.expect("without --keep", at.run(folder, MADE, keep=()), ["! kept"], 2, bytes_of(folder) == held)
    shutil.rmtree(safe)
    os.rename(f"{safe} elsewhere", safe)
    at.expect("and mounted again", at.run(folder, COUNT), rows(1), 0)
    os.rename(mark, os.path.join(safe, "farther"))
    os.symlink("farther", mark)
    at.expect("a link to a link", at.run(folder, COUNT), KEEPER, 10, os.path.islink(mark))


def places(at):
    """A mark whose place the words say."""
    folder, safe = at.made("a place", "a place of its own")
    place = os.path.join(safe, "m")
    ran = at.run(folder, MADE, "--mark", place)
    at.expect("a mark that lies elsewhere, the first run", ran, MADE_LINES, 0, runs.CLOSED.fullmatch(runs.read(place).decode()))
    ran = at.run(folder, COUNT, "--mark", place)
    at.expect("the second run", ran, rows(1), 0, mark_of(folder) is None and sorted(os.listdir(safe)) == ["m", "m.lock"])
    held = bytes_of(folder)
    at.expect("a place that was forgotten", at.run(folder, MADE), ["! no mark"], 9, bytes_of(folder) == held)
    at.expect("a place alone", at.run(folder, MADE, "--mark", place, keep=()), ["! usage"], 2, bytes_of(folder) == held)
    at.expect("a place, and none behind it", at.run(folder, MADE, "--mark"), ["! usage"], 2, bytes_of(folder) == held)
    os.symlink("m", os.path.join(safe, "n"))
    before = runs.read(place)
    ran = at.run(folder, COUNT, "--mark", os.path.join(safe, "n"))
    at.expect("a link where the words say", ran, KEEPER, 10, runs.read(place) == before)
    runs.put(os.path.join(folder, runs.MARK_FILE), "closed 1 1 1 1\n")
    ran = at.run(folder, COUNT, "--mark", place)
    at.expect("another mark beside the files", ran, rows(1), 0, mark_of(folder) == "closed 1 1 1 1\n")


def words(at):
    """Words that were forgotten, and words that are none."""
    folder = at.begun("a forgotten word")
    before, held = mark_of(folder), bytes_of(folder)
    at.expect("a run without --keep", at.run(folder, MADE, keep=()), ["! kept"], 2, mark_of(folder) == before and bytes_of(folder) == held)
    at.expect("and one with it", at.run(folder, COUNT), rows(1), 0)
    held = bytes_of(folder)
    os.remove(os.path.join(folder, runs.MARK_FILE))
    at.expect("a mark that is gone", at.run(folder, MADE), ["! no mark"], 9, bytes_of(folder) == held and mark_of(folder) is None)
    at.expect("without --keep where the mark is gone", at.run(folder, MADE, keep=()), ["! kept"], 2, bytes_of(folder) == held)
    at.expect("a word that is no text", at.run(folder, MADE, b"\xff"), ["! usage"], 2, bytes_of(folder) == held)


def pairs(at):
    """One run at a time."""
    folder, = at.made("pairs")
    at.expect("a table for pairs", at.run(folder, MADE.replace("CAPACITY 4", "CAPACITY 256")), MADE_LINES, 0)
    wrong = []
    for n in range(200):
        pair = [at_work(at, folder, f"INSERT INTO t VALUES ({n + 2}, 20);\n") for _ in range(2)]
        first = [typed.line() for typed in pair]
        found = sorted([line, *typed.end()] for line, typed in zip(first, pair))
        if found != [["! not closed", [], 9], ["= inserted", [], 0]]:
            wrong.append(found)
    at.tests.say("200 pairs of runs that are started together, of which one serves", wrong == [], wrong[:3])
    at.expect("and nothing is lost", at.run(folder, COUNT), rows(201), 0)
    folder, safe = at.made("two ways", "to one mark")
    place = os.path.join(safe, "m")
    os.symlink(place, os.path.join(folder, runs.MARK_FILE))
    typed = at_work(at, folder, MADE)
    typed.line()
    at.expect("a run beside one that came by the link", at.run(folder, COUNT, "--mark", place), BUSY, 9)
    at.tests.say("which ends as it should", typed.end() == (["= inserted"], 0), "otherwise")
    typed = at_work(at, folder, COUNT, "--mark", place)
    typed.line()
    at.expect("a run beside one that came by the word", at.run(folder, COUNT), BUSY, 9)
    at.tests.say("which ends as it should", typed.end() == (rows(1)[1:], 0), "otherwise")


def two_marks(at):
    """Two marks on one store, of which the second run has another: the lock beside the store holds it off."""
    folder, safe = at.made("two marks", "of one store")
    typed = at_work(at, folder, MADE)
    typed.line()
    ran = at.run(folder, MADE, "--mark", os.path.join(safe, "m"))
    at.expect("a first run with another mark beside one at work", ran, BUSY, 9, not os.path.exists(os.path.join(safe, "m")))
    at.expect("one without a word beside one at work", at.run(folder, MADE, keep=()), ["! kept"], 2)
    at.tests.say("which ends as it should", typed.end() == (["= inserted"], 0), "otherwise")


def in_place_of_files(at):
    """What others put in the place of regions and marks."""
    folder, own = at.disturbed("links to a file")
    for number in range(4, 9):
        os.symlink(own, os.path.join(folder, f"s.{number}"))
    os.symlink(own, os.path.join(folder, f"{runs.MARK_FILE}.next"))
    ran = at.run(folder, MORE + COUNT)
    at.expect("links where regions and the next mark will be", ran, ["= inserted"] + rows(2), 0, is_own(own))
    at.expect("and the run behind it", at.run(folder, COUNT), rows(2), 0, is_own(own))
    folder, own = at.disturbed("a link from a table")
    table = os.path.join(folder, regions_of(folder)[0])
    os.rename(table, f"{own} table")
    before = mark_of(folder)
    kinds = {"link": lambda path: os.symlink(f"{own} table", path), "pipe": os.mkfifo, "folder": os.mkdir}
    for kind, put in kinds.items():
        put(table)
        at.expect(f"a table that is a {kind}", at.run(folder, COUNT), STORE, 3, mark_of(folder) == before)
        (os.rmdir if kind == "folder" else os.remove)(table)
    os.rename(f"{own} table", table)
    at.expect("and as it was", at.run(folder, COUNT), rows(1), 0)


def in_place_of_names(at):
    """What others put where a region's name is, and where the next mark will be."""
    kinds = {"pipe": os.mkfifo, "folder": os.mkdir, "link to nowhere": lambda path: os.symlink("nowhere", path)}
    for kind, put in kinds.items():
        folder, own = at.disturbed(f"a {kind}")
        nowhere = os.path.join(folder, "nowhere")
        put(os.path.join(folder, "s.777"))
        at.expect(f"a {kind} that has a region's name", at.run(folder, MORE), ["= inserted"], 0, not os.path.exists(nowhere))
        put(os.path.join(folder, f"{runs.MARK_FILE}.next"))
        stops, before = kind == "folder", mark_of(folder)
        ran = at.run(folder, COUNT)
        well = (not stops or mark_of(folder) == before) and not os.path.exists(nowhere)
        at.expect(f"a {kind} where the next mark will be", ran, *((KEEPER, 10) if stops else (rows(2), 0)), well)


def in_place_of_marks(at):
    """What others put where a region, the mark and the locks are."""
    for kind, put in {"pipe": os.mkfifo, "folder": os.mkdir}.items():
        folder, own = at.disturbed(f"a {kind} for a region")
        for number in range(4, 9):
            put(os.path.join(folder, f"s.{number}"))
        stops = kind == "folder"
        at.expect(f"a {kind} where a region will be", at.run(folder, MORE), *((["E15 store fault"] + STORE, 3) if stops else (["= inserted"], 0)))
        folder, own = at.disturbed(f"a {kind} for a mark")
        os.remove(os.path.join(folder, runs.MARK_FILE))
        put(os.path.join(folder, runs.MARK_FILE))
        at.expect(f"a mark that is a {kind}", at.run(folder, COUNT), KEEPER, 10)
        at.expect("without --keep", at.run(folder, COUNT, keep=()), ["! kept"], 2)
        for lock in LOCKS:
            folder, own = at.disturbed(f"a {kind} for {lock}")
            os.remove(os.path.join(folder, lock))
            put(os.path.join(folder, lock))
            at.expect(f"a lock, {lock}, that is a {kind}", at.run(folder, COUNT), KEEPER, 10)
    for lock in LOCKS:
        folder, own = at.disturbed(f"a link for {lock}")
        os.remove(os.path.join(folder, lock))
        os.symlink(own, os.path.join(folder, lock))
        at.expect(f"a lock, {lock}, that is a link", at.run(folder, COUNT), KEEPER, 10, is_own(own))


CALLS = (
    "openat pread64 pwrite64 read write ftruncate flock statx readlink fsync fdatasync rename renameat renameat2 unlink unlinkat close "
    "mkdir fchmod getdents64 fstat newfstatat"
).split()


def killed_at_each(at, base, call):
    """Kills a run before each call of a kind, in turn: how often each kind of mark was left, and what was wrong."""
    left, wrong, n, ended = collections.Counter(), [], 0, False
    while not ended:
        n += 1
        folder = at.folder(f"killed {call} {n}")
        shutil.copytree(base, folder)
        ended = at.run(folder, MORE, behind=runs.behind_strace(f"?{call}", f"?{call}:signal=SIGKILL:when={n}")).status == 0
        mark = mark_of(folder)
        kind = "old" if mark == mark_of(base) else "in use" if mark == "in use\n" else "new" if mark and runs.CLOSED.fullmatch(mark) else f"{mark!r}"
        found = at.run(folder, COUNT)
        wanted = {"old": (rows(1), 0), "in use": (BUSY, 9), "new": (rows(2), 0)}.get(kind)
        if (found.lines, found.status) != wanted:
            wrong.append((call, n, kind, found))
        left[kind] += 1
        shutil.rmtree(folder)
    return left, wrong, n - 1


def kills(at):
    """A run that is killed just before each call on its files."""
    if not runs.has("strace"):
        at.tests.skip("a run that is killed before each of its calls", "there is no strace")
        return
    base = at.begun("kills")
    with concurrent.futures.ThreadPoolExecutor(os.cpu_count()) as pool:
        results = list(pool.map(lambda call: killed_at_each(at, base, call), CALLS))
    left = sum((it[0] for it in results), collections.Counter())
    wrong = [it for _, found, _ in results for it in found]
    count = sum(it[2] for it in results)
    name = f"killed before each of {count} calls (marks left: {dict(left)})"
    at.tests.say(name, not wrong and set(left) == {"old", "in use", "new"} and count > 50, wrong[:3])


def main():
    tests, program = runs.Tests(), runs.program(*sys.argv[1:] or [runs.TOP / "crates"])
    os.umask(0o077)
    with runs.room() as room:
        at = Folders(tests, program, room)
        first = (going_on, other_days, links, places, words, pairs, two_marks)
        tests.each((*first, in_place_of_files, in_place_of_names, in_place_of_marks, kills), at)
    tests.end()


if __name__ == "__main__":
    main()
