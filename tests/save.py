#!/usr/bin/env python3
"""Runs the program with --save over files.

First in what order it calls the system: regions are on the disk before the mark names them, and what the mark before needed
goes only behind that, and then comes the answer. Then runs that are killed just before each of their calls on files, of a
session of each statement, from nothing and from tables, with 1 and 16 rows in a block, and of batches of INSERTs; whose output
goes to `head`; whose disk is full, or fails, at each of these calls; and that are one too many: the next run opens by itself,
and has the rows before the statement, or the batch, that was served or those after it, and all that was answered. Then what
others do: two runs that go on from one copy with other rows, two without a word, and a killed run and the next, have no two
blocks of which the XOR shows anything; each block that was changed, is of another day or of another run of the same numbers is
refused; and marks that are none, gone or of the other word. Prints a line for each, and ends with 1 where an answer, a status,
a file or a mark is not as it should be.

usage: tests/save.py [PROGRAMS] [--calls N] [--seed S]
Needs the program in PROGRAMS (crates/ without it; `bench/build.py oblidb` builds it there), python3 and strace, on a system
whose limit on the size of files binds (Linux). Of each session that is hindered at its calls N are drawn behind S, or all are
taken without the word: some four minutes on four processors.
"""
import argparse
import collections
import concurrent.futures
import itertools
import os
import random
import re
import shlex
import shutil
import subprocess

import runs
import workloads
from runs import KEY, OTHER
from workloads import create, insert

FAULT, STORE, KEEPER, BUSY = ["E15 store fault"], ["! store fault"], ["! keeper fault"], ["! not closed"]
FIRST = (create("t"), *insert("t", (1, 10)))
THEN = (
    *insert("t", (2, 20), (2, 21)), create("u"), *insert("u", (5, 50)), "UPDATE t SET v = 7;", "DELETE FROM t WHERE id = 1;", "DROP TABLE u;",
    *insert("t", (3, 30)),
)
# A batch of three, one that another statement ends, and one that the end does.
BATCHED = (*insert("t", (2, 20), (1, 11), (3, 30), (4, 40), (5, 50)), "UPDATE t SET v = 7;", *insert("t", (6, 60)))
LOOK = workloads.select("t", "u")
COUNT = ("SELECT COUNT(*) FROM t;",)
TWO = ['"COUNT(*)"', '"2"', "= 1 rows"]


def typed(texts):
    """Texts as they are typed."""
    return "".join(f"{text}\n" for text in texts)


def behind(texts):
    """The tables after these texts."""
    return workloads.served((), texts)[1][-1]


def said(texts, before=FIRST):
    """The lines that these texts are answered after others."""
    return [line for answer in workloads.served(behind(before), texts)[0] for line in answer]


def looked(tables):
    """What LOOK is answered of these tables, and the status."""
    lines = [line for answer in workloads.served(tables, LOOK)[0] for line in answer]
    return lines, int("E02 no table" in lines)


def mark_of(folder):
    """The mark beside the database."""
    return runs.text_of(folder, runs.MARK_FILE)


def regions_of(folder):
    """The files of the regions, by their numbers."""
    return runs.numbered(folder, runs.REGION)


def bytes_of(folder):
    """The bytes of each of them."""
    return runs.contents(folder, regions_of(folder))


class Folders:
    """Folders with databases in them."""

    def __init__(self, tests, program, room, words):
        self.tests, self.program, self.room, self.words = tests, program, room, words

    def folder(self, name):
        return os.path.join(self.room, name.replace(" ", "_"))

    def made(self, *names):
        for name in names:
            os.mkdir(self.folder(name))
        return [self.folder(name) for name in names]

    def command(self, folder, *words, save=("--save",)):
        return [self.program, *save, "--store", os.path.join(folder, "s"), *words]

    def run(self, folder, texts, *words, key=KEY, size=None, first=(), save=("--save",)):
        return runs.run([*first, *self.command(folder, *words, save=save)], key + typed(texts), limited=runs.limits(size))

    def expect(self, name, ran, lines, status, well=True):
        """Whether a run answered so, in whatever order of rows, and ended so, and said why, and what else is looked at."""
        answers, stop = workloads.split_answers(ran.lines)
        found = [line for answer in answers for line in answer] + ([stop] if stop else [])
        self.tests.say(name, well and (found, ran.status) == (lines, status) and runs.complains(ran), f"{ran}")

    def begun(self, name, texts=FIRST, *words):
        """A folder with these texts behind it."""
        folder, = self.made(name)
        self.expect(f"{name}, the first run", self.run(folder, texts, *words), said(texts, ()), 0, bool(runs.SAVED.fullmatch(mark_of(folder) or "")))
        return folder


# ---- the order of calls
CALLED = re.compile(r"(?:[0-9]+ +)?(\w+)\((.*)\) += [0-9]")


def order_of(trace, folder):
    """Where in a run of one INSERT it writes regions, syncs them and their folder, sets the mark, syncs that, discards, and
    answers."""
    region, mark = re.compile(re.escape(os.path.join(folder, runs.REGION)) + "[0-9]+$"), os.path.join(folder, runs.MARK_FILE)
    found = collections.defaultdict(list)
    for n, line in enumerate(trace.splitlines()):
        parts = CALLED.match(line)
        if not parts:
            continue
        name, rest = parts[1], parts[2]
        files = re.findall(r"[<\"](/[^>\"]*)[>\"]", rest)
        first = files[0] if files else ""
        if name == "pwrite64" and region.match(first):
            found["written"].append(n)
        elif name in ("fsync", "fdatasync"):
            whose = {os.path.join(folder, "s"): "store synced", folder: "folder synced"}.get(first, "mark synced")
            found["region synced" if region.match(first) else whose].append(n)
        elif name.startswith("rename") and mark in files:
            found["set"].append(n)
        elif name.startswith("unlink") and any(region.match(file) for file in files):
            found["discarded"].append(n)
        elif name == "write" and "= inserted" in rest:
            found["answered"].append(n)
    return found


def in_this_order(found):
    """Whether they come in the order in which nothing can be lost."""
    parts = ("written", "region synced", "store synced", "mark synced", "set", "folder synced", "discarded", "answered")
    if not all(found[part] for part in parts) or len(found["set"]) != 1 or len(found["region synced"]) != 2:
        return False
    put_in_place = found["set"][0]
    store = max([it for it in found["store synced"] if it < put_in_place], default=-1)
    is_synced = max(found["written"]) < min(found["region synced"]) <= max(found["region synced"]) < store < min(found["mark synced"])
    is_set = max(found["mark synced"]) < put_in_place < max(found["folder synced"])
    return is_synced and is_set and max(found["folder synced"]) < min(found["discarded"]) <= max(found["discarded"]) < found["answered"][0]


def order(at):
    """The order of calls."""
    folder, trace = at.begun("the order of calls"), os.path.join(at.room, "order")
    calls = "pwrite64,write,fsync,fdatasync,?rename,?renameat,?renameat2,?unlink,?unlinkat"
    strace = runs.behind_strace(calls, to=trace, more=("-y", "-s", "200"))
    at.expect("a run that is traced", at.run(folder, THEN[:1], first=strace), said(THEN[:1]), 0)
    found = order_of(runs.read(trace).decode(errors="replace"), os.path.realpath(folder))
    at.tests.say("regions, their sync, the mark, what is discarded, the answer", in_this_order(found), dict(found))


# ---- runs that are killed just before each call on their files, and whose calls fail
KILLED, FULL, BROKEN = "signal=SIGKILL", "error=ENOSPC", "error=EIO"
WRITING = {"pwrite64", "pwritev", "write", "ftruncate", "fsync", "fdatasync", "rename", "renameat", "renameat2", "mkdir", "mkdirat"}
READING = {"pread64", "unlink", "unlinkat", "getdents64", "getrandom"}


def counted(at, folder, texts, *words):
    """How often each call on files comes in a run, and its sockets, pipes and random bytes."""
    trace = f"{folder}.counted"
    at.run(folder, texts, *words, first=runs.behind_strace("%file,%desc,getrandom", to=trace))
    names = re.findall(r"(?m)^(?:[0-9]+ +)?(\w+)\(", runs.read(trace).decode(errors="replace"))
    return collections.Counter(name for name in names if name != "execve")


def hindered(at, name, base, before, texts, words, call, n, how):
    """What is wrong with what a run leaves that is hindered at this call, from which the next run is to go on by itself; and its
    status."""
    folder = at.folder(f"{name} {call} {n}".replace(",", ""))
    shutil.copytree(base, folder)
    ran = at.run(folder, texts, *words, first=runs.behind_strace(call, f"{call}:{how}:when={n}"))
    left = workloads.possible({behind(before)}, texts, workloads.most_of(words), workloads.split_answers(ran.lines)[0])
    found = at.run(folder, LOOK, *words)
    shown = [line for answer in workloads.split_answers(found.lines)[0] for line in answer], found.status
    again = at.run(folder, (create("w"),), *words)
    well = shown in [looked(tables) for tables in left] and again[:2] == (["= created"], 0)
    shutil.rmtree(folder)
    return None if well else f"{call} {n}: answered {ran}, then {found} and {again}", ran.status


def hinder_each(at, name, base, before, texts, words, how, calls=None):
    """Hinders a run at each of its calls, in turn, and says so of all of them together."""
    spare = at.folder(f"{name} spare")
    shutil.copytree(base, spare)
    times = counted(at, spare, texts, *words)
    shutil.rmtree(spare)
    every = [(call, n + 1) for call, count in sorted(times.items()) if calls is None or call in calls for n in range(count)]
    if at.words.calls:
        every = random.Random(f"{at.words.seed} {name}").sample(every, min(at.words.calls, len(every)))
    with concurrent.futures.ThreadPoolExecutor(os.cpu_count()) as pool:
        results = list(pool.map(lambda it: hindered(at, name, base, before, texts, words, *it, how), every))
    statuses = collections.Counter(status for _, status in results)
    wrong = [it for it, _ in results if it]
    at.tests.say(f"{name}, at each of {len(results)} calls (statuses {dict(statuses)})", results != [] and not wrong, "\n  ".join(["", *wrong[:3]]))


def hinder(at):
    """Sessions that are hindered at each of their calls."""
    for pack in (1, 16):
        words, by = ["--pack", str(pack), "--buffer", "64"], f"{pack} rows in a block"
        nothing, = at.made(f"nothing, {by}")
        base, batch = at.begun(f"tables, {by}", FIRST, *words), [*words, "--batch", "3"]
        hinder_each(at, f"killed, from no mark, {by}", nothing, (), FIRST, words, KILLED)
        hinder_each(at, f"killed, from tables, {by}", base, FIRST, THEN, words, KILLED)
        hinder_each(at, f"killed, in batches, {by}", base, FIRST, BATCHED, batch, KILLED)
        hinder_each(at, f"a full disk, in batches, {by}", base, FIRST, BATCHED, batch, FULL, WRITING)
        hinder_each(at, f"a full disk, from no mark, {by}", nothing, (), FIRST, words, FULL, WRITING)
        hinder_each(at, f"a full disk, from tables, {by}", base, FIRST, THEN, words, FULL, WRITING)
        hinder_each(at, f"a disk that fails, from tables, {by}", base, FIRST, THEN[:3], words, BROKEN, WRITING | READING)


# ---- a full disk that stays so, readers that go away, and stops
def full_disk(at):
    """A full disk that stays so, and what is free again."""
    folder = at.begun("a full disk")
    before, held = mark_of(folder), regions_of(folder)
    at.expect("a disk that is full for each closing", at.run(folder, THEN, size=1000), STORE, 3, mark_of(folder) == before)
    at.expect("and the run behind it", at.run(folder, LOOK), *looked(behind(FIRST)), regions_of(folder) == held)
    big = (create("big", 4096),) * 3
    at.expect("a disk that is full for each new table", at.run(folder, big + THEN[:1], size=65536), FAULT * 3 + said(THEN[:1]), 1)
    at.expect("and all of it is free again", at.run(folder, LOOK), *looked(behind(FIRST + THEN[:1])), len(regions_of(folder)) == 2)


def given_up(at):
    """SELECTs in flight whose results find no room: nothing of them stays, while the run is at work or after it."""
    for save, first, count in (("--save", runs.REGION, 2), ("--keep", runs.KEPT_REGION, 1)):
        folder, = at.made(f"given up {save}")
        one = runs.Typed(at.command(folder, "--flight", "2,0", save=(save,)), limited=runs.limits(handles=24))
        one.type(KEY + typed(FIRST + insert("t", (2, 20))))
        made = one.lines(3)
        runs.lower_size(one.child, 49)
        one.type(typed(("SELECT * FROM t WHERE v > 0;",) * 2 + ("DROP TABLE none;",)) * 50)
        got = one.lines(150)
        runs.lower_size(one.child, None)
        found = len(runs.numbered(folder, first)), len(runs.open_regions(one.child.pid))
        rest, status = one.end()
        well = made + got == said(FIRST + insert("t", (2, 20)), ()) + (FAULT * 2 + ["E02 no table"]) * 50 and found == (count, count)
        left = len(runs.numbered(folder, first))
        at.tests.say(f"100 SELECTs in flight that fail, {save}", well and (rest, status, left) == ([], 1, 2), f"{got[:3]}, {found}, {rest}, {status}, {left}")


def heads(at):
    """A reader that goes away."""
    for rows in (1, 2):
        folder = at.begun(f"{rows} of head")
        text = os.path.join(at.room, "typed")
        runs.put(text, KEY + typed(THEN))
        line = f"{shlex.join(at.command(folder))} < {shlex.quote(text)} | head -{rows}"
        printed = subprocess.run(line, shell=True, stdout=subprocess.PIPE, text=True).stdout.splitlines()
        found = at.run(folder, LOOK)
        shown = [it for answer in workloads.split_answers(found.lines)[0] for it in answer], found.status
        may = [looked(behind(FIRST + THEN[: n + 1])) for n in range(rows - 1, len(THEN))]
        at.tests.say(f"a run whose output goes to head -{rows}", printed == said(THEN[:rows]) and shown in may, f"{printed}, then {found}")


def stops(at):
    """A text that is too long, and a run beside another."""
    folder = at.begun("stops")
    long = ("SELECT * FROM t WHERE id = 1" + " " * 65536 + ";",)
    at.expect("a text that is too long", at.run(folder, THEN[:1] + long), said(THEN[:1]) + ["! input limit"], 8)
    at.expect("and the run behind it", at.run(folder, LOOK), *looked(behind(FIRST + THEN[:1])))
    one = runs.Typed(at.command(folder))
    one.type(KEY + typed(THEN[1:2]))
    one.line()
    at.expect("a run beside one at work", at.run(folder, LOOK), BUSY, 9)
    one.kill()
    at.expect("and once that was killed", at.run(folder, LOOK), *looked(behind(FIRST + THEN[:2])))


# ---- what two runs of the same numbers show
TEXT, OTHERS = "the text of a row that anybody knows", "b" * 40
WIDE = (create("n", 4, "VARCHAR(60)").replace(" v ", " s "), *insert("n", (1, "'first'")))


def written(at, folder, texts, *words, killed=(), save=("--save",)):
    """The blocks that a run writes to its regions, also those that are gone after it."""
    trace = os.path.join(at.room, "written")
    calls = ",".join(["pwrite64", *killed[:1]])
    first = runs.behind_strace(calls, *killed[1:], to=trace, more=("-xx", "-s", "100000"))
    at.run(folder, texts, *words, first=first, save=save)
    spelt = re.findall(r'pwrite64\([0-9]+, "([^"]*)"', runs.read(trace).decode())
    return [bytes.fromhex(it.replace("\\x", "")) for it in spelt]


def shown(one, other):
    """How many pairs of blocks have an XOR that shows 16 bytes in which they are the same, or a row's text."""
    count = 0
    for a, b in itertools.product(one, other):
        size = min(len(a), len(b))
        mixed = (int.from_bytes(a[:size], "big") ^ int.from_bytes(b[:size], "big")).to_bytes(size, "big")
        count += any(part in mixed for part in (bytes(16), TEXT[:16].encode(), OTHERS[:16].encode()))
    return count


def inserts(text):
    """Two rows of this text."""
    return insert("n", *((n, f"'{text}'") for n in (2, 3)))


def blocks_of_two(at, name, save):
    """The blocks of two runs that go on from one copy of the store and its mark, with other rows."""
    folder, copy = at.folder(name), at.folder(f"{name}, copied")
    os.mkdir(folder)
    first = written(at, folder, WIDE, save=save)
    shutil.copytree(folder, copy)
    return first, written(at, folder, inserts(TEXT), save=save), written(at, copy, inserts(OTHERS), save=save)


def shows(at):
    """What two runs of the same numbers show."""
    first, one, other = blocks_of_two(at, "two runs of one copy", ("--save",))
    enough = len(first) == len(one) == len(other) == 12
    found = f"{len(one)} and {len(other)} blocks, of which {shown(one, other)} pairs show"
    at.tests.say("two runs that go on from one copy show nothing", enough and shown(one, other) == 0, found)
    at.tests.say("nor one of them and the run before", shown(first, one) + shown(first, other) == 0, "some pairs show")
    at.tests.say("nor two blocks of one run", all(shown([a], [b]) == 0 for a, b in itertools.combinations(one, 2)), "some pairs show")
    _, one, other = blocks_of_two(at, "two kept runs of one copy", ("--keep",))
    at.tests.say("which is noticed where keys are the same (--keep)", shown(one, other) > 0, "no pair shows")
    folder, beside = at.made("without a word", "without a word, again")
    one, other = (written(at, place, WIDE + inserts(text), save=()) for place, text in ((folder, TEXT), (beside, OTHERS)))
    enough = len(one) == len(other) > 12
    at.tests.say("nor two runs with one secret and no word", enough and shown(one, other) == 0, f"{len(one)} blocks, {shown(one, other)} pairs")
    folder, = at.made("a killed run and the next")
    at.run(folder, WIDE)
    killed = written(at, folder, inserts(TEXT), killed=("rename", "rename:signal=SIGKILL:when=1"))
    then = written(at, folder, inserts(OTHERS))
    well = len(killed) == 6 and len(then) == 12 and shown(killed, then) == 0
    at.tests.say("a killed run and the next show nothing", well, f"{len(killed)} and {len(then)} blocks, {shown(killed, then)} pairs")


def lying(at, name, save):
    """The blocks of a table, and of what lists it, that lie there while a run is at work."""
    folder, = at.made(name)
    one = runs.Typed(at.command(folder, save=save))
    one.type(KEY + typed(WIDE + inserts(TEXT)))
    one.lines(len(WIDE + inserts(TEXT)))
    first = runs.REGION if save == ("--save",) else runs.KEPT_REGION
    files = [runs.read(os.path.join(folder, name)) for name in runs.numbered(folder, first)]
    one.end()
    return [held[start : start + size] for held in files for size in [wide_block(len(held))] for start in range(0, len(held), size)]


def wide_block(size):
    """How long the blocks of a region are that has so many bytes: one of a list's, or one of a number and a text of 60 bytes."""
    return 1056 if size % 1056 == 0 else 102


def salted(at):
    """Two runs with one secret and equal rows: each has keys of its own, and draws leaves of its own, except with --keep."""
    for save, count in (((), 4), (("--save",), 6), (("--keep",), 4)):
        word = " ".join(save) or "no word"
        one, other = lying(at, f"{word} once", save), lying(at, f"{word} again", save)
        well = len(one) == len(other) == count and (one == other if save == ("--keep",) else shown(one, other) == 0)
        name = f"two runs with one secret and equal rows, {word}: {'the same blocks' if save == ('--keep',) else 'nothing is alike'}"
        at.tests.say(name, well, f"{len(one)} and {len(other)} blocks, {shown(one, other)} pairs")
    indexed = (create("i", 64)[:-1] + " INDEXED;", *insert("i", *((n, n) for n in range(8))))
    one, other = (at.run(place, indexed, "--trace", save=()).said for place in at.made("an index", "an index, again"))
    well = one.count("\n") == other.count("\n") > 8 and one != other
    at.tests.say("nor have they the leaves of an index in common", well, f"{one.count(chr(10))} and {other.count(chr(10))} accesses")


# ---- blocks of another day, place or run
def block_of(size):
    """How long the blocks of a region are that has so many bytes: one of a list's, or one of two integers."""
    return 1056 if size % 1056 == 0 else 49


def refused(at, name, folder, changes):
    """Puts these bytes in the place of regions, one after the other, and looks whether each is refused where it lies."""
    before, wrong = mark_of(folder), []
    for region, place, content in changes:
        path = os.path.join(folder, region)
        kept = runs.read(path)
        runs.put(path, content)
        found = at.run(folder, COUNT)
        if found[:2] != ([f"! tampered {runs.number(region)} {place}"], 4) or mark_of(folder) != before:
            wrong.append((region, place, found, mark_of(folder)))
        runs.put(path, kept)
    at.tests.say(f"{name}, {len(changes)} times", changes != [] and wrong == [], wrong[:3])
    at.expect("and as it was", at.run(folder, COUNT), TWO, 0)


def other_days(at):
    """Blocks that were changed or moved, or are of another day."""
    folder = at.begun("blocks of another day")
    yesterday = bytes_of(folder)
    at.expect("a day's run", at.run(folder, THEN[:1]), said(THEN[:1]), 0)
    flips, olds, moved = [], [], []
    for name, held in bytes_of(folder).items():
        block = block_of(len(held))
        for start in range(0, len(held), block):
            for byte in (start, start + block - 1):
                flips.append((name, start // block, held[:byte] + bytes([held[byte] ^ 1]) + held[byte + 1 :]))
            other = (start + block) % len(held)
            moved.append((name, start // block, held[:start] + held[other : other + block] + held[start + block :]))
        olds += [(name, 0, old) for old in yesterday.values() if len(old) == len(held)]
    refused(at, "a bit that was flipped", folder, flips)
    refused(at, "yesterday's region under today's number", folder, olds)
    refused(at, "a block that was moved", folder, moved)
    today = mark_of(folder)
    for name in regions_of(folder):
        os.remove(os.path.join(folder, name))
    for name, held in yesterday.items():
        runs.put(os.path.join(folder, name), held)
    at.expect("yesterday's files and today's mark", at.run(folder, LOOK), STORE, 3, mark_of(folder) == today)


def other_runs(at):
    """Regions of a run that was killed once its closing lay there, and of another run from one copy."""
    folder = at.begun("a killed run's blocks")
    at.run(folder, THEN[:1], first=runs.behind_strace("rename", "rename:signal=SIGKILL:when=1"))
    left = bytes_of(folder)
    at.expect("the run behind a killed one", at.run(folder, insert("t", (4, 40))), ["= inserted"], 0)
    same = [(name, 0, left[name]) for name in regions_of(folder) if name in left]
    sizes = [len(content) == os.path.getsize(os.path.join(folder, name)) for name, _, content in same]
    at.tests.say("makes the same regions", len(same) == 2 and all(sizes), same)
    refused(at, "a killed run's region in the place of the next one's", folder, same)
    folder, copy = at.begun("one of two"), at.folder("the other of two")
    shutil.copytree(folder, copy)
    at.run(folder, THEN[:1])
    at.run(copy, insert("t", (4, 40)))
    for here, there in ((folder, copy), (copy, folder)):
        changes = [(name, 0, runs.read(os.path.join(there, name))) for name in regions_of(here)]
        refused(at, "a region of the other run of one copy", here, changes)


# ---- marks, words and places
def marks(at):
    """Marks that are gone, and words that don't fit."""
    folder = at.begun("a mark that is gone")
    path, held, before = os.path.join(folder, runs.MARK_FILE), bytes_of(folder), mark_of(folder)
    os.remove(path)
    at.expect("a mark that is gone", at.run(folder, LOOK), ["! no mark"], 9, bytes_of(folder) == held and mark_of(folder) is None)
    at.expect("by another place", at.run(folder, LOOK, "--mark", os.path.join(at.room, "elsewhere")), ["! no mark"], 9, bytes_of(folder) == held)
    runs.put(path, before)
    at.expect("and put back", at.run(folder, LOOK), *looked(behind(FIRST)))

    def unchanged(name, ran, lines, status):
        at.expect(name, ran, lines, status, mark_of(folder) == before and bytes_of(folder) == held)

    unchanged("--keep over tables that are saved", at.run(folder, LOOK, save=("--keep",)), ["! saved"], 2)
    unchanged("neither word", at.run(folder, LOOK, save=()), ["! kept"], 2)
    unchanged("both words", at.run(folder, LOOK, "--keep"), ["! usage"], 2)
    unchanged("the word twice", at.run(folder, LOOK, "--save"), ["! usage"], 2)
    unchanged("another secret", at.run(folder, LOOK, key=OTHER), ["! key"], 2)
    unchanged("another pack", at.run(folder, LOOK, "--pack", "2"), ["! pack"], 2)
    unchanged("an index", at.run(folder, (create("i")[:-1] + " INDEXED;",)), ["E07 limit"], 1)
    first, second = before.splitlines(keepends=True)
    others = ["saved 1 1 1 1\n" + second, before.replace("saved", "closed"), before.upper(), before[:-1], before[:-1] + "0\n", first, second + first]
    for line in ("in use\n" + second, "in use\n", *others, before + "\n", before.replace("\n", "\r\n"), ""):
        runs.put(path, line)
        wanted = (BUSY, 9) if line == "in use\n" + second else (KEEPER, 10)
        at.expect(f"the mark {line[:30]!r}, of {len(line)} bytes", at.run(folder, LOOK), *wanted, mark_of(folder) == line and bytes_of(folder) == held)


def first_lines(at):
    """A run that saves nothing, and what a run sweeps."""
    folder, = at.made("only a first line")
    at.expect("a run that saves nothing", at.run(folder, ()), [], 0, (mark_of(folder) or "").startswith("begun\nstore ") and regions_of(folder) == [])
    before = mark_of(folder)
    at.expect("--keep over a mark of its own", at.run(folder, (), save=("--keep",)), ["! saved"], 2, mark_of(folder) == before)
    left = f"{runs.REGION}7"
    runs.put(os.path.join(folder, left), "left by a killed run")
    at.expect("the run behind it", at.run(folder, FIRST), said(FIRST, ()), 0, left not in regions_of(folder))
    own = os.path.join(at.room, "own")
    runs.put(own, "mine")
    os.symlink(own, os.path.join(folder, f"{runs.REGION}777"))
    os.mkfifo(os.path.join(folder, f"{runs.REGION}778"))
    kept = os.path.join(folder, f"{runs.REGION}779")
    os.mkdir(kept)
    ran = at.run(folder, LOOK)
    stay = runs.read(own) == b"mine" and os.path.isdir(kept)
    at.expect("a link, a pipe and a folder that have regions' names", ran, *looked(behind(FIRST)), stay)


def other_word(at):
    """A mark of one line: that of a run with --keep, from which a run with --save doesn't go on."""
    folder, = at.made("from the other word")
    at.expect("a kept run", at.run(folder, FIRST, save=("--keep",)), said(FIRST, ()), 0, bool(runs.CLOSED.fullmatch(mark_of(folder) or "")))
    before = runs.contents(folder, [runs.MARK_FILE, *runs.numbered(folder, runs.KEPT_REGION)])
    ran = at.run(folder, LOOK)
    at.expect("over which one with --save changes nothing", ran, KEEPER, 10, runs.contents(folder, before) == before and regions_of(folder) == [])
    rows = [line for answer in workloads.served(behind(FIRST), LOOK)[0] for line in answer]
    at.expect("and one with --keep goes on", at.run(folder, LOOK, save=("--keep",)), rows, 1)


def places(at):
    """A mark that lies elsewhere, and a copy that is put back."""
    folder, safe = at.made("a place", "a place of its own")
    place = os.path.join(safe, "m")
    ran = at.run(folder, FIRST, "--mark", place)
    well = runs.SAVED.fullmatch(runs.text_of(safe, "m") or "") and mark_of(folder) is None
    at.expect("a mark that lies elsewhere", ran, said(FIRST, ()), 0, bool(well))
    ran = at.run(folder, LOOK, "--mark", place)
    at.expect("the run behind it", ran, *looked(behind(FIRST)), sorted(os.listdir(safe)) == ["m", "m.lock"])
    folder, copy = at.begun("a copy"), at.folder("the copy")
    shutil.copytree(folder, copy)
    at.run(folder, THEN[:1])
    shutil.rmtree(folder)
    shutil.copytree(copy, folder)
    at.expect("files and mark of yesterday", at.run(folder, LOOK), *looked(behind(FIRST)))
    at.expect("go on", at.run(folder, insert("t", (4, 40))), ["= inserted"], 0)


def pairs(at):
    """One run at a time."""
    folder, = at.made("pairs")
    at.expect("a table for pairs", at.run(folder, (create("t", 256),)), ["= created"], 0)
    wrong = []
    for n in range(50):
        pair = [runs.Typed(at.command(folder)) for _ in range(2)]
        for one in pair:
            one.type(KEY + typed(insert("t", (n, 20))))
        first = [one.line() for one in pair]
        found = sorted((line, *one.end()) for line, one in zip(first, pair))
        if found != [("! not closed", [], 9), ("= inserted", [], 0)]:
            wrong.append(found)
    at.tests.say("50 pairs of runs that are started together, of which one serves", wrong == [], wrong[:3])
    at.expect("and nothing is lost", at.run(folder, COUNT), ['"COUNT(*)"', '"50"', "= 1 rows"], 0)


def main():
    reader = argparse.ArgumentParser(description="runs that save their tables")
    reader.add_argument("programs", nargs="?", default=runs.TOP / "crates")
    reader.add_argument("--calls", type=int)
    reader.add_argument("--seed", default="0")
    words = reader.parse_args()
    tests, program = runs.Tests(), runs.program(words.programs)
    os.umask(0o077)
    traced, others = (order, hinder, shows, other_runs), (full_disk, given_up, heads, stops, salted, other_days, marks, first_lines, other_word, places, pairs)
    with runs.room() as room:
        at = Folders(tests, program, os.path.realpath(room), words)
        if runs.has("strace"):
            tests.each(traced, at)
        else:
            tests.skip("the order of calls, runs that are killed, and what is written", "there is no strace")
        tests.each(others, at)
    tests.end()


if __name__ == "__main__":
    main()
