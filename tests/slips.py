#!/usr/bin/env python3
"""Slips of a person, each a line of a table: what lies there, the words, and how the run is to end. No slip costs a database.

Words that were forgotten or don't go together; marks, folders and ids that are another's, of another form, gone, or that others
may write; what a killed run left; files of the user's beside and inside; standard streams that are closed; want of memory. A run
that refuses says why in one line on standard error, and nothing that lay there is another, byte for byte: it makes locks at
most, which are empty. And what is made is for its user alone, whatever the umask, and lies in the store, except the mark.

usage: tests/slips.py [PROGRAMS]
Needs the programs oblidb and oblitrace in PROGRAMS (crates/ without it; `bench/build.py oblidb oblitrace` builds them there) and
python3; for one test strace. Takes some seconds.
"""
import collections
import os
import re
import shutil
import stat
import subprocess
import sys

import runs
from runs import KEY, OTHER

MADE = "CREATE TABLE t (id INT PRIMARY KEY, v VARCHAR(30)) CAPACITY 4;\nINSERT INTO t VALUES (1, 'the diagnosis is secret');\n"
MORE = "INSERT INTO t VALUES (2, 'another row');\n"
OVER = MADE + MORE
LOOK = "SELECT * FROM t;\n"
SHOWN = ['"id","v"', '"1","the diagnosis is secret"', "= 1 rows"]
SAVE, KEEP, ANEW = ["--save", "--store", "s"], ["--keep", "--store", "s"], ["--store", "s"]
# How a run ends: the status, and the last line.
USAGE, KEPT, SAVED, PACK, SECRET = ((2, line) for line in ("! usage", "! kept", "! saved", "! pack", "! key"))
BUSY, NO_MARK, NO_STORE, OTHER_STORE, VERSION = ((9, line) for line in ("! not closed", "! no mark", "! no store", "! other store", "! version"))
STORE, KEEPER, FAULT = (3, "! store fault"), (10, "! keeper fault"), (1, "E15 store fault")
ROWS, FROM_NONE = (0, "= 1 rows"), (0, "= inserted")
# A slip: its name; what is done before, from a database `s` with a mark beside it or from nothing; the words and the text; the
# end that is wanted; the names that may be made or taken away; and what is said, beside the form that all of it has.
Slip = collections.namedtuple("Slip", "name before words end text begun other says", defaults=(OVER, True, (), ""))


# ---- what is done before, in a folder
def put(name, text, mode=None):
    """Writes a file."""
    def done(at):
        runs.put(name, text)
        if mode is not None:
            os.chmod(name, mode)
    return done


def in_turn(*steps):
    """One after the other."""
    return lambda at: [step(at) for step in steps]


def ran(words, text=MADE):
    """A run by other words."""
    return lambda at: at.run(words, text)


def edited(name, change):
    """A file whose bytes are changed so."""
    return lambda at: runs.put(name, change(runs.read(name)))


def replaced(name, make):
    """Something else in the place of a file or folder, which lies beside it from then on."""
    def done(at):
        os.rename(name, "aside")
        make(name)
    return done


def folder(name):
    """A folder."""
    return lambda at: os.mkdir(name)


def link(name, target):
    """A link."""
    return lambda at: os.symlink(target, name)


def gone(name):
    """A file or folder that isn't there any more."""
    return lambda at: shutil.rmtree(name) if os.path.isdir(name) else os.remove(name)


def moved(name, to):
    """A file or folder that has another name."""
    return lambda at: os.rename(name, to)


def moded(name, mode):
    """A file that others may write."""
    return lambda at: os.chmod(name, mode)


def killed(words):
    """A run by these words that was killed."""
    def done(at):
        one = runs.Typed([at.program, *words])
        one.type(KEY + MADE)
        one.lines(2)
        one.kill()
    return done


def nothing(at):
    """Nothing is done."""


ELSEWHERE = in_turn(gone("s"), gone("s.mark"), gone("s.mark.lock"), folder("safe"), ran([*SAVE, "--mark", "safe/m"]))
SECOND = ran(["--save", "--store", "r"])
BEGUN = ran(["--save", "--store", "r"], "SELECT 1;\n")
ASIDE, DEEP = (lambda name: os.symlink("aside", name)), (lambda name: os.symlink("../aside", name))

WORDS = [
    Slip("the words are forgotten", nothing, ANEW, KEPT, says="s.mark: "),
    Slip("the words are forgotten, the mark is elsewhere", ELSEWHERE, ANEW, KEPT, says="s: "),
    Slip("the words are forgotten, the mark is gone", gone("s.mark"), ANEW, KEPT),
    Slip("the words are forgotten, the folder is gone", gone("s"), ANEW, KEPT),
    Slip("the words are forgotten, a link to the mark leads nowhere", in_turn(gone("s.mark"), link("s.mark", "nowhere")), ANEW, KEPT),
    Slip("the mark's place is forgotten", ELSEWHERE, SAVE, NO_MARK, says="s.mark: "),
    Slip("the other word", nothing, KEEP, SAVED, says="--save goes on"),
    Slip("both words", nothing, [*SAVE, "--keep"], USAGE, says="--keep: "),
    Slip("a mark and neither word", nothing, [*ANEW, "--mark", "s.mark"], USAGE, says="--mark: "),
    Slip("a mark whose folder isn't there", nothing, [*SAVE, "--mark", "nowhere/m"], KEEPER, says="nowhere/m.lock: No such file"),
    Slip("a mark that is a folder", folder("m"), [*SAVE, "--mark", "m"], KEEPER, says="m: "),
    Slip("a mark with no name", nothing, [*SAVE, "--mark", ""], USAGE, says="--mark"),
    Slip("a mark whose name ends in a slash", nothing, [*SAVE, "--mark", "m/"], USAGE, says="--mark m/"),
    Slip("a mark in the folder", nothing, [*SAVE, "--mark", "s/m"], USAGE, says="--mark s/m"),
    Slip("a mark in the folder, by dots", nothing, [*SAVE, "--mark", "./s/../s/m"], USAGE),
    Slip("a mark in the folder, by a link", link("l", "s"), [*SAVE, "--mark", "l/m"], USAGE),
    Slip("a mark where a region is", nothing, [*SAVE, "--mark", "s/r.3"], USAGE),
    Slip("a mark deep in the folder", nothing, [*SAVE, "--mark", "s/deep/m"], USAGE),
    Slip("a mark that is the folder", nothing, [*SAVE, "--mark", "s"], USAGE),
    Slip("a mark that is the folder, with a slash", nothing, [*SAVE, "--mark", "s/"], USAGE),
    Slip("a mark that is the folder, by dots", nothing, [*SAVE, "--mark", "./s"], USAGE),
    Slip("a mark in the folder, in a first run", nothing, [*SAVE, "--mark", "s/m"], USAGE, OVER, False),
    Slip("a mark that is the folder, in a first run", nothing, [*SAVE, "--mark", "s"], USAGE, OVER, False),
    Slip("a mark with the name of the store, with --keep", nothing, [*KEEP, "--mark", "s"], USAGE, OVER, False),
    Slip("a mark with the name of a region, with --keep", nothing, [*KEEP, "--mark", "s.3"], USAGE, OVER, False),
    Slip("a mark with no name, with --keep", nothing, [*KEEP, "--mark", ""], USAGE, OVER, False),
    Slip("an empty name", nothing, ["--save", "--store", ""], USAGE, says="--store"),
    Slip("an empty name, without a word", nothing, ["--store", ""], USAGE),
    Slip("a name of slashes", nothing, ["--save", "--store", "//"], USAGE),
    Slip("a name that is this folder", nothing, ["--save", "--store", "."], USAGE),
    Slip("a name that is the folder above", nothing, ["--save", "--store", "s/.."], USAGE),
    Slip("a name in a folder that isn't there", nothing, ["--save", "--store", "nowhere/s"], KEEPER, says="nowhere/s.mark.lock: No such file"),
    Slip("a name in a folder that isn't there, by a mark that is", nothing, ["--save", "--mark", "m", "--store", "nowhere/s"], KEEPER, OVER, False, says="nowhere/s: "),
    Slip("a name in a folder that isn't there, without a word", nothing, ["--store", "nowhere/s"], KEEPER, says="nowhere/s.scratch: No such file"),
    Slip("a name that is too long", nothing, ["--save", "--store", "n" * 250], KEEPER, says=f"{'n' * 250}.mark.lock: File name too long"),
    Slip("a name with the end of a line, in a folder that isn't there", nothing, ["--save", "--store", "no\nwhere/s"], KEEPER, says="no?where/s.mark.lock: "),
    Slip("a slash behind the name", nothing, ["--save", "--store", "s/"], ROWS, LOOK),
    Slip("two slashes behind the name", nothing, ["--save", "--store", "s//"], ROWS, LOOK),
    Slip("a slash behind the name, without a word", nothing, ["--store", "s/"], KEPT),
    Slip("another pack", nothing, [*SAVE, "--pack", "2"], PACK, says="--pack"),
    # that nothing was asked shows the trace, which would stand on standard error
    Slip("another secret", nothing, [*SAVE, "--trace"], SECRET, OTHER + OVER, says="s.mark: "),
    Slip("a secret that is too short", nothing, SAVE, SECRET, "5a5a\n" + OVER, says="the input: "),
    Slip("no secret", nothing, SAVE, SECRET, "\n"),
]
# Words that are none: the one that standard error names, and what it says of it.
UNKNOWN = [
    (["--sav"], "--sav", "unexpected"), (["more"], "more", "unexpected"), ([""], "an empty word", ""), ([b"--\xff"], "a word", "UTF-8"),
    (["--buffer", "3"], "--buffer", "4 to 65536"), (["--buffer", "many"], "--buffer", "4 to 65536"), (["--pack", "17"], "--pack", "1 to 16"),
    (["--pack", "02"], "--pack", "1 to 16"), (["--depth", "0"], "--depth", "1 to 8"), (["--plan", "best"], "--plan", "cheapest, small"),
    (["--pad", "0"], "--pad", "1 to 1048576"), (["--stash", "1025"], "--stash", "1 to 1024"), (["--batch", "1"], "--batch", "2 to 65535"),
    (["--flight", "2"], "--flight", "2 to 8"), (["--flight", "9,0"], "--flight", "2 to 8"), (["--max-input", "5"], "--max-input", "1024 to"),
    (["--gen", "0,4097"], "--gen", "1 to 4096"), (["--stash"], "--stash", "a value"), (["--trace=yes"], "yes", "--trace"),
    (["--pack", "2", "--pack", "2"], "--pack", "multiple times"), (["--meddle", "1:fail"], "--meddle", "unexpected"),
    (["--buffer", "48", "--pack", "16"], "--buffer", "3R + 1"), (["--pad", "4", "--plan", "hash"], "--pad", "--plan continuous or hash"),
    (["--flight", "2,0", "--batch", "2"], "--flight", "--batch"), (["--flight", "2,0", "--plan", "large"], "--flight", "--plan large"),
    (["--none", "--help"], "--none", "unexpected"),
]

FOLDERS = [
    Slip("another database's mark", SECOND, [*SAVE, "--mark", "r.mark"], OTHER_STORE, says="r.mark: "),
    Slip("the mark of one that was begun", BEGUN, [*SAVE, "--mark", "r.mark"], OTHER_STORE),
    Slip("the right mark, and another database", SECOND, ["--save", "--store", "r", "--mark", "s.mark"], OTHER_STORE),
    Slip("the right mark, and another one that was begun", BEGUN, ["--save", "--store", "r", "--mark", "s.mark"], OTHER_STORE),
    Slip("a new name, and the mark of an old one", nothing, ["--save", "--store", "r", "--mark", "s.mark"], NO_STORE, says="r: "),
    Slip("a folder without an id", gone("s/id"), SAVE, NO_STORE, says="s: "),
    Slip("a folder without an id, and no mark", in_turn(gone("s/id"), gone("s.mark")), SAVE, NO_STORE),
    Slip("a folder of the user's", in_turn(folder("s"), put("s/notes", "mine")), SAVE, NO_STORE, OVER, False),
    Slip("a folder of the user's, with a lock", in_turn(folder("s"), put("s/notes", "mine"), put("s/lock", "mine")), SAVE, NO_STORE, OVER, False),
    Slip("a folder with a region alone", in_turn(folder("s"), put("s/r.3", "mine")), SAVE, NO_STORE, OVER, False),
    Slip("a folder that is gone", gone("s"), SAVE, NO_STORE),
    Slip("a folder with nothing in it, and a mark", in_turn(gone("s"), folder("s")), SAVE, NO_STORE),
    Slip("a folder that is a link", replaced("s", ASIDE), SAVE, NO_STORE),
    Slip("a folder that is a link, and no mark", in_turn(replaced("s", ASIDE), gone("s.mark")), SAVE, NO_STORE),
    Slip("a link to nowhere in the place of the folder", link("s", "nowhere"), SAVE, NO_STORE, OVER, False),
    Slip("a link to an empty folder in the place of the folder", in_turn(folder("m"), link("s", "m")), SAVE, NO_STORE, OVER, False),
    Slip("a file in the place of the folder", replaced("s", lambda name: runs.put(name, "mine")), SAVE, NO_STORE),
    Slip("a file in the place of the folder, in a first run", put("s", "mine"), SAVE, NO_STORE, OVER, False),
    Slip("a pipe in the place of the folder", replaced("s", os.mkfifo), SAVE, NO_STORE),
    Slip("an id of no bytes", put("s/id", ""), SAVE, KEEPER, says="s/id: it is empty"),
    Slip("an id that is too long", edited("s/id", lambda held: held * 6), SAVE, KEEPER, says="s/id: it is too long"),
    Slip("an id of another version", edited("s/id", lambda held: held.replace(b" 1 ", b" 2 ")), SAVE, VERSION, says="s/id: "),
    Slip("an id of another version that begins alike", edited("s/id", lambda held: held.replace(b" 1 ", b" 10 ")), SAVE, VERSION),
    Slip("an id of another version, and no mark", in_turn(put("s/id", "ribquince 2\n"), gone("s.mark")), SAVE, VERSION),
    Slip("an id of another version, and another's mark", in_turn(SECOND, put("s/id", "ribquince 2\n")), [*SAVE, "--mark", "r.mark"], VERSION),
    Slip("an id of another store", edited("s/id", lambda held: held[:-2] + (b"0" if held[-2:-1] != b"0" else b"1") + b"\n"), SAVE, OTHER_STORE),
    Slip("an id that is none", put("s/id", "hello\n"), SAVE, NO_STORE),
    Slip("an id that is none, and no mark", in_turn(put("s/id", "hello\n"), gone("s.mark")), SAVE, NO_STORE),
    Slip("an id of zeros", put("s/id", bytes(45)), SAVE, NO_STORE),
    Slip("an id in capital letters", put("s/id", f"ribquince 1 {'AB' * 16}\n"), SAVE, NO_STORE),
    Slip("an id that is cut short", edited("s/id", lambda held: held[:-9]), SAVE, NO_STORE),
    Slip("an id with other ends of lines", edited("s/id", lambda held: held.replace(b"\n", b"\r\n")), SAVE, NO_STORE),
    Slip("an id with a line more", edited("s/id", lambda held: held + b"\n"), SAVE, NO_STORE),
    Slip("an id that is a folder", replaced("s/id", os.mkdir), SAVE, KEEPER, says="s/id: it isn't a file"),
    Slip("an id that is a pipe", replaced("s/id", os.mkfifo), SAVE, KEEPER),
    Slip("an id that is a link", replaced("s/id", DEEP), SAVE, KEEPER),
    Slip("an id that others may write", moded("s/id", 0o666), SAVE, KEEPER, says="s/id: others may write it"),
    Slip("an id that a group may write", moded("s/id", 0o620), SAVE, KEEPER),
    Slip("a lock in the folder that is a folder", replaced("s/lock", os.mkdir), SAVE, KEEPER, says="s/lock: "),
    Slip("a lock in the folder that is a pipe", replaced("s/lock", os.mkfifo), SAVE, KEEPER),
    Slip("a lock in the folder that is a link", replaced("s/lock", DEEP), SAVE, KEEPER),
]

TODAY = b"saved 4 2 11 1 00112233445566778899aabbccddeeff 00112233445566778899aabbccddeeff\n"
ONE_LINE = "s.mark: it has one line"
YESTERDAY = in_turn(lambda at: shutil.copy("s.mark", "yesterday"), ran(SAVE, MORE), moved("yesterday", "s.mark"))
MARKS = [
    Slip("a mark of one line", put("s.mark", TODAY), SAVE, KEEPER, says=ONE_LINE),
    Slip("a mark with one line of two", edited("s.mark", lambda held: held.splitlines(True)[0]), SAVE, KEEPER, says=ONE_LINE),
    Slip("a mark with the other line of two", edited("s.mark", lambda held: held.splitlines(True)[1]), SAVE, KEEPER),
    Slip("a mark of a run with --keep", put("s.mark", "closed 4 2 11 1\n"), SAVE, KEEPER, says=ONE_LINE),
    Slip("a mark of a run with --keep at work", put("s.mark", "in use\n"), SAVE, KEEPER, says=ONE_LINE),
    Slip("a mark of one line that was begun", put("s.mark", "begun\n"), SAVE, KEEPER, says=ONE_LINE),
    Slip("a mark in use that names the store", edited("s.mark", lambda held: b"in use\n" + held.splitlines(True)[1]), SAVE, BUSY),
    Slip("a mark of no bytes", put("s.mark", ""), SAVE, KEEPER, says="s.mark: it is empty"),
    Slip("a mark that is too long", edited("s.mark", lambda held: held * 3), SAVE, KEEPER, says="s.mark: it is too long"),
    Slip("a mark with a line more", edited("s.mark", lambda held: held + b"\n"), SAVE, KEEPER),
    Slip("a mark without its last byte", edited("s.mark", lambda held: held[:-1]), SAVE, KEEPER),
    Slip("a mark with other ends of lines", edited("s.mark", lambda held: held.replace(b"\n", b"\r\n")), SAVE, KEEPER),
    Slip("a mark of zeros", put("s.mark", bytes(120)), SAVE, KEEPER),
    Slip("a mark of yesterday, with the files of today", YESTERDAY, SAVE, STORE, says="s/r."),
    Slip("a mark that is gone", gone("s.mark"), SAVE, NO_MARK),
    Slip("a mark that is a folder, beside the store", replaced("s.mark", os.mkdir), SAVE, KEEPER),
    Slip("a mark that is a pipe", replaced("s.mark", os.mkfifo), SAVE, KEEPER),
    Slip("a mark that is a link to a link", in_turn(replaced("s.mark", lambda name: os.symlink("m", name)), link("m", "aside")), SAVE, KEEPER),
    Slip("a mark that is a link into a folder that isn't there", replaced("s.mark", lambda name: os.symlink("safe/m", name)), SAVE, KEEPER, says="safe/m.lock: "),
    Slip("a mark that is a link, where the words say", replaced("s.mark", ASIDE), [*SAVE, "--mark", "s.mark"], KEEPER),
    Slip("a mark that others may write", moded("s.mark", 0o666), SAVE, KEEPER, says="s.mark: others may write it"),
    Slip("a mark that others alone may write", moded("s.mark", 0o602), SAVE, KEEPER),
    Slip("a mark that a group may write", moded("s.mark", 0o620), SAVE, KEEPER),
    Slip("a mark with --keep that others may write", in_turn(ran(KEEP), moded("s.mark", 0o666)), KEEP, KEEPER, OVER, False),
    Slip("a lock of the mark that is a link", replaced("s.mark.lock", ASIDE), SAVE, KEEPER, says="s.mark.lock: "),
]

# The table lies in the third region, and what lists it in the fourth.
REGIONS = [
    Slip("a region that is gone", gone("s/r.3"), SAVE, STORE, says="s/r.3: No such file"),
    Slip("a list that is gone", gone("s/r.4"), SAVE, STORE, says="s/r.4: No such file"),
    Slip("all regions that are gone", in_turn(gone("s/r.3"), gone("s/r.4")), SAVE, STORE, says="s/r.4: "),
    Slip("a region of no bytes", put("s/r.3", ""), SAVE, STORE, says="s/r.3: it hasn't the length"),
    Slip("a region that is cut short", edited("s/r.3", lambda held: held[:-1]), SAVE, STORE),
    Slip("a region that is too long", edited("s/r.3", lambda held: held + b"\n"), SAVE, STORE),
    Slip("a region that is a link", replaced("s/r.3", DEEP), SAVE, STORE, says="s/r.3: it isn't a file"),
    Slip("a region that is a pipe", replaced("s/r.3", os.mkfifo), SAVE, STORE),
    Slip("a region that is a folder", replaced("s/r.3", os.mkdir), SAVE, STORE),
]

INSIDE = ("r.x", "r.007", "r.-1", "r.", "r.1.bak", "R.5", "notes", "r.18446744073709551616")
BESIDE = ("s.2026", "s.20261201", "s.0", "s.x", "s.mark.old", "s.r.3")
ODD = "a b\n-ü'"
OWN = [put(f"s/{name}", "mine") for name in INSIDE] + [put(name, "mine") for name in BESIDE]
# Nothing of the user's is another; what a killed run left is gone.
GOES_ON = [
    Slip("files of the user's", in_turn(*OWN), SAVE, ROWS, LOOK),
    Slip("a copy of the folder beside it", lambda at: shutil.copytree("s", "s.20261201"), SAVE, ROWS, LOOK),
    Slip("another database beside it", SECOND, SAVE, ROWS, LOOK),
    Slip("a region that a killed run left", put("s/r.99", "left"), SAVE, ROWS, LOOK, True, ("s/r.99",)),
    Slip("a store that was moved", in_turn(moved("s", "r"), moved("s.mark", "r.mark")), ["--save", "--store", "r"], ROWS, LOOK),
    Slip("a mark with a number at its end", ran([*SAVE, "--mark", "s.1"]), [*SAVE, "--mark", "s.1"], ROWS, LOOK, False),
    Slip("a mark by a link", in_turn(replaced("s.mark", ASIDE)), SAVE, ROWS, LOOK),
    Slip("a first run over an empty folder", folder("s"), SAVE, FROM_NONE, MADE, False, ("s", "s.mark")),
    Slip("a first run that was killed before the id", in_turn(folder("s"), put("s/lock", ""), put("s/id.next", "half")), SAVE, FROM_NONE, MADE, False, ("s", "s.mark")),
    Slip("a first run that was killed before the mark", in_turn(ran(SAVE, ""), gone("s.mark")), SAVE, FROM_NONE, MADE, False, ("s", "s.mark")),
    Slip("a first run that was killed after it", ran(SAVE, ""), SAVE, FROM_NONE, MADE, False, ("s", "s.mark")),
    Slip("a slash behind the name of a first run", nothing, ["--save", "--store", "s/"], FROM_NONE, MADE, False, ("s", "s.mark")),
    Slip("a name of all kinds of bytes", nothing, ["--save", "--store", ODD], FROM_NONE, MADE, False, (ODD, f"{ODD}.mark")),
    Slip("a name of as many letters as it may have", nothing, ["--save", "--store", "n" * 245], FROM_NONE, MADE, False, ("n" * 245, f"{'n' * 245}.mark")),
    Slip("a run without a word leaves nothing", nothing, ANEW, FROM_NONE, MADE, False),
    Slip("nor what a killed one left", killed(ANEW), ANEW, FROM_NONE, MADE, False, ("s.1", "s.2", "s.scratch")),
    Slip("names that no region has", in_turn(put("s.007", "mine"), put("s.x", "mine"), put("s", "mine")), ANEW, FROM_NONE, MADE, False),
]
SCRATCH = [
    Slip("a name that a region would have", put("s.3", "mine"), ANEW, KEPT, OVER, False, says="s.*: "),
    Slip("a dated name", put("s.2026", "mine"), ANEW, KEPT, OVER, False),
    Slip("a folder with a region's name", folder("s.3"), ANEW, KEPT, OVER, False),
    Slip("files of a run with --keep", ran(KEEP), ANEW, KEPT, OVER, False),
    Slip("files of a run with --keep that was killed", killed(KEEP), ANEW, KEPT, OVER, False),
    Slip("files of a run with --keep whose mark is gone", in_turn(ran(KEEP), gone("s.mark")), ANEW, KEPT, OVER, False),
    Slip("a scratch file of the user's", put("s.scratch", "mine"), ANEW, KEPT, OVER, False, says="s.scratch: "),
    Slip("a scratch file that is a link", in_turn(put("aside", ""), link("s.scratch", "aside")), ANEW, KEPT, OVER, False),
    Slip("a scratch file that is a pipe", lambda at: os.mkfifo("s.scratch"), ANEW, KEPT, OVER, False),
    Slip("a scratch file that is a folder", folder("s.scratch"), ANEW, KEPT, OVER, False),
    Slip("an id that is a link to nowhere", in_turn(folder("s"), link("s/id", "nowhere")), ANEW, KEPT, OVER, False),
]


class Slips:
    """Slips, each in a folder of its own, in which they are run."""

    def __init__(self, tests, program, tracer, room):
        self.tests, self.program, self.tracer, self.room, self.count = tests, program, tracer, room, 0

    def run(self, words, text, behind=(), limited=None):
        """A run in the folder in hand; a text that begins with no secret gets one."""
        first = text.partition("\n")[0]
        has_first = text and first in (OTHER.strip(), "5a5a", "")
        return runs.run([*behind, self.program, *words], text if has_first else KEY + text, limited=limited)

    def folder(self, begun=True):
        """Makes a folder and goes there; with a database in it, or without."""
        self.count += 1
        folder = os.path.join(self.room, f"{self.count}")
        os.mkdir(folder)
        os.chdir(folder)
        if begun:
            self.run(SAVE, MADE)
        return folder

    def ends(self, name, found, end, changes, says=""):
        """Whether a run ended so, said why, in these words, too, and changed nothing else."""
        well = (found.status, found.lines[-1:]) == (end[0], [end[1]]) and changes == [] and runs.complains(found) and says in found.said
        self.tests.say(name, well, f"{found}, {changes}")

    def try_slip(self, slip):
        """Makes a slip, and looks what came of it."""
        folder = self.folder(slip.begun)
        try:
            slip.before(self)
        except OSError as error:
            self.tests.say(slip.name, False, f"{error}")
            return
        before = runs.tree(folder)
        found = self.run(slip.words, slip.text)
        more = found.lines[:-1] if found.status else []
        self.ends(slip.name, found, slip.end, changed(before, runs.tree(folder), slip.other) + more, slip.says)


def changed(before, after, other=()):
    """What of a folder is another than it was: locks may be made, which are empty, and what the slip says."""
    named = lambda name: name in other or any(name.startswith(f"{it}/") for it in other)
    lost = [name for name, held in before.items() if after.get(name) != held and not named(name)]
    is_lock = lambda name, held: name.endswith("lock") and held[1] == b""
    return lost + [name for name, held in after.items() if name not in before and not named(name) and not is_lock(name, held)]


def unknown_words(at):
    """Words that are none: the line on standard error names them, and says what they may be."""
    for words, word, says in UNKNOWN:
        folder = at.folder()
        before = runs.tree(folder)
        found = at.run([*SAVE, *words], OVER)
        well = found.lines == ["! usage"] and re.fullmatch(rf"oblidb: {re.escape(word)}(| <\S+>): .*{re.escape(says)}.*\n", found.said)
        at.ends(f"the words {words}", found, USAGE, changed(before, runs.tree(folder)) + ([] if well else ["what is said"]))
        other = runs.run([at.tracer, *(["--none"] if word == "--meddle" else words)], KEY + OVER)
        at.tests.say(f"the words {words}, of oblitrace", other == (["! usage"], 2, ""), f"{other}")


# ---- standard streams that are closed
STREAMS = [
    (">&-", [], 6), ("<&-", [], 5), ("2>&-", [], 0), ("2>&-", ["--trace"], 6), (">&- 2>&-", ["--trace"], 6), ("<&- >&-", [], 5),
    ("<&- >&- 2>&-", ["--trace"], 5), ("> /dev/full", [], 6),
]
CLEAR = (b"diagnosis", b"= created", b"M 1 4 ", b"W 1 0\n", b"! tampered", b"! source")


def closed(program, words, streams):
    """The status of a run some of whose streams are closed, and what came of the others."""
    line = f'exec "$@" {streams}'
    ran = subprocess.run(["sh", "-c", line, "sh", program, *words], input=(KEY + MADE + LOOK).encode(), capture_output=True, timeout=runs.LONGEST)
    return ran.returncode, ran.stdout, ran.stderr


def closed_streams(at):
    """A stream that is closed is none that a file of the store takes: nothing stands in clear in any file."""
    for words in (SAVE, KEEP, ANEW, None):
        for streams, more, wanted in STREAMS:
            folder = at.folder(begun=False)
            program, own = (at.program, words) if words else (at.tracer, [])
            status, out, said = closed(program, [*own, *more], streams)
            files = {name: held for name, (_, held) in runs.tree(folder).items() if held is not None}
            clear = [name for name, held in files.items() if any(it in held for it in CLEAR)]
            name = f"{'oblidb' if words else 'oblitrace'} {' '.join([*own, *more])} {streams}"
            well = status == wanted and clear == [] and (status != 0 or out.decode().splitlines()[2:] == SHOWN)
            at.tests.say(name, well and (words != ANEW or files == {}), f"status {status}, {out}, {said}, in clear: {clear}, of {list(files)}")
            if words == SAVE:
                again = at.run(SAVE, "DROP TABLE none;\n")
                at.tests.say(f"{name}, and the run behind it", (again.lines, again.status) == (["E02 no table"], 1), f"{again}")


# ---- want of memory
def lacks_memory(at):
    """Want of memory, whatever there is of it: a run that can't begin says so, and changes nothing."""
    for program, words in ((at.program, SAVE), (at.program, KEEP), (at.program, ANEW), (at.tracer, [])):
        folder, name = at.folder(begun=words == SAVE), f"want of memory, {os.path.basename(program)} {' '.join(words)}"
        before, said, wrong = runs.tree(folder), 0, []
        for size in range(0, 1 << 23, 8192):
            found = runs.run([program, *words], KEY + LOOK, limited=runs.limits(memory=size))
            # the system's loader ends so where it has too little, before the program begins
            if found.status in (127, -11) and not found.lines:
                continue
            if found.status != 7:
                break
            tells = found.said == "oblidb: memory: it ran out\n"
            said += tells
            if found.lines != ["! no memory"] or not (tells or found.said == "") or tells and changed(before, runs.tree(folder)):
                wrong.append((size, found))
        at.tests.say(name, not wrong and found.status in (0, 1), f"{wrong[:3]}, and then {found}")
        if program == at.program and not said:
            at.tests.skip(f"{name}, before it begins", "what it takes to load a program is more here")


# ---- what is made
def modes(at):
    """What is made is for its user alone, whatever the umask."""
    for words in (SAVE, KEEP, ANEW):
        folder = at.folder(begun=False)
        one = runs.Typed(["sh", "-c", 'umask 0; exec "$@"', "sh", at.program, *words])
        one.type(KEY + MADE)
        one.lines(2)
        kinds = {name: mode for name, (mode, _) in runs.tree(folder).items()}
        one.end()
        open_to_others = {name: oct(stat.S_IMODE(mode)) for name, mode in kinds.items() if stat.S_IMODE(mode) != (0o700 if stat.S_ISDIR(mode) else 0o600)}
        at.tests.say(f"modes of what is made, {' '.join(words)}", kinds and not open_to_others, open_to_others)


def layout(at):
    """What a run with --save makes, and what the mark and the id have."""
    folder = at.folder()
    names = sorted(runs.tree(folder))
    regions = runs.numbered(folder, runs.REGION)
    made = sorted(["s", runs.ID, runs.STORE_LOCK, runs.MARK_FILE, runs.MARK_LOCK, *regions])
    at.tests.say("what a run with --save makes", names == made and len(regions) == 2, names)
    locks = [runs.text_of(folder, name) for name in (runs.STORE_LOCK, runs.MARK_LOCK)]
    at.tests.say("its locks, which are empty", locks == ["", ""], locks)
    identity, mark = runs.text_of(folder, runs.ID) or "", runs.text_of(folder, runs.MARK_FILE) or ""
    well = runs.IDENTITY.fullmatch(identity) and runs.SAVED.fullmatch(mark) and mark.split()[-1] == identity.split()[-1]
    at.tests.say("the mark and the id", bool(well), f"{mark!r}, {identity!r}")
    first = identity
    at.folder()
    at.tests.say("an id of its own", runs.text_of(".", runs.ID) not in (first, None), first)


CHANGING = "open openat openat2 creat mkdir mkdirat mknod mknodat rename renameat renameat2 unlink unlinkat rmdir link linkat symlink symlinkat truncate chmod fchmodat chown fchownat".split()
PLACES = re.compile(r"s|s/(r\.[1-9][0-9]*|lock|id|id\.next)|(s\.mark|safe/m)(|\.next|\.lock)")


def stays_inside(at):
    """What a run with --save makes, writes or takes away lies in the store, except the mark, its next text and its lock."""
    if not runs.has("strace"):
        at.tests.skip("what a run changes lies in the store", "there is no strace")
        return
    at.folder(begun=False)
    os.mkdir("safe")
    calls = runs.behind_strace(",".join(f"?{it}" for it in CHANGING), to="calls")
    for words in ([], [], ["--mark", "safe/m"]):
        if words:
            os.rename("s.mark", "safe/m")
        put("s.99", "mine")(at)
        for text in (MADE, MORE + "DELETE FROM t WHERE id = 2;\nDROP TABLE none;\n"):
            ran = at.run([*SAVE, *words], text, calls)
            lines = [line for line in runs.read("calls").decode().splitlines() if "(" in line and re.search(r"\) += [0-9]", line)]
            lines = [line for line in lines if not re.search(r"\bopen", line) or re.search("O_(WRONLY|RDWR|CREAT|TRUNC)", line)]
            paths = [path for line in lines for path in re.findall(r'"((?:[^"\\]|\\.)*)"', line)]
            strange = [path for path in paths if not PLACES.fullmatch(path)]
            at.tests.say(f"what a run changes lies in the store, {' '.join(words)}", len(paths) > 5 and not strange and ran.status in (0, 1), f"{strange}, {ran}")


def main():
    programs = sys.argv[1] if sys.argv[1:] else runs.TOP / "crates"
    tests, program, tracer = runs.Tests(), runs.program(programs), runs.program(programs, "oblitrace")
    os.umask(0o077)
    with runs.room() as room:
        at = Slips(tests, program, tracer, os.path.realpath(room))
        for slip in [*WORDS, *FOLDERS, *MARKS, *REGIONS, *GOES_ON, *SCRATCH]:
            at.try_slip(slip)
        tests.each((unknown_words, closed_streams, lacks_memory, modes, layout, stays_inside), at)
        os.chdir(runs.TOP)
    tests.end()


if __name__ == "__main__":
    main()
