#!/usr/bin/env python3
"""Others at work at a store, and the disk that it lies on: how each run ends, and that nothing that was answered is lost.

Two runs on one store, by two marks, by a copy of one, without the words, and where their locks don't reach each other, as from
two machines; a folder, a mark and locks that are taken away under a run; a disk that is full, read-only, without locks, or
without a sync of folders; files that may not be read or written, and files of somebody else. A run that refuses says why in one
line on standard error.

usage: tests/others.py [PROGRAMS]
Needs the program oblidb in PROGRAMS (crates/ without it; `bench/build.py oblidb` builds it there) and python3; for some tests
strace, or root (to mount a small disk, and to be somebody else). Takes some seconds.
"""
import contextlib
import os
import shutil
import subprocess
import sys
import tempfile

import runs
from runs import KEY
from slips import (
    ANEW, BUSY, FAULT, KEEP, KEEPER, KEPT, LOOK, MADE, MORE, NO_MARK, NO_STORE, OVER, ROWS, SAVE, SHOWN, STORE, Slips, changed,
)

INSERTED = ["= inserted"]
MADE_LINES = ["= created", *INSERTED]
# Of the second run the first INSERT would make a region with the number of the first run's closing, which lies there; the next
# one comes to its mark.
TWICE = "".join(f"INSERT INTO t VALUES ({n}, 'of the other');\n" for n in (3, 4))
TOLD = ["E15 store fault", "! keeper fault"]


def begun(at, words, text, behind=()):
    """A run at work, which was answered these statements."""
    one = runs.Typed([*behind, at.program, *words])
    one.type(KEY + text)
    return one, one.lines(text.count(";"))


def rows_of(at, words=SAVE):
    """The keys that the next run finds, and whether it ends as it should."""
    found = at.run(words, LOOK)
    keys = [line.partition(",")[0].strip('"') for line in found.lines[1:-1]]
    return keys if found.status == 0 and found.said == "" else found


# ---- two runs at once
def two_first_runs(at):
    """Two first runs with two marks on one store."""
    at.folder(begun=False)
    one, first = begun(at, [*SAVE, "--mark", "m1"], MADE)
    at.ends("two first runs with two marks on one store", at.run([*SAVE, "--mark", "m2"], MADE), BUSY, [] if first == MADE_LINES else first, "s/lock: ")
    at.tests.say("the one that served", one.ran() == ([], 0, "") and rows_of(at, [*SAVE, "--mark", "m1"]) == ["1"], "otherwise")
    at.ends("and the other mark after it", at.run([*SAVE, "--mark", "m2"], MADE), NO_MARK, [])
    wrong = []
    for _ in range(20):
        at.folder(begun=False)
        at.run(SAVE, "")
        for mark in ("m1", "m2"):
            shutil.copy("s.mark", mark)
        both = [runs.Typed([at.program, *SAVE, "--mark", mark]) for mark in ("m1", "m2")]
        for typed in both:
            typed.type(KEY + MADE)
        first = [typed.line() for typed in both]
        found = sorted((line, *typed.end()) for line, typed in zip(first, both))
        wrong += [found] if found != [("! not closed", [], 9), ("= created", INSERTED, 0)] else []
    at.tests.say("20 pairs that begin at once by copies of a first run's mark, of which one serves", wrong == [], wrong[:3])


def copied_mark(at):
    """A copied mark: the folder's lock holds the second run off, and what it had is refused after the first."""
    at.folder()
    for name in ("a", "b"):
        shutil.copy("s.mark", name)
    one, first = begun(at, [*SAVE, "--mark", "a"], MORE)
    at.ends("a copy of a mark, at once", at.run([*SAVE, "--mark", "b"], LOOK), BUSY, [] if first == INSERTED else first)
    one.end()
    before = runs.tree(".")
    at.ends("a copy of a mark, after it", at.run([*SAVE, "--mark", "b"], LOOK), STORE, changed(before, runs.tree(".")))
    found = rows_of(at, [*SAVE, "--mark", "a"])
    at.tests.say("and the first one goes on", found == ["1", "2"], found)


def other_words(at):
    """A run by other words beside one at work: it ends, and changes nothing of that one's."""
    for words, others, end in ((SAVE, ANEW, KEPT), (SAVE, SAVE, BUSY), (SAVE, KEEP, BUSY), (KEEP, ANEW, KEPT), (KEEP, KEEP, BUSY), (KEEP, SAVE, BUSY), (ANEW, ANEW, BUSY), (ANEW, KEEP, NO_MARK)):
        at.folder(begun=False)
        one, first = begun(at, words, MADE)
        before = runs.tree(".")
        other = at.run(others, MADE)
        name = f"{' '.join(others)} beside {' '.join(words)}"
        at.ends(name, other, end, changed(before, runs.tree(".")) + ([] if first == MADE_LINES else first))
        one.type(LOOK)
        last = one.ran()
        at.tests.say(f"{name}, which goes on", last == (SHOWN, 0, ""), f"{last}")
    folder = at.folder()
    one, first = begun(at, SAVE, MORE)
    os.symlink(folder, "by")
    for name in (os.path.join(folder, "s"), "by/s", "./s/"):
        at.ends(f"one at work by its name, and another by {name.replace(folder, '...')}", at.run(["--save", "--store", name], LOOK), BUSY, [])
    one.end()
    at.folder(begun=False)
    one, first = begun(at, ANEW, MADE)
    saves = at.run(SAVE, MADE)
    one.type(LOOK)
    last, left = one.ran(), rows_of(at)
    well = saves[:2] == (MADE_LINES, 0) and last == (SHOWN, 0, "") and left == ["1"] and runs.numbered(".", "s.") == []
    at.tests.say("one that saves beside one without a word: each has its own files", well, f"{saves}, {last}, {left}, {os.listdir()}")


def unlocked(at, one, behind=()):
    """A run that isn't held off beside one at work: the mark tells them apart."""
    other, second = begun(at, SAVE, "INSERT INTO t VALUES (2, 'of the one');\n", behind)
    second += other.ran()[:2]
    one.type(TWICE)
    last, found = one.ran(), rows_of(at)
    well = second == [*INSERTED, [], 0] and (last.lines, last.status) == (TOLD, 10) and last.said == "oblidb: s.mark: another run has changed it\n"
    return well and found == ["1", "2"], f"{second}, {last}, {found}"


def two_machines(at):
    """Two runs whose locks don't reach each other: the second to come to the mark is told, and answers nothing more."""
    at.folder()
    one, shown = begun(at, SAVE, LOOK)
    shown += one.lines(2)
    for lock in (runs.STORE_LOCK, runs.MARK_LOCK):
        os.remove(lock)
    at.tests.say("locks that are taken away under a run", *unlocked(at, one))
    if not runs.has("strace"):
        at.tests.skip("two machines whose locks don't reach each other", "there is no strace")
        return
    at.folder()
    without = runs.behind_strace("flock", "flock:retval=0")
    one, shown = begun(at, SAVE, LOOK, without)
    shown += one.lines(2)
    well, found = unlocked(at, one, without)
    at.tests.say("two machines whose locks don't reach each other", well and shown == SHOWN, f"{shown}, {found}")


# How a run ends that stood still after each of its syncs, while another one was answered: those with which it begins, which see
# what the other saved; those of its regions, which aren't there any more; those of its folder and of its next mark, after which
# the mark isn't its own; and that of its mark, which the other went on from.
STOOD = [(0, "= inserted")] * 3 + [STORE] * 2 + [KEEPER] * 2 + [(0, "= inserted")]


def stands_still(at):
    """A run that stands still after each of its syncs, while another is answered that it doesn't hold off."""
    if not runs.has("strace"):
        at.tests.skip("a run that stands still beside another", "there is no strace")
        return
    for count, end in enumerate(STOOD, 1):
        at.folder()
        one = stands(at, MORE, "fsync", count)
        other = at.run(SAVE, "INSERT INTO t VALUES (3, 'of the other');\n", runs.behind_strace("flock", "flock:retval=0"))
        one.goes_on()
        last, found = one.ran(), rows_of(at)
        wanted = ["1", "3"] if end[0] else ["1", "2", "3"]
        others = [] if other == (INSERTED, 0, "") and isinstance(found, list) and sorted(found) == wanted else [other, found]
        at.ends(f"a run that stands still after its sync {count}, beside another", last, end, others)


def stands(at, text, call, count):
    """A run that holds nobody off, and stands still after so many calls of a kind."""
    runs.put("calls", "")
    one = runs.Typed([*runs.behind_strace(f"flock,{call}", "flock:retval=0", f"{call}:signal=SIGSTOP:when={count}", to="calls"), at.program, *SAVE])
    one.type(KEY + text)
    one.until_it_stops("calls")
    os.remove("calls")
    return one


def reads_on(at):
    """A SELECT that stands still while another run is answered: it gives up its result, and no file of the other."""
    if not runs.has("strace"):
        at.tests.skip("a SELECT that stands still beside another run", "there is no strace")
        return
    at.folder()
    one = stands(at, LOOK, "pwrite64", 1)
    other = at.run(SAVE, "INSERT INTO t VALUES (3, 'of the other');\n", runs.behind_strace("flock", "flock:retval=0"))
    one.goes_on()
    last, found = one.ran(), rows_of(at)
    well = other == (INSERTED, 0, "") and last == (SHOWN, 0, "") and found == ["1", "3"]
    at.tests.say("a SELECT that stands still beside another run", well, f"{other}, {last}, {found}")


def both_stand_still(at):
    """Two runs that stand still once each has written its next mark: of these the last one lies there. What is answered is there."""
    if not runs.has("strace"):
        at.tests.skip("two runs that stand still at once", "there is no strace")
        return
    for first in ("earlier", "later"):
        at.folder()
        earlier = stands(at, MORE, "fsync", 7)
        later = stands(at, "INSERT INTO t VALUES (3, 'of the other');\n", "fsync", 7)
        in_turn = [earlier, later] if first == "earlier" else [later, earlier]
        ends = []
        for one in in_turn:
            one.goes_on()
            ends.append(one.ran()[:2])
        found, refused = rows_of(at), (["! keeper fault"], 10)
        wanted = [refused, refused] if first == "earlier" else [(INSERTED, 0), refused]
        at.tests.say(f"two runs that stand still at once, and the {first} one goes on", ends == wanted and found == ["1", "3"], f"{ends}, {found}")


# ---- what is taken away under a run
def removed_under_a_run(at):
    """The folder is taken away under a run: the statement is refused, and so is the next run."""
    at.folder()
    one, first = begun(at, SAVE, MORE)
    shutil.rmtree("s")
    one.type("INSERT INTO t VALUES (3, 'a row');\n")
    last = one.ran()
    at.ends("a folder that is taken away under a run", last, FAULT, [] if first == INSERTED else first)
    before = runs.tree(".")
    at.ends("and the run after it", at.run(SAVE, OVER), NO_STORE, changed(before, runs.tree(".")))


def without_mark(at, name, change):
    """The mark is another, or gone, under a run: that ends, and what was answered is there by its own mark."""
    at.folder()
    shutil.copy("s.mark", "copy")
    one, first = begun(at, SAVE, MORE)
    shutil.copy("s.mark", "own")
    change("s.mark")
    before = runs.tree(".")
    one.type("INSERT INTO t VALUES (3, 'a row');\n")
    last, after = one.ran(), runs.tree(".")
    vain = tuple(it for it in after if it.startswith(runs.REGION) and it not in before)
    at.ends(f"a mark that is {name} under a run", last, KEEPER, changed(before, after, vain) + ([] if first == INSERTED else first), "s.mark: ")
    if os.path.isdir("s.mark"):
        os.rmdir("s.mark")
    shutil.copy("own", "s.mark")
    found = rows_of(at)
    at.tests.say("and put back", found == ["1", "2"] and len(runs.numbered(".", runs.REGION)) == 2, found)


def mark_removed(at):
    """What others do to the mark under a run."""
    without_mark(at, "taken away", os.remove)
    without_mark(at, "that of a copy", lambda mark: shutil.copy("copy", mark))
    without_mark(at, "a folder", lambda mark: (os.remove(mark), os.mkdir(mark)))


# ---- disks
@contextlib.contextmanager
def mounted(at, name, *options):
    """A small disk in memory, in the folder in hand; or false where this machine mounts none."""
    os.mkdir("disk")
    mount = ["mount", "-t", "tmpfs", "-o", ",".join(options), "none", "disk"]
    is_there = os.geteuid() == 0 and shutil.which("mount") and subprocess.run(mount, stderr=subprocess.DEVNULL).returncode == 0
    if not is_there:
        at.tests.skip(name, "this machine doesn't mount a disk for it")
    try:
        yield is_there
    finally:
        if is_there:
            subprocess.run(["umount", "disk"], check=True)


def fill(name):
    """Fills a disk by a file."""
    handle = os.open(name, os.O_WRONLY | os.O_CREAT)
    try:
        while os.write(handle, bytes(4096)):
            pass
    except OSError:
        os.close(handle)


def full_disk(at):
    """A disk that is full, of the store and of the mark: what was answered is there once it has room again."""
    at.folder(begun=False)
    words = ["--save", "--store", "disk/s"]
    with mounted(at, "a full disk", "size=64k", "mode=0700") as is_there:
        if not is_there:
            return
        fill("disk/fill")
        at.ends("a first run on a full disk", at.run(words, MADE), KEEPER, [], "disk/s/id: No space left")
        os.remove("disk/fill")
        first = at.run(words, MADE)
        at.tests.say("and with room again", first == (MADE_LINES, 0, ""), f"{first}")
        fill("disk/fill")
        full = at.run(words, OVER)
        at.tests.say("a full disk", full == (["E03 name taken", "E15 store fault", "E15 store fault"], 1, ""), f"{full}")
        os.remove("disk/fill")
        found = rows_of(at, words), rows_of(at, words)
        at.tests.say("and the rows with room again", found == (["1"], ["1"]), found)
        elsewhere = [*SAVE, "--mark", "disk/m"]
        at.run(elsewhere, MADE)
        mark = runs.read("disk/m")
        fill("disk/fill")
        at.ends("a full disk of the mark", at.run(elsewhere, MORE), KEEPER, [] if runs.read("disk/m") == mark else ["disk/m"], "disk/m.next: No space left")
        os.remove("disk/fill")
        found = rows_of(at, elsewhere)
        at.tests.say("and the rows with room for the mark again", found == ["1"] and len(runs.numbered(".", runs.REGION)) == 2, found)


def read_only(at):
    """A disk that nobody may write: nothing is answered that isn't so, and nothing changes."""
    for words, begins in ((["--save", "--store", "disk/s"], True), (["--save", "--store", "disk/s"], False), (["--keep", "--store", "disk/s"], True), (["--store", "disk/s"], False)):
        at.folder(begun=False)
        name = f"a read-only disk, {' '.join(words)}{', with tables' if begins else ''}"
        with mounted(at, name, "size=1m", "mode=0700") as is_there:
            if not is_there:
                return
            if begins:
                at.run(words, MADE)
            before = runs.tree("disk")
            subprocess.run(["mount", "-o", "remount,ro", "disk"], check=True)
            found = at.run(words, OVER)
            at.ends(name, found, KEEPER, changed(before, runs.tree("disk")), "Read-only file system")


def without_calls(at):
    """A file system without locks, and one without a sync of folders."""
    if not runs.has("strace"):
        at.tests.skip("a file system without locks, or a sync of folders", "there is no strace")
        return
    for words in (SAVE, KEEP, ANEW):
        for error, says in (("ENOLCK", "No locks available"), ("EOPNOTSUPP", "not supported")):
            folder = at.folder(begun=words == SAVE)
            before = runs.tree(folder)
            found = at.run(words, OVER, runs.behind_strace("flock", f"flock:error={error}"))
            at.ends(f"a file system without locks, {error}, {' '.join(words)}", found, KEEPER, changed(before, runs.tree(folder), ("s.scratch",)), says)
        folder = at.folder(begun=False)
        paths = ("-P", folder, "-P", os.path.join(folder, "s"))
        without = runs.behind_strace("fsync", "fsync:error=EINVAL", more=paths)
        first = runs.run([*without, at.program, *words], KEY + MADE)
        then = rows_of(at, words) if words != ANEW else ["1"]
        at.tests.say(f"a file system without a sync of folders, {' '.join(words)}", first == (MADE_LINES, 0, "") and then == ["1"], f"{first}, {then}")


# ---- what may not be read or written
# A name; the mode that it has then, or where it is somebody else's; what is done, how that ends, and what is said of it.
DENIED = [
    ("a mark that can't be read", "s.mark", 0o000, 0o600, MORE, KEEPER, "s.mark: Permission denied"),
    ("an id that can't be read", "s/id", 0o000, 0o600, MORE, KEEPER, "s/id: Permission denied"),
    ("a lock of the mark that can't be written", "s.mark.lock", 0o400, 0o644, MORE, KEEPER, "s.mark.lock: Permission denied"),
    ("a lock in the folder that can't be written", "s/lock", 0o400, 0o644, MORE, KEEPER, "s/lock: Permission denied"),
    ("a region that can't be read", "s/r.3", 0o000, 0o600, MORE, STORE, "s/r.3: Permission denied"),
    ("a folder that can't be read", "s", 0o000, 0o700, MORE, KEEPER, "Permission denied"),
    ("a folder that can't be written", "s", 0o500, 0o755, MORE, FAULT, ""),
    ("a folder that can't be written, whose table is read", "s", 0o500, 0o755, "SELECT COUNT(*) FROM t;\n", ROWS, ""),
    ("a folder of the mark that can't be written", ".", 0o500, 0o755, MORE, KEEPER, "s.mark.next: Permission denied"),
]
NOBODY = ["setpriv", "--reuid=65534", "--regid=65534", "--clear-groups"]


def other_user(at):
    """What runs a program as somebody who isn't root, the program, and the folder of its copy; no words where that can't be."""
    if os.geteuid():
        return [], at.program, None
    own = tempfile.mkdtemp()
    os.chmod(own, 0o755)
    program = shutil.copy(at.program, os.path.join(own, "oblidb"))
    os.chmod(program, 0o755)
    is_able = shutil.which("setpriv") and subprocess.run([*NOBODY, program, "--version"], cwd=at.room, capture_output=True).returncode == 0
    return (NOBODY if is_able else None), program, own


def given_away(folder, kept=None):
    """Gives a folder and what is in it to somebody else, all except one of these names."""
    for path, folders, files in os.walk(folder):
        for it in [path, *(os.path.join(path, file) for file in files)]:
            if os.path.relpath(it, folder) != kept:
                os.chown(it, 65534, 65534)


def deny(at, behind, program, row, is_own):
    """Lets a run meet a file that it may not read or write, since its mode forbids it, or since it is somebody else's."""
    name, path, mode, of_others, text, end, says = row
    folder = at.folder()
    if behind:
        given_away(folder, None if is_own else path)
    before, was = runs.tree(folder), os.stat(path).st_mode
    os.chmod(path, mode if is_own else of_others)
    found = runs.run([*behind, program, *SAVE], KEY + text)
    os.chmod(path, was)
    after = runs.tree(folder)
    vain = tuple(it for it in after if it.startswith(runs.REGION) and it not in before) if path == "." else ()
    at.ends(f"{name}{'' if is_own else ', of somebody else'}", found, end, changed(before, after, vain), says)


def denied(at):
    """Files that may not be read or written."""
    behind, program, own = other_user(at)
    if behind is None:
        at.tests.skip("files that may not be read or written", "this machine lets nobody else run the program")
    for row in DENIED if behind is not None else ():
        for is_own in (True, False) if behind else (True,):
            deny(at, behind, program, row, is_own)
    if own:
        shutil.rmtree(own)


def main():
    tests, program = runs.Tests(), runs.program(*sys.argv[1:] or [runs.TOP / "crates"])
    os.umask(0o077)
    with runs.room() as room:
        os.chmod(room, 0o711)
        at = Slips(tests, program, None, os.path.realpath(room))
        at_once = (two_first_runs, copied_mark, other_words, two_machines, stands_still, reads_on, both_stand_still)
        tests.each((*at_once, removed_under_a_run, mark_removed, full_disk, read_only, without_calls, denied), at)
        os.chdir(runs.TOP)
    tests.end()


if __name__ == "__main__":
    main()
