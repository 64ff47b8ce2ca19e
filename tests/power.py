#!/usr/bin/env python3
"""Builds what a power cut may leave of the program's files, and looks whether the next run goes on from there.

What runs with --save ask of the file system is recorded (strace). At each moment of it the power may go: then of what was
written to a file since its last sync each write is there, gone, torn or zeros, each by itself, and of the names that were
made, moved or taken away in a folder since that folder's last sync each is so or not, in the mark's folder and the store's
apart. A killed process changes nothing of that: the next run sees what the disk may not have yet. From each state the next
run has to answer as one run over the texts that were answered, or over one text more (with its batch) of each run, to save
more, and to leave no file that nothing needs.

usage: tests/power.py [PROGRAMS] [--states N] [--seed S] [--only WORKLOAD]
Needs the program in PROGRAMS (crates/ without it; `bench/build.py oblidb` builds it there), python3 and strace. Tries N states
of each workload, 500 without the word, drawn behind S: some two minutes on four processors.
"""
import argparse
import collections
import concurrent.futures
import hashlib
import os
import random
import re
import shutil
import subprocess
import sys

import runs
import workloads

CALLS = (
    "open openat creat close mkdir mkdirat write writev pwrite64 pwritev pwritev2 lseek truncate ftruncate fallocate fsync fdatasync sync "
    "syncfs rename renameat renameat2 unlink unlinkat rmdir link linkat symlink symlinkat copy_file_range sendfile dup dup2 dup3"
).split()
CALL = re.compile(r"(\w+)\((.*)\) += ([0-9]+)")
FILE, FOLDER, LINK = "file", "folder", "link"
# What lies under a number: what it is, what the disk has of it for sure, and what was done to it since.
Node = collections.namedtuple("Node", "kind kept since", defaults=((),))
Write = collections.namedtuple("Write", "at data")
Cut = collections.namedtuple("Cut", "size")
Names = collections.namedtuple("Names", "changes")
# A moment: all nodes, what was answered by then, and of which run.
Moment = collections.namedtuple("Moment", "nodes said run before")
ROOT, DISK, SAFE = 0, 1, 2
# So many states of each workload where nothing else is said, and of all of them together at least.
MANY, ENOUGH = 500, 2000
THERE, GONE, TORN, ZEROS = "there", "gone", "torn", "zeros"


def written(content, change, how):
    """What a file holds after a change that is there so far."""
    if how == GONE:
        return content
    if isinstance(change, Cut):
        return content[: change.size].ljust(change.size, b"\0")
    data = change.data[: len(change.data) // 2] if how == TORN else bytes(len(change.data)) if how == ZEROS else change.data
    content = content.ljust(change.at, b"\0")
    return content[: change.at] + data + content[change.at + len(data) :]


def named(names, change, how):
    """The names of a folder after a change that is so, or not."""
    if how == GONE:
        return names
    kept = {name: node for name, node in names if name not in change.changes}
    kept.update({name: node for name, node in change.changes.items() if node is not None})
    return tuple(sorted(kept.items()))


def settled(node, how=lambda place: THERE):
    """What a node holds where each change since its last sync is there as this says."""
    held = node.kept
    for place, change in enumerate(node.since):
        held = (named if node.kind == FOLDER else written)(held, change, how(place))
    return held


class Disk:
    """The files below a folder, as calls leave them."""

    def __init__(self, has_link):
        self.nodes = {ROOT: Node(FOLDER, (("disk", DISK), ("safe", SAFE))), DISK: Node(FOLDER, ()), SAFE: Node(FOLDER, ())}
        self.open = {}
        if has_link:
            self.nodes[DISK] = Node(FOLDER, ((runs.MARK_FILE, 3),))
            self.nodes[3] = Node(LINK, "../safe/m")

    def change(self, node, change):
        held = self.nodes[node]
        self.nodes[node] = held._replace(since=(*held.since, change))

    def make(self, kind):
        self.nodes[len(self.nodes)] = Node(kind, () if kind == FOLDER else b"")
        return len(self.nodes) - 1

    def find(self, path):
        """The folder of a path, its last name, and what lies there: nothing that isn't below this folder."""
        if path.startswith("/"):
            return None, "", None
        way, name = [], ""
        for name in path.split("/"):
            if name == "..":
                way.pop()
            elif name not in ("", "."):
                way.append(name)
        at, folder = ROOT, None
        for name in way:
            folder, at = at, None if at is None else dict(settled(self.nodes[at])).get(name)
        return folder, way[-1] if way else "", at

    def opened(self, path, flags):
        folder, name, node = self.find(path)
        if node is None and folder is not None and "O_CREAT" in flags:
            node = self.make(FILE)
            self.change(folder, Names({name: node}))
        elif node is not None and "O_TRUNC" in flags:
            self.change(node, Cut(0))
        return [node, 0]

    def put(self, handle, data, at=None):
        node, place = self.open[handle]
        if node is not None:
            self.change(node, Write(place if at is None else at, data))
            self.open[handle][1] += len(data) if at is None else 0

    def sync(self, handle):
        node = self.open[handle][0]
        if node is not None:
            self.nodes[node] = self.nodes[node]._replace(kept=settled(self.nodes[node]), since=())

    def move(self, path, to):
        (folder, name, node), (into, other, _) = self.find(path), self.find(to)
        if folder == into:
            self.change(folder, Names({name: None, other: node}))
        else:
            self.change(folder, Names({name: None}))
            self.change(into, Names({other: node}))

    def call(self, name, words, result):
        """Does what a call did that went well, and gives what it wrote to standard output."""
        handle = int(words[0]) if words[0].isdigit() else None
        texts = [bytes.fromhex(word[1:-1].replace("\\x", "")) for word in words if word.startswith('"')]
        if name in ("open", "openat", "creat"):
            self.open[result] = self.opened(texts[0].decode(), words[2 if name == "openat" else 1])
        elif name == "close":
            self.open.pop(handle, None)
        elif name in ("write", "pwrite64"):
            if handle == 1:
                return texts[0][:result]
            if handle in self.open:
                self.put(handle, texts[0][:result], int(words[3]) if name == "pwrite64" else None)
        elif name in ("fsync", "fdatasync"):
            self.sync(handle)
        elif name in ("rename", "renameat", "renameat2"):
            self.move(*(text.decode() for text in texts))
        else:
            self.other_call(name, words, result, handle, texts)
        return b""

    def other_call(self, name, words, result, handle, texts):
        if name == "lseek":
            if handle in self.open:
                self.open[handle][1] = result
        elif name == "ftruncate":
            self.change(self.open[handle][0], Cut(int(words[1])))
        elif name in ("mkdir", "mkdirat"):
            folder, last, _ = self.find(texts[0].decode())
            self.change(folder, Names({last: self.make(FOLDER)}))
        elif name in ("unlink", "unlinkat", "rmdir"):
            folder, last, _ = self.find(texts[0].decode())
            self.change(folder, Names({last: None}))
        else:
            sys.exit(f"this call isn't known: {name}({', '.join(words)})")


def command(program, workload, run):
    """The words of a run of a workload, over the files below the folder in which it is run."""
    place = ["--mark", "safe/m"] if workload.place == "elsewhere" else []
    return [program, *run.words, "--store", "disk/s", *place]


def recorded(program, workload, variant, folder):
    """The moments of these runs, one after the other, from the one on that is hindered; or none where that wasn't."""
    for name in ("disk", "safe"):
        os.makedirs(os.path.join(folder, name))
    if workload.place == "link":
        os.symlink("../safe/m", os.path.join(folder, "disk", runs.MARK_FILE))
    disk, moments, before = Disk(workload.place == "link"), [], frozenset({()})
    counts = not any(run.hindered for run in variant)
    for run in variant:
        trace = f"{folder}.trace"
        more = ("-xx", "-s", "1000000", "--signal=none")
        inject = [run.hindered] if run.hindered else []
        traced = [word for word in runs.behind_strace(",".join(f"?{it}" for it in CALLS), *inject, to=trace, more=more) if word != "-f"]
        ran = runs.run([*traced, *command(program, workload, run)], runs.KEY + "\n".join(run.texts) + "\n", folder)
        text, said = runs.read(trace).decode(), b""
        counts = counts or run.hindered is not None
        if run.hindered and "INJECTED" not in text and ran.status >= 0:
            return []
        disk.open = {}
        for line in text.splitlines():
            if found := CALL.match(line):
                said += disk.call(found[1], found[2].split(", "), int(found[3]))
                if counts and (not moments or (moments[-1].nodes, moments[-1].said) != (disk.nodes, said)):
                    moments.append(Moment(dict(disk.nodes), said, run, before))
        answers, _ = workloads.split_answers(ran.lines)
        before = frozenset(workloads.possible(before, run.texts, workloads.most_of(run.words), answers))
        if not before or laid_out(disk.nodes, folder) is False:
            sys.exit(f"{workload.name}: the run answered {ran.lines}, or what was recorded isn't what lies there")
    return moments


def laid_out(nodes, folder):
    """Whether what lies in a folder is what the record says."""
    found = {}

    def walk(node, path):
        held = settled(nodes[node])
        if nodes[node].kind == FOLDER:
            for name, below in held:
                walk(below, os.path.join(path, name))
        else:
            found[path] = held

    walk(ROOT, "")
    there = {path: what for path, (mode, what) in runs.tree(folder).items() if what is not None}
    return found == there


def choices(nodes, drawn):
    """What may be there of the changes since the last syncs, each as what becomes of a change that is named, and of all others."""
    places = [(node, place) for node in nodes for place in range(len(nodes[node].since))]
    names = [it for it in places if nodes[it[0]].kind == FOLDER]
    writes = [it for it in places if nodes[it[0]].kind == FILE]
    yield {}, THERE
    yield {}, GONE
    for it in places:
        yield {it: THERE}, GONE
        for how in (GONE, TORN, ZEROS) if it in writes else (GONE,):
            yield {it: how}, THERE
    for how in (GONE, TORN, ZEROS):
        yield dict.fromkeys(writes, how), THERE
    for folder in {node for node, _ in names}:
        own = [it for it in names if it[0] == folder]
        yield dict.fromkeys(own, GONE), THERE
        yield dict.fromkeys([it for it in names if it not in own], GONE), THERE
    for _ in range(8):
        ways = {it: drawn.choice((THERE, GONE)) for it in names}
        ways.update({it: drawn.choice((THERE, THERE, GONE, TORN, ZEROS)) for it in writes})
        yield ways, THERE


def left(moment, ways, rest):
    """What the disk has then: each path below the folder, with what lies there."""
    found = {}

    def walk(node, path):
        held = settled(moment.nodes[node], lambda place: ways.get((node, place), rest))
        kind = moment.nodes[node].kind
        found[path] = (kind, None if kind == FOLDER else held)
        if kind == FOLDER:
            for name, below in held:
                walk(below, os.path.join(path, name))

    walk(ROOT, "")
    return found


def lay_out(state, folder):
    """Makes a folder of a state."""
    for path, (kind, held) in state.items():
        whole = os.path.join(folder, path)
        if kind == FOLDER:
            os.makedirs(whole, exist_ok=True)
        elif kind == LINK:
            os.symlink(held, whole)
        else:
            runs.put(whole, held)


def may_have(moment):
    """The tables that may be there after this moment."""
    whole = moment.said.decode(errors="replace").rpartition("\n")[0].splitlines()
    answers, _ = workloads.split_answers(whole)
    return workloads.possible(moment.before, moment.run.texts, workloads.most_of(moment.run.words), answers)


def goes_on(program, workload, state, moment, folder):
    """What is wrong with the runs that go on from a state, if anything is."""
    lay_out(state, folder)
    look = [*workloads.select(*workloads.names_of(workload))]
    more = [workloads.create("next"), *workloads.insert("next", (1, 11))]
    again = [*look, *workloads.select("next")]
    may, words = may_have(moment), command(program, workload, moment.run)
    for texts in ([*look, *more], again):
        ran = runs.run(words, runs.KEY + "\n".join(texts) + "\n", folder)
        answers, stop = workloads.split_answers(ran.lines)
        behind = [workloads.served(tables, texts) for tables in may]
        may = [after[-1] for lines, after in behind if lines == answers]
        if not may or stop or ran.status not in (0, 1):
            return f"answered {ran.lines}, status {ran.status} {ran.said}"
    regions = runs.numbered(os.path.join(folder, "disk"), runs.REGION)
    return None if len(regions) == len(may[0]) + 1 else f"regions {regions} are left for {len(may[0])} tables"


def told(moment, ways, rest):
    """A state in words: which changes aren't there."""
    parts = [f"all else {rest}"]
    for (node, place), how in ways.items():
        change = moment.nodes[node].since[place]
        parts.append(f"{how} {change.changes if isinstance(change, Names) else (type(change).__name__, node, place)}")
    return ", ".join(parts)


def in_any_order(choices, drawn):
    """The same, drawn one after the other."""
    every = list(choices)
    drawn.shuffle(every)
    yield from every


def states_of(moments, drawn, most):
    """So many different states that the disk may have been left in, drawn from all moments."""
    found, seen = [], set()
    every = list(enumerate(moments))
    drawn.shuffle(every)
    waiting = collections.deque((at, moment, in_any_order(choices(moment.nodes, drawn), drawn)) for at, moment in every)
    while waiting and len(found) < most:
        at, moment, more = waiting.popleft()
        for ways, rest in more:
            state = left(moment, ways, rest)
            key = hashlib.sha256(repr((sorted(state.items()), sorted(may_have(moment)))).encode()).digest()
            if key not in seen:
                seen.add(key)
                found.append((at, moment, ways, rest, state))
                waiting.append((at, moment, more))
                break
    return found


def try_workload(tests, program, workload, words, folder):
    """Tries states of a workload, and says how many there were, and what was wrong."""
    moments, drawn = [], random.Random(f"{words.seed} {workload.name}")
    for place, variant in enumerate(workload.variants):
        moments += recorded(program, workload, variant, os.path.join(folder, f"{place}"))
    found = states_of(moments, drawn, words.states)

    def one(numbered):
        place, (at, moment, ways, rest, state) = numbered
        own = os.path.join(folder, f"state{place}")
        wrong = goes_on(program, workload, state, moment, own)
        shutil.rmtree(own)
        return f"behind call {at}, {told(moment, ways, rest)}: {wrong}" if wrong else None

    with concurrent.futures.ThreadPoolExecutor(os.cpu_count()) as pool:
        wrong = [it for it in pool.map(one, enumerate(found)) if it]
    name = f"{workload.name}, {len(moments)} moments, {len(found)} states, {len(wrong)} bad"
    tests.say(name, found and not wrong, "\n  ".join(["", *wrong[:4]]))
    return len(found)


def main():
    reader = argparse.ArgumentParser(description="what a power cut may leave")
    reader.add_argument("programs", nargs="?", default=runs.TOP / "crates")
    reader.add_argument("--states", type=int, default=MANY)
    reader.add_argument("--seed", default="0")
    reader.add_argument("--only")
    words = reader.parse_args()
    tests, program, count = runs.Tests(), runs.program(words.programs), 0
    os.umask(0o077)
    if not runs.has("strace"):
        tests.skip("what a power cut may leave", "strace isn't there, or mayn't look at other processes")
        tests.end()
    for workload in workloads.WORKLOADS:
        if words.only in (None, workload.name):
            with runs.room() as folder:
                count += try_workload(tests, program, workload, words, folder)
    if words.only is None and words.states >= MANY:
        tests.say(f"{count} states of {len(workloads.WORKLOADS)} workloads", count >= ENOUGH and len(workloads.WORKLOADS) >= 10, "too few")
    tests.end()


if __name__ == "__main__":
    main()
