#!/usr/bin/env python3
"""Draws docs/traces.svg: which blocks two sessions ask for, over time, and which pages SQLite asks for in the same two.
The sessions have the same statements and other keys and values. Then the same of two that look for rows by their values and
find other numbers of them, with results that are padded (`--pad`). Needs strace, and the program of crates/oblitrace
(bench/build.py oblitrace builds it). Takes twenty seconds.

usage: gen/traces.py [PATH-OF-oblitrace]
"""
import pathlib
import random
import re
import subprocess
import sys
import tempfile

TOP = pathlib.Path(__file__).resolve().parent.parent
PROGRAM = sys.argv[1] if len(sys.argv) > 1 else TOP / "crates/oblitrace/out/oblitrace"
SLOTS, ROWS, LOOKS, PAD = 48, 40, 16, 12
WIDTH, HEIGHT, GAP, TITLE = 430, 150, 40, 26


def filled(chance):
    """The table, its rows, their keys and their costs."""
    keys, costs = chance.sample(range(1, 100000), ROWS), chance.sample(range(1000), ROWS)
    texts = ["CREATE TABLE visits (id INT PRIMARY KEY, cost INT, note VARCHAR(80)) CAPACITY %d;" % SLOTS]
    texts += ["INSERT INTO visits VALUES (%d, %d, '%s');" % (key, cost, "x" * chance.randrange(20, 80)) for key, cost in zip(keys, costs)]
    return texts, keys, sorted(costs)


def found(seed):
    """A session: rows go in, and the dearest ones are looked for, none of them up to as many as results are padded to."""
    chance = random.Random(seed)
    texts, _, costs = filled(chance)
    return texts + ["SELECT * FROM visits WHERE cost > %d;" % costs[-1 - chance.randrange(PAD + 1)] for _ in range(LOOKS)]


def statements(seed):
    """A session: rows go in, some are changed, and others are looked for, each by its key."""
    chance = random.Random(seed)
    texts, keys, _ = filled(chance)
    texts += ["UPDATE visits SET cost = %d WHERE id = %d;" % (chance.randrange(1000), chance.choice(keys)) for _ in range(LOOKS)]
    texts += ["SELECT COUNT(*), SUM(cost) FROM visits WHERE id = %d;" % chance.choice(keys) for _ in range(LOOKS)]
    return texts


def ours(texts, *words):
    """The reads and writes of our program: the kind and the place of each."""
    ran = subprocess.run([PROGRAM, "--trace", *words], input="0" * 64 + "\n" + "\n".join(texts), capture_output=True, text=True, check=True)
    asked = [line.split() for line in ran.stderr.splitlines()]
    return [(kind, int(rest[1])) for kind, *rest in asked if kind in "RW"]


def theirs(texts):
    """The same of SQLite, by the pages of its file: each statement in a connection of its own, without a journal."""
    with tempfile.TemporaryDirectory() as folder:
        script = "import sqlite3\nfor text in %r:\n    c = sqlite3.connect(%r, isolation_level=None)\n    c.execute('PRAGMA page_size = 512')\n    c.execute('PRAGMA journal_mode = OFF')\n    c.execute('PRAGMA synchronous = OFF')\n    c.execute(text).fetchall()\n    c.close()\n"
        texts = [re.sub(r"INT PRIMARY KEY", "INTEGER PRIMARY KEY", re.sub(r"VARCHAR\(80\)", "TEXT", re.sub(r" CAPACITY \d+", "", text))) for text in texts]
        log = folder + "/log"
        subprocess.run(["strace", "-f", "-y", "-e", "trace=pread64,pwrite64", "-o", log, sys.executable, "-c", script % (texts, folder + "/db")], check=True)
        found = re.findall(r"p(read|write)64\(\d+<[^>]*/db>.*, (\d+), (\d+)\) = (\d+)", open(log).read())
    # (a page whole: the head of the file is read by itself, too)
    return [("R" if kind == "read" else "W", int(at) // 512) for kind, size, at, _ in found if int(size) == 512]


def picture(asked, left, top, title):
    """The accesses as dots: time goes to the right, places go down."""
    most = max(place for _, place in asked) + 1
    lines = ['<text x="%d" y="%d" class="t">%s</text>' % (left, top - 8, title), '<rect x="%d" y="%d" width="%d" height="%d" class="f"/>' % (left, top, WIDTH, HEIGHT)]
    for kind, style in (("R", "r"), ("W", "w")):
        dots = {}
        for i, (asks, place) in enumerate(asked):
            if asks == kind:
                x, y = left + WIDTH * i // len(asked), top + 2 + (HEIGHT - 4) * place // most
                dots.setdefault(x, set()).add(y)
        path = "".join("M%d %dh1" % (x, y) for x in sorted(dots) for y in sorted(dots[x]))
        lines.append('<path d="%s" class="%s"/>' % (path, style))
    return lines


def main():
    sessions = [statements(1), statements(2), found(3), found(4)]
    words = [(), (), ("--pad", str(PAD)), ("--pad", str(PAD))]
    mine, other = [ours(texts, *more) for texts, more in zip(sessions, words)], [theirs(texts) for texts in sessions]
    if mine[0] != mine[1] or mine[2] != mine[3]:
        sys.exit("two sessions asked for other blocks")
    drawn = []
    names = ("one session", "other keys and values", "rows by their values", "other rows, and other numbers of them")
    for i, name in enumerate(names):
        top = TITLE + i * (HEIGHT + GAP)
        drawn += picture(mine[i], 10, top, "Ribquince, %s%s: %d blocks" % (name, ", padded" if words[i] else "", len(mine[i])))
        drawn += picture(other[i], 30 + WIDTH, top, "SQLite, %s: %d pages" % (name, len(other[i])))
    style = ".t{font:12px sans-serif}.f{fill:none;stroke:#999}.r{stroke:#1f77b4;stroke-width:2}.w{stroke:#d62728;stroke-width:2}"
    size = (40 + 2 * WIDTH, TITLE + len(sessions) * (HEIGHT + GAP) - GAP + 12)
    with open(TOP / "docs/traces.svg", "w") as file:
        file.write('<svg xmlns="http://www.w3.org/2000/svg" width="%d" height="%d" viewBox="0 0 %d %d">\n<style>%s</style>\n<rect width="100%%" height="100%%" fill="#fff"/>\n' % (*size, *size, style))
        file.write("\n".join(drawn) + "\n</svg>\n")
    alike = [other[n] == other[n + 1] for n in (0, 2)]
    print("docs/traces.svg: of both pairs ours are one picture, and SQLite's are two" + ("" if not any(alike) else ", but not of each"))


main()
