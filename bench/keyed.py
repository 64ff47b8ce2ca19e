#!/usr/bin/env python3
"""Serves a million drawn statements over an index of 1,024 keys in memory: INSERT, SELECT, UPDATE and DELETE by key, of keys
that it has and some that it hasn't. Each answer is compared with what a map says. Ends with 1 at the first that differs.

usage: bench/keyed.py [STATEMENTS]     (a million without it)
Needs `rt` (bench/build.py) and python3. Takes ten minutes once the program is built.
"""
import random
import subprocess
import sys
import threading

from build import build, program
from driven import KEY, create, parser

NAME = "oblitrace"
KEYS, SEED = 1024, 1


def statement(drawn, rows):
    """A drawn statement, and the lines of its answer by the map of the rows, in which it is carried out."""
    key, value = drawn.randrange(-8, KEYS + 8), drawn.randrange(1000)
    kind = drawn.choice(("insert", "select", "update", "delete"))
    if kind == "insert":
        if key in rows:
            answer = ["E10 duplicate"]
        elif not 0 <= key < KEYS:
            answer = ["E17 key range"]
        else:
            rows[key] = value
            answer = ["= inserted"]
        return f"INSERT INTO t VALUES ({key}, {value});", answer
    if kind == "select":
        found = [f'"{key}","{rows[key]}"'] if key in rows else []
        return f"SELECT * FROM t WHERE id = {key};", ['"id","v"', *found, f"= {len(found)} rows"]
    changed = int(key in rows)
    if kind == "update":
        if changed:
            rows[key] = value
        return f"UPDATE t SET v = {value} WHERE id = {key};", [f"= {changed} updated"]
    rows.pop(key, None)
    return f"DELETE FROM t WHERE id = {key};", [f"= {changed} deleted"]


def lines(count):
    """The lines of the input, with so many drawn statements, and those of the answer to each."""
    drawn, rows = random.Random(SEED), {}
    first = [(KEY.rstrip("\n"), []), (create("t", KEYS, " INDEXED"), ["= created"])]
    return first + [statement(drawn, rows) for _ in range(count)]


def compare(texts):
    """Serves texts, and ends where one is answered otherwise than it stands beside it."""
    command = [program(NAME), "--buffer", "158", "--stash", "89"]
    child = subprocess.Popen(command, stdin=subprocess.PIPE, stdout=subprocess.PIPE, text=True)

    def feed():
        for text, _ in texts:
            child.stdin.write(text + "\n")
        child.stdin.close()

    threading.Thread(target=feed, daemon=True).start()
    for number, (text, answer) in enumerate(texts):
        said = [child.stdout.readline().rstrip("\n") for _ in answer]
        if said != answer:
            sys.exit(f"statement {number}, {text}: {said} in place of {answer}")
    refused = any(answer and answer[-1][0] == "E" for _, answer in texts)
    if child.stdout.read() or child.wait() != int(refused):
        sys.exit(f"the program ended with status {child.wait()}")


def main():
    words = parser(__doc__)
    words.add_argument("statements", metavar="STATEMENTS", nargs="?", type=int, default=1_000_000, help="how many are drawn")
    count = words.parse_args().statements
    build(NAME)
    compare(lines(count))
    print(f"{count:,} statements are answered what a map answers")


if __name__ == "__main__":
    main()
