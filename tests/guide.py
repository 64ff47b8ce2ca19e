#!/usr/bin/env python3
"""Types the commands of docs/GUIDE.md one after the other, as they stand in its boxes, and compares what each prints with the
lines below it; the first session's answers, which stand in a box of their own, too. What the guide shows by `cat` that isn't
there yet is written first, and the folders that it names are some of this script's. Prints a line for each command, and ends
with 1 where one prints something else.

usage: tests/guide.py [PROGRAMS]
Needs the programs oblidb and oblitrace in PROGRAMS (crates/ without it; `bench/build.py oblidb oblitrace` builds them there) and
python3. Takes a second.
"""
import os
import pathlib
import re
import subprocess
import sys

import runs


class Guide:
    """The guide's commands, which are typed in a folder of their own."""

    def __init__(self, tests, programs, room):
        self.tests, self.room, self.status = tests, pathlib.Path(room), 0
        self.places = {"/mnt/rented": self.room / "rented", "/home/me": self.room / "me"}
        for place in self.places.values():
            place.mkdir()
        (self.room / "examples").symlink_to(runs.TOP / "examples")
        for name in ("oblidb", "oblitrace"):
            built = self.room / "crates" / name / "out"
            built.mkdir(parents=True)
            (built / name).symlink_to(runs.program(programs, name))

    def typed(self, command):
        """What a command prints, and its status, where its places are this script's."""
        for place, here in self.places.items():
            command = command.replace(place, str(here))
        ran = subprocess.run(command, shell=True, cwd=self.room, stdout=subprocess.PIPE, text=True, timeout=runs.LONGEST)
        return ran.stdout, ran.returncode

    def compared(self, command, wanted):
        """Types a command, and compares what it prints."""
        shown = re.fullmatch(r"cat ([a-z]+\.sql)", command)
        if shown and not (self.room / shown[1]).exists():
            (self.room / shown[1]).write_text(wanted)
        printed, self.status = (f"{self.status}\n", 0) if command == "echo $?" else self.typed(command)
        alike = printed == wanted or command.startswith("mv ") or not wanted and command.endswith("examples/first.sql")
        self.tests.say(command, alike, repr(printed))


def main():
    tests = runs.Tests()
    os.umask(0o077)
    boxes = re.findall(r"^```\n(.*?)^```$", (runs.TOP / "docs/GUIDE.md").read_text(), re.S | re.M)
    first = (runs.TOP / "examples/first.sql").read_text()
    tests.say("the box with examples/first.sql", first in boxes, "it isn't there")
    with runs.room() as room:
        guide = Guide(tests, sys.argv[1] if sys.argv[1:] else runs.TOP / "crates", room)
        answers = boxes[boxes.index(first) + 1] if first in boxes else ""
        guide.compared("crates/oblitrace/out/oblitrace < examples/first.sql", answers)
        for box in boxes:
            for command, wanted in re.findall(r"^\$ (.*)\n((?:(?!\$ ).*\n)*)", box, re.M):
                guide.compared(command, wanted)
    tests.end()


if __name__ == "__main__":
    main()
