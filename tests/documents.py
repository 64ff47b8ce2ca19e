#!/usr/bin/env python3
"""Compares the documents with what the programs say of themselves, and with one another.

`--help` of each program with the tables of words of the guide and of the specification: the words, the names of their values,
what values they may have, what holds without them, and which program has them. The words that README and the guide use, and
their values. The kit's line of README, and the form of a store's files, with `--version`. The guide's table of statuses and last
lines with how runs end, with the specification's, and with its own table of what a run finds; and the codes of refusals.

usage: tests/documents.py [PROGRAMS]
Needs the programs oblidb and oblitrace in PROGRAMS (crates/ without it; `bench/build.py oblidb oblitrace` builds them there) and
python3. Takes a second.
"""
import collections
import os
import re
import subprocess
import sys

import runs
import slips
from runs import KEY

GUIDE, SPECIFICATION, README = "docs/GUIDE.md", "docs/SPECIFICATION.md", "README.md"
WORDS = {GUIDE: "| Word | Value | Without it |", SPECIFICATION: "| Word | Value |"}
NAMES = ("oblidb", "oblitrace")
# What is said of a word: the name of its value, what values it may have, what holds without it, and which programs have it.
Word = collections.namedtuple("Word", "value values without programs")
# Lines that the specification leaves to the guide.
LEFT = {4, 5, 8}


def text_of(document):
    """The text of a document."""
    return (runs.TOP / document).read_text()


def plain(text):
    """A text whose numbers have no commas, and whose names no quotes."""
    return re.sub(r"(?<=[0-9]),(?=[0-9]{3})", "", text).replace("`", "")


def values_in(text, names=()):
    """What a text says that a value may be: ranges and limits, and those names that it has in quotes."""
    found = re.findall(r"[0-9]+ to [0-9^]+ - 1|[0-9]+ to [0-9]+|below 2\^[0-9]+|3R \+ 1", plain(text))
    return sorted(["below 2^64" if it == "0 to 2^64 - 1" else it for it in found] + [it for it in names if f"`{it}`" in text])


# ---- words
def said_by(program, name):
    """The words that `--help` of a program prints, except those that every program has."""
    text, found = "\n".join(runs.run([program, "--help"], "").lines), {}
    for word, value, says in re.findall(r"(?m)^ +(?:-\w, )?--([a-z-]+)(?: <([^>]+)>)? +(.*(?:\n {10,}\S.*)*)$", text):
        values, _, without = " ".join(says.split()).partition(" [default: ")
        names = re.findall("[a-z]+", values.replace(" or ", " ")) if re.fullmatch("[a-z]+(, [a-z]+)* or [a-z]+", values) else []
        found[word] = Word(value, sorted(names) or values_in(values), without.removesuffix("]"), (name,))
    return {word: said for word, said in found.items() if word not in ("help", "version")}


def helped(tests, programs):
    """The words of all programs."""
    found = {}
    for name, program in programs.items():
        for word, said in said_by(program, name).items():
            before = found.get(word, said._replace(programs=()))
            tests.say(f"{name} --help, --{word}", before[:3] == said[:3], f"{said}, and of another program {before}")
            found[word] = said._replace(programs=(*before.programs, name))
    return found


def rows_of(document, heading):
    """The rows of a document's table that has these names of columns, without the spaces around its cells."""
    rows = []
    for line in text_of(document).partition(f"\n{heading}\n")[2].splitlines()[1:]:
        if not line.startswith("| "):
            break
        rows.append([cell.strip() for cell in line.split("|")[1:-1]])
    return rows


def words_in(document):
    """The words of a document's table, each with the name of its value and what is said of it."""
    found = {}
    for first, *rest in rows_of(document, WORDS[document]):
        word, _, value = first.strip("`").removeprefix("--").partition(" ")
        found[word] = (value, rest[0], rest[-1])
    return found


def same_words(tests, words, document):
    """Compares a document's table of words with what the programs say."""
    listed, guide = words_in(document), words_in(GUIDE)
    tests.say(f"the words of {document}", set(listed) == set(words), f"{sorted(set(listed) ^ set(words))}")
    for name in sorted(set(listed) & set(words)):
        said, (value, text, without) = words[name], listed[name]
        names = [it for it in said.values if it.isalpha()]
        values = values_in(text, names)
        has = tuple(it for it in NAMES if f"`{it}` alone" in text) or NAMES
        if document == GUIDE:
            fits = plain(without) == said.without if value else said.without == ""
        else:
            found, is_value = re.search(r"; (\S+) without it", plain(text)), re.fullmatch("[0-9,]+|`[a-z-]+`", guide[name][2] if name in guide else "")
            fits = (found and found[1]) == (said.without if is_value else None)
        tests.say(f"{document}, --{name}: its value, {value or 'none'}", value == said.value, said)
        tests.say(f"{document}, --{name}: what that may be, {said.values or 'anything'}", values == said.values, values)
        tests.say(f"{document}, --{name}: which programs have it", has == said.programs, f"{has}, and --help says {said.programs}")
        tests.say(f"{document}, --{name}: without it", fits, f"{without!r}, and --help says {said.without!r}")


def used_words(tests, words):
    """The words that README and the guide use are some of these, and their values some that these may have."""
    for document in (README, GUIDE):
        spans = re.findall(r"(?s)```.*?```|`[^`]+`", text_of(document))
        uses = [use for span in spans for use in re.findall(r"(?<![\w-])--([a-z][a-z-]*)(?:[ =]([A-Za-z0-9.,:/_-]+))?", span)]
        strange = [use for use in uses if use[0] not in (*words, "help", "version") or not may_have(words.get(use[0]), use[1])]
        tests.say(f"the words that {document} uses", len(uses) > 3 and not strange, strange)


def may_have(said, value):
    """Whether a word may have this value, as far as that is a number or a plan."""
    if said is None or not said.value or value in ("", said.value):
        return True
    if said.values and said.values[0].isalpha():
        return value in said.values
    ranges = [tuple(map(int, it.split(" to "))) for it in said.values if " to " in it]
    numbers = [int(it) for it in value.split(",") if it.isdigit()]
    return not ranges or not numbers or any(least <= it <= most for least, most in ranges for it in numbers)


def versions(tests, programs):
    """The kit's line and the form of a store's files."""
    lines = {name: runs.run([program, "--version"], "") for name, program in programs.items()}
    found = {name: re.fullmatch(r"(\w+) [0-9.]+, of (rattle-kit-\S+ logic [0-9a-f]+), for files of form (ribquince [0-9]+)", "\n".join(ran.lines)) for name, ran in lines.items()}
    tests.say("--version", all(it and it[1] == name and lines[name][1:] == (0, "") for name, it in found.items()), lines)
    kits, forms = ({it[part] for it in found.values() if it} for part in (2, 3))
    in_readme = set(re.findall(r"rattle-kit-\S+ logic [0-9a-f]+", text_of(README)))
    tests.say("the kit's line of README and of --version", in_readme == kits, f"{in_readme}, {kits}")
    in_specification = {f"ribquince {it}" for it in re.findall(r"`ribquince ([0-9]+) ID`", text_of(SPECIFICATION))}
    with runs.room() as room:
        runs.run([programs["oblidb"], *slips.SAVE], KEY + slips.MADE, room)
        made = (runs.text_of(room, runs.ID) or "").rpartition(" ")[0]
    tests.say("the form of a store's files, of --version and in a store", forms == in_specification == {made}, f"{forms}, {in_specification}, {made}")


def helps(tests, programs):
    """`--help` and `--version`, alone and among other words, make nothing, and end well where they can be written."""
    for name, program in programs.items():
        for words in (["--help"], ["-h"], ["--version"], ["-V"], ["--buffer", "8", "--help"], ["--help", "--none"]):
            with runs.room() as room:
                ran = runs.run([program, *words], "", room)
                tests.say(f"{name} {' '.join(words)}", ran.status == 0 and ran.lines and ran.said == "" and os.listdir(room) == [], ran)
        for words, streams, status in ((["--help"], ">&-", 6), (["--version"], "> /dev/full", 6), (["--help"], "<&- 2>&-", 0)):
            tests.say(f"{name} {words[0]} {streams}", slips.closed(program, words, streams)[0] == status, "another status")


# ---- statuses
def status_table():
    """The statuses of the guide, each with the first words of each last line that it has."""
    found = set()
    for status, _, lines in rows_of(GUIDE, "| Status | When | Last line |"):
        found |= {(int(status), " ".join(re.findall("[a-z]+|!", line))) for line in re.findall(r"`(! [a-z ]+)", lines)} or {(int(status), None)}
    return found


def ends(programs):
    """How runs end that nobody's files have a part in: the statuses, with their last lines."""
    tracer, small = programs["oblitrace"], "CREATE TABLE t (id INT PRIMARY KEY) CAPACITY {}{};\n"
    indexed = small.format(256, " INDEXED") + "".join(f"INSERT INTO t VALUES ({n});\n" for n in range(256))
    counted = small.format(4, "") + "SELECT COUNT(*) FROM t;\n"
    ran = [
        runs.run([tracer, *words], KEY + text, limited=limited) for words, text, limited in (
            ([], small.format(4, ""), None), ([], "SELEC;\n", None), (["--meddle", "600:fail"], indexed, None), (["--meddle", "6:flip:1.0.0"], counted, None),
            (["--buffer", "65536"], counted, runs.limits(space=1 << 25)), (["--max-input", "1024"], indexed, None), (["--stash", "1"], indexed, None),
        )
    ]
    closed = [slips.closed(tracer, [], streams) for streams in ("<&-", ">&-")]
    last = [(it.status, it.lines[-1] if it.lines[-1:] and it.lines[-1].startswith("!") else None) for it in ran]
    last += [(status, out.decode().rstrip() or None) for status, out, _ in closed]
    return {(status, line and " ".join(re.findall("[a-z]+|!", line))) for status, line in last}


def statuses(tests, programs):
    """The guide's table of statuses, with how runs end, and with the specification's."""
    listed = status_table()
    by_slips = {slip.end for slip in [*slips.WORDS, *slips.FOLDERS, *slips.MARKS, *slips.REGIONS, *slips.SCRATCH]}
    by_slips = {(status, line) for status, line in by_slips if line.startswith("!")}
    found = ends(programs) | by_slips
    tests.say("the guide's statuses are those of runs", listed == found, f"{sorted(listed ^ found, key=str)}")
    pairs = {(int(status), line) for status, line in re.findall(r"\b([0-9]+)(?:,| and) `(! [a-z ]+)", text_of(SPECIFICATION))}
    tests.say("the specification's statuses are the guide's", pairs and pairs <= listed, f"{pairs - listed}")
    lacking = {(status, line) for status, line in listed - pairs if line and status not in LEFT}
    tests.say("and it has those of them that it doesn't leave to the guide", not lacking, f"{lacking}")
    finds = {(int(status), line) for _, cell, _ in rows_of(GUIDE, "| A run finds | Status and line | What it is |") for status, line in re.findall(r"([0-9]+), `(! [a-z ]+?) ?(?:[A-Z]|`)", cell)}
    tests.say("what a run finds, by the guide, ends so", len(finds) > 8 and finds <= listed, f"{finds - listed}")
    codes = [re.findall(r"(?m)^\| `?(E[0-9]{2})\b", text_of(document)) for document in (GUIDE, SPECIFICATION)]
    tests.say("the codes of refusals", codes[0] == sorted(set(codes[0])) and sorted(codes[1]) == codes[0][1:], codes)


def main():
    folder = sys.argv[1] if sys.argv[1:] else runs.TOP / "crates"
    tests, programs = runs.Tests(), {name: runs.program(folder, name) for name in NAMES}
    os.umask(0o077)
    words = helped(tests, programs)
    for document in WORDS:
        same_words(tests, words, document)
    used_words(tests, words)
    versions(tests, programs)
    helps(tests, programs)
    statuses(tests, programs)
    tests.end()


if __name__ == "__main__":
    main()
