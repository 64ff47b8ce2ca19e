#!/usr/bin/env python3
"""Writes crates/ob_cases/data/examples.case: the sessions of examples/ with what stands beside them, and that of two days as
one; each without an index also as two runs, which keep their tables or save them, cut behind each statement, with 1, 2 and 16
rows in a block. Then it counts all cases, with those that lines `each ..` make, into crates/ob_cases/stdout, and looks whether
README and the guide show what is served. Nothing that the program answers goes into any of it. It needs python3 alone, and
takes a moment.
"""
import itertools
import pathlib
import re

TOP = pathlib.Path(__file__).resolve().parent.parent
CASES = TOP / "crates/ob_cases"
LAST = re.compile(r"= |E[0-9]")
SECRET = 64
HEAD = """# The sessions of examples/, and the first one where a block is put back before its last statement, and where an access
# of an INSERT fails. Written by gen/cases.py.
"""


def lines_of(name):
    return (TOP / "examples" / name).read_text().splitlines()


def statements(lines):
    """What is typed of each statement, with the comments above it."""
    found, typed = [], []
    for line in lines:
        typed.append(line)
        if line and not line.startswith("--"):
            found.append(typed)
            typed = []
    assert not typed
    return found


def answers(lines):
    """The lines of each answer."""
    found, said = [], []
    for line in lines:
        said.append(line)
        if LAST.match(line):
            found.append(said)
            said = []
    assert not said
    return found


def case(name, words, body, total, said, more=()):
    """A case with these lines for its statements and their answers."""
    ends = {"!": 4, "E": 1}
    status = max(ends.get(line[0], 0) for line in said)
    head = [f"case {name}", *([f"words {words}"] if words else [])]
    return "\n".join([*head, *body, *([f"total {total}"] if total else []), f"status {status}", *more]) + "\n"


def session(*names, total=None, kept=True):
    """A session, or some as one, each answer after its statement; where its tables may be kept, in two runs, too."""
    sql, out = [lines_of(f"{name}.sql") for name in names], [lines_of(f"{name}.out") for name in names]
    texts, said = statements(sum((lines[1:] for lines in sql), [])), answers(sum(out, []))
    assert len(texts) == len(said) and len({lines[0] for lines in sql}) == 1
    body = [f"key {sql[0][0]}"]
    for typed, told in zip(texts, said):
        body += [f"> {line}".rstrip() for line in typed] + [f"< {line}" for line in told]
    parts = [f"each statement parts --{word} --pack {pack}" for word in ("keep", "save") for pack in (1, 2, 16) if kept]
    return case(" and ".join(f"examples/{name}.sql" for name in names), "", body, total, sum(said, []), parts)


def disturbed(name, words, said, total=None):
    """A session with others at work, and what is answered then."""
    key, *typed = lines_of(f"{name}.sql")
    body = [f"key {key}", *[f"> {line}" for line in typed], *[f"< {line}" for line in said]]
    return case(f"examples/{name}.sql {words}", words, body, total, said)


def count(text):
    """How many cases a file has, with those that lines make."""
    return sum(1 + made(lines.split("\n")) for lines in re.split(r"^case ", text, flags=re.M)[1:])


def made(lines):
    """How many cases the lines of a case make of it."""
    parts = [line.partition(" ")[::2] for line in lines[1:]]
    accesses = [it.strip() for head, rest in parts if head == "@" for it in rest.split(",")]
    named = [it for it in accesses if it and not it.isdigit()]
    reads = [it.split()[1] for it in named if it[0] == "R"]
    blocks = {region: {it for it in named if it[0] in "RW" and it.split()[1] == region} for region in reads}
    typed = [rest for head, rest in parts if head == ">"]
    typing = [head in (">", "times") for head, _ in parts]
    begins = [now and not before for now, before in zip(typing, [False, *typing])]
    begun = sum(begins)
    asking = {n for (head, rest), n in zip(parts, itertools.accumulate(begins)) if n and head == "@" and rest}
    kinds = {
        "access fails": len(named),
        "block put back": len(reads),
        "block exchanged": sum(1 for it in reads if len({block.split()[2] for block in blocks[it]}) > 1),
        "byte last": SECRET + 1 + sum(len(line) + 1 for line in typed),
        "answer fails": begun,
        "trace fails": len(asking),
    }

    def by(rest):
        return len(reads) if rest.startswith("block flipped ") else begun + 1 if rest.startswith("statement parts ") else kinds[rest]

    return sum(by(rest) for head, rest in parts if head == "each")


def main():
    first = lines_of("first.out")
    grouped = first.index('"patient","COUNT(*)","SUM(cost)"')
    failed = [*first[:6], "E15 store fault", *first[7:grouped], first[grouped], '"1","2","180"', "= 1 rows"]
    examples = [
        HEAD,
        session("first", total=186),
        disturbed("first", "--meddle 179:old:8.0", [*first[:grouped], "! tampered 8 0"], 179),
        disturbed("first", "--meddle 100:fail", failed),
        *(session(name) for name in ("clinic", "payroll", "orders")),
        session("stock", kept=False),
        session("first", "next/first"),
    ]
    (CASES / "data/examples.case").write_text("\n".join(examples))

    # README shows lines of the first case of changes.case, in their order, and the guide the first session.
    changed = iter((CASES / "data/changes.case").read_text().split("\n\n")[1].split("\n"))
    session_shown = ("> " + (TOP / "README.md").read_text().partition("```\n> ")[2].partition("\n```")[0]).split("\n")
    if len(session_shown) < 2 or not all(line in changed for line in session_shown):
        raise SystemExit("README.md doesn't show what is served")
    if "\n".join(first) not in (TOP / "docs/GUIDE.md").read_text():
        raise SystemExit("docs/GUIDE.md doesn't show what is served")
    files = (CASES / "args").read_text().split()
    all_cases = sum(count((CASES / "data" / name).read_text()) for name in files)
    (CASES / "stdout").write_text(f"{all_cases} cases passed, 0 differ\n")


main()
