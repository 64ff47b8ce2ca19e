#!/usr/bin/env python3
"""Writes crates/ob_cases/data/padded.case: SELECTs of rows whose results are padded. What they ask is counted from the lists
of accesses in docs/SPECIFICATION.md; nothing that the program answers goes into it. It needs python3 alone, and takes a
second.
"""
import pathlib

from generated import Run, up

DATA = pathlib.Path(__file__).resolve().parent.parent / "crates/ob_cases/data"
ROWS = [(1, 10), (2, 20), (3, 10), (4, 20)]
TEXTS = ["CREATE TABLE t (id INT PRIMARY KEY, v INT) CAPACITY 4;", *[f"INSERT INTO t VALUES ({i}, {v});" for i, v in ROWS]]
PAIRS = [(1, 7), (3, 8), (3, 9)]
JOINED = [*TEXTS, "CREATE TABLE u (k INT, w INT) CAPACITY 3;", *[f"INSERT INTO u VALUES ({k}, {w});" for k, w in PAIRS]]
BUFFERS = {1: 4, 2: 7, 16: 49}


def filled(run, joined):
    """The regions of the tables."""
    t = run.create(4, 17)
    for _ in ROWS:
        t = run.insert(t, 4, 17)
    if not joined:
        return t, None
    u = run.create(3, 17)
    for _ in PAIRS:
        u = run.insert(u, 3, 17)
    return t, u


def lines_of(accesses):
    lines = [""]
    for access in accesses:
        if len(lines[-1]) + len(access) > 96:
            lines.append("")
        lines[-1] += (", " if lines[-1] else "") + access
    return lines


def case(name, words, typed, said, before, asked, status):
    lines = [f"case {name}", f"words {words}", *[f"> {text}" for text in typed], *[f"< {line}" for line in said], f"@ {before}"]
    return "\n".join([*lines, *[f"@ {line}" for line in lines_of(asked)], f"status {status}", ""])


def shown(columns, rows, answered):
    """The lines of an answer."""
    if not answered:
        return ["E16 pad passed"]
    fields = [",".join(f'"{it}"' for it in row) for row in (columns, *rows)]
    return [*fields, f"= {len(rows)} rows"]


def selected(name, condition, test, pad, pack=1, plan="auto"):
    """A SELECT of a table's rows."""
    run = Run(buffer=BUFFERS[pack], pack=pack, plan=plan, pad=pad)
    t, _ = filled(run, False)
    before, rows = len(run.asked), [row for row in ROWS if test(row)]
    answered = run.select(t, 4, 17, [i for i, row in enumerate(ROWS) if test(row)])
    said = ["= created", *["= inserted"] * 4, *shown(("id", "v"), rows, answered)]
    return case(name, words(pad, pack, plan), [*TEXTS, f"SELECT * FROM t{condition};"], said, before, run.asked[before:], int(not answered))


def paired(name, condition, test, pad, pack=1, plan="auto"):
    """A SELECT over a join: its pairs chunk by chunk of left slots, and there in order of the right ones."""
    run = Run(buffer=BUFFERS[pack], pack=pack, plan=plan, pad=pad)
    t, u = filled(run, True)
    before, rows = len(run.asked), []
    for q in range(up(4, run.chunk)):
        chunk = ROWS[q * run.chunk : (q + 1) * run.chunk]
        rows += [(*left, *right) for right in PAIRS for left in chunk if left[0] == right[0] and test((*left, *right))]
    answered = run.join(t, 4, u, 3, 33, rows)
    said = ["= created", *["= inserted"] * 4, "= created", *["= inserted"] * 3, *shown(("t.id", "t.v", "u.k", "u.w"), rows, answered)]
    text = f"SELECT * FROM t JOIN u ON t.id = u.k{condition};"
    return case(name, words(pad, pack, plan), [*JOINED, text], said, before, run.asked[before:], int(not answered))


def words(pad, pack, plan):
    return f"--buffer {BUFFERS[pack]} --pad {pad}" + (f" --pack {pack}" if pack > 1 else "") + ("" if plan == "auto" else f" --plan {plan}")


def alike(cases):
    """These cases, which ask the same."""
    asked = {tuple(line for line in text.split("\n") if line.startswith("@")) for text in cases}
    assert len(asked) == 1
    return cases


def main():
    cases = []
    for pack in BUFFERS:
        rows = "" if pack == 1 else f", {pack} rows in a block"
        for plan, named in (("auto", ""), ("cheapest", ", by what asks least"), ("small", ", by Small"), ("large", ", by Large")):
            by = f"{rows}{named}"
            cases += alike([
                selected(f"none of two{by}", " WHERE v = 99", lambda row: row[1] == 99, 2, pack, plan),
                selected(f"two of two{by}", " WHERE v = 10", lambda row: row[1] == 10, 2, pack, plan),
                selected(f"four, which is more than two{by}", "", lambda row: True, 2, pack, plan),
            ])
            cases += alike([
                paired(f"none of two pairs{by}", " WHERE w = 99", lambda row: row[3] == 99, 2, pack, plan),
                paired(f"two of two pairs{by}", " WHERE t.id = 3", lambda row: row[0] == 3, 2, pack, plan),
                paired(f"three pairs, which is more than two{by}", "", lambda row: True, 2, pack, plan),
            ])
            for pad in (2, 3, 4):
                cases.append(selected(f"three of {pad}{by}", " WHERE id <= 3", lambda row: row[0] <= 3, pad, pack, plan))
            cases += alike([
                selected(f"one of more than there are slots{by}", " WHERE id = 1", lambda row: row[0] == 1, 5, pack, plan),
                selected(f"all of more than there are slots{by}", "", lambda row: True, 5, pack, plan),
            ])
    head = "# SELECTs of rows whose results are padded: they ask the same, whatever is selected. Written by gen/padded.py.\n"
    (DATA / "padded.case").write_text(head + "\n" + "\n".join(cases))
    print(f"{len(cases)} cases")


if __name__ == "__main__":
    main()
