"""Statements, what they are answered, and ten workloads of them: what the tests of this folder that cut runs off have in common.
By itself it runs nothing.

The evaluator below is written from docs/SPECIFICATION.md, for the few forms of statements that the workloads have. Tables
are a tuple of names, capacities and rows, so that several that may be there can be kept beside one another.
"""
import collections
import re

# A run of a workload: what is typed, by which words, and which of its calls are hindered, as strace spells it.
Run = collections.namedtuple("Run", "texts words hindered", defaults=(None,))
# A workload: its name; its variants, each some runs over one folder, one after the other; and where its mark lies.
Workload = collections.namedtuple("Workload", "name variants place", defaults=("beside",))

FAULT = "E15 store fault"
COLUMNS = '"id","v"'


def batches(texts, most):
    """The texts in the parts that are served together: INSERTs into one table that follow one another, and else each by itself."""
    parts, into = [], None
    for text in texts:
        table = re.match(r"INSERT INTO \w+", text)
        name = table[0] if table and most > 1 else None
        if name and name == into and len(parts[-1]) < most:
            parts[-1].append(text)
        else:
            parts.append([text])
        into = name
    return parts


def answered(tables, text):
    """The lines that a statement is answered over these tables, the rows in order, and the tables after it."""
    word, *rest = re.findall(r"'[^']*'|\w+", text)
    held = {name: (capacity, rows) for name, capacity, rows in tables}
    name = rest[rest.index("FROM") + 1] if "FROM" in rest else rest[0] if word == "UPDATE" else rest[1]
    if (word == "CREATE") == (name in held):
        return (["E03 name taken"] if word == "CREATE" else ["E02 no table"]), tables
    if word == "SELECT":
        rows = held[name][1]
        return [COLUMNS, *sorted(f'"{key}","{value}"' for key, value in rows), f"= {len(rows)} rows"], tables
    line = changed(held, word, name, rest)
    return [line], tuple(sorted((name, capacity, tuple(sorted(rows))) for name, (capacity, rows) in held.items()))


def changed(held, word, name, rest):
    """Changes the tables by a statement, and gives its closing line."""
    if word == "CREATE":
        held[name] = int(rest[rest.index("CAPACITY") + 1]), ()
        return "= created"
    if word == "DROP":
        del held[name]
        return "= dropped"
    capacity, rows = held[name]
    if word == "INSERT":
        key, value = (part.strip("'") for part in rest[rest.index("VALUES") + 1 :])
        if key in dict(rows):
            return "E10 duplicate"
        if len(rows) == capacity:
            return "E11 full"
        held[name] = capacity, (*rows, (key, value))
        return "= inserted"
    keys = {rest[-1]} if "WHERE" in rest else set(dict(rows))
    if word == "UPDATE":
        value = rest[rest.index("v") + 1].strip("'")
        held[name] = capacity, tuple((key, value if key in keys else old) for key, old in rows)
        return f"= {len(keys & set(dict(rows)))} updated"
    held[name] = capacity, tuple(row for row in rows if row[0] not in keys)
    return f"= {len(keys & set(dict(rows)))} deleted"


def served(tables, texts):
    """The lines that statements are answered one after the other, and the tables after each of them, from these on."""
    lines, behind = [], [tables]
    for text in texts:
        said, tables = answered(tables, text)
        lines.append(said)
        behind.append(tables)
    return lines, behind


def split_answers(lines):
    """The lines of a run as those of each statement, rows in order, those of a refusal left out; and the line of a stop, if any."""
    answers, rows = [], []
    for line in lines:
        if line.startswith("! "):
            return answers, line
        if line.startswith('"'):
            rows.append(line)
        else:
            answers.append([line] if line.startswith("E") else [*rows[:1], *sorted(rows[1:]), line])
            rows = []
    return answers, None


def fits(tables, part, given):
    """The tables after texts that were served together and began to be answered so, or none if they can't have been."""
    if [FAULT] in given:
        return tables if all(said == [FAULT] or said[0][:3] in ("E02", "E03") for said in given) else None
    lines, behind = served(tables, part)
    return behind[-1] if lines[: len(given)] == given else None


def possible(before, texts, most, answers):
    """What may be there behind a run, where these may have been before it: what was answered, and it, or one text more, with its
    batch. Nothing where an answer is another."""
    found, at = set(before), 0
    for part in batches(texts, most):
        given = answers[at : at + len(part)]
        if not given:
            return found | {served(tables, part)[1][-1] for tables in found}
        at += len(part)
        found = {behind for tables in found if (behind := fits(tables, part, given)) is not None}
        if len(given) < len(part):
            break
    return found


def most_of(words):
    """How many INSERTs are served together by these words."""
    return int(words[words.index("--batch") + 1]) if "--batch" in words else 1


def create(name, capacity=4, value="INT"):
    """A statement that makes a table of two columns."""
    return f"CREATE TABLE {name} (id INT PRIMARY KEY, v {value}) CAPACITY {capacity};"


def insert(name, *rows):
    """Statements that insert these rows."""
    return tuple(f"INSERT INTO {name} VALUES ({key}, {value});" for key, value in rows)


def select(*names):
    """Statements that show these tables."""
    return tuple(f"SELECT * FROM {name};" for name in names)


WORDS = ("--save",)
FIRST = (create("t"), *insert("t", (1, 10)))
MIXED = (
    *FIRST, *insert("t", (2, 20), (2, 21)), create("u"), *insert("u", (5, 50)), "UPDATE t SET v = 7;", *select("t"),
    "DELETE FROM t WHERE id = 1;", "DROP TABLE u;", *insert("t", (3, 30)),
)
WIDE = (create("t", 6, "VARCHAR(200)"), *(text for n in range(5) for text in insert("t", (n, f"'{str(n) * 150}'"))), "DELETE FROM t WHERE id = 2;")
REFUSED = (
    *FIRST, *insert("t", (1, 11)), create("t"), *insert("w", (1, 1)), *insert("t", (2, 20), (3, 30), (4, 40), (5, 50)),
    "DELETE FROM u WHERE id = 1;", "DROP TABLE t;", "DROP TABLE t;", create("t", 2), *insert("t", (9, 90)),
)
MANY = (create("t", 8), *insert("t", *((n, 10 * n) for n in range(1, 6))), "UPDATE t SET v = 7;", *insert("t", (3, 31), (6, 60), (7, 70)))
MORE = insert("t", (8, 80), (9, 90))


def hindered(before, texts, how, times, then, words=WORDS):
    """Variants whose run of these texts is hindered so, each time at another call, between runs before it and others that go on."""
    first = [Run(before, words)] if before else []
    return [[*first, Run(texts, words, how.format(n)), *(Run(more, words) for more in then)] for n in range(1, times + 1)]


ONE_MORE = (*insert("t", (2, 20)), "UPDATE t SET v = 5;")
LOOKS = (select("t"), insert("t", (3, 30)))
AT_SYNC, AT_NAME, AT_DISCARD = (f"{call}:signal=SIGKILL:when={{}}" for call in ("fsync", "rename", "unlink"))
FULL = "pwrite64:error=ENOSPC:when={}+"
BATCHED = (*WORDS, "--batch", "3")
WORKLOADS = [
    Workload("each statement", [[Run(MIXED, WORDS)]]),
    Workload("statements that are refused", [[Run(REFUSED, WORDS)]]),
    Workload("batches", [[Run(MANY, BATCHED)]]),
    Workload("wide rows, four in a block", [[Run(WIDE, (*WORDS, "--pack", "4", "--buffer", "64"))]]),
    Workload("three runs", [[Run(FIRST, WORDS), Run(MIXED[2:7], WORDS), Run(MIXED[7:], WORDS)]]),
    Workload("a mark elsewhere", [[Run(FIRST, WORDS), Run(MIXED[2:8], WORDS)]], "elsewhere"),
    Workload("a mark by a link", [[Run(FIRST, WORDS), Run(MIXED[2:6], WORDS)]], "link"),
    Workload("a disk that is full", hindered(FIRST, ONE_MORE, FULL, 14, (select("t"),))),
    Workload("a first run that is killed", hindered((), FIRST, AT_SYNC, 14, (FIRST,)) + hindered((), FIRST, AT_NAME, 3, (FIRST,))),
    Workload("killed at a sync", hindered(FIRST, ONE_MORE, AT_SYNC, 14, LOOKS)),
    Workload("killed at a sync, a mark elsewhere", hindered(FIRST, ONE_MORE, AT_SYNC, 14, LOOKS), "elsewhere"),
    Workload("killed while it discards", hindered(FIRST, ONE_MORE, AT_DISCARD, 14, LOOKS)),
    Workload("killed in a batch", hindered(FIRST, MANY[3:], AT_SYNC, 14, (select("t"), MORE), BATCHED)),
]


def names_of(workload):
    """The tables that a workload makes."""
    texts = [text for runs in workload.variants for run in runs for text in run.texts]
    return sorted({text.split()[2] for text in texts if text.startswith("CREATE")})
