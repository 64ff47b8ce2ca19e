#!/usr/bin/env python3
"""Writes crates/ob_cases/data/indexed.case: sessions with indexes. Which blocks an access asks for follows from the draws of
the secret and from where the rows lie, which is followed here by the definition of an access in docs/SPECIFICATION.md; nothing
that the program answers goes into it. It needs python3 alone, and takes some seconds.
"""
import hashlib
import hmac
import pathlib
import re
import struct

from generated import Run

DATA = pathlib.Path(__file__).resolve().parent.parent / "crates/ob_cases/data"
ZEROS = "0" * 64
COLUMNS = "(id INT PRIMARY KEY, v INT)"
WIDTH = 17
EACH = ["each access fails", "each block flipped 48", "each block put back", "each block exchanged"]
SINKS = ["each answer fails", "each trace fails", "each byte last"]


def stream(seed):
    """The words of ChaCha20 under this seed, stream 0."""

    def turned(x, n):
        return (x << n | x >> 32 - n) & 0xFFFFFFFF

    start = [*struct.unpack("<4I", b"expand 32-byte k"), *struct.unpack("<8I", seed), 0, 0, 0, 0]
    while True:
        s = list(start)
        for turn in range(20):
            for i in range(4):
                step = turn % 2
                a, b, c, d = i, 4 + (i + step) % 4, 8 + (i + 2 * step) % 4, 12 + (i + 3 * step) % 4
                for x, y, z, n in ((a, b, d, 16), (c, d, b, 12), (a, b, d, 8), (c, d, b, 7)):
                    s[x] = (s[x] + s[y]) & 0xFFFFFFFF
                    s[z] = turned(s[z] ^ s[x], n)
        yield from ((x + y) & 0xFFFFFFFF for x, y in zip(s, start))
        start[12] += 1


def draws(secret, salt=None):
    """Two words each, the low one first."""
    label = b"oblidb run draw" + bytes.fromhex(salt) if salt else b"oblidb draw"
    words = stream(hmac.new(bytes.fromhex(secret), label, hashlib.sha256).digest())
    while True:
        low = next(words)
        yield low + (next(words) << 32)


class Full(Exception):
    """The stash has no room."""


class Index:
    """An index with these columns, whose rows are kept by their keys."""

    def __init__(self, tree, capacity, leaves, columns):
        self.tree, self.stash, self.capacity = tree, tree + 1, capacity
        self.names = [it.split()[0] for it in columns[1:-1].split(", ")]
        self.key = next(it.split()[0] for it in columns[1:-1].split(", ") if "PRIMARY" in it)
        self.height = (capacity - 1).bit_length()
        self.leaves = [draw % 2**self.height for draw in leaves]
        self.buckets, self.left, self.rows = {}, [], {}

    def path(self, leaf):
        """The buckets from a leaf's up."""
        return [(2**self.height + leaf >> above) - 1 for above in range(self.height + 1)]

    def access(self, run, slots, key, draw, change):
        """What it asks goes to the run: the stash, the path, and both again. The change is made of the rows between."""
        known = 0 <= key < self.capacity
        leaf = self.leaves[key] if known else draw % 2**self.height
        path = self.path(leaf)
        places = [(self.tree, 4 * bucket + i) for bucket in reversed(path) for i in range(4)]
        stash = [(self.stash, i) for i in range(slots)]
        for block in stash + places:
            run.read(*block)
        if known:
            self.leaves[key] = draw % 2**self.height
        here = self.left + [k for bucket in path for k in self.buckets.get(bucket, [])]
        change()
        here = sorted({k for k in [*here, key] if k in self.rows})
        for bucket in path:
            self.buckets[bucket] = [k for k in here if bucket in self.path(self.leaves[k])][:4]
            here = [k for k in here if k not in self.buckets[bucket]]
        self.left = here
        if len(here) > slots:
            raise Full
        for block in places + stash:
            run.write(*block)


class Session:
    """A session, line by line: each statement with what it asks and answers."""

    def __init__(self, name, words, slots=32, secret=ZEROS, salt=None, may_fill=False, **settings):
        self.run, self.slots, self.draws, self.may_fill = Run(**settings), slots, draws(secret, salt), may_fill
        self.name, self.words, self.changes = name, words, []
        self.keeper = ["keeper in use", f"salts {salt}"] if salt else []
        self.lines = [f"key {secret}"] if secret != ZEROS else []
        self.status, self.indexes, self.flats = 0, {}, {}

    def says(self, text, before, answers, more=()):
        self.lines += [*[f"> {line}" for line in text.split("\n")], *[f"@ {line}" for line in joined(self.run.asked[before:])], *[f"< {line}" for line in answers], *more]
        if answers[-1][0] == "E":
            self.status = 1

    def makes(self, capacity, columns):
        """What CREATE asks of an index goes to the run."""
        leaves = [next(self.draws) for _ in range(capacity)]
        index = Index(self.run.next, capacity, leaves, columns)
        for region, places in ((index.tree, 4 * (2 ** (index.height + 1) - 1)), (index.stash, self.slots)):
            self.run.make(1, 0)
            self.run.asked[-1] = f"M {region} {places} {width_of(columns) + 32}"
            for place in range(places):
                self.run.write(region, place)
        return index

    def create(self, name, capacity, *behind, columns=COLUMNS, text=None):
        """Where an access of it fails, this is answered after it."""
        before = len(self.run.asked)
        self.indexes[name] = self.makes(capacity, columns)
        text = text or f"CREATE TABLE {name} {columns} CAPACITY {capacity} INDEXED;"
        self.says(text, before, ["= created"], behind)

    def fails_to_create(self, name, capacity, at):
        """Its access of this number fails."""
        before, region = len(self.run.asked), self.run.next
        self.makes(capacity, COLUMNS)
        del self.run.asked[before + at :]
        self.run.next = region + sum(it[0] == "M" for it in self.run.asked[before:])
        self.changes.append(f"{before + at}:fail")
        self.says(f"CREATE TABLE {name} {COLUMNS} CAPACITY {capacity} INDEXED;", before, ["E15 store fault"])

    def goes(self, text, name, key, change, answers):
        index, before = self.indexes[name], len(self.run.asked)
        try:
            index.access(self.run, self.slots, key, next(self.draws), change)
        except Full:
            assert self.may_fill
            self.status, answers = 11, ["! stash full"]
        self.says(text, before, answers, ["else stops"])

    def reads_changed(self, name, key, change, region, place):
        """A SELECT that reads this block, which others changed so just before."""
        before = len(self.run.asked)
        self.indexes[name].access(self.run, self.slots, key, next(self.draws), lambda: None)
        del self.run.asked[self.run.asked.index(f"R {region} {place}", before) + 1 :]
        self.changes.append(f"{len(self.run.asked)}:{change}")
        self.status = 4
        self.says(f"SELECT * FROM {name} WHERE id = {key};", before, [f"! tampered {region} {place}"])

    def insert(self, name, key, *others, text=None):
        """The others are the cells of the other columns, in order."""
        index, cells = self.indexes[name], iter(others)
        row = {it: key if it == index.key else next(cells) for it in index.names}
        there, known = key in index.rows, 0 <= key < index.capacity
        answer = "E10 duplicate" if there else "= inserted" if known else "E17 key range"

        def change():
            if known and not there:
                index.rows[key] = row

        text = text or f"INSERT INTO {name} VALUES ({', '.join(map(literal, row.values()))});"
        self.goes(text, name, key, change, [answer])

    def update(self, name, key, text=None, **cells):
        index = self.indexes[name]
        there = int(key in index.rows)

        def change():
            if there:
                index.rows[key] = {**index.rows[key], **cells}

        said = ", ".join(f"{it} = {literal(cell)}" for it, cell in cells.items())
        self.goes(text or f"UPDATE {name} SET {said} WHERE {index.key} = {key};", name, key, change, [f"= {there} updated"])

    def delete(self, name, key, text=None):
        index = self.indexes[name]
        there = int(key in index.rows)
        text = text or f"DELETE FROM {name} WHERE {index.key} = {key};"
        self.goes(text, name, key, lambda: index.rows.pop(key, None), [f"= {there} deleted"])

    def select(self, name, key, columns="*", where=None):
        index = self.indexes[name]
        names = index.names if columns == "*" else [it.split(".")[-1] for it in columns.split(", ")]
        rows = [index.rows[key]] if key in index.rows else []
        shown = [",".join('"' + str(cell).replace('"', '""') + '"' for cell in line) for line in [names, *[[row[it] for it in names] for row in rows]]]
        text = f"SELECT {columns} FROM {name} WHERE {where or f'{index.key} = {key}'};"
        self.goes(text, name, key, lambda: None, [*shown, f"= {len(rows)} rows"])

    def drop(self, name):
        before, index = len(self.run.asked), self.indexes.pop(name)
        self.run.discard(index.tree)
        self.run.discard(index.stash)
        self.says(f"DROP TABLE {name};", before, ["= dropped"])

    def refuses(self, *texts, answer):
        for text in texts:
            self.says(text, len(self.run.asked), [answer])

    def create_flat(self, name, capacity):
        before = len(self.run.asked)
        self.flats[name] = [self.run.create(capacity, WIDTH), capacity, []]
        self.says(f"CREATE TABLE {name} {COLUMNS} CAPACITY {capacity};", before, ["= created"])

    def insert_flat(self, name, key, value):
        before, flat = len(self.run.asked), self.flats[name]
        flat[0] = self.run.insert(flat[0], flat[1], WIDTH)
        flat[2].append((key, value))
        self.says(f"INSERT INTO {name} VALUES ({key}, {value});", before, ["= inserted"])

    def select_flat(self, name):
        before, flat = len(self.run.asked), self.flats[name]
        self.run.select(flat[0], flat[1], WIDTH, list(range(len(flat[2]))))
        shown = ['"id","v"', *[f'"{key}","{value}"' for key, value in flat[2]], f"= {len(flat[2])} rows"]
        self.says(f"SELECT * FROM {name};", before, shown)

    def case(self, *more):
        asked = self.run.asked
        words = [*self.words.split(), *(["--meddle", ",".join(self.changes)] if self.changes else [])]
        head = [f"case {self.name}", *self.keeper, *([f"words {' '.join(words)}"] if words else [])]
        wants = [*([] if asked else ["@"]), f"total {len(asked)}", f"status {self.status}"]
        return "\n".join([*head, *self.lines, *wants, *more, ""])


def literal(cell):
    return str(cell) if isinstance(cell, int) else "'" + cell.replace("'", "''") + "'"


def width_of(columns):
    """The bytes of a row."""
    return 1 + 8 * columns.count(" INT") + sum(int(size) + 1 for size in re.findall(r"VARCHAR\((\d+)\)", columns))


def joined(accesses):
    """Lines of accesses."""
    lines = []
    for access in accesses:
        if lines and len(lines[-1]) + len(access) <= 94:
            lines[-1] += f", {access}"
        else:
            lines.append(access)
    return lines


def worked():
    """A row is inserted, read, and looked for in vain."""
    s = Session("an index of four keys", "--buffer 16 --stash 2", 2)
    s.create("o", 4, *["else < E02 no table"] * 6, "else @")
    s.insert("o", 3, 10)
    s.select("o", 3)
    s.insert("o", 4, 1)
    s.insert("o", 3, 1)
    s.select("o", 9)
    s.refuses("SELECT COUNT(*) FROM o;", answer="E18 needs key")
    assert len(s.run.asked) == 172
    return s.case(*EACH)


def each_kind():
    """Each kind of statement, of a key that is there and one that isn't, in the least buffer."""
    s = Session("each statement on an index", "--buffer 15 --stash 2", 2)
    s.create("o", 4, *["else < E02 no table"] * 8, "else @")
    s.insert("o", 1, 10)
    s.update("o", 1, v=11)
    s.select("o", 1, "v")
    s.update("o", 2, v=12)
    s.delete("o", 1)
    s.select("o", 1)
    s.delete("o", 1)
    s.drop("o")
    return s.case(*EACH, "each block flipped 0", *SINKS)


def ends_of_keys():
    """The keys 0, N - 1, N and -1, and those of no number in range."""
    s = Session("the first and the last key, and those beside them", "--buffer 19 --stash 2", 2)
    s.create("o", 5)
    for key in (0, 4, 5, -1):
        s.insert("o", key, 10 + key)
        s.select("o", key)
        s.update("o", key, v=20 + key)
        s.select("o", key)
        s.delete("o", key)
        s.select("o", key)
        s.delete("o", key)
    for key in (2**63 - 1, -(2**63)):
        s.insert("o", key, 1)
        s.select("o", key)
    return s.case()


def one_key():
    s = Session("an index of one key, whose tree is its root", "--buffer 7 --stash 2", 2, buffer=7)
    s.create("o", 1)
    for key in (0, 1):
        s.insert("o", key, 5)
        s.select("o", key)
    s.insert("o", 0, 6)
    s.delete("o", 0)
    s.insert("o", 0, 6, text="INSERT INTO o (v, id) VALUES (6, 0);")
    s.select("o", 0, "v")
    s.select("o", 0, "v, id", "(id = 0)")
    return s.case()


def all_kinds():
    """Each statement in its turn over an index that fills, and after that the same keys again."""
    s = Session("all keys of an index, written, changed and deleted", "--buffer 64 --stash 4", 4)
    s.create("o", 16)
    for key in (3, 1, 4, 15, 9, 2, 6, 5, 8, 7, 0, 10, 11, 12, 13, 14):
        s.insert("o", key, key * key)
    for key in range(16):
        s.select("o", key)
    for key in range(0, 16, 3):
        s.update("o", key, v=-key)
        s.insert("o", key, 0)
    for key in range(0, 16, 2):
        s.delete("o", key)
    for key in range(16):
        s.select("o", key)
    s.drop("o")
    s.refuses("SELECT * FROM o WHERE id = 1;", answer="E02 no table")
    return s.case()


def salted(salt):
    """By the salts of two runs other leaves are read than without one, though the statements are the same."""
    s = Session(f"an index by {f'the salt {salt}' if salt else 'no salt'}", "--buffer 64 --stash 4", 4, salt=salt)
    s.create("o", 16)
    for key in (3, 1, 4, 15):
        s.insert("o", key, key * key)
        s.select("o", key)
    return s


def by_salts():
    found = [salted(salt) for salt in (None, "0a" * 16, "ff" * 16)]
    assert len({tuple(s.run.asked) for s in found}) == len(found)
    return [s.case() for s in found]


def in_the_stash():
    """Rows are read, changed, refused and deleted where they lie in the stash: one, and two at once."""
    found = []
    for kind, count, name in (
        ("select", 1, "a row is selected that lies in the stash"),
        ("update", 1, "a row is changed that lies in the stash"),
        ("insert", 1, "a row is refused that lies in the stash"),
        ("delete", 1, "a row is deleted that lies in the stash"),
        ("select", 2, "two rows are selected that lie in the stash"),
        ("delete", 2, "two rows are deleted that lie in the stash"),
    ):
        sessions = (Session(name, "--buffer 25 --stash 4", 4, f"{number:064x}") for number in range(4000))
        found.append(next(s.case() for s in sessions if is_stashed(s, kind, count)))
    return found


def is_stashed(s, kind, count):
    """Serves an index of sixteen keys until so many rows lie in its stash, and then this of them; whether there were any."""
    s.create("o", 16)
    index = s.indexes["o"]
    for turn in range(24):
        if turn < 16:
            s.insert("o", turn, turn)
        else:
            s.select("o", turn - 16)
        if len(index.left) == count:
            break
    keys = list(index.left) if len(index.left) == count else []
    for key in keys:
        if kind == "update":
            s.update("o", key, v=100 + key)
        elif kind == "insert":
            s.insert("o", key, 0)
        elif kind == "delete":
            s.delete("o", key)
        s.select("o", key)
    return keys != []


def other_columns():
    """The key is the last of three columns, and the texts spell its condition in other ways."""
    columns = "(s VARCHAR(4), v INT, k INT PRIMARY KEY)"
    s = Session("an index whose key is its last column", "--buffer 16 --stash 2", 2)
    s.create("o", 3, columns=columns, text=f"create table O {columns} capacity 3 Indexed;")
    s.insert("o", 0, "it's", 7)
    s.insert("o", 2, "", -1)
    s.insert("o", 1, 'a"b;', 0, text="INSERT INTO o (k, v, s) VALUES (+1, -0, 'a\"b;');")
    s.select("o", 0)
    s.select("o", 1, "s, k, s")
    s.select("o", 2, "o.v, k", "o.k = 2")
    s.update("o", 2, s="z", v=5)
    s.update("o", 2, s="zz", text="UPDATE o SET s = 'zz' WHERE ((o.k = +2));")
    s.select("o", 2, where="((k = 2))")
    s.select("o", 0, where="k = -0")
    s.select("o", -2)
    s.delete("o", 0, text="delete from O where K = 0 -- and no other;\n;")
    s.select("o", 0, "v")
    return s.case()


def plans():
    """An index is selected from by no plan, and padded by nothing."""
    found = []
    for words in ("cheapest", "small", "large", "continuous", "hash --depth 1"):
        found.append(planned(f"an index beside the plan {words}", f"--plan {words}"))
    for words in ("--pad 1", "--pad 2 --plan large"):
        found.append(planned(f"an index beside {words}", words))
    return found


def planned(name, words):
    s = Session(name, f"{words} --buffer 10 --stash 1", 1)
    s.create("o", 2)
    for key in range(3):
        s.insert("o", key, key)
    for key in range(3):
        s.select("o", key)
    s.refuses("SELECT * FROM o;", "SELECT v, COUNT(*) FROM o GROUP BY v;", answer="E18 needs key")
    return s.case()


def thousand():
    """As many slots of a stash as there are without the word. What CREATE asks is counted alone."""
    s = Session("a thousand keys, and the stash that is there without a word", "--buffer 77", 32)
    s.create("o", 1000)
    s.lines[1 : 1 + sum(it[0] == "@" for it in s.lines)] = [f"@ {len(s.run.asked)}"]
    for key in (999, 0, 500, 1000, -1, 1023, 1024):
        s.insert("o", key, key)
    for key in (999, 0, 500, 1000, 1023):
        s.select("o", key)
    s.update("o", 500, v=1)
    s.delete("o", 999)
    s.select("o", 500)
    s.select("o", 999)
    return s.case()


def many_tables():
    """Indexes are among the 64 tables that there may be."""
    s = Session("64 tables, of which half are indexes", "--buffer 6 --stash 1", 1, buffer=6)
    for number in range(32):
        s.create(f"o{number}", 1)
        s.create_flat(f"t{number}", 1)
    s.refuses(f"CREATE TABLE a {COLUMNS} CAPACITY 1 INDEXED;", f"CREATE TABLE a {COLUMNS} CAPACITY 1;", answer="E07 limit")
    s.insert("o31", 0, 5)
    s.drop("o0")
    s.create("a", 1)
    s.insert("a", 0, 6)
    s.refuses(f"CREATE TABLE b {COLUMNS} CAPACITY 1 INDEXED;", answer="E07 limit")
    s.select("a", 0)
    s.select("o31", 0)
    return s.case()


def failed_creates():
    """A CREATE whose access failed has drawn its numbers, and its regions are used up."""
    s = Session("an index that is made at last", "--buffer 16 --stash 2", 2)
    for at in (1, 5, 30, 32):
        s.fails_to_create("o", 4, at)
    s.refuses("SELECT * FROM o WHERE id = 0;", "DROP TABLE o;", answer="E02 no table")
    s.create("o", 4)
    for key in range(4):
        s.insert("o", key, key)
    s.select("o", 2)
    s.select("o", 4)
    return s.case()


def others_change():
    """Blocks of one length are exchanged over regions: of two indexes, of tree and stash, and of a flat table."""
    found = []
    for name, copied, region, place in (
        ("a block of another index", "3.0", 1, 0),
        ("a block of another stash", "4.1", 2, 1),
        ("a block of the stash in the tree", "2.0", 1, 2),
        ("a block of the tree in the stash", "1.1", 2, 0),
        ("a block of a flat table in an index", "6.0", 1, 1),
        ("a block of a flat table in a stash", "6.1", 2, 1),
        ("a block of a region that was given up", "5.0", 1, 3),
    ):
        s = Session(f"{name} is put to its place", "--buffer 16 --stash 2", 2, buffer=16)
        s.create("o", 2)
        s.create("q", 2)
        s.create_flat("t", 2)
        s.insert_flat("t", 1, 1)
        s.insert("o", 1, 1)
        s.insert("q", 1, 1)
        s.reads_changed("o", 1, f"copy:{copied}:{region}.{place}", region, place)
        found.append(s.case())
    return found


def packed():
    """Its blocks have one row each, however many those of flat tables have; and padding hides no leaf."""
    found = []
    for name, words in (("an index beside two rows a block", "--pack 2 --buffer 16 --stash 2"), ("an index, and results that are padded", "--pad 3 --buffer 16 --stash 2")):
        s = Session(name, words, 2, buffer=16, pack=2 if "pack" in words else 1, pad=3 if "pad" in words else None)
        s.create("o", 4)
        s.create_flat("t", 4)
        s.insert("o", 2, 7)
        s.insert_flat("t", 1, 8)
        s.select("o", 2)
        s.select_flat("t")
        s.select("o", 1)
        found.append(s.case())
    return found


def two_and_a_table():
    """Two indexes and a flat table: the draws of one come between those of the other."""
    s = Session("two indexes and a flat table", "--buffer 16 --stash 2", 2, buffer=16)
    s.create("o", 4)
    s.create("q", 2)
    s.create_flat("t", 4)
    for key in range(2):
        s.insert("o", key, 10 * key)
        s.insert("q", key, 100 * key)
        s.insert_flat("t", key, 1000 * key)
    for key in range(3):
        s.select("o", key)
        s.select("q", key)
    s.select_flat("t")
    s.refuses("SELECT * FROM t JOIN o ON t.id = o.id;", "SELECT * FROM o JOIN t ON o.id = t.id;", "SELECT * FROM o JOIN q ON o.id = q.id;", answer="E18 needs key")
    s.drop("o")
    s.select("q", 1)
    s.create("o", 4)
    s.select("o", 1)
    s.select("q", 0)
    return s.case()


def needs_key():
    """What names no key is refused before any access, and before what rows would refuse."""
    s = Session("statements that name no key", "--buffer 16 --stash 2", 2)
    s.create("o", 4)
    s.create_flat("t", 2)
    s.refuses(
        *["SELECT COUNT(*) FROM o;", "SELECT COUNT(*) FROM o WHERE id = 1;", "SELECT v, COUNT(*) FROM o GROUP BY v;", "SELECT * FROM o;"],
        *["SELECT SUM(v) FROM o WHERE id = 1;", "SELECT MIN(v), MAX(id) FROM o;", "SELECT id FROM o WHERE id = 1 GROUP BY id;"],
        *[f"SELECT * FROM o WHERE {it};" for it in ("id > 1", "id >= 1", "id < 1", "id <= 1", "id <> 1", "id != 1", "v = 1", "id = v", "id = id", "v = id")],
        *[f"SELECT v FROM o WHERE {it};" for it in ("id = 1 AND v = 1", "v = 1 AND id = 1", "id = 1 OR id = 2", "id = 1 OR id = 1", "NOT (id = 1)", "NOT NOT id = 1")],
        *["UPDATE o SET v = 1;", "UPDATE o SET v = 1 WHERE v = 1;", "UPDATE o SET v = 1 WHERE id = 1 AND id = 1;", "UPDATE o SET v = 1 WHERE NOT id = 1;"],
        *["DELETE FROM o;", "DELETE FROM o WHERE id < 1;", "DELETE FROM o WHERE v = 1;", "DELETE FROM o WHERE id = 1 OR id = 2;"],
        *["SELECT * FROM o JOIN t ON o.id = t.id;", "SELECT * FROM t JOIN o ON t.id = o.id;", "SELECT o.v FROM t JOIN o ON t.id = o.v WHERE t.v = 1;"],
        answer="E18 needs key",
    )
    s.refuses("UPDATE o SET id = 2 WHERE id = 1;", "UPDATE o SET id = 2;", answer="E08 key rule")
    s.refuses("SELECT * FROM o JOIN n ON o.id = n.id;", "SELECT * FROM n JOIN o ON n.id = o.id;", "SELECT * FROM n WHERE id = 1;", answer="E02 no table")
    s.refuses("SELECT * FROM o JOIN o ON o.id = o.id;", "UPDATE o SET v = 1, v = 2;", "INSERT INTO o (id, id) VALUES (1, 1);", answer="E03 name taken")
    s.refuses("SELECT * FROM o WHERE w = 1;", "SELECT w FROM o WHERE id = 1;", "SELECT id, COUNT(*) FROM o GROUP BY v;", "UPDATE o SET w = 1 WHERE id = 1;", answer="E04 no column")
    s.refuses("SELECT * FROM o WHERE id = 'a';", "UPDATE o SET v = 'a' WHERE id = 1;", "INSERT INTO o VALUES (1);", "DELETE FROM o WHERE v = 'a';", answer="E05 wrong type")
    s.refuses("SELECT * FROM o WHERE id = 9223372036854775808;", "INSERT INTO o VALUES (9223372036854775808, 1);", "DELETE FROM o WHERE v < -9223372036854775809;", answer="E06 out of range")
    s.refuses(f"SELECT {', '.join(['v'] * 33)} FROM o;", f"SELECT {', '.join(['v'] * 33)} FROM o WHERE id = 1;", answer="E07 limit")
    s.refuses("SELECT * FROM o JOIN t ON o.v = t.id;", answer="E09 join key")
    for key in (1, 4):
        s.insert("o", key, key)
        s.select("o", key)
    s.select("o", 1, ", ".join(["v"] * 32))
    return s.case()


def limits():
    """Which indexes are made, and which are past a limit or break the rule of keys."""
    s = Session("indexes that are past a limit", "", 32)
    s.create("a", 64)
    s.refuses(*[f"CREATE TABLE b {COLUMNS} CAPACITY {n} INDEXED;" for n in (0, 65, 1048577)], answer="E07 limit")
    s.refuses("CREATE TABLE b (id INT, v INT) CAPACITY 4 INDEXED;", "CREATE TABLE b (id VARCHAR(4) PRIMARY KEY) CAPACITY 4 INDEXED;", answer="E08 key rule")
    s.refuses("CREATE TABLE b (id INT PRIMARY KEY, v INT PRIMARY KEY) CAPACITY 4 INDEXED;", answer="E08 key rule")
    s.refuses("CREATE TABLE b (id INT, v INT) CAPACITY 65 INDEXED;", answer="E07 limit")
    s.refuses(f"CREATE TABLE a {COLUMNS} CAPACITY 4 INDEXED;", f"CREATE TABLE a {COLUMNS} CAPACITY 65 INDEXED;", answer="E03 name taken")
    s.create("c", 2)
    for key in (1, 2):
        s.insert("c", key, key)
        s.select("c", key)
    found = [s.case()]
    s = Session("an index that the buffer holds just", "--buffer 15 --stash 2", 2, buffer=15)
    s.create("a", 4)
    s.refuses(f"CREATE TABLE b {COLUMNS} CAPACITY 5 INDEXED;", answer="E07 limit")
    s.insert("a", 1, 1)
    s.create_flat("b", 5)
    s.select("a", 1)
    found.append(s.case())
    s = Session("65,536 keys want a buffer of 158 rows beside a stash of 89", "--buffer 157 --stash 89", 89)
    s.refuses(f"CREATE TABLE a {COLUMNS} CAPACITY 65536 INDEXED;", answer="E07 limit")
    found.append(s.case())
    s = Session("a text with another order of words", "")
    for text, at in ((f"CREATE TABLE o {COLUMNS} INDEXED;", "INDEXED"), (f"CREATE TABLE o {COLUMNS} INDEXED CAPACITY 4;", "INDEXED"), ("CREATE TABLE indexed (id INT) CAPACITY 1;", "indexed")):
        s.refuses(text, answer=f"E01 syntax {text.index(at)}")
    found.append(s.case())
    for value in ("0", "1025", "-1", "x"):
        found.append(f"case --stash {value} is taken by nothing\nwords --stash={value}\n< ! usage\nstatus 2\n")
    found.append("case the greatest stash\nwords --stash 1024\n<\nstatus 0\n")
    found.append(kept())
    return found


def kept():
    """No index is made where tables are kept; the closing has the flat table alone."""
    refused = [f"{COLUMNS} CAPACITY 4 INDEXED", f"{COLUMNS} CAPACITY 1 INDEXED", "(id INT, v INT) CAPACITY 4 INDEXED"]
    lines = ["case no index where tables are kept", "keeper fresh", "words --keep --buffer 16 --stash 2"]
    for said in refused:
        lines += [f"> CREATE TABLE o {said};", "< E07 limit"]
    lines += [f"> CREATE TABLE t {COLUMNS} CAPACITY 2;", "@ M 1 2 49, W 1 0, W 1 1", "< = created"]
    lines += [f"> CREATE TABLE t {COLUMNS} CAPACITY 2 INDEXED;", "< E03 name taken"]
    return "\n".join([*lines, "@ M 2 2 1056, W 2 0, W 2 1", "status 1", "mark closed 2 2 3 1", ""])


def fills(secret):
    """The keys of eight that go in one after the other, with a stash of one row, until it is full."""
    s = Session("a stash of one row is full", "--buffer 18 --stash 1", 1, secret, may_fill=True)
    s.create("o", 8, "else @")
    for key in range(8):
        s.insert("o", key, key)
        if s.status == 11:
            break
    return s


def full():
    """The first secret, counted on from zero, with which the stash is full before the last key."""
    number = 0
    while True:
        s = fills(f"{number:064x}")
        if s.status == 11:
            return filled(s)
        number += 1


def fills_by(kind, keys, slots, number):
    """All of so many keys go in, and then statements of this kind are of each in turn, until the stash is full."""
    s = Session(f"{kind}, by which a stash of {slots} is full", f"--buffer 64 --stash {slots}", slots, f"{number:064x}", may_fill=True)
    s.create("o", keys)
    for turn in range(2 * keys):
        key = turn * 5 % keys
        if turn < keys or kind == "a refused INSERT":
            s.insert("o", key, key)
        elif kind == "an UPDATE":
            s.update("o", key, v=0)
        else:
            s.select("o", key)
        if s.status == 11:
            return s, turn >= keys
    return s, False


def full_by():
    """Of each kind of statement that can fill a stash the first secrets with which one does."""
    found = []
    for kind, keys, slots in (("a SELECT", 8, 1), ("an UPDATE", 16, 2), ("a refused INSERT", 32, 3)):
        sessions = (fills_by(kind, keys, slots, number) for number in range(10000))
        found.append(next(s.case() for s, is_full in sessions if is_full))
    return found


def filled(s):
    """Each access fails in turn: where one of CREATE does, no table is found."""
    inserts = sum(line[0] == ">" for line in s.lines) - 1
    at = s.lines.index("else @")
    s.lines[at:at] = ["else < E02 no table"] * inserts
    return s.case(*EACH)


def main():
    cases = [worked(), each_kind(), ends_of_keys(), one_key(), other_columns(), all_kinds(), *by_salts(), *in_the_stash(), thousand()]
    cases += [*packed(), *plans(), two_and_a_table(), many_tables(), needs_key(), *limits(), failed_creates(), *others_change()]
    cases += [full(), *full_by()]
    HEAD = """# Sessions with indexes, of three of which each access fails in turn, and each block that is read is changed just before.
# Written by gen/indexed.py.
"""
    (DATA / "indexed.case").write_text(HEAD + "\n" + "\n".join(cases))
    print(f"{len(cases)} cases")


if __name__ == "__main__":
    main()
