#!/usr/bin/env python3
"""Writes crates/ob_cases/data/saved.case: runs that save their tables, and die. A session of each statement, and of a batch of
INSERTs, with 1 and 16 rows in a block, whose store fails from each of its accesses on, whose keeper fails at each of its calls,
which ends its run, and whose answer is never taken; and the run that goes on over what was left. Runs under another secret over
what was left. And runs over generated text.
What is asked, answered and left is counted from docs/SPECIFICATION.md; nothing that the program answers goes into it. It needs
python3 alone, and takes a second.
"""
import hmac
import pathlib

from generated import Run, case

DATA = pathlib.Path(__file__).resolve().parent.parent / "crates/ob_cases/data"
SALTS = [f"{n:02x}" * 16 for n in (0, 255, 7, 8)]
WIDTH, CLOSING = 17, 1056
WORDS = "--save --pack {pack}"
SECRET, OTHER = "00" * 32, "00" * 31 + "01"


def check_of(salt, secret=SECRET):
    """The check value that a secret has for a salt."""
    return hmac.new(bytes.fromhex(secret), b"oblidb run check" + bytes.fromhex(salt), "sha256").digest()[:16].hex()


def saved_mark(region, blocks, number, pack, salt, secret=SECRET):
    """The mark of tables that were saved so."""
    return f"saved {region} {blocks} {number} {pack} {salt} {check_of(salt, secret)}"


class Died(Exception):
    """A call of the store failed."""


class Stop(Exception):
    """The run ends with this line and this status."""


def inserted(slots, key, value):
    if isinstance(value, str):
        return "E05 wrong type", slots
    if key in [row[0] for row in slots if row]:
        return "E10 duplicate", slots
    if None not in slots:
        return "E11 full", slots
    free = slots.index(None)
    return "= inserted", slots[:free] + ((key, value),) + slots[free + 1 :]


def updated(slots, value):
    return f"= {len(slots) - slots.count(None)} updated", tuple(row and (row[0], value) for row in slots)


def deleted(slots, key):
    left = tuple(None if row and row[0] == key else row for row in slots)
    return f"= {left.count(None) - slots.count(None)} deleted", left


# What a statement answers over the slots of its table, and those that it leaves.
CHANGES = {"insert": inserted, "update": updated, "delete": deleted}


class Left:
    """What a run leaves: the mark that is held, and the tables that rest for it, each with its region and its slots."""

    def __init__(self, mark="fresh", tables=None):
        self.mark, self.tables = mark, tables or {}

    def numbers(self):
        """The next region, the writes so far, and the closing's region, for the run that goes on from it."""
        word, *rest = self.mark.split()
        if word not in ("closed", "saved"):
            return 1, 0, None
        region, blocks, number = map(int, rest[:3])
        return region + 1, number + blocks - 1, region


class Saved(Run):
    """A run that saves its tables under a secret, from what an earlier one left. Its store dies at an access, its keeper at a
    call, or the sink of its answers does."""

    def __init__(self, pack, left, salts, dies=None, fault=None, unanswered=None, secret=SECRET):
        super().__init__(pack=pack)
        self.left, self.salts, self.secret = left, salts, secret
        self.dies, self.fault, self.unanswered = dies, fault, unanswered
        self.tables = dict(left.tables)
        self.next, self.writes, self.closing = left.numbers()
        self.old, self.salt, self.calls, self.status = None, None, 0, 0
        self.written, self.groups, self.words = 0, [], WORDS.format(pack=pack)

    # ---- the calls of the store and of the keeper
    def ask(self, access):
        self.asked.append(access)
        if self.dies and len(self.asked) >= self.dies:
            raise Died

    def make_of(self, blocks, length):
        region, self.next = self.next, self.next + 1
        self.ask(f"M {region} {blocks} {length}")
        return region

    def make(self, blocks, width):
        return self.make_of(blocks, self.pack * width + 32)

    def read(self, region, place):
        self.ask(f"R {region} {place}")

    def write(self, region, place):
        self.writes += 1
        self.ask(f"W {region} {place}")

    def discard(self, region):
        """A table's region waits for the mark that needs it no more; whether the store failed is nothing to anybody."""
        if region in [held for held, _ in self.tables.values()]:
            self.old = region
        else:
            self.asked.append(f"D {region}")

    def call(self):
        self.calls += 1
        if self.calls == self.fault:
            raise Stop("! keeper fault", 10)

    def hold(self, mark):
        self.call()
        self.left = Left(mark, dict(self.tables))

    # ---- the beginning
    def begin(self):
        self.call()
        self.call()
        self.salt = self.salts.pop(0)
        word, *rest = self.left.mark.split()
        if word == "saved" and rest[5] != check_of(rest[4], self.secret):
            raise Stop("! key", 2)
        if self.left.mark == "fresh":
            self.hold("begun")
        if self.closing:
            try:
                self.open()
            except Died:
                raise Stop("! store fault", 3)

    def open(self):
        blocks = 1 + len(self.tables)
        self.ask(f"O {self.closing} {blocks} {CLOSING}")
        for place in range(blocks):
            self.read(self.closing, place)
        for _, (region, slots) in sorted(self.tables.items()):
            self.ask(f"O {region} {self.blocks(len(slots))} {self.pack * WIDTH + 32}")

    # ---- statements
    def answer(self, it):
        """The lines of the answer of one statement, or those of a batch."""
        if it[0] == "batch":
            return self.batched(it[1])
        kind, name, *rest = it
        if (kind == "create") == (name in self.tables):
            return ["E03 name taken" if kind == "create" else "E02 no table"]
        if kind == "select":
            return self.selected(*self.tables[name])
        before = dict(self.tables)
        try:
            said = self.changed(kind, name, *rest)
        except Died:
            self.tables, self.old = before, None
            return ["E15 store fault"]
        self.save()
        return [said]

    def batched(self, inserts):
        """Those of INSERTs into one table, which are one pass, and are saved once."""
        name, said = inserts[0][1], []
        region, slots = self.tables[name]
        try:
            there = self.insert(region, len(slots), WIDTH)
        except Died:
            return ["E05 wrong type" if isinstance(value, str) else "E15 store fault" for _, _, _, value in inserts]
        for _, _, key, value in inserts:
            line, slots = inserted(slots, key, value)
            said.append(line)
        self.tables[name] = (there, slots)
        self.save()
        return said

    def selected(self, region, slots):
        lines, rows = [], [row for row in slots if row]
        try:
            self.scan(region, len(slots))
            lines.append('"id","v"')
            self.result_of(region, slots, rows, lines)
        except Died:
            return lines + ["E15 store fault"]
        return lines + [f"= {len(rows)} rows"]

    def result_of(self, region, slots, rows, lines):
        """The result of the plan Small, which is in one pass, and its rows as they are emitted."""
        if not rows:
            return
        lines.pop()
        blocks = self.blocks(len(rows))
        out = self.make(blocks, WIDTH)
        self.scan(region, len(slots))
        for place in range(blocks):
            self.write(out, place)
        lines.append('"id","v"')
        for place in range(blocks):
            self.read(out, place)
            lines += [f'"{key}","{value}"' for key, value in rows[place * self.pack : (place + 1) * self.pack]]
        self.discard(out)

    def changed(self, kind, name, *rest):
        """What a statement that isn't refused before its accesses is answered, with its tables changed."""
        if kind == "create":
            self.tables[name] = (self.create(rest[0], WIDTH), (None,) * rest[0])
            return "= created"
        region, slots = self.tables[name]
        if kind == "drop":
            self.old = self.tables.pop(name)[0]
            return "= dropped"
        there = (self.insert if kind == "insert" else self.move)(region, len(slots), WIDTH)
        said, slots = CHANGES[kind](slots, *rest)
        self.tables[name] = (there, slots)
        return said

    def save(self):
        """Lists the tables in a closing, has the keeper hold its mark, and discards what that needs no more."""
        blocks, number = 1 + len(self.tables), self.writes + 1
        try:
            region = self.make_of(blocks, CLOSING)
            for place in range(blocks):
                self.write(region, place)
        except Died:
            raise Stop("! store fault", 3)
        self.hold(saved_mark(region, blocks, number, self.pack, self.salt, self.secret))
        for gone in (self.old, self.closing):
            if gone:
                self.asked.append(f"D {gone}")
        self.old, self.closing = None, region

    # ---- the session
    def serve(self, statements):
        """Each statement's lines, with what it is answered and what it asks, to the end or to a stop."""
        self.words += "".join(f" --batch {len(it[1])}" for it in statements if it[0] == "batch")
        try:
            self.begin()
        except Stop as stop:
            return self.stop(stop, statements, 0, 0)
        self.group([], [], 0)
        for n, it in enumerate(statements):
            before = len(self.asked)
            try:
                said = self.answer(it)
            except Stop as stop:
                return self.stop(stop, statements, n, before)
            calls = self.calls_of(it, said, before)
            for i, call in enumerate(calls):
                self.written += 1
                if self.written == self.unanswered:
                    return self.unread(sum((texts for texts, _, _ in calls[i:]), []) + texts_of(statements[n + 1 :]))
                self.group(*call)
            self.status = max(self.status, *[int(line.startswith("E")) for line in said])
        return self

    def calls_of(self, it, said, before):
        """The calls of the sink for a statement: of a batch the first line, whose accesses are traced then, and the others."""
        texts = texts_of([it])
        if it[0] != "batch":
            return [(texts, said, before)]
        return [(texts[:1], said[:1], before), (texts[1:], said[1:], len(self.asked))]

    def group(self, texts, said, before):
        """What is typed, asked and answered of these texts, in this order."""
        self.groups.append([*[f"> {text}" for text in texts], *spelt(self.asked[before:]), *[f"< {line}" for line in said]])

    def unread(self, texts):
        """Nobody reads what is answered to these."""
        self.status = 6
        self.groups += [[f"> {text}"] for text in texts]
        return self

    def stop(self, stop, statements, n, before):
        line, self.status = stop.args
        self.group(texts_of(statements[n : n + 1]), [line], before)
        self.groups += [[f"> {text}"] for text in texts_of(statements[n + 1 :])]
        return self

    def lines(self):
        """The lines of the run."""
        lines = [f"words {self.words}", *([f"key {self.secret}"] if self.secret != SECRET else [])]
        for head, n in (("dies", self.dies), ("writes fail", self.unanswered)):
            lines += [f"{head} {n}"] if n else []
        body = [line for group in self.groups for line in group]
        for head in ("<", "@"):
            body += [head] if not any(line.startswith(f"{head} ") for line in body) else []
        return [*lines, *body, *([f"status {self.status}"] if self.status else []), f"mark {self.left.mark}"]

    def typed(self):
        """The same without what is answered and asked, of a run that another case spells."""
        return [line for line in self.lines() if line[0] not in "<@"]


def texts_of(statements):
    """The texts of these, and of batches."""
    return [text_of(it) for one in statements for it in (one[1] if one[0] == "batch" else [one])]


class SavedText(Run):
    """A run over generated text that saves its tables, from none."""

    def __init__(self, **settings):
        super().__init__(**settings)
        self.tables, self.saved, self.old, self.closing, self.mark = [], [], None, None, "begun"

    def create(self, slots, width):
        self.tables.append(super().create(slots, width))
        return self.tables[-1]

    def insert(self, region, slots, width):
        self.tables.append(super().insert(region, slots, width))
        return self.tables[-1]

    def move(self, region, slots, width):
        self.tables.append(super().move(region, slots, width))
        return self.tables[-1]

    def discard(self, region):
        if region in self.tables:
            self.tables.remove(region)
            self.old = region
        else:
            super().discard(region)

    def count(self, answered, rows=0):
        """After a statement that changed tables they are saved."""
        super().count(answered, rows)
        if self.tables != self.saved:
            self.save()

    def save(self):
        blocks, number = 1 + len(self.tables), 1 + sum(access.startswith("W") for access in self.asked)
        region, self.next = self.next, self.next + 1
        self.asked.append(f"M {region} {blocks} {CLOSING}")
        for place in range(blocks):
            self.write(region, place)
        self.mark = saved_mark(region, blocks, number, self.pack, SALTS[0])
        for gone in (self.old, self.closing):
            if gone:
                super().discard(gone)
        self.saved, self.old, self.closing = list(self.tables), None, region


def text_of(it):
    kind, name, *rest = it
    return {
        "create": "CREATE TABLE {0} (id INT PRIMARY KEY, v INT) CAPACITY {1};",
        "insert": "INSERT INTO {0} VALUES ({1}, {2});",
        "update": "UPDATE {0} SET v = {1};",
        "delete": "DELETE FROM {0} WHERE id = {1};",
        "drop": "DROP TABLE {0};",
        "select": "SELECT * FROM {0};",
    }[kind].format(name, *rest)


def spelt(asked):
    """These accesses, in lines."""
    lines = []
    for access in asked:
        if not lines or len(lines[-1]) + len(access) > 100:
            lines.append("@ " + access)
        else:
            lines[-1] += ", " + access
    return lines


class Session:
    """What is typed in a run that is to die, after what an earlier run has left, and in the run that goes on."""

    def __init__(self, name, before, statements, then):
        self.name, self.before, self.statements, self.then = name, before, statements, then

    def case(self, pack, name, **death):
        """The case in which the run dies so, and the run itself."""
        salts, left, body, calls = list(SALTS), Left(), [], 0
        if self.before:
            first = Saved(pack, left, salts).serve(self.before)
            left, calls = first.left, first.calls + 1
            body += [*(first.typed() if death else first.lines()), "then"]
        dying = Saved(pack, left, salts, **death).serve(self.statements)
        after = Saved(pack, dying.left, salts).serve(self.then)
        faults = [f"faults {calls + dying.fault}"] if dying.fault else []
        head = [f"case {self.name}{name}", "keeper fresh", f"salts {', '.join(SALTS)}", *faults]
        return "\n".join([*head, *body, *dying.lines(), "then", *after.lines()]) + "\n", dying

    def cases(self, pack):
        """The case in which it doesn't die, and those in which it does, at each of its calls up to the second statement."""
        by = "" if pack == 1 else f", {pack} rows in a block"
        whole, lived = self.case(pack, by)
        _, first = Session(self.name, self.before, self.statements[:1], []).case(pack, by)
        found = [whole]
        for n in range(1, len(first.asked) + 1):
            at = lived.asked[n - 1]
            found.append(self.case(pack, f"{by}: the store dies at {at}", dies=n)[0])
            if at.startswith("D"):
                found.append(self.case(pack, f"{by}: all die at {at}", dies=n, unanswered=1)[0])
        for n in range(1, first.calls + 1):
            found.append(self.case(pack, f"{by}: the keeper dies at its call {n}", fault=n)[0])
        for n in range(1, first.written + 1):
            answer = "its answer is" if n == 1 else "the answers behind its first are"
            found.append(self.case(pack, f"{by}: {answer} never taken", unanswered=n)[0])
        return found


def sessions(pack):
    size = 4 if pack == 1 else 20
    filled = [("create", "t", size), ("insert", "t", 1, 10)]
    more, look = ("insert", "t", 9, 90), [("select", "t"), ("insert", "t", 7, 70)]
    return [
        Session("the first CREATE", [], [("create", "t", size), more], look),
        Session("CREATE", filled, [("create", "a", 2), more], [("select", "a"), *look]),
        Session("INSERT", filled, [("insert", "t", 2, 20), more], look),
        Session("INSERT of a key that is there", filled, [("insert", "t", 1, 20), more], look),
        Session("a batch of INSERTs", filled, [("batch", [("insert", "t", 2, 20), ("insert", "t", 3, "'a'"), ("insert", "t", 1, 11)]), more], look),
        Session("INSERT into a full table", [("create", "t", 1), ("insert", "t", 1, 10)], [("insert", "t", 2, 20), ("update", "t", 5)], look[:1]),
        Session("UPDATE", filled, [("update", "t", 5), more], look),
        Session("DELETE", filled, [("delete", "t", 1), more], look),
        Session("DROP", [*filled, ("create", "u", 2)], [("drop", "u"), more], [("select", "u"), *look]),
        Session("SELECT", filled, [("select", "t"), more], look),
        Session("a refusal before any access", filled, [("insert", "u", 1, 1), more], look),
    ]


def changed(pack):
    """Two runs, between which others change a block of the closing or of a table."""
    salts = list(SALTS)
    size = 4 if pack == 1 else 20
    first = Saved(pack, Left(), salts).serve([("create", "t", size), ("insert", "t", 1, 10)])
    second = Saved(pack, first.left, salts)
    before = first.left.mark
    second.serve([("update", "t", 5)])
    body = second.lines()
    at = next(n for n, line in enumerate(body) if line.startswith("@"))
    head = [f"case others change what rests, {pack} rows in a block", "keeper fresh", f"salts {', '.join(SALTS)}"]
    each = [f"each block {how}" for how in ("flipped 0", "put back", "exchanged")]
    return "\n".join([*head, *first.lines(), "then", *body[:at], f"mark {before}", *body[at:], *each]) + "\n"


def locked(pack):
    """A run under another secret over saved tables, which asks for nothing and leaves the mark; then one under theirs."""
    salts, look = list(SALTS), [("select", "t"), ("insert", "t", 7, 70)]
    first = Saved(pack, Left(), salts).serve([("create", "t", 4 if pack == 1 else 20), ("insert", "t", 1, 10)])
    other = Saved(pack, first.left, salts, secret=OTHER).serve(look)
    after = Saved(pack, other.left, salts).serve(look)
    head = [f"case another secret over saved tables, {pack} rows in a block", "keeper fresh", f"salts {', '.join(SALTS)}"]
    return "\n".join([*head, *first.lines(), "then", *other.lines(), "then", *after.lines()]) + "\n"


def generated(name, start, rows, words="", **settings):
    """A run over generated text, of which the summary and the mark are told."""
    run = SavedText(**settings)
    run.serve(start, rows)
    name, words = f"{name}\nkeeper fresh\nsalts {SALTS[0]}", f"--save --gen {start},{rows}{words}"
    return case(name, words, run.summary(), 1 if run.refused else 0) + f"mark {run.mark}\n"


def main():
    cases = [one for pack in (1, 16) for it in sessions(pack) for one in it.cases(pack)]
    cases += [changed(pack) for pack in (1, 16)]
    cases += [locked(pack) for pack in (1, 16)]
    cases += [
        generated("generated text", 0, 1),
        generated("generated text, three rows in a block", 5, 40, " --buffer 10 --pack 3", buffer=10, pack=3),
        generated("generated text, in batches", 5, 40, " --batch 16", batch=16),
    ]
    head = "# Runs that save their tables, and die, and those that go on from what they left. Written by gen/saved.py.\n"
    (DATA / "saved.case").write_text(head + "\n" + "\n".join(cases))
    print(f"{len(cases)} cases")


if __name__ == "__main__":
    main()
