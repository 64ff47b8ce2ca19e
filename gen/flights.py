#!/usr/bin/env python3
"""Writes crates/ob_cases/data/flights.case: SELECTs that ask in turns. Which of them are served together, whose turn it is, what
is asked, and what is answered and where it ends, is told here from docs/SPECIFICATION.md; nothing that the program answers goes
into it. It needs python3 alone, and takes a second.
"""
import pathlib
import random

from generated import Run, up
from generated import case as without_input
from padded import lines_of
from saved import saved_mark

DATA = pathlib.Path(__file__).resolve().parent.parent / "crates/ob_cases/data"
WIDTH, PIECE = 17, 8192
SALTS = ["0a" * 16, "ff" * 16]
# of each table its columns, its slots and its rows
TABLES = {"t": (("id", "v"), 4, [(1, 10), (2, 20), (3, 10), (4, 20)]), "u": (("k", "w"), 3, [(1, 7), (2, 8), (3, 9)])}
SMALL = {"t": (("id", "v"), 2, [(1, 10), (2, 20)]), "u": (("k", "w"), 1, [(2, 8)])}
ROOMY = {"t": (("id", "v"), 6, [(1, 10), (2, 20), (3, 10), (4, 20)]), "u": TABLES["u"]}


def words_from(start):
    """The words that tell whose turn it is."""
    x = start
    while True:
        x = (x * 6364136223846793005 + 1442695040888963407) % 2**64
        yield x // 2**33


def fields(values):
    return ",".join(f'"{value}"' for value in values)


# ---- what a statement asks, and prints after it


class Act:
    """An access of a statement, of the region that it makes where none is named. It prints a header before it and rows behind."""

    def __init__(self, kind, region=None, place=None, shape=None, header=None, rows=()):
        self.kind, self.region, self.place, self.shape, self.header, self.rows = kind, region, place, shape, header, list(rows)

    def prints(self):
        return self.kind == "R" and self.region is None


class Statement:
    """A SELECT, the accesses that it asks in its part of the buffer, and its answer: `left` is what it prints of that once it
    has asked all."""

    def __init__(self, text, acts=(), left=(), line=None):
        self.text, self.acts, self.left, self.line = text, list(acts), list(left), line
        self.asked, self.made, self.over, self.failed, self.said = 0, None, False, False, []

    def next(self):
        return self.acts[self.asked] if not self.failed and self.asked < len(self.acts) else None

    def may_go(self, is_first):
        act = self.next()
        return not self.over and (is_first or not (act is None or act.prints()))


class Table:
    """A table in the store, in blocks of some rows."""

    def __init__(self, name, columns, slots, pack):
        self.name, self.columns, self.slots, self.pack, self.rows, self.region = name, columns, slots, pack, [], None

    def scan(self):
        return [Act("R", self.region, u) for u in range(up(self.slots, self.pack))]


def rows_of(table, where, test, part, pad, width=WIDTH):
    """A SELECT of rows, by Small in this part of the buffer."""
    pack, chosen = table.pack, [row for row in table.rows if test(row)]
    header, text = fields(table.columns), f"SELECT * FROM {table.name}{where};"
    size = len(chosen) if pad is None else min(pad, table.slots)
    passed = pad is not None and len(chosen) > pad
    if size == 0:
        return Statement(text, table.scan(), [header], "= 0 rows")
    chunk = (part - 2 * pack) // pack * pack
    acts = table.scan() + [Act("M", shape=(up(size, pack), pack * width + 32))]
    for j in range(up(size, chunk)):
        acts += table.scan()
        acts += [Act("W", place=x) for x in range(j * chunk // pack, up(min(size, (j + 1) * chunk), pack))]
    for x in range(up(size, pack)):
        shown = [] if passed else [fields(row) for row in chosen[x * pack : (x + 1) * pack]]
        acts.append(Act("R", place=x, header=header if x == 0 and not passed else None, rows=shown))
    acts.append(Act("D"))
    return Statement(text, acts, [], "E16 pad passed" if passed else f"= {len(chosen)} rows")


def totals_of(table):
    value = table.columns[1]
    total = sum(row[1] for row in table.rows) if table.rows else "NULL"
    shown = [fields(("COUNT(*)", f"SUM({value})")), fields((len(table.rows), total))]
    return Statement(f"SELECT COUNT(*), SUM({value}) FROM {table.name};", table.scan(), shown, "= 1 rows")


def groups_of(table, at, part):
    """GROUP BY, which is refused where there are more groups than rows may be kept."""
    key, found = table.columns[at], list(dict.fromkeys(row[at] for row in table.rows))
    text = f"SELECT {key}, COUNT(*) FROM {table.name} GROUP BY {key};"
    if len(found) > (part - 2 * table.pack) // table.pack * table.pack:
        return Statement(text, table.scan(), [], "E12 too many groups")
    shown = [fields((value, sum(row[at] == value for row in table.rows))) for value in found]
    return Statement(text, table.scan(), [fields((key, "COUNT(*)")), *shown], f"= {len(found)} rows")


# ---- statements, each made for a session and its part of the buffer


def rows_with(name, where, test):
    return lambda session, part: rows_of(session.tables[name], where, test, part, session.run.pad)


def refused(text, line):
    return lambda session, part: Statement(text, [], [], line)


two = rows_with("t", " WHERE v = 10", lambda row: row[1] == 10)
others = rows_with("t", " WHERE v = 20", lambda row: row[1] == 20)
first = rows_with("t", " WHERE id = 1", lambda row: row[0] == 1)
all_rows = rows_with("t", "", lambda row: True)
none = rows_with("t", " WHERE v = 99", lambda row: False)
one_other = rows_with("u", " WHERE k = 2", lambda row: row[0] == 2)
all_others = rows_with("u", "", lambda row: True)
no_table = refused("SELECT * FROM x;", "E02 no table")
no_column = refused("SELECT COUNT(*) FROM t WHERE z = 1;", "E04 no column")
wrong_type = refused("SELECT SUM(id) FROM t WHERE id = 'a';", "E05 wrong type")


def totals(session, part):
    return totals_of(session.tables["t"])


def other_totals(session, part):
    return totals_of(session.tables["u"])


def by_value(session, part):
    return groups_of(session.tables["t"], 1, part)


def by_key(session, part):
    return groups_of(session.tables["t"], 0, part)


class Other:
    """A text that isn't served in flight: what it asks of a session, and what it is answered."""

    def __init__(self, text, does):
        self.text, self.does = text, does


def said(text, *lines):
    """One that asks nothing."""
    return Other(text, lambda session: list(lines))


def insert(name, row):
    def does(session):
        table = session.tables[name]
        table.region = session.run.insert(table.region, table.slots, WIDTH)
        if name == "t" and any(it[0] == row[0] for it in table.rows):
            return ["E10 duplicate"]
        if len(table.rows) == table.slots:
            return ["E11 full"]
        table.rows.append(row)
        return ["= inserted"]

    return Other(f"INSERT INTO {name} VALUES ({row[0]}, {row[1]});", does)


def moved(text, change):
    """An UPDATE or a DELETE of t: this makes its rows anew, and tells what is answered."""

    def does(session):
        table = session.tables["t"]
        table.region = session.run.move(table.region, table.slots, WIDTH)
        table.rows, line = change(table.rows)
        return [line]

    return Other(text, does)


update = moved("UPDATE t SET v = 10 WHERE id = 2;", lambda rows: ([(i, 10 if i == 2 else v) for i, v in rows], "= 1 updated"))
delete = moved("DELETE FROM t WHERE v = 10;", lambda rows: ([row for row in rows if row[1] != 10], f"= {sum(row[1] == 10 for row in rows)} deleted"))


def drop(session):
    session.run.discard(session.tables.pop("t").region)
    return ["= dropped"]


def join(session):
    t, u = session.tables["t"], session.tables["u"]
    pairs = [(*left, *right) for right in u.rows for left in t.rows if left[0] == right[0]]
    session.run.join(t.region, t.slots, u.region, u.slots, 33, list(range(len(pairs))))
    return [fields(("t.id", "t.v", "u.k", "u.w")), *map(fields, pairs), f"= {len(pairs)} rows"]


# An index of one key, with a stash of one slot: its tree has one bucket.
def index_made(session):
    run = session.run
    session.tree = run.next
    run.next += 2
    run.asked += [f"M {session.tree} 4 49", *[f"W {session.tree} {x}" for x in range(4)], f"M {session.tree + 1} 1 49", f"W {session.tree + 1} 0"]
    return ["= created"]


def index_access(*lines):
    def does(session):
        tree, run = session.tree, session.run
        run.asked += [f"R {tree + 1} 0", *[f"R {tree} {x}" for x in range(4)], *[f"W {tree} {x}" for x in range(4)], f"W {tree + 1} 0"]
        return list(lines)

    return does


# ---- flights


class Flight:
    """What these statements ask in turns, and print: the lines of each, and all of them with how many accesses were asked when
    each was printed. Accesses `fails` aren't carried out, and at `stops` a block was changed."""

    def __init__(self, statements, words, run, fails=(), stops=None):
        self.statements, self.run, self.fails, self.stops, self.printed, self.stopped = statements, run, fails, stops, [], None
        while not all(it.over for it in statements) and self.stopped is None:
            head = next(it for it in statements if not it.over)
            going = [it for it in statements if it.may_go(it is head)]
            picked = going[next(words) % len(going)]
            act = picked.next()
            if act is None:
                picked.over = True
                self.print(picked, ["E15 store fault"] if picked.failed else [*picked.left, picked.line])
            else:
                self.ask(picked, act)

    def print(self, it, lines):
        it.said += lines
        self.printed += [(line, len(self.run.asked)) for line in lines]

    def ask(self, it, act):
        it.asked += 1
        if act.header:
            self.print(it, [act.header])
        if act.kind == "M":
            it.made = self.make(*act.shape)
        else:
            region = it.made if act.region is None else act.region
            place = "" if act.place is None else f" {act.place}"
            self.run.asked.append(f"{act.kind} {region}{place}")
        number = len(self.run.asked)
        if number in self.fails and act.kind != "D":
            it.failed = True
        elif number == self.stops:
            self.stopped = f"! tampered {self.run.asked[-1][2:]}"
        else:
            self.print(it, act.rows)

    def make(self, blocks, length):
        region, self.run.next = self.run.next, self.run.next + 1
        self.run.asked.append(f"M {region} {blocks} {length}")
        return region


class Step:
    """Texts that are answered by one call of the sink, where that is no longer than a piece: the lines of each, and what was
    asked."""

    def __init__(self, texts, lines, asked, flight=None):
        self.texts, self.lines, self.asked, self.flight = texts, lines, asked, flight

    def said(self):
        return sum(self.lines, [])


class Session:
    """A session that fills its tables, and goes on with what it is given."""

    def __init__(self, most, start, buffer, pack=1, pad=None, tables=TABLES, names=("t",), words="", salt=None):
        self.most, self.start, self.buffer = most, start, buffer
        self.run = Run(buffer=buffer, pack=pack, pad=pad)
        self.turns, self.tables, self.steps, self.stopped, self.untyped = words_from(start), {}, [], None, []
        self.shape = " ".join([f"--flight {most},{start}", f"--buffer {buffer}", *([f"--pack {pack}"] if pack > 1 else []), *([f"--pad {pad}"] if pad else []), *words.split()])
        for name in names:
            columns, slots, rows = tables[name]
            self.do(Other(f"CREATE TABLE {name} ({columns[0]} INT{' PRIMARY KEY' if name == 't' else ''}, {columns[1]} INT) CAPACITY {slots};", self.created(name, columns, slots)))
            for row in rows:
                self.do(insert(name, row))
        self.filled = len(self.steps)

    def created(self, name, columns, slots):
        def does(session):
            self.tables[name] = Table(name, columns, slots, self.run.pack)
            self.tables[name].region = self.run.create(slots, WIDTH)
            return ["= created"]

        return does

    def limit(self):
        return max(1, min(self.most, self.buffer // (3 * self.run.pack + 1)))

    def do(self, other):
        before = len(self.run.asked)
        lines = other.does(self)
        self.steps.append(Step([other.text], [lines], self.run.asked[before:]))

    def fly(self, makers, fails, stops):
        """These are served together; one that is alone takes no word."""
        if not makers:
            return
        before, built = len(self.run.asked), [make(self, self.buffer // len(makers)) for make in makers]
        flight = Flight(built, self.turns if len(built) > 1 else iter(lambda: 0, None), self.run, fails, stops)
        self.steps.append(Step([it.text for it in built], [it.said for it in built], self.run.asked[before:], flight))
        self.stopped = flight.stopped

    def serve(self, items, fails=(), stops=None):
        """Serves texts, those in flight as many at once as may be, and tells itself."""
        waiting = []
        for item in items:
            if self.stopped:
                self.steps.append(Step([item.text if isinstance(item, Other) else item(self, self.buffer).text], [[]], []))
            elif isinstance(item, Other):
                self.fly(waiting, fails, stops)
                waiting = []
                if self.stopped:
                    self.steps.append(Step([item.text], [[]], []))
                else:
                    self.do(item)
            else:
                waiting.append(item)
                if len(waiting) == self.limit():
                    self.fly(waiting, fails, stops)
                    waiting = []
        if not self.stopped:
            self.fly(waiting, fails, stops)
        return self

    def said(self):
        return sum((step.said() for step in self.steps), []) + ([self.stopped] if self.stopped else [])

    def status(self):
        return 4 if self.stopped else int(any(line[0] == "E" for line in self.said()))

    def before(self):
        """How many accesses filled the tables."""
        return sum(len(step.asked) for step in self.steps[: self.filled])

    def typed(self):
        return [f"> {text}" for step in self.steps for text in step.texts]


def changed(at, stopped):
    """The change before this access by which a run stops so."""
    return f"{at}:flip:{stopped.split(' ', 2)[2].replace(' ', '.')}.0"


def accesses(asked):
    return [f"@ {line}" for line in lines_of(asked) if line]


def spelt(name, session, more="", lines=(), rest=(), stop=None, status=None, apart=False, by_text=False):
    """A case of what a session came to, with these words and lines more, behind which that is typed and the run stops. What
    filled its tables is told in numbers, unless it stands apart; the lines stand by their texts where they are cut there."""
    typed, out = lambda step: [f"> {text}" for text in step.texts], [f"case {name}", f"words {' '.join([session.shape, *more.split()])}", *lines]
    if by_text:
        for step in session.steps:
            for text, said in zip(step.texts, step.lines):
                out += [f"> {text}", *[f"< {line}" for line in said]]
        out += [f"@ {session.before()}", *accesses(sum((step.asked for step in session.steps[session.filled :]), []))]
    elif apart:
        for step in session.steps:
            out += [*typed(step), *[f"< {line}" for line in step.said()], *accesses(step.asked)]
    else:
        fill, later = session.steps[: session.filled], session.steps[session.filled :]
        out += [*sum(map(typed, fill), []), *[f"< {line}" for step in fill for line in step.said()], f"@ {session.before()}"]
        for step in later:
            out += [*typed(step), *[f"< {line}" for line in step.said()], *accesses(step.asked)]
    out += rest
    if session.stopped or stop:
        out.append(f"< {session.stopped or stop}")
    if status is None:
        status = session.status()
    return "\n".join([*out, f"status {status}", ""])


def flown(name, most, start, buffer, items, more="", fails=(), stops=None, **settings):
    return spelt(name, Session(most, start, buffer, **settings).serve(items, fails, stops), more)


# ---- sinks that are full, or fail


def fed(session, count):
    """The texts of all steps, with what the first so many are answered."""
    return [line for n, step in enumerate(session.steps) for line in [*[f"> {text}" for text in step.texts], *[f"< {line}" for line in step.said() if n < count]]]


def full(name, session, size):
    """The sink of the answers takes so many bytes: the step that passes them has asked all, and isn't traced."""
    taken, at = 0, 0
    for at, step in enumerate(session.steps):
        taken += sum(len(line) + 1 for line in step.said())
        if taken > size:
            break
    traced = accesses(sum((step.asked for step in session.steps[:at]), []))
    asked = sum(len(step.asked) for step in session.steps[: at + 1])
    return "\n".join([f"case {name}", f"words {session.shape}", f"writes hold {size}", *fed(session, at + 1), *(traced or ["@"]), f"written {size}", f"asked {asked}", "status 6", ""])


def untraced(name, session, size):
    """The sink of the accesses takes so many bytes: what asked those after them is answered, and nothing follows."""
    taken, at = 0, 0
    for at, step in enumerate(session.steps):
        taken += sum(len(access) + 1 for access in step.asked)
        if taken > size:
            break
    asked = sum((step.asked for step in session.steps[: at + 1]), [])
    return "\n".join([f"case {name}", f"words {session.shape}", f"traces hold {size}", *fed(session, at + 1), *accesses(asked), f"traced {size}", f"asked {len(asked)}", "status 6", ""])


def ends_of(sizes, after):
    """Where those lines begin that end after so many bytes."""
    begun, begins = 0, []
    for size in sizes:
        if begun >= after:
            begins.append(begun)
        begun += size
    return begins


def sinks():
    """Each line of a flight's answers and accesses is the first that isn't written, and some are cut."""
    cases, make = [], lambda: Session(2, 0, 8, tables=SMALL).serve([first, all_rows, totals, none])
    session = make()
    lines, asked = session.said(), session.run.asked
    filled = sum(len(line) + 1 for step in session.steps[: session.filled] for line in step.said())
    for size in ends_of([len(line) + 1 for line in lines], filled):
        cases.append(full(f"the sink is full behind {size} bytes of answers", make(), size))
    cases.append(full("the sink is full within a row", make(), filled + 12))
    cases.append(full("the sink is full within the end of a line", make(), filled + len(session.steps[session.filled].lines[0][0])))
    fill = sum(len(access) + 1 for step in session.steps[: session.filled] for access in step.asked)
    for size in ends_of([len(access) + 1 for access in asked], fill):
        cases.append(untraced(f"the trace is full behind {size} bytes", make(), size))
    cases.append(untraced("the trace is full within an access", make(), fill + 3))
    return cases


# Rows of 8,096 bytes, of which a piece that is handed to the sink has 8,192: one is handed on where more comes.
LONG = {"t": (("id", "s"), 2, [(1, "x" * 250), (2, "y" * 250)])}


def long_rows(where, test):
    """A SELECT of a column 32 times."""

    def made(session, part):
        table = session.tables["t"]
        built = rows_of(table, where, test, part, None, 260)
        built.text = f"SELECT {', '.join(['s'] * 32)} FROM t{where};"
        for act in built.acts:
            if act.prints():
                act.header = act.header and fields(["s"] * 32)
                act.rows = [fields([row[1]] * 32) for row in [row for row in table.rows if test(row)][act.place : act.place + 1]]
        return built

    return made


def long_filled():
    """A session whose table has a text in each row."""
    session = Session(2, 0, 8, names=())
    table = session.tables["t"] = Table("t", ("s",), 2, 1)

    def created(session):
        table.region = session.run.create(2, 260)
        return ["= created"]

    def inserted(row):
        def does(session):
            table.region = session.run.insert(table.region, 2, 260)
            table.rows.append(row)
            return ["= inserted"]

        return does

    session.do(Other("CREATE TABLE t (id INT PRIMARY KEY, s VARCHAR(250)) CAPACITY 2;", created))
    for i, letter in ((1, "x"), (2, "y")):
        row = (i, letter * 250)
        session.do(Other(f"INSERT INTO t VALUES ({i}, '{row[1]}');", inserted(row)))
    session.filled = len(session.steps)
    return session.serve([long_rows("", lambda row: True), long_rows(" WHERE id > 0", lambda row: row[0] > 0)])


def pieces():
    """Calls of the sink that fail within a flight: the flight stops at the line that doesn't fit, and isn't traced."""
    session, cases = long_filled(), []
    calls, printed, step = session.filled, session.steps[-1].flight.printed, session.steps[-1]
    held, ends = 0, []
    for line, asked in printed:
        held += len(line) + 1
        ends += [asked] * ((held - 1) // PIECE - len(ends))
    ends.append(len(session.run.asked))
    before = sum(len(line) + 1 for it in session.steps[:-1] for line in it.said())
    for n, asked in enumerate(ends):
        lines = [f"case call {calls + n + 1} of the sink fails, behind {n} pieces of a flight", f"words {session.shape}", f"writes fail {calls + n + 1}", *fed(session, len(session.steps))]
        lines += [*accesses(sum((it.asked for it in session.steps[:-1]), [])), f"written {before + n * PIECE}", f"asked {asked}", "status 6", ""]
        cases.append("\n".join(lines))
    cases.append(spelt("pieces of a flight that are all taken", session, apart=True))
    return cases


def stopped_sinks():
    """A block is changed, and then a sink takes no more: the status is that of the block."""
    cases = []
    make = lambda: Session(2, 0, 8, tables=SMALL)
    at = make().before() + len(make().serve([first, all_rows]).steps[-1].asked) - 1
    session = make().serve([first, all_rows], stops=at)
    answered = sum(len(line) + 1 for line in session.said()[:-1])
    asked = [it for step in session.steps for it in step.asked]
    for name, sink, size, lines in [
        ("what was printed before it", "writes", answered - 3, None),
        ("its line", "writes", answered + 5, session.said()),
        ("its trace", "traces", sum(len(it) + 1 for it in asked) - 2, session.said()[:-1]),
    ]:
        words = f"case a block is changed, and the sink is full within {name}", f"words {session.shape} --meddle {changed(at, session.stopped)}", f"{sink} hold {size}"
        typed, said = session.typed(), [f"< {line}" for line in (lines or session.said()[:-1])]
        if sink == "traces":
            told = [*accesses(asked), f"traced {size}"]
        else:
            told = [*accesses(asked if lines else [it for step in session.steps[:-1] for it in step.asked]), f"written {size}"]
        cases.append("\n".join([*words, *typed, *said, *told, f"asked {len(asked)}", "status 4", ""]))
    return cases


# ---- the end of the input, and what ends its reading


def readings():
    """What waits is served before the reading stops, and where it stops itself that comes first."""
    cases, far = [], ["times 1366 ---", ">"]
    for name, items in (("none waits", [two, totals, others]), ("one waits", [two, totals, others, totals]), ("two wait", [two, totals])):
        for what, lines, rest, stop, status in [
            ("the second read fails", ["reads fail 2"], [], "! source fault", 5),
            ("the second read fails within a text", ["reads fail 2"], ["times 1 SELECT * FROM t"], "! source fault", 5),
            ("a text is over its limit", [], ["times 65536 x"], "! input limit", 8),
            ("the input is over its limit", [], ["times 1024 -"], "! input limit", 8),
            ("a text without its semicolon ends the input", [], ["times 1 SELECT COUNT(*) FROM t"], "E01 syntax 22", 1),
            ("blanks and a comment end the input", [], ["times 1  -- SELECT * FROM t;"], None, 0),
        ]:
            session = Session(3, 1, 12).serve(items)
            more = "--max-input 1024" if "input is over" in what else ""
            cases.append(spelt(f"{what}, and {name}", session, more, lines, rest, stop, status))
    for what, lines, rest in [("the second read fails", ["reads fail 2"], []), ("a text is over its limit", [], ["times 65536 x"])]:
        probe = Session(3, 1, 12).serve([two, totals])
        at = len(probe.run.asked) - 2
        session = Session(3, 1, 12).serve([two, totals], stops=at)
        change = f"--meddle {changed(at, session.stopped)}"
        cases.append(spelt(f"a block is changed before {what}", session, change, lines, rest))
    session = Session(3, 1, 12).serve([two, totals])
    held = sum(len(line) + 1 for line in session.said()) - 4
    lines = ["reads fail 2", f"writes hold {held}"]
    told = [f"written {held}", f"asked {len(session.run.asked)}"]
    traced = session.steps.pop()
    session.steps.append(Step(traced.texts, traced.lines, []))
    cases.append(spelt("the sink is full before the second read fails", session, "", lines, told, None, 6))
    # the first read ends within a comment, which 4,096 bytes don't hold
    for name, lines, items, later, stop, status in [
        ("a flight goes on over two reads", [], [two, totals, others], 1, None, 0),
        ("the second read of a flight fails", ["reads fail 2"], [two, totals], 0, "! source fault", 5),
    ]:
        session = Session(3, 1, 12).serve(items)
        last = session.steps[-1]
        typed = [f"> {text}" for text in last.texts]
        typed[len(typed) - later : len(typed) - later] = far
        if not later:
            typed.append("> SELECT * FROM t;")
        fill = session.steps[: session.filled]
        out = [f"case {name}", f"words {session.shape}", *lines, *[f"> {text}" for step in fill for text in step.texts], *typed, *[f"< {line}" for line in session.said()]]
        out += [f"< {stop}"] if stop else []
        cases.append("\n".join([*out, f"@ {session.before()}", *accesses(last.asked), f"status {status}", ""]))
    session = Session(2, 3, 8, tables=SMALL).serve([first, totals, no_table, all_rows])
    parts = ["--keep --flight 2,5", "--save --flight 3,0", "--save --flight 8,1 --pad 2"]
    cases.append(spelt("a session of two flights", session, rest=["each byte last", *[f"each statement parts {it}" for it in parts]], by_text=True))
    session = Session(2, 3, 8, tables=SMALL).serve([first, totals, no_table, all_rows])
    cases.append(spelt("the same, whose sinks fail", session, rest=["each answer fails", "each trace fails"], apart=True))
    return cases


# ---- other texts between them


def between():
    """What isn't gathered ends a flight, and finds what was there before."""
    index = said("CREATE TABLE x (id INT PRIMARY KEY, v INT) CAPACITY 1 INDEXED;")
    index.does = index_made
    put, get = Other("INSERT INTO x VALUES (0, 5);", index_access("= inserted")), Other("SELECT * FROM x WHERE id = 0;", index_access('"id","v"', '"0","5"', "= 1 rows"))
    joined = Other("SELECT * FROM t JOIN u ON t.id = u.k;", join)
    cases = []
    for name, items, settings in [
        ("an INSERT", [two, totals, insert("t", (5, 10)), two, totals], {}),
        ("an INSERT of a key that is there, and one more", [two, insert("t", (1, 9)), insert("t", (6, 10)), two, totals], {}),
        ("an UPDATE, a DELETE and a DROP", [two, totals, update, two, others, delete, all_rows, totals, Other("DROP TABLE t;", drop), refused("SELECT * FROM t;", "E02 no table"), refused("SELECT COUNT(*) FROM t;", "E02 no table")], {}),
        ("statements that are refused", [two, totals, said("CREATE TABLE t (a INT) CAPACITY 4;", "E03 name taken"), others, said("DELETE FROM x;", "E02 no table"), two, totals], {}),
        ("a text that is no statement", [two, totals, said("SELECT FROM t;", "E01 syntax 7"), others, all_rows], {}),
        ("a text that is no statement, behind one alone", [two, said("SELECT FROM t;", "E01 syntax 7"), others], {}),
        ("a join", [two, one_other, joined, others, totals], {"names": ("t", "u")}),
        ("a join that is refused", [two, totals, said("SELECT * FROM t JOIN x ON t.id = x.a;", "E02 no table"), others, totals], {}),
        ("SELECTs of an index", [index, put, two, totals, get, others, all_rows, get, get], {"words": "--stash 1"}),
        ("SELECTs of an index that are refused", [index, two, totals, said("SELECT COUNT(*) FROM x;", "E18 needs key"), others, said("SELECT * FROM x;", "E18 needs key"), said("SELECT w FROM x WHERE id = 0;", "E04 no column"), two, totals], {"words": "--stash 1"}),
    ]:
        session = Session(8, 6, 40, tables=ROOMY, **settings).serve(items)
        cases.append(spelt(f"{name} between SELECTs", session))
    session = Session(8, 6, 40).serve([two, totals, others])
    typed = sum(([f"> {text}", ">  -- no text;", "> ;", ">"] for text in session.steps[-1].texts), [])
    fill = session.steps[: session.filled]
    out = ["case comments, and semicolons behind nothing, end none", f"words {session.shape}", *[f"> {text}" for step in fill for text in step.texts], *typed, *[f"< {line}" for line in session.said()]]
    cases.append("\n".join([*out, f"@ {session.before()}", *accesses(session.steps[-1].asked), "status 0", ""]))
    return cases


# ---- runs that go on, and a text that is generated


def lasting():
    """Tables that are saved or kept: a flight asks for no closing, and leaves the mark."""
    create, row = "CREATE TABLE t (id INT PRIMARY KEY, v INT) CAPACITY 1;", "INSERT INTO t VALUES (1, 10);"
    flight = ["SELECT * FROM t;", "SELECT COUNT(*) FROM t;"]
    answers = ['"id","v"', '"1","10"', "= 1 rows", '"COUNT(*)"', '"1"', "= 1 rows"]

    def asked(start, region, own, stop=None):
        table = Table("t", ("id", "v"), 1, 1)
        table.region, table.rows = region, [(1, 10)]
        run = Run(buffer=8)
        run.next = own
        built = [rows_of(table, "", lambda row: True, 4, None), Statement(flight[1], table.scan(), ['"COUNT(*)"', '"1"'], "= 1 rows")]
        ran = Flight(built, words_from(start), run, stops=stop)
        return run.asked, ran

    def case(name, words, runs):
        """Runs, each with its words, texts, answers, accesses, lines more, status and mark."""
        out = [f"case {name}", "keeper fresh", *([f"salts {', '.join(SALTS)}"] if words == "--save" else [])]
        for n, (start, typed, lines, got, more, status, mark) in enumerate(runs):
            out += ["then"] if n else []
            out += [f"words {words} --flight 2,{start} --buffer 8", *more, *[f"> {text}" for text in typed], *[f"< {line}" for line in lines], *accesses(got), f"status {status}", f"mark {mark}"]
        return "\n".join([*out, ""])

    saved = ["M 1 1 49", "W 1 0", "M 2 2 1056", "W 2 0", "W 2 1", "M 3 1 49", "R 1 0", "R 1 0", "W 3 0", "M 4 2 1056", "W 4 0", "W 4 1", "D 1", "D 2"]
    opened = ["O 4 2 1056", "R 4 0", "R 4 1", "O 3 1 49"]
    mark = saved_mark(4, 2, 5, 1, SALTS[0])
    own, again = asked(0, 3, 5)[0], asked(9, 3, 5)[0]
    cut, ran = asked(9, 3, 5, 4)
    cases = [
        case("a flight of tables that are saved", "--save", [
            (0, [create, row, *flight], ["= created", "= inserted", *answers], saved + own, [], 0, mark),
            (9, flight, answers, opened + again, [], 0, mark),
        ]),
        case("a block is changed in a flight of tables that are saved", "--save", [
            (0, [create, row], ["= created", "= inserted"], saved, [], 0, mark),
            (9, flight, [*[line for line, _ in ran.printed], ran.stopped], opened + cut, [f"changes {changed(len(opened) + 4, ran.stopped)}"], 4, mark),
        ]),
    ]
    kept = ["M 1 1 49", "W 1 0", "M 2 1 49", "R 1 0", "R 1 0", "W 2 0", "D 1"]
    first_own, later_own = asked(0, 2, 3)[0], asked(9, 2, 5)[0]
    closed, reopened = ["M 4 2 1056", "W 4 0", "W 4 1"], ["O 4 2 1056", "R 4 0", "R 4 1", "O 2 1 49"]
    cut, ran = asked(9, 2, 5, 2)
    fill = (0, [create, row, *flight], ["= created", "= inserted", *answers], kept + first_own + closed, [], 0, "closed 4 2 4 1")
    cases += [
        case("flights of tables that are kept", "--keep", [
            fill,
            (9, flight, answers, [*reopened, *later_own, "D 4", "M 6 2 1056", "W 6 0", "W 6 1"], [], 0, "closed 6 2 7 1"),
        ]),
        case("a block is changed in a flight of tables that are kept", "--keep", [
            fill,
            (9, flight, [*[line for line, _ in ran.printed], ran.stopped], reopened + cut, [f"changes {changed(len(reopened) + 2, ran.stopped)}"], 4, "in use"),
        ]),
    ]
    return cases


class Flown(Run):
    """A run over generated text whose SELECTs fly: it has four of them one after the other, and then one alone."""

    def __init__(self, most, start, buffer=64, pack=1, pad=None):
        super().__init__(buffer=buffer, pack=pack, pad=pad)
        self.limit, self.turns, self.most_open = max(1, min(most, buffer // (3 * pack + 1))), words_from(start), buffer

    def selects(self, g, n, held):
        table = Table("g", ("id", "v"), n, self.pack)
        table.region, table.rows = g, [tuple(row) for row in held]
        tests = [lambda row: row[1] == 3, lambda row: row[0] > n // 4, lambda row: row[1] != 9]
        makers = [lambda part, test=test: rows_of(table, "", test, part, self.pad) for test in tests] + [lambda part: groups_of(table, 1, part)]
        for at in range(0, 4, self.limit):
            some = makers[at : at + self.limit]
            built = [make(self.most_open // len(some)) for make in some]
            Flight(built, self.turns if len(some) > 1 else iter(lambda: 0, None), self)
            for it in built:
                self.count(it.line[0] != "E", int(it.line.split()[1]) if it.line[0] == "=" else 0)
                # of a padded result no plan is seen
                self.plans["small"] += self.pad is None and any(act.kind == "M" for act in it.acts)


def generated():
    cases = []
    for name, most, start, n, settings in [
        ("the least table, two at once", 2, 0, 1, {}),
        ("twelve rows, two at once", 2, 7, 12, {}),
        ("twelve rows, three at once", 3, 7, 12, {}),
        ("twelve rows, eight at once, of which there are four", 8, 2**64 - 1, 12, {}),
        ("twelve rows, as many as may be open for", 8, 3, 12, {"buffer": 14}),
        ("forty rows, four at once, three in a block", 4, 5, 40, {"pack": 3}),
        ("twelve rows, four at once, padded to six", 4, 1, 12, {"pad": 6}),
        ("twelve rows, padded to two, which some results pass", 4, 1, 12, {"pad": 2}),
    ]:
        run = Flown(most, start, **settings)
        run.serve(start, n)
        words = f"--gen {start},{n} --flight {most},{start}" + "".join(f" --{key} {value}" for key, value in settings.items())
        cases.append(without_input(name, words, run.summary(), int(run.refused > 0), f"total {len(run.asked)}"))
    return cases


# ---- flights that are drawn


def drawn(number):
    """A session of one to three flights, of statements, tables and settings that are drawn."""
    draw = random.Random(number)
    most, pack = draw.randint(2, 8), draw.choice([1, 1, 1, 2, 3, 5])
    buffer = most * (3 * pack + 1) + draw.randint(0, 3 * most)
    slots = draw.randint(1, 9)
    rows = [(i + 1, draw.choice([10, 20, 30])) for i in range(draw.randint(0, slots))]
    pad = draw.choice([None, None, None, 1, 2, 3, 12])
    pool = [two, others, first, all_rows, none, one_other, all_others, totals, other_totals, by_value, by_key, no_table, no_column, wrong_type]
    items = draw.choices(pool, k=draw.randint(most, 2 * most))
    session = Session(most, draw.getrandbits(64), buffer, pack, pad, {"t": (("id", "v"), slots, rows), "u": TABLES["u"]}, ("t", "u")).serve(items)
    return spelt(f"drawn flights {number}", session, lines=["unordered"])


FLIGHTS = [
    ("two of rows", 2, 8, ("t",), [two, others]),
    ("two counts", 2, 8, ("t",), [totals, totals]),
    ("rows and none", 2, 8, ("t",), [two, none]),
    ("none and rows", 2, 8, ("t",), [none, two]),
    ("a refused one first", 3, 12, ("t",), [no_table, two, totals]),
    ("a refused one last", 3, 12, ("t",), [two, totals, no_column]),
    ("all refused", 2, 8, ("t",), [no_table, no_column]),
    ("refused ones between two flights", 2, 8, ("t",), [two, totals, no_table, no_column, others, totals]),
    ("rows, groups and totals of two tables", 4, 16, ("t", "u"), [one_other, by_value, other_totals, two]),
    ("too many groups between rows", 3, 12, ("t",), [two, by_key, all_rows]),
    ("as many groups as a part has, and too many", 2, 12, ("t",), [by_key, totals, by_key, totals, by_key]),
    ("too many groups, and not alone", 2, 8, ("t",), [by_key, totals, by_key]),
    ("all rows in parts of one row", 2, 8, ("t",), [all_rows, all_rows]),
    ("five of two tables", 5, 20, ("t", "u"), [two, one_other, totals, by_value, none]),
    ("eight", 8, 32, ("t", "u"), [two, others, one_other, totals, none, by_value, other_totals, all_rows]),
    ("seven by threes", 3, 64, ("t",), [two, others, totals, none, by_value, all_rows, two]),
    ("three flights", 2, 8, ("t",), [two, others, totals, all_rows, none, two]),
    ("as many as rows may be open for", 8, 13, ("t",), [two, totals, others, none]),
    ("one alone", 2, 8, ("t",), [two]),
]
PADDED = [
    ("padded to two", 2, 8, 2, [two, others]),
    ("padded to two, more of one", 3, 12, 2, [two, all_rows, none]),
    ("padded, with totals", 3, 12, 2, [all_rows, totals, two]),
    ("padded to more than there are", 3, 12, 9, [first, all_rows, none]),
]
# sessions of which each access fails, and each block that is read is changed
DISTURBED = [
    ("two of rows", 2, 8, ("t",), [two, others], None),
    ("rows, totals and groups of two tables", 4, 16, ("t", "u"), [one_other, totals, all_rows, by_value], None),
    ("padded", 3, 12, ("t",), [all_rows, two, none], 1),
]


def disturbed():
    """The others answer where an access fails. Where a block is changed what had been answered stands."""
    cases = []
    for name, most, buffer, names, items, pad in DISTURBED:
        make = lambda: Session(most, 11, buffer, pad=pad, tables=TABLES if name == "two of rows" else SMALL, names=names)
        whole = make().serve(items)
        for at, access in list(enumerate(whole.run.asked, 1))[whole.before() :]:
            session = make().serve(items, fails=(at,))
            cases.append(spelt(f"{name}, access {at} fails", session, f"--meddle {at}:fail"))
            if access.startswith("R"):
                _, region, place = access.split()
                session = make().serve(items, stops=at)
                cases.append(spelt(f"{name}, block {place} of region {region} is changed before access {at}", session, f"--meddle {at}:flip:{region}.{place}.0"))
    # a block of the table, and of each result, gets what it held before its last write, and what another holds
    make = lambda: Session(2, 11, 8)
    whole = make().serve([two, others])
    read = {it.split()[1]: n for n, it in enumerate(whole.run.asked, 1) if n > whole.before() and it[0] == "R"}
    for region, at in read.items():
        place = int(whole.run.asked[at - 1].split()[2])
        for what, change in (("put back", f"old:{region}.{place}"), ("exchanged", f"copy:{region}.{place - 1}:{region}.{place}")):
            session = make().serve([two, others], stops=at)
            cases.append(spelt(f"block {place} of region {region} is {what} before access {at}", session, f"--meddle {at}:{change}"))
    # two of them fail, or one of them and then a block is changed
    for most, buffer, items, fails, stop in [
        (2, 8, [two, others], (3, 9), None),
        (3, 12, [two, totals, others], (1, 2, 3), None),
        (3, 12, [two, totals, others], (4,), 9),
        (2, 8, [two, others, totals, all_rows, none, two], (5, 20), None),
    ]:
        make = lambda: Session(most, 4, buffer)
        before = make().before()
        fails = tuple(before + n for n in fails)
        probe = make().serve(items, fails=fails)
        stops = stop and next(n for n, it in enumerate(probe.run.asked, 1) if n >= before + stop and it[0] == "R")
        session = make().serve(items, fails=fails, stops=stops)
        change = "--meddle " + ",".join(f"{n}:fail" for n in fails)
        change += f",{changed(stops, session.stopped)}" if stops else ""
        cases.append(spelt(f"accesses {', '.join(map(str, fails))} fail" + (f", and {stops} reads a changed block" if stops else ""), session, change))
    return cases


def main():
    cases = []
    for name, most, buffer, names, items in FLIGHTS:
        for start in (0, 2**64 - 1):
            cases.append(flown(f"{name}, by the words from {start}", most, start, buffer, items, names=names))
        cases.append(flown(f"{name}, two rows a block", most, 5, buffer * 2, items, pack=2, names=names))
    for name, most, buffer, pad, items in PADDED:
        for start in (0, 3):
            cases.append(flown(f"{name}, by the words from {start}", most, start, buffer, items, pad=pad))
        cases.append(flown(f"{name}, two rows a block", most, 5, buffer * 2, items, pack=2, pad=pad))
    cases.append(flown("sixteen rows a block", 8, 3, 400, [two, none, totals, all_rows, by_key, others, first, by_value], pack=16))
    cases.append(flown("no rows that may be open for two", 8, 0, 7, [two, others]))
    cases.append(flown("no rows that may be open for two, two rows a block", 8, 0, 13, [two, others], pack=2))
    for plan in ("auto", "small", "cheapest"):
        cases.append(flown(f"two, by --plan {plan}", 2, 0, 8, [two, all_rows], words=f"--plan {plan}"))
    cases += [*between(), *readings(), *sinks(), *pieces(), *stopped_sinks(), *lasting(), *generated(), *disturbed()]
    cases += [drawn(number) for number in range(40)]
    head = "# SELECTs that ask in turns, with the accesses of all of them. Written by gen/flights.py.\n"
    (DATA / "flights.case").write_text(head + "\n" + "\n".join(cases))
    print(f"{len(cases)} cases")


if __name__ == "__main__":
    main()
