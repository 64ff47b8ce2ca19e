#!/usr/bin/env python3
"""Measures each kind of statement over a table of 65,536 slots in memory beside the passes that it is made of, for 1, 8
and 16 rows in a block, and statements on an index of as many keys and a session of 20,000 statements over a table of 16
slots beside the bare seals and unseals of their blocks. Prints a table with OK or OVER in each line, and ends with 1
where one is OVER. DROP TABLE has no pass, so that there is nothing to measure it by: what stands there is what any
statement takes beside its passes.

Both sides are measured in two ways. The processor's time (bench/driven.py): in each round a statement and its passes
run one behind the other, so that what slows the machine down slows both; the ratio is that of the least of all rounds,
and behind it stand the quartiles of the rounds' ratios. And the processor's instructions, where `valgrind` is there:
they are the same in each run.

Both tables hold the same few rows: how many rows a table has changes no access, and a row that is there takes no less
than an empty slot. Hash has buckets of one block (--depth 1), so that a measure takes seconds and not minutes.

SELECTs of 2 to 60,000 rows of a full table are measured with `--plan cheapest`, `auto` and the plans that may be forced:
`cheapest` takes at most 1.1 times as long as the best of these. Each way has a run of its own over a copy of tables that are
kept in files, and all runs are asked in turn; the ratio is the median of the rounds'. The tables are filled with `--batch`.

Counts of the table that ask in turns (`--flight`) take at most 1.15 times as long as the same one by one.

usage: bench/statements.py [both|time|count] [ROUNDS]     (without them: both, in 15 rounds)
Needs `rt` (bench/build.py), python3 and 400 MB, and 500 MB of files; `valgrind` for the second measure. Takes fifteen
minutes once the programs are built, and twenty processor minutes more with valgrind.
"""
import collections
import concurrent.futures
import os
import pathlib
import re
import shutil
import statistics
import subprocess
import sys
import tempfile

from build import build, program
from driven import KEY, Limits, Passes, Session, beside, create, held, machine, parser, print_head, print_row, quartiles, whole
from shapes import blocks

NAMES = "oblitrace", "oblidb", "ob_pass_bench"
MEMORY, FILES, PASSES = map(program, NAMES)
PACKS = (1, 8, 16)
SLOTS, WIDTH, JOINED, ROWS, FULL, SELECTED, LEFT = 65536, 17, 33, 64, 4, 2, 32
# What each part takes at most beside what it is made of.
LIMIT, INDEX_LIMIT, CREATE_LIMIT, PLAN_LIMIT, TURNS_LIMIT, SHARE_LIMIT = 1.3, 1.4, 1.2, 1.1, 1.15, 1 / 3


# ---- statements, and their passes
def made(rows):
    """A table with so many rows."""
    return [create("t", SLOTS), *(f"INSERT INTO t VALUES ({number}, {number % 16});" for number in range(rows))]


SETUP = [*made(FULL), create("l", LEFT), *(f"INSERT INTO l VALUES ({number}, {number});" for number in range(FULL))]
OTHER = create("n", SLOTS)


def over(*letters, selected=SELECTED, rows=ROWS, full=FULL):
    """Passes over the table."""
    return [(letter, WIDTH, SLOTS, rows, selected, full) for letter in letters]


def over_joined(*letters):
    """Passes over the joined table."""
    return [(letter, JOINED, SLOTS, ROWS, SELECTED, FULL) for letter in letters]


def emitted(slots, width=WIDTH, full=SELECTED):
    """A pass over a result of so many slots."""
    return [("e", width, slots, ROWS, 1, full)]


class Statement:
    """A statement, the passes that it is made of (DROP TABLE: the discard alone), the words of its session, what is typed
    before it and behind it, outside of the measure, and the packs that it is measured with."""

    def __init__(self, name, text, passes, words="", before=(), behind=(), setup=SETUP, packs=PACKS):
        self.name, self.text, self.passes, self.words = name, text, passes, words.split()
        self.before, self.behind, self.setup, self.packs = before, behind, setup, packs
        self.has_pass = name != "DROP TABLE"

    def typed(self, number):
        """The text of a round: one that isn't typed twice has a number in it."""
        return self.text.replace("{number}", str(1000 + number))

    def lines(self, pack):
        """What its passes are asked for by."""
        return [(letter, width, pack, *rest) for letter, width, *rest in self.passes]

    def session(self):
        """What tells its session from those of other statements."""
        return (*self.words, len(self.setup))


STATEMENTS = [
    Statement("CREATE TABLE", OTHER, over("n"), behind=["DROP TABLE n;"]),
    Statement("DROP TABLE", "DROP TABLE n;", over("x", full=0), before=[OTHER]),
    Statement("INSERT", "INSERT INTO t VALUES ({number}, 9);", over("i")),
    Statement("UPDATE", "UPDATE t SET v = 7 WHERE v < 8;", over("u")),
    Statement("DELETE", "DELETE FROM t WHERE v > 99;", over("d")),
    Statement("COUNT with a condition", "SELECT COUNT(*) FROM t WHERE v < 8;", over("o")),
    Statement("aggregates", "SELECT COUNT(*), SUM(id) FROM t;", over("a")),
    Statement("GROUP BY", "SELECT v, COUNT(*), SUM(id) FROM t GROUP BY v;", over("g")),
    Statement(
        "SELECT, Small",
        f"SELECT * FROM t WHERE id < {SELECTED};",
        over("c", "S") + emitted(SELECTED),
        "--plan small",
    ),
    Statement(
        "SELECT, Large",
        f"SELECT * FROM t WHERE id < {SELECTED};",
        over("c", "L", "x") + emitted(SLOTS),
        "--plan large",
    ),
    Statement(
        "SELECT, Continuous",
        f"SELECT * FROM t WHERE id < {SELECTED};",
        over("c", "C") + emitted(SELECTED),
        "--plan continuous",
    ),
    Statement(
        "SELECT, Hash",
        f"SELECT * FROM t WHERE id < {SELECTED};",
        over("c", "h") + emitted(SELECTED),
        "--plan hash --depth 1",
    ),
    Statement(
        "a join",
        f"SELECT * FROM l JOIN t ON l.id = t.id WHERE t.id < {SELECTED};",
        over("j", selected=LEFT) + over_joined("c", "S", "x") + emitted(SELECTED, JOINED),
    ),
    # The ninth of these finds both its buckets full, and Small follows. With more rows in a block that takes thousands of
    # rows, which would have to be inserted.
    Statement(
        "SELECT, Hash, then Small",
        "SELECT * FROM t WHERE id <= 7 OR id = 9;",
        over("c", "h", "S", selected=9, rows=4, full=10) + emitted(9, full=0) + emitted(9, full=9),
        "--buffer 4 --depth 1",
        setup=made(10),
        packs=(1,),
    ),
]


# ---- the processor's time
def timed(statement, pack, session, passes, number):
    """A round: the milliseconds of a statement and of its passes."""
    for text in statement.before:
        session.serve(text)
    spent = session.serve(statement.typed(number))[1]
    for text in statement.behind:
        session.serve(text)
    return spent, sum(passes.run(*line)[0] for line in statement.lines(pack))


def all_timed(pack, rounds):
    """The rounds of each statement of a pack."""
    passes, sessions, found = Passes(PASSES), {}, collections.defaultdict(list)
    chosen = [statement for statement in STATEMENTS if pack in statement.packs]
    for statement in chosen:
        if statement.session() not in sessions:
            session = sessions[statement.session()] = Session(MEMORY, "--pack", str(pack), *statement.words)
            for text in statement.setup:
                session.serve(text)
    # (the first round warms up)
    for number in range(rounds + 1):
        for statement in chosen:
            found[statement.name].append(timed(statement, pack, sessions[statement.session()], passes, number))
    for driven in (passes, *sessions.values()):
        driven.end()
    return {name: pairs[1:] for name, pairs in found.items()}


# ---- the processor's instructions
def instructions(command, typed):
    """How many a run takes."""
    valgrind = ["valgrind", "--tool=cachegrind", "--cache-sim=no", "--cachegrind-out-file=/dev/null"]
    with held(typed) as stdin:
        ran = subprocess.run(
            [*valgrind, *command], stdin=stdin, stdout=subprocess.DEVNULL, stderr=subprocess.PIPE, text=True
        )
    return int(re.search(r"I\s+refs:\s+([\d,]+)", ran.stderr)[1].replace(",", ""))


class Counts:
    """Runs whose instructions are counted, some at a time; each different one is made once."""

    def __init__(self, pool):
        self.pool, self.known = pool, {}

    def of_run(self, path, words, typed):
        """What gives the number of a run once it is over."""
        key = (path, words, typed)
        if key not in self.known:
            self.known[key] = self.pool.submit(instructions, [path, *words], typed)
        return self.known[key].result

    def of_pass(self, line):
        """Likewise of what a pass takes beside one that fills the same table and does nothing."""
        letter, *rest = line
        idle = "t" if letter == "j" else "s"
        fills = ("b", 0, 0, WIDTH) if letter == "n" else (idle, *rest)
        first, second = (self.of_run(PASSES, (), " ".join(map(str, words)) + "\n\n") for words in (line, fills))
        return lambda: first() - second()

    def of_statement(self, statement, pack):
        """Likewise of what a statement takes."""
        words = ("--pack", str(pack), *statement.words)
        before = KEY + "\n".join([*statement.setup, *statement.before]) + "\n"
        with_it, without = self.of_run(MEMORY, words, before + statement.typed(0) + "\n"), self.of_run(MEMORY, words, before)
        return lambda: with_it() - without()


def all_counted(lines):
    """Both sides of each line."""
    with concurrent.futures.ThreadPoolExecutor(len(os.sched_getaffinity(0))) as pool:
        counts = Counts(pool)
        asked = {
            (statement.name, pack): (counts.of_statement(statement, pack), [counts.of_pass(it) for it in statement.lines(pack)])
            for statement, pack in lines
        }
        return {key: (statement(), sum(it() for it in passes)) for key, (statement, passes) in asked.items()}


# ---- both, as a table
def print_statements(lines, rounds, counted, limits):
    """Prints what statements take, as far as it is measured."""
    times = {pack: all_timed(pack, rounds) for pack in PACKS} if rounds else {}
    print(f"Statements beside their passes, limit {LIMIT}, on {machine()}:\n")
    print_head(
        "Statement", "rows of a block:", "ms:", "its passes, ms:", "ratio:", "quartiles", "instructions, millions:",
        "of its passes:", "ratio:", "",
    )
    for statement, pack in lines:
        cells, ratios = [], []
        if rounds:
            measured = beside(times[pack][statement.name])
            ratios.append(measured.ratio)
            told = [f"{measured.ratio:.2f}", measured.quartiles] if statement.has_pass else ["", ""]
            cells += [f"{measured.one:.2f}", f"{measured.other:.2f}", *told]
        else:
            cells += [""] * 4
        if counted:
            spent, alone = counted[statement.name, pack]
            ratios.append(spent / alone)
            told = f"{spent / alone:.2f}" if statement.has_pass else ""
            cells += [f"{spent / 1e6:.2f}", f"{alone / 1e6:.2f}", told]
        else:
            cells += [""] * 3
        verdict = limits.verdict(max(ratios, default=0), LIMIT) if statement.has_pass else "no pass"
        print_row(statement.name, pack, *cells, verdict)


# ---- statements on an index of so many keys, a hundred typed at once: each reads and writes the stash and a path of buckets of
# four
EACH, HEIGHT = 100, (SLOTS - 1).bit_length()
ON_INDEX = {
    "INSERT": "INSERT INTO o VALUES ({key}, 9);",
    "UPDATE": "UPDATE o SET v = 7 WHERE id = {key};",
    "SELECT": "SELECT * FROM o WHERE id = {key};",
    "DELETE": "DELETE FROM o WHERE id = {key};",
}


def all_keyed(stash, rounds):
    """The rounds of CREATE and of each kind of statement: its milliseconds, and those of the bare seals and unseals of its
    blocks."""
    sealed, asked = 4 * (2 ** (HEIGHT + 1) - 1) + stash, stash + 4 * (HEIGHT + 1)
    passes, session = Passes(PASSES), Session(MEMORY, "--buffer", str(asked + 1), "--stash", str(stash))
    session.serve(create("o", SLOTS, " INDEXED"))
    found = {name: [] for name in ("CREATE", *ON_INDEX)}
    # (the first round warms up)
    for number in range(rounds + 1):
        spent = session.serve(create("n", SLOTS, " INDEXED"))[1]
        found["CREATE"].append((spent, passes.bare(sealed, 0, WIDTH)))
        session.serve("DROP TABLE n;")
        for name, text in ON_INDEX.items():
            spent = session.serve_all([text.format(key=(EACH * number + key) % SLOTS) for key in range(EACH)])
            found[name].append((spent / EACH, passes.bare(EACH * asked, EACH * asked, WIDTH) / EACH))
    for driven in (passes, session):
        driven.end()
    return {name: pairs[1:] for name, pairs in found.items()}


def print_keyed(rounds, limits):
    """Prints what statements on an index take."""
    heading = f"Statements on an index of {SLOTS:,} keys beside the bare seals and unseals of its blocks"
    print(f"\n{heading}, limit {INDEX_LIMIT}, of CREATE {CREATE_LIMIT}:\n")
    print_head("Statement", "slots of the stash:", "ms:", "its seals and unseals, ms:", "ratio:", "quartiles", "")
    for stash in (32, 89):
        for name, pairs in all_keyed(stash, rounds).items():
            measured = beside(pairs)
            verdict = limits.verdict(measured.ratio, CREATE_LIMIT if name == "CREATE" else INDEX_LIMIT)
            print_row(
                name, stash, f"{measured.one:.3f}", f"{measured.other:.3f}", f"{measured.ratio:.2f}", measured.quartiles, verdict
            )


# ---- SELECTs of rows by how their plans are chosen: the rows of a full table lie side by side by their ids, and apart by v
COUNTS = (2, 300, 5_000, 30_000, 60_000)
PLANS = ("cheapest", "auto", "small", "large", "continuous")
PLANNED = 9
LIES = {"side by side": "id", "apart": "v"}


def asked_by(plan, pack, selected):
    """How many accesses the result of so many rows takes."""
    table, result, kept = blocks(pack, SLOTS), blocks(pack, selected), (ROWS - 2 * pack) // pack * pack
    if plan == "small":
        return blocks(kept, selected) * table + 2 * result
    return table + 2 * SLOTS + 2 * result if plan == "continuous" else 5 * table


def forced(pack, selected, lie):
    """The plans to be forced for such rows; those that ask for more than three times as much as the least one would take
    minutes."""
    plans = ("small", "large", *(["continuous"] if lie == "side by side" else []))
    asked = {plan: asked_by(plan, pack, selected) for plan in plans}
    return [plan for plan in plans if asked[plan] <= 3 * min(asked.values())]


def kept_session(store, pack, *words):
    """A session whose tables are kept in files."""
    return Session(FILES, "--keep", "--store", store, "--pack", str(pack), *words)


def fill(folder, pack):
    """Makes the full table."""
    session = kept_session(f"{folder}/full", pack, "--buffer", "65536", "--batch", "65535")
    session.serve(create("t", SLOTS))
    inserts = [f"INSERT INTO t VALUES ({number}, {number * 40503 % SLOTS});" for number in range(SLOTS)]
    # (the last rows are answered with what follows them)
    session.serve_all([*inserts, "SELECT COUNT(*) FROM t;"])
    session.end()


def all_planned(folder, pack):
    """The milliseconds of each SELECT in each round, by its way, how the rows lie and how many they are: in a round all ways in
    turn, each over a copy of the full table, and all on one processor, since one may be slower than another."""
    os.sched_setaffinity(0, {max(os.sched_getaffinity(0))})
    fill(folder, pack)
    sessions, found = {}, collections.defaultdict(list)
    for plan in PLANS:
        for file in pathlib.Path(folder).glob("full*"):
            shutil.copy(file, file.with_name(plan + file.name.removeprefix("full")))
        sessions[plan] = kept_session(f"{folder}/{plan}", pack, "--buffer", str(ROWS), "--plan", plan)
    for lie, column in LIES.items():
        for selected in COUNTS:
            ways = ["cheapest", "auto", *forced(pack, selected, lie)]
            # (the first round warms up; `auto` may take seconds, and has no limit)
            for number in range(1 + PLANNED):
                for plan in ways:
                    if number == 0 or plan != "auto":
                        spent = sessions[plan].serve(f"SELECT * FROM t WHERE {column} < {selected};")[1]
                        found[plan, lie, selected].append(spent)
    for session in sessions.values():
        session.end()
    return found


def print_planned(limits):
    """Prints what SELECTs take by their plans."""
    heading = f"SELECTs of k of {SLOTS:,} rows, `cheapest` beside the best plan that is forced"
    print(f"\n{heading}, limit {PLAN_LIMIT}, and `auto` beside it:\n")
    print_head(
        "k:", "they lie", "rows of a block:", "`cheapest`, ms:", "the best, ms", "ratio:", "`auto`, ms:", "its ratio:", ""
    )
    for pack in PACKS:
        with tempfile.TemporaryDirectory() as folder:
            found = all_planned(folder, pack)
        for lie in LIES:
            for selected in COUNTS:
                spent, auto = found["cheapest", lie, selected][1:], found["auto", lie, selected][0]
                best, plan = min((min(found[plan, lie, selected][1:]), plan) for plan in forced(pack, selected, lie))
                ratio = statistics.median(one / other for one, other in zip(spent, found[plan, lie, selected][1:]))
                print_row(
                    f"{selected:,}", lie, pack, f"{min(spent):.1f}", f"{best:.1f}, `{plan}`", f"{ratio:.2f}", f"{auto:.1f}",
                    f"{auto / best:.2f}", limits.verdict(ratio, PLAN_LIMIT),
                )


# ---- counts that ask in turns, beside as many that are served one by one
def in_turns(pack, number, rounds):
    """The milliseconds of each round."""
    pairs, counts = [], ["SELECT COUNT(*) FROM t WHERE v < 8;"] * number
    words = ["--pack", str(pack), "--buffer", "512"]
    flying, alone = Session(MEMORY, *words, "--flight", f"{number},1"), Session(MEMORY, *words)
    for session in (flying, alone):
        for text in SETUP:
            session.serve(text)
    # (the first round warms up)
    for _ in range(rounds + 1):
        pairs.append((flying.serve_all(counts), alone.serve_all(counts)))
    for session in (flying, alone):
        session.end()
    return pairs[1:]


def print_turns(rounds, limits):
    """Prints what counts take."""
    print(f"\nCounts that ask in turns, beside as many one by one, limit {TURNS_LIMIT}:\n")
    print_head("Counts:", "rows of a block:", "in turns, ms:", "one by one, ms:", "ratio:", "")
    for pack in (1, 16):
        for number in (2, 4, 8):
            pairs = in_turns(pack, number, rounds)
            ratio = statistics.median(one / other for one, other in pairs)
            flying, alone = (min(side) for side in zip(*pairs))
            print_row(number, pack, f"{flying:.1f}", f"{alone:.1f}", f"{ratio:.2f}", limits.verdict(ratio, TURNS_LIMIT))


# ---- from how many keys on an index is the faster one
def of_four(rounds, capacity, words, behind=""):
    """The milliseconds of a statement, one of these four in turn."""
    session, spent = Session(MEMORY, *words), []
    session.serve(create("o", capacity, behind))
    # (the first round warms up)
    for _ in range(rounds + 1):
        asked = [[text.format(key=key) for key in range(EACH)] for text in ON_INDEX.values()]
        spent.append(sum(map(session.serve_all, asked)) / (EACH * len(asked)))
    session.end()
    return min(spent[1:])


def print_capacities(rounds):
    """Prints what statements by a key take, flat and on an index."""
    print("\nA statement by its key, milliseconds:\n")
    print_head("Keys:", "flat, 16 rows a block:", "index, 32 slots of the stash:", "index, 89:")
    for capacity in (128, 256, 512, 1024):
        flat = of_four(rounds, capacity, ["--pack", "16"])
        keyed = [of_four(rounds, capacity, ["--buffer", "160", "--stash", str(stash)], " INDEXED") for stash in (32, 89)]
        print_row(f"{capacity:,}", *(f"{spent:.2f}" for spent in (flat, *keyed)))


# ---- a session of short statements: of each, how many blocks it seals and opens, one row in each of 16
SHORT_SLOTS, REPEATS = 16, 4000
SHORT_SETUP = [create("t", SHORT_SLOTS), *(f"INSERT INTO t VALUES ({number}, {number});" for number in range(8))]
SHORT = [
    ("INSERT INTO t VALUES (3, 4);", SHORT_SLOTS, 2 * SHORT_SLOTS),
    ("UPDATE t SET v = 7 WHERE id = 2;", SHORT_SLOTS, SHORT_SLOTS),
    ("SELECT * FROM t WHERE id = 1;", 1, 2 * SHORT_SLOTS + 1),
    ("SELECT COUNT(*), SUM(v) FROM t WHERE v > 3;", 0, SHORT_SLOTS),
    ("DELETE FROM t WHERE id = 99;", SHORT_SLOTS, SHORT_SLOTS),
]


def session_text(repeats):
    """What is typed in a session with each of these so often."""
    return KEY + "\n".join([*SHORT_SETUP, *[text for text, _, _ in SHORT] * repeats]) + "\n"


def session_time(repeats):
    """The milliseconds of a session that is typed at once."""
    with held(session_text(repeats)) as stdin:
        ran = whole([MEMORY], stdin)
    if ran.status not in (0, 1):
        sys.exit(f"the session ended with status {ran.status}")
    return ran.spent


def print_share(measure, spent, alone, shares, limits):
    """Prints how much of a session isn't sealing."""
    share, (low, high) = 1 - alone / spent, shares
    verdict = limits.verdict(share, SHARE_LIMIT)
    print_row(
        measure, f"{spent:.0f}", f"{alone:.0f}", f"{100 * share:.0f} %", f"{100 * low:.0f} to {100 * high:.0f} %", verdict
    )


def print_session(rounds, counted, limits):
    """Prints what the session takes, as far as it is measured."""
    sealed, opened = (REPEATS * sum(statement[at] for statement in SHORT) for at in (1, 2))
    print("\nA session of 20,000 statements over 16 slots, limit a third:\n")
    print_head(
        "Measure", "the session:", f"its {sealed:,} seals and {opened:,} unseals:", "outside sealing:", "quartiles", ""
    )
    if rounds:
        passes, pairs = Passes(PASSES), []
        for _ in range(rounds):
            spent = session_time(REPEATS) - session_time(0)
            pairs.append((spent, passes.bare(sealed, opened, WIDTH)))
        passes.end()
        shares = quartiles([1 - alone / spent for spent, alone in pairs])
        print_share("ms", *(min(side) for side in zip(*pairs)), shares, limits)
    if counted:
        # (a tenth of it, whose statements are the same)
        spent = 10 * (instructions([MEMORY], session_text(REPEATS // 10)) - instructions([MEMORY], session_text(0)))
        bare, idle = f"b {sealed // 10} {opened // 10} {WIDTH}\n", f"b 0 0 {WIDTH}\n"
        alone = 10 * (instructions([PASSES], bare) - instructions([PASSES], idle))
        share = 1 - alone / spent
        print_share("millions of instructions", spent / 1e6, alone / 1e6, (share, share), limits)


def main():
    words = parser(__doc__)
    words.add_argument("measures", nargs="?", choices=("both", "time", "count"), default="both", help="what is measured")
    words.add_argument("rounds", metavar="ROUNDS", nargs="?", type=int, default=15, help="how often each side is timed")
    asked = words.parse_args()
    rounds = 0 if asked.measures == "count" else asked.rounds
    build(*NAMES)
    limits = Limits()
    lines = [(statement, pack) for pack in PACKS for statement in STATEMENTS if pack in statement.packs]
    counted = all_counted(lines) if asked.measures != "time" and shutil.which("valgrind") else {}
    print_statements(lines, rounds, counted, limits)
    if rounds:
        print_keyed(rounds, limits)
        print_planned(limits)
        print_turns(rounds, limits)
        print_capacities(rounds)
    print_session(rounds, counted, limits)
    limits.end()


if __name__ == "__main__":
    main()
