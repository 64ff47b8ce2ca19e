#!/usr/bin/env python3
"""Writes crates/ob_cases/data/generated.case: runs over generated text. What is wanted of them is counted here, from the
rows that the statements leave and from the lists of their accesses in docs/SPECIFICATION.md; nothing that the program
answers goes into it. It needs python3 alone, and takes a second.
"""
import hashlib
import pathlib

DATA = pathlib.Path(__file__).resolve().parent.parent / "crates/ob_cases/data"
PLANS = ["small", "large", "continuous", "hash"]


def up(a, b):
    """a / b, rounded up."""
    return -(-a // b)


def digits(start, rows):
    """The values of the rows, by the sequence after this number."""
    x = start
    for _ in range(rows):
        x = (x * 6364136223846793005 + 1442695040888963407) % 2**64
        yield x // 2**33 % 10


def text(start, rows):
    """The generated text, line by line."""
    inserts = [f"INSERT INTO g VALUES ({i + 1}, {v});" for i, v in enumerate(digits(start, rows))]
    return [
        "0" * 64,
        f"CREATE TABLE g (id INT PRIMARY KEY, v INT) CAPACITY {rows};",
        *inserts,
        "SELECT * FROM g WHERE v = 3;",
        f"SELECT id FROM g WHERE id > {rows // 4};",
        "SELECT v FROM g WHERE v <> 9;",
        "SELECT v, COUNT(*) FROM g GROUP BY v;",
        "UPDATE g SET v = 10 WHERE v = 1;",
        "DELETE FROM g WHERE v = 2;",
        "CREATE TABLE h (k INT) CAPACITY 4;",
        "INSERT INTO h VALUES (1);",
        "SELECT * FROM g JOIN h ON g.id = h.k;",
        "SELECT COUNT(*), SUM(v) FROM g;",
        "DROP TABLE g;",
        "DROP TABLE h;",
    ]


class Run:
    """What is asked and counted of one run."""

    def __init__(self, buffer=64, depth=5, pack=1, plan="auto", pad=None, batch=1):
        self.pack, self.depth, self.plan, self.pad = pack, depth, plan, pad
        # how many INSERTs are served together
        self.batch = min(batch, buffer - pack)
        self.chunk = (buffer - 2 * pack) // pack * pack
        self.asked, self.next = [], 1
        self.statements = self.refused = self.rows = 0
        self.plans = dict.fromkeys(PLANS, 0)

    def blocks(self, slots):
        return up(slots, self.pack)

    def make(self, blocks, width):
        region, self.next = self.next, self.next + 1
        self.asked.append(f"M {region} {blocks} {self.pack * width + 32}")
        return region

    def read(self, region, place):
        self.asked.append(f"R {region} {place}")

    def write(self, region, place):
        self.asked.append(f"W {region} {place}")

    def discard(self, region):
        self.asked.append(f"D {region}")

    def scan(self, region, slots):
        for u in range(self.blocks(slots)):
            self.read(region, u)

    def create(self, slots, width):
        region = self.make(self.blocks(slots), width)
        for u in range(self.blocks(slots)):
            self.write(region, u)
        return region

    def move(self, region, slots, width):
        """Each block to a new region."""
        there = self.make(self.blocks(slots), width)
        for u in range(self.blocks(slots)):
            self.read(region, u)
            self.write(there, u)
        self.discard(region)
        return there

    def insert(self, region, slots, width):
        there = self.make(self.blocks(slots), width)
        self.scan(region, slots)
        for u in range(self.blocks(slots)):
            self.read(region, u)
            self.write(there, u)
        self.discard(region)
        return there

    def emit(self, region, blocks):
        for x in range(blocks):
            self.read(region, x)
        self.discard(region)

    def small(self, region, slots, width, k):
        out = self.make(self.blocks(k), width)
        for j in range(up(k, self.chunk)):
            self.scan(region, slots)
            for x in range(j * self.chunk // self.pack, self.blocks(min(k, (j + 1) * self.chunk))):
                self.write(out, x)
        self.emit(out, self.blocks(k))

    def large(self, region, slots, width):
        out = self.make(self.blocks(slots), width)
        for u in range(self.blocks(slots)):
            self.read(region, u)
            self.write(out, u)
        for u in range(self.blocks(slots)):
            self.read(out, u)
            self.write(out, u)
        self.emit(out, self.blocks(slots))

    def slots_of(self, u, slots):
        return range(u * self.pack, min(slots, (u + 1) * self.pack))

    def continuous(self, region, slots, width, k):
        out = self.make(self.blocks(k), width)
        for x in range(self.blocks(k)):
            self.write(out, x)
        for u in range(self.blocks(slots)):
            self.read(region, u)
            for i in self.slots_of(u, slots):
                self.read(out, i % k // self.pack)
                self.write(out, i % k // self.pack)
        self.emit(out, self.blocks(k))

    def hash(self, region, slots, width, selected):
        """Whether each selected slot found a place."""
        k, d = len(selected), self.depth
        out = self.make(k * d, width)
        for x in range(k * d):
            self.write(out, x)
        held = [0] * k
        fits = True
        for u in range(self.blocks(slots)):
            self.read(region, u)
            for i in self.slots_of(u, slots):
                first = i * 2654435761 % 2**32 * k // 2**32
                second = (i * 2246822519 + 374761393) % 2**32 * k // 2**32
                for bucket in (first, second):
                    for y in range(d):
                        self.read(out, bucket * d + y)
                        self.write(out, bucket * d + y)
                if i in selected:
                    bucket = next((b for b in (first, second) if held[b] < d * self.pack), None)
                    if bucket is None:
                        fits = False
                    else:
                        held[bucket] += 1
        self.emit(out, k * d)
        return fits

    def select(self, region, slots, width, selected):
        """A SELECT of rows, after a join too: whether it was answered."""
        self.scan(region, slots)
        k = len(selected)
        if self.pad:
            return self.padded(region, slots, width, k)
        if k == 0:
            return True
        together = selected == list(range(selected[0], selected[0] + k))
        plan = self.plan
        if plan == "auto":
            plan = (
                "small" if k <= 4 * self.chunk
                else "continuous" if together
                else "large" if 3 * slots <= 4 * k
                else "hash"
            )
        if plan == "cheapest":
            plan = self.cheapest(slots, k, together)
        if plan == "continuous" and not together:
            return False
        self.plans[plan] += 1
        if plan == "small":
            self.small(region, slots, width, k)
        elif plan == "large":
            self.large(region, slots, width)
        elif plan == "continuous":
            self.continuous(region, slots, width, k)
        elif not self.hash(region, slots, width, selected):
            if self.plan == "hash":
                return False
            self.small(region, slots, width, k)
        return True

    def cheapest(self, slots, k, together):
        """The plan that asks least, the first of those that ask as much."""
        table, result = self.blocks(slots), self.blocks(k)
        asked = {
            "small": 1 + up(k, self.chunk) * table + result + result + 1,
            "continuous": 1 + result + table + 2 * slots + result + 1,
            "large": 1 + 4 * table + table + 1,
        }
        if not together:
            del asked["continuous"]
        return min(asked, key=asked.get)

    def join(self, left, lefts, right, rights, width, selected):
        """A SELECT over a join, of which these pairs are selected: whether it was answered."""
        chunks, blocks = up(lefts, self.chunk), self.blocks(rights)
        joined = self.make(chunks * blocks, width)
        for q in range(chunks):
            for x in range(q * self.chunk // self.pack, min(self.blocks(lefts), (q + 1) * self.chunk // self.pack)):
                self.read(left, x)
            for v in range(blocks):
                self.read(right, v)
                self.write(joined, q * blocks + v)
        answered = self.select(joined, chunks * blocks * self.pack, width, selected)
        self.discard(joined)
        return answered

    def padded(self, region, slots, width, k):
        """A result of as many rows as the others are padded to, whatever is selected."""
        rows = min(self.pad, slots)
        by_large = {"auto": rows > 4 * self.chunk, "cheapest": self.cheapest(slots, rows, False) == "large", "large": True, "small": False}
        if by_large[self.plan]:
            self.large(region, slots, width)
        else:
            self.small(region, slots, width, rows)
        return k <= self.pad

    def count(self, answered, rows=0):
        self.statements += 1
        if answered:
            self.rows += rows
        else:
            self.refused += 1

    def selects(self, g, n, held):
        """Its SELECTs of rows and of groups."""
        for test in (lambda row: row[1] == 3, lambda row: row[0] > n // 4, lambda row: row[1] != 9):
            selected = [i for i, row in enumerate(held) if test(row)]
            self.count(self.select(g, n, 17, selected), len(selected))
        self.scan(g, n)
        groups = len({v for _, v in held})
        self.count(groups <= self.chunk, groups)

    def serve(self, start, n):
        """The statements of the generated text."""
        g = self.create(n, 17)
        self.count(True)
        held = [[i + 1, v] for i, v in enumerate(digits(start, n))]
        for first in range(0, n, self.batch):
            g = self.insert(g, n, 17)
            for _ in held[first : first + self.batch]:
                self.count(True)
        self.selects(g, n, held)
        g = self.move(g, n, 17)
        self.count(True)
        held = [[i, 10 if v == 1 else v] for i, v in held]
        g = self.move(g, n, 17)
        self.count(True)
        held = [None if v == 2 else [i, v] for i, v in held]
        h = self.create(4, 9)
        self.count(True)
        h = self.insert(h, 4, 9)
        self.count(True)
        selected = [0] if held[0] is not None else []
        self.count(self.join(g, n, h, 4, 25, selected), len(selected))
        self.scan(g, n)
        self.count(True, 1)
        self.discard(g)
        self.count(True)
        self.discard(h)
        self.count(True)

    def trace(self):
        return hashlib.sha256("".join(line + "\n" for line in self.asked).encode()).hexdigest()

    def summary(self):
        return [
            f"statements {self.statements}",
            f"refused {self.refused}",
            f"rows {self.rows}",
            f"accesses {len(self.asked)}",
            *[f"{plan} {self.plans[plan]}" for plan in PLANS],
            f"trace {self.trace()}",
        ]


def case(name, words, answers, status, *more):
    """A case whose input is none that the program takes, so that it shows where it is read."""
    lines = [f"case {name}", f"words {words}", "key no secret", *[f"< {line}" for line in answers], *more]
    return "\n".join([*lines, f"status {status}", ""])


def spelt(asked):
    """These accesses, twelve a line."""
    return [f"@ {', '.join(asked[i : i + 12])}" for i in range(0, len(asked), 12)]


def unread(start, rows):
    """The trace is spelt, and the first read of the input would fail: it is made after the run."""
    run = Run()
    run.serve(start, rows)
    more = ["reads fail 1", "left 0", *spelt(run.asked)]
    return case("no read of the input", f"--gen={start},{rows}", run.summary(), 0, *more)


def cut(start, rows):
    """A sink that is full, or fails: of a summary the first part stands, and there is none where the trace is cut."""
    run = Run()
    run.serve(start, rows)
    words, said, asked = f"--gen {start},{rows}", run.summary(), [f"{it} {len(run.asked)}" for it in ("total", "asked")]
    held = lambda n: [f"writes hold {n}", f"written {n}", *asked]
    traced = ["<", "traces hold 12", "traced 12", *spelt(run.asked[:2])]
    return [
        *(case(f"{n} bytes of a summary", words, said, 6, *held(n)) for n in (0, 20, 149)),
        case("a summary of two lines, behind which a call fails", words, said[:2], 6, "writes fail 3", *asked),
        case("12 bytes of a trace", words, [], 6, *traced),
        case("a trace whose first call fails", words, [], 6, "<", "@", "traces fail 1"),
    ]


def counted(name, start, rows, words="", traced=False, **settings):
    run = Run(**settings)
    run.serve(start, rows)
    more = [f"total {len(run.asked)}"] if traced else []
    words = f"--gen {start},{rows}{words}"
    return case(name, words, run.summary(), 1 if run.refused else 0, *more)


def failed(name, rows, words=""):
    """The first INSERT, with those in its batch, fails at its first access, and what follows finds an empty table."""
    run = Run()
    g = run.create(rows, 17)
    run.make(rows, 17)
    at = len(run.asked)
    for _ in range(4):
        run.scan(g, rows)
    g = run.move(run.move(g, rows, 17), rows, 17)
    h = run.insert(run.create(4, 9), 4, 9)
    run.join(g, rows, h, 4, 25, [])
    run.scan(g, rows)
    run.discard(g)
    run.discard(h)
    run.statements, run.refused, run.rows = 13 + rows, rows, 1
    return case(name, f"--gen 0,{rows}{words} --meddle {at}:fail", run.summary(), 1)


def at_limit(start, rows):
    """The limit of the input counts the generated text."""
    size = sum(len(line) + 1 for line in text(start, rows))
    run = Run()
    run.serve(start, rows)
    return [
        case(f"{size} bytes are at their limit", f"--gen {start},{rows} --max-input {size}", ["! input limit"], 8),
        case(f"{size} bytes are within their limit", f"--gen {start},{rows} --max-input {size + 1}", run.summary(), 0),
    ]


def main():
    cases = [
        counted("the least table", 0, 1),
        counted("the same, traced", 0, 1, traced=True),
        counted("with a small buffer", 0, 1, " --buffer 4", traced=True, buffer=4),
        counted("by Large", 0, 1, " --plan large", traced=True, plan="large"),
        counted("by Hash", 0, 1, " --plan hash", traced=True, plan="hash"),
        counted("with two rows in a block", 0, 1, " --pack 2", traced=True, pack=2),
        counted("the greatest start", 2**64 - 1, 3),
        counted("twelve rows, more groups than may be kept", 0, 12, " --buffer 4", buffer=4),
        counted("twelve rows by Continuous, not side by side", 0, 12, " --plan continuous", plan="continuous"),
        counted("twelve rows by Hash", 7, 12, " --plan hash --depth 1", plan="hash", depth=1),
        counted("forty rows, as many as two of Large", 5, 40, " --buffer 4", buffer=4),
        counted("forty rows, three in a block", 5, 40, " --buffer 10 --pack 3", buffer=10, pack=3),
        counted("a hundred rows by each plan, and by Small behind Hash", 2, 100, " --buffer 4 --depth 1", buffer=4, depth=1),
        counted("the same with deeper buckets", 2, 100, " --buffer 4", buffer=4),
        counted("the least table, by what asks least", 0, 1, " --plan cheapest", traced=True, plan="cheapest"),
        counted("twelve rows by what asks least", 0, 12, " --buffer 4 --plan cheapest", traced=True, buffer=4, plan="cheapest"),
        counted("forty rows by what asks least", 5, 40, " --buffer 4 --plan cheapest", buffer=4, plan="cheapest"),
        counted("a hundred rows by what asks least", 2, 100, " --buffer 4 --depth 1 --plan cheapest", buffer=4, depth=1, plan="cheapest"),
        counted("the same with two rows in a block", 2, 100, " --buffer 7 --pack 2 --plan cheapest", buffer=7, pack=2, plan="cheapest"),
        counted("the same with sixteen", 2, 100, " --buffer 64 --pack 16 --plan cheapest", buffer=64, pack=16, plan="cheapest"),
        counted("twelve rows, padded to as many", 0, 12, " --pad 12 --buffer 4", traced=True, pad=12, buffer=4),
        counted("twelve rows, padded to as many as four of Small", 0, 12, " --pad 8 --buffer 4", pad=8, buffer=4),
        counted("twelve rows, padded to one more, by Large", 0, 12, " --pad 9 --buffer 4", pad=9, buffer=4),
        counted("twelve rows, padded to two, which some results pass", 0, 12, " --pad 2", traced=True, pad=2),
        counted("forty rows, padded to more than there are, three in a block", 5, 40, " --pad 1048576 --buffer 10 --pack 3", pad=1048576, buffer=10, pack=3),
        counted("twelve rows, padded to six, by what asks least", 0, 12, " --pad 6 --buffer 4 --plan cheapest", pad=6, buffer=4, plan="cheapest"),
        counted("twelve rows, padded to eight, by what asks least", 0, 12, " --pad 8 --buffer 4 --plan cheapest", pad=8, buffer=4, plan="cheapest"),
        counted("forty rows, padded, by what asks least, three in a block", 5, 40, " --pad 24 --buffer 10 --pack 3 --plan cheapest", pad=24, buffer=10, pack=3, plan="cheapest"),
        counted("twelve rows, padded, by Large", 0, 12, " --pad 12 --plan large", pad=12, plan="large"),
        counted("twelve rows, padded, by Small", 0, 12, " --pad 12 --plan small", pad=12, plan="small"),
        counted("a batch of one row", 0, 1, " --batch 2", traced=True, batch=2),
        counted("twelve rows in batches of five", 0, 12, " --batch 5", traced=True, batch=5),
        counted("twelve rows in one batch", 7, 12, " --batch 12", batch=12),
        counted("forty rows in batches of as many as may be open, three in a block", 5, 40, " --batch 65535 --buffer 10 --pack 3", buffer=10, pack=3, batch=65535),
        counted("a hundred rows in batches, padded", 2, 100, " --batch 64 --buffer 32 --pad 8", buffer=32, pad=8, batch=64),
        failed("an access fails", 1),
        failed("an access of a batch fails", 3, " --batch 4"),
        case("a block is changed: the last line alone", "--gen 0,1 --meddle 8:flip:2.0.0", ["! tampered 2 0"], 4, "total 8"),
        case("a text longer than its limit", "--gen 0,4096 --max-input 1024", ["! input limit"], 8),
        *at_limit(3, 20),
        unread(0, 1),
        *cut(0, 1),
    ]
    for value in ["0", "0,", ",1", "0,0", "0,4097", "01,1", "0,01", "-1,1", "+1,1", "0,1,2", "0,1;", "18446744073709551616,1", "x,1"]:
        cases.append(case(f"{value} is generated by nothing", f"--gen={value}", ["! usage"], 2))
    cases.append(case("a sign in a word of its own", "--gen -1,1", ["! usage"], 2))
    cases.append(case("no value", "--gen", ["! usage"], 2))
    cases.append(case("twice", "--gen 0,1 --gen 0,1", ["! usage"], 2))

    HEAD = "# Generated text is served in place of the input, which is read by none of these. Written by gen/generated.py.\n"
    (DATA / "generated.case").write_text(HEAD + "\n" + "\n".join(cases))
    print(f"{len(cases)} cases")


if __name__ == "__main__":
    main()
