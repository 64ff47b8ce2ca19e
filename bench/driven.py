"""Programs that are driven line by line, and what the processor spends on each of their answers.

That is the time of the process, user and system, by the clock that the kernel keeps of it in nanoseconds
(clock_getcpuclockid of POSIX). It is read while the process waits for its next line. What the wall's clock says isn't looked
at, but where files are waited for (`waited`): others at work on the machine count only as far as they slow its processors down.

Beside them what else the scripts share: whole runs, the texts that several type, and how a table is printed and limits are met.

Other scripts import it; by itself it runs nothing. Needs python3, on Linux: it looks into /proc.
"""
import argparse
import collections
import contextlib
import itertools
import os
import statistics
import subprocess
import sys
import tempfile
import time

# The secret, which is typed first.
KEY = "0" * 64 + "\n"
# What SQLCipher is told first: a raw key, and to keep no journal and to wait for no disk.
CIPHER_KEY = f"PRAGMA key = \"x'{'17' * 32}'\";\n"
UNSYNCED = "PRAGMA journal_mode = OFF;\nPRAGMA synchronous = OFF;\n"
# A whole run: its status, the milliseconds of the processor, its peak of memory in megabytes, and what it said into a pipe.
Ran = collections.namedtuple("Ran", "status spent peak said")
# Rounds of two sides: the least of each, the ratio of these, and the quartiles of the rounds' ratios, as they are printed.
Beside = collections.namedtuple("Beside", "one other ratio quartiles")


class Driven:
    """A program that answers what is typed."""

    def __init__(self, *command):
        self.child = subprocess.Popen(
            command, stdin=subprocess.PIPE, stdout=subprocess.PIPE, stderr=subprocess.DEVNULL, text=True
        )
        self.clock = ~self.child.pid << 3 | 2

    def proc(self, name):
        return f"/proc/{self.child.pid}/{name}"

    def wait(self):
        """Waits until the program waits for its input."""
        while True:
            with open(self.proc("stat")) as file:
                state = file.read().rpartition(")")[2].split()[0]
            if state == "S":
                return
            if state == "Z":
                sys.exit(f"{self.child.args[0]} has ended, with status {self.child.wait()}")
            time.sleep(0.0001)

    def type(self, text):
        self.child.stdin.write(text)
        self.child.stdin.flush()

    def read(self, is_last):
        """The lines up to the one that is the last of an answer."""
        lines = []
        while True:
            line = self.child.stdout.readline()
            if not line:
                sys.exit(f"{self.child.args[0]} has ended behind {lines[-3:]}, with status {self.child.wait()}")
            lines.append(line.rstrip("\n"))
            if is_last(lines[-1]):
                return lines

    def timed(self, text, is_last):
        """The answer to what is typed, and the milliseconds that it took."""
        self.wait()
        before = time.clock_gettime_ns(self.clock)
        self.type(text)
        lines = self.read(is_last)
        self.wait()
        return lines, (time.clock_gettime_ns(self.clock) - before) / 1e6

    def waited(self, text, is_last):
        """The answer to what is typed, and the milliseconds by the clock until it has come."""
        self.wait()
        before = time.monotonic_ns()
        self.type(text)
        lines = self.read(is_last)
        return lines, (time.monotonic_ns() - before) / 1e6

    def forget_peak(self):
        """From here on the peak of memory counts anew."""
        with open(self.proc("clear_refs"), "w") as file:
            file.write("5")

    def peak(self):
        """The most megabytes of memory that were in use."""
        with open(self.proc("status")) as file:
            return next(int(line.split()[1]) for line in file if line.startswith("VmHWM")) / 1024

    def end(self):
        self.child.stdin.close()
        return self.child.wait()


class Session(Driven):
    """A session of `oblitrace` or `oblidb`."""

    def __init__(self, *command):
        super().__init__(*command)
        self.type(KEY)

    def serve(self, text, refused=False):
        """The lines that a statement is answered, and the milliseconds."""
        lines, spent = self.timed(text + "\n", closes)
        if lines[-1].startswith("!") or lines[-1].startswith("E") and not refused:
            sys.exit(f"{text} is answered {lines[-1]}")
        return lines, spent

    def serve_all(self, texts):
        """The milliseconds of statements that are typed at once, each of which is carried out."""
        lines, spent = self.timed("\n".join(texts) + "\n", closes_all(len(texts)))
        for line in lines:
            if line.startswith(("!", "E")):
                sys.exit(f"one of {texts} is answered {line}")
        return spent


class Passes(Driven):
    """A run of `ob_pass_bench`, which waits after a pass until it may give back the memory of rows and table."""

    behind = "\n"

    def run(self, *line):
        """The milliseconds of one pass alone, of accesses of an index, or of bare seals and unseals, and what it gave."""
        typed = " ".join(map(str, line)) + "\n"
        if line[0] != "b":
            self.type(typed)
            said = self.read(lambda _: True)
            if said != ["ready"]:
                sys.exit(f"{typed.strip()}: {said[0]}")
            typed = "\n"
        said, spent = self.timed(typed, lambda _: True)
        if not said[0].isdigit() or line[0] == "b" and int(said[0]) != line[2]:
            sys.exit(f"{line}: {said[0]}")
        if line[0] != "b":
            self.type(self.behind)
        return spent, int(said[0])

    def bare(self, sealed, opened, length):
        """The milliseconds of so many seals and unseals of blocks whose rows have so many bytes."""
        return self.run("b", sealed, opened, length)[0]


class Index(Passes):
    """A run of `ob_oram_bench`."""

    behind = ""


def closes(line):
    """Whether a line is the last of the answer to a statement."""
    return not line.startswith('"')


def closes_all(count):
    """What tells the last line of so many answers, which are read one after the other."""
    closings = itertools.count(1)
    return lambda line: closes(line) and next(closings) == count


@contextlib.contextmanager
def held(text):
    """A file with this text, for an input."""
    with tempfile.TemporaryFile() as file:
        file.write(text.encode())
        file.seek(0)
        yield file


def whole(command, stdin, stdout=subprocess.DEVNULL):
    """A run over the file of its input."""
    with subprocess.Popen(command, stdin=stdin, stdout=stdout) as child:
        said = child.stdout.read().decode() if child.stdout else ""
        _, status, used = os.wait4(child.pid, 0)
        child.returncode = os.waitstatus_to_exitcode(status)
    return Ran(child.returncode, 1000 * (used.ru_utime + used.ru_stime), used.ru_maxrss / 1024, said)


def create(table, slots, behind=""):
    """The statement that makes a table of two integers, with these words after its capacity."""
    return f"CREATE TABLE {table} (id INT PRIMARY KEY, v INT) CAPACITY {slots}{behind};"


def quartiles(numbers):
    """The first and the third; of one number, that."""
    first, _, third = statistics.quantiles(numbers, n=4) if len(numbers) > 1 else numbers * 3
    return first, third


def beside(pairs):
    """What is told of rounds of two sides."""
    one, other = (min(side) for side in zip(*pairs))
    low, high = quartiles([first / second for first, second in pairs])
    return Beside(one, other, one / other, f"{low:.2f} to {high:.2f}")


class Limits:
    """What is looked at beside its limit, and how much of it is over."""

    def __init__(self):
        self.over = 0

    def verdict(self, number, limit):
        """How a number is marked that is to be this one at most."""
        is_over = number > limit
        self.over += is_over
        return "OVER" if is_over else "OK"

    def end(self):
        """The status."""
        sys.exit(self.over > 0)


def print_head(*columns):
    """Begins a table; a column of numbers has a colon at the end of its name."""
    print("|" + "".join(f" {name.removesuffix(':')} |" if name else " |" for name in columns))
    print("|" + "".join("---:|" if name.endswith(":") else "---|" for name in columns))


def print_row(*cells):
    """Prints a row of a table."""
    print(f"| {' | '.join(map(str, cells))} |", flush=True)


def machine():
    """What this is measured on."""
    with open("/proc/cpuinfo") as file:
        models = [line.partition(":")[2].strip() for line in file if line.startswith("model name")]
    return f"{len(models)} processors ({models[0]})" if models else "this machine"


def parser(head):
    """What reads the words of a script with this head, which `--help` prints."""
    return argparse.ArgumentParser(description=head, formatter_class=argparse.RawDescriptionHelpFormatter)
