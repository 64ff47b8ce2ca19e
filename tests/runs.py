"""Runs of the program over files, and what is looked at behind them. What the tests of this folder share; by itself it runs
nothing. Needs python3, on Linux.

A database is the folder `s` below a folder of its own: its regions are `s/r.NUMBER`, beside them lie `s/id` and `s/lock`, and
beside the folder its mark, `s.mark`, and the lock of that. With `--keep` the regions are `s.NUMBER`, and the lock is `s.lock`.
"""
import array
import collections
import fcntl
import itertools
import os
import pathlib
import re
import resource
import shutil
import signal
import subprocess
import sys
import tempfile
import termios
import time

TOP = pathlib.Path(__file__).resolve().parent.parent
KEY, OTHER = "0" * 64 + "\n", "1" * 64 + "\n"
REGION, ID, STORE_LOCK, MARK_FILE, MARK_LOCK = "s/r.", "s/id", "s/lock", "s.mark", "s.mark.lock"
KEPT_REGION, KEPT_LOCK = "s.", "s.lock"
NUMBER = "[1-9][0-9]*"
SAVED = re.compile(rf"saved {NUMBER} {NUMBER} {NUMBER} {NUMBER} [0-9a-f]{{32}} [0-9a-f]{{32}}\nstore [0-9a-f]{{32}}\n")
CLOSED = re.compile(rf"closed {NUMBER} {NUMBER} {NUMBER} {NUMBER}\n")
IDENTITY = re.compile(r"ribquince 1 [0-9a-f]{32}\n")
# One line, of a place and of what isn't right there: what a run says on standard error that ends with one of these.
COMPLAINT = re.compile(r"oblidb: [^\n]*[^\n:]: [^\n]+\n")
COMPLAINS = (2, 3, 9, 10)
WAITED = "it waits"
# Nothing here takes as long as a minute; a run that isn't over after five waits for what doesn't come.
LONGEST = 300

Ran = collections.namedtuple("Ran", "lines status said")


class Tests:
    """What is tried, a line for each, and how much of it was as it should be."""

    def __init__(self):
        self.passed = self.failed = 0

    def say(self, name, well, found):
        """Counts one, and says of it what was found where that isn't as it should be."""
        self.passed, self.failed = self.passed + bool(well), self.failed + (not well)
        print(f"{name}: {'as it should be' if well else f'OTHERWISE, {found}'}", flush=True)

    def skip(self, name, why):
        """Says that this machine can't try it."""
        print(f"{name}: skipped, {why}", flush=True)

    def each(self, parts, at):
        """Goes through parts of a script; one that can't be gone through to its end is counted, too."""
        for part in parts:
            try:
                part(at)
            except (OSError, ValueError, LookupError, AttributeError) as error:
                self.say(f"{part.__doc__.partition(chr(10))[0]}", False, f"it ended early: {error!r}")

    def end(self):
        """The last line, and the status."""
        print(f"{self.passed} passed, {self.failed} failed")
        sys.exit(self.failed > 0)


def program(folder, name="oblidb"):
    """The program of this name, among those that the gate built, or that lie in a folder of their own."""
    for place in (pathlib.Path(folder, name, "out", name), pathlib.Path(folder, name)):
        if place.is_file():
            return str(place.resolve())
    sys.exit(f"{name} isn't built in {folder}: `bench/build.py {name}` builds it in crates/, as `rt ci` does")


def has(tool):
    """Whether the machine has this tool, and lets it look at other processes."""
    if shutil.which(tool) is None:
        return False
    return tool != "strace" or subprocess.run(["strace", "-o", os.devnull, "true"], stderr=subprocess.DEVNULL).returncode == 0


def room():
    """A folder for what is tried, in memory where the machine has such a file system, which is removed behind it."""
    memory = "/dev/shm"
    return tempfile.TemporaryDirectory(prefix="oblidb-tests-", dir=memory if os.access(memory, os.W_OK) else None)


def read(path):
    """The bytes of a file."""
    with open(path, "rb") as file:
        return file.read()


def put(path, text):
    """Writes a file anew."""
    with open(path, "wb") as file:
        file.write(text if isinstance(text, bytes) else text.encode())


def limits(size=None, handles=None, memory=None, space=None):
    """What puts a process under a limit of the size of files, of how many are open, of the memory that it writes to, or of all that
    it has, before it begins."""
    given = ((resource.RLIMIT_FSIZE, size), (resource.RLIMIT_NOFILE, handles), (resource.RLIMIT_DATA, memory), (resource.RLIMIT_AS, space))

    def limited():
        signal.signal(signal.SIGXFSZ, signal.SIG_IGN)
        resource.setrlimit(resource.RLIMIT_CORE, (0, 0))
        for kind, most in given:
            if most is not None:
                resource.setrlimit(kind, (most, most))
    return limited if any(most is not None for _, most in given) else None


def lower_size(child, size):
    """Puts a process that is at work, and ignores the signal, under a limit of the size of files, or none."""
    _, most = resource.prlimit(child.pid, resource.RLIMIT_FSIZE)
    resource.prlimit(child.pid, resource.RLIMIT_FSIZE, (most if size is None else size, most))


def run(command, text, folder=None, limited=None):
    """What a run of this command answers to a text, its status, and what it says on standard error."""
    try:
        ran = subprocess.run(command, input=text.encode(), capture_output=True, cwd=folder, preexec_fn=limited, timeout=LONGEST)
    except subprocess.TimeoutExpired:
        return Ran([WAITED], -1, "")
    return Ran(ran.stdout.decode(errors="replace").splitlines(), ran.returncode, ran.stderr.decode(errors="replace"))


def complains(ran):
    """Whether a run says on standard error what it should: one line where it ends so that a person has to do something."""
    return bool(COMPLAINT.fullmatch(ran.said)) if ran.status in COMPLAINS else ran.said == ""


def behind_strace(calls, *inject, to=os.devnull, more=()):
    """The words that run a program under strace, which sees these calls and does something to them."""
    return ["strace", "-f", "-o", to, *more, "-e", f"trace={calls}", *(word for it in inject for word in ("-e", f"inject={it}"))]


def numbered(folder, first):
    """The names below a folder that begin so and end in a number, in its order."""
    parent, start = os.path.split(os.path.join(folder, first))
    if not os.path.isdir(parent):
        return []
    names = [name for name in os.listdir(parent) if re.fullmatch(re.escape(start) + NUMBER, name)]
    return sorted((os.path.join(os.path.dirname(first), name) for name in names), key=number)


def number(name):
    """The number at the end of a region's name."""
    return int(name.rpartition(".")[2])


def open_regions(pid):
    """The files of regions that a process has open, those that are removed, too."""
    handles = f"/proc/{pid}/fd"
    places = [os.readlink(os.path.join(handles, handle)) for handle in os.listdir(handles)]
    return [place for place in places if re.search(rf"/s(/r)?\.{NUMBER}( \(deleted\))?$", place)]


def contents(folder, names):
    """The bytes of each of these."""
    return {name: read(os.path.join(folder, name)) for name in names}


def tree(folder):
    """All that lies below a folder: what each name is, its mode and its bytes, or where it points."""
    found = {}
    for at, folders, files in os.walk(folder):
        for name in [*folders, *files]:
            path = os.path.join(at, name)
            mode = os.lstat(path).st_mode
            has_bytes = os.path.isfile(path) and not os.path.islink(path)
            what = os.readlink(path) if os.path.islink(path) else read(path) if has_bytes and os.access(path, os.R_OK) else None
            found[os.path.relpath(path, folder)] = (mode, what)
    return found


def text_of(folder, name):
    """The text of a file, or none where nothing is there."""
    path = os.path.join(folder, name)
    return read(path).decode(errors="replace") if os.path.exists(path) else None


class Typed:
    """A run whose input is typed bit by bit."""

    def __init__(self, command, folder=None, limited=None):
        self.said = tempfile.TemporaryFile()
        self.child = subprocess.Popen(
            command, stdin=subprocess.PIPE, stdout=subprocess.PIPE, stderr=self.said, text=True, cwd=folder, preexec_fn=limited
        )

    def type(self, text):
        """Types a text; a run that has ended takes none."""
        try:
            self.child.stdin.write(text)
            self.child.stdin.flush()
        except BrokenPipeError:
            pass

    def line(self):
        """The next line of the answers, or nothing after the last one."""
        return self.child.stdout.readline().rstrip("\n")

    def lines(self, count):
        """So many lines, or those that there are."""
        return [line.rstrip("\n") for line in itertools.islice(self.child.stdout, count)]

    def process(self):
        """The number of the program's process, which may have been begun by another one."""
        pid = self.child.pid
        below = f"/proc/{pid}/task/{pid}/children"
        inner = read(below).split() if os.path.exists(below) else []
        return int(inner[0]) if inner else pid

    def until_it_waits(self):
        """Waits until all that was typed is read, and the run waits for more, or has ended."""
        while self.child.poll() is None:
            state = text_of("/proc", f"{self.process()}/stat") or ") Z"
            waiting = array.array("i", [0])
            fcntl.ioctl(self.child.stdin.fileno(), termios.FIONREAD, waiting)
            if state.rpartition(")")[2].split()[0] == "S" and not waiting[0]:
                return
            time.sleep(0.001)

    def until_it_stops(self, trace):
        """Waits until a run stands still that is traced into this file, or has ended."""
        while self.child.poll() is None and b"stopped by SIGSTOP" not in read(trace):
            time.sleep(0.001)

    def goes_on(self):
        """Lets a run go on that stands still."""
        if self.child.poll() is None:
            os.kill(self.process(), signal.SIGCONT)

    def kill(self):
        """Kills the run."""
        self.child.kill()
        self.child.wait()

    def end(self):
        """The rest of the answers after the end of the input, and the status."""
        try:
            self.child.stdin.close()
        except BrokenPipeError:
            pass
        return self.child.stdout.read().splitlines(), self.child.wait()

    def ran(self):
        """The same, and what it says on standard error."""
        lines, status = self.end()
        self.said.seek(0)
        return Ran(lines, status, self.said.read().decode(errors="replace"))
