#!/usr/bin/env python3
"""Has each call of the program on files fail, once and for good, and looks at how runs end and whether the next goes on.

The workloads are those of tests/power.py. Of each the run is taken that is hindered there, or the last; each call that it makes
of the system fails by itself, with one error and then another, and then from that call on each further one, too. What the
run answered has to be right, its end one that the specification has, and the next run has to answer as one run over the
texts that were answered, or over one text more (with its batch).

usage: tests/faults.py [PROGRAMS] [--faults N] [--seed S] [--only WORKLOAD]
Needs the program in PROGRAMS (crates/ without it; `bench/build.py oblidb` builds it there), python3 and strace. Tries N faults
of each workload, drawn behind S, or all without the word: some four minutes on four processors.
"""
import argparse
import collections
import concurrent.futures
import os
import random
import re
import shutil

import runs
import workloads
from power import command

# The errors that each call is given, by what it does; a call that isn't named gets the first.
ERRORS = collections.defaultdict(lambda: ("EIO",), {
    call: errors
    for calls, errors in {
        "write writev pwrite64 pwritev": ("ENOSPC", "EIO"),
        "open openat creat mkdir mkdirat": ("ENOSPC", "EACCES"),
        "rename renameat renameat2": ("ENOSPC", "EXDEV"),
        "unlink unlinkat rmdir": ("EIO", "EACCES"),
        "fsync fdatasync": ("EIO", "ENOSPC"),
        "flock": ("ENOLCK", "EIO"),
    }.items()
    for call in calls.split()
})
# How a run may end, by its status: its last line. A status of 127 is that of the system's loader, before the program begins.
ENDS = {
    0: "= .*|", 1: "= .*|E[0-9]{2} .*|", 3: "! store fault", 5: "! source fault|", 6: ".*", 7: "! no memory|", 9: "! no mark", 10: "! keeper fault",
    127: "",
}
# A fault: which call, which of its kind, with what error, and whether all after it fail, too.
Fault = collections.namedtuple("Fault", "call at error lasts")


def faults_of(program, workload, run, folder):
    """Each fault that a run may have, by the calls that it makes."""
    trace = f"{folder}.calls"
    runs.run([*runs.behind_strace("%file,%desc,getrandom", to=trace), *command(program, workload, run)], text_of(run), folder)
    names = re.findall(r"(?m)^(?:[0-9]+ +)?(\w+)\(", runs.read(trace).decode(errors="replace"))
    counts = collections.Counter(name for name in names if name not in ("execve", "exit_group", "mmap", "munmap", "mprotect"))
    return [
        Fault(call, at, error, lasts)
        for call, count in sorted(counts.items()) for at in range(1, count + 1) for error in ERRORS[call] for lasts in ("", "+")
    ]


def text_of(run):
    """What is typed in a run."""
    return runs.KEY + "\n".join(run.texts) + "\n"


def unhindered(variant):
    """The runs of a variant up to the one that is hindered, or all of them, none of them hindered."""
    places = [place for place, run in enumerate(variant) if run.hindered]
    return [run._replace(hindered=None) for run in variant[: places[0] + 1 if places else len(variant)]]


def begun(program, workload, variant, folder):
    """A folder with all runs but the last behind it, what may be there then, and the last."""
    for name in ("disk", "safe"):
        os.makedirs(os.path.join(folder, name))
    if workload.place == "link":
        os.symlink("../safe/m", os.path.join(folder, "disk", runs.MARK_FILE))
    before = {()}
    for run in variant[:-1]:
        ran = runs.run(command(program, workload, run), text_of(run), folder)
        before = workloads.possible(before, run.texts, workloads.most_of(run.words), workloads.split_answers(ran.lines)[0])
    return before, variant[-1]


def is_documented(ran, fault):
    """Whether a run ended as the specification says, and said why on standard error, as far as it could write that."""
    if fault.call.startswith("write") or ran.status == 127:
        return ran.status in ENDS
    last = ran.lines[-1] if ran.lines else ""
    return ran.status in ENDS and re.fullmatch(ENDS[ran.status], last) is not None and (ran.status == 1 or runs.complains(ran))


def wrong_with(program, workload, base, before, run, fault, folder):
    """What is wrong after a fault, if anything is."""
    shutil.copytree(base, folder, symlinks=True)
    inject = f"{fault.call}:error={fault.error}:when={fault.at}{fault.lasts}"
    ran = runs.run([*runs.behind_strace(fault.call, inject), *command(program, workload, run)], text_of(run), folder)
    answers, _ = workloads.split_answers(ran.lines)
    may = workloads.possible(before, run.texts, workloads.most_of(run.words), answers)
    again = [*workloads.select(*workloads.names_of(workload)), workloads.create("next")]
    then = runs.run(command(program, workload, run), runs.KEY + "\n".join(again) + "\n", folder)
    shown, stop = workloads.split_answers(then.lines)
    if not is_documented(ran, fault):
        return f"ended so: {ran}"
    if stop or then.status not in (0, 1) or shown not in [workloads.served(tables, again)[0] for tables in may]:
        return f"answered {ran.lines}, status {ran.status}, and then {then}"
    return None


def try_workload(tests, program, workload, words, folder):
    """Tries the faults of a workload, and says how many there were, and what was wrong."""
    variant = unhindered(workload.variants[0])
    base, spare = os.path.join(folder, "base"), os.path.join(folder, "spare")
    before, run = begun(program, workload, variant, base)
    shutil.copytree(base, spare, symlinks=True)
    faults = faults_of(program, workload, run, spare)
    if words.faults:
        faults = random.Random(f"{words.seed} {workload.name}").sample(faults, min(words.faults, len(faults)))

    def one(numbered):
        place, fault = numbered
        own = os.path.join(folder, f"fault{place}")
        wrong = wrong_with(program, workload, base, before, run, fault, own)
        shutil.rmtree(own)
        return f"{fault.call} {fault.at}{fault.lasts} {fault.error}: {wrong}" if wrong else None

    with concurrent.futures.ThreadPoolExecutor(os.cpu_count()) as pool:
        wrong = [it for it in pool.map(one, enumerate(faults)) if it]
    tests.say(f"{workload.name}, {len(faults)} faults, {len(wrong)} bad", faults and not wrong, "\n  ".join(["", *wrong[:4]]))


def main():
    reader = argparse.ArgumentParser(description="calls on files that fail")
    reader.add_argument("programs", nargs="?", default=runs.TOP / "crates")
    reader.add_argument("--faults", type=int)
    reader.add_argument("--seed", default="0")
    reader.add_argument("--only")
    words = reader.parse_args()
    tests, program = runs.Tests(), runs.program(words.programs)
    os.umask(0o077)
    if not runs.has("strace"):
        tests.skip("calls on files that fail", "strace isn't there, or mayn't look at other processes")
        tests.end()
    for workload in workloads.WORKLOADS:
        if words.only in (None, workload.name):
            with runs.room() as folder:
                try_workload(tests, program, workload, words, folder)
    tests.end()


if __name__ == "__main__":
    main()
