#!/usr/bin/env python3
"""Tries the wrong bodies of crates/NAME/must-fail/ and more-edits/, of the crates that are named or else of all: each edit is
put into a copy of its crate, and the prover has to refuse it at a clause or a goal.

Edits that change other functions are put in together, and those functions alone are checked, each for itself: what the prover
refuses of one is told by the file and the function that it names. An edit that isn't refused so is tried by itself, and then
in the whole crate. Prints a line for each, with the first that the prover says of it, and ends with 1 where one is proved, or
is refused only because a proof file names what it took away, or can't be read. Where one of them can't be applied, each such
is named, none is tried, and it ends with 1.

usage: tests/edits.py [NAME..] [--jobs N] [--check COMMAND]
Needs `rt` and python3. What `rt check` and `rt lib` have kept in this tree isn't proved again; in a clean clone all that stands
below the named crates is proved first. Works on N crates at once, one without the word; COMMAND checks the crate in whose
folder it runs, in the place of `rt check`. A minute or two for a crate, and some two hours of a processor for all.
"""
import argparse
import collections
import concurrent.futures
import pathlib
import re
import shlex
import shutil
import subprocess
import sys
import tempfile

TOP = pathlib.Path(__file__).resolve().parent.parent
FUNCTION = re.compile(r"(?m)^( *)(?:pub(?:\([a-z]+\))? )?(?:const )?fn (\w+)")
IMPL = re.compile(r"(?m)^(?:impl|(?:pub(?:\([a-z]+\))? )?trait)\b[^{;]*")
PLACE = re.compile(r"(?:note: )?(?:\./)?(\S+?):(\d+):\d+:")
# A proof that names what an edit took away is refused whatever the contract says.
NAMES = re.compile(r"(\./)?proofs/.*(has no field|is not in scope|has no `|was not admitted)")
# What the prover remarks of a proof whether it refuses anything or not.
REMARKS = re.compile(r"note: (large solution|finished|`cc` took no step)")
# So many edits are put in together at most.
MOST = 16

# An edit: its file, the texts that it leaves, by their paths in the crate, and the functions that it changes.
Edit = collections.namedtuple("Edit", "path texts functions")
# What came of it: whether it was refused, and at what, or why not.
Tried = collections.namedtuple("Tried", "refused why")


class Unfit(Exception):
    """An edit that can't be applied."""


def libraries():
    """The libraries that each crate uses, by its name."""
    uses = {}
    for line in (TOP / "crates.txt").read_text().splitlines():
        head, _, used = line.partition("#")[0].partition(":")
        if head.strip():
            uses[head.split()[0]] = used.split()
    return uses


def below(uses, name, found):
    """All crates that a crate stands on, put to those that were found."""
    for library in uses[name]:
        if library in uses and library not in found:
            found.add(library)
            below(uses, library, found)
    return found


def changes(path):
    """The pairs of texts of an edit, each with the file that it changes."""
    pairs, file, old = [], None, None
    for line in path.read_text().splitlines():
        word, _, text = line.partition(": ")
        if word == "file":
            file = text
        elif word == "old":
            old = text
        elif word in ("new", "new:"):
            pairs.append((file, old, text))
            old = None
        elif line.strip():
            raise Unfit(f"'{line}' is no line of an edit")
    if not pairs or any(not file or not old for file, old, _ in pairs):
        raise Unfit("it has no text that it changes")
    return pairs


def owner(text, place):
    """What the prover puts before the name of a method: its type, and its trait after that."""
    heads = [head for head in IMPL.finditer(text) if head.start() <= place]
    if not heads:
        return ""
    head = re.sub(r"<[^<>]*>", "", re.sub(r"<[^<>]*>", "", re.sub(r"<[^<>]*>", "", heads[-1][0])))
    words = head.replace("unsafe ", "").partition(" where")[0].split()
    names = [word.rpartition("::")[2].rstrip(":") for word in words if word not in ("impl", "pub", "trait", "for")]
    return (names[1] + names[0] if "for" in words else names[0]) + "::"


def function_at(file, text, place):
    """The path below the crate of the function that a place of a file stands in, as the prover names it."""
    heads = [head for head in FUNCTION.finditer(text) if head.start() <= place]
    if not file.endswith(".rt") or not heads or place > text.find(f"\n{heads[-1][1]}}}", heads[-1].end()):
        return None
    module = [part for part in pathlib.PurePath(file).with_suffix("").parts[1:] if part not in ("lib", "main", "mod")]
    inside = owner(text, heads[-1].start()) if heads[-1][1] else ""
    return "::".join([*module, inside + heads[-1][2]])


def edited(folder, path):
    """An edit, read over the sources of its crate."""
    texts, functions = {}, set()
    for file, old, new in changes(path):
        if file not in texts:
            if not (folder / file).is_file():
                raise Unfit(f"there is no {file}")
            texts[file] = (folder / file).read_text()
        text = texts[file]
        if text.count(old) != 1:
            raise Unfit(f"'{old}' stands {text.count(old)} times in {file}")
        functions.add(function_at(file, text, text.index(old)))
        texts[file] = text.replace(old, new)
    if all(text == (folder / file).read_text() for file, text in texts.items()):
        raise Unfit("it changes nothing")
    return Edit(path, texts, None if None in functions else frozenset(functions))


class Crate:
    """A copy of a crate and of those below it, in which edits are tried."""

    def __init__(self, name, uses, room, command):
        self.name, self.command = name, command
        self.top = pathlib.Path(room, name)
        copied = below(uses, name, {name})
        (self.top / "crates").mkdir(parents=True)
        (self.top / "crates.txt").write_text("".join(f"{it}: {' '.join(uses[it])}\n" for it in uses if it in copied))
        shutil.copy(TOP / "HANDLES", self.top)
        for it in copied:
            shutil.copytree(TOP / "crates" / it, self.top / "crates" / it, ignore=shutil.ignore_patterns("must-fail", "more-edits", "data"))
        self.folder = self.top / "crates" / name

    def check(self, only=()):
        """The status of a check, and the lines that it says."""
        words = [*self.command, *(word for it in sorted(only) for word in ("--only", it))]
        how = {"stdin": subprocess.DEVNULL, "stdout": subprocess.PIPE, "stderr": subprocess.STDOUT, "text": True, "errors": "replace"}
        ran = subprocess.run(words, cwd=self.folder, **how)
        return ran.returncode, ran.stdout.rstrip().splitlines() or [""]

    def with_edits(self, edits, only=()):
        """The same of the crate with these edits, which change other lines of its files."""
        kept = {}
        for edit in edits:
            for file, old, new in changes(edit.path):
                text = (self.folder / file).read_text()
                kept.setdefault(file, text)
                (self.folder / file).write_text(text.replace(old, new))
        try:
            return self.check(only)
        finally:
            for file, text in kept.items():
                (self.folder / file).write_text(text)

    def is_of(self, function, line):
        """Whether an error is told of this function: in its sources, or in the files of its proof."""
        found = PLACE.match(line)
        if not found:
            return False
        file, at = found[1], int(found[2])
        if file.startswith("src/"):
            text = (self.folder / file).read_text()
            place = sum(len(it) + 1 for it in text.split("\n")[: at - 1])
            return function_at(file, text, place) == function
        *modules, name = function.split("::")
        return any(f"proofs/{'/'.join([*modules, it])}/" in file for it in (name, f"+{name}"))

    def judged(self, edit, status, lines):
        """What a check of its functions says of an edit; nothing where it has to be tried by itself."""
        if not re.match(r"only=\d+ ", lines[-1]):
            return None
        refused = {it for it in edit.functions if f"fn {self.name}::{it}: not proved" in lines}
        for function in sorted(refused):
            own = [line for line in lines if self.is_of(function, line) and not REMARKS.search(line)]
            real = [line for line in own if not NAMES.match(line)]
            if real:
                return Tried(True, real[0])
        return None

    def alone(self, edit):
        """What comes of an edit by itself: in its functions, and where those don't refuse it in the whole crate."""
        why = "the crate is still proved"
        for only in [edit.functions, ()] if edit.functions else [()]:
            status, lines = self.with_edits([edit], only)
            is_judged = re.match(r"only=\d+ |logic=not-proved", lines[-1])
            told = [line for line in lines if PLACE.match(line) and not REMARKS.search(line)]
            real = [line for line in told if not NAMES.match(line)]
            if status == 1 and is_judged and real:
                return Tried(True, real[0])
            if status == 1 and is_judged and told:
                why = "only because a proof file names what it took away"
            elif status:
                why = f"it can't be judged: {(real or lines)[-1]}"
        return Tried(False, why)

    def together(self, edits):
        """What comes of edits that change other functions, by their files: those that it tells of."""
        status, lines = self.with_edits(edits, frozenset().union(*(edit.functions for edit in edits)))
        if len(edits) > 1 and not re.match(r"only=\d+ ", lines[-1]):
            half = len(edits) // 2
            return {**self.together(edits[:half]), **self.together(edits[half:])}
        found = {edit.path: self.judged(edit, status, lines) for edit in edits}
        return {path: tried for path, tried in found.items() if tried}

    def tried(self, edits):
        """What comes of each edit."""
        found, left = {}, [edit for edit in edits if edit.functions]
        while left:
            now, used = [], set()
            for edit in left:
                if len(now) < MOST and not used & edit.functions:
                    now.append(edit)
                    used |= edit.functions
            left = [edit for edit in left if edit not in now]
            found.update(self.together(now) if len(now) > 1 else {})
        return [(edit, found.get(edit.path) or self.alone(edit)) for edit in edits]


def attempt(name, edits, uses, room, command):
    """The lines on a crate's edits, and how many were refused and how many weren't."""
    crate = Crate(name, uses, room, command)
    status, lines = crate.check()
    if status:
        return [f"{name} itself isn't proved: {lines[-1]}"], 0, 1
    tried = crate.tried(edits)
    told = [f"{name}/{edit.path.stem}: {'refused at' if it.refused else 'NOT REFUSED:'} {it.why[:160]}" for edit, it in tried]
    refused = sum(it.refused for _, it in tried)
    return told, refused, len(tried) - refused


def fitting(uses, named):
    """The edits of each crate that has some; ends where one can't be applied."""
    found, unfit = {}, 0
    for name in uses:
        folder = TOP / "crates" / name
        for path in [it for part in ("must-fail", "more-edits") for it in sorted((folder / part).glob("*.edit"))]:
            if named and name not in named:
                continue
            try:
                found.setdefault(name, []).append(edited(folder, path))
            except Unfit as why:
                print(f"{name}/{path.stem}: CAN'T BE APPLIED: {why}", flush=True)
                unfit += 1
    if unfit:
        sys.exit(f"{unfit} can't be applied, so none was tried")
    return found


def main():
    parser = argparse.ArgumentParser()
    parser.add_argument("names", nargs="*")
    parser.add_argument("--jobs", type=int, default=1)
    parser.add_argument("--check", default="rt check", type=shlex.split)
    words = parser.parse_args()
    uses = libraries()
    for name in words.names:
        if name not in uses:
            sys.exit(f"{name} is no crate")
    edits = fitting(uses, words.names)
    if not edits:
        sys.exit("nothing to try")
    passed = failed = 0
    with tempfile.TemporaryDirectory() as room, concurrent.futures.ThreadPoolExecutor(words.jobs) as pool:
        for told, well, wrong in pool.map(lambda name: attempt(name, edits[name], uses, room, words.check), edits):
            print(*told, sep="\n", flush=True)
            passed, failed = passed + well, failed + wrong
    print(f"{passed} refused, {failed} not refused")
    sys.exit(failed > 0)


if __name__ == "__main__":
    main()
