#!/usr/bin/env python3
"""Builds these programs of crates/, each as crates/NAME/out/NAME. Other scripts import it, too.

usage: bench/build.py NAME..
Needs `rt`, of the kit that README names, and python3. On a clean clone it proves each crate below a program first: some 20
minutes for `oblitrace` on four processors, and from then on a minute or less. Ends with 1, and the last lines that `rt` said,
where that fails.
"""
import pathlib
import subprocess
import sys

from driven import parser

TOP = pathlib.Path(__file__).resolve().parent.parent
# So many lines of `rt` are told.
LAST = 5


def program(name):
    """Where this program of crates/ lies once it is built."""
    return str(TOP / "crates" / name / "out" / name)


def built(name):
    """The status of a run of a crate over its `stdin`, by which `rt` builds it, and the lines that are said."""
    folder = TOP / "crates" / name
    how = {"stdout": subprocess.PIPE, "stderr": subprocess.STDOUT, "text": True, "errors": "replace"}
    try:
        with (folder / "stdin").open() as stdin:
            ran = subprocess.run(["rt", "run"], cwd=folder, stdin=stdin, **how)
    except OSError as error:
        return 1, [str(error)]
    return ran.returncode, ran.stdout.splitlines()


def build(*names):
    """Builds these programs; ends at the first that isn't built."""
    try:
        for name in names:
            status, lines = built(name)
            if status:
                sys.exit("\n".join([f"crates/{name} is not built:", *lines[-LAST:]]))
    finally:
        # What a run of `oblidb` that was cut off leaves.
        for file in (TOP / "crates/oblidb").glob("oblidb-store.*"):
            file.unlink(missing_ok=True)


def main():
    words = parser(__doc__)
    words.add_argument("names", metavar="NAME", nargs="*", help="a program of crates/")
    build(*words.parse_args().names)


if __name__ == "__main__":
    main()
