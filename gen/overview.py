#!/usr/bin/env python3
"""Draws two pictures of the documents: docs/overview.svg, who has what and who sees what, and docs/layers.svg, the crates in
layers, each above all that it stands on, by the lines of crates.txt. Needs python3 alone, and takes a moment.

usage: gen/overview.py
"""
import pathlib
from xml.sax.saxutils import escape

TOP = pathlib.Path(__file__).resolve().parent.parent
STYLE = (
    "text{font:13px sans-serif}.h{font-weight:bold}.s{font-size:12px;fill:#333}.c{font:11px monospace}"
    ".k{fill:#eef4fb;stroke:#1f77b4}.u{fill:#fdf1f0;stroke:#d62728}.p{fill:#fff;stroke:#999}.n{fill:#f7f7f7;stroke:#999}"
    ".d{fill:#d9d9d9;stroke:#777}.a{stroke:#333;fill:none;marker-end:url(#e)}"
)
ARROW = '<marker id="e" viewBox="0 0 8 8" refX="8" refY="4" markerWidth="8" markerHeight="8" orient="auto"><path d="M0 0L8 4L0 8z" fill="#333"/></marker>'

# What there is of each kind in the picture of layers, and the title of each layer.
PROGRAMS = ("oblidb", "oblitrace", "ob_cases", "ob_drawn", "ob_text_tests", "ob_storage_tests", "ob_pass_tests", "ob_flight_tests", "ob_oram_bench")
MEASURED = ("ob_parse_bench", "ob_pass_bench")


def text(x, y, words, style="", middle=False):
    return '<text x="%d" y="%d"%s%s>%s</text>' % (x, y, ' class="%s"' % style if style else "", ' text-anchor="middle"' if middle else "", escape(words))


def lines(x, y, words, style="s"):
    """Lines one below the other."""
    return [text(x, y + 17 * i, line, style) for i, line in enumerate(words)]


def box(x, y, width, height, style):
    return '<rect x="%d" y="%d" width="%d" height="%d" rx="4" class="%s"/>' % (x, y, width, height, style)


def arrow(x, y, to_x, to_y):
    return '<path d="M%d %dL%d %d" class="a"/>' % (x, y, to_x, to_y)


def write(name, width, height, drawn):
    head = '<svg xmlns="http://www.w3.org/2000/svg" width="%d" height="%d" viewBox="0 0 %d %d">' % (width, height, width, height)
    ground = '<rect width="100%" height="100%" fill="#fff"/>'
    (TOP / name).write_text("\n".join([head, "<defs><style>%s</style>%s</defs>" % (STYLE, ARROW), ground, *drawn]) + "\n</svg>\n")


def overview():
    """You, the program with its open rows, the store, and below each what that side sees."""
    drawn = [box(10, 40, 150, 200, "p"), box(290, 40, 240, 200, "k"), box(690, 40, 200, 200, "u")]
    drawn += [text(85, 30, "you", "h", True), text(410, 30, "the program, trusted", "h", True), text(790, 30, "the store, not trusted", "h", True)]
    drawn += lines(22, 74, ["a secret", "SQL statements"]) + lines(22, 166, ["answers, refusals,", "or a last line that", "says why it ended"])
    drawn += [arrow(160, 78, 288, 78), arrow(290, 180, 162, 180)]
    drawn += lines(302, 66, ["reads and plans statements;", "numbers each write; seals and opens"])
    drawn += [text(302, 122, "B rows may be open:", "s")]
    drawn += [box(302 + 27 * i, 132, 22, 20, "p") for i in range(8)]
    drawn += lines(302, 180, ["the mark of the last run lies where", "the others can't write"])
    drawn += [text(610, 68, "make, discard,", "s", True), text(610, 85, "open a region", "s", True), arrow(530, 94, 688, 94)]
    drawn += [text(610, 132, "read, write a block", "s", True), arrow(530, 141, 688, 141), arrow(690, 153, 532, 153)]
    for i, name in enumerate(("region 5", "region 8", "region 9")):
        drawn += [text(702, 72 + 46 * i, name, "s")] + [box(702 + 22 * j, 78 + 46 * i, 18, 18, "d") for j in range((4, 8, 8)[i])]
    drawn += lines(702, 212, ["rows or dummies, xored", "with a key stream, and a tag"])
    drawn += [box(10, 262, 270, 118, "n"), box(290, 262, 290, 118, "n"), box(590, 262, 300, 118, "n")]
    drawn += [text(22, 282, "You learn", "h"), text(302, 282, "Who watches the calls learns at most", "h"), text(602, 282, "Who changes the store", "h")]
    drawn += lines(22, 303, ["the answers of SQL, exactly, unless a", "changed block's tag happens to fit;", "or, where a changed block was read,", "its place, and that the run ended"])
    drawn += lines(302, 303, ["settings, kinds of statements, columns", "and sizes of tables, how each statement", "ended; of a SELECT of rows a number", "and a plan, or, padded, neither; of an", "access of an index a leaf, drawn"])
    drawn += lines(602, 303, ["can have a call fail: the statement is", "answered E15, and the run goes on, or,", "in an access of an index, ends; can", "change a block: where it is read first,", "the run ends, unless its tag fits"])
    write("docs/overview.svg", 900, 392, drawn)


def layers():
    """The crates, lowest at the foot; a crate stands one layer above the highest that it names."""
    uses = {}
    for line in (TOP / "crates.txt").read_text().splitlines():
        name, colon, rest = line.partition("#")[0].partition(":")
        if colon:
            uses[name.strip()] = rest.split()
    height = {}

    def rank(name):
        if name not in height:
            height[name] = 1 + max((rank(used) for used in uses[name] if used in uses), default=0)
        return height[name]

    most = max(map(rank, uses))
    drawn, y = [], 10
    for layer in range(most, 0, -1):
        names = [name for name in uses if rank(name) == layer]
        rows = [names[i : i + 7] for i in range(0, len(names), 7)]
        deep = 14 + 30 * len(rows)
        drawn += [box(10, y, 1000, deep, "n"), text(24, y + 8 + deep // 2 - 4, str(layer), "h")]
        for i, row in enumerate(rows):
            for j, name in enumerate(row):
                style = "p" if name.endswith("_tests") or name == "ob_test_stores" or name in MEASURED else "k"
                style = "u" if name in PROGRAMS else style
                drawn += [box(46 + 137 * j, y + 9 + 30 * i, 131, 24, style), text(111 + 137 * j, y + 25 + 30 * i, name, "c", True)]
        y += deep + 6
    drawn += [text(24, y + 16, "blue: libraries; red: programs; white: tests and what bench/ measures", "s")]
    write("docs/layers.svg", 1020, y + 28, drawn)


overview()
layers()
