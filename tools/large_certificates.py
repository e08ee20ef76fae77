#!/usr/bin/env python3
"""Measures `check` on certificates at their limits: large_certificates.py [--small] [--keep FOLDER] [--seconds N] [PROGRAM [CASE ..]]

PROGRAM is `./run` of this repository where no other is named; without a CASE all are measured. Each case makes a map, a table, a written map
and a certificate, in a process of its own and line by line, and runs `check` on them. A line for each case has its name, the bytes of the
certificate, the seconds, the peak memory of the program in MB, the exit code and the line that was said, and, where another one was due, that.

The map is a square of cells, each an area, where no two that touch have one class; a further class is owned by none. The grouping is one
region. What the leaves are worth is known without adding anything up: no row makes a number of an area's own class less than it is, and each
number that a row makes less stays above 0. So a leaf over all classes is worth 0, and a tree whose splits leave a way on which each area may
keep its class has the bound 0.

With `--small` the squares are smaller and there is about a thousandth of rows and splits, to try the script: then nothing passes a limit but
the depth. With `--keep FOLDER` the files stay there, and the command is printed too. A run is ended after N seconds, 3600 where no other
number is named; then the code is -9. It takes no part in any proof.

    borders    one leaf of 5,000,000 border rows: 40,000,000 marks, the limit
    wide       the same, with multipliers of 32 digits, which add up to 0 at every area
    singles    one leaf of 4,444,444 escape rows of one area each
    sets       one leaf of escape rows of 32,768 areas each: 40,000,000 marks
    row        one row more than `borders`
    splits     1,000,000 splits, the limit, some of them 1,023 deep, and leaves without rows
    split      one split more
    deep       a node that is 1,025 deep
    line       4,999,999 border rows, and a line that fills the text to 536,870,912 bytes, the limit, and is not due
    over       one byte more
    drawing    a written map of 268,435,456 bytes, the limit: blanks behind it
    past       one byte more
"""
import collections
import itertools
import os
import subprocess
import sys
import tempfile

from measure import TOP, timed
from tally import take_option

MOST_MARKS = 40000000
MOST_SPLITS = 1000000
DEEPEST = 1024
MOST_CERTIFICATE = 536870912
MOST_OUT = 268435456
CLASSES, UNOWNED = 5, 4
FAR, CELL = 10000, 2
TABLE = "classes 1\nborder 1\n" + "".join(f"class 0 {k + 1}\n" for k in range(CLASSES)) + "".join(
    "row " + " ".join(str(0 if i == j else FAR) for j in range(CLASSES)) + "\n" for i in range(CLASSES)
)

# How large a case is: the side of its square of cells and its marks; that of a tree, how deep it is, and its splits; the bytes of both texts.
Size = collections.namedtuple("Size", "side marks tree_side depth splits certificate out")
FULL = Size(256, MOST_MARKS, 32, DEEPEST, MOST_SPLITS, MOST_CERTIFICATE, MOST_OUT)
SMALL = Size(16, MOST_MARKS // 1000, 8, 64, MOST_SPLITS // 1000, MOST_CERTIFICATE // 1000, MOST_OUT // 1000)

# The lines of the tree, the bound that is stated, the bytes of both texts where they are filled up, and the line that is due.
Made = collections.namedtuple("Made", "side bound tree fill out due", defaults=(None, None, None))


def own(side, area):
    """The class of an area of a square, from 0 on."""
    return (area % side + 2 * (area // side)) % UNOWNED


def links(side):
    """The areas of each link, in order."""
    for area in range(side * side):
        if (area + 1) % side:
            yield area, area + 1
        if area + side < side * side:
            yield area, area + side


def cost(side):
    """What one region of the first class costs."""
    return FAR * CELL * sum(own(side, area) != 0 for area in range(side * side))


def map_lines(side):
    yield f"ncols {side}\nnrows {side}\nxllcorner 0\nyllcorner 0\ncellsize 1\n"
    for row in range(side):
        yield " ".join(str(own(side, row * side + column) + 1) for column in range(side)) + "\n"


def out_text(side):
    """The written map of one region: the border of the square, cell by cell."""
    ways = [way for way in ("[1,0]", "[0,1]", "[-1,0]", "[0,-1]") for _ in range(side)]
    shape = '{"type":"MultiPolygon","id":0,"properties":{"class":"1"},"arcs":[[[0]]]}'
    head = '{"type":"Topology","transform":{"scale":[1,1],"translate":[0,0]},"objects":{"regions":{"type":"GeometryCollection","geometries":['
    return head + shape + ']}},"arcs":[[' + ",".join(["[0,0]"] + ways) + "]]}\n"


def head_lines(side, bound):
    yield f"aggregation 1\nstatus within\ncost {cost(side)}\nbound {bound}\nareas {side * side}\nregions 1\nr 0\n"
    yield from itertools.repeat("a 0\n", side * side)


def head_count(side):
    """How many lines stand in front of the tree."""
    return 7 + side * side


def border_rows(side, count):
    """Border rows on each link in turn, of either side, for a class that neither of its areas has."""
    told = [(link, [k for k in range(CLASSES) if k not in (own(side, a), own(side, b))]) for link, (a, b) in enumerate(links(side))]
    for at in range(count):
        turn, place = divmod(at, len(told))
        link, free = told[place]
        yield f"b {link} {turn % 2} {free[turn % len(free)]} {1 + at % 3}\n"


def wide_rows(side, count, multiplier):
    """Border rows in pairs of both sides, whose multipliers add up to 0 at both areas."""
    total = sum(1 for _ in links(side))
    for at in range(count):
        yield f"b {at // 2 % total} {at % 2} {at // 2 % CLASSES} {multiplier}\n"


def wide_bound(side, count, multiplier):
    """What these rows are worth: each link keeps less than nothing."""
    total = sum(1 for _ in links(side))
    rounds, rest = divmod(count // 2, total)
    return sum(min(0, 256 - 2 * multiplier * (rounds + (link < rest))) for link in range(total))


def escape_row(area, members, multiplier):
    return f"e {multiplier} {area} {UNOWNED} {len(members)} " + " ".join(map(str, members)) + "\n"


def single_rows(side, count):
    for at in range(count):
        area = at % (side * side)
        yield escape_row(area, [area], 1 + at % 3)


def set_rows(side, marks):
    """Escape rows of half of the areas each, and a last one of as many as there are marks left."""
    half = side * side // 2
    first = 0
    while marks > 8:
        count = min(half, marks - 8)
        first = (first + 977) % half
        yield escape_row(first, range(first, first + count), 1)
        marks -= 8 + count


def set_count(side, marks):
    each = 8 + side * side // 2
    return marks // each + (marks % each > 8)


def leaf(count, rows):
    yield f"c 1 {count}\n"
    yield from rows


def even_tree(depth, splits):
    """A tree of so many splits, as flat as may be, whose root is at this depth: a split is on the area of its depth."""
    if splits == 0:
        yield "c 1 0\n"
        return
    yield f"s {depth} 0\n"
    yield from even_tree(depth + 1, (splits - 1) // 2)
    yield from even_tree(depth + 1, splits - 1 - (splits - 1) // 2)


def spine(depth, splits):
    """A way down through so many `no` children, with even trees beside its upper nine tenths that make up the number of splits."""
    wide = depth * 9 // 10
    each, rest = divmod(splits - depth, wide)
    for at in range(depth):
        yield f"s {at} 0\n"
        yield from even_tree(at + 1, each + (at < rest) if at < wide else 0)
    yield "c 1 0\n"


def deep_tree():
    """Splits one below the other, the last of which is too deep."""
    yield from itertools.repeat("s 0 0\n", DEEPEST + 2)


def line_rows(size):
    """One border row less than may be, and the front of a line whose members do not rise."""
    count = size.marks // 8
    yield f"c 1 {count}\n"
    yield from border_rows(size.side, count - 1)
    yield "e 1 0 0 1 0"


def place_of_split(tree, number):
    """At which line of a tree the split of this number stands."""
    splits = 0
    for place, line in enumerate(tree, 1):
        splits += line.startswith("s")
        if splits == number:
            return place
    return None


def made_leaf(case, size):
    """A case whose tree is one leaf."""
    side, count, multiplier = size.side, size.marks // 8, 10**31
    if case == "wide":
        return Made(side, wide_bound(side, count, multiplier), leaf(count, wide_rows(side, count, multiplier)))
    if case == "singles":
        return Made(side, 0, leaf(size.marks // 9, single_rows(side, size.marks // 9)))
    if case == "sets":
        return Made(side, 0, leaf(set_count(side, size.marks), set_rows(side, size.marks)))
    due = f"refused: certificate Limit {head_count(side) + 1 + count + 1}" if case == "row" and size == FULL else None
    count += case == "row"
    return Made(side, 0, leaf(count, border_rows(side, count)), due=due)


def made_tree(case, size):
    """A case whose tree has splits."""
    side = size.tree_side
    if case == "deep":
        return Made(side, 0, deep_tree(), due=f"refused: certificate TooDeep {head_count(side) + DEEPEST + 2}")
    splits = size.splits + (case == "split")
    due = None
    if case == "split" and size == FULL:
        due = f"refused: certificate Limit {head_count(side) + place_of_split(spine(size.depth, splits), splits)}"
    return Made(side, 0, spine(size.depth, splits), due=due)


def made_line(case, size):
    """A case whose certificate is filled up by a line that is not due."""
    due = f"refused: certificate Line {head_count(size.side) + 1 + size.marks // 8}"
    if case == "over":
        due = "refused: certificate TooLong" if size == FULL else due
    return Made(size.side, 0, line_rows(size), size.certificate + (case == "over"), None, due)


def made_drawing(case, size):
    """A case whose written map is filled up."""
    due = "refused: out TooLong" if case == "past" and size == FULL else None
    return Made(size.tree_side, 0, leaf(0, []), None, size.out + (case == "past"), due)


CASES = dict.fromkeys(["borders", "wide", "singles", "sets", "row"], made_leaf)
CASES.update(dict.fromkeys(["splits", "split", "deep"], made_tree))
CASES.update(dict.fromkeys(["line", "over"], made_line))
CASES.update(dict.fromkeys(["drawing", "past"], made_drawing))


def due_line(made):
    """The line that is due; a case without one of its own is valid."""
    return made.due or f"valid within {cost(made.side)} {made.bound}"


def blocks(lines):
    """The lines joined to blocks."""
    block = "".join(itertools.islice(lines, 5000))
    while block:
        yield block
        block = "".join(itertools.islice(lines, 5000))


def write(path, lines, fill=None, more="\n"):
    """Writes the lines; where the file is to have so many bytes, `more` again and again behind them, and the end of a line."""
    with open(path, "w", encoding="ascii", newline="") as file:
        for block in blocks(iter(lines)):
            file.write(block)
        if fill is not None:
            left = fill - file.tell() - 1
            for part in itertools.repeat(more * 50000, left // (50000 * len(more))):
                file.write(part)
            left %= 50000 * len(more)
            file.write((more * (left // len(more) + 1))[:left] + "\n")


def make(case, size, folder):
    """Writes the four files of a case, and the line that is due."""
    made = CASES[case](case, size)
    files = {name: os.path.join(folder, name) for name in "mtocd"}
    write(files["m"], map_lines(made.side))
    write(files["t"], [TABLE])
    write(files["o"], [out_text(made.side)], made.out, " ")
    tail = [] if made.fill is not None else ["end\n"]
    write(files["c"], itertools.chain(head_lines(made.side, made.bound), made.tree, tail), made.fill, " 0")
    write(files["d"], [due_line(made) + "\n"])


def measure(case, small, program, folder, seconds):
    """Makes the files of a case and checks them: the command and a line."""
    making = [sys.executable, os.path.abspath(__file__), "--make", case, folder] + ["--small"] * small
    subprocess.run(making, check=True)
    files = [os.path.join(folder, name) for name in "mtoc"]
    command = [program, "check", "grid"] + files
    elapsed, peak, code, said = timed(command, seconds)
    with open(os.path.join(folder, "d"), encoding="ascii") as file:
        due = file.read().rstrip("\n")
    line = f"{case:8} {os.path.getsize(files[3]):9} {elapsed:8.2f} s {peak:7.0f} MB {code:3}  {said}"
    return command, line if said == due else f"{line}, where `{due}` is due"


def main():
    given = sys.argv[1:]
    small = "--small" in given
    given = [word for word in given if word != "--small"]
    if given[:1] == ["--make"]:
        make(given[1], SMALL if small else FULL, given[2])
        return
    kept, seconds = take_option(given, "--keep"), float(take_option(given, "--seconds") or 3600)
    program, cases = (given or [os.path.join(TOP, "run")])[0], given[1:] or list(CASES)
    with tempfile.TemporaryDirectory() as temporary:
        for case in cases:
            folder = temporary if kept is None else os.path.join(kept, case)
            os.makedirs(folder, exist_ok=True)
            command, line = measure(case, small, program, folder, seconds)
            print(line if kept is None else f"{line}\n         {' '.join(command)}", flush=True)


if __name__ == "__main__":
    main()
