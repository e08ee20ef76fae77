#!/usr/bin/env python3
"""Measures the program on maps at its limits: measure.py [--small] [--keep FOLDER] [--seconds N] [PROGRAM [CASE ..]]

PROGRAM is `./run` of this repository where no other is named; without a CASE all are measured. Each makes its map and its table from a fixed
seed, in a process of its own, and runs `generalise .. --splits 0` on them and then `check`, where that answers. A line for each run has the
case, the bytes of the map, the command, the seconds, the peak memory of the program in MB, the exit code and the first line that was said.

With `--small` the maps are about a thousandth as large, to try the script. With `--keep FOLDER` the files stay there, and the command is
printed too. A run is ended after N seconds, 3600 where no other number is named; then the code is -9. It takes no part in any proof.

    cells      a grid of 1,024 by 512 cells, smooth patches with speckle: the limit of cells
    words      a grid whose one line has a million words, of which the header says 524,288
    features   65,536 squares, each a feature: the limit of areas
    ring       one feature with a ring of 2,097,152 steps: the limit of edges
    bytes      4,096 squares with long notes, 67,108,864 bytes: the limit of a map
    over       one byte more
    string     a map beside a string of 60,000,000 bytes
    space      a map beside 60,000,000 bytes of white space
    nesting    a map beside 500,000 lists, each nested as deep as may be
    tips       a map beside a list of a million empty lists, nested as deep as may be
    names      a square with 300,000 properties of one name, of which the last counts
    survey     polygons as surveys have them: 20,000 areas with 1,000,000 different edges
"""
import os
import random
import subprocess
import sys
import tempfile
import threading
import time

import survey
from patches import field
from tally import take_option

TOP = os.path.join(os.path.dirname(os.path.abspath(__file__)), "..")
DEEPEST = 64
MOST_BYTES = 67108864
BLOCK = [(0, 0), (3, 0), (3, 3), (0, 3)]
HEAD = '{"type":"FeatureCollection","features":['
TABLE = "classes 1\nborder 1\nclass 8 1\nclass 8 2\nclass 8 3\nclass 8 4\nclass 8 5\n" + "".join(
    "row " + " ".join(str(1000 * abs(i - j)) for j in range(5)) + "\n" for i in range(5)
)


def grid_text(columns, rows, lines):
    head = f"ncols {columns}\nnrows {rows}\nxllcorner 0\nyllcorner 0\ncellsize 1\n"
    return head + "".join(" ".join(map(str, line)) + "\n" for line in lines)


def side_of(whole, scale):
    """The side of a rectangle, where its cells are so many times fewer."""
    return whole // (32 if scale > 1 else 1)


def cells(scale):
    columns, rows, dice = side_of(1024, scale), side_of(512, scale), random.Random(1)
    wide, narrow = field(1024, 40, 2), field(1024, 11, 3)

    def cell(x, y):
        if dice.random() < 0.04:
            return dice.randint(1, 5)
        return 1 + min(4, int(max(0.0, 0.7 * wide(x, y) + 0.3 * narrow(x, y) - 0.2) / 0.6 * 5))

    return grid_text(columns, rows, ([cell(x, y) for x in range(columns)] for y in range(rows)))


def words(scale):
    dice = random.Random(1)
    return grid_text(524288 // scale, 1, [[dice.randint(1, 5) for _ in range(1000000 // scale)]])


def feature(ring, class_name, more=""):
    """A feature of one ring, which is closed here."""
    spots = ",".join(f"[{x},{y}]" for x, y in ring + ring[:1])
    properties = f'{{{more}"class":{class_name}}}'
    return f'{{"type":"Feature","properties":{properties},"geometry":{{"type":"Polygon","coordinates":[[{spots}]]}}}}'


def square(x, y):
    return [(x, y), (x + 1, y), (x + 1, y + 1), (x, y + 1)]


def collection(told, more=""):
    """A collection of features, with more members behind them."""
    return HEAD + ",\n".join(told) + "]" + more + "}\n"


def features(scale):
    side, dice = side_of(256, scale), random.Random(1)
    return collection([feature(square(at % side, at // side), dice.randint(1, 5)) for at in range(side * side)])


def ring(scale):
    """A polygon whose left side is a saw."""
    top = 2097152 // scale - 3
    return collection([feature([(at % 2, at) for at in range(top + 1)] + [(9, top), (9, 0)], 1)])


def padded(total):
    """4,096 squares, whose notes make up so many bytes."""
    bare = len(collection(feature(square(at % 64, at // 64), at % 5 + 1, '"note":"",') for at in range(4096)))
    each, rest = divmod(total - bare, 4096)
    notes = ("n" * (each + (at < rest)) for at in range(4096))
    return collection(feature(square(at % 64, at // 64), at % 5 + 1, f'"note":"{note}",') for at, note in enumerate(notes))


def beside(more):
    """A small map with a further member."""
    return collection([feature(square(at % 8, at // 8), at % 5 + 1) for at in range(64)], ',"more":' + more)


def nested(inner, levels):
    return "[" * levels + inner + "]" * levels


def made_survey(scale):
    areas, classes, arcs, table = survey.made(20000 // scale, 1000000 // scale, 1)
    return survey.features_text(areas, classes, arcs), table


# Each case has a format, and a function that gives its map, or its map and its table, at a scale.
CASES = {
    "cells": ("grid", cells),
    "words": ("grid", words),
    "features": ("geojson", features),
    "ring": ("geojson", ring),
    "bytes": ("geojson", lambda scale: padded(MOST_BYTES if scale == 1 else 1000000)),
    "over": ("geojson", lambda scale: padded(MOST_BYTES + 1 if scale == 1 else 1000001)),
    "string": ("geojson", lambda scale: beside('"' + "s" * (60000000 // scale) + '"')),
    "space": ("geojson", lambda scale: beside(" " * (60000000 // scale) + "0")),
    "nesting": ("geojson", lambda scale: beside("[" + ",".join([nested("", DEEPEST - 2)] * (500000 // scale)) + "]")),
    "tips": ("geojson", lambda scale: beside(nested(",".join(["[]"] * (1000000 // scale)), DEEPEST - 2))),
    "names": ("geojson", lambda scale: collection([feature(BLOCK, 1, '"class":2,' * (300000 // scale - 1))])),
    "survey": ("geojson", made_survey),
}


def make(case, scale, folder):
    """Writes the map and the table of a case."""
    made = CASES[case][1](scale)
    texts = made if isinstance(made, tuple) else (made, TABLE)
    for name, text in zip("mt", texts):
        with open(os.path.join(folder, name), "w", encoding="ascii") as file:
            file.write(text)


def timed(command, seconds):
    """The seconds, the peak memory in MB, the exit code and the first line of a run.

    A process keeps the peak of the one that started it, so this one must be small: it makes no map itself.
    """
    began = time.monotonic()
    with subprocess.Popen(command, stdout=subprocess.PIPE, stderr=subprocess.DEVNULL) as child:
        ending = threading.Timer(seconds, child.kill)
        ending.start()
        said = child.stdout.read()
        _, status, usage = os.wait4(child.pid, 0)
        child.returncode = os.waitstatus_to_exitcode(status)
        ending.cancel()
    return time.monotonic() - began, usage.ru_maxrss / 1024, child.returncode, said.decode(errors="replace").partition("\n")[0]


def measure(case, scale, program, folder, seconds):
    """Makes the files of a case and runs both commands on them: a line for each."""
    subprocess.run([sys.executable, os.path.abspath(__file__), "--make", case, str(scale), folder], check=True)
    files = [os.path.join(folder, name) for name in "mtoc"]
    size = os.path.getsize(files[0])
    for name, more in (("generalise", ["--splits", "0"]), ("check", [])):
        command = [program, name, CASES[case][0]] + files + more
        elapsed, peak, code, line = timed(command, seconds)
        yield command, f"{case:9} {size:9} {name:10} {elapsed:8.2f} s {peak:7.0f} MB {code:3}  {line}"
        if code not in (0, 3, 4):
            return


def main():
    given = sys.argv[1:]
    if given[:1] == ["--make"]:
        make(given[1], int(given[2]), given[3])
        return
    kept, seconds = take_option(given, "--keep"), float(take_option(given, "--seconds") or 3600)
    scale = 1000 if "--small" in given else 1
    given = [word for word in given if word != "--small"]
    program, cases = (given or [os.path.join(TOP, "run")])[0], given[1:] or list(CASES)
    with tempfile.TemporaryDirectory() as temporary:
        for case in cases:
            folder = temporary if kept is None else os.path.join(kept, case)
            os.makedirs(folder, exist_ok=True)
            for command, line in measure(case, scale, program, folder, seconds):
                print(line if kept is None else f"{line}\n          {' '.join(command)}", flush=True)


if __name__ == "__main__":
    main()
