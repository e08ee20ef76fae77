#!/usr/bin/env python3
"""Measures costs, bounds and times on the maps of instance.py: goals.py PROGRAM [--splits N] [--seconds N] [--keep FOLDER] [NAME ..]

Without a name all maps are taken. Each is made by its words, generalised and checked. A line has the map, its areas, the status, the cost over the
best cost that is known, the bound over that, the splits, the seconds and the peak memory in MB of `generalise`, the seconds of `check`, and what
it said. A run is ended after so many seconds, 3,600 where none are named. It takes no part in any proof.
"""
import os
import subprocess
import sys
import tempfile

from measure import timed
from tally import take_option

HERE = os.path.dirname(os.path.abspath(__file__))
# The words of each map, and the least cost that any grouping of it is known to have.
MAPS = {
    "make8x8": ("make 8 8 1", 82080),
    "make16x16": ("make 16 16 1", 298512),
    "make20x20": ("make 20 20 2", 462352),
    "make40x40": ("make 40 40 2", 1759504),
    "make100x100": ("make 100 100 2", 10932288),
    "make160x160": ("make 160 160 2", 28077856),
    "real20x8": ("real 20 8 3", 22196),
    "real40x40": ("real 40 40 2", 263088),
    "real64x64": ("real 64 64 2", 764508),
    "real100x100": ("real 100 100 2", 1765264),
    "real200x200": ("real 200 200 2", 6824156),
    "real512x512": ("real 512 512 2", 44310324),
    "speck100x100": ("real 100 100 3 --patch 8 --mmu 8 --speckle 0.02", 774632),
    "speck512x512": ("real 512 512 3 --patch 8 --mmu 8 --speckle 0.02", 21473168),
    "hole100x100": ("real 100 100 3 --hole 0.3", 1215176),
    "heavy100x100": ("real 100 100 1 --patch 12 --mmu 100", 1058736),
}


def stated(name):
    """The status, the numbers and the count of splits that a certificate states."""
    members, splits = {}, 0
    with open(name) as lines:
        for line in lines:
            word, _, rest = line.rstrip().partition(" ")
            if word == "s":
                splits += 1
            elif word in ("status", "cost", "bound", "areas"):
                members[word] = rest
    return members["status"], int(members["areas"]), int(members["cost"]), int(members["bound"]), splits


def measure(name, program, splits, seconds, folder):
    """The line of one map."""
    words, best = MAPS[name]
    files = [os.path.join(folder, name + end) for end in (".asc", ".classes", ".json", ".cert")]
    words = words.split()
    subprocess.run([sys.executable, os.path.join(HERE, "instance.py"), *words[:4], *files[:2], *words[4:]], check=True)
    limit = ["--splits", splits] if splits else []
    took, peak, code, said = timed([program, "generalise", "grid", *files, *limit], seconds)
    if code not in (0, 3):
        return f"{name:13} {code} {said} {took:.1f} s"
    judged, _, _, verdict = timed([program, "check", "grid", *files], seconds)
    status, areas, cost, bound, splits = stated(files[3])
    return (
        f"{name:13} {areas:6} {status:8} {cost:9} {cost / best:.4f} {bound:9} {bound / best:.5f} {splits:6}"
        f" {took:8.2f} s {peak:7.1f} MB {judged:7.2f} s {verdict.partition(' ')[0]}"
    )


def main():
    words = sys.argv[1:]
    splits = take_option(words, "--splits")
    seconds = float(take_option(words, "--seconds") or 3600)
    folder = take_option(words, "--keep")
    program, names = words[0], words[1:] or list(MAPS)
    with tempfile.TemporaryDirectory() as scratch:
        for name in names:
            print(measure(name, program, splits, seconds, folder or scratch), flush=True)


if __name__ == "__main__":
    main()
