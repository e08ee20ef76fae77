#!/usr/bin/env python3
"""Holds the first grouping against all groupings of tiny maps: start_trials.py PROGRAM RUNS SEED

Each map is a random grid of at most eight patches. The program generalises it with `--splits 0`. The second judge must find the certificate
valid, the program's `check` must say what that judge says, and the program must say that no grouping is feasible exactly where none of all is.
It prints how many answers cost the least of all feasible groupings, and each that costs more, with both costs. It takes no part in any proof.
"""
import itertools
import os
import random
import subprocess
import sys
import tempfile

import certificates
import judge
import reference
from command_words import Asked
from row_sums import model_of

GRID = Asked("grid", "class", None)
MOST_AREAS = 8


def random_texts(dice):
    """A grid and a table of two to four classes."""
    columns, rows, classes = dice.randint(2, 5), dice.randint(1, 4), dice.randint(2, 4)
    cells = [dice.choice([-9999] + 9 * [dice.randint(1, classes)]) for _ in range(columns * rows)]
    head = [f"ncols {columns}", f"nrows {rows}", "xllcorner 0", "yllcorner 0", "cellsize 1"]
    grid = head + [" ".join(map(str, cells[row * columns : (row + 1) * columns])) for row in range(rows)]
    table = ["classes 1", f"border {dice.choice([0, 1, 1, 2, 5])}"]
    table += [f"class {dice.choice([0, 2, 4, 6, 10])} {name}" for name in range(1, classes + 1)]
    for k in range(classes):
        table.append("row " + " ".join("0" if j == k else str(dice.randint(0, 800)) for j in range(classes)))
    return ["\n".join(lines + [""]).encode() for lines in (grid, table)]


def region_at(beside, classes, first):
    """The areas of the first one's class that links join with it."""
    found = [first]
    for area in found:
        found += [other for other in beside[area] if classes[other] == classes[first] and other not in found]
    return found


def is_feasible(model, beside, classes):
    """Whether each area lies in a region that owns its class and weighs enough."""
    for first, k in enumerate(classes):
        region = region_at(beside, classes, first)
        if sum(model.weight[area] for area in region) < model.threshold[k] or all(model.own[area] != k for area in region):
            return False
    return True


def cost_of(model, classes):
    """What it costs to give the areas these classes, where areas of one class that a link joins share a region."""
    recoloured = sum(weight * model.distance[own][k] for own, weight, k in zip(model.own, model.weight, classes))
    return recoloured + model.border * sum(length for a, b, length in model.links if classes[a] != classes[b])


def least_cost(model):
    """The least cost of all feasible groupings; None where none is."""
    beside = [[] for _ in model.own]
    for a, b, _ in model.links:
        beside[a].append(b)
        beside[b].append(a)
    every = itertools.product(range(len(model.threshold)), repeat=len(model.own))
    for cost, classes in sorted((cost_of(model, classes), classes) for classes in every):
        if is_feasible(model, beside, classes):
            return cost
    return None


def run(program, folder, texts):
    """The exit code, the certificate, the written map, and what `check` ends with and says of them."""
    names = [os.path.join(folder, name) for name in "mtoc"]
    for name, text in zip(names, texts):
        reference.store(name, text)
    for name in names[2:]:
        if os.path.exists(name):
            os.remove(name)
    done = subprocess.run([program, "generalise", "grid"] + names + ["--splits", "0"], capture_output=True, check=False)
    checked = subprocess.run([program, "check", "grid"] + names, capture_output=True, check=False)
    return done.returncode, reference.bytes_of(names[3]), reference.bytes_of(names[2]), (checked.returncode, checked.stdout)


def next_map(dice):
    """A grid and a table, and the model of their problem."""
    while True:
        texts = random_texts(dice)
        try:
            model = model_of(reference.load(GRID, *texts)[2])
        except reference.Refused:
            continue
        if 1 < len(model.own) <= MOST_AREAS:
            return texts, model


def is_right(texts, due, code, certificate, out, checked):
    """Whether the second judge says `valid`, `check` says the same, and `none` is said where no grouping is feasible alone."""
    if certificate is None:
        return False
    told = judge.answer(GRID, *texts, certificate, lambda: out)
    return told[0] == 0 and checked == told and (code == 4) == (due is None)


def main():
    program, runs, dice = sys.argv[1], int(sys.argv[2]), random.Random(int(sys.argv[3]))
    none, least, more = 0, 0, []
    with tempfile.TemporaryDirectory() as folder:
        for _ in range(runs):
            texts, model = next_map(dice)
            code, certificate, out, checked = run(program, folder, texts)
            due = least_cost(model)
            if not is_right(texts, due, code, certificate, out, checked):
                told = f"code {code}\ncertificate {certificate!r}\nchecked {checked!r}"
                sys.exit(f"map {texts[0]!r}\ntable {texts[1]!r}\n{told}\nleast cost {due}")
            stated = None if code == 4 else certificates.read(certificate).cost
            if due is None:
                none += 1
            elif stated == due:
                least += 1
            else:
                more.append((stated, due))
    print(f"{none} without a feasible grouping, {least} of the least cost, {len(more)} above it")
    for stated, due in more:
        print(f"cost {stated}, least {due}")


if __name__ == "__main__":
    main()
