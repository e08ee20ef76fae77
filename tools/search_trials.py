#!/usr/bin/env python3
"""Holds the search against all groupings of tiny maps: search_trials.py [--splits N] [PROGRAM [RUNS [SEED]]]

PROGRAM is `./run` of this repository where no other is named, RUNS are 300 and SEED is 1. Each map is a random grid of at most six areas, with
a random table. All of its groupings are tried, so its least cost is known, or that none is feasible. The program generalises it with enough
splits, where half of the runs say none and get the default; and with 0, 1 and 2 splits. With `--splits N` it runs with N alone.

- With enough splits the status, the cost and the bound are the true ones.
- With few the bound is at most the least cost, and the cost at least that; the status says whether the bound is the cost.
- `none` is said exactly where no grouping is feasible, whatever the splits.
- The tree has at most as many splits as were asked for, and the report says what the certificate says.
- The second judge says `valid` of the four files with the same status, cost and bound. So does the program's `check`.

It ends at the first answer that is wrong and prints its map, else it prints how many answers there were of each kind. It takes no part in any
proof.
"""
import collections
import os
import random
import subprocess
import sys
import tempfile

import certificates
import judge
import reference
from all_groupings import least_cost
from command_words import Asked
from row_sums import model_of

GRID = Asked("grid", "class", None)
TOP = os.path.join(os.path.dirname(os.path.abspath(__file__)), "..")
MOST_AREAS = 6
DEFAULT = 10000
FEW = (0, 1, 2)
CODES = {"optimal": 0, "within": 3, "none": 4}

# What the program ended with and said, the bytes of both files, and what its `check` ended with and said.
Answer = collections.namedtuple("Answer", "code said certificate out checked")


def random_grid(dice, classes):
    columns, rows = dice.randint(1, 5), dice.randint(1, 4)
    cells = [dice.choice([-9999] + 9 * [dice.randint(1, classes)]) for _ in range(columns * rows)]
    lines = [f"ncols {columns}", f"nrows {rows}", "xllcorner 0", "yllcorner 0", "cellsize 1"]
    lines += [" ".join(map(str, cells[row * columns : (row + 1) * columns])) for row in range(rows)]
    return "\n".join(lines + [""]).encode()


def random_table(dice, classes):
    """A table whose thresholds and borders range from none to more than the map can have, and whose rows may be far from even."""
    unit = (dice.randint(1, 3), dice.randint(1, 3)) if dice.random() < 0.2 else (1, 1)
    lines = ["classes 1", f"unit {unit[0]} {unit[1]}", f"border {dice.choice([0, 1, 1, 2, 5, 40, 10000])}"]
    lines += [f"class {unit[0] * unit[1] * dice.choice([0, 2, 4, 6, 10, 14])} {name}" for name in range(1, classes + 1)]
    for k in range(classes):
        most = dice.choice([3, 300, 800, 10000])
        lines.append("row " + " ".join("0" if j == k else str(dice.randint(0, most)) for j in range(classes)))
    return "\n".join(lines + [""]).encode()


def next_map(dice):
    """A grid, a table, and the model of their problem."""
    while True:
        classes = dice.randint(1, 4)
        texts = random_grid(dice, classes), random_table(dice, classes)
        model = model_of(reference.load(GRID, *texts)[2])
        least = 0 if dice.random() < 0.05 else 2
        if least <= len(model.own) <= MOST_AREAS:
            return texts, model


def enough(model):
    """A number of splits with which every map of so many areas and classes is decided."""
    return len(model.threshold) ** len(model.own) - 1


def run(program, folder, texts, splits):
    """Generalises a map and has the answer checked. `splits` is None for the default."""
    names = [os.path.join(folder, name) for name in "mtoc"]
    for name, text in zip(names, texts):
        reference.store(name, text)
    for name in names[2:]:
        if os.path.exists(name):
            os.remove(name)
    options = [] if splits is None else ["--splits", str(splits)]
    done = subprocess.run([program, "generalise", "grid"] + names + options, capture_output=True, check=False)
    checked = subprocess.run([program, "check", "grid"] + names, capture_output=True, check=False)
    told = checked.returncode, checked.stdout
    return Answer(done.returncode, done.stdout, reference.bytes_of(names[3]), reference.bytes_of(names[2]), told)


def report_of(certificate, areas, splits):
    """The report that a certificate asks for."""
    told = ["-" if number is None else number for number in (certificate.cost, certificate.bound)]
    lines = [certificate.status, f"areas {areas}", "passed 0", f"regions {len(certificate.regions)}"]
    return "\n".join(lines + [f"cost {told[0]}", f"bound {told[1]}", f"splits {splits}", ""]).encode()


def number_flaw(certificate, due, is_enough):
    """What is wrong with a certificate's status, cost and bound where the least cost is the due one; None where nothing is."""
    status, cost, bound = certificate.status, certificate.cost, certificate.bound
    if (status == "none") != (due is None):
        return "status"
    if due is None:
        return None
    if not bound <= due <= cost:
        return "bound or cost"
    if is_enough and (cost != due or bound != due):
        return "not the least cost"
    return None if (status == "optimal") == (cost == bound) else "status"


def flaw_of(texts, model, due, splits, is_enough, answer):
    """What is wrong with an answer with so many splits; None where nothing is."""
    if answer.code not in CODES.values() or answer.certificate is None:
        return "no answer"
    certificate = certificates.read(answer.certificate)
    spent = sum(isinstance(node, certificates.Split) for node in certificate.tree)
    if answer.code != CODES[certificate.status] or answer.said != report_of(certificate, len(model.own), spent):
        return "report"
    if spent > splits:
        return "splits"
    flaw = number_flaw(certificate, due, is_enough)
    if flaw is not None:
        return flaw
    told = judge.answer(GRID, *texts, answer.certificate, lambda: answer.out)
    if told[0] != 0:
        return f"second judge: {told[1].decode().rstrip()}"
    return None if answer.checked == told else "check"


def kind_of(answer, due):
    """The words under which an answer is counted."""
    certificate = certificates.read(answer.certificate)
    above = " above the least cost" if due is not None and certificate.cost > due else ""
    return certificate.status + above


def trials_of(dice, most, only):
    """The numbers of splits to try: what they are counted under, the number, and the word that says it, or None for the default."""
    if only is not None:
        return [(f"{only} splits", only, only)]
    default = dice.random() < 0.5
    trials = [("enough splits", DEFAULT if default else most, None if default else most)]
    return trials + [(f"{few} splits", few, few) for few in FEW]


def try_map(program, folder, dice, only, counts):
    """Generalises the next map with each number of splits."""
    texts, model = next_map(dice)
    due, most = least_cost(model), enough(model)
    for label, splits, word in trials_of(dice, most, only):
        answer = run(program, folder, texts, word)
        flaw = flaw_of(texts, model, due, splits, splits >= most, answer)
        if flaw is not None:
            sys.exit(f"{flaw}: {label}, least cost {due}\nmap {texts[0]!r}\ntable {texts[1]!r}\nanswer {answer!r}")
        counts[label, kind_of(answer, due)] += 1
        counts["valid", "by the second judge and by check"] += 1


def told_counts(counts):
    """The lines of the counts, one for each label."""
    lines = {}
    for (label, kind), count in sorted(counts.items()):
        lines.setdefault(label, []).append(f"{count} {kind}")
    return [f"{label}: {', '.join(told)}" for label, told in sorted(lines.items(), key=lambda line: line[0] == "valid")]


def main():
    words, only = sys.argv[1:], None
    if words[:1] == ["--splits"]:
        only, words = int(words[1]), words[2:]
    program, runs, seed = words + [os.path.join(TOP, "run"), "300", "1"][len(words) :]
    dice, counts = random.Random(int(seed)), collections.Counter()
    with tempfile.TemporaryDirectory() as folder:
        for _ in range(int(runs)):
            try_map(program, folder, dice, only, counts)
    print("\n".join(told_counts(counts)))


if __name__ == "__main__":
    main()
