#!/usr/bin/env python3
"""Tests of the comparisons: test_compare.py

What they compare with: triples that are right and changed ones; how they go on batch by batch. It takes no part in any proof.
"""
import os
import random
import tempfile
import unittest

import aimed_flaws
import certificates
import compare
import compare_check
import reference
from compare_check import due_of
from tally import Tally, take_option

# The flaw that each aim is at.
FLAWS = {
    "areas": "Areas",
    "range": "Range",
    "class range": "ClassRange",
    "drawn more": "Regions",
    "drawn class": "DrawnClass",
    "drawn elsewhere": "DrawnEdges",
    "empty": "Empty",
    "loose": "Loose",
    "no own": "NoOwn",
    "too small": "TooSmall",
    "cost": "Cost",
    "bound": "Bound",
    "status": "Status",
    "no grouping": "Bound",
    "split": "Split",
    "row": "Row",
    "negative": "Negative",
    "not fixed": "NotFixed",
    "not void": "NotVoid",
    "wide choice": "Wide choice",
    "wide across": "Wide across",
    "wide total": "Wide total-link",
    "wide areas": "Wide total-area",
}


class Runs(unittest.TestCase):
    def test_unchanged_runs_are_mostly_accepted(self):
        codes = []
        for at in range(60):
            texts = compare.random_run(random.Random(f"1 {at}"), compare.FORMS[at % 3], False)
            codes.append(reference.answer(*texts)[0])
        self.assertGreater(sum(code in (0, 3, 4) for code in codes), 30)
        self.assertTrue({0, 3, 65} <= set(codes))

    def test_changed_runs_are_mostly_refused(self):
        texts = [compare.random_run(random.Random(f"1 {at}"), compare.FORMS[at % 3], True) for at in range(60)]
        self.assertGreater(sum(reference.answer(*own)[0] == 65 for own in texts), 40)

    def test_same_number_gives_the_same_run(self):
        runs = [compare.random_run(random.Random("3 7"), "topojson", True) for _ in range(2)]
        self.assertEqual(runs[0], runs[1])


def answers(place, count):
    """What the second judge says where the change is at this place."""
    kept = compare_check.PLACES
    try:
        compare_check.PLACES = [place]
        checks = [compare_check.random_check(random.Random(f"1 {at}"), compare.FORMS[at % 3], True) for at in range(count)]
    finally:
        compare_check.PLACES = kept
    return [due_of(check) for check in checks]


class Checks(unittest.TestCase):
    def test_unchanged_checks_are_valid(self):
        for at in range(60):
            check = compare_check.random_check(random.Random(f"1 {at}"), compare.FORMS[at % 3], False)
            self.assertEqual(due_of(check)[0], 0, check)

    def test_unchanged_checks_have_trees_of_all_kinds(self):
        trees = []
        for at in range(150):
            check = compare_check.random_check(random.Random(f"2 {at}"), compare.FORMS[at % 3], False)
            trees.append(certificates.read(check.certificate).tree)
        leaves = [node for tree in trees for node in tree if isinstance(node, certificates.Leaf)]
        rows = [row for leaf in leaves for row in leaf.rows]
        self.assertGreater(sum(len(tree) > 6 for tree in trees), 10)
        self.assertGreater(sum(len(tree) > 1 and certificates.FIXED in tree for tree in trees), 10)
        self.assertGreater(sum(leaf.void for leaf in leaves), 10)
        self.assertGreater(sum(isinstance(row, certificates.Border) for row in rows), 10)
        self.assertGreater(sum(isinstance(row, certificates.Escape) and len(row.members) > 1 for row in rows), 10)

    def test_changed_checks_are_mostly_not(self):
        told = [due_of(compare_check.random_check(random.Random(f"1 {at}"), compare.FORMS[at % 3], True)) for at in range(90)]
        self.assertGreater(sum(code != 0 for code, _ in told), 60)
        self.assertGreater(len({compare_check.kind_of(own) for own in told if own[0] == 5}), 5)

    def test_each_aim_finds_its_flaw(self):
        self.assertEqual(set(FLAWS), set(aimed_flaws.AIMS))
        for aim, flaw in FLAWS.items():
            told = [compare_check.kind_of(own) for own in answers(aim, 45)]
            self.assertGreater(told.count("invalid " + flaw), 4, (aim, told))

    def test_other_places(self):
        for place, said, least in (
            ("deep", "refused: certificate TooDeep", 5),
            ("lines", "refused: certificate Line", 20),
            ("words", "usage", 45),
            ("no file", "read fault: out", 3),
            ("frame", "invalid Frame", 10),
            ("out deep", "refused: out TooDeep", 5),
        ):
            self.assertGreaterEqual([compare_check.kind_of(own) for own in answers(place, 45)].count(said), least, place)

    def test_options_stand_anywhere(self):
        check = compare_check.Triple(compare.Asked("topojson", "k", "t"), b"", b"", b"", b"")
        words = compare_check.words_of(random.Random(1), check, list("mtoc"))
        self.assertEqual((words[0], sorted(words[1:])), ("check", sorted("topojson m t o c --class k --object t".split())))


class Batches(unittest.TestCase):
    def test_a_kept_comparison_goes_on(self):
        with tempfile.TemporaryDirectory() as folder:
            path, program = os.path.join(folder, "kept"), os.path.join(folder, "program")
            reference.store(program, b"one")
            seen = []
            for _ in range(3):
                tally = Tally(program, ["1"], path)
                for at, dice in tally.runs(7, 3, "1"):
                    seen.append((at, dice.random()))
                    tally.count("seen")
            self.assertEqual([at for at, _ in seen], list(range(7)))
            self.assertEqual(seen[5][1], random.Random("1 5").random())
            self.assertEqual((tally.done, tally.counts["seen"], tally.head(7)), (7, 7, "7 runs agreed"))
            reference.store(program, b"another")
            self.assertRaises(SystemExit, Tally, program, ["1"], path)

    def test_a_run_that_differs_is_done_again(self):
        with tempfile.TemporaryDirectory() as folder:
            path = os.path.join(folder, "kept")
            tally = Tally(__file__, ["1"], path)
            runs = tally.runs(200, None, "1")
            for at, _ in runs:
                if at == 120:
                    runs.close()
                    break
            again = Tally(__file__, ["1"], path)
            self.assertEqual((again.done, again.head(200)), (100, "100 of 200 runs agreed so far"))

    def test_options(self):
        words = ["program", "--keep", "file", "7"]
        self.assertEqual((take_option(words, "--keep"), take_option(words, "--batch"), words), ("file", None, ["program", "7"]))


if __name__ == "__main__":
    unittest.main()
