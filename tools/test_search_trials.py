#!/usr/bin/env python3
"""Tests of the trials of the search: test_search_trials.py

Least costs of worked maps; answers of the second implementation, which are right, and changed ones, which are not. It takes no part in any
proof.
"""
import random
import unittest

import judge
import reference
import search_trials
from all_groupings import least_cost, partitions
from row_sums import model_of
from search_trials import GRID, Answer
from start_trials import least_cost as least_by_classes
from test_judge import MAP, RIGHT, drawn, table_of

REPORT = b"optimal\nareas 3\npassed 0\nregions 1\ncost 10\nbound 10\nsplits 0\n"
VALID = 0, b"valid optimal 10 10\n"


def model_of_texts(*texts):
    return model_of(reference.load(GRID, *texts)[2])


def answer_of(texts):
    """The second implementation's own answer to a map."""
    code, said, certificate, out = reference.answer(GRID, *texts)
    return Answer(code, said, certificate, out, judge.answer(GRID, *texts, certificate, lambda: out))


class Groupings(unittest.TestCase):
    def test_partitions(self):
        self.assertEqual([len(list(partitions(count))) for count in range(6)], [1, 1, 2, 5, 15, 52])

    def test_worked(self):
        self.assertEqual(least_cost(model_of_texts(MAP, table_of(4, 1))), 10)
        self.assertEqual(least_cost(model_of_texts(MAP, table_of(2, 0))), 0)
        self.assertIsNone(least_cost(model_of_texts(MAP, table_of(7, 1))))

    def test_same_as_by_classes(self):
        dice = random.Random(2)
        for _ in range(40):
            _, model = search_trials.next_map(dice)
            self.assertEqual(least_cost(model), least_by_classes(model))


class Flaws(unittest.TestCase):
    def flaw(self, certificate=RIGHT, said=REPORT, code=0, due=10, splits=0, is_enough=True, checked=VALID):
        texts = MAP, table_of(4, 1)
        answer = Answer(code, said, certificate, drawn(), checked)
        return search_trials.flaw_of(texts, model_of_texts(*texts), due, splits, is_enough, answer)

    def test_right_answer(self):
        self.assertIsNone(self.flaw())

    def test_wrong_answers(self):
        self.assertEqual(self.flaw(code=65), "no answer")
        self.assertEqual(self.flaw(certificate=None), "no answer")
        self.assertEqual(self.flaw(said=REPORT.replace(b"splits 0", b"splits 1")), "report")
        self.assertEqual(self.flaw(code=3), "report")
        self.assertEqual(self.flaw(due=None), "status")
        self.assertEqual(self.flaw(due=9), "bound or cost")
        self.assertEqual(self.flaw(checked=(0, b"valid within 10 10\n")), "check")
        self.assertEqual(self.flaw(checked=(64, b"")), "check")
        wrong = RIGHT.replace(b"e 5 0 0 1 0", b"e 4 0 0 1 0")
        self.assertEqual(self.flaw(certificate=wrong), "second judge: invalid Bound 9")
        split = RIGHT.replace(b"c 1 2", b"s 0 0\nf\nc 1 2")
        self.assertEqual(self.flaw(certificate=split, said=REPORT.replace(b"splits 0", b"splits 1")), "splits")

    def test_answers_that_are_not_the_least(self):
        weak = RIGHT.replace(b"c 1 2\ne 5 0 0 1 0\ne 5 2 0 1 2", b"c 1 0").replace(b"optimal", b"within").replace(b"bound 10", b"bound 0")
        said = REPORT.replace(b"optimal", b"within").replace(b"bound 10", b"bound 0")
        valid = 0, b"valid within 10 0\n"
        self.assertIsNone(self.flaw(weak, said, 3, is_enough=False, checked=valid))
        self.assertEqual(self.flaw(weak, said, 3, checked=valid), "not the least cost")

    def test_second_implementation_without_splits(self):
        dice = random.Random(4)
        for _ in range(30):
            texts, model = search_trials.next_map(dice)
            is_enough = search_trials.enough(model) == 0
            self.assertIsNone(search_trials.flaw_of(texts, model, least_cost(model), 0, is_enough, answer_of(texts)))


if __name__ == "__main__":
    unittest.main()
