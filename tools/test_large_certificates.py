#!/usr/bin/env python3
"""Tests of large_certificates.py: test_large_certificates.py

The cases, made small, are judged as they say; where the limits are as small they pass them at the line that they say. It takes no part in any
proof.
"""
import os
import subprocess
import sys
import tempfile
import unittest

import certificates
import judge
import large_certificates
import reference
from command_words import Asked
from large_certificates import CASES, FULL, SMALL


def said(case):
    """What the second judge says of a small case, and the line that is due."""
    with tempfile.TemporaryDirectory() as folder:
        large_certificates.make(case, SMALL, folder)
        map_text, table_text, out, certificate, due = (reference.bytes_of(os.path.join(folder, name)) for name in "mtocd")
    return judge.answer_of_files(Asked("grid", "class", None), map_text, table_text, certificate, lambda: out)[1], due


class Cases(unittest.TestCase):
    def test_small_ones_are_judged_as_they_say(self):
        for case in CASES:
            self.assertEqual(*said(case), case)

    def test_valid_ones_are_valid(self):
        for case in ("borders", "wide", "singles", "sets", "splits", "drawing"):
            self.assertTrue(said(case)[0].startswith(b"valid within "), case)

    def test_limits_are_passed_where_they_say(self):
        kept = certificates.MOST_MARKS, certificates.MOST_SPLITS, judge.MOST_CERTIFICATE, judge.MOST_OUT
        try:
            large_certificates.FULL = SMALL
            certificates.MOST_MARKS, certificates.MOST_SPLITS = SMALL.marks, SMALL.splits
            judge.MOST_CERTIFICATE, judge.MOST_OUT = SMALL.certificate, SMALL.out
            told = {case: said(case) for case in CASES if case != "deep"}
        finally:
            large_certificates.FULL = FULL
            certificates.MOST_MARKS, certificates.MOST_SPLITS, judge.MOST_CERTIFICATE, judge.MOST_OUT = kept
        for case, (line, due) in told.items():
            self.assertEqual(line, due, case)
        names = {case: line.decode().split()[:3] for case, (line, _) in told.items()}
        self.assertEqual((names["row"], names["split"]), (["refused:", "certificate", "Limit"],) * 2)
        self.assertEqual((names["over"], names["past"]), (["refused:", "certificate", "TooLong"], ["refused:", "out", "TooLong"]))

    def test_marks_and_splits_are_as_many_as_may_be(self):
        rows = [row.split() for row in large_certificates.set_rows(SMALL.side, SMALL.marks)]
        self.assertEqual(len(rows), large_certificates.set_count(SMALL.side, SMALL.marks))
        self.assertEqual(sum(8 + int(row[4]) for row in rows), SMALL.marks)
        marks, half = FULL.marks, FULL.side * FULL.side // 2
        self.assertEqual((marks // (8 + half), marks % (8 + half)), (large_certificates.set_count(FULL.side, marks) - 1, 13280))
        tree = list(large_certificates.spine(FULL.depth, FULL.splits))
        self.assertEqual(sum(line.startswith("s") for line in tree), 1000000)
        self.assertEqual(max(int(line.split()[1]) for line in tree if line.startswith("s")), 1023)

    def test_full_sizes_are_those_that_are_named(self):
        self.assertEqual(FULL.marks // 8, 5000000)
        self.assertEqual(FULL.marks // 9, 4444444)
        self.assertEqual(large_certificates.made_leaf("row", FULL).due, "refused: certificate Limit 5065545")


class Runs(unittest.TestCase):
    def test_a_run_tells_what_was_due(self):
        tool = os.path.abspath(large_certificates.__file__)
        judging = os.path.join(os.path.dirname(tool), "judge.py")
        told = subprocess.run([sys.executable, tool, "--small", judging, "splits"], capture_output=True, check=True).stdout.decode()
        self.assertRegex(told, r"\Asplits +13216 +[0-9.]+ s +[0-9]+ MB   0  valid within 960000 0\n\Z")
        told = subprocess.run([sys.executable, tool, "--small", "/bin/true", "deep"], capture_output=True, check=True).stdout.decode()
        self.assertRegex(told, r"  0  , where `refused: certificate TooDeep 1097` is due\n\Z")


if __name__ == "__main__":
    unittest.main()
