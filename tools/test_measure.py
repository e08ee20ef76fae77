#!/usr/bin/env python3
"""Tests of measure.py: test_measure.py

The maps of all cases, made small, are what they are to be; a run is timed. It takes no part in any proof.
"""
import sys
import unittest

import measure
import reference
from command_words import Asked


def answer(case):
    """The second implementation's answer to a small case."""
    form, make = measure.CASES[case]
    made = make(1000)
    texts = made if isinstance(made, tuple) else (made, measure.TABLE)
    return reference.answer(Asked(form, "class", None), *(text.encode() for text in texts))


class Cases(unittest.TestCase):
    def test_all_but_one_are_accepted(self):
        for case in measure.CASES:
            if case not in ("words", "ring", "bytes", "over"):
                code, said, _, _ = answer(case)
                self.assertIn(code, (0, 3), (case, said))

    def test_words_are_counted(self):
        self.assertEqual(answer("words")[:2], (65, b"refused: map Count 1000\n"))

    def test_ring_has_as_many_steps(self):
        landscape = reference.PolygonMap(measure.ring(10000).encode(), Asked("geojson", "class", None))
        self.assertEqual([len(edges) for _, edges in landscape.coverage.areas], [209])

    def test_bytes_are_exact(self):
        for total in (700000, 700001):
            self.assertEqual(len(measure.padded(total)), total)

    def test_nesting_is_as_deep_as_may_be(self):
        for case in ("nesting", "tips"):
            text = measure.CASES[case][1](1000)
            depth = deepest = 0
            for letter in text:
                depth += (letter in "[{") - (letter in "]}")
                deepest = max(deepest, depth)
            self.assertEqual(deepest, 64, case)

    def test_full_sizes_are_those_that_are_named(self):
        self.assertEqual(measure.features(1).count('"Feature"'), 65536)
        self.assertEqual(measure.CASES["names"][1](1).count('"class"'), 300000)
        self.assertEqual(len(measure.words(1).split("\n")[5].split()), 1000000)


class Runs(unittest.TestCase):
    def test_timed(self):
        elapsed, peak, code, line = measure.timed([sys.executable, "-c", "print('one'); print('two'); exit(7)"], 60)
        self.assertEqual((code, line), (7, "one"))
        self.assertTrue(elapsed > 0 and peak > 1)

    def test_a_run_that_is_too_long_is_ended(self):
        self.assertEqual(measure.timed([sys.executable, "-c", "import time; time.sleep(60)"], 0.5)[2:], (-9, ""))


if __name__ == "__main__":
    unittest.main()
