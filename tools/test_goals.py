#!/usr/bin/env python3
"""Tests of goals.py: what it reads of certificates."""
import os
import tempfile
import unittest

import goals

TOP = os.path.join(os.path.dirname(os.path.abspath(__file__)), "..")


class Stated(unittest.TestCase):
    def test_a_leaf(self):
        self.assertEqual(goals.stated(os.path.join(TOP, "examples", "three.cert")), ("optimal", 3, 10, 10, 0))

    def test_splits_are_counted(self):
        lines = ["aggregation 1", "status within", "cost 7", "bound -3", "areas 2", "regions 1", "r 0", "a 0", "a 0"]
        lines += ["s 0 1", "s 1 0", "f", "c 1 0", "c 1 0", "end", ""]
        with tempfile.NamedTemporaryFile("w") as file:
            file.write("\n".join(lines))
            file.flush()
            self.assertEqual(goals.stated(file.name), ("within", 2, 7, -3, 2))


if __name__ == "__main__":
    unittest.main()
