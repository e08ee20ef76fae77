#!/usr/bin/env python3
"""Tests of the examples: test_examples.py

The islands as a grid, as TopoJSON and as GeoJSON have the same areas, weights and links, and so the same cost and certificate; both maps of
polygons are what polygons.py makes of the grid. The worked certificate of three cells is valid, and changed ones are not. It takes no part in
any proof.
"""
import os
import random
import unittest

import judge
import polygons
import reference
from command_words import Asked
from json_tree import member, read, text_of

FOLDER = os.path.join(os.path.dirname(os.path.abspath(__file__)), "..", "examples")
FORMS = {"grid": "islands.asc", "topojson": "islands.topojson", "geojson": "islands.geojson"}


def example(name):
    return reference.bytes_of(os.path.join(FOLDER, name))


class Islands(unittest.TestCase):
    def test_same_problem_and_cost(self):
        table = example("islands.classes")
        loaded = {form: reference.load(Asked(form, "class", None), example(name), table) for form, name in FORMS.items()}
        due = loaded["grid"][2]
        self.assertEqual(due.areas, 236)
        answers = []
        for form, name in FORMS.items():
            problem = loaded[form][2]
            self.assertEqual((problem.own, problem.weight, problem.links), (due.own, due.weight, due.links), form)
            answers.append(reference.answer(Asked(form, "class", None), example(name), table)[:3])
        self.assertIn(b"\ncost 1205200\n", answers[0][1])
        self.assertEqual(answers[1:], answers[:1] * 2)

    def test_made_by_the_tool(self):
        landscape = reference.GridMap(example("islands.asc"))
        self.assertEqual(polygons.topology_text(landscape, "islands").encode(), example("islands.topojson"))
        self.assertEqual(polygons.features_text(landscape).encode(), example("islands.geojson"))

    def test_borders_are_stored_once(self):
        steps = set()
        for arc in member(read(example("islands.topojson")), "arcs"):
            x = y = 0
            for place, position in enumerate(arc):
                before = x, y
                x, y = x + int(text_of(position[0])), y + int(text_of(position[1]))
                if place:
                    self.assertNotIn((before, (x, y)), steps)
                    steps |= {(before, (x, y)), ((x, y), before)}


class Three(unittest.TestCase):
    def said(self, certificate):
        texts = [example(f"three.{name}") for name in ("asc", "classes")]
        return judge.answer(Asked("grid", "class", None), *texts, certificate, lambda: example("three.json"))

    def test_worked_certificate(self):
        certificate = example("three.cert")
        self.assertEqual(self.said(certificate), (0, b"valid optimal 10 10\n"))
        self.assertEqual(self.said(certificate.replace(b"e 5 0 0 1 0", b"e 4 0 0 1 0")), (5, b"invalid Bound 9\n"))
        self.assertEqual(self.said(certificate.replace(b"e 5 0 0 1 0", b"e 5 0 0 2 0 1")), (5, b"invalid Row 0 0\n"))


class Grids(unittest.TestCase):
    def test_random_grids(self):
        """Patches of random grids, with holes and touching corners."""
        dice = random.Random(8)
        table = b"classes 1\nborder 3\nclass 6 1\nclass 2 2\nclass 8 3\nrow 0 5 9\nrow 4 0 2\nrow 1 2 0\n"
        for _ in range(100):
            columns, rows = dice.randint(1, 9), dice.randint(1, 8)
            cells = "\n".join(" ".join(dice.choice(["1", "1", "2", "3", "-9999"]) for _ in range(columns)) for _ in range(rows))
            grid = f"ncols {columns}\nnrows {rows}\nxllcorner 1.5\nyllcorner -2\ncellsize 5\n{cells}\n".encode()
            landscape, _, due = reference.load(Asked("grid", "class", None), grid, table)
            texts = {"geojson": polygons.features_text(landscape)}
            if landscape.areas:
                texts["topojson"] = polygons.topology_text(landscape, "map")
            for form, text in texts.items():
                _, _, problem = reference.load(Asked(form, "class", None), text.encode(), table)
                self.assertEqual((problem.own, problem.weight, problem.links), (due.own, due.weight, due.links))


if __name__ == "__main__":
    unittest.main()
