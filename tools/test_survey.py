#!/usr/bin/env python3
"""Tests of survey.py: test_survey.py

Small maps are checked in full, with the same areas, weights and links from both formats; in a larger one no edges meet. It takes no part
in any proof.
"""
import unittest

import coverage
import reference
import survey
from command_words import Asked
from layout import edge, edge_order


def checked(count, edges, seed):
    """The problems of a made map in both formats, its features, and its areas as they were made."""
    areas, classes, arcs, table = survey.made(count, edges, seed)
    found = []
    for form, text in (("geojson", survey.features_text(areas, classes, arcs)), ("topojson", survey.topology_text(areas, classes, arcs))):
        found.append(reference.load(Asked(form, "class", None), text.encode(), table.encode()))
    return found, areas, arcs


class Maps(unittest.TestCase):
    def test_small_maps(self):
        for count, edges, seed in ((1, 40, 1), (2, 60, 2), (3, 23, 3), (40, 900, 4), (100, 2500, 5)):
            (features, topology), areas, arcs = checked(count, edges, seed)
            for landscape, _, problem in (features, topology):
                self.assertEqual((landscape.areas, landscape.passed), (count, 0))
                self.assertEqual(problem.weight, [area.weight for area in areas])
            self.assertEqual((features[2].links, features[2].own), (topology[2].links, topology[2].own))
            self.assertEqual(len(set().union(*features[0].edges())), edges)
            self.assertEqual(len(set(features[2].weight)), count)
            self.assertEqual(len(set(features[2].parts())), 1)
            points = {point for arc in arcs for point in arc}
            self.assertEqual(len({y for _, y in points}), len(points))
            self.assertEqual(any(len(area.rings) > 1 for area in areas), count >= 100)
            self.assertLess(len(features[2].links), 3 * count + 1)

    def test_no_edges_meet(self):
        areas, _, arcs, _ = survey.made(1500, 30000, 6)
        edges = sorted((edge(a, b) for arc in arcs for a, b in zip(arc, arc[1:])), key=edge_order)
        self.assertEqual((len(edges), len(set(edges))), (30000, 30000))
        self.assertIsNone(coverage.first_crossing(edges))
        self.assertGreater(sum(len(area.rings) > 1 for area in areas), 2)

    def test_large_areas(self):
        areas, _, arcs, _ = survey.made(20000, 300000, 7)
        vertices = sorted(sum(len(arcs[place]) - 1 for ring in area.rings for place, _ in ring) for area in areas)
        self.assertGreater(vertices[-5], 1000)
        self.assertEqual(len({area.weight for area in areas}), 20000)


if __name__ == "__main__":
    unittest.main()
