#!/usr/bin/env python3
"""Tests of the second implementation's certificates and judge: test_judge.py

Worked certificates with their due answers; changed ones; what leaves prove against all groupings of small problems. It takes no part in any
proof.
"""
import itertools
import random
import unittest

import certificates
import judge
import random_sums
import reference
import row_sums
from all_groupings import partitions
from certificates import CertificateFault
from command_words import Asked
from random_certificates import random_tree
from test_reference import table_of

GRID = Asked("grid", "class", None)
MAP = b"ncols 3\nnrows 1\nxllcorner 0\nyllcorner 0\ncellsize 1\n1 2 1\n"
RIGHT = b"""aggregation 1
status optimal
cost 10
bound 10
areas 3
regions 1
r 0
a 0
a 0
a 0
c 1 2
e 5 0 0 1 0
e 5 2 0 1 2
end
"""


def drawn():
    return reference.answer(GRID, MAP, table_of(4, 1))[3]


def said(certificate, out=None):
    out = drawn() if out is None else out
    code, told = judge.answer(GRID, MAP, table_of(4, 1), certificate, lambda: out)
    return code, told.decode().rstrip("\n")


def changed(old, new):
    assert RIGHT.count(old) == 1
    return RIGHT.replace(old, new)


class Worked(unittest.TestCase):
    def test_right_one(self):
        self.assertEqual(said(RIGHT), (0, "valid optimal 10 10"))
        self.assertEqual(certificates.text_of(certificates.read(RIGHT)), RIGHT)

    def test_no_grouping(self):
        table = b"classes 1\nborder 0\nclass 4 1\nrow 0\n"
        grid = b"ncols 1\nnrows 1\nxllcorner 0\nyllcorner 0\ncellsize 1\n1\n"
        code, told, certificate, out = reference.answer(GRID, grid, table)
        self.assertEqual((code, told, out), (4, b"none\nareas 1\npassed 0\nregions 0\ncost -\nbound -\nsplits 0\n", None))
        lines = ["aggregation 1", "status none", "cost -", "bound -", "areas 1", "regions 0", "v 1", "e 1 0 0 1 0", "end", ""]
        self.assertEqual(certificate, "\n".join(lines).encode())
        self.assertEqual(judge.answer(GRID, grid, table, certificate, lambda: self.fail()), (0, b"valid none - -\n"))
        weaker = certificate.replace(b"v 1\ne 1 0 0 1 0\n", b"c 1 0\n")
        self.assertEqual(judge.answer(GRID, grid, table, weaker, lambda: None), (5, b"invalid Bound 0\n"))

    def test_flaws(self):
        first, both = b"e 5 0 0 1 0\n", b"c 1 2\ne 5 0 0 1 0\ne 5 2 0 1 2\n"
        large = b"e 170141183460469231731687303715884105727 0 0 1 0\n"
        cases = [
            (changed(first, b"e -5 0 0 1 0\n"), (5, "invalid Negative 0 0")),
            (changed(first, b"e 5 0 0 2 0 1\n"), (5, "invalid Row 0 0")),
            (changed(both, b"s 0 0\nc 1 0\n"), (65, "refused: certificate Line 13")),
            (changed(b"cost 10", b"cost 11"), (5, "invalid Cost 10")),
            (changed(both, b"c 1 2\n" + large + large), (5, "invalid Wide 0 choice 0 0")),
            (changed(both, b"c 1 1\ne 5 0 0 1 0\n"), (5, "invalid Bound 5")),
            (changed(both, b"f\n"), (5, "invalid NotFixed 0 0")),
            (changed(both, b"v 0\n"), (5, "invalid NotVoid 0 0")),
            (changed(both, b"s 0 2\n" + both + both), (5, "invalid Split 0")),
            (changed(both, b"s 3 0\n" + both + both), (5, "invalid Split 0")),
            (changed(both, b"s 0 1\ns 0 1\n" + both + both + both), (5, "invalid Split 1")),
            (changed(both, b"s 0 1\n" + both + b"c 1 0\n"), (5, "invalid Bound 0")),
            (changed(b"bound 10", b"bound 9"), (5, "invalid Bound 10")),
            (changed(b"optimal", b"within"), (5, "invalid Status")),
            (changed(b"areas 3", b"areas 2").replace(b"a 0\n", b"", 1), (5, "invalid Areas 3")),
            (changed(b"r 0\n", b"r 2\n"), (5, "invalid ClassRange 0")),
            (changed(b"r 0\n", b"r 1\n"), (5, "invalid DrawnClass 0")),
            (changed(b"a 0\na 0\na 0\n", b"a 0\na 1\na 0\n"), (5, "invalid Range 1")),
            (changed(b"regions 1\nr 0\n", b"regions 2\nr 0\nr 0\n"), (5, "invalid Regions 1")),
        ]
        for text, due in cases:
            self.assertEqual(said(text), due, text)
        self.assertEqual(said(RIGHT, drawn().replace(b'"class":"1"', b'"class":"2"')), (5, "invalid DrawnClass 0"))
        self.assertEqual(said(RIGHT, drawn().replace(b'"scale":[1,1]', b'"scale":[1,1.0]')), (5, "invalid Frame"))
        moved = drawn().replace(b"[[0,0],[1,0],[1,0],[1,0],", b"[[0,0],[1,0],[1,0],[2,0],").replace(b"[0,1],[-1,0]", b"[0,1],[-2,0]")
        self.assertEqual(said(RIGHT, moved), (5, "invalid DrawnEdges 0 2 0 3 0"))
        self.assertEqual(said(RIGHT, b"{}"), (65, "refused: out NotTopology"))

    def test_regions_with_lacks(self):
        edges = "[[0,0],[1,0],[0,1],[-1,0],[0,-1]]", "[[1,0],[1,0],[0,1],[-1,0],[0,-1]]", "[[2,0],[1,0],[0,1],[-1,0],[0,-1]]"
        shape = '{"type":"MultiPolygon","properties":{"class":"%s"},"arcs":[%s]}'

        def out_of(*regions):
            told = ",".join(shape % (name, ",".join(f"[[{area}]]" for area in areas)) for name, areas in regions)
            text = '{"type":"Topology","transform":{"scale":[1,1],"translate":[0,0]},"objects":{"regions":{"type":"GeometryCollection",'
            return (text + f'"geometries":[{told}]}}}},"arcs":[{",".join(edges)}]}}').encode()

        head = b"aggregation 1\nstatus within\ncost 20\nbound 0\nareas 3\n"
        loose = head + b"regions 2\nr 0\nr 1\na 0\na 1\na 0\nc 1 0\nend\n"
        self.assertEqual(said(loose, out_of(("1", [0, 2]), ("2", [1]))), (5, "invalid Loose 0"))
        small = head + b"regions 2\nr 0\nr 1\na 0\na 1\na 1\nc 1 0\nend\n"
        self.assertEqual(said(small, out_of(("1", [0]), ("2", [1, 2]))), (5, "invalid TooSmall 0"))
        own = head + b"regions 2\nr 1\nr 1\na 0\na 1\na 1\nc 1 0\nend\n"
        self.assertEqual(said(own, out_of(("2", [0]), ("2", [1, 2]))), (5, "invalid NoOwn 0"))
        empty = head + b"regions 2\nr 0\nr 0\na 1\na 1\na 1\nc 1 0\nend\n"
        self.assertEqual(said(empty, out_of(("1", []), ("1", [0, 1, 2]))), (5, "invalid Empty 0"))


def fault_of(text):
    try:
        certificates.read(text)
        return None
    except CertificateFault as fault:
        return str(fault)


class Texts(unittest.TestCase):
    def test_lines_left_out_or_unended(self):
        lines = RIGHT.split(b"\n")[:-1]
        for at in range(len(lines)):
            cut = b"\n".join(lines[:at]) + b"\n" if at else b""
            self.assertEqual(fault_of(cut), f"Line {at + 1}")
            self.assertEqual(fault_of(cut + lines[at]), f"Line {at + 1}")
            self.assertEqual(fault_of(cut + lines[at] + b"\r\n" + b"\n".join(lines[at + 1 :]) + b"\n"), f"Line {at + 1}")
        self.assertEqual(fault_of(RIGHT + b"\n"), "Line 15")
        self.assertEqual(fault_of(RIGHT + b"end"), "Line 15")

    def test_words(self):
        cases = [(b"cost 10", b"cost 010", 3), (b"cost 10", b"cost -0", 3), (b"cost 10", b"cost -", 3), (b"cost 10", b"cost  10", 3)]
        cases += [(b"cost 10", b"cost 170141183460469231731687303715884105728", 3), (b"areas 3", b"areas 65537", 5), (b"r 0\n", b"r 64\n", 7)]
        cases += [(b"c 1 2", b"c 0 2", 11), (b"c 1 2", b"c 4097 2", 11), (b"c 1 2", b"c 1 40000001", 11), (b"c 1 2", b"c 1 3", 14)]
        cases += [(b"c 1 2", b"c 1 1", 13), (b"e 5 0 0 1 0", b"e 5 0 0 2 0 0", 12), (b"e 5 0 0 1 0", b"e 5 0 0 2 1 0", 12)]
        cases += [(b"e 5 0 0 1 0", b"e 5 0 0 1 65536", 12), (b"e 5 0 0 1 0", b"e 5 0 0 2 0", 12), (b"e 5 0 0 1 0", b"b 1048576 0 0 5", 12)]
        cases += [(b"e 5 0 0 1 0", b"e -170141183460469231731687303715884105728 0 0 1 0", 12), (b"e 5 0 0 1 0", b"b 0 2 0 5", 12)]
        cases += [(b"status optimal", b"status none", 3), (b"status optimal", b"status open", 2), (b"end\n", b"end \n", 14)]
        for old, new, line in cases:
            self.assertEqual(fault_of(changed(old, new)), f"Line {line}", new)
        for right in (b"cost -170141183460469231731687303715884105728", b"cost 170141183460469231731687303715884105727"):
            self.assertIsNone(fault_of(changed(b"cost 10", right)))

    def test_depth(self):
        head, _, _ = RIGHT.partition(b"c 1 2")
        self.assertEqual(fault_of(head + b"s 0 0\n" * 1025 + b"f\n"), "TooDeep 1036")
        self.assertEqual(fault_of(head + b"s 0 0\n" * 1025 + b"f"), "Line 1036")
        self.assertEqual(fault_of(head + b"s 0 0\n" * 1024 + b"f\n" * 1025 + b"end\n"), None)

    def test_limits(self):
        kept = certificates.MOST_MARKS, certificates.MOST_SPLITS
        try:
            certificates.MOST_MARKS, certificates.MOST_SPLITS = 18, 1
            self.assertIsNone(fault_of(RIGHT))
            self.assertEqual(fault_of(changed(b"e 5 2 0 1 2", b"e 5 2 0 2 1 2")), "Limit 13")
            self.assertEqual(fault_of(changed(b"e 5 2 0 1 2", b"e 5 2 0 3 1 2")), "Line 13")
            self.assertEqual(fault_of(changed(b"c 1 2", b"s 0 0\nf\ns 0 0\nf\nc 1 2")), "Limit 13")
        finally:
            certificates.MOST_MARKS, certificates.MOST_SPLITS = kept


def groupings(model):
    """Every feasible grouping with its cost: the classes of the areas and the cost."""
    for region_of in partitions(len(model.own)):
        for regions in itertools.product(range(len(model.threshold)), repeat=max(region_of, default=-1) + 1):
            certificate = certificates.Certificate("within", 0, 0, len(model.own), list(regions), region_of, [])
            try:
                judge.judge_regions(model, certificate)
            except judge.Flaw:
                continue
            yield [regions[region] for region in region_of], judge.cost_of(model, regions, region_of)


def least_cost(found, domains):
    """The least cost of a grouping inside the domains; None where there is none."""
    return min((cost for classes, cost in found if all(cls in own for cls, own in zip(classes, domains))), default=None)


class Laws(unittest.TestCase):
    def test_no_grouping_is_cheaper_than_a_leaf_says(self):
        dice, tight = random.Random(3), 0
        for _ in range(150):
            model = random_sums.random_model(dice)
            if len(model.own) > 4:
                continue
            found = list(groupings(model))
            for _ in range(12):
                domains, leaf = random_sums.random_domains(dice, model), random_sums.random_leaf(dice, model)
                if row_sums.sound(model, domains, leaf) is not None:
                    continue
                tight += self.holds(model, domains, leaf, least_cost(found, domains))
        self.assertGreater(tight, 20)

    def holds(self, model, domains, leaf, least):
        try:
            bound = row_sums.value(model, domains, leaf)
        except row_sums.Weak:
            return 0
        if bound is None:
            self.assertIsNone(least)
        elif least is not None:
            self.assertLessEqual(bound, least)
        return bound is None or (least is not None and 0 < bound)

    def test_no_grouping_is_cheaper_than_a_tree_says(self):
        dice = random.Random(5)
        for _ in range(300):
            model = random_sums.random_model(dice)
            if len(model.own) > 3:
                continue
            tree = random_tree(dice, model, row_sums.whole_domains(model), 4)
            try:
                bound = judge.tree_bound(model, tree)
            except judge.Flaw:
                continue
            least = least_cost(list(groupings(model)), row_sums.whole_domains(model))
            self.assertTrue(least is None or (bound is not None and bound <= least))

    def test_cases_have_all_answers(self):
        lines = random_sums.random_cases(3000, 1).split("\n")
        told = {" ".join(line.split()[:2]) for line in lines if line.startswith(("sound", "value"))}
        due = {"sound Ok", "sound Denominator", "sound Row", "sound Negative", "sound NotFixed"}
        due |= {"value Least", "value Void", "value Wide", "value NotVoid", "value -"}
        self.assertEqual(told, due)


if __name__ == "__main__":
    unittest.main()
