#!/usr/bin/env python3
"""Tests of the second implementation: test_reference.py

Worked maps with their due answers; the places of faults of JSON against Python's own reader; grids that are spelled as polygons and must have
the same weights, links, costs and certificates. It takes no part in any proof.
"""
import itertools
import json
import random
import unittest
from fractions import Fraction

import command_words
import coverage
import json_tree
import polygon_maps
import reference
from command_words import Asked
from json_tree import JsonFault
from layout import is_inside
from polygon_maps import Refused
from random_maps import chains_of, random_map, trails

GEOJSON = Asked("geojson", "class", None)
TOPOJSON = Asked("topojson", "class", None)
GRID = Asked("grid", "class", None)
PIXELS = (
    '{"type":"Topology","transform":{"scale":[0.0036000360003600037,0.0017361],"translate":[-180,-85.60903777459771]},"objects":{"t":{"type":'
    '"GeometryCollection","geometries":[{"type":"Polygon","properties":{"class":"a"},"arcs":[[-1]]}]}},'
    '"arcs":[[[0,0],[0,2],[2,0],[0,-2],[-2,0]]]}'
)


def table_of(threshold, border):
    """A table of two classes."""
    rows = ["classes 1", "unit 1 1", f"border {border}", f"class {threshold} 1", f"class {threshold} 2", "row 0 5", "row 5 0"]
    return ("\n".join(rows) + "\n").encode()


def features(*areas):
    """A collection of polygons, each a class, written as JSON, and its rings."""
    told = []
    for name, rings in areas:
        geometry = f'{{"type":"Polygon","coordinates":{rings}}}'
        told.append(f'{{"type":"Feature","properties":{{"class":{name}}},"geometry":{geometry}}}')
    return ('{"type":"FeatureCollection","features":[' + ",".join(told) + "]}").encode()


def said(asked, text, table):
    """The code and the said lines."""
    code, told, _, _ = reference.answer(asked, text, table)
    return code, told.decode().rstrip("\n").replace("\n", "/")


class Worked(unittest.TestCase):
    def test_no_features(self):
        code, told, _, out = reference.answer(GEOJSON, features(), table_of(4, 1))
        self.assertEqual((code, told), (0, b"optimal\nareas 0\npassed 0\nregions 0\ncost 0\nbound 0\nsplits 0\n"))
        due = b'{"type":"Topology","objects":{"regions":{"type":"GeometryCollection","geometries":[]}},"arcs":[]}\n'
        self.assertEqual(out, due)

    def test_one_arc_backwards(self):
        table = b"classes 1\nborder 1\nclass 8 a\nrow 0\n"
        code, _, _, out = reference.answer(TOPOJSON, PIXELS.encode(), table)
        self.assertEqual(code, 0)
        self.assertIn(b'"scale":[0.0036000360003600037,0.0017361],"translate":[-180,-85.60903777459771]', out)
        self.assertIn(b'"arcs":[[[0]]]', out)
        self.assertIn(b"[[0,0],[2,0],[0,2],[-2,0],[0,-2]]", out)
        beyond = PIXELS.replace("[[-1]]", "[[-2]]").encode()
        self.assertEqual(said(TOPOJSON, beyond, table), (65, "refused: map BadIndex 0"))

    def test_hole(self):
        hole = "[[0,0],[6,0],[6,6],[0,6],[0,0]],[[2,2],[2,4],[4,4],[4,2],[2,2]]"
        text = features(('"1"', f"[{hole}]"), ('"2"', "[[[2,2],[4,2],[4,4],[2,4],[2,2]]]"))
        code, told, certificate, out = reference.answer(GEOJSON, text, table_of(10, 0))
        self.assertEqual((code, told), (3, b"within\nareas 2\npassed 0\nregions 1\ncost 40\nbound 0\nsplits 0\n"))
        self.assertIn(b"\nr 0\na 0\na 0\n", certificate)
        self.assertIn(b'"arcs":[[[0,0],[6,0],[6,6],[0,6],[0,0]]]}', out)
        landscape, _, problem = reference.load(GEOJSON, text, table_of(10, 0))
        self.assertEqual((landscape.areas, problem.weight, problem.links), (2, [64, 8], {(0, 1): 8 * 256}))

    def test_spellings_of_whole_numbers(self):
        rings = "[[[0,0],[0,7.0,3],[7.00,7],[7,0],[0,0]]]"
        self.assertEqual(said(GEOJSON, features(("1", rings)), table_of(98, 1))[0], 0)
        self.assertEqual(said(GEOJSON, features(("1", rings)), table_of(99, 1))[0], 4)
        broken = features(("1", rings.replace("7.0,", "7.5,")))
        self.assertEqual(said(GEOJSON, broken, table_of(98, 1)), (65, "refused: map NotWhole 0"))

    def test_border_that_is_not_noded(self):
        text = features(('"1"', "[[[0,0],[2,0],[2,2],[0,2],[0,0]]]"), ('"1"', "[[[2,0],[4,0],[4,1],[2,1],[2,0]]]"))
        self.assertEqual(said(GEOJSON, text, table_of(4, 1)), (65, "refused: coverage Crossing 2 0 2 1 2 0 2 2 at 2 1 1"))

    def test_overlap_and_shared_edge(self):
        area = ('"1"', "[[[1,0],[1,1],[0,1],[1,0]]]")
        self.assertEqual(said(GEOJSON, features(area, area), table_of(4, 1)), (65, "refused: coverage Overlap 0 1 at 1 1 2"))
        self.assertEqual(said(GEOJSON, features(area, area, area), table_of(4, 1)), (65, "refused: coverage Shared 1 0 0 1"))

    def test_area_without_edges(self):
        text = features(('"1"', "[[[0,0],[3,0],[3,0],[0,0]]]"), ('"1"', "[[[0,0],[1,0],[1,1],[0,1],[0,0]]]"))
        self.assertEqual(said(GEOJSON, text, table_of(2, 1)), (0, "optimal/areas 1/passed 1/regions 1/cost 0/bound 0/splits 0"))

    def test_broken_texts(self):
        for text, due in ((b'{"type":', "Syntax 8"), (b"", "Syntax 0"), (b"[" * 65, "TooDeep 64"), (b"{}", "NotGeoJson")):
            self.assertEqual(said(GEOJSON, text, table_of(4, 1)), (65, f"refused: map {due}"))

    def test_words(self):
        right = "generalise grid m t o c --splits 5"
        self.assertEqual(command_words.read(right.split()).splits, 5)
        wrong = ["", "generalise grid m t o o", "check grid m t o c --splits 5", "generalise grid m t o c --splits=5"]
        wrong += ["generalise grid m t o c --", "generalise grid m t o c --class a", "generalise geojson m t o c --object a"]
        wrong += ["generalise geojson m t o c --class --class"]
        wrong += [right + " --splits 5", "generalise m t o c", "generalise grid m t o -c", "make 0 6 1 m t o c", "make 6 257 1 m t o c"]
        for words in wrong:
            self.assertIsNone(command_words.read(words.split()), words)
        self.assertIsNone(command_words.read(["generalise", "grid", "m", "", "o", "c"]))
        asked = command_words.read("generalise --class k topojson m t --object o o c".split()).asked
        self.assertEqual(asked, Asked("topojson", "k", "o"))


SQUARE = "[[0,0],[4,0],[4,4],[0,4],[0,0]]"
SHAPE = '{"type":"Polygon","properties":{"class":1},"arcs":[[0]]}'


def topology(arcs=f"[{SQUARE}]", geometries=f"[{SHAPE}]", rest=""):
    chosen = f'{{"type":"GeometryCollection","geometries":{geometries}}}'
    return f'{{"type":"Topology","objects":{{"t":{chosen}}},"arcs":{arcs}{rest}}}'


class Orders(unittest.TestCase):
    """Which fault comes first where there are several."""

    def said(self, asked, text, due):
        self.assertEqual(said(asked, text.encode(), table_of(4, 1)), (65, f"refused: map {due}"), text)

    def test_topologies(self):
        right = topology()
        self.assertEqual(said(TOPOJSON, right.encode(), table_of(4, 1))[0], 0)
        relative = ',"transform":{"scale":[1,1],"translate":[0,0]}'
        cases = [
            (right.replace('"Topology"', '"topology"'), "NotTopology"),
            (topology('["x"]'), "BadArc 0"),
            (topology('[[[0,0],"x"]]'), "BadArc 0"),
            (topology('[[["0",0],[1,0]]]'), "BadArc 0"),
            (topology(rest=',"transform":null'), "NotTopology"),
            (topology(rest=',"transform":{"scale":[1,1,1],"translate":[0,0]}'), "NotTopology"),
            (topology(rest=',"transform":{"scale":[1,"1"],"translate":[0,0]}'), "NotTopology"),
            (topology(rest=',"objects":{}'), "NoObject"),
            (topology(rest=',"objects":{"a":null,"b":null}'), "NoObject"),
            (topology(rest=',"objects":{"a":1,"a":{"type":"GeometryCollection"}}'), "NotPolygonal 0"),
            (topology(rest=',"objects":{"a":7}'), "NotPolygonal 0"),
            (topology(rest=',"objects":{"a":{"type":"GeometryCollection","geometries":{}}}'), "NotPolygonal 0"),
            (topology('[[[0,0],[0.5,0]],[[0,0]]]'), "NotWhole 0"),
            (topology('[[[0,0],[1,0]],[[0,0]],[[0.5,0]]]'), "BadArc 1"),
            (topology('[[[0,0],[1073741825,0],[0.5,1]]]'), "NotWhole 0"),
            (topology('[[[0,0],[1073741825,0]],[[0.5,0],[1,1]]]'), "Limit Coordinate"),
            (topology('[[[0,0],[1073741824,1],[1,1]]]', rest=relative), "Limit Coordinate"),
            (topology('[[[0,0],[1e0,0]]]'), "NotWhole 0"),
            (topology('[[[0,0],[1]]]'), "BadArc 0"),
            (topology(geometries='[null,{"type":null},{"properties":{"class":1},"arcs":[[0]]}]'), "NotPolygonal 2"),
            (topology(geometries='[{"type":"Polygon","arcs":[[0,"1"]]}]'), "NotPolygonal 0"),
            (topology(geometries='[{"type":"MultiPolygon","arcs":[[7]]}]'), "NotPolygonal 0"),
            (topology(geometries='[{"type":"Polygon","properties":{"class":1.5},"arcs":[[7]]}]'), "NoClass 0"),
            (topology(geometries='[{"type":"Polygon","properties":{"class":"1","class":null},"arcs":[[7]]}]'), "NoClass 0"),
            (topology(geometries=f'[{SHAPE},{{"type":"Polygon","properties":{{"class":9223372036854775808}},"arcs":[]}}]'), "NoClass 1"),
            (topology(geometries='[{"type":"Polygon","properties":{"class":""},"arcs":[[]]}]'), "NoClass 0"),
            (topology(geometries='[{"type":"Polygon","properties":{"class":"1"},"arcs":[[],[1]]}]'), "BadIndex 0"),
            (topology(geometries='[{"type":"Polygon","properties":{"class":"1"},"arcs":[[-2]]}]'), "BadIndex 0"),
            (topology(geometries='[{"type":"Polygon","properties":{"class":"1"},"arcs":[[0e0]]}]'), "BadIndex 0"),
            (topology(geometries='[{"type":"Polygon","properties":{"class":"1"},"arcs":[[0],[]]}]'), "OpenRing 0"),
            (topology("[[[0,0],[1,0]],[[1,0],[0,1]]]", '[{"type":"Polygon","properties":{"class":"1"},"arcs":[[0,1]]}]'), "OpenRing 0"),
        ]
        for text, due in cases:
            self.said(TOPOJSON, text, due)
        self.said(Asked("topojson", "class", "u"), right, "NoObject")
        self.said(Asked("topojson", "k", None), right, "NoClass 0")

    def test_passed_over_and_repeated(self):
        text = topology(geometries=f'[null,{SHAPE},{{"type":null,"arcs":7}},{{"type":"Polygon","properties":{{"class":"x"}},"arcs":[]}}]')
        self.assertEqual(said(TOPOJSON, text.encode(), table_of(4, 1)), (0, "optimal/areas 1/passed 3/regions 1/cost 0/bound 0/splits 0"))
        text = topology(rest=',"objects":{"t":7,"t":null}')
        self.assertEqual(said(TOPOJSON, text.encode(), table_of(4, 1))[1].split("/")[1:3], ["areas 0", "passed 1"])
        backwards = '[{"type":"Polygon","properties":{"class":"1"},"arcs":[[-0,-2]]}]'
        text = topology("[[[0,0],[2,0],[2,2.0]],[[0,0],[0,2],[2,2,9]]]", backwards)
        self.assertEqual(said(TOPOJSON, text.encode(), table_of(4, 1))[0], 0)

    def test_features(self):
        def one(geometry, properties='{"class":1}'):
            return f'{{"type":"FeatureCollection","features":[{{"type":"Feature","properties":{properties},"geometry":{geometry}}}]}}'

        def rings(*told):
            return f'{{"type":"Polygon","coordinates":[{",".join(told)}]}}'

        cases = [
            ('{"type":"Feature","features":[]}', "NotGeoJson"),
            ('{"type":"FeatureCollection","features":{}}', "NotGeoJson"),
            ('{"type":"FeatureCollection","features":[null]}', "NotPolygonal 0"),
            (one("7"), "NotPolygonal 0"),
            (one('{"type":null,"coordinates":[]}'), "NotPolygonal 0"),
            (one('{"type":"MultiPolygon","coordinates":[[[0,0]]]}'), "NotPolygonal 0"),
            (one(rings("[[0,0],[1]]"), "{}"), "NotPolygonal 0"),
            (one(rings("[[0.5,0]]"), "{}"), "NoClass 0"),
            (one(rings("[[1073741825,0]]", "[[0.5,0]]")), "NotWhole 0"),
            (one(rings("[[0,0]]", "[[1073741825,0]]")), "Limit Coordinate"),
            (one(rings("[[0,0],[1,0],[0,0]]")), "OpenRing 0"),
            (one(rings(SQUARE, "[[0,0],[1,0],[1,1],[0,1]]")), "OpenRing 0"),
            (one(rings("[]")), "OpenRing 0"),
        ]
        for text, due in cases:
            self.said(GEOJSON, text, due)
        for text in (one(rings("[[0,0],[4,0],[4,4],[-0,0.0]]")), one(rings(SQUARE), '{"class":1.00}')):
            self.assertEqual(said(GEOJSON, text.encode(), table_of(4, 1))[0], 0)
        self.assertEqual(said(GEOJSON, one("null", "null").encode(), table_of(4, 1))[1].split("/")[2], "passed 1")

    def test_table_comes_before_coverage(self):
        area = ('"x"', SQUARE.join("[]"))
        self.assertEqual(said(GEOJSON, features(area, area), b"classes 2\n"), (65, "refused: table Line 1 Version"))
        self.assertEqual(said(GEOJSON, features(area, area), table_of(4, 1))[1].split()[1], "coverage")
        self.assertEqual(said(GEOJSON, features(area), table_of(4, 1)), (65, "refused: classes UnknownClass 0"))

    def test_limit_of_areas(self):
        small = '{"type":"Feature","properties":{"class":1},"geometry":{"type":"Polygon","coordinates":[]}}'
        other = small.replace('"class"', '"c"')
        for count, last, due in ((65536, small, None), (65537, small, "Limit Areas"), (65537, other, "Limit Areas")):
            text = '{"type":"FeatureCollection","features":[' + ",".join([small] * (count - 1) + [last]) + "]}"
            if due:
                self.said(GEOJSON, text, due)
            else:
                self.assertEqual(said(GEOJSON, text.encode(), table_of(4, 1))[1].split("/")[2], "passed 65536")

    def test_limit_of_edges(self):
        """Steps of no length do not count, and edges walked twice do."""
        kept = polygon_maps.MOST_STEPS
        try:
            polygon_maps.MOST_STEPS = 10
            rings = "[[[0,0],[4,0],[4,0],[4,4],[9,9],[4,4],[0,4],[0,0]]]"
            self.assertEqual(said(GEOJSON, features(("1", rings)), table_of(4, 1))[0], 0)
            self.said(GEOJSON, features(("1", rings), ("1", f"[{SQUARE}]"), ("1", f"[{SQUARE}]")).decode(), "Limit Edges")
            self.said(TOPOJSON, topology(geometries=f"[{SHAPE},{SHAPE},{SHAPE}]"), "Limit Edges")
        finally:
            polygon_maps.MOST_STEPS = kept


# What may end a token, a string where one is open; behind it come ends of lists and objects.
ENDS = ["", "0", "0]", ":0", "0:0", "rue", "ue", "e", "alse", "lse", "se", "ull", "ll", "l"]
ESCAPE_ENDS = ["", "n", "0000", "000", "00", "0", "\\uDC00", "uDC00", "DC00", "C00", "800", "800\\uDC00", "00\\uDC00", "0\\uDC00"]
ENDS += [end + close for end in ESCAPE_ENDS for close in ('"', '":0')] + ['"a":0']
BYTE_ENDS = [b"\x80", b"\x80\x80", b"\x80\x80\x80", b"\xa0\x80", b"\x90\x80\x80", b"\xbb\xbf0", b"\xbf0"]
LETTERS = [b"[", b"]", b"{", b"}", b":", b",", b'"', b"\\", b"u", b"d", b"8", b"D", b"C", b"0", b"1", b"-", b".", b"e", b"E", b"+", b"t", b"n"]
LETTERS += [b"r", b"l", b" ", b"\t", b"\x0b", b"\x1f", b"\x7f", b"\xc3", b"\xa4", b"\xe0", b"\xed", b"\xf0", b"\xf4", b"\xff", b"a"]
LETTERS += [b"\xef", b"\xbb"]
LETTERS += [b'"a"', b'"a":', b"true", b"\\ud8", b"\\u00", b"\xef\xbb\xbf", b"[[", b'{"', b'"\\']


def all_ends():
    closing = [b"".join(part) for length in range(5) for part in itertools.product([b"]", b"}"], repeat=length)]
    tokens = [end.encode() for end in ENDS]
    tokens += [first + rest for first in BYTE_ENDS for rest in (b"", b'"', b'":0')]
    return [token + close for token in tokens for close in closing]


def is_json(text):
    """Whether Python's own reader takes the bytes, without what it takes beyond the grammar."""
    text = text[3:] if text.startswith(b"\xef\xbb\xbf") else text
    try:
        told = text.decode("utf-8")
        if told.startswith("\ufeff"):
            return False
        tree = json.loads(told, parse_constant=lambda _: 1 // 0)
        json.dumps(tree, ensure_ascii=False).encode("utf-8")
        return True
    except (ValueError, ZeroDivisionError, UnicodeError):
        return False


class Places(unittest.TestCase):
    def test_faults_stand_where_no_text_goes_on(self):
        """The bytes before the place begin some text, and with the byte at the place none."""
        dice, ends = random.Random(7), all_ends()
        for _ in range(600):
            text = b"".join(dice.choice(LETTERS) for _ in range(dice.randint(0, 7)))
            try:
                json_tree.read(text)
                self.assertTrue(is_json(text), text)
            except JsonFault as fault:
                self.assertEqual(fault.name, "Syntax")
                self.assertFalse(is_json(text), text)
                self.assertTrue(any(is_json(text[: fault.at] + end) for end in ends), (text, fault.at))
                if fault.at < len(text):
                    self.assertFalse(any(is_json(text[: fault.at + 1] + end) for end in ends), (text, fault.at))

    def test_depth(self):
        for text, due in ((b"[" * 64 + b"]" * 64, None), (b"[" * 65 + b"]" * 65, "TooDeep 64"), (b"[" * 64 + b"{", "TooDeep 64")):
            self.assertEqual(fault_of(text), due)
        self.assertEqual(fault_of(b"\xef\xbb\xbf" + b"[" * 66), "TooDeep 67")
        self.assertEqual(fault_of(b"[" * 30 + b"]" + b"[" * 40), "Syntax 31")
        self.assertEqual(fault_of(b'{"a":' * 64 + b"[ ]"), "TooDeep 320")

    def test_written_trees_are_read_again(self):
        text = '{"a":[1.50,-0,1e5,"\\u0001\\"\\\\\u00e4\U0001d11e",null,true,{}],"a":[]}'
        self.assertEqual(json_tree.text_of(json_tree.read(text.encode())), text)


def fault_of(text):
    try:
        json_tree.read(text)
        return None
    except JsonFault as fault:
        return str(fault)


def patches_as_polygons(dice, landscape):
    """The patches of a grid as a topology and as features, with arcs cut at random."""
    edges = landscape.edges()
    chains = chains_of(dice, edges)
    ends = [(chain[0], chain[-1]) for chain in chains]
    geometries, found = [], []
    cells = {area: landscape.cells[place] for place, area in enumerate(landscape.patch)}
    for area, own_edges in enumerate(edges):
        own = [place for place, chain in enumerate(chains) if tuple(sorted(chain[:2], key=lambda p: (p[1], p[0]))) in own_edges]
        rings = trails(dice, ends, own)
        arcs = [[arc if ahead else -arc - 1 for arc, ahead in ring] for ring in rings]
        points = [[point for arc, ahead in ring for point in (chains[arc] if ahead else chains[arc][::-1])[:-1]] for ring in rings]
        properties = {"class": cells[area]}
        geometries.append({"type": "Polygon", "arcs": arcs, "properties": properties})
        geometry = {"type": "Polygon", "coordinates": [ring + ring[:1] for ring in points]}
        found.append({"type": "Feature", "properties": properties, "geometry": geometry})
    topology = {"type": "Topology", "objects": {"map": {"type": "GeometryCollection", "geometries": geometries}}, "arcs": chains}
    return json.dumps(topology).encode(), json.dumps({"type": "FeatureCollection", "features": found}).encode()


def areas_at(areas, x, y):
    """The areas that a point lies in."""
    return [area for area, (_, edges) in enumerate(areas) if is_inside(edges, x, y)]


class Coverages(unittest.TestCase):
    def test_spots_of_overlaps_and_points_elsewhere(self):
        """A spot lies in the two least areas there, and no point below its height lies in two; where nothing is refused, none does."""
        dice, overlaps = random.Random(13), 0
        for _ in range(700):
            text, asked = random_map(dice, "geojson", False)
            try:
                read = polygon_maps.read_features(json_tree.read(text), asked.class_name)
            except (JsonFault, Refused):
                continue
            areas, low = [area for area in read.areas if area[1]], None
            try:
                coverage.check(read)
            except Refused as refusal:
                words = str(refusal).split()
                if words[1] != "Overlap":
                    continue
                overlaps += 1
                a, b, x, y, under = (int(words[at]) for at in (2, 3, 5, 6, 7))
                low = Fraction(y, under)
                self.assertEqual(areas_at(areas, Fraction(x, under), low)[:2], [a, b])
            self.at_most_one(dice, areas, low)
        self.assertGreater(overlaps, 8)

    def at_most_one(self, dice, areas, low):
        """Points in the box of the areas, where there is a spot below the strip between two heights in which it lies."""
        points = [point for _, edges in areas for side in edges for point in side]
        low = low and max(y for _, y in points if y < low)
        for _ in range(12 if points else 0):
            x, y = (Fraction(dice.randint(100 * min(part), 100 * max(part)), 100) for part in zip(*points))
            if low is None or y < low:
                self.assertLessEqual(len(areas_at(areas, x, y)), 1)


class RoundTrips(unittest.TestCase):
    def test_grids_as_polygons(self):
        dice = random.Random(11)
        for _ in range(150):
            columns, rows = dice.randint(1, 7), dice.randint(1, 6)
            cells = "\n".join(" ".join(dice.choice(["1", "2", "3", "-9999"]) for _ in range(columns)) for _ in range(rows))
            grid = f"ncols {columns}\nnrows {rows}\nxllcorner 0\nyllcorner 0\ncellsize 1\n{cells}\n".encode()
            table = f"classes 1\nunit {dice.randint(1, 9)} {dice.randint(1, 9)}\nborder 3\n".encode()
            table += b"class 6 1\nclass 2 2\nclass 8 3\nrow 0 5 9\nrow 4 0 2\nrow 1 2 0\n"
            self.same(grid, table, dice)

    def same(self, grid, table, dice):
        landscape, _, problem = reference.load(GRID, grid, table)
        due = reference.answer(GRID, grid, table)
        for asked, text in zip((TOPOJSON, GEOJSON), patches_as_polygons(dice, landscape)):
            other, _, told = reference.load(asked, text, table)
            self.assertEqual((told.weight, told.links, told.own), (problem.weight, problem.links, problem.own))
            self.assertEqual(other.edges(), landscape.edges())
            self.assertEqual(reference.answer(asked, text, table)[:3], due[:3])


if __name__ == "__main__":
    unittest.main()
