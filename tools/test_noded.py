#!/usr/bin/env python3
"""Tests of noded.py: test_noded.py

Rasters become polygons as other programs write them, without the vertices in the middle of straight borders. What noded.py makes of them
must have the areas, weights and links of the raster read as a grid. Where `gdal_polygonize.py` is there it makes the polygons too. Slanted
maps must come out without a crossing or an overlap. It takes no part in any proof.
"""
import collections
import json
import os
import random
import shutil
import subprocess
import sys
import tempfile
import unittest

import coverage
import noded
import polygon_maps
import reference
from command_words import Asked
from json_tree import read
from layout import rings_of
from random_maps import dealt_pieces, straight

GRID = Asked("grid", "class", None)
GEOJSON = Asked("geojson", "class", None)
TOPOJSON = Asked("topojson", "class", None)
TABLE = b"classes 1\nborder 3\nclass 6 1\nclass 2 2\nclass 8 3\nrow 0 5 9\nrow 4 0 2\nrow 1 2 0\n"


def thin(ring):
    """A ring without the points in the middle of its straight parts, closed."""
    kept = [point for at, point in enumerate(ring) if not straight(ring[at - 1], point, ring[(at + 1) % len(ring)])]
    return kept + kept[:1]


def features_of(areas, spelled):
    """Areas, pairs of a class and edges, as features whose rings have corners alone."""
    features = []
    for name, edges in areas:
        rings = [[spelled(point) for point in thin(ring)] for ring in rings_of(edges)]
        geometry = {"type": "Polygon", "coordinates": rings}
        features.append({"type": "Feature", "properties": {"class": name}, "geometry": geometry})
    return json.dumps({"type": "FeatureCollection", "features": features}).encode()


def noded_texts(text, *grid):
    """What noded.py makes of a text, as GeoJSON and as TopoJSON."""
    named = noded.grid_of(grid)
    features, polygons, _ = noded.noded(read(text), named)
    return noded.features_text(features, polygons).encode(), noded.topology_text(features, polygons, named).encode()


def measures(problem):
    """What a problem has, whatever numbers its areas have."""
    ends = list(zip(problem.own, problem.weight))
    links = [tuple(sorted((ends[a], ends[b]))) + (length,) for (a, b), length in problem.links.items()]
    return collections.Counter(ends), collections.Counter(links)


def random_raster(dice):
    columns, rows = dice.randint(1, 9), dice.randint(1, 8)
    cells = "\n".join(" ".join(dice.choice(["1", "1", "2", "3", "-9999"]) for _ in range(columns)) for _ in range(rows))
    return f"ncols {columns}\nnrows {rows}\nxllcorner 0\nyllcorner 0\ncellsize 1\nNODATA_value -9999\n{cells}\n"


class Rasters(unittest.TestCase):
    def same(self, text, raster, texts):
        """The areas of both, one by one, and their measures."""
        landscape, _, problem = reference.load(GRID, raster, TABLE)
        for asked, noded_text in zip((GEOJSON, TOPOJSON), texts):
            _, _, told = reference.load(asked, noded_text, TABLE)
            self.assertEqual(measures(told), measures(problem), text)
        return landscape, problem

    def test_corners_alone(self):
        dice, refused = random.Random(2), 0
        for _ in range(120):
            raster = random_raster(dice).encode()
            landscape, _, problem = reference.load(GRID, raster, TABLE)
            x, y, size = dice.choice([(0, 0, 1), (432100, 6511250, 25), (-3.25, 7.1, 0.1)])
            names = {area: landscape.cells[place] for place, area in enumerate(landscape.patch)}
            areas = [(names[area], edges) for area, edges in enumerate(landscape.edges())]
            text = features_of(areas, lambda point: [round(x + point[0] * size, 6), round(y + point[1] * size, 6)])
            texts = noded_texts(text, str(x), str(y), str(size), str(size))
            self.same(text, raster, texts)
            _, _, told = reference.load(GEOJSON, texts[0], TABLE)
            self.assertEqual((told.weight, told.links, told.own), (problem.weight, problem.links, problem.own))
            refused += size == 1 and reference.answer(GEOJSON, text, TABLE)[1].startswith(b"refused: coverage Crossing")
        self.assertGreater(refused, 15)

    @unittest.skipUnless(shutil.which("gdal_polygonize.py"), "gdal_polygonize.py is not here")
    def test_gdal_polygonize(self):
        dice = random.Random(4)
        for _ in range(4):
            raster = random_raster(dice).replace("xllcorner 0", "xllcorner 432100").replace("cellsize 1", "cellsize 25")
            with tempfile.TemporaryDirectory() as folder:
                names = [os.path.join(folder, name) for name in ("map.asc", "polygons.geojson", "noded.geojson", "noded.topojson")]
                with open(names[0], "w", encoding="ascii") as file:
                    file.write(raster)
                subprocess.run(["gdal_polygonize.py", "-q", names[0], "-f", "GeoJSON", names[1], "map", "class"], check=True)
                tool = os.path.join(os.path.dirname(os.path.abspath(__file__)), "noded.py")
                for name in names[2:]:
                    subprocess.run([sys.executable, tool, names[1], name, "432100", "0", "25", "25"], check=True, capture_output=True)
                texts = [reference.bytes_of(name) for name in names[2:]]
            self.same(raster, raster.encode(), texts)
            frame = reference.load(TOPOJSON, texts[1], TABLE)[0].frame
            self.assertEqual(frame, ["25", "25", "432100", "0"])


class Slanted(unittest.TestCase):
    def test_no_crossing_and_no_overlap(self):
        """Turned maps of corners alone, whose vertices lie beside the borders by as much as the digits tell."""
        dice = random.Random(6)
        for _ in range(300):
            areas = [(dice.choice("123"), edges) for edges in dealt_pieces(dice)]
            a, b, digits = dice.randint(1, 9), dice.randint(1, 9), dice.choice([2, 4, 7])

            def turned(point):
                return [round((a * point[0] - b * point[1]) * 100 / 7, digits), round((b * point[0] + a * point[1]) * 100 / 7, digits)]

            text = features_of(areas, turned)
            step = dice.choice(["1", "0.5", "0.12"])
            for read_map, told in zip((polygon_maps.read_features, polygon_maps.read_topology), noded_texts(text, "0.3", "0", step, step)):
                names = ("class",) if read_map is polygon_maps.read_features else ("class", None)
                checked = coverage.check(read_map(read(told), *names))
                self.assertEqual([name for name, _ in checked.areas], [name.encode() for name, edges in areas if edges])

    def test_members_and_rings(self):
        ring = "[[0.4,0],[9.6,0.2],[10,10],[0,10],[0.4,0]]"
        text = '{"type":"FeatureCollection","crs":1,"features":[{"type":"Feature","id":7,"properties":{"class":1.50,"n":"\u00e4"},"geometry":'
        text += f'{{"type":"Polygon","coordinates":[{ring},[[5,5],[5.1,5],[5,5.1],[5,5]]]}}}},'
        text += '{"type":"Feature","properties":null,"geometry":null}]}'
        due = '{"type":"FeatureCollection","features":[\n{"type":"Feature","id":7,"properties":{"class":1.50,"n":"\u00e4"},"geometry":'
        due += '{"type":"Polygon","coordinates":[[[0,0],[10,0],[10,10],[0,10],[0,0]]]}},\n'
        due += '{"type":"Feature","properties":null,"geometry":null}\n]}\n'
        self.assertEqual(noded_texts(text.encode(), "0", "0", "1", "1")[0].decode(), due)


if __name__ == "__main__":
    unittest.main()
