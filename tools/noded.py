#!/usr/bin/env python3
"""Nodes the polygons of a GeoJSON and rounds them to a grid of whole numbers: noded.py IN OUT X Y DX DY

A point (x, y) becomes the whole numbers nearest to (x - X) / DX and (y - Y) / DY. For polygons that were made of a raster, X and Y are its
lower left corner and DX and DY the sides of a cell, so that the result is in cells.

Every vertex that lies on the edge of another polygon is put into that edge. In full: each edge goes through the middle of each square of
the grid that it passes and in which a vertex lies, in order. So borders that are shared become shared edge by edge, whether or not they
were cut at the same points, and no edge crosses another that did not cross it before. A vertex counts as lying on an edge that misses it by
less than its last digits can tell, where a step of the grid is at least twelve units of the last digit; with fewer it has to lie on it.

Rings that shrink to nothing are left out; a polygon without a ring left has no geometry, which the program counts as passed over. All
properties stay as they are, in the same characters.

Where OUT ends with `.topojson` the result is a topology whose transform says where the grid lies, so that the written map of the program
says it too; else it is GeoJSON in steps of the grid. It says how many polygons, edges and new vertices there are. It takes no part in any
proof.
"""
import collections
import gc
import math
import re
import sys
from bisect import bisect_left, bisect_right
from decimal import Decimal
from fractions import Fraction

from json_tree import ABSENT, JsonFault, member, read, text_of
from polygon_maps import is_list_of, is_ring

# The point that becomes 0 0, the steps along both axes, and all four as they were spelled.
Grid = collections.namedtuple("Grid", "origin step texts")


class Unfit(Exception):
    """The input is not what this tool reads."""


def exact(text):
    """The number that a text spells, exactly."""
    return Fraction(Decimal(text))


def grid_of(words):
    """The grid that four words name; they go into a transform as they are."""
    if not all(re.fullmatch(r"-?(0|[1-9][0-9]*)(\.[0-9]+)?([eE][+-]?[0-9]+)?", word) for word in words):
        raise Unfit("X, Y, DX and DY are numbers as JSON spells them")
    x, y, wide, high = (exact(word) for word in words)
    if wide <= 0 or high <= 0:
        raise Unfit("DX and DY are above 0")
    return Grid((x, y), (wide, high), words)


def rings_of(place, geometry):
    """The rings of each polygon of a geometry."""
    spots, kind = member(geometry, "coordinates"), member(geometry, "type")
    if kind == "Polygon" and is_list_of(spots, is_ring):
        return [spots]
    if kind == "MultiPolygon" and is_list_of(spots, lambda polygon: is_list_of(polygon, is_ring)):
        return spots
    raise Unfit(f"feature {place} is no polygon")


def decimals(text):
    """How many digits a number has behind its point."""
    if "e" in text or "E" in text:
        return max(0, -Decimal(text).as_tuple().exponent)
    return len(text.partition(".")[2])


def shifted(text, digits):
    """The number with its point moved to the right by so many digits, which makes it whole."""
    if "e" in text or "E" in text:
        return int(Decimal(text).scaleb(digits))
    whole, _, behind = text.partition(".")
    return int(whole + behind.ljust(digits, "0"))


class Places:
    """The points of a file as whole numbers in units of the last digit that any of them has."""

    def __init__(self):
        self.known, self.digits = {}, 0

    def read(self, position):
        """Remembers a position and gives its key."""
        key = position[0].text, position[1].text
        if key not in self.known:
            self.known[key] = None
            self.digits = max(self.digits, decimals(key[0]), decimals(key[1]))
        return key

    def whole(self):
        """The point of each key."""
        if self.digits > 40:
            raise Unfit("a coordinate has more than 40 digits behind its point")
        return {key: (shifted(key[0], self.digits), shifted(key[1], self.digits)) for key in self.known}

    def over(self, grid):
        """How points become steps of a grid: for each axis a factor, what is then taken away, and what the rest is over."""
        rules = []
        for start, step in zip(grid.origin, grid.step):
            start, step = start * 10**self.digits, step * 10**self.digits
            factor = start.denominator * step.denominator
            rules.append((factor, start.numerator * step.denominator, start.denominator * step.numerator))
        return rules


def nearest(part, under):
    """The whole number nearest to a fraction, the greater one in the middle of two."""
    return (2 * part + under) // (2 * under)


def bucket_side(squares):
    """A side for which the buckets that are not empty hold few squares."""
    spans = [max(part) - min(part) + 1 for part in zip(*squares)]
    return 1 + math.isqrt(4 * spans[0] * spans[1] // len(squares))


def lined_up(squares, one):
    """For each number that squares have along one axis the numbers that they have along the other, in order."""
    lines = {}
    for square in squares:
        lines.setdefault(square[one], []).append(square[1 - one])
    return lines


class Noder:
    """Puts the vertices that edges pass into them. Points are pairs of whole numbers over `under`; their squares hold the nearest ones.

    A margin is what one unit of the last digit is over `under`. Where it is small, slanted edges pass squares that are greater by one and a
    half such units on each side, since both their ends and the vertex on them may be that much beside their true places.
    """

    def __init__(self, points, under, margins=(0, 0)):
        self.under, self.paths, self.added, self.buckets = under, {}, 0, None
        self.margins = [3 * margin if 12 * margin <= part else 0 for margin, part in zip(margins, under)]
        self.near = {point: (nearest(point[0], under[0]), nearest(point[1], under[1])) for point in points}
        self.squares = sorted(set(self.near.values()))
        self.lines = lined_up(self.squares, 0), lined_up(self.squares, 1)

    def path(self, a, b):
        """The squares along an edge from a to b, both ends included."""
        key = (a, b) if a < b else (b, a)
        if key not in self.paths:
            self.paths[key] = self.made(*key)
            self.added += max(0, len(self.paths[key]) - 2)
        return self.paths[key] if key == (a, b) else self.paths[key][::-1]

    def made(self, a, b):
        first, last = self.near[a], self.near[b]
        for one in (0, 1):
            if a[one] == b[one]:
                return self.straight(first, last, one)
        between = []
        for square in self.near_line(a, b, first, last):
            place = self.slanted_pass(a, b, square)
            if place is not None:
                between.append((place, square))
        path = [first] + [square for _, square in sorted(between)]
        return path + [last] if last != first else path

    def near_line(self, a, b, first, last):
        """The squares with a vertex, but those of both ends, that the line through a slanted edge meets or touches."""
        (ax, ay), wide, high = a, b[0] - a[0], b[1] - a[1]
        under_x, under_y = self.under
        reach = abs(wide) * (under_y + self.margins[1]) + abs(high) * (under_x + self.margins[0])
        for square in self.candidates(first, last):
            aside = 2 * (wide * (square[1] * under_y - ay) - high * (square[0] * under_x - ax))
            if -reach <= aside <= reach and square != first and square != last:
                yield square

    def straight(self, first, last, one):
        """The squares along an edge that is upright or level, where both ends have the same number along this axis."""
        line = self.lines[one][first[one]]
        least, most = sorted((first[1 - one], last[1 - one]))
        told = line[bisect_left(line, least) : bisect_right(line, most)]
        squares = [(first[0], other) if one == 0 else (other, first[1]) for other in told]
        return squares if first <= last else squares[::-1]

    def fill_buckets(self):
        self.side, self.buckets = bucket_side(self.squares), {}
        for square in self.squares:
            self.buckets.setdefault((square[0] // self.side, square[1] // self.side), []).append(square)

    def candidates(self, first, last):
        """The squares with a vertex in the buckets that an edge comes near to."""
        if self.buckets is None:
            self.fill_buckets()
        (ax, ay), (bx, by) = sorted((first, last), key=lambda square: square[1])
        for row in range((ay - 1) // self.side, (by + 1) // self.side + 1):
            low, high = max(ay, row * self.side - 1), min(by, (row + 1) * self.side + 1)
            ends = [ax, bx] if ay == by else [ax + (bx - ax) * (y - ay) / (by - ay) for y in (low, high)]
            for column in range(math.floor(min(ends) - 2) // self.side, math.floor(max(ends) + 2) // self.side + 1):
                yield from self.buckets.get((column, row), ())

    def slanted_pass(self, a, b, square):
        """Where a slanted edge passes a square, which has its lower and left sides alone; None where it does not."""
        least, most, open_least, open_most = Fraction(0), Fraction(1), False, False
        for start, end, middle, under, margin in zip(a, b, square, self.under, self.margins):
            way = 2 * (end - start)
            low = Fraction((2 * middle - 1) * under - margin - 2 * start, way)
            high = Fraction((2 * middle + 1) * under + margin - 2 * start, way)
            bounds = ((low, False), (high, True)) if way > 0 else ((high, True), (low, False))
            if bounds[0][0] >= least:
                open_least = bounds[0][1] or (open_least and bounds[0][0] == least)
                least = bounds[0][0]
            if bounds[1][0] <= most:
                open_most = bounds[1][1] or (open_most and bounds[1][0] == most)
                most = bounds[1][0]
        if least > most or (least == most and (open_least or open_most)):
            return None
        return least + most


def noded_ring(noder, points):
    """A ring with the vertices that its edges pass; None where it shrinks to nothing."""
    ring = []
    for a, b in zip(points, points[1:]):
        for square in noder.path(a, b)[:-1] if noder.near[a] != noder.near[b] else []:
            if not ring or ring[-1] != square:
                ring.append(square)
    return ring + ring[:1] if len(ring) > 2 else None


def read_polygons(tree, places):
    """For each feature its polygons as lists of rings of keys; an empty list where it has no geometry."""
    features = member(tree, "features")
    if member(tree, "type") != "FeatureCollection" or not isinstance(features, list):
        raise Unfit("the file is no collection of features")
    found = []
    for place, feature in enumerate(features):
        geometry = member(feature, "geometry")
        polygons = [] if geometry is None or geometry is ABSENT else rings_of(place, geometry)
        found.append([[[places.read(position) for position in ring] for ring in rings] for rings in polygons])
    return features, found


def mapped(polygons, change):
    """The polygons of all features with each ring changed; rings that become None are left out, and polygons without a ring."""
    told = []
    for own in polygons:
        rings = [[ring for ring in map(change, polygon) if ring is not None] for polygon in own]
        told.append([polygon for polygon in rings if polygon])
    return told


def points_in(polygons):
    return {point for own in polygons for polygon in own for ring in polygon for point in ring}


def noded(tree, grid):
    """The features, for each of them its polygons of rings on the grid, and both noders.

    The first noder puts vertices into edges as exactly as the file's digits tell, the second one rounds to the grid. So a vertex on an edge
    is in it before both are rounded.
    """
    places = Places()
    features, told = read_polygons(tree, places)
    whole = places.whole()
    polygons = mapped(told, lambda ring: [whole[key] for key in ring])
    exactly = Noder(points_in(polygons), (1, 1))
    polygons = mapped(polygons, lambda ring: noded_ring(exactly, ring))
    (wide, left, over_x), (high, low, over_y) = places.over(grid)
    polygons = mapped(polygons, lambda ring: [(x * wide - left, y * high - low) for x, y in ring])
    rounding = Noder(points_in(polygons), (over_x, over_y), (wide, high))
    return features, mapped(polygons, lambda ring: noded_ring(rounding, ring)), (exactly, rounding)


def kept_members(feature, left_out):
    """The members of a feature but those named, as text."""
    return [(name, text_of(tree)) for name, tree in feature.pairs if name not in left_out]


def object_text(pairs):
    return "{" + ",".join(f'{text_of(name)}:{text}' for name, text in pairs) + "}"


def listed(items):
    return "[" + ",".join(items) + "]"


def feature_text(feature, polygons):
    """A feature with its rings in steps of the grid."""
    spots = [listed(listed(f"[{x},{y}]" for x, y in ring) for ring in polygon) for polygon in polygons]
    geometry = f'{{"type":"MultiPolygon","coordinates":{listed(spots)}}}'
    if len(spots) < 2:
        geometry = f'{{"type":"Polygon","coordinates":{spots[0]}}}' if spots else "null"
    return object_text(kept_members(feature, ("geometry", "bbox")) + [("geometry", geometry)])


def features_text(features, polygons):
    lines = ",\n".join(feature_text(feature, own) for feature, own in zip(features, polygons))
    return '{"type":"FeatureCollection","features":[\n' + lines + "\n]}\n"


def arc_text(ring):
    steps = [ring[0]] + [(b[0] - a[0], b[1] - a[1]) for a, b in zip(ring, ring[1:])]
    return listed(f"[{x},{y}]" for x, y in steps)


def topology_text(features, polygons, grid):
    """A topology in which each ring is an arc of its own."""
    arcs, geometries = [], []
    for feature, own in zip(features, polygons):
        told = []
        for polygon in own:
            told.append(listed(f"[{len(arcs) + place}]" for place in range(len(polygon))))
            arcs += map(arc_text, polygon)
        pairs = [("type", '"MultiPolygon"'), ("arcs", listed(told))] if told else [("type", "null")]
        geometries.append(object_text(pairs + kept_members(feature, ("geometry", "bbox", "type"))))
    x, y, wide, high = grid.texts
    transform = f'"transform":{{"scale":[{wide},{high}],"translate":[{x},{y}]}}'
    head = '{"type":"Topology",' + transform + ',"objects":{"map":{"type":"GeometryCollection","geometries":[\n'
    return head + ",\n".join(geometries) + '\n]}},"arcs":[\n' + ",\n".join(arcs) + "\n]}\n"


def main():
    gc.disable()
    if len(sys.argv) != 7:
        sys.exit("noded.py IN OUT X Y DX DY")
    try:
        with open(sys.argv[1], "rb") as file:
            tree = read(file.read())
        grid = grid_of(sys.argv[3:7])
        features, polygons, noders = noded(tree, grid)
    except (Unfit, JsonFault, ArithmeticError) as fault:
        sys.exit(f"noded.py: {fault}")
    text = topology_text(features, polygons, grid) if sys.argv[2].endswith(".topojson") else features_text(features, polygons)
    with open(sys.argv[2], "w", encoding="utf-8") as file:
        file.write(text)
    empty = sum(not own for own in polygons)
    added = sum(noder.added for noder in noders)
    print(f"{len(features)} features, {empty} of them without a ring, {len(noders[0].paths)} edges, {added} vertices put into them")


if __name__ == "__main__":
    main()
