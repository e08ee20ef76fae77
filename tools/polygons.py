#!/usr/bin/env python3
"""Writes the patches of a grid as polygons: polygons.py GRID OUT

GRID is an ESRI ASCII grid. Where OUT ends with `.topojson` it is TopoJSON as other programs quantise it: a transform, whole steps, and each
border stored once, as an arc that both sides use. Else it is GeoJSON, whose coordinates are in cells. Each patch is one polygon, with the
value of its cells as the property `class`, in the order of their first cells. Points in the middle of a straight border are left out where
no third patch meets it. So areas, weights and links are those of the grid. It takes no part in any proof.
"""
import os
import sys
from fractions import Fraction

from layout import arcs_of, polygons_of
from random_maps import straight
from reference import GridMap


def thin(arc):
    """An arc without the points in the middle of its straight parts."""
    kept = [arc[0]]
    for point, after in zip(arc[1:], arc[2:]):
        if not straight(kept[-1], point, after):
            kept.append(point)
    return kept + [arc[-1]]


def polygons(landscape):
    """The arcs, thinned, and the polygons of each patch as lists of rings of indexes."""
    edges = landscape.edges()
    arcs = arcs_of(set().union(*edges))
    arc_of = {}
    for place, arc in enumerate(arcs):
        for a, b in zip(arc, arc[1:]):
            arc_of[a, b], arc_of[b, a] = place, -place - 1
    return [thin(arc) for arc in arcs], [polygons_of(own, arcs, arc_of) for own in edges]


def values(landscape):
    """The value of the cells of each patch."""
    found = [None] * landscape.areas
    for place, area in enumerate(landscape.patch):
        if area is not None:
            found[area] = landscape.cells[place]
    return found


def box(landscape, arcs):
    """The corners of all polygons in the units of the grid's corner and cell size."""
    sizes = [Fraction(text) for text in landscape.frame]
    found = []
    for pick in (min, max):
        for axis in (0, 1):
            whole = pick(point[axis] for arc in arcs for point in arc)
            found.append(str(float(sizes[2 + axis] + whole * sizes[axis])))
    return ",".join(found)


def listed(items):
    return "[" + ",".join(items) + "]"


def nested(own, text_of_ring):
    """The kind of geometry and the text of its rings: a polygon where there is one."""
    told = [listed(text_of_ring(ring) for ring in polygon) for polygon in own]
    return ("Polygon", told[0]) if len(told) == 1 else ("MultiPolygon", listed(told))


def arc_text(arc):
    steps = [arc[0]] + [(bx - ax, by - ay) for (ax, ay), (bx, by) in zip(arc, arc[1:])]
    return listed(f"[{x},{y}]" for x, y in steps)


def topology_text(landscape, name):
    arcs, found = polygons(landscape)
    lines = []
    for own, value in zip(found, values(landscape)):
        kind, text = nested(own, lambda ring: listed(map(str, ring)))
        lines.append(f'{{"type":"{kind}","arcs":{text},"properties":{{"class":{value}}}}}')
    wide, high, x, y = landscape.frame
    transform = f'"transform":{{"scale":[{wide},{high}],"translate":[{x},{y}]}}'
    head = f'{{"type":"Topology","bbox":[{box(landscape, arcs)}],{transform},"objects":{{"{name}":'
    head += '{"type":"GeometryCollection","geometries":[\n'
    return head + ",\n".join(lines) + '\n]}},"arcs":[\n' + ",\n".join(map(arc_text, arcs)) + "\n]}\n"


def features_text(landscape):
    arcs, found = polygons(landscape)

    def ring_text(ring):
        paths = [arcs[index] if index >= 0 else arcs[-index - 1][::-1] for index in ring]
        points = [point for path in paths for point in path[:-1]]
        return listed(f"[{x},{y}]" for x, y in points + points[:1])

    lines = []
    for own, value in zip(found, values(landscape)):
        kind, text = nested(own, ring_text)
        lines.append(f'{{"type":"Feature","properties":{{"class":{value}}},"geometry":{{"type":"{kind}","coordinates":{text}}}}}')
    return '{"type":"FeatureCollection","features":[\n' + ",\n".join(lines) + "\n]}\n"


def main():
    if len(sys.argv) != 3:
        sys.exit("polygons.py GRID OUT")
    with open(sys.argv[1], "rb") as file:
        landscape = GridMap(file.read())
    name = os.path.splitext(os.path.basename(sys.argv[2]))[0]
    text = topology_text(landscape, name) if sys.argv[2].endswith(".topojson") else features_text(landscape)
    with open(sys.argv[2], "w", encoding="ascii") as file:
        file.write(text)


if __name__ == "__main__":
    main()
