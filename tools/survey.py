#!/usr/bin/env python3
"""Writes a map of polygons as surveys have them, and its class table: survey.py AREAS EDGES SEED MAP TABLE

MAP is GeoJSON, or TopoJSON with shared arcs where its name ends with `.topojson`. It has exactly so many areas and different edges, up to
65,536 and 1,048,576. No two of its points are at one height, no two areas are alike, and where there are a hundred areas or more a few of
them are large: with so many edges as to have thousands of vertices, and with holes. Borders are shared edge by edge and never cross.

The map begins as six-sided faces whose corners are shaken. Faces are joined to areas. Each side that is left becomes a rough line inside a
narrow kite round it, and since kites lie apart, so do the lines. It takes no part in any proof.
"""
import collections
import math
import random
import sys

CORNERS = [(0, 2), (-1, 1), (-1, -1), (0, -2), (1, -1), (1, 1)]
CLASSES = ["forest", "meadow", "field", "orchard", "marsh", "rock", "houses", "works"]
MOST_AREAS, MOST_EDGES, MOST_SPAN = 65536, 1 << 20, (1 << 30) - 1
SHAKEN = 0.12
SLOPE = 0.5

# A chain of sides from node to node, with the areas on its left and on its right, or None outside.
Chain = collections.namedtuple("Chain", "corners left right")
# An area's rings are lists of pairs of an arc and whether it is walked as it is stored, the shell first.
Area = collections.namedtuple("Area", "rings weight")


def large_areas(areas):
    """How many areas are large, and of how many faces each is."""
    return (min(5, areas // 100), max(60, areas // 50)) if areas >= 100 else (0, 0)


class Lattice:
    """Six-sided faces in rows; a corner is a pair of whole numbers."""

    def __init__(self, faces):
        self.columns = math.ceil(math.sqrt(faces * 0.87))
        self.rows = math.ceil(faces / self.columns)
        self.count = self.columns * self.rows
        self.left = {side: face for face in range(self.count) for side in self.sides(face)}
        self.near = [[] for _ in range(self.count)]
        for (a, b), face in self.left.items():
            other = self.left.get((b, a))
            if other is not None:
                self.near[face].append(other)

    def corners(self, face):
        """The corners of a face, against the clock."""
        row, column = divmod(face, self.columns)
        return [(2 * column + row % 2 + x, 3 * row + y) for x, y in CORNERS]

    def sides(self, face):
        corners = self.corners(face)
        return list(zip(corners, corners[1:] + corners[:1]))


def blob(dice, lattice, taken, size):
    """Faces that hang together and are not taken, without some in their middle."""
    start = dice.choice([face for face in range(lattice.count) if face not in taken])
    members, rim = {start}, list(lattice.near[start])
    while rim and len(members) < size:
        at = dice.randrange(len(rim))
        rim[at], rim[-1] = rim[-1], rim[at]
        face = rim.pop()
        if face not in members and face not in taken:
            members.add(face)
            rim += lattice.near[face]
    left_out = set()
    for face in sorted(members):
        around = lattice.near[face]
        if len(around) == 6 and members.issuperset(around) and not left_out.intersection(around) and dice.random() < 0.3:
            left_out.add(face)
    return members - left_out, members


def dealt(dice, lattice, areas):
    """The area of each face: large ones first, then the others joined with neighbours until there are as many as wanted."""
    lead, taken = list(range(lattice.count)), set()
    large = set()
    count, size = large_areas(areas)
    for _ in range(count):
        own, around = blob(dice, lattice, taken, size)
        taken |= around | {other for face in around for other in lattice.near[face]}
        large |= own
        for face in own:
            lead[face] = min(own)
    join(dice, lattice, lead, large, areas)
    numbers = {face: number for number, face in enumerate(sorted({top(lead, face) for face in range(lattice.count)}))}
    return [numbers[top(lead, face)] for face in range(lattice.count)]


def top(lead, face):
    while lead[face] != face:
        lead[face] = lead[lead[face]]
        face = lead[face]
    return face


def join(dice, lattice, lead, large, areas):
    """Joins neighbours at random until so many areas are left; large areas only where nothing else is left to join."""
    pairs = [(face, other) for face in range(lattice.count) for other in lattice.near[face] if face < other]
    dice.shuffle(pairs)
    count = len({top(lead, face) for face in range(lattice.count)})
    for may_be_large in (False, True):
        for face, other in pairs:
            if count <= areas:
                return
            a, b = top(lead, face), top(lead, other)
            if a != b and (may_be_large or not (face in large or other in large)):
                lead[max(a, b)] = min(a, b)
                count -= 1


def chains_of(lattice, area_of):
    """The sides between different areas, joined where no third area meets them."""
    def owner(a, b):
        face = lattice.left.get((a, b))
        return None if face is None else area_of[face]

    beside = {}
    for a, b in lattice.left:
        if owner(a, b) != owner(b, a):
            for one, other in ((a, b), (b, a)):
                if other not in beside.setdefault(one, []):
                    beside[one].append(other)
    chains, used = [], set()
    for start in sorted(beside, key=lambda corner: (len(beside[corner]) == 2, corner)):
        for second in beside[start]:
            if (start, second) not in used:
                chain = [start, second]
                while chain[-1] != start and len(beside[chain[-1]]) == 2:
                    chain.append(next(corner for corner in beside[chain[-1]] if corner != chain[-2]))
                used |= set(zip(chain, chain[1:])) | set(zip(chain[1:], chain))
                chains.append(Chain(chain, owner(start, second), owner(second, start)))
    return chains


class Points:
    """Whole points no two of which are at one height."""

    def __init__(self):
        self.heights = set()

    def at(self, x, y):
        x, y = round(x), round(y)
        while y in self.heights:
            y += 1
        self.heights.add(y)
        return x, y


def shaken_corners(dice, points, lattice, span, corners):
    """The place of each corner in a square of that span."""
    side = span / (2 * max(lattice.columns + 2, lattice.rows + 2))
    found = {}
    for corner in sorted(corners):
        x, y = ((part + 1 + 2 * SHAKEN * (dice.random() - 0.5)) for part in (corner[0], corner[1] * 2 / 3 + 1))
        found[corner] = points.at(x * side, y * side * math.sqrt(0.75))
    return found


def rough_line(dice, points, a, b, pieces):
    """Points from a to b, without b, that never go back and stay inside a kite."""
    (ax, ay), (bx, by) = a, b
    wide, high = bx - ax, by - ay
    line, aside, rough = [a], 0.0, 1.6 / math.sqrt(pieces)
    for at in range(1, pieces):
        part = (at + 0.6 * (dice.random() - 0.5)) / pieces
        reach = SLOPE * min(part, 1 - part)
        aside = max(-reach, min(reach, aside * 0.97 + rough * (dice.random() - 0.5)))
        line.append(points.at(ax + part * wide - aside * high, ay + part * high + aside * wide))
    return line


def shares(dice, parts, total):
    """Whole numbers of one or more, one for each part, with that total."""
    sizes = [0.5 + dice.random() for _ in range(parts)]
    scale = (total - parts) / sum(sizes) if parts else 0
    found = [1 + int(size * scale) for size in sizes]
    for at in range(total - sum(found)):
        found[at % parts] += 1
    return found


def drawn_arcs(dice, lattice, chains, edges):
    """The points of each chain."""
    points = Points()
    span = min(MOST_SPAN, 256 * edges)
    places = shaken_corners(dice, points, lattice, span, {corner for chain in chains for corner in chain.corners})
    sides = sum(len(chain.corners) - 1 for chain in chains)
    pieces = iter(shares(dice, sides, edges))
    arcs = []
    for chain in chains:
        arc = []
        for a, b in zip(chain.corners, chain.corners[1:]):
            arc += rough_line(dice, points, places[a], places[b], next(pieces))
        arcs.append(arc + [places[chain.corners[-1]]])
    return arcs


def twice_area(points):
    """Twice what a list of points adds to the size of the area on its left."""
    return sum(ax * by - bx * ay for (ax, ay), (bx, by) in zip(points, points[1:]))


def areas_of(chains, arcs, count):
    """The rings of each area, with the area on their left."""
    ways = [{} for _ in range(count)]
    for place, chain in enumerate(chains):
        for owner, ahead, start in ((chain.left, True, chain.corners[0]), (chain.right, False, chain.corners[-1])):
            if owner is not None:
                ways[owner][start] = (place, ahead)
    sizes = [twice_area(arc) for arc in arcs]
    areas = []
    for own in ways:
        rings = []
        while own:
            first = next(iter(own))
            corner, ring, size = first, [], 0
            while True:
                place, ahead = own.pop(corner)
                ring.append((place, ahead))
                size += sizes[place] if ahead else -sizes[place]
                corner = chains[place].corners[-1 if ahead else 0]
                if corner == first:
                    break
            rings.append((size, ring))
        rings.sort(key=lambda pair: -pair[0])
        areas.append(Area([ring for _, ring in rings], sum(size for size, _ in rings)))
    return areas


def dealt_classes(dice, chains, count):
    """A class for each area, where it can be another than its neighbours have."""
    near = [set() for _ in range(count)]
    for chain in chains:
        if None not in (chain.left, chain.right):
            near[chain.left].add(chain.right)
            near[chain.right].add(chain.left)
    classes = [None] * count
    for area in range(count):
        free = sorted(set(range(len(CLASSES))) - {classes[other] for other in near[area]})
        classes[area] = dice.choice(free or range(len(CLASSES)))
    return classes


def table_text(dice, areas, arcs):
    """A table in which small areas are too small, and recolouring them costs about as much as their borders."""
    weight = sum(area.weight for area in areas) // len(areas)
    length = 256 * sum(math.dist(a, b) for arc in arcs for a, b in zip(arc, arc[1:])) / len(areas)
    border = max(1, min(10000, round(4 * weight / length)))
    lines = ["classes 1", f"border {border}"]
    lines += [f"class {int(weight * dice.choice([0.7, 1, 1.5, 2]))} {name}" for name in CLASSES]
    for own in range(len(CLASSES)):
        lines.append("row " + " ".join(str(0 if own == other else dice.randint(1, 9)) for other in range(len(CLASSES))))
    return "\n".join(lines) + "\n"


def features_text(areas, classes, arcs):
    """The map as GeoJSON."""
    told = [[f"[{x},{y}]" for x, y in arc] for arc in arcs]
    lines = []
    for area, cls in zip(areas, classes):
        rings = []
        for ring in area.rings:
            spots = [spot for place, ahead in ring for spot in (told[place][:-1] if ahead else told[place][:0:-1])]
            rings.append("[" + ",".join(spots + spots[:1]) + "]")
        geometry = '{"type":"Polygon","coordinates":[' + ",".join(rings) + "]}"
        lines.append(f'{{"type":"Feature","properties":{{"class":"{CLASSES[cls]}"}},"geometry":{geometry}}}')
    return '{"type":"FeatureCollection","features":[\n' + ",\n".join(lines) + "\n]}\n"


def arc_text(arc):
    steps = [arc[0]] + [(bx - ax, by - ay) for (ax, ay), (bx, by) in zip(arc, arc[1:])]
    return "[" + ",".join(f"[{x},{y}]" for x, y in steps) + "]"


def topology_text(areas, classes, arcs):
    """The map as TopoJSON, in centimetres somewhere on a map in metres."""
    lines = []
    for area, cls in zip(areas, classes):
        rings = [[place if ahead else -place - 1 for place, ahead in ring] for ring in area.rings]
        text = str(rings).replace(" ", "")
        lines.append(f'{{"type":"Polygon","properties":{{"class":"{CLASSES[cls]}"}},"arcs":{text}}}')
    head = '{"type":"Topology","transform":{"scale":[0.01,0.01],"translate":[3500000,5400000]},"objects":{"survey":'
    head += '{"type":"GeometryCollection","geometries":[\n'
    return head + ",\n".join(lines) + '\n]}},"arcs":[\n' + ",\n".join(map(arc_text, arcs)) + "\n]}\n"


def made(count, edges, seed):
    """The areas, their classes and the arcs of a map, and its table."""
    dice = random.Random(seed)
    large, size = large_areas(count)
    lattice = Lattice(math.ceil(1.15 * (count + large * size * 2)))
    area_of = dealt(dice, lattice, count)
    chains = chains_of(lattice, area_of)
    least = sum(len(chain.corners) - 1 for chain in chains)
    if edges < least:
        sys.exit(f"survey.py: so many areas have {least} edges at least")
    arcs = drawn_arcs(dice, lattice, chains, edges)
    areas = areas_of(chains, arcs, count)
    return areas, dealt_classes(dice, chains, count), arcs, table_text(dice, areas, arcs)


def main():
    if len(sys.argv) != 6:
        sys.exit("survey.py AREAS EDGES SEED MAP TABLE")
    count, edges, seed = (int(word) for word in sys.argv[1:4])
    if not (1 <= count <= MOST_AREAS and edges <= MOST_EDGES):
        sys.exit(f"survey.py: at most {MOST_AREAS} areas and {MOST_EDGES} edges")
    areas, classes, arcs, table = made(count, edges, seed)
    text = (topology_text if sys.argv[4].endswith(".topojson") else features_text)(areas, classes, arcs)
    for name, told in ((sys.argv[4], text), (sys.argv[5], table)):
        with open(name, "w", encoding="ascii") as file:
            file.write(told)
    largest = max(sum(len(arcs[place]) - 1 for ring in area.rings for place, _ in ring) for area in areas)
    holed = sum(len(area.rings) > 1 for area in areas)
    total = sum(len(arc) - 1 for arc in arcs)
    print(f"{len(areas)} areas, {total} edges, {len(arcs)} arcs; the largest area has {largest} vertices, {holed} have holes")


if __name__ == "__main__":
    main()
