"""The layout of a written map, written apart from the program to compare it with: `map_text(regions, names, frame)`.

A region is the set of its border edges, and an edge a pair of points, the lower one first. It is slow and plain, it proves nothing, and
nothing in the program stands on it.
"""
from fractions import Fraction


def order(point):
    """Points are ordered by y, then by x."""
    return point[1], point[0]


def edge(a, b):
    return (a, b) if order(a) < order(b) else (b, a)


def edge_order(side):
    return order(side[0]), order(side[1])


def steps(ring):
    """The steps from each point of a ring to the next."""
    return list(zip(ring, ring[1:] + ring[:1]))


def middle(side):
    (ax, ay), (bx, by) = side
    return Fraction(ax + bx, 2), Fraction(ay + by, 2)


def is_inside(edges, x, y):
    """Whether the ray from the point to the right crosses an odd number of the edges."""
    crossed = 0
    for (ax, ay), (bx, by) in edges:
        crossed += ay <= y < by and (ax - x) * (by - ay) + (bx - ax) * (y - ay) > 0
    return crossed % 2 == 1


def directed(edges):
    """Each border edge of a region in the direction that has the region on its left."""
    ways = {}
    for low, high in edges:
        x, y = middle((low, high))
        if low[1] < high[1]:
            forward = not is_inside(edges - {(low, high)}, x, y)
        else:
            forward = is_inside(edges, x, y)
        ways[low, high] = (low, high) if forward else (high, low)
    return ways


def turn(back, ahead):
    """How far one turns clockwise from one direction to another, above 0 and up to a whole turn, as a number to order by."""
    along = back[0] * ahead[0] + back[1] * ahead[1]
    right = back[1] * ahead[0] - back[0] * ahead[1]
    if right == 0:
        return (4, 0) if along > 0 else (2, 0)
    return (1 if right > 0 else 3), Fraction(-along, right)


def walk(left, ways):
    """The rings that one walk cuts off, which takes its edges from those that are left."""
    first = min(left, key=edge_order)
    left.discard(first)
    before, at = ways[first]
    path, rings = [before], []
    while True:
        if at in path:
            place = path.index(at)
            rings.append(path[place:])
            path = path[: place + 1]
        else:
            path.append(at)
        back = before[0] - at[0], before[1] - at[1]
        open_edges = [e for e in left if ways[e][0] == at]
        if not open_edges:
            return rings
        taken = min(open_edges, key=lambda e: turn(back, (ways[e][1][0] - at[0], ways[e][1][1] - at[1])))
        left.discard(taken)
        before, at = ways[taken]


def rings_of(edges):
    """The rings of a region."""
    ways, left, rings = directed(edges), set(edges), []
    while left:
        rings += walk(left, ways)
    return rings


def chain_from(start, second, beside, nodes):
    """The border edges from a point on, as far as the next node or round to the start."""
    chain = [start, second]
    while chain[-1] not in nodes and chain[-1] != start:
        one, other = beside[chain[-1]]
        chain.append(other if one == chain[-2] else one)
    return chain


def arcs_of(edges):
    """The arcs of all border edges, in order."""
    beside = {}
    for a, b in edges:
        beside.setdefault(a, []).append(b)
        beside.setdefault(b, []).append(a)
    nodes = {point for point, others in beside.items() if len(others) != 2}
    arcs = set()
    for node in nodes:
        for second in beside[node]:
            chain = chain_from(node, second, beside, nodes)
            ahead, behind = (chain[1], chain[-2]) if chain[0] == chain[-1] else (chain[0], chain[-1])
            arcs.add(tuple(chain if order(ahead) < order(behind) else chain[::-1]))
    used = {edge(a, b) for arc in arcs for a, b in zip(arc, arc[1:])}
    for point in sorted(beside, key=order):
        if point not in nodes and edge(point, beside[point][0]) not in used:
            arc = chain_from(point, min(beside[point], key=order), beside, nodes)
            arcs.add(tuple(arc))
            used |= {edge(a, b) for a, b in zip(arc, arc[1:])}
    return sorted(arcs, key=lambda arc: [order(point) for point in arc])


def number(index):
    return index if index >= 0 else -index - 1


def indexes_of(ring, arcs, arc_of):
    """The indexes of the arcs round a ring, from the arc of least number on."""
    told = [arc_of[step] for step in steps(ring)]
    least = min(told, key=number)
    place = ring.index(arcs[least][0] if least >= 0 else arcs[-least - 1][-1])
    told = told[place:] + told[:place]
    indexes, at = [], 0
    while at < len(told):
        indexes.append(told[at])
        at += len(arcs[number(told[at])]) - 1
    return indexes


def twice_area(ring):
    return sum(ax * by - bx * ay for (ax, ay), (bx, by) in steps(ring))


def shell_of(hole, shells):
    """The number of the shell of least area that holds the middle of the hole's least edge; None where there is none."""
    x, y = middle(min((edge(a, b) for a, b in steps(hole)), key=edge_order))
    round_it = []
    for place, (indexes, shell) in enumerate(shells):
        if is_inside({edge(a, b) for a, b in steps(shell)}, x, y):
            round_it.append((twice_area(shell), number(indexes[0]), place))
    return min(round_it)[2] if round_it else None


def polygons_of(edges, arcs, arc_of):
    """The polygons of a region, each with its shell first, as lists of indexes."""
    rings = [(indexes_of(ring, arcs, arc_of), ring) for ring in rings_of(edges)]
    shells = [pair for pair in rings if twice_area(pair[1]) > 0]
    polygons = [[indexes] for indexes, _ in shells]
    for indexes, ring in rings:
        if twice_area(ring) <= 0:
            place = shell_of(ring, shells)
            if place is None:
                polygons.append([indexes])
            else:
                polygons[place].append(indexes)
    for polygon in polygons:
        polygon[1:] = sorted(polygon[1:], key=lambda hole: number(hole[0]))
    return sorted(polygons, key=lambda polygon: number(polygon[0][0]))


def listed(items):
    return "[" + ",".join(items) + "]"


def arc_text(arc, relative):
    points = [arc[0]] + [(b[0] - a[0], b[1] - a[1]) for a, b in zip(arc, arc[1:])] if relative else arc
    return listed(f"[{x},{y}]" for x, y in points)


def map_text(regions, names, frame):
    """The bytes of the written map; the frame has the four texts of a transform, or is None."""
    arcs = arcs_of(set().union(*regions))
    arc_of = {}
    for place, arc in enumerate(arcs):
        for a, b in zip(arc, arc[1:]):
            arc_of[a, b], arc_of[b, a] = place, -place - 1
    geometries = []
    for place, (edges, name) in enumerate(zip(regions, names)):
        polygons = polygons_of(edges, arcs, arc_of)
        text = listed(listed(listed(map(str, ring)) for ring in polygon) for polygon in polygons)
        name = name.replace("\\", "\\\\").replace('"', '\\"')
        geometries.append(f'{{"type":"MultiPolygon","id":{place},"properties":{{"class":"{name}"}},"arcs":{text}}}')
    scale = '"transform":{{"scale":[{},{}],"translate":[{},{}]}},'.format(*frame) if frame else ""
    head = '{"type":"Topology",' + scale + '"objects":{"regions":{"type":"GeometryCollection","geometries":'
    return (head + listed(geometries) + '}},"arcs":' + listed(arc_text(arc, frame) for arc in arcs) + "}\n").encode()
