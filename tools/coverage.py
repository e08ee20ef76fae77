"""The coverage check and the measures of areas, by their definitions: `check(coverage)`, `weight_of(edges)`, `links_of(areas, unit)`.

Areas are pairs of a class text and a set of edges; an edge is a pair of points, the lower one first. It is slow and plain, written apart from
the program to compare it with, and proves nothing.
"""
import math
from fractions import Fraction

from layout import edge_order, order
from polygon_maps import Coverage, Refused


def across(a, b):
    return a[0] * b[1] - a[1] * b[0]


def less(a, b):
    """The way from b to a."""
    return a[0] - b[0], a[1] - b[1]


def on_one_line(e, f):
    """Where two edges of one line meet without being an end of both, the lowest such end; None where they do not."""
    low, high = max(e[0], f[0], key=order), min(e[1], f[1], key=order)
    if order(low) > order(high):
        return None
    for point in (low, high):
        if not (point in e and point in f):
            return point[0], point[1], 1
    return None


def meet(e, f):
    """The spot where two edges meet without being an end of both, as x, y and what both are over; None where there is none."""
    along, other, between = less(e[1], e[0]), less(f[1], f[0]), less(f[0], e[0])
    turn = across(along, other)
    if turn == 0:
        return on_one_line(e, f) if across(along, between) == 0 else None
    part, other_part = across(between, other), across(between, along)
    if turn < 0:
        turn, part, other_part = -turn, -part, -other_part
    if not (0 <= part <= turn and 0 <= other_part <= turn):
        return None
    if part in (0, turn) and other_part in (0, turn):
        return None
    return lowest(e[0][0] * turn + along[0] * part, e[0][1] * turn + along[1] * part, turn)


def lowest(x, y, under):
    """A spot in lowest terms."""
    shared = math.gcd(x, y, under)
    return x // shared, y // shared, under // shared


def edge_text(side):
    return " ".join(str(part) for point in side for part in point)


def spot_text(spot):
    return "at " + " ".join(map(str, spot))


def first_crossing(edges):
    """The first pair of edges that meet, with their spot; None where no two do. The edges are in order."""
    spans = [(low[1], high[1], min(low[0], high[0]), max(low[0], high[0])) for low, high in edges]
    for at, e in enumerate(edges):
        _, top, left, right = spans[at]
        for place in range(at + 1, len(edges)):
            low, _, other_left, other_right = spans[place]
            if low > top:
                break
            if other_left <= right and left <= other_right:
                spot = meet(e, edges[place])
                if spot is not None:
                    return e, edges[place], spot
    return None


def owners_of(areas):
    """The areas of each edge that is odd somewhere, in order of areas."""
    owners = {}
    for area, (_, edges) in enumerate(areas):
        for side in edges:
            owners.setdefault(side, []).append(area)
    return owners


def crossed_at(side, height):
    """Where an edge crosses a level line."""
    (ax, ay), (bx, by) = side
    return ax + Fraction(bx - ax, by - ay) * (height - ay)


def doubled_on(height, edges, owners):
    """The point of least x on a level line that lies in two areas, and the least two of them; None where there is none."""
    ends = sorted((crossed_at(side, height), area) for side in edges for area in owners[side])
    inside = set()
    for at, (x, area) in enumerate(ends):
        inside ^= {area}
        if len(inside) > 1 and (at + 1 == len(ends) or ends[at + 1][0] != x):
            a, b = sorted(inside)[:2]
            return x, a, b
    return None


def first_overlap(owners):
    """The spot of the lowest mid-line that lies in two areas, and these; None where no two areas overlap."""
    rising = sorted((side for side in owners if side[0][1] < side[1][1]), key=edge_order)
    heights = sorted({point[1] for side in owners for point in side})
    active, at = [], 0
    for low, high in zip(heights, heights[1:]):
        active = [side for side in active if side[1][1] > low]
        while at < len(rising) and rising[at][0][1] == low:
            active.append(rising[at])
            at += 1
        height = Fraction(low + high, 2)
        found = doubled_on(height, active, owners)
        if found is not None:
            x, a, b = found
            under = math.lcm(x.denominator, height.denominator)
            return a, b, lowest(int(x * under), int(height * under), under)
    return None


def check(coverage):
    """The coverage without the areas that have no odd edge, which count as passed over; or `Refused`."""
    areas = [area for area in coverage.areas if area[1]]
    owners = owners_of(areas)
    edges = sorted(owners, key=edge_order)
    crossing = first_crossing(edges)
    if crossing is not None:
        e, f, spot = crossing
        raise Refused(f"coverage Crossing {edge_text(e)} {edge_text(f)} {spot_text(spot)}")
    for side in edges:
        if len(owners[side]) > 2:
            raise Refused(f"coverage Shared {edge_text(side)}")
    overlap = first_overlap(owners)
    if overlap is not None:
        a, b, spot = overlap
        raise Refused(f"coverage Overlap {a} {b} {spot_text(spot)}")
    return Coverage(areas, coverage.passed + len(coverage.areas) - len(areas), coverage.frame)


def crosses(side, x, y):
    """Whether the ray to the right from the middle of x and y, which are doubled, crosses the edge."""
    (ax, ay), (bx, by) = side
    return 2 * ay <= y < 2 * by and (2 * ax - x) * (by - ay) + (bx - ax) * (y - 2 * ay) > 0


def weight_of(edges):
    """Twice the size of an area: each rising edge counts with the sign that says whether the area is to its left."""
    rising = sorted((side for side in edges if side[0][1] < side[1][1]), key=edge_order)
    total = 0
    for (ax, ay), (bx, by) in rising:
        crossed = 0
        for side in rising:
            if 2 * side[0][1] > ay + by:
                break
            crossed += side != ((ax, ay), (bx, by)) and crosses(side, ax + bx, ay + by)
        total += (ax + bx) * (by - ay) * (1 if crossed % 2 == 0 else -1)
    return total


def length_of(side, unit):
    """The length of an edge in 1/256 units, rounded down."""
    (ax, ay), (bx, by) = side
    return math.isqrt(65536 * ((unit[0] * (bx - ax)) ** 2 + (unit[1] * (by - ay)) ** 2))


def links_of(areas, unit):
    """The length of each link by its pair of areas, the lesser first."""
    links = {}
    for side, pair in owners_of(areas).items():
        if len(pair) == 2:
            links[tuple(pair)] = links.get(tuple(pair), 0) + length_of(side, unit)
    return links
