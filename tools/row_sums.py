"""What leaves of a tree prove, by their definitions: `sound(model, domains, leaf)` and `value(model, domains, leaf)`.

A model has lists: own classes, weights, links as triples of two areas and a length in rising order, distances row by row, thresholds, and the
border weight. Domains are one set of classes for each area. Leaves and rows are those of `certificates`. Slow and plain, written apart from
the program to compare it with; it proves nothing.
"""
import collections

from certificates import FIXED, Border

LEAST, MOST = -(1 << 127), (1 << 127) - 1
Model = collections.namedtuple("Model", "own weight links distance threshold border")


class Weak(Exception):
    """A leaf proves nothing: its name and fields, as `Wide choice 0 1` or `NotVoid -3`."""


def model_of(problem):
    """The model of a problem of `reference`."""
    table = problem.table
    links = [(a, b, length) for (a, b), length in sorted(problem.links.items())]
    return Model(problem.own, problem.weight, links, table.rows, table.thresholds, table.border)


def whole_domains(model):
    """All classes for each area."""
    return [set(range(len(model.threshold))) for _ in model.own]


def neighbours(model, members):
    """The areas outside a set that are linked to one inside, in order."""
    found = {b for a, b, _ in model.links if a in members} | {a for a, b, _ in model.links if b in members}
    return sorted(found - set(members))


def in_form(model, row):
    """Whether a row holds for every feasible grouping by its form alone."""
    areas, classes = len(model.own), len(model.threshold)
    if isinstance(row, Border):
        return row.link < len(model.links) and row.cls < classes and row.side in (0, 1)
    if row.area >= areas or row.cls >= classes or any(member >= areas for member in row.members) or row.area not in row.members:
        return False
    if not all(a < b for a, b in zip(row.members, row.members[1:])):
        return False
    owned = any(model.own[member] == row.cls for member in row.members)
    return not owned or sum(model.weight[member] for member in row.members) < model.threshold[row.cls]


def sound(model, domains, leaf):
    """None, or the first thing that makes a leaf unsound, as `Row 2`."""
    if leaf == FIXED:
        open_areas = [area for area, classes in enumerate(domains) if len(classes) != 1]
        return f"NotFixed {open_areas[0]}" if open_areas else None
    if not 1 <= leaf.denominator <= 4096 or (leaf.void and leaf.denominator != 1):
        return "Denominator"
    for place, row in enumerate(leaf.rows):
        if not in_form(model, row):
            return f"Row {place}"
        if row.multiplier < 0:
            return f"Negative {place}"
    return None


def entries(model, row):
    """The places that a row speaks of with their coefficients, in order: a link, or an area and a class."""
    if isinstance(row, Border):
        a, b, _ = model.links[row.link]
        u, v = (a, b) if row.side == 0 else (b, a)
        return [(("across", row.link), 1), (("choice", u, row.cls), -1), (("choice", v, row.cls), 1)]
    return [(("choice", row.area, row.cls), -1)] + [(("choice", s, row.cls), 1) for s in neighbours(model, row.members)]


def fits(number, *entry):
    """The number, or `Weak` where it has no place in 128 bits."""
    if not LEAST <= number <= MOST:
        raise Weak("Wide " + " ".join(map(str, entry)))
    return number


def left_of(model, leaf):
    """What is left of each cost after all rows, by place."""
    q = 0 if leaf.void else leaf.denominator
    left = {}
    for area, own in enumerate(model.own):
        for cls, distance in enumerate(model.distance[own]):
            left["choice", area, cls] = q * model.weight[area] * distance
    for link, (_, _, length) in enumerate(model.links):
        left["across", link] = q * model.border * length
    for row in leaf.rows:
        for place, coefficient in entries(model, row):
            left[place] = fits(left[place] - row.multiplier * coefficient, *place)
    return left


def sum_value(model, domains, leaf):
    left, total = left_of(model, leaf), 0
    for area, classes in enumerate(domains):
        total = fits(total + min(left["choice", area, cls] for cls in classes), "total-area", area)
    for link in range(len(model.links)):
        total = fits(total + min(0, left["across", link]), "total-link", link)
    if not leaf.void:
        return -(-total // leaf.denominator)
    if total < 1:
        raise Weak(f"NotVoid {total}")
    return None


def components(model, classes):
    """The areas that hang together along links between areas of one class."""
    found, seen = [], set()
    for first in range(len(classes)):
        if first in seen:
            continue
        members, todo = {first}, [first]
        while todo:
            area = todo.pop()
            near = [b for a, b, _ in model.links if a == area] + [a for a, b, _ in model.links if b == area]
            for other in near:
                if classes[other] == classes[area] and other not in members:
                    members.add(other)
                    todo.append(other)
        seen |= members
        found.append(members)
    return found


def fixed_value(model, domains):
    classes = [min(allowed) for allowed in domains]
    for members in components(model, classes):
        cls = classes[min(members)]
        if all(model.own[area] != cls for area in members) or sum(model.weight[area] for area in members) < model.threshold[cls]:
            return None
    cost = sum(weight * model.distance[own][cls] for weight, own, cls in zip(model.weight, model.own, classes))
    return cost + model.border * sum(length for a, b, length in model.links if classes[a] != classes[b])


def value(model, domains, leaf):
    """The bound that a sound leaf proves, None where it proves that there is no grouping; or `Weak`."""
    return fixed_value(model, domains) if leaf == FIXED else sum_value(model, domains, leaf)
