"""Random maps of polygons to compare with: `random_map(dice, form, changing)` gives a text and what is asked of it.

A map begins as a small lattice of squares, some cut by a diagonal, whose pieces are dealt to areas; so areas may have holes and several
parts, touch themselves at points, and share borders. The lattice is slanted and shifted, its borders are cut into arcs, and the arcs are
walked to closed rings in a random order. Now and then an area is laid over others, or a point is moved. All is then spelled as a topology
with shared arcs or as features with rings, in many ways that mean the same, and in a few that are refused. It takes no part in any proof.
"""
import collections
import copy

from command_words import Asked
from json_tree import Members, Number, string_text
from layout import edge

FAR = 1 << 30
CLASSES = ["1", "2", "3", "0", "7", "5", "-4", "a b", "-9999", '\u00fc"\\']
STRANGE = [None, True, False, "", "Polygon", "7", [], [[]], Members([])]
STRANGE += [Number(text) for text in ("0", "-1", "7.5", "1e0", "2E+1", "-0.0", "1073741825", "-1073741824", "3.000", "0.0001")]
STRANGE += [Number("9223372036854775808"), Number("1" + "0" * 40)]
SCALES = ["1", "25", "0.0036000360003600037", "1.0", "1e-5", "-0.5E+3", "0", "123456789012345678901234567890"]

# A ring is a list of pairs of an arc's number and whether it is walked as it is stored.
Drawn = collections.namedtuple("Drawn", "arcs areas")


def dealt_pieces(dice):
    """The edges of each area on a lattice of squares; sometimes the first area goes round all others."""
    around = dice.random() < 0.25
    columns, rows = (dice.randint(3 if around else 1, 4) for _ in range(2))
    count = dice.randint(1, 5)
    areas = [set() for _ in range(count)]
    label = None
    for x in range(columns):
        for y in range(rows):
            for piece in pieces_of(dice, x, y):
                label = label if dice.random() < 0.4 else dice.choice([None] + list(range(count)))
                if around and (x in (0, columns - 1) or y in (0, rows - 1)):
                    label = 0
                if label is not None:
                    areas[label] ^= {edge(a, b) for a, b in zip(piece, piece[1:] + piece[:1])}
    return areas


def pieces_of(dice, x, y):
    """A square of the lattice, or its two triangles."""
    corners = [(x, y), (x + 1, y), (x + 1, y + 1), (x, y + 1)]
    if dice.random() < 0.65:
        return [corners]
    turned = corners[1:] + corners[:1] if dice.random() < 0.5 else corners
    return [turned[:3], [turned[0]] + turned[2:]]


def slanted(dice, areas):
    """The same areas after a change of the axes that keeps lines straight."""
    while True:
        a, b, c, d = (dice.choice([0, 1, 1, 2, -1, -3, 7]) for _ in range(4))
        if a * d != b * c:
            break
    size = dice.choice([1, 1, 1, 1000, FAR // 100])
    shift = [dice.choice([0, 0, 5, -1000, FAR - 20, -FAR]) for _ in range(2)] if dice.random() < 0.3 else [0, 0]

    def moved(point):
        x, y = point
        return size * (a * x + b * y) + shift[0], size * (c * x + d * y) + shift[1]

    return [{edge(*map(moved, side)) for side in area} for area in areas]


def beside_of(areas):
    """The points that each point is joined to."""
    beside = {}
    for a, b in sorted(set().union(*areas)):
        beside.setdefault(a, []).append(b)
        beside.setdefault(b, []).append(a)
    return beside


def chains_of(dice, areas):
    """The borders of all areas, cut where they meet and at some more points."""
    beside = beside_of(areas)
    nodes = {point for point, others in beside.items() if len(others) != 2 or dice.random() < 0.15}
    chains, used = [], set()
    for start in sorted(beside, key=lambda point: (point not in nodes, point)):
        for second in beside[start]:
            if edge(start, second) in used:
                continue
            nodes.add(start)
            chain = [start, second]
            while chain[-1] not in nodes:
                chain.append(next(point for point in beside[chain[-1]] if point != chain[-2]))
            used |= {edge(a, b) for a, b in zip(chain, chain[1:])}
            chains.append(chain if dice.random() < 0.5 else chain[::-1])
    dice.shuffle(chains)
    return chains


def straight(a, b, c):
    return (b[0] - a[0]) * (c[1] - a[1]) == (c[0] - a[0]) * (b[1] - a[1])


def thinned(dice, chain):
    """The chain without some of the points that lie on a straight line."""
    if dice.random() < 0.5:
        return chain
    kept = [chain[0]]
    for point, after in zip(chain[1:], chain[2:]):
        if not straight(kept[-1], point, after) or dice.random() < 0.1:
            kept.append(point)
    return kept + [chain[-1]]


def trails(dice, ends, arcs):
    """Closed walks along each of the arcs once; an arc is joined to others at its ends."""
    left, found = list(arcs), []
    while left:
        arc = left.pop(dice.randrange(len(left)))
        ring = [(arc, True)]
        start, at = ends[arc]
        while at != start or dice.random() < 0.3:
            nearby = [arc for arc in left if at in ends[arc]]
            if not nearby:
                break
            arc = dice.choice(nearby)
            left.remove(arc)
            ahead = ends[arc][0] == at
            ring.append((arc, ahead))
            at = ends[arc][1 if ahead else 0]
        turn = dice.randrange(len(ring))
        ring = ring[turn:] + ring[:turn]
        found.append(ring if dice.random() < 0.5 else [(arc, not ahead) for arc, ahead in reversed(ring)])
    return found


def drawn_map(dice):
    """Arcs, and for each area its rings."""
    areas = slanted(dice, dealt_pieces(dice))
    chains = chains_of(dice, areas)
    ends = [(chain[0], chain[-1]) for chain in chains]
    rings = []
    for area in areas:
        own = [place for place, chain in enumerate(chains) if edge(chain[0], chain[1]) in area]
        rings.append(trails(dice, ends, own))
    arcs = [thinned(dice, chain) for chain in chains]
    if dice.random() < 0.12:
        lay_over(dice, arcs, rings)
    if dice.random() < 0.06 and arcs:
        move_point(dice, arcs)
    return Drawn(arcs, rings)


def lay_over(dice, arcs, rings):
    """Adds one or two areas over another, at its place or beside it."""
    below = dice.choice(rings)
    for _ in range(dice.choice([1, 1, 2])):
        shift = dice.choice([(0, 0), (0, 0), (1, 0), (2, 3)])
        first = len(arcs)
        told = sorted({arc for ring in below for arc, _ in ring})
        arcs += [[(x + shift[0], y + shift[1]) for x, y in arcs[arc]] for arc in told]
        number = {arc: first + place for place, arc in enumerate(told)}
        rings.insert(dice.randint(0, len(rings)), [[(number[arc], ahead) for arc, ahead in ring] for ring in below])


def move_point(dice, arcs):
    """Moves a point wherever it occurs in one arc."""
    arc = dice.choice(arcs)
    old = dice.choice(arc)
    new = (old[0] + dice.randint(-2, 2), old[1] + dice.randint(-2, 2))
    arc[:] = [new if point == old else point for point in arc]


def number_tree(dice, value):
    """A number as a tree, spelled in one of the ways that mean it; rarely in one that is refused."""
    pick = dice.random()
    if pick < 0.9:
        return Number("-0" if value == 0 and pick < 0.02 else str(value))
    if pick < 0.9995:
        return Number(f"{value}." + "0" * dice.randint(1, 4))
    return Number(dice.choice([f"{value}e0", f"{value}.5", f"{value}E+2", f"{value}.01"]))


def position_tree(dice, point):
    behind = [dice.choice(STRANGE)] if dice.random() < 0.03 else []
    return [number_tree(dice, point[0]), number_tree(dice, point[1])] + behind


def class_tree(dice):
    """The value of the class member."""
    name = dice.choice(CLASSES[:4]) if dice.random() < 0.7 else dice.choice(CLASSES)
    if dice.random() < 0.01:
        return dice.choice(STRANGE + ["x" * 100, "x" * 101, "\u00e4" * 50, "\u00e4" * 51])
    return number_tree(dice, int(name)) if name.lstrip("-").isdigit() and dice.random() < 0.4 else name


def strange_tree(dice):
    """A value that nothing asks for; rarely one that is nested deeply."""
    if dice.random() < 0.01:
        tree = []
        for _ in range(dice.randint(55, 64)):
            tree = [tree]
        return tree
    return copy.deepcopy(dice.choice(STRANGE))


def members(dice, pairs):
    """An object with these members in some order, sometimes with others, and sometimes with one that a later one of its name undoes."""
    pairs = list(pairs)
    dice.shuffle(pairs)
    for _ in range(2):
        if dice.random() < 0.1:
            name = dice.choice(["bbox", "id", "crs", "name", "\u00fc", "properties "])
            pairs.insert(dice.randint(0, len(pairs)), (name, strange_tree(dice)))
    if dice.random() < 0.04 and pairs:
        name = dice.choice(pairs)[0]
        pairs.insert(0, (name, strange_tree(dice)))
    return Members(pairs)


def properties_tree(dice, class_name):
    return members(dice, [(class_name, class_tree(dice))])


def grouped(dice, rings):
    """The rings dealt to polygons, as the kind of geometry and its lists."""
    if dice.random() < 0.5:
        return "Polygon", rings
    polygons = []
    for ring in rings:
        if not polygons or dice.random() < 0.5:
            polygons.append([])
        polygons[-1].append(ring)
    return "MultiPolygon", polygons


def arc_tree(dice, points, relative):
    """An arc's positions, relative where there is a transform; sometimes a point is said twice."""
    told, before = [], (0, 0)
    for point in points:
        for _ in range(2 if dice.random() < 0.03 else 1):
            told.append(position_tree(dice, (point[0] - before[0], point[1] - before[1]) if relative else point))
            before = point
    return told


def stored_arcs(dice, drawn):
    """The arcs as they are stored, and the indexes at which each one can be told with the way it is stored there."""
    stored, homes = [], []
    for points in drawn.arcs:
        homes.append([])
        for _ in range(2 if dice.random() < 0.1 else 1):
            ahead = dice.random() < 0.7
            homes[-1].append((len(stored), ahead))
            stored.append(points if ahead else points[::-1])
    return stored, homes


def geometry_tree(dice, drawn, homes, rings, class_name):
    """The geometry of one area."""
    if dice.random() < 0.04:
        return dice.choice([None, members(dice, [("type", None)])])
    told = []
    for ring in rings:
        told.append([])
        for arc, ahead in ring:
            index, stored_ahead = dice.choice(homes[arc])
            if dice.random() < 0.003:
                index = dice.choice([sum(map(len, homes)), index + 1])
            told[-1].append(number_tree(dice, index if ahead == stored_ahead else -index - 1))
    kind, lists = grouped(dice, told)
    return members(dice, [("type", kind), ("arcs", lists), ("properties", properties_tree(dice, class_name))])


def topology_tree(dice, drawn, class_name, object_name):
    """The map as a topology whose object has this name."""
    stored, homes = stored_arcs(dice, drawn)
    relative = dice.random() < 0.6
    arcs = [arc_tree(dice, points, relative) for points in stored]
    geometries = [geometry_tree(dice, drawn, homes, rings, class_name) for rings in drawn.areas]
    chosen = members(dice, [("type", "GeometryCollection"), ("geometries", geometries)])
    if len(geometries) == 1 and dice.random() < 0.5:
        chosen = geometries[0]
    objects = [(object_name, chosen)]
    if dice.random() < 0.1:
        objects.insert(0, (object_name, strange_tree(dice)))
    pairs = [("type", "Topology"), ("objects", Members(objects)), ("arcs", arcs)]
    if relative:
        texts = [Number(dice.choice(SCALES)) for _ in range(4)]
        pairs.append(("transform", Members([("scale", texts[:2]), ("translate", texts[2:])])))
    return members(dice, pairs)


def points_of(drawn, ring):
    """The points of a ring, without the first one again."""
    points = []
    for arc, ahead in ring:
        points += (drawn.arcs[arc] if ahead else drawn.arcs[arc][::-1])[:-1]
    return points


def ring_tree(dice, points):
    """The positions of a ring from some point on; sometimes a point is said twice, or there is a way out and back."""
    turn = dice.randrange(len(points))
    points = points[turn:] + points[:turn]
    if dice.random() < 0.05:
        place = dice.randrange(len(points))
        x, y = points[place]
        points[place:place] = [(x, y)] if dice.random() < 0.5 else [(x, y), (x + 1, y + 3)]
    closed = points + points[:1]
    if dice.random() < 0.01:
        closed = dice.choice([points, closed[:3], closed[:-1] + [(points[0][0], points[0][1] + 1)], points[:1]])
    return [position_tree(dice, point) for point in closed]


def feature_tree(dice, drawn, rings, class_name):
    """The feature of one area."""
    kind, lists = grouped(dice, [points_of(drawn, ring) for ring in rings])
    if kind == "Polygon":
        told = [ring_tree(dice, ring) for ring in lists]
    else:
        told = [[ring_tree(dice, ring) for ring in polygon] for polygon in lists]
    pairs = [("type", "Feature"), ("properties", properties_tree(dice, class_name))]
    pick = dice.random()
    if pick > 0.02:
        pairs.append(("geometry", None if pick < 0.04 else members(dice, [("type", kind), ("coordinates", told)])))
    return members(dice, pairs)


def features_tree(dice, drawn, class_name):
    features = [feature_tree(dice, drawn, rings, class_name) for rings in drawn.areas]
    return members(dice, [("type", "FeatureCollection"), ("features", features)])


def changed_tree(dice, tree):
    """Changes the tree at a random place, mostly one that lies deep in it."""
    while True:
        items = tree.pairs if isinstance(tree, Members) else tree
        below = [item[1] for item in items] if isinstance(tree, Members) else items
        deeper = [place for place, item in enumerate(below) if isinstance(item, (list, Members))]
        if not deeper or dice.random() < 0.15:
            break
        tree = below[dice.choice(deeper)]
    if items:
        place = dice.randrange(len(items))
        change_item(dice, items, place, below[place], isinstance(tree, Members))


def change_item(dice, items, place, below, named):
    """Leaves an item out, says it twice, or puts another value in its place."""
    pick = dice.random()
    if pick < 0.2:
        del items[place]
    elif pick < 0.3:
        items.insert(dice.randint(0, len(items)), copy.deepcopy(items[place]))
    else:
        if isinstance(below, Number) and pick < 0.6 and below.text.lstrip("-").isdigit():
            value = number_tree(dice, int(below.text) + dice.choice([-1, 1, 3, FAR]))
        else:
            value = strange_tree(dice)
        items[place] = (items[place][0], value) if named else value


def string_spelled(dice, text):
    """A string, some of whose characters are spelled by escapes."""
    if dice.random() > 0.05:
        return string_text(text)
    units = [text.encode("utf-16-be")[at : at + 2] for at in range(0, len(text.encode("utf-16-be")), 2)]
    return '"' + "".join("\\u" + (unit.hex() if dice.random() < 0.5 else unit.hex().upper()) for unit in units) + '"'


def spelled(dice, tree, space):
    """The tree's text, with white space between its tokens where `space` asks for it."""
    def gap():
        return dice.choice(["", " ", "\n", "\t", "\r\n  "]) if space else ""

    if isinstance(tree, Number):
        return tree.text
    if isinstance(tree, str):
        return string_spelled(dice, tree)
    if isinstance(tree, list):
        return "[" + gap() + ("," + gap()).join(spelled(dice, item, space) + gap() for item in tree) + "]"
    if isinstance(tree, Members):
        told = [string_spelled(dice, name) + gap() + ":" + gap() + spelled(dice, value, space) for name, value in tree.pairs]
        return "{" + gap() + ("," + gap()).join(text + gap() for text in told) + "}"
    return {None: "null", True: "true", False: "false"}[tree]


def text_spelled(dice, tree):
    space = dice.random() < 0.3
    text = spelled(dice, tree, space).encode()
    return (b"\xef\xbb\xbf" if dice.random() < 0.05 else b"") + text + dice.choice([b"", b"\n", b" \r\n"])


def names_asked(dice, form):
    """The names of the class member and of the object in the map, and what is asked for, which is nearly always the same."""
    class_name = "class" if dice.random() < 0.7 else dice.choice(["DN", "k", "\u043a\u043b\u0430\u0441\u0441", "a b"])
    object_name = dice.choice(["t", "regions", "\u00e9", "a b"])
    asked_class = class_name if dice.random() < 0.98 else "other"
    asked_object = None
    if form == "topojson" and dice.random() < 0.3:
        asked_object = object_name if dice.random() < 0.95 else "other"
    return class_name, object_name, Asked(form, asked_class, asked_object)


def random_map(dice, form, changing):
    """A random map of this format, and what is asked of it; one or two of its values are changed where that is wanted."""
    class_name, object_name, asked = names_asked(dice, form)
    drawn = drawn_map(dice)
    if form == "topojson":
        tree = topology_tree(dice, drawn, class_name, object_name)
    else:
        tree = features_tree(dice, drawn, class_name)
    for _ in range(dice.randint(1, 2) if changing else 0):
        changed_tree(dice, tree)
    return text_spelled(dice, tree), asked
