"""TopoJSON and GeoJSON as the program reads them: `read_topology(tree, class_name, object_name)` and `read_features(tree, class_name)`.

Both give a `Coverage` or raise `Refused` with the fault's name, and its arc or place: of all rules that are broken the first counts, where
arcs come before places, arcs and places come in order, and at one arc or place each rule is held against the whole of it before the next.
Written from the formats, apart from the program, to compare it with; it proves nothing.
"""
import collections
import re

from json_tree import ABSENT, Members, Number, member
from layout import edge, steps

FARTHEST = 1 << 30
MOST_AREAS = 65536
MOST_STEPS = 1 << 21
WHOLE = re.compile(r"(-?)0*([0-9]+?)(\.0+)?\Z")

# An area is a pair of its class text and the set of the edges that its rings walk an odd number of times. The frame is None or four texts.
Coverage = collections.namedtuple("Coverage", "areas passed frame")


class Refused(Exception):
    """An input is refused; the text is what is said behind `refused: `, without the file where a reader raises it."""


def whole(tree):
    """The value of a whole number, which may have a point and zeros; None where the tree is none.

    For a number far past 64 bits some other number past them stands.
    """
    match = WHOLE.match(tree.text) if isinstance(tree, Number) else None
    if match is None:
        return None
    size = int(match.group(2)) if len(match.group(2)) <= 20 else 10**20
    return -size if match.group(1) else size


def are_numbers(trees):
    return all(isinstance(tree, Number) for tree in trees)


def is_position(tree):
    return isinstance(tree, list) and len(tree) >= 2 and are_numbers(tree[:2])


def is_list_of(tree, is_item):
    return isinstance(tree, list) and all(is_item(item) for item in tree)


def is_ring(tree):
    """A list of positions."""
    return is_list_of(tree, is_position)


def is_indexes(tree):
    """A list of numbers."""
    return is_list_of(tree, lambda item: isinstance(item, Number))


def class_text(properties, name):
    """The class text of an area; None where it has none."""
    own = member(properties, name)
    if isinstance(own, str):
        return own.encode() if 1 <= len(own.encode()) <= 100 else None
    value = whole(own)
    return str(value).encode() if value is not None and -(1 << 63) <= value < 1 << 63 else None


class Areas:
    """The areas read so far, with the limits on their number and on their steps."""

    def __init__(self):
        self.areas, self.passed, self.steps = [], 0, 0

    def room(self):
        if len(self.areas) == MOST_AREAS:
            raise Refused("Limit Areas")

    def add(self, name, rings):
        """Adds the area of these rings, which are cyclic lists of points."""
        odd = set()
        for ring in rings:
            for a, b in steps(ring):
                if a != b:
                    odd ^= {edge(a, b)}
                    self.steps += 1
        if self.steps > MOST_STEPS:
            raise Refused("Limit Edges")
        self.areas.append((name, odd))


def frame_of(tree):
    """The four texts of the transform; None where there is none."""
    transform = member(tree, "transform")
    if transform is ABSENT:
        return None
    pairs = [member(transform, "scale"), member(transform, "translate")]
    if not all(isinstance(pair, list) and len(pair) == 2 and are_numbers(pair) for pair in pairs):
        raise Refused("NotTopology")
    return [number.text for pair in pairs for number in pair]


def picked(objects, name):
    """The object that is asked for by name, or the only one."""
    names = {own for own, _ in objects.pairs}
    if name is None and len(names) == 1:
        name = names.pop()
    if name is None or name not in {own for own, _ in objects.pairs}:
        raise Refused("NoObject")
    return objects.member(name)


def far(point):
    return any(abs(part) > FARTHEST for part in point)


def arc_points(place, arc, relative):
    """The points of an arc; where positions are relative each is added to the point before."""
    if not (is_ring(arc) and len(arc) >= 2):
        raise Refused(f"BadArc {place}")
    pairs = [(whole(position[0]), whole(position[1])) for position in arc]
    if any(part is None for pair in pairs for part in pair):
        raise Refused(f"NotWhole {place}")
    points, at = [], (0, 0)
    for pair in pairs:
        at = (at[0] + pair[0], at[1] + pair[1]) if relative else pair
        if far(at):
            raise Refused("Limit Coordinate")
        points.append(at)
    return points


def places_of(tree):
    """The geometries of the picked object."""
    if member(tree, "type") != "GeometryCollection":
        return [tree]
    geometries = member(tree, "geometries")
    if not isinstance(geometries, list):
        raise Refused("NotPolygonal 0")
    return geometries


def rings_of_indexes(place, geometry):
    """The rings of a geometry as lists of indexes, which are trees."""
    arcs, kind = member(geometry, "arcs"), member(geometry, "type")
    if kind == "Polygon" and is_list_of(arcs, is_indexes):
        return arcs
    if kind == "MultiPolygon" and is_list_of(arcs, lambda polygon: is_list_of(polygon, is_indexes)):
        return [ring for polygon in arcs for ring in polygon]
    raise Refused(f"NotPolygonal {place}")


def joined(place, indexes, arcs):
    """The points of a ring of arcs, each without its last point."""
    paths = [arcs[index] if index >= 0 else arcs[-index - 1][::-1] for index in indexes]
    if not paths or any(path[-1] != after[0] for path, after in zip(paths, paths[1:] + paths[:1])):
        raise Refused(f"OpenRing {place}")
    return [point for path in paths for point in path[:-1]]


def take_geometry(found, place, geometry, arcs, class_name):
    """Adds the area of one geometry of a topology."""
    if geometry is None or member(geometry, "type") is None:
        found.passed += 1
        return
    rings = rings_of_indexes(place, geometry)
    found.room()
    name = class_text(member(geometry, "properties"), class_name)
    if name is None:
        raise Refused(f"NoClass {place}")
    rings = [[whole(index) for index in ring] for ring in rings]
    if any(index is None or not -len(arcs) <= index < len(arcs) for ring in rings for index in ring):
        raise Refused(f"BadIndex {place}")
    found.add(name, [joined(place, ring, arcs) for ring in rings])


def read_topology(tree, class_name, object_name):
    """The coverage of the named object of a topology."""
    objects, arcs = member(tree, "objects"), member(tree, "arcs")
    if member(tree, "type") != "Topology" or not isinstance(objects, Members) or not isinstance(arcs, list):
        raise Refused("NotTopology")
    frame = frame_of(tree)
    chosen = picked(objects, object_name)
    paths = [arc_points(place, arc, frame is not None) for place, arc in enumerate(arcs)]
    found = Areas()
    for place, geometry in enumerate(places_of(chosen)):
        take_geometry(found, place, geometry, paths, class_name)
    return Coverage(found.areas, found.passed, frame)


def rings_of_positions(place, geometry):
    """The rings of a feature's geometry as lists of positions, which are trees."""
    spots, kind = member(geometry, "coordinates"), member(geometry, "type")
    if kind == "Polygon" and is_list_of(spots, is_ring):
        return spots
    if kind == "MultiPolygon" and is_list_of(spots, lambda polygon: is_list_of(polygon, is_ring)):
        return [ring for polygon in spots for ring in polygon]
    raise Refused(f"NotPolygonal {place}")


def take_feature(found, place, feature, class_name):
    """Adds the area of one feature."""
    if member(feature, "type") != "Feature":
        raise Refused(f"NotPolygonal {place}")
    geometry = member(feature, "geometry")
    if geometry is None or geometry is ABSENT:
        found.passed += 1
        return
    rings = rings_of_positions(place, geometry)
    found.room()
    name = class_text(member(feature, "properties"), class_name)
    if name is None:
        raise Refused(f"NoClass {place}")
    rings = [[(whole(position[0]), whole(position[1])) for position in ring] for ring in rings]
    if any(part is None for ring in rings for point in ring for part in point):
        raise Refused(f"NotWhole {place}")
    if any(far(point) for ring in rings for point in ring):
        raise Refused("Limit Coordinate")
    if any(len(ring) < 4 or ring[0] != ring[-1] for ring in rings):
        raise Refused(f"OpenRing {place}")
    found.add(name, rings)


def read_features(tree, class_name):
    """The coverage of a collection of features."""
    features = member(tree, "features")
    if member(tree, "type") != "FeatureCollection" or not isinstance(features, list):
        raise Refused("NotGeoJson")
    found = Areas()
    for place, feature in enumerate(features):
        take_feature(found, place, feature, class_name)
    return Coverage(found.areas, found.passed, None)
