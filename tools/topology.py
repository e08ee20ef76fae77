"""Reads the TopoJSON that the program writes: `regions(topology)`. It takes no part in any proof."""


def arcs_of(topology):
    """The arcs as lists of points in cells: relative where there is a transform."""
    arcs = []
    for arc in topology["arcs"]:
        x = y = 0
        points = []
        for dx, dy in arc:
            x, y = (x + dx, y + dy) if "transform" in topology else (dx, dy)
            points.append((x, y))
        arcs.append(points)
    return arcs


def paths_of(arcs, indexes):
    """The arcs of a ring, each in the ring's direction: -i - 1 is arc i backwards."""
    return [arcs[index] if index >= 0 else arcs[-index - 1][::-1] for index in indexes]


def ring_of(paths):
    """The points of a ring: its arcs one after another, each without its last point."""
    return [point for path in paths for point in path[:-1]]


def regions(topology):
    """For each region its class, and for each of its rings the arcs in the ring's direction."""
    arcs = arcs_of(topology)
    for geometry in topology["objects"]["regions"]["geometries"]:
        rings = [paths_of(arcs, ring) for polygon in geometry["arcs"] for ring in polygon]
        yield geometry["properties"]["class"], rings
