#!/usr/bin/env python3
"""Draws a map and its written result side by side: picture.py MAP OUT SVG

MAP is an ESRI ASCII grid, OUT the TopoJSON that the program wrote for it. Each class has one colour, the same on both sides. It takes no part
in any proof.
"""
import json
import sys

from reference import read_grid
from topology import regions, ring_of

COLOURS = ["#3d7a4b", "#a9cf7f", "#e8d27a", "#7fb8b0", "#f2e6c9", "#c0504d"]
COLOURS += ["#8f7fb8", "#b0b0b0", "#5b8bc0", "#d99a5b", "#6f6f3f", "#d8a8c8"]
SIDE = 6
GAP = 24


def path_of(rings, left, rows):
    parts = []
    for ring in rings:
        corners = [f"{left + x * SIDE} {(rows - y) * SIDE}" for x, y in ring]
        parts.append("M" + "L".join(corners) + "Z")
    return "".join(parts)


def cell_shapes(grid, colour_of):
    columns, rows, nodata, cells, _ = grid
    for row in range(rows):
        column = 0
        while column < columns:
            value, first = cells[row * columns + column], column
            while column < columns and cells[row * columns + column] == value:
                column += 1
            if value != nodata:
                width = (column - first) * SIDE
                yield f'<path fill="{colour_of[str(value)]}" d="M{first * SIDE} {row * SIDE}h{width}v{SIDE}h-{width}z"/>'


def region_shapes(topology, colour_of, left, rows):
    for name, rings in regions(topology):
        path = path_of([ring_of(paths) for paths in rings], left, rows)
        yield f'<path fill="{colour_of[name]}" fill-rule="evenodd" stroke="#303030" d="{path}"/>'


def main():
    with open(sys.argv[1], "rb") as file:
        grid = read_grid(file.read())
    with open(sys.argv[2], encoding="utf-8") as file:
        topology = json.load(file)
    columns, rows, nodata, cells, _ = grid
    classes = sorted({cell for cell in cells if cell != nodata})
    colour_of = {str(value): COLOURS[i % len(COLOURS)] for i, value in enumerate(classes)}
    left = columns * SIDE + GAP
    width, height = left + columns * SIDE, rows * SIDE
    shapes = list(cell_shapes(grid, colour_of)) + list(region_shapes(topology, colour_of, left, rows))
    with open(sys.argv[3], "w", encoding="ascii") as file:
        file.write(f'<svg xmlns="http://www.w3.org/2000/svg" viewBox="-2 -2 {width + 4} {height + 4}"')
        file.write(f' width="{width + 4}" height="{height + 4}">\n')
        file.write(f'<rect x="-2" y="-2" width="{width + 4}" height="{height + 4}" fill="#dfe9f0"/>\n')
        file.write('<g shape-rendering="crispEdges">\n' + "\n".join(shapes) + "\n</g>\n</svg>\n")


if __name__ == "__main__":
    main()
