#!/usr/bin/env python3
"""Writes a grid that is hard on one step of the program: shapes.py KIND SIDE MAP TABLE

KIND is `holes`, an area with a hole at every third cell of every third row, each a cell of another class; `squares` of two by two cells in
two classes; `comb`, teeth one cell wide and the gaps between them; `specks`, an area with a cell of no data at every second place of every
second row; `corners`, cells that touch at corners alone; or `row`, a single row of that many cells, all apart. It takes no part in any proof.
"""
import sys

NODATA = -9999

KINDS = {
    "holes": lambda side, x, y: 2 if x % 3 == 1 and y % 3 == 1 and x + 1 < side and y + 1 < side else 1,
    "squares": lambda side, x, y: 1 + (x // 2 + y // 2) % 2,
    "comb": lambda side, x, y: 1 if y == 0 else 1 + x % 2,
    "specks": lambda side, x, y: NODATA if x % 2 == 1 and y % 2 == 1 and x + 1 < side and y + 1 < side else 1,
    "corners": lambda side, x, y: 1 if (x + y) % 4 == 0 else NODATA,
    "row": lambda side, x, y: 1 + x % 2,
}


def main():
    kind, side = sys.argv[1], int(sys.argv[2])
    rows = 1 if kind == "row" else side
    with open(sys.argv[3], "w", encoding="ascii") as file:
        file.write(f"ncols {side}\nnrows {rows}\nxllcorner 0\nyllcorner 0\ncellsize 1\n")
        for y in range(rows):
            file.write(" ".join(str(KINDS[kind](side, x, y)) for x in range(side)) + "\n")
    with open(sys.argv[4], "w", encoding="ascii") as file:
        file.write("classes 1\nborder 1\nclass 2 1\nclass 2 2\nrow 0 5\nrow 5 0\n")


if __name__ == "__main__":
    main()
