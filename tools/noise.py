#!/usr/bin/env python3
"""Writes a grid of noise and its class table: noise.py COLUMNS ROWS SEED MAP TABLE

A hard map for a generaliser: five classes, each cell on its own. It takes no part in any proof.
A state that starts at SEED goes on by state * 1103515245 + 12345 modulo 2^31; the cell is state / 65536 modulo 5, plus 1.
"""
import sys


def main():
    columns, rows, state = (int(word) for word in sys.argv[1:4])
    lines = [f"ncols {columns}", f"nrows {rows}", "xllcorner 0", "yllcorner 0", "cellsize 1"]
    for _ in range(rows):
        row = []
        for _ in range(columns):
            state = (state * 1103515245 + 12345) % 2147483648
            row.append(str(state // 65536 % 5 + 1))
        lines.append(" ".join(row))
    with open(sys.argv[4], "w") as file:
        file.write("\n".join(lines) + "\n")
    table = ["classes 1", "border 1"] + [f"class 8 {k}" for k in range(1, 6)]
    table += ["row " + " ".join(str(1000 * abs(i - j)) for j in range(5)) for i in range(5)]
    with open(sys.argv[5], "w") as file:
        file.write("\n".join(table) + "\n")


if __name__ == "__main__":
    main()
