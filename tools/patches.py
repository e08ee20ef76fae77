#!/usr/bin/env python3
"""Writes a square grid of smooth patches in five classes with four percent of speckle: patches.py SIDE SEED MAP

What real land cover looks like to a generaliser. It takes no part in any proof; the classes are those of the table of noise.py.
"""
import random
import sys


def field(side, spacing, seed):
    """A smooth height from random heights at the corners of squares of this spacing."""
    dice = random.Random(seed)
    corners = [[dice.random() for _ in range(side // spacing + 3)] for _ in range(side // spacing + 3)]

    def height(x, y):
        i, j = x // spacing, y // spacing
        a, b = x / spacing - i, y / spacing - j
        a, b = a * a * (3 - 2 * a), b * b * (3 - 2 * b)
        low = corners[j][i] * (1 - a) + corners[j][i + 1] * a
        high = corners[j + 1][i] * (1 - a) + corners[j + 1][i + 1] * a
        return low * (1 - b) + high * b

    return height


def main():
    side, seed = int(sys.argv[1]), int(sys.argv[2])
    dice = random.Random(seed)
    wide, narrow = field(side, 40, seed + 1), field(side, 11, seed + 2)
    with open(sys.argv[3], "w") as file:
        file.write(f"ncols {side}\nnrows {side}\nxllcorner 0\nyllcorner 0\ncellsize 1\n")
        for y in range(side):
            row = []
            for x in range(side):
                height = 0.7 * wide(x, y) + 0.3 * narrow(x, y)
                cell = 1 + min(4, int(max(0.0, height - 0.2) / 0.6 * 5))
                row.append(str(dice.randint(1, 5) if dice.random() < 0.04 else cell))
            file.write(" ".join(row) + "\n")


if __name__ == "__main__":
    main()
