#!/usr/bin/env python3
"""Prints what the program `bound_times` must: the values of five sums of rows on 256 by 256 areas, by the second implementation.

usage: python3 tools/bound_values.py > crates/bound_times/stdout     it takes a minute
"""
import row_sums
from certificates import Border, Escape, Leaf

SIDE = 256


def model():
    """Areas of weight 2 in four classes, row by row, each linked to the next in its row and to that below."""
    links = []
    for area in range(SIDE * SIDE):
        if area % SIDE != SIDE - 1:
            links.append((area, area + 1, 256))
        if area < SIDE * (SIDE - 1):
            links.append((area, area + SIDE, 256))
    own = [area % 4 for area in range(SIDE * SIDE)]
    distance = [[0 if a == b else 5 for b in range(4)] for a in range(4)]
    return row_sums.Model(own, [2] * len(own), links, distance, [1_000_000] * 4, 1)


def near(members):
    """The areas beside a set, in order, without a look at all links."""
    found = set()
    for area in members:
        found |= {area - SIDE, area + SIDE}
        found |= {area - 1} if area % SIDE else set()
        found |= {area + 1} if area % SIDE != SIDE - 1 else set()
    return sorted(area for area in found - set(members) if 0 <= area < SIDE * SIDE)


def rows(count, size):
    """So many escape rows with sets of that size, or border rows where it is 0, each with the multiplier 1."""
    for at in range(count):
        if size == 0:
            yield Border(at, 0, at % 4, 1)
        else:
            first = at % 61_440
            yield Escape(1, first, at % 4, list(range(first, first + size)))


def main():
    problem = model()
    row_sums.neighbours = lambda _, members: near(members)
    domains = row_sums.whole_domains(problem)
    for count, size in ((0, 0), (125_000, 0), (111_111, 1), (10_000, 92), (1_000, 992)):
        leaf = Leaf(False, 1, list(rows(count, size)))
        marks = count * (8 + size)
        print(f"{count} rows with sets of {size}, {marks} marks: Ok(Least({row_sums.value(problem, domains, leaf)}))")


if __name__ == "__main__":
    main()
