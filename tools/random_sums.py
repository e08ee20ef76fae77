#!/usr/bin/env python3
"""Writes random problems with row sums and what each sum is worth, to compare with: random_sums.py COUNT SEED

It takes no part in any proof. Each case is these lines, their words parted by single spaces:

    problem AREAS CLASSES BORDER
    area OWN WEIGHT                    one line for each area
    class THRESHOLD DISTANCES          one line for each class, with the distances from it to each class
    link A B LENGTH                    in rising order, as many as there are
    allow CLASSES                      one line for each area, the classes of its domain in rising order
    fixed                              the leaf: either this line, or
    cost DENOMINATOR, or void DENOMINATOR
    b LINK SIDE CLASS MULTIPLIER       rows as a certificate spells them, also out of range
    e MULTIPLIER AREA CLASS COUNT MEMBERS
    sound ANSWER                       Ok, or Denominator, Row ROW, Negative ROW, NotFixed AREA
    value ANSWER                       Least NUMBER, Void, Wide ENTRY, NotVoid TOTAL; a dash where the leaf is not sound
    end

An ENTRY is `choice AREA CLASS`, `across LINK`, `total-area AREA` or `total-link LINK`.
"""
import random
import sys

from certificates import FIXED, Border, Escape, Leaf, row_lines
from row_sums import MOST, Model, Weak, in_form, neighbours, sound, value


def random_model(dice):
    """A small problem; its weights and lengths now and then are as great as may be."""
    areas, classes = dice.randint(1, 6), dice.randint(1, 4)
    great = dice.random() < 0.15
    weight = [dice.randint(1, (1 << 93) if great else 60) for _ in range(areas)]
    pairs = [(a, b) for b in range(areas) for a in range(b) if dice.random() < 0.5]
    links = [(a, b, dice.choice([0, 256, 362, dice.randint(0, 1 << 90) if great else dice.randint(0, 900)])) for a, b in sorted(pairs)]
    distance = [[0 if i == j else dice.choice([0, 1, 5, 300, 10000]) for j in range(classes)] for i in range(classes)]
    threshold = [dice.choice([0, 1, 30, 90, 10**30, dice.randint(0, sum(weight))]) for _ in range(classes)]
    own = [dice.randrange(classes) for _ in range(areas)]
    return Model(own, weight, links, distance, threshold, dice.choice([0, 1, 3, 10000]))


def random_domains(dice, model):
    classes = range(len(model.threshold))
    share = dice.choice([0, 0, 0.3, 0.9])
    return [set(dice.sample(classes, dice.randint(1, len(classes)))) if dice.random() < share else set(classes) for _ in model.own]


def random_multiplier(dice, model):
    """Mostly a number of the size of the costs, now and then a great one, rarely one that is too small."""
    pick = dice.random()
    if pick < 0.02:
        return -dice.choice([1, 5, MOST])
    if pick < 0.06:
        return dice.choice([MOST, MOST // 2 + 1, 1 << 126, 1 << 120])
    return dice.randint(0, dice.choice([3, 300, model.weight[0] * 300, 1 + model.border * 256]))


def random_set(dice, model, area, cls, careful):
    """A set that holds the area and hangs together; a careful one has no other area of that own class."""
    members = {area}
    for _ in range(dice.randint(0, 4)):
        near = [other for other in neighbours(model, members) if not careful or model.own[other] != cls]
        if near:
            members.add(dice.choice(near))
    return sorted(members)


def random_row(dice, model):
    """A row, mostly in form."""
    while True:
        row = any_row(dice, model)
        if in_form(model, row) or dice.random() < 0.03:
            return row


def any_row(dice, model):
    """A row, now and then with a link, an area or a class that is none."""
    astray = 1 if dice.random() < 0.3 else 0
    areas, classes = len(model.own), len(model.threshold)
    cls = dice.randrange(classes) + astray * dice.randint(0, 2)
    if model.links and dice.random() < 0.5:
        return Border(dice.randrange(len(model.links)) + astray * dice.randint(0, 2), dice.randint(0, 1), cls, random_multiplier(dice, model))
    careful = dice.random() < 0.97
    others = [area for area in range(areas) if not careful or model.own[area] != cls]
    area = dice.choice(others) if others else dice.randrange(areas)
    members = random_set(dice, model, area, cls, careful)
    if astray:
        area, members = dice.choice([(area, members[1:]), (area, members + [areas]), (areas, members), (area, [])])
    return Escape(random_multiplier(dice, model), area, cls, members)


def random_leaf(dice, model):
    if dice.random() < 0.1:
        return FIXED
    void = dice.random() < 0.25
    denominator = dice.choice([1, 1, 1, 2, 7, 4096]) if not void else 1
    if dice.random() < 0.02:
        denominator = dice.choice([0, 2, 4097])
    count = dice.choice([0, 1, 2, 3, 6, 12]) if model.own else 0
    return Leaf(void, denominator, [random_row(dice, model) for _ in range(count)])


def model_lines(model):
    yield f"problem {len(model.own)} {len(model.threshold)} {model.border}"
    yield from (f"area {own} {weight}" for own, weight in zip(model.own, model.weight))
    yield from (f"class {threshold} " + " ".join(map(str, row)) for threshold, row in zip(model.threshold, model.distance))
    yield from (f"link {a} {b} {length}" for a, b, length in model.links)


def value_text(model, domains, leaf):
    try:
        bound = value(model, domains, leaf)
        return "Void" if bound is None else f"Least {bound}"
    except Weak as weak:
        return str(weak)


def case_lines(model, domains, leaf):
    """The lines of one case."""
    yield from model_lines(model)
    yield from ("allow " + " ".join(map(str, sorted(classes))) for classes in domains)
    if leaf == FIXED:
        yield "fixed"
    else:
        yield f"{'void' if leaf.void else 'cost'} {leaf.denominator}"
        yield from row_lines(leaf.rows)
    flaw = sound(model, domains, leaf)
    yield f"sound {flaw or 'Ok'}"
    yield f"value {'-' if flaw else value_text(model, domains, leaf)}"
    yield "end"


def random_cases(count, seed):
    """The text of that many cases."""
    dice, lines = random.Random(seed), []
    for _ in range(count):
        model = random_model(dice)
        lines += case_lines(model, random_domains(dice, model), random_leaf(dice, model))
    return "\n".join(lines) + "\n"


if __name__ == "__main__":
    sys.stdout.write(random_cases(int(sys.argv[1]), int(sys.argv[2])))
