"""Random certificates and written maps for a problem, right and wrong ones, to compare judges with.

`right_certificate(dice, model, first)` gives a certificate without a flaw, whose tree may have splits, leaves of rows in either mode, and
leaves of single areas; `strayed_grouping` and `strayed_tree` change one at one place, and `drawn_text` gives its written map.
`changed_lines(dice, text)` changes the text of one, and `deepened(dice, text)` puts a long way of splits into its tree. It takes no part in any
proof.
"""
import math

from certificates import DEEPEST, FIXED, Border, Certificate, Escape, Leaf, Split
from judge import Flaw, cost_of, judge_regions, split_domains, tree_bound
from layout import map_text
from random_sums import random_leaf, random_row
from row_sums import LEAST, MOST, Weak, in_form, neighbours, sound, value, whole_domains

TRIES = 30
MOST_CHOICES = 40


def random_tree(dice, model, domains, depth, leaf_of=None):
    """A tree in preorder, all of whose splits are right; `leaf_of` makes its leaves, by default of any kind."""
    open_areas = [area for area, classes in enumerate(domains) if len(classes) > 1]
    if depth == 0 or not open_areas or dice.random() < 0.4:
        return [random_leaf(dice, model) if leaf_of is None else leaf_of(domains)]
    area = dice.choice(open_areas)
    split = Split(area, dice.choice(sorted(domains[area])))
    below = split_domains(domains, 0, split)
    return [split] + [node for own in below for node in random_tree(dice, model, own, depth - 1, leaf_of)]


def choices(domains):
    """In how many ways each area can have a class that it is allowed."""
    return math.prod(map(len, domains))


def closed_tree(dice, model, domains):
    """A tree whose leaves have single areas."""
    open_areas = [area for area, classes in enumerate(domains) if len(classes) > 1]
    if not open_areas:
        return [FIXED]
    area = dice.choice(open_areas)
    split = Split(area, dice.choice(sorted(domains[area])))
    return [split] + [node for own in split_domains(domains, 0, split) for node in closed_tree(dice, model, own)]


def void_leaf(dice, model, domains):
    """A leaf that proves that an area cannot have the one class that it is allowed, where its surroundings forbid that; else None."""
    single = [area for area, classes in enumerate(domains) if len(classes) == 1]
    if not single:
        return None
    area = dice.choice(single)
    cls, members = min(domains[area]), {area}
    while True:
        more = [other for other in neighbours(model, members) if cls in domains[other]]
        if not more:
            break
        members.update(more)
    row = Escape(dice.choice([1, 1, 7, 1 << 100]), area, cls, sorted(members))
    return Leaf(True, 1, [row]) if in_form(model, row) else None


def is_right_leaf(model, domains, leaf):
    if sound(model, domains, leaf) is not None:
        return False
    try:
        value(model, domains, leaf)
    except Weak:
        return False
    return True


def gaining_leaf(dice, model, domains):
    """A leaf of rows each of which makes it worth more."""
    leaf = Leaf(False, dice.choice([1, 1, 2, 3, 4096]), [])
    bound = value(model, domains, leaf)
    for _ in range(TRIES if model.own else 0):
        more = leaf._replace(rows=leaf.rows + [random_row(dice, model)])
        if is_right_leaf(model, domains, more) and value(model, domains, more) > bound:
            leaf, bound = more, value(model, domains, more)
    return leaf


def right_leaf(dice, model, domains):
    """A leaf that proves something over the domains."""
    if dice.random() < 0.3:
        return gaining_leaf(dice, model, domains)
    for _ in range(TRIES):
        leaf = (void_leaf(dice, model, domains) if dice.random() < 0.3 else None) or random_leaf(dice, model)
        if is_right_leaf(model, domains, leaf):
            return leaf
    return Leaf(False, 1, [])


def random_grouping(dice, model):
    """The class of each region and the region of each area: areas joined along links, in classes of their own."""
    lead = list(range(len(model.own)))
    share = dice.choice([0.3, 0.9, 1])
    for a, b, _ in model.links:
        if dice.random() < share:
            lead = [lead[a] if other == lead[b] else other for other in lead]
    leads = sorted(set(lead))
    if dice.random() < 0.1:
        dice.shuffle(leads)
    region_of = [leads.index(other) for other in lead]
    owned = [[own for own, other in zip(model.own, region_of) if other == region] for region in range(len(leads))]
    return [dice.choice(classes) for classes in owned], region_of


def right_grouping(dice, model, first):
    """A feasible grouping; the first one where no other is found."""
    for _ in range(TRIES):
        regions, region_of = random_grouping(dice, model)
        try:
            judge_regions(model, Certificate("within", 0, 0, len(model.own), regions, region_of, []))
        except Flaw:
            continue
        return regions, region_of
    return first.regions, first.region_of


def told(model, regions, region_of, tree):
    """The certificate of a grouping and a tree without a flaw, with the cost, the bound and the status that are due."""
    cost, bound = cost_of(model, regions, region_of), tree_bound(model, tree)
    status = "optimal" if bound >= cost else "within"
    return Certificate(status, cost, bound, len(model.own), regions, region_of, tree)


def right_tree(dice, model, leaf_of):
    """A tree over all classes, whose leaves are the given ones, or where it has few leaves of single areas alone mostly these."""
    domains = whole_domains(model)
    if choices(domains) <= MOST_CHOICES and dice.random() < 0.4:
        return closed_tree(dice, model, domains)
    return random_tree(dice, model, domains, dice.choice([0, 0, 1, 3, 5]), leaf_of)


def hopeless_leaf(dice, model, domains, first):
    """A leaf that proves that there is no grouping, where the first one proves it over all classes."""
    leaf = void_leaf(dice, model, domains) if dice.random() < 0.5 else None
    if leaf is None and choices(domains) == 1:
        leaf = FIXED
    return leaf or first


def right_certificate(dice, model, first):
    """A certificate without a flaw; the first one is such a certificate."""
    if first.status == "none":
        return first._replace(tree=right_tree(dice, model, lambda domains: hopeless_leaf(dice, model, domains, first.tree[0])))
    tree = right_tree(dice, model, lambda domains: right_leaf(dice, model, domains))
    return told(model, *right_grouping(dice, model, first), tree)


def strayed_row(dice, model, row):
    """A row with a number that is changed, or another row."""
    pick = dice.random()
    if pick < 0.3:
        return random_row(dice, model)
    if pick < 0.6:
        return row._replace(multiplier=dice.choice([-1, -row.multiplier, row.multiplier + 1, MOST, LEAST + 1]))
    if isinstance(row, Border):
        return dice.choice([row._replace(link=row.link + 1), row._replace(side=1 - row.side), row._replace(cls=row.cls + 1)])
    members = dice.choice([row.members[1:], row.members[:-1], row.members + [row.members[-1] + 1] if row.members else [0]])
    return dice.choice([row._replace(area=row.area + 1), row._replace(cls=row.cls + 1), row._replace(members=members)])


def strayed_leaf(dice, model, leaf):
    """A leaf that is changed at one place."""
    if leaf == FIXED or dice.random() < 0.1:
        return random_leaf(dice, model)
    if leaf.rows and dice.random() < 0.7:
        rows = list(leaf.rows)
        place = dice.randrange(len(rows))
        one, large = strayed_row(dice, model, rows[place]), rows[place]._replace(multiplier=MOST)
        rows[place : place + 1] = dice.choice([[], [one], [one], [one], [large, large]])
        return leaf._replace(rows=rows)
    pick = dice.random()
    if pick < 0.3:
        return FIXED
    if pick < 0.6:
        return leaf._replace(void=not leaf.void, denominator=1)
    return leaf._replace(void=False, denominator=dice.choice([1, 2, 4096, leaf.denominator % 4096 + 1]))


def strayed_node(dice, model, node):
    if not isinstance(node, Split):
        return strayed_leaf(dice, model, node)
    return dice.choice([node._replace(area=node.area + 1), node._replace(cls=node.cls + 1), Split(dice.randint(0, len(model.own)), node.cls)])


def strayed_areas(dice, model, regions, region_of):
    """Moves an area to another region, which may be none, or to a new one of its own; or the areas of one region to another."""
    area, pick = dice.randrange(len(region_of)), dice.random()
    if pick < 0.35:
        region_of[area] = dice.randint(0, len(regions))
    elif pick < 0.7:
        region_of[area] = len(regions)
        regions.append(model.own[area])
    else:
        first, second = dice.choice(region_of), dice.choice(region_of)
        region_of[:] = [first if region == second else region for region in region_of]


def strayed_grouping(dice, model, certificate):
    """The certificate with an area or a region that is changed, or one more."""
    regions, region_of = list(certificate.regions), list(certificate.region_of)
    pick = dice.random()
    if pick < 0.6 and region_of:
        strayed_areas(dice, model, regions, region_of)
    elif pick < 0.8 and regions:
        regions[dice.randrange(len(regions))] = dice.choice([0, 1, 5, 9, 63])
    elif pick < 0.92 and region_of:
        regions.append(0)
    else:
        region_of.append(0)
    return certificate._replace(regions=regions, region_of=region_of, areas=len(region_of))


def strayed_tree(dice, model, certificate):
    """The certificate with a node of its tree changed."""
    tree = list(certificate.tree)
    place = dice.randrange(len(tree))
    tree[place] = strayed_node(dice, model, tree[place])
    return certificate._replace(tree=tree)


def due_cost(model, certificate):
    """The certificate with the cost of its grouping, where that has one."""
    try:
        return certificate._replace(cost=cost_of(model, certificate.regions, certificate.region_of))
    except IndexError:
        return certificate


def drawn_text(landscape, names, certificate):
    """The written map of a certificate, where an area of no region is drawn in none; None with `none`."""
    if certificate.status == "none":
        return None
    borders = [set() for _ in certificate.regions]
    for own, region in zip(landscape.edges(), certificate.region_of):
        if region < len(borders):
            borders[region] ^= own
    return map_text(borders, [names[cls % len(names)].decode() for cls in certificate.regions], landscape.frame)


def changed_word(dice, word):
    """Another word in a word's place."""
    fresh = [b"0", b"1", b"00", b"-0", b"-1", b"-", b"", b"x", b"65535", b"65536", b"64", b"4097", b"40000001", b"+1", b"1.0", b"end", b"f"]
    fresh += [str(sign * ((1 << 127) + more)).encode() for sign in (1, -1) for more in (-1, 0, 1)]
    if word.lstrip(b"-").isdigit() and dice.random() < 0.5:
        return str(int(word) + dice.choice([-1, 1, 2, 100])).encode()
    return dice.choice(fresh)


def line_of_some_kind(dice, lines):
    """The place of a line; each kind of line, by its first word, is as likely."""
    kinds = [line.partition(b" ")[0] for line in lines]
    kind = dice.choice(sorted(set(kinds)))
    return dice.choice([place for place, own in enumerate(kinds) if own == kind])


def changed_lines(dice, text):
    """The text of a certificate with a word or a line changed, left out, said again or put in, or with another end of a line."""
    lines = text.split(b"\n")
    at = line_of_some_kind(dice, lines)
    pick = dice.random()
    if pick < 0.5:
        words = lines[at].split(b" ")
        place = dice.randrange(len(words))
        words[place : place + 1] = [changed_word(dice, words[place])] * dice.choice([1, 1, 1, 1, 0, 2])
        lines[at] = b" ".join(words)
    elif pick < 0.6:
        del lines[at]
    elif pick < 0.7:
        lines.insert(at, lines[dice.choice([at, at, dice.randrange(len(lines))])])
    elif pick < 0.75:
        other = dice.randrange(len(lines))
        lines[at], lines[other] = lines[other], lines[at]
    elif pick < 0.9:
        lines.insert(at, dice.choice([b"", b"c 1 0", b"s 0 0", b"b 0 0 0 1", b"e 1 0 0 1 0", b"f", b"end", b"v 0", b"r 0", b"a 0"]))
    else:
        ends = [lines[at] + b" ", b" " + lines[at], lines[at] + b"\r", lines[at][:-1], lines[at].replace(b" ", b"  "), lines[at] + b"\0"]
        lines[at] = dice.choice(ends)
    return b"\n".join(lines)


def deepened(dice, text):
    """The text with a way of some thousand splits in front of a node, which closes again; the deepest node is about as deep as may be."""
    lines = text.split(b"\n")
    nodes = [place for place, line in enumerate(lines) if line[:1] in (b"s", b"f", b"c", b"v") and not line.startswith((b"status", b"cost"))]
    at, count = dice.choice(nodes), DEEPEST + dice.choice([-3, -1, 0, 0, 1, 1, 2])
    lines[at:at] = [b"s 0 0"] * count + [dice.choice([b"f", b"c 1 0"])] * count
    return b"\n".join(lines)
