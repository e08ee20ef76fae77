"""Flaws of certificates, each made on purpose: `aimed(dice, aim, model, told)`.

`told` is a `Told`: a certificate without a flaw and the one that its written map is of. Each aim gives them with one flaw of a kind that a
judge has to find, or None where the certificate leaves no room for it: another number of areas, a region out of range, a region that does not
hang together, a row out of form by one place, a total that leaves 128 bits, and so on. Two aims may be taken one after the other. It takes no
part in any proof.
"""
import collections

from certificates import FIXED, Border, Certificate, Escape, Leaf, Split
from judge import Flaw, judge_regions, split_domains
from random_certificates import due_cost
from random_sums import random_row, random_set
from row_sums import LEAST, MOST, in_form, neighbours, whole_domains

TRIES = 40
LAST = 65535

Told = collections.namedtuple("Told", "certificate drawn")


def grouped(model, certificate, regions, region_of):
    """The certificate with another grouping and its cost, which is drawn too."""
    both = due_cost(model, certificate._replace(regions=regions, region_of=region_of))
    return Told(both, both)


def areas(dice, model, told):
    """An area more or less."""
    certificate = told.certificate
    step = dice.choice([-1, 1] if certificate.areas else [1])
    region_of = certificate.region_of[:-1] if step < 0 else certificate.region_of + [0]
    if certificate.status == "none":
        region_of = []
    return told._replace(certificate=certificate._replace(areas=certificate.areas + step, region_of=region_of))


def out_of_range(dice, model, told):
    """An area in a region that is none."""
    region_of = list(told.certificate.region_of)
    if not region_of:
        return None
    region_of[dice.randrange(len(region_of))] = dice.choice([len(told.certificate.regions), LAST])
    return told._replace(certificate=told.certificate._replace(region_of=region_of))


def class_out_of_range(dice, model, told):
    """A region of a class that is none."""
    regions = list(told.certificate.regions)
    if not regions:
        return None
    regions[dice.randrange(len(regions))] = dice.choice([len(model.threshold), 63])
    return told._replace(certificate=told.certificate._replace(regions=regions))


def drawn_more(dice, model, told):
    """A drawn region more, or less."""
    regions = told.drawn.regions
    if regions and dice.random() < 0.5:
        return told._replace(drawn=told.drawn._replace(regions=regions[:-1]))
    return told._replace(drawn=told.drawn._replace(regions=regions + [0]))


def drawn_class(dice, model, told):
    """A region drawn with the name of another class."""
    regions = list(told.drawn.regions)
    if not regions or len(model.threshold) < 2:
        return None
    at = dice.randrange(len(regions))
    regions[at] = (regions[at] + dice.randrange(1, len(model.threshold))) % len(model.threshold)
    return told._replace(drawn=told.drawn._replace(regions=regions))


def drawn_elsewhere(dice, model, told):
    """An area drawn in another region, or in none."""
    region_of = list(told.drawn.region_of)
    if not region_of or not told.drawn.regions:
        return None
    at = dice.randrange(len(region_of))
    region_of[at] = (region_of[at] + dice.randint(1, len(told.drawn.regions))) % (len(told.drawn.regions) + 1)
    return told._replace(drawn=told.drawn._replace(region_of=region_of))


def empty(dice, model, told):
    """A region without an area among the others."""
    regions, at = list(told.certificate.regions), dice.randint(0, len(told.certificate.regions))
    regions.insert(at, dice.randrange(len(model.threshold)))
    region_of = [region + (region >= at) for region in told.certificate.region_of]
    return grouped(model, told.certificate, regions, region_of)


def numbered(dice, labels):
    """The labels numbered from 0 in some order."""
    used = sorted(set(labels))
    dice.shuffle(used)
    return [used.index(label) for label in labels], len(used)


def lacking(name):
    """A grouping whose first region with a lack lacks this."""
    def aim(dice, model, told):
        for _ in range(TRIES if model.own else 0):
            labels = list(told.certificate.region_of)
            if dice.random() < 0.5 or len(labels) != len(model.own):
                labels = joined_labels(dice, model)
            for _ in range(dice.randint(0, 2)):
                labels[dice.randrange(len(labels))] = dice.choice(labels)
            region_of, count = numbered(dice, labels)
            owned = [sorted({model.own[area] for area, own in enumerate(region_of) if own == region}) for region in range(count)]
            astray = dice.random() < (0.3 if name == "NoOwn" else 0.05)
            regions = [dice.randrange(len(model.threshold)) if astray else dice.choice(classes) for classes in owned]
            both = grouped(model, told.certificate, regions, region_of)
            if lack_of(model, both.certificate) == name:
                return both
        return None

    return aim


def joined_labels(dice, model):
    """A label for each area, which some of the areas that are linked share."""
    labels, share = list(range(len(model.own))), dice.choice([0.2, 0.6, 0.9])
    for a, b, _ in model.links:
        if dice.random() < share:
            labels = [labels[a] if label == labels[b] else label for label in labels]
    return labels


def lack_of(model, certificate):
    """The name of the first lack of a region; None where there is none."""
    try:
        judge_regions(model, certificate)
    except Flaw as flaw:
        return str(flaw).partition(" ")[0]
    return None


def other_number(field):
    """Another cost, or another bound."""
    def aim(dice, model, told):
        number = getattr(told.certificate, field)
        others = {0, number - 1, number + 1, -number, number * 2, number + (1 << 64), LEAST, MOST} - {number}
        return told._replace(certificate=told.certificate._replace(**{field: dice.choice(sorted(others))}))

    return aim


def status(dice, model, told):
    other = {"optimal": "within", "within": "optimal"}[told.certificate.status]
    return told._replace(certificate=told.certificate._replace(status=other))


def no_grouping(dice, model, told):
    """The tree of a map that has a grouping, as a proof that it has none."""
    certificate = Certificate("none", None, None, told.certificate.areas, [], [], told.certificate.tree)
    return Told(certificate, certificate)


def domains_of(model, tree):
    """The domains of each node; those below a wrong split are None."""
    waiting, found = [whole_domains(model)], []
    for node in tree:
        domains = waiting.pop()
        found.append(domains)
        if isinstance(node, Split):
            try:
                yes, no = (None, None) if domains is None else split_domains(domains, 0, node)
            except Flaw:
                yes = no = None
            waiting += [no, yes]
    return found


def with_nodes(told, at, nodes):
    """The certificate with these nodes in place of one."""
    tree = told.certificate.tree
    return told._replace(certificate=told.certificate._replace(tree=tree[:at] + nodes + tree[at + 1 :]))


def wrong_split(dice, model, told):
    """A split on an area or a class that is none, on a class that is not allowed, or on the only one."""
    tree, count, classes = told.certificate.tree, len(model.own), len(model.threshold)
    domains = domains_of(model, tree)
    at = dice.choice([place for place, own in enumerate(domains) if own is not None])
    choices = [Split(count, 0), Split(LAST, 0)]
    for area, allowed in enumerate(domains[at]):
        choices += [Split(area, classes), Split(area, 63)] if dice.random() < 0.3 else []
        choices += [Split(area, cls) for cls in range(classes) if cls not in allowed or len(allowed) == 1]
    choices = [split for split in choices if split.cls < 64]
    node = tree[at]
    split = dice.choice(choices)
    return with_nodes(told, at, [split] if isinstance(node, Split) else [split, node, node])


def sums(told):
    """The places of the leaves that are sums."""
    return [place for place, node in enumerate(told.certificate.tree) if isinstance(node, Leaf)]


def with_rows(dice, told, *rows):
    """The certificate with these rows in a leaf, one behind the other but not always beside each other."""
    places = sums(told)
    if not places:
        return None
    at = dice.choice(places)
    leaf = told.certificate.tree[at]
    own, place = list(leaf.rows), 0
    for row in rows:
        place = dice.randint(place, len(own))
        own.insert(place, row)
        place += 1
    return with_nodes(told, at, [leaf._replace(rows=own)])


def right_row(dice, model):
    """A row in form; None where the map has no areas, or none was found."""
    for _ in range(TRIES if model.own else 0):
        row = random_row(dice, model)
        if in_form(model, row):
            return row
    return None


def off_rows(dice, model, row):
    """Rows that are out of form by one place, or may be."""
    count, classes = len(model.own), len(model.threshold)
    yield row._replace(cls=classes)
    if isinstance(row, Border):
        yield row._replace(link=dice.choice([len(model.links), 1048575]))
        return
    yield row._replace(area=count)
    yield row._replace(members=row.members + [count])
    yield row._replace(members=[member for member in row.members if member != row.area])
    yield row._replace(members=list(range(count)))
    yield row._replace(members=random_set(dice, model, row.area, row.cls, False))
    yield row._replace(cls=model.own[row.area])


def wrong_row(dice, model, told):
    """A row out of form. Its multiplier may be below 0 too, which is looked at later."""
    row = right_row(dice, model)
    rows = [off for off in off_rows(dice, model, row) if off.cls < 64 and not in_form(model, off)] if row else []
    if not rows:
        return None
    multiplier = dice.choice([0, 1, 1, row.multiplier, -1])
    return with_rows(dice, told, dice.choice(rows)._replace(multiplier=multiplier))


def negative(dice, model, told):
    row = right_row(dice, model)
    return row and with_rows(dice, told, row._replace(multiplier=dice.choice([-1, -5, -MOST])))


def not_fixed(dice, model, told):
    """The leaf of all single areas, where some are open."""
    domains = domains_of(model, told.certificate.tree)
    leaves = [place for place in sums(told) if domains[place] is not None and any(len(own) > 1 for own in domains[place])]
    return with_nodes(told, dice.choice(leaves), [FIXED]) if leaves else None


def not_void(dice, model, told):
    """A leaf that says that there is no grouping, mostly with rows."""
    places = sums(told)
    if not places:
        return None
    at = dice.choice(places)
    rows = list(told.certificate.tree[at].rows)
    for _ in range(dice.randint(0, 3)):
        row = right_row(dice, model)
        rows += [row] if row else []
    return with_nodes(told, at, [Leaf(True, 1, rows)])


def large(dice):
    """A multiplier that two of take up 128 bits."""
    return dice.choice([MOST, MOST - (1 << 100), (1 << 126) + 1, 1 << 126])


def wide_choice(dice, model, told):
    """Two rows that speak of one choice."""
    row = right_row(dice, model)
    return row and with_rows(dice, told, row._replace(multiplier=large(dice)), row._replace(multiplier=large(dice)))


def wide_across(dice, model, told):
    """Two border rows of one link, mostly for two classes."""
    if not model.links:
        return None
    link, classes = dice.randrange(len(model.links)), range(len(model.threshold))
    told_rows = [Border(link, dice.randint(0, 1), dice.choice(classes), large(dice)) for _ in range(2)]
    return with_rows(dice, told, *told_rows)


def wide_total(dice, model, told):
    """A border row that makes a choice and a link less by half of 128 bits or more."""
    if not model.links:
        return None
    link, side = dice.randrange(len(model.links)), dice.randint(0, 1)
    cls = model.own[model.links[link][side]] if dice.random() < 0.7 else dice.randrange(len(model.threshold))
    return with_rows(dice, told, Border(link, side, cls, large(dice)))


def wide_areas(dice, model, told):
    """An escape row that makes choices of several areas less by half of 128 bits or more."""
    for _ in range(TRIES if model.own else 0):
        area = dice.randrange(len(model.own))
        cls = dice.randrange(len(model.threshold))
        row = Escape(large(dice), area, cls, random_set(dice, model, area, cls, True))
        if in_form(model, row) and len(neighbours(model, row.members)) > 1:
            return with_rows(dice, told, row)
    return None


GROUPING_AIMS = {
    "range": out_of_range,
    "class range": class_out_of_range,
    "drawn more": drawn_more,
    "drawn class": drawn_class,
    "drawn elsewhere": drawn_elsewhere,
    "empty": empty,
    "loose": lacking("Loose"),
    "no own": lacking("NoOwn"),
    "too small": lacking("TooSmall"),
    "cost": other_number("cost"),
    "bound": other_number("bound"),
    "status": status,
    "no grouping": no_grouping,
}
TREE_AIMS = {
    "areas": areas,
    "split": wrong_split,
    "row": wrong_row,
    "negative": negative,
    "not fixed": not_fixed,
    "not void": not_void,
    "wide choice": wide_choice,
    "wide across": wide_across,
    "wide total": wide_total,
    "wide areas": wide_areas,
}
AIMS = {**GROUPING_AIMS, **TREE_AIMS}


def aimed(dice, aim, model, told):
    """The certificate and the one that is drawn, with a flaw of this kind; None where there is no room for it."""
    if aim in GROUPING_AIMS and told.certificate.status == "none":
        return None
    return AIMS[aim](dice, model, told)
