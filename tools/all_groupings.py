"""All groupings of small problems, by their definition: `partitions(count)`, `least_cost(model)`. A model is that of `row_sums`.

Slow and plain, written apart from the program to compare it with; it proves nothing.
"""


def partitions(count):
    """The region of each area, in every way that numbers regions by their least areas."""
    def grown(regions):
        if len(regions) == count:
            yield regions
        else:
            for region in range(max(regions, default=-1) + 2):
                yield from grown(regions + [region])

    return grown([])


def hangs_together(model, members):
    """Whether walks along links between members reach all of them from one."""
    reached = {min(members)}
    while True:
        beside = {b for a, b, _ in model.links if a in reached} | {a for a, b, _ in model.links if b in reached}
        grown = reached | beside & members
        if grown == reached:
            return reached == members
        reached = grown


def region_cost(model, members):
    """What it costs to recolour the members as a region, in the cheapest class that it may have; None where it may have none."""
    if not hangs_together(model, members):
        return None
    weight, owned = sum(model.weight[area] for area in members), {model.own[area] for area in members}
    costs = [
        sum(model.weight[area] * model.distance[model.own[area]][cls] for area in members)
        for cls in owned
        if model.threshold[cls] <= weight
    ]
    return min(costs, default=None)


def grouping_cost(model, region_of):
    """What the cheapest feasible grouping with these regions costs; None where none is feasible."""
    members = {}
    for area, region in enumerate(region_of):
        members.setdefault(region, set()).add(area)
    costs = [region_cost(model, own) for own in members.values()]
    if None in costs:
        return None
    return sum(costs) + model.border * sum(length for a, b, length in model.links if region_of[a] != region_of[b])


def least_cost(model):
    """The least cost of all feasible groupings; None where none is feasible."""
    costs = (grouping_cost(model, region_of) for region_of in partitions(len(model.own)))
    return min((cost for cost in costs if cost is not None), default=None)
