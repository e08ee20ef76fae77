#!/usr/bin/env python3
"""A second implementation of the judge, written apart from the program to compare it with: judge.py check FORMAT MAP TABLE OUT CERT

The words are those of the program, with `--class NAME` and `--object NAME`. `verdict(..)` gives `Valid` or the first flaw, and `answer(..)`
the exit code and the said text for the bytes of all four files. It is slow and plain and proves nothing.
"""
import sys

import certificates
import command_words
import json_tree
import polygon_maps
from certificates import Split
from coverage import edge_text
from layout import edge_order
from reference import MOST_MAP, MOST_TABLE, bytes_of, load
from polygon_maps import Refused
from row_sums import Weak, model_of, sound, value, whole_domains

MOST_OUT = 268435456
MOST_CERTIFICATE = 536870912


class Flaw(Exception):
    """The first flaw, with its fields."""


def summed(edges, region_of, region):
    """The edges that an odd number of a region's areas have."""
    found = set()
    for area, own in enumerate(region_of):
        if own == region:
            found ^= edges[area]
    return found


def judge_drawing(landscape, edges, names, drawn, certificate):
    """The drawn map has the frame, the regions, their classes and their edges."""
    if drawn.frame != landscape.frame:
        raise Flaw("Frame")
    if len(drawn.areas) != len(certificate.regions):
        raise Flaw(f"Regions {len(drawn.areas)}")
    for region, cls in enumerate(certificate.regions):
        if drawn.areas[region][0] != names[cls]:
            raise Flaw(f"DrawnClass {region}")
    for region in range(len(certificate.regions)):
        differing = drawn.areas[region][1] ^ summed(edges, certificate.region_of, region)
        if differing:
            raise Flaw(f"DrawnEdges {region} {edge_text(min(differing, key=edge_order))}")


def reached(model, members):
    """The members that hang together with the least of them."""
    found, todo = {min(members)}, [min(members)]
    while todo:
        area = todo.pop()
        for a, b, _ in model.links:
            for one, other in ((a, b), (b, a)):
                if one == area and other in members and other not in found:
                    found.add(other)
                    todo.append(other)
    return found


def judge_regions(model, certificate):
    """Each region has an area, hangs together, has an area of its class, and weighs enough."""
    for region, cls in enumerate(certificate.regions):
        members = {area for area, own in enumerate(certificate.region_of) if own == region}
        if not members:
            raise Flaw(f"Empty {region}")
        if reached(model, members) != members:
            raise Flaw(f"Loose {region}")
        if all(model.own[area] != cls for area in members):
            raise Flaw(f"NoOwn {region}")
        if sum(model.weight[area] for area in members) < model.threshold[cls]:
            raise Flaw(f"TooSmall {region}")


def cost_of(model, regions, region_of):
    """The cost of a grouping."""
    total = sum(weight * model.distance[own][regions[region]] for weight, own, region in zip(model.weight, model.own, region_of))
    return total + model.border * sum(length for a, b, length in model.links if region_of[a] != region_of[b])


def judge_grouping(landscape, edges, model, names, drawn, certificate):
    for area, region in enumerate(certificate.region_of):
        if region >= len(certificate.regions):
            raise Flaw(f"Range {area}")
    for region, cls in enumerate(certificate.regions):
        if cls >= len(names):
            raise Flaw(f"ClassRange {region}")
    judge_drawing(landscape, edges, names, drawn, certificate)
    judge_regions(model, certificate)
    due = cost_of(model, certificate.regions, certificate.region_of)
    if due != certificate.cost:
        raise Flaw(f"Cost {due}")


def split_domains(domains, number, node):
    """The domains of both children."""
    allowed = domains[node.area] if node.area < len(domains) else set()
    if node.cls not in allowed or len(allowed) < 2:
        raise Flaw(f"Split {number}")
    yes, no = list(domains), list(domains)
    yes[node.area], no[node.area] = {node.cls}, allowed - {node.cls}
    return yes, no


def leaf_value(model, domains, number, leaf):
    flaw = sound(model, domains, leaf)
    if flaw is None:
        try:
            return value(model, domains, leaf)
        except Weak as weak:
            flaw = str(weak)
    name, _, fields = flaw.partition(" ")
    raise Flaw(f"{name} {number} {fields}".rstrip())


def tree_bound(model, tree):
    """The least value of the leaves; None where all are void."""
    waiting, values = [whole_domains(model)], []
    for number, node in enumerate(tree):
        domains = waiting.pop()
        if isinstance(node, Split):
            yes, no = split_domains(domains, number, node)
            waiting += [no, yes]
        else:
            values.append(leaf_value(model, domains, number, node))
    told = [bound for bound in values if bound is not None]
    return min(told) if told else None


def verdict(landscape, model, names, drawn, certificate):
    """`Valid`, or the first flaw with its fields. `drawn` is None where the status is `none`."""
    try:
        if certificate.areas != len(model.own):
            raise Flaw(f"Areas {len(model.own)}")
        if certificate.status != "none":
            judge_grouping(landscape, landscape.edges(), model, names, drawn, certificate)
        due = tree_bound(model, certificate.tree)
        if due != certificate.bound:
            raise Flaw(f"Bound {'-' if due is None else due}")
        if certificate.status != "none" and (certificate.status == "optimal") != (due >= certificate.cost):
            raise Flaw("Status")
        return "Valid"
    except Flaw as flaw:
        return str(flaw)


def read_certificate(text):
    try:
        return certificates.read(text)
    except certificates.CertificateFault as fault:
        raise Refused(f"certificate {fault}")


def read_drawn(text):
    """The coverage that a written map spells."""
    if len(text) > MOST_OUT:
        raise Refused("out TooLong")
    try:
        return polygon_maps.read_topology(json_tree.read(text), "class", "regions")
    except (json_tree.JsonFault, Refused) as fault:
        raise Refused(f"out {fault}")


def answer(asked, map_bytes, table_bytes, certificate_bytes, fetch_out):
    """The exit code and the said text; `fetch_out` gives the bytes of the written map, or None where they cannot be read."""
    try:
        landscape, table, problem = load(asked, map_bytes, table_bytes)
        certificate, drawn = read_certificate(certificate_bytes), None
        if certificate.status != "none":
            out = fetch_out()
            if out is None:
                return 74, b"read fault: out\n"
            drawn = read_drawn(out)
    except Refused as refusal:
        return 65, f"refused: {refusal}\n".encode()
    flaw = verdict(landscape, model_of(problem), table.names, drawn, certificate)
    if flaw != "Valid":
        return 5, f"invalid {flaw}\n".encode()
    told = ["-" if number is None else number for number in (certificate.cost, certificate.bound)]
    return 0, f"valid {certificate.status} {told[0]} {told[1]}\n".encode()


def answer_of_files(asked, map_bytes, table_bytes, certificate_bytes, fetch_out):
    """The exit code and the said text for the bytes of the files, each None where it cannot be read; they are read in this order."""
    texts = {"map": (map_bytes, MOST_MAP), "table": (table_bytes, MOST_TABLE), "certificate": (certificate_bytes, MOST_CERTIFICATE)}
    for place, (text, most) in texts.items():
        if text is None:
            return 74, f"read fault: {place}\n".encode()
        if len(text) > most:
            return 65, f"refused: {place} TooLong\n".encode()
    return answer(asked, map_bytes, table_bytes, certificate_bytes, fetch_out)


def check(words):
    """Does what the command says: the exit code and the said text."""
    map_name, table_name, out_name, certificate_name = words.files
    texts = [bytes_of(name) for name in (map_name, table_name, certificate_name)]
    return answer_of_files(words.asked, *texts, lambda: bytes_of(out_name))


def main():
    if not command_words.are_texts(sys.argv[1:]):
        sys.exit(64)
    words = command_words.read(sys.argv[1:])
    code, said = check(words) if words is not None and words.command == "check" else (64, command_words.USAGE)
    sys.stdout.buffer.write(said)
    sys.exit(code)


if __name__ == "__main__":
    main()
