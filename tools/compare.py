#!/usr/bin/env python3
"""Compares the program with the second implementation on random maps and tables:

    compare.py PROGRAM RUNS SEED [--splits N] [--keep FILE] [--batch N] [FORMAT ..]

The formats, `grid`, `topojson` and `geojson`, take turns; without any named all three do. In every third run of a format a text is changed at
random places of its bytes or of its values, so that refusals are compared too. Refusals, and answers that no grouping is feasible, are
compared byte by byte: exit codes, said texts and certificates.

The second implementation draws one region for each part of a map and splits nothing; the program may do better, with 0 to N splits, a random
number in each run. So its other answers are judged. The second judge must find the certificate valid: the grouping feasible, its cost as
stated, and the bound that of the tree. It may cost no more than one region for each part, its regions are numbered by their least areas, and
its tree has at most so many splits. The report and the exit code must say what the certificate says, and the written map must be byte for
byte that of its regions. Beside that the written map is held against the certificate in another way. For a grid the middle of each cell lies
in the drawn region of the cell's area and in no other, and in none where there is no data. For polygons the edges of each drawn region are
those that an odd number of its areas have.

It prints the first run that differs, or how many agreed, by format, exit code and fault, and a line that sums up. With `--keep FILE` it keeps
there how far it is, and goes on from there when it is called again; with `--batch N` it ends after N runs. PROGRAM may be
`tools/reference.py` itself, which tests this tool. It takes no part in any proof.
"""
import json
import os
import subprocess
import sys
import tempfile

import certificates
import judge
from command_words import Asked
from layout import edge, map_text as map_text_of, steps
from random_maps import CLASSES, random_map
from reference import PolygonMap, answer, borders_of, bytes_of, load, patches_of, read_grid
from tally import Tally, take_option
from topology import regions, ring_of

FORMS = ["grid", "topojson", "geojson"]
GRID_BYTES = b" \t\r\n0123456789-.abcelnorsw#\xc3\xff\x00"
JSON_BYTES = b' \n0123456789-.eE+[]{}:,"\\nulltrueuDd8cC\xc3\xa4\xed\xf4\xff\x00\x1f'


def random_grid(dice, strange):
    """A grid, with a line that does not belong there where that is wanted."""
    columns, rows = dice.randint(1, 9), dice.randint(1, 7)
    values = dice.sample(["1", "2", "3", "-9999", "0", "007", "5.0", "-4"], dice.randint(1, 4))
    head = [f"ncols {columns}", f"nrows {rows}", "xllcorner 0", "yllcorner -1.5e3", "cellsize 1"]
    if dice.random() < 0.4:
        head.append("NODATA_value " + dice.choice(["-9999", "1", "0", "2.0"]))
    if dice.random() < 0.3:
        dice.shuffle(head)
    if dice.random() < 0.3:
        head = [line.upper() if dice.random() < 0.5 else line for line in head]
    if strange or dice.random() < 0.1:
        lines = ["XLLCENTER 1", "dx 1", "ncols 3", "ncols 3 4", "1 2"] if strange else ["", " \t"]
        head.insert(dice.randint(0, len(head)), dice.choice(lines))
    body = []
    for _ in range(rows):
        body.append(dice.choice([" ", "  ", "\t"]).join(dice.choice(values) for _ in range(columns)))
    return spelled(dice, head + body)


def random_table(dice, strange):
    """A table of most of the classes that a map may have, with a line that does not belong there where that is wanted."""
    names = dice.sample(CLASSES, dice.choice([10, 10, 10, dice.randint(1, 10)]))
    out = ["classes 1"]
    if dice.random() < 0.4:
        out.append(f"unit {dice.randint(1, 12)} {dice.randint(1, 12)}")
    out.append(f"border {dice.choice([0, 1, 17, 10000])}")
    out += [f"class {dice.choice([0, 2, 4, 8, 30, 10**30])} {name}" for name in names]
    for i in range(len(names)):
        row = [dice.choice([0, 5, 300, 10000]) for _ in names]
        row[i] = 0
        out.append("row " + " ".join(map(str, row)))
    if strange or dice.random() < 0.2:
        lines = [" # no comment", "row 0", "class 4 1", "class 4 fen", "unit 1 1"] if strange else ["# a comment", "", "  "]
        out.insert(dice.randint(0, len(out)), dice.choice(lines))
    return spelled(dice, out)


def spelled(dice, rows):
    end = dice.choice(["\n", "\n", "\n", "\r\n"])
    return (end.join(rows) + (end if dice.random() < 0.85 else "")).encode()


def changed(dice, text, fresh):
    """The text with one to three bytes changed, left out or put in; new ones are among those that are fresh."""
    text = bytearray(text)
    for _ in range(dice.randint(1, 3)):
        at = dice.randint(0, len(text))
        byte = dice.choice(fresh)
        if dice.random() < 0.5 and at < len(text):
            text[at] = byte
        elif dice.random() < 0.5 and at < len(text):
            del text[at : at + dice.randint(1, 6)]
        else:
            text.insert(at, byte)
    return bytes(text)


def words_of(dice, asked, names, splits):
    """The words of a run, with the options anywhere behind the command."""
    groups = [[asked.form]] + [[names[name]] for name in "mtoc"]
    options = [["--splits", str(splits)]]
    if asked.class_name != "class":
        options.append(["--class", asked.class_name])
    if asked.object_name is not None:
        options.append(["--object", asked.object_name])
    for option in options:
        groups.insert(dice.randint(0, len(groups)), option)
    return ["generalise"] + [word for group in groups for word in group]


def run(program, folder, dice, asked, splits, map_text, table_text):
    """What the program ends with and says, and the bytes of the certificate and of the map."""
    names = {name: os.path.join(folder, name) for name in "mtoc"}
    for name, text in (("m", map_text), ("t", table_text)):
        with open(names[name], "wb") as file:
            file.write(text)
    for name in "oc":
        if os.path.exists(names[name]):
            os.remove(names[name])
    done = subprocess.run([program] + words_of(dice, asked, names, splits), capture_output=True, check=False)
    return done.returncode, done.stdout, bytes_of(names["c"]), bytes_of(names["o"])


def rings_of(topology):
    """The rings of each drawn region as lists of points in cells; None where a ring is not closed or visits a point twice."""
    drawn = []
    for _, rings in regions(topology):
        drawn.append([])
        for paths in rings:
            points = ring_of(paths)
            joined = all(path[-1] == after[0] for path, after in zip(paths, paths[1:] + paths[:1]))
            if not joined or len(set(points)) != len(points):
                return None
            drawn[-1].append(points)
    return drawn


def holds(rings, x, y):
    """Whether an odd number of upright steps stand to the right of the point, which is the middle of a cell."""
    crossed = 0
    for ring in rings:
        for (ax, ay), (bx, by) in zip(ring, ring[1:] + ring[:1]):
            if ax == bx and ax > x and min(ay, by) < y < max(ay, by):
                crossed += 1
    return crossed % 2 == 1


def is_drawn_by_cells(map_text, region_of, drawn):
    """Whether the rings have the middle of each cell in its region and in no other."""
    columns, rows, nodata, cells, _ = read_grid(map_text)
    patch, _ = patches_of(columns, rows, nodata, cells)
    for place, area in enumerate(patch):
        x, y = place % columns + 0.5, rows - place // columns - 0.5
        inside = [r for r, rings in enumerate(drawn) if holds(rings, x, y)]
        if inside != ([] if area is None else [region_of[area]]):
            return False
    return True


def is_drawn_by_edges(asked, map_text, region_of, drawn):
    """Whether the rings of each region step along the edges that an odd number of its areas have, and along no other."""
    landscape = PolygonMap(map_text, asked)
    landscape.check()
    due = [set() for _ in drawn]
    for edges, region in zip(landscape.edges(), region_of):
        due[region] ^= edges
    walked = [[edge(a, b) for ring in rings for a, b in steps(ring)] for rings in drawn]
    return all(len(told) == len(edges) and set(told) == edges for told, edges in zip(walked, due))


def is_drawn(asked, map_text, certificate, out):
    """Whether the written map has the regions of the certificate."""
    if out is None:
        return certificate is None or b"status none" in certificate
    region_of = [int(line[2:]) for line in certificate.decode().split("\n") if line.startswith("a ")]
    drawn = rings_of(json.loads(out))
    if drawn is None:
        return False
    if asked.form == "grid":
        return is_drawn_by_cells(map_text, region_of, drawn)
    return is_drawn_by_edges(asked, map_text, region_of, drawn)


def random_run(dice, form, changing):
    """What is asked, a map and a table. Where that is wanted a value, a line or some bytes of one of the texts are changed."""
    way = dice.choice(["values", "values", "bytes", "table line", "table bytes"]) if changing else None
    if form == "grid":
        asked, map_text = Asked("grid", "class", None), random_grid(dice, way == "values")
    else:
        map_text, asked = random_map(dice, form, way == "values")
    table_text = random_table(dice, way == "table line")
    if way == "bytes":
        map_text = changed(dice, map_text, GRID_BYTES if form == "grid" else JSON_BYTES)
    elif way == "table bytes":
        table_text = changed(dice, table_text, GRID_BYTES)
    return asked, map_text, table_text


def is_valid(asked, map_text, table_text, got):
    """Whether the second judge finds the certificate valid, where there is one."""
    return got[2] is None or judge.answer(asked, map_text, table_text, got[2], lambda: got[3])[0] == 0


def due_answer(asked, map_text, table_text, certificate):
    """The answer that a certificate with a grouping asks for."""
    landscape, table, _ = load(asked, map_text, table_text)
    count = len(certificate.regions)
    lines = [certificate.status, f"areas {landscape.areas}", f"passed {landscape.passed}", f"regions {count}"]
    splits = sum(isinstance(node, certificates.Split) for node in certificate.tree)
    lines += [f"cost {certificate.cost}", f"bound {certificate.bound}", f"splits {splits}", ""]
    names = [table.names[cls].decode() for cls in certificate.regions]
    out = map_text_of(borders_of(landscape.edges(), certificate.region_of, count), names, landscape.frame)
    return 0 if certificate.status == "optimal" else 3, "\n".join(lines).encode(), certificates.text_of(certificate), out


def is_due(asked, map_text, table_text, got, due, splits):
    """Whether an answer says what its certificate says and costs no more than the due one, or is the due one where that has no grouping."""
    if due[0] not in (0, 3) or got[2] is None:
        return got == due
    certificate = certificates.read(got[2])
    if certificate.status == "none" or certificate.cost > certificates.read(due[2]).cost:
        return False
    firsts = [certificate.region_of.index(region) for region in range(len(certificate.regions))]
    few = sum(isinstance(node, certificates.Split) for node in certificate.tree) <= splits
    return few and firsts == sorted(firsts) and got == due_answer(asked, map_text, table_text, certificate)


def is_cheaper(got, due):
    """Whether an answer costs less than one region for each part."""
    return got[0] in (0, 3) and certificates.read(got[2]).cost < certificates.read(due[2]).cost


def compared(program, folder, dice, run_of, splits):
    """Runs the program on a map and a table: what it answered, what was due, and whether the two agree."""
    asked, map_text, table_text = run_of
    got = run(program, folder, dice, asked, splits, map_text, table_text)
    due = answer(asked, map_text, table_text)
    same = is_due(asked, map_text, table_text, got, due, splits)
    return got, due, same and is_drawn(asked, map_text, got[2], got[3]) and is_valid(asked, map_text, table_text, got)


def count_run(tally, form, changing, got, due):
    """Counts a run that agreed."""
    words = got[1].decode().split() if got[0] == 65 else []
    tally.count("kind " + " ".join([form, str(got[0])] + [word for word in words if word.strip("-0123456789")]))
    tally.count("form " + form)
    tally.count("changed", changing)
    tally.count("cheaper", is_cheaper(got, due))


def summary(tally, total):
    """The line that sums up."""
    kinds = [kind.split(" ", 2) for kind in tally.lines("kind ")]
    sums = {code: sum(int(count) for count, _, rest in kinds if rest.startswith(code)) for code in ("0", "3", "4", "65")}
    faults = {rest for _, _, rest in kinds if rest.startswith("65")}
    forms = ", ".join(" ".join(reversed(line.split())) for line in tally.lines("form "))
    told = f"{tally.head(total)} ({forms}), {tally.counts['changed']} of them changed at random places: {sums['0']} optimal, "
    told += f"{sums['3']} within, {sums['4']} none, {sums['65']} refused by {len(faults)} kinds of line; "
    return told + f"{tally.counts['cheaper']} cheaper than one region for each part"


def main():
    words = sys.argv[1:]
    splits, path, batch = (take_option(words, name) for name in ("--splits", "--keep", "--batch"))
    program, total, seed, forms = words[0], int(words[1]), words[2], words[3:] or FORMS
    if not set(forms) <= set(FORMS):
        sys.exit(f"compare.py: a format is one of {', '.join(FORMS)}")
    tally = Tally(program, [seed, splits or "0"] + forms, path)
    with tempfile.TemporaryDirectory() as folder:
        for at, dice in tally.runs(total, None if batch is None else int(batch), seed):
            form, changing = forms[at % len(forms)], at // len(forms) % 3 == 0
            run_of = random_run(dice, form, changing)
            got, due, same = compared(program, folder, dice, run_of, dice.randint(0, int(splits or 0)))
            if not same:
                sys.exit(f"run {at}\n{run_of[0]}\nmap {run_of[1]!r}\ntable {run_of[2]!r}\nprogram {got!r}\nreference {due!r}")
            count_run(tally, form, changing, got, due)
    print("\n".join(tally.lines("kind ") + [summary(tally, total)]))


if __name__ == "__main__":
    main()
