#!/usr/bin/env python3
"""A second implementation of the program, to compare it with: reference.py generalise FORMAT MAP TABLE OUT CERT --splits 0

It is written apart from the program. The words are those of the program, with `--class NAME` and `--object NAME`. It is slow and plain, it
proves nothing, and nothing in the program stands on it. `answer(asked, map, table)` gives the exit code, the said text, the certificate and
the written map, or None where there is none; `asked` has the format and the names of `command_words.Asked`.
"""
import math
import re
import sys

import command_words
import coverage
import json_tree
import polygon_maps
from layout import edge, map_text
from polygon_maps import Refused

LETTERS = set(b"abcdefghijklmnopqrstuvwxyzABCDEFGHIJKLMNOPQRSTUVWXYZ")
JSON_NUMBER = re.compile(rb"-?(0|[1-9][0-9]*)(\.[0-9]+)?([eE][+-]?[0-9]+)?\Z")
WHOLE = re.compile(rb"-?[0-9]+(\.0+)?\Z")
FAR = 2147483647
MOST_MAP = 67108864
MOST_TABLE = 1048576


def lines(text):
    """The lines without their ends: LF, or CR LF; a last line without LF keeps its CR."""
    if not text:
        return []
    parts = text.split(b"\n")
    ended = [part[:-1] if part.endswith(b"\r") else part for part in parts[:-1]]
    return ended + ([parts[-1]] if parts[-1] else [])


def blank_words(line):
    return [word for word in re.split(rb"[ \t]+", line) if word]


def digits_value(digits):
    """The number that digits spell, with any number of zeros in front; more than 31 others are past every limit."""
    digits = digits.lstrip(b"0")
    return int(digits or b"0") if len(digits) <= 31 else 10**31


def cell_value(word):
    """The value of a cell or of no data; None where the word is none."""
    if not WHOLE.match(word):
        return None
    size = digits_value(word.lstrip(b"-").split(b".")[0])
    return None if size > FAR else -size if word.startswith(b"-") else size


def header_value(name, word):
    if name in (b"ncols", b"nrows"):
        return digits_value(word) if word.isdigit() and word.isascii() and 1 <= digits_value(word) <= 524288 else None
    if name == b"nodata_value":
        return cell_value(word)
    if len(word) > 100 or not JSON_NUMBER.match(word) or (name == b"cellsize" and word.startswith(b"-")):
        return None
    return word


def read_grid(text):
    """Columns, rows, the value for no data, the cells from the top row on, and the four texts of the frame."""
    names = (b"ncols", b"nrows", b"xllcorner", b"yllcorner", b"cellsize", b"nodata_value")
    head, rows = {}, lines(text)
    at = 0
    while at < len(rows):
        words = blank_words(rows[at])
        if words and words[0][0] not in LETTERS:
            break
        if words:
            name = words[0].lower()
            if name in (b"xllcenter", b"yllcenter"):
                raise Refused(f"map Centred {at + 1}")
            value = header_value(name, words[1]) if name in names and len(words) == 2 and name not in head else None
            if value is None:
                raise Refused(f"map Header {at + 1}")
            head[name] = value
        at += 1
    if any(name not in head for name in names[:5]):
        raise Refused(f"map Header {at + 1}")
    columns, total = head[b"ncols"], head[b"ncols"] * head[b"nrows"]
    if total > 524288:
        raise Refused("map Limit Cells")
    words = [word for row in rows[at:] for word in re.split(rb"[ \t\r]+", row) if word]
    cells = []
    for place, word in enumerate(words[:total]):
        value = cell_value(word)
        if value is None:
            raise Refused(f"map Cell {place // columns} {place % columns}")
        cells.append(value)
    if len(words) != total:
        raise Refused(f"map Count {len(words)}")
    frame = [head[name].decode() for name in (b"cellsize", b"cellsize", b"xllcorner", b"yllcorner")]
    return columns, head[b"nrows"], head.get(b"nodata_value", -9999), cells, frame


def patches_of(columns, rows, nodata, cells):
    """The patch of each cell, or None, and the number of patches."""
    patch, count = [None] * len(cells), 0
    for first, value in enumerate(cells):
        if value == nodata or patch[first] is not None:
            continue
        patch[first], todo = count, [first]
        while todo:
            cell = todo.pop()
            row, column = divmod(cell, columns)
            near = [cell - 1] * (column > 0) + [cell + 1] * (column + 1 < columns)
            near += [cell - columns] * (row > 0) + [cell + columns] * (row + 1 < rows)
            for other in near:
                if cells[other] == value and patch[other] is None:
                    patch[other] = count
                    todo.append(other)
        count += 1
    if count > 65536:
        raise Refused("map Limit Areas")
    return patch, count


def number(word, least, most):
    if not word.isdigit() or not word.isascii() or len(word) > 31 or not least <= int(word) <= most:
        return None
    return int(word)


class Table:
    """A class table: the factors of the axes, the border weight, names, thresholds and rows of distances."""

    def __init__(self, text):
        self.unit, self.border, self.names, self.thresholds, self.rows = None, None, [], [], []
        seen, all_lines = False, lines(text)
        for at, line in enumerate(all_lines, 1):
            if line.startswith(b"#") or not blank_words(line):
                continue
            words = blank_words(line)
            if not seen:
                if words != [b"classes", b"1"]:
                    raise Refused(f"table Line {at} Version")
                seen = True
                continue
            self.take(at, line, words)
        if not seen:
            raise Refused(f"table Line {len(all_lines) + 1} Version")
        if not self.names or len(self.rows) != len(self.names):
            raise Refused(f"table Line {len(all_lines) + 1} End")
        self.unit = self.unit or (1, 1)

    def take(self, at, line, words):
        def fault(why):
            return Refused(f"table Line {at} {why}")

        first, rest = words[0], words[1:]
        if self.border is None:
            if first == b"unit" and self.unit is None and len(rest) == 2:
                factors = [number(word, 1, 100) for word in rest]
                if None in factors:
                    raise fault("Number")
                self.unit = tuple(factors)
            elif first == b"border" and len(rest) == 1:
                self.border = number(rest[0], 0, 10000)
                if self.border is None:
                    raise fault("Number")
            else:
                raise fault("Word")
        elif first == b"class" and not self.rows:
            self.take_class(at, line, rest, fault)
        elif first == b"row" and self.names and len(self.rows) < len(self.names):
            if len(rest) != len(self.names):
                raise fault("Count")
            distances = [number(word, 0, 10000) for word in rest]
            if None in distances:
                raise fault("Number")
            if distances[len(self.rows)] != 0:
                raise fault("Diagonal")
            self.rows.append(distances)
        else:
            raise fault("Word")

    def take_class(self, at, line, rest, fault):
        if len(rest) < 2:
            raise fault("Word")
        if len(self.names) == 64:
            raise Refused(f"table Limit {at}")
        threshold = number(rest[0], 0, 10**30)
        if threshold is None:
            raise fault("Number")
        name = re.match(rb"[ \t]*[^ \t]+[ \t]+[^ \t]+[ \t]+(.*)\Z", line, re.S).group(1).rstrip(b" \t")
        try:
            name.decode("utf-8")
        except UnicodeDecodeError:
            raise fault("Name")
        if not 1 <= len(name) <= 100 or any(byte < 32 for byte in name):
            raise fault("Name")
        if name in self.names:
            raise Refused(f"table RepeatedClass {at}")
        self.names.append(name)
        self.thresholds.append(threshold)


class Problem:
    """The problem of weighed areas and a table: weights, own classes, and links with their lengths."""

    def __init__(self, names, weight, links, table):
        self.areas, self.table, self.weight, self.links = len(names), table, weight, links
        for area, name in enumerate(names):
            if name not in table.names:
                raise Refused(f"classes UnknownClass {area}")
        for area, sum_of_terms in enumerate(weight):
            if sum_of_terms < 1:
                raise Refused(f"weights NoWeight {area} {sum_of_terms}")
        self.own = [table.names.index(name) for name in names]

    def parts(self):
        """The least area that each area hangs together with."""
        part = list(range(self.areas))

        def top(area):
            while part[area] != area:
                area = part[area]
            return area

        for a, b in self.links:
            low, high = sorted((top(a), top(b)))
            part[high] = low
        return [top(area) for area in range(self.areas)]


class GridMap:
    """A grid as patches of cells, measured cell by cell."""

    def __init__(self, text):
        self.columns, self.rows, nodata, self.cells, self.frame = read_grid(text)
        self.patch, self.areas = patches_of(self.columns, self.rows, nodata, self.cells)
        self.passed = 0

    def check(self):
        """A grid's patches never cross or overlap."""

    def problem(self, table):
        names, weight, links = [None] * self.areas, [0] * self.areas, {}
        wide, high = table.unit
        for place, area in enumerate(self.patch):
            if area is None:
                continue
            weight[area] += 2 * wide * high
            names[area] = str(self.cells[place]).encode()
            beside = self.patch[place + 1] if (place + 1) % self.columns else None
            below = self.patch[place + self.columns] if place + self.columns < len(self.cells) else None
            for other, stretch in ((beside, high), (below, wide)):
                if other is not None and other != area:
                    pair = (min(area, other), max(area, other))
                    links[pair] = links.get(pair, 0) + math.isqrt(65536 * stretch * stretch)
        return Problem(names, weight, links, table)

    def edges(self):
        """The odd edges of each area: the sides of its cells that no other cell of it has."""
        found = [set() for _ in range(self.areas)]
        for place, area in enumerate(self.patch):
            if area is not None:
                x, y = place % self.columns, self.rows - 1 - place // self.columns
                corners = [(x, y), (x + 1, y), (x + 1, y + 1), (x, y + 1)]
                found[area] ^= {edge(a, b) for a, b in zip(corners, corners[1:] + corners[:1])}
        return found


class PolygonMap:
    """A map of polygons, measured by the edges of its areas."""

    def __init__(self, text, asked):
        try:
            tree = json_tree.read(text)
        except json_tree.JsonFault as fault:
            raise Refused(f"map {fault}")
        try:
            if asked.form == "topojson":
                self.coverage = polygon_maps.read_topology(tree, asked.class_name, asked.object_name)
            else:
                self.coverage = polygon_maps.read_features(tree, asked.class_name)
        except Refused as refusal:
            raise Refused(f"map {refusal}")
        self.frame = self.coverage.frame

    def check(self):
        self.coverage = coverage.check(self.coverage)
        self.areas, self.passed = len(self.coverage.areas), self.coverage.passed

    def problem(self, table):
        areas, (wide, high) = self.coverage.areas, table.unit
        weight = [wide * high * coverage.weight_of(edges) for _, edges in areas]
        return Problem([name for name, _ in areas], weight, coverage.links_of(areas, table.unit), table)

    def edges(self):
        return [edges for _, edges in self.coverage.areas]


def choose(problem, members):
    """The open class of least recolouring, the least at a tie; None where none is open."""
    weight = sum(problem.weight[area] for area in members)
    owned = {problem.own[area] for area in members}
    best = None
    for k in range(len(problem.table.names)):
        if k in owned and problem.table.thresholds[k] <= weight:
            cost = sum(problem.weight[area] * problem.table.rows[problem.own[area]][k] for area in members)
            if best is None or cost < best[0]:
                best = (cost, k)
    return best


def certificate_of(status, cost, bound, areas, regions, region_of, leaf):
    head = ["aggregation 1", f"status {status}", f"cost {cost}", f"bound {bound}", f"areas {areas}", f"regions {len(regions)}"]
    rest = [f"r {k}" for k in regions] + [f"a {r}" for r in region_of]
    return "\n".join(head + rest + leaf + ["end", ""]).encode()


def solve(problem):
    """The exit code, the status with cost and bound, the certificate, the class of each region, and the region of each area."""
    part = problem.parts()
    members = {}
    for area, least in enumerate(part):
        members.setdefault(least, []).append(area)
    classes, regions, cost = len(problem.table.names), [], 0
    for least in sorted(members):
        best = choose(problem, members[least])
        if best is None:
            own = members[least]
            leaf = [f"v {classes}"]
            leaf += [f"e 1 {least} {k} {len(own)} " + " ".join(map(str, own)) for k in range(classes)]
            return 4, ("none", "-", "-"), certificate_of("none", "-", "-", problem.areas, [], [], leaf), [], []
        cost += best[0]
        regions.append(best[1])
    number_of = {least: r for r, least in enumerate(sorted(members))}
    region_of = [number_of[least] for least in part]
    status = "optimal" if cost == 0 else "within"
    leaf = ["f"] if classes == 1 or problem.areas == 0 else ["c 1 0"]
    text = certificate_of(status, cost, 0, problem.areas, regions, region_of, leaf)
    return (0 if cost == 0 else 3), (status, cost, 0), text, regions, region_of


def borders_of(edges, region_of, count):
    """The border edges of each region: those that an odd number of its areas have."""
    borders = [set() for _ in range(count)]
    for own, region in zip(edges, region_of):
        borders[region] ^= own
    return borders


def load(asked, map_bytes, table_bytes):
    """The map, its table and their problem, or the first refusal."""
    landscape = GridMap(map_bytes) if asked.form == "grid" else PolygonMap(map_bytes, asked)
    table = Table(table_bytes)
    landscape.check()
    return landscape, table, landscape.problem(table)


def answer(asked, map_bytes, table_bytes):
    """The exit code, the said text, the certificate and the written map for the bytes of a map and a table."""
    try:
        landscape, table, problem = load(asked, map_bytes, table_bytes)
    except Refused as refusal:
        return 65, f"refused: {refusal}\n".encode(), None, None
    code, (status, cost, bound), text, regions, region_of = solve(problem)
    counts = f"areas {landscape.areas}\npassed {landscape.passed}\nregions {len(regions)}\n"
    report = f"{status}\n{counts}cost {cost}\nbound {bound}\nsplits 0\n".encode()
    if status == "none":
        return code, report, text, None
    names = [table.names[k].decode() for k in regions]
    borders = borders_of(landscape.edges(), region_of, len(regions))
    return code, report, text, map_text(borders, names, landscape.frame)


def bytes_of(path):
    """The bytes of a file; None where it cannot be read."""
    try:
        with open(path, "rb") as file:
            return file.read()
    except OSError:
        return None


def store(path, text):
    with open(path, "wb") as file:
        file.write(text)


def generalise(words):
    """Does what the command says: the exit code and the said text."""
    map_name, table_name, out_name, certificate_name = words.files
    texts = []
    for name, place, most in ((map_name, "map", MOST_MAP), (table_name, "table", MOST_TABLE)):
        texts.append(bytes_of(name))
        if texts[-1] is None:
            return 74, f"read fault: {place}\n".encode()
        if len(texts[-1]) > most:
            return 65, f"refused: {place} TooLong\n".encode()
    code, said, certificate, out = answer(words.asked, *texts)
    if certificate is not None:
        store(certificate_name, certificate)
    if out is not None:
        store(out_name, out)
    return code, said


def main():
    if not command_words.are_texts(sys.argv[1:]):
        sys.exit(64)
    words = command_words.read(sys.argv[1:])
    if words is None or words.command != "generalise" or words.splits != 0:
        code, said = 64, command_words.USAGE
    else:
        code, said = generalise(words)
    sys.stdout.buffer.write(said)
    sys.exit(code)


if __name__ == "__main__":
    main()
