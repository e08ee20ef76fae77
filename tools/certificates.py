"""The text of a certificate, both ways: `read(text)` gives a `Certificate` or raises `CertificateFault`; `text_of(certificate)`.

The tree is the list of its nodes in preorder, the `yes` child before the `no` child: `Split`, or `Leaf` with its rows, or `FIXED`. Each
certificate has one text. Written from the grammar, apart from the program, to compare it with; it proves nothing.
"""
import collections
import re

SIGNED = re.compile(rb"(0|-?[1-9][0-9]{0,38})\Z")
MOST_MARKS = 40000000
MOST_SPLITS = 1000000
DEEPEST = 1024
LARGEST = (1 << 127) - 1

# `regions` has the class of each region, `region_of` the region of each area; cost and bound are None where the status is `none`.
Certificate = collections.namedtuple("Certificate", "status cost bound areas regions region_of tree")
Split = collections.namedtuple("Split", "area cls")
Leaf = collections.namedtuple("Leaf", "void denominator rows")
Border = collections.namedtuple("Border", "link side cls multiplier")
Escape = collections.namedtuple("Escape", "multiplier area cls members")
FIXED = "fixed"


class CertificateFault(Exception):
    """The first line that breaks a rule: `Line`, `TooDeep` or `Limit`, and the line's number."""


def signed(word, least, most):
    """The number that a word spells without needless zeros; None where it is none or out of range."""
    if not SIGNED.match(word) or not least <= int(word) <= most:
        return None
    return int(word)


def marks(row):
    """What a row counts against the limit of marks."""
    return 8 + (len(row.members) if isinstance(row, Escape) else 0)


class Reader:
    """Goes through the lines in order."""

    def __init__(self, text):
        self.lines = text.split(b"\n")
        self.number, self.marks, self.splits = 0, 0, 0

    def fault(self, name):
        return CertificateFault(f"{name} {self.number}")

    def words(self):
        """The words of the next line, which must have its end."""
        self.number += 1
        if self.number >= len(self.lines):
            raise self.fault("Line")
        return self.lines[self.number - 1].split(b" ")

    def due(self, is_right):
        if not is_right:
            raise self.fault("Line")

    def exactly(self, *words):
        self.due(self.words() == list(words))

    def numbers(self, words, *ranges):
        """The numbers that all these words spell, each within its range."""
        self.due(len(words) == len(ranges))
        found = [signed(word, least, most) for word, (least, most) in zip(words, ranges)]
        self.due(None not in found)
        return found

    def told(self, name, least, most):
        """The number of a line of a name and a number."""
        words = self.words()
        self.due(words[0] == name)
        return self.numbers(words[1:], (least, most))[0]

    def told_or_none(self, name, none):
        """The cost or the bound, which is a dash exactly with `none`."""
        if none:
            self.exactly(name, b"-")
            return None
        return self.told(name, -LARGEST - 1, LARGEST)

    def certificate(self):
        self.exactly(b"aggregation", b"1")
        words = self.words()
        self.due(len(words) == 2 and words[0] == b"status" and words[1] in (b"optimal", b"within", b"none"))
        status = words[1].decode()
        none = status == "none"
        cost, bound = self.told_or_none(b"cost", none), self.told_or_none(b"bound", none)
        areas = self.told(b"areas", 0, 65536)
        count = self.told(b"regions", 0, 0 if none else 65536)
        regions = [self.told(b"r", 0, 63) for _ in range(count)]
        region_of = [self.told(b"a", 0, 65535) for _ in range(0 if none else areas)]
        tree = self.tree()
        self.exactly(b"end")
        self.number += 1
        self.due(self.lines[self.number - 1 :] == [b""])
        return Certificate(status, cost, bound, areas, regions, region_of, tree)

    def tree(self):
        depths, nodes = [0], []
        while depths:
            depth = depths.pop()
            node, count = self.node()
            if depth > DEEPEST:
                raise self.fault("TooDeep")
            if isinstance(node, Split):
                self.splits += 1
                if self.splits > MOST_SPLITS:
                    raise self.fault("Limit")
                depths += [depth + 1, depth + 1]
            elif isinstance(node, Leaf):
                node.rows.extend(self.row() for _ in range(count))
            nodes.append(node)
        return nodes

    def node(self):
        """A node without its rows, and how many rows it has."""
        words = self.words()
        if words == [b"f"]:
            return FIXED, 0
        if words[0] == b"s":
            return Split(*self.numbers(words[1:], (0, 65535), (0, 63))), 0
        if words[0] == b"v":
            return Leaf(True, 1, []), self.numbers(words[1:], (0, MOST_MARKS))[0]
        self.due(words[0] == b"c")
        denominator, count = self.numbers(words[1:], (1, 4096), (0, MOST_MARKS))
        return Leaf(False, denominator, []), count

    def row(self):
        words = self.words()
        if words[0] == b"b":
            row = Border(*self.numbers(words[1:], (0, 1048575), (0, 1), (0, 63), (-LARGEST, LARGEST)))
        else:
            self.due(words[0] == b"e")
            row = self.escape(words[1:])
        self.marks += marks(row)
        if self.marks > MOST_MARKS:
            raise self.fault("Limit")
        return row

    def escape(self, words):
        head = self.numbers(words[:4], (-LARGEST, LARGEST), (0, 65535), (0, 63), (0, MOST_MARKS))
        self.due(len(words) == 4 + head[3])
        members = self.numbers(words[4:], *[(0, 65535)] * head[3])
        self.due(all(a < b for a, b in zip(members, members[1:])))
        return Escape(*head[:3], members)


def read(text):
    """The certificate that the bytes spell."""
    return Reader(text).certificate()


def row_lines(rows):
    for row in rows:
        if isinstance(row, Border):
            yield f"b {row.link} {row.side} {row.cls} {row.multiplier}"
        else:
            yield " ".join(map(str, ["e", row.multiplier, row.area, row.cls, len(row.members)] + row.members))


def node_lines(node):
    if node == FIXED:
        yield "f"
    elif isinstance(node, Split):
        yield f"s {node.area} {node.cls}"
    else:
        yield f"v {len(node.rows)}" if node.void else f"c {node.denominator} {len(node.rows)}"
        yield from row_lines(node.rows)


def text_of(certificate):
    """The bytes of a certificate."""
    told = ["-" if number is None else number for number in (certificate.cost, certificate.bound)]
    lines = ["aggregation 1", f"status {certificate.status}", f"cost {told[0]}", f"bound {told[1]}"]
    lines += [f"areas {certificate.areas}", f"regions {len(certificate.regions)}"]
    lines += [f"r {cls}" for cls in certificate.regions] + [f"a {region}" for region in certificate.region_of]
    lines += [line for node in certificate.tree for line in node_lines(node)]
    return "\n".join(lines + ["end", ""]).encode()
