#!/usr/bin/env python3
"""Compares the program's judge with the second implementation on random maps, written maps and certificates:

    compare_check.py PROGRAM RUNS SEED [--keep FILE] [--batch N] [FORMAT ..]

The formats take turns as in compare.py. A run has an accepted map with a table, a certificate without a flaw, of a random feasible grouping
and a random tree with splits, leaves and rows, or of `none`, and its written map. In every second run of a format something is changed: a flaw
is made on purpose, or two of them, or a number, a region, an area or a node of the certificate is changed at random; a word or a line of its
text, or its tree is made too deep; a value or some bytes of the written map, or its frame; some bytes of the map; a file is not there; or the
words of the command are in no right form. Exit codes and said texts of `check` are compared with those of judge.py.

It prints the first run that differs, or how many agreed, by format, exit code and what was said, and a line that sums up. `--keep` and
`--batch` are those of compare.py. PROGRAM may be `tools/judge.py` itself, which tests this tool; where it is `-` none is run, and what the
second judge says is counted. It takes no part in any proof.
"""
import collections
import os
import re
import subprocess
import sys
import tempfile

import certificates
import command_words
import judge
import json_tree
import random_certificates
import reference
from aimed_flaws import AIMS, Told, aimed
from compare import FORMS, GRID_BYTES, JSON_BYTES, changed, random_run
from random_certificates import drawn_text, right_certificate
from random_maps import SCALES, changed_tree
from row_sums import model_of
from tally import Tally, take_option

OUT_PLACES = ["out value", "out bytes", "out number", "out name", "out deep", "frame"]
# Places that leave no room in many maps, or that are changed in many ways, stand more than once.
PLACES = list(AIMS) + ["loose"] * 2 + ["too small", "wide across"] + ["wide total", "wide areas", "wide areas"] * 2 + ["two flaws"] * 8
PLACES += ["grouping", "tree", "tree"] + ["lines"] * 8 + ["deep"] * 2 + OUT_PLACES + ["out value", "out number"] * 4 + ["out name", "frame"]
PLACES += ["map", "words"] + ["no file"] * 4
NAMES = [b"regions", b"class", b"arcs", b"objects", b"type", b"Topology", b"MultiPolygon", b"GeometryCollection", b"geometries", b"scale"]

# What is asked, the texts of the four files in the order of the words, and the words that are wrong, if they are.
Triple = collections.namedtuple("Triple", "asked map_text table_text out certificate words", defaults=(None,))


def close_table(dice, table, problem):
    """A table of the map's classes alone, and now and then one more, whose thresholds are near to what some areas weigh together."""
    names = sorted({table.names[own] for own in problem.own})
    names += [name for name in table.names if name not in names][: max(2 - len(names), dice.choice([0, 0, 1]))]
    dice.shuffle(names)
    lines = [b"classes 1", b"unit %d %d" % table.unit, b"border %d" % dice.choice([0, 1, 17])]
    for name in names:
        share = dice.choice([0, 0.1, 0.3, 0.6, 0.6])
        some = sum(weight for weight in problem.weight if dice.random() < share)
        lines.append(b"class %d %s" % (max(0, some + dice.choice([-1, 0, 0, 1])), name))
    for own in names:
        lines.append(b" ".join([b"row"] + [b"0" if name == own else b"%d" % dice.choice([1, 5, 300]) for name in names]))
    return b"\n".join(lines + [b""])


def accepted_run(dice, form):
    """What is asked, a map and a table that are accepted, and the second implementation's certificate."""
    while True:
        asked, map_text, table_text = random_run(dice, form, False)
        certificate = reference.answer(asked, map_text, table_text)[2]
        if certificate is None or (b"\nareas 0\n" in certificate and dice.random() < 0.8):
            continue
        if dice.random() < 0.7:
            _, table, problem = reference.load(asked, map_text, table_text)
            table_text = close_table(dice, table, problem)
            certificate = reference.answer(asked, map_text, table_text)[2]
        return asked, map_text, table_text, certificates.read(certificate)


def strayed(dice, place, model, told):
    """The certificate changed at this place, and the one that the written map is of."""
    certificate = told.certificate
    if place == "tree" or certificate.status == "none":
        return told._replace(certificate=random_certificates.strayed_tree(dice, model, certificate))
    other = random_certificates.strayed_grouping(dice, model, certificate)
    with_cost = random_certificates.due_cost(model, other) if dice.random() < 0.7 else other
    return Told(with_cost, other if dice.random() < 0.7 else certificate)


def flawed(dice, place, model, told):
    """The certificate with the flaw of this place, and the one that is drawn; with another flaw where there is no room for it."""
    if place in ("grouping", "tree"):
        return strayed(dice, place, model, told)
    aims = sorted(AIMS)
    for aim in [place] if place in AIMS else dice.sample(aims, 2):
        told = aimed(dice, aim, model, told) or strayed(dice, "tree", model, told)
    return told


def changed_value(dice, text):
    """The text of JSON with a value changed."""
    tree = json_tree.read(text)
    changed_tree(dice, tree)
    return json_tree.text_of(tree).encode()


def changed_frame(dice, text):
    """The text of a written map with another number in its transform; where it has none, with another value."""
    tree = json_tree.read(text)
    transform = json_tree.member(tree, "transform")
    if transform is json_tree.ABSENT:
        return changed_value(dice, text)
    pair = json_tree.member(transform, dice.choice(["scale", "translate"]))
    pair[dice.randint(0, 1)] = json_tree.Number(dice.choice(SCALES))
    return json_tree.text_of(tree).encode()


def changed_number(dice, text):
    """The text with another number in a number's place, or another spelling."""
    places = list(re.finditer(rb"-?[0-9]+", text))
    if not places:
        return changed(dice, text, JSON_BYTES)
    found = dice.choice(places)
    number = int(found.group())
    others = [number + 1, number - 1, -number - 1, number + (1 << 30), 65536]
    others += [f"{number}.0", f"{number}.50", f"{number}e0", f"{number}.", "null"]
    return text[: found.start()] + str(dice.choice(others)).encode() + text[found.end() :]


def changed_name(dice, text):
    """The text with another name in a name's place, or with a member before or behind one of its name."""
    name = dice.choice([name for name in NAMES if name in text])
    pick = dice.random()
    if pick < 0.3:
        more = b'"%s":%s,' % (name, dice.choice([b"null", b"[]", b"{}", b"1", b'"Polygon"', b'"1"']))
        at = dice.choice([found.end() for found in re.finditer(rb"\{", text)])
        return text[:at] + more + text[at:]
    return text.replace(name, dice.choice([name[:-1], name.upper(), b"Polygon", b"\\u00%02x" % name[0] + name[1:]]), 1)


def made_deep(dice, text):
    """The text with lists in it that are nested about as deep as may be."""
    levels = dice.choice([62, 63, 64])
    return b'{"x":' + b"[" * levels + b"]" * levels + b"," + text[1:]


CHANGES = {
    "out value": changed_value,
    "out bytes": lambda dice, text: changed(dice, text, JSON_BYTES),
    "out number": changed_number,
    "out name": changed_name,
    "out deep": made_deep,
    "frame": changed_frame,
}


def changed_certificate(dice, place, text):
    """The text of a certificate changed as the place asks for."""
    return random_certificates.deepened(dice, text) if place == "deep" else random_certificates.changed_lines(dice, text)


def without_a_file(dice, triple):
    """The triple without one of its files, or without several."""
    names = ["map_text", "table_text", "out", "certificate"]
    return triple._replace(**dict.fromkeys(dice.sample(names, dice.choice([1, 1, 1, 1, 2]))))


def wrong_words(dice, names):
    """Words behind `check` that are in no right form."""
    words = ["check", "grid"] + names
    at = dice.randint(1, len(words) - 1)
    ways = [words + ["--splits", "5"], words + ["--class", "class"], words + ["--object"], words + ["x"], words[:at] + [""] + words[at + 1 :]]
    ways += [words[:at] + words[at + 1 :], words[:at] + ["--"] + words[at:], words[:at] + ["-x"] + words[at + 1 :], words[:-1] + [words[2]]]
    ways += [["Check"] + words[1:], words[:1] + ["Grid"] + words[2:], words[1:], words[:1] + ["geojson"] + words[2:] + ["--object", "t"], []]
    ways += [words[:1] + ["topojson"] + words[2:] + ["--class", "a", "--class", "a"], words[:1] + ["geojson"] + words[2:] + ["--class", "-a"]]
    return dice.choice(ways)


def random_check(dice, form, changing):
    """A triple of map, written map and certificate, with a table; something is changed where that is wanted."""
    asked, map_text, table_text, first = accepted_run(dice, form)
    landscape, table, problem = reference.load(asked, map_text, table_text)
    model, place = model_of(problem), dice.choice(PLACES) if changing else None
    right = right_certificate(dice, model, first)
    told = Told(right, right)
    if place in AIMS or place in ("two flaws", "grouping", "tree"):
        told = flawed(dice, place, model, told)
    out, text = drawn_text(landscape, table.names, told.drawn), certificates.text_of(told.certificate)
    if place in ("lines", "deep") or (out is None and place in OUT_PLACES):
        text = changed_certificate(dice, place, text)
    elif place in OUT_PLACES or (out is not None and place == "two flaws" and dice.random() < 0.15):
        out = CHANGES.get(place, changed_value)(dice, out)
    elif place == "map":
        map_text = changed(dice, map_text, GRID_BYTES if form == "grid" else JSON_BYTES)
    triple = Triple(asked, map_text, table_text, out, text)
    if place == "no file":
        return without_a_file(dice, triple)
    return triple._replace(words=wrong_words(dice, list("mtoc"))) if place == "words" else triple


def words_of(dice, triple, names):
    """The words of a run, with the options anywhere behind the command."""
    if triple.words is not None:
        return triple.words
    groups = [[word] for word in [triple.asked.form] + names]
    options = [] if triple.asked.class_name == "class" else [["--class", triple.asked.class_name]]
    options += [] if triple.asked.object_name is None else [["--object", triple.asked.object_name]]
    for option in options:
        groups.insert(dice.randint(0, len(groups)), option)
    return ["check"] + [word for group in groups for word in group]


def run(program, folder, dice, triple):
    """What the program's `check` ends with and says. A file without a text is left out."""
    names = [os.path.join(folder, name) for name in "mtoc"]
    for name, text in zip(names, (triple.map_text, triple.table_text, triple.out, triple.certificate)):
        if os.path.exists(name):
            os.remove(name)
        if text is not None:
            with open(name, "wb") as file:
                file.write(text)
    done = subprocess.run([program] + words_of(dice, triple, names), capture_output=True, check=False)
    return done.returncode, done.stdout


def due_of(triple):
    """What the second judge answers."""
    if triple.words is not None and command_words.read(triple.words) is None:
        return 64, command_words.USAGE
    return judge.answer_of_files(triple.asked, triple.map_text, triple.table_text, triple.certificate, lambda: triple.out)


def kind_of(answer):
    """What was said, without numbers."""
    if answer[0] == 64:
        return "usage"
    return " ".join(word for word in answer[1].decode().split() if word.strip("-0123456789"))


def summary(tally, total):
    """The line that sums up."""
    kinds = [line.split(" ", 3) for line in tally.lines("kind ")]
    sums = {code: sum(int(count) for count, _, own, _ in kinds if own == code) for code in ("0", "5", "64", "65", "74")}
    said = {code: len({rest for _, _, own, rest in kinds if own == code}) for code in ("5", "65")}
    forms = ", ".join(" ".join(reversed(line.split())) for line in tally.lines("form "))
    told = f"{tally.head(total)} ({forms}), {tally.counts['changed']} of them changed: {sums['0']} valid, {sums['5']} invalid "
    told += f"by {said['5']} kinds of flaw, {sums['65']} refused by {said['65']} kinds of line, {sums['74']} read faults, "
    return told + f"{sums['64']} of wrong words"


def main():
    words = sys.argv[1:]
    path, batch = (take_option(words, name) for name in ("--keep", "--batch"))
    program, total, seed, forms = words[0], int(words[1]), words[2], words[3:] or FORMS
    tally = Tally(program, [seed] + forms, path)
    with tempfile.TemporaryDirectory() as folder:
        for at, dice in tally.runs(total, None if batch is None else int(batch), seed):
            form, changing = forms[at % len(forms)], at // len(forms) % 2 == 0
            triple = random_check(dice, form, changing)
            due = due_of(triple)
            got = due if program == "-" else run(program, folder, dice, triple)
            if got != due:
                sys.exit(f"run {at}\n{triple!r}\nprogram {got!r}\nreference {due!r}")
            tally.count(f"kind {form} {got[0]} {kind_of(got)}")
            tally.count("form " + form)
            tally.count("changed", changing)
    print("\n".join(tally.lines("kind ") + [summary(tally, total)]))


if __name__ == "__main__":
    main()
