"""Comparisons in many runs, batch by batch: `Tally`. It takes no part in any proof."""
import collections
import hashlib
import json
import os
import random
import sys

SAVED_EVERY = 50


class Tally:
    """How many runs of a comparison agreed so far, and how many of each kind.

    The random numbers of a run depend on the seed and on its number alone. Where a file is named, how far the comparison is is kept there, so
    that a later call with the same words and the same program goes on from the next run.
    """

    def __init__(self, program, words, path):
        self.path, self.done, self.counts = path, 0, collections.Counter()
        self.words = [checksum(program)] + words
        if path is not None and os.path.exists(path):
            with open(path, encoding="utf-8") as file:
                kept = json.load(file)
            if kept["words"] != self.words:
                sys.exit(f"{path} is of another comparison, or of another program")
            self.done, self.counts = kept["done"], collections.Counter(kept["counts"])

    def count(self, kind, is_so=True):
        self.counts[kind] += is_so

    def runs(self, total, batch, seed):
        """The runs that are still to do, at most as many as a batch has: the number of each, and its random numbers."""
        for at in range(self.done, total if batch is None else min(total, self.done + batch)):
            yield at, random.Random(f"{seed} {at}")
            self.done = at + 1
            if self.done % SAVED_EVERY == 0:
                self.save()
        self.save()

    def save(self):
        if self.path is not None:
            with open(self.path, "w", encoding="utf-8") as file:
                json.dump({"words": self.words, "done": self.done, "counts": self.counts}, file)

    def lines(self, prefix):
        """The counts of the kinds that begin with this, in order, without it."""
        return [f"{count} {kind[len(prefix):]}" for kind, count in sorted(self.counts.items()) if kind.startswith(prefix) and count]

    def head(self, total):
        """How far the comparison is."""
        return f"{self.done} runs agreed" if self.done == total else f"{self.done} of {total} runs agreed so far"


def checksum(program):
    """What tells one program from another; nothing where none is run."""
    if program == "-":
        return program
    with open(program, "rb") as file:
        return hashlib.sha256(file.read()).hexdigest()


def take_option(words, name):
    """The value of an option, which is taken out of the words; None where it is not there."""
    if name not in words[:-1]:
        return None
    at = words.index(name)
    value = words[at + 1]
    del words[at : at + 2]
    return value
