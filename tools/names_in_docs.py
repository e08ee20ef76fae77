#!/usr/bin/env python3
"""Prints each name of docs/DEFINITIONS.md, as `File.name`, that no file of that name in a crate's specs/ defines.

usage: python3 tools/names_in_docs.py     at the top of the repository; it ends with 1 where it printed a name
"""
import pathlib
import re
import sys

TOP = pathlib.Path(__file__).resolve().parent.parent


def definitions():
    """The texts of all files of definitions, by the name of the file."""
    texts = {}
    for file in TOP.glob("crates/*/specs/*.antt"):
        texts.setdefault(file.stem, []).append(file.read_text())
    return texts


def is_defined(name, text):
    """Whether a line of the text makes the name public."""
    return re.search(r"^\s*(?:abbrev |unfoldable )?pub (?:data |record )?" + re.escape(name) + r"\b", text, re.M) is not None


def main():
    texts = definitions()
    document = (TOP / "docs" / "DEFINITIONS.md").read_text()
    names = sorted(set(re.findall(r"`([A-Z]\w*)\.(\w+)`", document)))
    missing = [f"{file}.{name}" for file, name in names if not any(is_defined(name, text) for text in texts.get(file, []))]
    print("\n".join(missing) if missing else "every name is defined")
    return 1 if missing else 0


if __name__ == "__main__":
    sys.exit(main())
