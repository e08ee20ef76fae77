"""The words of the commands, read apart from the program: `read(words)` gives a `Command`, or None where they are in no right form."""
import collections
import re

USAGE = b"usage: generalise FORMAT MAP TABLE OUT CERT [--splits N] [--class NAME] [--object NAME] | "
USAGE += b"check FORMAT MAP TABLE OUT CERT [--class NAME] [--object NAME] | make COLUMNS ROWS SEED MAP TABLE OUT CERT [--splits N]\n"

# The form is `topojson`, `geojson` or `grid`; the object's name is None where any is meant, and then there must be only one.
Asked = collections.namedtuple("Asked", "form class_name object_name")
# For `make` the numbers are columns, rows and seed, and nothing is asked; else there are no numbers.
Command = collections.namedtuple("Command", "command asked numbers files splits")

OPTIONS = {"generalise": {"--splits", "--class", "--object"}, "check": {"--class", "--object"}, "make": {"--splits"}}
OPERANDS = {"generalise": 5, "check": 5, "make": 7}


def are_texts(words):
    """Whether all words are texts; where one is not, the program ends with 64 and says nothing."""
    try:
        return all(word.encode("utf-8") is not None for word in words)
    except UnicodeEncodeError:
        return False


def parted(command, words):
    """The operands and the options behind a command; None where a word is empty or stands in no right place."""
    operands, options, at = [], {}, 0
    while at < len(words):
        word = words[at]
        if word in OPTIONS[command] and word not in options and at + 1 < len(words):
            options[word] = words[at + 1]
            at += 1
        else:
            operands.append(word)
        at += 1
    if any(not word or word.startswith("-") for word in operands + list(options.values())):
        return None
    return operands, options


def number(word, digits, least, most):
    """The value of a word of one to so many digits; None where it is none or out of range."""
    if not re.fullmatch("[0-9]{1,%d}" % digits, word) or not least <= int(word) <= most:
        return None
    return int(word)


def asked_of(form, options):
    """What is asked of a map; None where an option does not fit the format."""
    if form not in ("topojson", "geojson", "grid"):
        return None
    if (form == "grid" and "--class" in options) or (form != "topojson" and "--object" in options):
        return None
    return Asked(form, options.get("--class", "class"), options.get("--object"))


def read(words):
    """The command that the words are, without the program's name."""
    if not words or words[0] not in OPTIONS:
        return None
    command = words[0]
    found = parted(command, words[1:])
    if found is None or len(found[0]) != OPERANDS[command]:
        return None
    operands, options = found
    splits = number(options.get("--splits", "10000"), 7, 0, 1000000)
    files, asked, numbers = operands[-4:], None, []
    if command == "make":
        limits = ((3, 1, 256), (3, 1, 256), (10, 0, 2147483647))
        numbers = [number(word, *limit) for word, limit in zip(operands, limits)]
    else:
        asked = asked_of(operands[0], options)
    if splits is None or None in numbers or (command != "make" and asked is None) or len(set(files)) < 4:
        return None
    return Command(command, asked, numbers, files, splits)
