"""JSON that keeps the characters of its numbers and knows the place of a fault: `read(text)` and `text_of(tree)`.

A tree is None, True, False, a `Number`, a str, a list, or `Members`. `read` raises `JsonFault` with the name `Syntax` or `TooDeep` and a
place, which counts bytes from 0. It is written from the grammar, apart from the program, to compare it with, and proves nothing.
"""
import collections
import re

DEEPEST = 64
ABSENT = object()
MARK = b"\xef\xbb\xbf"
HEX = b"0123456789abcdefABCDEF"
SHORT = {b'"'[0]: '"', b"\\"[0]: "\\", b"/"[0]: "/", b"b"[0]: "\b", b"f"[0]: "\f", b"n"[0]: "\n", b"r"[0]: "\r", b"t"[0]: "\t"}
PLAIN = re.compile(rb"[ !#-\[\]-\x7f]*")
SPACE = re.compile(rb"[ \t\n\r]*")
DIGITS = re.compile(rb"[0-9]*")
NUMBER = rb"(-?(?:0|[1-9][0-9]*)(?:\.[0-9]+)?(?:[eE][+-]?[0-9]+)?)"
# Most of a map is pairs of numbers: each is read at once.
PAIR = re.compile(rb"\[[ \t\n\r]*" + NUMBER + rb"[ \t\n\r]*,[ \t\n\r]*" + NUMBER + rb"[ \t\n\r]*\]")

Number = collections.namedtuple("Number", "text")


class JsonFault(Exception):
    """What is wrong with a text, and at which byte."""

    def __init__(self, name, at):
        super().__init__(f"{name} {at}")
        self.name, self.at = name, at


class Members:
    """The members of an object in order; a name may occur again, and then its last one counts."""

    def __init__(self, pairs):
        self.pairs = pairs

    def member(self, name):
        """The last member of that name, or ABSENT."""
        for own, tree in reversed(self.pairs):
            if own == name:
                return tree
        return ABSENT


def member(tree, name):
    """The last member of that name, or ABSENT, also where the tree is no object."""
    return tree.member(name) if isinstance(tree, Members) else ABSENT


def tails(lead):
    """The ranges of the bytes behind the first byte of a character that is no ASCII; None where no character begins so."""
    usual = (0x80, 0xBF)
    if 0xC2 <= lead <= 0xDF:
        return [usual]
    if 0xE0 <= lead <= 0xEF:
        return [{0xE0: (0xA0, 0xBF), 0xED: (0x80, 0x9F)}.get(lead, usual), usual]
    if 0xF0 <= lead <= 0xF4:
        return [{0xF0: (0x90, 0xBF), 0xF4: (0x80, 0x8F)}.get(lead, usual), usual, usual]
    return None


class Reader:
    """Goes through the bytes from the left and stops at the first byte with which no right text goes on."""

    def __init__(self, text):
        self.text, self.at = text, 0

    def next(self):
        """The byte that comes, or -1 at the end."""
        return self.text[self.at] if self.at < len(self.text) else -1

    def wrong(self):
        return JsonFault("Syntax", self.at)

    def take(self, bytes_due):
        """Passes over a byte that must be one of these."""
        byte = self.next()
        if byte < 0 or byte not in bytes_due:
            raise self.wrong()
        self.at += 1
        return byte

    def skip(self, bytes_free):
        """Passes over a byte where it is one of these."""
        byte = self.next()
        if byte < 0 or byte not in bytes_free:
            return False
        self.at += 1
        return True

    def space(self):
        self.at = SPACE.match(self.text, self.at).end()

    def whole(self):
        """The tree of the whole text."""
        if self.text[:1] == MARK[:1]:
            for byte in MARK:
                self.take(bytes([byte]))
        self.space()
        tree = self.value(0)
        self.space()
        if self.at < len(self.text):
            raise self.wrong()
        return tree

    def value(self, depth):
        byte = self.next()
        if byte in (0x5B, 0x7B):
            if depth == DEEPEST:
                raise JsonFault("TooDeep", self.at)
            pair = PAIR.match(self.text, self.at)
            if pair:
                self.at = pair.end()
                return [Number(part.decode()) for part in pair.groups()]
            self.at += 1
            return self.items(depth + 1) if byte == 0x5B else self.members(depth + 1)
        if byte == 0x22:
            return self.string()
        for word, tree in ((b"null", None), (b"true", True), (b"false", False)):
            if byte == word[0]:
                for letter in word:
                    self.take(bytes([letter]))
                return tree
        return self.number()

    def items(self, depth):
        """The list whose bracket was passed over."""
        found = []
        self.space()
        if self.skip(b"]"):
            return found
        while True:
            found.append(self.value(depth))
            self.space()
            if self.take(b",]") == 0x5D:
                return found
            self.space()

    def members(self, depth):
        """The object whose brace was passed over."""
        pairs = []
        self.space()
        if self.skip(b"}"):
            return Members(pairs)
        while True:
            name = self.string()
            self.space()
            self.take(b":")
            self.space()
            pairs.append((name, self.value(depth)))
            self.space()
            if self.take(b",}") == 0x7D:
                return Members(pairs)
            self.space()

    def number(self):
        first = self.at
        self.skip(b"-")
        if not self.skip(b"0"):
            self.digits()
        if self.skip(b"."):
            self.digits()
        if self.skip(b"eE"):
            self.skip(b"+-")
            self.digits()
        return Number(self.text[first : self.at].decode())

    def digits(self):
        """Passes over one digit or more."""
        end = DIGITS.match(self.text, self.at).end()
        if end == self.at:
            raise self.wrong()
        self.at = end

    def string(self):
        self.take(b'"')
        pieces = []
        while True:
            end = PLAIN.match(self.text, self.at).end()
            pieces.append(self.text[self.at : end].decode())
            self.at = end
            byte = self.next()
            if self.skip(b'"'):
                return "".join(pieces)
            pieces.append(self.escape() if self.skip(b"\\") else self.character(byte))

    def character(self, lead):
        """A character of two to four bytes."""
        ranges = tails(lead)
        if ranges is None:
            raise self.wrong()
        first = self.at
        self.at += 1
        for least, most in ranges:
            self.take(range(least, most + 1))
        return self.text[first : self.at].decode()

    def escape(self):
        """The character that an escape spells; the backslash was passed over."""
        byte = self.take(b'"\\/bfnrtu')
        if byte != b"u"[0]:
            return SHORT[byte]
        digits = bytes([self.take(HEX)])
        paired = False
        if digits in b"dD":
            digits += bytes([self.take(b"0123456789abAB")])
            paired = digits[1:] in b"89abAB"
        while len(digits) < 4:
            digits += bytes([self.take(HEX)])
        code = int(digits, 16)
        return chr(0x10000 + (code - 0xD800) * 0x400 + self.second_half() - 0xDC00) if paired else chr(code)

    def second_half(self):
        """The second escape of a pair, which spells one character with the first."""
        for due in (b"\\", b"u"):
            self.take(due)
        digits = bytes([self.take(due) for due in (b"dD", b"cdefCDEF", HEX, HEX)])
        return int(digits, 16)


def read(text):
    """The tree that the bytes spell."""
    return Reader(text).whole()


def string_text(text):
    """A string as it stands in JSON, with as few escapes as may be."""
    escaped = text.replace("\\", "\\\\").replace('"', '\\"')
    return '"' + re.sub("[\x00-\x1f]", lambda match: f"\\u{ord(match.group()):04x}", escaped) + '"'


def text_of(tree):
    """The tree's text without white space."""
    if isinstance(tree, Number):
        return tree.text
    if isinstance(tree, str):
        return string_text(tree)
    if isinstance(tree, list):
        return "[" + ",".join(map(text_of, tree)) + "]"
    if isinstance(tree, Members):
        return "{" + ",".join(f"{string_text(name)}:{text_of(value)}" for name, value in tree.pairs) + "}"
    return {None: "null", True: "true", False: "false"}[tree]
