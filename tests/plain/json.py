"""A plain second reading of JSON texts, from RFC 8259 and from what `docs/FORMATS.md` says of the crate `serde_json`.

A value is None, a truth value, a number (int where it is written as a whole number, and not as -0; else float), a text, a list or a
dict. What is no JSON text has the value NONE: so are texts with numbers that no float can hold, with surrogates that stand alone, with
bytes that are no UTF-8, and with lists and objects that nest more than 127 deep.
"""
import math
import re

NONE = object()
DEPTH = 127

BLANK = re.compile(rb"[ \t\r\n]*")
NUMBER = re.compile(rb"-?(?:0|[1-9][0-9]*)(\.[0-9]+)?([eE][+-]?[0-9]+)?")
WORDS = {b"true": True, b"false": False, b"null": None}
PLAIN = re.compile(rb'[^"\\\x00-\x1f]*')
ESCAPES = {b'"': '"', b"\\": "\\", b"/": "/", b"b": "\b", b"f": "\f", b"n": "\n", b"r": "\r", b"t": "\t"}
HEXADECIMAL = re.compile(rb"[0-9A-Fa-f]{4}")


class Wrong(Exception):
    """The bytes are no JSON text."""


class Reader:
    """A text and a place in it."""

    def __init__(self, text):
        self.text, self.place = text, 0

    def taken(self, form):
        """What a form matches here, which has to match; it is passed by."""
        found = form.match(self.text, self.place)
        if not found:
            raise Wrong
        self.place = found.end()
        return found

    def passes(self, mark):
        """Whether this mark stands here, behind blanks; it is passed by."""
        self.taken(BLANK)
        stands = self.text.startswith(mark, self.place)
        self.place += len(mark) * stands
        return stands

    def need(self, mark):
        if not self.passes(mark):
            raise Wrong

    def value(self, depth=0):
        if self.passes(b"["):
            return self.members(depth + 1, b"]", self.value)
        if self.passes(b"{"):
            return dict(self.members(depth + 1, b"}", self.pair))
        if self.passes(b'"'):
            return self.string()
        for word, value in WORDS.items():
            if self.passes(word):
                return value
        return number_of(self.taken(NUMBER))

    def members(self, depth, close, member):
        """The members of a list or an object, up to its end; no comma stands before that."""
        if depth > DEPTH:
            raise Wrong
        found = []
        if self.passes(close):
            return found
        found.append(member(depth))
        while not self.passes(close):
            self.need(b",")
            found.append(member(depth))
        return found

    def pair(self, depth):
        self.need(b'"')
        name = self.string()
        self.need(b":")
        return name, self.value(depth)

    def string(self):
        """The text up to the next quotation mark that no backslash precedes."""
        parts = []
        while True:
            parts.append(utf8(self.taken(PLAIN).group()))
            mark = self.text[self.place : self.place + 1]
            self.place += 1
            if mark == b'"':
                return "".join(parts)
            if mark != b"\\":
                raise Wrong
            parts.append(self.escaped())

    def escaped(self):
        letter = self.text[self.place : self.place + 1]
        self.place += 1
        if letter != b"u":
            if letter not in ESCAPES:
                raise Wrong
            return ESCAPES[letter]
        unit = int(self.taken(HEXADECIMAL).group(), 16)
        if not 0xD800 <= unit <= 0xDFFF:
            return chr(unit)
        if unit > 0xDBFF or not self.text.startswith(b"\\u", self.place):
            raise Wrong
        self.place += 2
        low = int(self.taken(HEXADECIMAL).group(), 16)
        if not 0xDC00 <= low <= 0xDFFF:
            raise Wrong
        return chr(0x10000 + (unit - 0xD800) * 0x400 + low - 0xDC00)


def utf8(part):
    try:
        return part.decode()
    except UnicodeDecodeError:
        raise Wrong from None


def number_of(found):
    """An int where no fraction and no exponent is written and it is not -0; a long one is kept as a float, if it fits."""
    digits = found.group()
    value = float(digits)
    if math.isinf(value):
        raise Wrong
    is_int = not found.group(1) and not found.group(2) and digits != b"-0" and len(digits) < 25
    return int(digits) if is_int else value


def value_of(text):
    """The value of a text, or NONE."""
    reader = Reader(text)
    try:
        value = reader.value()
        reader.taken(BLANK)
    except Wrong:
        return NONE
    return value if reader.place == len(text) else NONE
