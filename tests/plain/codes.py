"""A plain second reading of the texts of codes: planar diagrams, signed Gauss codes and JSON, from `docs/FORMATS.md` alone.

`code_of(text)` gives the code of a text of bytes, in the form that its first byte tells, or raises `Ended` with the status and the line
that the program has to write. Whether the code is accepted is the question of `plain/diagrams.py`. JSON itself is read by `plain/json.py`.
"""
import re

import plain.json
from plain.diagrams import CROSSINGS, LOOPS_OF_A_TEXT, Code

REFUSED, LIMIT = 1, 6
BLANKS = b" \t\r\n"
GREATEST_NUMBER = 65_535
GREATEST_ARC = 255
GREATEST_WHOLE = 2**64 - 1

TOKEN = re.compile(rb"(?P<blank>[ \t\r\n]+)|(?P<word>[A-Za-z]+)|(?P<number>-?[0-9]+)|(?P<mark>[][{},])")
END = "end"


class Ended(Exception):
    """An answer that comes before the command's own: a status and a line."""

    def __init__(self, status, line):
        super().__init__(line)
        self.status, self.line = status, line


def refuse(line):
    raise Ended(REFUSED, f"refused {line}")


def need_room(what, count, most):
    if count > most:
        raise Ended(LIMIT, f"limit {what} {count} of {most}")


def value_of(digits):
    """The number that digits write, or None where it is above the greatest in size; thousands of zeros may lead."""
    short = digits.lstrip(b"-").lstrip(b"0") or b"0"
    if len(short) > 5 or int(short) > GREATEST_NUMBER:
        return None
    return -int(short) if digits.startswith(b"-") else int(short)


class Tokens:
    """The tokens of a text, each with its place, and how far they are read."""

    def __init__(self, text):
        self.read, self.tokens, place = 0, [], 0
        while place < len(text):
            found = TOKEN.match(text, place)
            if not found:
                refuse(f"text at {place}")
            if found.lastgroup == "number":
                value = value_of(found.group())
                if value is None:
                    refuse(f"number at {place}")
                self.tokens.append((place, "number", value))
            elif found.lastgroup != "blank":
                self.tokens.append((place, found.group().decode(), None))
            place = found.end()
        self.tokens.append((len(text), END, None))

    def comes(self, *kinds):
        """Whether the next token is one of these."""
        return self.tokens[self.read][1] in kinds

    def take(self, kind):
        """The place and the value of the next token, which has to be of this kind."""
        place, found, value = self.tokens[self.read]
        if found != kind:
            refuse(f"text at {place}")
        self.read += 1
        return place, value

    def take_all(self, *kinds):
        return [self.take(kind) for kind in kinds]

    def listed(self, item, close):
        """What `item` reads, any number of times with commas between, up to the closing mark."""
        items = []
        if not self.comes(close):
            items.append(item())
            while self.comes(","):
                self.take(",")
                items.append(item())
        self.take(close)
        return items

    def number(self):
        return self.take("number")


def arc_of(value):
    """An arc as it is kept: what no arc can be is 0."""
    return value if 0 <= value <= GREATEST_ARC else 0


def pd_code(text):
    tokens = Tokens(text)

    def item():
        """The arcs of a crossing, or None for a loop."""
        if tokens.comes("Loop"):
            tokens.take_all("Loop", "[", "number", "]")
            return None
        came = tokens.take_all("X", "[", "number", ",", "number", ",", "number", ",", "number", "]")
        return tuple(arc_of(came[at][1]) for at in (2, 4, 6, 8))

    tokens.take_all("PD", "[")
    items = tokens.listed(item, "]")
    tokens.take(END)
    crossings = tuple(it for it in items if it)
    need_room("crossings", len(crossings), CROSSINGS)
    need_room("loops", len(items) - len(crossings), LOOPS_OF_A_TEXT)
    return Code(crossings, len(items) - len(crossings))


def gauss_groups(tokens):
    """The body of a Gauss text: groups of labels, each with its place."""
    tokens.take_all("GaussCode", "[")
    if tokens.comes("{"):

        def group():
            tokens.take("{")
            return tokens.listed(tokens.number, "}")

        return tokens.listed(group, "]")
    labels = tokens.listed(tokens.number, "]")
    return [labels] if labels else []


def gauss_signs(tokens):
    """The signs with their places, or None where there is no such list."""
    signs = None
    if tokens.comes("Signs"):
        tokens.take_all("Signs", "[")
        signs = tokens.listed(tokens.number, "]")
    tokens.take(END)
    return signs


def need_labels(labels, half):
    seen = set()
    for place, label in labels:
        if label == 0 or abs(label) > half or label in seen:
            refuse(f"label at {place}")
        seen.add(label)


def need_signs(signs, half):
    if signs is None:
        if half:
            refuse("no signs")
        return []
    if len(signs) != half:
        refuse(f"signs {len(signs)} wanted {half}")
    for place, sign in signs:
        if abs(sign) != 1:
            refuse(f"label at {place}")
    return [sign for _, sign in signs]


def gauss_code(text):
    tokens = Tokens(text)
    groups = gauss_groups(tokens)
    signs = gauss_signs(tokens)
    labels = [label for group in groups for label in group]
    half = len(labels) // 2
    need_room("crossings", half, CROSSINGS)
    need_room("loops", groups.count([]), LOOPS_OF_A_TEXT)
    need_labels(labels, half)
    return crossings_of([[label for _, label in group] for group in groups], need_signs(signs, half))


def crossings_of(groups, signs):
    """The code of components of labels: passes are numbered in their order, and each enters on the arc of its number."""
    entered, left, before = {}, {}, 0
    for group in groups:
        turned = len(group) == 2 and 0 < group[1] < group[0]
        for at, label in enumerate(group[::-1] if turned else group):
            entered[label], left[label] = before + at + 1, before + (at + 1) % len(group) + 1
        before += len(group)
    crossings = []
    for number, sign in enumerate(signs, 1):
        over = (left[number], entered[number]) if sign == 1 else (entered[number], left[number])
        crossings.append((entered[-number], over[0], left[-number], over[1]))
    return Code(tuple(crossings), groups.count([]))


def json_code(text):
    value = plain.json.value_of(text)
    if not isinstance(value, list):
        refuse("json" if value is plain.json.NONE else "shape at crossing 0 slot 0")
    need_room("crossings", len(value), CROSSINGS)
    for number, element in enumerate(value, 1):
        if not isinstance(element, list):
            refuse(f"shape at crossing {number} slot 0")
        for slot in range(4):
            if slot >= len(element) or not is_whole(element[slot]):
                refuse(f"shape at crossing {number} slot {slot}")
        if len(element) > 4:
            refuse(f"shape at crossing {number} slot 4")
    return Code(tuple(tuple(map(arc_of, element)) for element in value), 0)


def is_whole(value):
    return type(value) is int and 0 <= value <= GREATEST_WHOLE


def code_of(text):
    """The code of a text, in the form that its first byte behind blanks tells."""
    form = {b"[": json_code, b"G": gauss_code}.get(text.lstrip(BLANKS)[:1], pd_code)
    return form(text)
