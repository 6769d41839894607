"""Cuts a text into codes, each with its name and the place where it stands: codes on lines of their own, and tables with a heading.

A code begins on a line of its own and goes on until its brackets are closed. Where they are not, it ends before a blank line, before the
next name, and before a line that begins with what only a code begins with.
"""
import re
from typing import NamedTuple

from . import braid_words, codes, dowker, link_names, plain_lists

# Signs that other programs write for a minus, and quotes, which are blanks.
MINUS, QUOTES = "\u2010\u2011\u2012\u2013\u2014\u2015\u2212\ufe63\uff0d", "\"'`“”‘’"
ALIKE = str.maketrans({**dict.fromkeys(MINUS, "-"), **dict.fromkeys(QUOTES, " ")})
COMMENT = re.compile(r"(^|\s)#.*")
BETWEEN = re.compile(r"\s*(:=|=|:|\t|(?P<of_row>[,;|])(?=\s*[\[({]))\s*")
WORDS = r"(?i:PD|GaussCode|Link|PlanarDiagram|braid|BR|DT\w*|Dowker\w*|Knot|TorusKnot|TorusLink)\b|T\s*[\[(]"
OPEN, BEHIND = r"[\[({]", r"[\s;,.]*$"
BEGIN = re.compile(rf"\s*({WORDS}|{OPEN}|({codes.BARE.pattern}|\$?{link_names.NAME}\$?){BEHIND})")
# A word that says which form a code has.
HEADED = re.compile(rf"\s*({WORDS})")
# What begins a code, and no line within one: also a name before something, strands and letters, even numbers, and a name alone.
OWN = re.compile(
    rf"\s*({WORDS}|{OPEN}\s*{OPEN}|[^\[\](){{}},;:=]+[:=]|{OPEN}\s*\d+\s*,\s*{OPEN}"
    rf"|{OPEN}(\s*-?\d*[02468]\s*,)+\s*-?\d*[02468]\s*[\])}}]{BEHIND}|{link_names.NAME}{BEHIND})"
)
# What tells the fields of a row apart; what stands between two quotes tells nothing.
SEPARATORS = ",\t;|"
MARKS = {it: re.compile(rf'"[^"]*"|["\[\](){{}}{re.escape(it)}]') for it in SEPARATORS}
# A name before a planar diagram that may be known.
NAMED = re.compile(r"(?P<name>[A-Za-z0-9_.^(){}+-]+)(\t|: ?)")
# What begins as a list of numbers or of crossings is no name.
LISTED = re.compile(rf"\s*({'|'.join(sorted(filter(None, codes.DIAGRAMS | codes.CROSSINGS | {'Loop'})))})?\s*{OPEN}\s*([-+\d]|X|{OPEN})")
SIGNS = re.compile(r"\s*Signs\b")
GAUSS = re.compile(r"\s*Gauss")
BRAID, DOWKER, MISSING = "braid", "dowker", "missing"
# The columns of a table that have codes, by their headings, the first of them that a row fills being read; and the forms of their codes.
COLUMNS = {
    "pd_notation": "",
    "pd_notation_vector": "",
    "pd_code": "",
    "pd": "",
    "braid_notation": BRAID,
    "braid": BRAID,
    "dt_notation": DOWKER,
    "dt_code": DOWKER,
    "dt": DOWKER,
    "gauss_notation": "",
}


class Known(NamedTuple):
    """A code of which nothing has to be said: its name, the text for `kh`, and the line where it stands."""

    name: str
    code: str
    line: int


class Field(NamedTuple):
    """A field of a row, and its place."""

    start: int
    text: str


class Heading(NamedTuple):
    """The sign between the fields of a table, the place of the names, and those of codes with their forms."""

    separator: str
    name: int
    columns: list


class Statement:
    """A code of a text: its name, how it stands there, the line where it begins, what stands there before it, and its form where that is
    told."""

    def __init__(self, name, shown, line, head, form=""):
        self.name, self.shown, self.line, self.head, self.form = name, shown, line, head, form

    @property
    def text(self):
        """The code with plain signs, and without what may stand behind a code."""
        return re.sub(r"[\s;,.]+$", "", self.shown.translate(ALIKE))

    def place(self, at):
        """The number of the line, the line and the column of a place in the text."""
        before = (self.head + self.shown[:at]).split("\n")
        return self.line + len(before) - 1, (self.head + self.shown).split("\n")[len(before) - 1], len(before[-1])

    def goes_on(self, line):
        """Whether a line belongs to this code."""
        text = self.text
        if SIGNS.match(line):
            return bool(GAUSS.match(text))
        if not line or depth_of(text) <= 0 or named(line)[0] or heading_of(line):
            return False
        return text[-1:] in codes.OPEN or not OWN.match(line.translate(ALIKE))


def depth_of(text):
    """How many brackets of a text are open at its end."""
    return sum(text.count(sign) for sign in codes.OPEN) - sum(text.count(sign) for sign in codes.CLOSE)


def is_name(text):
    """Whether a text that stands before a code may be its name."""
    words = text.split()
    is_open = depth_of(text) != 0 or text.rstrip().endswith((",", ";"))
    return bool(words) and not is_open and not braid_words.WORD.fullmatch(words[0]) and not dowker.WORD.fullmatch(words[0])


def named(line: str) -> tuple[str, str, str]:
    """The name before a code, the code, and all that stands before it."""
    plain = line.translate(ALIKE)
    for found in BETWEEN.finditer(plain):
        before = plain[: found.start()]
        is_one = re.fullmatch(link_names.NAME, before.strip()) if found["of_row"] else is_name(before)
        if is_one and BEGIN.match(plain, found.end()):
            return parted(line, found)
    for found in BETWEEN.finditer(plain):
        # (what is no code stays behind its name, to be refused under it)
        if not found["of_row"] and is_name(plain[: found.start()]) and not LISTED.match(plain) and plain[found.end() :].strip():
            return parted(line, found)
    return "", line, ""


def parted(line: str, found: re.Match[str]) -> tuple[str, str, str]:
    """The name before this sign, what stands behind it, and all that stands before that."""
    name, head = line[: found.start()], line[: found.end()]
    return " ".join(name.split()).strip(QUOTES + " "), line[found.end() :], head.expandtabs(1)


def fields_of(line, separator):
    """The fields of a row: a separator in quotes or in brackets is none."""
    fields, start, depth, is_quoted = [], 0, 0, False
    for found in MARKS[separator].finditer(line):
        sign = found[0]
        is_quoted ^= sign == '"'
        depth += 0 if is_quoted else (sign in codes.OPEN) - (sign in codes.CLOSE)
        if sign == separator and not is_quoted and depth <= 0:
            fields.append(Field(start, line[start : found.start()]))
            start = found.end()
    return [*fields, Field(start, line[start:])]


def title_of(text):
    return re.sub(r"[\s_-]+", "_", text.translate(ALIKE).strip()).lower()


def heading_of(line):
    """The heading of a table, where a line is one: it names a column `name` and one with codes."""
    for separator in SEPARATORS if "name" in line.lower() else "":
        titles = [title_of(it.text) for it in fields_of(line, separator)]
        columns = [(titles.index(title), form) for title, form in COLUMNS.items() if title in titles]
        if columns and "name" in titles:
            return Heading(separator, titles.index("name"), columns)
    return None


def row_of(heading, line, number, may_be_known):
    """The code of a row of a table."""
    fields = fields_of(line, heading.separator)
    name = fields[heading.name].text.strip(QUOTES + " ") if heading.name < len(fields) else ""
    for at, form in heading.columns:
        if at < len(fields) and re.search(r"\d", fields[at].text):
            code = plain_lists.written(fields[at].text.strip('" ')) if may_be_known and name and not form else ""
            if code:
                return Known(name, code, number)
            return Statement(name, fields[at].text, number, line[: fields[at].start].expandtabs(1), form)
    return Statement(name, line, number, "", MISSING)


def known_of(line, number):
    """The code of a line of its own, with a name before it or none, where nothing has to be said of it; else nothing."""
    found = NAMED.match(line)
    name = found["name"] if found else ""
    if name and (not is_name(name) or "name" in name.lower()):
        return None
    code = plain_lists.written(line[found.end() :] if found else line)
    return Known(name, code, number) if code else None


def statements(text, may_be_known=True):
    """The codes of a text; where they may be known, those are of which nothing has to be said."""
    whole = heading = None
    for number, line in enumerate(text.split("\n"), 1):
        known = known_of(line, number) if may_be_known and not heading else None
        is_comment = "#" in line and bool(re.match(r"\s*#", line))
        line = (COMMENT.sub("", line) if "#" in line else line).rstrip()
        if whole and (is_comment or whole.goes_on(line)):
            whole.shown += "\n" + line
            continue
        if whole:
            yield whole
            whole = None
        if known:
            yield known
            continue
        found = heading_of(line)
        if found or not line and not is_comment:
            heading = found
        elif heading and line:
            yield row_of(heading, line, number, may_be_known)
        elif line:
            name, code, head = named(line)
            whole = Statement(name, code, number, head)
    if whole:
        yield whole
