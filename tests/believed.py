"""Rules on the pages that say what one has to believe, for `tests/rules.py`.

`docs/DEFINITIONS.md` has the definitions that the statements rest on which README.md names, each once in the first column of a table, none
too many and none too few, and each in or below the row of every other that it rests on. `docs/STATEMENT.md` is what `tools/statement`
writes. Where README.md and `docs/THEOREM.md` tell sizes of cones, they are these.
"""
import functools
import importlib.machinery
import importlib.util
import os
import re
from collections import Counter

from shared.places import TOP
from tools import cones, definitions

# What README.md says is proved: the headlines of both programs, moves, unions, mirrors, logs, scans.
STATEMENTS = (
    "kh_work::run headline",
    "scan_main::run headline",
    "scan_main::run lists",
    "link_laws::moves_keep_homology",
    "link_laws::links_have_one_table",
    "link_laws::links_have_one_polynomial",
    "link_laws::links_have_one_last_page",
    "link_laws::knots_have_one_s",
    "union_laws::unions_multiply_dimensions",
    "link_algebra::mirrors_are_dual",
    "cancel_log::logs_are_verified",
    "scan_laws::scans_count_dimensions",
)
ROW = re.compile(r"^\| (`[^|]*?) \|", re.M)
NAME = re.compile(r"`([^`]+)`")
SIZE = re.compile(r"^(\| `([^`|]*)` \|[^|\n]*\| )\d+ \| \d+ \|", re.M)
LINES = re.compile(r"\[\d+ lines( to believe)?\]\((docs/)?STATEMENT\.md\)")


@functools.cache
def cone():
    """The definitions that the statements rest on. A type that contracts see as a record of the same name is one with it."""
    found = cones.cone({name for it in STATEMENTS for name in cones.roots(it)})
    return {it for it in found if not any(is_seen_as(it, other) for other in definitions.names_in(it))}


def is_seen_as(name, other):
    """Whether contracts see a type of the code as this record."""
    return ".src." in name and ".specs." in other and definitions.definition(name).word == definitions.definition(other).word


def rows_of(page):
    """Each name in the first column of a page's tables, with the number of its row."""
    return [(name, page.count("\n", 0, row.start())) for row in ROW.finditer(page) for name in NAME.findall(row[1])]


def wrong_names(page):
    """The words that a page has too often or too seldom, beside the cone."""
    wanted, found = Counter(definitions.definition(it).word for it in cone()), Counter(name for name, _ in rows_of(page))
    yield from (f"{name} too few" for name in sorted(wanted - found))
    yield from (f"{name} too many" for name in sorted(found - wanted))


def places(page):
    """The row of each definition of the cone. Of two with one word the one that is read first has the first row."""
    rows, found = {}, {}
    for word, row in rows_of(page):
        rows.setdefault(word, []).append(row)
    for name in cones.in_order(cone()):
        here = rows.get(definitions.definition(name).word, [0])
        found[name] = here.pop(0) if len(here) > 1 else here[0]
    return found


def early_names(page):
    """The definitions of a page that stand above one that they rest on, unless this rests on them as well."""
    place = places(page)
    for name in place:
        for other in definitions.names_in(name):
            if place[name] < place.get(other, 0) and name not in cones.cone([other]):
                yield f"{definitions.definition(name).word} stands above {definitions.definition(other).word}"


def size_of(statement):
    """How many definitions a statement rests on, and their lines."""
    found = cones.cone(cones.roots(statement))
    return len(found), cones.code_lines(found)


def with_sizes(page):
    """The page with the sizes of the statements in its tables, and that of the heart where it links the page of it."""
    page = SIZE.sub(lambda it: f"{it[1]}{size_of(it[2])[0]} | {size_of(it[2])[1]} |", page)
    return LINES.sub(lambda it: f"[{size_of('HasWrittenHomology')[1]} lines{it[1] or ''}]({it[2] or ''}STATEMENT.md)", page)


def unnamed(page):
    """The laws among the statements that a page does not name."""
    return [it.partition("::")[2] for it in STATEMENTS if " " not in it and f"`{it.partition('::')[2]}`" not in page]


def statement_pages():
    """The pages that `tools/statement` writes, by their names."""
    loader = importlib.machinery.SourceFileLoader("statement", os.path.join(TOP, "tools", "statement"))
    module = importlib.util.module_from_spec(importlib.util.spec_from_loader("statement", loader))
    loader.exec_module(module)
    return {name: text() for name, text in module.WRITTEN.items()}


def faults(read):
    """The name of each rule, and what breaks it, if anything does."""
    yield "README.md names the laws whose cone DEFINITIONS.md has", ", ".join(unnamed(read("README.md"))) or None
    page = read("docs", "DEFINITIONS.md")
    yield "DEFINITIONS.md has the cone of what README.md claims", ", ".join(wrong_names(page)) or None
    yield "DEFINITIONS.md has each definition behind those that it rests on", ", ".join(early_names(page)) or None
    for name, text in statement_pages().items():
        yield f"{name} is written anew", "`tests/rules.py --write` mends it" if read("docs", name) != text else None
    for path in (("README.md",), ("docs", "THEOREM.md")):
        yield f"{path[-1]} has the sizes of cones", "`tests/rules.py --write` mends it" if read(*path) != with_sizes(read(*path)) else None
