"""Ready questions to the results of `kh-tabulate`: which links have the same tables, or those of mirror images, where there is torsion,
which have the same Jones polynomial and other tables, which have a given table, and what was refused.

Each question has a head and gives rows, and counts what it has seen, for the last line on standard error. What grows with the number of
links is in temporary tables of the database, and not in memory.
"""
import hashlib
import re
import sys
from itertools import groupby
from typing import Callable, NamedTuple

from ..commands import Unreadable
from ..tables import Table, of_short_rows
from .results import ANSWERED, Fault, text_of

FIELDS = (2, 3, 5, 7)
# The lines of `kh-scan each` before its answers.
FRAMED = re.compile(r"^(answers 1|code \d+ field [2357] status 0 bytes \d+)\n", re.M)
KEYS = """
create temporary table keys (
    place integer primary key, name text, code text, fields text, jones text, tables blob, mirrored blob, class blob
)
"""
SAME, MIRROR, BOTH = "same", "mirror", "both"


class Asked(NamedTuple):
    """A database, whether the links of a list alone are asked for, the fields, and what else a question takes."""

    database: object
    is_of_list: bool
    fields: tuple
    mirror: bool
    prime: int


class Result(NamedTuple):
    """A result of a link."""

    link: int
    name: str
    code: str
    field: int
    status: int
    text: str
    jones: str
    refusal: str


class Question(NamedTuple):
    """How a question is answered, the head of its rows, and what the last line says."""

    answer: Callable
    head: tuple
    closing: str

    def head_of(self, asked):
        """The head, with a column more where mirror images are asked for."""
        return (*self.head[:-1], "table", self.head[-1]) if asked.mirror and self.answer is same else self.head


def links_of(asked):
    """The name and the code of each link, with its results over the fields, in the order of names: that of an index, so that nothing is
    sorted, which of a million links would take gigabytes."""
    chosen = "where exists (select 1 from chosen_links where link = links.id)" if asked.is_of_list else ""
    columns = "links.id, name, codes.code, field, status, table_rows, jones, refusal"
    rows = asked.database.execute(f"select {columns} from {ANSWERED} {chosen} order by name, links.id, field")
    for _, results in groupby(map(Result._make, rows), lambda it: it.link):
        results = [it for it in results if not asked.fields or it.field in asked.fields]
        if results:
            yield (results[0].name, results[0].code), results


def answered(results):
    """The results of a link that have a table."""
    return [it for it in results if it.status == 0]


def listed(numbers):
    return ",".join(map(str, numbers))


def digest(texts):
    """What stands for the tables of a link: of a million links they themselves would take gigabytes."""
    return hashlib.blake2b("\n".join(texts).encode(), digest_size=16).digest()


def mirror_text(text):
    """The table of the mirror image: over a field the dimension at j, i is that at -j, -i."""
    return text_of({(-j, -i): dimension for (j, i), dimension in of_short_rows(text).items()})


class Mirrors:
    """The tables of mirror images, the last ones remembered."""

    def __init__(self, size=4_096):
        self.size, self.texts = size, {}

    def text(self, text):
        if text not in self.texts:
            if len(self.texts) >= self.size:
                self.texts.clear()
            self.texts[text] = mirror_text(text)
        return self.texts[text]


def write_keys(asked, counts):
    """A row of `keys` for each link that has a table: what stands for its tables, for those of its mirror image, and for its class."""
    asked.database.execute(KEYS)
    asked.database.execute("begin")
    mirrors = Mirrors()
    for (name, code), results in links_of(asked):
        results = answered(results)
        if not results:
            continue
        counts["answered"] += 1
        own = digest(f"{it.field} {it.text}" for it in results)
        other = digest(f"{it.field} {mirrors.text(it.text)}" for it in results) if asked.mirror else own
        row = name, code, listed(it.field for it in results), results[0].jones, own, other, min(own, other)
        asked.database.execute("insert into keys values (null, ?, ?, ?, ?, ?, ?, ?)", row)
    asked.database.execute("commit")


def classes(database, key, condition):
    """The links of each class, in the order of their names: rows of `keys` that agree on these columns, where a condition holds."""
    database.execute(f"create index temp.by_key on keys ({key})")
    firsts = database.execute(f"select {key}, min(place) from keys group by {key} having {condition} order by min(place)").fetchall()
    where = " and ".join(f"{it} = ?" for it in key.split(", "))
    for number, (*values, _) in enumerate(firsts, 1):
        links = f"select name, fields, code, tables, mirrored from keys where {where} order by place"
        yield number, database.execute(links, values).fetchall()


def side(tables, mirrored, first):
    """Whether a link has the same table as the first of its class, the one of its mirror image, or both."""
    if tables == mirrored:
        return BOTH
    return SAME if tables == first else MIRROR


def same(asked, counts):
    """Links whose tables are the same over the same fields, or those of mirror images where these are asked for, with the number of their
    class."""
    write_keys(asked, counts)
    for number, links in classes(asked.database, "class", "count(*) > 1"):
        counts["classes"] += 1
        counts["links"] += len(links)
        for name, fields, code, tables, mirrored in links:
            yield number, name, fields, *([side(tables, mirrored, links[0][3])] if asked.mirror else []), code


def jones(asked, counts):
    """Links with the same Jones polynomial and not all with the same tables, with the number of their class and that of their tables in
    it."""
    write_keys(asked, counts)
    for number, links in classes(asked.database, "jones, fields", "count(distinct tables) > 1"):
        counts["classes"] += 1
        counts["links"] += len(links)
        order = list(dict.fromkeys(it[3] for it in links))
        for name, fields, code, tables, _ in sorted(links, key=lambda it: order.index(it[3])):
            yield number, order.index(tables) + 1, name, fields, code


def is_torsion(dimensions, prime):
    """Whether dimensions by fields tell of torsion; of this prime, where one is given: then its own is greater than another."""
    if prime is None:
        return len({*dimensions.values()}) > 1
    return any(dimensions[prime] > it for it in dimensions.values())


def torsion(asked, counts):
    """The pairs of degrees at which a link has not one dimension over all of its fields, with the dimensions over each; of a prime, those
    where the dimension over it is greater than over another field."""
    for (name, code), results in links_of(asked):
        tables = {it.field: of_short_rows(it.text) for it in answered(results)}
        if len(tables) < 2 or asked.prime and asked.prime not in tables:
            counts["unknown"] += 1
            continue
        pairs = sorted({pair for table in tables.values() for pair in table})
        dimensions = {pair: {field: table.get(pair, 0) for field, table in tables.items()} for pair in pairs}
        differing = [pair for pair in pairs if is_torsion(dimensions[pair], asked.prime)]
        counts["torsion" if differing else "none"] += 1
        for pair in differing:
            yield name, *pair, *(dimensions[pair].get(field, "") for field in FIELDS), code


def refused(asked, counts):
    """What was refused or is too large, with the line that was written, and over which fields."""
    for (name, code), results in links_of(asked):
        lines = {}
        for it in results:
            if it.status:
                lines.setdefault((it.status, it.refusal), []).append(it.field)
        counts["refused" if lines else "answered"] += 1
        yield from ((name, listed(fields), status, line, code) for (status, line), fields in lines.items())


def given_tables(text, fields):
    """The texts of the tables of standard input over these fields, or all, as results have them: those of one link, in frames or without."""
    found = {}
    try:
        for it in Table.all_of(FRAMED.sub("", text)):
            if it.mark is not None or found.setdefault(it.field, it) != it:
                told = f"two tables over {it.field} elements; those of one link are wanted" if it.mark is None else "a reduced table"
                raise Fault(f"standard input has {told}")
    except Unreadable:
        raise Fault("standard input has no tables, as kh-scan and kh homology write them") from None
    if fields and not set(fields) & set(found):
        raise Fault(f"standard input has tables over other fields: {listed(found)}")
    return {field: text_of(table) for field, table in found.items() if not fields or field in fields}


def links_with(asked, tables):
    """The links that have all of these tables, by their fields."""
    marks = " or ".join("field = ? and table_rows = ?" for _ in tables)
    chosen = "links.id in (select link from chosen_links) and" if asked.is_of_list else ""
    of_tables = "tables cross join answers on answers.table_id = tables.id cross join codes on codes.id = answers.code"
    every = f"select name, codes.code from {of_tables} cross join links on links.code = codes.id where {chosen} ({marks})"
    grouped = "group by links.id having count(distinct field) = ? order by name, codes.code"
    values = [it for pair in tables.items() for it in pair]
    return asked.database.execute(f"{every} {grouped}", (*values, len(tables)))


def table(asked, counts):
    """The links that have the tables of standard input, or whose mirror images have them where these are asked for."""
    tables = given_tables(sys.stdin.read(), asked.fields)
    mirrored = {field: mirror_text(text) for field, text in tables.items()}
    kinds = [(BOTH if tables == mirrored else SAME, tables)]
    kinds += [(MIRROR, mirrored)] if asked.mirror and tables != mirrored else []
    counts["links"] = 0
    for kind, them in kinds:
        for name, code in links_with(asked, them):
            counts["links"] += 1
            yield name, kind, code


QUESTIONS = {
    "same": Question(same, ("class", "name", "fields", "code"), "classes: {classes}; links in them: {links}, of {answered} with a table"),
    "torsion": Question(
        torsion,
        ("name", "j", "i", *(f"over_{field}" for field in FIELDS), "code"),
        "links with torsion: {torsion}; without: {none}; known over too few fields: {unknown}",
    ),
    "jones": Question(
        jones,
        ("class", "table", "name", "fields", "code"),
        "Jones polynomials with several tables: {classes}; links that have them: {links}, of {answered} with a table",
    ),
    "table": Question(table, ("name", "table", "code"), "links with this table: {links}"),
    "refused": Question(refused, ("name", "fields", "status", "line", "code"), "links refused or too large: {refused}; others: {answered}"),
}
