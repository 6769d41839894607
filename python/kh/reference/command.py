"""Compares tables of other programs with those of the reference, and says in which way they are other ones.

    other-program .. | reference/compare 8_19 --field 3       a table of a link
    reference/compare --all ANSWERS                           all tables of a program: a file of JSON lines, or a folder
    other-program .. | reference/compare --alone --field 2    without the reference: whether it can be the table of a link

A table is read as `kh` writes it, in lines `j i dimension`, as a polynomial in q and t, as a dictionary {(i, j): dimension} or
{j: {i: dimension}}, or as rows of JSON. In place of a dimension there may be a group, such as Z, Z[2] or Z x C2: then the table is one
over the integers, and is compared over each field of the reference. --field takes 2, 3, 5, 7, 0 (rational) or Z.

A table that is another one is tried turned (mirrored, j or i negated, columns exchanged), shifted by a constant of j and of i, over other
fields, reduced or not, and with the other links of the reference. The status is 0 where the tables agree as they stand, and 1 where they
do not, or where something can not be read. `docs/REFERENCE.md` has the conventions, and the forms of the answers that --all takes.
"""
import argparse
import sys

from ..codes import link_names
from ..commands import Unreadable, command, given, reader
from ..places import reference_file
from . import collection
from .alone import doubts, terms_of
from .table_forms import INTEGRAL, RATIONAL, field_of, groups_of, j_is_first, read
from .stored import Reference
from .ways import AGREES, MIRROR, TURNINGS, Comparison, Table, other_links

# The tables of one link are looked for in both files, all answers of a program are compared with the first.
FILES = [reference_file(name) for name in ("vectors.jsonl", "prime.jsonl")]
MIRRORED = "(the reference's {0} is the mirror image of the Knot Atlas's)"
ASK = "the numbers of a pair may be i, j or j, i: name their order, --order ij or --order ji"
NAMES = {RATIONAL: "the rational numbers", INTEGRAL: "the integers"}
TOLD = "pairs are read as {}, since of one link all j are even or all are odd"


def order_of(reading, words, parity):
    """Whether j stands first in the pairs of a table, which is told where the form does not say it."""
    if words.order and reading.is_j_first is None:
        return words.order == "ji"
    is_first = j_is_first(reading, parity)
    if is_first is None:
        raise Unreadable(ASK)
    if reading.is_j_first is None:
        print(f"compare: {TOLD.format('j, i' if is_first else 'i, j')}", file=sys.stderr)
    return is_first


def table_of(reading, words, parity=None):
    """The table that was read, over the field that is named in words, or by the text; else over two elements."""
    told = reading.field
    if words.field is not None and told not in (None, INTEGRAL, words.field):
        raise Unreadable(f"the table is over {NAMES.get(told, f'{told} elements')}, and --field names {words.field}")
    field = words.field if words.field is not None else told
    groups = groups_of(reading, order_of(reading, words, parity))
    return Table(groups, 2 if field is None else field, field is not None, words.reduced or reading.is_reduced)


def compare_one(words):
    """The lines on a table of a link, and whether it agrees."""
    reference, reading = Reference(*words.vectors or FILES), read(given(words.file))
    is_reduced = words.reduced or reading.is_reduced
    table = table_of(reading, words, reference.parity(words.name, is_reduced))
    if words.name not in reference.lines:
        raise Unreadable("; ".join([f"the reference has no {words.name}", *other_links(table, reference)]))
    verdict = Comparison(table, reference, words.name).verdict()
    is_turned = verdict.lines[0].startswith(TURNINGS[MIRROR][2]) and link_names.hand_of(words.name) == "mirror image"
    return [*verdict.lines, *([MIRRORED.format(words.name)] if is_turned else [])], verdict.kind == AGREES


def try_alone(words):
    """The polynomial that a table implies, and what speaks against it; whether nothing does."""
    reading = read(given([it for it in (words.name, *words.file) if it]))
    table = table_of(reading, words)
    lines = list(doubts(table, reading.jones))
    return [terms_of(table), *(lines or ["nothing speaks against this table"])], not lines


def compare_all(words):
    """The lines on all answers of a program, and whether all agree."""
    paths = [it for it in (words.name, *words.file) if it]
    if not paths:
        raise Unreadable("--all wants a file of answers, or a folder")
    return collection.compared(paths, Reference(*words.vectors or FILES[:1]), words)


def field_word(text):
    """The field that a word names."""
    if field_of(text) is None:
        raise argparse.ArgumentTypeError(f"{text} is none of 2, 3, 5, 7, nor 0 for the rational numbers, nor Z")
    return field_of(text)


def count(text):
    if not text.isdecimal():
        raise argparse.ArgumentTypeError("a number is wanted")
    return int(text)


def parsed():
    parser = reader(__doc__)
    parser.add_argument("name", nargs="?", help="of a link of the reference")
    parser.add_argument("file", nargs="*", help="instead of standard input")
    parser.add_argument("--field", type=field_word, metavar="P", help="2, 3, 5, 7, 0 (rational) or Z; else what the text says, or 2")
    parser.add_argument("--reduced", action="store_true", help="the tables are reduced")
    parser.add_argument("--order", choices=("ij", "ji"), help="how the pairs of a dictionary stand, where that can not be told")
    parser.add_argument("--all", action="store_true", help="all answers of a program: files of JSON lines, or folders, in place of NAME")
    parser.add_argument("--most", type=count, metavar="N", default=5, help="with --all: how many names or rows are told of a kind; else 5")
    parser.add_argument("--alone", action="store_true", help="without the reference, and so without NAME")
    parser.add_argument("--vectors", metavar="FILE", action="append", help="another file of vectors")
    words = parser.parse_args()
    if not (words.name or words.alone or words.all):
        parser.error("name a link of the reference, or say --all or --alone")
    return words


@command
def main():
    words = parsed()
    lines, is_fine = (compare_all if words.all else try_alone if words.alone else compare_one)(words)
    print("\n".join(lines))
    if not is_fine:
        sys.stdout.flush()
        sys.exit(1)
