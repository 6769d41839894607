"""The parts in which `tests/program` and `tests/companions/test_all.py` run the tests: each has a name, and a function that gives the name
of each case and what is wrong with it, if anything is."""
import functools
import itertools
import os

import edit_scripts
import hostile
import known_numbers
import rules
import scan_hostile
import scan_lists
import scan_tables
from companions import checked, code_forms, cones, package, page, page_browser, page_server, pages, planted, reference, scan, scripts
from companions import shortening, show, spoken, tabulation
from rows.runs import all_rows, fault_of
from shared.places import KH, TOP

# (those that take long begin first)
COMPANIONS = (
    tabulation, show, page, package, page_server, page_browser, scan, pages, reference, checked, code_forms, spoken, shortening, cones,
    planted,
)
ROWS_OF_A_PART = 40


def row_faults(program, rows):
    """The name of each of these rows, and what is wrong with it, if anything is."""
    for row in rows:
        yield f"{os.path.relpath(program, TOP)}: {row.name}", fault_of(program, row)


def row_parts(program, word, is_alone):
    """The rows in parts: those that take long by themselves, and the others in their order, some at a time."""
    # (a shell wants more memory than the program, and large tables are tried once)
    chosen = [row for row in all_rows() if word in row.name and (is_alone or program != KH or not row.takes_long())]
    for takes_long, some in itertools.groupby(chosen, key=lambda row: row.takes_long()):
        some = list(some)
        size = 1 if takes_long else ROWS_OF_A_PART
        for at in range(0, len(some), size):
            yield some[at].name, functools.partial(row_faults, program, some[at : at + size])


def name_of(module):
    """The name of a module's file."""
    return module.__name__.rpartition(".")[2]


def companion_faults(module, program):
    """What is wrong with a companion of the program, if anything is."""
    for name, fault in module.faults(program):
        yield f"{name_of(module)}: {name}", fault


def parts_behind_rows(program, word):
    """The parts behind the rows: the rules, the companions, and those of other modules."""
    yield "rules", rules.faults
    yield "scripts", scripts.faults
    for module in COMPANIONS:
        yield name_of(module), functools.partial(companion_faults, module, program)
    for module in (known_numbers, edit_scripts, hostile):
        yield from module.parts(program, word)


def parts_of_scans(found, word):
    """The tables and lists of the program of scans beside each built program, and hostile use of the first."""
    for program in found:
        if program != KH:
            yield from scan_tables.parts(program, word)
            yield from scan_lists.parts(program, word)
    yield from scan_hostile.parts(found[0], word)
