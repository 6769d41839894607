"""The tests of `tests/program` under pytest: `python3 -m pytest tests/companions` runs them, and `-k WORD` some of them.

With pytest-xdist `-n auto` runs them side by side. What measures time is left to `tests/program`, which runs it alone. The program is the
one that KH_PROGRAM names, or the one that is built. A failing row is told with its words, its input, what was wanted and what came.
"""
import os

import edit_scripts
import hostile
import known_numbers
import parts
import pytest
import rules
import scan_hostile
import scan_lists
import scan_tables
from companions import scripts
from rows.runs import all_rows, fault_of, scan_rows
from shared import surroundings
from shared.places import TOP
from shared.scanning import scan_of

# (the tests of the package are run by pytest by themselves)
COMPANIONS = [it for it in parts.COMPANIONS if it is not parts.package]
OF_PROGRAM, OF_SCAN = (known_numbers, edit_scripts, hostile), (scan_tables, scan_lists, scan_hostile)
BUILT = os.path.join(TOP, "crates", "kh_main", "out", "kh_main")
PROGRAM = os.path.abspath(os.environ.get("KH_PROGRAM", BUILT))
needs_program = pytest.mark.skipif(not os.access(PROGRAM, os.X_OK), reason="the program is not built: ./build, or KH_PROGRAM")


@pytest.fixture(autouse=True, scope="session")
def plain_surroundings():
    """What a test finds is to depend on no setting of who runs it."""
    for name in [it for it in os.environ if surroundings.CHANGING.match(it)]:
        del os.environ[name]
    os.environ.update(surroundings.PLAIN)


def told(program, row, fault):
    """A row that has failed, whole."""
    given = bytes(row.given[:2_000]).decode(errors="replace")
    asked = f"words:  {program} {row.words}\ninput:  {given}"
    return f"{row.name}\n{asked}\nwanted: status {row.status}, {row.wrote[:2_000]!r}\ngot:    {fault}"


def check(program, row):
    fault = fault_of(program, row)
    assert fault is None, told(program, row, fault)


@needs_program
@pytest.mark.parametrize("row", all_rows(), ids=lambda it: it.name)
def test_row(row):
    check(PROGRAM, row)


@needs_program
@pytest.mark.parametrize("row", scan_rows(), ids=lambda it: it.name)
def test_row_of_the_scan(row):
    scan = scan_of(PROGRAM)
    if not scan or not os.path.isfile(scan):
        pytest.skip("KH_PROGRAM is set, and KH_SCAN_PROGRAM is not")
    check(scan, row)


def check_all(found):
    """Fails where a case does, and says what is wrong with each that does; what a machine lacks is left out, and told."""
    found = list(found)
    if not found:
        pytest.skip("nothing was tried, since something is not there: -rP shows what is told")
    wrong = [f"{what}: {fault}" for what, fault in found if fault]
    assert not wrong, f"{len(wrong)} of {len(found)} failed\n" + "\n".join(wrong)


@needs_program
@pytest.mark.parametrize("module", COMPANIONS, ids=parts.name_of)
def test_companion(module):
    check_all(module.faults(PROGRAM))


@needs_program
@pytest.mark.parametrize("module", OF_PROGRAM + OF_SCAN, ids=parts.name_of)
def test_part(module):
    check_all(case for _, cases in module.parts(PROGRAM, "") for case in cases())


@pytest.mark.parametrize("module", (rules, scripts), ids=parts.name_of)
def test_of_the_repository(module):
    check_all(module.faults())
