"""Polynomials, tables and what they tell of torsion, as values; no program is asked."""
import json
import os
import pickle
import random
import subprocess
import sys

import kh
import pytest
from kh import Degrees, Drawing, Polynomial, Refused, Table, Torsion
from kh.places import reference_file
from kh.reference.table_forms import read

TREFOIL = Polynomial("q + q^3 + q^5 - q^9")
OVER_3 = Table({(1, 0): 1, (3, 0): 1, (5, 2): 1, (9, 3): 1}, field=3)
OVER_2 = Table({(1, 0): 1, (3, 0): 1, (5, 2): 1, (7, 2): 1, (7, 3): 1, (9, 3): 1}, field=2)


@pytest.mark.parametrize("text", ["0", "1", "-1", "q", "-q^-2 + 3", "q^-3 t^-1 + 2 q^5 t^2", "1 - q t"])
def test_a_polynomial_is_read_as_it_is_written(text):
    assert Polynomial(Polynomial(text).terms) == Polynomial(str(Polynomial(text))) == Polynomial(text)


def drawn(draw, size=4):
    return Polynomial({(draw.randrange(-4, 5), draw.randrange(-2, 3)): draw.randrange(-3, 4) for _ in range(size)})


@pytest.mark.parametrize("seed", range(40))
def test_arithmetic_of_polynomials(seed):
    draw = random.Random(seed)
    one, other, third = drawn(draw), drawn(draw), drawn(draw)
    assert (one + other) * third == one * third + other * third and one - one == 0 and one + other == other + one
    assert one * 1 == one and 2 * one == one + one and 1 - one == -(one - 1) and one**2 == one * one
    assert (one * other).mirror() == one.mirror() * other.mirror()
    assert (one * other)(2, 3) == pytest.approx(one(2, 3) * other(2, 3))
    if other:
        assert one * other // other == one
    assert hash(one) == hash(Polynomial(one.terms)) and pickle.loads(pickle.dumps(one)) == one


@pytest.mark.parametrize("one, other", [("1", "q + q^-1"), ("1 + q", "1 + q^2"), ("3", "2"), ("q^2 + t", "q + t")])
def test_a_rest_is_refused(one, other):
    with pytest.raises(ValueError, match="not divisible"):
        Polynomial(one) // Polynomial(other)


def test_the_jones_polynomial_of_tables():
    """KnotInfo has t + t^3 - t^4 for the right-handed trefoil, and for the Hopf link with linking number 1 -t^(1/2) - t^(5/2)."""
    assert TREFOIL.normalised().in_t() == "t + t^3 - t^4"
    assert Polynomial("1 + q^2 + q^4 + q^6").normalised().in_t() == "-t^(1/2) - t^(5/2)"
    assert TREFOIL.mirror().normalised().in_t() == "-t^-4 + t^-3 + t^-1"
    assert TREFOIL._repr_latex_() == "$q + q^{3} + q^{5} - q^{9}$"
    with pytest.raises(ValueError):
        Polynomial("q t").in_t()


@pytest.mark.parametrize("text, place", [("q + x", None), ("q +", None), ("1/2", None)])
def test_what_is_no_polynomial_is_refused(text, place):
    with pytest.raises(Refused) as raised:
        Polynomial(text)
    assert raised.value.text == text and raised.value.place == place


def test_degrees_are_j_then_i():
    assert OVER_3[9, 3] == OVER_3.at(j=9, i=3) == OVER_3[Degrees(j=9, i=3)] == 1 and OVER_3[3, 9] == 0
    assert list(OVER_3) == [(1, 0), (3, 0), (5, 2), (9, 3)] and [it.j for it in OVER_3] == [1, 3, 5, 9]
    assert (9, 3) in OVER_3 and (3, 9) not in OVER_3 and len(OVER_3) == 4 and OVER_3.rows[2] == (5, 2, 1)


def test_tables_are_equal_where_field_and_dimensions_are():
    same = Table({**OVER_3.dimensions, (0, 0): 0}, field=3)
    assert same == OVER_3 and hash(same) == hash(OVER_3) and OVER_3 == dict(OVER_3) and dict(OVER_3) == OVER_3
    assert OVER_3 != OVER_2 and OVER_3 != Table(OVER_3.dimensions, field=5) and OVER_3 != Table(OVER_3.dimensions, field=3, mark=1)
    assert pickle.loads(pickle.dumps(OVER_3)) == OVER_3
    with pytest.raises(ValueError):
        Table({(0, 0): -1}, field=2)
    with pytest.raises(TypeError):
        OVER_3[1, 0] = 2
    with pytest.raises(AttributeError):
        OVER_3.field = 5


def test_what_follows_from_a_table():
    assert OVER_3.jones == OVER_2.jones == OVER_3.euler == TREFOIL and OVER_3.total == 4
    assert str(OVER_3.poincare()) == "q + q^3 + q^5 t^2 + q^9 t^3"
    assert OVER_3.mirror()[-9, -3] == 1 and OVER_3.mirror().mirror() == OVER_3 and OVER_3.mirror().jones == TREFOIL.mirror()
    assert OVER_3.shift(j=2, i=-1) == {(3, -1): 1, (5, -1): 1, (7, 1): 1, (11, 2): 1}
    reduced = Table({(2, 0): 1, (6, 2): 1, (8, 3): 1}, field=3, mark=1)
    assert reduced.jones == TREFOIL and reduced.euler == TREFOIL.normalised()
    unknot = Table({(-1, 0): 1, (1, 0): 1}, field=3)
    assert (OVER_3 * unknot).poincare() == OVER_3.poincare() * unknot.poincare() and (reduced * unknot).mark == 1
    for other in (OVER_2, "no table"):
        with pytest.raises((ValueError, TypeError)):
            OVER_3 * other
    with pytest.raises(ValueError):
        reduced * reduced


def test_how_a_table_is_shown():
    assert str(OVER_3).splitlines()[0] == "over 3 elements" and "<td>1</td>" in OVER_3._repr_html_() and "style" not in OVER_3._repr_html_()
    assert OVER_3._repr_latex_().startswith("$\\begin{array}{r|rrrr}")
    assert eval(repr(OVER_3)) == OVER_3
    assert OVER_3.text == "table 2\nfield 3\nj 1 i 0 dim 1\nj 3 i 0 dim 1\nj 5 i 2 dim 1\nj 9 i 3 dim 1\njones 1*q^1 1*q^3 1*q^5 -1*q^9\n"
    assert Table.read(OVER_3.text) == OVER_3 == Table._of_answer(OVER_3.text, 3)


@pytest.mark.parametrize("text", [
    "q + q^3 + q^5 t^2 + q^9 t^3", "1 0 1; 3 0 1; 5 2 1; 9 3 1", "{(1, 0): 1, (3, 0): 1, (5, 2): 1, (9, 3): 1}",
    "{1: {0: Z}, 3: {0: Z}, 5: {2: Z}, 7: {3: C2}, 9: {3: Z}}", "[[1, 0, 1], [3, 0, 1], [5, 2, 1], [9, 3, 1]]",
])
def test_a_table_is_read_in_other_forms(text):
    assert Table.read(text, field=3) == OVER_3


def test_the_order_of_pairs_is_named_where_it_can_not_be_told():
    text = "{(0, 0): 1, (0, 2): 1, (2, 4): 1, (2, 6): 1}"
    with pytest.raises(Refused, match="order="):
        Table.read(text, field=3)
    assert Table.read(text, field=3, order="ij") == {(0, 0): 1, (2, 0): 1, (4, 2): 1, (6, 2): 1}
    assert Table.read("{(0, 1): 1, (0, 3): 1, (2, 5): 1, (3, 9): 1}", field=3) == OVER_3


def test_a_text_that_is_no_table_is_refused():
    with pytest.raises(Refused, match="no row of a table"):
        Table.read("1 0 1 / 3 0 1")


def test_torsion_of_the_trefoil():
    """Over the integers the trefoil has one summand Z/2, at j 7 and i 3 (Khovanov 2000)."""
    torsion = Torsion.of({2: OVER_2, 3: OVER_3, 5: Table(OVER_3.dimensions, field=5), 7: Table(OVER_3.dimensions, field=7)})
    assert torsion and torsion.primes == (2,) and torsion[2] == {(7, 3): 1} and torsion[3] == {} and not torsion.undecided
    assert torsion.least.dimensions == OVER_3.dimensions and str(torsion) == "1 of order a power of 2 at j 7 i 3"


def of_other_programs():
    """The name, the groups that SageMath computed over the integers, and the tables of the reference, of each knot of which both are kept;
    of one whose mirror image SageMath has, the torsion goes from j, i to -j, 1 - i."""
    tables = {}
    for it in lines_of("vectors.jsonl") + lines_of("prime.jsonl"):
        tables.setdefault(it["name"], {})[it["field"]] = Table({(j, i): count for j, i, count in it["rows"]}, field=it["field"])
    for it in lines_of("checked.jsonl"):
        if "Z" in it.get("homology", {}) and it["name"] in tables:
            groups = read(it["homology"]["Z"].replace("; ", "\n")).cells
            is_mirrored = it["stands"] == "mirror image"
            yield it["name"], {(-j, 1 - i) if is_mirrored else (j, i): group for (j, i), group in groups.items()}, tables[it["name"]]


def lines_of(name):
    with open(reference_file(name), encoding="utf-8") as file:
        return [it for it in map(json.loads, file) if "name" in it]


def test_torsion_is_that_of_other_programs():
    """At each degree as many summands of an order that 2 divides, and of 3, 5 and 7, as SageMath has over the integers."""
    count = 0
    for name, groups, tables in of_other_programs():
        torsion = Torsion.of(tables)
        for p in tables:
            wanted = {degrees: sum(many for order, many in group.items() if order and order % p == 0) for degrees, group in groups.items()}
            assert torsion[p] == {degrees: many for degrees, many in wanted.items() if many}, name
        count += 1
    assert count == 36


def test_torsion_of_chains_and_what_is_undecided():
    """Z/2 at i = 2 and at i = 3 of one row, and beside them a row in which torsion of all primes could hide."""
    rational = {(0, 0): 1, (2, 0): 1, (2, 1): 1}
    over_2 = {**rational, (4, 1): 1, (4, 2): 2, (4, 3): 1}
    torsion = Torsion.of({2: Table(over_2, field=2), 3: Table(rational, field=3)})
    assert torsion[2] == {(4, 2): 1, (4, 3): 1} and torsion.undecided == {(2, 0), (2, 1)}
    with pytest.raises(ValueError, match="not those of one link"):
        Torsion.of({2: OVER_2, 3: Table({(1, 0): 1}, field=3)})


def test_a_frame_of_pandas():
    pandas = pytest.importorskip("pandas")
    frame = OVER_3.to_frame()
    assert isinstance(frame, pandas.DataFrame) and list(frame.columns) == ["field", "j", "i", "dim"] and frame["dim"].sum() == 4
    assert frame.pivot_table(index="j", columns="i", values="dim").loc[9, 3] == 1


@pytest.mark.parametrize("mark", [None, 3])
def test_what_is_shown_of_a_table_is_read_back(mark):
    for table in (Table(OVER_3.dimensions, field=3, mark=mark), Table({(0, 0): 1, (2, 0): 1, (4, 2): 1, (6, 2): 1}, field=5, mark=mark)):
        assert Table.read(repr(table)) == table and Table.read(f"kh.{table!r}").mark == mark
        shown = Table.read(str(table.dimensions), field=table.field)
        assert shown == Table(table.dimensions, field=table.field) == Table.read(str(dict(table)), field=table.field)
        assert Table.read(table.text).mark == mark
    with pytest.raises(Refused):
        Table.read("{Degrees(j=1): 1}")


def test_values_are_equal_behind_pickle_and_in_sets():
    one, other = (Torsion.of({2: OVER_2, 3: table}) for table in (OVER_3, Table(OVER_3.dimensions, field=3)))
    assert len({one, other, pickle.loads(pickle.dumps(one))}) == 1 and one == other != Torsion.of({3: OVER_3})
    drawing, turned = (Drawing(text, "PD[Loop[1]]") for text in ("open 1: /\\\nclose 1: \\/\n",) * 2)
    assert len({drawing, turned, pickle.loads(pickle.dumps(drawing))}) == 1
    assert drawing != Drawing("", "PD[]") and drawing != "no drawing"


def test_the_differences_of_tables():
    assert OVER_2.differences(OVER_3) == {(7, 2): (1, 0), (7, 3): (1, 0)} == OVER_2.differences(dict(OVER_3))
    assert OVER_3.differences(OVER_2) == {(7, 2): (0, 1), (7, 3): (0, 1)} and OVER_3.differences(OVER_3) == {}


COMPARED = """
from kh import Table

def test_them():
    one = Table({(1, 0): 1, (3, 0): 1, (5, 2): 1, (9, 3): 1}, field=3)
    assert one == Table({(1, 0): 1, (3, 0): 1, (5, 2): 2}, field=5)

def test_a_mapping():
    assert {(1, 0): 1, (3, 0): 2} == Table({(1, 0): 1, (3, 0): 1}, field=3)
"""


def test_pytest_shows_in_what_tables_differ(tmp_path):
    (tmp_path / "conftest.py").write_text('pytest_plugins = ["kh.in_pytest"]\n')
    (tmp_path / "test_tables.py").write_text(COMPARED)
    settings = {**os.environ, "PYTHONPATH": os.path.dirname(os.path.dirname(os.path.abspath(kh.__file__))), "PYTEST_ADDOPTS": ""}
    words = [sys.executable, "-m", "pytest", "-q", "-p", "no:cacheprovider", "test_tables.py"]
    came = subprocess.run(words, cwd=tmp_path, capture_output=True, text=True, timeout=120, env=settings)
    told = [line.removeprefix("E").strip() for line in came.stdout.splitlines() if line.startswith("E")]
    assert told == [
        "assert the tables are equal", "the left one is over 3 elements, the right one over 5",
        "j 5 i 2: 1 on the left, 2 on the right", "j 9 i 3: 1 on the left, 0 on the right",
        "assert the tables are equal", "j 3 i 0: 2 on the left, 1 on the right",
    ]
