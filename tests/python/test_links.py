"""What the programs answer of links: against the reference, and what is true of tables."""
import json
import os

import kh
import pytest

pytestmark = pytest.mark.program
TOP = os.path.dirname(os.path.dirname(os.path.dirname(os.path.abspath(__file__))))


def vectors(name, every):
    """A part of the lines of a file of the reference."""
    with open(os.path.join(TOP, "reference", name), encoding="utf-8") as file:
        return [it for it in map(json.loads, file) if "name" in it][::every]


@pytest.mark.parametrize("it", [*vectors("vectors.jsonl", 17), *vectors("prime.jsonl", 97)], ids=lambda it: f"{it['name']}-{it['field']}")
def test_tables_are_those_of_the_reference(it):
    link = kh.Link(it["pd"])
    table = link.table(it["field"])
    assert table.rows == [tuple(row) for row in it["rows"]] and table.field == it["field"]
    assert table.jones.terms == {(j, 0): count for j, count in it["jones"]} and link.jones == table.jones
    assert (link.signs.count(1), link.signs.count(-1)) == (it["plus"], it["minus"]) and link.writhe == it["plus"] - it["minus"]


@pytest.mark.parametrize("it", vectors("vectors.jsonl", 41), ids=lambda it: f"{it['name']}-{it['field']}")
def test_reduced_tables_are_those_of_the_reference(it):
    for part in it["reduced"]:
        for mark in part["marks"]:
            table = kh.Link(it["pd"]).reduced(mark, it["field"])
            assert table.rows == [tuple(row) for row in part["rows"]] and table.mark == mark
            assert table.jones.terms == {(j, 0): count for j, count in it["jones"]}


@pytest.mark.parametrize("name", ["3_1", "4_1", "5^2_1", "unknot", "8_19", "Hopf", "L6a2{0}"])
def test_mirrors_reversals_unions(name):
    link = kh.Link(name) if name != "Hopf" else kh.Link(braid=[1, 1])
    for field in kh.FIELDS:
        assert link.mirror().table(field).mirror() == link.table(field) == link.reverse().table(field)
        assert link.union(kh.Link("3_1")).table(field) == link.table(field) * kh.Link("3_1").table(field)
    assert link.mirror().signs == tuple(-it for it in link.signs) and link.mirror().jones == link.jones.mirror()


def test_components():
    assert kh.Link(braid=[1, 1]).components == ((1, 2), (3, 4)) and kh.Link("3_1").components == ((1, 2, 3, 4, 5, 6),)
    assert kh.Link("PD[X[1,1,2,2], X[3,4,4,3], Loop[5], Loop[6]]").components == ((1, 2), (3, 4), (5,), (6,))
    assert kh.Link("PD[]").components == () and kh.Link("unknot").components == ((1,),) and kh.Link("unknot").signs == ()


def test_moves_keep_tables_and_are_undone():
    link = kh.Link("PD[X[1,4,2,5], X[3,6,4,1], X[5,2,6,3]]")
    other = link.move("r1 add 1 under plus", "r2 add 1 left 3 left\n")
    assert len(other.pd) == 6 and other.table(2) == link.table(2)
    assert other.undo() == link.move("r1 add 1 under plus") and other.undo().undo() == link and other.undo().redo() == other
    assert other.undo().move("r1 drop 4").table(3) == link.table(3) and link.move() == link
    with pytest.raises(kh.MoveRefused, match="refused no kink at 1: the move in line 1, r1 drop 1, can not be made"):
        link.move("r1 drop 1")
    with pytest.raises(kh.MoveRefused, match="the move in line 2, r1 drop 9, can not be made") as moved:
        link.move("r1 add 1 under plus").move("r1 drop 4\n", "r1 drop 9", "undo")
    assert moved.value.number == 2 and moved.value.caret == "  line 2: r1 drop 9\n" + " " * 10 + "^~~~~~~~~"
    with pytest.raises(kh.MoveRefused, match="refused nothing to undo"):
        link.undo()
    with pytest.raises(kh.Refused, match="refused line 2") as raised:
        link.move("r1 dro 1")
    assert raised.value.caret.endswith("  r1 dro 1\n  ^~~~~~~~")
    moves = link.moves()
    assert "r1 add 1 under plus" in moves and "r1 drop 1" not in moves
    assert all(link.move(it).table(3) == link.table(3) for it in moves[::9])


def test_a_log_proves_the_table():
    link = kh.Link("4_1")
    log = link.certify(3)
    assert log.startswith("log 1\n") and kh.verify(log) == link.table(3)
    with pytest.raises(kh.Refused, match="refused log line 2 diagram"):
        kh.verify(log.replace("PD[X[", "PD[X[9", 1))


def test_torsion():
    assert kh.Link("8_19").torsion()[2] == {(11, 3): 1} and not kh.Link("unknot").torsion()
    assert kh.Link("3_1").mirror().torsion()[2] == {(-7, -2): 1} and kh.Link("T(4,5)").torsion().primes == (2,)


@pytest.mark.parametrize("code, marks", [("3_1", [1, 6]), ("unknot", [1]), ("PD[X[1,1,2,2], Loop[3]]", [2, 3])])
def test_drawings_have_no_style_of_their_own(code, marks):
    link = kh.Link(code)
    for mark in marks:
        svg = link.drawing(numbers=True, mark=mark, colours=True).svg
        assert "<style" not in svg and "class=" not in svg and "currentColor" not in svg and svg.startswith("<svg ")
    assert str(link.drawing()) and link.drawing()._repr_html_() == link.drawing().svg
    page = link._repr_html_()
    assert page.count("<svg") == 1 and page.count("<caption>") == 4 and "<style" not in page


def test_what_has_no_table_says_why_in_a_notebook():
    page = kh.Link(braid=[1] * 21, name="<long>")._repr_html_()
    assert page.startswith("<p>&lt;long&gt;</p>\n<pre>limit crossings 21 of 20") and "<svg" not in page


def test_refusals_of_kh_have_their_place():
    with pytest.raises(kh.Refused, match="refused mark 9: --mark takes a number from 1 to 6"):
        kh.Link("3_1").reduced(9)
    with pytest.raises(kh.TooLarge, match="limit crossings 23 of 20"):
        kh.Link(braid=[1] * 20).union(kh.Link("3_1"))
