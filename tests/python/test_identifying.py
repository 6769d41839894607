"""Whether links are one: what the search knows of diagrams against the programs, its answers, and that none of them rests on it."""
import json
import os
import random
import subprocess
import sys

import kh
import pytest
from kh.identifying import answers, searching
from kh.identifying.diagrams import CROSSINGS, Diagram, Reached, line_of
from kh.identifying.numbers import matchings, numbered
from kh.identifying.strands import parts

pytestmark = pytest.mark.program
TOP = os.path.dirname(os.path.dirname(os.path.dirname(os.path.abspath(__file__))))
TREFOIL = "PD[X[1, 4, 2, 5], X[3, 6, 4, 1], X[5, 2, 6, 3]]"
# Eleven crossings of the unknot.
UNKNOT = (
    "PD[X[17,8,18,9], X[9,18,10,19], X[7,10,8,11], X[11,21,12,20], X[12,2,13,1], X[2,14,3,13], X[14,4,15,3], X[22,16,1,15], X[16,5,17,6], "
    "X[4,21,5,22], X[19,7,20,6]]"
)


def scrambled(link, draw, count=12):
    """A link behind moves at random, each of which the search and `kh edit` make alike."""
    for _ in range(count):
        diagram = Diagram.of(link)
        lines = draw.choice([[line_of(it) for it in diagram.corners(draw.randint(1, 3))], diagram.fingers()])
        kink = f"r1 add {draw.randint(1, 2 * len(diagram) or 1)} {draw.choice(('under', 'over'))} minus"
        line = draw.choice(lines) if lines else kink if 0 < len(diagram) < CROSSINGS else ""
        moved = link.move(line) if line else link
        assert not lines or diagram.moved(line).text == moved.code
        link = moved
    return kh.Link(link.code)


@pytest.mark.parametrize("name", ["3_1", "4_1", "8_19", "6^2_2", "Borromean", "3_1 and two loops", "L5a1{0}"])
def test_moves_are_those_of_edit(name):
    draw = random.Random(name)
    for _ in range(3):
        scrambled(kh.Link(name), draw)


@pytest.mark.parametrize("name", ["7_6", "8_19", "10_132", "6^2_2"])
def test_strands_are_laid_by_moves(name):
    diagram = Diagram.of(kh.Link(name))
    ways = [(strand, way) for strand in parts(diagram) for way in strand.ways(len(strand.passes) + 1)]
    found = [(strand.moved(way, Reached(diagram)), strand.laid(way)) for strand, way in ways]
    assert len(found) > 30 and all(moved and moved.diagram.key == laid.key for moved, laid in found)


def test_what_differs_by_numbers_has_one_key_and_one_text_in_the_end():
    link = kh.Link("7_7")
    other = kh.Link([[(it + 4) % 14 + 1 for it in slots] for slots in reversed(link.pd)])
    one, there = Diagram.of(link), Diagram.of(other)
    assert one.text != there.text and one.key == there.key == Diagram.of(link.reverse()).key != Diagram.of(kh.Link("7_6")).key
    assert len(next(matchings(one, there))) == 7
    reached = numbered(Reached(one), there)
    assert reached and reached.diagram.text == there.text == link.move(*reached.lines).code


def test_links_are_simplified():
    found = kh.simplify(UNKNOT)
    assert found.link.code == "PD[Loop[1]]" and kh.Link(UNKNOT).move(*found.lines) == found.link
    other = scrambled(kh.Link(TREFOIL), random.Random(5), 25)
    assert len(kh.simplify(other).link.pd) == 3 and kh.simplify("4_1").lines == ()


def test_answers():
    one = kh.same(TREFOIL, scrambled(kh.Link(TREFOIL), random.Random(1)))
    assert one and one.verdict == "one link" and str(one).startswith("one link: ") and kh.check_answer(one.json)
    other = kh.same("3_1", TREFOIL)
    assert not other and str(other) == "different: over 2 at j -9 i -3 the dimensions are 0 and 1" and kh.check_answer(other.json)
    other = kh.Link("10_129")
    left = kh.same("8_8", other if other.table(3) == kh.Link("8_8").table(3) else other.mirror(), 0.2)
    assert not left and str(left) == "not decided: the tables agree over 2, 3, 5 and 7; 8 and 10 crossings are left"
    assert not kh.check_answer(left.json) and kh.same("4_1", kh.Link("4_1").mirror())
    turned = kh.same("8_17", kh.Link("8_17").reverse())
    assert turned.is_reversed and "from the reversal of the second" in str(turned) and kh.check_answer(turned.json)
    with pytest.raises(kh.Refused):
        kh.same("3_1", "PD[X[1,2,1,2]]")


@pytest.mark.parametrize("name, other", [("3_1", "3_1"), ("8_19", "T(3,4)"), ("Hopf", "2^2_1"), ("10_129", "10_129")])
def test_names(name, other):
    names = kh.identify(scrambled(kh.Link(name), random.Random(7)), 5)
    assert {it.name for it in names} >= {name, other} and all(kh.check_answer(it.same.json) for it in names) and not names.near


def test_names_of_mirror_images_and_of_what_has_none():
    assert "the mirror image of 3_1" in str(kh.identify(TREFOIL)) and str(kh.identify("4_1")) == "4_1"
    assert str(kh.identify(kh.Link("5_2").union(kh.Link("4_1")))) == "no name of the reference has these tables"
    assert "unknot" in str(kh.identify(UNKNOT))


def changed(text, **members):
    return json.dumps({**json.loads(text), **members})


def test_answers_that_are_changed_prove_nothing():
    one = next(iter(kh.identify(scrambled(kh.Link(TREFOIL), random.Random(2))))).same.json
    it = json.loads(one)
    begin, end = it["scripts"]
    for members in (
        {"scripts": [begin[:-1], end]}, {"scripts": [begin]}, {"scripts": [begin, [*end, "r1 add 1 over plus"]]}, {"scripts": "r1"},
        {"meets": it["first"]}, {"first": "PD[]"}, {"first": 3}, {"reversed": True}, {"mirrored": not it["mirrored"]}, {"name": "4_1"},
        {"name": "nonesuch"}, {"same 1": "different"}, {"same 1": "not decided"}, {"first": it["first"] + ";r1 drop 1"},
    ):
        assert not kh.check_answer(changed(one, **members)), members
    other = kh.same("3_1", "4_1").json
    for members in ({"field": 4}, {"j": 60}, {"i": 60}, {"dimensions": [1, 1]}, {"dimensions": [5, 0]}, {"second": TREFOIL[:-1]}):
        assert not kh.check_answer(changed(other, **members)), members
    assert kh.check_answer(one) and kh.check_answer(other) and not any(map(kh.check_answer, ("", "[]", "{}", "null", one[:-1])))


PLANTED = [(answers, "numbered"), (answers, "joined_somehow"), (searching, "tidied"), (answers, "reversed_too")]


@pytest.mark.parametrize("where, name", PLANTED)
def test_a_wrong_search_answers_nothing(monkeypatch, where, name):
    """Whatever the search says, with a line lost or a line that nobody has carried out."""
    right = getattr(where, name)

    def wrong(*given):
        found = right(*given)
        if isinstance(found, Reached):
            return found._replace(lines=(*found.lines[:-1], "r1 drop 1"))
        return found and tuple(it._replace(lines=it.lines[:-1]) for it in found)

    monkeypatch.setattr(where, name, wrong)
    answer = kh.same(scrambled(kh.Link("5_2"), random.Random(4)), kh.Link("5_2").reverse().move("r1 add 2 under plus"), 0.2)
    assert answer.verdict == "not decided" or kh.check_answer(answer.json)


def run(command, *words, given=""):
    path = os.path.join(TOP, "tools", command)
    return subprocess.run([sys.executable, path, *words], input=given, capture_output=True, text=True, timeout=300)


def test_commands(tmp_path):
    (tmp_path / "code").write_text("trefoil: braid: 1 1 1\n")
    came = run("kh-same", "--json", "3_1", str(tmp_path / "code"))
    assert came.returncode == 0 and kh.check_answer(came.stdout)
    (tmp_path / "answers").write_text(came.stdout)
    assert run("kh-same", "--check", str(tmp_path / "answers")).stdout == "1 of 1 answers is proved\n"
    assert run("kh-same", "--check", given=came.stdout + "{}\n").returncode == 1
    assert run("kh-same", "3_1", "4_1").returncode == 1 and run("kh-same", "--seconds", "0.1", "10_25", "10_56").returncode in (1, 3)
    came = run("kh-same", "3_1", "PD[X[1,2,1,2]]")
    assert came.returncode == 2 and came.stderr.startswith("kh-same: ") and run("kh-same", "3_1").returncode == 2
    came = run("kh-identify", given="mine: [4, 6, 2]\nbraid: 1 -2 1 -2\n")
    assert came.returncode == 0 and came.stdout.startswith("mine: ") and came.stdout.endswith("\ncode 2: 4_1\n")
    came = run("kh-identify", str(tmp_path / "code"), "/dev/stdin", given="wrong: PD[X[1,2,1,2]]\nfine: 4_1\n")
    assert came.returncode == 2 and came.stdout.endswith("/dev/stdin: fine: 4_1\n") and "wrong: " in came.stderr
    came = run("kh-identify", "--json", str(tmp_path / "code"))
    assert all(map(kh.check_answer, came.stdout.splitlines())) and '"name": "3_1"' in came.stdout
