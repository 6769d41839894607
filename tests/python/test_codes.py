"""Links of codes in each form, and what is no code; no program is asked."""
import pickle

import pytest
from kh import Link, Refused

RIGHT = "PD[X[4, 2, 5, 1], X[2, 6, 3, 5], X[6, 4, 1, 3]]"
LEFT = "PD[X[1, 4, 2, 5], X[3, 6, 4, 1], X[5, 2, 6, 3]]"


@pytest.mark.parametrize("code, wanted", [
    ("3_1", RIGHT), ("T(2,3)", RIGHT), ("braid: 1 1 1", RIGHT), ("{2, {1, 1, 1}}", RIGHT), ("braid: (1)^3", RIGHT),
    ("PD[X[1,4,2,5], X[3,6,4,1], X[5,2,6,3]]", LEFT), ("[[1,4,2,5],[3,6,4,1],[5,2,6,3]]", LEFT),
    ([[1, 4, 2, 5], [3, 6, 4, 1], [5, 2, 6, 3]], LEFT), ([(0, 3, 1, 4), (2, 5, 3, 0), (4, 1, 5, 2)], LEFT),
    ("GaussCode[-1,3,-2,1,-3,2] Signs[-1,-1,-1]", "PD[X[1, 4, 2, 5], X[3, 6, 4, 1], X[5, 2, 6, 3]]"),
    ("unknot", "PD[Loop[1]]"), ("PD[]", "PD[]"), ("PD[Loop[1]]", "PD[Loop[1]]"),
])
def test_forms_of_a_code(code, wanted):
    assert Link(code).code == wanted


def test_dt_codes_and_braids_as_lists():
    assert Link([4, 6, 2]).code == Link("DT: [(4, 6, 2)]").code and "mirror image" in Link([4, 6, 2]).said[0]
    assert Link(braid=[1, 1, 1]).code == RIGHT and Link(braid=[]).code == "PD[Loop[1]]"
    assert Link([[1, 5, 2, 4], [3, 1, 4, 6], [5, 3, 6, 2]], clockwise=True).code == LEFT


def test_a_link_is_a_value():
    link = Link(LEFT)
    assert link == Link([[1, 4, 2, 5], [3, 6, 4, 1], [5, 2, 6, 3]]) != Link(RIGHT) and len({link, Link(LEFT)}) == 1
    assert link.pd == [(1, 4, 2, 5), (3, 6, 4, 1), (5, 2, 6, 3)] and link.loops == 0 and link != "no link"
    assert pickle.loads(pickle.dumps(link)) == link and repr(Link("8_19")) == "Link('8_19')" and str(link) == LEFT
    assert Link("8_19").name == "8_19" and Link(LEFT, name="mine").name == "mine" and Link("K = braid: 1 1").name == "K"
    assert Link("8_19").said == ("the closed braid of 8_19: 3 strands, 1 1 1 2 1 1 1 2; as the Knot Atlas has it",)
    with pytest.raises(AttributeError):
        link.code = RIGHT


@pytest.mark.parametrize("code, what, place", [
    ("9_99", "the reference has no link of this name", 0),
    ("PD[X[1,4,2,5], X[3,6,4,1], X[5,2,6,3", "this bracket is not closed", 28),
    ("[[1,4,2,5],[3,6,4,1],[5,2,6,4]]", "4 stands 3 times", 28),
    ("PD[X[1,2,1,2]]", "no sphere", None),
    ("[4,6,2,7]", "write braid: before a braid word", 0),
    ("GaussCode[-1,3,-2,1,-3,2]", "does not say the hand", 25),
    ("", "there is no code", None),
    ("3_1\n4_1", "2 codes", None),
])
def test_what_is_no_code_is_refused_with_its_place(code, what, place):
    with pytest.raises(Refused, match=what) as raised:
        Link(code)
    assert raised.value.place == place and isinstance(raised.value, ValueError)


def test_the_caret_stands_below_the_place():
    with pytest.raises(Refused) as raised:
        Link("PD[X[1,4,2,5], X[3,6,4,1], X[5,2,6,3")
    assert raised.value.caret == "  PD[X[1,4,2,5], X[3,6,4,1], X[5,2,6,3\n" + " " * 30 + "^"
    assert str(raised.value) == f"this bracket is not closed\n{raised.value.caret}"
