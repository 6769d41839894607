"""Arguments that are wrong, and what is said of them; no program is asked."""
import kh
import pytest

OVER_3 = kh.Table({(1, 0): 1, (3, 0): 1, (5, 2): 1, (9, 3): 1}, field=3)


class Whole:
    """A whole number of another type, as numpy has them."""

    def __init__(self, value):
        self.value = value

    def __index__(self):
        return self.value

    def __int__(self):
        return self.value

    def __eq__(self, other):
        return self.value == other

    def __hash__(self):
        return hash(self.value)


@pytest.mark.parametrize("call, error, what", [
    (lambda: kh.Link("8_19", braid=[1, 1, 1]), ValueError, "here are both"),
    (lambda: kh.Link(3), TypeError, "a code is a text or a list, and not 3"),
    (lambda: kh.Link(None), TypeError, "a code is a text or a list, and not None"),
    (lambda: kh.Link(b"8_19"), TypeError, "a code is a text or a list, and not b'8_19'"),
    (lambda: kh.Link(braid=[0]), ValueError, "a letter of a braid is 1, 2 and so on, or -1, -2 for their inverses, and not 0"),
    (lambda: kh.Link(braid=[1.5]), ValueError, "and not 1.5"),
    (lambda: kh.Link(braid="1 1 1"), TypeError, "a list of numbers"),
    (lambda: kh.Link(braid=3), TypeError, "a list of numbers"),
    (lambda: kh.Link("braid 2: 1 0"), kh.Refused, "0 is no letter of a braid"),
    (lambda: kh.Link("3_1").table(2.0), ValueError, "the field has 2, 3, 5 or 7 elements, and not 2.0"),
    (lambda: kh.Link("3_1").table("3"), ValueError, "and not '3'"),
    (lambda: kh.Link("3_1").reduced(1.0, 3), ValueError, "a mark is the number of an arc or of a loop, and not 1.0"),
    (lambda: kh.Link("3_1").reduced(1, 4), ValueError, "and not 4"),
    (lambda: kh.Link("3_1").certify(11), ValueError, "and not 11"),
    (lambda: kh.Link("3_1").union("4_1"), TypeError, "'4_1' is none"),
    (lambda: OVER_3["a", "b"], ValueError, "the degree j is a whole number, and not 'a'"),
    (lambda: OVER_3[1, 0.5], ValueError, "the degree i is a whole number, and not 0.5"),
    (lambda: OVER_3[1], TypeError, r"degrees are a pair \(j, i\), the quantum degree first, and not 1"),
    (lambda: OVER_3["ab"], TypeError, "and not 'ab'"),
    (lambda: kh.Table({(1, 0): 1}, field=4), ValueError, "and not 4"),
    (lambda: kh.Table({(1, 0): 1}, field="3"), ValueError, "and not '3'"),
    (lambda: kh.Table({(1, 0): 1.5}, field=3), ValueError, "a dimension is a whole number, and not 1.5"),
    (lambda: kh.Table({(1, 0): "1"}, field=3), ValueError, "a dimension is a whole number, and not '1'"),
    (lambda: kh.Table([(1, 0, 1)], field=3), TypeError, "a mapping of degrees"),
    (lambda: kh.Table.read("q", field=4), ValueError, "and not 4"),
    (lambda: kh.Table.read("q", order="qt"), ValueError, "and not 'qt'"),
    (lambda: list(kh.results([], 2, jobs=0)), ValueError, "jobs is a number from 1, and not 0"),
])
def test_a_wrong_argument_is_refused_with_what_is_wrong(call, error, what):
    with pytest.raises(error, match=what):
        call()


def test_whole_numbers_of_other_types():
    assert OVER_3[Whole(9), Whole(3)] == 1 and OVER_3[9.0, 3] == 1 and OVER_3[3, 9] == 0 and OVER_3[[9, 3]] == 1
    assert kh.Table({(Whole(9), 3): Whole(2)}, field=Whole(5)) == kh.Table({(9, 3): 2}, field=5)
    assert kh.Link(braid=[Whole(1)] * 3) == kh.Link("3_1")


def test_the_mark_of_the_order_of_bytes():
    assert kh.Link("\ufeff[[1,4,2,5],[3,6,4,1],[5,2,6,3]]").code == kh.Link("[[1,4,2,5],[3,6,4,1],[5,2,6,3]]").code
    assert kh.Link("\ufeff8_19").name == "8_19"
