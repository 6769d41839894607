"""Links of SageMath, Regina and SnapPy: what was kept of these programs, and the programs themselves where they are installed.

SnapPy is not in Debian, so its forms are tried as its documentation has them.
"""
import json
import os
import shutil
import subprocess
from types import SimpleNamespace

import kh
import pytest

HERE = os.path.dirname(os.path.abspath(__file__))


def lines_of(text):
    return [it for it in map(json.loads, text.splitlines()) if "name" in it]


def kept_lines(name):
    with open(os.path.join(HERE, "kept", name), encoding="utf-8") as file:
        return lines_of(file.read())


def as_sage(it):
    return SimpleNamespace(pd_code=lambda: it["pd"], number_of_components=lambda: it["components"])


def as_regina(it):
    return SimpleNamespace(pdData=lambda: it["pd"], countComponents=lambda: it["components"])


@pytest.mark.program
@pytest.mark.parametrize("it", kept_lines("sage.jsonl"), ids=lambda it: it["name"])
def test_links_that_sage_gave(it):
    """The table is the one that SageMath computed, so no link was mirrored on the way."""
    assert kh.from_sage(as_sage(it), it["name"]).table(3).rows == [tuple(row) for row in it["rows"]]


@pytest.mark.program
@pytest.mark.parametrize("it", kept_lines("regina.jsonl"), ids=lambda it: it["name"])
def test_links_that_regina_gave(it):
    """Writhe, components and Jones polynomial are those that Regina has, where q is minus the square root of t."""
    link = kh.from_regina(as_regina(it), it["name"])
    terms = link.jones.normalised().terms
    assert [[j, -count if j % 2 else count] for (j, _), count in terms.items()] == it["jones"]
    assert link.writhe == it["writhe"] and len(link.components) == it["components"]


def asked(words, **more):
    """What another program writes, with this package on its path."""
    settings = {**os.environ, "PYTHONPATH": os.path.dirname(os.path.dirname(os.path.abspath(kh.__file__))), **more}
    came = subprocess.run(words, capture_output=True, text=True, timeout=1_200, env=settings)
    assert came.returncode == 0, came.stderr[-2_000:]
    return came.stdout


SAGE = ["sage", "--python", os.path.join(HERE, "ask_sage.py")]
REGINA = ["regina-python", "--quiet", os.path.join(HERE, "ask_regina.py")]


@pytest.mark.program
@pytest.mark.parametrize("words", [SAGE, REGINA], ids=["sage", "regina"])
def test_lines_with_the_program_itself(words):
    if not shutil.which(words[0]):
        pytest.skip(f"{words[0]} is not installed")
    assert asked([*words, "lines"]) == "the lines hold\n"


@pytest.mark.parametrize("words, name", [(SAGE, "sage.jsonl"), (REGINA, "regina.jsonl")], ids=["sage", "regina"])
def test_what_was_kept_is_what_the_program_says(words, name):
    if not shutil.which(words[0]):
        pytest.skip(f"{words[0]} is not installed")
    if os.environ.get("KH_CHECK") != "anew":
        pytest.skip("asked with KH_CHECK=anew")
    assert lines_of(asked([*words, "kept"])) == kept_lines(name)


LEFT = [(0, 3, 1, 4), (2, 5, 3, 0), (4, 1, 5, 2)]


@pytest.mark.program
def test_links_of_snappy():
    """SnapPy numbers arcs from 0 and goes counterclockwise, and has circles without crossings beside the list."""
    link = SimpleNamespace(PD_code=lambda: LEFT, unlinked_unknot_components=2)
    ours = kh.from_snappy(link, "mine")
    assert ours.code == "PD[X[1, 4, 2, 5], X[3, 6, 4, 1], X[5, 2, 6, 3], Loop[7], Loop[8]]" and ours.signs == (-1, -1, -1)
    assert kh.from_snappy(SimpleNamespace(link=lambda: link)) == ours and ours.name == "mine"


def test_a_list_that_no_drawing_has():
    with pytest.raises(kh.Refused, match="no sphere"):
        kh.from_regina(as_regina({"pd": [[2, 4, 1, 3], [1, 3, 2, 4]], "components": 2}))


def test_circles_go_as_curls():
    from kh.conversions import with_curls

    assert with_curls(kh.Link("PD[Loop[1], Loop[2]]")) == [(1, 1, 2, 2), (3, 3, 4, 4)]
    assert with_curls(kh.Link("3_1")) == kh.Link("3_1").pd
