"""Comparisons with the reference, and its names."""
import functools
import json
import subprocess

import kh
import pytest
from kh.places import reference_file
from kh.reference.stored import diagrams, lines_of

NAMES = ["3_1", "4_1", "5_2", "7^2_1"]
# Tables over three elements, and over five and seven.
TABLES = {
    "3_1": "q + q^3 + q^5 t^2 + q^9 t^3", "4_1": "q^-5 t^-2 + q^-1 t^-1 + q^-1 + q + q t + q^5 t^2",
    "8_19": "q^5 + q^7 + q^9 t^2 + q^11 t^4 + q^13 t^3 + q^13 t^4 + q^15 t^5 + q^17 t^5", "Hopf": "1 + q^2 + q^4 t^2 + q^6 t^2",
}


@pytest.mark.program
def test_a_comparison():
    found = kh.compare(lambda link, field: link.table(field), names=NAMES)
    assert found and str(found) == "16 of 16 answers agree" and found.agrees
    turned = kh.compare(lambda link: link.mirror().table(3), field=3, names=NAMES[:3])
    assert not turned and turned.lines[1] == "3 of 3 are exact in one way: it is the table of the mirror image: i and j are negated"


def test_comparisons_of_other_values():
    trefoil = {(1, 0): 1, (3, 0): 1, (5, 2): 1, (9, 3): 1}
    for value in (trefoil, {(i, j): dim for (j, i), dim in trefoil.items()}, "q + q^3 + q^5 t^2 + q^9 t^3", kh.Table(trefoil, field=3)):
        assert kh.compare({"3_1": value}, field=3, names=["3_1"])
    other = kh.compare({"3_1": {**trefoil, (9, 3): 2}, "none": {}}, field=3, names=["3_1", "4_1"])
    assert not other and other.lines[0] == "0 of 1 answer agrees" and any("no answer" in it for it in other.lines)
    assert kh.compare({"3_1": {**trefoil, (9, 3): 0}}, field=3, names=["3_1"]).lines[2].endswith("j 9 i 3: 0, and 1 in the reference")


@pytest.mark.program
def test_all_links_of_the_reference():
    assert kh.compare(lambda link, field: link.table(field), "reference").lines[0] == "672 of 672 answers agree"


def test_what_came_of_each_link():
    """Each in another way."""
    tables = {name: kh.Table.read(text, field=3) for name, text in TABLES.items()}
    answers = {"3_1": tables["3_1"].mirror(), "4_1": {**tables["4_1"], (5, 2): 2}, "8_19": "none", "Hopf": None, "9_1": tables["8_19"]}
    found = kh.compare(answers, field=3, names=[*answers, "5_1"])
    assert found.links == {
        "3_1": "mirrored", "4_1": "another table", "8_19": "no table", "Hopf": "no answer", "9_1": "the table of 8_19", "5_1": "no answer",
    }
    shifted = kh.compare({"3_1": tables["3_1"].shift(j=2), "4_1": tables["4_1"]}, names=["3_1", "4_1"])
    assert shifted.links == {"3_1": "j shifted by 2", "4_1": "agrees"}


def test_a_link_of_several_outcomes():
    def mine(link, field):
        table = kh.Table.read(TABLES[link.name], field=field)
        return None if field == 2 else table.mirror() if field == 3 else table

    assert kh.compare(mine, names=["3_1"]).links == {"3_1": "no answer over 2, mirrored over 3"}


def test_links_are_named_in_the_one_way():
    """One that is its own mirror image is told once."""
    answers = {name: kh.Table.read(text, field=3).mirror() for name, text in TABLES.items()}
    found = kh.compare(answers, names=answers)
    assert found.lines[2:] == ("agree: 4_1", "mirrored: 3_1, 8_19, Hopf")
    assert [name for name, outcome in found.links.items() if outcome == "mirrored"] == ["3_1", "8_19", "Hopf"]
    assert kh.compare(answers, names=answers, most=2).lines[3] == "mirrored: 3_1, 8_19 and 1 more"


@pytest.mark.parametrize("nothing, why", [(None, ""), *((text, ", since the program wrote nothing") for text in ("", " \n"))])
def test_nothing_is_no_answer(nothing, why):
    found = kh.compare(lambda link: nothing, names=["3_1", "4_1"])
    assert found.lines == ("0 of 0 answers agree", f"2 links have no answer{why}: 3_1 and 4_1") and not found
    found = kh.compare(lambda link, field: nothing if link.name == "4_1" else TABLES["3_1"] if field > 2 else None, names=["3_1", "4_1"])
    silent = f"1 link has no answer over 2, over 3, over 5 and over 7{why}: 4_1"
    assert found.lines[0] == "3 of 3 answers agree" and (silent in found.lines or not why) and found.links["4_1"] == "no answer"


def test_one_reason_for_many_shifts():
    tables = {name: kh.Table.read(TABLES[name], field=3) for name in ("3_1", "8_19")}
    found = kh.compare({name: it.shift(j=3 * w, i=w) for (name, it), w in zip(tables.items(), (-3, -8))}, names=tables)
    assert len(found.lines) == 2 and "own numbers: so it is where n+ and n- are exchanged" in found.lines[1]
    assert found.links["8_19"] == "j shifted by -24 and i shifted by -8"


def test_a_link_is_listed_once():
    found = kh.compare({"3_1": "none", "4_1": {}, "Hopf": "0"}, field=3, names=["3_1", "4_1", "Hopf"])
    assert found.lines[1:] == (
        "3 answers are no tables:", "  3_1 over 3: line 1 is no row of a table, and the text no polynomial in q and t: none",
        "  4_1 over 3: no dimension is above 0", "  Hopf over 3: no dimension is above 0",
    )


def test_the_nearest_way_says_whose_number_is_whose():
    line = kh.compare({"3_1": "1/q + 1/q^3 + 1/(q^5 t^2) + 2/(q^9 t^3)"}, field=3, names=["3_1"]).lines[2]
    assert line == "  3_1 over 3: nearest is the mirror image, with i and j negated: j -9 i -3: yours 2, the mirrored reference 1"


def test_all_names_are_links():
    assert kh.names()[:3] == ["3_1", "4_1", "5_1"] and len(kh.names()) == 168 and len(kh.names("prime")) == 727
    for name in [*kh.names(), *kh.names("prime")[::50], *kh.names("large")]:
        assert kh.Link(name).name == name
    assert kh.Link("3_1 and two loops").loops == 2 and kh.Link(" no link ").code == "PD[]"


@pytest.mark.parametrize("name, meant", [
    ("hopf", "is Hopf meant?"), ("L2a1", "is 2^2_1 or Hopf meant?"), ("borromean rings", "is Borromean or Borromean and two loops meant?"),
    ("9_50", "is 9_5, 9_45 or 9_40 meant?"), ("WHITEHEAD", "is Whitehead meant?"),
])
def test_unknown_names_have_near_ones(name, meant):
    with pytest.raises(kh.Refused) as of_link:
        kh.Link(name)
    with pytest.raises(kh.Refused) as of_names:
        kh.compare({}, names=["3_1", name])
    assert of_link.value.what.endswith(meant)
    assert of_names.value.what == f"the reference has no {name}; {meant} kh.names lists all that it has"


def test_a_name_that_is_near_none():
    with pytest.raises(kh.Refused, match="^the reference has no nonesuch; kh.names lists all that it has$"):
        kh.compare({}, names="nonesuch")
    with pytest.raises(kh.Refused, match="a braid word\n"):
        kh.Link("nonesuch")


def failing(link, field):
    """A program that crashes, that takes long, that says why it ends, and a function with a mistake."""
    words = {"4_1": "kill -11 $$", "5_1": "echo no such; echo a fault >&2; exit 3", "5_2": "exec sleep 60"}
    if link.name in words:
        subprocess.run(["sh", "-c", words[link.name]], check=True, capture_output=True, timeout=20 if link.name != "5_2" else 0.25)
    if link.name == "6_1" and field == 3:
        raise KeyError(link.name)
    return stored()[link.name, field]


@functools.cache
def stored(name="vectors.jsonl"):
    """The tables of a file of the reference, by name and field."""
    return {(it["name"], it["field"]): kh.Table({(j, i): count for j, i, count in it["rows"]}, field=it["field"])
            for it in lines_of(reference_file(name))}


@pytest.mark.parametrize("jobs", [1, 4])
def test_what_fails_is_no_answer_and_the_others_go_on(jobs, capsys):
    found = kh.compare(failing, names=["3_1", "4_1", "5_1", "5_2", "6_1"], jobs=jobs, progress=True)
    every = "over 2, over 3, over 5 and over 7"
    assert found.lines == (
        "7 of 7 answers agree", f"1 link has no answer {every}, since the program was ended by signal 11 (SIGSEGV): 4_1",
        f"1 link has no answer {every}, since the program ended with status 3: a fault: 5_1",
        f"1 link has no answer {every}, since the program took longer than 0.25 seconds: 5_2",
        "1 link has no answer over 3, since it raised KeyError: '6_1': 6_1",
    )
    assert not found and found.links["3_1"] == "agrees" and found.links["4_1"] == "no answer" and found.links["6_1"] == "no answer over 3"
    assert found.causes["4_1"] == "the program was ended by signal 11 (SIGSEGV)" and "3_1" not in found.causes
    assert found.causes["6_1"] == "it raised KeyError: '6_1'"
    said = capsys.readouterr()
    assert said.err.endswith("a second \n") and "\r20 done, 0 left" in said.err and not said.out


def test_few_reasons_are_told():
    def mine(link):
        raise ValueError(f"{link.name}\nand more")

    found = kh.compare(mine, most=3)
    assert len(found.lines) == 5 and found.lines[-1] == "165 links more, for other reasons" and len(found.causes) == 168
    assert found.causes["Hopf"] == "it raised ValueError: Hopf"


def test_a_table_without_the_loops():
    """What a program makes of `link.pd`, which leaves them out; also where it is the mirror image's."""
    tables = {name: stored()[name, 3] for name in ("3_1", "4_1", "8_19")}
    apart = {f"{name} and two loops": table for name, table in tables.items()}
    found = kh.compare({**apart, "3 loops": {(1, 0): 1, (-1, 0): 1}}, field=3, names=[*apart, "3 loops"])
    without = "of the diagram, which link.pd leaves out, and link.loops counts"
    labels = "3_1 and two loops over 3, 4_1 and two loops over 3 and 8_19 and two loops over 3"
    assert found.lines == (
        "0 of 4 answers agree", f"3 answers ({labels}): it is the table without the loops {without}",
        f"1 answer (3 loops over 3): it is the table without 2 of the 3 loops {without}",
    )
    assert found.links["3_1 and two loops"] == "the table without the loops of the diagram"
    found = kh.compare({"3_1 and two loops": tables["3_1"].mirror()}, names=["3_1 and two loops"])
    assert found.links == {"3_1 and two loops": "the table of the mirror image without the loops of the diagram"}


@pytest.mark.parametrize("is_wrong, common", [
    (lambda line, field: field == 5, "are over 5, and none of the 504 that agree"),
    (lambda line, field: line["minus"] % 2, "have an odd number of negative crossings, and none of the 436 that agree"),
    (lambda line, field: sum(count for _, count in line["jones"]) == 4, "have 2 components, and none of the 540 that agree"),
])
def test_what_failures_have_in_common(is_wrong, common):
    lines = {it["name"]: it for it in lines_of(reference_file("vectors.jsonl"))}

    def mine(link, field):
        table = stored()[link.name, field]
        return {**table, [*table][0]: 7, [*table][-1]: 9} if is_wrong(lines[link.name], field) else table

    told = [it for it in kh.compare(mine).lines if it.startswith("in common: ")]
    assert told[0] == f"in common: all of them {common}" and len(told) < 4
    assert not [it for it in kh.compare(mine, names=["3_1", "Hopf"]).lines if it.startswith("in common: ")]


def test_a_reference_of_a_database(tmp_path):
    """What `kh-tabulate write --json` writes is one; a file that is none is refused."""
    rows = {"name": "mine", "field": 3, "status": 0, "jones": "1*q^1 1*q^3 1*q^5 -1*q^9", "refusal": "", "seconds": 0.1, "program": "scan"}
    row = {**rows, "code": "[[4,2,5,1],[2,6,3,5],[6,4,1,3]]", "table_rows": "1 0 1; 3 0 1; 5 2 1; 9 3 1"}
    refused = {**rows, "name": "cut", "code": "[[", "table_rows": "", "jones": "", "refusal": "refused json", "status": 1}
    path = tmp_path / "answers.jsonl"
    path.write_text(f"{json.dumps(row)}\n{json.dumps(refused)}\n")
    assert kh.names(path) == ["mine"] and kh.compare({"mine": TABLES["3_1"]}, path, field=3)
    codes = []
    assert kh.compare(lambda link: codes.append(link.code) or TABLES["3_1"], str(path), field=3)
    assert codes == ["PD[X[4, 2, 5, 1], X[2, 6, 3, 5], X[6, 4, 1, 3]]"]
    for text in ("no JSON\n", '{"name": "3_1"}\n', "[1]\n"):
        path.write_text(text)
        for call in (lambda: kh.names(path), lambda: kh.compare({}, path)):
            diagrams.cache_clear()
            with pytest.raises(kh.Refused, match="answers.jsonl:1: this is no line of a reference"):
                call()
    path.write_text(f"{json.dumps(row)}\n{json.dumps({**row, 'field': 5, 'code': 'PD[Loop[1]]'})}\n")
    with pytest.raises(kh.Refused, match="two codes of mine"):
        kh.compare({}, path)


@pytest.mark.parametrize("call, error, what", [
    (lambda: kh.compare([1, 2]), TypeError, r"answers are a function from a link to its table, or a mapping .*, and not \[1, 2\]"),
    (lambda: kh.compare({}, ["3_1"]), TypeError, "names= takes names of it"),
    (lambda: kh.compare({}, field=4), ValueError, "and not 4"),
    (lambda: kh.compare({}, order="qt"), ValueError, "and not 'qt'"),
    (lambda: kh.compare({}, jobs=0), ValueError, "jobs is a number from 1"),
    (lambda: kh.compare({}, links=["3_1"], names=["3_1"]), ValueError, "give one of them"),
    (lambda: kh.compare({}, links=["9_99"]), kh.Refused, "no link of this name"),
    (lambda: kh.compare({}, links=[3]), TypeError, "a code is a text or a list, and not 3"),
    (lambda: kh.names("nope"), kh.Refused, "there is no reference nope"),
    (lambda: kh.compare({}, "nope"), kh.Refused, "there is no reference nope"),
])
def test_what_can_not_be_compared_is_refused(call, error, what):
    with pytest.raises(error, match=what):
        call()


@pytest.mark.program
def test_links_of_ones_own():
    links = [kh.Link("8_19"), "braid: 1 1 1", ("mine", [[1, 4, 2, 5], [3, 6, 4, 1], [5, 2, 6, 3]]), ("mine", kh.Link("4_1"))]
    asked = []
    found = kh.compare(lambda link, field: asked.append(link) or link.table(field), links=links)
    assert found and found.lines == ("16 of 16 answers agree",) and [*found.links] == ["8_19", "link 2", "mine", "mine (4)"]
    assert {it.name for it in asked} == {*found.links} and kh.Link("4_1") in asked
    turned = kh.compare(lambda link: link.mirror().table(3), field=3, links={"K": "3_1", "L": "8_19", "apart": "3_1 and two loops"})
    assert turned.links == {"K": "mirrored", "L": "mirrored", "apart": "mirrored"}
    one = kh.compare({"3_1": kh.Link("3_1").reduced(1, 3).dimensions}, field=3, links="3_1")
    assert one.links == {"3_1": "the reduced table"}
    assert kh.compare({"3_1": kh.Link("3_1").reduced(1, 3)}, field=3, links="3_1")
    assert kh.compare(lambda it: it.reduced(1), links=kh.Link("4_1"), reduced=True)
    with pytest.raises(kh.TooLarge, match="long: "):
        kh.compare(lambda link: link.table(2), links=[("long", kh.Link(braid=[1] * 21))])
