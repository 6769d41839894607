"""Lists that are read, and tables of many links."""
import kh
import pytest

TABLE = 'name,pd_notation,braid_notation\n3_1,"[[1,5,2,4],[3,1,4,6],[5,3,6,2]]",\n8_19,,"{1,1,1,2,1,1,1,2}"\n'
WRONG = TABLE + 'cut,"[[1,4,2,5]",\n'


def written(folder, text):
    path = folder / "list"
    path.write_text(text)
    return path


@pytest.mark.parametrize("text", [TABLE, "3_1\tPD[X[1,5,2,4], X[3,1,4,6], X[5,3,6,2]]\n8_19: braid 3: 1 1 1 2 1 1 1 2\n"])
def test_lists_are_read(tmp_path, text):
    links = kh.read(written(tmp_path, text))
    assert [it.name for it in links] == ["3_1", "8_19"] and links[1] == kh.Link("8_19")


def test_a_wrong_code_of_a_list(tmp_path):
    with pytest.raises(kh.Refused, match=r"list:4: cut: this bracket is not closed\n  \"\[\[1,4,2,5\]\""):
        kh.read(written(tmp_path, WRONG))
    with pytest.warns(UserWarning, match="left out: .*list:4: cut"):
        assert len(kh.read(written(tmp_path, WRONG), skip_wrong=True)) == 2
    with pytest.raises(kh.Refused, match="list:2: virtual: it can be drawn on no sphere"):
        kh.read(written(tmp_path, "3_1\nvirtual\tPD[X[1,2,1,2]]\n"))


@pytest.mark.program
@pytest.mark.parametrize("jobs", [1, 3])
def test_results_are_the_tables(jobs):
    links = [kh.Link(braid=[1] * n) for n in range(1, 9)]
    for fields in ("all", 3, (5, 2)):
        found = {(it.link.code, it.field): it.table for it in kh.results(links, fields, jobs)}
        wanted = kh.FIELDS if fields == "all" else (3,) if fields == 3 else fields
        assert found == {(link.code, field): link.table(field) for link in links for field in wanted}


@pytest.mark.parametrize("ending, error", [("exit 3", kh.Missing), ("exit 5", MemoryError), ("kill -9 $$", kh.Missing)])
def test_a_result_that_is_lost(monkeypatch, tmp_path, ending, error):
    path = tmp_path / "scan"
    path.write_text(f"#!/bin/sh\necho answers 1\nread _\n{ending}\n")
    path.chmod(0o755)
    monkeypatch.setenv("KH_SCAN_PROGRAM", str(path))
    links = [kh.Link("3_1"), kh.Link("4_1")]
    found = list(kh.results(links, (3, 5), jobs=2))
    assert sorted((it.link.name, it.field) for it in found) == [("3_1", 3), ("3_1", 5), ("4_1", 3), ("4_1", 5)]
    assert all(it.table is None and isinstance(it.fault, error) for it in found)


@pytest.mark.parametrize("fields", ["some", 4, (2, 11), ()])
def test_fields_that_are_none(fields):
    with pytest.raises(ValueError, match="2, 3, 5 or 7"):
        list(kh.results([], fields))


@pytest.mark.program
def test_a_frame(tmp_path):
    pandas = pytest.importorskip("pandas")
    links = [*kh.read(written(tmp_path, TABLE)), kh.Link("unknot")]
    frame = kh.frame(links, fields="all", jobs=2)
    assert list(frame.columns) == ["link", "name", "field", "j", "i", "dim"] and frame.attrs == {"without": []}
    over_2 = frame.query("field == 2 and name == '8_19'").pivot_table(index="j", columns="i", values="dim")
    assert {(j, i): dim for j, row in over_2.iterrows() for i, dim in row.items() if not pandas.isna(dim)} == links[1].table(2)
    assert set(frame["link"]) == {0, 1, 2} and len(frame[frame["link"] == 2]) == 8


@pytest.mark.program
def test_a_frame_without_some(tmp_path):
    pytest.importorskip("pandas")
    with pytest.warns(UserWarning, match="1 table is missing"):
        frame = kh.frame([kh.Link("3_1"), kh.Link(braid=[1] * 21, name="long")], fields=3)
    assert len(frame) == 4 and frame.attrs["without"][0][:3] == (1, "long", 3) and "limit crossings" in frame.attrs["without"][0][3]
