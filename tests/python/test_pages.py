"""The page of the package, and its notebook."""
import json
import os
import re
import shutil
import subprocess
import sys

import kh
import pytest

TOP = os.path.dirname(os.path.dirname(os.path.dirname(os.path.abspath(__file__))))
NOTEBOOK = os.path.join(TOP, "docs", "notebook", "tour.ipynb")
SURROUNDINGS = {**os.environ, "PYTHONPATH": os.path.dirname(os.path.dirname(os.path.abspath(kh.__file__)))}


# What stands for a reader's own program: it reads the list of a planar diagram, and writes lines.
PROGRAM = f"""#!{sys.executable}
import json
import kh
for j, i, dimension in kh.Link(json.loads(input())).table(2).rows:
    print(j, i, dimension)
"""


def test_the_page_is_what_the_docstrings_say():
    words = [sys.executable, os.path.join(TOP, "tools", "python-page"), "--test"]
    came = subprocess.run(words, capture_output=True, text=True, timeout=120, env=SURROUNDINGS)
    assert (came.returncode, came.stderr) == (0, "")


def blocks():
    with open(os.path.join(TOP, "docs", "PYTHON.md"), encoding="utf-8") as file:
        return re.findall(r"^```python\n(.*?)^```$", file.read(), re.M | re.S)


@pytest.mark.program
def test_the_lines_of_the_page(monkeypatch, tmp_path, capsys):
    """All that needs no SageMath; the loop over its knots is run by `test_conversions.py`."""
    monkeypatch.chdir(tmp_path)
    (tmp_path / "knotinfo.csv").write_text('name,braid_notation\n8_19,"{1,1,1,2,1,1,1,2}"\n')
    first, _, beside, turned, moved, own, alone, with_sage, frames = blocks()
    (tmp_path / "my-program").write_text(PROGRAM)
    (tmp_path / "my-program").chmod(0o755)
    monkeypatch.setenv("PYTHONPATH", SURROUNDINGS["PYTHONPATH"])
    monkeypatch.setenv("HOME", str(tmp_path))
    known = {}
    exec(first, known)
    assert known["T"][13, 4] == 1 and known["T"] == known["L"].mirror().table(3).mirror()
    exec(beside, known)
    assert capsys.readouterr().out == "4 of 4 answers agree\n"
    exec(moved, known)
    count = len(known["link"].moves()[::7])
    assert count > 3 and capsys.readouterr().out == f"{count} of {count} answers agree\n"
    with open(os.path.join(TOP, "docs", "PYTHON.md"), encoding="utf-8") as file:
        in_one_way, in_rows = re.findall(r"^```text\n(.*?)^```$", file.read(), re.M | re.S)
    exec(turned, known)
    assert capsys.readouterr().out == in_one_way
    exec(alone, known)
    assert capsys.readouterr().out.startswith("{Degrees(j=11, i=4): (1, 0), ")
    exec(own, known)
    told, lines = capsys.readouterr().out.splitlines(), in_rows.splitlines()
    assert [it for it in told if it in lines] == lines and "Knots().from_table" in with_sage
    pytest.importorskip("pandas")
    exec(frames, known)
    assert len(known["df"]) > 20


@pytest.mark.program
def test_the_notebook(tmp_path):
    """It runs to its end, and its drawings stand in the page that comes of it."""
    for module in ("nbconvert", "ipykernel", "matplotlib", "pandas"):
        pytest.importorskip(module)
    shutil.copy(NOTEBOOK, tmp_path)
    words = [sys.executable, "-m", "nbconvert", "--to", "html", "--execute", "--ExecutePreprocessor.timeout=600", "tour.ipynb"]
    came = subprocess.run(words, cwd=tmp_path, capture_output=True, text=True, timeout=1_200, env=SURROUNDINGS)
    assert came.returncode == 0, came.stderr[-2_000:]
    page = (tmp_path / "tour.html").read_text(encoding="utf-8")
    assert page.count("<svg xmlns") >= 2 and page.count('stroke-width="5"') > 10 and "<caption>over 3 elements</caption>" in page
    assert "672 are exact in one way: it is the table of the mirror image" in page.replace("&#39;", "'") and "image/png" in page


@pytest.mark.program
def test_a_page_that_is_sanitised():
    """Tables and formulas stay, a drawing loses its lines with pixels beside it and without, and pixels alone stay, as the page says."""
    notebooks, convert, *_ = map(pytest.importorskip, ("nbformat.v4", "nbconvert", "cairosvg", "IPython.display"))
    if not convert.__version__.startswith("6."):
        pytest.skip("nbconvert is another one than the page speaks of")
    link = kh.Link("3_1")
    known = {"L": link}
    exec(blocks()[1].replace("IPython.display.Image(", "shown = IPython.display.Image("), known)
    (image, _), svg = known["shown"]._repr_mimebundle_(), link.drawing().svg
    shown = {"text/html": link._repr_html_()}, {"text/html": svg, "image/svg+xml": svg, **image}, image, {"text/latex": link.jones._repr_latex_()}
    cells = [notebooks.new_code_cell(outputs=[notebooks.new_output("display_data", it)]) for it in shown]
    page, _ = convert.HTMLExporter(sanitize_html=True).from_notebook_node(notebooks.new_notebook(cells=cells))
    assert page.count("<caption>") == 4 and page.count('stroke-width="5"') == 0 and page.count('<img src="data:image/png') == 1
    assert link.jones._repr_latex_() in page


@pytest.mark.program
def test_what_is_shown_of_a_drawing():
    """The picture in a notebook, and its text in a terminal."""
    formatters = pytest.importorskip("IPython.core.formatters")
    drawing = kh.Link("3_1").drawing()
    data, _ = formatters.DisplayFormatter().format(drawing, include={"image/svg+xml", "text/html", "text/plain"})
    assert data == {"image/svg+xml": drawing.svg, "text/html": drawing.svg, "text/plain": str(drawing)}


def test_the_notebook_is_kept_without_what_it_wrote():
    with open(NOTEBOOK, encoding="utf-8") as file:
        assert not any(cell.get("outputs") for cell in json.load(file)["cells"])
