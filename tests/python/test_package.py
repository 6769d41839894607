"""The package as it is checked and installed: its types, and what pip makes of it, where mypy and pip with setuptools are there."""
import importlib.util
import os
import shutil
import subprocess
import sys

import pytest

TOP = os.path.dirname(os.path.dirname(os.path.dirname(os.path.abspath(__file__))))


def test_types():
    if not shutil.which("mypy"):
        pytest.skip("mypy is not installed")
    came = subprocess.run(["mypy", "--strict", "--cache-dir", os.devnull, "python/kh"], cwd=TOP, capture_output=True, text=True, timeout=600)
    assert came.returncode == 0, came.stdout


def test_what_installs_the_rest_says_what_it_does():
    path = os.path.join(TOP, "tools", "for-tests")
    came = subprocess.run([path, "--help"], capture_output=True, text=True, timeout=60)
    assert came.returncode == 0 and "tools/for-tests [all]" in came.stdout and not came.stderr
    assert subprocess.run([path, "everything"], capture_output=True, timeout=60).returncode == 1


PYTHON = """#!/bin/sh
case "$*" in
*sys.prefix*) echo False ;;
*"import "*) exit 1 ;;
*pip*) echo "$@" >>"$CALLS"; exit "$STATUS" ;;
esac
"""


@pytest.mark.parametrize("status, said", [("0", ""), ("1", "Debian's own does: /usr/bin/python3 -m pytest")])
def test_the_python_that_runs_the_tests_gets_them(tmp_path, status, said):
    """Another Python than Debian's gets them by its pip; where that fails it is said which Python has them."""
    for name, text in (("python3", PYTHON), ("dpkg-query", "#!/bin/sh\necho install ok installed\n"), ("apt-get", "#!/bin/sh\nexit 1\n")):
        (tmp_path / name).write_text(text)
        (tmp_path / name).chmod(0o755)
    calls = tmp_path / "calls"
    settings = {**os.environ, "PATH": f"{tmp_path}:{os.environ['PATH']}", "CALLS": str(calls), "STATUS": status}
    came = subprocess.run([os.path.join(TOP, "tools", "for-tests")], capture_output=True, text=True, timeout=60, env=settings)
    assert came.returncode == 0 and said in came.stderr and bool(came.stderr) == bool(said)
    assert calls.read_text().split()[-1] == "pytest"


def installed(folder):
    """The package as pip installs it into a folder, without the net."""
    words = [sys.executable, "-m", "pip", "install", "--quiet", "--no-build-isolation", "--no-index", "--no-deps", "--target", folder, TOP]
    came = subprocess.run(words, capture_output=True, text=True, timeout=600, env={**os.environ, "PYTHONPATH": ""})
    assert came.returncode == 0, came.stderr
    return folder


def test_it_is_installed_with_all_that_it_needs(tmp_path):
    missing = [it for it in ("pip", "setuptools", "wheel") if not importlib.util.find_spec(it)]
    if missing:
        pytest.skip(f"there is no {missing[0]}")
    folder = installed(str(tmp_path / "installed"))
    code = (
        "import kh; print(kh.__file__); print(kh.__version__); print(kh.Link('K11n34').code[:3], kh.Link('8_19').said)\n"
        "print(bool(kh.compare({'3_1': 'q + q^3 + q^5 t^2 + q^9 t^3'}, field=3, names=['3_1'])))"
    )
    settings = {**os.environ, "PYTHONPATH": folder}
    came = subprocess.run([sys.executable, "-c", code], cwd=tmp_path, capture_output=True, text=True, timeout=120, env=settings)
    assert came.returncode == 0, came.stderr
    place, version, code, agrees = came.stdout.splitlines()
    assert place.startswith(folder) and version and code.startswith("PD[") and "Knot Atlas" in code and agrees == "True"
    codes = subprocess.run([os.path.join(folder, "bin", "kh-codes"), "--link", "3_1"], capture_output=True, text=True, env=settings)
    assert codes.stdout == "PD[X[4, 2, 5, 1], X[2, 6, 3, 5], X[6, 4, 1, 3]]\n"
    given = "table 2\nfield 3\nj -1 i 0 dim 1\nj 1 i 0 dim 1\n"
    usages = ((it, "usage") for it in ("kh-compare", "kh-drawing", "kh-identify", "kh-page", "kh-same"))
    for command, wanted in (("kh-table", "over 3 elements"), *usages):
        words = [os.path.join(folder, "bin", command), *(["--help"] if wanted == "usage" else [])]
        assert subprocess.run(words, input=given, capture_output=True, text=True, env=settings).stdout.startswith(wanted)
    code = "from kh.show.page_theorem import theorem_page; print('<img' in theorem_page('', ''))"
    came = subprocess.run([sys.executable, "-c", code], cwd=tmp_path, capture_output=True, text=True, timeout=120, env=settings)
    assert came.stdout == "True\n"
    points = next(tmp_path.glob("installed/kh-*.dist-info/entry_points.txt")).read_text()
    assert "[pytest11]\nkh.in_pytest = kh.in_pytest\n" in points
    assert os.path.exists(os.path.join(folder, "kh", "py.typed")) and os.path.exists(os.path.join(folder, "kh", "show", "page_style.css"))
