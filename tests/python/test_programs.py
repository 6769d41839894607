"""How the programs are run: the processes that answer many codes, where they end, where they are shared, and where they are not there."""
import importlib.util
import multiprocessing
import os
import shutil
import signal
import subprocess
import sys
import threading

import kh
import pytest
from kh import programs

TOP = os.path.dirname(os.path.dirname(os.path.dirname(os.path.abspath(__file__))))
# What `kh-scan` writes of one circle.
TABLE = "table 2\nfield 3\nj -1 i 0 dim 1\nj 1 i 0 dim 1\njones 1*q^-1 1*q^1\n"
TREFOIL = kh.Link("3_1")
DIMENSIONS = {(1, 0): 1, (3, 0): 1, (5, 2): 1, (9, 3): 1}


def running():
    return list(programs.STREAMS.every)


@pytest.mark.program
def test_one_process_answers_all_codes_over_a_field():
    programs.STREAMS.end()
    for field in (3, 5, 3):
        for link in (TREFOIL, kh.Link("PD[Loop[1]]"), TREFOIL):
            assert link.table(field).total == (4 if link is TREFOIL else 2)
    assert len(running()) == 2


@pytest.mark.program
def test_a_process_that_has_ended_is_begun_anew():
    assert TREFOIL.table(3) == DIMENSIONS
    for process in [it.process for it in running()]:
        process.kill()
        process.wait()
    assert TREFOIL.table(3) == DIMENSIONS


@pytest.mark.program
def test_refusals_and_limits_leave_the_process_as_it_is():
    assert TREFOIL.table(3) == DIMENSIONS
    before = running()
    with pytest.raises(kh.TooLarge, match="limit crossings 21 of 20: there are 21 crossings, and at most 20 are taken"):
        kh.Link(braid=[1] * 21).table(3)
    with pytest.raises(kh.Refused, match="refused checkerboard at arc 1"):
        kh.Link._of_code("PD[X[1, 2, 1, 2]]").table(3)
    with pytest.raises(ValueError, match="2, 3, 5 or 7"):
        TREFOIL.table(4)
    assert TREFOIL.table(3) == DIMENSIONS and running() == before


@pytest.mark.program
def test_threads_have_a_process_each_while_they_ask():
    links = [kh.Link(braid=[1] * n) for n in (1, 2, 3, 4)]
    wanted = [it.table(2) for it in links]
    wrong = []

    def ask(number):
        for step in range(50):
            place = (number + step) % len(links)
            if links[place].table(2) != wanted[place]:
                wrong.append(place)

    threads = [threading.Thread(target=ask, args=(it,)) for it in range(6)]
    for it in threads:
        it.start()
    for it in threads:
        it.join()
    assert not wrong and len(running()) <= 6 + 3


def asked_in_a_child(queue):
    queue.put((TREFOIL.table(3).dimensions, len(running())))


@pytest.mark.program
@pytest.mark.parametrize("how", ["fork", "spawn"])
def test_a_child_has_its_own_process(how):
    assert TREFOIL.table(3) == DIMENSIONS
    before = running()
    context = multiprocessing.get_context(how)
    queue = context.Queue()
    children = [context.Process(target=asked_in_a_child, args=(queue,)) for _ in range(3)]
    for it in children:
        it.start()
    came = [queue.get(timeout=60) for _ in children]
    for it in children:
        it.join(60)
    assert came == [(DIMENSIONS, 1)] * 3 and running() == before and TREFOIL.table(3) == DIMENSIONS


@pytest.mark.program
def test_no_process_is_left_at_the_end():
    code = "import kh; kh.Link('3_1').table(3); from kh.programs import STREAMS; print([it.process.pid for it in STREAMS.every][0])"
    came = subprocess.run([sys.executable, "-c", code], capture_output=True, text=True, timeout=60, env=surroundings())
    assert came.returncode == 0 and not came.stderr
    with pytest.raises(ProcessLookupError):
        os.kill(int(came.stdout), 0)


@pytest.mark.program
def test_an_interrupt_within_an_answer_spoils_no_other():
    def stop(*_):
        raise KeyboardInterrupt

    hard = kh.Link(braid=[1, 2, 3] * 6)
    before = signal.signal(signal.SIGALRM, stop)
    try:
        for delay in (0.0005, 0.002, 0.005):
            signal.setitimer(signal.ITIMER_REAL, delay)
            try:
                hard.table(3)
            except KeyboardInterrupt:
                pass
            signal.setitimer(signal.ITIMER_REAL, 0)
            assert TREFOIL.table(3) == DIMENSIONS
    finally:
        signal.signal(signal.SIGALRM, before)


def surroundings(**more):
    return {**os.environ, "PYTHONPATH": os.path.dirname(os.path.dirname(kh.__file__)), **more}


@pytest.mark.parametrize("name, why", [("/nowhere/kh", "KH_SCAN_PROGRAM names /nowhere/kh, which is no program")])
def test_a_program_that_is_not_there(monkeypatch, name, why):
    monkeypatch.setenv("KH_SCAN_PROGRAM", name)
    with pytest.raises(kh.Missing, match=why):
        TREFOIL.table(3)


@pytest.mark.parametrize("script, what", [
    ("read _; exit 0", "ended without an answer"), ("exit 3", "ended without an answer"),
    ("read _; echo answers 1; echo code 7 field 3 status 0 bytes 0; cat", "has not answered the code"),
    ("read _; echo answers 1; echo code 1 field 2 status 0 bytes 0; cat", "has not answered the code"),
])
def test_a_program_that_is_another_one(monkeypatch, tmp_path, script, what):
    path = tmp_path / "scan"
    path.write_text(f"#!/bin/sh\n{script}\n")
    path.chmod(0o755)
    monkeypatch.setenv("KH_SCAN_PROGRAM", str(path))
    with pytest.raises(kh.Missing, match=what):
        TREFOIL.table(3)


def checkout(folder):
    """A checkout of which a program of scans is built, as far as `tools/built` looks at one: its path, and that of a source."""
    source, out = folder / "crates" / "scan_main" / "src" / "main.rt", folder / "crates" / "scan_main" / "out"
    for it in (source.parent, out, folder / "tools", folder / "python"):
        it.mkdir(parents=True)
    source.write_text("")
    (folder / "crates.txt").write_text("scan_main:\n")
    for name in ("tools/built", "setup.py", "pyproject.toml"):
        shutil.copy(os.path.join(TOP, name), folder / name)
    answer = f"answers 1\ncode 1 field 3 status 0 bytes {len(TABLE)}\n{TABLE}"
    (out / "scan_main").write_text(f"#!/bin/sh\nread _\nprintf %s '{answer}'\ncat\n")
    (out / "scan_main").chmod(0o755)
    words = [str(folder / "tools" / "built"), "scan_main"]
    found = subprocess.run([*words, "sum"], capture_output=True, text=True, check=True).stdout.strip()
    subprocess.run([*words, "note", found], check=True)
    return out / "scan_main", source


def changed_and_older(path, text):
    before = path.stat()
    path.write_text(text)
    os.utime(path, ns=(before.st_atime_ns, before.st_mtime_ns))


def package_answers(folder, **more):
    """How Python ends that asks the package of a checkout for a table, and what it says."""
    code = "import kh; print(kh.Link('PD[Loop[1]]').table(3).total)"
    settings = {name: text for name, text in surroundings().items() if not name.startswith("KH_")}
    settings.update(PYTHONPATH=str(folder / "python"), PATH="/usr/bin:/bin", **more)
    came = subprocess.run([sys.executable, "-c", code], cwd=folder, capture_output=True, text=True, timeout=60, env=settings)
    return came.returncode, came.stdout, came.stderr.strip().rpartition("\n")[2]


def test_a_program_of_other_sources_answers_nothing(tmp_path):
    program, source = checkout(tmp_path)
    shutil.copytree(os.path.dirname(kh.__file__), tmp_path / "python" / "kh", ignore=shutil.ignore_patterns("__pycache__"))
    shutil.copytree(os.path.join(TOP, "reference"), tmp_path / "reference", ignore=shutil.ignore_patterns("__pycache__"))
    assert package_answers(tmp_path) == (0, "2\n", "")
    changed_and_older(source, "//")
    status, wrote, said = package_answers(tmp_path)
    assert (status, wrote) == (1, "") and "out/scan_main is not of these sources" in said and "build kh-scan" in said
    assert package_answers(tmp_path, KH_SCAN_PROGRAM=str(program)) == (0, "2\n", "")
    source.write_text("")
    assert package_answers(tmp_path) == (0, "2\n", "")
    changed_and_older(program, program.read_text().replace("j 1 ", "j 3 "))
    assert package_answers(tmp_path)[0] == 1


def test_a_package_has_no_program_of_other_sources(tmp_path):
    program, source = checkout(tmp_path)
    code = "import setuptools, sys; setuptools.setup = lambda **_: None; sys.argv[0] = 'setup.py'; import setup; print(*setup.built())"

    def told():
        came = subprocess.run([sys.executable, "-c", code], cwd=tmp_path, capture_output=True, text=True, timeout=60, env=surroundings())
        assert came.returncode == 0, came.stderr
        return came.stdout.strip(), came.stderr

    if not importlib.util.find_spec("setuptools"):
        pytest.skip("there is no setuptools")
    assert told()[0] == str(program)
    changed_and_older(source, "//")
    wrote, said = told()
    assert wrote == "" and "out/scan_main is not of these sources" in said


def test_the_script_of_a_checkout_on_the_path_is_not_asked_where_nothing_is_built(monkeypatch, tmp_path):
    (tmp_path / "crates.txt").write_text("")
    for name in ("kh", "kh-scan"):
        (tmp_path / name).write_text("#!/bin/sh\necho unproved\n")
        (tmp_path / name).chmod(0o755)
    for name in ("KH_PROGRAM", "KH_SCAN_PROGRAM"):
        monkeypatch.delenv(name, raising=False)
    monkeypatch.setenv("PATH", f"{tmp_path}:/usr/bin:/bin")
    monkeypatch.setattr(programs, "_found", {})
    monkeypatch.setattr(programs, "built_file", lambda crate: str(tmp_path / "none"))
    with pytest.raises(kh.Missing, match="there is no program kh-scan"):
        kh.program("kh-scan")
    program, source = checkout(tmp_path)
    assert kh.program("kh-scan") == str(program)
    changed_and_older(source, "//")
    monkeypatch.setattr(programs, "_found", {})
    with pytest.raises(kh.Missing, match="out/scan_main is not of these sources"):
        kh.program("kh-scan")


def test_the_version_is_that_of_the_citation():
    with open(os.path.join(TOP, "CITATION.cff"), encoding="utf-8") as file:
        assert f"\nversion: {kh.__version__}\n" in file.read()
