"""Tries `tabulate/` with programs of its own, in a folder for each test (`shared/tabulating.py`): here what is worked out, what is stopped
and what is lost; in `tabulated_links.py` lists, databases and questions; in `tabulated_parts.py` lists in parts, and the other scripts.

`tests/program` runs these behind its rows.
"""
import os
import shutil
import signal
import tempfile

from companions import tabulated_links, tabulated_parts
from shared.scanning import is_there, scan_of
from shared.tabulating import COUNT, HEAD, Folder, result_fault


def killed_run(folder):
    for _ in range(2):
        folder.stop(signal.SIGKILL, "--jobs", "2", "run", folder.at("list"), folder.at("results.db"))
    if not folder.results():
        return "nothing was kept"
    _, _, errors = folder.run("--jobs", "4", "run", folder.at("list"), folder.at("results.db"))
    return result_fault(folder) or (None if f"{2 * (COUNT + 2)} done, 0 left" in errors else errors)


def killed_run_of_cubes(folder):
    folder.asked = ("--program", "kh")
    return killed_run(folder)


def killed_work(folder):
    folder.stop(signal.SIGKILL, "work", folder.at("list"), folder.at("out"))
    with open(folder.at("out"), "a", encoding="utf-8") as file:
        file.write('{"name": "cut o')
    folder.run("work", folder.at("list"), folder.at("out"))
    folder.run("store", folder.at("results.db"), folder.at("out"))
    return result_fault(folder)


def stopped_run(folder, number, is_alone):
    """A signal stops a run whose programs do not end, and all that they have begun; what was killed by it is no result."""
    words = ("run", "--jobs", "2", folder.at("list"), folder.at("results.db"))
    status = folder.stop(number, *words, is_alone=is_alone)
    if status != 128 + number or folder.living() or "go on from here" not in folder.said or "no answer" in folder.said:
        return f"status {status}, {folder.living()} living: {folder.said}"
    folder.run(*words)
    return result_fault(folder)


def interrupted_run(folder):
    return stopped_run(folder, signal.SIGINT, False)


def ended_run(folder):
    return stopped_run(folder, signal.SIGTERM, True)


def ended_run_of_cubes(folder):
    folder.asked = ("--program", "kh")
    return stopped_run(folder, signal.SIGTERM, True)


def ended_work(folder):
    status = folder.stop(signal.SIGTERM, "work", folder.at("list"), folder.at("out"), is_alone=True)
    return None if status == 128 + signal.SIGTERM and not folder.living() else f"status {status}, {folder.living()} living: {folder.said}"


def work_of_all_fields(folder):
    """A process takes all four fields of a code at once, and one alone where the others are there; then nothing is left to ask."""
    for fields, calls in (("3", 1), ("all", 3), ("all", 0)):
        before = folder.calls()
        folder.run("run", folder.write("some", "one\tPD[Loop[1]]\n"), folder.at("results.db"), "--fields", fields)
        if folder.calls() - before != calls:
            return f"{fields}: {folder.calls() - before} calls and not {calls}"
    folder.run("run", folder.write("some", "one\tPD[Loop[2]]\n"), folder.at("results.db"), "--fields", "all")
    return None if len(folder.results()) == 8 else str(folder.results())


def what_is_missing(folder):
    """Where a file is missing none is made, and it is said."""
    there, none = folder.at("list"), folder.at("none")
    calls = [("write", none), ("run", none, none + ".db"), ("store", none + ".db", none), ("work", none, none + ".out")]
    calls += [("run", there, none, "--scan", program) for program in (none, "/bin/true", folder.path, folder.program)]
    calls += [("run", there, none, "--program", "kh", "--kh", program) for program in (none, "/bin/true", folder.path)]
    calls += [("work", there, none, "--scan", none), ("write", there), ("store", none, there)]
    calls += [("write", folder.at("results.db"), "--list", none), ("query", "same", none), ("rebuild", none), ("rebuild", there)]
    folder.run("run", there, folder.at("results.db"))
    before = os.listdir(folder.path)
    for words in calls:
        status, wrote, errors = folder.run(*words)
        if status != 1 or "kh-tabulate: " not in errors or "Traceback" in errors or wrote not in ("", "\t".join(HEAD) + "\n"):
            return f"{words}: status {status}, {wrote}, {errors}"
    return None if sorted(before) == sorted(os.listdir(folder.path)) else str(os.listdir(folder.path))


def what_is_no_answer(folder):
    """Where the program writes what `each` does not, this is said, and nothing of it is kept."""
    status, _, errors = folder.run("run", folder.at("list"), folder.at("results.db"), CHATTER="1")
    is_said = "has not written what it has to write" in errors and "Traceback" not in errors
    return None if status == 1 and is_said and not folder.results() else f"status {status}, {errors}"


def lost_answers(folder):
    """Where the program gave no answer there is no row, the status is not 0, and the same words try it again; the links that it had beside
    it lose nothing."""
    folder.write("some", "one\tPD[Loop[1]]\ntwo\tlost\nthree\tPD[Loop[3]]\n")
    for words in (("run", "--jobs", "1", folder.at("some"), folder.at("results.db")), ("work", folder.at("some"), folder.at("out"))):
        for _ in range(2):
            status, _, errors = folder.run(*words)
            if status != 1 or "two over 3: no answer" not in errors or "4 answered, 2 without an answer, of 6" not in errors:
                return f"{words}: status {status}, {errors}"
    return None if len(folder.results()) == 4 and folder.calls() == 16 else f"{folder.calls()} calls, {folder.results()}"


# A list with each kind of answer, and none, and what the last line says of it where each has ended.
KINDS = "one\tPD[Loop[1]]\ntwo\tbad\nthree\twide\nfour\tlost\nfive\tstarved\nsix\tslow\n"
COUNTED = "1 answered, 1 refused, 1 too large, 1 out of memory, 1 out of time, 1 without an answer, of 6\n"


# The seconds that a program is given which never answers; where a slow machine takes as long for others, the test is tried with more.
SECONDS = ("3", "20")


def in_time(check):
    """What is wrong where programs are given so many seconds, if something is with few and with more."""
    return check(SECONDS[0]) and check(SECONDS[1])


def counts(folder):
    """The last line counts all that is wanted by what became of it, also what was there before and what has not begun."""
    first = folder.write("first", KINDS.partition("four")[0])
    path = folder.write("some", KINDS)

    def fault_in(seconds):
        runs = [(asked, words) for asked in ("scan", "kh") for words in (("run", f"{asked}.db"), ("work", f"{asked}.out"))]
        for asked, (command, results) in runs:
            folder.asked = ("--program", asked)
            folder.run(command, first, folder.at(seconds + results), "--fields", "2")
            status, _, errors = folder.run(command, path, folder.at(seconds + results), "--fields", "2", "--seconds", seconds)
            is_said = f"kh-tabulate: {path}: {COUNTED}" in errors and "six over 2: no answer" in errors
            if status != 1 or not is_said or folder.living():
                return f"{asked}, {command}: status {status}, {folder.living()} living, {errors}"
        return None

    return in_time(fault_in)


def counts_of_a_stopped_run(folder):
    """The last line counts what a stopped run has not come to."""
    folder.stop(signal.SIGTERM, "run", "--jobs", "2", folder.at("list"), folder.at("results.db"), is_alone=True)
    counted = sum(int(it.split()[0]) for it in folder.said.split(f"{folder.at('list')}: ")[-1].split(", of ")[0].split(", "))
    return None if counted == 2 * (COUNT + 2) and f"not worked out, of {counted}\n" in folder.said else folder.said


def late_over_one_field(folder):
    """Of a code that has no answer in time over one of four fields the others are asked one by one."""
    path = folder.write("some", "one\tPD[Loop[1]]\nsix\tslow\ntwo\tPD[Loop[2]]\n")

    def fault_in(seconds):
        words = ("run", path, folder.at(f"{seconds}.db"), "--fields", "all", "--seconds", seconds, "--jobs", "1")
        status, _, errors = folder.run(*words)
        is_counted = "8 answered, 4 out of time, of 12" in errors and all(f"six over {it}: no answer" in errors for it in (2, 3, 5, 7))
        return None if status == 1 and is_counted and not folder.living() else f"status {status}, {folder.living()} living, {errors}"

    return in_time(fault_in)


def none_answered(folder):
    """Where nothing was answered the status is 3, of a run and of what is stored; a part of a list may be so."""
    path, empty = folder.write("some", "two\tbad\nthree\twide\n"), folder.write("none", "# no link\n")
    calls = [(3, "run", path, folder.at("results.db")), (3, "run", empty, folder.at("results.db")), (0, "work", path, folder.at("out"))]
    calls += [(0, "work", empty, folder.at("nothing")), (3, "store", folder.at("results.db"), folder.at("out"))]
    for wanted_status, *words in calls:
        status, _, errors = folder.run(*words)
        if status != wanted_status or ("nothing was answered" in errors) != (status == 3) or ": 0 answered" not in errors:
            return f"{words}: status {status}, {errors}"
    return None


MIXED = "huge\tlarge\nsmall\tPD[Loop[1]]\nwide\twide\nwrong\tbad\n"


def cubes_alone(folder):
    """With `--program kh` no scan is asked, nor has to be there; where that tells its limit on generators the scan has the last word."""
    path, rows = folder.write("some", MIXED), [("huge", 6), ("small", 0), ("wide", 6), ("wrong", 1)]
    wanted_rows = sorted((name, field, status, "kh") for name, status in rows for field in (2, 3))
    for words in (("run", path, folder.at("results.db")), ("work", path, folder.at("out"))):
        status, _, errors = folder.run(*words, "--program", "kh", "--scan", folder.at("none"))
        if status or "2 answered, 2 refused, 4 too large, of 8" not in errors:
            return f"{words}: status {status}, {errors}"
    found, calls = sorted(it[:1] + it[2:4] + it[-1:] for it in folder.results()), folder.calls()
    for words in (("run", path, folder.at("results.db")), ("work", path, folder.at("out"))) * 2:
        status, _, errors = folder.run(*words)
        if status or "4 answered, 2 refused, 2 too large, of 8" not in errors:
            return f"{words}: status {status}, {errors}"
    folder.run("store", folder.at("other.db"), folder.at("out"))
    huge = [folder.run("write", folder.at(it), "--list", path)[1].splitlines()[1:3] for it in ("results.db", "other.db")]
    right = all(line.split("\t")[3] == "0" and line.endswith("scan") for lines in huge for line in lines)
    return None if right and found == wanted_rows and folder.calls() == calls + 4 else f"{found}, {calls}, {folder.calls()}, {huge}"


TESTS = (
    killed_run, killed_run_of_cubes, interrupted_run, ended_run, ended_run_of_cubes, killed_work, ended_work, work_of_all_fields,
    what_is_missing, what_is_no_answer, lost_answers, counts, counts_of_a_stopped_run, late_over_one_field, none_answered, cubes_alone,
)  # fmt: skip


def tried(test, *more):
    """The name of a test, and what is wrong, if anything is."""
    path = tempfile.mkdtemp()
    try:
        return f"tabulate: {test.__name__.replace('_', ' ')}", test(Folder(path), *more)
    finally:
        # (a program that was killed late may still write there)
        shutil.rmtree(path, ignore_errors=True)


def faults(program=None):
    """The name of each test, and what is wrong, if anything is; the last is of the program of scans itself, where there is one."""
    for test in (*TESTS, *tabulated_links.TESTS, *tabulated_parts.TESTS):
        yield tried(test)
    scan = program and scan_of(program)
    if scan and is_there(scan):
        yield tried(tabulated_links.file_of_links, scan)
