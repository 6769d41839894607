"""Tries lists that are worked out in parts, by GNU parallel and by Slurm, and the other scripts of `tabulate/` (see `tabulation.py`).

GNU parallel is tried where it is installed, Slurm where KH_SLURM says so (`shared/slurm.py`).
"""
import os
import re
import shutil
import tempfile

import plain.cube
import plain.diagrams
from bench.braids import closure
from companions.pages import folder_of
from shared import slurm
from shared.places import TOP, read_text
from shared.running import ended, help_fault
from shared.tabulating import COUNT, ON_MANY, SCAN, TABULATE, result_fault


def helps(folder):
    """Each script says what it does, and what its options are."""
    for name in ("kh-tabulate", "measure", "braids", "on-many"):
        fault = help_fault(f"tabulate/{name}")
        if fault:
            return f"{name}: {fault}"
    return None


def braids(folder):
    """`tabulate/braids` writes each word once, and a diagram of its closure: one with the same Jones polynomial."""
    status, wrote, errors = folder.ended(os.path.join(TOP, "tabulate", "braids"), "5", "4")
    lines = [line.split("\t") for line in wrote.splitlines()]
    are_fine = len({name for name, _ in lines}) == len(lines) and lines[0] == ["3: -2 1", "PD[X[2, 3, 3, 4], X[4, 2, 1, 1]]"]
    if status or errors or not are_fine:
        return f"status {status}, {len(lines)} lines, {lines[:2]}, {errors}"
    for name, text in lines:
        strands, word = name.split(": ")
        crossings, loops = closure(int(strands), [*map(int, word.split())])
        code = plain.diagrams.Code(tuple(map(tuple, crossings)), loops)
        sums = [plain.cube.jones_line(plain.diagrams.accepted(it)) for it in (code, plain.diagrams.read(text))]
        if sums[0] != sums[1]:
            return f"{name}: {sums}"
    return None


MEASURED = """\
\\| Programs at once \\| [0-9]+ codes \\| Codes a second \\|
\\|---\\|---\\|---\\|
\\| 1 \\| [0-9.]+ s \\| [0-9]+ \\|
\\| 2 \\| [0-9.]+ s \\| [0-9]+ \\|

([0-9]+) of the \\1 codes were answered. A run that was killed when it had kept [0-9]+ results.*
"""


def measure(folder):
    """`tabulate/measure` comes to its end on few codes, and writes what the page has."""
    words = ("--scan", SCAN, "--jobs", "2", "--letters", "6", "4", "--orders", "1")
    status, wrote, errors = folder.ended(os.path.join(TOP, "tabulate", "measure"), *words)
    right = status == 0 and re.match(MEASURED, wrote) and "over all four fields" in " ".join(wrote.split())
    return None if right else f"status {status}, {wrote}, {errors}"


HEADED = "name,pd_notation,pd_notation_vector\none,\"[[1,4,2,5],[3,6,4,1],[5,2,6,3]]\",\n"
HEADED += 'L2a1{0},,"{{4, 1, 3, 2}, {2, 3, 1, 4}}"\ncut,"[[1,4,2,5]",\n'
CUT = (
    ("a table", HEADED, ["one", "L2a1{0}"], ["cut"]),
    ("no names", "\n# a list\nPD[Loop[1]]\n\nPD[]\nPD[Loop[2]]\n", ["line 3\tPD[Loop[1]]", "line 5\tPD[]"], ["line 6\tPD[Loop[2]]"]),
)


def cut(folder):
    """Of a list in parts each has the names that the list gives, also where these stand in a table, or are the numbers of lines."""
    for number, (name, text, first, second) in enumerate(CUT):
        parts = folder.at(f"cut {number}")
        status, _, said = folder.ended(TABULATE, "cut", "--links", "2", folder.write("cut list", text), parts)
        for part, wanted in (("part-000000", first), ("part-000001", second)):
            lines = read_text(os.path.join(parts, part)).splitlines()
            is_right = len(lines) == len(wanted) and all(map(str.startswith, lines, wanted)) and all("\t" in it for it in lines)
            if status or len(os.listdir(parts)) != 2 or not is_right:
                return f"{name}: status {status}, {os.listdir(parts)}, {lines}, {said}"
    return None


def has_parallel(test):
    """Whether GNU parallel is installed (another program has the same name); where it is not, it is told that a test is left out."""
    if shutil.which("parallel") and ended(["parallel", "--version"])[1].startswith("GNU parallel"):
        return True
    print(f"tabulate: GNU parallel is not installed, so {test} is not tried")
    return False


def by_parallel(folder):
    if not has_parallel("a list in parts"):
        return None
    parts = folder.at("of parts")
    folder.ended(ON_MANY, folder.at("list"), parts)
    status, _, said = folder.ended(ON_MANY, folder.write("mended", "one\tPD[Loop[1]]\n"), parts)
    os.rename(os.path.join(parts, "results.db"), folder.at("results.db"))
    return result_fault(folder) or (None if status == 65 and "another list" in said else said)


def lost_by_parallel(folder):
    """A link without an answer keeps no other out of the database; the status is not 0, and the same words try that link again."""
    if not has_parallel("a list with a link that has no answer"):
        return None
    parts = folder.at("of parts")
    folder.write("some", "one\tPD[Loop[1]]\ntwo\tlost\n")
    for calls in (4, 2):
        before, (status, _, said) = folder.calls(), folder.ended(ON_MANY, folder.at("some"), parts)
        if status != 1 or folder.calls() - before != calls or "results.db" not in os.listdir(parts):
            return f"status {status}, {folder.calls() - before} calls, {os.listdir(parts)}, {said}"
    os.rename(os.path.join(parts, "results.db"), folder.at("results.db"))
    return None if [row[0] for row in folder.results()] == ["one", "one"] else str(folder.results())


def none_by_parallel(folder):
    """Where each link has a result and none was answered the status is 3; PROGRAM names the one that is asked."""
    if not has_parallel("a list of which nothing is answered"):
        return None
    words = ON_MANY, folder.write("some", "two\tbad\n"), folder.at("of parts")
    status, _, said = folder.ended(*words, PROGRAM="kh", SCAN=folder.at("none"))
    return None if status == 3 and "nothing was answered" in said else f"status {status}, {said}"


def page_by_parallel(folder):
    """The command of `docs/TABULATION.md` for GNU parallel, as it stands there."""
    if not has_parallel("the command of docs/TABULATION.md"):
        return None
    command = re.search(r"^(?:\w+=\w+ )*tabulate/on-many .*$", read_text("docs", "TABULATION.md"), re.M)[0]
    with tempfile.TemporaryDirectory() as top:
        folder_of(top, SCAN)
        os.mkdir(os.path.join(top, "out"))
        shutil.copy(folder.at("list"), os.path.join(top, "out", "mine.tsv"))
        status, _, said = ended(["sh", "-c", command], cwd=top, env=dict(os.environ, TOLD=folder.told, SCAN=SCAN))
        shutil.copy(os.path.join(top, "out", "mine", "results.db"), folder.at("results.db"))
        found = folder.select("select field, count(*) from results group by field")
    right = status == 0 and found == [(field, COUNT + 2) for field in (2, 3, 5, 7)]
    return None if right else f"status {status}, {found}, {said}"


def array_commands():
    """The commands at the head of `tabulate/array.slurm`: what cuts the list, what begins the tasks, what stores their results."""
    return [line.split("        ")[0] for line in re.findall(r"^#   (.*)$", read_text("tabulate", "array.slurm"), re.M)]


def requeued(queue, folder, top):
    """What is wrong where the tasks of an array are held, requeued and begun again, as one whose node has failed is."""
    cut, start, together = array_commands()
    settings = {"TOLD": folder.told, "SCAN": SCAN, "FIELDS": "2,3", "HELD": str(COUNT)}
    queue.run(cut.replace("1000", "10"), folder=top)
    started = queue.run(start, folder=top, **settings)
    number = re.findall(r"Submitted batch job (\d+)", started)
    if not number or not queue.wait(lambda: len(folder.held()) >= 2):
        return f"no two tasks are held: {started}{queue.run('squeue', '-h')}"
    before = sum(len(lines) for lines in task_lines(top, "jsonl"))
    folder.write("told.free", "")
    for task in (0, 1, 2):
        queue.run("scontrol", "requeue", f"{number[0]}_{task}")
    if not queue.wait(lambda: starts_again(queue) or queue.is_empty()):
        return f"tasks that do not end: {queue.run('squeue', '-h')}"
    said = queue.run(together.replace("out/results.db", folder.at("results.db")), folder=top)
    again = [line for lines in task_lines(top, "log") for line in lines if "REQUEUE" in line]
    is_whole = "52 answered" in said or "50 answered, 2 refused, of 52" in said
    return None if before and again and is_whole and not folder.living() else f"{before} lines, {again}, {folder.living()} living: {said}"


def starts_again(queue):
    """Has tasks begin that wait for two minutes since they were requeued, and tells that there still are some."""
    for number in queue.run("squeue", "-h", "-r", "-t", "PENDING", "-o", "%A").split():
        queue.run("scontrol", "update", f"jobid={number}", "StartTime=now")
    return False


def task_lines(top, ending):
    """The lines of each file of the tasks with this ending."""
    parts = os.path.join(top, "out", "parts")
    for name in sorted(os.listdir(parts)):
        if name.endswith(ending):
            yield read_text(os.path.join(parts, name)).splitlines()


def by_slurm(folder):
    """`tabulate/array.slurm` by the commands at its head, on a queue of one node, with all tasks requeued on the way."""
    if not slurm.is_there():
        print("tabulate: tabulate/array.slurm is not tried (KH_SLURM=run tries it where Slurm is installed, KH_SLURM=install installs it)")
        return None
    with tempfile.TemporaryDirectory() as top, tempfile.TemporaryDirectory() as daemons, slurm.Queue(daemons) as queue:
        folder_of(top, SCAN)
        os.mkdir(os.path.join(top, "out"))
        shutil.copy(folder.at("list"), os.path.join(top, "out", "list.tsv"))
        fault = requeued(queue, folder, top)
        others = sorted({*os.listdir(top)} - {*os.listdir(TOP)} - {"out", "kh"})
        return fault or result_fault(folder) or (f"at the top: {others}" if others else None)


TESTS = (helps, braids, measure, cut, by_parallel, lost_by_parallel, none_by_parallel, page_by_parallel, by_slurm)
