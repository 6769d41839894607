"""What the benchmarks share: where the programs are, one run with what it takes, and the words that most of them have."""
import argparse
import os
import resource
import statistics
import subprocess
import tempfile
import time
from typing import NamedTuple

TOP = os.path.dirname(os.path.dirname(os.path.abspath(__file__)))
PROGRAM, SCAN = (os.path.join(TOP, "crates", it, "out", it) for it in ("kh_main", "scan_main"))
FIELDS = ("2", "3", "5", "7")
TREFOIL = "PD[X[1,4,2,5], X[3,6,4,1], X[5,2,6,3]]"


class Run(NamedTuple):
    """What a run wrote; its user and system time, with that of all it waited for, and its wall time in seconds; its most memory in
    megabytes; its status, and its user time."""

    wrote: str
    seconds: float
    wall: float
    memory: float
    status: int
    user: float


def run(words, text="", room=None):
    """A run on a text, where wanted in so many bytes of address space."""
    limit = room and (lambda: resource.setrlimit(resource.RLIMIT_AS, (room, room)))
    with tempfile.TemporaryFile() as given, tempfile.TemporaryFile() as wrote:
        given.write(text.encode())
        given.seek(0)
        start = time.perf_counter()
        program = subprocess.Popen(words, stdin=given, stdout=wrote, stderr=subprocess.DEVNULL, preexec_fn=limit)
        _, status, used = os.wait4(program.pid, 0)
        wall = time.perf_counter() - start
        program.returncode = os.waitstatus_to_exitcode(status)
        wrote.seek(0)
        text, memory = wrote.read().decode(), used.ru_maxrss / 1024
    return Run(text, used.ru_utime + used.ru_stime, wall, memory, program.returncode, used.ru_utime)


def reader(document, runs=None, **options):
    """A reader of words: how many runs are taken, where that can be said, and options with what they are without being said."""
    parser = argparse.ArgumentParser(description=document, formatter_class=argparse.RawDescriptionHelpFormatter)
    if runs:
        parser.add_argument("runs", nargs="?", type=int, default=runs)
    for name, usual in options.items():
        parser.add_argument(f"--{name}", type=type(usual), default=usual)
    return parser


def in_turns(calls, runs):
    """Of each of these words with a text, all of which take turns: what is written, the least time and wall time, and the most memory."""
    turns = zip(*([run(*it) for it in calls] for _ in range(runs)))
    return [(seen[0].wrote, min(it.seconds for it in seen), min(it.wall for it in seen), max(it.memory for it in seen)) for seen in turns]


def is_same(one, other):
    """Whether two programs have written the same table, of which one may say which version of the form it is."""
    return one.removeprefix("table 2\n") == other.removeprefix("table 2\n")


def against_true(what, words, text, runs):
    """Prints the median wall time of whole runs beside that of `true`, with which they take turns."""
    pairs = [(run(words, text).wall, run(["true"], text).wall) for _ in range(runs)]
    mine, other = map(statistics.median, zip(*pairs))
    print(f"{what}: {mine * 1000:.2f} ms, true {other * 1000:.2f} ms, ratio {mine / other:.2f}")
