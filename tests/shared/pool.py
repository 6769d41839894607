"""Runs the parts of a test side by side, each in a process of its own, and tells what they find in the order of the parts.

A part has a name and a function without arguments, which gives the name of each of its cases and what is wrong with it, if anything is.
What it prints is printed with what it finds.
"""
import contextlib
import io
import itertools
import multiprocessing.connection
import os
import pickle
import resource
import subprocess
import sys
import tempfile
import time

from shared.running import tell_all

# (A part runs one program at a time, of at most 650 MB, so that eight of them have room in 6 GB.)
MOST = 8
JOBS = min(MOST, max(2, len(os.sched_getaffinity(0))))


class Run:
    """A part in its process."""

    def __init__(self, name, cases, path):
        self.name, self.cases, self.path = name, cases, path
        self.process = multiprocessing.get_context("fork").Process(target=self.work, daemon=True)
        self.seconds = self.processor_seconds = 0

    def work(self):
        """What the process does: what it printed and found, and the processor time that it took, go to a file."""
        printed, found, begun = io.StringIO(), [], time.monotonic()
        with contextlib.redirect_stdout(printed):
            try:
                found.extend(self.cases())
            except (OSError, ValueError, subprocess.SubprocessError) as stop:
                found.append((self.name, f"the tests stopped: {stop!r}"))
        used = [resource.getrusage(who) for who in (resource.RUSAGE_SELF, resource.RUSAGE_CHILDREN)]
        costs = time.monotonic() - begun, sum(it.ru_utime + it.ru_stime for it in used)
        with open(self.path, "wb") as file:
            pickle.dump((printed.getvalue(), found, costs), file)

    def told(self):
        """What the part found, once it has ended; where it was ended by something else, that is its fault."""
        if self.process.exitcode:
            return [(self.name, f"the tests ended with status {self.process.exitcode}")]
        with open(self.path, "rb") as file:
            printed, found, (self.seconds, self.processor_seconds) = pickle.load(file)
        print(printed, end="", flush=True)
        return found


def runs_of(parts, jobs=JOBS):
    """The run of each part once it has ended, in the order of the parts; up to so many are run side by side."""
    with tempfile.TemporaryDirectory() as folder:
        runs = [Run(name, cases, os.path.join(folder, str(number))) for number, (name, cases) in enumerate(parts)]
        left, going = runs[::-1], []
        for run in runs:
            while run in left or run in going:
                while left and len(going) < jobs:
                    going.append(left.pop())
                    going[-1].process.start()
                multiprocessing.connection.wait([it.process.sentinel for it in going])
                going = [it for it in going if it.process.exitcode is None]
            yield run


def faults_of(parts, alone=()):
    """The name of each case of these parts and what is wrong with it, if anything is; then of those that are to run alone."""
    for run in itertools.chain(runs_of(parts), runs_of(alone, 1)):
        yield from run.told()


def tell_parts(parts_of, document):
    """What a command does that tries parts of a test, `COMMAND PROGRAM [WORD]`: it tells all, and gives the status to end with."""
    words = sys.argv[1:]
    if len(words) not in (1, 2) or words[0].startswith("-"):
        is_asked = words in (["-h"], ["--help"])
        print(document, file=sys.stdout if is_asked else sys.stderr)
        return 0 if is_asked else 1
    word = words[-1] if len(words) == 2 else ""
    return tell_all((name, fault) for name, fault in faults_of(parts_of(*words)) if word in name)
