"""The programs that `kh-tabulate` asks: what a task is and what becomes of it, how answers are read, and `kh homology` for one code at a
time. `streams.py` asks `kh-scan each` for many.
"""
import os
import select
import shutil
import subprocess
import threading
import time
from concurrent.futures import FIRST_COMPLETED, ThreadPoolExecutor, wait
from typing import NamedTuple

from ..programs import ANSWERED, OUT_OF_MEMORY, begun, end
from ..tables import ANSWER, short_rows
from .results import Fault

# The statuses of `kh` that say something of a link, with the word that its line begins with.
LINES = {1: "refused", 6: "limit"}
# The line of the limit that `kh-scan` has not, and the names of both programs in results.
LIMIT_OF_CUBES = "limit generators "
KH, SCAN = "kh", "scan"
# The seconds that a program may take to answer to the empty diagram, which tries it; and those after which a wait tells that it goes on.
TRIED, WHILE = 60, 0.5


class Task(NamedTuple):
    """A code over some fields, and whatever its answers are to be told with."""

    key: object
    code: str
    fields: tuple


class Lost(NamedTuple):
    """That there is no answer to a task over a field: what it is counted as, and how the program ended."""

    key: object
    field: int
    kind: str
    how: str


class Answer(NamedTuple):
    """An answer to a task: the columns of a result behind its name and its code."""

    key: object
    field: int
    status: int
    table_rows: str
    jones: str
    refusal: str
    seconds: float
    program: str


class Kind(NamedTuple):
    """A program that is asked: its name in results, the option that names it, the words and the text that try it, and what comes of it."""

    name: str
    option: str
    words: list
    text: bytes
    begins: bytes


KINDS = {
    KH: Kind(KH, "--kh", ["check"], b"PD[]", b"accepted"),
    SCAN: Kind(SCAN, "--scan", ["each"], b"PD[]\n", b"answers 1\ncode 1 field 2 status 0 bytes "),
}


def first_of(program, text, size):
    """The first bytes that a program writes behind a text, so many, or less where it writes no more in time; its input stays open."""
    came, until = b"", time.monotonic() + TRIED
    try:
        program.stdin.write(text)
        program.stdin.flush()
        while len(came) < size and select.select([program.stdout], [], [], max(0, until - time.monotonic()))[0]:
            part = os.read(program.stdout.fileno(), size - len(came))
            if not part:
                break
            came += part
    except BrokenPipeError:
        pass
    return came


def try_program(kind, path):
    """Says where a program is missing, or is another one."""
    if not shutil.which(path):
        raise Fault(f"there is no program {path}: ./build makes the one that is taken without {kind.option}")
    program = begun([path, *kind.words])
    try:
        if kind.name == KH:
            came = program.communicate(kind.text)[0]
        else:
            came = first_of(program, kind.text, len(kind.begins))
    finally:
        end(program)
        program.wait()
        program.stdout.close()
        with_nobody_reading(program.stdin)
    if not came.startswith(kind.begins):
        raise Fault(f"{path} is not what {kind.option} names: {' '.join(['it', *kind.words])} does not answer to PD[]")


def with_nobody_reading(stream):
    """Closes what is written to a program that has ended."""
    try:
        stream.close()
    except BrokenPipeError:
        pass


def result_of(task, field, status, wrote, seconds, program):
    """What a status and what was written tell of a task over a field: its answer, or that it is lost."""
    seconds = round(seconds, 6)
    found = ANSWER.fullmatch(wrote) if status == ANSWERED else None
    if found:
        return Answer(task.key, field, status, short_rows(found[2]), found[3], "", seconds, program)
    if status in LINES and wrote.startswith(LINES[status]):
        return Answer(task.key, field, status, "", "", " ".join(wrote.splitlines()), seconds, program)
    how = f"ended with signal {-status}" if status < 0 else f"ended with status {status}"
    return Lost(task.key, field, "out of memory" if status == OUT_OF_MEMORY else "without an answer", how)


def out_of_time(task, field, seconds):
    return Lost(task.key, field, "out of time", f"did not end in {seconds:g} seconds")


class Single:
    """Runs of a program, each for one code over one field, so many at once. Once they are stopped no other begins."""

    def __init__(self, name, words, jobs, seconds):
        self.name, self.words, self.jobs, self.seconds = name, words, jobs, seconds
        self.lock, self.running, self.stopped = threading.Lock(), set(), False

    def answer(self, task, field):
        """What becomes of a task over a field; nothing where all are stopped."""
        with self.lock:
            if self.stopped:
                return None
            program = begun([*self.words, "--field", str(field)])
            self.running.add(program)
        since = time.monotonic()
        try:
            wrote, _ = program.communicate(task.code.encode(), self.seconds)
        except subprocess.TimeoutExpired:
            end(program)
            program.communicate()
            wrote = None
        # (where a signal stops this, the program is still one that runs)
        with self.lock:
            self.running.discard(program)
            if self.stopped:
                return None
        if wrote is None:
            return out_of_time(task, field, self.seconds)
        return result_of(task, field, program.returncode, wrote.decode(errors="replace"), time.monotonic() - since, self.name)

    def answers(self, tasks):
        """What becomes of tasks, as it comes; nothing now and then. Those that wait are twice as many as the programs."""
        single = ((task, field) for task in tasks for field in task.fields)
        with ThreadPoolExecutor(self.jobs) as pool:
            waiting = set()
            try:
                while True:
                    for task, field in single:
                        waiting.add(pool.submit(self.answer, task, field))
                        if len(waiting) >= 2 * self.jobs:
                            break
                    if not waiting:
                        return
                    ended, waiting = wait(waiting, WHILE, FIRST_COMPLETED)
                    yield from (it.result() for it in ended)
                    if not ended:
                        yield None
            finally:
                self.stop()
                pool.shutdown(wait=True, cancel_futures=True)

    def stop(self):
        with self.lock:
            self.stopped = True
            for program in self.running:
                end(program)
