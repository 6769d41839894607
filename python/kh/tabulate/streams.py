"""Asks `kh-scan each`, one process for each of so many, which share the codes: whoever has answered gets the next ones.

A process has the codes of its next tenth of a second in its pipe, and so hardly waits for this script; where a code takes as long as that
it has one alone, so that none waits behind another. Where it dies, or has no answer in time, the code that it was at is lost over that
field, and the others that it had are given to another.
"""
import contextlib
import itertools
import os
import select
import subprocess
import time
from collections import deque
from collections.abc import Iterable

from ..programs import FIRST, HEAD, PART, begun, end
from ..tables import FIELDS
from .tasks import SCAN, WHILE, Single, Task, out_of_time, result_of
from .results import Fault

# The seconds of work that a process is given ahead, and how many codes at most.
AHEAD, MOST = 0.1, 64
# How long a process that has closed its output, or that has nothing more to read, has to end.
GRACE = 5
BLANK = " \t\r"


def of_one_run(task):
    """A task in those that one process can take: over all fields, or over one."""
    if tuple(task.fields) == FIELDS:
        return [task]
    return [task._replace(fields=(field,)) for field in task.fields]


def in_runs(tasks: Iterable[Task]) -> list[Task]:
    """Tasks in those that one process can take, those over the same fields together."""
    return sorted((it for task in tasks for it in of_one_run(task)), key=lambda it: it.fields)


class Source:
    """The tasks that no process has yet."""

    def __init__(self, tasks):
        self.tasks, self.back = iter(tasks), deque()

    def next(self):
        """The next one, which stays; none where there is none."""
        if not self.back:
            self.back.extend(itertools.islice(self.tasks, 1))
        return self.back[0] if self.back else None

    def take(self):
        return self.back.popleft()

    def give_back(self, tasks):
        self.back.extendleft(reversed(tasks))


class Stream:
    """One process, or none yet: the tasks that are with it, the first of them with the fields that are still to come."""

    def __init__(self, path, seconds):
        self.path, self.seconds = path, seconds
        self.program = self.fields = None
        self.tasks, self.left, self.answered, self.is_greeted = deque(), (), 0, False
        self.out, self.came, self.since, self.mean = b"", b"", 0, AHEAD

    def begin(self, fields):
        """Begins a process over these fields, in place of the one that is."""
        self.end()
        word = "all" if fields == FIELDS else str(fields[0])
        self.program, self.fields = begun([self.path, "each", "--field", word]), fields
        os.set_blocking(self.program.stdin.fileno(), False)
        self.answered, self.is_greeted, self.out, self.came = 0, False, b"", b""

    def end(self):
        """Ends the process, if there is one."""
        if self.program:
            end(self.program)
            self.program.wait()
            self.program.stdout.close()
            self.program.stdin.close()
            self.program = None

    def finish(self):
        """Ends the process, which has answered all, by giving it no more to read."""
        if self.program:
            self.program.stdin.close()
            with contextlib.suppress(subprocess.TimeoutExpired):
                self.program.wait(GRACE)

    def has_room(self, task):
        """Whether a task can be sent, now or behind a process of other fields that has answered all."""
        if self.tasks and task.fields != self.fields:
            return False
        return len(self.tasks) < min(MOST, max(1, AHEAD / self.mean))

    def send(self, task):
        """Sends a task behind those that are with it."""
        if not self.program or task.fields != self.fields:
            self.begin(task.fields)
        if not self.tasks:
            self.left, self.since = task.fields, time.monotonic()
        self.tasks.append(task)
        self.out += task.code.encode() + b"\n"
        self.write()

    def write(self):
        """Writes as much as the pipe takes."""
        try:
            while self.out:
                self.out = self.out[os.write(self.program.stdin.fileno(), self.out) :]
        except BlockingIOError:
            pass
        except BrokenPipeError:
            self.out = b""  # (it has ended, which is seen where its output ends)

    def read(self):
        """Reads what has come; whether the process has more to say."""
        part = os.read(self.program.stdout.fileno(), PART)
        self.came += part
        return bool(part)

    def answers(self):
        """The answers that have come whole."""
        if not self.is_greeted and len(self.came) >= len(FIRST):
            self.need(self.came.startswith(FIRST))
            self.came, self.is_greeted = self.came[len(FIRST) :], True
        at = 0
        while self.tasks and (found := HEAD.match(self.came, at)) and found.end() + int(found[4]) <= len(self.came):
            number, field, status, size = map(int, found.groups())
            self.need((number, field) == (self.answered + 1, self.left[0]))
            text = self.came[found.end() : found.end() + size].decode(errors="replace")
            at = found.end() + size
            yield self.step(field, status, text)
        self.came = self.came[at:]
        self.need(b"\n" not in self.came or self.tasks and HEAD.match(self.came))

    def need(self, is_so):
        if not is_so:
            raise Fault(f"{self.path} each has not written what it has to write: {self.came[:80].decode(errors='replace')!r}")

    def step(self, field, status, text):
        """The answer to the first task over its next field."""
        now = time.monotonic()
        task, seconds, self.since = self.tasks[0], now - self.since, now
        self.left = self.left[1:]
        self.mean = 0.8 * self.mean + 0.2 * max(seconds, 1e-6) * len(self.fields)
        if not self.left:
            self.tasks.popleft()
            self.answered += 1
            self.left = self.fields
        return result_of(task, field, status, text, seconds, SCAN)

    def lose(self, source, lost):
        """Gives back what the process had, all but the field of the first task at which it was; ends it; that this is lost."""
        task, fields = self.tasks.popleft(), self.left[1:]
        rest = of_one_run(Task(task.key, task.code, fields)) if fields else []
        source.give_back([*rest, *self.tasks])
        self.tasks.clear()
        self.end()
        return lost

    def ended(self, source):
        """What is lost where a process has ended by itself."""
        try:
            status = self.program.wait(GRACE)
        except subprocess.TimeoutExpired:
            status = 0
        if not self.tasks:
            self.end()
            return
        # (a status of 0 is no answer either, since not all were answered)
        yield self.lose(source, result_of(self.tasks[0], self.left[0], status, "", 0, SCAN))

    def is_late(self):
        return bool(self.seconds and self.tasks) and time.monotonic() - self.since > self.seconds


class Scans:
    """The processes."""

    def __init__(self, path: str, jobs: int, seconds: float | None) -> None:
        self.path, self.seconds = path, seconds
        self.streams = [Stream(path, seconds) for _ in range(jobs)]

    def answers(self, tasks):
        """What becomes of tasks, as it comes; nothing now and then, where nothing comes for a while."""
        source = Source(tasks)
        try:
            while True:
                yield from self.fill(source)
                busy = [it for it in self.streams if it.tasks]
                if not busy:
                    break
                yield from self.come(busy, source)
                for it in busy:
                    if it.is_late():
                        yield it.lose(source, out_of_time(it.tasks[0], it.left[0], self.seconds))
            for it in self.streams:
                it.finish()
        finally:
            for it in self.streams:
                it.end()

    def fill(self, source):
        """Sends what there is room for, a code to each process in turn; what becomes of codes that are blank."""
        ready = deque(self.streams)
        while ready and (task := source.next()):
            if not task.code.strip(BLANK):
                yield from self.blank(source.take())
                continue
            stream = ready.popleft()
            if stream.has_room(task):
                stream.send(source.take())
                ready.append(stream)

    def blank(self, task):
        """What becomes of a blank code, which `each` passes over."""
        single = Single(SCAN, [self.path], 1, self.seconds)
        return [single.answer(task, field) for field in task.fields]

    def come(self, busy, source):
        """Waits for something to come, for the first that is late, or for a while; what becomes of the tasks, or nothing."""
        now = time.monotonic()
        late = min(it.since for it in busy) + self.seconds - now if self.seconds else WHILE
        outs = {it.program.stdout: it for it in busy}
        into = {it.program.stdin: it for it in busy if it.out}
        readable, writable, _ = select.select(outs, into, [], max(0, min(WHILE, late)))
        for it in writable:
            into[it].write()
        for it in readable:
            goes_on = outs[it].read()
            yield from outs[it].answers()
            if not goes_on:
                yield from outs[it].ended(source)
        if not readable:
            yield None
