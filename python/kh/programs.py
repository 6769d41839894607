"""Runs the programs `kh` and `kh-scan`: where they are, one run of either, and the process that answers many codes. All rooms of the
package run programs by `begun` and `ran`, each in a session of its own, which ends with all that it has begun.

What a run writes is proved (docs/THEOREM.md); that this module hands it on unchanged is not.
"""
from __future__ import annotations

import atexit
import contextlib
import os
import re
import shutil
import signal
import subprocess
from collections.abc import Sequence
from typing import IO, NamedTuple, Union

from .places import TOP, built_file

KH, SCAN = "kh", "kh-scan"
# The variable that names each program, and the crate that it is built of.
KNOWN = {KH: ("KH_PROGRAM", "kh_main"), SCAN: ("KH_SCAN_PROGRAM", "scan_main")}
ANSWERED, REFUSED, OUT_OF_MEMORY, TOO_LARGE, MOVE_REFUSED = 0, 1, 5, 6, 7
# What `kh-scan each` writes first, and before each answer.
FIRST = b"answers 1\n"
HEAD = re.compile(rb"code (\d+) field (\d) status (\d+) bytes (\d+)\n")
# The bytes that are read at once, and the seconds that a process has to end.
PART, GRACE = 65_536, 2


class Missing(RuntimeError):
    """A program is not there, or not of the sources that stand, or ended without an answer."""


class Answer(NamedTuple):
    """How a run ended, what it wrote, and what it said on standard error, where that was asked for."""

    status: int
    wrote: str
    said: str = ""


File = Union[int, IO[bytes]]
# The processes that run.
RUNNING: set[subprocess.Popen[bytes]] = set()


def begun(words: Sequence[str], given: File = subprocess.PIPE, errors: File | None = subprocess.DEVNULL) -> subprocess.Popen[bytes]:
    """A program with its input and output, in a session of its own with what it begins."""
    return subprocess.Popen(words, stdin=given, stdout=subprocess.PIPE, stderr=errors, start_new_session=True, bufsize=0)


def end(process: subprocess.Popen[bytes]) -> None:
    """Ends a program, and what it has begun."""
    with contextlib.suppress(ProcessLookupError):
        os.killpg(process.pid, signal.SIGKILL)


def end_all() -> None:
    """Ends all that still runs."""
    for process in list(RUNNING):
        end(process)


def ran(words: Sequence[str], given: bytes, seconds: float | None = None, errors: File = subprocess.DEVNULL) -> tuple[int, bytes, bytes]:
    """The status of a program that reads these bytes as a file, what it wrote, and what it said where `errors` is a pipe. One that takes
    longer than these seconds is ended, and so is one that is stopped."""
    with open(os.memfd_create("given"), "w+b", buffering=0) as file:
        while given:
            given = given[file.write(given) :]
        file.seek(0)
        with begun(words, file, errors) as process:
            RUNNING.add(process)
            try:
                wrote, said = process.communicate(timeout=seconds)
            except BaseException:
                end(process)
                raise
            finally:
                RUNNING.discard(process)
    return process.returncode, wrote, said or b""


def stale(crate: str, top: str = TOP) -> str:
    """Why the program of a crate of a checkout is not to be run: it is not built, or not of the sources that stand there, as `tools/built`
    finds. Nothing where it is."""
    try:
        came = subprocess.run([os.path.join(top, "tools", "built"), crate], stdin=subprocess.DEVNULL, stdout=subprocess.PIPE, text=True)
    except OSError as fault:
        return str(fault)
    return (came.stdout.strip() or f"tools/built ended with {came.returncode}") if came.returncode else ""


_found: dict[tuple[str, str | None], str] = {}


def program(name: str = KH) -> str:
    """The path of `kh` or `kh-scan`: the one that KH_PROGRAM or KH_SCAN_PROGRAM names, else the one that is built beside this package, else
    the one on the path. One that is built in a checkout is refused where it is not of the sources that stand there."""
    named = os.environ.get(KNOWN[name][0])
    if (name, named) not in _found:
        _found[name, named] = _sought(name, named)
    return _found[name, named]


def _sought(name: str, named: str | None) -> str:
    variable, crate = KNOWN[name]
    if named:
        path = shutil.which(named)
        if not path:
            raise Missing(f"{variable} names {named}, which is no program")
        return os.path.abspath(path)
    built = built_file(crate)
    if os.access(built, os.X_OK):
        return _of_its_sources(built, name, TOP)
    on_path = shutil.which(name)
    if on_path:
        # (the script of a checkout asks the interpreter where nothing is built, and that is not proved)
        folder = os.path.dirname(os.path.realpath(on_path))
        theirs = os.path.join(folder, "crates", crate, "out", crate)
        if not os.path.isfile(os.path.join(folder, "crates.txt")):
            return on_path
        if os.access(theirs, os.X_OK):
            return _of_its_sources(theirs, name, folder)
    where = f"{TOP}/build makes it" if TOP else f"build it in its repository, and install this package again, or name it by {variable}"
    raise Missing(f"there is no program {name}: {where}")


def _of_its_sources(path: str, name: str, top: str) -> str:
    """A program that is built, or installed, where it is of the sources of its checkout."""
    variable, crate = KNOWN[name]
    why = stale(crate, top) if top else ""
    if why:
        raise Missing(f"{why}: {top}/build {name} proves and builds it, and {variable} names one that is to be run all the same")
    return path


def run(words: list[str], given: str, name: str = KH, seconds: float | None = None) -> Answer:
    """What a program answers to words and an input."""
    status, wrote, _ = ran([program(name), *words], given.encode(errors="replace"), seconds)
    if status == OUT_OF_MEMORY:
        raise MemoryError(f"{name} {' '.join(words)}: out of memory")
    if status not in (ANSWERED, REFUSED, TOO_LARGE, MOVE_REFUSED):
        raise Missing(f"{name} {' '.join(words)} ended with {status}")
    return Answer(status, wrote.decode(errors="replace"))


class _Ended(Exception):
    """The process has ended before its answer."""


class Stream:
    """A process `kh-scan each` over one field, which answers a code at a time."""

    def __init__(self, path: str, field: int) -> None:
        words = [path, "each", "--field", str(field)]
        self.path, self.field, self.asked, self.is_greeted = path, field, 0, False
        self.process = begun(words)
        assert self.process.stdin and self.process.stdout
        self.into, self.out = self.process.stdin.fileno(), self.process.stdout.fileno()

    def ask(self, code: bytes) -> tuple[int, bytes]:
        """The status and the bytes of the answer to a code, which is one line."""
        left = code + b"\n"
        try:
            while left:
                left = left[os.write(self.into, left) :]
        except BrokenPipeError:
            raise _Ended from None
        self.asked += 1
        return self.answer()

    def answer(self) -> tuple[int, bytes]:
        """The next answer; nothing may stand behind it."""
        came = b""
        while True:
            part = os.read(self.out, PART)
            if not part:
                raise _Ended
            came += part
            if not self.is_greeted and came.startswith(FIRST):
                came, self.is_greeted = came[len(FIRST) :], True
            head = HEAD.match(came)
            if head and len(came) >= head.end() + int(head[4]):
                if (int(head[1]), int(head[2])) != (self.asked, self.field) or len(came) > head.end() + int(head[4]):
                    raise Missing(f"{self.path} each has not answered the code that it was asked")
                return int(head[3]), came[head.end() :]

    def end(self) -> None:
        """Ends the process, by giving it no more to read, and where that does not help by force."""
        self.close()
        try:
            self.process.wait(GRACE)
        except subprocess.TimeoutExpired:
            self.process.kill()
            self.process.wait()

    def close(self) -> None:
        """Closes this side of the pipes."""
        for file in (self.process.stdin, self.process.stdout):
            if file:
                with contextlib.suppress(OSError):
                    file.close()


class Streams:
    """The processes of this one: as many over a field as threads ask at once. Each thread has its own while it asks, and a process that was
    forked off begins its own."""

    def __init__(self) -> None:
        self.free: dict[tuple[str, int], list[Stream]] = {}
        self.every: set[Stream] = set()

    def ask(self, field: int, code: str) -> Answer:
        """What `kh-scan` answers to a code of one line. Where its process has ended, another is asked once."""
        path = program(SCAN)
        free = self.free.setdefault((path, field), [])
        given = code.encode(errors="replace")
        try:
            stream = free.pop()
        except IndexError:
            stream = self.begun(path, field)
        try:
            status, wrote = self.asked(stream, given)
        except _Ended:
            try:
                stream = self.begun(path, field)
                status, wrote = self.asked(stream, given)
            except _Ended:
                raise Missing(f"{path} each --field {field} ended without an answer to {code[:80]}") from None
        free.append(stream)
        return Answer(status, wrote.decode(errors="replace"))

    def begun(self, path: str, field: int) -> Stream:
        stream = Stream(path, field)
        self.every.add(stream)
        return stream

    def asked(self, stream: Stream, given: bytes) -> tuple[int, bytes]:
        """The answer of a process; one that is stopped within it is dropped, since what it still has to say would answer another code."""
        try:
            return stream.ask(given)
        except BaseException:
            self.drop(stream)
            raise

    def drop(self, stream: Stream) -> None:
        self.every.discard(stream)
        stream.process.kill()
        stream.end()

    def end(self) -> None:
        """Ends all processes; those that are asked afterwards begin anew."""
        self.free.clear()
        every, self.every = self.every, set()
        for stream in every:
            stream.end()

    def forget(self) -> None:
        """In a process that was forked off: leaves the processes to the one that began them."""
        for stream in self.every:
            stream.close()
            stream.process.returncode = 0
        self.every, self.free = set(), {}


STREAMS = Streams()
atexit.register(STREAMS.end)
os.register_at_fork(after_in_child=STREAMS.forget)
