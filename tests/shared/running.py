"""Runs a program quickly, many times one after another: its input and output are files in memory, or its input is a pipe.

`Child.run` tells how a run ended, what it wrote, and what it took. `Ended.shape_fault` says whether a run ended in a form that
`docs/FORMATS.md` does not have, whatever it was given.
"""
import fcntl
import functools
import os
import re
import signal
import struct
import subprocess
import time
from typing import NamedTuple

import plain.words
from shared.places import TOP

PIPE_ROOM = 65_536

# The seconds after which a run is held to hang: many times what any takes on a slow machine that does other work.
PATIENCE = 1_200

# The lines that a refusal has, by their statuses.
NUMBER = "[0-9]+"
REFUSALS = (
    f"(text|number|label) at {NUMBER}|no signs|signs {NUMBER} wanted {NUMBER}|json|shape at crossing {NUMBER} slot [0-4]"
    f"|arc range at crossing {NUMBER} slot [0-3]|arc {NUMBER} times {NUMBER}|interval of arc {NUMBER}|under pass at crossing {NUMBER}"
    f"|over pass at crossing {NUMBER}|two-arc component at crossing {NUMBER}|checkerboard at arc {NUMBER}"
    f"|genus faces {NUMBER} wanted {NUMBER}|line {NUMBER}|mark {NUMBER}|log line {NUMBER} (text|diagram|block|entry|open|table)"
)
LIMITS = (
    f"bytes 65537 of 65536|bytes 67108865 of 67108864|crossings {NUMBER} of 20|loops {NUMBER} of 8|lines {NUMBER} of 4096"
    f"|generators {NUMBER} of 4194304|number {NUMBER} of 1048575"
)
MOVES = (
    f"no arc {NUMBER}|no crossing {NUMBER}|crossings {NUMBER} of 20|loop {NUMBER}|same arc {NUMBER}|no kink at {NUMBER}"
    f"|no bigon at {NUMBER} {NUMBER}|no triangle at {NUMBER} {NUMBER} {NUMBER}|heights|genus faces {NUMBER} wanted {NUMBER}"
    f"|nothing to undo|nothing to redo"
)
SHAPES = {
    1: re.compile(f"(second\n)?refused ({REFUSALS})\n"),
    2: re.compile("usage: (kh COMMAND \\[OPTIONS\\]|kh-scan \\[each\\] \\[--field FIELD\\])\n|"),
    6: re.compile(f"(second\n)?limit ({LIMITS})\n"),
    7: re.compile(f"({NUMBER} PD\\[[^\n]*\\]\n)*{NUMBER} refused ({MOVES})\n"),
}
ANSWERED, USAGE = 0, 2
NEEDED = {"bench": ("--number", "1048576"), "reduced": ("--mark", "1")}

# Additions, and bytes that are copied, which took this machine's likes so many seconds of processor time, when bounds were set; and how
# often a run that is too slow is tried again, since a machine may be slow for a while.
WORK, WORK_SECONDS = 300_000, 0.03
COPIED, COPIED_SECONDS = 32 * 1024 * 1024, 0.04
TRIES = 3

# The kilobytes by which runs that do the same differ.
SLACK = 4_096

# What stands at the head of a program's file, and of each of its parts: where the parts are told, their size and number; the kind of
# a part, its place in the file, its place in memory, its sizes in both. The kinds that matter: what is loaded, and the loader's name.
HEAD, PART = struct.Struct("<32xQ14xHH"), struct.Struct("<I4xQQ8xQQ8x")
LOADED, LOADER = 1, 3

# The bytes that the system takes beside the parts, at most: the first stack with the words and the environment, and its own pages.
BESIDE = 512 * 1024


class Long:
    """An input of millions of bytes that is never in memory whole: some bytes, and then a piece again and again, to this size."""

    def __init__(self, size, again, first=b""):
        self.size, self.again, self.first = size, again, first

    def __len__(self):
        return self.size

    def __getitem__(self, part):
        """A part of the beginning, to be shown."""
        return (self.first + self.again * 100)[part]

    def pieces(self):
        """The bytes, some thousands at a time."""
        yield self.first
        left, many = self.size - len(self.first), self.again * (PIPE_ROOM // len(self.again))
        while left:
            yield many[:left]
            left -= min(left, len(many))


def pieces_of(given):
    """The bytes of an input, in pieces."""
    return given.pieces() if isinstance(given, Long) else [given]


class Ended(NamedTuple):
    """How a run ended: its status, less than 0 for a signal; what it wrote and said; the seconds and kilobytes that it took."""

    status: int
    wrote: bytes
    said: bytes
    seconds: float
    kilobytes: int

    def shape_fault(self):
        """What no run may come to, if this one did."""
        if self.status < 0:
            return f"ended by signal {-self.status}"
        if self.said:
            return f"said {self.said!r} on standard error"
        if self.status == ANSWERED:
            return None
        if self.status not in SHAPES:
            return f"status {self.status}"
        text = self.wrote.decode(errors="replace")
        return None if SHAPES[self.status].fullmatch(text) else f"status {self.status} with {text!r}"


class Child:
    """What runs a program: three files in memory that its runs have as input, output and errors."""

    def __init__(self, program, seconds=PATIENCE):
        self.program, self.seconds = os.path.abspath(program), seconds
        self.input, self.output, self.errors = (os.memfd_create(name) for name in ("input", "output", "errors"))

    def opened(self, given, by_pipe):
        """The input to read from, which has these bytes; and what is to be closed."""
        if by_pipe and len(given) <= PIPE_ROOM:
            reading, writing = os.pipe()
            # (a user with many pipes gets small ones, in which a writer would wait)
            has_room = len(given) <= fcntl.fcntl(writing, fcntl.F_GETPIPE_SZ)
            if has_room:
                os.write(writing, given)
            os.close(writing)
            if has_room:
                return reading, reading
            os.close(reading)
        replaced(self.input, given)
        return self.input, None

    def takes_more(self, came, kilobytes):
        """Whether a run took more than this. (The system shows the memory of this process, where that is more.)"""
        return came.kilobytes > kilobytes and came.kilobytes > self.run([], b"").kilobytes + SLACK

    def run(self, words, given, by_pipe=False, environment=None):
        source, spare = self.opened(given, by_pipe)
        replaced(self.output), replaced(self.errors)
        actions = [(os.POSIX_SPAWN_DUP2, file, at) for at, file in enumerate((source, self.output, self.errors))]
        child = os.posix_spawn(
            self.program,
            [self.program, *words],
            os.environ if environment is None else environment,
            file_actions=actions,
            setsigdef=[signal.SIGPIPE, signal.SIGXFSZ],
        )
        status, usage = waited(child, self.seconds)
        if spare is not None:
            os.close(spare)
        seconds = usage.ru_utime + usage.ru_stime
        return Ended(status, bytes_of(self.output), bytes_of(self.errors), seconds, usage.ru_maxrss)


def replaced(file, given=b""):
    """The file with these bytes alone, to be read from its start."""
    os.ftruncate(file, 0)
    os.lseek(file, 0, os.SEEK_SET)
    if given:
        for piece in pieces_of(given):
            os.write(file, piece)
        os.lseek(file, 0, os.SEEK_SET)


def bytes_of(file):
    size = os.fstat(file).st_size
    return os.pread(file, size, 0) if size else b""


def waited(child, seconds):
    """The status of a child and what it used; after so many seconds it is killed."""
    before = signal.signal(signal.SIGALRM, lambda *_: os.kill(child, signal.SIGKILL))
    signal.setitimer(signal.ITIMER_REAL, seconds)
    try:
        _, status, usage = os.wait4(child, 0)
    finally:
        signal.setitimer(signal.ITIMER_REAL, 0)
        signal.signal(signal.SIGALRM, before)
    return os.waitstatus_to_exitcode(status), usage


def parts_of(path):
    """The bytes of a program's file, and its parts; a script has none."""
    with open(path, "rb") as file:
        text = file.read()
    if not text.startswith(b"\x7fELF"):
        return text, []
    first, size, count = HEAD.unpack_from(text)
    return text, [PART.unpack_from(text, first + size * place) for place in range(count)]


@functools.lru_cache(maxsize=None)
def begins_in(program):
    """The bytes of address space in which the system begins a program for certain; in less a signal may end it before its first step."""
    text, parts = parts_of(program)
    loaded = [(at, at + size) for kind, _, at, _, size in parts if kind == LOADED]
    loaders = [text[place : place + size].rstrip(b"\0") for kind, place, _, size, _ in parts if kind == LOADER]
    own = max(end for _, end in loaded) - min(at for at, _ in loaded) if loaded else 0
    return own + (sum(map(begins_in, loaders)) or BESIDE)


@functools.lru_cache(maxsize=None)
def slowness():
    """How many times slower this machine is than the one for which bounds on processor time are set, and at least 1."""

    def took(work):
        begun = time.process_time()
        work()
        return time.process_time() - begun

    def least(work):
        return min(took(work) for _ in range(5))

    copied = least(lambda: bytes(bytearray(COPIED)))
    return max(1.0, least(lambda: sum(at * at % 7 for at in range(WORK))) / WORK_SECONDS, copied / COPIED_SECONDS)


def least_seconds(seconds, bound, again):
    """The processor time of a run that took so many seconds; where that is beyond a bound, the least of a few, which `again` makes."""
    for _ in range(TRIES):
        if seconds <= bound * slowness():
            break
        slowness.cache_clear()
        seconds = min(seconds, again().seconds)
    return seconds


def words_of(command):
    """Words that mean a command, with the option that it needs."""
    return [command, *NEEDED.get(command, ())]


@functools.lru_cache(maxsize=None)
def known_commands(program):
    """The commands that a program knows: all but those that it has for no command. One whose run goes wrong is a known one."""
    child = Child(program)
    return tuple(it for it in plain.words.COMMANDS if child.run(words_of(it), b"PD[]").status != USAGE)


def unknown_commands(program):
    """The commands of `docs/FORMATS.md` that a program does not know."""
    return [it for it in plain.words.COMMANDS if it not in known_commands(program)]


def fault_of(child, words, given, status, text):
    """What is wrong with a run that has to end with this status and write this text, if anything is, and what it was given."""
    came = child.run(words, given.encode() if isinstance(given, str) else given)
    if (came.status, came.wrote, came.said) == (status, text.encode(), b""):
        return None
    wrote, call = came.wrote.decode(errors="replace"), " ".join(map(str, words))
    return f"{came.status}, {wrote[:300]!r}, {came.said[:100]!r} and not {status}, {text[:300]!r}: {call} on {given[:600]!r}"


def told(program, *commands):
    """Whether the program knows these commands; where it does not, that is told."""
    unknown = [command for command in commands if command in unknown_commands(program)]
    if unknown:
        print(f"left out, since the program does not know them: {', '.join(unknown)}")
    return not unknown


def ended(words, given="", **settings):
    """The status of a command on a text, what it wrote and what it said."""
    came = subprocess.run(words, input=given, capture_output=True, text=True, timeout=PATIENCE, **settings)
    return came.returncode, came.stdout, came.stderr


def silent_fault(*words):
    """What is wrong with a command that has to end well and to say nothing."""
    status, _, said = ended(words)
    return None if (status, said) == (0, "") else f"status {status}, {said}"


def help_fault(path):
    """What is wrong with what a script says with --help, which is to be what it does, and its name."""
    status, wrote, said = ended([os.path.join(TOP, path), "--help"])
    is_fine = (status, said) == (0, "") and os.path.basename(path) in wrote and len(wrote) > 100
    return None if is_fine else f"status {status}: {wrote[:200]}{said[:300]}"


def tell_all(faults):
    """Prints each fault and how many cases there were, and gives the status to end with."""
    passed = failed = 0
    for name, fault in faults:
        passed, failed = passed + (not fault), failed + bool(fault)
        if fault:
            print(f"{name}: {fault}")
    print(f"{passed} passed, {failed} failed")
    return 1 if failed else 0
