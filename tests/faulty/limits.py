"""Runs under limits of the system, in other places and times, and side by side. See `tests/faults`.

Under a limit a run writes its whole answer, or nothing with the status for want of memory, or the system's loader says that it can not
begin, and nothing is written. A signal may end a run, before it has written anything, only where the system can not begin the program:
below the address space of `begins_in` and below the data of `data_begins_in`; and where a stack can not grow: in less than 256 KB of it,
and in an address space that lacks less than that. Data have no stack among them, so there each want of memory has to be told.
"""
import functools
import os
import resource
import shutil
import struct
import subprocess
import tempfile

from faulty.cases import ALL, NO_MEMORY, WIDE, Case, named
from shared.running import HEAD, LOADED, LOADER, PATIENCE, begins_in, parts_of

KB, PAGE = 1024, resource.getpagesize()
# A number of a user whom nobody is: no other process is counted with those of these runs.
NOBODY = 20_000 + os.getpid() % 40_000
SIDE_BY_SIDE = 100
# The kilobytes of stack that the system gives a program at its beginning, and those in which each run ends by itself.
GIVEN_STACK, ENOUGH_STACK = 128, 256
DATA = [0, 1, 4, *range(16, 1_000, 20), *range(1_000, 9_000, 500)]
NOT_LOADED = 127
SIGNALS = (-11, -9, -6)
FLAGS, CAN_BE_WRITTEN = struct.Struct("<4xI"), 2
PLACES = (
    {},
    {"TZ": "Asia/Kathmandu"},
    {"TZ": ":/nowhere"},
    {"LC_ALL": "tr_TR.UTF-8", "LANG": "tr_TR.UTF-8"},
    {"LC_ALL": "de_DE.UTF-8", "LC_NUMERIC": "de_DE"},
    {"LC_ALL": "C"},
    {"LC_ALL": "ja_JP.SJIS", "LANGUAGE": "ja"},
    {"LC_ALL": "\udcff\udcfe", "LANG": "x" * 10_000},
    {"PATH": "", "HOME": "/nowhere", "TMPDIR": "/nowhere"},
    {"POSIXLY_CORRECT": "1", "COLUMNS": "1", "TERM": "", "RUST_BACKTRACE": "full", "CLICOLOR_FORCE": "1"},
    {"MALLOC_ARENA_MAX": "1", "MALLOC_PERTURB_": "165", "MALLOC_MMAP_THRESHOLD_": "64"},
    {f"A{number}": "a" * 100 for number in range(1000)},
)


def run(program, case, limit=lambda: None, environment=None, folder=None):
    """The status, what was written, and what was said, of a run whose new process first calls `limit`."""
    done = subprocess.run(
        [program, *case.words], input=case.given, capture_output=True, timeout=PATIENCE, preexec_fn=limit, env=environment, cwd=folder
    )
    return done.returncode, done.stdout, done.stderr


@functools.lru_cache(maxsize=None)
def data_begins_in(program):
    """The bytes of data in which the system begins a program for certain: the pages that can be written, of its parts and its loader's."""
    (text, parts), own = parts_of(program), 0
    first, length, _ = HEAD.unpack_from(text) if parts else (0, 0, 0)
    for number, (kind, _, at, _, size) in enumerate(parts):
        if kind == LOADED and FLAGS.unpack_from(text, first + length * number)[0] & CAN_BE_WRITTEN:
            own += -(-(at + size) // PAGE) - at // PAGE
    loaders = [text[place : place + size].rstrip(b"\0") for kind, place, _, size, _ in parts if kind == LOADER]
    return own * PAGE + sum(map(data_begins_in, loaders))


def outcome(came, wanted, begins=True):
    """What is wrong with a run under a limit, if anything is; in one in which the system may not begin the program a signal is not."""
    fine = came in (wanted, (NO_MEMORY, b"", b"")) or came[:2] == (NOT_LOADED, b"")
    fine = fine or (not begins and came[0] in SIGNALS and came[1:] == (b"", b""))
    return None if fine else f"{str(came)[:400]} and not {str(wanted)[:400]}"


def limited(which, size):
    """What limits a new process, to no more than its limit is already."""
    hard = resource.getrlimit(which)[1]
    least = size if hard == resource.RLIM_INFINITY else min(size, hard)
    return lambda: resource.setrlimit(which, (least, least))


def growth(program, case, wanted):
    """The kilobytes by which the stack of a run may grow behind its beginning: none where the run ends whole in what it is given."""
    return 0 if run(program, case, limited(resource.RLIMIT_STACK, GIVEN_STACK * KB)) == wanted else ENOUGH_STACK - GIVEN_STACK


def sized_runs(program, case, wanted, which, sizes):
    """A run under each of these limits, by its size, and the least size, which may be above all, in which the whole answer came."""
    runs = {size: run(program, case, limited(which, size * KB), environment={}) for size in sizes}
    return runs, min((size for size, came in runs.items() if came == wanted), default=max(sizes) + 1)


def memory_limits(program, case, wanted):
    """Address space and data in steps, small ones where a run begins to be possible, and no locked memory. Each run takes memory of its
    own, so in some steps there is too little, and in others enough."""
    spaces = [*range(1_000, 12_000, 100), *range(12_000, 80_000, 2_000)]
    if "--workers" in case.words:
        spaces += range(80_000, 700_000, 20_000)
    for name, which, sizes, begins, grows in (
        ("address space", resource.RLIMIT_AS, spaces, begins_in(program), growth(program, case, wanted)),
        ("data", resource.RLIMIT_DATA, DATA, data_begins_in(program), 0),
    ):
        runs, enough = sized_runs(program, case, wanted, which, sizes)
        # (a small run may have its memory in one step behind the first that begins it)
        runs.update(sized_runs(program, case, wanted, which, range(max(enough - 200, 0), enough, 8))[0])
        enough = min(size for size, came in runs.items() if came == wanted) if enough <= max(sizes) else enough
        for size, came in runs.items():
            has_room = size * KB >= begins and not enough - grows <= size < enough
            yield f"{case.name}, {size} KB of {name}", outcome(came, wanted, has_room)
        seen = {came[0] for came in runs.values()}
        yield f"{case.name}, enough {name} and too little", None if {wanted[0], NO_MEMORY} <= seen else f"only {seen}"
    came = run(program, case, limited(resource.RLIMIT_MEMLOCK, 0))
    yield f"{case.name}, no locked memory", None if came == wanted else f"{came} and not {wanted}"


def stack_limits(program, case, wanted):
    """A stack that can not grow ends a run before it writes anything, and a list before it writes all; with 256 KB each one ends by itself."""
    for size in (0, 4, 8, 16, 24, 32, 48, 64, 96, 128, 192, 256, 512, 1_024, 8_192):
        # (words and environment are on the stack)
        came = run(program, case, limited(resource.RLIMIT_STACK, size * KB), environment={})
        fault = outcome(came, wanted, size >= ENOUGH_STACK)
        if "each" in case.words and size < ENOUGH_STACK and came[0] in SIGNALS and wanted[1].startswith(came[1]):
            fault = None
        yield f"{case.name}, {size} KB of stack", fault or (f"{came} with room" if size >= ENOUGH_STACK and came != wanted else None)


def large_stacks(program, chosen):
    """Diagrams as large as they may be, in the least stack in which each run ends by itself."""
    for case in chosen:
        wanted, came = run(program, case), run(program, case, limited(resource.RLIMIT_STACK, ENOUGH_STACK * KB), environment={})
        yield f"{case.name}, {ENOUGH_STACK} KB of stack", None if came == wanted else f"{str(came)[:400]} and not {str(wanted)[:400]}"


def file_limits(program, case, wanted):
    """No file is opened, so that no limit on open files matters, once the system's loader has what it needs."""
    for count in (0, 1, 2, 3, 4, 5, 8, 64):
        came = run(program, case, limited(resource.RLIMIT_NOFILE, count))
        fault = outcome(came, wanted)
        yield f"{case.name}, {count} open files", fault or (f"{came} with room" if count > 4 and came != wanted else None)
    for which in (resource.RLIMIT_CORE, resource.RLIMIT_MSGQUEUE, resource.RLIMIT_SIGPENDING, resource.RLIMIT_NICE, resource.RLIMIT_RTPRIO):
        came = run(program, case, limited(which, 0))
        yield f"{case.name}, limit {which} of 0", None if came == wanted else f"{came} and not {wanted}"


def without_processes(count):
    """What takes all right to more processes away: the limit does not bind the system's owner."""

    def limit():
        resource.setrlimit(resource.RLIMIT_NPROC, (count, count))
        if os.geteuid() == 0:
            os.setgroups([])
            os.setgid(NOBODY)
            os.setuid(NOBODY)

    return limit


def process_limits(program, case, wanted, folder):
    """Threads that can not be started: the caller does their work."""
    copy = os.path.join(folder, "kh_main")
    shutil.copy(program, copy)
    os.chmod(folder, 0o755)
    os.chmod(copy, 0o755)
    for count in (0, 1, 2, 3, 5):
        try:
            came = run(copy, case, without_processes(count), folder="/")
        except (OSError, subprocess.SubprocessError) as stop:
            print(f"{case.name}, {count} processes: not tried, since no run can be another user's here: {stop}")
            return
        yield f"{case.name}, {count} processes", None if came == wanted else f"{came} and not {wanted}"


def places(program, case, wanted, folder):
    """Time zones, languages, empty and large environments, and the folder that a run is in have no effect."""
    for place in PLACES:
        came = run(program, case, environment={**os.environ, **place})
        yield f"{case.name}, with {str(place)[:40]}", None if came == wanted else f"{came} and not {wanted}"
    yield f"{case.name}, without an environment", None if run(program, case, environment={}) == wanted else "another answer"
    gone = os.path.join(folder, "gone")
    os.mkdir(gone)
    process = subprocess.Popen([program, *case.words], stdin=subprocess.PIPE, stdout=subprocess.PIPE, stderr=subprocess.PIPE, cwd=gone)
    os.rmdir(gone)
    wrote, said = process.communicate(case.given, timeout=PATIENCE)
    came = process.returncode, wrote, said
    yield f"{case.name}, in a folder that is gone", None if came == wanted else f"{came} and not {wanted}"


def side_by_side(program, chosen, wanted):
    """A hundred runs at once, or as many as the system lets begin, all begun before any is fed."""
    runs, pipe, processes = list(zip(chosen, wanted)), subprocess.PIPE, []
    many = [runs[at % len(runs)] for at in range(SIDE_BY_SIDE)]
    for case, _ in many:
        try:
            processes.append(subprocess.Popen([program, *case.words], stdin=pipe, stdout=pipe, stderr=pipe))
        except OSError as stop:
            print(f"{len(processes)} runs beside others, and not {SIDE_BY_SIDE}: {stop}")
            break
    for (case, right), process in zip(many, processes):
        wrote, said = process.communicate(case.given, timeout=PATIENCE)
        came = process.returncode, wrote, said
        yield f"{case.name}, beside others", None if came == right else f"{came} and not {right}"


def faults(program, chosen):
    """The name of each case of limits and places, and what is wrong with it, if anything is."""
    wanted = [run(program, case) for case in chosen]
    with tempfile.TemporaryDirectory() as folder:
        for case, right in zip(chosen, wanted):
            yield from memory_limits(program, case, right)
            yield from stack_limits(program, case, right)
            yield from places(program, case, right, folder)
        for case, right in list(zip(chosen, wanted))[:4]:
            yield from file_limits(program, case, right)
            yield from process_limits(program, case, right, folder)
    yield from large_stacks(program, WIDE)
    yield from side_by_side(program, chosen, wanted)


def few(program):
    """A small part of these cases, for the gate."""
    yield from large_stacks(program, WIDE)
    yield from some(program, [ALL[2], ALL[0], *named("certify", "verify", "verify of another long log")])


def some(program, chosen):
    """Threads that can not be started, small stacks and other places for the first of these cases, and all of them side by side."""
    first: Case = chosen[0]
    wanted = [run(program, case) for case in chosen]
    with tempfile.TemporaryDirectory() as folder:
        yield from stack_limits(program, first, wanted[0])
        yield from places(program, first, wanted[0], folder)
        yield from process_limits(program, first, wanted[0], folder)
    yield from side_by_side(program, chosen, wanted)
