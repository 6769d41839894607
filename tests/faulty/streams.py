"""Inputs that can not be read, outputs that can not be written, readers that go away and signals that come. See `tests/faults`.

What was written has to be a beginning of the answer: all of it where the run ends by itself with its own status, and nothing where the
input could not be read.
"""
import fcntl
import os
import random
import resource
import signal
import subprocess
import tempfile
import time

from faulty.cases import ALL, CURL, READ_FAULT, WRITE_FAULT, Case, named, reads
from shared.running import PATIENCE

PIPE_ROOM = 4096
CURL_AT = b"X[%d,%d,%d,%d]"
LONG = Case("a long edit", ["edit"], CURL + b";" + b"r1 add 1 under plus\nundo\n" * 2000)
CURLS = b"PD[" + b",".join(CURL_AT % (arc, arc, arc + 1, arc + 1) for arc in range(1, 13, 2)) + b"]"
SLOW = Case("a long homology", ["homology", "--workers", "2"], CURLS)


def started(program, case, folder, **settings):
    """A run whose input is a file, unless it is said otherwise."""
    if "stdin" not in settings:
        path = os.path.join(folder, "input")
        with open(path, "wb") as file:
            file.write(case.given)
        settings["stdin"] = open(path, "rb")
    settings.setdefault("stderr", subprocess.PIPE)
    return subprocess.Popen([program, *case.words], cwd=folder, **settings)


def ended(process):
    """The status, what was written to a pipe, and what was said."""
    try:
        wrote, said = process.communicate(timeout=PATIENCE)
    except subprocess.TimeoutExpired:
        process.kill()
        return ("no end", *process.communicate())
    return process.returncode, wrote, said


def different(came, *wanted):
    return None if came in wanted else f"{str(came)[:500]} and not {str(wanted)[:500]}"


def unreadable(program, case, folder, before=b""):
    """Inputs that no read can be made of: what reads ends with its fault, and what it writes before, and what reads nothing answers."""
    wanted = ended(started(program, case, folder, stdout=subprocess.PIPE))
    wanted = (READ_FAULT, before, b"") if reads(case) else wanted
    sources = {
        "is a folder": lambda: os.open(folder, os.O_RDONLY),
        "is open for writing alone": lambda: os.open(os.path.join(folder, "sink"), os.O_WRONLY | os.O_CREAT),
        "is memory of no process": lambda: os.open("/proc/self/mem", os.O_RDONLY),
    }
    for name, opened in sources.items():
        try:
            file = opened()
        except OSError as stop:
            print(f"{case.name}, the input {name}: not tried: {stop}")
            continue
        came = ended(started(program, case, folder, stdin=file, stdout=subprocess.PIPE))
        os.close(file)
        yield f"{case.name}, the input {name}", different(came, wanted)
    came = ended(started(program, case, folder, stdin=subprocess.DEVNULL, stdout=subprocess.PIPE, preexec_fn=lambda: os.close(0)))
    yield f"{case.name}, the input is closed", different(came, wanted)


def cut_inputs(program, case, folder, ask):
    """A pipe that ends after k bytes is the input of k bytes, in whatever pieces it comes."""
    draw = random.Random(case.name)
    for size in sorted({*range(min(len(case.given), 12)), *(draw.randrange(len(case.given) + 1) for _ in range(6))}):
        given = case.given[:size]
        process = started(program, case, folder, stdin=subprocess.PIPE, stdout=subprocess.PIPE)
        at = draw.randint(0, size)
        process.stdin.write(given[:at])
        process.stdin.flush()
        time.sleep(0.003)
        came = ended_after(process, given[at:])
        yield f"{case.name}, a pipe that ends after {size} bytes", different(came, (*ask(case.words, given)[:2], b""))


def ended_after(process, given):
    """How a run ends to which these bytes are fed last, of which it may read none."""
    try:
        wrote, said = process.communicate(given, timeout=PATIENCE)
    except subprocess.TimeoutExpired:
        process.kill()
        return ("no end", *process.communicate())
    return process.returncode, wrote, said


def unwritable(program, case, folder):
    """Outputs that take nothing: the fault of writing, unless there is nothing to write."""
    status, wrote, said = ended(started(program, case, folder, stdout=subprocess.PIPE))
    wanted = (WRITE_FAULT, b"") if wrote else (status, b"")
    reading, writing = os.pipe()
    os.close(reading)
    sinks = {
        "is full": os.open("/dev/full", os.O_WRONLY),
        "is open for reading alone": os.open("/dev/null", os.O_RDONLY),
        "is a folder": os.open(folder, os.O_RDONLY),
        "is a pipe that nobody reads": writing,
    }
    for name, file in sinks.items():
        for restore in (True, False):
            came = ended(started(program, case, folder, stdout=file, restore_signals=restore))
            yield f"{case.name}, the output {name}", different((came[0], came[2]), wanted)
        os.close(file)
    came = ended(started(program, case, folder, stdout=subprocess.DEVNULL, preexec_fn=lambda: os.close(1)))
    yield f"{case.name}, the output is closed", different((came[0], came[2]), wanted)
    yield from short_files(program, case, folder, status, wrote)


def short_files(program, case, folder, status, wrote):
    """Files with room for k bytes get the first k, whether or not the signal for that is ignored."""
    for size in sorted({*range(min(len(wrote), 150)), max(len(wrote) - 1, 0), len(wrote)}):
        path = os.path.join(folder, "output")

        def limited(size=size):
            resource.setrlimit(resource.RLIMIT_FSIZE, (size, size))

        with open(path, "wb") as file:
            came = ended(started(program, case, folder, stdout=file, preexec_fn=limited, restore_signals=False))
        with open(path, "rb") as file:
            came = came[0], file.read(), came[2]
        wanted = (status, wrote, b"") if size >= len(wrote) else (WRITE_FAULT, wrote[:size], b"")
        yield f"{case.name}, a file with room for {size} bytes", different(came, wanted)


def leaving_readers(program, folder):
    """A reader that closes a small pipe after k bytes: the fault of writing, whatever is done about SIGPIPE."""
    for size in (0, 1, 100, 4095, 4096, 4097, 10_000, 50_000):
        for restore in (True, False):
            reading, writing = os.pipe()
            fcntl.fcntl(writing, fcntl.F_SETPIPE_SZ, PIPE_ROOM)
            process = started(program, LONG, folder, stdout=writing, restore_signals=restore)
            os.close(writing)
            left = size
            while left > 0:
                left -= len(os.read(reading, left)) or left
            os.close(reading)
            came = ended(process)
            yield f"a reader that leaves after {size} bytes", different((came[0], came[2]), (WRITE_FAULT, b""))


def signals(program, case, folder, wanted):
    """A signal at any moment: a beginning of the answer, and the end by the signal, or the whole answer."""
    draw = random.Random(case.name)
    for number in (signal.SIGTERM, signal.SIGINT, signal.SIGHUP, signal.SIGQUIT, signal.SIGKILL, signal.SIGALRM, signal.SIGUSR1):
        for _ in range(12):
            process = started(program, case, folder, stdout=subprocess.PIPE)
            time.sleep(draw.random() * 0.04)
            process.send_signal(number)
            status, wrote, said = ended(process)
            whole = (status, wrote, said) == (*wanted, b"")
            begun = status == -number and wanted[1].startswith(wrote) and not said
            yield f"{case.name}, signal {number}", None if whole or begun else f"{status}, {wrote[-200:]!r}, {said!r}"


def held_runs(program, case, folder, wanted):
    """A run that is stopped and goes on writes the whole answer; signals that are told and not heeded change nothing."""
    draw = random.Random(case.name)
    for number in (signal.SIGSTOP, signal.SIGTSTP, signal.SIGWINCH, signal.SIGCHLD, signal.SIGURG):
        for _ in range(6):
            process = started(program, case, folder, stdout=subprocess.PIPE)
            time.sleep(draw.random() * 0.04)
            process.send_signal(number)
            time.sleep(0.002)
            process.send_signal(signal.SIGCONT)
            yield f"{case.name}, signal {number} and on", different(ended(process), (*wanted, b""))


def faults(program, chosen, ask):
    """The name of each case of streams and signals, and what is wrong with it, if anything is; `ask` gives a run's status and bytes."""
    with tempfile.TemporaryDirectory() as folder:
        for case in chosen:
            yield from unreadable(program, case, folder)
            yield from unwritable(program, case, folder)
            if reads(case):
                yield from cut_inputs(program, case, folder, ask)
        yield from leaving_readers(program, folder)
        for case in (LONG, SLOW):
            wanted = tuple(ask(case.words, case.given)[:2])
            yield from signals(program, case, folder, wanted)
            yield from held_runs(program, case, folder, wanted)


def some(program, chosen, slow, ask):
    """These cases of a program whose answers are short, and a run that lasts while signals come."""
    with tempfile.TemporaryDirectory() as folder:
        for case in chosen:
            yield from unreadable(program, case, folder)
            yield from unwritable(program, case, folder)
            yield from cut_inputs(program, case, folder, ask)
        wanted = tuple(ask(slow.words, slow.given)[:2])
        yield from signals(program, slow, folder, wanted)
        yield from held_runs(program, slow, folder, wanted)


def few(program, ask):
    """A small part of these cases, for the gate."""
    with tempfile.TemporaryDirectory() as folder:
        for case in (ALL[0], *named("certify", "verify")):
            yield from unreadable(program, case, folder)
        for case in named("certify", "verify"):
            yield from unwritable(program, case, folder)
        yield from leaving_readers(program, folder)
        yield from signals(program, LONG, folder, tuple(ask(LONG.words, LONG.given)[:2]))
