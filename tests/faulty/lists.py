"""Each call that `kh-scan each` makes fails in turn, and so do its streams; and there is little memory. See `tests/scan_hostile.py`.

What it wrote before stays, so that of each failure more is known than of other runs: where a read fails all lines that had ended are
answered; each write is the first line or one frame, and what was written before one that fails is there; and out of memory the frames are
whole, some of them with that status and no bytes, or the run ends with it.
"""
import errno
import resource
import tempfile

import faulty.calls as calls
import faulty.limits as limits
import faulty.streams as streams
from faulty.cases import FIGURE_EIGHT, GAUSS, HOPF, JSON, NO_MEMORY, READ_FAULT, TREFOIL, WRITE_FAULT, Case
from plain import frames
from rows.texts import curls
from shared.running import begins_in

DONE = 0
CODES = b"\n".join((HOPF, b" \r", b"PD[X[1,2,1,2]]", JSON, b"[]"))
CASES = (
    Case("a list", ["each"], CODES),
    Case("a list over all fields", ["each", "--field", "all"], b"\n" + GAUSS + b"\nPD["),
    Case("a list of long lines", ["each", "--field", "3"], b" " * 70_000 + b"\n" + TREFOIL + b" " * 65_500 + b"\n" + FIGURE_EIGHT + b"\n"),
)
SHORT = CASES[:2]
# A list between whose small codes is one for which there is no memory where there is enough for the others.
LARGE = Case("a list with a large code", ["each"], b"\n".join((TREFOIL, curls(15).encode(), TREFOIL)))
SPACES = range(2_000, 120_000, 2_000)
DATA = [*limits.DATA, *range(9_000, 120_000, 3_000)]
# The bytes that a read takes at most, and how many writes are tried that take one.
PIECES, WRITES = (1, 7, 1_000), 400


def fields_of(case):
    return "2357" if "all" in case.words else case.words[-1] if "--field" in case.words else "2"


def answers(case, whole):
    """The frames of a list, which a run has written that nothing disturbed."""
    found = frames.read(whole)
    asked = [(it.number, it.field) for it in frames.questions(case.given, fields_of(case))]
    if not found or found[1] or [it[:2] for it in found[0]] != asked:
        raise ValueError(f"{whole[:300]!r} is no answer to {case.given!r}")
    return found[0]


def answered(case, wanted, read):
    """What is written where only so many bytes of the list are read: the frames of the lines that had ended."""
    last = read[: read.rfind(b"\n") + 1].count(b"\n")
    return b"".join(frames.written([it for it in wanted if it.number <= last]))


def told(came, status, wrote):
    """What is wrong with a run that has to end with this status and have written this, if anything is."""
    right = (came.status, came.wrote, came.said) == (status, wrote, b"")
    return None if right else f"status {came.status}, {came.wrote[-300:]!r}, {came.said[:200]!r}, and not {status}, {wrote[-300:]!r}"


def memory_outcome(status, wrote, said, wanted):
    """What is wrong with a run that lacked memory, if anything is: its frames are whole, each is the one that is wanted or says that there
    was no memory, and the run ends with that status unless all that are wanted are there. Before the first line there may be nothing."""
    found = frames.read(wrote) or ([], wrote)
    fine = len(found[0]) <= len(wanted) and all(map(frames.is_answer, found[0], wanted)) and not found[1] and not said
    whole = wrote and found[0] == wanted
    fine = fine and (status == NO_MEMORY or (status == DONE and whole))
    return None if fine else f"status {status}, {wrote[-300:]!r}, {said[:200]!r}"


def memory_faults(shim, case, wanted, count):
    """Each allocation fails, once or from there on."""
    ends, lacking = set(), 0
    for mode in ("once", "from"):
        for number in calls.tried(count, False):
            came = shim.run(case, f"memory {mode} {number} {errno.ENOMEM}")
            ends.add(came.status)
            lacks = sum(it.status == NO_MEMORY for it in (frames.read(came.wrote) or [[]])[0])
            lacking += lacks
            fault = memory_outcome(came.status, came.wrote, came.said, wanted)
            if not fault and mode == "once" and lacks > 1:
                fault = f"{lacks} frames without memory, status {came.status}"
            yield f"{case.name}, allocation {number} fails, {mode}", fault
    needed = NO_MEMORY in ends and lacking
    yield f"{case.name}, some allocation is needed", None if needed else f"ended with {ends}, {lacking} lacked memory"


def read_faults(shim, case, wanted, whole):
    """Each read fails: the lines that had ended are answered. An interrupted one may be made again, and short ones are made whole."""
    for piece in PIECES if len(case.given) < PIECES[-1] else PIECES[-1:]:
        yield f"{case.name}, reads of {piece} bytes", told(shim.run(case, piece=piece), DONE, whole)
        # (the last read finds the end)
        for number in range(1, 2 - (-len(case.given) // piece)):
            before = answered(case, wanted, case.given[: (number - 1) * piece])
            for mode in ("once", "from"):
                came = shim.run(case, f"read {mode} {number} {errno.EIO}", piece)
                yield f"{case.name}, read {number} of {piece} bytes fails, {mode}", told(came, READ_FAULT, before)
            came = shim.run(case, f"read once {number} {errno.EINTR}", piece)
            fine = told(came, DONE, whole) and told(came, READ_FAULT, before)
            yield f"{case.name}, read {number} of {piece} bytes is interrupted", fine


def write_faults(shim, case, wanted, whole):
    """Each write fails: what the writes before it took is written, and of writes that are of their own size, whole frames."""
    pieces = frames.written(wanted)
    yield f"{case.name}, a write for each frame", told(shim.run(case), DONE, whole) or count_fault(shim, len(pieces))
    for number in range(1, len(pieces) + 1):
        before = b"".join(pieces[: number - 1])
        for code in (errno.EIO, errno.ENOSPC, errno.EPIPE, errno.EBADF):
            for mode in ("once", "from"):
                came = shim.run(case, f"write {mode} {number} {code}")
                yield f"{case.name}, write {number} fails by {code}, {mode}", told(came, WRITE_FAULT, before)
        came = shim.run(case, f"write once {number} {errno.EINTR}")
        yield f"{case.name}, write {number} is interrupted", told(came, DONE, whole) and told(came, WRITE_FAULT, before)
    for number in range(1, min(len(whole), WRITES) + 1):
        came = shim.run(case, f"write once {number} {errno.EIO}", 1)
        yield f"{case.name}, write {number} of one byte fails", told(came, WRITE_FAULT, whole[: number - 1])


def count_fault(shim, writes):
    count = shim.counts()["write"]
    return None if count == writes else f"{count} writes, and not {writes}"


def call_faults(child, case):
    """What comes of a list when its calls fail, each in turn."""
    with tempfile.TemporaryDirectory() as folder:
        shim = calls.Shim(child, folder)
        if not shim.is_built(case):
            return
        whole = child.run(case.words, case.given).wrote
        wanted = answers(case, whole)
        shim.run(case)
        count = shim.counts()
        print(f"{case.name}: " + ", ".join(f"{count[kind]} of {kind}" for kind in calls.KINDS), flush=True)
        yield from memory_faults(shim, case, wanted, count["memory"])
        yield from read_faults(shim, case, wanted, whole)
        yield from write_faults(shim, case, wanted, whole)


def stream_faults(program, case, ask):
    """Inputs that can not be read, or end early; outputs that take nothing, or little."""
    with tempfile.TemporaryDirectory() as folder:
        yield from streams.unreadable(program, case, folder, frames.FIRST)
        yield from streams.unwritable(program, case, folder)
        yield from streams.cut_inputs(program, case, folder, ask)


def moment_faults(program, case, ask):
    """Signals at any moment: a beginning of the answer; and a run that is held and goes on."""
    wanted = tuple(ask(case.words, case.given)[:2])
    with tempfile.TemporaryDirectory() as folder:
        yield from streams.signals(program, case, folder, wanted)
        yield from streams.held_runs(program, case, folder, wanted)


def memory_limits(program, case):
    """Little address space, and little data: whole frames, some of which may say that there was no memory."""
    wanted = answers(case, limits.run(program, case)[1])
    kinds = set()
    for name, which, sizes, begins in (
        ("address space", resource.RLIMIT_AS, SPACES, begins_in(program)),
        ("data", resource.RLIMIT_DATA, DATA, limits.data_begins_in(program)),
    ):
        runs, enough = limits.sized_runs(program, case, (DONE, b"".join(frames.written(wanted)), b""), which, sizes)
        for size, (status, wrote, said) in runs.items():
            not_begun = not wrote and (status == limits.NOT_LOADED or (size * limits.KB < begins and status in limits.SIGNALS))
            yield f"{case.name}, {size} KB of {name}", None if not_begun else memory_outcome(status, wrote, said, wanted)
            kinds.add(tuple(it.status == NO_MEMORY for it in (frames.read(wrote) or [[]])[0]))
        yield f"{case.name}, enough {name}", None if enough <= max(sizes) else f"not in {max(sizes)} KB"
    if case is LARGE:
        # (a code for which there is no memory leaves the next its own)
        yield f"{case.name}, memory for all others", None if (False, True, False) in kinds else f"only {kinds}"
