"""Each call of the system's library that a run makes fails in turn: memory, reads, writes and threads. See `tests/faults`.

The calls are made to fail by `faults.c`, which is compiled and loaded before the C library. Where there is no compiler, or the program is
linked so that nothing can be loaded before it, none of this is tried, and that is told.
"""
import errno
import os
import shutil
import subprocess
import sys
import tempfile

import faulty.cases as cases
from faulty.cases import NO_MEMORY, READ_FAULT, WRITE_FAULT
from shared.running import Child, parts_of

HERE = os.path.dirname(os.path.abspath(__file__))
KINDS = ("memory", "read", "write", "thread")
NUMBERS = 400
MORE = 40
BYTES = 200
FEW = 20
# Diagrams with so many blocks, each of which a worker of its own may take, and numbers of workers.
BLOCKS = ((b"PD[]", 1), (cases.TREFOIL, 5), (cases.FIGURE_EIGHT, 6))
WORKERS = (1, 2, 4, 64)


class Shim:
    """A child whose calls can be made to fail, and the counts of the calls that its last run made."""

    def __init__(self, child, folder):
        self.child, self.folder = child, folder
        self.library, self.file = os.path.join(folder, "faults.so"), os.path.join(folder, "counts")

    def is_built(self, case):
        """Whether the shim was compiled and is heard when the program, which is no script, runs; where it is not, that is told."""
        built = self.compiled() and self.run(case) and self.counts()["read"] > 0
        if not built:
            print("no call is made to fail, since nothing can be loaded before the program, or there is no C compiler")
        return built

    def compiled(self):
        compiler = shutil.which(os.environ.get("CC") or "cc")
        if not compiler or not parts_of(self.child.program)[1]:
            return False
        command = [compiler, "-O2", "-shared", "-fPIC", "-o", self.library, os.path.join(HERE, "faults.c")]
        return not subprocess.run(command).returncode

    def run(self, case, fault="none", piece=None):
        """A run in which calls fail as `faults.c` says."""
        with open(self.file, "wb") as file:
            file.write(bytes(8 * len(KINDS)))
        added = {"LD_PRELOAD": self.library, "COUNTS": self.file, "FAULT": fault, **({"PIECE": str(piece)} if piece else {})}
        return self.child.run(case.words, case.given, environment={**os.environ, **added})

    def counts(self):
        with open(self.file, "rb") as file:
            return {kind: int.from_bytes(file.read(8), sys.byteorder) for kind in KINDS}


def tried(count, all_numbers):
    """The numbers up to a count, and a few more; where there are many, the first ones and then ever fewer."""
    numbers, number = [], 1
    while number <= count + 2:
        numbers.append(number)
        number += 1 if all_numbers or number < NUMBERS else 1 + number // MORE
    return numbers


def outcome(came, wanted, status=None, prefix=False, whole=True):
    """What is wrong with a run that may end whole, or with a status of its own and nothing, or with a beginning of what is wanted."""
    if whole and came[:2] == wanted and not came.said:
        return None
    begun = wanted[1].startswith(came.wrote) if prefix else came.wrote == b""
    if came.status == status and begun and not came.said:
        return None
    return f"status {came.status}, {came.wrote[:200]!r}, {came.said[:200]!r}, and not {wanted[0]}, {wanted[1][:200]!r}"


def memory_faults(shim, case, wanted, count, all_numbers):
    """Each allocation fails, once or from there on: out of memory with nothing written, or the whole answer."""
    ends = set()
    for mode in ("once", "from"):
        for number in tried(count, all_numbers):
            came = shim.run(case, f"memory {mode} {number} {errno.ENOMEM}")
            ends.add(came.status)
            yield f"{case.name}, allocation {number} fails, {mode}", outcome(came, wanted, NO_MEMORY)
    yield f"{case.name}, some allocation is needed", None if NO_MEMORY in ends or not count else f"ended with {ends} alone"


def read_faults(shim, case, wanted, count, most=BYTES):
    """Each read fails: the fault of reading, with nothing written. An interrupted one may be made again, and short ones are made whole."""
    yield f"{case.name}, reads of one byte", outcome(shim.run(case, piece=1), wanted)
    for number in range(1, count + 1):
        for mode in ("once", "from"):
            came = shim.run(case, f"read {mode} {number} {errno.EIO}")
            yield f"{case.name}, read {number} fails, {mode}", outcome(came, wanted, READ_FAULT, whole=False)
        came = shim.run(case, f"read once {number} {errno.EINTR}")
        yield f"{case.name}, read {number} is interrupted", outcome(came, wanted, READ_FAULT)
    if cases.reads(case) and len(case.given) < BYTES:
        for number in range(1, min(len(case.given) + 1, most) + 1):
            came = shim.run(case, f"read once {number} {errno.EIO}", piece=1)
            yield f"{case.name}, read {number} of one byte fails", outcome(came, wanted, READ_FAULT, whole=False)


def write_faults(shim, case, wanted, count, most=BYTES):
    """Each write fails, whole or byte by byte: the fault of writing, with what was written before."""
    for number in range(1, count + 1):
        for code in (errno.EIO, errno.ENOSPC, errno.EPIPE, errno.EBADF):
            for mode in ("once", "from"):
                came = shim.run(case, f"write {mode} {number} {code}")
                yield f"{case.name}, write {number} fails by {code}, {mode}", outcome(came, wanted, WRITE_FAULT, prefix=True, whole=False)
        came = shim.run(case, f"write once {number} {errno.EINTR}")
        yield f"{case.name}, write {number} is interrupted", outcome(came, wanted, WRITE_FAULT, prefix=True)
    size = len(wanted[1])
    for number in range(1, min(size, most) + 1):
        came = shim.run(case, f"write once {number} {errno.EIO}", piece=1)
        right = (came.status, came.wrote, came.said) == (WRITE_FAULT, wanted[1][: number - 1], b"")
        yield f"{case.name}, write {number} of one byte fails", None if right else f"{came.status}, {came.wrote!r}, {came.said!r}"
    yield f"{case.name}, writes of one byte", outcome(shim.run(case, piece=1), wanted)


def thread_faults(shim, case, wanted, count):
    """Each thread that can not be started leaves its work to the others."""
    for number in range(1, count + 1):
        for mode in ("once", "from"):
            came = shim.run(case, f"thread {mode} {number} {errno.EAGAIN}")
            yield f"{case.name}, thread {number} is not started, {mode}", outcome(came, wanted)


def thread_counts(shim):
    """So many workers are at work, as far as there are blocks: the caller, and a thread at least for each other one."""
    for given, blocks in BLOCKS:
        for workers in WORKERS:
            shim.run(cases.Case("homology", ["homology", "--workers", str(workers)], given))
            started, least = shim.counts()["thread"], min(workers, blocks) - 1
            right = started >= least if least else not started
            yield f"homology of {blocks} blocks by {workers} workers, threads", None if right else f"{started} started, and not {least}"


def case_faults(shim, case, most=None, all_numbers=False):
    """What comes of a case when its calls fail, each in turn; with a most, of each kind no more than so many of the first ones."""
    wanted = shim.child.run(case.words, case.given)[:2]
    yield f"{case.name}, with the shim", outcome(shim.run(case), wanted)
    count = shim.counts()
    print(f"{case.name}: " + ", ".join(f"{count[kind]} of {kind}" for kind in KINDS), flush=True)
    count = {kind: min(number, most or number) for kind, number in count.items()}
    yield from memory_faults(shim, case, wanted, count["memory"], all_numbers)
    yield from read_faults(shim, case, wanted, count["read"], most or BYTES)
    yield from write_faults(shim, case, wanted, count["write"], most or BYTES)
    yield from thread_faults(shim, case, wanted, count["thread"])


def faults(child, chosen, all_numbers=False, most=None, has_threads=True):
    """The name of each case in which a call fails, and what is wrong with it, if anything is; of a program that has threads, or none."""
    with tempfile.TemporaryDirectory() as folder:
        shim = Shim(child, folder)
        if shim.is_built(cases.ALL[0] if has_threads else chosen[0]):
            yield from thread_counts(shim) if has_threads else ()
            for case in chosen:
                yield from case_faults(shim, case, most, all_numbers)


def few(program):
    """A small part of these cases, for the gate: of each kind the first calls fail."""
    yield from faults(Child(program), cases.named("homology by four workers", "certify", "verify"), most=FEW)
