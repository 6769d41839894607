#!/usr/bin/env python3
"""Hostile use of `kh-scan`: what `tests/program` tries of it behind `tests/scan_tables.py` and `tests/scan_lists.py`.

    tests/scan_hostile.py PROGRAM [WORD]

PROGRAM is that of `kh`; that of scans stands in `crates/scan_main/out`, or where KH_SCAN_PROGRAM says. Each allocation, read and write
fails in turn; inputs can not be read, outputs not be written, and signals come; there are limits of the system, and little memory: a run
ends whole, or with its status and nothing, and one over a list as `faulty/lists.py` says. And words, codes and lists that are drawn at
random come to what the plain readings say. The last line is 'N passed, M failed'.
"""
import functools
import sys

import faulty.calls
import faulty.limits
import faulty.lists
import faulty.streams
from drawn.fuzzer import ScanFuzzer
from faulty.cases import ALL, FIGURE_EIGHT, SCANNED, TREFOIL, Case
from rows import runs
from rows.scan import SCAN_USAGE
from rows.stream import SIZES
from shared import known_diagrams, stored_links
from shared.pool import tell_parts
from shared.running import Child
from shared.scanning import has_row_of_scan, is_there, row_of_scan, scan_of, words_behind

INPUTS, SHARES = 1_200, 4
SEED = "the gate scans"
EIGHT = stored_links.texts("tables.txt")["8_19"].encode()
# Runs whose calls fail.
CALLED = (
    Case("a scan of the trefoil", [], TREFOIL),
    Case("a scan of the figure eight over three", ["--field", "3"], FIGURE_EIGHT),
    Case("a scan of a refused text", ["--field", "7"], b"PD[X[1,2,1,2]]"),
    Case("a scan of 8_19", [], EIGHT),
)
BRAID = dict(known_diagrams.begun())["a braid of 16 crossings on 4 strands"].encode()
SLOW = Case("a long scan", [], BRAID)
SLOW_LIST = Case("a long list", ["each", "--field", "all"], (TREFOIL + b"\nPD[\n" + BRAID + b"\n") * 3)


def chosen_runs():
    """The runs above, and those of `kh homology` that fail for `tests/faults`, as runs of `kh-scan`."""
    behind = [(case, words_behind(case.words)) for case in ALL]
    return [*CALLED, *(Case(f"{case.name} by kh-scan", words, case.given) for case, words in behind if words is not None)]


def calls(scan, case):
    return faulty.calls.faults(Child(scan), [case], has_threads=False)


def list_calls(scan, case):
    return faulty.lists.call_faults(Child(scan), case)


def streams(scan):
    return faulty.streams.some(scan, chosen_runs()[:6], SLOW, Child(scan).run)


def list_streams(scan):
    """Streams of lists that fail; and signals that come in the middle of a list."""
    for case in faulty.lists.SHORT:
        yield from faulty.lists.stream_faults(scan, case, Child(scan).run)
    yield from faulty.lists.moment_faults(scan, SLOW_LIST, Child(scan).run)


def limits(scan):
    """Small stacks, other places and runs side by side; address space and data, of which there is too little in some steps."""
    chosen = chosen_runs()
    yield from faulty.limits.some(scan, chosen)
    yield from faulty.limits.large_stacks(scan, SCANNED)
    for case in (chosen[0], chosen[3]):
        yield from faulty.limits.memory_limits(scan, case, faulty.limits.run(scan, case))
        yield from faulty.limits.file_limits(scan, case, faulty.limits.run(scan, case))


def list_limits(scan):
    """Small stacks, other places and lists side by side; address space and data, of which there is too little for some codes or for all."""
    yield from faulty.limits.some(scan, faulty.lists.CASES)
    for case in (faulty.lists.CASES[0], faulty.lists.LARGE):
        yield from faulty.lists.memory_limits(scan, case)
    yield from faulty.limits.file_limits(scan, faulty.lists.CASES[0], faulty.limits.run(scan, faulty.lists.CASES[0]))


def rows_of_streams():
    """The rows on where inputs come from and outputs go, and on little memory, of `homology`, as rows of `kh-scan`; and of its usage."""
    yield runs.Row("kh-scan, no words of its own and an input that is a folder", ["jones"], b"", 2, SCAN_USAGE.encode(), "folder")
    yield runs.Row("kh-scan, no words of its own and an output that is full", ["jones"], TREFOIL, 4, b"", "file", "full")
    yield runs.Row("kh-scan, no words of its own, in little memory", ["jones"], TREFOIL, 2, SCAN_USAGE.encode(), "file", sizes=SIZES)
    for row in runs.all_rows():
        if has_row_of_scan(row) and (row.sizes or (row.source, row.sink) != ("pipe", "kept")):
            yield row_of_scan(row)


def row_faults(scan, some):
    return ((row.name, runs.fault_of(scan, row)) for row in some)


def drawn_inputs(scan, numbers):
    """Words and inputs that are drawn at random, as the plain readings answer them."""
    fuzzer = ScanFuzzer(scan, SEED)
    for number in numbers:
        yield "kh-scan, an input drawn at random", fuzzer.fault_of(number)


def parts(program, word=""):
    """The parts of these tests: a name, and what gives the name of each case and what is wrong with it, if anything is."""
    scan = scan_of(program)
    if not is_there(scan):
        return
    for case in CALLED:
        yield f"kh-scan, calls of {case.name}", functools.partial(calls, scan, case)
    for case in faulty.lists.CASES:
        yield f"kh-scan, calls of {case.name}", functools.partial(list_calls, scan, case)
    for cases in (streams, list_streams, limits, list_limits):
        yield f"kh-scan, {cases.__name__.replace('_', ' ')}", functools.partial(cases, scan)
    some = list(rows_of_streams())
    yield "kh-scan, rows of streams", functools.partial(row_faults, scan, [row for row in some if not row.sizes])
    for row in some:
        if row.sizes:
            yield row.name, functools.partial(row_faults, scan, [row])
    for share in range(SHARES):
        yield f"kh-scan, drawn inputs, share {share}", functools.partial(drawn_inputs, scan, range(share, INPUTS, SHARES))


if __name__ == "__main__":
    sys.exit(tell_parts(parts, __doc__))
