#!/usr/bin/env python3
"""Compares `kh verify` with a plain second reading of logs, and has it and that reading judge what `kh certify` writes.

    tests/logs.py PROGRAM [--edits N]

Thirty diagrams over each field are certified by one worker and by four, who write the same; `verify` and the plain reading accept each
log, its table is that of `homology`, and its pivots are those that a search finds. Twenty good logs, of which `certify` writes some and
the plain reading the others, are edited N times (5,000): a digit is another; a line is lost, doubled, exchanged with another, or moved to
the next block; the field, the diagram or a row of the table is another; the end is cut off. Each result is accepted or refused as the
plain reading says, with the line and the cause, by the program and by `show/verify.py`. Texts of 64 MiB that are no logs are refused
within a second. `tests/program` runs all of this behind its rows, with fewer edits; the rows of logs are `tests/rows/log.py`. The last
line is 'N passed, M failed'.
"""
import argparse
import importlib.machinery
import importlib.util
import os
import random
import subprocess
import sys

import drawn.logs
import plain.cube
import plain.diagrams as codes
import plain.logs
import rows.log
from rows.log import CURL, LONGEST
from shared import known_diagrams
from shared.places import TOP
from shared.pool import faults_of
from shared.running import Child, Long, fault_of, least_seconds, slowness, tell_all, told

VERIFIER = os.path.join(TOP, "show", "verify.py")
EDITS = 5_000
IN_THE_GATE = 1_000
CERTIFIED = 30
GENERATORS = 10_000
BY_THE_DEFINITION = 2_500
LARGE = (30_000, 300_000)
FIELDS = "2357"



def size_of(text):
    return plain.cube.generator_count(codes.read(text))


def certified_texts():
    """The texts of thirty diagrams, from no crossings to ten."""
    return [text for _, text in known_diagrams.begun() if size_of(text) <= GENERATORS][:CERTIFIED]


def certify(child, text, field, *words):
    """What the program writes of a diagram over a field, whatever it is."""
    return child.run(["certify", "--field", str(field), *words], text.encode()).wrote.decode(errors="replace")


def verified(child, text, field):
    """What `verify` has to write of a log: what `homology` writes, without its last line."""
    table = child.run(["homology", "--field", str(field)], text.encode()).wrote.decode(errors="replace")
    return "verified\n" + table[: table.rfind("\n", 0, -1) + 1]


def certificate_faults(child, text, field):
    """What is wrong with the log of a diagram over a field: with its first lines, its worth, or the number of workers."""
    log, name = certify(child, text, field), f"certify over {field}"
    lines = log.splitlines()
    named = lines[:1] == ["log 1"] and codes.read(lines[1]) == codes.read(text) and lines[2] == f"field {field}"
    yield f"{name}, its diagram and field", None if named else f"{lines[:3]} and not {text}"
    yield f"{name}, by verify", fault_of(child, ["verify"], log, 0, verified(child, text, field))
    same = certify(child, text, field, "--workers", "4") == log
    yield f"{name}, by four workers", None if same else f"another log of {text}"
    if size_of(text) <= BY_THE_DEFINITION:
        came, wanted = plain.logs.verdict(log.encode()), (0, "verified\n" + plain.cube.table(known_diagrams.diagram_of(text), field))
        yield f"{name}, by the plain reading", None if came == wanted else f"{came} of {log[:500]!r}"
        found = plain.logs.log_of(known_diagrams.diagram_of(text), field, plain.logs.searched)
        yield f"{name}, the pivots of a search", None if log == found else f"another log of {text}"


def certificates(child, field):
    """What the program writes of thirty diagrams over a field, and of larger ones over two and three elements."""
    large = [text for _, text in known_diagrams.begun() if LARGE[0] <= size_of(text) <= LARGE[1]] if field in (2, 3) else []
    for text in certified_texts() + large:
        yield from certificate_faults(child, text, field)


def refusals(child):
    """A code that `homology` refuses, `certify` refuses alike."""
    for text in ("PD[X[1,2,1,2]]", "PD[", "[[1,1,2]]", "GaussCode[1]", "PD[]" + ";"):
        status, wrote = child.run(["homology"], text.encode())[:2]
        yield "certify, a refusal", fault_of(child, ["certify"], text, status, wrote.decode())


def good_logs(child):
    """Twenty good logs: what the program writes, and what the plain reading does with pivots that it draws."""
    logs = [certify(child, text, FIELDS[number % 4]) for number, text in enumerate(certified_texts()[:18:2])]
    draw = random.Random("logs")
    for number, diagram in enumerate(known_diagrams.drawn("logs", 11, most=4)):
        logs.append(plain.logs.written(diagram, int(FIELDS[number % 4]), lambda pivots: draw.choice(sorted(pivots))))
    return logs


def edits(child, count):
    """Edited logs, and logs that are cut at each byte, as the plain reading judges them."""
    logs, draw, other = good_logs(child), random.Random("edits"), second_verifier()
    given = [CURL[:size] for size in range(len(CURL))] + logs
    while len(given) < count:
        log = draw.choice(logs)
        for _ in range(draw.choice((1, 1, 1, 2, 3))):
            log = drawn.logs.edited(draw, log, logs) or "log 1\n"
        given.append(log)
    for log in given:
        wanted = plain.logs.verdict(log.encode())
        yield "verify, an edited log", fault_of(child, ["verify"], log, *wanted)
        came = other(log.encode())
        yield "show/verify.py, an edited log", None if came == wanted else f"{came} and not {wanted} on {log[:600]!r}"


def second_verifier():
    """What gives the status and the text of `show/verify.py` on a log, without a process for each."""
    loader = importlib.machinery.SourceFileLoader("second_verifier", VERIFIER)
    module = importlib.util.module_from_spec(importlib.util.spec_from_loader(loader.name, loader))
    loader.exec_module(module)

    def verdict(log):
        try:
            status, lines = module.verify(log)
        except module.Fails as stop:
            status, lines = 1, [b"refused log line %d %s" % stop.args]
        return status, b"".join(line + b"\n" for line in lines).decode(errors="replace")

    return verdict


def verifier_runs():
    """Runs of `show/verify.py` as a program on the rows of logs, but for those of millions of bytes."""
    for name, words, given, status, text in rows.log.ROWS:
        if words == ["verify"] and len(given) < LONGEST:
            log = given if isinstance(given, bytes) else given.encode()
            done = subprocess.run([sys.executable, VERIFIER], input=log, capture_output=True)
            came = done.returncode, done.stdout.decode(), done.stderr.decode()
            yield f"show/verify.py, {name}", None if came == (status, text, "") else f"{came} and not {status}, {text!r}"


HEADS = ("", "log 1\n", "log 1\nPD[X[1,1,2,2]]\nfield 2\nblock -1\n", "log 1\nPD[X[1,1,2,2]]\nfield 2\nblock -1\nblock 1\n", CURL)
FILLERS = (
    *(("one line", "x"), ("empty lines", "\n"), ("digits", "7"), ("cancellations", "cancel 0 0 0\n"), ("blocks", "block -1\n")),
    *(("spaces", " "), ("one long cancellation", "cancel "), ("bytes 0", "\0"), ("rows", "j 3 i 1 dim 1\n"), ("brackets", "PD[")),
)
SHORTER, HOSTILE_SECONDS, HOSTILE_KILOBYTES = 70_000, 1, 4 * LONGEST // 1024


def hostile(child):
    """Texts of 64 MiB that are no logs: each is refused as a shorter one is, within a second and in four times its size."""
    for name, filler in FILLERS:
        for head in HEADS:
            first, again = head.encode(), filler.encode()
            wanted = plain.logs.verdict(first + again * SHORTER)
            given = Long(LONGEST, again, first)
            came = child.run(["verify"], given)
            right = (came.status, came.wrote, came.said) == (wanted[0], wanted[1].encode(), b"")
            case = f"verify, {name} behind {len(head)} bytes"
            yield case, None if right else f"{came.status}, {came.wrote[:300]!r} and not {wanted}"
            seconds = least_seconds(came.seconds, HOSTILE_SECONDS, lambda given=given: child.run(["verify"], given))
            yield f"{case}, time", None if seconds <= HOSTILE_SECONDS * slowness() else f"{seconds:.2f} seconds"
            yield f"{case}, memory", f"{came.kilobytes} KB" if child.takes_more(came, HOSTILE_KILOBYTES) else None


def parts(program, word="", count=IN_THE_GATE):
    """The parts of these tests: a name, and what gives the name of each case and what is wrong with it, if anything is."""
    if told(program, "verify", "certify"):
        for field in map(int, FIELDS):
            yield f"certificates over {field}", lambda field=field: certificates(Child(program), field)
        yield "certify, refusals", lambda: refusals(Child(program))
        yield "edited logs", lambda: edits(Child(program), count)
    yield "show/verify.py", verifier_runs


def timed_parts(program, word=""):
    """The part that measures time and memory, and is to run alone."""
    if told(program, "verify"):
        yield "texts of 64 MiB", lambda: hostile(Child(program))


def row_faults(program):
    """What is wrong with the rows of logs, which `tests/program` has itself."""
    child = Child(program)
    for name, words, given, status, text in rows.log.ROWS:
        yield name, fault_of(child, words, given, status, text)


def main():
    reader = argparse.ArgumentParser(description=__doc__, formatter_class=argparse.RawDescriptionHelpFormatter)
    reader.add_argument("program")
    reader.add_argument("--edits", type=int, default=EDITS)
    settings = reader.parse_args()
    tried = ("rows", lambda: row_faults(settings.program)), *parts(settings.program, count=settings.edits)
    return tell_all(faults_of(tried, timed_parts(settings.program)))


if __name__ == "__main__":
    sys.exit(main())
