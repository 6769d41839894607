#!/usr/bin/env python3
"""Runs the program on texts that are cut off at each byte, at the limits of bytes and lines, and on long schedules.

    tests/cut_texts.py PROGRAM

What a trefoil's planar diagram and Gauss code come to, cut to each length, was worked out by hand; of the inputs of all commands in
`faulty/cases.py` each beginning is compared with the plain readings. `tests/program` runs these cases behind its rows. The last line is
'N passed, M failed'.
"""
import sys

import faulty.cases
import plain.answers
import plain.words
from rows.texts import EMPTY_TABLE, FIGURE_EIGHT, FIGURE_EIGHT_TABLE, TREFOIL, TREFOIL_IN_GAUSS, TREFOIL_TABLE
from shared.pool import tell_parts
from shared.running import Child, fault_of, known_commands

LONGEST = 260


def cut_trefoil(size):
    """The line of the trefoil's text cut to so many bytes: the word `P` is none that can stand there, else the end comes too early."""
    return f"refused text at {0 if size == 1 else size}"


def cut_gauss(size):
    """The line of the Gauss code cut to so many bytes."""
    if size <= 8:
        return "refused text at 0"
    if size in (11, 18, 25, 38, 42, 46):
        return f"refused text at {size - 1}"
    if size in (30, 31):
        return "refused no signs"
    return f"refused text at {31 if 32 <= size <= 35 else size}"


def cuts(child):
    """The trefoil's texts, cut to each length."""
    for name, text, line in (("a trefoil", TREFOIL, cut_trefoil), ("a Gauss code", TREFOIL_IN_GAUSS, cut_gauss)):
        for size in range(len(text)):
            yield f"{name} cut to {size} bytes", fault_of(child, ["homology"], text[:size], 1, line(size) + "\n")


def limits(child):
    """As many bytes and lines as there may be, and one more; by each command that reads."""
    for size, status, wrote in ((65_536, 0, TREFOIL_TABLE), (65_537, 6, "limit bytes 65537 of 65536\n")):
        yield f"{size} bytes", fault_of(child, ["homology"], TREFOIL.ljust(size), status, wrote)
    for command in ("jones", "check", "convert", "edit", "schedule"):
        yield f"{command}, too many bytes", fault_of(child, [command], "x" * 65_537, 6, "limit bytes 65537 of 65536\n")
    for command in ("edit", "schedule"):
        yield f"{command}, 4,097 line feeds", fault_of(child, [command], "PD[];" + "\n" * 4_097, 6, "limit lines 4097 of 4096\n")
        wrote = EMPTY_TABLE if command == "schedule" else ""
        yield f"{command}, 4,096 line feeds", fault_of(child, [command], "PD[];" + "\n" * 4_096, 0, wrote)
        yield f"{command}, worker 65", fault_of(child, [command], "PD[];look 65 0", 1, "refused line 1\n")


def schedules(child):
    """Thousands of idle commits; 64 workers that look at one block and commit to it, of whom the first alone does."""
    idle = "".join(f"{number} idle\n" for number in range(1, 4_097))
    yield "schedule, 4,096 idle commits", fault_of(child, ["schedule"], "PD[];" + "commit 1\n" * 4_096, 0, idle + EMPTY_TABLE)
    for first in (1, 2, 33, 64):
        workers = [(first + at - 1) % 64 + 1 for at in range(64)]
        script = "".join(f"look {it} -1\n" for it in range(1, 65)) + "".join(f"commit {it}\n" for it in workers)
        looked = "".join(f"{line} looked 0\n" for line in range(1, 65))
        stale = "".join(f"{line} stale 0 1\n" for line in range(66, 129))
        wanted = looked + "65 committed 1\n" + stale + FIGURE_EIGHT_TABLE
        yield "schedule, 64 workers at one block", fault_of(child, ["schedule"], f"{FIGURE_EIGHT};{script}", 0, wanted)


def beginnings(child):
    """Each beginning of each short input, by its command, as the plain readings answer it."""
    commands = known_commands(child.program)
    for case in faulty.cases.known(commands):
        for size in range(len(case.given) if len(case.given) <= LONGEST else 0):
            given = case.given[:size]
            wanted = plain.answers.answer(case.words, given, commands, plain.words.OPTIONS)
            came = child.run(case.words, given)
            fault = came.shape_fault() or wanted.fault(came.status, came.wrote)
            yield f"{case.name} cut to {size} bytes", f"{fault} on {given!r}" if fault else None


def parts(program, word=""):
    """The parts of these tests: a name, and what gives the name of each case and what is wrong with it, if anything is."""
    for group in (cuts, limits, schedules, beginnings):
        yield f"cut texts, {group.__name__}", lambda group=group: group(Child(program))


if __name__ == "__main__":
    sys.exit(tell_parts(parts, __doc__))
