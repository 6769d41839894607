#!/usr/bin/env python3
"""Measures `kh certify` and `kh verify` against `kh homology`, and what `verify` takes of 64 MiB that are no log.

    bench/certify.py [RUNS] [--program PATH]

On the ten largest diagrams of `braids.txt` runs of `homology`, of `certify`, and of `verify` on the log that `certify` wrote, over three
elements by one worker, take turns, so that whatever else the machine does falls on all three. It prints for each diagram the size of the
log, and the ratios of the least user and system times and of the most memory; then the user and system time of `verify` on 64 MiB of
several kinds, the worst of its runs; and that of `show/verify.py` on the log of a diagram of 11 crossings. The last lines are rows of
`bench/RESULTS.md`, which are put there by hand. Build the program first, by `./build`. The gate does not run it.
"""
import os
import sys

from braids import braids, planar_diagram
from measuring import PROGRAM, TOP, in_turns, reader, run
from reduced import THREE, largest

LOG_BYTES = 67_108_864
ELEVEN = 11
CURL = "log 1\nPD[X[1, 1, 2, 2]]\nfield 2\nblock -1\nblock 1\ncancel 0 0 0\nblock 3\ncancel 0 0 0\n"
CURL += "table 2\nfield 2\nj -1 i 0 dim 1\nj 1 i 0 dim 1\n"
HEADS = {"": "", " behind a block": CURL[: CURL.index("block 1")], " behind a good log": CURL}
FILLERS = {"one line": "x", "line feeds": "\n", "digits": "7", "spaces": " ", "cancellations": "cancel 0 0 0\n", "blocks": "block -1\n"}


class Figures:
    """Figures as rows of a table: the work, what was found, what is wanted, and whether that is met."""

    def __init__(self):
        self.rows = []

    def note(self, work, found, most, unit=""):
        shown = f"{found:.2f}{unit}"
        self.rows.append(f"| {work} | {shown} | {most}{unit} | {'yes' if found <= most else 'no'} |")

    def tell(self):
        print("\n".join(["", "| Work, script | Found | Wanted | Met |", "|---|---|---|---|", *self.rows]))


def turns(program, text, log, runs):
    """The least times and the most memory of each command, in turns."""
    calls = {command: ([program, command, *THREE], text) for command in ("homology", "certify")}
    calls["verify"] = [program, "verify"], log  # (a log tells its field)
    return {command: (seconds, memory) for command, (_, seconds, _, memory) in zip(calls, in_turns(calls.values(), runs))}


def against_homology(program, runs, figures):
    worst = {(command, at): 0 for command in ("certify", "verify") for at in (0, 1)}
    for name, text in largest():
        log = run([program, "certify", *THREE], text).wrote
        found = turns(program, text, log, runs)
        for command, at in worst:
            worst[command, at] = max(worst[command, at], found[command][at] / found["homology"][at])
        ratios = ", ".join(f"{it} {found[it][0]:.2f} s and {found[it][1]:.0f} MB" for it in found)
        print(f"{name}: a log of {len(log):,} bytes; {ratios}", flush=True)
        if not run([program, "verify"], log).wrote.startswith("verified\n"):
            print(f"{name}: NOT VERIFIED")
    for (command, at), ratio in worst.items():
        what = ("time", "memory")[at]
        figures.note(f"`{command}`, {what}: times `homology`, worst of the ten largest (`certify.py {runs}`)", ratio, 1.5)


def hostile(program, runs, figures):
    slowest = 0
    for head, begin in HEADS.items():
        for name, filler in FILLERS.items():
            text = begin + filler * ((LOG_BYTES - len(begin)) // len(filler))
            wrote, took, _, memory, *_ = max((run([program, "verify"], text) for _ in range(runs)), key=lambda it: it.seconds)
            slowest = max(slowest, took)
            print(f"64 MiB of {name}{head}: {took:.2f} s, {memory:.0f} MB, {wrote.strip()[:60]}", flush=True)
    figures.note("`verify` of 64 MiB that are no log, worst", slowest, 1, " s")


def second_verifier(program, figures):
    strands, letters = next((strands, letters) for _, strands, letters in braids() if len(letters) == ELEVEN)
    log = run([program, "certify"], planar_diagram(strands, letters)).wrote
    wrote, took, *_ = run([sys.executable, os.path.join(TOP, "show", "verify.py")], log)
    print(f"show/verify.py: {len(log):,} bytes of {ELEVEN} crossings, {wrote[:9].strip()}")
    figures.note(f"`show/verify.py` on a log of {ELEVEN} crossings", took, 10, " s")


def main(program, runs):
    figures = Figures()
    against_homology(program, runs, figures)
    hostile(program, runs, figures)
    second_verifier(program, figures)
    figures.tell()


if __name__ == "__main__":
    given = reader(__doc__, 2, program=PROGRAM).parse_args()
    main(given.program, given.runs)
