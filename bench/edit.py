#!/usr/bin/env python3
"""Measures `kh edit`: 4,096 lines on a diagram of 20 crossings, which is the most that a script can have.

    bench/edit.py [RUNS]

The diagram is a closed braid of 20 crossings; the lines are slides to and fro, undos and redos, and both by turns.
It prints the least wall and processor time of the whole process beside those of `true`, and at its end the worst difference of both, as
a part of 30 ms; wall time tells something on an idle machine alone. Build the program first, by `./build`. The gate does not run it.
"""
import os

from braids import planar_diagram
from measuring import PROGRAM, in_turns, reader, run

LINES, ALLOWED = 4_096, 0.030
STRANDS, LETTERS = 4, [1, 2, 1, -3] * 5


def slides(text):
    """The names of three crossings that can be slid over one another."""
    names = [f"r3 {a} {b} {c}" for a in range(1, 21) for b in range(1, 21) for c in range(1, 21) if len({a, b, c}) == 3]
    for line in names:
        if run([PROGRAM, "edit"], f"{text};{line}\n{line}\n").status == 0:
            return line
    raise SystemExit("no triangle")


def scripts(text):
    """Scripts of 4,096 lines, by their names."""
    line = slides(text)
    yield "slides", [line] * LINES
    yield "undos and redos", [line, *["undo", "redo"] * (LINES // 2)][:LINES]
    yield "slides, undos and redos", [line, "undo", "redo", line] * (LINES // 4)


def main(arguments):
    print("load", os.getloadavg())
    text = planar_diagram(STRANDS, LETTERS)
    (_, empty_used, empty_wall, _), = in_turns([(["true"], "")], arguments.runs)
    print(f"true: {empty_wall * 1e3:.2f} ms wall, {empty_used * 1e3:.2f} ms of a processor")
    most, worst = 0, 0
    for name, lines in scripts(text):
        (_, used, wall, _), = in_turns([([PROGRAM, "edit"], text + ";" + "".join(f"{it}\n" for it in lines))], arguments.runs)
        most, worst = max(most, wall - empty_wall), max(worst, used - empty_used)
        print(f"{name}: {wall * 1e3:.2f} ms wall, {used * 1e3:.2f} ms of a processor, {(used - empty_used) / LINES * 1e6:.2f} us a line")
    print(f"beyond true, as parts of {ALLOWED * 1e3:.0f} ms: {most / ALLOWED:.2f} wall, {worst / ALLOWED:.2f} of a processor")


if __name__ == "__main__":
    main(reader(__doc__, 20).parse_args())
