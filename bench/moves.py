#!/usr/bin/env python3
"""Measures the moves of `kh edit` on diagrams of 18 to 20 crossings against the same moves on plain arrays.

    bench/moves.py [RUNS] [--program PATH]

The wanted limit: at most 20 microseconds a move. A script of 4,090 lines, rounds of a finger, two kinks and four slides, all of which
are taken back, is run on a closed braid of 18 crossings, and beside it `kh check` on the same braid, which reads the diagram alike; the
difference of the least times, by the number of lines, is that of a move and of the line that is written of it. `bench/moves.cc`, which
is compiled for this, carries out the same script many times, and tells what a move took. It prints both and their ratio, and whether
both end with the same diagram. Build the program first, by `./build`. It needs a C++ compiler (`CXX`, else c++). The gate does not run
it.
"""
import os
import subprocess
import tempfile

from braids import planar_diagram
from measuring import PROGRAM, in_turns, reader

HERE = os.path.dirname(os.path.abspath(__file__))
STRANDS, LETTERS = 3, [1, 2] * 9
SLIDES = ["r3 8 9 10"] * 2
ROUND = ["r2 add 1 right 14 right", *SLIDES, "r2 drop 19 20", "r1 add 1 under plus", "r1 add 5 over minus", *SLIDES]
ROUND += ["r1 drop 20", "r1 drop 19"]
ROUNDS, TIMES = 409, 100
LIMIT = 20


def plain(text):
    """What the same moves leave on plain arrays, and the microseconds of one."""
    with tempfile.TemporaryDirectory() as folder:
        program = os.path.join(folder, "moves")
        compiler = os.environ.get("CXX", "c++")
        subprocess.run([compiler, "-O3", "-march=native", "-o", program, os.path.join(HERE, "moves.cc")], check=True)
        wrote = subprocess.run([program, str(TIMES)], input=text, capture_output=True, text=True, check=True).stdout
    diagram, took = wrote.splitlines()
    return diagram, float(took.split()[1])


def main(arguments):
    print("load", os.getloadavg())
    braid = planar_diagram(STRANDS, LETTERS)
    lines = ROUND * ROUNDS
    text = braid + ";" + "\n".join(lines)
    other, plain_time = plain(text)
    calls = ([arguments.program, "edit"], text), ([arguments.program, "check"], braid)
    (edited, edits, *_), (_, checks, *_) = in_turns(calls, arguments.runs)
    wrote = edited.splitlines()
    if len(wrote) != len(lines):
        raise SystemExit(f"the script ends at line {len(wrote)}: {wrote[-1] if wrote else 'nothing'}")
    took = (edits - checks) * 1e6 / len(lines)
    last = wrote[-1].partition(" ")[2]
    same = "same" if last.replace(" ", "") == other.replace(" ", "") else "DIFFERENT"
    print(f"a move {took:.2f} us, plain arrays {plain_time:.2f} us, ratio {took / plain_time:.1f}, diagrams {same}")
    print(f"at most {LIMIT} us: {'yes' if took <= LIMIT else 'NO'}")


if __name__ == "__main__":
    main(reader(__doc__, 20, program=PROGRAM).parse_args())
