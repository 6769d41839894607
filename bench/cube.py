#!/usr/bin/env python3
"""Measures how long `kh homology` builds the blocks of a cube against another program that builds them, on the closed braids of 16
crossings.

    bench/cube.py [RUNS] [--only WORD] [--field P] [--program PATH] OTHER

The wanted limit: at most twice the other's time, on each diagram. `kh` has no command that only builds, so its functions that build
(those of `cube_signs`: circles, edges, generators and columns of all blocks; one worker makes no rows, where the other may) are timed in
whole runs, with one worker. gdb stops the run where they are called and where they return, and adds up the processor time of its thread in
between; allocation, page faults and all that these functions call count, cancelling and the release of a block do not. Calls that the
compiler has put inline can not be timed: where a block has no call of its own, the script ends with an error.

OTHER is a program (`bench/all.py` says which one there is) that reads a planar diagram text, is given `--field` and a field and
`--stats`, and tells of itself `states SECONDSs build SECONDSs` on its error output: the time for the circles of all states, and the
processor time for columns of all blocks, and for their rows, if it makes some. Both build a block, cancel it and go on to the next. Runs
of the two are alternated, and the least of each is taken. For each diagram it prints the two times, their ratio, and what part of the run
of `kh` it is; at the end the greatest ratio. It wants gdb with Python, and nm. Build the program first, by `./build`. The gate does not
run it.
"""
import json
import os
import re
import subprocess
import sys
import tempfile

from braids import braids, planar_diagram
from measuring import PROGRAM, reader, run

HERE = os.path.dirname(os.path.abspath(__file__))
CROSSINGS = 16
LIMIT = 2
TOLD = re.compile(r"states ([0-9.]+)s build ([0-9.]+)s")


def calls_of(calls, part):
    return sum(count for name, count in calls.items() if part in name)


def timed_blocks(calls):
    """How many blocks have been timed, 0 where a part of the building has no call of its own."""
    if not calls_of(calls, "Cube::new"):
        return 0
    return calls_of(calls, "Cube::opening_block") or calls_of(calls, "Cube::parts")


def building(program, words, text):
    """The seconds that a run builds, and how many blocks."""
    with tempfile.NamedTemporaryFile("w") as given, tempfile.NamedTemporaryFile("r") as measured:
        given.write(text)
        given.flush()
        files = {"PROGRAM": program, "WORDS": " ".join(words), "GIVEN": given.name, "MEASURED": measured.name}
        script = os.path.join(HERE, "building_time.py")
        debugger = ["gdb", "-nx", "-q", "-batch", "-x", script, program]
        done = subprocess.run(debugger, env={**os.environ, **files}, capture_output=True, text=True)
        result = json.loads(measured.read() or "{}")
    blocks = timed_blocks(result.get("calls", {}))
    if not blocks:
        sys.exit(f"the building of {program} can not be timed: {result.get('calls', {})}\n{done.stderr}")
    return result["nanoseconds"] / 1e9, blocks


def others_building(other, field, text):
    """The seconds that the other program says it builds."""
    done = subprocess.run([other, "--field", field, "--stats"], input=text, capture_output=True, text=True)
    told = TOLD.search(done.stderr)
    if not told:
        sys.exit(f"{other} does not tell its times: {done.stderr}")
    return float(told.group(1)) + float(told.group(2))


def main(arguments):
    words, greatest = ["homology", "--field", arguments.field], 0
    for name, strands, letters in braids():
        if len(letters) != CROSSINGS or arguments.only not in name:
            continue
        text = planar_diagram(strands, letters)
        mine, others, all_of_it = [], [], []
        for _ in range(arguments.runs):
            mine.append(building(arguments.program, words, text))
            others.append(others_building(arguments.other, arguments.field, text))
            all_of_it.append(run([arguments.program, *words], text).seconds)
        (seconds, blocks), other = min(mine), min(others)
        greatest = max(greatest, seconds / other)
        print(
            f"{name} over {arguments.field}: {blocks} blocks in {seconds:.3f} s, other {other:.3f} s, ratio {seconds / other:.2f},"
            f" {100 * seconds / min(all_of_it):.0f} % of a run",
            flush=True,
        )
    print(f"greatest ratio {greatest:.2f}, wanted at most {LIMIT}")


if __name__ == "__main__":
    parser = reader(__doc__, 3, only="", field="2", program=PROGRAM)
    parser.add_argument("other")
    main(parser.parse_intermixed_args())
