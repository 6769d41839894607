#!/usr/bin/env python3
"""Measures the figures that this repository holds itself to, prints them as a table, and writes `bench/RESULTS.md`.

    bench/all.py [RUNS] [--program PATH] [--only WORD] [--no-results] [OTHER]

OTHER, or `KH_BASELINE`, is what `kh` is measured against: an unverified C++ program that builds the same cube block by block, and
cancels each block by columns and rows. It is no part of this repository. Whatever stands in for it reads a planar
diagram text on standard input, with these words, and writes to standard output:

    [--field P]           what `kh homology` writes, but for its first line: `field P`, the rows, the Jones line; or the line of the limit
    --field P --stats     the same, and on standard error `states SECONDSs build SECONDSs`, which `bench/cube.py` explains
    --enum                something, once it has gone through all states

Runs of the two are alternated and the least of some runs is taken, so that what else the machine does falls on both; wall times and what
several workers do tell something on idle cores alone, so the load is written along. Times are user and system time but where wall time
is said. With a word only the figures whose names have it are taken, and no results are written. Build the program first, by `./build`.
The gate does not run it.

The diagrams are the closed braids of `braids.txt` and those of 17 and 20 crossings below. A generator's time is that of the run by the
number of generators.
"""
import datetime
import os
import shutil
import statistics
import subprocess
import sys

import kh
from braids import braids, planar_diagram
from measuring import PROGRAM, TOP, in_turns, is_same, reader, run

RESULTS = os.path.join(TOP, "bench", "RESULTS.md")
OTHERS = "## By other scripts"
THE_OTHER = """\
*The other* is an unverified C++ program that builds the same cube block by block, and cancels each block by columns and rows. (One worker
of `kh` reduces columns.) It is no part of this repository; what it has to read and to write is said at the head of `bench/all.py`.
"""
LARGEST = 10
LEAST_CROSSINGS = 11

# Closed braids of 17 crossings within the limit on generators: strands and letters.
SEVENTEEN = [
    (3, [1, -2] * 8 + [1]),
    (3, [1, 2] * 8 + [1]),
    (4, [1, 3, -2, 1, 3, -2, 1, -2, 3, -2, 1, -2, 3, 1, -2, 3, -2]),
    (5, [1, 2, 3, 4] * 4 + [1]),
    (6, [1, 2, 3, 4, 5, 1, 2, 3, 4, 5, 1, 2, 3, 4, 5, 1, 2]),
]
FOURTEEN = [(3, [1, -2] * 7), (4, [1, -2, 3, -2, 1, -2, 3, -2, 1, -2, 3, -2, 1, -2]), (3, [1, 2] * 7)]
TWENTY = [(3, [1, -2] * 10), (5, [1, 2, 3, 4] * 5), (6, [1, -2, 3, -4, 5] * 4), (2, [1] * 20)]


class Bench:
    """The two programs, how often each is run, and the figures so far."""

    def __init__(self, arguments):
        self.program, self.other, self.runs = os.path.abspath(arguments.program), arguments.other, arguments.runs
        self.rows = []

    def mine(self, words, text):
        return run([self.program, *words], text)

    def both(self, words, other_words, text):
        """The least times of both, alternated, and whether both write the same table and polynomial."""
        calls = ([self.program, *words], text), ([self.other, *other_words], text)
        (wrote, mine, *_), (others_wrote, other, *_) = in_turns(calls, self.runs)
        return mine, other, is_same(wrote, others_wrote)

    def note(self, work, found, wanted, fits):
        self.rows.append((work, found, wanted, "yes" if fits else "no"))
        print(f"{work}: {found}; wanted {wanted}: {'yes' if fits else 'NO'}", flush=True)


def generators(bench, text):
    """How many generators a diagram of 14 crossings or more has: eight loops more take it beyond the limit, whose line has the number."""
    wrote = bench.mine(["homology"], text[:-1] + ",Loop[1]" * 8 + "]").wrote.split()
    return int(wrote[2]) >> 8


def homology(bench):
    """One worker, over two and three elements, from 11 crossings on."""
    ratios, differ = [], 0
    for name, strands, letters in braids():
        if len(letters) >= LEAST_CROSSINGS:
            for field in "23":
                words = ["--field", field]
                mine, other, same = bench.both(["homology", *words], words, planar_diagram(strands, letters))
                differ += not same
                if other >= 0.02:  # (below, the clock's ticks are all that is seen)
                    ratios.append(mine / other)
                print(f"  {name} over {field}: {mine:.3f} s, other {other:.3f} s, {mine / max(other, 0.001):.2f}", flush=True)
    middle, worst = statistics.median(ratios), max(ratios)
    bench.note("homology, one worker: times of the other, median", f"{middle:.2f}", "1.1", middle <= 1.1)
    bench.note("homology, one worker: worst", f"{worst:.2f}", "1.4", worst <= 1.4)
    bench.note("homology, one worker: other answers", differ, "0", differ == 0)


def seventeen(bench):
    """17 crossings, and a generator's time there and at 14 crossings."""
    ratios, each = [], {}
    for braid in SEVENTEEN + FOURTEEN:
        text, count = planar_diagram(*braid), len(braid[1])
        mine, other, same = bench.both(["homology"], [], text)
        each.setdefault(count, []).append(mine / generators(bench, text))
        if count == 17:
            ratios.append(mine / other)
        print(f"  {count} crossings on {braid[0]} strands: {mine:.3f} s, other {other:.3f} s, {'same' if same else 'OTHER'}", flush=True)
    worst = max(ratios)
    bench.note("homology, 17 crossings: times of the other, worst", f"{worst:.2f}", "1.4", worst <= 1.4)
    growth = statistics.median(each[17]) / statistics.median(each[14])
    bench.note("a generator at 17 crossings: times one at 14", f"{growth:.2f}", "1.3", growth <= 1.3)


def building(bench):
    """Columns and rows of all blocks, as bench/cube.py takes it."""
    if not (shutil.which("gdb") and shutil.which("nm")):
        bench.note("building all blocks", "not measured, for want of gdb or nm", "2", False)
        return
    words = [sys.executable, os.path.join(TOP, "bench", "cube.py"), str(bench.runs), "--program", bench.program, bench.other]
    done = subprocess.run(words, capture_output=True, text=True)
    last = (done.stdout or done.stderr or "nothing").strip().splitlines()[-1]
    ratio = float(last.split()[2].rstrip(",")) if last.startswith("greatest ratio") else None
    bench.note("building all blocks: times of the other, worst", ratio or last[:80], "2", ratio is not None and ratio <= 2)


def jones(bench):
    """All states of 20 crossings, against the other's way through them."""
    ratios = []
    for braid in TWENTY:
        mine, other, _ = bench.both(["jones"], ["--enum"], planar_diagram(*braid))
        ratios.append(mine / max(other, 0.001))
        print(f"  jones, 20 crossings on {braid[0]} strands: {mine:.3f} s, other {other:.3f} s", flush=True)
    bench.note("jones, 20 crossings: times of the other, worst", f"{max(ratios):.2f}", "0.2", max(ratios) <= 0.2)


def limit(bench):
    """The line of the limit at 20 crossings, its time and memory."""
    ratios, memory = [], 0
    for braid in TWENTY:
        text = planar_diagram(*braid)
        mine, other, _ = bench.both(["homology"], [], text)
        ratios.append(mine / max(other, 0.001))
        memory = max(memory, bench.mine(["homology"], text).memory)
    bench.note("limit generators, 20 crossings: times of the other, worst", f"{max(ratios):.2f}", "1", max(ratios) <= 1)
    bench.note("limit generators, 20 crossings: memory", f"{memory:.0f} MB", "20 MB", memory <= 20)


def workers(bench):
    """Four workers against one, on the ten largest braids."""
    texts = [(name, planar_diagram(strands, letters)) for name, strands, letters in braids() if len(letters) >= 13]
    timed = sorted(((bench.mine(["homology"], text).seconds, name, text) for name, text in texts), reverse=True)[:LARGEST]
    wall, user, memory = [], [], {1: 0, 4: 0}
    for _, name, text in timed:
        calls = [([bench.program, "homology", *words], text) for words in ((), ("--workers", "4"))]
        (_, one, one_wall, one_most), (_, four, four_wall, four_most) = in_turns(calls, bench.runs)
        wall.append(one_wall / four_wall)
        user.append(four / one)
        memory = {1: max(memory[1], one_most), 4: max(memory[4], four_most)}
        print(f"  {name}: 4 workers {wall[-1]:.2f} times faster, user time {user[-1]:.2f} times", flush=True)
    bench.note("4 workers, wall: times faster than 1, least of the ten largest", f"{min(wall):.2f}", "2.5", min(wall) >= 2.5)
    bench.note("4 workers, user time: times that of 1, worst", f"{max(user):.2f}", "1.3", max(user) <= 1.3)
    bench.note("memory at the limit, one worker", f"{memory[1]:.0f} MB", "350 MB", memory[1] <= 350)
    bench.note("memory at the limit, four workers", f"{memory[4]:.0f} MB", "700 MB", memory[4] <= 700)


def small(bench):
    """Acceptance, faces and pieces of 20 crossings, as a whole process, against `true`."""
    nothing = min(run(["true"]).wall for _ in range(200))
    ratio = min(bench.mine(["check"], planar_diagram(*TWENTY[0])).wall for _ in range(200)) / nothing
    bench.note("check of 20 crossings, whole process, wall: times `true`", f"{ratio:.2f}", "3", ratio <= 3)


def of_other_scripts():
    """What the page has of other scripts, which is written there by hand and stays."""
    with open(RESULTS, encoding="utf-8") as file:
        return "".join(file.read().partition(f"\n{OTHERS}\n")[1:])


def results(bench, began):
    """The table as a page."""
    lines = [
        "# Results",
        "",
        f"`bench/all.py {bench.runs}` of version {kh.__version__}, {datetime.date.today()}; {os.cpu_count()} processors, load {began} before",
        f"and {os.getloadavg()[0]:.1f} after. What is measured is said at the head of `bench/all.py`.",
        "",
        THE_OTHER,
        "| Work | Found | Wanted | Met |",
        "|---|---|---|---|",
        *(f"| {' | '.join(map(str, row))} |" for row in bench.rows),
    ]
    others = of_other_scripts()
    with open(RESULTS, "w", encoding="utf-8") as file:
        file.write("\n".join(lines) + "\n" + others)


PARTS = (homology, seventeen, building, jones, limit, workers, small)


def main(arguments):
    if not arguments.other:
        sys.exit(__doc__)
    bench, began = Bench(arguments), f"{os.getloadavg()[0]:.1f}"
    for part in PARTS:
        if arguments.only in part.__name__:
            part(bench)
    if not (arguments.only or arguments.no_results):
        results(bench, began)


if __name__ == "__main__":
    parser = reader(__doc__, 3, program=PROGRAM, only="")
    parser.add_argument("other", nargs="?", default=os.environ.get("KH_BASELINE"))
    parser.add_argument("--no-results", action="store_true")
    main(parser.parse_intermixed_args())
