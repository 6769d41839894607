#!/usr/bin/env python3
"""Measures `kh homology` with several workers against one, on the ten largest closed braids.

    bench/workers.py [RUNS] [--workers N]

Some runs with one worker are followed by as many with N workers (4 at first). For each diagram it prints the least wall and user times of
both (the system's part is in the user times), how many times faster N workers are, and the ratio of user times; and for comparison,
since a machine's cores share its memory, what N separate runs with one worker come to at once: how many times faster they are than one
after another, and their ratio of user times. Then a trefoil with 64 workers against one. On idle cores alone the wall times tell
something; the load is printed. Build the program first, by `./build`. The gate does not run it.
"""
import os
import subprocess
import tempfile
import time

from braids import braids, planar_diagram
from measuring import PROGRAM, TREFOIL, in_turns, reader, run

LARGEST = 10


def at_once(text, copies):
    """The wall time of so many runs with one worker at once, and the user time of each of them, in seconds."""
    with tempfile.NamedTemporaryFile("w", suffix=".pd") as given:
        given.write(text)
        given.flush()
        start = time.monotonic()
        programs = []
        for _ in range(copies):
            with open(given.name, encoding="utf-8") as source:
                programs.append(subprocess.Popen([PROGRAM, "homology"], stdin=source, stdout=subprocess.DEVNULL))
        used = [os.wait4(program.pid, 0)[2] for program in programs]
        for program in programs:
            program.returncode = 0
        return time.monotonic() - start, sum(u.ru_utime + u.ru_stime for u in used) / copies


def main(arguments):
    print("load", os.getloadavg())
    texts = [(name, planar_diagram(strands, letters)) for name, strands, letters in braids() if len(letters) >= 13]
    timed = [(run([PROGRAM, "homology"], text).seconds, name, text) for name, text in texts]
    many = ["--workers", str(arguments.workers)]
    for _, name, text in sorted(timed, reverse=True)[:LARGEST]:
        (wrote, user_one, wall_one, memory_one), = in_turns([([PROGRAM, "homology"], text)], arguments.runs)
        (wrote_too, user, wall, memory), = in_turns([([PROGRAM, "homology", *many], text)], arguments.runs)
        line = (
            f"{name}: 1 worker {wall_one:.2f} s wall {user_one:.2f} s user {memory_one:.0f} MB, {arguments.workers} workers"
            f" {wall:.2f} s wall {user:.2f} s user {memory:.0f} MB, {wall_one / wall:.2f} times faster, user ratio {user / user_one:.2f},"
            f" {'same' if wrote == wrote_too else 'DIFFERENT'}"
        )
        wall_copies, user_copies = at_once(text, arguments.workers)
        faster, ratio = arguments.workers * wall_one / wall_copies, user_copies / user_one
        print(f"{line}, {arguments.workers} runs at once {faster:.2f} times faster, user ratio {ratio:.2f}", flush=True)
    walls = [min(run([PROGRAM, "homology", "--workers", w], TREFOIL).wall for _ in range(100)) for w in ("64", "1")]
    print(f"trefoil: 64 workers {walls[0] * 1000:.2f} ms, 1 worker {walls[1] * 1000:.2f} ms, ratio {walls[0] / walls[1]:.2f}")


if __name__ == "__main__":
    main(reader(__doc__, 3, workers=4).parse_args())
