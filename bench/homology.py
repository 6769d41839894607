#!/usr/bin/env python3
"""Measures `kh homology` against another program, side by side, on closed braids of 11 to 16 crossings.

    bench/homology.py [RUNS] [--workers N] OTHER

OTHER is a program that reads a planar diagram text and writes the same lines; it is given `--field` and a field (`bench/all.py` says
which one there is). Runs of the two are alternated, over 2 and over 3 elements. For each diagram it prints the least user times, their
ratio, the least wall times, the most memory of `kh` and whether both write the same but for the first line; at the end the trefoil against
`true`. Build the program first, by `./build`. The gate does not run it.
"""
from braids import braids, planar_diagram
from measuring import PROGRAM, TREFOIL, in_turns, is_same, reader, run

LEAST_CROSSINGS = 11


def main(arguments):
    words = ["--workers", str(arguments.workers)] if arguments.workers > 1 else []
    for name, strands, letters in braids():
        if len(letters) < LEAST_CROSSINGS or arguments.only not in name:
            continue
        text = planar_diagram(strands, letters)
        for field in ("2", "3"):
            calls = ([PROGRAM, "homology", "--field", field, *words], text), ([arguments.other, "--field", field], text)
            (wrote, mine, wall, memory), (others_wrote, other, *_) = in_turns(calls, arguments.runs)
            same = "same" if is_same(wrote, others_wrote) else "DIFFERENT"
            ratio = f"{mine:.3f} s, other {other:.3f} s, ratio {mine / max(other, 0.001):.2f}"
            print(f"{name} over {field}: {ratio}, wall {wall:.3f} s, {memory:.0f} MB, {same}", flush=True)
    trefoil, nothing = (min(run(words, TREFOIL).wall for _ in range(200)) for words in ([PROGRAM, "homology"], ["true"]))
    print(f"trefoil: {trefoil * 1000:.2f} ms, true {nothing * 1000:.2f} ms, ratio {trefoil / nothing:.2f}")


if __name__ == "__main__":
    parser = reader(__doc__, 3, workers=1, only="")
    parser.add_argument("other")
    main(parser.parse_intermixed_args())
