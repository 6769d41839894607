"""The rows of `bench` of `tests/program`: a name, words, an input, the status, what is written.

What it writes of many numbers is in `numbers.txt`.
"""
from rows.texts import CHECK, TREFOIL, TREFOIL_COUNTS, USAGE

BENCH = ["bench", "--number"]
BENCH_OF_ZERO = """\
bench 0
crossings 10 loops 1 generators 118104
dimension 40
jones 1*q^7 2*q^9 2*q^11 1*q^13 1*q^29 1*q^31
"""

ROWS = [
    ("the bench by one worker", BENCH + ["0", "--workers", "1"], "", 0, BENCH_OF_ZERO),
    ("the bench by four workers", BENCH + ["0", "--workers", "4"], TREFOIL, 0, BENCH_OF_ZERO),
    ("the bench of seven digits", BENCH + ["0000000"], ";", 0, BENCH_OF_ZERO),
    ("the bench of a number in the option's word", ["--number=0", "bench"], "", 0, BENCH_OF_ZERO),
    ("the bench of a number that no diagram has", BENCH + ["1048576"], "", 6, "limit number 1048576 of 1048575\n"),
    ("the bench of the greatest number of seven digits", BENCH + ["9999999"], "", 6, "limit number 9999999 of 1048575\n"),
    ("the bench without a number", ["bench"], "", 2, USAGE),
    ("the bench of eight digits", BENCH + ["00000000"], "", 2, USAGE),
    ("the bench of an empty number", BENCH + [""], "", 2, USAGE),
    ("the bench of a number with a sign", BENCH + ["+1"], "", 2, USAGE),
    ("the bench of two numbers", BENCH + ["1", "--number", "1"], "", 2, USAGE),
    ("the bench over four elements", BENCH + ["1048576", "--field", "4"], "", 2, USAGE),
    ("a number that a command does not need", CHECK + ["--number", "7"], TREFOIL, 0, TREFOIL_COUNTS),
]
