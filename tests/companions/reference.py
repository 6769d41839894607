"""Tries `reference/`: determinants and signatures are the published ones, and a part of the vectors is made anew.

`tests/program` runs these behind its rows, with the first of its programs, and with the program of scans beside it, if it is there.
"""
import json
import os
import tempfile
from collections import Counter

from rows.compare import ROWS
from shared.places import TOP, read_text, write_text
from shared.running import ended, help_fault
from shared.scanning import is_there, scan_of

MAKE = os.path.join(TOP, "reference", "make")
COMPARE = os.path.join(TOP, "reference", "compare")
VECTORS, LARGE_VECTORS = (os.path.join(TOP, "reference", name) for name in ("vectors.jsonl", "large.jsonl"))
FIELDS = (2, 3, 5, 7)
# The most bytes of the file of large links, and how many crossings these have.
MOST_BYTES, CROSSINGS = 1_000_000, range(14, 21)


def fault_of(*words):
    came = ended([MAKE, *words])
    return None if came == (0, "all are as stored\n", "") else str(came)


def compare_fault(words, given, status, said):
    """What is wrong with what is said of a table, if anything is."""
    found, *texts = ended([COMPARE, *words], given)
    return None if (found, "".join(texts)) == (status, said) else f"{found}, {texts} and not {(status, said)}"


# Answers of a program to 3_1, 4_1, 8_19 and the Hopf link over three elements, in all forms, and what is said of them.
TREFOIL = '{"name": "3_1", "field": 3, "rows": [[1, 0, 1], [3, 0, 1], [5, 2, 1], [9, 3, 1]]}'
EIGHT = '{"name": "4_1", "field": 3, "table_rows": "-5 -2 1; -1 -1 1; -1 0 1; 1 0 1; 1 1 1; 5 2 1"}'
LARGE = '{"name": "8_19", "field": 3, "table": "q^5 + q^7 + q^9 t^2 + q^11 t^4 + q^13 t^3 + q^13 t^4 + q^15 t^5 + q^17 t^5"}'
HOPF = '{"name": "Hopf", "field": 3, "rows": [[0, 0, 1], [2, 0, 1], [4, 2, 1], [6, 2, 1]]}'
FINE = [TREFOIL, EIGHT, LARGE, HOPF]
SHIFTED = '{"name": "3_1", "field": 3, "table": "q^3 + q^5 + q^7 t^2 + q^11 t^3"}'
WRONG = ["4_1 over 3: j -5 i -2: 2, and 1 in the reference", "8_19 over 3: j 15 i 5: 0, and 1 in the reference; and 1 row more"]
NEAREST = "nearest is the mirror image, with i and j negated:"
MIRRORED = [
    '{"name": "3_1", "field": 3, "table": {"0": {"-1": 1, "-3": 1}, "-2": {"-5": 1}, "-3": {"-9": 1}}}',
    '{"name": "4_1", "field": 3, "table": {"2": {"5": 1}, "1": {"1": 1}, "0": {"1": 1, "-1": 1}, "-1": {"-1": 1}, "-2": {"-5": 1}}}',
    '{"name": "Hopf", "field": 3, "table": {"0": {"0": 1, "-2": 1}, "-2": {"-4": 1, "-6": 1}}}',
]
COLLECTIONS = [
    ("all agree", FINE, 0, ["4 of 4 answers agree"]),
    ("the file's own first line", ['{"made by": "a program"}', *FINE], 0, ["4 of 4 answers agree"]),
    ("an answer less", FINE[1:], 1, ["3 of 3 answers agree", "1 link has no answer over 3: 3_1"]),
    ("one explained", [SHIFTED, *FINE[1:]], 1, ["3 of 4 answers agree", "1 answer (3_1 over 3): the same table, with j shifted by 2"]),
    ("two are other tables", [TREFOIL, EIGHT.replace("-2 1;", "-2 2;"), LARGE.replace(" + q^15 t^5 + q^17 t^5", ""), HOPF], 1,
     ["2 of 4 answers agree", "2 answers are other tables:", *(f"  {it}" for it in WRONG)]),
    (
        "exact in one way",
        MIRRORED,
        1,
        [
            "1 of 3 answers agree", "3 of 3 are exact in one way: it is the table of the mirror image: i and j are negated", "agree: 4_1",
            "mirrored: 3_1, Hopf", "1 link has no answer over 3: 8_19",
            "compare: pairs are read as i, j, as all tell in which it can be told",
        ],
    ),
    ("nearest in one way",
     [TREFOIL, EIGHT, LARGE, '{"name": "Hopf", "field": 3, "rows": [[0, 0, 1], [-2, 0, 1], [-4, -2, 1], [-6, -2, 2]]}'], 1,
     ["3 of 4 answers agree", "1 answer is another table:", f"  Hopf over 3: {NEAREST} j -6 i -2: yours 2, the mirrored reference 1"]),
    ("a program that wrote nothing", ['{"name": "3_1", "field": 3, "table": " "}', *FINE[1:]], 1,
     ["3 of 3 answers agree", "1 link has no answer, since the program wrote nothing: 3_1"]),
    ("another name", [TREFOIL.replace("3_1", "4_1"), TREFOIL, LARGE, HOPF], 1,
     ["3 of 4 answers agree", "1 answer (4_1 over 3): this is the table of 3_1"]),
    ("a reduced one", [*FINE, '{"name": "3_1", "field": 3, "reduced": true, "table": "q^2 + q^6 t^2 + q^8 t^3"}'], 1,
     ["5 of 5 answers agree", "3 links have no answer over 3, reduced: 4_1, 8_19 and Hopf"]),
    (
        "no answers",
        [*FINE, "nothing", '{"name": "3_1", "refusal": "limit generators 5 of 4"}', '{"name": "9_1", "rows": [[0, 0, 1]]}', '{"field": 3}'],
        1,
        [
            "4 of 4 answers agree", "3 answers are no tables:", "  line 5: it is no JSON", "  line 6, 3_1: limit generators 5 of 4",
            "  line 8: it has no name", "1 answer is of no link of the reference: 9_1",
        ],
    ),
]
# The same in a folder: files by their names.
FILES = {
    "3_1.3.txt": "q + q^3 + q^5 t^2 + q^9 t^3",
    "4_1.txt": "field 3\n-5 -2 1\n-1 -1 1\n-1 0 1\n1 0 1\n1 1 1\n5 2 1\n",
    "8_19.3": "q^5 + q^7 + q^9 t^2 + q^11 t^4 + q^13 t^3 + q^13 t^4 + q^15 t^5 + q^17 t^5",
    "Hopf.json": '{"field": 3, "rows": [[0, 0, 1], [2, 0, 1], [4, 2, 1], [6, 2, 1]]}',
}


def few_vectors(folder):
    """A file of vectors with the four links over three elements alone."""
    path = os.path.join(folder, "vectors")
    with open(path, "w", encoding="utf-8") as file:
        for it in lines_of_reference():
            if it["field"] == 3 and it["name"] in ("3_1", "4_1", "8_19", "Hopf"):
                file.write(json.dumps(it) + "\n")
    return path


def collection_faults():
    """The name of each case of many answers, and what is wrong, if anything is."""
    with tempfile.TemporaryDirectory() as folder:
        vectors, answers, files = few_vectors(folder), os.path.join(folder, "answers"), os.path.join(folder, "files")
        for name, lines, status, said in COLLECTIONS:
            write_text(answers, "".join(f"{line}\n" for line in lines))
            fault = compare_fault(["--all", answers, "--vectors", vectors], "", status, "".join(f"{it}\n" for it in said))
            yield f"reference/compare --all: {name}", fault
        os.mkdir(files)
        for name, text in FILES.items():
            write_text(os.path.join(files, name), text)
        yield "reference/compare --all: a folder", compare_fault(["--all", files, "--vectors", vectors], "", 0, "4 of 4 answers agree\n")
    whole = compare_fault(["--all", VECTORS], "", 0, "672 of 672 answers agree\n")
    yield "reference/compare --all: the reference itself", whole


def lines_of_reference(path=VECTORS):
    return [json.loads(line) for line in read_text(path).splitlines()[1:]]


def halved(rows):
    """The table whose double, one step of j up and one down, is that of these rows, by j and i; nothing where there is none."""
    left, half = {(j, i): dimension for j, i, dimension in rows}, {}
    for j, i in sorted(left):
        count = left[j, i]
        if count:
            half[j + 1, i] = count
            left[j + 2, i] = left.get((j + 2, i), 0) - count
        if count < 0 or left.get((j + 2, i), 0) < 0:
            return None
    return half


def two_strands(turns):
    """The reduced table of the torus link T(2, n) over two elements, by j and i: q^(n - 1) (1 + q^4 t^2 + .. + q^2n t^n)."""
    return {(turns - 1 + 2 * i, i): 1 for i in (0, *range(2, turns + 1))}


def large_fault(it):
    """What is wrong with a line on a large link, if anything is: its Euler characteristic is its Jones line, and over two elements it is
    the double of a table, which of a torus link on two strands is known."""
    sums = Counter()
    for j, i, dimension in it["rows"]:
        sums[j] += (-1) ** i * dimension
    if [[at, sums[at]] for at in sorted(sums) if sums[at]] != it["jones"]:
        return "its Jones line is another one"
    if it["plus"] + it["minus"] != it["pd"].count("X") or it["pd"].count("X") not in CROSSINGS or it["field"] not in FIELDS:
        return "its numbers are other ones"
    if it["field"] != 2:
        return None
    half, torus = halved(it["rows"]), it["name"].removeprefix("T(2,").rstrip(")")
    return None if half and (not torus.isdigit() or half == two_strands(int(torus))) else f"it is the double of {half}"


def large_faults(scan):
    """The name of each test of the large links, and what is wrong, if anything is."""
    lines = lines_of_reference(LARGE_VECTORS)
    faults = [f"{it['name']} over {it['field']}: {large_fault(it)}" for it in lines if large_fault(it)]
    counts = Counter(it["name"] for it in lines)
    jones = {(it["name"], str(it["jones"]), it["pd"]) for it in lines}
    faults += [] if set(counts.values()) == {len(FIELDS)} and len(jones) == len(counts) else ["not each link has one line over each field"]
    yield "reference: large links", "; ".join(faults)[:600] or None
    size = os.path.getsize(LARGE_VECTORS)
    yield "reference: the size of the large links", None if size <= MOST_BYTES else f"{size} bytes"
    said = f"{len(lines)} of {len(lines)} answers agree\n"
    yield "reference/compare --all: the large links", compare_fault(["--all", LARGE_VECTORS, "--vectors", LARGE_VECTORS], "", 0, said)
    if is_there(scan):
        yield "reference: a part of the large links", fault_of("--test", "--large", "--kh", scan)


def halving_faults():
    """The links whose reduced tables do not fit: over two elements the unreduced table is the reduced one twice, at j - 1 and j + 1, and
    over each field the reduced Euler characteristic times q + q^-1 is the Jones polynomial."""
    for it in lines_of_reference():
        for part in it["reduced"]:
            double, jones = Counter(), Counter()
            for j, i, dimension in part["rows"]:
                for step in (-1, 1):
                    double[j + step, i] += dimension
                    jones[j + step] += (-1) ** i * dimension
            is_twice = it["field"] != 2 or sorted([*pair, count] for pair, count in double.items()) == it["rows"]
            if not is_twice or [[at, jones[at]] for at in sorted(jones) if jones[at]] != it["jones"]:
                yield f"{it['name']} over {it['field']} at {part['marks']}"


def faults(program):
    """The name of each test, and what is wrong, if anything is."""
    for name, words, given, status, said in ROWS:
        yield f"reference/compare {words}: {name}", compare_fault(words.split(), given, status, said)
    yield from collection_faults()
    yield "reference: reduced tables", "; ".join(halving_faults()) or None
    for name in ("check", "compare", "make"):
        yield f"reference/{name} --help", help_fault(f"reference/{name}")
    yield "reference: determinants and signatures", fault_of("--published")
    yield "reference: a part of the vectors", fault_of("--test", "--kh", program)
    if os.path.isfile(LARGE_VECTORS):
        yield from large_faults(scan_of(program))
