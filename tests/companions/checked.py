"""Tries the names of the reference: what other programs answered of them (`reference/checked.jsonl`) fits the codes and the tables, wrong
words are found, and `kh-codes` says the hand of each name. With KH_CHECK=anew in the environment some names are checked anew, by SageMath,
Regina and HAP, where these are installed.

`tests/program` runs these behind its rows, with the program of scans beside the one that is tried, if it is there.
"""
import json
import os
import re
import shutil
from collections import Counter

from companions.code_texts import run
from shared.places import TOP, read_text
from shared.running import ended
from shared.scanning import is_there, scan_of

CHECK, MAKE = (os.path.join(TOP, "reference", name) for name in ("check", "make"))
CHECKED, PRIME, PRIME_VECTORS = (os.path.join(TOP, "reference", name) for name in ("checked.jsonl", "prime.txt", "prime.jsonl"))
PROGRAMS = ("sage", "regina-python", "gap")
MOST_BYTES, FIELDS = 4_000_000, {2, 3, 5, 7}
COUNTS = {"10_": 165, "K11a": 367, "K11n": 185, "L": 10}
# A word that is no braid of its name: the one that 9_41 had, whose tables are those of 9_27. Another such word is that of the mirror image
# of 10_25, whose polynomials are those of 10_56. What is said of them, without other programs and with them.
OLD = "5 -2 3 -1 3 2 -1 4 -3 2 -4 -4 3"
NOT_CHECKED, OTHER_HOMFLY = "its code is not the one that was checked", "its HOMFLY polynomial is another one"
OTHER = "it is another link than the table's, or its hand is not told by all in one way"
HANDS = {
    "same": "as the Knot Atlas has it",
    "mirror image": "the mirror image of the Knot Atlas's",
    "amphicheiral": "its own mirror image",
    "same as LinkInfo": "as LinkInfo has it",
    "open": "perhaps the mirror image of the one you mean, or with components turned round",
}


def names():
    """The names of `prime.txt`, each with its line."""
    with open(PRIME, encoding="utf-8") as file:
        return {line.split()[0]: line.split(maxsplit=1)[1].strip() for line in file if line.strip() and not line.startswith("#")}


def records():
    """What was kept of each name."""
    with open(CHECKED, encoding="utf-8") as file:
        return {it["name"]: it for it in map(json.loads, file) if "name" in it}


def inverted(code):
    """The strands and letters of the mirror image of a closed braid."""
    strands, *letters = code.split()
    return " ".join([strands, *(str(-int(it)) for it in letters)])


def check_fault(words, status, said):
    """What is wrong with what `reference/check` says, if anything is."""
    found, wrote, errors = ended([CHECK, *words])
    return None if (found, wrote + errors) == (status, "".join(f"{it}\n" for it in said)) else f"{found}, {wrote}{errors}"


def kept_faults():
    """The name of each test without other programs, and what is wrong, if anything is."""
    count = len(records())
    yield "reference/check --kept", check_fault(["--kept"], 0, [f"{count} names are as the tables have them"])
    yield "reference/check --kept of a name", check_fault(["--kept", "9_41"], 0, ["1 name is as the tables have it"])
    said = [f"9_41: {NOT_CHECKED}", f"9_41: {OTHER_HOMFLY}"]
    yield "reference/check --kept of the old 9_41", check_fault(["--kept", "9_41", "--code", OLD], 1, said)
    for what, code, more in (("10_25", names()["10_25"], [f"10_56: {OTHER_HOMFLY}"]), ("its mirror image", inverted(names()["10_25"]), [])):
        said = [f"10_56: {NOT_CHECKED}", *more]
        yield f"reference/check --kept of {what} as 10_56", check_fault(["--kept", "10_56", "--code", code], 1, said)
    yield "reference/check of no name", check_fault(["--kept", "12_1"], 1, ["check: the reference has no 12_1"])


def anew_faults():
    """The same with other programs."""
    for name, code in (("9_41", OLD), ("10_56", inverted(names()["10_25"]))):
        yield f"reference/check of another code for {name}", check_fault([name, "--code", code], 1, [f"{name}: {OTHER}"])
    some = ["9_42", "L5a1{0}", "T(3,5)"]
    yield "reference/check anew", check_fault(some, 0, [f"{len(some)} names are as the tables have them"])


def count_faults():
    """What is wrong with the number of names of each kind, if anything is."""
    found, them = names(), records()
    for head, count in COUNTS.items():
        some = [name for name in found if name.startswith(head)]
        yield f"reference: names that begin with {head}", None if len(some) == count else f"{len(some)}"
    left = [name for name in found if found[name] != them.get(name, {}).get("code")]
    yield "reference: what was checked is what is there", ", ".join(left[:5]) or None
    told = Counter(it["hand"] for it in them.values())
    yield "reference: each name has a hand, or it is said to be open", None if {*told} <= {*HANDS, "by its numbers"} else str(told)


def hand_faults():
    """The names whose hand `kh-codes` does not say."""
    them = {name: it["hand"] for name, it in records().items() if not name.startswith("T(")}
    _, wrote, said = run(["--names"], "".join(f"{name}\n" for name in them))
    told = dict(re.findall(r"^input:\d+: (\S+): (?:the closed braid|the DT code) of .*?; (.*)$", said, re.M))
    wrong = [name for name, hand in them.items() if told.get(name) != HANDS[hand]]
    yield "kh-codes: the hand of each name", ", ".join(wrong[:5]) or None
    yield "kh-codes: a line of each name", None if len(wrote.splitlines()) == len(them) else wrote[-300:]


def table_faults(scan):
    """What is wrong with the tables of the names of `prime.txt`, if anything is."""
    lines = [json.loads(line) for line in read_text(PRIME_VECTORS).splitlines()[1:]]
    fields = {}
    for it in lines:
        fields.setdefault(it["name"], []).append(it["field"])
    fine = list(fields) == list(names()) and all(sorted(FIELDS) == them for them in fields.values())
    yield "reference: knots of 10 and 11 crossings", None if fine else "not each name has one line over each field"
    wrong = [f"{it['name']} over {it['field']}" for it in lines if characteristic(it["rows"]) != it["jones"]]
    yield "reference: their Jones lines", ", ".join(wrong[:5]) or None
    size = os.path.getsize(PRIME_VECTORS)
    yield "reference: the size of their tables", None if size <= MOST_BYTES else f"{size} bytes"
    if is_there(scan):
        _, wrote, said = ended([MAKE, "--test", "--prime", "--kh", scan])
        yield "reference: a part of their tables", None if wrote == "all are as stored\n" else wrote + said


def characteristic(rows):
    """The Euler characteristic of a table, as a Jones line has it."""
    sums = Counter()
    for j, i, dimension in rows:
        sums[j] += (-1) ** i * dimension
    return [[at, sums[at]] for at in sorted(sums) if sums[at]]


def faults(program):
    """The name of each test, and what is wrong, if anything is."""
    yield from count_faults()
    yield from kept_faults()
    yield from hand_faults()
    yield from table_faults(scan_of(program))
    if os.environ.get("KH_CHECK") == "anew" and all(map(shutil.which, PROGRAMS)):
        yield from anew_faults()
