"""What other programs answered of the links of the reference (`checked.jsonl`), and what it says of their codes and tables.

`reference/check` writes the file. Here it is compared without these programs: the HOMFLY polynomial of each code, which is made anew, is
that of the table's diagram, or of its mirror image where the hand says so; the Jones polynomial and the homology are those of the vectors.
"""
import json
import os
from collections import Counter

import homfly
import named
from kh.reference import stored
import tables
from kh.reference.table_forms import INTEGRAL, read

HERE = os.path.dirname(os.path.abspath(__file__))
PATH = os.path.join(HERE, "checked.jsonl")
VECTORS = [os.path.join(HERE, name) for name in ("vectors.jsonl", "prime.jsonl")]
# Whether the polynomials of a code are those of the table's diagram, or of its mirror image, or of both, as it stands to it.
IS_SAME = {"same": (True,), "mirror image": (False,), "amphicheiral": (True, False)}
# Links of Rolfsen's table whose complements are not hyperbolic, and were not found in the census.
NOT_FOUND = ("2^2_1", "6^2_1", "6^3_3")
HANDS = ("same", "mirror image", "amphicheiral", "same as LinkInfo", "by its numbers", "open")


def lines():
    """The lines of the file, the first of which names the programs."""
    if not os.path.exists(PATH):
        return []
    with open(PATH, encoding="utf-8") as file:
        return [json.loads(line) for line in file]


def records():
    """What was kept of each name."""
    return {it["name"]: it for it in lines() if "name" in it}


def write(programs, them):
    """Keeps these records."""
    with open(PATH, "w", encoding="utf-8") as file:
        file.write(json.dumps({"made by": "reference/check --write", "programs": programs}) + "\n")
        file.writelines(json.dumps(it) + "\n" for it in them.values())


def is_own_mirror(rest):
    """Whether the mirror image of a closed braid is its own word, begun elsewhere, with strands counted from the other side."""
    strands, letters = int(rest[0]), [int(it) for it in rest[1:]]
    other = [(1 if it < 0 else -1) * (strands - abs(it)) for it in letters]
    return any(other[at:] + other[:at] == letters for at in range(len(letters)))


def jones_of(record, is_mirrored):
    """The unnormalised Jones polynomial, by exponents of q, of what SageMath has: t = A^4, and t^(1/2) = -q."""
    found = Counter()
    for at, count in record["jones"]:
        half = (-at if is_mirrored else at) // 2
        for step in (-1, 1):
            found[half + step] += count * (-1) ** half
    return {at: found[at] for at in sorted(found) if found[at]}


def dimensions(text, ring, is_mirrored):
    """The dimensions by (field, j, i) of a table of homology that was kept."""
    field, sign = INTEGRAL if ring == "Z" else int(ring), -1 if is_mirrored else 1
    rows = text.replace("; ", "\n")
    found = stored.given_tables(read(rows).cells, field, (2, 3, 5, 7))
    return {(size, sign * j, sign * i): count for (size, j, i), count in found.items()}


def polynomial_fault(code, record):
    """What the HOMFLY polynomial says against a code, if anything."""
    ours, theirs = homfly.homfly(code), homfly.terms_of(record["homfly"])
    wanted = [theirs if is_same else homfly.mirrored(theirs) for is_same in IS_SAME[record["stands"]]]
    if any(ours != it for it in wanted):
        return "its HOMFLY polynomial is another one"
    return None


def faults_of(name, rest, record):
    """What is wrong with the code of a name by what other programs said of it."""
    if record["code"] != " ".join(rest):
        yield f"{name}: its code is not the one that was checked"
    if record["stands"] not in IS_SAME or record["hand"] not in HANDS:
        yield f"{name}: it is another link than the table's, or its hand is not told by all in one way"
        return
    fault = polynomial_fault(named.code_of(rest), record)
    if fault:
        yield f"{name}: {fault}"
    if record.get("complement") == "other":
        yield f"{name}: its complement is not that of the table's link"
    link = tables.rolfsen(name)
    if link and link not in NOT_FOUND and not record["census"]:
        yield f"{name}: its complement is not found under its name"
    if link and record["crossings"] != int(link[0]):
        yield f"{name}: it is not made as small as its name says"


def table_faults(name, record, vectors):
    """What is wrong with the tables of a link that the vectors have."""
    is_mirrored = record["stands"] == "mirror image"
    jones = jones_of(record, is_mirrored)
    for field, it in vectors.items():
        if dict(it["jones"]) != jones:
            yield f"{name} over {field}: its Jones line is not what other programs have"
    for ring, text in record.get("homology", {}).items():
        theirs = dimensions(text, ring, is_mirrored)
        ours = {(size, j, i): count for size, it in vectors.items() for j, i, count in it["rows"] if ring in ("Z", str(size))}
        if theirs != ours:
            yield f"{name} over {ring}: its homology is not what SageMath has"


def vectors_of():
    """The lines of the vectors, by names and fields."""
    found = {}
    for path in filter(os.path.exists, VECTORS):
        found.update(stored.Reference(path).lines)
    return found


def faults(known):
    """What is wrong with the names, their codes and their tables, by what was kept."""
    them, vectors = records(), vectors_of()
    for name, rest in known.items():
        if name not in them:
            yield f"{name}: nothing was kept of it"
            continue
        yield from faults_of(name, rest, them[name])
        if name in vectors:
            yield from table_faults(name, them[name], vectors[name])
