"""Tries whether what `tools/kh-codes` writes is the link that was given, as the plain readings have it.

Polynomials are compared up to mirror images, DT and Gauss codes exactly, and which of them are realised with all choices of signs.
"""
import itertools
import math
import os
import re
import textwrap
from collections import Counter

import plain.codes
import plain.cube
import plain.diagrams
from companions.code_texts import diagrams, dowker, dowker_text, run, run_each, signed_gauss, unsigned_gauss
from shared.places import TOP

# DT codes as tables of knots and links have them, by names of the reference.
TABLES = {
    "3_1": "[4, 6, 2]",
    "4_1": "[4, 6, 8, 2]",
    "5_1": "[6, 8, 10, 2, 4]",
    "5_2": "[4, 8, 10, 2, 6]",
    "6_1": "[4, 8, 12, 10, 2, 6]",
    "6_2": "[4, 8, 10, 12, 2, 6]",
    "6_3": "[4, 8, 10, 2, 12, 6]",
    "7_2": "[4, 10, 14, 12, 2, 8, 6]",
    "7_6": "[4, 8, 12, 2, 14, 6, 10]",
    "7_7": "[4, 8, 10, 12, 2, 14, 6]",
    "8_18": "[6, 8, 10, 12, 14, 16, 2, 4]",
    "8_19": "[4, 8, -12, 2, -14, -16, -6, -10]",
    "8_20": "[4, 8, -12, 2, -14, -6, -16, -10]",
    "8_21": "[4, 8, -12, 2, 14, -6, 16, 10]",
    "9_42": "[4, 8, 10, -14, 2, -16, -18, -6, -12]",
    "9_46": "[4, 10, -14, -12, -16, 2, -6, -18, -8]",
    "9_49": "[6, -10, -14, 12, -16, -2, 18, -4, -8]",
    "Hopf": "DTCode[{4}, {2}]",
    "Borromean": "DTCode[{6, 8}, {10, 12}, {2, 4}]",
}
# Texts of one link each, in several forms.
ONE_LINK = {
    "the trefoil": (
        "3_1", "PD[X[1,4,2,5], X[3,6,4,1], X[5,2,6,3]]", "[[1,5,2,4],[3,1,4,6],[5,3,6,2]]", "braid: {1, 1, 1}",
        "GaussCode[-1,3,-2,1,-3,2] Signs[-1,-1,-1]", "DT[cacbca]", "T(3,2)",
    ),
    "the figure eight": (
        "4_1", "[[4,2,5,1],[8,6,1,5],[6,3,7,4],[2,7,3,8]]", "braid: (1 -2)^2", "BR[3, {-1, 2, -1, 2}]",
        "GaussCode[1,-4,3,-1,2,-3,4,-2] Signs[1,1,-1,-1]", "DT: [(6, 8, 2, 4)]", "DT[dadCDAB]",
    ),
    "8_19": (
        "8_19", "PD[X[4,2,5,1], X[8,4,9,3], X[9,15,10,14], X[5,13,6,12], X[13,7,14,6], X[11,1,12,16], X[15,11,16,10], X[2,8,3,7]]",
        "braid: (1 2)^4", "[4, 8, -12, 2, -14, -16, -6, -10]", "DT[hahbdFaGHCE]", "TorusKnot[3, 4]", "T(4,-3)", "braid: (1 2 3)^3",
    ),
    "10_124": ("10_124", "10_{124}", "Knot[10, 124]", "T(3,5)", "braid 3: (1 2)^5", "braid: (-1 -2 -3 -4)^3"),
    "the unknot": ("unknot", "0_1", "braid: 1", "T(1,5)", "PD[X[1,1,2,2]]", "DT[4, 2]", "braid 1:"),
}
# Braid words with powers, and the same without.
POWERS = {
    "braid: 1^3": "braid: 1 1 1",
    "braid: 1^-2 2": "braid: -1 -1 2",
    "braid: (1 -2 3)^-1": "braid: -3 2 -1",
    "braid 4: (1 (2 3)^2)^2 -1": "braid: 1 2 3 2 3 1 2 3 2 3 -1",
    "braid: ((1 2)^-2 3)^-1": "braid: -3 1 2 1 2",
    "braid: (1 2)^0 1": "braid: 1",
    "BR[3, {1, (1*2)^2}]": "braid: 1 1 2 1 2",
}
# Rows as KnotInfo has them.
KNOTINFO = {
    "3_1": {"pd_notation": "[[1,5,2,4],[3,1,4,6],[5,3,6,2]]", "braid_notation": "{1,1,1}", "dt_notation": "[4, 6, 2]"},
    "4_1": {"pd_notation": "[[4,2,5,1],[8,6,1,5],[6,3,7,4],[2,7,3,8]]", "braid_notation": "{1,-2,1,-2}", "dt_notation": "[4, 6, 8, 2]"},
    "5_2": {
        "pd_notation": "[[1,5,2,4],[3,9,4,8],[5,1,6,10],[7,3,8,2],[9,7,10,6]]",
        "braid_notation": "{1,1,1,2,-1,2}",
        "dt_notation": "[4, 8, 10, 2, 6]",
    },
}


def turned(texts):
    """What is written of these texts, in one file; where not all are read, the tests stop."""
    status, wrote, said = run(["--names"], "".join(f"link {number}: {text}\n" for number, text in enumerate(texts)))
    lines = [line.split("\t")[1] for line in wrote.splitlines()]
    if status or len(lines) != len(texts):
        raise ValueError(said)
    return lines


def code_of(line):
    """The code of a line, which has to be accepted."""
    code = plain.diagrams.read(line)
    plain.diagrams.accepted(code)
    return code


def polynomial(code):
    """The unnormalised Jones polynomial, or that of the mirror image: the greater of both."""
    terms = plain.cube.state_sum(plain.diagrams.accepted(code))
    return max(sorted(terms.items()), sorted((-at, value) for at, value in terms.items()))


def in_plane(code):
    """The code with the plane turned over, so that arcs keep their numbers and strands stay over or under."""
    return plain.diagrams.Code(tuple((i, l, k, j) for i, j, k, l in code.crossings), code.loops)


def one_link_faults():
    """What is wrong with texts of one link, if anything is: all have one polynomial."""
    for name, texts in ONE_LINK.items():
        found = {text: polynomial(code_of(line)) for text, line in zip(texts, turned(texts))}
        wanted = found[texts[0]]
        yield f"the forms of {name}", "; ".join(text for text in texts if found[text] != wanted) or None


def power_faults():
    """The braid words that are not the same as without powers."""
    pairs = zip(turned(POWERS), turned(POWERS.values()))
    yield "powers of letters", ", ".join(word for word, (one, other) in zip(POWERS, pairs) if one != other) or None


def table_faults():
    """The DT codes of tables whose polynomial is not that of the reference's link."""
    pairs = zip(turned(TABLES.values()), turned(TABLES))
    wrong = [name for name, (one, other) in zip(TABLES, pairs) if polynomial(code_of(one)) != polynomial(code_of(other))]
    yield "DT codes of tables", ", ".join(wrong) or None


def has_circle_above(code):
    """Whether a component has two passes, both over, whose first `kh` chooses."""
    return any(len(them) == 2 and all(is_over for _, is_over in them) for them in plain.diagrams.passes(code))


def there_and_back_fault(code, line, is_one_part):
    """What is wrong with what became of a code's DT code, if anything is: it has the same one, and is the same link up to mirror images."""
    found = code_of(line)
    if dowker(found) != dowker(code) and not has_circle_above(code):
        return f"the DT code is {dowker(found)} and not {dowker(code)}"
    if not plain.diagrams.accepted(found).crossings[0].positive:
        return "the first crossing is negative"
    return "the polynomial is another" if is_one_part and polynomial(found) != polynomial(code) else None


def parts_of(said):
    """How many parts of each DT code may be mirrored, as it is said."""
    found = re.findall(r"a DT code: (?:each of its (\d+) parts|the mirror image)", said)
    return [int(it or 1) for it in found]


def reference_names():
    with open(os.path.join(TOP, "reference", "braids.txt"), encoding="utf-8") as file:
        return [line.split()[0] for line in file if line.strip() and not line.startswith("#")]


def dowker_faults():
    """What is wrong with DT codes of the reference's links and of random diagrams, if anything is."""
    known = [code_of(line) for line in turned(reference_names())]
    drawn = [code for _, _, code in diagrams() if code.crossings and not code.loops]
    for what, them in (("the reference", known), ("random diagrams", drawn)):
        status, wrote, said = run([], "".join(f"{dowker_text(code)}\n" for code in them))
        lines, parts = wrote.splitlines(), parts_of(said)
        wrong = [] if (status, len(lines), len(parts)) == (0, len(them), len(them)) else [said[-500:]]
        for code, line, count in zip(them, lines, parts):
            # (the links of the reference are prime, so that all parts of a diagram but one are unknotted)
            fault = there_and_back_fault(code, line, them is known or count == 1)
            wrong += [f"{plain.diagrams.printed(code)}: {fault}"] if fault else []
        yield f"DT codes of {what}, there and back", "; ".join(wrong) or None


def gauss_text(components, signs):
    return f"GaussCode[{', '.join('{' + ', '.join(map(str, them)) + '}' for them in components)}] Signs[{', '.join(map(str, signs))}]"


def is_drawn(components, signs):
    """Whether the diagram of a Gauss code with these signs has the faces of one in the plane."""
    faces, wanted = plain.diagrams.face_counts(plain.codes.code_of(gauss_text(components, signs).encode()))
    return faces == wanted


def small_codes():
    """All DT codes of up to four crossings of one component or two, and those of five of one, with all numbers positive."""
    for count in range(1, 6):
        for entries in itertools.permutations(range(2, 2 * count + 1, 2)):
            for cut in range(count if count < 5 else 1):
                yield [list(entries[cut:])] if not cut else [list(entries[:cut]), list(entries[cut:])]


def gauss_of(lists):
    """The components of a Gauss code that has this DT code, all of whose numbers are positive: the odd passes are over."""
    label = {}
    for crossing, even in enumerate((it for them in lists for it in them), 1):
        label[2 * crossing - 1], label[even] = crossing, -crossing
    at = iter(sorted(label))
    return [[label[next(at)] for _ in range(2 * len(them))] for them in lists]


def realised_faults():
    """The small DT codes that are read where no signs draw them, or not where some do, or with another number of parts than of those."""
    texts, wrong = list(small_codes()), []
    _, wrote, said = run(["--names"], "".join(f"{text}: DT: {text}\n".replace(": ", "\t", 1) for text in texts))
    read, parts = [line.split("\t")[0] for line in wrote.splitlines()], iter(parts_of(said))
    for lists in texts:
        components = gauss_of(lists)
        signs = itertools.product((1, -1), repeat=sum(map(len, lists)))
        drawn = sum(is_drawn(components, it) for it in signs)
        found = 2 ** next(parts) if str(lists) in read else 0
        wrong += [f"{lists}: {found} and not {drawn}"] if found != drawn else []
    yield "small DT codes, read where signs draw them", "; ".join(wrong) or None


def unsigned_faults():
    """What is wrong with what is said of Gauss codes without signs, if anything is: what to write gives diagrams that have them."""
    drawn = [code for _, _, code in diagrams() if code.crossings]
    _, wrote, said = run([], "".join(unsigned_gauss(code) + "\n" for code in drawn))
    advice = re.findall(r"write (GaussCode\[.*\]) (Signs\[.*?\]), or (Signs\[.*?\]) for the mirror image( \(or others)?", said)
    wrong = [said[-500:]] if wrote or len(advice) != len(drawn) else []
    lines = turned([f"{text} {it}" for text, *signs, _ in advice for it in signs])
    for code, one, other, (*_, others) in zip(drawn, lines[::2], lines[1::2], advice):
        # (where some parts may be mirrored alone, other signs are right too)
        form = unsigned_gauss if others else signed_gauss
        wanted, found = {form(code), form(in_plane(code))}, {form(code_of(one)), form(code_of(other))}
        wrong += [] if found == wanted or has_circle_above(code) else [f"{unsigned_gauss(code)} became {one} and {other}"]
    yield "Gauss codes without signs, as is said to write them", "; ".join(wrong) or None


def torus_fault(first, second, line):
    """What is wrong with a torus knot, if anything is: all its crossings are positive, and it has the polynomial that is known."""
    diagram = plain.diagrams.accepted(plain.diagrams.read(line))
    if not all(it.positive for it in diagram.crossings):
        return "a crossing is negative"
    # (t^((p-1)(q-1)/2) (1 - t^(p+1) - t^(q+1) + t^(p+q)) / (1 - t^2), with q^2 for t and times q + 1/q)
    shift = (first - 1) * (second - 1)
    top = ((0, 1), (2 * first + 2, -1), (2 * second + 2, -1), (2 * first + 2 * second, 1))
    known, found = Counter(), Counter()
    for at, value in top:
        known.update({at + shift + 1: value, at + shift - 1: value})
    for at, value in plain.cube.state_sum(diagram).items():
        found.update({at: value, at + 4: -value})
    return None if known == found else "the polynomial is another"


def torus_faults():
    """The torus knots of up to 14 crossings, and some larger ones, that are not what they should be."""
    pairs = [(p, q) for p in range(2, 6) for q in range(2, 16) if math.gcd(p, q) == 1 and (min(p, q) - 1) * max(p, q) <= 14]
    pairs += [(3, 10), (5, 4)]
    lines = turned([f"T({p},{q})" for p, q in pairs])
    wrong = [f"T({p},{q}): {torus_fault(p, q, line)}" for (p, q), line in zip(pairs, lines) if torus_fault(p, q, line)]
    yield "torus knots", "; ".join(wrong) or None


def row_faults():
    """What is wrong with a table whose rows have planar diagrams, braid words and DT codes of the same knots, if anything is."""
    wrong = []
    for heading in ("pd_notation", "braid_notation", "dt_notation"):
        rows = [f'{name},"{it[heading]}"' for name, it in KNOTINFO.items()]
        status, wrote, said = run(["--names"], f"name,{heading}\n" + "\n".join(rows))
        found = dict(line.split("\t") for line in wrote.splitlines())
        known = dict(zip(KNOTINFO, turned(KNOTINFO)))
        if status or {*found} != {*KNOTINFO}:
            wrong.append(said)
        else:
            wrong += [f"{name} by {heading}" for name in found if polynomial(code_of(found[name])) != polynomial(code_of(known[name]))]
    yield "rows of KnotInfo", "; ".join(wrong) or None


def help_faults():
    """What is wrong with the examples that `--help` has, if anything is: each is read, and is a trefoil or the unknot."""
    _, wrote, _ = run(["--help"], "")
    forms, table = re.search(r"\(or the unknot\):\n\n(.*?)\n\n.*?its fields:\n\n(.*?)\n\n", wrote, re.S).groups()
    examples = [line.strip().split("  ")[0] for line in forms.splitlines()] + [textwrap.dedent(table)]
    status, lines, said = run_each(examples)
    wanted = {name: polynomial(code_of(line)) for name, line in zip(("3_1", "unknot"), turned(("3_1", "unknot")))}
    yield "a line of each example of --help", None if (status, len(lines)) == (0, len(examples)) else "".join(said)
    for example, line in zip(examples, lines):
        is_right = polynomial(code_of(line)) == wanted["unknot" if example == "unknot" else "3_1"]
        yield f"an example of --help: {example}", None if is_right else f"another link: {line}"
    yield "many examples of --help", None if len(examples) > 20 else f"{examples}"


PARTS = (
    one_link_faults, power_faults, table_faults, dowker_faults, realised_faults, unsigned_faults, torus_faults, row_faults, help_faults,
)


def faults():
    """The name of each test, and what is wrong, if anything is."""
    for part in PARTS:
        yield from part()
