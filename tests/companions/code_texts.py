"""Runs `tools/kh-codes`, and writes diagrams in the forms of other programs, for `code_forms` and `code_truth`."""
import os
import random
import re
import subprocess
import tempfile

import plain.diagrams
from shared.places import TOP
from shared.running import PATIENCE
from bench import braids

SEED, COUNT = 20, 120


def run(words, given, tools=os.path.join(TOP, "tools")):
    """The status, what is written, and what is said; the input is in UTF-8, but for signs that stand for bytes."""
    given = given.encode(errors="surrogateescape")
    came = subprocess.run([os.path.join(tools, "kh-codes"), *words], input=given, capture_output=True, timeout=PATIENCE)
    return came.returncode, came.stdout.decode(), came.stderr.decode()


def run_each(texts):
    """The status of these texts in a file each, the lines that are written of all, and what is said of each."""
    with tempfile.TemporaryDirectory() as folder:
        paths = [os.path.join(folder, str(number)) for number in range(len(texts))]
        for path, text in zip(paths, texts):
            with open(path, "w", encoding="utf-8", newline="") as file:
                file.write(text)
        status, wrote, said = run(paths, "")
    told = re.split(rf"^(?={re.escape(folder)}/\d+:)", said, flags=re.M)[1:]
    of_each = ["".join(it.removeprefix(path) for it in told if it.startswith(path + ":")) for path in paths]
    return status, wrote.splitlines(), [re.sub("^:", "input:", it, flags=re.M) for it in of_each]


def diagrams():
    """Codes of random closed braids, some of them with strands that nothing crosses."""
    random.seed(SEED)
    for _ in range(COUNT):
        strands = random.randrange(2, 6)
        letters = [random.choice((1, -1)) * random.randrange(1, strands) for _ in range(random.randrange(1, 11))]
        crossings, loops = braids.closure(strands, letters)
        code = plain.diagrams.Code(tuple(map(tuple, crossings)), loops)
        yield strands, letters, plain.diagrams.code_of(plain.diagrams.renumbered(plain.diagrams.accepted(code)))


def nested(crossings, outer, inner, between):
    """Lists of numbers in brackets."""
    return outer[0] + between.join(inner[0] + ", ".join(map(str, it)) + inner[1] for it in crossings) + outer[1]


def clockwise(crossings):
    return [(i, l, k, j) for i, j, k, l in crossings]


def renamed(crossings, names):
    return [tuple(names[arc] for arc in it) for it in crossings]


def shuffled(code):
    """The crossings with arcs of other names, in no order."""
    names = random.sample(range(-500, 5_000), 2 * len(code.crossings))
    return renamed(code.crossings, [None, *names])


def one_turned(code):
    """The crossings with one that begins with the arc on which the under pass goes out, where its component has two others that do not."""
    unders = [sum(i in component for i, _, _, _ in code.crossings) for component in plain.diagrams.components(code)]
    of = {arc: place for place, component in enumerate(plain.diagrams.components(code)) for arc in component}
    chosen = [number for number, it in enumerate(code.crossings) if unders[of[it[0]]] > 2]
    turned = random.choice(chosen) if chosen else None
    return [it[2:] + it[:2] if number == turned else it for number, it in enumerate(code.crossings)]


def unsigned_gauss(code):
    """The Gauss text of a code, without signs."""
    groups = [", ".join(str(number if is_over else -number) for number, is_over in them) for them in plain.diagrams.passes(code)]
    return f"GaussCode[{', '.join('{' + it + '}' for it in groups)}]"


def signed_gauss(code):
    """The signed Gauss text of a code."""
    signs = ", ".join("1" if it.positive else "-1" for it in plain.diagrams.accepted(code).crossings)
    return f"{unsigned_gauss(code)} Signs[{signs}]"


def starts(groups):
    """For each component the pass with which its numbers begin, 0 or 1, so that each crossing has an odd and an even number."""
    places = {}
    for group, them in enumerate(groups):
        for place, (number, _) in enumerate(them):
            places.setdefault(number, []).append((group, place))
    found = {}
    for first in range(len(groups)):
        found.setdefault(first, 0)
        for _ in groups:
            for (one, place), (other, far) in places.values():
                for here, there in ((one, other), (other, one)):
                    if here in found:
                        found.setdefault(there, (found[here] + place + far + 1) % 2)
    return [found[group] for group in range(len(groups))]


def dowker(code):
    """The lists of a DT code: of each crossing the even number, by the odd ones; it is negative where its pass goes over."""
    groups = list(filter(None, plain.diagrams.passes(code)))
    groups = [them[at:] + them[:at] for them, at in zip(groups, starts(groups))]
    place = {it: at for at, it in enumerate((it for them in groups for it in them), 1)}
    return [[place[number, not is_over] * (1 if is_over else -1) for number, is_over in them[::2]] for them in groups]


def dowker_text(code):
    return f"DTCode[{', '.join('{' + ', '.join(map(str, them)) + '}' for them in dowker(code))}]"


def forms(strands, letters, code):
    """The name of each form, words, its text, and whether the arcs keep their numbers."""
    crossings, text = code.crossings, plain.diagrams.printed(code)
    yield "Mathematica", [], "PD[Link[1]] = " + text.replace("], X", "],\n  X"), True
    yield "braid words", [], f"braid {strands}: {' '.join(map(str, letters))}", True
    yield "BR", [], f"BR[{strands}, {{{','.join(map(str, letters))}}}]", True
    yield "strands and letters", [], f"{{{strands}, {{{', '.join(map(str, letters))}}}}}", True
    yield "Gauss", [], signed_gauss(code), True
    if code.loops or not crossings:
        return
    yield "KnotInfo", [], nested(crossings, "[]", "[]", ","), True
    yield "semicolons", [], nested(crossings, "{}", "{}", ";"), True
    yield "SnapPy", [], nested(renamed(crossings, range(-1, 2 * len(crossings))), "[]", "()", ", "), True
    yield "SageMath", ["--clockwise"], nested(clockwise(crossings), ("Link([", "])"), "[]", ", "), True
    yield "a crossing turned", [], nested(one_turned(code), "[]", "[]", ","), True
    yield "any names", [], nested(shuffled(code), "[]", "[]", ", "), False
