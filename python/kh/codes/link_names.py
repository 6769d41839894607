"""Reads names of links: those of the reference, torus links, whose braids are made, and the unknot."""
import difflib
import json
import os
import re
from collections.abc import Iterable, Sequence
from typing import Any

from ..places import reference_file
from . import braid_words, codes, dowker

BRAIDS, PRIME, CHECKED = map(reference_file, ("braids.txt", "prime.txt", "checked.jsonl"))
CROSSINGS = 20
# A name, and what other programs write for one.
NAME = r"(?=[^A-Za-z_^]*[A-Za-z_^])\w[\w()^,+{}\\-]*"
KNOT = re.compile(r"(?:PD\[)?Knot\[(\d+),(\d+)\]\]?")
ELEVEN = re.compile(r"(?:PD\[)?(?:Knot\[)?K?(\d+)(?:([an])_?|,([AN])(?:lternating|onAlternating),)(\d+)\]{0,2}")
TORUS = re.compile(r"(?:T|TorusKnot|TorusLink)_?[\[(]?(-?\d{1,4}),(-?\d{1,4})[\])]?")
NAMED = re.compile(r"(?:Knot|Link)[\[(]([\d^]+_\d+|K\d+[an]\d+)[\])]")
OTHERS = re.compile(r"(Knot|Link)\[[\w,]*\]")
TURNED = re.compile(r"(\d+)_(\d+)\^(\d+)")
# A link of Thistlethwaite's table, with the numbers in braces that say which components LinkInfo turns round.
DIRECTED = re.compile(r"(?:Link\[)?(L\d+[an]\d+)(\{[\d,]+\})?\]?")
UNKNOT = {"unknot", "Unknot", "0_1"}
NO_LINK = (
    "the reference has no link of this name, but prime knots of up to 11 crossings (up to 10_165, K11a367 and K11n185), links of up to 7 "
    "by Rolfsen's names (7^2_1) and {} by Thistlethwaite's, and torus links such as T(3,7): "
    "write a planar diagram, a DT code or a braid word"
)
# How many names are told that are near another one.
NEAR = 3
# How the diagram of a name stands to the one that the tables draw.
HANDS = {
    "same": "as the Knot Atlas has it",
    "mirror image": "the mirror image of the Knot Atlas's",
    "amphicheiral": "its own mirror image",
    "same as LinkInfo": "as LinkInfo has it",
    "open": "perhaps the mirror image of the one you mean, or with components turned round",
}


def lines_of(path):
    """The name and the rest of each line of a file of the reference."""
    with open(path, encoding="utf-8") as file:
        for line in file:
            if line.strip() and not line.startswith("#"):
                name, *rest = line.split()
                yield name, rest


def reference() -> dict[str, Any]:
    """What the reference has of each link, by its name: the number of strands and letters, or the hand and the entries of a DT code."""
    return dict(it for path in (BRAIDS, PRIME) for it in lines_of(path))


def hand_of(name):
    """How the diagram of a name stands to the one that tables draw, as `reference/check` found it; nothing where it does not say it."""
    head = f'{{"name": {json.dumps(name)}, '
    if not os.path.exists(CHECKED):
        return None
    with open(CHECKED, encoding="utf-8") as file:
        return next((json.loads(line).get("hand") for line in file if line.startswith(head)), None)


def name_of(text: str) -> str:
    """The name that a text is, as tables have it: 10_124 for 10_{124} and Knot[10, 124]; nothing where it is none."""
    text = re.sub(r"[\\$]", "", text.strip())
    directed = DIRECTED.fullmatch(re.sub(r"[\s\"']", "", text))
    if directed:
        return directed[1] + (directed[2] or "")
    name = re.sub(r"[\s{}]", "", text)
    eleven = ELEVEN.fullmatch(name)
    if eleven:
        return f"K{eleven[1]}{eleven[2] or eleven[3].lower()}{eleven[4]}"
    for form, written in ((KNOT, r"\1_\2"), (NAMED, r"\1"), (TORUS, r"T(\1,\2)"), (TURNED, r"\1^\3_\2")):
        if form.fullmatch(name):
            return form.sub(written, name)
    return name if re.fullmatch(NAME, text) or OTHERS.fullmatch(name) else ""


def torus_braid(first, second, place):
    """The strands and letters of a torus link, on as few strands as there may be."""
    strands, turns = sorted((abs(first), abs(second)))
    if not strands:
        raise codes.Fault("the numbers of a torus link are not 0", place)
    if (strands - 1) * turns > CROSSINGS:
        raise codes.Fault(f"this torus link has {(strands - 1) * turns} crossings in its least braid, and kh takes {CROSSINGS}", place)
    sign = 1 if (first > 0) == (second > 0) else -1
    return strands, [sign * letter for letter in range(1, strands)] * turns


def mirrored(links):
    """Links with the plane turned over, so that strands stay over or under."""
    return codes.Links([[i, l, k, j] for i, j, k, l in links.crossings], links.loops, links.places)


def links_of(rest):
    """The crossings of what the reference has of a link: of a DT code + is the diagram whose first crossing is positive, - the other."""
    first, *numbers = rest
    if first not in "+-":
        return braid_words.closure(int(first), list(map(int, numbers)))
    links, _ = dowker.links_of([[codes.Node(0, "", int(it), None) for it in numbers]])
    return links if first == "+" else mirrored(links)


def strands_text(strands):
    return f"{strands} strand{'' if int(strands) == 1 else 's'}"


def what_of(name, rest):
    """What the reference has of a link, in words."""
    first, *numbers = rest
    if first in "+-":
        return f"the DT code of {name}: {' '.join(numbers)}, the first crossing {'positive' if first == '+' else 'negative'}"
    return f"the closed braid of {name}: {strands_text(first)}, {' '.join(numbers) or 'no letters'}"


def fault_of(name, known, place):
    """What is said of a name that the reference has not: of a link without directions those that it may have."""
    directed = [it for it in known if "{" in it]
    meant = [it for it in directed if it.startswith(name + "{")]
    if meant:
        return codes.Fault(f"{name} has several directions: write {' or '.join(meant)}", place)
    return codes.Fault(NO_LINK.format(f"{directed[0]} to {directed[-1]}"), place)


def near(name: str, names: Iterable[str]) -> list[str]:
    """Those of these names that may be meant by one that is none of them: other names of its link, else the same in other letters, else the
    first that are written alike."""
    known, names = reference(), [*names]
    meant = [rest for it, rest in known.items() if it == name or it.startswith(name + "{")]
    same = [it for it in names if known.get(it) in meant and not it.startswith(name + "{")]
    written = {it.lower(): it for it in reversed(names)}
    alike = difflib.get_close_matches(name.lower(), written, NEAR)
    return same[:NEAR] or [written[it] for it in alike if it == name.lower()] or [written[it] for it in alike]


def question(names: Sequence[str]) -> str:
    """Whether one of these names is meant; nothing where there are none."""
    *first, last = names or [""]
    return f"is {' or '.join(filter(None, (', '.join(first), last)))} meant?" if last else ""


def is_known(name: str, known: dict[str, Any]) -> bool:
    """Whether a name is one of the reference's braids and DT codes, of a torus link or of the unknot."""
    return name in UNKNOT or name in known or bool(TORUS.fullmatch(name))


def read(name: str, place: int, known: dict[str, Any]) -> tuple[codes.Links, list[str]]:
    """The crossings of the link of this name, and what there is to say."""
    if name in UNKNOT:
        return codes.Links([], 1, {}), ["the unknot, as a loop"]
    torus = TORUS.fullmatch(name)
    if torus:
        strands, letters = torus_braid(int(torus[1]), int(torus[2]), place)
        rest, hand = [str(strands), *map(str, letters)], ""
    else:
        rest, hand = known[name], HANDS.get(hand_of(name), HANDS["open"])
    return links_of(rest), [what_of(name, rest) + (hand and f"; {hand}")]
