"""Tries whether what `tools/kh-codes` reads without its tree (`python/kh/codes/plain_lists.py`) is what the tree makes of it: random
planar diagrams as they are and spoilt, in each form, with names and in tables, byte for byte.
"""
import os
import random
import subprocess
import sys
import tempfile

from shared.places import TOP, write_text
from shared.running import PATIENCE
from bench import braids

CODES = os.path.join(TOP, "tools", "kh-codes")
SEED, COUNT = 31, 1_200
# The same program, which reads everything by its tree.
BY_TREE = f"""
import runpy, sys
sys.path.insert(0, {os.path.join(TOP, 'python')!r})
from kh.codes import plain_lists
plain_lists.written = lambda text: ""
runpy.run_path({CODES!r}, run_name="__main__")
"""
NAMES = ("", "", "", *["k{0}\t", "k{0}: "] * 8, "L2a1{{{0}}}\t", "K = ", "a name\t", "braid\t", "DT\t", "x{{\t", "(x)\t", "3_1:")
BEHIND = (*[""] * 80, " ", ",", ";", ".", "  # a comment", "\n# a comment", "\nSigns[1]", "\n", "]")
WHOLE = (("PD[{}]", "X[{}]"), ("[{}]", "[{}]"), ("[{}]", "({})"))
HEADINGS = ("name,pd_notation", "name;pd_notation;x", "x|name|dt_notation|PD Notation", "name\tpd")


def crossings_of(draw):
    """The crossings of a random closed braid, each piece with its arcs numbered along components, or of random labels."""
    if draw.random() < 0.1:
        labels = [*range(1, 2 * draw.randrange(1, 5) + 1)] * 2
        draw.shuffle(labels)
        return [labels[at : at + 4] for at in range(0, len(labels), 4)]
    strands = draw.randrange(2, 6)
    letters = [draw.choice((1, -1)) * draw.randrange(1, strands) for _ in range(draw.randrange(1, 14))]
    return [list(it) for it in braids.closure(strands, letters)[0]]


def spoilt(draw, crossings):
    """The same crossings, or with one thing changed."""
    if not crossings or draw.random() < 0.6:
        return crossings
    place, slot, kind = draw.randrange(len(crossings)), draw.randrange(4), draw.randrange(6)
    them = [list(it) for it in crossings]
    labels = sorted({it for crossing in them for it in crossing})
    if kind == 0:
        them[place] = them[place][2:] + them[place][:2]
    elif kind == 1:
        them[place] = them[place][1:] + them[place][:1]
    elif kind == 2:
        them[place][slot] = draw.choice(labels)
    elif kind == 3:
        one, other = draw.choice(labels), draw.choice(labels)
        them = [[{one: other, other: one}.get(it, it) for it in crossing] for crossing in them]
    elif kind == 4:
        shift = draw.choice((-1, 1, 7, -3))
        them = [[it + shift for it in crossing] for crossing in them]
    else:
        draw.shuffle(them)
    return them


def written(draw, crossings):
    """A text of crossings, in one of the forms that are read."""
    whole, crossing = draw.choice((*WHOLE * 4, ("PD[{}]", "Xp[{}]"), ("{{{}}}", "{{{}}}")))
    between, comma = draw.choice(((",", ","), (", ", ", "), (",", ","), (", ", ", "), (", ", ","), (",", ", "), (";", ",")))
    return whole.format(between.join(crossing.format(comma.join(map(str, it))) for it in crossings))


def edited(draw, text):
    """The same text, or with one sign changed."""
    place, kind = draw.randrange(len(text) + 1), draw.randrange(24)
    if kind == 0:
        return text[:place] + text[place + 1 :]
    if kind == 1:
        return text[:place] + draw.choice("0123456789[](){},; -X#\n\"") + text[place:]
    return text[:place] + "0" + text[place:] if kind == 2 else text


def line(draw, number):
    """A code with what may stand before it and behind it."""
    name = draw.choice(NAMES).format(number)
    return name + edited(draw, written(draw, spoilt(draw, crossings_of(draw)))) + draw.choice(BEHIND)


def table(draw, number):
    """A table of a few codes, with a blank line behind it."""
    heading = draw.choice(HEADINGS)
    separator = next(it for it in ",;|\t" if it in heading)
    rows = [heading]
    for row in range(draw.randrange(4)):
        text = edited(draw, written(draw, spoilt(draw, crossings_of(draw))))
        text = f'"{text}"' if separator in ",;" or draw.random() < 0.3 else text
        fields = {"name": draw.choice((f"k{number}_{row}", "", "L2a1{0}")), "dt_notation": ""}
        fields["x"] = draw.choice(("", "(", '"a | b"', "[1, 2]"))
        rows.append(separator.join(fields.get(it, text) for it in heading.split(separator)))
    return "\n".join([*rows, ""])


def ended(words, path):
    came = subprocess.run([*words, path], capture_output=True, timeout=PATIENCE)
    return came.returncode, came.stdout, came.stderr


def faults(count=COUNT, seed=SEED, other=(sys.executable, "-c", BY_TREE)):
    """What is wrong with each way of writing, if anything is: codes alone, with names, and with wrong ones kept."""
    draw = random.Random(seed)
    text = "\n".join(table(draw, number) if draw.random() < 0.1 else line(draw, number) for number in range(count)) + "\n"
    with tempfile.TemporaryDirectory() as folder:
        path = os.path.join(folder, "codes")
        write_text(path, text)
        for words in ([], ["--names", "--keep"], ["--clockwise"]):
            mine, others = ended([CODES, *words], path), ended([*other, *words], path)
            parts = [f"{one[:300]!r} and not {two[:300]!r}" for one, two in zip(lines_of(mine), lines_of(others)) if one != two]
            yield f"kh-codes: lists by the tree or without, {' '.join(words) or 'alone'}", None if mine == others else parts[0]


def lines_of(came):
    return [came[0], *came[1].split(b"\n"), *came[2].split(b"\n")]
