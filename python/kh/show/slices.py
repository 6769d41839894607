"""Reads the drawings that `kh draw` writes."""
import re
from typing import NamedTuple

from ..commands import Unreadable

SLICE = re.compile(r"(open|close|right|left) (\d+): (.+)")
CELLS = {"open": "/\\", "close": "\\/", "right": "-/", "left": "\\-"}
# How many strands a slice takes from the row above it, and how many it puts in their place.
TAKES = {"open": 0, "close": 2, "right": 2, "left": 2}
PUTS = {"open": 2, "close": 0, "right": 2, "left": 2}


class Slice(NamedTuple):
    """A slice of a drawing: its word, and the position of its left strand, from 1."""

    word: str
    position: int


def read_drawing(text: str) -> list[Slice]:
    """The slices of what `kh draw` writes, from the top of the page to the bottom."""
    slices, strands = [], 0
    for number, line in enumerate(text.splitlines(), 1):
        found = SLICE.fullmatch(line)
        word, position, cells = (found[1], int(found[2]), found[3].split(" ")) if found else ("open", 0, [])
        passing = strands - TAKES[word]
        wanted = ["|"] * (position - 1) + [CELLS[word]] + ["|"] * (passing - position + 1)
        if not found or not 1 <= position <= passing + 1 or cells != wanted:
            raise Unreadable(f"line {number} is no slice below {strands} strands: {line[:80]}")
        slices.append(Slice(word, position))
        strands += PUTS[word] - TAKES[word]
    if strands:
        raise Unreadable(f"the drawing ends with {strands} strands open")
    return slices
