"""Drawings in the terminal: columns, levels and lines.

Each strand stands on a column from the cap where it begins to the cup where it ends; a crossing takes two neighbouring columns and keeps
them. Columns have the order that the rows have. A slice stands below all earlier ones whose columns overlap with its own, and a cap as
low as it can.
"""
from typing import NamedTuple

from .slices import Slice

class Event(NamedTuple):
    """A slice with its two columns."""

    word: str
    left: int
    right: int


def events_of(slices):
    """The events of a drawing, and for each column those to its right in some row."""
    row, events, right_of = [], [], {}
    for word, position in slices:
        at = position - 1
        if word == "open":
            row[at:at] = [len(right_of), len(right_of) + 1]
            right_of.update({row[at]: set(), row[at + 1]: set()})
        events.append(Event(word, row[at], row[at + 1]))
        for one, other in zip(row, row[1:]):
            right_of[one].add(other)
        if word == "close":
            del row[at : at + 2]
    return events, right_of


def ranks(after):
    """The length of a longest chain from each column, one step after another."""
    known = {}

    def visit(start):
        stack = [start]
        while stack:
            missing = [it for it in after[stack[-1]] if it not in known]
            if missing:
                stack += missing
            else:
                column = stack.pop()
                known[column] = max((known[it] + 1 for it in after[column]), default=0)

    for column in after:
        visit(column)
    return known


def places_of(right_of):
    """Where each column stands: in the middle between as far left and as far right as it can, two units from its neighbours at least."""
    left_of = {column: set() for column in right_of}
    for column, others in right_of.items():
        for other in others:
            left_of[other].add(column)
    from_left, from_right = ranks(left_of), ranks(right_of)
    widest = max(from_left.values(), default=0)
    return {column: from_left[column] + widest - from_right[column] for column in right_of}


def levels_of(events, places):
    """The level of each event, from 0 at the top: below all earlier ones whose columns overlap with its own, a cap as low as it can."""
    spans = [(places[it.left], places[it.right]) for it in events]
    meets = [[other for other, (low, high) in enumerate(spans) if low <= right and left <= high] for left, right in spans]
    levels = []
    for number in range(len(events)):
        levels.append(max((levels[it] + 1 for it in meets[number] if it < number), default=0))
    for number in reversed(range(len(events))):
        if events[number].word == "open":
            levels[number] = min(levels[it] for it in meets[number] if it > number) - 1
    top = min(levels, default=0)
    return [level - top for level in levels]


def lines_of(slices: list[Slice]) -> list[str]:
    """The lines of a drawing in the terminal. A crossing has three lines: the strand from the upper left goes down in its middle, and
    the one from the upper right goes through there from side to side."""
    events, right_of = events_of(slices)
    places = places_of(right_of)
    levels = levels_of(events, places)
    crossed = {level for level, it in zip(levels, events) if it.word in ("left", "right")}
    tops = [0]
    for level in range(max(levels, default=-1) + 1):
        tops.append(tops[-1] + (3 if level in crossed else 1))
    page, open_from = {}, {}

    def put(line, column, text):
        page.update({(line, column + place): sign for place, sign in enumerate(text)})

    for level, (word, left, right) in zip(levels, events):
        x, far_x, middle = 2 * places[left], 2 * places[right], (places[left] + places[right])
        top, bottom = tops[level], tops[level + 1]
        line = top + (bottom - top) // 2
        for column in () if word == "open" else (left, right):
            for it in range(open_from[column], line if word == "close" else top):
                put(it, 2 * places[column], "│")
        if word in ("open", "close"):
            put(line, x, ("╭" if word == "open" else "╰") + "─" * (far_x - x - 1) + ("╮" if word == "open" else "╯"))
        else:
            put(top, x, "╰" + "─" * (middle - x - 1) + "╮")
            put(top, far_x, "│")
            put(top + 1, x, "╭" + "─" * (far_x - x - 1) + "╯")
            put(top + 1, middle, "│" if word == "left" else "─")
            put(top + 2, x, "│")
            put(top + 2, middle, "╰" + "─" * (far_x - middle - 1) + "╮")
        open_from.update({left: line + 1 if word == "open" else bottom, right: line + 1 if word == "open" else bottom})
    width = 2 * max(places.values(), default=0) + 1
    return ["".join(page.get((line, column), " ") for column in range(width)).rstrip() for line in range(tops[-1])]
