"""What some answers have in common that others have not: the field, the negative crossings, the components and the loops of their links."""
from __future__ import annotations

from collections.abc import Iterator, Mapping, Sequence
from typing import Any

# An answer by the name of its link and over what it is, in words.
Case = tuple[str, str]
# How likely it may be, at most, that what is told is so by chance.
CHANCE = 0.01
FIELD, CROSSINGS, COMPONENTS, LOOPS = range(4)


def features(line: Mapping[str, Any], over: str) -> Iterator[tuple[int, str]]:
    """What is so of an answer to a link, of which this is a line of the reference: each with its kind."""
    if over:
        yield FIELD, f"are {over}"
    if "minus" in line:
        minus = line["minus"]
        yield CROSSINGS, f"have {'a' if minus else 'no'} negative crossing"
        yield CROSSINGS, f"have an {'odd' if minus % 2 else 'even'} number of negative crossings"
        yield from [(CROSSINGS, f"have {minus} negative crossings")] if minus > 1 else []
    if "jones" in line:
        # (at q = 1 the polynomial is 2 to the power of the number of components)
        count = sum(coefficient for _, coefficient in line["jones"]).bit_length() - 1
        yield COMPONENTS, "have one component" if count == 1 else "have not one component"
        yield from [(COMPONENTS, f"have {count} components")] if count > 1 else []
    yield LOOPS, f"have {'a' if 'Loop' in line['pd'] else 'no'} loop"


def of_case(case: Case, lines: Mapping[str, Mapping[Any, Mapping[str, Any]]]) -> set[tuple[int, str]]:
    """The same by the lines of the reference."""
    name, over = case
    return set(features(next(iter(lines[name].values())), over))


def in_common(some: Sequence[Case], others: Sequence[Case], lines: Mapping[str, Any], words: str) -> Iterator[str]:
    """A line for each thing that is so of all of these and of few of the others, of which the words say what they are; one of a kind."""
    if len(some) < 2 or not others:
        return
    shared, there = set.intersection(*(of_case(it, lines) for it in some)), [of_case(it, lines) for it in others]
    counts = sorted((sum(feature in it for it in there), feature) for feature in shared)
    told: set[int] = set()
    for count, (kind, what) in counts:
        by_chance = ((count + len(some)) / (len(others) + len(some))) ** len(some)
        if by_chance < CHANCE and kind not in told:
            told.add(kind)
            yield f"in common: all of them {what}, and {count or 'none'} of the {len(others)} {words}"
