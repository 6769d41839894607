"""The search: diagrams with fewer crossings, and diagrams with few crossings to which two others both lead.

All that is found are lines of `edit`. Nothing here is proved, and nothing that is answered rests on it.
"""
from __future__ import annotations

import heapq
import itertools
import random
import time
from collections.abc import Iterator

from .diagrams import CROSSINGS, Key, Reached, line_of
from .strands import Strand, Way, parts, strands

# The most diagrams that slides are tried from, rounds at random without a gain, and lines of one such round.
SLIDES, ROUNDS, DETOUR = 60, 160, 300


class Clock:
    """When a search has to end: after so many seconds of its own work, whatever else the machine does."""

    def __init__(self, seconds: float) -> None:
        self.end = time.thread_time() + seconds

    @property
    def is_over(self) -> bool:
        return time.thread_time() > self.end

    @property
    def left(self) -> float:
        """How many seconds are left."""
        return max(0.0, self.end - time.thread_time())


def tidied(reached: Reached) -> Reached:
    """What is reached where kinks and bigons are taken out, and strands laid along shorter ways, as long as there are such."""
    while True:
        drop = next(itertools.chain(reached.diagram.corners(1), reached.diagram.corners(2)), None)
        moved = (strand.moved(way, reached) for strand, way in shorter(reached)) if drop is None else iter([reached.by(line_of(drop))])
        found = next(filter(None, moved), None)
        if found is None:
            return reached
        reached = found


def shorter(reached: Reached) -> list[tuple[Strand, Way]]:
    """The strands that have a shorter way, with it, the greatest gain first."""
    found = [(strand, strand.shortest()) for strand in (Strand(reached.diagram, run) for run in strands(reached.diagram))]
    pairs = [(strand, way) for strand, way in found if way is not None]
    return sorted(pairs, key=lambda it: (len(it[1]) - len(it[0].passes), len(it[0].passes)))


def simplified(reached: Reached, clock: Clock, goal: int, draw: random.Random, rounds: int = ROUNDS) -> Reached:
    """What is reached with fewer crossings, so many as the goal, if that can be."""
    best = tidied(reached)
    while len(best.diagram) > max(goal, 2) and not clock.is_over:
        found = by_slides(best, clock) or by_chance(best, clock, draw, rounds)
        if found is None:
            break
        best = found
    return best


def by_slides(reached: Reached, clock: Clock) -> Reached | None:
    """What is reached with fewer crossings where some slides come first."""
    seen, waiting = {reached.diagram.key}, [reached]
    for it in waiting:
        for crossings in it.diagram.corners(3):
            found = it.by(line_of(crossings))
            if found.diagram.key not in seen and len(seen) < SLIDES and not clock.is_over:
                seen.add(found.diagram.key)
                waiting.append(found)
                tidy = tidied(found)
                if len(tidy.diagram) < len(reached.diagram):
                    return tidy
    return None


def by_chance(reached: Reached, clock: Clock, draw: random.Random, rounds: int) -> Reached | None:
    """What is reached with fewer crossings where moves at random come first."""
    current = reached
    for _ in range(rounds):
        if clock.is_over:
            return None
        current = tidied(shaken(current, draw))
        if len(current.diagram) < len(reached.diagram):
            return current
        if len(current.diagram) > len(reached.diagram) + 1 or len(current.lines) > len(reached.lines) + DETOUR:
            current = reached
    return None


def shaken(reached: Reached, draw: random.Random) -> Reached:
    """What a few moves at random lead to: strands along other ways that are hardly longer, slides and fingers."""
    for _ in range(draw.randint(1, 3)):
        kind, diagram = draw.random(), reached.diagram
        if kind < 0.5:
            reached = _laid_by_chance(reached, draw)
        else:
            is_slide = kind < 0.8 or len(diagram) + 2 > CROSSINGS
            lines = [line_of(it) for it in diagram.corners(3)] if is_slide else diagram.fingers()
            reached = reached.by(draw.choice(lines)) if lines else reached
    return reached


def _laid_by_chance(reached: Reached, draw: random.Random) -> Reached:
    diagram = reached.diagram
    runs = list(strands(diagram))
    if not runs:
        return reached
    run = draw.choice(runs)
    if draw.random() < 0.3 and len(run) > 1:
        cut = draw.randrange(1, len(run))
        run = draw.choice((run[:cut], run[cut:]))
    strand = Strand(diagram, run)
    ways = list(strand.ways(len(run) + min(draw.choice((0, 1, 1, 2)), CROSSINGS - 2 - len(diagram))))
    way = draw.choice(ways) if ways else None
    if way is None or strand.laid(way).key == diagram.key:
        return reached
    return strand.moved(way, reached) or reached


def beside(reached: Reached, clock: Clock, most: int, seen: set[Key], is_tidied: bool) -> Iterator[Reached]:
    """What is reached by one strand along another way, through at most so many crossings: tidied, if so wanted, and then with no more
    crossings than before; else without kinks."""
    diagram = reached.diagram
    for strand in parts(diagram):
        for way in strand.ways(len(strand.passes) + most - len(diagram)):
            laid = strand.laid(way)
            if clock.is_over:
                return
            if laid.key in seen or not is_tidied and any(laid.corners(1)):
                continue
            seen.add(laid.key)
            moved = strand.moved(way, reached)
            found = moved and (tidied(moved) if is_tidied else moved)
            if found and (not is_tidied or len(found.diagram) <= len(diagram)):
                yield found


def joined(one: Reached, other: Reached, clock: Clock, most: int, is_tidied: bool) -> tuple[Reached, Reached] | None:
    """What is reached from both with one key, by steps as `beside` has them, those of few steps and few crossings first."""
    known: list[dict[Key, Reached]] = [{one.diagram.key: one}, {other.diagram.key: other}]
    seen, ticket = [{one.diagram.key}, {other.diagram.key}], itertools.count()
    waiting = [[(0.0, next(ticket), 0, it)] for it in (one, other)]
    if one.diagram.key == other.diagram.key:
        return one, other
    while (waiting[0] or waiting[1]) and not clock.is_over:
        side = 0 if waiting[0] and (not waiting[1] or len(known[0]) <= len(known[1])) else 1
        _, _, steps, reached = heapq.heappop(waiting[side])
        for found in beside(reached, clock, most, seen[side], is_tidied):
            key = found.diagram.key
            if key in known[1 - side]:
                there = known[1 - side][key]
                return (found, there) if side == 0 else (there, found)
            if key not in known[side]:
                known[side][key] = found
                heapq.heappush(waiting[side], (steps + 1 + len(found.diagram) / 2, next(ticket), steps + 1, found))
    return None


def joined_somehow(one: Reached, other: Reached, clock: Clock) -> tuple[Reached, Reached] | None:
    """The same, near by first; both have as many crossings."""
    for tries, (more, is_tidied) in zip((3, 2, 1), ((1, True), (2, False), (2, True))):
        most = min(len(one.diagram) + more, CROSSINGS)
        found = joined(one, other, Clock(clock.left / tries), most, is_tidied)
        if found:
            return found
    return None
