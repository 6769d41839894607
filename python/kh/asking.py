"""Asks a function for the tables of links, some at once, and tells why it gave none."""
from __future__ import annotations

import inspect
import signal
import subprocess
from collections.abc import Callable, Iterator, Sequence
from concurrent.futures import ThreadPoolExecutor
from typing import Any, NamedTuple

from .links import Link

# How much of what a program said is told.
LONGEST = 200


class Wanted(NamedTuple):
    """A table that is asked for: the name of the link, the link, and the field, where the function wants to know it."""

    name: str
    link: Link
    field: Any = None


class Given(NamedTuple):
    """What a function gave, or why it gave nothing."""

    wanted: Wanted
    value: Any
    cause: str = ""


def takes_two(mine: Callable[..., Any]) -> bool:
    """Whether a function wants a field beside the link."""
    kinds = (inspect.Parameter.POSITIONAL_ONLY, inspect.Parameter.POSITIONAL_OR_KEYWORD)
    try:
        parameters = inspect.signature(mine).parameters.values()
    except ValueError:
        return False
    return len([it for it in parameters if it.kind in kinds and it.default is it.empty]) > 1


def answers(mine: Callable[..., Any], wanted: Sequence[Wanted], jobs: int, is_told: bool) -> Iterator[Given]:
    """What a function gives, in this order, with so many calls at once; how far that is is told on standard error, or not."""
    from .tabulate.telling import Progress

    progress, takes_field = Progress(len(wanted), 0) if is_told else None, takes_two(mine)

    def one(it: Wanted) -> Given:
        try:
            return Given(it, mine(it.link, it.field) if takes_field else mine(it.link))
        except Exception as fault:
            return Given(it, None, cause_of(fault))

    pool = ThreadPoolExecutor(jobs) if jobs > 1 else None
    try:
        for it in pool.map(one, wanted) if pool else map(one, wanted):
            if progress:
                progress.step(1)
            yield it
    finally:
        if pool:
            pool.shutdown(cancel_futures=True)
        if progress:
            progress.end()


def cause_of(fault: Exception) -> str:
    """Why there is no answer, in a line: how the program ended, or the exception."""
    if isinstance(fault, subprocess.TimeoutExpired):
        return f"the program took longer than {round(fault.timeout, 2):g} seconds"
    if isinstance(fault, subprocess.CalledProcessError):
        said = _last_line(fault.stderr) or _last_line(fault.output)
        return how_it_ended(fault.returncode) + (f": {said}" if said else "")
    lines = str(fault).strip().splitlines()
    return f"it raised {type(fault).__name__}" + (f": {lines[0][:LONGEST]}" if lines else "")


def how_it_ended(status: int) -> str:
    """How a program ended that did not end well."""
    if status >= 0:
        return f"the program ended with status {status}"
    known = {int(it): it.name for it in signal.Signals}
    return f"the program was ended by signal {-status}" + (f" ({known[-status]})" if -status in known else "")


def _last_line(said: Any) -> str:
    """The last line of what a program wrote, where it was kept."""
    text = said.decode(errors="replace") if isinstance(said, bytes) else said or ""
    lines = str(text).strip().splitlines()
    return lines[-1].strip()[:LONGEST] if lines else ""
