"""Reads the lists of `kh-tabulate`, line by line, however long they are."""
from __future__ import annotations

import itertools
import os
import stat
import sys
from collections.abc import Callable, Iterable, Iterator
from typing import IO

from ..codes import link_names, refusals, statements, stored_names, turning

INPUT = "-"
# What begins most codes that `kh` reads.
OWN = ("PD[", "[[")
Said = Callable[[str], None]
Named = tuple[str, str]


def is_link(line: str) -> bool:
    """Whether a line has a link: blank ones and comments have none."""
    return bool(line.strip()) and not line.startswith("#")


def is_foreign(code: str) -> bool:
    """Whether a code is in none of the forms that `kh` reads."""
    return bool(code.strip()) and not code.startswith(OWN) and refusals.is_foreign(code.encode(errors="replace"))


def of_name(text: str) -> turning.Turned | None:
    """The link whose name a text is, as `tools/kh-codes` reads it; nothing where it is none that is known."""
    if not link_names.name_of(text) and not stored_names.is_meant(text):
        return None
    found = [*turning.all_of(text)]
    return found[0] if len(found) == 1 and not found[0].fault else None


def of_lines(lines: Iterable[str], path: str, say: Said) -> Iterator[Named]:
    """The name and the code of each line of a list. The name of a link in place of a code is read; how many codes are in none of the forms
    that `kh` reads is said at the end."""
    foreign = []
    for number, line in enumerate(lines, 1):
        line = line.rstrip("\n")
        if not is_link(line):
            continue
        name, tab, code = line.partition("\t")
        if not tab:
            name, code = f"line {number}", line
        if is_foreign(code):
            known = of_name(code)
            if known:
                name, code = name if tab else known.name, known.code
                for said in turning.in_a_line(path, known._replace(name=name, line=number)):
                    say(said)
            else:
                foreign.append(number)
        yield name, code
    if foreign:
        count = "1 code is" if len(foreign) == 1 else f"{len(foreign)} codes are"
        first = f"in line {foreign[0]}" if len(foreign) == 1 else f"the first in line {foreign[0]}"
        say(f"kh-tabulate: {path}: {count} in none of the forms that kh reads, {first}: tools/kh-codes --names turns other forms into one")


def of_table(text: str, path: str, say: Said) -> Iterator[Named]:
    """The name and the code of each row of a table with a heading, as `tools/kh-codes` reads it."""
    yield from ((it.name, line) for it, line in turning.converted(path, text, say, keep=True) if is_link(line))


def is_heading(line: str) -> bool:
    return statements.heading_of(line.rstrip("\n")) is not None


def of_file(file: IO[str], path: str, say: Said) -> Iterator[Named]:
    """The same of a file that is read once, so that it may be a pipe."""
    head = []
    for line in file:
        head.append(line if head else line.removeprefix("\ufeff"))
        if is_link(head[-1]):
            break
    if head and is_heading(head[-1]):
        yield from of_table("".join([*head, file.read()]), path, say)
    else:
        yield from of_lines(itertools.chain(head, file), path, say)


def links(path: str, is_told: bool = True) -> Iterator[Named]:
    """The name and the code of each link of a list, or of a table that other programs print; of standard input, where the path is -. What
    there is to say of them is told on standard error, or not."""

    def say(said: str) -> None:
        if is_told:
            print(said, file=sys.stderr)

    if path == INPUT:
        yield from of_file(sys.stdin, path, say)
        return
    with open(path, encoding="utf-8") as file:
        yield from of_file(file, path, say)


def need(path: str) -> None:
    """Refuses a list that can not be opened. (A pipe is opened once alone.)"""
    if path != INPUT and not stat.S_ISFIFO(os.stat(path).st_mode):
        with open(path, "rb"):
            pass
