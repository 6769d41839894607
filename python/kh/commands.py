"""What the commands share: their words, the texts that they are given, and how they end."""
from __future__ import annotations

import argparse
import functools
import inspect
import sys
from collections.abc import Callable, Sequence


class Unreadable(Exception):
    """A text that is none of those that a command reads; it says what is wrong, and in which line."""


def reader(document: str | None, name: str | None = None) -> argparse.ArgumentParser:
    """A reader of words, which says with --help what this document has."""
    text = inspect.cleandoc(document or "")
    return argparse.ArgumentParser(prog=name, description=text, formatter_class=argparse.RawDescriptionHelpFormatter)


def given(paths: Sequence[str]) -> str:
    """The text of all these files, one behind the other, or of standard input where there are none."""
    texts = []
    for path in paths:
        with open(path, encoding="utf-8") as file:
            texts.append(file.read())
    return "".join(texts) if paths else sys.stdin.read()


def command(main: Callable[[], object]) -> Callable[[], None]:
    """A command, which ends with 0, or with 1 and a line on standard error where a text is refused or a file is missing."""

    @functools.wraps(main)
    def run() -> None:
        try:
            main()
            sys.stdout.flush()
        except (Unreadable, OSError, UnicodeDecodeError) as fault:
            sys.exit(f"{sys.argv[0].rsplit('/', 1)[-1]}: {fault}")

    return run
