"""A plain second reading of the words that follow the program's name, from `docs/FORMATS.md` alone.

`command_of(words)` gives the command of `kh` and its options, and `asked_of_scan(words)` what is asked of `kh-scan`; None where the words
give nothing.
"""
import re
from typing import NamedTuple

COMMANDS = ("homology", "jones", "check", "convert", "schedule", "edit", "bench")
COMMANDS += ("draw", "certify", "verify", "reduced", "mirror", "reverse", "union")
NEEDED = {"bench": "--number", "reduced": "--mark"}

# The values of each option, and what it is worth where it does not stand there.
OPTIONS = {
    "--field": (re.compile("[2357]"), "2"),
    "--workers": (re.compile("0?[1-9]|[1-5][0-9]|6[0-4]"), "1"),
    "--to": (re.compile("pd|gauss"), "pd"),
    "--number": (re.compile("[0-9]{1,7}"), None),
    "--mark": (re.compile("[01]?[0-9]{1,2}|2[0-4][0-9]|25[0-5]"), None),
}
SCAN_OPTIONS = {"--field": (re.compile("[2357]|all"), "2")}


def sorted_out(words, options):
    """The commands and the options with their values, in the order of the words; None where a word is neither."""
    commands, given, left = [], [], list(words)
    while left:
        word = left.pop(0)
        name, equals, value = word.partition("=")
        if word == "--":
            return commands + left, given
        if word in options:
            if not left:
                return None
            given.append((word, left.pop(0)))
        elif equals and name in options:
            given.append((name, value))
        elif word.startswith("-"):
            return None
        else:
            commands.append(word)
    return commands, given


def command_of(words, commands=COMMANDS, options=OPTIONS):
    """A table of the command and of the values of all options, or None."""
    found = sorted_out(words, options)
    if not found or len(found[0]) != 1 or found[0][0] not in commands:
        return None
    (task,), given = found
    values = dict(given)
    if len(values) < len(given) or not all(options[name][0].fullmatch(value) for name, value in given):
        return None
    if task in NEEDED and NEEDED[task] not in values:
        return None
    return {"task": task, **{name: values.get(name, without) for name, (_, without) in options.items()}}


class Asked(NamedTuple):
    """What is asked of `kh-scan`: whether it is the lines of a list, and over which fields."""

    is_list: bool
    fields: str


def asked_of_scan(words):
    """What is asked of `kh-scan`, or None."""
    found = sorted_out(words, SCAN_OPTIONS)
    if not found or found[0] not in ([], ["each"]) or len(found[1]) > 1:
        return None
    (value,) = [value for _, value in found[1]] or ["2"]
    is_list = found[0] == ["each"]
    if not SCAN_OPTIONS["--field"][0].fullmatch(value) or (value == "all" and not is_list):
        return None
    return Asked(is_list, "2357" if value == "all" else value)
