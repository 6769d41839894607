"""Checks an answer of `same` or `identify`, whoever gave it: with the programs alone, and with nothing of the search."""
from __future__ import annotations

import json
from typing import Any

from .. import programs
from ..links import Link
from ..refused import need_answer


def check_answer(answer: str) -> bool:
    """Whether a text of JSON, as `Same.json` has it, proves what it answers, whoever wrote it. For "one link" `kh edit` replays both
    scripts, and they have to lead to one text, which so is a diagram of both links; for "different" both tables are asked for, and have to
    differ in the row that is named. Where there is a name the second code has to be that of the name. "not decided" proves nothing."""
    try:
        it = json.loads(answer)
        first, second = (_wrote(["convert"], it[which]) for which in ("first", "second"))
        return _is_named(it, second) and (_are_one(it, first, second) or _are_different(it, first, second))
    except (ValueError, LookupError, TypeError, AttributeError):
        return False


def _are_one(it: dict[str, Any], first: str, second: str) -> bool:
    """Whether the scripts lead from both to one text; the second is turned round before, where that is said."""
    if it["same 1"] != "one link":
        return False
    second = _wrote(["reverse"], second) if it["reversed"] else second
    ends = {_behind(code, lines) for code, lines in zip((first, second), it["scripts"], strict=True)}
    return ends == {it["meets"]} == {_wrote(["convert"], it["meets"])}


def _are_different(it: dict[str, Any], first: str, second: str) -> bool:
    """Whether the tables have these dimensions in this row, and they are not the same."""
    if it["same 1"] != "different":
        return False
    one, other = (Link._of_code(code).table(it["field"])[it["j"], it["i"]] for code in (first, second))
    return [one, other] == it["dimensions"] and one != other


def _is_named(it: dict[str, Any], second: str) -> bool:
    """Whether the second code is that of the name, or of its mirror image; so it is where there is none."""
    named = Link(it["name"]) if "name" in it else Link._of_code(second)
    return (named.mirror() if it.get("mirrored") else named).code == second


def _behind(code: str, lines: list[str]) -> str:
    """The diagram behind a script, as `edit` writes it."""
    return _wrote(["edit"], f"{code};\n" + "\n".join(lines)).splitlines()[-1].partition(" ")[2] if lines else code


def _wrote(words: list[str], given: str) -> str:
    """What `kh` writes; what it refuses is raised."""
    return need_answer(programs.run(words, given), words[0], given).strip()
