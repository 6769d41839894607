"""Names that the files of tables alone have, such as `3 loops`, `3_1 and two loops` and `P(-2,3,7)`, with their planar diagrams."""
from __future__ import annotations

import functools
import json
import re

from ..places import reference_file
from . import codes

# The files of the reference.
FILES = {"reference": "vectors.jsonl", "prime": "prime.jsonl", "large": "large.jsonl"}
# What may be meant as a name: words without the brackets of a list, and no word directly before a bracket.
MEANT = re.compile(r"(?!\w*\s*[(\[{])[\w ^{}(),+#'-]*[A-Za-z][\w ^{}(),+#'-]*")


@functools.cache
def known() -> dict[str, str]:
    """The planar diagram of each name of the files; of the prime knots there are braid words and DT codes already."""
    found: dict[str, str] = {}
    for path in (reference_file(FILES[it]) for it in ("large", "reference")):
        with open(path, encoding="utf-8") as file:
            found.update({it["name"]: it["pd"] for it in map(json.loads, file) if "name" in it})
    return found


def name_of(text: str) -> str:
    """The name of these files that a text is; nothing where it is none."""
    name = " ".join(text.split())
    return name if name and name in known() else ""


def read(name: str) -> tuple[codes.Links, list[str]]:
    """The crossings of the link of this name, and what there is to say."""
    return codes.read_planar(codes.tree_of(known()[name])), [f"the reference's diagram of {name}"]


def is_meant(text: str) -> bool:
    """Whether a text that is no code may be meant as a name."""
    return bool(MEANT.fullmatch(text.strip()))
