"""Tells which form a code has, and reads it: names, braid words, Gauss and DT codes, planar diagrams."""
from typing import Any

from . import braid_words, codes, dowker, gauss_codes, link_names, statements, stored_names

NO_BRAID = "; before a braid word write braid:"
WHICH = (
    "a list of numbers does not say what it is: write braid: before a braid word, DT: before a DT code, "
    "GaussCode[..] Signs[..] for a Gauss code"
)


def read(text: str, form: str, known: dict[str, Any]) -> tuple[codes.Links, list[str]]:
    """The crossings of a code, of the form that is told or of the one that it looks like, and what there is to say of that form."""
    if form == statements.MISSING:
        raise codes.Fault("this row has no code in the columns that are read", 0)
    if form == statements.DOWKER or not form and dowker.WORD.match(text):
        return dowker.read(text)
    if form == statements.BRAID or braid_words.is_one(text):
        strands, links = braid_words.read(text)
        return links, [f"a braid word, closed on {strands} strand{'s' if strands > 1 else ''}"]
    name, place = link_names.name_of(text), len(text) - len(text.lstrip())
    if name and link_names.is_known(name, known):
        return link_names.read(name, place, known)
    if (name or stored_names.is_meant(text)) and stored_names.name_of(text):
        return stored_names.read(stored_names.name_of(text))
    if name:
        raise link_names.fault_of(name, known, place)
    if text.lstrip().startswith("Gauss"):
        return gauss_codes.read(text), ["a Gauss code"]
    try:
        node = codes.tree_of(text)
    except codes.Fault:
        if stored_names.is_meant(text):
            raise link_names.fault_of(text.strip(), known, place) from None
        raise
    if node.items is None:
        raise codes.Fault("a number is no code", node.place)
    return read_list(node)


def read_list(node):
    """The same of a list: its numbers tell a DT code and a Gauss code from a list of crossings."""
    groups = None if node.word else codes.groups_of(node)
    if not groups or not any(groups):
        return codes.read_planar(node), []
    is_flat, components = groups[0] is node.items, gauss_codes.from_one([[it.value for it in them] for them in groups])
    other = NO_BRAID if is_flat else ""
    if dowker.looks_like_one(groups):
        try:
            return dowker.links_of(groups)
        except codes.Fault as fault:
            raise codes.Fault(fault.what + other, fault.place) from None
    if gauss_codes.is_whole(components):
        raise codes.Fault(gauss_codes.what_to_write(components) + other, node.place)
    if is_flat:
        raise codes.Fault(WHICH, node.place)
    return codes.read_planar(node), []
