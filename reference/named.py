"""The codes of the links that the reference has names for, from braid words and DT codes."""
import beside  # noqa: F401
from kh.codes import codes, link_names
import plain.diagrams


def numbered(crossings, loops=0):
    """The code of crossings with any numbers of arcs."""
    return plain.diagrams.Code(tuple(map(tuple, codes.numbered(crossings)[0])), loops)


def code_of(rest):
    """The code of what the reference has of a link: strands and letters, or a sign and the entries of a DT code."""
    links = link_names.links_of(rest)
    return numbered(links.crossings, links.loops)


def prime_links():
    """The name and the code of each link of `prime.txt`."""
    for name, rest in link_names.lines_of(link_names.PRIME):
        yield name, code_of(rest)
