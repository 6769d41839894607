"""The links of `large.jsonl`: torus links, pretzel links and closed braids whose diagrams have 14 to 20 crossings."""
import beside  # noqa: F401
from kh.codes import braid_words, codes
import plain.diagrams
import scan_links

LEAST, MOST = 14, 20
PRETZELS = (*scan_links.PRETZELS, (-2, 3, 11), (-2, 5, 7), (3, 5, 7), (-3, 5, 7), (2, -3, 4, -5))
# Closed braids: the number of strands, a word, and how often it is said.
BRAIDS = (
    *((3, "1 -2", times) for times in (7, 8, 9, 10)),
    *((4, "1 -2 3", times) for times in (5, 6)),
    *((5, "1 -2 3 -4", times) for times in (4, 5)),
    *((6, "1 -2 3 -4 5", times) for times in (3, 4)),
    (7, "1 -2 3 -4 5 -6", 3),
    *((3, word, times) for word in ("1 1 -2 -2", "1 1 1 -2") for times in (4, 5)),
    *((3, "1 1 2", times) for times in (5, 6)),
    *((3, "1 1 1 2 2", times) for times in (3, 4)),
    *((4, word, times) for word in ("1 2 3 -2", "1 -2 3 2", "1 2 2 3") for times in (4, 5)),
    *((4, word, times) for word in ("1 1 2 -3 2", "1 2 3 3 -2") for times in (3, 4)),
    *((5, word, times) for word in ("1 2 -3 4", "1 -2 -3 4") for times in (4, 5)),
)


def closed(strands, letters):
    """The code of a closed braid."""
    links = braid_words.closure(strands, letters)
    return plain.diagrams.Code(tuple(map(tuple, codes.numbered(links.crossings)[0])), links.loops)


def torus_links():
    """The name and the code of each torus link, on the fewest strands."""
    for strands in range(2, MOST):
        for turns in range(strands, MOST + 1):
            if LEAST <= (strands - 1) * turns <= MOST:
                yield f"T({strands},{turns})", closed(strands, [*range(1, strands)] * turns)


def links():
    """The name and the code of each link."""
    yield from torus_links()
    for columns in PRETZELS:
        if LEAST <= sum(map(abs, columns)) <= MOST:
            yield f"P({','.join(map(str, columns))})", plain.diagrams.read(scan_links.pretzel(columns))
    for strands, word, times in BRAIDS:
        yield f"closure of ({word})^{times} on {strands} strands", closed(strands, list(map(int, word.split())) * times)
