"""Reads codes of knots and links as many programs print them, and numbers their arcs as `kh` wants them.

`kh-codes` stands on it. A code is read as a tree of bracketed lists, which know where they stand in the text, and becomes crossings with
labels: four at each crossing, counterclockwise from an arc of the under pass.
"""
import re
from typing import Any, NamedTuple

OPEN, CLOSE = "[({", "])}"
TOKEN = re.compile(r"(?P<blank>[\s\\]+)|(?P<number>[-+]?\d+)|(?P<word>[A-Za-z_][A-Za-z_.0-9]*)|(?P<sign>[\[\](){},;:^*])")
BARE = re.compile(r"\s*[-+]?\d+([\s,;]+[-+]?\d+)*\s*")
# The most digits of a number, with its sign, and the most brackets in one another.
LONGEST, DEEPEST = 10, 20
# What a list of crossings, a crossing and a circle without crossings may be called.
DIAGRAMS, CROSSINGS = {"", "PD", "Link", "PlanarDiagram", "pd", "PD_code"}, {"", "X", "Xp", "Xm", "Crossing"}


class Fault(Exception):
    """What is wrong with a code, and at which place of its text."""

    def __init__(self, what, place):
        super().__init__(what)
        self.what, self.place = what, place


class Token(NamedTuple):
    """A token and its place in the text."""

    kind: str
    text: str
    place: int


class Node(NamedTuple):
    """A number, where there are no items; or a list with the word before it, and its items."""

    place: int
    word: str
    value: int
    items: list


class Links(NamedTuple):
    """Crossings as lists of four labels, each label with its place in the text; and the number of circles without crossings."""

    crossings: list
    loops: int
    places: dict


def tokens_of(text):
    """The tokens of a text, and one behind them for its end."""
    tokens, place, depth = [], 0, 0
    while place < len(text):
        found = TOKEN.match(text, place)
        if not found:
            raise Fault(f"no code has a {text[place]!r} here", place)
        depth += (found[0] in OPEN) - (found[0] in CLOSE)
        if depth > DEEPEST or found.lastgroup == "number" and len(found[0]) > LONGEST:
            raise Fault("no code has so large a number" if depth <= DEEPEST else "no code has so many brackets in one another", place)
        if found.lastgroup != "blank":
            tokens.append(Token(found.lastgroup, found[0], place))
        place = found.end()
    return [*tokens, Token("end", "", len(text.rstrip()))]


class Reader:
    """Reads trees of lists from tokens."""

    def __init__(self, text):
        self.tokens, self.at = tokens_of(text), 0

    def next(self):
        return self.tokens[self.at]

    def step(self):
        self.at += 1
        return self.tokens[self.at - 1]

    def tree(self):
        """A number, or a list with a word before it or none."""
        token = self.step()
        if token.kind == "number":
            return Node(token.place, "", int(token.text), None)
        word, place = "", token.place
        if token.kind == "word":
            word, token = token.text, self.step()
        if token.kind == "end" or token.text not in OPEN:
            raise Fault("a bracket is missing before this" if word else "no list and no number begins here", token.place)
        return Node(place, word, None, self.items(token))

    def items(self, opened):
        """The items of a list up to the bracket that closes it; a comma may stand behind the last."""
        items = []
        while not self.is_at_close(opened):
            items.append(self.tree())
            if len(items) > 2 and items[-1].items is not None and are_numbers(items[:-1]):
                raise Fault("this bracket is not closed before the next one opens", opened.place)
            if not self.is_at_close(opened):
                token = self.step()
                if token.text not in (",", ";"):
                    raise Fault("a comma is missing before this", token.place)
        self.close(opened)
        return items

    def is_at_close(self, opened):
        """Whether a bracket closes here; at the end of the text the one that was opened is not closed."""
        if self.next().kind == "end":
            raise Fault("this bracket is not closed", opened.place)
        return self.next().text in CLOSE

    def close(self, opened):
        """Steps over the bracket that closes another."""
        token = self.step()
        if CLOSE.index(token.text) != OPEN.index(opened.text):
            raise Fault(f"this bracket does not close the {opened.text} before it", token.place)

    def finish(self):
        """Refuses what stands behind a code."""
        if self.next().kind != "end":
            raise Fault("the code has ended before this", self.next().place)


def tree_of(text):
    """The tree of a text; several numbers without brackets are a list."""
    if BARE.fullmatch(text):
        numbers = [Node(it.place, "", int(it.text), None) for it in tokens_of(text)[:-1] if it.kind == "number"]
        return Node(numbers[0].place, "", None, numbers) if len(numbers) > 1 else numbers[0]
    reader = Reader(text)
    node = reader.tree()
    reader.finish()
    return node


def numbers_of(node, what):
    """The numbers of a list of nothing but numbers."""
    if node.items is None:
        raise Fault(f"{what} stands in brackets", node.place)
    for item in node.items:
        if item.items is not None:
            raise Fault(f"{what} has no lists in it", item.place)
    return [item.value for item in node.items]


def are_numbers(nodes):
    return all(it.items is None for it in nodes)


def groups_of(node):
    """The numbers, as nodes, of lists of numbers in a list, of one such list, or of a number alone; nothing where it is none of these."""
    if node.items is None:
        return [[node]]
    while len(node.items) == 1 and node.items[0].items is not None and not are_numbers(node.items[0].items):
        node = node.items[0]
    if are_numbers(node.items):
        return [node.items]
    groups = [it.items for it in node.items]
    return groups if None not in groups and all(map(are_numbers, groups)) else None


def unwrapped(node):
    """The list of crossings in brackets and words around it."""
    while node.word in DIAGRAMS and len(node.items) == 1 and node.items[0].items is not None:
        inner = node.items[0]
        if inner.word not in DIAGRAMS or not any(item.items is not None for item in inner.items):
            break
        node = inner
    return node


def read_planar(node):
    """A planar diagram: a list of crossings and circles."""
    node = unwrapped(node)
    if node.word not in DIAGRAMS:
        raise Fault(f"{node.word} is no form of a code", node.place)
    crossings, loops, places = [], 0, {}
    for item in node.items:
        if item.items is None:
            raise Fault("a crossing in brackets is wanted here", item.place)
        labels = numbers_of(item, "a crossing")
        if item.word == "Loop" and len(labels) == 1:
            loops += 1
            continue
        if item.word not in CROSSINGS:
            raise Fault(f"{item.word} is no crossing", item.place)
        if len(labels) != 4:
            raise Fault(f"a crossing has four arcs, and this one has {len(labels)}", item.place)
        for leaf in item.items:
            places.setdefault(leaf.value, []).append(leaf.place)
        crossings.append(labels)
    for label, found in places.items():
        if len(found) != 2:
            times = {1: "once"}.get(len(found), f"{len(found)} times")
            raise Fault(f"each arc stands twice, and {label} stands {times}", found[-1])
    return Links(crossings, loops, places)


def partners_of(crossings):
    """For each dart, a crossing and a slot, the other dart of its arc."""
    darts = {}
    for number, labels in enumerate(crossings):
        for slot, label in enumerate(labels):
            darts.setdefault(label, []).append((number, slot))
    return {dart: other for one, two in darts.values() for dart, other in ((one, two), (two, one))}


def walk(start, partner):
    """The darts by which a component enters its crossings, from this one on."""
    entered, dart = [], start
    while not entered or dart != start:
        entered.append(dart)
        crossing, slot = dart
        dart = partner[crossing, (slot + 2) % 4]
    return entered


def walked_back(entered):
    """The same component the other way: a crossing that was left is entered."""
    return [(crossing, (slot + 2) % 4) for crossing, slot in reversed(entered)]


def rises(entered, crossings):
    """How often a label is followed by the next number, in a walk over a component."""
    labels = [crossings[crossing][slot] for crossing, slot in entered]
    return sum(other == one + 1 for one, other in zip(labels, labels[1:] + labels[:1]))


def along_numbers(entered, crossings):
    """The walk over a component that no under pass directs, in the direction in which its numbers rise more often. Of two arcs the smaller
    one enters the first crossing, as `kh` has it."""
    if len(entered) == 2:
        crossing, slot = min(entered)
        is_back = crossings[crossing][(slot + 2) % 4] < crossings[crossing][slot]
    else:
        is_back = rises(walked_back(entered), crossings) > rises(entered, crossings)
    return walked_back(entered) if is_back else entered


def directed(entered, crossings):
    """The walk in the direction that most of its under passes have, and whether it has any."""
    unders = sorted(it for it in entered if it[1] % 2 == 0)
    if not unders:
        return along_numbers(entered, crossings), False
    forth = sum(slot == 0 for _, slot in unders)
    is_back = unders[0][1] == 2 if 2 * forth == len(unders) else 2 * forth < len(unders)
    return (walked_back(entered) if is_back else entered), True


def numbered(crossings: Any) -> Any:
    """The crossings with arcs numbered from 1 along each component, from its least label, components by their least labels; the crossings
    that were turned, where the first arc was the one on which the under pass goes out; how many components no under pass directs."""
    partner = partners_of(crossings)
    todo, walks, free = set(partner), [], 0
    while todo:
        entered, is_directed = directed(walk(min(todo), partner), crossings)
        todo -= set(entered) | set(walked_back(entered))
        free += not is_directed
        labels = [crossings[crossing][slot] for crossing, slot in entered]
        least = labels.index(min(labels))
        walks.append((min(labels), entered[least:] + entered[:least]))
    number, arcs, turned = 0, {}, set()
    for _, entered in sorted(walks):
        for dart in entered:
            number += 1
            arcs[dart] = arcs[partner[dart]] = number
            if dart[1] == 2:
                turned.add(dart[0])
    result = []
    for crossing in range(len(crossings)):
        slots = [arcs[crossing, slot] for slot in range(4)]
        result.append(slots[2:] + slots[:2] if crossing in turned else slots)
    return result, sorted(it + 1 for it in turned), free


def sphere_counts(crossings: Any) -> tuple[int, int]:
    """The faces of a code, and how many a drawing on a sphere has."""
    partner, seen, faces = partners_of(crossings), set(), 0
    for start in partner:
        faces += start not in seen
        while start not in seen:
            seen.add(start)
            crossing, slot = partner[start]
            start = crossing, (slot - 1) % 4
    piece = list(range(len(crossings)))
    for (one, _), (other, _) in partner.items():
        old, new = piece[one], piece[other]
        piece = [new if it == old else it for it in piece]
    return faces, len(crossings) + 2 * len(set(piece))


def text_of(crossings: Any, loops: int) -> str:
    """The text that `kh` reads, as `kh convert` writes it."""
    items = ["X[{}, {}, {}, {}]".format(*it) for it in crossings]
    items += [f"Loop[{2 * len(crossings) + loop}]" for loop in range(1, loops + 1)]
    return f"PD[{', '.join(items)}]"
