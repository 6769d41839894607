"""Reads planar diagrams whose arcs `kh-codes` has not to number anew, with nothing to say of them, about thirty times faster than the tree
of `codes.py`: most lists of other programs are so. What is not is left to that.

Without its digits such a code is one of a few texts, so that one look says that it is a list, of how many crossings, and in which form. Its
numbers, which are bytes, are then compared with those that `codes.numbered` would give, and its faces are counted: a table of 256 bytes is
a permutation, and `translate` composes two of them.
"""
MOST = 32
BLANKS = str.maketrans(dict.fromkeys("PDX[](),", " "))
NO_DIGITS = str.maketrans("", "", "0123456789")
NUMBERS = {str(label): label for label in range(1, 2 * MOST + 1)}
# How a list, its crossings, the signs between crossings and between arcs are written, and what makes of it the text that `kh` writes.
FORMS = (
    ("PD[{}]", "X[{}]", ", ", ", ", lambda text: text),
    ("PD[{}]", "X[{}]", ",", ",", lambda text: text.replace(",", ", ")),
    ("PD[{}]", "X[{}]", ", ", ",", lambda text: text.replace("], ", "],").replace(",", ", ")),
    ("[{}]", "[{}]", ",", ",", lambda text: f"PD[{text[1:-1].replace('[', 'X[').replace(',', ', ')}]"),
    ("[{}]", "[{}]", ", ", ", ", lambda text: f"PD[{text[1:-1].replace('[', 'X[')}]"),
    ("[{}]", "({})", ",", ",", lambda text: f"PD[{text[1:-1].replace('(', 'X[').replace(')', ']').replace(',', ', ')}]"),
    ("[{}]", "({})", ", ", ", ", lambda text: f"PD[{text[1:-1].replace('(', 'X[').replace(')', ']')}]"),
)
# The number of crossings and the form of each text without its digits.
SHAPES = {
    whole.format(between.join([crossing.format(3 * comma)] * count)): (count, written)
    for count in range(1, MOST + 1)
    for whole, crossing, between, comma, written in FORMS
}
PLACES = bytes(range(256))
# The place of the number before each, round its crossing.
BEFORE = bytes(place - 1 if place % 4 else place + 3 for place in PLACES)
# Of so many crossings all labels in their order, and what follows each arc of a knot.
TWICE = [[1 + place // 2 for place in range(4 * count)] for count in range(MOST + 1)]
ROUND = [bytes.maketrans(PLACES[1 : 2 * count + 1], bytes([*range(2, 2 * count + 1), 1][: 2 * count])) for count in range(MOST + 1)]
# The numbers that divide each and are less.
DIVISORS = [[it for it in range(1, length // 2 + 1) if length % it == 0] for length in range(4 * MOST + 1)]


def is_round(labels, count):
    """Whether one component goes round as the labels rise, and goes under by the first arc of each crossing."""
    after = ROUND[count]
    if labels[::4].translate(after) != labels[2::4]:
        return False
    tails = {*labels[::4]}
    for one, other in zip(labels[1::4], labels[3::4]):
        if after[one] == other:
            tails.add(one)
        elif after[other] == one:
            tails.add(other)
        else:
            return False
    return len(tails) == 2 * count


def followers(labels):
    """The arc that follows each one: of two arcs that differ by one the greater follows, else the smaller, and where two arcs are a
    component each follows the other. Less where two follow one."""
    after = dict(zip(labels[::4], labels[2::4]))
    for one, other in zip(labels[1::4], labels[3::4]):
        if one > other:
            one, other = other, one
        if other - one == 1 and after.get(one) != other:
            after[one] = other
        else:
            after[other] = one
    return after


def components_of(labels, count):
    """For each arc the number of its component, from 0, as bytes, and how many there are, where numbers rise by one along each; else
    nothing."""
    after = followers(labels)
    if len(after) < 2 * count:
        return b"", 0
    numbers, number, first = bytearray(256), 0, 1
    for label in range(1, 2 * count + 1):
        numbers[label] = number
        if after[label] == first:
            number, first = number + 1, label + 1
        elif after[label] != label + 1:
            return b"", 0
    return numbers, number


def pieces_of(labels, count):
    """How many pieces a diagram has whose arcs are numbered as `kh` wants them; 0 where they are not."""
    if is_round(labels, count):
        return 1
    numbers, components = components_of(labels, count)
    if not components:
        return 0
    unders, piece = labels[::4].translate(numbers), list(range(components))
    for one, other in {*zip(unders, labels[1::4].translate(numbers))}:
        old, new = piece[one], piece[other]
        if old != new:
            piece = [new if it == old else it for it in piece]
    return len({*piece})


def partners(labels):
    """For each place the other one of its label: of the first and the last place of a label the one that it is not."""
    size = len(labels)
    places = PLACES[:size]
    first = labels.translate(bytes.maketrans(labels[::-1], places[::-1]))
    last = labels.translate(bytes.maketrans(labels, places))
    both = int.from_bytes(first, "big") ^ int.from_bytes(last, "big")
    return (both ^ int.from_bytes(places, "big")).to_bytes(size, "big")


def cycle_count(permutation):
    """How many cycles a permutation of places has: the places that are back after so many steps are in cycles of that length, or of one
    that divides it."""
    size, at, length, count = len(permutation), permutation, 0, 0
    table, places = permutation + PLACES[size:], int.from_bytes(PLACES[:size], "big")
    exact, left = [0], size
    while left:
        length += 1
        back = (int.from_bytes(at, "big") ^ places).to_bytes(size, "big").count(0)
        for divisor in DIVISORS[length] if back else ():
            back -= exact[divisor]
        exact.append(back)
        count += back // length
        left -= back
        at = at.translate(table)
    return count


def is_fit(labels, count):
    """Whether the labels of so many crossings are numbered as `kh` wants them, and the diagram can be drawn on a sphere."""
    if sorted(labels) != TWICE[count]:
        return False
    pieces = pieces_of(labels, count)
    return pieces > 0 and cycle_count(partners(labels).translate(BEFORE)) == count + 2 * pieces


def written(text: str) -> str:
    """The text of `kh` for a planar diagram that stays as it is; nothing for what is none, or has to be looked at."""
    found = SHAPES.get(text.translate(NO_DIGITS))
    if not found:
        return ""
    count, as_kh_writes = found
    try:
        labels = bytes(map(NUMBERS.__getitem__, text.translate(BLANKS).split()))
    except KeyError:
        return ""  # (no number of an arc, or one with zeros before it)
    return as_kh_writes(text) if len(labels) == 4 * count and is_fit(labels, count) else ""
