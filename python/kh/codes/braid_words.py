"""Reads braid words and closes them: `braid 3: 1 2 1 2`, `braid: (1 2)^5 -1`, `BR[3, {1, 2, 1, 2}]`, `{3, {1, 2, 1, 2}}`."""
import re

from . import codes

WORD = re.compile(r"(?i)braid\b|BR\b")
PAIR = re.compile(r"\s*[{\[(]\s*\d+\s*,\s*[{\[(][^{\[(]*$")
POWERS = re.compile(r"[\s\d()\[\]{}+*,;^-]*[\])}]\s*\^[\s\d()\[\]{}+*,;^-]*")
LETTERS, STRANDS = 1_000, 1_000


def closure(strands, letters):
    """The closed braid of these letters: m lets the strand at m cross over the next, -m under it; strands go upwards. Its labels rise along
    each component."""
    at, fresh, crossings, after = list(range(strands)), strands, [], {}
    for letter in letters:
        left = abs(letter) - 1
        low_left, low_right, high_left, high_right = at[left], at[left + 1], fresh, fresh + 1
        crossings.append([low_right, high_right, high_left, low_left] if letter > 0 else [low_left, low_right, high_right, high_left])
        after.update({low_left: high_right, low_right: high_left})
        at[left], at[left + 1], fresh = high_left, high_right, fresh + 2
    bottom_of = dict(zip(at, range(strands)))
    loops = sum(top == bottom for top, bottom in bottom_of.items())
    closed = [[bottom_of.get(label, label) for label in it] for it in crossings]
    numbers = numbers_along({label: bottom_of.get(it, it) for label, it in after.items()}, closed, letters)
    return codes.Links([[numbers[label] for label in it] for it in closed], loops, {})


def numbers_along(after, crossings, letters):
    """Numbers that rise along each component, beginning with its least label; of two arcs that go over twice the one that enters the first
    crossing comes first."""
    unders = {label for labels in crossings for label in labels[::2]}
    numbers = {}
    for label in sorted(after):
        if label not in numbers and after[after[label]] == label and not unders & {label, after[label]}:
            label = next(it[3 if letter > 0 else 1] for it, letter in zip(crossings, letters) if label in it)
        while label not in numbers:
            numbers[label] = len(numbers) + 1
            label = after[label]
    return numbers


class Reader(codes.Reader):
    """Reads braid words from tokens: letters and groups, as nodes, with powers written out."""

    def is_over(self, opened):
        """Whether the group that a bracket opened ends here, or the word, where none did."""
        return self.is_at_close(opened) if opened else self.next().kind == "end"

    def word(self, opened=None):
        """The letters and groups up to the bracket that closes them, or up to the end."""
        items = []
        while not self.is_over(opened):
            token = self.step()
            if token.kind == "number":
                items.append(codes.Node(token.place, "", int(token.text), None))
            elif token.text in codes.OPEN:
                items.append(codes.Node(token.place, "", None, self.word(token)))
            elif token.text == "^" and items:
                items.append(self.power(letters_of([items.pop()]), token.place))
            elif token.text not in (",", ";", "*"):
                raise codes.Fault("a letter of a braid is a number", token.place)
        if opened:
            self.close(opened)
        return items

    def power(self, letters, place):
        """So many times these letters, or their inverses in the other order, as a group."""
        token = self.step()
        if token.kind != "number":
            raise codes.Fault("a power of letters is a number", token.place)
        times = int(token.text)
        if len(letters) * abs(times) > LETTERS:
            raise codes.Fault(f"a braid word has at most {LETTERS} letters here", place)
        if times < 0:
            letters = [it._replace(value=-it.value) for it in reversed(letters)]
        return codes.Node(place, "", None, letters * abs(times))


def is_one(text):
    """Whether a text has the word of a braid before it, is a number of strands with a list of letters, or has powers of groups."""
    return bool(WORD.match(text.lstrip()) or PAIR.match(text) or POWERS.fullmatch(text))


def letters_of(items):
    """The letters of letters and groups."""
    return [letter for it in items for letter in ([it] if it.items is None else letters_of(it.items))]


def head_of(reader):
    """The number of strands before a colon, where there is one, as a node; the word and the colon are read too."""
    if reader.next().kind == "word":
        reader.step()
    strands = None
    if reader.next().kind == "number" and reader.tokens[reader.at + 1].text == ":":
        strands = codes.Node(reader.next().place, "", int(reader.step().text), None)
    if reader.next().text == ":":
        reader.step()
    return strands


def read(text):
    """The number of strands and the closed braid of a text, with or without a word before it."""
    reader = Reader(text)
    strands, items = head_of(reader), reader.word()
    pair = items[0].items if len(items) == 1 else None
    if pair and len(pair) == 2 and pair[0].items is None and pair[1].items is not None:
        if strands:
            raise codes.Fault("the number of strands stands before the colon already", pair[0].place)
        strands, items = pair
        items = items.items
    letters = letters_of(items)
    count = strands.value if strands else max((abs(it.value) for it in letters), default=0) + 1
    if not 1 <= count <= STRANDS:
        raise codes.Fault(f"a braid has 1 to {STRANDS} strands here", strands.place if strands else reader.tokens[0].place)
    for letter in letters:
        if not letter.value:
            raise codes.Fault("0 is no letter of a braid: letters are 1, 2 and so on, and -1, -2 for their inverses", letter.place)
        if not 1 <= abs(letter.value) < count:
            raise codes.Fault(f"a braid on {count} strands has the letters 1 to {count - 1} and their inverses alone", letter.place)
    return count, closure(count, [it.value for it in letters])
