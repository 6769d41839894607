#!/usr/bin/env python3
"""Checks a log of cancellations as docs/LOG-FORMAT.md says it, without code of `kh`: show/verify.py < LOG.
It builds the cube block by block, makes each cancellation of the log, and compares the table that is left with the log's."""
import re
import sys

GENERATORS, LOG_BYTES, TEXT_BYTES = 4194304, 67108864, 65536
_, NUMBER = rb"[ \t\r\n]*", rb"[ \t\r\n]*-?[0-9]+[ \t\r\n]*"
ITEM = _ + rb"(?:X" + _ + rb"\[" + rb",".join([NUMBER] * 4) + rb"\]|Loop" + _ + rb"\[" + NUMBER + rb"\])" + _
TEXT = re.compile(_ + b"PD" + _ + rb"\[(?:" + ITEM + b"(?:," + ITEM + b")*|" + _ + rb")\]" + _)
CANCEL = re.compile(rb"cancel (0|-?[1-9][0-9]{0,2}) (0|[1-9][0-9]{0,6}) (0|[1-9][0-9]{0,6})")
BLOCK = re.compile(rb"block (0|-?[1-9][0-9]{0,2})")
# the labels of the touched circles behind an edge, by how many there are before it and how many of these are v-
MADE = {(2, 0): [(0,)], (2, 1): [(1,)], (2, 2): [], (1, 0): [(0, 1), (1, 0)], (1, 1): [(1, 1)]}


class Fails(Exception):
    """A line fails, with its number and the cause."""


def read_diagram(text):
    """The crossings and the number of loops that a planar diagram text lists; None where it is none, or too large."""
    numbers = [n.lstrip(b"-0").rjust(1, b"0") for n in re.findall(rb"-?[0-9]+", text)]
    if not TEXT.fullmatch(text) or any(len(n) > 5 or int(n) > 65535 for n in numbers):
        return None
    items = [re.findall(rb"-?[0-9]+", item) for item in re.findall(rb"\[([^][]*)\]", text)]
    crossings = [[int(n[-6:]) if 0 <= int(n[-6:]) <= 255 and n[:1] != b"-" else 0 for n in item] for item in items if len(item) == 4]
    loops = sum(len(item) == 1 for item in items)
    return (crossings, loops) if len(crossings) <= 20 and loops <= 8 else None


def classes(names, pairs):
    """For each name the least of its class, where each pair is in one class."""
    least = {name: name for name in names}
    for x, y in pairs:
        while least[x] != x or least[y] != y:
            x, y = least[x], least[y]
        least[max(x, y)] = min(x, y)
    for name in least:  # ascending, so that what it points to is settled
        least[name] = least[least[name]]
    return least


def negatives(crossings, loops):
    """The number of negative crossings of an accepted code; None where it is not accepted."""
    n, arcs = len(crossings), range(1, 2 * len(crossings) + 1)
    ends = {arc: [(c, p) for c in range(n) for p in range(4) if crossings[c][p] == arc] for slots in crossings for arc in slots}
    if sorted(ends) != list(arcs) or {len(darts) for darts in ends.values()} - {2}:
        return None
    of = classes(arcs, [pair for a, b, c, d in crossings for pair in ((a, c), (b, d))])
    size = {least: list(of.values()).count(least) for least in of.values()}
    after = {arc: arc + 1 if of.get(arc + 1) == of[arc] else of[arc] for arc in arcs}
    if any(of.get(x + k) != x for x in size for k in range(size[x])) or any(
            c != after[a] or (d != after[b] and b != after[d]) for a, b, c, d in crossings):
        return None
    partner = {dart: darts[dart == darts[0]] for darts in ends.values() for dart in darts}
    colours = classes([(c, x) for c in range(n) for x in (0, 1)],
                      [((c, x), (d, (x + p + q + 1) % 2)) for (c, p), (d, q) in partner.items() for x in (0, 1)])
    faces = classes(sorted(partner), [(dart, (d, (q - 1) % 4)) for dart, (d, q) in partner.items()])
    pieces = classes(range(n), [(dart[0], d) for dart, (d, q) in partner.items()])
    into = [slots[0] for slots in crossings if size[of[slots[0]]] == 2]
    if (len(set(into)) < len(into) or any(colours[c, 0] == colours[c, 1] for c in range(n)) or len(size) + loops > 28
            or len(set(faces.values())) != n + 2 * len(set(pieces.values()))):
        return None
    def is_negative(at):  # the over pass goes from slot 1 to slot 3
        _, b, _, d = crossings[at]
        if size[of[b]] >= 3:
            return b != after[d]
        under = [slots for slots in crossings if of[slots[0]] == of[b]]
        return d != under[0][2] if under else (d < b) != (at == [of[slots[1]] for slots in crossings].index(of[b]))
    return sum(map(is_negative, range(n)))


def states_of(crossings, loops):
    """For each state a name of the circle of each arc and loop, behind the name of no arc 0."""
    def join(of, x, y):
        return of.replace(of[x:x + 1], of[y:y + 1])
    states = [bytes(range(2 * len(crossings) + loops + 1))]
    for a, b, c, d in crossings:
        states = [join(join(of, a, b), c, d) for of in states] + [join(join(of, a, d), b, c) for of in states]
    return states


class Cube:
    """For each state the number of the circle of each arc and loop, how many circles it has, and its greatest quantum degree."""
    def __init__(self, crossings, states, minus):
        self.crossings, self.minus, self.states, rest = crossings, minus, [], len(crossings) - 3 * minus
        for state, of in enumerate(states):
            names = list(dict.fromkeys(of))[1:]  # by the least arcs
            self.states.append((bytes([255, *map(names.index, of[1:])]), len(names), len(names) + state.bit_count() + rest))
        self.labels = {(count, 2 * k): [label for label in range(2 ** count) if label.bit_count() == k]
                       for count in {count for _, count, _ in self.states} for k in range(count + 1)}
        self.degrees = sorted({most - less for _, count, most in self.states for less in range(0, 2 * count + 1, 2)})

    def generators(self, j):
        """The generators at a quantum degree, by homological degree: states with labels, each with its place."""
        found = {}
        for state, (_, count, most) in enumerate(self.states):
            at = found.setdefault(state.bit_count() - self.minus, {})
            at.update({(state, label): len(at) + k for k, label in enumerate(self.labels.get((count, most - j), ()))})
        return found

    def heads(self, state, label):
        """The generators that a generator is sent to, each with its sign."""
        of, count, _ = self.states[state]
        for k, slots in enumerate(self.crossings):
            if not state >> k & 1:
                after = self.states[state | 1 << k][0]
                before, behind = {of[arc] for arc in slots}, sorted({after[arc] for arc in slots})
                kept = sum((label >> x & 1) << after[of.index(x)] for x in range(count) if x not in before)
                for bits in MADE[len(before), sum(label >> x & 1 for x in before)]:
                    made = kept + sum(bit << x for bit, x in zip(bits, behind))
                    yield (state | 1 << k, made), (-1) ** (state & (1 << k) - 1).bit_count()


class Block:
    """The complex at a quantum degree: its entries by column and by row, and how many places are alive."""
    def __init__(self, cube, j, p):
        found = cube.generators(j)
        self.j, self.p, self.entries, self.columns, self.rows = j, p, 0, {}, {}
        self.alive = {i: len(places) for i, places in found.items()}
        for i, places in found.items():
            for generator, a in places.items():
                for head, sign in cube.heads(*generator):
                    self.put(i, a, found[i + 1][head], sign)

    def put(self, i, a, b, value):
        column, row = self.columns.setdefault((i, a), {}), self.rows.setdefault((i, b), {})
        self.entries += (value % self.p != 0) - (b in column)
        column.pop(b, None), row.pop(a, None)
        if value % self.p:
            column[b] = row[a] = value % self.p

    def cancel(self, i, a, b):
        """Cancels the entry at a column and a row, and answers whether it is other than 0."""
        column, row = dict(self.columns.get((i, a), {})), dict(self.rows.get((i, b), {}))
        if b not in column:
            return False
        inverse = pow(column[b], -1, self.p)
        for x, back in row.items():
            for y, on in column.items():
                self.put(i, x, y, self.columns[i, x].get(y, 0) - on * inverse * back)
        gone = [(i, a, y) for y in column] + [(i, x, b) for x in row] + [(i - 1, x, a) for x in self.rows.get((i - 1, a), {})]
        for at in gone + [(i + 1, b, y) for y in self.columns.get((i + 1, b), {})]:
            self.put(*at, 0)
        self.alive.update({i: self.alive[i] - 1, i + 1: self.alive[i + 1] - 1})
        return True


def replay(lines, cube, p):
    """The lines of the table that the blocks of a log prove, and how many lines come before it."""
    degrees, begun, block, wanted = cube.degrees, 0, None, [b"table 2", b"field %d" % p]
    for number, line in enumerate(lines[3:] + [b""], 4):
        cancel, begin, close = CANCEL.fullmatch(line), BLOCK.fullmatch(line), line == b"table 2"
        if not (cancel or begin or close) or not (block or begin):
            raise Fails(number, b"text")
        if cancel:
            if not block.cancel(*map(int, cancel.groups())):
                raise Fails(number, b"entry")
            continue
        if block and block.entries:
            raise Fails(number, b"open")
        if (degrees[begun:begun + 1] != [int(begin[1])]) if begin else begun < len(degrees):
            raise Fails(number, b"block")
        wanted += [b"j %d i %d dim %d" % (block.j, i, dim) for i, dim in sorted(block.alive.items()) if dim] if block else []
        if close:
            return wanted, number - 1
        block, begun = Block(cube, degrees[begun], p), begun + 1


def verify(data):
    """The status and the lines to write: the table that a log proves, or the limit that it passes."""
    if len(data) > LOG_BYTES:
        return 6, [b"limit bytes %d of %d" % (LOG_BYTES + 1, LOG_BYTES)]
    lines = data.split(b"\n")[:None if data[-1:] not in (b"", b"\n") else -1]
    if lines[:1] != [b"log 1"] or not lines[1:2] or len(lines[1]) > TEXT_BYTES:
        raise Fails(2 if lines[:1] == [b"log 1"] else 1, b"text")
    diagram = read_diagram(lines[1])
    if (minus := diagram and negatives(*diagram)) is None:
        raise Fails(2, b"diagram")
    if not (field := re.fullmatch(rb"field ([2357])", b"".join(lines[2:3]))):
        raise Fails(3, b"text")
    states = states_of(*diagram)
    if (size := sum(2 ** (len(set(of)) - 1) for of in states)) > GENERATORS:
        return 6, [b"limit generators %d of %d" % (size, GENERATORS)]
    wanted, before = replay(lines, Cube(diagram[0], states, minus), int(field[1]))
    for number, (line, right) in enumerate(zip([*lines[before:], None], [*wanted, None]), before + 1):
        if line != right:
            raise Fails(number, b"table")
    return 0, [b"verified"] + wanted


if __name__ == "__main__":
    if sys.argv[1:2] in (["-h"], ["--help"]):
        sys.exit(print(__doc__))
    try:
        status, answer = verify(sys.stdin.buffer.read(LOG_BYTES + 1))
    except Fails as stop:
        status, answer = 1, [b"refused log line %d %s" % stop.args]
    sys.stdout.buffer.write(b"".join(line + b"\n" for line in answer))
    sys.exit(status)
