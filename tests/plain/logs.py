"""A plain second reading of logs of cancellations: `verdict(text)` says whether a log implies its table, and else where it fails first.

It was written from the rules of logs alone. A log is cut into lines at line feeds. Its lines are `log 1`; a planar diagram; `field P`; for
each block, ascending, `block J` and its cancellations `cancel I A B`, of the entry of column A and row B of the differential out of the
degree I; and the table. The blocks are those of `plain/cube.py`.
"""
import functools
import re
from collections import defaultdict

import plain.codes
import plain.cube
from plain.diagrams import accepted, code_of, fault_of, printed

LINE_BYTES = 65_536
GENERATORS = 4_194_304
DONE, REFUSED, LIMIT = 0, 1, 6
FIELD = re.compile(rb"field ([2357])")
DEGREE = rb"(0|-?[1-9][0-9]{0,2})"
PLACE = rb"(0|[1-9][0-9]{0,6})"
BLOCK = re.compile(rb"block " + DEGREE)
CANCEL = re.compile(rb"cancel " + DEGREE + rb" " + PLACE + rb" " + PLACE)
TABLE = b"table 2"
TEXT, OPEN, BAD_BLOCK, ENTRY, DIAGRAM, BAD_TABLE = "text", "open", "block", "entry", "diagram", "table"


class Fails(Exception):
    """A line that fails, by its number and the cause."""

    def __init__(self, line, cause):
        super().__init__(f"refused log line {line} {cause}\n")


class TooLarge(Exception):
    """A diagram of too many generators."""


@functools.lru_cache(maxsize=64)
def complex_at(diagram, field, degree):
    """The generators of a block by homological degree, and the columns of the differential out of each."""
    code, lists = code_of(diagram), plain.cube.blocks(diagram)[degree]
    return {i: (len(lists[i]), plain.cube.columns(code, lists[i], lists.get(i + 1, []), field)) for i in sorted(lists)}


class Block:
    """A block whose pivots are cancelled one after another."""

    def __init__(self, diagram, field, degree):
        self.field, self.sizes, self.columns, self.rows = field, {}, {}, {}
        for i, (size, columns) in complex_at(diagram, field, degree).items():
            self.sizes[i], self.columns[i] = size, {at: dict(column) for at, column in enumerate(columns) if column}
            self.rows[i] = defaultdict(set)
            for at, column in self.columns[i].items():
                for row in column:
                    self.rows[i][row].add(at)
        self.alive = dict(self.sizes)

    def entry(self, i, column, row):
        return self.columns.get(i, {}).get(column, {}).get(row, 0)

    def put(self, i, column, row, value):
        """The entry of a column and a row becomes this value."""
        them = self.columns[i].setdefault(column, {})
        if value:
            them[row] = value
            self.rows[i][row].add(column)
        elif row in them:
            del them[row]
            self.rows[i][row].discard(column)
        if not them:
            del self.columns[i][column]

    def cancel(self, i, a, b):
        """Takes out the column a and the row b, which have an entry: all that goes from another column past it to another row changes."""
        inverse = pow(self.entry(i, a, b), -1, self.field)
        downward = {row: value for row, value in self.columns[i][a].items() if row != b}
        for column in self.rows[i][b] - {a}:
            factor = self.entry(i, column, b) * inverse
            for row, value in downward.items():
                self.put(i, column, row, (self.entry(i, column, row) - factor * value) % self.field)
        self.clear_column(i, a), self.clear_row(i, b)
        self.clear_row(i - 1, a), self.clear_column(i + 1, b)
        self.alive[i], self.alive[i + 1] = self.alive[i] - 1, self.alive[i + 1] - 1

    def clear_column(self, i, column):
        for row in list(self.columns.get(i, {}).get(column, {})):
            self.put(i, column, row, 0)

    def clear_row(self, i, row):
        for column in list(self.rows.get(i, {}).get(row, ())):
            self.put(i, column, row, 0)

    def is_zero(self):
        return not any(self.columns.values())


class Log:
    """The lines of a log, and what is known of it so far."""

    def __init__(self, text):
        self.lines = text.split(b"\n")
        if not self.lines[-1]:
            self.lines.pop()

    def line(self, number):
        """The line of a number; a text that ends before it fails there."""
        if number > len(self.lines):
            raise Fails(len(self.lines) + 1, TEXT)
        return self.lines[number - 1]

    def need(self, number, holds, cause):
        if not holds:
            raise Fails(number, cause)

    def diagram(self):
        line = self.line(2)
        self.need(2, len(line) <= LINE_BYTES, TEXT)
        try:
            code = plain.codes.pd_code(line)
        except plain.codes.Ended:
            raise Fails(2, DIAGRAM) from None
        self.need(2, not fault_of(code), DIAGRAM)
        return accepted(code)

    def dimensions(self, diagram, field):
        """The places alive once all blocks are cancelled as the log says, and the number of the line `table 2`."""
        left, block, found, number = list(plain.cube.blocks(diagram)), None, {}, 3
        while True:
            number += 1
            line = self.line(number)
            head, step = BLOCK.fullmatch(line), CANCEL.fullmatch(line)
            self.need(number, head or number > 4 and (step or line == TABLE), TEXT)
            if step:
                i, a, b = map(int, step.groups())
                self.need(number, block.entry(i, a, b), ENTRY)
                block.cancel(i, a, b)
                continue
            self.need(number, not block or block.is_zero(), OPEN)
            if block:
                found.update({(degree, i): alive for i, alive in block.alive.items() if alive})
            degree = int(head.group(1)) if head else None
            self.need(number, degree == (left[0] if left else None), BAD_BLOCK)
            if not head:
                return dict(sorted(found.items())), number
            left.pop(0)
            block = Block(diagram, field, degree)

    def verdict(self):
        """The table that the log implies."""
        self.need(1, self.line(1) == b"log 1", TEXT)
        diagram = self.diagram()
        field = FIELD.fullmatch(self.line(3))
        self.need(3, field, TEXT)
        count = plain.cube.generator_count(code_of(diagram))
        if count > GENERATORS:
            raise TooLarge(count)
        field = int(field.group(1))
        found, number = self.dimensions(diagram, field)
        wanted = plain.cube.table_text(found, field).encode().splitlines()
        came = self.lines[number - 1 :]
        for at in range(max(len(came), len(wanted))):
            self.need(number + at, came[at : at + 1] == wanted[at : at + 1], BAD_TABLE)
        return plain.cube.table_text(found, field)


def verdict(text):
    """The status and the text that `verify` has to write of a log."""
    try:
        return DONE, "verified\n" + Log(text).verdict()
    except Fails as it:
        return REFUSED, str(it)
    except TooLarge as it:
        return LIMIT, f"limit generators {it} of {GENERATORS}\n"


def chosen(block, choose):
    """Pivots of a block until it is zero; `choose` picks each from all entries."""
    while not block.is_zero():
        yield choose((i, a, b) for i in block.columns for a, column in block.columns[i].items() for b in column)


def searched(block):
    """The pivots of a block that a search finds: degrees from the greatest down, the columns of each in order, of each the last entry."""
    for i in sorted(block.sizes, reverse=True):
        for a in range(block.sizes[i]):
            if block.columns[i].get(a):
                yield i, a, max(block.columns[i][a])


def log_of(diagram, field, pivots):
    """A log of a diagram over a field; `pivots` names those of a block, each of which is cancelled before the next is asked for."""
    lines = ["log 1", printed(code_of(diagram)), f"field {field}"]
    for degree in plain.cube.blocks(diagram):
        lines.append(f"block {degree}")
        block = Block(diagram, field, degree)
        for pivot in pivots(block):
            lines.append("cancel {} {} {}".format(*pivot))
            block.cancel(*pivot)
    return "\n".join(lines) + "\n" + plain.cube.table(diagram, field)


def written(diagram, field, choose=min):
    """A log of a diagram over a field; `choose` picks each pivot from all entries of a block."""
    return log_of(diagram, field, lambda block: chosen(block, choose))
