"""The cells of the table on a page: what is told of each, its generators, the matrices into it and out of it, and what these come to."""
from html import escape

from ..tables import FIELDS
from .generators import MOST_LISTED
from .matrices import PLUS, Differential, divisors, generators_at, rank, refuse_other_ranks
from .page import number_text
from .page_texts import counted, fields_told, listed, signed

# The most generators that are drawn, those that are named, and the most rows or columns of a matrix that is shown whole.
MOST_PICTURES, MOST_NAMED, MOST_SHOWN = 12, 40, 12
# How broad the picture of a generator is.
PICTURE = 64
# What the entries of a matrix are.
MADE = '<p>A column of a matrix has what the <a href="#edges">edges of the cube</a> make of its generator.</p>'


def labels_told(it):
    """The labels of a generator, in the colours of its circles."""
    signs = (f'<span class="colour{at % 8}">{"+" if label == PLUS else signed("-")}</span>' for at, label in enumerate(it.labels))
    return f"{it.state.name()}: {' '.join(signs)}" if it.labels else it.state.name()


def plain_told(it):
    """The same as plain text."""
    return f"{it.state.name()} with {listed(['v+' if label == PLUS else 'v' + signed('-') for label in it.labels]) or 'no circle'}"


def picture_of(it, box):
    """The picture of a generator: its circles, those with v- dashed."""
    kinds = ("" if label == PLUS else ' class="minus"' for label in it.labels)
    uses = "".join(f'<use href="#circle-{it.state.text()}-{at}"{kind}/>' for at, kind in enumerate(kinds))
    return f'<svg class="view" viewBox="{box}" width="{PICTURE}" height="{PICTURE}" role="img" aria-label="{plain_told(it)}">{uses}</svg>'


class Cells:
    """All cells of a diagram with few crossings: the generators of each, and the divisors of the matrix out of it."""

    def __init__(self, sheet, box):
        self.sheet, self.box = sheet, box
        self.lists = {pair: generators_at(found) for pair, found in sheet.generators().items()}
        differential = Differential(sheet.states)
        self.matrices, self.divisors = {}, {}
        for (j, i), columns in self.lists.items():
            if (j, i + 1) in self.lists:
                self.matrices[j, i] = differential.matrix(columns, self.lists[j, i + 1])
                self.divisors[j, i] = divisors(self.matrices[j, i])
        self.compare()

    def ranks(self, pair, field):
        """The ranks of the matrices into a cell and out of it."""
        return tuple(rank(self.divisors.get(it, []), field) for it in ((pair[0], pair[1] - 1), pair))

    def compare(self):
        """Refuses tables that are not what the matrices come to, as no answer of `kh` is."""
        for table in self.sheet.tables:
            for pair, them in self.lists.items():
                refuse_other_ranks(len(them), self.ranks(pair, table.field), table[pair], pair)

    def generators(self, pair):
        """The generators of a cell, drawn where they are few."""
        them = self.lists[pair]
        if len(them) > MOST_NAMED:
            return f"<p>{len(them)} generators.</p>"
        has_pictures = len(them) <= MOST_PICTURES
        parts = [f"<li>{picture_of(it, self.box) if has_pictures else ''}<span>{labels_told(it)}</span></li>" for it in them]
        drawn = " A circle with v+ is drawn whole, one with v− dashed." if has_pictures else ""
        return f'<p>{counted(len(them), "generator")}: a state, and a label for each of its circles, in their order.{drawn}</p>' + \
            f'<ol class="generators">{"".join(parts)}</ol>'

    def matrix(self, pair, told):
        """The matrix out of a cell, whole where it is small."""
        matrix, j, i = self.matrices.get(pair), *pair
        if not matrix:
            return f"<p>{told}: none, for no generator stands at i = {signed(i if pair not in self.lists else i + 1)}.</p>"
        rows, columns, numbers = self.lists[j, i + 1], self.lists[pair], self.divisors[pair]
        came = "It is 0."
        if numbers:
            divisors_told = ", ".join(map(str, numbers))
            came = f"Steps with rows and columns over the integers leave {divisors_told} on its diagonal, its elementary divisors."
        size = f"{counted(len(rows), 'row')} and {counted(len(columns), 'column')}"
        if max(len(rows), len(columns)) > MOST_SHOWN:
            entries = sum(it != 0 for row in matrix for it in row)
            return f"<p>{told}: {size}, with {counted(entries, 'entry', 'entries')} that are 1 or −1. {came}</p>"
        head = "".join(f'<th scope="col">{labels_told(it)}</th>' for it in columns)
        lines = [f'<div class="scroll"><table class="matrix"><caption>{told}</caption><thead><tr><td></td>{head}</tr></thead><tbody>']
        for it, row in zip(rows, matrix):
            cells = "".join(f"<td{'' if one else ' class=none'}>{signed(one)}</td>" for one in row)
            lines.append(f'<tr><th scope="row">{labels_told(it)}</th>{cells}</tr>')
        return "".join([*lines, f"</tbody></table></div><p>{came}</p>"])

    def ranks_table(self, pair):
        """For each field why the dimension is what it is."""
        heads = ("over", "generators", "rank of the matrix out of it", "rank of the matrix into it", "dimension")
        lines = ['<table class="list ranks"><thead><tr>', *(f'<th scope="col">{it}</th>' for it in heads), "</tr></thead><tbody>"]
        count = len(self.lists[pair])
        for field in FIELDS:
            into, out = self.ranks(pair, field)
            lines.append(f'<tr><th scope="row">{field} elements</th><td>{count}</td><td>{out}</td><td>{into}</td>')
            lines.append(f"<td>{count} − {out} − {into} = {count - out - into}</td></tr>")
        return "".join([*lines, "</tbody></table>"])

    def torsion(self, pair):
        """What is said of divisors that are above 1."""
        parts = []
        for name, at in (("into", (pair[0], pair[1] - 1)), ("out of", pair)):
            large = sorted({it for it in self.divisors.get(at, []) if it > 1})
            if large:
                fields = [field for field in FIELDS if any(it % field == 0 for it in large)]
                zero = f" Such a number is 0 {fields_told(fields)}, so the rank is less there." if fields else ""
                parts.append(f"In the matrix {name} it the divisor {listed(list(map(str, large)))} stands: torsion.{zero}")
        return f'<p class="torsion-told">{" ".join(parts)}</p>' if parts else ""

    def work(self, pair):
        """All of it for a cell that has generators."""
        if pair not in self.lists:
            return ""
        j, i = pair
        into = self.matrix((j, i - 1), f"The matrix into it, from i = {signed(i - 1)}")
        out = self.matrix(pair, f"The matrix out of it, to i = {signed(i + 1)}")
        how = MADE if pair in self.matrices or (j, i - 1) in self.matrices else ""
        return f'<div class="work">{self.generators(pair)}{how}{into}{out}{self.ranks_table(pair)}{self.torsion(pair)}</div>'


def ranks_told(sheet, generators):
    """For each pair of degrees what generators and the ranks by tables come to, over the first field: the ranks follow from the least i."""
    table, told, rank_of = sheet.tables[0] if sheet.tables else None, {}, {}
    for j, i in sorted(generators) if table else []:
        count, into = sum(many for _, many, _ in generators[j, i]), rank_of.get((j, i - 1), 0)
        rank_of[j, i] = out = count - into - table[j, i]
        sum_of = f"{count} − {out} − {into} = {count - out - into}"
        told[j, i] = f"Over {table.field} elements: {sum_of}, the ranks out of it and into it taken away."
    return told


def cells_of(sheet, figure):
    """The cells of a diagram whose states are listed and that has tables, or nothing."""
    if len(sheet.crossings) > MOST_LISTED or not sheet.tables:
        return None
    return Cells(sheet, escape(" ".join(map(number_text, grown(figure.inner())))))


def grown(box):
    """A square box with a little room around what is drawn."""
    left, top, width, height = box
    side = max(width, height) + 12
    return left - (side - width) / 2, top - (side - height) / 2, side, side
