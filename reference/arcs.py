"""The planar diagram of an arc presentation: a list, for each horizontal line from the bottom up, of the columns from and to which it goes.

In each column a vertical line joins the two horizontal ones that end there, and goes over all that it meets, as in HAP and on the Knot
Atlas.
"""


def turns(presentation):
    """The corners of the knot in their order, as pairs of a column and a row."""
    row, column, found = 0, presentation[0][0], []
    while not found or (row, column) != (0, presentation[0][0]):
        one, other = presentation[row]
        found.append((column, row))
        column = other if column == one else one
        found.append((column, row))
        row = next(it for it, ends in enumerate(presentation) if it != row and column in ends)
    return found


def passes(presentation):
    """The passes of the knot in their order: the place of the crossing, whether it is over, and which way it goes, 1 or -1."""
    rows = {column: [it for it, ends in enumerate(presentation) if column in ends] for column in range(1, len(presentation) + 1)}
    corners = turns(presentation)
    for (column, row), (far, high) in zip(corners, corners[1:] + corners[:1]):
        way = 1 if (far, high) > (column, row) else -1
        for it in range(column + way, far, way):
            if rows[it][0] < row < rows[it][1]:
                yield (it, row), False, way
        for it in range(row + way, high, way):
            if min(presentation[it]) < column < max(presentation[it]):
                yield (column, it), True, way


def planar_diagram(presentation):
    """The crossings of a knot, arcs counterclockwise from the one on which the under pass comes in."""
    ends, found = {}, list(passes(presentation))
    for arc, (place, is_over, way) in enumerate(found, 1):
        ends[place, is_over] = arc, arc % len(found) + 1, way
    crossings = []
    for place in dict.fromkeys(place for place, _, _ in found):
        (comes, leaves, way), (down, up, over) = ends[place, False], ends[place, True]
        # (an under pass to the right has below it, next in the turn, the end of the over pass that comes from below)
        below, above = (down, up) if over > 0 else (up, down)
        crossings.append([comes, below, leaves, above] if way > 0 else [comes, above, leaves, below])
    return crossings
