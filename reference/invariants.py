"""The determinant and the signature of a knot from its code, and the number of generators of its cube, for the reference.

Nothing is taken from `kh`: the determinant and the signature come from the Goeritz matrix of a checkerboard colouring (Gordon and
Litherland, 1978), the number of generators from a sum over the ways in which open arcs are joined.
"""
from collections import Counter
from fractions import Fraction

import beside  # noqa: F401
import plain.diagrams


def colours_of(code):
    """The face of each dart, and the colour of each face: the two sides of an arc differ."""
    faces, partner = plain.diagrams.faces(code), plain.diagrams.partners(code)
    face = {dart: number for number, them in enumerate(faces) for dart in them}
    colour, todo = {}, []
    for start in range(len(faces)):
        if start not in colour:
            colour[start] = 0
            todo.append(start)
        while todo:
            here = todo.pop()
            for dart in faces[here]:
                other = face[partner[dart]]
                if other not in colour:
                    colour[other] = 1 - colour[here]
                    todo.append(other)
    return face, colour


def goeritz(code):
    """The Goeritz matrix of the faces of colour 0 but the first, and the correction of the signature."""
    face, colour = colours_of(code)
    white = sorted(it for it in colour if colour[it] == 0)
    place = {it: number for number, it in enumerate(white)}
    matrix, correction = [[Fraction(0)] * len(white) for _ in white], 0
    for number, crossing in enumerate(plain.diagrams.accepted(code).crossings, 1):
        # (the face of a dart has the corner at its crossing between its slot and the next)
        at = 0 if colour[face[number, 0]] == 0 else 1
        kind = 1 if at == 0 else -1
        one, other = place[face[number, at]], place[face[number, at + 2]]
        if one != other:
            for i, j, sign in ((one, one, 1), (other, other, 1), (one, other, -1), (other, one, -1)):
                matrix[i][j] += sign * kind
        correction += kind if (kind > 0) == crossing.positive else 0
    return [row[1:] for row in matrix[1:]], correction


def reduced_diagonal(matrix):
    """The diagonal of a form that is equal to this symmetric one over the rational numbers."""
    matrix, rows, diagonal = [row[:] for row in matrix], list(range(len(matrix))), []
    while rows:
        pivot = next((it for it in rows if matrix[it][it]), None)
        if pivot is None:
            pair = next(((i, j) for i in rows for j in rows if matrix[i][j]), None)
            if pair is None:
                return diagonal + [Fraction(0)] * len(rows)
            add(matrix, *pair, 1)
            continue
        diagonal.append(matrix[pivot][pivot])
        for it in rows:
            if it != pivot and matrix[it][pivot]:
                add(matrix, it, pivot, -matrix[it][pivot] / matrix[pivot][pivot])
        rows.remove(pivot)
    return diagonal


def add(matrix, to, of, times):
    """Adds a multiple of a row to another, and then the same for columns."""
    for k in range(len(matrix)):
        matrix[to][k] += times * matrix[of][k]
    for k in range(len(matrix)):
        matrix[k][to] += times * matrix[k][of]


def determinant(code):
    """The determinant of a link, without sign, for a connected diagram."""
    product = Fraction(1)
    for it in reduced_diagonal(goeritz(code)[0]):
        product *= it
    return abs(int(product))


def signature(code):
    """The signature of a link; the right-handed trefoil has -2."""
    matrix, correction = goeritz(code)
    return sum((it > 0) - (it < 0) for it in reduced_diagonal(matrix)) - correction


def joined(ends, pairs):
    """The ways in which open arcs are joined with these pairs more, and how many circles close."""
    ends, circles = dict(ends), 0
    for one, other in pairs:
        if one == other or ends.get(one) == other:
            ends.pop(one, None), ends.pop(other, None)
            circles += 1
            continue
        for arc in (one, other):
            if arc in ends:
                far = ends.pop(arc)
                one, other = (far if arc == one else one), (far if arc == other else other)
        ends[one], ends[other] = other, one
    return tuple(sorted(ends.items())), circles


def generators(code):
    """The number of generators: over all states the sum of 2 to the power of the number of circles."""
    sums = {(): 2**code.loops}
    for i, j, k, l in code.crossings:
        after = Counter()
        for ends, count in sums.items():
            for pairs in (((i, j), (k, l)), ((i, l), (j, k))):
                left, circles = joined(ends, pairs)
                after[left] += count * 2**circles
        sums = after
    return sums[()]
