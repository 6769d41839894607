"""The parts of the energy of elastic threads, each of which adds its slope to two lists: by the x and by the y of each point."""
import math

# How much of the energy is in lengths and in crossings that are no right angles.
LENGTH, SQUARE = 1.0, 14.0
# How near a point may come to a side of another strand, and how much it counts that it does.
WALL, STEEP = 0.9, 3.0
# What keeps the energy of a strand that turns back from being endless.
FOLD = 0.02


def add_near(pairs, scale, reach, xs, ys, across, down):
    """The energy of points that are near, and the pairs that are so near that a side beside them may be nearer."""
    energy, close = 0.0, []
    for one, other, weight in pairs:
        x, y = xs[one] - xs[other], ys[one] - ys[other]
        square = x * x + y * y
        if square < reach:
            close.append((one, other))
        part = scale * weight / square
        energy += part
        part *= -2 / square
        across[one] += part * x
        across[other] -= part * x
        down[one] += part * y
        down[other] -= part * y
    return energy, close


def add_walls(corners, close, beside, xs, ys, across, down):
    """The energy of points that are nearer to a side than they may; it has no bound where they come to it. The sides are those of corners,
    and those at points that are close, unless one of their ends is beside the point."""
    energy, sides = 0.0, dict.fromkeys(corners)
    for point, near in (*close, *(it[::-1] for it in close)):
        sides.update({(point, min(near, end), max(near, end)): None for end in beside[near] if end != point and end not in beside[point]})
    for point, start, end in sides:
        x, y, far, deep = xs[point] - xs[start], ys[point] - ys[start], xs[end] - xs[start], ys[end] - ys[start]
        part = min(1.0, max(0.0, (x * far + y * deep) / (far * far + deep * deep)))
        x, y = x - part * far, y - part * deep
        distance = math.sqrt(x * x + y * y)
        if distance < WALL:
            short = WALL / distance - 1
            energy += STEEP * short * short
            scale = -2 * STEEP * short * WALL / (distance * distance * distance)
            across[point] += scale * x
            across[start] -= (1 - part) * scale * x
            across[end] -= part * scale * x
            down[point] += scale * y
            down[start] -= (1 - part) * scale * y
            down[end] -= part * scale * y
    return energy


def add_square(crosses, xs, ys, across, down):
    """The energy of crossings that are no right angles."""
    energy = 0.0
    for _, a, b, c, d in crosses:
        ux, uy, vx, vy = xs[a] - xs[c], ys[a] - ys[c], xs[b] - xs[d], ys[b] - ys[d]
        product, one, other = ux * vx + uy * vy, ux * ux + uy * uy, vx * vx + vy * vy
        part = SQUARE * product * product / (one * other)
        energy += part
        scale = 2 * SQUARE * product / (one * other)
        for first, last, x, y in (
            (a, c, scale * vx - 2 * part * ux / one, scale * vy - 2 * part * uy / one),
            (b, d, scale * ux - 2 * part * vx / other, scale * uy - 2 * part * vy / other),
        ):
            across[first] += x
            across[last] -= x
            down[first] += y
            down[last] -= y
    return energy


def add_length(chains, xs, ys, across, down):
    """The energy of the lengths of arcs, the least where their points are evenly spaced."""
    energy = 0.0
    for chain in chains:
        steps = [(one, other, xs[one] - xs[other], ys[one] - ys[other]) for one, other in zip(chain, chain[1:])]
        length = math.sqrt(len(steps) * math.fsum(x * x + y * y for _, _, x, y in steps))
        energy += LENGTH * length
        scale = LENGTH * len(steps) / length
        for one, other, x, y in steps:
            across[one] += scale * x
            across[other] -= scale * x
            down[one] += scale * y
            down[other] -= scale * y
    return energy


def add_bend(bends, stiff, xs, ys, across, down):
    """The energy of the bends of stiff strands, nearly the square of their curvature."""
    energy = 0.0
    for a, b, c in bends:
        ux, uy, vx, vy = xs[b] - xs[a], ys[b] - ys[a], xs[c] - xs[b], ys[c] - ys[b]
        one, other = math.sqrt(ux * ux + uy * uy), math.sqrt(vx * vx + vy * vy)
        # (the square of the tangent of half the angle, by half the length of both sides)
        cosine, both = (ux * vx + uy * vy) / (one * other), one + other
        straight = 1 + FOLD + cosine
        part = 4 * stiff * (1 - cosine) / (straight * both)
        energy += part
        scale, part = -4 * stiff * (2 + FOLD) / (straight * straight * both * one * other), part / both
        inner, outer = scale * cosine * other / one + part / one, scale * cosine * one / other + part / other
        x, y = scale * vx - inner * ux, scale * vy - inner * uy
        far_x, far_y = scale * ux - outer * vx, scale * uy - outer * vy
        across[a] -= x
        across[b] += x - far_x
        across[c] += far_x
        down[a] -= y
        down[b] += y - far_y
        down[c] += far_y
    return energy
