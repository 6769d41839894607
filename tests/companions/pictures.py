"""Tries the pictures of `show/drawing` and `show/states`: each is read from its text alone, and shows what the code says.

The companion `show` runs these behind its own cases, with diagrams that are drawn by `plain.drawing`.
"""
import itertools
import math
import random
import re
import sys

import plain.cube
import plain.diagrams
import plain.drawing
import plain.moves
from kh.show import cubes, figure
from kh.show.slices import read_drawing
from shared import known_diagrams
from shared.pictures import Reading, nearest, read_picture
from shared.places import example

# How near the middles of strands come, how far an arrow is from its strand at most, and how near other strands come to it.
NEAREST, STRAIGHT, CLEAR = 8.5, 1.8, 8
# The contrast that texts and lines have with the ground, on a scale from 1 to 21.
CONTRAST = 4.5
HALF = 2.5
EXAMPLES = ("trefoil", "trefoil-right-handed", "figure-eight", "hopf", "whitehead", "8_19", "curl", "braid-20")
TORUS = ((2, 3), (2, 4), (2, 9), (3, 4), (3, 5), (4, 5), (5, 4), (3, 7))
BRAIDS = 8


def nested(count):
    """A curl in a curl, and so on, on both sides."""
    diagram = known_diagrams.diagram_of("PD[X[1,1,2,2]]")
    for number in range(1, count):
        diagram = plain.moves.moved(diagram, f"r1 add {number} {('under plus', 'over minus', 'under minus', 'over plus')[number % 4]}")
    return diagram


def codes():
    """The name and the code of each diagram that is drawn."""
    for name in EXAMPLES:
        yield name, plain.diagrams.read(example(name).strip())
    for strands, turns in TORUS:
        yield f"T({strands},{turns})", plain.diagrams.code_of(known_diagrams.braid(strands, list(range(1, strands)) * turns))
    draw = random.Random("pictures")
    for number in range(BRAIDS):
        strands = draw.randint(2, 6)
        letters = [draw.choice((1, -1)) * draw.randint(1, strands - 1) for _ in range(2 + 18 * number // (BRAIDS - 1))]
        yield f"a braid of {len(letters)} letters", plain.diagrams.code_of(known_diagrams.braid(strands, letters))
    yield "two curls and two loops", plain.diagrams.read("PD[X[1,1,2,2],X[3,4,4,3],Loop[5],Loop[6]]")
    yield "a circle over another", plain.diagrams.read("PD[X[1,4,2,3],X[2,4,1,3]]")
    yield "curls in curls", plain.diagrams.code_of(nested(6))
    yield "many curls in curls", plain.diagrams.code_of(nested(12))


def drawn(code, **words):
    """The picture of a code with its numbers."""
    slices = read_drawing(plain.drawing.drawing(code))
    return figure.svg_of(slices, list(code.crossings), **words)


def turned_least(passes):
    """A closed row of passes from where it is least."""
    return min(passes[at:] + passes[:at] for at in range(len(passes) or 1))


def numbered(reading):
    """The number of each crossing of a picture: of the numbers of crossings each belongs to the crossing that is nearest."""
    texts = [it for it in reading.picture.texts if "crossing" in it.classes]
    pairs = [(math.dist(text.middle(), it.middle), text.text, at) for text in texts for at, it in enumerate(reading.crossings)]
    found = {}
    for _, text, at in sorted(pairs):
        if at not in found and int(text) not in found.values():
            found[at] = int(text)
    return found


def shown_fault(code, wrote):
    """The picture shows the diagram: each component with its passes in its direction, and each crossing with its sign."""
    try:
        reading = Reading(read_picture(wrote))
    except ValueError as stop:
        return f"no picture: {stop}"
    number, wanted = numbered(reading), sorted(map(turned_least, plain.diagrams.passes(code)))
    found = sorted(turned_least([(number[it.crossing], it.is_over) for it in passes]) for passes in reading.components)
    if found != wanted:
        return f"{found} and not {wanted}"
    ways = {(number[it.crossing], it.is_over): it.way for passes in reading.components for it in passes}
    for crossing, (_, _, is_positive) in enumerate(plain.diagrams.accepted(code).crossings, 1):
        (x, y), (far, deep) = ways[crossing, False], ways[crossing, True]
        # (y goes down; along the strand below the one above passes from left to right where it is positive)
        if (x * deep - y * far > 0) != is_positive:
            return f"the sign of crossing {crossing}"
    return arcs_fault(code, reading, number)


def arcs_fault(code, reading, number):
    """Each arc and each loop has its number, and the strand that is nearest to the number is that arc."""
    texts, enters = [it for it in reading.picture.texts if "arc" in it.classes], plain.diagrams.entered(code)
    wanted = list(range(1, 2 * len(code.crossings) + code.loops + 1))
    if sorted(int(it.text) for it in texts) != wanted:
        return f"numbers {sorted(int(it.text) for it in texts)}"
    for it in texts:
        found = reading.next_pass(it.middle())
        if (found and (number[found[0]], found[1])) != enters.get(int(it.text)):
            return f"the number {it.text} stands beside another arc"
    return None


def covered_fault(wrote):
    """No number covers a strand, an arrow or another number, and all of them are on the page."""
    picture = read_picture(wrote)
    points = [(it, HALF) for strand, _ in picture.strands for it in strand]
    points += [(it, 0) for corners, _ in picture.arrows for it in corners]
    for text in picture.texts:
        for (x, y), half in points:
            if text.left - half < x < text.right + half and text.top - half < y < text.bottom + half:
                return f"{text.text} covers {x:.0f} {y:.0f}"
        left, top, right, bottom = picture.edges
        if not (left < text.left and text.right < right and top < text.top and text.bottom < bottom):
            return f"{text.text} is not on the page"
    for one, other in itertools.combinations(picture.texts, 2):
        if one.left < other.right and other.left < one.right and one.top < other.bottom and other.top < one.bottom:
            return f"{one.text} covers {other.text}"
    return None


def near_fault(wrote):
    """Strands keep their distance."""
    squares = {}
    for strand, (points, _) in enumerate(read_picture(wrote).strands):
        for x, y in points:
            squares.setdefault((x // NEAREST, y // NEAREST), []).append((strand, x, y))
    for (across, down), points in squares.items():
        beside = [it for step in itertools.product((-1, 0, 1), repeat=2) for it in squares.get((across + step[0], down + step[1]), ())]
        for (strand, x, y), (other, far, deep) in itertools.product(points, beside):
            if strand < other and math.dist((x, y), (far, deep)) < NEAREST:
                return f"two strands are near at {x:.0f} {y:.0f}"
    return None


def arrows_fault(wrote):
    """Each component has an arrow; each arrow lies along a straight piece of its strand, away from all others, in the strand's colour."""
    picture = read_picture(wrote)
    for corners, colour in picture.arrows:
        tip, _, notch, _ = corners
        strand, _, far = nearest(tip, picture)
        if max(far, nearest(notch, picture)[2]) > STRAIGHT or picture.colours[strand] != colour:
            return f"an arrow is not on a straight piece at {tip}"
        others = [point for at, (points, _) in enumerate(picture.strands) if at != strand for point in points]
        if any(math.dist(it, corner) < CLEAR for it in others for corner in corners):
            return f"an arrow is near another strand at {tip}"
    colours = {colour for _, colour in picture.arrows}
    return None if colours == set(picture.colours) else f"arrows on {colours} and not on {set(picture.colours)}"


def luminance(colour):
    """How light a colour is, as the Web Content Accessibility Guidelines 2.1 have it."""
    parts = [int(colour[at : at + 2], 16) / 255 for at in (1, 3, 5)]
    red, green, blue = (it / 12.92 if it <= 0.03928 else ((it + 0.055) / 1.055) ** 2.4 for it in parts)
    return 0.2126 * red + 0.7152 * green + 0.0722 * blue


def contrast_fault(wrote, count):
    """So many colours of strands, and on a light and on a dark screen all of them and all texts stand out from the ground."""
    picture, style = read_picture(wrote), read_picture(wrote).style
    light, dark = (dict(re.findall(r"\.(\w+){color:(#\w{6})}", part)) for part in style.split("@media(prefers-color-scheme:dark)"))
    if len(set(picture.colours)) != count or light.keys() != dark.keys():
        return f"the colours {set(picture.colours)}, {style}"
    for colours in (light, dark):
        ground = luminance(colours.pop("ground"))
        for name, colour in colours.items():
            low, high = sorted((luminance(colour), ground))
            if (high + 0.05) / (low + 0.05) < CONTRAST:
                return f"{name} is {colour}"
    return None


def said_fault(code, wrote):
    """A screen reader says the passes of each component, in their order."""
    told = re.search(r"<desc>(.*)</desc>", wrote)[1]
    parts = re.findall(r"component [^.]*\.", told)
    found = [[(int(it), word == "over") for word, it in re.findall(r"(over|under) (\d+)", part)] for part in parts]
    wanted = plain.diagrams.passes(code)
    loops = f"Components without crossings: {code.loops}." in told if code.loops else "without" not in told
    return None if found == wanted[: len(wanted) - code.loops] and loops else told


def mark_fault(code, mark):
    """The dot at a mark lies on the arc or the loop of that number."""
    wrote = drawn(code, with_numbers=True, mark=mark)
    reading = Reading(read_picture(wrote))
    (dot,) = reading.picture.dots
    found, number = reading.next_pass(dot), numbered(reading)
    text = min((math.dist(it.middle(), dot), int(it.text)) for it in reading.picture.texts if "arc" in it.classes)[1]
    passed = (number[found[0]], found[1]) if found else None
    right = passed == plain.diagrams.entered(code).get(mark) and (passed or text == mark) and nearest(dot, reading.picture)[2] < 1
    return None if right and f"{mark}." in wrote else f"{dot}, {passed}, {text}"


def faults_of(name, code):
    """The name of each test of a picture, and what is wrong, if anything is."""
    wrote = drawn(code, with_numbers=True, colours=True)
    components = len(plain.diagrams.components(code)) + code.loops
    yield f"{name} as a picture", shown_fault(code, wrote)
    yield f"{name}, numbers cover nothing", covered_fault(wrote)
    yield f"{name}, strands keep their distance", near_fault(wrote)
    yield f"{name}, arrows", arrows_fault(wrote)
    yield f"{name}, colours", contrast_fault(wrote, min(8, components))
    yield f"{name}, in words", said_fault(code, wrote)


def without_code_fault(name, text, arrows):
    """Without its code a picture has arrows on the components that pass under first: so many; and loops have one."""
    picture = read_picture(figure.svg_of(read_drawing(text)))
    return None if len(picture.arrows) == arrows else f"{len(picture.arrows)} arrows"


def edges_fault(code):
    """The cube has its edges, each change of one 0 to 1, merges and splits as the plain reading has them, and says how many there are."""
    wrote = cubes.cube_of(read_drawing(plain.drawing.drawing(code)), list(code.crossings))
    found = re.findall(r'class="edge (merge|split) \w+"[^>]*><title>([01]*)\*([01]*): (merge|split)<', wrote)
    wanted, count = {}, len(code.crossings)
    for tail, at in itertools.product(itertools.product("01", repeat=count), range(count)):
        if tail[at] == "0":
            state = sum(1 << place for place, bit in enumerate(tail) if bit == "1")
            more = len(plain.cube.circles(code, state | 1 << at)) - len(plain.cube.circles(code, state))
            wanted["".join(tail[:at]), "".join(tail[at + 1 :])] = {-1: "merge", 1: "split"}[more]
    kinds = list(wanted.values())
    merges, splits = kinds.count("merge"), kinds.count("split")
    told = f"Of the {count * 2 ** (count - 1)} edges two circles merge along {merges}, and one splits along {splits}."
    right = len(found) == count * 2 ** (count - 1) and {(before, behind): kind for _, before, behind, kind in found} == wanted
    right = right and all(one == other for one, _, _, other in found) and told in wrote
    return None if right and "two circles merge<" in wrote and "one circle splits<" in wrote else f"{len(found)} edges of {len(wanted)}"


def no_edges_fault(code):
    """A cube of more crossings has all its states, and no edges and no legend."""
    wrote = cubes.cube_of(read_drawing(plain.drawing.drawing(code)))
    found = (wrote.count('class="bits"'), wrote.count("edge "), wrote.count("merge"))
    return None if found == (2 ** len(code.crossings), 0, 0) else f"{found}"


def faults():
    """The name of each test, and what is wrong, if anything is."""
    for name, code in codes():
        yield from ((f"show/drawing: {what}", fault) for what, fault in faults_of(name, code))
    links = dict(codes())
    for name in ("hopf", "whitehead"):
        yield f"show/drawing: {name} in one colour", contrast_fault(drawn(links[name], with_numbers=True), 1)
    for name, mark in (("trefoil", 1), ("trefoil", 4), ("whitehead", 7), ("two curls and two loops", 3), ("two curls and two loops", 6)):
        yield f"show/drawing: {name}, a mark at {mark}", mark_fault(links[name], mark)
    for name, arrows in (("trefoil", 1), ("figure-eight", 2), ("hopf", 1), ("two curls and two loops", 4)):
        yield f"show/drawing: {name} without its code", without_code_fault(name, plain.drawing.drawing(links[name]), arrows)
    for name in ("curl", "hopf", "trefoil", "figure-eight", "whitehead", "curls in curls"):
        yield f"show/states: {name}, edges", edges_fault(links[name])
    yield "show/states: 8_19, no edges", no_edges_fault(links["8_19"])


if __name__ == "__main__":
    from shared.running import tell_all

    sys.exit(tell_all(faults()))
