"""Where things stand in the text of a code that is refused: crossings, arcs, passes, labels, elements of JSON.

A place is counted in bytes from 0, a span is the place of the first byte and that behind the last.
"""
import json
import re
from typing import NamedTuple

BLANK = rb"[ \t\r\n]*"
NUMBER = re.compile(rb"-?[0-9]+")
CROSSING = re.compile(rb"(?:X" + BLANK + rb")?\[" + rb",".join([BLANK + rb"(-?[0-9]+)" + BLANK] * 4) + rb"\]")
LOOP = re.compile(rb"Loop" + BLANK + rb"\[")
GROUP = re.compile(rb"\{[^{}]*\}")
BETWEEN = re.compile(r"[ \t\r\n,]*")


class Crossing(NamedTuple):
    """The span of a crossing, the spans of its four numbers, and the numbers."""

    span: tuple
    slots: list
    arcs: list


def form_of(text):
    """The form of a text, as its first byte tells."""
    return {b"[": "JSON", b"G": "Gauss"}.get(text.lstrip(b" \t\r\n")[:1], "PD")


def crossings(text):
    """The crossings of a planar diagram or of JSON that can be read; a Gauss code lists none."""
    for found in CROSSING.finditer(text) if form_of(text) != "Gauss" else ():
        yield Crossing(found.span(), [found.span(slot) for slot in (1, 2, 3, 4)], [int(it) for it in found.groups()])


def loops(text):
    """How many circles without crossings a text has that can be read."""
    if form_of(text) == "Gauss":
        return sum(not group for group in components(text))
    return len(LOOP.findall(text))


def number_span(text, place):
    """Where the number that begins at a place stands."""
    return NUMBER.match(text, place).span()


def line_spans(text, number):
    """Where a line of this number, from 1, stands, without the blanks around it; nowhere where the text ends before it."""
    lines = text.split(b"\n")
    if number > len(lines):
        return []
    line = lines[number - 1]
    begin = sum(len(it) + 1 for it in lines[: number - 1]) + len(line) - len(line.lstrip(b" \t\r"))
    return [(begin, begin + len(line.strip(b" \t\r")))]


def numbers(text, begin, end):
    """The numbers between two places, each with its span."""
    return [(int(it[0]), it.span()) for it in NUMBER.finditer(text, begin, end)]


def components(text):
    """The labels of each component of a signed Gauss code that can be read, each label with its span."""
    body = text.partition(b"Signs")[0]
    found = [numbers(text, *it.span()) for it in GROUP.finditer(body)]
    return found or [numbers(text, 0, len(body))][: NUMBER.search(body) is not None]


def passes(text):
    """The spans of the passes of a signed Gauss code, in the order of the arcs that enter them."""
    for group in components(text):
        # (two passes over, the greater label first, are taken the other way round)
        is_turned = len(group) == 2 and 0 < group[1][0] < group[0][0]
        yield from (span for _, span in (group[::-1] if is_turned else group))


def crossing_count(text):
    if form_of(text) == "Gauss":
        return sum(map(len, components(text))) // 2
    return sum(1 for _ in crossings(text))


def arc_spans(text, arc):
    """Where an arc stands: twice in an accepted code, and in a Gauss code as the pass that it enters."""
    if form_of(text) == "Gauss":
        return list(passes(text))[arc - 1 : arc]
    return [span for it in crossings(text) for span, number in zip(it.slots, it.arcs) if number == arc]


def crossing_spans(text, number):
    """Where the crossing of this number stands."""
    return [it.span for it in crossings(text)][number - 1 : number]


def elements(text, place):
    """The spans of the elements of the JSON list that begins at a place, and the place of the bracket that closes it. The text is one of
    characters."""
    found, place, decoder = [], BETWEEN.match(text, place + 1).end(), json.JSONDecoder()
    while text[place] != "]":
        found.append((place, decoder.raw_decode(text, place)[1]))
        place = BETWEEN.match(text, found[-1][1]).end()
    return found, place


def element_spans(text, number, slot):
    """Where a slot, from 0, of a crossing of JSON stands; the bracket that closes the crossing where it is missing; or what stands in place
    of the crossing."""
    characters = text.decode()
    crossing = elements(characters, characters.index("["))[0][number - 1]
    if characters[crossing[0]] == "[":
        slots, close = elements(characters, crossing[0])
        crossing = slots[slot] if slot < len(slots) else (close, close + 1)
    return [tuple(len(characters[:it].encode()) for it in crossing)]


def json_fault(text):
    """Where Python finds that a text is no JSON, and what it says; no place where it finds nothing."""
    try:
        json.loads(text.decode())
    except json.JSONDecodeError as fault:
        place = len(fault.doc[: fault.pos].encode())
        return [(place, place + 1)], fault.msg.removesuffix(" at")
    except UnicodeDecodeError as fault:
        return [(fault.start, fault.start + 1)], "this byte is no text"
    except (ValueError, RecursionError):
        pass
    return [], ""
