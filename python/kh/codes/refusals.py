"""Says what a refusal of `kh` means, and which places of the text it is about.

`told(text, command, refusal)` has the words of the line behind `refused`, and the text of the code, the script or the log that they are
about; it gives a sentence, and spans of places in the text.
"""
import re
import unicodedata

from . import code_places as places
from . import codes
from .pointing import is_plain, plain

BLANKS = b" \t\r\n"
JSON = "JSON is a list of crossings, each a list of four numbers: [[1,4,2,5],[3,6,4,1],[5,2,6,3]]"
FORMS = {
    "PD": "a planar diagram is written PD[X[1,4,2,5], X[3,6,4,1], X[5,2,6,3]], with Loop[1] for a circle",
    "Gauss": "a signed Gauss code is written GaussCode[-1,3,-2,1,-3,2] Signs[-1,-1,-1], with braces around each of several components",
    "JSON": JSON,
}
NO_FORM = "this is none of the forms that kh reads: planar diagrams PD[..], signed Gauss codes GaussCode[..] Signs[..], JSON [[..],..]"
HOW_TO_WRITE = "docs/TUTORIAL.md, \"The code\", says how a code is written down"
OWN_FORM = re.compile(rb"[ \t\r\n]*(PD[ \t\r\n]*\[|GaussCode[ \t\r\n]*\[|\[[ \t\r\n]*(\[[^(\[{]*,|\]))")
LINES = {
    "edit": "r1 add A under plus (or over, minus); r1 drop C; r2 add A left B right; r2 drop C D; r3 C D E; undo; redo",
    "schedule": "look W J; commit W; forget W",
}
CAUSES = {
    "text": "a log has no such line there",
    "diagram": "the code of the second line is not accepted, and ./kh check on that line alone says why",
    "block": "blocks come by quantum degrees, ascending, and none is left out: another one is next",
    "entry": "the block has no such column or row, or the entry there is 0 by then, so there is nothing to cancel",
    "open": "the block before this line still has an entry that is not 0: a line that cancels it is missing",
    "table": "the cancellations leave another table",
}
NO_DRAWING = "no drawing on the plane has this code: it is that of a virtual link, or "


def is_foreign(text):
    """Whether a text does not even begin as one of the forms that `kh` reads."""
    return not OWN_FORM.match(text)


def sign_fault(text, place):
    """What is wrong with a character that no code has; nothing where the character is another one."""
    character = text[place : place + 4].decode(errors="replace")[0]
    if character == "\ufffd":
        return f"no code has the byte {text[place]:02x} (hexadecimal), which is no text"
    if not is_plain(character):
        return f"no code has the character U+{ord(character):04X}, {unicodedata.name(character, 'a control character').lower()}"
    if is_foreign(text) or re.match(rb"[A-Za-z0-9\[\]{},]", text[place:]):
        return None
    if character == ";":
        return "a ; with something behind it is for edit, schedule and union alone"
    return "a minus stands directly before the digits of a number" if character == "-" else f"no code has the sign {character}"


def text_fault(text, place):
    end = len(text.rstrip(BLANKS))
    if not end:
        return f"there is no code; {FORMS['PD']}", []
    if place >= end:
        return "the code is not complete: a bracket is open, or what comes next is missing", [(end, end + 1)]
    form = NO_FORM if is_foreign(text) else f"it can not be read on from here; {FORMS[places.form_of(text)]}"
    return sign_fault(text, place) or form, [(place, place + 1)]


def number_fault(text, place):
    return "no number of a code is above 65535 in size, and no arc above 40", [places.number_span(text, place)]


def label_fault(text, place):
    span = places.number_span(text, place)
    labels = [it for component in places.components(text) for it in component]
    value, half = int(text[slice(*span)]), len(labels) // 2
    if (value, span) not in labels:
        return "a sign is 1 or -1", [span]
    if value == 0 or abs(value) > half:
        return f"a label is N, over the crossing N, or -N, under it, and N is at most {half}, half of the number of labels", [span]
    return "each crossing N is passed once over, as N, and once under, as -N", [span]


def no_signs(text):
    what = "a Gauss code without signs does not say the hand"
    return f"{what}: write Signs[..] behind it, with 1 or -1 for each crossing, by their numbers", []


def signs_fault(text, found, wanted):
    return "Signs[..] has 1 or -1 for each crossing, by their numbers, and there are half as many crossings as labels", []


def json_fault(text):
    spans, says = places.json_fault(text)
    return f"a reader of JSON stops here ({plain(says.encode())}); {JSON}" if spans else JSON, spans


def shape_fault(text, crossing, slot):
    return f"{JSON}; no number has a sign or a point", places.element_spans(text, crossing, slot)


def range_fault(text, crossing, slot):
    spans = [it.slots[slot] for it in places.crossings(text)][crossing - 1 : crossing]
    return f"there are two arcs for each crossing, here 1 to {2 * places.crossing_count(text)}, numbered on along each component", spans


def times_fault(text, arc, times):
    arcs = [number for it in places.crossings(text) for number in it.arcs]
    others = [f"{it} stands {arcs.count(it)} times" for it in sorted({*arcs}) if arcs.count(it) > 2 and it != arc]
    often = f"; here {', '.join(others)}" * bool(others)
    what = f"an arc has two ends, so each number from 1 to {len(arcs) // 2} stands exactly twice{often}. {HOW_TO_WRITE}"
    return what, places.arc_spans(text, arc)


def interval_fault(text, arc):
    what = "along a component the numbers of the arcs rise by 1, up to its last arc, which leads to its first; here others are between"
    return what, places.arc_spans(text, arc)


def under_fault(text, crossing):
    what = "the under pass comes in on the first arc of a crossing and goes out on the third, which is the next along the component"
    return f"{what}; most often the list begins with the arc that goes out", places.crossing_spans(text, crossing)


def over_fault(text, crossing):
    what = "the second and the fourth arc of a crossing are its over pass, so one of them is the next of the other along the component"
    return what, places.crossing_spans(text, crossing)


def two_arcs_fault(text, crossing):
    what = "a component of two arcs passes under twice here, and both times the same way: one of the two crossings begins with the arc"
    return f"{what} that goes out", places.crossing_spans(text, crossing)


def checkerboard_fault(text, arc):
    what = "a number is wrong. Regions of a drawing can be coloured black and white by turns, and at this arc they can not"
    return f"{NO_DRAWING}{what} (examples/README.md)", places.arc_spans(text, arc)


def genus_fault(text, found, wanted):
    """Where the numbers at one crossing, turned round, would make a drawing of it, it shows that crossing."""
    crossings = list(places.crossings(text))
    spans = []
    for place, (i, j, k, l) in enumerate(it.arcs for it in crossings):
        arcs = [it.arcs for it in crossings]
        arcs[place] = [i, l, k, j]
        faces, needed = codes.sphere_counts(arcs)
        spans += [crossings[place].span] * (faces == needed)
    if not crossings:
        return NO_DRAWING + "a sign is wrong, or the order of the passes", []
    what = NO_DRAWING + "at some crossing the numbers do not go counterclockwise. "
    where = "here" if len(spans) == 1 else "at one of these crossings"
    return what + (f"With the second and the fourth exchanged {where} it has one" if spans else HOW_TO_WRITE), spans


def line_fault(text, command, line):
    what = f"a line of {command} is one of these: {LINES[command]}"
    return f"{what}. docs/FORMATS.md, \"Scripts\", explains them", places.line_spans(text, line)


def mark_fault(text, mark):
    arcs, loops = 2 * places.crossing_count(text), places.loops(text)
    if not arcs + loops:
        return "the empty link has nothing that can be marked", []
    return f"--mark takes a number from 1 to {arcs + loops}: arcs are 1 to 2n, for n crossings, and the loops come behind them", []


def log_fault(text, line, cause):
    return f"{CAUSES[cause]}. docs/LOG-FORMAT.md has the rules", places.line_spans(text, line)


# The words behind `refused`, and what tells of them, given the text and the numbers.
TELLING = (
    (r"text at (\d+)", text_fault),
    (r"number at (\d+)", number_fault),
    (r"label at (\d+)", label_fault),
    (r"no signs", no_signs),
    (r"signs (\d+) wanted (\d+)", signs_fault),
    (r"json", json_fault),
    (r"shape at crossing (\d+) slot (\d)", shape_fault),
    (r"arc range at crossing (\d+) slot (\d)", range_fault),
    (r"arc (\d+) times (\d+)", times_fault),
    (r"interval of arc (\d+)", interval_fault),
    (r"under pass at crossing (\d+)", under_fault),
    (r"over pass at crossing (\d+)", over_fault),
    (r"two-arc component at crossing (\d+)", two_arcs_fault),
    (r"checkerboard at arc (\d+)", checkerboard_fault),
    (r"genus faces (\d+) wanted (\d+)", genus_fault),
    (r"mark (\d+)", mark_fault),
)


def told(text: bytes, command: str, refusal: str) -> tuple[str, list[tuple[int, int]]]:
    """A sentence and spans."""
    found = re.fullmatch(r"line (\d+)", refusal)
    if found and command in LINES:
        return line_fault(text, command, int(found[1]))
    found = re.fullmatch(r"log line (\d+) (\w+)", refusal)
    if found and found[2] in CAUSES:
        return log_fault(text, int(found[1]), found[2])
    for pattern, tell in TELLING:
        found = re.fullmatch(pattern, refusal)
        if found:
            return tell(text, *map(int, found.groups()))
    return "docs/FORMATS.md, \"What is accepted\", says what this means", []
