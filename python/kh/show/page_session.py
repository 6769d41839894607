"""What a served page stands for: a code that was typed, a script of moves behind it, and the answers of `kh` to both.

A step never changes: a move makes another one, so that the browser's way back is the way back. As many are kept as have room.
"""
import re
import threading
from collections import OrderedDict
from typing import NamedTuple

from ..codes import turning
from ..commands import Unreadable
from ..programs import ANSWERED
from .arcs import crossings_of
from .asking import CONVERT, DRAW, MIRROR, REVERSE, Refusal
from .figure import Diagram, svg_of
from .page_figure import Change, Figure, preview_of
from .page_moves import LINE, MOST_LINES, accepted, behind
from .sheet import sheet_of
from .slices import read_drawing

# How many steps are kept, how many sheets with their moves, and how long a request waits for the one before it.
MOST_STEPS, MOST_SHEETS, WAIT = 2_000, 24, 120
# The most letters of a name, and of what is said of a code.
MOST_LETTERS, MOST_SAID = 80, 2_000
# The words behind the names of buttons that make another diagram.
TURNS = {"mirror": MIRROR, "reverse": REVERSE}
NUMBERED = re.compile(r"code \d+|")
# Crossings alone, as one writes them beside a drawing, with nothing around them; and where a text that has one line says what it says.
CROSSING = re.compile(r"X\[[\d\s,]*\]")
BARE = re.compile(rf"\s*(?:{CROSSING.pattern}[\s,]*)+")
PLACE = re.compile(r"^line 1: (?:code 1: )?", re.M)


class Step(NamedTuple):
    """The name of a diagram, its code, the lines of moves behind it, the code that they lead to, what there is to say, and the number of
    the step before, 0 for none."""

    name: str
    start: str
    lines: tuple
    code: str
    said: str
    before: int = 0


def last_move(lines):
    """The move that the last line of a script makes, and whether it is taken back."""
    made, undone, last = [], [], None
    for line in lines:
        if line == "undo":
            undone.append(made.pop())
            last = undone[-1], True
        else:
            line, undone = (undone.pop(), undone) if line == "redo" else (line, [])
            made.append(line)
            last = line, False
    return last


class Busy(Exception):
    """Another request is still at work."""


def kept(store, key, value, most):
    """Puts a value into a store that forgets its oldest."""
    store[key] = value
    store.move_to_end(key)
    while len(store) > most:
        store.popitem(last=False)
    return value


class Session:
    """The steps so far, and what `kh` answered of their diagrams. One run is made at a time."""

    def __init__(self, kh):
        self.kh, self.lock = kh, threading.Lock()
        self.steps, self.sheets, self.moves, self.figures, self.count = OrderedDict(), OrderedDict(), OrderedDict(), OrderedDict(), 0
        # (by the number of a step and the line of a move, how the diagram behind it is drawn)
        self.shapes = OrderedDict()

    def __enter__(self):
        if not self.lock.acquire(timeout=WAIT):
            raise Busy
        return self

    def __exit__(self, *_):
        self.lock.release()

    def add(self, step):
        """The number of a new step."""
        self.count += 1
        kept(self.steps, self.count, step, MOST_STEPS)
        return self.count

    def sheet(self, code, name=""):
        """What `kh` answers of a code."""
        found = self.sheets.get(code) or sheet_of(self.kh, code)
        return kept(self.sheets, code, found, MOST_SHEETS)._replace(name=name)

    def figure(self, number):
        """The picture of a step. It begins with that of the step before, where this is kept, and is that of a step of the same code
        before, where there is one that is kept, or that which was shown before the move was made."""
        if number not in self.figures:
            step, drawn = self.steps[number], None
            change = Change(self.figures[step.before], *last_move(step.lines)) if step.before in self.figures else None
            at = step
            while at.before in self.steps and drawn is None:
                drawn = self.figures[at.before].drawn if self.steps[at.before].code == step.code and at.before in self.figures else None
                at = self.steps[at.before]
            drawn = drawn or self.shapes.get((step.before, *step.lines[-1:]))
            self.figures[number] = Figure(self.sheet(step.code), change, drawn)
        return kept(self.figures, number, self.figures[number], MOST_SHEETS)

    def moves_of(self, code):
        """The moves that a diagram accepts."""
        found = self.moves.get(code)
        return kept(self.moves, code, accepted(self.kh, self.sheet(code)) if found is None else found, MOST_SHEETS)

    def typed(self, text, known=""):
        """The step of a text in any form that `kh-codes` reads, or of crossings alone; of this name where it has none. Of several codes it
        is that of the first."""
        if BARE.fullmatch(text):
            text = f"PD[{', '.join(CROSSING.findall(text))}]"
        told = []
        lines = [(it.name, line) for it, line in turning.converted("input", text, told.append, telling=turning.with_caret) if line]
        said = "".join(f"{re.sub(r'^input:', 'line ', it)}\n" for it in told if not it.startswith("input: "))
        if not lines:
            raise Unreadable(said.strip() or "there is no code in this text")
        name, code = lines[0]
        if len(lines) > 1:
            said += f"Of {len(lines)} codes the first is shown.\n"
        try:
            start = self.kh.answer(CONVERT, code).strip()
        except Refusal as fault:
            raise Unreadable("\n".join(filter(None, (said.strip(), str(fault))))) from fault
        name = known if NUMBERED.fullmatch(name) else name
        if "\n" not in text.strip():
            said = PLACE.sub("", said)
        return self.add(Step(name[:MOST_LETTERS], start, (), start, said.strip()[:MOST_SAID]))

    def moved(self, number, line):
        """The step behind a line of a script, or the answer that refuses it."""
        step = self.steps[number]
        if not LINE.fullmatch(line):
            return None, "this is no line of a script"
        if len(step.lines) >= MOST_LINES:
            return None, f"a script has {MOST_LINES} lines here at most"
        code, answer = behind(self.kh, step.start, [*step.lines, line])
        return (self.add(step._replace(lines=(*step.lines, line), code=code, said="", before=number)) if code else None), answer

    def can(self, step, word):
        """Whether there is something to undo, or to redo."""
        return bool(step.lines) and behind(self.kh, step.start, [*step.lines, word])[0] is not None

    def turned(self, number, word):
        """The step of the mirror image, or of the diagram with all directions turned."""
        step = self.steps[number]
        start = self.kh.answer(TURNS[word], step.code).strip()
        said = "The mirror image" if word == "mirror" else "All directions turned"
        return self.add(Step(f"{said} of {step.name or 'the diagram before'}", start, (), start, ""))

    def picture(self, code):
        """The drawing of a code as a picture of its own, with its numbers."""
        slices, crossings = read_drawing(self.kh.answer(DRAW, code)), crossings_of(code, "the code")
        diagram = Diagram(slices, crossings)
        return svg_of(slices, crossings, True, colours=len(diagram.components) + diagram.plane.loops > 1)

    def preview(self, number, move):
        """The picture of what a move makes, in the frame of the drawing of its step."""
        figure, sheet = self.figure(number), self.sheet(self.steps[number].code)
        slices, crossings = read_drawing(self.kh.answer(DRAW, move.code)), crossings_of(move.code, "the code")
        loops = len(self.kh.answer(CONVERT, move.code).split("Loop[")) - 1
        drawn = self.shapes.get((number, move.line))
        behind = Figure(sheet._replace(slices=slices, crossings=crossings, loops=loops), Change(figure, move.line), drawn)
        kept(self.shapes, (number, move.line), behind.drawn, MOST_SHEETS)
        return preview_of(figure, behind)

    def is_ready(self):
        """What is said where the program gives no answer, or not at once since it is not built."""
        came = self.kh.ask(CONVERT, "PD[Loop[1]]")
        return None if came.status == ANSWERED and not came.said else came.said or came.wrote or f"status {came.status}"
