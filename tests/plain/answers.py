"""A plain second reading of whole answers: the status and the bytes that the program has to write for its words and its input.

It puts the other plain readings together, in the order of `docs/FORMATS.md`. Where a cube is too large for them the answer is a pattern:
all that is not a dimension is told exactly, and `fault_of` also compares the table's Euler characteristic with the state sum.
"""
import functools
import os
import re
from typing import NamedTuple

import plain.algebra
import plain.codes
import plain.cube
import plain.diagrams
import plain.drawing
import plain.frames
import plain.logs
import plain.moves
import plain.schedules
import plain.words
from plain.codes import LIMIT, REFUSED, Ended
from shared.places import DATA, read_text
from bench.braids import closure

BYTES = 65_536
LOG_BYTES = 67_108_864
GENERATORS = 4_194_304
GREATEST_NUMBER = 1_048_575
LETTERS = (1, -1, 2, -2)
SMALL_CUBE = 700
DONE, USAGE = 0, 2
ROW = re.compile(r"j (-?\d+) i (-?\d+) dim (\d+)\n")
SCRIPTED = ("edit", "schedule", "union")


class Answer(NamedTuple):
    """A status and a text; the text is a pattern where `polynomial` has the state sum of a table that is not known."""

    status: int
    text: str
    polynomial: dict = None

    def fault(self, status, wrote):
        """What is wrong with a status and the bytes that a run wrote, if anything is."""
        if status != self.status:
            return f"status {status} and not {self.status}"
        if self.polynomial is None:
            return None if wrote == self.text.encode() else f"{wrote[:300]!r} and not {self.text[:300]!r}"
        text = wrote.decode(errors="replace")
        if not re.fullmatch(self.text, text):
            return f"{wrote[:300]!r} and not as {self.text[:300]!r}"
        rows = [tuple(map(int, row)) for row in ROW.findall(text)]
        found = {(j, i): dimension for j, i, dimension in rows}
        fine = rows == sorted(set(rows)) and all(found.values()) and plain.cube.characteristic(found) == self.polynomial
        return None if fine else f"no table of this polynomial: {wrote[:300]!r}"


class AnyLog(NamedTuple):
    """Any log of a diagram over a field that is accepted."""

    diagram: tuple
    field: int

    def fault(self, status, wrote):
        lines = wrote.decode(errors="replace").splitlines()
        code = plain.diagrams.code_of(self.diagram)
        if status != DONE or lines[:3] != ["log 1", plain.diagrams.printed(code), f"field {self.field}"]:
            return f"status {status} and {lines[:3]}"
        if plain.cube.generator_count(code) > SMALL_CUBE:
            return None
        came, wanted = plain.logs.verdict(wrote), (DONE, "verified\n" + plain.cube.table(self.diagram, self.field))
        return None if came == wanted else f"{came} of {wrote[:300]!r}"


class Command(NamedTuple):
    """The command of a line of words, with its field and its form."""

    task: str
    field: int
    form: str
    mark: int


def printed_gauss(diagram):
    """The signed Gauss text of a diagram: each component from the pass that its least arc enters."""
    code = plain.diagrams.code_of(diagram)
    groups = [", ".join(str(number if is_over else -number) for number, is_over in them) for them in plain.diagrams.passes(code)]
    body = groups[0] if len(groups) == 1 and not code.loops else ", ".join(f"{{{group}}}" for group in groups)
    signs = ", ".join("1" if crossing.positive else "-1" for crossing in diagram.crossings)
    return f"GaussCode[{body}] Signs[{signs}]"


@functools.lru_cache(maxsize=4096)
def accepted(code):
    """The diagram of a code, or the answer that refuses it."""
    fault = plain.diagrams.fault_of(code)
    if fault:
        raise Ended(REFUSED, f"refused {fault}")
    return plain.diagrams.accepted(code)


def read(text):
    return accepted(plain.codes.code_of(text))


def need_bytes(given, most):
    plain.codes.need_room("bytes", min(len(given), most + 1), most)


def need_small(diagram):
    plain.codes.need_room("generators", plain.cube.generator_count(plain.diagrams.code_of(diagram)), GENERATORS)


def table_answer(diagram, field, before=""):
    """What comes first, then the table and the Jones line."""
    polynomial = plain.cube.jones_line(diagram)
    if plain.cube.generator_count(plain.diagrams.code_of(diagram)) <= SMALL_CUBE:
        return Answer(DONE, before + plain.cube.table(diagram, field) + polynomial)
    form = re.escape(f"{before}table 2\nfield {field}\n") + f"({ROW.pattern})*" + re.escape(polynomial)
    return Answer(DONE, form, plain.cube.state_sum(diagram))


def homology(command, diagram, _):
    need_small(diagram)
    return table_answer(diagram, command.field)


def schedule(command, diagram, script):
    fault = plain.schedules.fault_of(script)
    if fault:
        return Answer(*fault)
    need_small(diagram)
    if not script.strip(" \t\r\n"):
        return table_answer(diagram, command.field)
    if plain.cube.generator_count(plain.diagrams.code_of(diagram)) > SMALL_CUBE:
        return None
    return table_answer(diagram, command.field, plain.schedules.answers(diagram, command.field, script))


def edit(_, diagram, script):
    return Answer(*plain.moves.answer(diagram, script))


def jones(_, diagram, __):
    return Answer(DONE, plain.cube.jones_line(diagram))


def check(_, diagram, __):
    return Answer(DONE, plain.diagrams.counts(diagram))


def draw(_, diagram, __):
    return Answer(DONE, plain.drawing.drawing(plain.diagrams.code_of(diagram)))


def mirror(_, diagram, __):
    return Answer(DONE, plain.algebra.text_of(plain.algebra.mirrored(diagram)))


def reverse(_, diagram, __):
    return Answer(DONE, plain.algebra.text_of(plain.algebra.reversed_(diagram)))


def union(_, diagram, second):
    """The text behind the first `;` is the second code; what is said of it stands behind a line of its own."""
    try:
        other = read(second.encode("latin-1"))
    except Ended as it:
        raise Ended(it.status, f"second\n{it.line}") from None
    code = plain.algebra.united(plain.diagrams.code_of(diagram), plain.diagrams.code_of(other))
    return Answer(DONE, plain.diagrams.printed(code) + "\n")


def reduced(command, diagram, _):
    names = 2 * len(diagram.crossings) + diagram.loops
    if not 1 <= command.mark <= names:
        return Answer(REFUSED, f"refused mark {command.mark}\n")
    need_small(diagram)
    if plain.cube.generator_count(plain.diagrams.code_of(diagram)) > SMALL_CUBE:
        return None
    head, polynomial = f"mark {command.mark}\n", plain.cube.jones_line(diagram)
    return Answer(DONE, head + plain.cube.table(diagram, command.field, command.mark) + polynomial)


def certify(command, diagram, _):
    need_small(diagram)
    return AnyLog(diagram, command.field)


def convert(command, diagram, _):
    text = printed_gauss(diagram) if command.form == "gauss" else plain.diagrams.printed(plain.diagrams.code_of(diagram))
    return Answer(DONE, text + "\n")


FIRST_REPLIES = (homology, schedule, edit, jones, check, convert)
REPLIES = {it.__name__: it for it in (*FIRST_REPLIES, draw, mirror, reverse, union, reduced, certify)}


def stored_dimensions():
    """The dimensions of the numbers of `numbers.txt`, by number and field."""
    lines = [line.split() for line in read_text(os.path.join(DATA, "numbers.txt")).split("\n\n", 1)[1].splitlines()]
    return {(int(line[0]), field): line[at] for line in lines for field, at in ((2, 3), (3, 4))}


DIMENSIONS = stored_dimensions()


def bench(number, field):
    """The lines of a number; the dimension is told where it is stored, and is any number else."""
    if number > GREATEST_NUMBER:
        return Answer(LIMIT, f"limit number {number} of {GREATEST_NUMBER}\n")
    crossings, loops = closure(3, [LETTERS[number // 4**place % 4] for place in range(10)])
    code = plain.diagrams.Code(tuple(map(tuple, crossings)), loops)
    head = f"bench {number}\ncrossings 10 loops {loops} generators {plain.cube.generator_count(code)}\ndimension "
    polynomial = plain.cube.jones_line(accepted(code))
    if (number, field) in DIMENSIONS:
        return Answer(DONE, f"{head}{DIMENSIONS[number, field]}\n{polynomial}")
    return Answer(DONE, re.escape(head) + "[1-9][0-9]*\n" + re.escape(polynomial), {})


class ListAnswer(NamedTuple):
    """The answers to the questions of a list."""

    asked: list
    answers: list

    def fault(self, status, wrote):
        found = plain.frames.read(wrote)
        if status != DONE or not found or found[1] or [it[:2] for it in found[0]] != [it[:2] for it in self.asked]:
            return f"status {status}, frames {[it[:3] for it in (found or [[]])[0]]}, and not {[it[:2] for it in self.asked]}"
        faults = (answer.fault(frame.status, frame.text) for frame, answer in zip(found[0], self.answers))
        return next((f"frame {number}: {fault}" for number, fault in enumerate(faults, 1) if fault), None)


def scan_reply(field, given):
    """The answer of `kh-scan` to an input over a field."""
    try:
        need_bytes(given, BYTES)
        return table_answer(read(given), field)
    except Ended as it:
        return Answer(it.status, it.line + "\n")


def scan_answer(words, given):
    """The answer of `kh-scan` to words and to an input of bytes."""
    asked = plain.words.asked_of_scan(words)
    if not asked:
        return Answer(USAGE, "usage: kh-scan [each] [--field FIELD]\n")
    if not asked.is_list:
        return scan_reply(int(asked.fields), given)
    questions = plain.frames.questions(given, asked.fields)
    return ListAnswer(questions, [scan_reply(int(it.field), it.line) for it in questions])


def answer(words, given, commands=plain.words.COMMANDS, options=plain.words.OPTIONS):
    """The answer to words and to an input of bytes, or None where it is not known."""
    found = plain.words.command_of(words, commands, options)
    if not found:
        return Answer(USAGE, "usage: kh COMMAND [OPTIONS]\n")
    if found["task"] == "bench":
        return bench(int(found["--number"]), int(found["--field"]))
    mark = found.get("--mark")
    command = Command(found["task"], int(found["--field"]), found["--to"], None if mark is None else int(mark))
    try:
        if command.task == "verify":
            need_bytes(given, LOG_BYTES)
            return Answer(*plain.logs.verdict(given))
        need_bytes(given, BYTES)
        code, _, script = given.partition(b";") if command.task in SCRIPTED else (given, None, b"")
        # (of a script only ASCII has a meaning, so that any reading of other bytes does)
        return REPLIES[command.task](command, read(code), script.decode("latin-1"))
    except Ended as it:
        return Answer(it.status, it.line + "\n")
