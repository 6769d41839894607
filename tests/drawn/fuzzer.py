"""Words and inputs that are drawn at random, each by its number, and what is wrong with what a program does with them; for `tests/fuzz`."""
import collections
import os
import random

import drawn.inputs
import drawn.lists
import drawn.words
import plain.answers as answers
import plain.cube
import plain.diagrams
import plain.words
from plain.codes import Ended
from shared.running import PATIENCE, Child, known_commands, least_seconds, slowness
from shared.scanning import HOMOLOGY, LIMIT_OF_CUBES

REFUSED_SECONDS = 0.5
REFUSED_KILOBYTES = 96 * 1024
NO_TEXT = answers.Answer(answers.USAGE, "")

# What builds the whole cube, and how many generators make most of such inputs go to another command.
CUBE_TASKS = ("homology", "schedule", "reduced", "certify")
LARGE_CUBE = 20_000


def texts(words):
    """The words as texts; None where one of them is none."""
    try:
        return [os.fsencode(it).decode() for it in words]
    except UnicodeDecodeError:
        return None


def is_large(given):
    """Whether an input has a code whose cube takes long and is within the limit."""
    try:
        code = plain.diagrams.code_of(answers.read(given.partition(b";")[0]))
    except Ended:
        return False
    return LARGE_CUBE < plain.cube.generator_count(code) <= answers.GENERATORS


class Fuzzer:
    """What is drawn for a program, and what came of it so far."""

    def __init__(self, program, seed, slower=1, commands=None):
        self.child, self.seed, self.slower = Child(program, PATIENCE * slower), seed, slower
        self.commands = commands or known_commands(program)
        self.options = {name: it for name, it in plain.words.OPTIONS.items() if name != "--mark" or "reduced" in self.commands}
        self.stored = sorted({number for number, _ in answers.DIMENSIONS})
        self.counts, self.slowest, self.largest, self.unknown = collections.Counter(), (0, None), (0, None), 0

    def drawn(self, number):
        """The words and the input of a number."""
        draw = random.Random(f"{self.seed} {number}")
        task = draw.choice(sorted(self.commands)) if draw.random() < 0.95 else "bench"
        task = draw.choice(("homology", "check", "convert")) if task == "bench" and draw.random() < 0.9 else task
        given = drawn.inputs.some_input(draw, task)
        if task in CUBE_TASKS and is_large(given) and draw.random() < 0.98:
            task = "check"
        return drawn.words.some_words(draw, task, self.options, self.stored), given, draw.random() < 0.2

    def wanted(self, words, given):
        """The answer, or None where it is not known."""
        words = texts(words)
        return NO_TEXT if words is None else self.answer(words, given)

    def answer(self, words, given):
        return answers.answer(words, given, self.commands, self.options)

    def fault_of(self, number):
        """Tries the input of a number, and tells what is wrong with what comes of it, if anything is."""
        words, given, by_pipe = self.drawn(number)
        came = self.child.run(words, given, by_pipe)
        wanted = self.wanted(words, given)
        self.unknown += wanted is None
        self.counts[next((it for it in words if it in self.commands), "other words"), came.status] += 1
        fault = came.shape_fault() or (wanted and wanted.fault(came.status, came.wrote)) or self.cost_fault(number, came, words, given)
        return f"{number}: {fault[:1000]}\n    words {words!r:.600}\n    input {given!r:.3000}" if fault else None

    def cost_fault(self, number, came, words, given):
        """Whether a refused input, but for its count of generators, took much time or memory; what took most is kept."""
        if came.status not in (1, 2, 6) or came.wrote.startswith(LIMIT_OF_CUBES.encode()):
            return None
        self.slowest = max(self.slowest, (came.seconds, number))
        self.largest = max(self.largest, (came.kilobytes, number))
        bound = REFUSED_SECONDS * self.slower
        seconds = least_seconds(came.seconds, bound, lambda: self.child.run(words, given))
        if seconds > bound * slowness() or self.child.takes_more(came, REFUSED_KILOBYTES):
            return f"{seconds:.3f} seconds and {came.kilobytes} KB for a refusal"
        return None


class ScanFuzzer(Fuzzer):
    """What is drawn for a program of scans: its own words, with a code or with a list of codes, none of which has a large cube."""

    def __init__(self, scan, seed, slower=1):
        super().__init__(scan, seed, slower, ("each",))

    def drawn(self, number):
        draw = random.Random(f"{self.seed} {number}")
        words = drawn.words.some_scan_words(draw)
        asked = plain.words.asked_of_scan(texts(words) or [""])
        given = drawn.lists.some_list(draw) if asked and asked.is_list else drawn.inputs.some_input(draw, HOMOLOGY)
        return words, drawn.lists.NO_CODE if drawn.lists.is_far(given) else given, draw.random() < 0.2

    def answer(self, words, given):
        return answers.scan_answer(words, given)
