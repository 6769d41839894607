#!/usr/bin/env python3
"""Compares what `kh edit` writes with a plain second reading of its rules, on moves and scripts that are drawn at random.

    tests/edit_scripts.py PROGRAM [WORD]

`tests/program` runs these cases behind its rows. The draws are the same in each run. A case is one run of the program: the moves that can
be made from a diagram, one after another; a move that cannot be made; the counts of a diagram that came; its Jones polynomial or homology,
which has to be that of the first; a script of moves that are taken back and made again; `check` on a code some of whose arcs were
changed; or a line of `rows/edit_by_hand.py`. With a word only the cases whose names have it are run. The last line is 'N passed, M failed'.
"""
import functools
import os
import random
import sys
from typing import NamedTuple

import drawn.moves as draws
import plain.diagrams as codes
import plain.moves as moves
import rows.edit_by_hand as hand
from shared import known_diagrams
from shared.pool import tell_parts
from shared.running import Child

NAME = "edit, "
STEPS = 200
SCRIPTS, SHARES = 2000, 8
LONG_SCRIPTS = 20
CHANGED_CODES = 1000
JONES_CROSSINGS = 14
HOMOLOGY_CROSSINGS = 10
HOMOLOGY_GENERATORS = 200_000


class Case(NamedTuple):
    """What the program was asked, and the status and the text that came and that were wanted."""

    words: list
    given: str
    came: tuple
    wanted: tuple

    def fault(self):
        """What is wrong with the case, if anything is: the first line that differs, then what was given."""
        if self.came == self.wanted:
            return None
        (status, text), (wanted, wanted_text) = self.came, self.wanted
        lines = zip([*text.split("\n"), "its end"], [*wanted_text.split("\n"), "its end"])
        line, wanted_line = next((pair for pair in lines if pair[0] != pair[1]), ("the text", "it"))
        return f"{line!r} with {status} and not {wanted_line!r} with {wanted}: {' '.join(self.words)} on {self.given!r}"


@functools.lru_cache(maxsize=None)
def child_of(program, process):
    """What runs the program in this process."""
    return Child(program)


def ask(program, words, given):
    """The status of the program and what it writes."""
    came = child_of(program, os.getpid()).run(words, given.encode())
    return came.status, came.wrote.decode(errors="replace")


def asked(program, words, given, wanted):
    return Case(words, given, ask(program, words, given), wanted)


def alike(program, words, texts):
    """The program answers the first text, and writes the same for the others."""
    status, wrote = ask(program, words, texts[0])
    yield Case(words, texts[0], (status, ""), (moves.DONE, ""))
    for text in texts[1:]:
        yield asked(program, words, text, (moves.DONE, wrote))


def most_generators(diagram):
    """A bound on the cube's generators: a piece of n crossings has no more than twice the n-th power of three."""
    return 3 ** len(diagram.crossings) * 2 ** (len(codes.pieces(codes.code_of(diagram))) + diagram.loops)


class Chain:
    """Moves from a diagram that are drawn one after another: those that can be made and what comes, and those that cannot."""

    def __init__(self, name, text):
        self.name, self.text = name, text

    @functools.cached_property
    def drawn(self):
        """The lines of moves with the diagrams that come; and the lines of the others, each with its place and why it is refused."""
        draw, lines, came, refused = random.Random(self.name), [], [codes.accepted(codes.read(self.text))], []
        for _ in range(STEPS):
            line = (draws.good_line if draw.random() < 0.55 else draws.any_line)(draw, came[-1])
            try:
                came.append(moves.moved(came[-1], line))
                lines.append(line)
            except codes.Refused as why:
                refused.append((len(lines), line, str(why)))
        return lines, came, refused

    @functools.cached_property
    def texts(self):
        return [codes.printed(codes.code_of(diagram)) for diagram in self.drawn[1]]

    def readable(self):
        """The different diagrams that came and can be read, each with its text; the first is there from the start."""
        few = [(text, diagram) for text, diagram in zip(self.texts, self.drawn[1]) if diagram.loops <= codes.LOOPS_OF_A_TEXT]
        return [(diagram, text) for text, diagram in dict(few).items()]

    def moves(self, program):
        """A run of all moves that can be made, and one of each that cannot, on the diagram that there is then."""
        lines, came, refused = self.drawn
        wrote = "".join(f"{number} {text}\n" for number, text in enumerate(self.texts[1:], 1))
        yield asked(program, ["edit"], f"{self.text};" + "\n".join(lines), (moves.DONE, wrote))
        for place, line, why in refused:
            if came[place].loops <= codes.LOOPS_OF_A_TEXT:
                yield asked(program, ["edit"], f"{self.texts[place]};{line}", (moves.MOVE_REFUSED, f"1 refused {why}\n"))

    def acceptance(self, program):
        """Each diagram is accepted with the directions that it has, by the second reading and by the program."""
        for diagram, text in self.readable():
            code = codes.code_of(diagram)
            fault = codes.fault_of(code) or ("" if codes.accepted(code) == diagram else "other directions")
            yield asked(program, ["check"], text, (moves.DONE, f"the second reading: {fault}" if fault else codes.counts(diagram)))

    def polynomials(self, program):
        """The diagrams of few crossings have the Jones polynomial of the first."""
        few = [text for diagram, text in self.readable() if len(diagram.crossings) <= JONES_CROSSINGS]
        return alike(program, ["jones"], few) if few[:1] == self.texts[:1] else ()

    def tables(self, program):
        """Some diagrams of few crossings have the homology of the first, over two and over three elements."""
        few = [
            text
            for diagram, text in self.readable()
            if len(diagram.crossings) <= HOMOLOGY_CROSSINGS and most_generators(diagram) <= HOMOLOGY_GENERATORS
        ]
        for field in "23":
            some = few[:: min(10, max(1, len(few) // 2))]
            yield from alike(program, ["homology", "--field", field], some) if few[:1] == self.texts[:1] else ()


def code_text(draw, code):
    """The text of a code, or JSON where there are no loops."""
    if code.loops or draw.random() < 0.8:
        return codes.printed(code)
    return str([list(slots) for slots in code.crossings])


def scripts(program, small, seed, count, lines_for):
    """Scripts on diagrams that are drawn from small ones, and what the plain machine answers."""
    draw = random.Random(seed)
    for _ in range(count):
        diagram = codes.accepted(codes.read(draw.choice(small)))
        editor = moves.Editor(diagram)
        script = draws.script_of(draw, list(draws.carried_out(editor, lines_for(draw, editor))))
        given = f"{code_text(draw, codes.code_of(diagram))};{script}"
        yield asked(program, ["edit"], given, moves.answer(diagram, script))


def changed_codes(program, texts):
    """Codes some of which break a rule of acceptance: `check` names the first, or tells the counts."""
    draw = random.Random("codes")
    for _ in range(CHANGED_CODES):
        code = draws.changed_code(draw, codes.read(draw.choice(texts)))
        fault = codes.fault_of(code)
        wanted = (moves.CODE_REFUSED, f"refused {fault}\n") if fault else (moves.DONE, codes.counts(codes.accepted(code)))
        yield asked(program, ["check"], codes.printed(code), wanted)


def by_hand(name, text, line, answer):
    """What gives the case of a line with its answer."""
    status = moves.MOVE_REFUSED if answer.startswith("refused") else moves.DONE
    return lambda program: [asked(program, ["edit"], f"{text};{line}", (status, f"1 {answer}\n"))]


def nine_loops(program):
    """Nine curls become loops, more than a text can have, and none of them takes a curl."""
    left = [codes.printed(codes.Code(codes.read(hand.links(9 - done)).crossings, done)) for done in range(1, 9)]
    left.append("PD[" + ", ".join(f"Loop[{loop}]" for loop in range(1, 10)) + "]")
    wrote = "".join(f"{number} {text}\n" for number, text in enumerate([*left, left[7], left[8]], 1))
    script = "r1 drop 1\n" * 9 + "undo\nredo\n"
    for line, why in (("r1 add 9 under plus", "loop 9"), ("r1 add 10 under plus", "no arc 10")):
        yield asked(program, ["edit"], f"{hand.links(9)};{script}{line}", (moves.MOVE_REFUSED, wrote + f"12 refused {why}\n"))


def bad_lines(program):
    """A line that is no command is found before any is carried out, and too many lines before that."""
    for line in draws.BAD_LINES:
        yield asked(program, ["edit"], f"{hand.CURL};undo\n{line}", (moves.CODE_REFUSED, "refused line 2\n"))
    for count, wanted in ((4096, (moves.CODE_REFUSED, "refused line 4096\n")), (4097, (moves.LIMIT, "limit lines 4097 of 4096\n"))):
        yield asked(program, ["edit"], hand.CURL + ";" + "\n" * (count - 1) + "turn", wanted)


def kept_diagrams(program):
    """Of three hundred changes the last 256 can be taken back, and made again."""
    curled, curl = "PD[X[3, 1, 4, 4], X[1, 3, 2, 2]]", "PD[X[1, 1, 2, 2]]"
    changes = "r1 add 1 under plus\nr1 drop 2\n" * 150
    for steps, why in (("undo\n" * 257, "undo"), ("undo\n" * 256 + "redo\n" * 257, "redo")):
        last = 300 + steps.count("\n")
        wrote = "".join(f"{number} {curled if number % 2 else curl}\n" for number in range(1, last))
        yield asked(program, ["edit"], f"{curl};{changes}{steps}", (moves.MOVE_REFUSED, wrote + f"{last} refused nothing to {why}\n"))


def equal_tables(program):
    """The codes of two links before and after a move have one table each."""
    for field in "23":
        for texts in hand.EQUAL_LINKS:
            yield from alike(program, ["homology", "--field", field], texts)


def some_by_hand():
    """The groups whose answers were worked out by hand."""
    for name, *it in hand.ROWS:
        yield f"by hand, {name}", by_hand(name, *it)
    yield from {"nine loops": nine_loops, "bad lines": bad_lines, "kept diagrams": kept_diagrams}.items()


def groups():
    """The name of each part of these tests, with its groups of cases: the name of each, and what gives them for a program."""
    yield "by hand", [*some_by_hand()]
    yield "tables of equal links", [("tables of equal links", equal_tables)]
    begun = known_diagrams.begun()
    for chain in (Chain(*it) for it in begun):
        # (what its moves are is found out once)
        whats = ("moves", "acceptance", "polynomials", "tables")
        yield chain.name, [(f"{what} from {chain.name}", getattr(chain, what)) for what in whats]
    texts = [text for _, text in begun if codes.read(text).crossings]
    small = [text for text in texts if len(codes.read(text).crossings) <= 6] + ["PD[]"]
    yield "changed codes", [("changed codes", functools.partial(changed_codes, texts=texts))]
    for share in range(SHARES):
        short = functools.partial(scripts, small=small, seed=f"scripts {share}", count=SCRIPTS // SHARES, lines_for=draws.short_lines)
        yield f"scripts, share {share}", [("scripts", short)]
    yield "long scripts", [
        ("long scripts", functools.partial(scripts, small=small[:-1], seed="long", count=LONG_SCRIPTS, lines_for=draws.many_lines))
    ]


def faults(program, chosen):
    """The name of each case of these groups, and what is wrong with it, if anything is."""
    for name, cases in chosen:
        for case in cases(program):
            yield NAME + name, case.fault()


def parts(program, word=""):
    """The parts of these tests with groups whose names have the word, and what gives what is wrong with each case, if anything is."""
    for name, them in groups():
        chosen = [it for it in them if word in NAME + it[0]]
        if chosen:
            yield NAME + name, functools.partial(faults, os.path.abspath(program), chosen)


if __name__ == "__main__":
    sys.exit(tell_parts(parts, __doc__))
