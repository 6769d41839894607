"""What is raised where a text is no code, and where a program refuses or limits what it was given: with the place, and a caret below it."""
from collections.abc import Sequence

from .codes import pointing, refusals
from .programs import MOVE_REFUSED, REFUSED, TOO_LARGE, Answer


class Refused(ValueError):
    """A text that is refused, or a name that no link has. `what` says why in words, `line` is the line that `kh` wrote (nothing where this
    package refused the text before), `text` the text, and `spans` the places in it: pairs of the first character and the one behind the
    last.

    That `kh` refuses exactly what its rules refuse, with this line, is proved; what is said of the line is not."""

    def __init__(self, what: str, text: str = "", spans: Sequence[tuple[int, int]] = (), line: str = "") -> None:
        super().__init__(what)
        self.what, self.text, self.spans, self.line = what, text, tuple(spans), line

    @property
    def place(self) -> int | None:
        """The place of the first character that is shown, from 0; nothing where there is none."""
        return self.spans[0][0] if self.spans else None

    @property
    def caret(self) -> str:
        """The lines of the text that are wrong, with carets below."""
        given = self.text.encode(errors="replace")
        return "\n".join(pointing.pointed(given, [(self._byte(begin), self._byte(end)) for begin, end in self.spans]))

    def _byte(self, place: int) -> int:
        return len(self.text[:place].encode(errors="replace"))

    def __str__(self) -> str:
        parts = [f"{self.line}: {self.what}" if self.line else self.what, self.caret]
        return "\n".join(filter(None, parts))


class TooLarge(Refused):
    """A code beyond a limit of the program; `line` says which. That there is this limit and no other is proved."""


class MoveRefused(Refused):
    """A move that can not be made; `line` says why, `text` has the lines that were given, and `number` that of the move among them, from 1.
    That `kh` refuses it, with this line, is proved."""

    def __init__(self, what: str, text: str = "", spans: Sequence[tuple[int, int]] = (), line: str = "", number: int = 1) -> None:
        super().__init__(what, text, spans, line)
        self.number = number


def among(fault: MoveRefused, lines: Sequence[str], before: int) -> MoveRefused:
    """The same of these lines alone, where so many stand before them."""
    number, text = fault.number - before, "\n".join(lines)
    begin = sum(len(it) + 1 for it in lines[: number - 1])
    what = f"the move in line {number}, {lines[number - 1].strip()}, can not be made (docs/FORMATS.md, \"Answers\")"
    return MoveRefused(what, text, [(begin, begin + len(lines[number - 1]))], fault.line, number)


def need_answer(answer: Answer, command: str, given: str) -> str:
    """What was written, where the program answered; else its refusal is raised."""
    if answer.status == REFUSED:
        raise of_line(answer.wrote, command, given)
    if answer.status == TOO_LARGE:
        line = " ".join(answer.wrote.split())
        words = line.split()
        raise TooLarge(f"there are {words[-3]} {words[-4]}, and at most {words[-1]} are taken", given, line=line)
    if answer.status == MOVE_REFUSED:
        number, _, line = answer.wrote.splitlines()[-1].partition(" ")
        raise MoveRefused("this move can not be made (docs/FORMATS.md, \"Answers\")", given, line=line, number=int(number))
    return answer.wrote


def of_line(wrote: str, command: str, given: str) -> Refused:
    """The refusal of this line, which a command wrote of a text."""
    lines = wrote.splitlines()
    line, part = lines[-1], given
    if command in ("edit", "union", "schedule"):
        first, _, rest = given.partition(";")
        part = rest if lines[0] == "second" or line.startswith("refused line ") else first
    text = part.encode(errors="replace")
    what, spans = refusals.told(text, command, line.removeprefix("refused "))
    return Refused(what, part, [(_character(text, begin), _character(text, end)) for begin, end in spans], line)


def _character(text: bytes, place: int) -> int:
    return len(text[:place].decode(errors="replace"))
