"""Links, by a diagram, as values."""
from __future__ import annotations

import operator
import re
from collections.abc import Iterable, Mapping, Sequence
from html import escape
from typing import TYPE_CHECKING, Any, Union

from . import programs
from .codes import link_names, plain_lists, stored_names, turning
from .laurent import Polynomial, jones_of
from .refused import MoveRefused, Refused, among, need_answer
from .tables import FIELDS, Table, need_field
from .torsion import Torsion

if TYPE_CHECKING:
    from .drawings import Drawing

Code = Union[str, Sequence[Any]]
_CROSSING = re.compile(r"X\[(\d+), (\d+), (\d+), (\d+)\]")
_NUMBER = re.compile(r"-?\d+")
# What may be meant as a name.
_NAME = re.compile(r"[\w ^{},()-]*[A-Za-z_^][\w ^{},()-]*")


class Link:
    """A link, by one of its diagrams: immutable, and equal to another where both have the same planar diagram.

    `Link("8_19")` is made of a name, a planar diagram, a signed Gauss code, a DT code, a braid word or JSON, in any of the forms that
    `tools/kh-codes --help` lists; `Link([[1, 5, 2, 4], [3, 1, 4, 6], [5, 3, 6, 2]])` of a list as other programs have it, and
    `Link(braid=[1, 1, 1])` of the letters of a braid. Names are those that `kh.names()` lists, such as "Hopf", those of `kh.names("prime")`
    and `kh.names("large")`, and torus links such as "T(3,7)". With `clockwise` the lists go clockwise, as SageMath's do, from the same arc.
    What is no code, or no drawing has, raises `Refused`, with the place; a name that is none, with names that are near it. `said` has what
    was changed in reading it.

    *Proved* is what comes of the diagram `code`: `table`, `reduced`, `jones`, `signs`, `mirror`, `reverse`, `union`, `move`, `certify`, all
    of which the programs answer (docs/THEOREM.md). *Not proved* is how `code` was made of another form, what is drawn, and `torsion`."""

    __slots__ = ("_code", "_name", "_said", "_history", "_gauss")
    _code: str
    _name: str
    _said: tuple[str, ...]
    # (the diagram from which moves began, and the lines of all moves since)
    _history: tuple[str, tuple[str, ...]]
    _gauss: str | None

    def __init__(self, code: Code = "", *, braid: Sequence[int] | None = None, name: str = "", clockwise: bool = False) -> None:
        if braid is not None and code != "":
            raise ValueError("a link is made of a code or of the letters of a braid, and here are both")
        text = _text_of(code) if braid is None else _braid_text(braid)
        written = "" if clockwise else plain_lists.written(text)
        self._code, self._name, self._said = (written, "", ()) if written else _read(text, clockwise)
        self._name = name or self._name
        self._history, self._gauss = (self._code, ()), None

    @classmethod
    def _of_code(cls, code: str, name: str = "", said: Sequence[str] = (), history: tuple[str, tuple[str, ...]] | None = None) -> Link:
        """The link of a planar diagram as `kh` writes it."""
        link = cls.__new__(cls)
        link._code, link._name, link._said, link._gauss = code, name, tuple(said), None
        link._history = history or (code, ())
        return link

    @property
    def code(self) -> str:
        """The planar diagram, as `kh convert` writes it."""
        return self._code

    @property
    def name(self) -> str:
        """The name by which it was made, or which it was given; nothing where it has none."""
        return self._name

    @property
    def said(self) -> tuple[str, ...]:
        """What was changed when the code was read, and which hand a name has."""
        return self._said

    @property
    def pd(self) -> list[tuple[int, int, int, int]]:
        """The arcs at each crossing, counterclockwise from the one on which the under pass comes in; loops are left out."""
        return [(int(i), int(j), int(k), int(l)) for i, j, k, l in _CROSSING.findall(self._code)]

    @property
    def loops(self) -> int:
        """How many circles meet no crossing; they are numbered behind the arcs."""
        return self._code.count("Loop")

    @property
    def gauss(self) -> str:
        """The signed Gauss code, as `kh convert --to gauss` writes it."""
        if self._gauss is None:
            self._gauss = self._kh("convert", "--to", "gauss").strip()
        return self._gauss

    @property
    def signs(self) -> tuple[int, ...]:
        """The sign of each crossing, 1 or -1."""
        return tuple(map(int, _NUMBER.findall(self.gauss.partition("Signs")[2])))

    @property
    def writhe(self) -> int:
        """The sum of the signs."""
        return sum(self.signs)

    @property
    def components(self) -> tuple[tuple[int, ...], ...]:
        """The arcs of each component, in the order in which it passes them; a loop is one with its own number."""
        groups = re.findall(r"\{([^{}]*)\}", self.gauss.partition("Signs")[0]) or [self.gauss.partition("Signs")[0]]
        sizes = [len(_NUMBER.findall(it)) for it in groups]
        found, arc = [], 1
        for size in sizes:
            if size:
                found.append(tuple(range(arc, arc + size)))
                arc += size
        return (*found, *((arc + loop,) for loop in range(self.loops)))

    def table(self, field: int = 2) -> Table:
        """The table of Khovanov homology over the field of 2, 3, 5 or 7 elements. Proved, but for this package's handing it on: it is the
        definition's."""
        field = need_field(field)
        answer = programs.STREAMS.ask(field, self._code)
        if answer.status == programs.OUT_OF_MEMORY:
            raise MemoryError(f"kh-scan has no memory for {self!r}")
        return Table._of_answer(need_answer(answer, "homology", self._code), field)

    def tables(self) -> dict[int, Table]:
        """The tables over all four fields."""
        return {field: self.table(field) for field in FIELDS}

    def reduced(self, mark: int = 1, field: int = 2) -> Table:
        """The table of reduced homology at an arc or a loop, which is proved to be the definition's. It is made from the cube, which
        has a limit (docs/KNOTS.md, "Which diagrams fit")."""
        field, number = need_field(field), _number(mark)
        if number is None:
            raise ValueError(f"a mark is the number of an arc or of a loop, and not {mark!r}")
        return Table._of_answer(self._kh("reduced", "--mark", str(number), "--field", str(field)), field)

    @property
    def jones(self) -> Polynomial:
        """The unnormalised Jones polynomial, q + q^-1 for the unknot; `jones.normalised().in_t()` is that of most tables. Proved, but for the
        reading of its text."""
        found = jones_of(self._kh("jones").strip())
        assert found is not None
        return found

    def torsion(self) -> Torsion:
        """What the tables over the four fields tell of torsion over the integers, and what they leave open."""
        return Torsion.of(self.tables())

    def mirror(self) -> Link:
        """The mirror image. Proved: its tables have both degrees negated."""
        return self._other("mirror")

    def reverse(self) -> Link:
        """The diagram with the directions of all components turned. Proved: its tables are the same."""
        return self._other("reverse")

    def union(self, other: Link) -> Link:
        """Both diagrams beside each other. Proved: its tables are the products."""
        if not isinstance(other, Link):
            raise TypeError(f"a union is one of two links, and {other!r} is none")
        given = f"{self._code};{other._code}"
        return Link._of_code(need_answer(programs.run(["union"], given), "union", given).strip())

    def move(self, *lines: str) -> Link:
        """The diagram behind these Reidemeister moves, each a line of a script of `kh edit`: `r1 add 1 under plus`, `r2 drop 1 2`,
        `r3 1 2 3` (docs/FORMATS.md, "Scripts"). One that can not be made raises `MoveRefused`, which says which. Proved: its tables are
        the same."""
        start, before = self._history
        mine = [line for text in lines for line in text.splitlines() if line.strip()]
        every = (*before, *mine)
        given = f"{start};\n" + "".join(f"{line}\n" for line in every)
        try:
            wrote = need_answer(programs.run(["edit"], given), "edit", given).splitlines()
        except MoveRefused as fault:
            # (the code stands in a line of its own before them)
            raise among(fault, mine, 1 + len(before)) from None
        code = wrote[-1].partition(" ")[2] if wrote else start
        return Link._of_code(code, self._name, history=(start, every))

    def undo(self) -> Link:
        """The diagram before the last move; `edit` keeps 256 of them."""
        return self.move("undo")

    def redo(self) -> Link:
        """The diagram behind the move that was undone last."""
        return self.move("redo")

    def moves(self) -> list[str]:
        """The lines of the moves that `edit` makes of this diagram, as far as they were thought of: slides, bigons and kinks that can be
        taken out, and fingers and kinks that can be put in."""
        from types import SimpleNamespace

        from .show import page_moves

        sheet = SimpleNamespace(crossings=self.pd, signs=list(self.signs), code=self._code)
        return [it.line for it in page_moves.accepted(_Asked(), sheet)]

    def certify(self, field: int = 2) -> str:
        """A log that proves the table over a field, which `kh.verify` and others can check (docs/LOG-FORMAT.md)."""
        return self._kh("certify", "--field", str(need_field(field)))

    def drawing(self, *, numbers: bool = False, mark: int | None = None, colours: bool = False) -> Drawing:
        """The drawing, with the numbers of arcs and crossings, a dot on an arc or loop, and a colour for each component, where wanted."""
        from .drawings import Drawing

        return Drawing(self._kh("draw"), self._code, numbers=numbers, mark=mark, colours=colours)

    def to_sage(self) -> Any:
        """The link of SageMath; a loop becomes a curl."""
        from .conversions import to_sage

        return to_sage(self)

    def to_snappy(self) -> Any:
        """The link of SnapPy; a loop becomes a curl."""
        from .conversions import to_snappy

        return to_snappy(self)

    def to_regina(self) -> Any:
        """The link of Regina; a loop becomes a curl."""
        from .conversions import to_regina

        return to_regina(self)

    def __eq__(self, other: object) -> bool:
        if not isinstance(other, Link):
            return NotImplemented
        return self._code == other._code

    def __hash__(self) -> int:
        return hash(self._code)

    def __reduce__(self) -> tuple[Any, ...]:
        return Link._of_code, (self._code, self._name, self._said, self._history)

    def __str__(self) -> str:
        return self._name or self._code

    def __repr__(self) -> str:
        return f"Link({self._name or self._code!r})"

    def _repr_html_(self) -> str:
        from .show.grids import html_of

        head = f"<p>{escape(self._name or 'A link')}</p>"
        try:
            tables = list(self.tables().values())
            cells = "".join(f'<td valign="top">{html_of(it, tables)}</td>' for it in tables)
            return f"{head}\n{self.drawing().svg}\n<table><tr>{cells}</tr></table>"
        except (Refused, programs.Missing, MemoryError) as fault:
            return f"{head}\n<pre>{escape(str(fault))}</pre>"

    def _kh(self, *words: str) -> str:
        """What `kh` answers to these words of this diagram."""
        return need_answer(programs.run(list(words), self._code), words[0], self._code)

    def _other(self, command: str) -> Link:
        return Link._of_code(self._kh(command).strip())


class _Asked:
    """What the listing of moves asks `kh` by."""

    def ask(self, words: tuple[str, ...], given: str) -> programs.Answer:
        return programs.run(list(words), given)


def verify(log: str) -> Table:
    """The table that a log proves, whoever wrote the log. Proved: it is that of the diagram in the log. What proves nothing raises
    `Refused`."""
    wrote = need_answer(programs.run(["verify"], log), "verify", log)
    return Table.all_of(wrote)[0]


def _text_of(code: Any) -> str:
    """The text of a code, or of a list as other programs have it."""
    if isinstance(code, str):
        return code.removeprefix("\ufeff")
    if not isinstance(code, Iterable) or isinstance(code, (bytes, bytearray, Mapping)):
        raise TypeError(f"a code is a text or a list, and not {code!r}")
    return str([list(it) if isinstance(it, tuple) else it for it in code])


def _braid_text(letters: Any) -> str:
    """The braid word of these letters."""
    if isinstance(letters, (str, bytes)) or not isinstance(letters, Iterable):
        raise TypeError(f"the letters of a braid are a list of numbers, such as [1, -2, 1, -2], and not {letters!r}")
    numbers = []
    for it in letters:
        number = _number(it)
        if not number:
            raise ValueError(f"a letter of a braid is 1, 2 and so on, or -1, -2 for their inverses, and not {it!r}")
        numbers.append(number)
    return f"braid: {' '.join(map(str, numbers))}"


def _number(value: Any) -> int | None:
    """A number of any type of whole numbers; nothing where it is none."""
    try:
        return operator.index(value)
    except TypeError:
        return None


def _read(text: str, clockwise: bool) -> tuple[str, str, tuple[str, ...]]:
    """The planar diagram of the one code or name of a text, its name, and what there is to say."""
    try:
        return _read_code(text, clockwise)
    except Refused as fault:
        name = text.strip()
        if _NAME.fullmatch(name):
            fault.what = "; ".join(filter(None, (fault.what, _meant(name))))
        raise


def _meant(name: str) -> str:
    """Whether one of the names near this one is meant; nothing where there are none."""
    every = {**stored_names.known(), **link_names.reference()}
    return str(link_names.question(link_names.near(link_names.name_of(name) or name, every)))


def _read_code(text: str, clockwise: bool) -> tuple[str, str, tuple[str, ...]]:
    """The same of a code, or of a name that stands for one."""
    found = list(turning.all_of(text, clockwise))
    if len(found) != 1:
        raise Refused(f"there are {len(found)} codes here, and a link has one: kh.read takes many" if found else "there is no code", text)
    it = found[0]
    if it.fault:
        raise refused_by(it.statement, it.fault)
    if turning.is_in_no_plane(it.said):
        raise Refused(it.said[-1].partition(", so")[0], text)
    return it.code, "" if it.name.startswith("code ") else it.name, tuple(it.said)


def refused_by(statement: Any, fault: Any) -> Refused:
    """The refusal of a code that could not be read, with its place."""
    return Refused(fault.what, statement.shown, [(fault.place, fault.place + 1)])
