"""Drawings of diagrams as values. What `kh draw` answers is proved; the picture that is made of it is not."""
from __future__ import annotations

import os
from typing import Any


class Drawing:
    """A drawing of a diagram: `svg` is the picture, without a style of its own, so that notebooks keep it, and `str` has it for a terminal,
    as IPython shows it there."""

    __slots__ = ("_slices", "_svg")

    def __init__(self, drawn: str, code: str, *, numbers: bool = False, mark: int | None = None, colours: bool = False) -> None:
        from .show.slices import read_drawing
        from .show.arcs import crossings_of
        from .show.figure import svg_of
        from .show.inlined import inlined

        self._slices = read_drawing(drawn)
        self._svg: str = inlined(svg_of(self._slices, crossings_of(code, "the code"), numbers, mark, colours))

    @property
    def svg(self) -> str:
        """The picture."""
        return self._svg

    def save(self, path: str | os.PathLike[str]) -> None:
        """Writes the picture to a file."""
        with open(path, "w", encoding="utf-8") as file:
            file.write('<?xml version="1.0" encoding="UTF-8"?>\n' + self._svg)

    def __eq__(self, other: object) -> bool:
        return isinstance(other, Drawing) and (self._slices, self._svg) == (other._slices, other._svg)

    def __hash__(self) -> int:
        return hash(self._svg)

    def __str__(self) -> str:
        from .show.layout import lines_of

        return "\n".join(lines_of(self._slices))

    def __repr__(self) -> str:
        return f"<Drawing of {len(self._slices)} slices>"

    def _repr_html_(self) -> str:
        # (Debian's nbconvert 6.5 takes the tags out of a picture that is shown as one, and leaves it where it is part of HTML)
        return self._svg

    def _repr_svg_(self) -> str:
        return self._svg

    def _repr_pretty_(self, printer: Any, cycle: bool) -> None:
        printer.text(str(self))
