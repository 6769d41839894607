"""Laurent polynomials in q and t as values. Their arithmetic is plain Python, and not proved."""
from __future__ import annotations

import re
from collections import Counter
from collections.abc import Iterable, Mapping
from typing import TypeVar, Union

_TERM = re.compile(r"(-?\d+)\*q\^(-?\d+)")
Number = TypeVar("Number", int, float, complex)
Like = Union["Polynomial", int]


class Polynomial:
    """A Laurent polynomial in q and t with integer coefficients; the Jones polynomial has no t, a Poincaré polynomial has both.

    `Polynomial({(j, i): coefficient})` and `Polynomial({j: coefficient})` take exponents, that of q first, and `Polynomial("q + q^3 t^2")`
    reads a text. It is immutable; +, -, *, ** and exact // give others."""

    __slots__ = ("_terms",)
    _terms: dict[tuple[int, int], int]

    def __init__(self, terms: Mapping[tuple[int, int], int] | Mapping[int, int] | str | int = 0) -> None:
        found: dict[tuple[int, int], int] = {}
        if isinstance(terms, str):
            found = _read(terms)._terms
        elif isinstance(terms, int):
            found = {(0, 0): terms}
        else:
            for key, coefficient in terms.items():
                found[(key, 0) if isinstance(key, int) else (int(key[0]), int(key[1]))] = int(coefficient)
        self._terms = {key: found[key] for key in sorted(found) if found[key]}

    @property
    def terms(self) -> dict[tuple[int, int], int]:
        """The coefficients other than 0 by exponents, that of q first; a new dictionary."""
        return dict(self._terms)

    def coefficient(self, *, j: int = 0, i: int = 0) -> int:
        """The coefficient of q^j t^i."""
        return self._terms.get((j, i), 0)

    def __bool__(self) -> bool:
        return bool(self._terms)

    def __eq__(self, other: object) -> bool:
        if isinstance(other, int):
            other = Polynomial(other)
        if not isinstance(other, Polynomial):
            return NotImplemented
        return self._terms == other._terms

    def __hash__(self) -> int:
        return hash(self._terms.get((0, 0), 0)) if self._terms.keys() <= {(0, 0)} else hash(tuple(self._terms.items()))

    def __add__(self, other: Like) -> Polynomial:
        total = Counter(self._terms)
        total.update(_of(other)._terms)
        return Polynomial(total)

    def __neg__(self) -> Polynomial:
        return Polynomial({key: -coefficient for key, coefficient in self._terms.items()})

    def __sub__(self, other: Like) -> Polynomial:
        return self + -_of(other)

    def __rsub__(self, other: Like) -> Polynomial:
        return _of(other) - self

    def __mul__(self, other: Like) -> Polynomial:
        total: Counter[tuple[int, int]] = Counter()
        for (j, i), coefficient in self._terms.items():
            for (far_j, far_i), count in _of(other)._terms.items():
                total[j + far_j, i + far_i] += coefficient * count
        return Polynomial(total)

    __radd__, __rmul__ = __add__, __mul__

    def __pow__(self, exponent: int) -> Polynomial:
        if exponent < 0:
            return Polynomial(1) // self**-exponent
        if len(self._terms) == 1:
            ((j, i), coefficient), = self._terms.items()
            return Polynomial({(j * exponent, i * exponent): coefficient**exponent})
        total = Polynomial(1)
        for _ in range(exponent):
            total *= self
        return total

    def __floordiv__(self, other: Like) -> Polynomial:
        """The quotient, where there is no rest; else ValueError."""
        by, left, found = _of(other), dict(self._terms), {}
        if not by:
            raise ZeroDivisionError("a polynomial is divided by 0")
        low, high = next(iter(by._terms)), next(reversed(by._terms))
        last = next(reversed(self._terms), (0, 0))
        while left:
            least = min(left)
            step = least[0] - low[0], least[1] - low[1]
            if left[least] % by._terms[low] or (step[0] + high[0], step[1] + high[1]) > last:
                raise ValueError(f"{self} is not divisible by {by}")
            found[step] = left[least] // by._terms[low]
            for (j, i), count in by._terms.items():
                at = step[0] + j, step[1] + i
                left[at] = left.get(at, 0) - found[step] * count
                if not left[at]:
                    del left[at]
        return Polynomial(found)

    def __call__(self, q: Number, t: int = 1) -> Number:
        """The value at these numbers."""
        total = q - q
        for (j, i), coefficient in self._terms.items():
            total += coefficient * q**j * t**i
        return total

    def normalised(self) -> Polynomial:
        """The polynomial divided by that of the unknot, q + q^-1, as an unnormalised Jones polynomial can be."""
        return self // Polynomial({-1: 1, 1: 1})

    def in_t(self) -> str:
        """The text in t that q = -t^(1/2) gives: of a normalised Jones polynomial the one that most tables have."""
        if any(i for _, i in self._terms):
            raise ValueError("a polynomial that has t already has no text in t alone")
        halves = {j: -coefficient if j % 2 else coefficient for (j, _), coefficient in self._terms.items()}
        return _sum((coefficient, _half(j)) for j, coefficient in halves.items())

    def mirror(self) -> Polynomial:
        """The polynomial with q and t replaced by their inverses, as that of the mirror image is."""
        return Polynomial({(-j, -i): coefficient for (j, i), coefficient in self._terms.items()})

    def __str__(self) -> str:
        return _sum((coefficient, " ".join(filter(None, (power("q", j), power("t", i))))) for (j, i), coefficient in self._terms.items())

    def __repr__(self) -> str:
        return f"Polynomial({str(self)!r})"

    def _repr_latex_(self) -> str:
        def of_power(letter: str, exponent: int) -> str:
            return "" if not exponent else letter if exponent == 1 else f"{letter}^{{{exponent}}}"

        return f"${_sum((count, of_power('q', j) + of_power('t', i)) for (j, i), count in self._terms.items())}$"


def _of(value: Like) -> Polynomial:
    return value if isinstance(value, Polynomial) else Polynomial(value)


def _read(text: str) -> Polynomial:
    from . import commands, polynomial_texts, refused

    try:
        return polynomial_texts.read(text)
    except commands.Unreadable as fault:
        raise refused.Refused(str(fault), text) from None


def power(letter: str, exponent: int) -> str:
    """A power as it is written in a term: none for the exponent 0, the letter alone for 1."""
    return {0: "", 1: letter}.get(exponent, f"{letter}^{exponent}")


def _half(exponent: int) -> str:
    """A power of t with half this exponent."""
    return f"t^({exponent}/2)" if exponent % 2 else power("t", exponent // 2)


def _sum(terms: Iterable[tuple[int, str]]) -> str:
    """The text of a sum of coefficients with what they stand before."""
    text = ""
    for coefficient, rest in terms:
        sign = ("-" if coefficient < 0 else "") if not text else " - " if coefficient < 0 else " + "
        size = "" if abs(coefficient) == 1 and rest else str(abs(coefficient))
        text += sign + " ".join(filter(None, (size, rest)))
    return text or "0"


def divided(polynomial: Polynomial) -> Polynomial | None:
    """The polynomial divided by q + q^-1, or nothing where there is a rest."""
    try:
        return polynomial.normalised()
    except ValueError:
        return None


def jones_line(polynomial: Polynomial) -> str:
    """A polynomial in q as the Jones line of `kh`."""
    return " ".join(["jones", *([f"{coefficient}*q^{j}" for (j, _), coefficient in polynomial.terms.items()] or ["0"])])


def jones_of(line: str) -> Polynomial | None:
    """The polynomial of a Jones line, or nothing where it is none."""
    words = line.split(" ")[1:]
    terms = [it for it in map(_TERM.fullmatch, words) if it]
    if words != ["0"] and (not words or len(terms) < len(words)):
        return None
    return Polynomial({int(it[2]): int(it[1]) for it in terms})
