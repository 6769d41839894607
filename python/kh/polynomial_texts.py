"""Reads polynomials in q and t with products, quotients, powers and brackets, as other programs write them."""
from __future__ import annotations

import re

from .commands import Unreadable
from .laurent import Polynomial

TOKEN = re.compile(r"\s*(?:(\d+)|([qt])|(\*\*|[-+*/^(){}]))")
WRITTEN = {"**": "^", "{": "(", "}": ")"}
LETTERS = {"q": Polynomial({(1, 0): 1}), "t": Polynomial({(0, 1): 1})}


def read(text: str) -> Polynomial:
    """The polynomial of a text; one that is none is refused."""
    return _Reader(text).whole()


def dimensions(text: str) -> dict[tuple[int, int], int]:
    """The dimensions by degrees (j, i) of a Poincaré polynomial."""
    terms = read(text).terms
    if any(count < 0 for count in terms.values()):
        raise Unreadable("a coefficient of the polynomial is no dimension")
    return terms


class _Reader:
    """A reader of the tokens of a text, one after another."""

    def __init__(self, text: str) -> None:
        self.at = 0
        self.tokens: list[str] = []
        place, end = 0, len(text.rstrip())
        while place < end:
            token = TOKEN.match(text, place)
            if not token:
                raise Unreadable(f"no polynomial in q and t goes on so: {text[place:place + 40].strip()}")
            self.tokens.append(WRITTEN.get(token[0].strip(), token[0].strip()))
            place = token.end()

    def peek(self) -> str:
        return self.tokens[self.at] if self.at < len(self.tokens) else ""

    def take(self, *wanted: str) -> str:
        """Steps over the next token where it is one of these, and gives it; else gives nothing."""
        token = self.peek() if self.peek() in wanted else ""
        self.at += bool(token)
        return token

    def whole(self) -> Polynomial:
        """The polynomial of all the text."""
        total = self.sum()
        if self.peek():
            raise Unreadable(f"no polynomial goes on with {self.peek()}")
        return total

    def sum(self) -> Polynomial:
        """A sum of products, with signs."""
        total, step = Polynomial(), self.take("-") or "+"
        while step:
            total = total + self.product() if step == "+" else total - self.product()
            step = self.take("+", "-")
        return total

    def product(self) -> Polynomial:
        """Powers side by side, with * or a blank between them or /."""
        total = self.power()
        while True:
            if self.take("/"):
                total = self.quotient(total, self.power())
            elif self.take("*") or self.peek() in ("q", "t", "(") or self.peek().isdigit():
                total = total * self.power()
            else:
                return total

    @staticmethod
    def quotient(total: Polynomial, by: Polynomial) -> Polynomial:
        """A quotient by one term."""
        if len(by.terms) != 1:
            raise Unreadable("the polynomial divides by a sum" if by else "the polynomial divides by 0")
        try:
            return total // by
        except ValueError:
            raise Unreadable("a coefficient of the polynomial is no whole number") from None

    def power(self) -> Polynomial:
        """A number, a letter or a bracket, with an exponent or none."""
        if self.take("("):
            base = self.sum()
            self.close()
        else:
            letter = self.take("q", "t")
            base = LETTERS[letter] if letter else Polynomial(self.number())
        if not self.take("^"):
            return base
        is_bracketed = self.take("(")
        is_below, exponent = self.take("-"), self.number()
        if is_bracketed:
            self.close()
        return self.quotient(Polynomial(1), base**exponent) if is_below else base**exponent

    def close(self) -> None:
        if not self.take(")"):
            raise Unreadable("a bracket of the polynomial is not closed")

    def number(self) -> int:
        if not self.peek().isdigit():
            raise Unreadable(f"a number is missing in the polynomial before {self.peek() or 'its end'}")
        self.at += 1
        return int(self.tokens[self.at - 1])
