"""Turns codes, in any of the forms, into the planar diagrams that `kh` reads, and says what was changed."""
import functools
from collections.abc import Callable, Iterator, Sequence
from typing import Any, NamedTuple

from . import codes, forms, link_names, statements, stored_names


# How much of a wrong code is shown.
LONGEST = 40
NO_SPHERE = "it can be drawn on no sphere"


class Turned(NamedTuple):
    """A code: its name, the text for `kh`, what there is to say of it, and the line where it stands; or the fault in place of the text."""

    name: str
    code: str
    said: list
    line: int
    statement: Any = None
    fault: codes.Fault = None


@functools.lru_cache(maxsize=None)
def known_links():
    """What the reference has of each link, read once."""
    return link_names.reference()


def listed(numbers, what):
    return f"{what} {numbers[0]}" if len(numbers) == 1 else f"{what}s {', '.join(map(str, numbers[:-1]))} and {numbers[-1]}"


def turned(statement, known, clockwise):
    """The text for `kh`, and what there is to say."""
    links, said = forms.read(statement.text, statement.form, known)
    crossings = links.crossings
    if clockwise and not said:
        crossings = [[i, l, k, j] for i, j, k, l in crossings]
        said.append("read clockwise: the second and the fourth arc of each crossing exchanged")
    result, back, free = codes.numbered(crossings)
    if links.places and back:
        said.append(f"{listed(back, 'crossing')} turned by a half: the first arc was the one on which the under pass goes out")
    if links.places and result != [it[2:] + it[:2] if number in back else it for number, it in enumerate(crossings, 1)]:
        zero = " from 0" if min(links.places) == 0 else ""
        said.append(f"arcs{zero} numbered anew from 1 along each component")
        if free:
            said.append(f"no under pass directs {free} of the components: they go as the numbers rise")
    faces, wanted = codes.sphere_counts(result)
    if faces != wanted:
        said.append(f"{NO_SPHERE} ({faces} faces, not {wanted}), so kh will refuse it")
    return codes.text_of(result, links.loops), said


def is_in_no_plane(said: Sequence[str]) -> bool:
    """Whether what is said of a code says that no drawing has it."""
    return any(it.startswith(NO_SPHERE) for it in said)


def name_of(statement: Any, number: int) -> str:
    """The name of a code: the one before it, or what it says itself, or its number."""
    if statement.name or isinstance(statement, statements.Known):
        return statement.name or f"code {number}"
    named = link_names.name_of(statement.text) or stored_names.is_meant(statement.text) and stored_names.name_of(statement.text)
    return named or f"code {number}"


def all_of(text: str, clockwise: bool = False) -> Iterator[Turned]:
    """The codes of a text, turned one after another; of a wrong one the fault."""
    for number, statement in enumerate(statements.statements(text, not clockwise), 1):
        name = name_of(statement, number)
        if isinstance(statement, statements.Known):
            yield Turned(name, statement.code, [], statement.line)
            continue
        try:
            code, said = turned(statement, known_links(), clockwise)
            yield Turned(name, code, said, statement.line, statement)
        except codes.Fault as fault:
            # (what was meant as a name stands for itself)
            is_name = not statement.name and stored_names.is_meant(statement.text) and not statements.HEADED.match(statement.text)
            yield Turned(" ".join(statement.text.split()) if is_name else name, "", [], statement.line, statement, fault)


def in_a_line(path: str, it: Turned) -> list[str]:
    """What there is to say of a code, in one line; of a wrong one the line and the column, and what stands there."""
    if not it.fault:
        return [f"{path}:{it.line}: {it.name}: {'; '.join(it.said)}"] if it.said else []
    line, shown, column = it.statement.place(it.fault.place)
    rest = " ".join(shown[column:].split())
    rest = f": {rest[:LONGEST] + '..' if len(rest) > LONGEST else rest}" if rest not in ("", it.name) else ""
    return [f"{path}:{line}:{column + 1}: {it.name}: {it.fault.what}{rest}"]


def with_caret(path: str, it: Turned) -> list[str]:
    """The same with a line for each thing, and of a wrong code with a caret below the place."""
    if not it.fault:
        return [f"{path}:{it.line}: {it.name}: {said}" for said in it.said]
    line, shown, column = it.statement.place(it.fault.place)
    return [f"{path}:{line}: {it.fault.what}\n  {shown}\n  {' ' * column}^"]


def converted(
    path: str, text: str, say: Callable[[str], object], clockwise: bool = False, keep: bool = False,
    telling: Callable[[str, Turned], list[str]] = in_a_line,
) -> Iterator[tuple[Turned, str]]:
    """Each code of a text with the line that it becomes, which is empty where it is wrong, or then its own text, where such are kept. What
    there is to say of each is said, and at the end how many were read and how many not, where there were several or one was wrong."""
    right = wrong = 0
    for it in all_of(text, clockwise):
        for said in telling(path, it):
            say(said)
        right, wrong = right + (not it.fault), wrong + bool(it.fault)
        yield it, it.code if not it.fault else " ".join(it.statement.shown.split()) if keep else ""
    if wrong or right > 1:
        what = "kept as it stands" if wrong == 1 else "kept as they stand"
        of_wrong = f", {wrong} wrong and {what if keep else 'left out'}" if wrong else ""
        say(f"{path}: {right} code{'' if right == 1 else 's'} read{of_wrong}")
