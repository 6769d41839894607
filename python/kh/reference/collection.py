"""Compares all answers of a program with the reference, and counts them by what is said of them.

An answer is a line of JSON in a file, with the name of a link as `name` and its table as one of the members that `table_forms.py` knows, and
`field` and `reduced` where they are to be said; or it is a file of a folder, named for the link, such as `8_19.txt`, or for the link and
the field, such as `8_19.3.txt`, with a table in any form.
"""
import json
import os
import sys
from collections import Counter
from collections.abc import Iterator
from typing import Any, NamedTuple

from ..commands import Unreadable
from .in_common import in_common
from .table_forms import INTEGRAL, RATIONAL, Empty, Reading, field_of, groups_of, j_is_first, read, read_value
from .stored import Reference, listed
from .ways import AGREES, EXPLAINED, NEAREST, OTHER, TURNINGS, Comparison, Table, Verdict, sentence, short

OVER = {RATIONAL: "Q", INTEGRAL: "Z"}
NO_TABLE, NO_ANSWER = "no table", "no answer"
# How many of the ways in which single answers are exact are tried for all of them.
TRIED = 4
ASK = "the numbers of their pairs may be i, j or j, i: --order ij or --order ji names it"


class Answer(NamedTuple):
    """An answer: where it stands, the link that it names, and what was read, or why nothing could be; over what it is, where that is known
    before it is read; and whether there is no answer."""

    where: str
    name: str
    reading: Reading
    fault: str = ""
    field: object = None
    is_none: bool = False


def answers_of(path):
    """The answers of a file or a folder."""
    if os.path.isdir(path):
        for name in sorted(os.listdir(path)):
            if not name.startswith(".") and os.path.isfile(os.path.join(path, name)):
                yield of_file(path, name)
        return
    with open(path, encoding="utf-8") as file:
        for number, line in enumerate(file, 1):
            if line.strip():
                answer = of_line(f"line {number}", line)
                if answer:
                    yield answer


def of_line(where, line):
    """The answer of a line of JSON; none where it says who made the file."""
    name = ""
    try:
        value = json.loads(line)
        if not isinstance(value, dict) or "name" not in value:
            return None if isinstance(value, dict) and "made by" in value else Answer(where, "", None, "it has no name")
        name = str(value["name"])
        if value.get("refusal"):
            return Answer(where, name, None, value["refusal"])
        return Answer(where, name, read_value(value))
    except (ValueError, RecursionError):
        return Answer(where, name, None, "it is no JSON")
    except Unreadable as fault:
        return Answer(where, name, None, str(fault), None, isinstance(fault, Empty))


def of_file(folder, name):
    """The answer of a file, which is named for a link, or for it and a field."""
    link, ending = os.path.splitext(name)
    field = field_of(ending[1:])
    if field is None:
        stem, ending = os.path.splitext(link)
        field = field_of(ending[1:])
        link = link if field is None else stem
    try:
        with open(os.path.join(folder, name), encoding="utf-8") as file:
            reading = read(file.read())
    except (Unreadable, UnicodeDecodeError) as fault:
        return Answer(name, link, None, str(fault), field, isinstance(fault, Empty))
    return Answer(name, link, reading if field is None else reading._replace(field=field))


class Compared(NamedTuple):
    """An answer that was compared: its link, its field in words, the comparison, and what came of it."""

    name: str
    over: str
    comparison: Comparison
    verdict: Verdict

    @property
    def label(self):
        return f"{self.name} {self.over}"

    @property
    def reason(self):
        """Why it is shifted so, where that is known."""
        return "".join(it for it in self.verdict.lines[1:] if it.startswith("so "))


class Collection:
    """The answers of a program, compared one by one."""

    def __init__(self, answers: list[Answer], reference: Reference, words: Any) -> None:
        self.answers, self.reference, self.words = answers, reference, words
        self.compared, self.unreadable, self.strangers, self.fields = [], [], [], {}
        # (the links whose answers are no tables, with the field in words and why; and those without an answer, by these)
        self.faulty, self.without = [], {}
        self.is_first = self.order()
        for answer in answers:
            self.add(answer)
        self.way, self.exact = self.one_way()

    def order(self):
        """Whether j stands first in the pairs of all answers, by those in which it can be told; nothing where none tells it, or not all
        tell the same."""
        if self.words.order:
            return self.words.order == "ji"
        pairs = [answer for answer in self.answers if answer.reading and answer.reading.is_j_first is None]
        told = {j_is_first(it.reading, self.reference.parity(it.name, self.is_reduced(it))) for it in pairs} - {None}
        if len(told) != 1:
            return None
        print(f"compare: pairs are read as {'j, i' if True in told else 'i, j'}, as all tell in which it can be told", file=sys.stderr)
        return told.pop()

    def is_reduced(self, answer):
        return self.words.reduced or answer.reading.is_reduced

    def table(self, answer):
        """The table of an answer, over the field that it says, or the words say."""
        reading, is_reduced = answer.reading, self.is_reduced(answer)
        is_first = reading.is_j_first
        if is_first is None:
            own = j_is_first(reading, self.reference.parity(answer.name, is_reduced))
            is_first = own if self.is_first is None else self.is_first
        if is_first is None:
            raise Unreadable(ASK)
        field = self.words.field if reading.field in (None, INTEGRAL) and self.words.field is not None else reading.field
        return Table(groups_of(reading, is_first), 2 if field is None else field, field is not None, is_reduced)

    def add(self, answer):
        """Compares an answer."""
        if not answer.reading and not answer.is_none:
            self.refuse(answer, answer.fault)
            return
        if answer.name not in self.reference.lines:
            self.strangers.append(answer.name)
            return
        if answer.is_none:
            over = "" if answer.field is None else over_words(answer.field, self.words.reduced)
            self.without.setdefault((over, answer.fault), []).append(answer.name)
            return
        try:
            table = self.table(answer)
            comparison = Comparison(table, self.reference, answer.name)
        except Unreadable as fault:
            self.refuse(answer, fault)
            return
        self.fields.setdefault((table.field, table.is_reduced), set()).add(answer.name)
        over = over_words(table.field, table.is_reduced)
        self.compared.append(Compared(answer.name, over, comparison, comparison.verdict()))

    def refuse(self, answer: Answer, fault: object) -> None:
        """Notes why an answer is no table."""
        where = answer.where if answer.where.startswith(answer.name) else f"{answer.where}, {answer.name}"
        self.unreadable.append(f"{where}: {fault}")
        over = "" if answer.field is None else over_words(answer.field, self.words.reduced)
        self.faulty.append((answer.name, over, str(fault)))

    def missing(self):
        """The links of the reference that have no answer and are not told of yet, by the field in words, for each of those for which there
        are answers, and why."""
        found = {key: [*names] for key, names in self.without.items()}
        told = {name for names in self.without.values() for name in names} | {name for name, _, _ in self.faulty}
        for (field, is_reduced), names in self.fields.items():
            seen = names | told
            left = [it for it in self.reference.lines if it not in seen and self.reference.wanted_if_any(it, field, is_reduced)]
            if left:
                found.setdefault((over_words(field, is_reduced), ""), []).extend(left)
        return found

    def silent(self) -> Iterator[str]:
        """A line for the links that have no answer, for each reason; the same ones over several fields are told once."""
        alike: dict[tuple[str, tuple[str, ...]], list[str]] = {}
        for (over, why), names in self.missing().items():
            alike.setdefault((why, tuple(names)), []).append(over)
        rows = [*alike.items()]
        if len(rows) > self.words.most:
            rows.sort(key=lambda it: -len(it[0][1]))
        for (why, names), overs in rows[: self.words.most]:
            words = " ".join(filter(None, (counted(len(names), "link has", "links have"), "no answer", listed(overs))))
            yield f"{words}{f', since {why}' if why else ''}: {self.some(names)}"
        left = rows[self.words.most :]
        if left:
            yield f"{counted(len({name for (_, names), _ in left for name in names}), 'link', 'links')} more, for other reasons"
        unanswered = [(name, over) for (over, _), names in self.missing().items() for name in names]
        yield from self.in_common(unanswered, [(it.name, it.over) for it in self.compared], "that were answered")

    def in_common(self, some: list, others: list, words: str) -> Iterator[str]:
        """What these answers, by their link and their field in words, have in common that few of the others have."""
        return in_common([it for it in some if it[0] in self.reference.lines], others, self.reference.lines, words)

    def causes(self) -> dict[str, str]:
        """Why there is no answer to a link, or no table in it, where that is known; over which field, where it is not the same over all."""
        found: dict[str, dict[str, str]] = {}
        known = [(name, over, why) for (over, why), names in self.without.items() for name in names]
        for name, over, why in [*known, *self.faulty]:
            found.setdefault(name, {})[over] = why
        whys = {name: {why: f"{why} {over}".rstrip() for over, why in it.items() if why} for name, it in found.items()}
        return {name: [*it][0] if len(it) == 1 else ", ".join(it.values()) for name, it in whys.items() if it}

    def links(self) -> dict[str, str]:
        """What came of each link of the reference, in its order."""
        found = {name: {} for name in self.reference.lines}
        turned = {it.name for it in self.exact if it.verdict.kind != AGREES}
        for it in self.compared:
            found[it.name][it.over] = short(*self.way) if it.name in turned and it in self.exact else it.verdict.short
        for name, over, _ in self.faulty:
            found.get(name, {})[over] = NO_TABLE
        for (over, _), names in self.missing().items():
            for name in names:
                found[name][over] = NO_ANSWER
        return {name: of_link(outcomes) for name, outcomes in found.items()}

    def by_way(self):
        """The links that agree, and those that are exact in the one way; a link that is its own image in it agrees."""
        outcomes, word = self.links(), short(*self.way)
        turned = [it for it in self.exact if it.verdict.kind != AGREES]
        agreeing = [name for name, outcome in outcomes.items() if outcome == AGREES]
        yield from self.naming("agree", agreeing)
        yield from self.naming(word, [*dict.fromkeys(it.name if outcomes[it.name] == word else it.label for it in turned)])

    def naming(self, word, names):
        """A line with the first of these names, if there are any."""
        if names:
            more = len(names) - self.words.most
            yield f"{word}: {', '.join(names[: self.words.most])}{f' and {more} more' if more > 0 else ''}"

    def some(self, names):
        """The first of these names, and how many more there are."""
        more = len(names) - self.words.most
        return listed(names) if more <= 0 else f"{', '.join([*names[: self.words.most], f'and {more} more'])}"

    def listing(self, rows, one, many):
        """How many of a kind there are, with the first of them, where there are any."""
        if rows:
            yield f"{counted(len(rows), one, many)}:"
            yield from (f"  {row}" for row in rows[: self.words.most])

    def of_kind(self, kind):
        return [it for it in self.compared if it.verdict.kind == kind]

    def one_way(self):
        """The way in which the most answers are exact, if they are more than those that agree, and not fewer than those that one reason
        shifts; and the answers that are exact in it."""
        common = Counter(it.verdict.exact for it in self.of_kind(EXPLAINED) if it.verdict.exact)
        best, whole = None, self.of_kind(AGREES)
        shifted = max(Counter(it.reason for it in self.of_kind(EXPLAINED) if it.reason).values(), default=0)
        for way in dict.fromkeys([*((place, (0, 0)) for place in range(1, len(TURNINGS))), *(it for it, _ in common.most_common(TRIED))]):
            exact = [it for it in self.compared if it.comparison.agrees_in(*way)]
            if len(exact) > len(whole) and len(exact) >= shifted:
                best, whole = way, exact
        return best, whole

    def explained(self, but):
        """What explains the answers but these, those of most answers first; where one reason shifts links by different numbers, the reason."""
        found, ways, some = {}, {}, [it for it in self.of_kind(EXPLAINED) if it not in but]
        for it in some:
            ways.setdefault(it.reason, set()).add(it.verdict.lines[0])
        for it in some:
            is_own = it.reason and len(ways[it.reason]) > 1
            told = f"the same table, shifted at each link by its own numbers: {it.reason}" if is_own else it.verdict.lines[0]
            found.setdefault(told, []).append(it.label)
        every = sorted(found.items(), key=lambda it: -len(it[1]))
        for line, labels in every[: self.words.most]:
            yield f"{counted(len(labels), 'answer', 'answers')} ({self.some(labels)}): {line}"
        left = sum(len(labels) for _, labels in every[self.words.most :])
        if left:
            yield f"{counted(left, 'answer', 'answers')} in {counted(len(every) - self.words.most, 'other way', 'other ways')}"

    def lines(self) -> Iterator[str]:
        """What is said of all."""
        yield f"{len(self.of_kind(AGREES))} of {counted(len(self.compared), 'answer agrees', 'answers agree')}"
        if self.way:
            yield f"{len(self.exact)} of {len(self.compared)} are exact in one way: {sentence(*self.way)}"
            yield from self.by_way()
        yield from self.explained(self.exact)
        others = [it for it in self.of_kind(OTHER) if it not in self.exact]
        rows = [f"{it.label}: {first_of(it.verdict.lines)}" for it in others]
        yield from self.listing(rows, "answer is another table", "answers are other tables")
        agreeing = [(it.name, it.over) for it in self.of_kind(AGREES)]
        yield from self.in_common([(it.name, it.over) for it in others], agreeing, "that agree")
        yield from self.listing(self.unreadable, "answer is no table", "answers are no tables")
        if self.strangers:
            yield f"{counted(len(self.strangers), 'answer is', 'answers are')} of no link of the reference: {self.some(self.strangers)}"
        yield from self.silent()

    def is_fine(self) -> bool:
        """Whether all links have an answer that agrees."""
        agreeing = len(self.of_kind(AGREES))
        return 0 < agreeing == len(self.compared) and not (self.unreadable or self.missing())


def of_link(outcomes):
    """What came of a link, by what came of it over each field: the one outcome, or those over each field where it does not agree."""
    words = {*outcomes.values()}
    if len(words) < 2:
        return words.pop() if words else NO_ANSWER
    return ", ".join(f"{word} {over}".rstrip() for over, word in sorted(outcomes.items()) if word != AGREES)


def over_words(field, is_reduced):
    return f"over {OVER.get(field, field)}{', reduced' if is_reduced else ''}"


def counted(count, one, many):
    return f"{count} {one if count == 1 else many}"


def first_of(rows):
    """The first row that is another one, behind what is said before, and how many more there are."""
    heads = [row for row in rows[:1] if row.startswith(NEAREST)]
    rows = [row for row in rows[len(heads) :] if not row.startswith("(")]
    more = f"; and {counted(len(rows) - 1, 'row', 'rows')} more" if len(rows) > 1 else ""
    return " ".join([*heads, rows[0]]) + more


def compared(paths, reference, words):
    """The lines on all answers of these files and folders, and whether all agree."""
    collection = Collection([answer for path in paths for answer in answers_of(path)], reference, words)
    return list(collection.lines()), collection.is_fine()
