"""Shows places of a text on a terminal: the lines that they are in, cut to its width, with carets below.

Nothing is shown that a terminal could obey: what is not printable ASCII is a question mark.
"""
import shutil
import textwrap
from collections.abc import Iterable

WIDEST, NARROWEST = 100, 40
MARGIN, CUT = "  ", "..."
# The columns that are shown on both sides of a place, where there are as many; and how many lines are shown at most.
AROUND, MOST_LINES = 12, 3


def columns():
    """The columns of the terminal, as far as they are used; the most where there is none."""
    return max(NARROWEST, min(WIDEST, shutil.get_terminal_size((WIDEST, 24)).columns))


def is_plain(text):
    return all(" " <= it <= "~" for it in text)


def plain(part):
    """Bytes as printable ASCII, with a column for each character."""
    return "".join(it if is_plain(it) else " " if it in "\t\r" else "?" for it in part.decode(errors="replace"))


def wrapped(sentence):
    """The lines of what is said."""
    return textwrap.wrap(f"kh: {sentence}", columns(), subsequent_indent=MARGIN, break_long_words=False, break_on_hyphens=False)


def window(line, spans, room):
    """So many columns of a line around its spans, and what stands below them."""
    marks = [" "] * max(len(line), spans[-1][1])
    for begin, end in spans:
        marks[begin:end] = "^" + "~" * (end - begin - 1)
    first, last, left = spans[0][0], spans[-1][1], 0
    if len(marks) > room:
        middle = (first + last - room) // 2
        left = max(0, min(middle, first - AROUND, len(marks) - room))
    shown = line[left : left + room]
    if left:
        shown = CUT + shown[len(CUT) :]
    if left + room < len(line):
        shown = shown[: -len(CUT)] + CUT
    return shown, "".join(marks[left : left + room]).rstrip()


def grouped(spans, room):
    """The spans of a line, those together that are shown together."""
    groups = []
    for begin, end in spans:
        if groups and end - groups[-1][0][0] + 2 * AROUND <= room:
            groups[-1].append((begin, end))
        else:
            groups.append([(begin, end)])
    return groups


def lines_of(text, spans):
    """The number from 1 of each line in which a span begins, the line, and these spans by columns."""
    found = {}
    for begin, end in sorted(spans):
        start = text.rfind(b"\n", 0, begin) + 1
        line = text[start:].split(b"\n", 1)[0]
        column = len(plain(text[start:begin]))
        length = len(plain(text[begin : min(end, start + len(line))]))
        _, _, marks = found.setdefault(start, (text.count(b"\n", 0, start) + 1, plain(line).rstrip(), []))
        marks.append((column, column + max(1, length)))
    return found.values()


def pointed(text: bytes, spans: Iterable[tuple[int, int]]) -> list[str]:
    """The lines of a text with carets below its spans, which are pairs of places; numbered where the text has several lines."""
    several, shown = b"\n" in text.strip(b" \t\r\n"), []
    for number, line, marks in lines_of(text, spans):
        label = MARGIN + f"line {number}: " * several
        for group in grouped(marks, columns() - len(label)):
            part, below = window(line, group, columns() - len(label))
            shown += [(label + part).rstrip(), " " * len(label) + below]
    return shown[: 2 * MOST_LINES]
