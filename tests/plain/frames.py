"""A plain second reading of lists of codes, and of the frames that answer them, from `docs/FORMATS.md` alone.

`questions(given, fields)` has what a list asks, `read(wrote)` the frames that were written. Neither knows what a code comes to.
"""
import re
from typing import NamedTuple

FIRST = b"answers 1\n"
HEAD = re.compile(rb"code ([1-9][0-9]*) field ([2357]) status ([0156]) bytes (0|[1-9][0-9]*)\n")
BLANKS = b" \t\r"
NO_MEMORY = 5


class Question(NamedTuple):
    """A line of a list that is not blank, its number from 1, and a field."""

    number: int
    field: str
    line: bytes


class Frame(NamedTuple):
    """An answer: the number of its line, its field, its status, and what is written of this line alone."""

    number: int
    field: str
    status: int
    text: bytes


def lines(given):
    """The number and the bytes of each line that is not blank; the last need not be ended."""
    return [(number, line) for number, line in enumerate(given.split(b"\n"), 1) if line.strip(BLANKS)]


def questions(given, fields):
    return [Question(number, field, line) for number, line in lines(given) for field in fields]


def read(wrote):
    """The frames of what was written, and what stands behind the last whole one; None where the first line is not that of frames."""
    if not wrote.startswith(FIRST):
        return None
    frames, at = [], len(FIRST)
    while True:
        head = HEAD.match(wrote, at)
        if not head or head.end() + int(head[4]) > len(wrote):
            return frames, wrote[at:]
        text = wrote[head.end() : head.end() + int(head[4])]
        frames.append(Frame(int(head[1]), head[2].decode(), int(head[3]), text))
        at = head.end() + len(text)


def written(frames):
    """The pieces that frames are written in: the first line, and one for each of them."""
    heads = (f"code {it.number} field {it.field} status {it.status} bytes {len(it.text)}\n".encode() for it in frames)
    return [FIRST, *(head + it.text for head, it in zip(heads, frames))]


def is_answer(frame, wanted):
    """Whether a frame is the one that is wanted, or says that there was no memory for it."""
    return frame in (wanted, wanted._replace(status=NO_MEMORY, text=b""))


def fault_of(wrote, wanted):
    """What is wrong with what was written, which has to be these frames and nothing else, if anything is."""
    found = read(wrote)
    if not found or found[1]:
        return f"{wrote[:200]!r} is no text of frames" if not found else f"{found[1][:200]!r} behind frame {len(found[0])}"
    for came, right in zip(found[0], wanted):
        if came != right:
            return f"{str(came)[:400]} and not {str(right)[:400]}"
    return None if len(found[0]) == len(wanted) else f"{len(found[0])} frames and not {len(wanted)}"
