#!/usr/bin/env python3
"""Tries the words of `kh-scan`, and its lists of codes: what `each` writes of a list is what it writes of each line alone, in frames.

    tests/scan_lists.py PROGRAM [WORD]
    KH_LISTS=2000 tests/scan_lists.py PROGRAM drawn

PROGRAM is that of `kh`; that of scans stands in `crates/scan_main/out`, or where KH_SCAN_PROGRAM says. First come the rows of
`rows/scan.py`, and all rows on `homology` that are of one line, as lists; then lists that are drawn at random, of KH_LISTS codes or 120,
whose frames are compared with runs on each line alone; a list that is written line by line, each when the frames of the one before have
come; and the memory and the writes of long lists. The frames are read by `plain/frames.py`. The last line is 'N passed, M failed'.
"""
import functools
import os
import random
import resource
import select
import subprocess
import sys

import drawn.lists
import faulty.limits as limits
from faulty.cases import Case
from plain import frames
from rows.runs import answers
from rows.scan import EACH, LISTS, NOT_MEANT, WORDS
from rows.texts import EMPTY_TABLE, TREFOIL, TREFOIL_OVER_THREE, TREFOIL_TABLE
from shared.pool import tell_parts
from shared.running import PATIENCE, SLACK, Child, fault_of
from shared.scanning import has_row_of_scan, is_there, parts_of, scan_of, words_behind

FIELDS = "2357"
DRAWN, SHARE = int(os.environ.get("KH_LISTS", "120")), 30
MANY, FEW = 200_000, 100
SPACES = range(2_000, 40_000, 500)


def words(scan):
    child = Child(scan)
    for name, its_words, status, wrote in WORDS:
        yield f"kh-scan, {name}", fault_of(child, its_words, TREFOIL, status, wrote)


def unread(scan):
    """Of words that ask for nothing the input is not read."""
    child = Child(scan)
    for its_words in NOT_MEANT:
        child.run(its_words, TREFOIL.encode())
        place = os.lseek(child.input, 0, os.SEEK_CUR)
        yield f"kh-scan, what {str(its_words)[:60]} read", f"{place} bytes" if place else None


def list_fault(child, its_words, given, wanted):
    """What is wrong with a run over a list that has to come to these frames, if anything is."""
    came = child.run(its_words, given)
    if (came.status, came.said) != (0, b""):
        return f"status {came.status}, {came.said[:200]!r}, {came.wrote[-200:]!r}"
    return frames.fault_of(came.wrote, wanted)


def lists(scan):
    child = Child(scan)
    for name, its_words, given, rows in LISTS:
        wanted = [frames.Frame(number, field, status, text.encode()) for number, field, status, text in rows]
        given = given if isinstance(given, bytes) else given.encode()
        yield f"kh-scan, a list: {name}", list_fault(child, its_words, given, wanted)


def of_homology(scan):
    """The rows on `homology` whose input is one line, those of a field together as a list."""
    child, found = Child(scan), {}
    for row in answers():
        is_line = isinstance(row.given, bytes) and b"\n" not in row.given and row.given.strip(frames.BLANKS)
        if has_row_of_scan(row) and is_line:
            found.setdefault(tuple(words_behind(row.words)), []).append(row)
    for option, rows in found.items():
        field = option[-1] if option else "2"
        wanted = [frames.Frame(number, field, row.status, row.wrote) for number, row in enumerate(rows, 1)]
        given = b"\n".join(row.given for row in rows)
        yield f"kh-scan, {len(rows)} rows as a list over {field}", list_fault(child, [*EACH, *option], given, wanted)


def alone(child, question):
    """The frame of what is written of a line alone."""
    came = child.run(["--field", question.field], question.line)
    return frames.Frame(question.number, question.field, came.status, came.wrote)


def compared(scan, seed, codes):
    """Lists that are drawn at random, together of so many codes at least, and each of their lines alone."""
    child, draw = Child(scan), random.Random(f"lists {seed}")
    while codes > 0:
        given, field = drawn.lists.some_list(draw), draw.choice([*FIELDS, "all"])
        asked = frames.questions(given, FIELDS if field == "all" else field)
        fault = list_fault(child, [*EACH, "--field", field], given, [alone(child, it) for it in asked])
        yield f"kh-scan, a drawn list over {field}", fault and f"{fault}: {given[:3000]!r}"
        codes -= max(1, len(frames.lines(given)))


class Talk:
    """A run whose list is written piece by piece, while what it writes is read."""

    def __init__(self, scan, its_words):
        pipe = subprocess.PIPE
        self.process = subprocess.Popen([scan, *its_words], stdin=pipe, stdout=pipe, stderr=pipe, bufsize=0)

    def wrote(self, size):
        """The next bytes that it writes, so many of them, or those that come before its end or in time."""
        found = b""
        while len(found) < size and select.select([self.process.stdout], [], [], PATIENCE)[0]:
            more = os.read(self.process.stdout.fileno(), size - len(found))
            if not more:
                break
            found += more
        return found

    def ended(self):
        """Its status, the rest of what it writes, and what it says, once nothing more is given."""
        wrote, said = self.process.communicate(timeout=PATIENCE)
        return self.process.returncode, wrote, said


CUT_OFF = [(1, it, 1, "refused text at 37\n") for it in FIELDS]
OVER_THREE = [(2, "3", 0, TREFOIL_OVER_THREE)]
# Words, pieces of a list with the frames that each brings about, and the frames that come at the end.
TALKS = (
    (EACH, ((f"{TREFOIL}\n", [(1, "2", 0, TREFOIL_TABLE)]), ("\n \r\nPD[]\n", [(4, "2", 0, EMPTY_TABLE)])), []),
    (["each", "--field", "3"], (("\n" + TREFOIL[:9], []), (f"{TREFOIL[9:]}\nPD", OVER_THREE)), [(3, "3", 1, "refused text at 2\n")]),
    (["each", "--field", "all"], ((f"{TREFOIL[:-1]}\n", CUT_OFF), ("\n", []), (f"{TREFOIL[:-1]}", [])), [(3, *it[1:]) for it in CUT_OFF]),
)


def text_of(rows):
    """What is written of these frames, behind the first line."""
    return b"".join(frames.written([frames.Frame(*row[:3], row[3].encode()) for row in rows])[1:])


def talk_fault(talk, pieces, last):
    """What is wrong with a talk: the first line comes before anything is given, and the frames of a piece before the next piece."""
    came = talk.wrote(len(frames.FIRST))
    if came != frames.FIRST:
        return f"{came!r} before anything is given"
    for given, rows in pieces:
        os.write(talk.process.stdin.fileno(), given.encode())
        came = talk.wrote(len(text_of(rows)))
        if came != text_of(rows):
            return f"{came[:300]!r} and not {text_of(rows)[:300]!r} of {given!r}"
    came = talk.ended()
    return None if came == (0, text_of(last), b"") else f"{came} at the end"


def turns(scan):
    """A list that is written piece by piece is answered line by line."""
    for its_words, pieces, last in TALKS:
        talk = Talk(scan, its_words)
        yield f"kh-scan, {' '.join(its_words)} by turns", talk_fault(talk, pieces, last)
        talk.process.kill()


def in_space(scan, given, size=None):
    """What comes of a list in so many kilobytes of address space, or in all that there is."""
    limit = limits.limited(resource.RLIMIT_AS, size * limits.KB) if size else lambda: None
    return limits.run(scan, Case("a list", EACH, given), limit, environment={})


def memory(scan):
    """A long list, or one of long lines, is answered in the address space that one code and one long line need, and little more."""
    one = b"PD[]\n" + b" " * 200_000 + b"\nPD[]\n"
    least = next(size for size in SPACES if in_space(scan, one, size) == in_space(scan, one))
    for name, given in (
        ("many lines", b"PD[]\n" * MANY), ("blank lines", b" \r\n" * MANY), ("long lines", (b"x" * 200_000 + b"\n") * FEW),
        ("a long line", b" " * 20_000_000),
    ):  # fmt: skip
        status, wrote, said = in_space(scan, given, least + SLACK)
        found = frames.read(wrote) or ([], wrote)
        right = (status, said, found[1]) == (0, b"", b"") and len(found[0]) == len(frames.lines(given))
        right = right and len({(it.status, it.text) for it in found[0]}) <= 1
        yield f"kh-scan, memory of {name}", None if right else f"in {least + SLACK} KB: status {status}, {wrote[-200:]!r}, {said[:200]!r}"


GROUPS = (words, unread, lists, of_homology, turns, memory)


def parts(program, word=""):
    """The parts of these tests: a name, and what gives the name of each case and what is wrong with it, if anything is."""
    scan = scan_of(program)
    if not is_there(scan):
        return
    found = {group.__name__: functools.partial(group, scan) for group in GROUPS}
    for at in range(0, DRAWN, SHARE):
        found[f"drawn lists {at}"] = functools.partial(compared, scan, at, min(SHARE, DRAWN - at))
    yield from parts_of(scan, found)


if __name__ == "__main__":
    sys.exit(tell_parts(parts, __doc__))
