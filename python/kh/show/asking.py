"""Asks `kh`, and `kh-scan` for tables: runs them with words of a table and an input, for a bounded time, and gives what was answered.

No shell is used, and no words are passed on but those of the table.
"""
import os
import subprocess
import sys
from concurrent.futures import ThreadPoolExecutor

from .. import programs
from ..commands import Unreadable
from ..places import TOP, built_file
from ..programs import ANSWERED, TOO_LARGE, Answer
from ..tables import FIELDS

# (the script of a checkout says what its refusals mean, and asks the interpreter where nothing is built, which takes minutes)
KH = os.path.join(TOP, "kh") if TOP else built_file("kh_main")
CHECK, CONVERT, GAUSS, DRAW, JONES, EDIT, MIRROR, REVERSE = (
    ("check",), ("convert",), ("convert", "--to", "gauss"), ("draw",), ("jones",), ("edit",), ("mirror",), ("reverse",)
)
HOMOLOGY = {field: ("homology", "--field", str(field)) for field in FIELDS}
# The words of `kh-scan`, which takes no command for one diagram.
SCANNED = {field: words[1:] for field, words in HOMOLOGY.items()}
COMMANDS = {CHECK, CONVERT, GAUSS, DRAW, JONES, EDIT, MIRROR, REVERSE, *HOMOLOGY.values()}
# The most bytes that `kh` takes as a code.
MOST_BYTES = 65_536


class Refusal(Unreadable):
    """A text that is no code, or one that is too large: what was written of it, and what was said."""

    def __init__(self, answer):
        super().__init__("\n".join(filter(None, (answer.wrote.strip(), answer.said.strip()))) or f"it ended with {answer.status}")
        self.answer = answer


def ran(words, given, seconds):
    """What these words write, given a text, in so many seconds at most. (`./kh` shows the place of a fault where its input is a file.)"""
    try:
        status, *texts = programs.ran(words, given.encode(errors="replace"), seconds, subprocess.PIPE)
    except subprocess.TimeoutExpired as stop:
        raise Unreadable(f"it takes longer than {seconds} seconds") from stop
    return Answer(status, *(it.decode(errors="replace") for it in texts))


def built_scan():
    """The program of scans that is built; it need not be there, but one of other sources is not asked, and that is said."""
    path = built_file("scan_main")
    why = programs.stale("scan_main") if TOP and os.access(path, os.X_OK) else ""
    if why:
        print(f"{why}, so kh is asked for tables; ./build kh-scan makes it anew", file=sys.stderr)
    return os.devnull if why else path


class Kh:
    """The program, that of scans, which is asked for tables first and need not be there, and how long a run may take. Without names they
    are the ones that are built; that there is none of `kh` is told at once."""

    def __init__(self, program=KH, seconds=600, scan=None):
        why = programs.stale("kh_main") if TOP and program == KH else ""
        if why:
            raise Unreadable(f"{why}; ./build proves and builds it, once")
        self.program, self.seconds, self.scan = os.path.abspath(program), seconds, os.path.abspath(scan or built_scan())

    def ask(self, words, given):
        """What the program answers."""
        if words not in COMMANDS:
            raise ValueError(f"{words} are no words of the table")
        return ran([self.program, *words], given, self.seconds)

    def answer(self, words, given):
        """What the program writes where it answers; else it is refused."""
        answer = self.ask(words, given)
        if answer.status != ANSWERED:
            raise Refusal(answer)
        return answer.wrote

    def scanned(self, field, given):
        """What `kh-scan` answers, if it is there, and has a table in time."""
        if not os.access(self.scan, os.X_OK):
            return None
        try:
            answer = ran([self.scan, *SCANNED[field]], given, self.seconds)
        except Unreadable:
            return None
        return answer if answer.status == ANSWERED else None

    def all_scanned(self, given):
        """What `kh-scan` answers over each field, all of them at work side by side."""
        with ThreadPoolExecutor(len(FIELDS)) as pool:
            return list(pool.map(lambda field: self.scanned(field, given), FIELDS))

    def table(self, field, given, scanned):
        """The table over a field as text: that of `kh-scan`, or where this has none that of `kh`, or else the line of the limit; and
        whether it is a table."""
        answer = scanned or self.ask(HOMOLOGY[field], given)
        if answer.status not in (ANSWERED, TOO_LARGE):
            raise Refusal(answer)
        return answer.wrote, answer.status == ANSWERED
