"""The commands `kh-same` and `kh-identify`."""
from __future__ import annotations

import argparse
import functools
import os
import sys
import warnings
from collections.abc import Callable

from ..commands import Unreadable, reader
from ..links import Link
from ..many import read
from ..programs import Missing
from ..refused import Refused
from .answers import DIFFERENT, ONE, identify, same
from .checking import check_answer

# The status of each answer, that of "not decided", and that of a wrong code or word.
STATUSES, OPEN, FAULT = {ONE: 0, DIFFERENT: 1}, 3, 2


def _command(main: Callable[[], int]) -> Callable[[], None]:
    """A command, which ends with its status, or with a line on standard error where a text is refused or a file or a program is missing."""

    @functools.wraps(main)
    def run() -> None:
        try:
            sys.exit(main())
        except (Unreadable, Refused, Missing, OSError, UnicodeDecodeError) as fault:
            _say(fault)
            sys.exit(FAULT)

    return run


@_command
def same_main() -> int:
    """Says whether two codes are of one link.

        tools/kh-same 8_19 'T(3,4)'              each a name, a code in any form of kh-codes, or a file with one
        tools/kh-same --json A B > answer        the answer as JSON, with its scripts
        tools/kh-same --check answer             checks such answers, a line each, with the programs alone

    "one link" and "different" are proved: the first by scripts of `kh edit` that lead from both to one text, the second by a row in which
    the tables differ. "not decided" says what agrees. All components may be turned round at once, which is told. The status is 0 for one
    link, 1 for different ones, 3 where it is not decided, and 2 where a code or a word is wrong; with --check 0 where all answers are
    proved, else 1.
    """
    words = _words(same_main.__doc__, "kh-same", "A B")
    if words.check:
        with open(words.codes[0] if words.codes else 0, encoding="utf-8") as file:
            told = [check_answer(line) for line in file if line.strip()]
        print(f"{sum(told)} of {len(told)} answers {'is' if len(told) == 1 else 'are'} proved")
        return 0 if all(told) else 1
    if len(words.codes) != 2:
        raise Unreadable("two codes are wanted")
    answer = same(_link(words.codes[0]), _link(words.codes[1]), words.seconds, _say)
    print(answer.json if words.json else answer)
    return STATUSES.get(answer.verdict, OPEN)


@_command
def identify_main() -> int:
    """Says which names of the reference the links of some codes have.

        tools/kh-identify FILE..                 or from standard input: codes in all forms of kh-codes
        tools/kh-identify --json FILE            the answers as JSON, for kh-same --check

    A line for each code has all names that were found, up to mirror images and turned components, which is told; each is proved by scripts
    of `kh edit`. Where none was found the line has the names whose tables agree. A wrong code is told on standard error and left out. The
    status is 0 where each code has a name, else 3, and 2 where a code or a word is wrong.
    """
    words, statuses = _words(identify_main.__doc__, "kh-identify", "FILE"), {0}
    for path in words.codes or ["/dev/stdin"]:
        with warnings.catch_warnings(record=True) as faults:
            warnings.simplefilter("always")
            links = read(path, skip_wrong=True)
        for it in faults:
            _say(it.message)
        for link in links:
            names = identify(link, words.seconds, _say)
            lines = [it.same.json for it in names.found or names.near] if words.json else [f"{link.name}: {names}"]
            print(*(f"{path}: {it}" if len(words.codes) > 1 and not words.json else it for it in lines), sep="\n", flush=True)
            statuses |= {0 if names.found else OPEN}
        statuses |= {FAULT} if faults else set()
    return FAULT if FAULT in statuses else max(statuses)


def _words(document: str | None, name: str, codes: str) -> argparse.Namespace:
    parser = reader(document, name)
    parser.add_argument("--seconds", type=float, default=20, metavar="S", help="about how long is searched for an answer; else 20")
    parser.add_argument("--json", action="store_true", help="write answers as JSON")
    if name == "kh-same":
        parser.add_argument("--check", action="store_true", help="check the answers of a file, or of standard input")
    parser.add_argument("codes", nargs="*", metavar=codes)
    return parser.parse_args()


def _link(given: str) -> Link:
    """The link of a name, of a code, or of a file with one."""
    if not os.path.isfile(given):
        return Link(given)
    found = read(given)
    if len(found) != 1:
        raise Unreadable(f"{given} has {len(found)} codes, and one is wanted")
    return found[0]


def _say(text: object) -> None:
    print(f"{os.path.basename(sys.argv[0])}: {text}", file=sys.stderr)
