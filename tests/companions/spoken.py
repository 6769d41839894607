"""Tries what `./kh` and `./kh-scan` say on standard error: `tools/kh-help` alone, the scripts around a program that ends as it is told,
and, in `companions/explained.py`, around the program.

`tests/program` runs these behind its rows.
"""
import os
import pty
import re
import shutil
import subprocess
import tempfile
from typing import NamedTuple

from companions import explained, scripts
from shared.places import TOP
from shared.running import PATIENCE

HELP = os.path.join(TOP, "tools", "kh-help")
COMMANDS = "homology jones check convert edit draw schedule bench reduced mirror reverse union certify verify".split()

# Words that give no command, and the first line that is said.
WRONG = [
    ([], "there is no command"),
    ([""], "a word is empty"),
    (["homology", ""], "a word is empty"),
    (["homologies"], "`homologies` is no command, but `homology` is"),
    (["Jones"], "`Jones` is no command, but `jones` is"),
    (["knot"], "`knot` is no command"),
    (["certificate"], "`certificate` is no command, but `certify` is"),
    (["verified"], "`verified` is no command, but `verify` is"),
    (["certify", "verify"], "`verify` is a second command behind `certify`"),
    (["verify", "README.md"], "the file `README.md` is not named, but read: kh verify < FILE"),
    (["certify", "--field", "11"], "--field takes 2, 3, 5 or 7, and not `11`"),
    (["check", "check"], "`check` is a second command behind `check`"),
    (["homology", "README.md"], "the file `README.md` is not named, but read: kh homology < FILE"),
    (["README.md"], "the file `README.md` is not named, but read: kh homology < FILE"),
    (["homology", "missing.pd"], "`missing.pd` is no command"),
    (["homology", "--field", "4"], "--field takes 2, 3, 5 or 7, and not `4`"),
    (["--field=", "homology"], "--field takes 2, 3, 5 or 7, and not ``"),
    (["homology", "--field"], "--field lacks its value"),
    (["homology", "--field", "3", "--field=3"], "--field stands twice"),
    (["homology", "--workers", "65"], "--workers takes a number from 1 to 64, and not `65`"),
    (["homology", "--workers", "001"], "--workers takes a number from 1 to 64, and not `001`"),
    (["convert", "--to", "json"], "--to takes pd or gauss, and not `json`"),
    (["bench"], "bench wants --number, 0 to 1048575"),
    (["bench", "--number", "00000000"], "--number takes one to seven digits, and not `00000000`"),
    (["bench", "--number", "+1"], "--number takes one to seven digits, and not `+1`"),
    (["reduced"], "reduced wants --mark, the number of an arc or loop"),
    (["reduced", "--mark", "256"], "--mark takes a number from 0 to 255, and not `256`"),
    (["--fiel", "3", "homology"], "`--fiel` is no option"),
    (["homology", "-"], "`-` is no option"),
    (["homology", "--", "--field", "3"], "`--field` is no command"),
    (["homology", "--", "--"], "`--` is no command"),
    (["homology", b"\xff"], b"`\xff` is no command".decode("latin-1")),
    (["w" * 700], f"`{'w' * 60}` is no command"),
    (["a\nb"], "`ab` is no command"),
]
# Words that `./kh-scan` does not take, and the first line that is said.
WRONG_OF_SCAN = [
    (["homology"], "`homology` is a command of kh, and kh-scan takes `each` or none"),
    (["--field", "3", "jones"], "`jones` is a command of kh, and kh-scan takes `each` or none"),
    (["each", "check"], "`check` is a command of kh, and kh-scan takes `each` or none"),
    (["README.md"], "the file `README.md` is not named, but read: kh-scan < FILE"),
    (["each", "README.md"], "the file `README.md` is not named, but read: kh-scan each < LIST"),
    (["missing.pd"], "`missing.pd` is no command, and kh-scan needs none"),
    (["Each"], "`Each` is no command, but `each` is, and kh-scan needs none"),
    (["each", "each"], "`each` is a second command behind `each`"),
    (["--", "each", "--"], "`--` is no command, and kh-scan needs none"),
    ([""], "a word is empty"),
    (["--field", "4"], "--field takes 2, 3, 5 or 7, or all for a list, and not `4`"),
    (["each", "--field", "All"], "--field takes 2, 3, 5 or 7, or all for a list, and not `All`"),
    (["--field", "all"], "--field all is for lists: kh-scan each --field all < LIST"),
    (["--field=all", "--"], "--field all is for lists: kh-scan each --field all < LIST"),
    (["--field", "3", "--field=3"], "--field stands twice"),
    (["each", "--field"], "--field lacks its value"),
    (["--workers", "2"], "--workers is an option of kh, and kh-scan has --field alone"),
    (["each", "--mark=1"], "--mark is an option of kh, and kh-scan has --field alone"),
    (["--to", "gauss"], "--to is an option of kh, and kh-scan has --field alone"),
    (["--number=7"], "--number is an option of kh, and kh-scan has --field alone"),
    (["--", "--field", "3"], "`--field` is no command, and kh-scan needs none"),
    (["-x"], "`-x` is no option"),
    (["each", "-"], "`-` is no option"),
]
RIGHT_OF_SCAN = [[], ["--"], ["--field", "3"], ["each"], ["--", "each"], ["--field", "all", "each"], ["each", "--field=5", "--"]]
RIGHT = [["homology"], ["--", "homology"], ["homology", "--"], ["--field", "3", "check"], ["bench", "--number=7"]]
RIGHT += [["reduced", "--mark", "7"], ["certify", "--field", "7"], ["verify"]]
LONG = [["--help"], ["-h"], ["help"], ["homology", "--help"], ["--version"], ["version"], ["-V"]]

# What the program ends with, and how the lines that are said begin.
STATUSES = [
    (0, []),
    (1, ['kh: docs/FORMATS.md, "What is accepted"', "kh: where the input is a file", "kh: tools/kh-codes", "  tools/kh-codes FILE |"]),
    (3, ["kh: standard input can not be read"]),
    (4, ["kh: standard output did not take the whole answer"]),
    (5, ["kh: out of memory"]),
    (6, ["kh: homology, reduced, schedule, certify and verify alone have a limit", "  convert, draw,", "  are those of all commands",
         "kh: ./kh-scan < FILE writes the table without this limit"]),
    (7, ['kh: docs/FORMATS.md, "Answers", lists when a move can not be made']),
    (8, []),
]
STATUSES_OF_SCAN = [
    (0, []),
    (1, ['kh: docs/FORMATS.md, "What is accepted"', "kh: where the input is a file its place is shown: ./kh-scan < FILE",
         "kh: tools/kh-codes reads", "  tools/kh-codes FILE | ./kh-scan"]),
    (3, ["kh: standard input can not be read; kh-scan < FILE"]),
    (4, ["kh: standard output did not take the whole answer"]),
    (5, ["kh: out of memory"]),
    (6, ["kh: no command takes more than 20 crossings or 8 loops", "  an input of more than 65536 bytes"]),
    (8, []),
]
STATUSES_OF_LISTS = [
    (0, []),
    (3, ["kh: standard input can not be read on; the lines that had ended are answered"]),
    (4, ["kh: standard output did not take the whole answer"]),
    (5, ["kh: out of memory for some answer, whose status is 5, or from some line on; whole answers are written"]),
    (6, ["kh: a list has fewer than 2^64 - 2 bytes"]),
    (8, []),
]
PROGRAM = "#!/bin/sh\necho answer\nexit %d\n"

# What is said to be waited for at a terminal.
WAITS = [
    (["homology"], "a code"), (["--field", "3", "certify"], "a code"), (["edit"], "a code"), (["verify"], "a log"),
    (["--workers=2", "--", "verify"], "a log"), (["bench", "--number", "7"], ""), (["homologies"], ""), (["homology", "verify"], ""),
]
WAITS_OF_SCAN = [([], "a code"), (["--field", "3"], "a code"), (["homology"], ""), (["--field", "all"], "")]
WAITS_OF_SCAN += [(["each"], "codes"), (["--field", "all", "--", "each"], "codes")]
# What is waited for, and the call that reads a file.
WAITING = re.compile(r"(?:kh: (a code|a log|codes) (?:is|are) waited for[;,] .*, or read a file: (kh.*)\n)?")
CALLS = {"a code": "kh-scan < FILE", "codes": "kh-scan each < LIST", "": ""}


class Script(NamedTuple):
    """One of the scripts: its name, the crate of its program, and what it says of words, of statuses with some words, and at a terminal."""

    name: str
    crate: str
    listed: list
    wrong: list
    right: list
    statuses: list
    waits: list


OF_KH = [*COMMANDS, "--field", "--workers", "--to", "--number", "--mark", "kh homology --field 3 < examples/trefoil.pd"]
OF_SCAN = ["--field", "kh-scan each", "kh-scan --field 3 < examples/trefoil.pd"]
OF_LISTS = (["each", "--field", "all"], STATUSES_OF_LISTS)
SCRIPTS = (
    Script("kh", "kh_main", OF_KH, WRONG, RIGHT, [(["homology"], STATUSES)], WAITS),
    Script("kh-scan", "scan_main", OF_SCAN, WRONG_OF_SCAN, RIGHT_OF_SCAN, [([], STATUSES_OF_SCAN), OF_LISTS], WAITS_OF_SCAN),
)


def said(script, status, words):
    nothing = subprocess.DEVNULL
    came = subprocess.run([HELP, script.name, str(status), "", "", *words], stdin=nothing, capture_output=True, cwd=TOP, timeout=PATIENCE)
    return came.stdout.decode("latin-1"), came.stderr.decode("latin-1")


def list_fault(script, text):
    """What a list of all words lacks, if anything: a command, an option, the example."""
    return next((f"{it} is missing" for it in script.listed if it not in text), None)


def word_faults(script):
    for words, first in script.wrong:
        wrote, errors = said(script, 2, words)
        is_said = (wrote.split("\n")[0], errors) == (f"kh: {first}", "")
        yield f"kh-help {script.name}: {words}"[:80], list_fault(script, wrote) if is_said else f"{wrote[:200]!r} and not {first!r}"
    for words in script.right:
        wrote, _ = said(script, 2, words)
        yield f"kh-help {script.name}: {words}", None if wrote.startswith("kh: these words give no command\n") else wrote[:200]
    for words in LONG:
        wrote, _ = said(script, 2, words)
        is_long = "Statuses:" in wrote and "Sizes:" in wrote and wrote.startswith("kh: ")
        yield f"kh-help {script.name}: {words} at length", list_fault(script, wrote) or (None if is_long else wrote[:99])


def status_faults(script, copy):
    """Around a program that ends with each status the answer and the status stay, whatever is said."""
    path = os.path.join(copy.folder, script.name)
    program = os.path.join("crates", script.crate, "out", script.crate)
    for words, status, begins in ((words, *row) for words, rows in script.statuses for row in rows):
        copy.write(program, PROGRAM % status, 0o755)
        copy.note(script.crate)
        came = subprocess.run([path, *words], stdin=subprocess.DEVNULL, capture_output=True, text=True)
        lines = came.stderr.splitlines()
        right = (came.returncode, came.stdout) == (status, "answer\n") and len(lines) == len(begins)
        name = " ".join([f"./{script.name}", *words, f"with status {status}"])
        yield name, None if right and all(map(str.startswith, lines, begins)) else str(came)
    for words, waits in script.waits:
        try:
            ours, theirs = pty.openpty()
        except OSError as stop:
            print(f"./{script.name} {words} at a terminal: not tried, since there is none to be had: {stop}")
            continue
        came = subprocess.run([path, *words], stdin=theirs, capture_output=True, text=True)
        os.close(ours), os.close(theirs)
        said_of, call = WAITING.match(came.stderr).groups("")
        wanted = CALLS[waits] if script.name == "kh-scan" else f"kh {words[-1]} < FILE" * bool(waits)
        yield f"./{script.name} {words} at a terminal", None if (said_of, call) == (waits, wanted) else str(came)


def faults(program):
    """The name of each test, and what is wrong, if anything is."""
    for script in SCRIPTS:
        yield from word_faults(script)
        with tempfile.TemporaryDirectory() as folder:
            copy = scripts.Copy(folder)
            shutil.copy(HELP, os.path.join(folder, "tools"))
            yield from status_faults(script, copy)
    yield from explained.faults(program)
