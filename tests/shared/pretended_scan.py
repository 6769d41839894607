#!/usr/bin/env python3
"""What stands in for `kh-scan` where `kh-tabulate` is tried (`tabulating.py`): it takes one code, or with `each` one on each line.

It writes down each answer that it begins in the file TOLD, takes a fiftieth of a second for it, and knows no diagrams: what it answers
hangs on the word that the code begins with. After HELD answers it waits until that file is gone, as it does with `slow`, but where there is
a file TOLD.free. Where CHATTER is set it writes what `each` does not.
"""
import os
import subprocess
import sys
import time

TOLD = os.environ.get("TOLD", os.devnull)
WAIT = 'echo "$$" >>"$TOLD.held"; while [ -e "$TOLD" ]; do sleep 0.1; done'
KILLED = 70
# What tries the program, and is no answer that is counted.
TRIAL = "PD[]"
FIELDS = ("2", "3", "5", "7")
LINES = {"bad": (1, "refused text at 0\n"), "wide": (6, "limit crossings 21 of 20\n"), "starved": (5, ""), "": (1, "refused text at 0\n")}
# Dimensions by degrees and the Jones line; of the trefoil those over two elements beside them, of the link with torsion of order 3 too.
UNKNOT, TREFOIL = [(-1, 0), (1, 0)], [(1, 0), (3, 0), (5, 2), (9, 3)]
EVEN, THREEFOLD = [(7, 2), (7, 3)], [(5, 2), (5, 3)]
TWIN = [(1, 0), (3, 0), (5, 2), (9, 3), (11, 4), (11, 5)]
UNIT, POSITIVE, NEGATIVE = "1*q^-1 1*q^1", "1*q^1 1*q^3 1*q^5 -1*q^9", "-1*q^-9 1*q^-5 1*q^-3 1*q^-1"


def hold():
    subprocess.run(["sh", "-c", WAIT], check=False)
    sys.exit(KILLED)


def note(field):
    """Writes down that an answer has begun, and waits where so many have."""
    with open(TOLD, "a", encoding="utf-8") as file:
        file.write(f"{field}\n")
    with open(TOLD, encoding="utf-8") as file:
        if len(file.readlines()) > int(os.environ.get("HELD", 1_000_000)) and not os.path.exists(TOLD + ".free"):
            hold()
    time.sleep(0.02)


def table(code, field):
    """The degrees of a code, each of dimension 1, and its Jones line."""
    if code.startswith("trefoil"):
        return TREFOIL + EVEN * (field == "2"), POSITIVE
    if code.startswith("mirrored"):
        return [(-j, -i) for j, i in TREFOIL + EVEN * (field == "2")], NEGATIVE
    if code.startswith("twin"):
        return TWIN, POSITIVE
    if code.startswith("threefold"):
        return UNKNOT + THREEFOLD * (field == "3"), UNIT
    return ([(0, 0)], "1*q^0") if code == "large" else (UNKNOT, UNIT)


def answer(code, field):
    """The status and the text of an answer."""
    if code != TRIAL:
        note(field)
    if code == "lost":
        sys.exit(KILLED)
    if code == "slow":
        hold()
    if code in LINES:
        return LINES[code]
    degrees, jones = table(code, field)
    rows = "".join(f"j {j} i {i} dim 1\n" for j, i in sorted(degrees))
    return 0, f"table 2\nfield {field}\n{rows}jones {jones}\n"


def say(text):
    sys.stdout.write(text)
    sys.stdout.flush()


def each(fields):
    say("answers 1\n")
    for number, line in enumerate(iter(sys.stdin.readline, ""), 1):
        code = line.rstrip("\n")
        for field in fields if code.strip(" \t\r") else ():
            status, text = answer(code, field)
            say("nothing of the kind\n" if "CHATTER" in os.environ and code != TRIAL else "")
            say(f"code {number} field {field} status {status} bytes {len(text)}\n{text}")


if __name__ == "__main__":
    field = sys.argv[sys.argv.index("--field") + 1] if "--field" in sys.argv else "2"
    if sys.argv[1:2] == ["each"]:
        each(FIELDS if field == "all" else (field,))
    else:
        ended, wrote = answer(sys.stdin.read().strip(), field)
        say(wrote)
        sys.exit(ended)
