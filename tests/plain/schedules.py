"""A plain second reading of schedules: which scripts they are, and what is answered to each line, from the rules alone.

A worker holds nothing, or the quantum degree of a block and how many cancellations that had at its look. How many bring a block to zero is
the sum of the ranks of its differentials, which the plain cube tells; which entries are cancelled does not matter.
"""
import re

from plain.cube import turns
from plain.moves import lines_of

LINES = 4096
WORKER = "([0-9]{1,2})"
FORMS = {
    "look": re.compile(f"look {WORKER} (-?[0-9]{{1,3}})"),
    "commit": re.compile(f"commit {WORKER}"),
    "forget": re.compile(f"forget {WORKER}"),
}


def understood(line):
    """None for a line without words, else its event, worker and, for a look, degree; False for a line that is no command."""
    words = " ".join(filter(None, re.split("[ \t\r]", line)))
    if not words:
        return None
    for event, form in FORMS.items():
        found = form.fullmatch(words)
        if found and 1 <= int(found.group(1)) <= 64:
            return (event, *map(int, found.groups()))
    return False


def fault_of(script):
    """The status and the line of a script that is none, or None."""
    lines = lines_of(script)
    if len(lines) > LINES:
        return 6, f"limit lines {len(lines)} of {LINES}\n"
    wrong = [number for number, line in enumerate(lines, 1) if understood(line) is False]
    return (1, f"refused line {wrong[0]}\n") if wrong else None


class Machine:
    """How many cancellations each block has had, and what each worker holds."""

    def __init__(self, wanted):
        self.wanted, self.had, self.held = wanted, dict.fromkeys(wanted, 0), {}

    def look(self, worker, degree):
        self.held.pop(worker, None)
        if degree not in self.had:
            return "noblock"
        if self.had[degree] == self.wanted[degree]:
            return "zero"
        self.held[worker] = degree, self.had[degree]
        return f"looked {self.had[degree]}"

    def commit(self, worker):
        if worker not in self.held:
            return "idle"
        degree, seen = self.held.pop(worker)
        if seen != self.had[degree]:
            return f"stale {seen} {self.had[degree]}"
        self.had[degree] += 1
        return f"committed {self.had[degree]}"

    def forget(self, worker):
        return "forgot" if self.held.pop(worker, None) else "idle"


def answers(diagram, field, script):
    """The lines that are answered to a script on a diagram of a small cube."""
    machine, wrote = Machine(turns(diagram, field)), []
    for number, line in enumerate(lines_of(script), 1):
        event = understood(line)
        if event:
            wrote.append(f"{number} {getattr(machine, event[0])(*event[1:])}\n")
    return "".join(wrote)
