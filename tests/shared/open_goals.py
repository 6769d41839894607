"""What a check of the toolchain says: which functions are proved, which goals stay open, and which stored files do not fit.

A goal is named by the function's folder below proofs/ and by its name among the function's `Goals`. Neither moves with a line: names are
made of the variables, calls and labels of the body.
"""
import re

FUNCTION = re.compile(r"fn ([\w:]+): (.*)")
OPEN = re.compile(r"note: src/\S+:\d+:\d+: .*\(`([^`\s]+)`\)(.*)")
OFFERED = re.compile(r"help: (?:write|add these lines to) \./proofs/(\S+)/Answers\.antt\b")
OFFER = re.compile(r"    pub (\S+) :")
UNFIT = re.compile(r"(?:\./)?proofs/(\S+)/(Answers|Invariants)\.antt:\d+:\d+: error: (?:`([^`\s]+)`)?")
ERROR = re.compile(r"\S+:\d+:\d+: error|error|fn \S+: no")
ORDINAL = re.compile(r"-\d+(?=-|$)")
IS_FALSE = "values at which this goal is false"
PROMISES = re.compile(r"(.+?)-requires\b|(.+)-(?:init|preserved)\b|.*-clause-(\w+)|(returns)")


def promise(name):
    """What a goal is for, by its name: what a call requires, the invariant of a loop, or the clause that holds at a return."""
    found = PROMISES.match(name)
    return next(it for it in found.groups() if it) if found else name


class Check:
    """What a check of a crate said. `opened` has the goals that stay open, each a folder and a name, `false` those of them that are false
    at values, `proved` the folders of the functions that are proved, `unfit` the stored files with an error: folder, file and goal."""

    def __init__(self, crate, status, lines):
        self.opened, self.false, self.proved, self.unfit = set(), set(), set(), []
        self.last = next((it for it in reversed(lines) if it.startswith("logic=")), "")
        self.is_proved = status == 0 and self.last.startswith("logic=proved")
        self.is_judged = self.is_proved or (status == 1 and self.last.startswith("logic=not-proved"))
        self.first = next((it for it in lines if ERROR.match(it)), (lines or [""])[-1])[:200]
        for line in lines:
            self.unfit += [it.groups() for it in [UNFIT.match(line)] if it]
        self.read_offers(lines)
        self.read_functions(crate, lines)

    def read_offers(self, lines):
        """The goals for which the check offers the first line of an answer."""
        folder = ""
        for line in lines:
            head, goal = OFFERED.match(line), OFFER.match(line)
            folder = head.group(1) if head else folder if line.startswith("    ") else ""
            if folder and goal:
                self.opened.add((folder, goal.group(1)))

    def read_functions(self, crate, lines):
        """The functions, each behind the notes on its goals. One with a stored file that does not fit has notes alone, and no offer."""
        notes = []
        for line in lines:
            note, function = OPEN.match(line), FUNCTION.match(line)
            if note:
                notes.append(note.groups())
            if function:
                folder = function.group(1).removeprefix(crate + "::").replace("::", "/")
                if function.group(2) == "proved":
                    self.proved.add(folder)
                for name, more in notes:
                    goal = next((it for it in self.opened if it[1] == name and it[0].replace("+", "") == folder), (folder, name))
                    self.opened.add(goal)
                    self.false.update({goal} if IS_FALSE in more else ())
                notes = []


def is_alone(name, names):
    """Whether a name is one of these, and no other of them differs by the numbers in it alone: numbers move where a call is put before."""
    return [it for it in names if ORDINAL.sub("", it) == ORDINAL.sub("", name)] == [name]


def sure_goals(check, needed, goals_of):
    """The open goals that refuse a bug: those that are false, or else those that the right body needs no answer for. Of a new goal that is
    for what the right body needs answers for too, nothing is known, unless it is one of all goals of the right body."""
    promises = {(folder, promise(name)) for folder, name in needed}
    own = sorted(check.opened - needed)
    sure = [it for it in own if (it[0], promise(it[1])) not in promises]
    return sorted(check.false) or sure or [it for it in own if is_alone(it[1], goals_of(it[0]))]


def judged(check, needed, goals_of):
    """What a check without answers says of a bug, given the goals that the right body needs answers for: a word with goals, or an empty
    word where the answers of the right body have to tell. `goals_of` gives all goals of a function of the right body, by its folder."""
    if check is None or not check.is_judged:
        return ("bad", [check.first]) if check else ("limit", [])
    if check.is_proved:
        return "proved", [check.last]
    sure = sure_goals(check, needed, goals_of)
    if sure:
        return "refused", [sure[0][1] + " is false" * (sure[0] in check.false)]
    if check.opened and check.opened <= needed:
        return "", []
    unfit = sorted({goal or f"{folder}/{file}.antt" for folder, file, goal in check.unfit})
    return "undecided", [name for _, name in sorted(check.opened)] or unfit or [check.first]
