"""Tries how `tests/more-edits` reads edits, answers and what a check says, on all edits and all answers of the repository.

`tests/program` runs these behind its rows. Nothing is proved.
"""
import os

from shared import planted_bugs
from shared.open_goals import Check, judged, promise
from shared.places import TOP

ANSWERS = """\
use Rattle.some.Goals as goal

-- what both answers use
shared : ℕ
shared = 1

pub returns : goal.returns
returns c = record {
  first = shared;
}

-- the loop
pub turns-preserved :
    goal.turns-preserved
turns-preserved c =
    shared
"""
WITHOUT_RETURNS = ANSWERS[: ANSWERS.index("pub returns")] + ANSWERS[ANSWERS.index("-- the loop") :]
SOURCE = """\
pub fn first()
{
}

impl<F: PrimeField, const N: usize>
    Over<Vec<(F, u8)>>
    for Row<F, N>
where
    F: Copy,
{
    fn second(&self) -> u8
        ensures { result ≡ 1 }
    {
        1
    }
}

const BOUND: u8 = 1;

impl Row {
    #[cycle(both)]
    pub(crate) const fn third() {
    }

    fn fourth() {
    }
}

fn fifth() {
}
"""
# (the text, and the function in which it stands: its name, type, trait and cycle)
STANDS = (
    ("pub fn first", ("first", "", "", "")),
    ("result ≡ 1", ("second", "Row", "Over", "")),
    ("        1", ("second", "Row", "Over", "")),
    ("BOUND", None),
    ("third()", ("third", "Row", "", "both")),
    ("fourth()", ("fourth", "Row", "", "")),
    ("fifth()", ("fifth", "", "", "")),
)
SAID = """\
./proofs/line/Line/push/Answers.antt:25:38: error: `returns-in_ok-push`: the two types first differ
fn some::reading::next_line: no proof: it calls `some::line::Line::push`, which is not proved
note: src/line.rt:41:5: it is not proved that the invariant of the loop holds (`turns-preserved`); the facts known there allow {}
fn some::line::Line::push: not proved
note: src/branches.rt:41:5: it is not proved that what the function ensures holds when it returns (`returns-2`)
fn some::branches::count_branch: no proof: expected answers in ./proofs/branches/+count_branch/Answers.antt
fn some::line::Line::bytes: proved
help: write ./proofs/branches/+count_branch/Answers.antt with these lines, and check again: each hole's goal is what is left to show there
    use Rattle.some.proofs.branches.+count_branch.Goals as goal
    
    pub returns-2 : goal.returns-2
    returns-2 c = ?
logic=not-proved
""".format("values at which this goal is false")
PROMISES = (
    ("returns-in_ok-push", "returns"),
    ("returns-2", "returns"),
    ("returns-in_err-push-in-Some-clause-begun", "begun"),
    ("loop-digit-preserved", "loop-digit"),
    ("states-init", "states"),
    ("from_residual-requires-in_err-push", "from_residual"),
    ("exchange-requires-2-clause-some", "exchange"),
    ("overflow_add-counts", "overflow_add-counts"),
)
OPEN = "note: src/a.rt:1:1: it is not proved that it holds (`{}`){}"
FALSE = "; the facts known there allow values at which this goal is false"
# What stays open without answers, of a function that needs answers to two of its goals; whether it is false; and the outcome, an empty one
# where the stored answers have to tell.
NEEDED = {("f", "returns-in-a-clause-line"), ("f", "push-requires-2")}
ALL_GOALS = {"returns-in-a-clause-line", "returns-in-b-clause-line", "returns-in-b-clause-size", "push-requires", "push-requires-2"}
OUTCOMES = (
    (["returns-in-a-clause-line"], "", ("", [])),
    (["returns-in-a-clause-line"], FALSE, ("refused", ["returns-in-a-clause-line is false"])),
    (["returns-in-a-clause-line", "returns-in-b-clause-size"], "", ("refused", ["returns-in-b-clause-size"])),
    (["returns-in-a-clause-line", "returns-in-b-clause-line"], "", ("refused", ["returns-in-b-clause-line"])),
    (["returns-in-c-clause-size"], "", ("refused", ["returns-in-c-clause-size"])),
    (["returns-in-c-clause-line"], "", ("undecided", ["returns-in-c-clause-line"])),
    (["push-requires"], "", ("undecided", ["push-requires"])),
    ([], "", ("undecided", ["g/Invariants.antt"])),
)


def text_faults():
    """What is wrong with how texts are read, if anything is."""
    names = planted_bugs.stored(ANSWERS)
    yield "answers of a file", None if names == ["returns", "turns-preserved"] else str(names)
    left = planted_bugs.with_answers(ANSWERS, ["turns-preserved"])
    yield "a file without an answer", None if left == WITHOUT_RETURNS else left
    for text, wanted in STANDS:
        found = planted_bugs.function_at(SOURCE, SOURCE.index(text))
        came = (found.name, found.owner, found.trait, found.cycle) if found else None
        yield f"the function of {text.strip()}", None if came == wanted else f"{came} and not {wanted}"
    for name, wanted in PROMISES:
        yield f"what {name} is for", None if promise(name) == wanted else f"{promise(name)} and not {wanted}"


def check_faults():
    """What is wrong with how the words of a check are read, if anything is."""
    said = Check("some", 1, SAID.splitlines())
    loop, wanted = ("line/Line/push", "turns-preserved"), {("line/Line/push", "turns-preserved"), ("branches/+count_branch", "returns-2")}
    yield "the open goals of a check", None if said.opened == wanted else str(said.opened)
    yield "a goal that is false", None if said.false == {loop} else str(said.false)
    yield "the proved functions", None if said.proved == {"line/Line/bytes"} else str(said.proved)
    unfit = [("line/Line/push", "Answers", "returns-in_ok-push")]
    yield "an answer that does not fit", None if said.unfit == unfit else str(said.unfit)
    yield "the verdict", None if (said.is_judged, said.is_proved) == (True, False) else "another"


def outcome_faults():
    """What is wrong with how bugs are judged, if anything is."""
    for names, more, wanted in OUTCOMES:
        lines = [OPEN.format(it, more) for it in names] or ["proofs/g/Invariants.antt:1:1: error: another type"]
        check = Check("some", 1, [*lines, "fn some::f: not proved", "logic=not-proved"])
        came = judged(check, NEEDED, lambda _: ALL_GOALS)
        yield f"a bug that leaves {', '.join(names) or 'nothing'}{more}", None if came == wanted else f"{came} and not {wanted}"
    came = [judged(it, set(), set)[0] for it in (None, Check("some", 2, ["error: no"]), Check("some", 0, ["logic=proved"]))]
    yield "other outcomes", None if came == ["limit", "bad", "proved"] else str(came)


def folders_with_answers(crate):
    """The folders below proofs/ of a crate with a file of a function."""
    files = {"Answers.antt", "Invariants.antt", "Proof.antt"}
    proofs = os.path.join(crate, "proofs")
    return {os.path.relpath(folder, proofs) for folder, _, names in os.walk(proofs) if files & set(names)}


def folders_found(crate):
    """For each function of a crate, with its file, the folders below proofs/ that rules give it."""
    for path in planted_bugs.sources(crate):
        for function in planted_bugs.functions(planted_bugs.read(os.path.join(crate, path))):
            yield path, function, planted_bugs.folders_of_function(crate, path, function)


def crate_fault(crate):
    """What is wrong with the folders and edits of a crate, if anything is."""
    there, claimed = folders_with_answers(crate), {}
    for path, function, folders in folders_found(crate):
        for it in there & set(folders):
            claimed.setdefault(it, []).append(f"{function.name} of {path}")
    lost = sorted(there - set(claimed))
    if lost:
        return f"no rule finds the function of {lost[0]}"
    double = [it for it, names in claimed.items() if len(names) > 1 and "+" not in it]
    if double:
        return f"{double[0]} is the folder of {' and of '.join(claimed[double[0]])}"
    return None


def edit_faults(crate):
    """The edits of a crate whose text stands in no function and in more than one line of it, or not once."""
    for folder in ("must-fail", "more-edits"):
        room = os.path.join(crate, folder)
        for name in sorted(os.listdir(room)) if os.path.isdir(room) else ():
            for path, old, _ in planted_bugs.changes(os.path.join(room, name)):
                text = planted_bugs.read(os.path.join(crate, path))
                if text.count(old) != 1:
                    yield f"{name}: its text does not stand once in {path}"
                elif path.startswith("src/") and not planted_bugs.function_at(text, text.index(old)):
                    line = text[: text.index(old) + len(old)].split("\n")[-1]
                    yield from [f"{name}: no function is found at {line.strip()}"] * line.startswith((" " * 8, "\t"))


def faults(_program):
    """What is wrong with how edits and answers are read, if anything is."""
    yield from text_faults()
    yield from check_faults()
    yield from outcome_faults()
    crates = os.path.join(TOP, "crates")
    for name in sorted(os.listdir(crates)):
        crate = os.path.join(crates, name)
        yield f"the answers of {name}", crate_fault(crate)
        yield f"the edits of {name}", next(edit_faults(crate), None)
