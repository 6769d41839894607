"""Tries `tools/shorten` and `tools/unused` on a file of made-up proofs: what they read in it, what would be tried for each proof, and
that what a check refuses goes back, where a made-up one stands in for `rt check`.
"""
import importlib.machinery
import importlib.util
import os
import sys
import tempfile
from unittest import mock

from shared.places import TOP, read_text
from shared.running import ended

TOOLS = os.path.join(TOP, "tools")
PROOFS = """\
use Rattle.std.proofs.Common.{ℕ, arith, length-append, subst}
use Rattle.made.proofs.Others.{helper}

-- the idea
pub by_cases : (b : Bool) → b ≡ true → f b ≡ 0
by_cases true is = refl
by_cases false is = absurd (cc is)

module _ (n : ℕ) where
  inner : {m : ℕ} (k : ℕ) → k < n
      → suc k ≤ n
  inner k less =
      let e = helper k (suc n) ≤ n in
      subst e
      less

  counted : (xs : List ℕ) → length xs ≡ n
  counted [] = refl
  counted (x ∷ xs) =
      ap suc
      (counted xs)
    where
      idle : ℕ
      idle = 0
"""
NAMES = ["by_cases", "inner", "counted", "idle"]
TRIED = {
    "omega": ["by_cases b is = omega arith", "  inner k less = omega arith"],
    "grind": ["by_cases b is = grind (arith, nat_tests)", "  inner k less = grind (arith, nat_tests)"],
    "facts": ["  inner k less = grind (arith, nat_tests, helper)"],
    "each": ["  inner k less = grind (arith, nat_tests, helper)"],
    "terms": ["  inner k less = grind (arith, nat_tests, helper k (suc n))"],
}


def module_of(name):
    """A script of the tools, as a module."""
    if TOOLS not in sys.path:
        sys.path.append(TOOLS)
    loader = importlib.machinery.SourceFileLoader(name, os.path.join(TOOLS, name))
    module = importlib.util.module_from_spec(importlib.util.spec_from_loader(name, loader))
    loader.exec_module(module)
    return module


def reading_faults(shorten):
    lines = PROOFS.split("\n")
    named = [it.name for it in shorten.definitions(lines)]
    yield "all definitions", None if named == NAMES else f"{named}"
    for kind, wanted in TRIED.items():
        tried = ["\n".join(it) for _, it in shorten.candidates(kind, lines)]
        yield f"what {kind} tries", None if tried == wanted else f"{tried} and not {wanted}"


def refusing(folder, refused, runs):
    """A check that refuses the lines with a text, by their places."""

    def check(crate):
        runs.append(crate)
        with open(os.path.join(folder, "proofs", "Made.antt"), encoding="utf-8") as file:
            places = [("proofs/Made.antt", at + 1) for at, line in enumerate(file) if refused in line]
        return not places, places

    return check


def keeping_fault(shorten, refused, wanted):
    """What is kept where the check refuses a text: lines that have another, and how many are saved."""
    with tempfile.TemporaryDirectory() as folder:
        os.mkdir(os.path.join(folder, "proofs"))
        texts = {"proofs/Made.antt": PROOFS.split("\n")}
        edits = {"proofs/Made.antt": shorten.candidates("grind", PROOFS.split("\n"))}
        with mock.patch.object(shorten, "check", refusing(folder, refused, [])):
            saved = shorten.keep_what_passes(folder, texts, edits)
        came = read_text(os.path.join(folder, "proofs", "Made.antt"))
        found = saved, came.count("grind"), came.count("Decides.{nat_tests}")
        return None if found == wanted else f"{found} and not {wanted}"


def unused_fault():
    """It lists lemmas of this repository, each with a place where its name stands."""
    status, wrote, said = ended([os.path.join(TOOLS, "unused")])
    for row in wrote.splitlines():
        place, name, _ = row.split()
        file, line = place.rsplit(":", 1)
        if f"{name} : " not in read_text(file).split("\n")[int(line) - 1]:
            return f"{row}: it does not stand there"
    return f"status {status}, {said}" if status or said else None


def faults(program=None):
    """The name of each test, and what is wrong, if anything is."""
    shorten = module_of("shorten")
    for name, fault in reading_faults(shorten):
        yield f"tools/shorten: {name}", fault
    yield "tools/shorten: all is kept", keeping_fault(shorten, "no such text", (4, 2, 1))
    yield "tools/shorten: one goes back", keeping_fault(shorten, "by_cases b", (3, 1, 1))
    yield "tools/shorten: all goes back", keeping_fault(shorten, "grind", (0, 0, 0))
    yield "tools/unused: places", unused_fault()
