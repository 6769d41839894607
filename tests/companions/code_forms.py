"""Tries `tools/kh-codes`: rows, random diagrams that are written in each form and read back, and what is true of what it writes.

`tests/program` runs these behind its rows. Whether a text is an accepted code is asked of `plain.diagrams`.
"""
import os
import tempfile

import plain.diagrams
from companions import code_lists, code_truth
from companions import code_rows as rows
from companions.code_texts import diagrams, forms, run, run_each
from shared.places import TOP


def gluing(code):
    """For each dart the other one of its arc, which no numbers change."""
    return plain.diagrams.partners(code)


def lone_components(code):
    """Whether a component has no under pass, so that its direction is in the numbers alone."""
    under = {arc for i, _, k, _ in code.crossings for arc in (i, k)}
    return any(not under & set(them) for them in plain.diagrams.components(code))


def form_faults():
    """What is wrong with a diagram in a form, if anything is: all texts of a form with the same words are given in one file."""
    files = {}
    for strands, letters, code in diagrams():
        for form, words, text, keeps in forms(strands, letters, code):
            files.setdefault((form, *words), []).append((text, code, keeps))
    for (form, *words), them in files.items():
        status, wrote, errors = run(words, "\n\n".join(text for text, _, _ in them) + "\n")
        lines = wrote.splitlines()
        fault = None if status == 0 and len(lines) == len(them) else f"status {status}, {len(lines)} lines of {len(them)}: {errors}"
        for line, (text, code, keeps) in zip(lines, them):
            found = plain.diagrams.read(line)
            same = found == code if keeps else gluing(found) == gluing(code) and found.loops == code.loops
            if not same or (not lone_components(code) and plain.diagrams.fault_of(found)):
                fault = fault or f"{text} became {line} and not {plain.diagrams.printed(code)}"
        yield f"kh-codes: {form}", fault


def row_faults():
    """What is wrong with the rows, if anything is: those of one code are given in a file each."""
    status, lines, said = run_each([given for _, given, _, _ in rows.READ])
    yield "kh-codes: a line of each code that is read", None if (status, len(lines)) == (0, len(rows.READ)) else f"{status}, {lines}"
    for (name, _, *wanted), *came in zip(rows.READ, lines, said):
        yield f"kh-codes: {name}", None if came == wanted else f"{came} and not {wanted}"
    status, lines, said = run_each([row[1] for row in rows.WRONG])
    yield "kh-codes: no line of a wrong code", None if (status, lines) == (1, []) else f"{status}, {lines}"
    for (name, given, what, column, *called), came in zip(rows.WRONG, said):
        wanted = rows.pointing(what, given, column, 1, *called) + rows.counted(0, 1)
        yield f"kh-codes: {name}", None if came == wanted else f"{came} and not {wanted}"
    for name, words, given, status, wrote, said in rows.MORE:
        wanted = status, "".join(f"{it}\t{code}\n" for it, code in wrote), said
        came = run(["--names", *words], given)
        yield f"kh-codes: {name}", None if came == wanted else f"{came} and not {wanted}"


def faults(program=None):
    """The name of each test, and what is wrong, if anything is."""
    yield from row_faults()
    with tempfile.TemporaryDirectory() as folder:
        tools = os.path.join(folder, "other")
        os.symlink(os.path.join(TOP, "tools"), tools)
        came = run([], rows.TREFOIL, tools)
        yield "kh-codes: by way of another name of its folder", None if came == (0, rows.TREFOIL + "\n", "") else str(came)
    yield from form_faults()
    yield from code_lists.faults()
    yield from ((f"kh-codes: {name}", fault) for name, fault in code_truth.faults())
