"""The program of scans beside that of `kh`, and what is tried on it: `kh-scan --field P` means what `kh homology --field P` means.

So a run of `kh` for the homology of a diagram, with no other option than the field, is one of `kh-scan`.
"""
import dataclasses
import functools
import os

import plain.words
from shared.places import TOP

SCAN = os.path.join(TOP, "crates", "scan_main", "out", "scan_main")
BY_RATTLE = ".by-rattle"
HOMOLOGY = "homology"
FIELD_ALONE = {"--field": plain.words.OPTIONS["--field"]}
# The line of the limit that a scan has not.
LIMIT_OF_CUBES = "limit generators "


def scan_of(program):
    """The program of scans that goes with one of `kh`: the one that the environment names; else the one that the same compiler has built,
    or none where the environment names a program of `kh` alone."""
    named = os.environ.get("KH_SCAN_PROGRAM")
    if named or "KH_PROGRAM" in os.environ:
        return named and os.path.abspath(named)
    return SCAN + (BY_RATTLE if program.endswith(BY_RATTLE) else "")


@functools.lru_cache(maxsize=None)
def is_there(scan):
    """Whether there is a program of scans; where there is none, it is told once what is left out."""
    if scan and os.path.isfile(scan):
        return True
    why = f"there is no {os.path.relpath(scan, TOP)}" if scan else "KH_PROGRAM is set, and KH_SCAN_PROGRAM is not"
    print(f"left out, since {why}: the tests of kh-scan")
    return False


def named(scan, cases):
    """These cases, with the program before the name of each."""
    return ((f"{os.path.relpath(scan, TOP)}: {name}", fault) for name, fault in cases())


def parts_of(scan, found):
    """The parts of tests of a program of scans, by their names."""
    for name, cases in found.items():
        yield f"kh-scan, {name}", functools.partial(named, scan, cases)


def words_behind(words):
    """The words for `kh-scan` that ask for what these ask of `kh`; None where it is no homology, or they have an option that it lacks."""
    if any(isinstance(it, bytes) for it in words):
        return None
    found = plain.words.command_of(words, (HOMOLOGY,), FIELD_ALONE)
    return found and ([] if found["--field"] == "2" else ["--field", found["--field"]])


def has_row_of_scan(row):
    """Whether a row of `kh` says what `kh-scan` has to write too: it is one of `homology`, and not about the limit that a scan has not."""
    return words_behind(row.words) is not None and not row.wrote.startswith(LIMIT_OF_CUBES.encode())


def row_of_scan(row):
    """A row of `kh homology` as one of `kh-scan`."""
    return dataclasses.replace(row, name=f"kh-scan, {row.name}", words=words_behind(row.words))
