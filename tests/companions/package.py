"""Runs the tests of the package `kh` (`tests/python`) by pytest, on the program that is tried and the one of scans that goes with it.

`tests/program` runs these behind its rows. Where no Python here has pytest this is said, and they are left out; `tools/for-tests` installs
what they need. Alone they are run by `python3 -m pytest`.
"""
import os
import subprocess
import sys
import tempfile
import xml.etree.ElementTree

from shared.places import TOP
from shared.running import PATIENCE
from shared.scanning import scan_of

# The Pythons that may have pytest: the one that runs this, and Debian's own.
PYTHONS = (sys.executable, "/usr/bin/python3")


def with_pytest():
    """A Python that has pytest, if one has."""
    for it in PYTHONS:
        if os.access(it, os.X_OK) and not subprocess.run([it, "-c", "import pytest"], capture_output=True).returncode:
            return it
    return None


def faults_of(path):
    """The name of each test in a report of pytest, and what is wrong, if anything is."""
    for case in xml.etree.ElementTree.parse(path).iter("testcase"):
        name = f"{case.get('classname', '').rpartition('.')[2]}: {case.get('name')}"
        wrong = [it for it in case if it.tag in ("failure", "error")]
        for it in case.iter("skipped"):
            print(f"left out, since {it.get('message')}: {name}")
        yield name, wrong[0].get("message", "") + "\n" + (wrong[0].text or "")[-2_000:] if wrong else None


def faults(program):
    """The name of each test, and what is wrong, if anything is."""
    python = with_pytest()
    if not python:
        print("left out, since no Python here has pytest (tools/for-tests installs it): the tests of the package for Python")
        return
    settings = {**os.environ, "KH_PROGRAM": os.path.abspath(program), "KH_SCAN_PROGRAM": scan_of(program) or "/nowhere", "COLUMNS": "100"}
    with tempfile.TemporaryDirectory() as folder:
        report = os.path.join(folder, "report.xml")
        words = [python, "-m", "pytest", "-q", "-p", "no:cacheprovider", f"--junitxml={report}"]
        came = subprocess.run(words, cwd=TOP, env=settings, capture_output=True, text=True, timeout=PATIENCE * 3)
        if not os.path.exists(report):
            yield "pytest", came.stdout[-2_000:] + came.stderr[-2_000:]
            return
        yield from faults_of(report)
