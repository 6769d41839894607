"""Runs the programs that `reference/check` asks, none of which is of this project: SageMath, Regina, and the package HAP of GAP."""
import ast
import json
import os
import subprocess
import tempfile

HERE = os.path.dirname(os.path.abspath(__file__))
SAGE = ["sage", "--python", os.path.join(HERE, "ask_sage.py")]
REGINA = ["regina-python", "--quiet", os.path.join(HERE, "ask_regina.py")]
GAP = ["gap", "-q"]
# HAP keeps the knots of n crossings in the list n - 2: for each knot its arc presentation.
HAP = 'LoadPackage("hap", false);; Print([InstalledPackageVersion("hap"), HAP_Knots], "\\n");;\nQUIT;\n'
MISSING = "{} is not there: install it, on Debian by `apt-get install {}`"
PACKAGES = {"sage": "sagemath", "regina-python": "regina-normal", "gap": "gap-hap"}


class Missing(Exception):
    """A program that is not installed, and how to install it."""


def run(words, given, seconds=None):
    """What a program writes, given this input."""
    try:
        with tempfile.TemporaryDirectory() as folder:
            came = subprocess.run(words, input=given, capture_output=True, text=True, timeout=seconds, cwd=folder)
    except FileNotFoundError:
        raise Missing(MISSING.format(words[0], PACKAGES[words[0]])) from None
    if came.returncode:
        raise Missing(f"{words[0]} ended with {came.returncode}: {came.stderr[-1000:]}")
    return came.stdout


def asked(words, questions, seconds=None):
    """The name and version of a program, and its answers to these questions, by their names."""
    lines = run(words, "".join(json.dumps(it) + "\n" for it in questions), seconds).splitlines()
    program, *answers = (json.loads(line) for line in lines if line.startswith("{"))
    return program["program"], {it.pop("name"): it for it in answers}


def arc_presentations():
    """The name and version of HAP, and its arc presentations of knots by numbers of crossings, from 3 on."""
    text = run(GAP, HAP).replace("\\\n", "").replace("\n", " ")
    version, knots = ast.literal_eval(text[text.index("[") :].strip())
    return f"HAP {version} of GAP", dict(enumerate(knots, 3))


def homology(pd, ring, seconds):
    """What SageMath has of the homology of a diagram over a ring, if it ends within these seconds."""
    question = {"name": "", "homology": ring, "pd": [[i, l, k, j] for i, j, k, l in pd]}
    try:
        return asked(SAGE, [question], seconds)[1][""]["homology"]
    except subprocess.TimeoutExpired:
        return None
