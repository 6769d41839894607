"""The scripts of the repository that pages name, and what runs each of them: a command of a page, or a test.

A test runs a script where a text of its code, that is no comment and no docstring, has the script's path, or has its name beside that of its
folder; or where a module of tests imports it.
"""
import ast
import functools
import os
import re

from companions.pages import commands, pages
from shared.places import TOP

FOLDERS = ("", "bench", "reference", "show", "tabulate", "tests", "tools")
# What tests begin with `--help` alone: it asks for minutes and idle processors, for other programs, or for the toolchain.
BENCHED = "all certify cube edit homology inputs jones moves pieces python reduced same scan words workers".split()
BENCHMARKS = tuple(os.path.join("bench", f"{it}.py") for it in BENCHED)
BY_HAND = (*BENCHMARKS, *(os.path.join("tests", it) for it in ("faults", "fuzz", "make_data.py", "more-edits", "program", "rules.py")))


def read(*path):
    with open(os.path.join(TOP, *path), encoding="utf-8", errors="replace") as file:
        return file.read()


def is_script(path):
    """Whether a file is begun by its name."""
    if not os.path.isfile(os.path.join(TOP, path)):
        return False
    with open(os.path.join(TOP, path), "rb") as file:
        return file.read(2) == b"#!"


def scripts():
    """All scripts."""
    every = (os.path.join(folder, name) for folder in FOLDERS for name in sorted(os.listdir(os.path.join(TOP, folder))))
    return [it for it in every if is_script(it)]


def has_path(text, path):
    return re.search(rf"(?<![\w/-]){re.escape(path)}(?![\w/-])(?!\.\w)", text.replace("./", "")) is not None


def named():
    """The scripts that a page names."""
    text = "\n".join(read(it) for it in ["CONTRIBUTING.md", *pages()])
    return [it for it in scripts() if has_path(text, it)]


def without_docstrings(tree):
    """The nodes of a module but for its docstrings."""
    texts = set()
    for node in ast.walk(tree):
        body = getattr(node, "body", None)
        if isinstance(body, list) and body and isinstance(body[0], ast.Expr) and isinstance(body[0].value, ast.Constant):
            texts.add(body[0].value)
    return [it for it in ast.walk(tree) if it not in texts]


@functools.lru_cache(maxsize=None)
def texts_of_tests():
    """For each module of tests its texts, and the modules that it imports."""
    found = []
    for where, _, names in os.walk(os.path.join(TOP, "tests")):
        for name in sorted(names):
            path = os.path.relpath(os.path.join(where, name), TOP)
            # (what begins all the others, and the rules, tell nothing of themselves)
            if (name.endswith(".py") and name not in ("named_scripts.py", "rules.py")) or path == os.path.join("tests", "program"):
                nodes = without_docstrings(ast.parse(read(path)))
                texts = {it.value for it in nodes if isinstance(it, ast.Constant) and isinstance(it.value, str)}
                found.append((texts, {alias.name for it in nodes if isinstance(it, (ast.Import, ast.ImportFrom)) for alias in it.names}))
    return found


def is_tested(path):
    """Whether a test runs a script."""
    folder, name = os.path.split(path)
    for texts, modules in texts_of_tests():
        if name in texts and (not folder or folder in texts or any(folder in it.split("/") for it in texts)):
            return True
        if any(has_path(it, path) for it in texts) or folder == "tests" and name.removesuffix(".py") in modules:
            return True
    return False


def untested():
    """The scripts that a page names and that no command of a page runs, and no test, even by `--help`."""
    shown = "\n".join(command for page in pages() for command, _, _ in commands(read(page)))
    return [it for it in named() if it not in BY_HAND and not has_path(shown, it) and not is_tested(it)]
