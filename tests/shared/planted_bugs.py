"""Planted bugs as texts: what an edit changes, in which function it stands, and where the answers of a function are stored.

An edit is a file of crates/NAME/must-fail/ or more-edits/: a line `file:` and pairs of lines `old:` and `new:`. The answers of a function
of src/FILE.rt stand in proofs/FILE/FUNCTION/; those of a method in the folder of its type, wherever its `impl` stands; those of a trait's
method in the folder of the `impl`, which is named by the type and the trait; and those of functions that call one another in the folder
of their cycle. Nothing here proves.
"""
import os
import re
from typing import NamedTuple

HEAD = re.compile(r"( *)(?:pub(?:\([a-z ]+\))? )?(?:default )?(?:const )?(?:unsafe )?fn (\w+)")
BLOCK = re.compile(r"(?:pub(?:\([a-z ]+\))? )?(?:unsafe )?(impl|trait)\b(.*)")
TYPE = re.compile(r"(?:pub(?:\([a-z ]+\))? )?(?:struct|enum|union) (\w+)", re.M)
CYCLE = re.compile(r" *#\[cycle\((\w+)\)\]")
ANSWER = re.compile(r"(?:abbrev )?pub (\S+) :")
NEW = re.compile(r"[^\s\]})]")


class Function(NamedTuple):
    """A function of a file: its first and last line, the type and the trait of its block, and its cycle, each empty where there is none."""

    name: str
    first: int
    last: int
    owner: str
    trait: str
    cycle: str


def read(path):
    with open(path, encoding="utf-8") as file:
        return file.read()


def changes(edit):
    """The pairs of an edit: a file of the crate, the old text and the new."""
    found, path, old = [], None, None
    for line in read(edit).split("\n"):
        word, _, text = line.partition(": ")
        if word == "file":
            path = text.strip()
        elif word == "old":
            old = text
        elif word in ("new", "new:"):
            found.append((path, old, text))
    return found


def plain(head):
    """A head of an `impl` without what stands in angle brackets."""
    before = None
    while before != head:
        before, head = head, re.sub(r"(?<!-)<[^<>]*>", "", head.replace("->", "  "))
    return head


def owners(head):
    """The type and the trait that the head of a block names."""
    of_trait, _, of_type = plain(head).rpartition(" for ")
    names = [re.search(r"(\w+)\s*(?:where\b.*)?$", it.strip().rstrip("{").strip(), re.S) for it in (of_type, of_trait)]
    return tuple(it.group(1) if it else "" for it in names)


def functions(text):
    """The functions of a file of src/, by the lines in which they stand."""
    lines, found, block, cycle = text.split("\n"), [], ("", ""), ""
    for at, line in enumerate(lines):
        opened, head = BLOCK.match(line), HEAD.match(line)
        if opened:
            upto = next(it for it in range(at, len(lines)) if "{" in lines[it] or lines[it].endswith(";"))
            whole = " ".join(lines[at : upto + 1])[opened.start(2) :]
            block = owners(whole.partition("{")[0]) if opened.group(1) == "impl" else (re.search(r"\w+", whole).group(), "")
        elif line == "}":
            block = ("", "")
        cycle = CYCLE.match(line).group(1) if CYCLE.match(line) else cycle
        if head:
            ends = (head.group(1) + it for it in ("}", "{}", "{ }"))
            last = min((lines.index(it, at) for it in ends if it in lines[at:]), default=at)
            found.append(Function(head.group(2), at, last, *(block if head.group(1) else ("", "")), cycle))
            cycle = ""
    # (a function with no body ends before the next one)
    return [it._replace(last=min(it.last, later.first - 1)) for it, later in zip(found, found[1:])] + found[-1:]


def function_at(text, place):
    """The function of a file in which a place stands, if any."""
    line = text.count("\n", 0, place)
    return next((it for it in functions(text) if it.first <= line <= it.last), None)


def module_of(path):
    """The folder below proofs/ that a file of src/ has."""
    return "" if path == "src/lib.rt" else path.removeprefix("src/").removesuffix(".rt")


def sources(crate):
    """The files of src/ of a crate, by their paths in it."""
    for folder, _, names in os.walk(os.path.join(crate, "src")):
        for name in sorted(names):
            if name.endswith(".rt"):
                yield os.path.relpath(os.path.join(folder, name), crate)


def modules_of_type(crate, path, name):
    """The folders of the files that declare a type of this name, that of this file first."""
    found = [it for it in sources(crate) if name in TYPE.findall(read(os.path.join(crate, it)))]
    return [module_of(it) for it in sorted(found, key=lambda it: it != path)] or [module_of(path)]


def folders_of_function(crate, path, function):
    """The folders below proofs/ in which answers of a function of a file can stand."""
    is_of_type = function.owner and not function.trait
    modules = modules_of_type(crate, path, function.owner) if is_of_type else [module_of(path)]
    rooms = [os.path.join(it, function.owner + function.trait) for it in modules]
    # (one that calls itself has the folder of a cycle)
    names = ["+" + function.cycle] if function.cycle else [function.name, "+" + function.name]
    return [os.path.normpath(os.path.join(room, name)) for room in rooms for name in names]


def folder_with(crate, path, function, file="Answers.antt"):
    """The folder below proofs/ where this file of a function stands, if it has one."""
    for it in folders_of_function(crate, path, function):
        if os.path.isfile(os.path.join(crate, "proofs", it, file)):
            return it
    return None


def functions_changed(crate, edit):
    """The functions of a crate in which the old texts of an edit stand, each with its file."""
    found = []
    for path, old, _ in changes(edit):
        text = read(os.path.join(crate, path))
        function = function_at(text, text.index(old)) if path.startswith("src/") and old in text else None
        if function and (path, function) not in found:
            found.append((path, function))
    return found


def folders_changed(crate, edit):
    """The folders below proofs/ with answers of the functions in which an edit stands, each with its file and its function."""
    found = {folder_with(crate, *it): it for it in functions_changed(crate, edit)}
    return {folder: it for folder, it in found.items() if folder}


def chunks(text):
    """The parts of a file of answers: the name of the answer, or None for what is between answers, with its lines."""
    found = [(None, [])]
    for line in text.split("\n"):
        name, begun = ANSWER.match(line), found[-1][0]
        if name:
            found.append((name.group(1), [line]))
        elif begun is None or not NEW.match(line) or line.startswith(begun + " "):
            found[-1][1].append(line)
        else:
            found.append((None, [line]))
    return found


def stored(text):
    """The names of the goals that a file of answers has an answer to."""
    return [name for name, lines in chunks(text) if name and f"goal.{name}" in " ".join(lines)]


def with_answers(text, names):
    """A file of answers with those of these names alone; what the answers share stays."""
    gone = set(stored(text)) - set(names)
    return "\n".join("\n".join(lines) for name, lines in chunks(text) if name not in gone)
