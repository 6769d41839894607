"""The cone of a statement: the definitions, types and constants that it rests on, from its own words down."""
import functools
import re

from tools import definitions as sources

COMMENT = re.compile(r"^\s*(--|//)")


class Unknown(Exception):
    """No definition, function or clause has this name, or several have."""


def roots(statement):
    """The whole names of the definitions that a statement begins at: NAME, or CRATE::FUNCTION with the label of a clause behind it or none."""
    crate, function, label = (*re.split("::| ", statement), None, None)[:3]
    if function is None:
        found = {name for name, it in sources.definitions().items() if it.word == crate or name == crate}
    else:
        chosen = [it for it in sources.clauses(crate) if it.function == function and label in (None, it.label)] if crate in sources.crates() else []
        found = {name for it in chosen for name in it.names}
    if not found:
        raise Unknown(f"nothing is called {statement}")
    if function is None and len(found) > 1:
        raise Unknown(f"{statement} is one of {', '.join(sorted(found))}")
    return found


def cone(names):
    """All that these definitions rest on, they among them, by their whole names."""
    found, waiting = set(), [*names]
    while waiting:
        name = waiting.pop()
        if name not in found:
            found.add(name)
            waiting += sources.names_in(name)
    return found


def in_order(names):
    """Definitions in an order in which they can be read: file by file, each behind those that it rests on, and down each file."""
    by_file = {}
    for name in names:
        by_file.setdefault(sources.definition(name).path, []).append(name)
    below = {path: {sources.definition(it).path for name in here for it in sources.names_in(name) if it in names} - {path} for path, here in by_file.items()}
    order = []
    for path in sorted(by_file, key=functools.partial(depth, below)):
        place_file(path, below, order, set())
    return [name for path in order for name in sorted(by_file[path], key=lambda it: sources.definition(it).line)]


def depth(below, path):
    """A file's place in the order of crates.txt, so that those of low crates come first."""
    listed = re.findall(r"^(\w+)(?: \w+)*:", sources.read("crates.txt"), re.M)
    return listed.index(path.split("/")[1]), path


def place_file(path, below, order, above):
    """Puts a file behind those that it rests on."""
    if path not in order and path not in above:
        for other in sorted(below[path]):
            place_file(other, below, order, above | {path})
        order.append(path)


def code_lines(names):
    """How many lines of code these definitions have, comments left out."""
    code = (line for name in names for line in sources.definition(name).code)
    return sum(1 for line in code if line.strip() and not COMMENT.match(line))


def file_count(names):
    return len({sources.definition(it).path for it in names})
