"""Runs the commands of the pages and compares what they write with what the page shows.

In the blocks of `docs/`, `examples/README.md` and `README.md` a line that begins with `$ ` is a command, and the lines up to the next such
line or the end of the block are what it writes. Commands run one after another in a folder that has all of the repository, with `./kh`
the program that is tested, and `./kh-scan` the one of scans that goes with it, where there is one; what they write into files stays for the
commands of the same page. Behind the pages come the texts of `docs/pictures`. `tests/program` runs these behind its rows.
"""
import os
import re
import tempfile

from shared.places import TOP, read_text
from shared.running import ended, silent_fault
from shared.scanning import scan_of

BLOCK = re.compile(r"^```[a-z]*\n(.*?)^```$", re.M | re.S)


def pages():
    """The names of the pages."""
    names = [os.path.join("docs", it) for it in sorted(os.listdir(os.path.join(TOP, "docs"))) if it.endswith(".md")]
    return ["README.md", *names, os.path.join("examples", "README.md")]


def commands(text):
    """Each command of a page with what the page shows, and the number of its line."""
    for block in BLOCK.finditer(text):
        number = text[: block.start(1)].count("\n") + 1
        command, shown, begun = None, [], 0
        for place, line in enumerate([*block[1].split("\n")[:-1], "$ "]):
            if line.startswith("$ "):
                if command is not None:
                    yield command, "".join(f"{it}\n" for it in shown), begun
                command, shown, begun = line[2:], [], number + place
            elif command is not None:
                shown.append(line)


def folder_of(path, program):
    """A folder with all of the repository, but for the programs."""
    scan = scan_of(program)
    programs = {"kh": os.path.abspath(program), **({"kh-scan": scan} if scan and os.path.isfile(scan) else {})}
    for name in os.listdir(TOP):
        # (a reader's own `out` may have files of the same commands)
        if name not in (".git", "out", *programs):
            os.symlink(os.path.join(TOP, name), os.path.join(path, name))
    for name, target in programs.items():
        os.symlink(target, os.path.join(path, name))


def page_faults(name, program):
    """What is wrong with the commands of a page."""
    if not os.path.exists(os.path.join(TOP, name)):
        return
    with tempfile.TemporaryDirectory() as folder:
        folder_of(folder, program)
        for command, shown, line in commands(read_text(name)):
            settings = dict(os.environ, COLUMNS="100", LC_ALL="C", PYTHONUTF8="1")
            _, wrote, said = ended(["sh", "-c", command], cwd=folder, env=settings)
            yield f"{name}, line {line}: {command}", None if wrote + said == shown else f"{wrote}{said}\nand not\n{shown}"


def faults(program):
    """The name of each command, and what is wrong, if anything is."""
    for name in pages():
        yield from page_faults(name, program)
    words = os.path.join(TOP, "show", "pictures"), "--test", "--kh", os.path.abspath(program)
    yield "pages: the texts of docs/pictures", silent_fault(*words)
