"""Where things are. The repository's folder goes on the path of modules, so that `bench.braids` is found; that of `tests/` is there."""
import os
import sys

TOP = os.path.dirname(os.path.dirname(os.path.dirname(os.path.abspath(__file__))))
DATA = os.path.join(TOP, "tests", "data")
KH = os.path.join(TOP, "kh")
sys.path.append(TOP)


def read_text(*path):
    """The text of a file, of the repository where no other folder is named."""
    with open(os.path.join(TOP, *path), encoding="utf-8") as file:
        return file.read()


def example(name):
    """The text of one of the examples."""
    return read_text("examples", f"{name}.pd")


def write_text(path, text, mode=None):
    """Makes a file with this text; what it may be used for is said as to `chmod`."""
    with open(path, "w", encoding="utf-8") as file:
        file.write(text)
    if mode:
        os.chmod(path, mode)
