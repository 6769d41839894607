"""Where things are: the checkout that this package stands in, if it does, and the files of the reference."""
import os

HERE = os.path.dirname(os.path.abspath(__file__))


def _checkout() -> str:
    """The folder of the repository, by the name by which this package was found or by its own; nothing for an installed package."""
    for here in (HERE, os.path.realpath(HERE)):
        top = os.path.dirname(os.path.dirname(here))
        if os.path.isfile(os.path.join(top, "crates.txt")):
            return top
    return ""


TOP = _checkout()
# The files of the reference, and the pages: of the checkout, or as they were when the package was installed.
REFERENCE = os.path.join(TOP, "reference") if TOP else os.path.join(HERE, "data")
DOCS = os.path.join(TOP or HERE, "docs")


def reference_file(name: str) -> str:
    """The path of a file of the reference."""
    return os.path.join(REFERENCE, name)


def built_file(crate: str) -> str:
    """The program of a crate: of the checkout, once it is built, or as it was when the package was installed."""
    return os.path.join(TOP, "crates", crate, "out", crate) if TOP else os.path.join(HERE, "bin", crate)
