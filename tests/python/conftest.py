"""What the tests of the package share: the programs, which have to be there, and a folder for what is kept of other programs."""
import os

import kh
import pytest

HERE = os.path.dirname(os.path.abspath(__file__))
TOP = os.path.dirname(os.path.dirname(HERE))
KEPT = os.path.join(HERE, "kept")


def is_there():
    """Whether both programs are."""
    try:
        return bool(kh.program("kh") and kh.program("kh-scan"))
    except kh.Missing:
        return False


def pytest_collection_modifyitems(items):
    """Leaves out the tests that ask the programs, where these are not built."""
    if not is_there():
        skip = pytest.mark.skip(reason="kh and kh-scan are not built: ./build, or KH_PROGRAM and KH_SCAN_PROGRAM")
        for it in items:
            if it.get_closest_marker("program"):
                it.add_marker(skip)


@pytest.fixture
def kept():
    """The text of a file that was kept."""
    def text(name):
        with open(os.path.join(KEPT, name), encoding="utf-8") as file:
            return file.read()

    return text
