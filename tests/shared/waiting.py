"""Waits for what other processes do: at most so long as a run is held to hang."""
import contextlib
import os
import shutil
import tempfile
import time

from shared.places import read_text
from shared.running import PATIENCE


def wait_for(is_so):
    """Whether something comes to be so."""
    end = time.monotonic() + PATIENCE
    while not is_so():
        if time.monotonic() > end:
            return False
        time.sleep(0.02)
    return True


def is_living(number):
    """Whether a process runs, where /proc says it: one that has ended may be listed until it is waited for."""
    try:
        return read_text(f"/proc/{number}/stat").rpartition(")")[2].split()[0] not in "ZX"
    except OSError:
        return False


@contextlib.contextmanager
def written_folder():
    """A new folder, which is removed at last though a process that was ended by a signal is still writing into it for a moment."""

    def is_removed():
        shutil.rmtree(path, ignore_errors=True)
        return not os.path.exists(path)

    path = tempfile.mkdtemp()
    try:
        yield path
    finally:
        wait_for(is_removed)
