"""Makes the surroundings of a test script plain, so that what it finds does not depend on who runs it, from where and with what settings.

A script calls `plain` before it imports anything else.
"""
import os
import re
import resource
import signal
import sys
import tempfile

from shared.places import TOP

MARK = "KH_TESTS_ARE_PLAIN"

# Variables that change what Python, the shell or its tools read and write, and what stands for them.
CHANGING = re.compile(
    r"PYTHON(?!HOME$)|LC_|LANG|CDPATH$|ENV$|BASH_ENV$|BASH_FUNC_|POSIXLY_CORRECT$|GREP_|PARALLEL$|COLUMNS$|LINES$"
    r"|FORCE_COLOR$|CLICOLOR|NO_COLOR$|MALLOC_|GLIBC_TUNABLES$|SHELLOPTS$|BASHOPTS$"
)
PLAIN = {"PYTHONUTF8": "1", "LC_ALL": "C"}

# The bytes that the temporary folder has to have room for, and the open files that some tests want.
ROOM = 64 * 1024 * 1024
FILES = 1_024


def plain():
    """Begins this script anew with a plain environment, where that has not been done, and makes all else plain."""
    open_closed_streams()
    if os.environ.pop(MARK, None) is None and sys.executable:
        kept = {name: value for name, value in os.environ.items() if not CHANGING.match(name)}
        sys.stdout.flush()
        os.execve(sys.executable, [sys.executable, *sys.argv], {**kept, **PLAIN, MARK: "1"})
    signal.signal(signal.SIGCHLD, signal.SIG_DFL)
    # (a shell has commands in the background pass these two by)
    signal.signal(signal.SIGINT, signal.default_int_handler)
    signal.signal(signal.SIGQUIT, signal.SIG_DFL)
    signal.pthread_sigmask(signal.SIG_SETMASK, ())
    os.umask(0o022)
    limits()
    choose_folder()


def open_closed_streams():
    """Opens standard streams that are closed on nothing, so that no other file takes their numbers."""
    file = os.open(os.devnull, os.O_RDWR)
    while file <= 2:
        os.set_inheritable(file, True)
        file = os.open(os.devnull, os.O_RDWR)
    os.close(file)


def limits():
    """No run leaves the picture of its memory behind, and there may be as many open files as tests want."""
    resource.setrlimit(resource.RLIMIT_CORE, (0, resource.getrlimit(resource.RLIMIT_CORE)[1]))
    soft, hard = resource.getrlimit(resource.RLIMIT_NOFILE)
    if soft != resource.RLIM_INFINITY and soft < FILES:
        resource.setrlimit(resource.RLIMIT_NOFILE, (FILES if hard == resource.RLIM_INFINITY else min(FILES, hard), hard))


def is_fit(folder):
    """Whether programs can be run from a folder that one can write to, and it has room."""
    if not (os.path.isdir(folder) and os.access(folder, os.W_OK | os.X_OK)):
        return False
    system = os.statvfs(folder)
    return not system.f_flag & os.ST_NOEXEC and system.f_bavail * system.f_frsize >= ROOM


def choose_folder():
    """Takes another folder for temporary files where programs can not be run from the usual one, or it is full."""
    usual = tempfile.gettempdir()
    places = [usual, "/tmp", "/var/tmp", os.path.join(TOP, "crates", "kh_main", "out")]
    tempfile.tempdir = os.environ["TMPDIR"] = next(filter(is_fit, places), usual)
