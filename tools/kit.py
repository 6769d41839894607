"""The Rattle toolchain as `./build` uses it: what its command `rt` is made of, taken as a module, so that crates are proved side by side.

One call of `rt lib` keeps every other out of the crates below its own until it ends, so two calls that stand on one crate run in turn;
`rt all check` gives each crate one processor, also the last of a chain, and `rt run` then checks the program once more for its code.
To import this is an `ImportError` where the toolchain on the path keeps `rt` in another form.
"""
import contextlib
import importlib.util
import os
import re
import shutil
import subprocess
import sys
import threading
import types

ASKED = """Crate GROUPS KEPT LIMIT QUOTAS RATTLE crates_below guarded lock number_in stop stop_on_links stop_on_text stop_on_unread
subprocess sum_of text_of""".split()
reading = threading.local()


def rt_library():
    """What `rt` is made of."""
    path = os.path.join(os.path.dirname(os.path.realpath(shutil.which("rt"))), "rtlib.py")
    if not os.path.isfile(path):
        raise ImportError(f"there is no {path}")
    spec = importlib.util.spec_from_file_location("rtlib", path)
    made = sys.modules["rtlib"] = importlib.util.module_from_spec(spec)
    spec.loader.exec_module(made)
    lacking = [name for name in ASKED if not hasattr(made, name)]
    if lacking:
        raise ImportError(f"{path} has no {lacking[0]}")
    return made


rtlib = rt_library()


@contextlib.contextmanager
def each_read_once():
    """Within it this thread reads the files of a crate once to see what has changed, and not once for each way that leads down to it."""
    before = getattr(reading, "sums", None)
    reading.sums = {} if before is None else before
    try:
        yield reading.sums
    finally:
        reading.sums = before


TOOK = {}


def run(words, **how):
    """`subprocess.run` as `rt` has it; of the last check in a folder it keeps what it took: seconds of processors, and bytes of memory."""
    if not {"cwd", "errors"} <= {*how}:
        return subprocess.run(words, **how)
    with subprocess.Popen(words, stdin=subprocess.DEVNULL, **how) as started:
        wrote = started.stdout.read()
        _, ended, used = os.wait4(started.pid, 0)
        started.returncode = os.waitstatus_to_exitcode(ended)
    TOOK[how["cwd"]] = used.ru_utime + used.ru_stime, 1024 * used.ru_maxrss
    return subprocess.CompletedProcess(words, started.returncode, wrote)


rtlib.subprocess = types.SimpleNamespace(**{**vars(subprocess), "run": run})


class Crate(rtlib.Crate):
    """A crate as `rt` has it, held to the rules of `rt verdict`. Its library has its statements without their proofs, as `rt ci` builds it
    for the crates above, and stands where no other command looks for it; or, with `keeps`, it is that of `rt lib`, over whose work
    `rt check` goes on, and is held to the rules of these."""

    keeps = False

    def __init__(self, *given, **named):
        super().__init__(*given, **named)
        if not self.keeps:
            self.rlib = f"{self.folder}/out/statements/{self.name}.rlib"
        words = self.stream("args") if self.is_program else None
        if words is not None:
            self.said = {**self.said, "args": words.decode().splitlines()}

    def took(self):
        """The seconds of processors and the bytes of memory that its step took, where that is known."""
        return TOOK.get(self.folder)

    def stamp(self):
        """A sum of all that the crate is made from, with what it stands on and with the rules that it is held to."""
        with each_read_once() as sums:
            if self.name not in sums:
                sums[self.name] = super().stamp() + ("" if self.keeps else " by the rules of a verdict ")
            return sums[self.name]

    def stamp_file(self):
        return f"{os.path.dirname(self.rlib)}/stamp"

    def is_built(self):
        """Whether its library is that of its sources, and no younger one stands below it: statements fit the libraries that they were built over."""
        if self.keeps:
            return super().is_built()
        below = [self, *self.below()]
        with each_read_once():
            if not all(os.path.isdir(it.rlib) and rtlib.text_of(it.stamp_file()) == it.stamp() for it in below):
                return False
        return all(os.stat(it.stamp_file()).st_mtime_ns <= os.stat(self.stamp_file()).st_mtime_ns for it in below)

    def is_done(self):
        """Whether its library, or the program, is that of its sources."""
        program = f"{self.folder}/out/{self.name}"
        if self.is_program:
            return rtlib.text_of(f"{program}.stamp") == self.stamp() + rtlib.sum_of(program)
        return self.is_built()

    def stop_on_files(self):
        """Stops at a link among the crate's files, and at a file that no check reads."""
        rtlib.stop_on_links(self.folder)
        for it in os.scandir(self.folder):
            if it.name.endswith((".rt", ".antt")):
                rtlib.stop(f"no check reads {it.path}: a .rt file goes in src/, and an .antt file in specs/ or proofs/")
            if it.name != "out":  # (where libraries have such files)
                rtlib.stop_on_unread(it.path, [self])

    def call(self, *words):
        """Runs a command of the toolchain; a build begins from nothing, and is held to the rules."""
        if words[0] != rtlib.RATTLE or self.keeps:
            return super().call(*words)
        return self.prove([it for it in words[1:] if it not in rtlib.KEPT])

    def miscounted(self, line):
        """What a last line has that it may not: calls that wait are counted in no file here, and may be where HANDLES names Wait."""
        handles = rtlib.text_of(f"{self.folder}/../../HANDLES") or ""
        return super().miscounted(re.sub(r" may-wait=\S+", "", line) if re.search(r"\bWait\b", handles) else line)

    def build_library(self, flags):
        """Proves the crate and builds its library: 0 where all is well."""
        if self.keeps:
            return self.build_rlib(flags, anew=False)
        folder, stamp = os.path.dirname(self.rlib), self.stamp()
        shutil.rmtree(folder, ignore_errors=True)
        os.makedirs(folder)
        status = self.call(rtlib.RATTLE, "build", *self.words(flags, keeps=False), "--statements", "-o", self.rlib)
        if not status and stamp == self.stamp():
            with open(self.stamp_file(), "w", encoding="utf-8") as file:
                file.write(stamp)
        return status

    def step(self, jobs):
        """Proves the crate and builds its library, or the program, which has to write what the file stdout has: 0 where all is well."""
        os.makedirs(f"{self.folder}/out", exist_ok=True)
        rtlib.stop_on_text(self, "check" if self.keeps else "verdict")
        flags = ["--jobs", str(jobs)]
        if not self.is_program:
            return self.build_library(flags)
        # (what `rt ci` has built of other sources is not to stay beside it)
        with contextlib.suppress(FileNotFoundError):
            os.remove(f"{self.folder}/out/{self.name}.by-rattle")
        how = {"input": self.stream("stdin") or b"", "stdout": subprocess.PIPE, "stderr": self.out, "timeout": rtlib.LIMIT}
        return self.run(flags, self.said.get("args", []), **how)


rtlib.Crate = Crate


def unfinished(folders, keeps):
    """The crates that are not proved as they stand, of some crates and those below them, the lowest first. Until this process ends no `rt`
    works in any of them, and when it ends, however it does, so do the commands that it has started."""
    Crate.keeps = keeps
    rtlib.guarded()  # (the first call handles a signal, which only the first thread may)
    found = {}
    for it in (it for folder in folders for it in rtlib.crates_below(folder)):
        found.setdefault(it.name, it)
    crates = [*found.values()]
    rtlib.lock(crates)
    for it in crates:
        it.stop_on_files()
    with each_read_once():
        return [it for it in crates if not it.is_done()]


def processors():
    """How many processors there are to use: those that this process may run on, or fewer by the quota of its control group."""
    found = len(os.sched_getaffinity(0))
    for file, period in rtlib.QUOTAS:
        quota, period = rtlib.number_in(file, r"^(\d+)"), rtlib.number_in(*period)
        if quota and period:
            found = min(found, max(quota // period, 1))
    return found


def free_memory():
    """How many bytes of memory are free, under the limit of the control group too."""
    found = [1024 * rtlib.number_in("/proc/meminfo", r"MemAvailable:\s+(\d+)")]
    for limit, held in rtlib.GROUPS:
        limit, held = rtlib.number_in(limit, r"(\d+)"), rtlib.number_in(*held)
        if limit and held is not None:
            found.append(limit - held)
    return min(found)
