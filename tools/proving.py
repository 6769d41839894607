"""Proves crates side by side with the Rattle toolchain, and tells on standard error of each that is done and how long the rest may take."""
import os
import queue
import sys
import tempfile
import threading
import time
import traceback

import lanes

TIMES = os.path.join(os.path.dirname(os.path.abspath(__file__)), "build-times.txt")
HEAD = """\
# A crate, the seconds of one processor in which it was proved from nothing and its library built, and the most megabytes that this held.
# By these ./build foresees how long it takes. ./build --times writes them anew.
"""
# What is foreseen of a crate that the file does not have.
NEW = 100, 2_000
LAST_LINES = 60


def say(text):
    print(f"build: {text}", file=sys.stderr, flush=True)


def known_times():
    """The seconds and the megabytes of each crate of the file."""
    with open(TIMES, encoding="utf-8") as file:
        rows = [line.split() for line in file if not line.startswith("#")]
    return {name: (float(seconds), int(megabytes)) for name, seconds, megabytes in rows}


def minutes(seconds):
    """A length of time as one says it."""
    count = round(seconds / 60)
    return f"{count} minutes" if count > 1 else "a minute" if count else "less than a minute"


def refuse(log, why):
    """Writes the end of what a check said, and why that is no program."""
    log.seek(0)
    print(*log.read().splitlines()[-LAST_LINES:], sep="\n", file=sys.stderr)
    say(why)


class Proving:
    """Proves crates, given the lowest first, on so many processors and in so much memory."""

    def __init__(self, crates, processors, memory):
        self.crates = {it.name: it for it in crates}
        self.times, self.new_times = known_times(), {}
        self.lanes = lanes.Lanes([self.step_of(it) for it in crates], processors, memory)
        self.ended, self.begun = queue.Queue(), {}
        self.took = self.foreseen = self.done = 0

    def step_of(self, crate):
        seconds, megabytes = self.times.get(crate.name, NEW)
        return lanes.Step(crate.name, frozenset(it.name for it in crate.deps), seconds, megabytes * 1e6)

    def seconds_left(self):
        now = time.monotonic()
        return self.lanes.last_end(now) - now

    def work(self, crate, jobs):
        """The step of a crate, in a thread of its own."""
        try:
            status = crate.step(jobs)
        except SystemExit:  # (the toolchain has said why on standard error)
            status = 1
        except Exception:
            traceback.print_exc(file=crate.out)
            status = 1
        self.ended.put((crate, jobs, status))

    def start_some(self):
        """Starts crates as long as processors are idle and memory is free."""
        while True:
            now = time.monotonic()
            choice = self.lanes.choice(now)
            if not choice:
                return
            name, jobs = choice
            crate = self.crates[name]
            crate.out = tempfile.TemporaryFile("a+", errors="replace")
            self.begun[name] = now, crate.has_kept()
            self.lanes.start(name, jobs, now)
            threading.Thread(target=self.work, args=(crate, jobs), daemon=True).start()

    def keep_time(self, crate, jobs):
        """Keeps how long a crate took, and by that the pace."""
        begun, has_kept = self.begun.pop(crate.name)
        self.took += time.monotonic() - begun
        self.foreseen += self.lanes.steps[crate.name].takes(jobs)
        self.lanes.pace = self.took / self.foreseen
        if not has_kept and crate.took():
            seconds, memory = crate.took()
            self.new_times[crate.name] = seconds / (jobs * lanes.PARTS[jobs]), memory / 1e6

    def run(self):
        """Whether all are proved. At the first that is refused the others are given up."""
        while self.lanes.waiting or self.lanes.running:
            self.start_some()
            crate, jobs, status = self.ended.get()
            if status:
                refuse(crate.out, f"{crate.name} is not proved")
                return False
            self.lanes.end(crate.name)
            self.keep_time(crate, jobs)
            self.done += 1
            left = self.seconds_left()
            say(f"{crate.name} proved ({self.done} of {len(self.crates)})" + (f", {minutes(left)} left" if left else ""))
        return True

    def write_times(self):
        """Writes the file of times anew, with those of the crates that were proved from nothing."""
        times = {**self.times, **self.new_times}
        with open(TIMES, "w", encoding="utf-8") as file:
            file.write(HEAD + "".join(f"{name} {seconds:.0f} {megabytes:.0f}\n" for name, (seconds, megabytes) in times.items()))
