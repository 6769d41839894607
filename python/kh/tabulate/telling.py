"""What `kh-tabulate` says on standard error: how far it is, and at the end what became of the results that were wanted."""
import sys
import time
from collections import Counter

from .tasks import Lost

# What a result is counted as, by its status; and the statuses to end with where results are missing, and where none was answered.
COUNTED = {0: "answered", 1: "refused", 6: "too large"}
MISSING, NONE_ANSWERED = 1, 3


class Progress:
    """A line on standard error: how many are done, how many are left, how many a second."""

    def __init__(self, whole: int, done: int) -> None:
        self.whole, self.done, self.before, self.begun, self.told = whole, done, done, time.monotonic(), 0

    def step(self, count: int) -> bool:
        """Counts results, and tells of them twice a second; it answers whether it has told."""
        self.done += count
        now = time.monotonic()
        if now - self.told < 0.5 and self.done < self.whole:
            return False
        self.told = now
        self.tell("")
        return True

    def tell(self, end: str) -> None:
        speed = (self.done - self.before) / max(time.monotonic() - self.begun, 0.001)
        line = f"\r{self.done} done, {self.whole - self.done} left, {speed:.1f} a second "
        print(line, end=end, file=sys.stderr, flush=True)

    def end(self) -> None:
        """The last line, which is told where there was nothing to do as well."""
        self.tell("\n")


class Tally:
    """What has become of the results that are wanted: how many were answered, refused, too large, out of time and so on."""

    def __init__(self, name, whole, known):
        """With how many there are of each status already."""
        self.name, self.whole, self.counts = name, whole, Counter({COUNTED[status]: count for status, count in known.items()})

    def add(self, came, count=1):
        """Counts what became of so many results."""
        self.counts[came.kind if isinstance(came, Lost) else COUNTED[came.status]] += count

    def missing(self):
        """How many results there are not."""
        return self.whole - sum(self.counts[word] for word in COUNTED.values())

    def tell(self):
        """The line at the end, on standard error."""
        words = dict.fromkeys([*COUNTED.values(), *sorted(self.counts)])
        parts = [f"{self.counts[word]} {word}" for word in words if self.counts[word] or word == COUNTED[0]]
        left = self.whole - sum(self.counts.values())
        parts += [f"{left} not worked out"] if left else []
        print(f"kh-tabulate: {self.name}: {', '.join(parts)}, of {self.whole}", file=sys.stderr)

    def status(self, may_have_none=False):
        """The status to end with."""
        if self.missing():
            print(f"kh-tabulate: {self.missing()} results are missing; the same words try them again", file=sys.stderr)
            return MISSING
        if self.counts[COUNTED[0]] or may_have_none:
            return 0
        print("kh-tabulate: nothing was answered", file=sys.stderr)
        return NONE_ANSWERED
