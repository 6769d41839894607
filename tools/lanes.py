"""Which of many steps comes next, and with how many jobs, so that the last of all ends soon.

A step stands on others, takes a known time and memory, and can be shared by several jobs, one on a processor. `./build` asks it.
"""
import copy
from typing import NamedTuple

# The part of its time with one job that a step takes with so many, as measured on the crates of this repository: its beginning and its
# end take one processor, and jobs repeat some work. And the memory of each further job, as a part of the first one's.
PARTS = {1: 1.0, 2: 0.65, 3: 0.52, 4: 0.45}
FURTHER = 0.6


class Step(NamedTuple):
    """A step: its name, those that it stands on, and the seconds and the bytes of memory that it takes with one job."""

    name: str
    below: frozenset
    seconds: float
    memory: float

    def takes(self, jobs):
        return self.seconds * PARTS[jobs]

    def holds(self, jobs):
        return self.memory * (1 + FURTHER * (jobs - 1))


def chains(steps):
    """The seconds of the longest chain of steps that begins with each, by its name. The lowest steps come first."""
    found = {}
    for step in reversed(steps):
        found[step.name] = step.seconds + max((found[it.name] for it in steps if step.name in it.below), default=0)
    return found


class Lanes:
    """The steps that wait, the most pressing first, and those that run, on so many processors and so much memory."""

    def __init__(self, steps, processors, memory):
        self.steps = {it.name: it for it in steps}
        self.processors, self.memory = processors, memory
        chain = chains(steps)
        self.waiting = sorted(self.steps, key=lambda name: -chain[name])
        self.running = {}  # (how many jobs, and when it ends, by the name)
        self.pace = 1.0  # (how many times as long as foreseen a step takes on this machine)

    def ready(self):
        """The steps that can start."""
        unfinished = {*self.waiting, *self.running}
        return [name for name in self.waiting if unfinished.isdisjoint(self.steps[name].below)]

    def idle(self):
        return self.processors - sum(jobs for jobs, _ in self.running.values())

    def most_jobs(self, name):
        """With how many jobs the step can start now: as processors are idle and memory is free. Alone it can always start with one."""
        held = sum(self.steps[other].holds(jobs) for other, (jobs, _) in self.running.items())
        fitting = [jobs for jobs in PARTS if jobs <= self.idle() and held + self.steps[name].holds(jobs) <= self.memory]
        return max(fitting, default=0 if self.running else 1)

    def start(self, name, jobs, now):
        self.waiting.remove(name)
        self.running[name] = jobs, now + self.pace * self.steps[name].takes(jobs)

    def end(self, name):
        del self.running[name]

    def other(self):
        """Lanes that go on from here on their own."""
        other = copy.copy(self)
        other.waiting, other.running = [*self.waiting], {**self.running}
        return other

    def last_end(self, now):
        """When the last step ends, where idle processors are shared among the steps that can start."""
        lanes = self.other()
        while lanes.waiting or lanes.running:
            ready = lanes.ready()
            for at, name in enumerate(ready):
                jobs = min(lanes.most_jobs(name), max(1, lanes.idle() // (len(ready) - at)))
                if jobs:
                    lanes.start(name, jobs, now)
            name = min(lanes.running, key=lambda it: lanes.running[it][1])
            now = max(now, lanes.running[name][1])
            lanes.end(name)
        return now

    def last_end_with(self, name, jobs, now):
        lanes = self.other()
        lanes.start(name, jobs, now)
        return lanes.last_end(now)

    def choice(self, now):
        """The most pressing of the steps that can start, and with how many jobs all end soonest; or None, where none can start."""
        for name in self.ready():
            most = self.most_jobs(name)
            if most:
                return name, min(range(1, most + 1), key=lambda jobs: self.last_end_with(name, jobs, now))
        return None
