"""Tries how `./build` proves crates side by side: `tools/lanes.py` on steps of made-up lengths, and the script itself with a toolchain
whose steps write down when they begin and end (`shared/rtlib.py`).

`scripts` runs these behind its own cases, in which `rt` is of another form.
"""
import itertools
import os
import random
import re
import shutil
import signal
import sys

from shared import rtlib
from shared.places import TOP, write_text
from shared.running import PATIENCE
from shared.waiting import is_living, wait_for, written_folder

TOOLS = os.path.join(TOP, "tools")
# What each crate stands on, the lowest first, and the seconds that it takes by the file of times. The programs, kh_main and scan_main, do
# not stand on the last; and `scan` is below one of them alone.
BELOW = {
    "kh_types": "", "long": "kh_types", "short": "kh_types", "top": "long", "kh_main": "top short", "scan": "kh_types",
    "scan_main": "scan short", "laws": "kh_types",
}
SECONDS = {"kh_types": 240, "long": 180, "short": 60, "top": 120, "kh_main": 60, "scan": 30, "scan_main": 30, "laws": 900}
PROVED, PROGRAMS = [*BELOW][:-1], ("kh_main", "scan_main")
sys.path.append(TOOLS)
import lanes

LEFT = r"build: (\w+) proved \((\d) of (\d)\)(?:, (?:less than a minute|a minute|\d+ minutes) left)?"
SIGNALS = (signal.SIGHUP, signal.SIGINT, signal.SIGTERM)


class Kit:
    """The copy of the repository that `scripts` tries, with these crates, and with a toolchain that is taken as a module."""

    def __init__(self, copy):
        self.copy = copy
        shutil.copy(os.path.join(TOP, "tests", "shared", "rtlib.py"), os.path.join(copy.folder, "bin"))
        copy.write(os.path.join("bin", "rattle"), rtlib.COMPILER)
        os.chmod(os.path.join(copy.folder, "bin", "rattle"), 0o755)
        for name, (part, file) in itertools.product(BELOW, (("src", "lib.rt"), ("specs", "Lib.antt"), ("proofs", "Answers.antt"))):
            copy.write(os.path.join("crates", name, part, file), name)
        copy.write("crates.txt", "".join(f"{name}: {below}\n" for name, below in BELOW.items()))
        copy.write(os.path.join("tools", "build-times.txt"), "# times\n" + "".join(f"{it} {SECONDS[it]} 1000\n" for it in SECONDS))

    def start(self, *words, refused="", takes="0.05"):
        return self.copy.start("build", *words, refused=refused, more={"TAKES": takes})

    def build(self, *words, **settings):
        """The status, and the lines of standard error."""
        started = self.start(*words, **settings)
        wrote, errors = started.communicate(timeout=PATIENCE)
        return started.returncode, (wrote + errors).splitlines()

    def told(self):
        """What the steps have written so far: a list of begin or end, a crate, its jobs and its process."""
        if not os.path.exists(self.copy.told):
            return []
        with open(self.copy.told, encoding="utf-8") as file:
            rows = [line.split() for line in file if line.startswith(("begin ", "end "))]
        return [(what, name, int(jobs), int(process)) for what, name, jobs, process in rows]

    def begun(self):
        return [name for what, name, *_ in self.told() if what == "begin"]

    def times(self):
        with open(os.path.join(self.copy.folder, "tools", "build-times.txt"), encoding="utf-8") as file:
            return [line.split() for line in file if not line.startswith("#")]


def order_fault(told, processors):
    """What is wrong with the order of begins and ends, if anything is."""
    running, ended = {}, set()
    for what, name, jobs, _ in told:
        if what == "end":
            ended.add(name)
            del running[name]
            continue
        running[name] = jobs
        if not ended.issuperset(BELOW[name].split()):
            return f"{name} began before what it stands on had ended: {told}"
        if sum(running.values()) > processors:
            return f"more jobs than processors: {told}"
    return None if ended == {*PROVED} else f"proved were {sorted(ended)}"


def each_behind_those_below(kit):
    status, lines = kit.build()
    fault = order_fault(kit.told(), 2)
    told = [re.fullmatch(LEFT, line) for line in lines[1:-2]]
    numbers = [it and it.group(2, 3) for it in told]
    return (status, fault, numbers), (0, None, [(str(at), str(len(PROVED))) for at in range(1, len(PROVED) + 1)])


def the_longest_chain_first(kit):
    kit.build()
    begun = kit.begun()
    # (of two that begin at one moment either may be told first)
    return (begun[0], "long" in begun[1:3], begun.index("long") < begun.index("scan")), ("kh_types", True, True)


def a_crate_that_is_refused(kit):
    status, lines = kit.build(refused="top")
    at = lines.index("41") if "41" in lines else 0
    shown = lines[at:] == [*map(str, range(41, 101)), "build: top is not proved"]
    return (status, shown, "kh_main" in kit.begun()), (70, True, False)


def the_rest_behind_a_refusal(kit):
    kit.build(refused="top")
    # (one that ends in the moment of the refusal has no stamp any more)
    ended = {name for name in PROVED if os.path.exists(os.path.join(kit.copy.folder, "crates", name, "out", "statements", "stamp"))}
    before = len(kit.told())
    status, _ = kit.build()
    return (status, "long" in ended, ended.isdisjoint(name for _, name, *_ in kit.told()[before:])), (0, True, True)


def started_under(kit, number, handler, takes):
    """A build that has begun its first steps, with a signal as this handler of its caller leaves it."""
    before, steps = signal.signal(number, handler), len(kit.told())
    try:
        started = kit.start(takes=takes)
    finally:
        signal.signal(number, before)
    wait_for(lambda: len(kit.told()) > steps)
    return started


def interrupted(kit):
    ended = []
    for number in SIGNALS:
        started = started_under(kit, number, signal.SIG_DFL, "1000")
        started.send_signal(number)
        said = number.name in started.communicate(timeout=PATIENCE)[1]
        ended.append((started.returncode, said, wait_for(lambda: not any(is_living(process) for *_, process in kit.told()))))
    return ended, [(70, True, True)] * len(SIGNALS)


def not_interrupted(kit):
    """A signal that the caller passes over, as under nohup, is passed over."""
    started = started_under(kit, signal.SIGHUP, signal.SIG_IGN, "0.05")
    started.send_signal(signal.SIGHUP)
    started.communicate(timeout=PATIENCE)
    return started.returncode, 0


def two_at_once(kit):
    both = [kit.start(), kit.start()]
    said = [it.communicate(timeout=PATIENCE)[1] for it in both]
    done = ["build: done" in it for it in said]
    return ([it.returncode for it in both], sorted(kit.begun()), sorted(done)), ([0, 0], sorted(PROVED), [False, True])


def nothing_to_do(kit):
    """It is said what stands, with as many crates as a program stands on, whatever is newer, and what no program stands on may change."""
    first = kit.build()[1][-1]
    kit.copy.write(os.path.join("crates", "laws", "src", "lib.rt"), "laws of another day")
    os.utime(os.path.join(kit.copy.folder, "crates", "kh_main", "out", "kh_main"), (1, 1))
    seen = first, kit.build(), kit.build("kh"), len(kit.begun())
    both = "build: proved: 7 crates, kh and kh-scan of these sources"
    return seen, (both, (0, [both]), (0, ["build: proved: 5 crates, kh of these sources"]), len(PROVED))


def of_what_has_changed(kit):
    """What a call begins, and its status, where a file has changed that is as old as before, or is gone, or is a link, or one too many."""
    more, long = os.path.join("crates", "long", "src", "more.rt"), os.path.join(kit.copy.folder, "crates", "long")
    kit.copy.write(more, "more")
    kit.build()
    found = []

    def see():
        before = len(kit.begun())
        found.append((kit.build()[0], sorted(kit.begun()[before:])))

    os.remove(os.path.join(kit.copy.folder, more))
    see()
    changed(os.path.join(long, "proofs", "Answers.antt"), "gnol")
    see()
    changed(os.path.join(long, "specs", "Lib.antt"), "FALSE")
    see()
    changed(os.path.join(long, "specs", "Lib.antt"), "long")
    os.rename(os.path.join(long, "proofs"), os.path.join(kit.copy.folder, "proofs"))
    see()
    os.rename(os.path.join(kit.copy.folder, "proofs"), os.path.join(long, "proofs"))
    kit.copy.write(os.path.join("crates", "long", "Answers.antt"), "")
    see()
    os.remove(os.path.join(long, "Answers.antt"))
    os.symlink("lib.rt", os.path.join(long, "src", "link.rt"))
    see()
    os.remove(os.path.join(long, "src", "link.rt"))
    see()
    above = sorted(["long", "top", "kh_main"])
    # (at the end all is as it was proved last)
    return found, [(0, above), (0, above), (70, ["long"]), (70, ["long"]), (70, []), (70, []), (0, [])]


def changed(path, text):
    """Changes a file, which is then as old as before."""
    before = os.stat(path)
    write_text(path, text)
    os.utime(path, ns=(before.st_atime_ns, before.st_mtime_ns))


def by_the_rules_of_a_verdict(kit):
    """What `rt check` passes and `rt verdict` does not is refused, in the text and in what the check says; but not with --keep."""
    found, source = [], os.path.join("crates", "kh_main", "src", "lib.rt")
    for word in ("TACTIC", "HIDES"):
        kit.copy.write(source, word)
        status, lines = kit.build()
        found += [status, lines[-1], kit.build("--keep")[0]]
    return found, [70, "build: kh_main is not proved", 0] * 2


def changed_meanwhile(kit):
    """A source that changes while it is at work leaves no program that counts as current, and the next call proves what it is now."""
    started = kit.start(takes="1")
    wait_for(lambda: "long" in kit.begun())
    kit.copy.write(os.path.join("crates", "kh_types", "src", "lib.rt"), "other")
    said = started.communicate(timeout=PATIENCE)[1]
    status = [kit.copy.run(it, "check")[0] for it in ("kh", "kh-scan")]
    again = kit.build()
    return (started.returncode, "meanwhile" in said, status, again[0], kit.copy.run("kh-scan")[0]), (70, True, [6, 6], 0, 0)


def interrupted_between_programs(kit):
    """One program is built then and the other is not: neither counts as current, though a source is older than both."""
    kit.build()
    kit.copy.write(os.path.join("crates", "short", "src", "lib.rt"), "other")
    before = len(kit.told())
    started = kit.start(takes="1")
    wait_for(lambda: any(it[:2] in (("end", "kh_main"), ("end", "scan_main")) for it in kit.told()[before:]))
    started.send_signal(signal.SIGINT)
    started.communicate(timeout=PATIENCE)
    found = started.returncode, [kit.copy.run(it, "check")[0] for it in ("kh", "kh-scan")]
    return (*found, kit.build()[0], [kit.copy.run(it, "check")[0] for it in ("kh", "kh-scan")]), (70, [6, 6], 0, [0, 0])


def kept_work(kit):
    """With --keep each library is that of `rt lib`, also where the programs stand; and then nothing is left to do."""
    first, kept = kit.build(), kit.build("--keep")
    begun = len(kit.begun())
    again = kit.build("--keep")
    libraries = [os.path.isdir(os.path.join(kit.copy.folder, "crates", it, "out", "rlib")) for it in PROVED if it not in PROGRAMS]
    proved = kit.build()[0], [it.partition(":")[2][:7] for it in (first[1][-1], kept[1][-1])], len(kit.begun()) - begun
    return (first[0], kept[0], all(libraries), again[0], *proved), (0, 0, True, 0, 0, [" proved", " kept f"], 0)


def one_library_is_missing(kit):
    """A library that is built again has all above it built again, and nothing else."""
    kit.build()
    before = len(kit.begun())
    shutil.rmtree(os.path.join(kit.copy.folder, "crates", "long", "out", "statements"))
    for name, ending in itertools.product(PROGRAMS, ("", ".stamp")):
        os.remove(os.path.join(kit.copy.folder, "crates", name, "out", name + ending))
    return (kit.build()[0], sorted(kit.begun()[before:])), (0, sorted(["long", "top", *PROGRAMS]))


def one_program_is_missing(kit):
    """Where one program is not there, its crate alone is taken anew."""
    kit.build()
    found = []
    for name in PROGRAMS:
        before = len(kit.begun())
        for ending in ("", ".stamp"):
            os.remove(os.path.join(kit.copy.folder, "crates", name, "out", name + ending))
        found.append((kit.build()[0], kit.begun()[before:]))
    return found, [(0, [name]) for name in PROGRAMS]


def one_program_alone(kit):
    """With the name of a program that one is built, with what it stands on; the other then has what both stand on."""
    first, again = kit.build("kh-scan"), kit.build("kh-scan")
    begun = kit.begun()
    last, both = kit.build("kh"), kit.build()
    seen = sorted(begun), sorted(kit.begun()[len(begun) :]), first[1][-2].endswith("see ./kh-scan"), last[1][-2].endswith("see ./kh")
    first, again, last, both = [(status, lines[-1]) for status, lines in (first, again, last, both)]
    of_scan, of_kh, of_both = [
        (0, f"build: proved: {it} of these sources") for it in ("4 crates, kh-scan", "5 crates, kh", "7 crates, kh and kh-scan")
    ]
    wanted = sorted({"kh_types", *BELOW["scan_main"].split(), "scan_main"})
    return (first, again, last, both, *seen), (of_scan, of_scan, of_kh, of_both, wanted, sorted({*PROVED} - {*wanted}), True, True)


def another_word(kit):
    """A word that names no program is refused, and nothing is begun."""
    status, _ = kit.build("kh-page")
    return (status, kit.begun()), (2, [])


def without_scans(kit):
    """Where there is no crate of a second program the first alone is built."""
    shutil.rmtree(os.path.join(kit.copy.folder, "crates", "scan_main"))
    status, lines = kit.build()
    return (status, sorted(kit.begun()), lines[-2].endswith("see ./kh")), (0, sorted({*PROVED} - {"scan", "scan_main"}), True)


def the_file_of_times(kit):
    """It has what each step took, and what it had of the others."""
    kit.build("--times")
    rows = kit.times()
    measured = {name for name, _, megabytes in rows if 0 < int(megabytes) < 1000}
    return ([name for name, *_ in rows], measured, [*rows[-1]]), ([*SECONDS], {*PROVED}, ["laws", "900", "1000"])


def random_steps(chance):
    """Some steps, each on a few of those before it, the lowest first."""
    count, steps = chance.randrange(1, 30), []
    for at in range(count):
        below = frozenset(f"{it}" for it in range(at) if chance.random() < 2 / count)
        steps.append(lanes.Step(f"{at}", below, chance.uniform(1, 300), chance.uniform(1, 4)))
    return steps


def lanes_fault(steps, processors, memory):
    """What is wrong with the way in which the steps are run, if anything is."""
    run, now, ended = lanes.Lanes(steps, processors, memory), 0.0, set()
    foreseen, chain = run.last_end(0), lanes.chains(steps)
    while run.waiting or run.running:
        choice = run.choice(now)
        if choice:
            name, jobs = choice
            if chain[name] < max(chain[it] for it in run.ready() if run.most_jobs(it)) or not ended >= run.steps[name].below:
                return f"{name} is not the next"
            run.start(name, jobs, now)
            held = sum(run.steps[it].holds(jobs) for it, (jobs, _) in run.running.items())
            if run.idle() < 0 or (held > memory and len(run.running) > 1):
                return f"at {now} there run {run.running}"
            continue
        name = min(run.running, key=lambda it: run.running[it][1])
        now = run.running[name][1]
        run.end(name)
        ended.add(name)
    least = max(sum(it.seconds for it in steps) / processors, max(chain.values()) * min(lanes.PARTS.values()))
    if len(ended) < len(steps) or not least * 0.999 <= now <= foreseen * 1.1:
        return f"{len(ended)} of {len(steps)} ended in {now}, where {foreseen} was foreseen and {least} is the least"
    return None


def lanes_faults():
    chance = random.Random("lanes")
    for _ in range(40):
        steps, processors, memory = random_steps(chance), chance.choice((1, 2, 3, 4, 16)), chance.choice((0.5, 6, 20))
        fault = lanes_fault(steps, processors, memory)
        yield f"lanes: {len(steps)} steps, {processors} processors, {memory} of memory", fault


def kh_meanwhile(kit):
    """Until it is built the unproved answer comes, and it is said why."""
    before = kit.copy.start("kh", "homology").communicate(timeout=PATIENCE)[1]
    started = kit.start(takes="1000")
    wait_for(kit.told)
    meanwhile = kit.copy.start("kh", "homology")
    wrote, errors = meanwhile.communicate(timeout=PATIENCE)
    started.terminate()
    started.communicate(timeout=PATIENCE)
    said = "is at work" in before, "is at work" in errors
    return (meanwhile.returncode, wrote, *said), (6, "tried kh_main try --seconds 600 -- homology\n", False, True)


TRIED = (
    each_behind_those_below, the_longest_chain_first, a_crate_that_is_refused, the_rest_behind_a_refusal, interrupted, not_interrupted,
    two_at_once, nothing_to_do, of_what_has_changed, by_the_rules_of_a_verdict, changed_meanwhile, interrupted_between_programs, kept_work,
    one_library_is_missing, one_program_is_missing, one_program_alone,
    another_word, without_scans, the_file_of_times, kh_meanwhile,
)


def faults(new_copy):
    """The name of each case, and what is wrong with it, if anything is; given what makes a copy of the repository in a folder."""
    yield from lanes_faults()
    for case in TRIED:
        with written_folder() as folder:
            came, wanted = case(Kit(new_copy(folder)))
        yield f"./build, {case.__name__.replace('_', ' ')}", None if came == wanted else f"{came} and not {wanted}"
