"""Stands in for the module that `rt` is made of, where `companions.building` tries `./build`: each step says when it begins and ends.

It gives two processors, where the machine has two, and 8 GB of memory. The crate that the environment names under REFUSED is refused, and
so is one that has the word FALSE in its specs/, or whose folder proofs/ is gone; by the rules of a verdict also one whose sources have HIDES
or TACTIC.
"""
import hashlib
import os
import subprocess
import sys

PARTS = ("src", "specs", "proofs")
RATTLE = os.path.join(os.path.dirname(os.path.abspath(__file__)), "rattle")
GROUPS, QUOTAS, LIMIT, KEPT = [], [("quota", ("period", ""))], 60, ["--incremental", "kept"]
NUMBERS = {"quota": 2, "period": 1, "/proc/meminfo": 8_000_000}
# What stands in for `rattle build CRATE JOBS .. -o LIBRARY`.
COMPILER = """\
#!/bin/sh
echo "begin $2 $3 $$" >>"$TOLD"
[ "$2" != "$REFUSED" ] || { seq 100; exit 1; }
[ -d proofs ] && ! grep -rqs FALSE specs || exit 1
sleep "$TAKES"
for made; do :; done
mkdir -p "$made"
echo "end $2 $3 $$" >>"$TOLD"
"""


def number_in(file, pattern):
    return NUMBERS[file]


def text_of(file):
    if not os.path.exists(file):
        return None
    with open(file, encoding="utf-8") as opened:
        return opened.read()


def sum_of(file):
    if not os.path.isfile(file):
        return "none"
    with open(file, "rb") as opened:
        return hashlib.sha256(opened.read()).hexdigest()


def stop(why):
    print(f"rt: {why}", file=sys.stderr)
    sys.exit(2)


def files_of(folder, parts):
    walked = (it for part in parts for it in os.walk(os.path.join(folder, part)))
    return sorted(os.path.join(at, name) for at, _, names in walked for name in names)


def stop_on_links(folder):
    for it in filter(os.path.islink, files_of(folder, PARTS)):
        stop(f"{it} is a link")


def stop_on_unread(folder, crates):
    for it in files_of(folder, ("",)):
        if it.endswith(".antt") and not it.startswith(tuple(f"{crates[0].folder}/{part}/" for part in ("specs", "proofs"))):
            stop(f"no check reads {it}")


def stop_on_text(crate, verb):
    """Stops at a word that a verdict does not pass."""
    if verb == "verdict" and "TACTIC" in "".join(map(text_of, files_of(crate.folder, ("src",)))):
        stop(f"{crate.name}: a tactic")


def lock(crates):
    pass


def guarded():
    """The words before a command that ends, with all that it starts, when this process ends."""
    ends, guarded.held = os.pipe()
    guard = subprocess.Popen(["sh", "-c", "read _; kill -9 0"], stdin=ends, preexec_fn=os.setpgrp)
    return ["python3", "-c", f"import os, sys; os.setpgid(0, {guard.pid}); os.execvp(sys.argv[1], sys.argv[1:])"]


def crates_below(folder):
    top = os.path.dirname(os.path.dirname(folder))
    with open(os.path.join(top, "crates.txt"), encoding="utf-8") as file:
        below = dict(line.rstrip().split(":") for line in file)
    found = {}

    def add(name):
        if name not in found:
            deps = [add(it) for it in below[name].split()]
            found[name] = Crate(os.path.join(top, "crates", name), deps)
        return found[name]

    add(os.path.basename(folder))
    return [*found.values()]


class Crate:
    def __init__(self, folder, deps):
        self.folder, self.name, self.deps, self.said = folder, os.path.basename(folder), deps, {}
        self.rlib = f"{folder}/out/rlib/{self.name}.rlib"
        self.is_program = self.name in ("kh_main", "scan_main")

    def stream(self, name):
        return None

    def below(self):
        return [*{jt.name: jt for it in self.deps for jt in [it, *it.below()]}.values()]

    def stamp(self):
        files = [(os.path.relpath(it, self.folder), sum_of(it)) for it in files_of(self.folder, PARTS)]
        return hashlib.sha256(repr((files, [it.stamp() for it in self.deps])).encode()).hexdigest()

    def words(self, flags, keeps=True):
        return [self.name, flags[1]]

    def is_built(self):
        return os.path.exists(self.rlib)

    def has_kept(self):
        return self.is_built()

    def call(self, *words):
        how = {"cwd": self.folder, "stdin": subprocess.DEVNULL, "stdout": self.out, "stderr": subprocess.STDOUT}
        return subprocess.run([*guarded(), *words], **how).returncode

    def prove(self, words):
        """Runs a command, and refuses what a verdict does not pass."""
        how = {"cwd": self.folder, "stdout": subprocess.PIPE, "stderr": subprocess.STDOUT, "errors": "replace"}
        ran = subprocess.run([*guarded(), RATTLE, *words], **how)
        print(ran.stdout, end="", file=self.out, flush=True)
        return ran.returncode or "HIDES" in "".join(map(text_of, files_of(self.folder, ("src",))))

    def build_rlib(self, flags, anew):
        return self.call(RATTLE, "build", *self.words(flags), "-o", self.rlib)

    def run(self, flags, words, **how):
        program, stamp = f"{self.folder}/out/{self.name}", self.stamp()
        status = self.call(RATTLE, "build", *self.words(flags), *KEPT, "-o", f"{program}.o")
        if not status:
            with open(program, "w", encoding="utf-8") as made:
                made.write(f"#!/bin/sh\necho built {self.name} of {stamp[:8]}\n")
            os.chmod(program, 0o755)
            if stamp == self.stamp():
                with open(f"{program}.stamp", "w", encoding="utf-8") as made:
                    made.write(stamp + sum_of(program))
        return status
