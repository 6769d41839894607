"""Tries `./kh`, `./kh-scan` and `./build` in a small copy of the repository, with a toolchain of its own that proves nothing and takes no
time.

On the path are that toolchain and the commands that both call, and no others, so that no `rt` of this machine is found. Behind these cases
each script that is run by hand is begun with --help, and two benchmarks are run on next to nothing. `tests/program` runs these behind its
rows.
"""
import os
import re
import shutil
import subprocess
import sys

from companions import building
from shared.named_scripts import BY_HAND
from shared.places import TOP, write_text
from shared.running import PATIENCE, ended, help_fault
from shared.waiting import wait_for, written_folder

CANNOT_RUN = 70
COMMANDS = """awk cat chmod cmp cp cut dirname env find flock grep mkdir mktemp mv readlink rm seq sh sha256sum sleep sort tail tr
xargs""".split()
TOOLS = ("built", "kit.py", "lanes.py", "proving.py", "program.sh", "build-times.txt")
CRATES = {"kh_types": "", "kh_main": "kh_types", "scan_main": "kh_types"}
PARTS = (("src", "lib.rt"), ("specs", "Lib.antt"), ("proofs", "Answers.antt"))
PROVED = r"build: proved: (\w{8}(?: with changes)?, )?\d+ crates, (?:kh|kh-scan|kh and kh-scan) of these sources"

# What stands in for `rt`: it writes its words down, "proves" two crates, "builds" a program that says its name and words, and "tries" one.
TOOLCHAIN = """\
#!/bin/sh
echo "$*" >>"$TOLD"
case $1 in
ci) sleep 0.2; echo "== kh_types"; [ -z "$REFUSED" ] ;;
run) name=${PWD##*/}; mkdir -p out && printf '#!/bin/sh\\necho built "${0##*/}" "$@"\\n' >"out/$name" && chmod +x "out/$name" ;;
try) echo "tried ${PWD##*/} $*"; echo "run=${REFUSED:-ended status=6} runners=1" >&2; exit 6 ;;
esac
"""


class Copy:
    """A folder with the scripts, three crates, and the toolchain above on the path, or none."""

    def __init__(self, folder):
        self.folder, self.told = folder, os.path.join(folder, "told")
        os.mkdir(os.path.join(folder, "tools"))
        for path in ("kh", "kh-scan", "build", *(os.path.join("tools", name) for name in TOOLS)):
            shutil.copy(os.path.join(TOP, path), os.path.join(folder, path))
        for name in CRATES:
            for part, file in PARTS:
                self.write(os.path.join("crates", name, part, file), "")
            self.write(os.path.join("crates", name, "stdin"), "")
        self.write("crates.txt", "".join(f"{name}: {below}\n" for name, below in CRATES.items()))
        self.write(os.path.join("bin", "rt"), TOOLCHAIN, 0o755)
        os.mkdir(os.path.join(folder, "commands"))
        for name, path in [("python3", sys.executable), *((name, shutil.which(name)) for name in COMMANDS)]:
            if path:
                os.symlink(path, os.path.join(folder, "commands", name))

    def write(self, path, text, mode=None):
        path = os.path.join(self.folder, path)
        os.makedirs(os.path.dirname(path), exist_ok=True)
        write_text(path, text, mode)

    def note(self, *crates):
        """Has the programs of these crates count as those of the sources."""
        for crate in crates:
            words = [os.path.join(self.folder, "tools", "built"), crate]
            found = subprocess.run([*words, "sum"], capture_output=True, text=True, check=True).stdout.strip()
            subprocess.run([*words, "note", found], check=True)

    def start(self, name, *words, toolchain=True, refused="", more={}):
        path, pipe = os.path.join(self.folder, "commands"), subprocess.PIPE
        path = f"{self.folder}/bin:{path}" if toolchain else path
        settings = {"PATH": path, "TMPDIR": self.folder, "TOLD": self.told, "REFUSED": refused, **more}
        command = [os.path.join(self.folder, name), *words]
        return subprocess.Popen(command, env=settings, stdin=subprocess.DEVNULL, stdout=pipe, stderr=pipe, text=True)

    def run(self, name, *words, **settings):
        """The status, what was written, and whether standard error said anything."""
        started = self.start(name, *words, **settings)
        wrote, errors = started.communicate(timeout=PATIENCE)
        return started.returncode, wrote, errors != ""

    def calls(self):
        """The first words of the toolchain's calls so far."""
        if not os.path.exists(self.told):
            return []
        with open(self.told, encoding="utf-8") as file:
            return [line.split()[0] for line in file]


def of_both(copy, *words, **settings):
    """What comes of both scripts with words: of `./kh` behind a command."""
    return [copy.run("kh", "homology", *words, **settings), copy.run("kh-scan", *words, **settings)]


def without_a_toolchain(copy):
    return of_both(copy, toolchain=False), [(CANNOT_RUN, "", True)] * 2


def before_it_is_built(copy):
    tried = ["kh_main try --seconds 600 -- homology --field 3", "scan_main try --seconds 600 -- --field 3"]
    return of_both(copy, "--field", "3"), [(6, f"tried {it}\n", True) for it in tried]


def where_the_interpreter_has_no_answer(copy):
    return of_both(copy, refused="none"), [(CANNOT_RUN, "", True)] * 2


def without_the_steps(copy):
    """Where the file with the steps of both is not there nothing is run."""
    os.remove(os.path.join(copy.folder, "tools", "program.sh"))
    return of_both(copy), [(CANNOT_RUN, "", True)] * 2


def by_links(copy):
    """A link from elsewhere leads to the repository, whatever its name is."""
    copy.run("build")
    came = []
    for name in ("kh", "kh-scan"):
        link = os.path.join(copy.folder, "commands", f"my {name}")
        os.symlink(os.path.join(copy.folder, name), link)
        came.append(copy.run(link, "a b", "c"))
    return came, [(0, f"built {it} a b c\n", False) for it in ("kh_main", "scan_main")]


def where_a_crate_is_refused(copy):
    return (copy.run("build", refused="none"), copy.calls()), ((CANNOT_RUN, "", True), ["ci"])


def two_builds_at_once(copy):
    both = [copy.start("build"), copy.start("build")]
    ended = [it.wait(PATIENCE) for it in both]
    for it in both:
        it.communicate()
    return (ended, copy.calls()), ([0, 0], ["ci", "run", "run"])


def once_it_is_built(copy):
    copy.run("build")
    began = len(copy.calls())
    again = copy.start("build").communicate(timeout=PATIENCE)[1]
    is_said = re.fullmatch(PROVED + "\n", again) is not None
    came = copy.run("kh", "check", "a b"), copy.run("kh-scan", "a b"), len(copy.calls()) - began, is_said
    return came, ((0, "built kh_main check a b\n", False), (0, "built scan_main a b\n", False), 0, True)


def where_one_is_asked_for(copy):
    """The other is not built."""
    status = copy.run("build", "kh-scan")[0]
    calls = copy.calls()
    return (status, calls, copy.run("kh-scan", "a b"), copy.run("kh", "check")[0]), (0, ["ci", "run"], (0, "built scan_main a b\n", False), 6)


def said(copy, name):
    """What a script says on standard error."""
    return copy.start(name, "check").communicate(timeout=PATIENCE)[1]


def changed_and_older(copy, path, text):
    """Changes a file, which is then as old as before, as `cp -p` or `tar` leave it."""
    path = os.path.join(copy.folder, path)
    before = os.stat(path)
    write_text(path, text)
    os.utime(path, ns=(before.st_atime_ns, before.st_mtime_ns))


def of_sources(copy):
    """Whether both scripts run what is built and say nothing; and else whether they say why."""
    for name, crate in (("kh", "kh_main"), ("kh-scan", "scan_main")):
        status, wrote, told = *copy.run(name, "check")[:2], said(copy, name)
        if (status, wrote, told) == (0, f"built {crate} check\n", ""):
            yield "built"
        else:
            yield "said" if wrote.startswith("tried ") and f"out/{crate} is not of these sources" in told else f"{status}, {wrote}, {told}"


def kept_seen(copy):
    """Has the scripts keep by what they know the files, which they do once these have been at rest."""
    seen = [os.path.join(copy.folder, "crates", it, "out", f"{it}.seen") for it in ("kh_main", "scan_main")]
    return wait_for(lambda: [*of_sources(copy)] and all(map(os.path.exists, seen)))


def where_a_source_is_other(copy):
    """However old it is and however long; and where there is one more, or one less, or one is a link. As it was it is known again."""
    copy.run("build")
    source, found = os.path.join("crates", "kh_types", "src", "lib.rt"), []
    path = os.path.join(copy.folder, source)
    is_kept = kept_seen(copy)

    def see():
        found.extend(of_sources(copy))

    see()
    changed_and_older(copy, source, "//")
    see()
    os.remove(path)
    see()
    os.symlink(os.path.join(copy.folder, "crates.txt"), path)
    see()
    os.remove(path)
    copy.write(source, "")
    see()
    copy.write(source + "~", "")
    see()
    os.remove(path + "~")
    changed_and_older(copy, os.path.join("crates", "kh_types", "specs", "Lib.antt"), " ")
    see()
    return (is_kept, found), (True, [it for it in ("built", *["said"] * 3, "built", *["said"] * 2) for _ in range(2)])


def where_a_program_is_other(copy):
    """One that is cut, or another one, is not run, and is built anew."""
    copy.run("build")
    found = [kept_seen(copy)]
    program = os.path.join(copy.folder, "crates", "kh_main", "out", "kh_main")
    for text in ("#!/bin/sh\necho wrong", ""):
        changed_and_older(copy, program, text)
        found += [[*of_sources(copy)], copy.run("build", "kh")[0], [*of_sources(copy)]]
    return found, [True, *[["said", "built"], 0, ["built", "built"]] * 2]


def in_another_place(copy):
    """A copy of all is known by what its files hold, and so is the first where its files have two names."""
    copy.run("build")
    found = [kept_seen(copy), [*of_sources(copy)]]
    for words in (["cp", "-r"], ["cp", "-al"]):
        there = os.path.join(copy.folder, words[1])
        os.mkdir(there)
        for name in ("kh", "kh-scan", "build", "tools", "crates", "crates.txt"):
            subprocess.run([*words, os.path.join(copy.folder, name), there], check=True)
        script = os.path.join(there, "kh-scan")
        found += [copy.run(script, "a"), copy.run("kh", "a")]
        os.remove(os.path.join(there, "crates", "kh_types", "specs", "Lib.antt"))
        found.append(copy.run(script, "a")[0])
    runs = [(0, "built scan_main a\n", False), (0, "built kh_main a\n", False), 6]
    return found, [True, ["built", "built"], *runs * 2]


def where_cd_looks_elsewhere(copy):
    """A variable of the shell's leads the scripts nowhere else."""
    copy.run("build")
    os.makedirs(os.path.join(copy.folder, "else", os.path.basename(copy.folder)))
    elsewhere = {"CDPATH": f"{copy.folder}/else:{os.path.dirname(copy.folder)}"}
    words = [f"{os.path.basename(copy.folder)}/kh", "a"]
    settings = {"PATH": os.path.join(copy.folder, "commands"), **elsewhere}
    came = subprocess.run(words, cwd=os.path.dirname(copy.folder), env=settings, stdin=subprocess.DEVNULL, capture_output=True, text=True)
    return (came.returncode, came.stdout, came.stderr), (0, "built kh_main a\n", "")


def without_anything(copy):
    """That there is no toolchain is said before, and in the place of, what it would do."""
    told = copy.start("kh", "check", toolchain=False).communicate(timeout=PATIENCE)[1]
    return ("is not built, and there is no rt" in told, "minute" in told, len(told.splitlines())), (True, False, 1)


def by_the_commit(copy):
    """Where git knows the tree, the commit is told, and whether what counts differs from it."""
    if not shutil.which("git"):
        return None, None
    os.symlink(shutil.which("git"), os.path.join(copy.folder, "commands", "git"))
    copy.write(".gitignore", "out/\n")
    for words in (["init", "-q"], ["add", "crates", "crates.txt"], ["-c", "user.name=a", "-c", "user.email=a", "commit", "-q", "-m", "a"]):
        subprocess.run(["git", "-C", copy.folder, *words], check=True)
    told = []
    for path in (None, "README.md", os.path.join("crates", "kh_types", "proofs", "More.antt")):
        if path:
            copy.write(path, "a")
        told.append(copy.start("build").communicate(timeout=PATIENCE)[1].splitlines()[-1])
    return [(re.fullmatch(PROVED, it) or [it, "?"])[1][8:] for it in told], [", ", ", ", " with changes, "]


TRIED = (
    without_a_toolchain, before_it_is_built, where_the_interpreter_has_no_answer, without_the_steps, by_links, where_a_crate_is_refused,
    two_builds_at_once, once_it_is_built, where_one_is_asked_for, where_a_source_is_other, where_a_program_is_other, in_another_place,
    where_cd_looks_elsewhere, without_anything, by_the_commit,
)


# Benchmarks that need no other program: words, and what they write.
MEASURES = (
    ("bench/fitting.py", ["1"], "crossings: fitting\n(1[3-9]|20): [0-5] of 5\n(.*\n)*"),
    (
        "bench/each.py",
        ["2", "--crossings", "6", "--jobs", "2", "--scan", os.path.join(TOP, "tests", "shared", "pretended_scan.py")],
        "2 codes of 6 crossings over four fields; 2 processes of kh-tabulate\n(.*\n)*"
        "each: [0-9.]+ times the computing one by one; other answers: 0\n"
        "kh-tabulate: [0-9.]+ times each, [0-9.]+ by the wall; wanted at most 2\n.*\n",
    ),
)


def measure_faults():
    """What is wrong with benchmarks that are run on next to nothing."""
    for path, words, pattern in MEASURES:
        status, wrote, errors = ended([os.path.join(TOP, path), *words])
        fault = None if status == 0 and re.fullmatch(pattern, wrote) else f"status {status}: {wrote}{errors}"
        yield f"{path} {words[0]}", fault


def faults():
    """The name of each case, and what is wrong with it, if anything is."""
    for case in TRIED:
        with written_folder() as folder:
            came, wanted = case(Copy(folder))
        yield f"./kh, ./kh-scan and ./build {case.__name__.replace('_', ' ')}", None if came == wanted else f"{came} and not {wanted}"
    yield from building.faults(Copy)
    # (those that are run by hand only say what they do)
    for path in BY_HAND:
        yield f"{path} --help", help_fault(path)
    yield from measure_faults()
