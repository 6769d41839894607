"""A folder in which `kh-tabulate` is tried, with a list and two programs that take some hundredths of a second, write down each answer,
refuse some codes, and give no answer to others: that of scans, and that of cubes.

A run that is to be killed is held half-way, however fast the machine is: after so many calls the program waits, and a program that it has
begun, until the folder is gone.
"""
import json
import os
import signal
import sqlite3
import subprocess
import time

from shared.places import TOP, read_text, write_text
from shared.running import PATIENCE
from shared.waiting import is_living

TABULATE, ON_MANY = (os.path.join(TOP, "tabulate", name) for name in ("kh-tabulate", "on-many"))
SCAN = os.path.join(TOP, "tests", "shared", "pretended_scan.py")
COUNT = 24
GRACE = 30
HEAD = ["name", "code", "field", "status", "table_rows", "jones", "refusal", "seconds", "program"]
PROGRAM = """\
#!/bin/sh
[ "$1" = homology ] || { echo accepted; exit 0; }
echo "$3" >>"$TOLD"
read -r code
[ "$(wc -l <"$TOLD")" -le "${HELD:-1000000}" ] || {
    sh -c 'echo "$$" >>"$TOLD.held"; while [ -e "$TOLD" ]; do sleep 0.1; done'
    exit 70
}
sleep 0.05
case $code in
lost) exit 70 ;;
starved) exit 5 ;;
slow)
    sh -c 'echo "$$" >>"$TOLD.held"; while [ -e "$TOLD" ]; do sleep 0.1; done'
    exit 70
    ;;
bad) echo "refused text at 0"; exit 1 ;;
large) echo "limit generators 6630936 of 4194304"; exit 6 ;;
wide) echo "limit crossings 21 of 20"; exit 6 ;;
trefoil*)
    printf 'table 2\\nfield %s\\nj 1 i 0 dim 1\\nj 3 i 0 dim 1\\nj 5 i 2 dim 1\\n' "$3"
    [ "$3" != 2 ] || printf 'j 7 i 2 dim 1\\nj 7 i 3 dim 1\\n'
    printf 'j 9 i 3 dim 1\\njones 1*q^1 1*q^3 1*q^5 -1*q^9\\n'
    ;;
*) printf 'table 2\\nfield %s\\nj -1 i 0 dim 1\\nj 1 i 0 dim 1\\njones 1*q^-1 1*q^1\\n' "$3" ;;
esac
"""
def heeds_signals():
    """What is done in a new process, so that it heeds the signals that stop it also where this script was begun without."""
    for number in (signal.SIGINT, signal.SIGTERM):
        signal.signal(number, signal.SIG_DFL)


def lines_of(path):
    """The lines of a file, none where there is none."""
    if not os.path.exists(path):
        return []
    return read_text(path).splitlines()


def wanted():
    """The results of the list of a folder over two and three elements."""
    for field in (2, 3):
        for k in range(COUNT):
            yield f"link {k}", f"PD[Loop[{k}]]", field, 0, "-1 0 1; 1 0 1", "1*q^-1 1*q^1", "", "scan"
        yield "wrong", "bad", field, 1, "", "", "refused text at 0", "scan"
        yield "huge", "large", field, 0, "0 0 1", "1*q^0", "", "scan"


def wanted_of_cubes():
    """The same where `kh` is asked."""
    for *row, program in wanted():
        limit = 6, "", "", "limit generators 6630936 of 4194304"
        yield (*(row if row[0] != "huge" else (*row[:3], *limit)), "kh")


def kept_fault(folder):
    """What is wrong with what is kept: each code and field has one result, and the dimensions are those of the texts."""
    found, (kept, said) = folder.results(), folder.dimensions()
    if found != sorted(wanted_of_cubes() if "kh" in folder.asked else wanted()):
        return f"{len(found)} results: {found[:2]}"
    return None if kept == said else f"dimensions {kept[:100]} and not {said[:100]}"


def result_fault(folder):
    """What is wrong with the results, of which not all may be worked out twice."""
    again = folder.calls() - 2 * (COUNT + 2)
    if kept_fault(folder):
        return kept_fault(folder)
    return None if 0 <= again <= 2 * COUNT else f"{again} calls too many"


class Folder:
    """A folder with the program of cubes and a list."""

    def __init__(self, path):
        self.path, self.told, self.said = path, os.path.join(path, "told"), ""
        self.program = self.write("kh", PROGRAM, 0o755)
        # (what says which program is asked)
        self.asked = ()
        self.write("list", "# a list\n" + "".join(f"link {k}\tPD[Loop[{k}]]\n" for k in range(COUNT)) + "wrong\tbad\nhuge\tlarge\n")

    def at(self, name):
        return os.path.join(self.path, name)

    def write(self, name, text, mode=None):
        """A file with this text, and its path."""
        write_text(self.at(name), text, mode)
        return self.at(name)

    def remove(self, name):
        """Removes a file, where it is there."""
        if os.path.exists(self.at(name)):
            os.remove(self.at(name))

    def start(self, *words, held=None, **more):
        """Begins these words, whose program is held after so many answers in all."""
        settings = {"TOLD": self.told, "SCAN": SCAN, "KH": self.program, "FIELDS": "2,3", **({"HELD": str(held)} if held else {})}
        settings = {**os.environ, **settings, **more}
        pipe = subprocess.PIPE
        return subprocess.Popen(
            words, env=settings, stdin=pipe, stdout=pipe, stderr=pipe, start_new_session=True, text=True, preexec_fn=heeds_signals
        )

    def tabulated(self, *words):
        return (TABULATE, "--scan", SCAN, "--kh", self.program, *self.asked, "--fields", "2,3", *words)

    def run(self, *words, **more):
        """The same of words of `kh-tabulate`."""
        return self.ended(*self.tabulated(*words), **more)

    def ended(self, *words, given=None, **more):
        """The status of what these words start, what was written and what was said."""
        started = self.start(*words, **more)
        wrote, errors = started.communicate(given, timeout=PATIENCE)
        return started.returncode, wrote, errors

    def stop(self, number, *words, is_alone=False):
        """Begins what these words start, and sends it, or it and its group, a signal once a program more says that it is held, and
        something more is kept; how it ended."""
        held, kept = len(self.held()), self.kept()
        started, begun = self.start(*self.tabulated(*words), held=self.calls() + COUNT // 2), time.monotonic()
        while (len(self.held()) <= held or self.kept() <= kept) and started.poll() is None and time.monotonic() - begun < PATIENCE:
            time.sleep(0.05)
        if started.poll() is None:
            (os.kill if is_alone else os.killpg)(started.pid, number)
        _, self.said = started.communicate(timeout=PATIENCE)
        return started.returncode

    def living(self):
        """How many of the programs that were held still run, once those that are being ended have had time to."""
        numbers, begun = self.held(), time.monotonic()
        while any(map(is_living, numbers)) and time.monotonic() - begun < GRACE:
            time.sleep(0.05)
        return sum(map(is_living, numbers))

    def held(self):
        """The numbers of the programs that have said that they are held."""
        return lines_of(self.told + ".held")

    def calls(self):
        """How many answers the programs have begun, but for their tries."""
        return len(lines_of(self.told))

    def kept(self):
        """How many results are kept so far, in the database and in lines."""
        count = len(lines_of(self.at("out")))
        try:
            database = sqlite3.connect(f"file:{self.at('results.db')}?mode=ro", uri=True)
            count += database.execute("select count(*) from answers").fetchone()[0]
            database.close()
        except sqlite3.OperationalError:
            pass
        return count

    def select(self, question):
        """The rows that answer a question to the database, which may change it."""
        database = sqlite3.connect(self.at("results.db"))
        with database:
            rows = database.execute(question).fetchall()
        database.close()
        return rows

    def dimensions(self):
        """The rows of dimensions, and those that the texts say, both in order."""
        texts = self.select("select link, name, field, table_rows from results where status = 0")
        said = [(link, name, field, *map(int, row.split())) for link, name, field, text in texts for row in text.split(";")]
        return sorted(self.select("select * from dimensions")), sorted(said)

    def results(self):
        """What is kept, without seconds, in order."""
        lines = self.run("--json", "write", self.at("results.db"))[1].splitlines()
        return sorted(tuple(it for name, it in json.loads(line).items() if name != "seconds") for line in lines)
