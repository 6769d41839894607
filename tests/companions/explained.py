"""Tries what `./kh` and `./kh-scan` say of refusals and limits, around the program: rows with carets, codes of other programs, inputs that
are drawn at random; and where less is known, from a pipe or without Python. `companions/spoken.py` runs these.
"""
import os
import random
import re
import shutil
import subprocess
import tempfile
from unittest import mock

import drawn.inputs
import plain.answers
import plain.codes
from companions import scripts
from kh.codes import explain, pointing, refusals
from plain.codes import LIMIT, REFUSED
from rows import said
from rows.texts import CHECK, HOMOLOGY, JONES, TREFOIL, curls
from shared.places import TOP, read_text
from shared import running

FILE, COLUMNS = "code", 100
DRAWN = 300
REDUCED = ["reduced", "--mark", "1"]
WRONG, WRONG_LINE = b"PD[X[1,1,2,2]!]", "refused text at 13\n"
WRONG_SAID = "kh: no code has the sign !\n  PD[X[1,1,2,2]!]\n               ^\n"
SCAN = "kh: ./kh-scan writes the same table without this limit:\n  ./kh-scan --field=3 < code\n"
SCAN_OF_A_PIPE = "kh: ./kh-scan < FILE writes the table without this limit, and has the --field of homology\n"
SCAN_FOR_OTHERS = "kh: the table, without this limit, is written by ./kh-scan, which reads a code\n"
# What stands in for the program of scans: it answers as `kh homology` does.
STAND_IN = '#!/bin/sh\nexec "${0%/*}/../../kh_main/out/kh_main" homology "$@"\n'
MOVES = 'kh: docs/FORMATS.md, "Answers", lists when a move can not be made, and "Scripts" what each move does\n'
PAGE = re.compile(r'((?:docs|examples)/[\w-]+\.md)(?:, "([^"]+)")?')
AT_A_CROSSING = re.compile(r"(?:under pass|over pass|two-arc component|arc range) at crossing (\d+)(?: slot (\d))?")


def furnished(folder, program):
    """A copy of the repository in a folder, with the tools, the program, and what stands in for that of scans."""
    copy = scripts.Copy(folder)
    tools, ignored = os.path.join(folder, "tools"), shutil.ignore_patterns("__pycache__")
    shutil.copytree(os.path.join(TOP, "tools"), tools, ignore=ignored, dirs_exist_ok=True)
    for name in ("reference", "python"):
        os.symlink(os.path.join(TOP, name), os.path.join(folder, name))
    os.makedirs(os.path.join(folder, "crates", "kh_main", "out"))
    os.symlink(os.path.abspath(program), os.path.join(folder, "crates", "kh_main", "out", "kh_main"))
    copy.write(os.path.join("crates", "scan_main", "out", "scan_main"), STAND_IN, 0o755)
    copy.note("kh_main", "scan_main")
    return copy


def run(copy, words, given, name=FILE, start=0, columns=COLUMNS, **settings):
    """The status of a script, `./kh` where no other is named, on a file with these bytes, from a place on, what it wrote and said."""
    with open(os.path.join(os.fsencode(copy.folder), os.fsencode(name)), "wb+") as file:
        file.write(given)
        file.flush()
        os.lseek(file.fileno(), start, os.SEEK_SET)
        return ended(copy, words, stdin=file, columns=columns, **settings)


def ended(copy, words, columns=COLUMNS, path=None, script="./kh", **streams):
    settings = dict(os.environ, COLUMNS=str(columns), PATH=path or os.environ.get("PATH", os.defpath))
    streams = {"stdout": subprocess.PIPE, "stderr": subprocess.PIPE, **streams}
    came = subprocess.run([script, *words], cwd=copy.folder, env=settings, timeout=running.PATIENCE, **streams)
    return came.returncode, came.stdout.decode(), (came.stderr or b"").decode()


def unmarked(marked):
    return marked.replace("«", "").replace("»", "").encode(errors="surrogateescape")


def pointed_line(line):
    """A line with marks, as it is shown, and the carets below it."""
    shown, below, caret = "", "", " "
    for character in line:
        if character in "«»":
            below += "^" if (character, caret) == ("»", "^") else ""
            caret = "^" if character == "«" else " "
            continue
        shown += character if " " <= character <= "~" else " " if character in "\t\r" else "?"
        below, caret = below + caret, "~" if caret == "^" else caret
    return shown.rstrip(), (below + "^" * (caret == "^")).rstrip()


def carets(marked, command):
    """The lines that show the marks of an input, of the part of it that is refused."""
    first, _, rest = marked.partition(";") if command in explain.BEHIND else (marked, "", "")
    part = first if "«" in first else rest
    several = "\n" in part.translate(str.maketrans("", "", "«»")).strip(" \t\r\n")
    for number, line in enumerate(part.split("\n"), 1):
        if "«" in line:
            label = "  " + (f"line {number}: " if several else "")
            shown, below = pointed_line(line)
            yield (label + shown).rstrip()
            yield " " * len(label) + below


def plain_fault(told):
    """What no text may have that is said, if it does: lines that are long, or bytes that a terminal obeys."""
    long = [line for line in told.splitlines() if len(line) > COLUMNS or not pointing.is_plain(line)]
    return f"{long[0]!r} is no plain line" if long else None if told.startswith("kh: ") and told.endswith("\n") else f"{told!r} is no text"


def row_fault(copy, words, marked, line, texts):
    wanted = LIMIT if line.split("\n")[-1].startswith("limit") else REFUSED
    status, wrote, told = run(copy, words, unmarked(marked))
    if (status, wrote) != (wanted, line + "\n"):
        return f"status {status} and {wrote!r}, and not {line!r}"
    shown = "".join(f"{it}\n" for it in carets(marked, words[0]))
    found = re.findall(r"^.*\n *\^.*\n", told, re.M)
    if "".join(found) != shown:
        return f"{''.join(found)} is shown, and not\n{shown}\nin\n{told}"
    lines, joined = told.splitlines(), " ".join(told.split())
    for text in [texts] if isinstance(texts, str) else texts:
        if f"  {text[1:]}" not in lines if text.startswith("$") else text not in joined:
            return f"{text!r} is not in\n{told}"
    return plain_fault(told)


def wrote_in(copy, line):
    """What a line for a shell writes in a folder."""
    return running.ended(["sh", "-c", line], cwd=copy.folder)[1]


def foreign_faults(copy):
    """A line that reads a code is offered for these forms, and works; for what `kh-codes` does not read its own words are offered."""
    words, line = ["check", "--field=3"], "tools/kh-codes code | ./kh check --field=3"
    for text in said.FOREIGN:
        told = run(copy, words, text.encode())[2]
        right = f"kh: tools/kh-codes reads it:\n  {line}\n" in told and wrote_in(copy, line).startswith("accepted ")
        yield f"what is offered for {text!r}", plain_fault(told) if right else told
    for text in said.NOT_READ:
        told = run(copy, words, text.encode())[2]
        right = told.endswith("kh: tools/kh-codes does not read it either, and says why:\n  tools/kh-codes code\n")
        yield f"what is offered for {text!r}", plain_fault(told) if right else told


def name_faults(copy):
    """The line that is offered has the file's name and the words as a shell reads them."""
    words = ["--", "homology"]
    for name, shown in (
        ("a knot's code", "'a knot'\"'\"'s code'"), ("$(exit)", "'$(exit)'"), ("a\nb", "FILE"), ("\x1b[31m", "FILE"), ("\u00e4", "FILE"),
    ):
        told = run(copy, words, b"3_1", name)[2]
        line = f"tools/kh-codes {shown} | ./kh -- homology"
        fault = None if f"  {line}\n" in told else told
        if not fault and shown != "FILE" and not wrote_in(copy, line).startswith("table 2\n"):
            fault = f"no table comes of {line}"
        yield f"a file with the name {name!r}", fault


def window_faults(copy):
    """Long lines are cut around the place, to the columns that there are."""
    for count, place in ((30, 15), (200, 0), (200, 100), (200, 199)):
        items = ["1,"] * count
        items[place:place] = ["«!»"]
        marked = "PD[" + "".join(items) + "]"
        line, below = pointed_line(marked)
        for columns in (1, 60, 1_000):
            told = run(copy, CHECK, unmarked(marked), columns=columns)[2]
            room = min(max(columns, 40), 100)
            (shown, carets_shown), *others = re.findall(r"^  (.*)\n  ( *\^)$", told, re.M)
            at = carets_shown.index("^")
            part = shown.removeprefix("...").removesuffix("...")
            right = shown[at] == "!" and part in line and not others and len(shown) + 2 <= room
            right = right and (len(shown) + 2 == room or line == shown and below == carets_shown)
            yield f"a place in {len(line)} bytes at {columns} columns", None if right else told


def scan_faults(copy):
    """The scan is named where it stands beside `./kh` and can be run, and only where the limit is one that it has not."""
    path = os.path.join(copy.folder, "kh-scan")
    large, wide = curls(9).encode(), curls(21).encode()
    for mode in (0o755, 0o644, None):
        os.chmod(path, mode) if mode else os.remove(path)
        wanted = [mode == 0o755] * 3 + [False] * 4
        came = [SCAN in run(copy, ["--workers", "2", "homology", "--field=3"], large)[2]]
        came.append(SCAN_OF_A_PIPE in ended(copy, HOMOLOGY, input=large)[2])
        came.append(SCAN_FOR_OTHERS in run(copy, ["certify"], large)[2])
        came += ["kh-scan" in run(copy, HOMOLOGY, wide)[2], "kh-scan" in ended(copy, JONES, input=wide)[2]]
        came += ["kh-scan" in run(copy, REDUCED, large)[2], "kh-scan" in ended(copy, REDUCED, input=large)[2]]
        yield f"./kh-scan with the mode {mode}", None if came == wanted else f"{came} and not {wanted}"
    shutil.copy(os.path.join(TOP, "kh-scan"), path)


def faults_of_scan(copy):
    """What `./kh-scan` says is what `./kh homology` says, but for what is typed next."""
    for name, words, given in (
        ("a place", [], WRONG), ("an arc", ["--field", "3"], b"PD[X[1,1,2,3]]"), ("crossings", ["--field=7"], curls(21).encode()),
        ("loops", [], b"PD[Loop[1]" + b",Loop[1]" * 8 + b"]"), ("bytes", [], b" " * 65_537), ("a log", [], said.LOG),
    ):
        whole, came = run(copy, ["homology", *words], given), run(copy, words, given, script="./kh-scan")
        yield f"what ./kh-scan says of {name}", plain_fault(came[2]) if came == whole and came[0] else f"{came} and not {whole}"
    told = run(copy, ["--field=3"], said.FOREIGN[0].encode(), script="./kh-scan")[2]
    line = "tools/kh-codes code | ./kh-scan --field=3"
    right = f"kh: tools/kh-codes reads it:\n  {line}\n" in told and wrote_in(copy, line).startswith("table 2\nfield 3\n")
    yield "what ./kh-scan offers for another form", plain_fault(told) if right else told
    told = run(copy, ["--field=3"], b"a: PD[Loop[1]]\nb: PD[Loop[1]]", script="./kh-scan")[2]
    many = "kh: tools/kh-codes reads 2 codes in it, and kh-scan takes many by its command each:\n"
    right = f"{many}  tools/kh-codes code | ./kh-scan each --field=3\n" in told
    yield "what ./kh-scan offers for two codes", plain_fault(told) if right else told
    came = ended(copy, [], input=b"braid: 1", script="./kh-scan")
    yield "what ./kh-scan says of a pipe", None if "tools/kh-codes FILE | ./kh-scan\n" in came[2] and came[0] == REFUSED else str(came)


def claim_faults(copy):
    """Commands have the limit on generators, or have it not, as is said."""
    large = curls(20)
    log = f"log 1\n{large}\nfield 2\n"
    inputs = {"edit": f"{large};r1 drop 1", "union": f"{large};PD[]", "schedule": f"{large};look 1 1", "verify": log}
    words = {"reduced": ["reduced", "--mark", "1"]}
    for command in said.HAVE_IT + said.HAVE_IT_NOT:
        status = run(copy, words.get(command, [command]), inputs.get(command, large).encode())[0]
        yield f"{command} of many generators", None if status == (LIMIT if command in said.HAVE_IT else 0) else f"status {status}"


def without_python(copy):
    """A folder with the commands of the copy but Python."""
    folder = os.path.join(copy.folder, "commands-alone")
    if not os.path.isdir(folder):
        os.mkdir(folder)
        for name in set(os.listdir(os.path.join(copy.folder, "commands"))) - {"python3"}:
            os.symlink(os.readlink(os.path.join(copy.folder, "commands", name)), os.path.join(folder, name))
    return folder


def general_faults(copy):
    """Where the line can not be known something is said that holds for all lines of the status."""
    answer = "{} and {}".format(", ".join(said.HAVE_IT_NOT[:-1]), said.HAVE_IT_NOT[-1])
    for name, words, given, status, text in (
        ("a code", CHECK, WRONG, REFUSED, 'docs/FORMATS.md, "What is accepted", says what the line means'),
        ("a braid word", ["homology", "--field=7"], b"braid: 1", REFUSED, "tools/kh-codes FILE | ./kh homology --field=7"),
        ("a log", said.VERIFY, WRONG, REFUSED, 'docs/LOG-FORMAT.md, "The verdict", says what the line means'),
        ("many generators", ["--workers", "2", "homology"], curls(9).encode(), LIMIT, f"{answer} have none"),
        ("many generators of a log", said.VERIFY, f"log 1\n{curls(9)}\nfield 2".encode(), LIMIT, "a log has at most 64 MiB"),
        ("many crossings", JONES, curls(21).encode(), LIMIT, "no command takes more than 20 crossings or 8 loops"),
        ("a large number", ["bench", "--number", "1048576"], b"", LIMIT, "the diagrams of bench have the numbers 0 to 1048575"),
    ):
        came = ended(copy, words, input=given)
        right = came[0] == status and text in " ".join(came[2].split()) and "^" not in came[2]
        yield f"{name} by a pipe", plain_fault(came[2]) if right else str(came)
        if words == CHECK:
            alone = run(copy, words, given, path=without_python(copy))
            yield f"{name} without Python", None if came == alone else f"{alone} and not {came}"
    came = run(copy, said.VERIFY, said.LOG + b"j 3 i 1 dim 1\n" * 80_000)
    yield "a long log", None if came[0] == REFUSED and "docs/LOG-FORMAT.md" in came[2] and "^" not in came[2] else str(came)


def elsewhere_faults(copy):
    """A file is read again from where it was read; and where errors are closed the answer stays."""
    came = run(copy, CHECK, b"PD[]\n" + WRONG, start=5)
    yield "a file from a place on", None if came == (REFUSED, WRONG_LINE, WRONG_SAID) else str(came)
    with open(os.path.join(copy.folder, FILE), "rb") as file:
        file.seek(5)
        came = ended(copy, CHECK, stdin=file, stderr=None, preexec_fn=lambda: os.close(2))
    yield "errors that are closed", None if came[:2] == (REFUSED, WRONG_LINE) else str(came)
    came = run(copy, ["bench", "--number", "1048576"], WRONG)[2]
    yield "a number beside a file", None if came == "kh: the diagrams of bench have the numbers 0 to 1048575\n" else came
    came = run(copy, said.EDIT, TREFOIL.encode() + b";undo")
    yield "a move", None if came == (7, "1 refused nothing to undo\n", MOVES) else str(came)
    for name, script, is_said in (("no script", "", True), ("a blank script", ";\n \t\n", True), ("a script", "; r1 add 1 under plus", False)):
        came = run(copy, said.EDIT, f"{TREFOIL}\n{script}\n".encode())
        right = came[0] == 0 and bool(came[1]) != is_said and came[2].startswith("kh: there is no script") == is_said
        yield name, plain_fault(came[2]) if right and is_said else None if right and not came[2] else str(came)
    shown = next(it.strip() for it in read_text("tools", "kh-help").splitlines() if "| cat FILE - |" in it).split("'")[1].strip()
    came = wrote_in(copy, shown.replace("FILE", os.path.join(TOP, "examples", "trefoil.pd")))
    yield "the script that is shown", None if came.startswith("1 PD[") else came


def unproved_faults(copy):
    """Where the interpreter answers, the place is known from its answer, which is not asked for again."""
    copy.write(os.path.join("bin", "rt"), f"#!/bin/sh\ncat >/dev/null\necho {WRONG_LINE}echo run=ended status=1 >&2\nexit 1\n")
    path = f"{copy.folder}/bin:{os.environ.get('PATH', os.defpath)}"
    for script, crate, words in (("./kh", "kh_main", CHECK), ("./kh-scan", "scan_main", [])):
        os.remove(os.path.join(copy.folder, "crates", crate, "out", crate))
        came = run(copy, words, WRONG, path=path, script=script)
        right = came[:2] == (REFUSED, WRONG_LINE) and came[2].endswith("\n" + WRONG_SAID)
        yield f"an unproved answer of {script}", None if right else str(came)


def drawn_fault(number):
    """What is wrong with what is said of an input that is drawn at random, if it is refused."""
    draw = random.Random(f"said {number}")
    task = draw.choice(("check", "check", "edit", "schedule", "union", "verify"))
    given = drawn.inputs.some_input(draw, task)
    came = plain.answers.answer([task], given)
    found = explain.ANSWER.fullmatch(came.text) if came and came.status in (REFUSED, LIMIT) else None
    if not found:
        return None
    source = explain.Input(given, FILE, task, [task])
    if found[2] == "limit":
        return plain_fault("".join(f"{it}\n" for it in explain.limited(source, found[3])))
    part = source.part(bool(found[1]), found[3])
    fault = place_fault(part, found[3], refusals.told(part, task, found[3])[1])
    with mock.patch.object(explain, "in_another_form", lambda *_: ()):
        return fault or plain_fault("".join(f"{it}\n" for it in explain.refused(source, bool(found[1]), found[3])))


def place_fault(part, refusal, spans):
    """What is wrong with the places that are shown of a refusal, if anything is."""
    shown = [part[slice(*it)] for it in spans]
    at = re.fullmatch(r"(?:text|number|label) at (\d+)", refusal)
    if at:
        right = not part[int(at[1]) :].strip(plain.codes.BLANKS) or [it for it, _ in spans] == [int(at[1])]
    elif re.match(r"arc (\d+) times (\d+)", refusal):
        arc, times = re.findall(r"\d+", refusal)
        right = [int(it) for it in shown] == [int(arc)] * int(times)
    elif AT_A_CROSSING.match(refusal):
        crossing, slot = AT_A_CROSSING.match(refusal).groups()
        arcs = plain.codes.code_of(part).crossings[int(crossing) - 1]
        came = [plain.codes.arc_of(int(it)) for it in re.findall(rb"-?\d+", b"".join(shown))]
        right = came == ([arcs[int(slot)]] if slot else list(arcs))
    else:
        return None
    return None if right else f"{shown} is shown of {part[:300]!r}, for {refusal}"


def drawn_faults():
    with mock.patch.dict(os.environ, COLUMNS=str(COLUMNS)):
        for number in range(DRAWN):
            yield f"what is said of the drawn input {number}", drawn_fault(number)


def page_faults():
    """The pages and headings are there that are named."""
    for path in (("tools", "kh-help"), ("python", "kh", "codes", "explain.py"), ("python", "kh", "codes", "refusals.py")):
        named = set(PAGE.findall(read_text(*path).replace('\\"', '"')))
        for page, heading in sorted(named):
            is_there = not heading or re.search(f"^##+ {re.escape(heading)}$", read_text(page), re.M)
            yield f"{page} {heading}, which {path[-1]} names", None if is_there else "it is not there"


def faults(program):
    """The name of each test, and what is wrong, if anything is."""
    with tempfile.TemporaryDirectory() as folder:
        copy = furnished(folder, program)
        for name, words, marked, line, texts in said.ROWS:
            yield f"what is said of {name}", row_fault(copy, words, marked, line, texts)
        for tests in (foreign_faults, name_faults, window_faults, scan_faults, faults_of_scan, claim_faults):
            yield from tests(copy)
        yield from general_faults(copy)
        yield from elsewhere_faults(copy)
        yield from unproved_faults(copy)
    yield from drawn_faults()
    yield from page_faults()
