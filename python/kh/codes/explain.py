"""Says what the line of a refusal or a limit of `kh` means, with carets below the place that it names, and what to do next.

    explain.py SCRIPT STATUS START ANSWER COMMAND WORD..

`tools/kh-help` calls it. SCRIPT is kh or kh-scan. Standard input is the file that this has read with these words, from the byte START on.
ANSWER is a file that has what it wrote; where it is empty the built program is asked once more. Where it can say nothing it ends with 1.
"""
import os
import re
import shlex
from typing import NamedTuple

from ..places import TOP, built_file
from ..programs import ran
from . import refusals, turning
from .pointing import MARGIN, is_plain, pointed, wrapped

# The built programs of both scripts.
PROGRAMS = {"kh": built_file("kh_main"), "kh-scan": built_file("scan_main")}
KH_SCAN = os.path.join(TOP, "kh-scan")
# The most bytes of a code and of a log with which the program is asked once more, the most of a code that `kh-codes` is asked about, and
# the seconds that either may take.
CODE_BYTES, LOG_BYTES, FORM_BYTES, PATIENCE = 65_537, 1_048_576, 16_384, 20
ANSWER = re.compile(r"(second\n)?(refused|limit) ([^\n]*)\n")
STATUSES = {"refused": 1, "limit": 6}
# The commands that read something behind a ;, and what.
BEHIND = {"edit": "its script", "schedule": "its script", "union": "the second code"}
# The refusals that no other form of a code mends, and no other numbers of its arcs.
NOT_MENDED = ("line", "log", "mark", "label", "signs", "no signs", "checkerboard", "genus")
WHICH_FIT = "docs/KNOTS.md, \"Which diagrams fit\", says more"


class Input(NamedTuple):
    """What was read, the name of its file, the command and the words, and which of both read it."""

    given: bytes
    file: str
    command: str
    words: list
    name: str = "kh"

    def part(self, is_second, refusal):
        """The part that a refusal is about: where this command reads something behind a ;, what stands before it or behind it."""
        if self.command not in BEHIND:
            return self.given
        first, _, rest = self.given.partition(b";")
        return rest if is_second or refusal.startswith("line ") else first

    def is_log(self):
        return self.given.lstrip().startswith(b"log ")

    def given_to(self, command):
        """What is typed to give the file to another command."""
        return f"{MARGIN}{called('kh')} {command} < {self.file}"


def called(name, words=()):
    """A program of this repository, as it is called from here, with words."""
    path = os.path.join(TOP, name)
    is_near = os.path.samefile(os.getcwd(), TOP) or not is_plain(path)
    program = (name if "/" in name else f"./{name}") if is_near else shlex.quote(path)
    return " ".join([program, *map(shlex.quote, words)])


def file_name(start):
    """The name of the file that is standard input, as a shell reads it; where it is not known, or not all of it was read, FILE."""
    try:
        path = os.readlink("/proc/self/fd/0")
        if start == 0 and is_plain(path) and os.path.samestat(os.stat(path), os.fstat(0)):
            near = os.path.relpath(path)
            return shlex.quote(path if near.startswith("..") else near)
    except OSError:
        pass
    return "FILE"


def read(start, most):
    """At most so many bytes of standard input from a place on, however far it has been read."""
    given = b""
    while len(given) < most:
        more = os.pread(0, most - len(given), start + len(given))
        if not more:
            break
        given += more
    return given


def answer(status, kept, source):
    """Whether what was written is about a second code, the first word of its line, and the others; None where that is not known."""
    if kept:
        with open(kept, "rb") as file:
            came, wrote = status, file.read(CODE_BYTES)
    else:
        came, wrote, _ = ran([PROGRAMS[source.name], *source.words], source.given, PATIENCE)
    found = ANSWER.fullmatch(wrote.decode(errors="replace"))
    return (bool(found[1]), found[2], found[3]) if found and came == status == STATUSES[found[2]] else None


def count_of(part):
    """How many codes `tools/kh-codes` reads in a text; none where one is wrong."""
    try:
        found = list(turning.all_of(part.decode("utf-8-sig")))
    except UnicodeDecodeError:
        return 0
    return 0 if any(it.fault for it in found) else len(found)


def in_another_form(source, part, refusal):
    """What `tools/kh-codes` can do with a code."""
    if refusal.startswith(NOT_MENDED) or not part.strip() or len(part) > FORM_BYTES:
        return
    count = count_of(part)
    if count > 1 and source.name == "kh-scan":
        yield from wrapped(f"tools/kh-codes reads {count} codes in it, and kh-scan takes many by its command each:")
        yield f"{MARGIN}{called('tools/kh-codes')} {source.file} | {called(source.name, ['each', *source.words])}"
    elif count > 1:
        yield from wrapped(f"tools/kh-codes reads {count} codes in it, and kh takes one; docs/TABULATION.md is about many")
    elif count and part != source.given:
        yield from wrapped("tools/kh-codes reads this code: give it the code alone, and write what comes of it in its place")
    elif count:
        yield from wrapped("tools/kh-codes reads it:")
        yield f"{MARGIN}{called('tools/kh-codes')} {source.file} | {called(source.name, source.words)}"
    elif refusals.is_foreign(part) and part == source.given:
        yield from wrapped("tools/kh-codes does not read it either, and says why:")
        yield f"{MARGIN}{called('tools/kh-codes')} {source.file}"


def refused(source, is_second, refusal):
    """What a refusal means, where it is, and what to do next."""
    part = source.part(is_second, refusal)
    sentence, spans = refusals.told(part, source.command, refusal)
    yield from wrapped(sentence)
    yield from pointed(part, spans)
    if source.command in BEHIND and b";" not in source.given:
        yield from wrapped(f"{source.command} reads a code, then a ; and then {BEHIND[source.command]}")
    if source.command == "verify":
        yield from [] if source.is_log() else [*wrapped("./kh certify makes the log of a code:"), source.given_to("certify")]
    elif source.is_log():
        yield from [*wrapped("it is a log, which ./kh verify reads:"), source.given_to("verify")]
    else:
        yield from in_another_form(source, part, refusal)


def field_words(words):
    """Those of the words of a command that name its field."""
    for place, word in enumerate(words):
        if word.partition("=")[0] == "--field":
            return words[place : place + 1 + (word == "--field")]
    return []


def scanned(source):
    """That the scan, where there is one, has no limit on generators, and how it is called; it has no table of `reduced`."""
    if source.command == "reduced" or not (os.path.isfile(KH_SCAN) and os.access(KH_SCAN, os.X_OK)):
        return
    if source.command != "homology":
        yield from wrapped("the table, without this limit, is written by ./kh-scan, which reads a code")
        return
    yield from wrapped("./kh-scan writes the same table without this limit:")
    yield f"{MARGIN}{called('kh-scan', field_words(source.words))} < {source.file}"


def generators_limit(source, ratio):
    """What the limit on generators is, which commands have it, and what answers without it."""
    times = f"{ratio:,.0f}" if ratio > 10 else f"{ratio:.1f}"
    yield from wrapped(f"a generator is a state of all crossings with a label on each circle, and here are {times} times as many as fit")
    yield from wrapped(
        "homology, reduced, schedule, certify and verify alone have this limit: jones, check, convert, draw, mirror, reverse, union and edit "
        "answer"
    )
    yield from [] if source.command in ("schedule", "verify") else [source.given_to("jones")]
    yield from scanned(source)
    yield from wrapped(f"another diagram of the link may fit: {WHICH_FIT}")


def bytes_limit(source):
    """What the limits on bytes are."""
    if source.command == "verify":
        yield from wrapped("a log has at most 64 MiB, and ./kh certify writes none that has more: docs/LOG-FORMAT.md")
    elif source.is_log():
        yield from [*wrapped("it is a log, which ./kh verify reads, up to 64 MiB:"), source.given_to("verify")]
    else:
        yield from wrapped("every command that reads a code has this limit, and 20 crossings need some hundred bytes")
        yield from wrapped("docs/TABULATION.md is about many codes, and ./kh verify reads logs of up to 64 MiB")


def limited(source, limit):
    """What a limit is, which commands have it, and what to do next; nothing of that of `bench`, which `kh-help` knows."""
    kind, number, most = re.fullmatch(r"(\w+) (\d+) of (\d+)", limit).groups()
    both = ", the two of union counted together" if source.command == "union" else ""
    if kind == "generators":
        yield from generators_limit(source, int(number) / int(most))
    elif kind == "bytes":
        yield from bytes_limit(source)
    elif kind == "lines":
        yield from wrapped("edit and schedule have this limit, and lines without words count")
        yield from wrapped("a long script of edit can be cut: the code that is written last is the code of the next script")
    elif kind == "crossings":
        yield from wrapped(f"every command has this limit{both}; another diagram of the link may have fewer crossings: {WHICH_FIT}")
    elif kind == "loops":
        yield from wrapped(f"every command that reads a code has this limit on circles that meet no crossing{both}: {WHICH_FIT}")


def main(name, status, start, kept, command, *words):
    given = read(int(start), LOG_BYTES + 1 if command == "verify" else CODE_BYTES)
    source = Input(given, file_name(int(start)), command, list(words), name)
    found = answer(int(status), kept, source) if len(given) <= LOG_BYTES else None
    if not found:
        return 1
    is_second, kind, what = found
    lines = list(refused(source, is_second, what) if kind == "refused" else limited(source, what))
    if lines:
        print("\n".join(lines))
    return 0 if lines else 1
