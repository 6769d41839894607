"""Holds the names that `tools/definitions.py` reads in each definition against those that the toolchain keeps of it in a built library.

A library has a file for each module, in which each declaration stands with the whole names of all that it rests on. Compared is what a
definition rests on in all; of lemmas, which are kept without their proofs, only that nothing is missing. Files that have changed since
their library was built are passed over, and so are crates without one. Then come the answers of `tools/cone`. `tests/program` runs this
behind its rows.
"""
import json
import os
import re

from shared.places import TOP
from shared.running import ended
from tools import cones, definitions

WHOLE = re.compile(r"Rattle-(\w+)-specs\.(.*)")
TABLE, DECLARED, INTERFACE = b"ATB2", b"APT2", re.compile(rb'"uses":\[[^\]]*\]\}')


SMALL = """\
crates/kh_types/specs/Bits.antt:5: bit
crates/kh_types/specs/Bits.antt:9: ones
2 definitions, 4 lines in 1 files
"""
UNKNOWN = "tools/cone: nothing is called {}\n"
# the words, and what is written to standard output and to standard error
ASKED = (
    (["ones"], SMALL, ""),
    (["kh_types.specs.Bits.bit", "ones"], SMALL, ""),
    (["no_such_name"], "", UNKNOWN.format("no_such_name")),
    (["kh_work::run no_such_label"], "", UNKNOWN.format("kh_work::run no_such_label")),
    (["no_such_crate::run"], "", UNKNOWN.format("no_such_crate::run")),
    (["kh_main::status_of headline"], "", UNKNOWN.format("kh_main::status_of headline")),
    (["request_of"], "", "tools/cone: request_of is one of kh_work.specs.Runs.request_of, line_answers.specs.Scans.request_of\n"),
)


def library(crate):
    return os.path.join(TOP, "crates", crate, "out", "rlib", f"{crate}.rlib")


def number_at(data, at):
    """A number in seven bits a byte, the lowest first, and the place behind it."""
    value = shift = 0
    while True:
        value |= (data[at] & 127) << shift
        shift += 7
        at += 1
        if data[at - 1] < 128:
            return value, at


def text_at(data, at):
    length, at = number_at(data, at)
    return data[at : at + length].decode(errors="replace"), at + length


def declarations(data):
    """Each declaration of a module that the toolchain has kept, by its name, with the words in it."""
    before = data.find(DECLARED)
    at = data.find(TABLE)
    while at >= 0:
        behind = max((it.end() for it in INTERFACE.finditer(data, before, at)), default=None)
        name, _ = text_at(data, behind or number_at(data, before + len(DECLARED))[1])
        count, place = number_at(data, at + len(TABLE))
        words = []
        for _ in range(count):
            word, place = text_at(data, place)
            words.append(word)
        yield name, words
        before, at = at, data.find(TABLE, at + 1)


def modules(crate):
    """The modules of a library's definitions, with what is kept of each."""
    with open(os.path.join(library(crate), "toolchain", "checked.json"), encoding="utf-8") as file:
        listed = [json.loads(line) for line in file if line.startswith('["part/')]
    with open(os.path.join(library(crate), "toolchain", "checked.a"), "rb") as file:
        for name, start, size in listed:
            if name.startswith(f"part/Rattle-{crate}-specs.") and not re.search(r"-specs\.(contracts|declared)\b", name):
                file.seek(start)
                yield file.read(size)


def owner(kept):
    """The definition that a name of the toolchain belongs to, where it is one of the repository's."""
    found = WHOLE.fullmatch(re.sub(r"[{}]|\.where\b.*", "", kept))
    name = found and definitions.whole_name(f"{found[1]}.specs.{found[2]}")
    return name if name in definitions.definitions() else None


def kept_names(crates):
    """Each definition with those that the toolchain has it rest on by its own words."""
    found = {}
    for crate in crates:
        for data in modules(crate):
            for name, words in declarations(data):
                if owner(name):
                    found.setdefault(owner(name), set()).update(it for it in map(owner, words) if it and it != owner(name))
    return found


def is_current(path):
    """Whether the library of a file of specs/ has the file as it stands."""
    crate, _, rest = path.removeprefix("crates/").partition("/")
    kept = os.path.join(library(crate), "lang", "antt", rest)
    return os.path.isfile(kept) and definitions.read(path) == definitions.read(kept)


def is_lemma(it):
    return not re.match(r"(pub )?(abbrev|unfoldable|opaque|record|data)\b", it.code[0])


def below(name, names_of):
    """All that a definition rests on, by what each names."""
    found, waiting = set(), [name]
    while waiting:
        for it in names_of(waiting.pop()):
            if it not in found:
                found.add(it)
                waiting.append(it)
    return found


def difference(name, kept):
    """What is wrong with the names that are read in a definition, if anything is."""
    read = below(name, lambda it: definitions.names_in(it) & definitions.definitions().keys())
    wanted = below(name, lambda it: kept.get(it, ()))
    missing, more = wanted - read, set() if is_lemma(definitions.definition(name)) else read - wanted
    return f"missing {sorted(missing)[:3]}, too many {sorted(more)[:3]}" if missing or more else None


def answer_faults():
    """The words of each call of `tools/cone`, and what is wrong with its answer."""
    for words, *wanted in ASKED:
        _, *got = ended([os.path.join(TOP, "tools", "cone"), *words])
        yield f"tools/cone {' '.join(words)}", f"wanted {wanted}, got {got}" if got != wanted else None


def faults(program):
    """The name of each file of definitions, and what is wrong with the names that are read in it; then the answers of the script."""
    yield from answer_faults()
    built = [it for it in definitions.crates() if os.path.isfile(os.path.join(library(it), "toolchain", "checked.json"))]
    kept = kept_names(built)
    by_file = {}
    for name in kept:
        by_file.setdefault(definitions.definition(name).path, []).append(name)
    current = {it for it in by_file if is_current(it)}
    for path in sorted(current):
        wrong = [f"{definitions.definition(it).word}: {difference(it, kept)}" for it in by_file[path] if difference(it, kept)]
        yield path, "; ".join(wrong[:3]) or None
