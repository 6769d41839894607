#!/usr/bin/env python3
"""Rules on the list of crates and on the pages, which `tests/program` tries behind its rows.

    tests/rules.py           prints what breaks a rule
    tests/rules.py --write   writes anew what follows from the sources: docs/NAMES.md, docs/STATEMENT.md, the sizes in docs/THEOREM.md and
                             README.md, and in docs/ARCHITECTURE.md what each crate is

No chain of crates that stand on one another is longer than seven. crates.txt has each crate behind those that it stands on, under a
heading. Each crate has its row in docs/ARCHITECTURE.md, under the same heading, which says what the head of its root file says, and the
calls that the row names are functions of the crate; the files that its tables on changes name are there. Links of pages lead somewhere, and README.md
quotes its sources line by line. Every name of a definition that a clause of a public function cites is in docs/DEFINITIONS.md, or else in
docs/NAMES.md with the first sentence of the comment at its definition. `tests/believed.py` has the rules on the pages that say what one has
to believe. The functions that are trusted are as long as docs/THEOREM.md says, and as README.md says of all. CITATION.cff has the version
of CHANGELOG.md. The old text of each planted bug of must-fail/ and more-edits/
stands once in its file, and must-fail/ has two or three of them or none. Every script that a page names is run by a command of a page or by
a test (`shared/named_scripts.py`, which lists those that are run by hand).
"""
import argparse
import itertools
import os
import re
import sys
import textwrap

import believed
from companions.pages import pages
from shared import named_scripts
from shared.places import TOP, read_text, write_text

LONGEST = 7
HEADINGS = "foundations diagrams cube moves texts cancellation invariance links scan threads program tests".split()
COLUMNS = 135
CHANGES = "## To change something"
NAMED = re.compile(r"`(\w+)`")
NAMED_PATH = re.compile(r"`(\w+)`|`([\w./-]*[./][\w./-]*)`")
CRATE_ROW = re.compile(r"^\| `(\w+)` \|[^|\n]*\|([^|\n]*)\|$", re.M)
EDGE_ROW = re.compile(r"^(\|[^|\n]*\| `(crates/[^`:]*): ([\w, ]+)` \| )\d+ \|", re.M)
NAMES = """\
# Names in public contracts

What clauses of public functions cite and `docs/DEFINITIONS.md` does not read aloud: the first sentence of each definition's comment, by
crate. `tests/rules.py --write` writes this page.
"""

IMPORT = re.compile(r"ghost use Rattle\.(\w+)\.(specs(?:\.\w+)*)\.\{([^}]*)\}")
CLAUSE = re.compile(r"\b(?:requires|ensures)\b[^{};]*\{")
FUNCTION = re.compile(r"^ *((?:pub(?:\([a-z]+\))? )?)(?:const )?fn (\w+)", re.M)
WORD = re.compile(r"[\w'-]+")


def read(*path):
    return read_text(*path)


def stands_on():
    """Each crate of crates.txt, with those of them that it stands on."""
    lines = (line.split("#")[0] for line in read("crates.txt").splitlines())
    named = {head.split()[0]: rest.split() for head, colon, rest in (line.partition(":") for line in lines) if colon}
    return {name: [it for it in rest if it in named] for name, rest in named.items()}


def longest_chain(below):
    """A longest list of crates each of which stands on the one before."""
    known = {}

    def chain(name):
        if name not in known:
            known[name] = max((chain(it) for it in below[name]), key=len, default=[]) + [name]
        return known[name]

    return max(map(chain, below), key=len)


def out_of_order(below):
    """The crates of crates.txt that stand above one that they stand on."""
    order = list(below)
    for place, name in enumerate(order):
        above = [it for it in below[name] if it not in order[:place]]
        if above:
            yield f"{name} stands above {', '.join(above)}"


def head_of(crate):
    """What a crate is, as the first paragraph of its root file says."""
    name = next(it for it in ("lib.rt", "main.rt") if os.path.isfile(os.path.join(TOP, "crates", crate, "src", it)))
    lines = itertools.takewhile(lambda line: line.startswith("//! "), read("crates", crate, "src", name).splitlines())
    return " ".join(line.removeprefix("//! ") for line in lines)


def with_heads(page, crates):
    """The page with what each crate is in its row."""
    return CRATE_ROW.sub(lambda it: f"| `{it[1]}` | {head_of(it[1])} |{it[2]}|" if it[1] in crates else it[0], page)


def under_headings(text, heading, crate):
    """The headings of a text, each with the crates under it."""
    parts = re.split(heading, text, flags=re.M)[1:]
    return [(name.lower(), re.findall(crate, part, re.M)) for name, part in zip(parts[::2], parts[1::2])]


def unknown_calls(page, crates):
    """The calls that the row of a crate names, and that are no functions of its code."""
    for crate, promised in CRATE_ROW.findall(page):
        code = "".join(read(path) for path in files(crate, "src", ".rt"))
        known = {name for _, name in FUNCTION.findall(code)} | {*crates}
        yield from (f"{name} of {crate}" for name in NAMED.findall(promised) if name not in known)


def absent_paths(page, crates):
    """The files that the tables on changes open, each in the folder of the crate before it or at the top, and that are not there."""
    for row in re.findall(r"^\|[^|\n]*\|([^|\n]*)\|", page.partition(CHANGES)[2], re.M):
        crate = ""
        for name, path in NAMED_PATH.findall(row):
            crate = name if name in crates else crate
            if path and not any(os.path.exists(os.path.join(TOP, *it, path)) for it in ([], ["crates", crate])):
                yield f"{path} of {crate}"


def misquoted(page):
    """The first lines of those blocks of a page that stand so in none of the sources that it links."""
    sources = [read(path) for path in re.findall(r"\]\((crates/[^)]*)\)", page)]
    blocks = re.findall(r"^```(?:rust|antt)\n(.*?)^```$", page, re.M | re.S)
    return [block.split("\n")[0] for block in blocks if not any(block in source for source in sources)]


def headings(page):
    """The anchors of a page's headings, as they are made on the web: small letters, hyphens for spaces, no other signs."""
    return {re.sub(r"[^\w -]", "", it.lower()).replace(" ", "-") for it in re.findall(r"^#+ (.*)$", page, re.M)}


def broken_links():
    """The links of pages that lead to no file or to no heading."""
    for name in ["CONTRIBUTING.md", "CHANGELOG.md", *pages()]:
        for path, anchor in re.findall(r"\]\((?!https?:)([^)#\s]*)#?([^)\s]*)\)", read(name)):
            there = os.path.normpath(os.path.join(os.path.dirname(name), path)) if path else name
            if not os.path.exists(os.path.join(TOP, there)) or (anchor and anchor not in headings(read(there))):
                yield f"{name}: {path}#{anchor}"


def edit_faults(crates):
    """The planted bugs, also those that the gate leaves out, whose old text does not stand once in its file."""
    for crate in crates:
        for folder in ("must-fail", "more-edits"):
            for path in files(crate, folder, ".edit"):
                lines = [line.partition(":") for line in read_text(path).splitlines()]
                edit = {head: text.removeprefix(" ") for head, _, text in lines}
                source = os.path.join(TOP, "crates", crate, edit["file"])
                count = read(source).count(edit["old"]) if os.path.isfile(source) else 0
                if count != 1 or edit["old"] == edit["new"]:
                    yield f"{os.path.relpath(path, TOP)} ({count} times)"


def wrong_counts(crates):
    """The crates of which the gate tries one planted bug, or more than three."""
    for crate in crates:
        count = len(list(files(crate, "must-fail", ".edit")))
        if count not in (0, 2, 3):
            yield f"{crate} ({count})"


def files(crate, folder, ending):
    """The files of a crate's folder with this ending, without its tests."""
    for where, folders, names in os.walk(os.path.join(TOP, "crates", crate, folder)):
        folders[:] = sorted(it for it in folders if it != "tests")
        for name in sorted(names):
            if name.endswith(ending) and name != "tests.rt":
                yield os.path.join(where, name)


def braces_from(text, start):
    """The text between the brace at this place and the one that closes it."""
    depth = 0
    for place in range(start, len(text)):
        depth += {"{": 1, "}": -1}.get(text[place], 0)
        if not depth:
            return text[start + 1 : place]
    return text[start + 1 :]


def cited(text, crates):
    """The names of definitions of these crates that the clauses of public functions in a source cite, each with its crate and module."""
    imported = {}
    for crate, module, names in IMPORT.findall(text):
        if crate in crates:
            imported.update({name.strip(): (crate, module) for name in names.split(",") if WORD.fullmatch(name.strip())})
    heads = [(it.start(), it.group(1) == "pub " or "pub trait" in text) for it in FUNCTION.finditer(text)]
    found = {}
    for clause in CLAUSE.finditer(text):
        public = [public for start, public in heads if start < clause.start()]
        if public and public[-1]:
            words = WORD.findall(braces_from(text, clause.end() - 1))
            found.update({word: imported[word] for word in words if word in imported})
    return found


def cited_names(crates):
    """All those names, each with its crate and module."""
    found = {}
    for crate in crates:
        for path in files(crate, "src", ".rt"):
            found.update({(name, *where): None for name, where in cited(read_text(path), crates).items()})
    return sorted(found)


def first_sentence(lines):
    """The first sentence of the lines of a comment, without their marks."""
    comment = " ".join(re.sub(r"^\s*(--|///)\s*", "", line) for line in lines).strip()
    first = re.split(r"(?<=[a-z0-9)`])[.;](?: |$)|: ", comment)[0].rstrip(".")
    return first if re.match(r"[b-z]\b", first) else first[:1].upper() + first[1:]


def sentence_of(name, crate):
    """The first sentence of the comment at the definition of a name, or at the type or constant of that name; else where it stands."""
    where = "see its crate"
    definition = re.compile(
        r"((?:^ *--[^\n]*\n)*)^ *(?:(?:abbrev|unfoldable|opaque) )?(?:pub )?(?:(?:abbrev|unfoldable|opaque|record|data|class) )*(?:pub )?"
        + re.escape(name) + r"(?=[ :\n])", re.M
    )
    for path in files(crate, "specs", ".antt"):
        with open(path, encoding="utf-8") as file:
            for it in definition.finditer(file.read()):
                if it.group(1):
                    return first_sentence(it.group(1).splitlines())
                where = f"see `{os.path.relpath(path, TOP)}`"
    item = re.compile(
        r"((?:^ *///[^\n]*\n)+)(?:^ *#\[[^\n]*\n)*^ *(?:pub )?(?:(?:struct|enum|trait|const) )?" + re.escape(name) + r"\b", re.M
    )
    for path in files(crate, "src", ".rt"):
        with open(path, encoding="utf-8") as file:
            for it in item.finditer(file.read()):
                return first_sentence(it.group(1).splitlines())
    return where


def is_read_aloud(name, page):
    return re.search(r"`[^`\n]*(?<![\w-])" + re.escape(name) + r"(?![\w-])[^`\n]*`", page) is not None


def written_names(crates):
    """The page of names that the definitions do not read aloud."""
    page, lines = read("docs", "DEFINITIONS.md"), [NAMES]
    for crate in crates:
        names = sorted({name for name, where, _ in cited_names(crates) if where == crate and not is_read_aloud(name, page)})
        if names:
            lines += [f"`{crate}`:", ""]
            for name in names:
                line = f"- `{name}`: {sentence_of(name, crate)}."
                lines += textwrap.wrap(line, COLUMNS, subsequent_indent="  ", break_long_words=False, break_on_hyphens=False)
            lines += [""]
    return "\n".join(lines)


def length_of(path, names):
    """How many lines these functions of a source have together, from their heads to the braces that close them."""
    source = read(path)
    heads = [re.search(rf"^( *)(?:pub )?fn {name}\b(?s:.*?)^\1}}$", source, re.M) for name in names.split(", ")]
    return sum(len(head[0].splitlines()) for head in heads)


def with_lengths(page):
    """The page with the lengths of the functions that its table names."""
    return EDGE_ROW.sub(lambda it: f"{it[1]}{length_of(it[2], it[3])} |", page)


def with_length_of_edge(page):
    """The page with the lines of all these functions together, where it links them."""
    length = sum(length_of(path, names) for _, path, names in EDGE_ROW.findall(read("docs", "THEOREM.md")))
    return re.sub(r"\[\d+ lines\]", f"[{length} lines]", page)


def write(text, *path):
    write_text(os.path.join(TOP, *path), text.rstrip("\n") + "\n")


def crate_faults(crates):
    """The rules on the list of crates, and what breaks them."""
    chain = longest_chain(crates)
    yield "no long chain of crates", f"{len(chain)} crates: {', '.join(chain)}" if len(chain) > LONGEST else None
    yield "crates.txt has each crate behind those that it stands on", "; ".join(out_of_order(crates)) or None
    yield "each crate's root file says what it is", ", ".join(it for it in crates if not head_of(it)) or None
    folders = sorted(os.listdir(os.path.join(TOP, "crates")))
    there = {it for it in folders if os.path.isdir(os.path.join(TOP, "crates", it, "src"))}
    yield "crates.txt has the crates", ", ".join(sorted(there ^ set(crates))) or None
    yield "the old text of each planted bug stands once", ", ".join(edit_faults(crates)) or None
    yield "the gate tries two or three planted bugs of a crate, or none", ", ".join(wrong_counts(crates)) or None


def page_faults(crates):
    """The rules on the pages, and what breaks them."""
    page = read("docs", "ARCHITECTURE.md")
    rows = under_headings(page.partition(CHANGES)[0], r"^\*\*(\w+)\*\*: .*$", r"^\| `(\w+)` \|")
    lines = under_headings(read("crates.txt"), r"^## (\w+): .*$", r"^(\w+)[ :]")
    other = {heading for one, two in ((rows, lines), (lines, rows)) for heading, names in one if (heading, names) not in two}
    yield "ARCHITECTURE.md has the crates under the headings of crates.txt", ", ".join(sorted(other)) or None
    yield "ARCHITECTURE.md says what each crate is", "`tests/rules.py --write` mends it" if page != with_heads(page, crates) else None
    yield "ARCHITECTURE.md names calls of the crates", ", ".join(unknown_calls(page, crates)) or None
    yield "ARCHITECTURE.md opens files that are there", ", ".join(absent_paths(page, crates)) or None
    yield "links of pages lead somewhere", ", ".join(broken_links()) or None
    page = read("README.md")
    yield "README.md quotes its sources", "; ".join(misquoted(page)) or None
    yield "README.md has the length of the edge", "`tests/rules.py --write` mends it" if page != with_length_of_edge(page) else None
    page = read("docs", "THEOREM.md")
    yield "THEOREM.md has the lengths of the edge", "`tests/rules.py --write` mends it" if page != with_lengths(page) else None
    given = re.search(r"^version: (.*)$", read("CITATION.cff"), re.M)[1]
    newest = re.search(r"^## (\d+\.\d+\.\d+)\b", read("CHANGELOG.md"), re.M)[1]
    yield "CITATION.cff has the version", f"{given} and not {newest}" if given != newest else None
    yield "each script that a page names is run by a test", ", ".join(named_scripts.untested()) or None
    yield from believed.faults(read)
    page = read("docs", "DEFINITIONS.md") + read("docs", "NAMES.md")
    missing = [f"{name} of {crate}" for name, crate, _ in cited_names(crates) if not is_read_aloud(name, page)]
    yield "each name in a public contract is in DEFINITIONS.md or NAMES.md", ", ".join(missing) or None


def faults():
    """The name of each rule, and what breaks it, if anything does."""
    crates = stands_on()
    yield from crate_faults(crates)
    yield from page_faults(crates)


def main():
    reader = argparse.ArgumentParser(description=__doc__, formatter_class=argparse.RawDescriptionHelpFormatter)
    reader.add_argument("--write", action="store_true", help="write anew what follows from the sources")
    if reader.parse_args().write:
        write(written_names(stands_on()), "docs", "NAMES.md")
        write(with_heads(read("docs", "ARCHITECTURE.md"), stands_on()), "docs", "ARCHITECTURE.md")
        write(believed.with_sizes(with_lengths(read("docs", "THEOREM.md"))), "docs", "THEOREM.md")
        write(believed.with_sizes(with_length_of_edge(read("README.md"))), "README.md")
        for name, text in believed.statement_pages().items():
            write(text, "docs", name)
    broken = [f"{name}: {fault}" for name, fault in faults() if fault]
    print("\n".join(broken) or "no rule is broken")
    return 1 if broken else 0


if __name__ == "__main__":
    sys.exit(main())
