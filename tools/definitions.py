"""What statements are made of: the definitions in `specs/` of the crates, the types and constants of their code that these speak of, and
the clauses of contracts; where each stands, and which others it names.

A file imports each name by a line that gives the whole of it, as the toolchain has it, so a word of a definition is a variable that is
bound there, a name of the same file, or one of those. `tests/companions/cones.py` holds this against the names that the toolchain keeps.
"""
import functools
import os
import re
from dataclasses import dataclass

TOP = os.path.dirname(os.path.dirname(os.path.abspath(__file__)))
IMPORT = re.compile(r"^ *(?:ghost )?use ([\w.-]+?)(?:\.\{([^}]*)\})?(?: as ([\w'-]+))?;?$", re.M)
HEAD = re.compile(r"^(?:(?:abbrev|unfoldable|opaque|pub) )*(?:(?:record|data) )?(\S+)")
TOKEN = re.compile(r"[λ(){}\[\];:,]|[^\sλ(){}\[\];:,]+")
QUOTED = re.compile(r'"(?:[^"\\]|\\.)*"')
OPEN, CLOSED = "([{", ")]}"
DECLARED = re.compile(r"declared((?:\.[a-z]\w*)*)\.(?:TheConstants\.)?([A-Z]\w*)")
ITEM = r"^(?:pub(?:\([a-z]+\))? )?(?:struct|enum|trait|const|type) {}\b"
MODEL = r"^impl(?:<.*>)? Model for {}\b"
BROUGHT = re.compile(r"^(?:pub )?use (crate|\w+)(?:::\w+)*::(?:\{([^}]*)\}|(\w+));", re.M)
CAPITALISED = re.compile(r"\b[A-Z]\w*\b")


@dataclass(frozen=True)
class Definition:
    """A definition, a type or a constant: its crate, its name behind it, the file and the line, its comment, and its lines of code."""

    crate: str
    word: str
    path: str
    line: int
    comment: tuple
    code: tuple
    names: frozenset

    @property
    def sentence(self):
        """The comment as one line."""
        return " ".join(re.sub(r"^\s*(--|///) ?", "", it) for it in self.comment)

    @property
    def text(self):
        return "\n".join((*self.comment, *self.code))


def read(path):
    with open(os.path.join(TOP, path), encoding="utf-8") as file:
        return file.read()


def files(crate, folder, ending):
    """The files of a crate's folder with this ending, by their paths from the top."""
    for where, folders, names in os.walk(os.path.join(TOP, "crates", crate, folder)):
        folders.sort()
        yield from (os.path.relpath(os.path.join(where, it), TOP) for it in sorted(names) if it.endswith(ending))


@functools.cache
def crates():
    return sorted(os.listdir(os.path.join(TOP, "crates")))


def imports_of(text):
    """The words that a file imports, each with its whole name, and the modules that it has under a name."""
    words, modules = {}, {}
    for module, listed, other in IMPORT.findall(text):
        for item in listed.split(",") if listed else ():
            own, _, given = item.strip().partition(" as ")
            words[given or own] = f"{module}.{own}"
        if not listed:
            modules[other or module.rpartition(".")[2]] = module
    return words, modules


def resolved(words, imports, own):
    """The whole names of words, by what a file imports and by its own names."""
    (imported, modules), found = imports, set()
    for word in words:
        head, _, rest = word.partition(".")
        if head in modules and rest:
            found.add(f"{modules[head]}.{rest}")
        elif head in imported or head in own:
            found.add(imported.get(head) or own[head])
    return frozenset(it.removeprefix("Rattle.") for it in found)


def free_words(text, bound=()):
    """The words of a term or a type that nothing binds in it. What a bracket binds is bound behind it, and a field behind its type."""
    tokens, scopes, groups, fields, at = TOKEN.findall(QUOTED.sub("", text)), [set(bound)], [], [[]], 0
    while at < len(tokens):
        token, before, behind = tokens[at], tokens[at - 1 : at], tokens[at + 1 : at + 2]
        if token in OPEN:
            groups.append(bound_by_bracket(tokens, at))
            scopes.append(set())
            fields.append([])
            at += len(groups[-1])
        elif token in CLOSED and groups:
            scopes.pop()
            fields.pop()
            scopes[-1].update(groups.pop())
        elif token == "λ":
            at = bind_arguments(tokens, at, scopes[-1])
        elif before == ["let"]:
            scopes[-1].add(token)
        elif behind == [":"]:
            scopes[-1].update(fields[-1])
            fields[-1] = [token]
        elif not (behind == ["="] and before in (["{"], [";"])) and not any(token.split(".")[0] in it for it in scopes):
            yield token.strip(".")
        at += 1


def bound_by_bracket(tokens, at):
    """The names that a bracket binds, as in (x y : T)."""
    end = at + 1
    while end < len(tokens) and tokens[end] not in (*OPEN, *CLOSED, ":", ";", "=", "λ"):
        end += 1
    return tokens[at + 1 : end] if tokens[end : end + 1] == [":"] else []


def bind_arguments(tokens, at, scope):
    """Binds what stands between a λ and its point, and gives the place of the last of it."""
    while True:
        at += 1
        scope.add(tokens[at].rstrip("."))
        if tokens[at].endswith("."):
            return at


def clause_words(text):
    """The free words of a clause of a definition: on its left side small words are variables."""
    left, _, right = (*re.split(r"(\s=\s)", text, maxsplit=1), "", "")[:3]
    patterns = [it for it in TOKEN.findall(left)[1:] if it not in (*OPEN, *CLOSED, ",")]
    variables = {it for it in patterns if it[0].islower() and "." not in it}
    return [*(it for it in patterns if it not in variables), *free_words(right, variables)]


def definition_words(code):
    """The free words of a definition: of its head, with its fields if it is a record, and of each clause."""
    starts = [at for at, line in enumerate(code) if not line.startswith(" ")]
    parts = ["\n".join(code[start:end]) for start, end in zip(starts, [*starts[1:], len(code)])]
    head = re.sub(HEAD, "", parts[0]).lstrip(" :").replace("pub ", "")
    return [*free_words(head), *(word for part in parts[1:] for word in clause_words(part))]


def blocks(text):
    """The blocks of a file between blank lines, each with the number of its first line."""
    start, lines = 0, text.split("\n")
    for at in range(len(lines) + 1):
        if at == len(lines) or not lines[at].strip():
            if start < at:
                yield start + 1, lines[start:at]
            start = at + 1


def spec_definitions(crate, path):
    """The definitions of a file of specs/."""
    text = read(path)
    module = path.partition("/specs/")[2].removesuffix(".antt").replace("/", ".")
    place, found = f"{crate}.specs.{module}", []
    for line, lines in blocks(text):
        lines = [it for it in lines if not IMPORT.match(it) and not it.startswith("pub mod ")]
        comment = [it for it in lines[: next((at for at, it in enumerate(lines) if not it.startswith("--")), len(lines))]]
        code = lines[len(comment) :]
        if code and HEAD.match(code[0]):
            found.append((HEAD.match(code[0])[1], line, comment, code))
    own = {word: f"{place}.{word}" for word, *_ in found}
    for word, line, comment, code in found:
        names = resolved(definition_words([it for it in code if not it.lstrip().startswith("--")]), imports_of(text), own)
        yield f"{place}.{word}", Definition(crate, word, path, line, tuple(comment), tuple(code), names - {f"{place}.{word}"})


@functools.cache
def definitions():
    """All definitions of specs/ in the repository, by their whole names."""
    return {name: it for crate in crates() for path in files(crate, "specs", ".antt") for name, it in spec_definitions(crate, path)}


def item_place(text, word):
    """Where the type, trait or constant of this name begins in a file of code, if it stands there."""
    return re.search(ITEM.format(re.escape(word)), text, re.M)


def item_lines(text, start):
    """The lines of an item from its place on: up to the brace or the semicolon that ends it."""
    depth, end = 0, start
    for end in range(start, len(text)):
        depth += {"{": 1, "}": -1}.get(text[end], 0)
        if (text[end] == "}" and not depth) or (text[end] == ";" and not depth):
            break
    return text[start : end + 1].split("\n")


def items_brought(crate, text):
    """The capitalised names that a file of code brings in from crates of the repository, each with its crate."""
    found = {}
    for place, listed, single in BROUGHT.findall(text):
        for name in (listed or single).split(","):
            found[name.strip()] = crate if place == "crate" else place
    return found


def code_names(crate, text, code):
    """The types of the repository that some lines of code speak of."""
    brought, words = items_brought(crate, text), set(CAPITALISED.findall(code))
    here = {word for word in words if item_place(text, word)}
    return {item_name(crate if word in here else brought[word], word) for word in words if word in here or word in brought} - {None}


@functools.cache
def item_files(crate):
    return {path: read(path) for path in files(crate, "src", ".rt") if "tests" not in path}


@functools.cache
def item_name(crate, word):
    """The whole name of the type, trait or constant of a crate, where it is one of the repository's."""
    path = next((path for path, text in item_files(crate).items() if item_place(text, word)), None) if crate in crates() else None
    return path and f"{crate}.src.{word}"


def without_variant(line):
    """A line of an item without the name of a variant, and without a comment."""
    return "" if line.lstrip().startswith("//") else re.sub(r"^    [A-Z]\w*(?=[({,])", "", line)


@functools.cache
def code_item(name):
    """The definition of a type, a trait or a constant of the code, with what contracts see of it."""
    crate, _, word = name.partition(".src.")
    path, text = next((path, text) for path, text in item_files(crate).items() if item_place(text, word))
    start = item_place(text, word).start()
    above = text[:start].rstrip("\n").split("\n")
    kept = len(above)
    while kept and above[kept - 1].startswith(("///", "#[")):
        kept -= 1
    code, model = item_lines(text, start), re.search(MODEL.format(re.escape(word)), text, re.M)
    seen = item_lines(text, model.start()) if model else []
    names = code_names(crate, text, "\n".join(map(without_variant, code))) | ghost_names(text, "\n".join(seen)) | promised_names(text, code)
    comment = tuple(it for it in above[kept:] if it.startswith("///"))
    whole = (*code, *([""] if seen else []), *seen)
    return Definition(crate, word, path, kept + 1, comment, whole, frozenset(names) - {name})


def promised_names(text, code):
    """The names of definitions in the clauses of a trait's methods."""
    block = "\n".join(it for it in code if not it.lstrip().startswith("//"))
    terms = [braced(block, it.end() - 1) for it in re.finditer(r"\b(?:requires|ensures)\*?(?: \w+)? \{", block)]
    return {whole_name(it) for term in terms for it in resolved(free_words(term), imports_of(text), {})} - {None}


def ghost_names(text, block):
    """The names of definitions in the ghost members of a block of code."""
    members = re.findall(r"ghost \w+ = \{(.*?)\};", block, re.S)
    return {whole_name(it) for member in members for it in resolved(free_words(member), imports_of(text + "\n" + block), {})} - {None}


@functools.cache
def whole_name(name):
    """The name of the definition or of the item that a name of the toolchain belongs to, where it is one of the repository's."""
    declared = DECLARED.search(name)
    if declared:
        return item_name(name.partition(".")[0], declared[2])
    parts = name.split(".")
    return next((".".join(parts[:end]) for end in range(len(parts), 2, -1) if ".".join(parts[:end]) in definitions()), None)


def definition(name):
    """The definition or the item of this whole name."""
    return definitions()[name] if name in definitions() else code_item(name)


@functools.cache
def names_in(name):
    """The whole names that a definition or an item of the code rests on by its own words."""
    return {it for it in map(whole_name, definition(name).names) if it} if name in definitions() else definition(name).names


@dataclass(frozen=True)
class Clause:
    """A clause of a contract: its function with what is said of it, its label, its text, and the whole names in it."""

    crate: str
    function: str
    said: str
    label: str
    text: str
    path: str
    line: int
    names: frozenset


FUNCTION = re.compile(r"^( *)(?:pub(?:\([a-z]+\))? )?(?:const )?fn (\w+)((?:(?!^ *(?:pub(?:\([a-z]+\))? )?(?:const )?fn ).)*?)^\1\{", re.M | re.S)
ENSURES = re.compile(r"\bensures\*?(?: (\w+))? \{")
PARAMETER = re.compile(r"\b(?:mut )?(\w+): ((?:[^,()<>\n]|<[^<>]*(?:<[^<>]*>[^<>]*)*>)+)")


def braced(text, start):
    """What stands between the brace at this place and the one that closes it."""
    depth = 0
    for at in range(start, len(text)):
        depth += {"{": 1, "}": -1}.get(text[at], 0)
        if not depth:
            return text[start + 1 : at]
    return text[start + 1 :]


@functools.cache
def clauses(crate):
    """What the functions of a crate promise, clause by clause."""
    return [it for path, text in item_files(crate).items() for function in FUNCTION.finditer(text) for it in clauses_of(crate, path, text, function)]


def clauses_of(crate, path, text, function):
    """The clauses of one function: their words are those of definitions, and its parameters stand for their types."""
    head, imports, said = function[3], imports_of(text), comment_above(text, function.start())
    signature = head.partition("requires")[0].partition("ensures")[0]
    types = dict(PARAMETER.findall(signature))
    for found in ENSURES.finditer(head):
        term = braced(head, found.end() - 1)
        words = list(free_words(term))
        named = {whole_name(it) for it in resolved(words, imports, {})} - {None}
        spoken = " ".join(types.get(it.split(".")[0], "") for it in words)
        named |= code_names(crate, text, with_bounds(spoken, types))
        yield Clause(crate, function[2], said, found[1] or "", term.strip(), path, text.count("\n", 0, function.start(3) + found.start()) + 1, frozenset(named))


def comment_above(text, start):
    """The doc comment that ends where a function begins, as one line."""
    lines = text[:start].rstrip("\n").split("\n")
    while lines and lines[-1].startswith("#["):
        lines.pop()
    kept = len(lines)
    while kept and lines[kept - 1].lstrip().startswith("///"):
        kept -= 1
    return " ".join(it.lstrip().removeprefix("///").strip() for it in lines[kept:])


def with_bounds(spoken, types):
    """The types of some parameters, each with what bounds it."""
    return " ".join([spoken, *(types[it] for it in CAPITALISED.findall(spoken) if it in types)])
