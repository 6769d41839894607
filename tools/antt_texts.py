"""The definitions of a file of proofs: where each has its type and its clauses, and what its clauses name."""
import re
from dataclasses import dataclass

TYPE = re.compile(r"^( *)(pub )?([^\s(){}]+) : (.*)$")
WORDS = "use ", "module ", "abbrev ", "record ", "data ", "ruleset", "mod "
NO_DEFINITION = (*WORDS, *(f"pub {it}" for it in WORDS), "where", "--")
CONSTRUCTORS = {"true", "false", "zero", "[]", "refl", "tt", "None", "inl", "inr"}
NAME = re.compile(r"[^\s(){}\[\],;.λ↦|]+")
PLAIN = re.compile(r"[^\s(){}\[\]]+")


@dataclass
class Definition:
    """A name, its indentation, the lines of its type, and those of each clause: from the first on, up to the last but one."""

    name: str
    indent: int
    type_lines: tuple
    clauses: list

    @property
    def lines(self):
        """The lines of all clauses."""
        return self.clauses[0][0], self.clauses[-1][1]


def indent_of(line):
    return len(line) - len(line.lstrip(" "))


def goes_on(lines, at, indent):
    """Whether a line belongs to what began with this indentation: it is deeper, or closes a bracket, or blank with deeper ones behind it."""
    if lines[at].strip():
        return indent_of(lines[at]) > indent or (indent_of(lines[at]) == indent and lines[at].lstrip()[0] in ")]}")
    behind = next((it for it in lines[at:] if it.strip()), "")
    return indent_of(behind) > indent and bool(behind)


def end_of(lines, at, indent):
    at += 1
    while at < len(lines) and goes_on(lines, at, indent):
        at += 1
    return at


def definitions(lines):
    """All definitions of a file, those of `where` and of modules too, in their order."""
    found, at = [], 0
    while at < len(lines):
        typed = TYPE.match(lines[at])
        if not typed or lines[at].lstrip().startswith(NO_DEFINITION):
            at += 1
            continue
        indent, name = len(typed[1]), typed[3]
        behind = end_of(lines, at, indent)
        begins = re.compile(" " * indent + re.escape(name) + r"(\s|$)")
        clauses, clause = [], behind
        while clause < len(lines) and begins.match(lines[clause]) and not TYPE.match(lines[clause]):
            clauses.append((clause, end_of(lines, clause, indent)))
            clause = clauses[-1][1]
        if clauses:
            found.append(Definition(name, indent, (at, behind), clauses))
        at = behind
    return found


def at_depth_0(text):
    """The places of a text that no bracket encloses, with their signs."""
    depth = 0
    for at, sign in enumerate(text):
        depth += (sign in "([{") - (sign in ")]}")
        if depth == 0:
            yield at, sign


def group_end(text, at):
    """The place behind the bracket that closes the one at a place."""
    return next((at + k + 1 for k, sign in at_depth_0(text[at:]) if sign in ")]}"), len(text))


def patterns(text):
    """The patterns that a text consists of."""
    found, at = [], 0
    while at < len(text):
        end = group_end(text, at) if text[at] in "([{" else at + len(re.match(r"[^\s(){}\[\]]*", text[at:])[0])
        if end > at:
            found.append(text[at:end])
        at = max(end, at + 1)
    return found


def head_and_body(definition, text):
    """A clause's patterns, and what stands behind its `=`; nothing where that is not found."""
    equals = next((at for at, sign in at_depth_0(text) if sign == "=" and text[at - 1 : at + 2].strip(" \n") == "="), None)
    if equals is None:
        return None
    return patterns(text[definition.indent + len(definition.name) : equals]), text[equals + 1 :]


def argument_names(kind):
    """The explicit arguments of a type by their names, and '' for each that has none."""
    arrows = [-1] + [at for at, sign in at_depth_0(kind) if sign == "→"]
    names = []
    for start, end in zip(arrows, arrows[1:]):
        part = kind[start + 1 : end].strip()
        groups = patterns(part)
        bound = [re.match(r"[({]\s*([^():]+?) : ", it) for it in groups]
        if not all(bound):
            names.append("")
            continue
        for group, names_of in zip(groups, bound):
            names += names_of[1].split() if group[0] == "(" else []
    return names


def applications(text, name):
    """The uses of a name in a text, each with the arguments behind it."""
    found = set()
    for use in re.finditer(r"(?<![^\s(\[,])" + re.escape(name) + r"(?=[\s)\],;]|$)", text):
        at, words = use.end(), [name]
        while True:
            at += len(re.match(r"\s*", text[at:])[0])
            if at >= len(text) or text[at] in ")],∙;=":
                break
            end = group_end(text, at) if text[at] in "([{" else at + len(re.match(r"[^\s(){}\[\],;]*", text[at:])[0])
            word = " ".join(text[at:end].split())
            if end == at or word in ("in", "λ", "where", "let") or not re.search(r"\w", word):
                break
            words.append(word)
            at = end
        found.add(" ".join(words))
    return sorted(found)
