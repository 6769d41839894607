"""Inputs that are drawn at random for `tests/fuzz`: codes by their grammars, with few faults or many, scripts, and bytes.

Each function is given a source of draws. What an input comes to is not known here: the plain readings say it.
"""
import json
import re

import drawn.logs
import drawn.moves as draws
import plain.answers as answers
import plain.cube
import plain.diagrams as codes
import plain.logs
import plain.moves as moves
from rows.log import CURL
from bench.braids import closure

BLANKS = (" ", " ", "\n", "\t", "\r\n", "  ", " \t\r\n")
STRANGE = ("\f", "\v", "\0", "\u00a0", "\ufeff", "\u0663", *"-+;][{},Gx\"\\.", "--", "PD", "Loop", "1e9")
BREAKS = (b"\xff", b"\xc3", b"\xed\xa0\x80", b"\xf4\x90\x80\x80", b"\xc0\x80", b"\x00", b"\x1f", b"\x7f", b"\xef\xbb\xbf")
NUMBERS = (0, 1, 2, 7, 20, 21, 40, 41, 254, 255, 256, 257, 65_535, 65_536, 65_537, 2**31, 2**32 + 1, 2**63, 2**64 - 1, 2**64, 10**30)
TOKEN = re.compile(r"[A-Za-z]+|-?[0-9]+|\s+|.", re.S)

STARTS = (
    *("PD[]", "PD[Loop[1]]", "PD[X[1,1,2,2]]", "PD[X[2,1,1,2], Loop[7]]", "PD[X[1,4,2,5], X[3,6,4,1], X[5,2,6,3]]"),
    *("PD[X[4,1,3,2],X[2,3,1,4]]", "PD[X[1,4,2,3], X[2,4,1,3]]", "PD[X[4,2,5,1], X[8,6,1,5], X[6,3,7,4], X[2,7,3,8]]"),
    *("PD[X[1,2,1,2]]", "PD[X[1,5,2,4], X[3,6,4,1], X[5,2,6,3]]", "PD[X[1,4,2,3], X[1,4,2,3]]", "PD[X[1,1,2,3], X[3,2,4,4]]"),
    *("PD[X[1,1,2,2],X[3,3,4,4],X[5,5,6,6]]", "PD[X[5,2,6,1], X[3,3,4,2], X[4,5,1,6]]", "PD[X[1,6,2,5], X[4,6,1,5], X[2,4,3,3]]"),
    *("GaussCode[-1, 3, -2, 1, -3, 2] Signs[-1, -1, -1]", "GaussCode[{-1,-2},{2,1}]Signs[1,-1]", "GaussCode[{1,-1},{}]Signs[-1]"),
    *("GaussCode[]", "GaussCode[{}]Signs[]", "GaussCode[1,2,-1,-2]Signs[-1,-1]", "[]", "[[1,1,2,2]]", "[[1,4,2,5],[3,6,4,1],[5,2,6,3]]"),
    *('[[1,1,2,"a"]]', '[[1,1,2,2.0],{"b":[null,true]}]', "[0,[1,2,3,4,5]]", "[1e400]", '["\\ud834\\udd1e"]'),
)
FIRST_DIAGRAMS = ("PD[X[1,1,2,2]]", "PD[X[4,1,3,2], X[2,3,1,4]]", "PD[X[1,1,2,2], X[3,3,4,4], Loop[1]]")
OTHER_LOGS = (CURL, "log 1\nPD[X[1,2,1,2]]\n", "log 1\nPD[Loop[1]]\n")
LOG_HEADS = ("log 1", "log 1", "log 1", "log 1", "log 2", "log 01", "log", "")
LOG_DEGREES = (0, 0, 1, -1, 2, -2, 3, -3, 5, -5, 20, -20, 88, -88, 999, -999, 1000, "-0", "01", "+1", "")
LOG_PLACES = (0, 0, 0, 1, 1, 2, 3, 5, 23, 4_194_303, 9_999_999, 10_000_000, 2**32, 2**64, "00", "-0", -1, "+1", "")
FEW_GENERATORS = 3_000
STRANGE_NUMBERS = tuple("01 1. .5 1e5 1E+2 - -1 +1 1e400 1e-400 0e999999999 NaN Infinity -0 0x1 1_0 tru".split())
STRANGE_TEXTS = ('"\\u0000"', '"\\ud800"', '"\\udc00\\ud800"', '"\\ud83d\\ude00"', '"\\x"', "'a'", '"a', '"\\', '"\t"', "//\n1", "1,", ",")
FILLERS = (*" \n0,[]{-A;\xff\"", "X[1,1,2,2],", "Loop[1],", "1,", "\n;", "undo\n", "commit 1\n")


def braid_code(draw):
    """The code of a closed braid of a few letters."""
    strands = draw.randint(2, 4)
    letters = [draw.choice((1, -1)) * draw.randint(1, strands - 1) for _ in range(draw.choice((0, 1, 2, 3, 4, 5, 5, 6, 8, 12, 20, 21)))]
    crossings, loops = closure(strands, letters)
    return codes.Code(tuple(map(tuple, crossings)), loops)


def moved_code(draw):
    """A small code after some moves that can be made."""
    diagram = codes.accepted(codes.read(draw.choice(FIRST_DIAGRAMS)))
    for _ in range(draw.randint(0, 8)):
        try:
            diagram = moves.moved(diagram, draws.good_line(draw, diagram))
        except codes.Refused:
            pass
    return codes.code_of(diagram)


def paired_code(draw):
    """Each arc at two slots, as it falls."""
    count = draw.choice((1, 1, 2, 2, 2, 3, 3, 4, 6))
    arcs = [*range(1, 2 * count + 1)] * 2
    draw.shuffle(arcs)
    return codes.Code(tuple(tuple(arcs[at : at + 4]) for at in range(0, 4 * count, 4)), draw.choice((0, 0, 0, 1, 8, 9)))


def any_numbers(draw):
    """Crossings of any numbers, most of them of arcs that there are."""
    count = draw.choice((0, 1, 1, 2, 2, 3, 4, 19, 20, 21, 60))
    number = lambda: draw.choice(NUMBERS) if draw.random() < 0.1 else draw.randint(0, 2 * count + 1)
    return codes.Code(tuple(tuple(number() for _ in range(4)) for _ in range(count)), draw.choice((0, 0, 0, 1, 2, 8, 9, 60)))


def curls_code(draw):
    count = draw.choice((1, 2, 3, 7, 8, 9, 19, 20, 21))
    crossings = tuple((arc, arc, arc + 1, arc + 1) for arc in range(1, 2 * count, 2))
    return codes.Code(crossings, draw.choice((0, 0, 1, 7, 8, 9)))


def some_code(draw):
    """A code of some kind; every other one has some arcs changed."""
    kind = draw.choice((braid_code, braid_code, moved_code, moved_code, paired_code, any_numbers, curls_code))
    code = kind(draw)
    return draws.changed_code(draw, code) if code.crossings and draw.random() < 0.45 else code


def gauss_text(draw):
    """A Gauss text: labels in groups as they fall, with signs, few of them wrong."""
    count = draw.choice((0, 1, 1, 2, 2, 3, 3, 4, 6, 20, 21))
    labels = [sign * label for label in range(1, count + 1) for sign in (1, -1)]
    if draw.random() < 0.7:
        draw.shuffle(labels)
    if labels and draw.random() < 0.2:
        labels[draw.randrange(len(labels))] = draw.choice((*NUMBERS, -1, 1, count, -count))
    if labels and draw.random() < 0.1:
        labels.insert(draw.randrange(len(labels)), draw.choice(labels))
    signs = [draw.choice((1, -1)) for _ in range(count + draw.choice((0,) * 12 + (1, -1)))]
    if signs and draw.random() < 0.1:
        signs[draw.randrange(len(signs))] = draw.choice((0, 2, -2, 10, 65_535))
    return f"GaussCode[{gauss_body(draw, labels)}]" + ("" if draw.random() < 0.1 else f" Signs[{','.join(map(str, signs))}]")


def gauss_body(draw, labels):
    """The labels as one component, or cut into groups."""
    if draw.random() < 0.35:
        return ",".join(map(str, labels))
    cuts = sorted(draw.choices(range(len(labels) + 1), k=draw.choice((0, 1, 1, 2, 3, 9))))
    groups = [labels[low:high] for low, high in zip([0, *cuts], [*cuts, len(labels)])]
    return ",".join(f"{{{','.join(map(str, group))}}}" for group in groups)


def json_value(draw, depth=0):
    """Some JSON value."""
    kind = draw.randrange(9 if depth < 4 else 6)
    if kind == 0:
        return draw.choice((None, True, False, "", "x", "\ud7ff\ue000", "\U0001d11e", "\x7f", 2.0, -0.0, 1e300, 0.1))
    if kind < 6:
        return draw.choice(NUMBERS) if draw.random() < 0.3 else draw.randint(-1, 9)
    if kind < 8:
        return [json_value(draw, depth + 1) for _ in range(draw.randint(0, 5))]
    return {draw.choice("abc"): json_value(draw, depth + 1) for _ in range(draw.randint(0, 3))}


def json_text(draw):
    """A list of JSON values, or one that nests deep, or one with a number or a text that is spelled strangely."""
    if draw.random() < 0.1:
        depth = draw.choice((3, 126, 127, 128, 129, 2_000, 30_000))
        return draw.choice(("[", "[[1,1,2,2],", '[{"a":')) + "[" * (depth - 1) + "]" * (depth - 1) + draw.choice(("]", "}]", ""))
    text = json.dumps([json_value(draw) for _ in range(draw.choice((0, 1, 1, 2, 3, 20, 21, 22)))], ensure_ascii=draw.random() < 0.5)
    return re.sub(r"\d+", lambda it: draw.choice(STRANGE_NUMBERS + STRANGE_TEXTS) if draw.random() < 0.1 else it.group(), text)


def code_text(draw):
    """The text of a code, in one of the three forms."""
    if draw.random() < 0.2:
        return gauss_text(draw)
    if draw.random() < 0.1:
        return json_text(draw)
    code = some_code(draw)
    form = draw.random()
    if form < 0.15 and not codes.fault_of(code):
        return answers.printed_gauss(codes.accepted(code))
    return str([list(slots) for slots in code.crossings]) if form > 0.8 else codes.printed(code)


def respelled(draw, text):
    """The text with other blanks between tokens and other spellings of numbers, and sometimes with a token too few or too many."""
    tokens = [it for it in TOKEN.findall(text) if not it.isspace()]
    faults = draw.choice((0, 0, 0, 1, 1, 2)) if tokens else 0
    for _ in range(faults):
        at = draw.randrange(len(tokens))
        other = draw.choice((*STRANGE, *tokens, str(draw.choice(NUMBERS))))
        tokens[at : at + draw.randint(0, 1)] = draw.choice(([], [other], [tokens[at], tokens[at]], [other, tokens[at]]))
    pieces = []
    for token in tokens:
        if token.isdigit() and draw.random() < 0.1:
            token = "0" * draw.choice((1, 2, 300)) + token
        pieces += [token, draw.choice(BLANKS) if draw.random() < 0.3 else ""]
    return draw.choice(("", "", *BLANKS)) + "".join(pieces)


def schedule_lines(draw):
    """Lines of a schedule, most of them of a few workers and near degrees."""
    for _ in range(draw.choice((0, 1, 3, 8, 20, 60))):
        strange = draw.random() < 0.03
        worker = draw.choice((64, 9, "01", "009", 0, 65, "+1", "")) if strange else draw.randint(1, 3)
        degree = draw.choice(("-0", "-00", "007", 88, -88, 999, "+1", "1000", "--1", "")) if strange else draw.randint(-9, 3)
        look, commit = f"look {worker} {degree}", f"commit {worker}"
        yield draw.choice((look, look, commit, commit, f"forget {worker}", ""))


def script(draw, text, task):
    """A script for an accepted code of a text, or for none."""
    try:
        diagram = answers.read(text.encode())
    except answers.Ended:
        diagram = None
    if task == "schedule" or diagram is None:
        lines = list(schedule_lines(draw)) + ["undo"] * (task == "edit")
    else:
        editor = moves.Editor(diagram)
        lines = list(draws.carried_out(editor, (draws.next_line(draw, editor) for _ in range(draw.randint(1, 12)))))
    return draws.script_of(draw, lines or [""])


def diagram_line(draw):
    """The line of a diagram in a log: a code of any kind, but none with a large cube."""
    text = respelled(draw, codes.printed(some_code(draw))).replace("\n", " ")
    try:
        size = plain.cube.generator_count(codes.code_of(answers.read(text.encode())))
    except answers.Ended:
        return text
    return draw.choice(FIRST_DIAGRAMS) if FEW_GENERATORS < size <= answers.GENERATORS else text


def log_lines(draw):
    """Lines by the grammar of logs, with numbers as they fall, and few strange ones."""
    degree, place = lambda: draw.choice(LOG_DEGREES), lambda: draw.choice(LOG_PLACES)
    yield from (draw.choice(LOG_HEADS), diagram_line(draw), f"field {draw.choice((2, 3, 5, 7, 7, 4, '03', ''))}")
    yield f"block {degree()}" if draw.random() < 0.9 else "table 2"
    for _ in range(draw.choice((0, 1, 3, 8, 20))):
        cancel = f"cancel {degree()} {place()} {place()}"
        yield draw.choice((cancel, cancel, f"block {degree()}", "table 2", f"j {degree()} i {degree()} dim {place()}"))


def log_text(draw):
    """A log of a small diagram, most often edited; or lines as they fall."""
    if draw.random() < 0.3:
        return "\n".join(log_lines(draw)) + "\n" * draw.choice((0, 1, 1, 2))
    diagram = codes.accepted(codes.read(draw.choice(FIRST_DIAGRAMS)))
    for _ in range(draw.choice((0, 0, 1, 2))):
        try:
            diagram = moves.moved(diagram, draws.good_line(draw, diagram))
        except codes.Refused:
            pass
    diagram = diagram if len(diagram.crossings) <= 4 else codes.accepted(codes.read(FIRST_DIAGRAMS[0]))
    log = plain.logs.written(diagram, draw.choice((2, 3, 5, 7)), lambda pivots: draw.choice(sorted(pivots)))
    for _ in range(draw.choice((0, 1, 1, 1, 2))):
        log = drawn.logs.edited(draw, log, [log, *OTHER_LOGS]) or "log 1\n"
    return log


def broken(draw, given):
    """The bytes after a few changes at any place."""
    given = bytearray(given)
    for _ in range(draw.choice((1, 1, 1, 2, 4, 16))):
        at, far = sorted(draw.randrange(len(given) + 1) for _ in range(2))
        part = given[at : min(far, at + draw.choice((1, 1, 4, 50)))]
        new = (b"", bytes([draw.randrange(256)]), part + part, draw.choice(BREAKS), draw.choice(STRANGE).encode(), bytes(part[::-1]))
        given[at : at + len(part)] = draw.choice(new)
    return bytes(given)


def long_input(draw):
    """An input near the limit of bytes, or of thousands of tokens, digits, lines or marks."""
    size = draw.choice((5_000, 65_000, 65_535, 65_536, 65_537, 65_538, 70_000, 200_000))
    start = draw.choice(STARTS)
    filler = draw.choice(FILLERS)
    place = draw.choice((0, len(start), len(start), start.find(",") + 1, start.find("[") + 1))
    text = start[:place] + draw.choice(("", ";")) + filler * (size // len(filler)) + start[place:]
    return text.encode("latin-1")[:size] + start[place:].encode("latin-1") * (draw.random() < 0.5)


def some_input(draw, task):
    """An input for a task: a code, often respelled; with a script where it takes one; sometimes bytes that were broken, or any."""
    kind = draw.random()
    if kind < 0.02:
        return draw.randbytes(draw.choice((0, 1, 2, 10, 100, 3_000)))
    if kind < 0.03:
        return long_input(draw)
    if task == "verify" and kind < 0.95:
        given = log_text(draw).encode()
        return broken(draw, given) if draw.random() < 0.1 else given
    text = draw.choice(STARTS) if kind < 0.2 else code_text(draw)
    if draw.random() < 0.4:
        text = respelled(draw, text)
    given = text.encode(errors="surrogatepass")
    if task == "union" and draw.random() < 0.9:
        given += b";" + draw.choice((code_text, lambda draw: draw.choice(STARTS)))(draw).encode(errors="surrogatepass")
    elif task in answers.SCRIPTED and draw.random() < 0.9 or draw.random() < 0.02:
        given += b";" + script(draw, text, task).encode()
    return broken(draw, given) if draw.random() < 0.25 else given
