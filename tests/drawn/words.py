"""Words that are drawn at random for `tests/fuzz`: mostly a command with options that it can have, sometimes others, as text or bytes."""

VALUES = {
    "--field": ("2", "3", "5", "7"),
    "--workers": ("1", "2", "04", "8", "64"),
    "--to": ("pd", "gauss"),
    "--number": ("0", "1", "0000007", "349525", "1048575", "1048576", "9999999"),
    "--mark": ("1", "2", "0", "007", "41", "255"),
}
STRANGE_VALUES = (
    *("", "4", "0", "03", "65", "001", "+1", "-1", "1 ", " 2", "2\n", "two", "PD", "gauss ", "json", "00000000", "12345678", "256", "1000"),
    *("--", "--field", "-", "=", "\u0663", "3" * 60, "pd,gauss", "0x2", "1.0", "1e1", "\x01"),
)
STRANGE_WORDS = (
    *("", "-", "--", "---", "--help", "-h", "help", "--version", "-V", "version", "--fiel", "--Field=3", "-field", "-f3"),
    *("--field=", "--=3"),
    *("Homology", "homology ", "homolog", "homology\n", "trefoil.pd", "-3", "--threads=2", "--mark", "--to", "\ufeffcheck"),
    *("x" * 700, "--a=--b"),
)
BYTES = (b"\xff", b"homology\xff", b"--field=\xc3", b"\xed\xa0\x80", b"--to=\xfe", b"\x80\x80")


def option_words(draw, name, value):
    return [f"{name}={value}"] if draw.random() < 0.4 else [name, value]


def bench_number(draw, stored):
    """A number whose answer is stored, most often."""
    return str(draw.choice(stored)) if draw.random() < 0.7 else str(draw.choice((1_048_575, 1_048_576, 9_999_999, draw.randrange(2**20))))


def usual_words(draw, task, options, stored):
    """The command with a few options, in any order."""
    parts = [[task]]
    names = draw.sample(sorted(options), draw.choice((0, 0, 1, 1, 2)))
    for name in names:
        parts.append(option_words(draw, name, draw.choice(VALUES[name])))
    for needing, name in (("bench", "--number"), ("reduced", "--mark")):
        if task == needing and name not in names and draw.random() < 0.97:
            value = bench_number(draw, stored) if task == "bench" else str(draw.randint(0, 12))
            parts.append(option_words(draw, name, value))
    draw.shuffle(parts)
    if draw.random() < 0.03:
        parts.insert(draw.choice([len(parts), parts.index([task])]), ["--"])
    return [word for part in parts for word in part]


def spoiled(draw, words, options):
    """The words after a change: one left out, doubled, strange, with a strange value, or no text at all."""
    words, at = list(words), draw.randrange(len(words) + 1)
    kind = draw.randrange(7)
    if kind == 0:
        del words[at : at + 1]
    elif kind == 1:
        words[at:at] = words[at : at + 2]
    elif kind == 2:
        words.insert(at, draw.choice(STRANGE_WORDS))
    elif kind == 3:
        words[at:at] = option_words(draw, draw.choice(sorted(VALUES)), draw.choice(STRANGE_VALUES))
    elif kind == 4:
        draw.shuffle(words)
        words += [draw.choice(sorted(options))]
    elif kind == 5:
        words[at : at + 1] = ["".join(draw.choices("-=abfgw237\u00e9 \n", k=draw.randint(1, 12)))]
    else:
        words[at : at + draw.randint(0, 1)] = [draw.choice(BYTES)]
    return words


def some_words(draw, task, options, stored):
    words = usual_words(draw, task, options, stored)
    return spoiled(draw, words, options) if draw.random() < 0.06 else words


def some_scan_words(draw):
    """Words of `kh-scan`: mostly some that ask for one table or for those of a list, with a field or without one."""
    names = ["each"] * (draw.random() < 0.4)
    fields = (*VALUES["--field"], *(["all"] * 2 if names else []))
    parts = [names, option_words(draw, "--field", draw.choice(fields)) * (draw.random() < 0.6)]
    draw.shuffle(parts)
    words = [word for part in parts for word in part] + ["--"] * (draw.random() < 0.05)
    return spoiled(draw, words, VALUES) if draw.random() < 0.08 else words
