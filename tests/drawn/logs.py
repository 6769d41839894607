"""Logs that are changed at random, for `logs.py` and `tests/fuzz`. Whether they are still good is not known here."""

WORDS = ("cancel 0 0 0", "cancel 0 0", "cancel -1 0 0", "block 1", "block -1", "block", "table 2", "log 1", "", " ", "field 3", "end")
SPELLINGS = ("00", "-0", "+1", "1 ", " 1", "-1", "1000", "12345678", "9999999", "1\r", "1.0", "\u0661", "")


def edited(draw, log, others):
    """The log after a change."""
    lines = log.split("\n")
    at, far = (draw.randrange(len(lines)) for _ in range(2))
    kind = draw.randrange(12)
    if kind == 0:
        return changed_digit(draw, log)
    if kind == 1:
        del lines[at]
    elif kind == 2:
        lines.insert(at, lines[at])
    elif kind == 3:
        lines[at], lines[far] = lines[far], lines[at]
    elif kind == 4:
        lines.insert(far, lines.pop(at))
    elif kind == 5:
        return moved_to_the_next_block(draw, lines)
    elif kind == 6:
        lines[2:3] = [f"field {draw.choice('2357469')}"]
    elif kind == 7:
        lines[1:2] = draw.choice(others).split("\n")[1:2]
    elif kind == 8:
        return log[: draw.randrange(len(log))]
    elif kind == 9:
        lines[at] = draw.choice(WORDS)
    elif kind == 10:
        words = lines[at].split(" ")
        words[draw.randrange(len(words))] = draw.choice(SPELLINGS)
        lines[at] = " ".join(words)
    else:
        return log[: draw.randrange(len(log))] + draw.choice("\0\r\n \t-09jx\u00e9") + log[draw.randrange(len(log)) :]
    return "\n".join(lines)


def changed_digit(draw, log):
    """Another digit, or the same, stands where one stood; a log without a digit stays as it is."""
    places = [at for at, letter in enumerate(log) if letter.isdigit()]
    if not places:
        return log
    at = draw.choice(places)
    return log[:at] + draw.choice("0123456789") + log[at + 1 :]


def moved_to_the_next_block(draw, lines):
    """A cancellation stands behind the head of the block that follows."""
    steps = [at for at, line in enumerate(lines) if line.startswith("cancel ")]
    if steps:
        at = draw.choice(steps)
        behind = [far for far in range(at, len(lines)) if lines[far].startswith("block ")]
        lines.insert(behind[0] if behind else len(lines) - 1, lines.pop(at))
    return "\n".join(lines)
