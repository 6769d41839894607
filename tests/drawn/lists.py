"""Lists of codes that are drawn at random: codes one a line, with wrong ones, blank lines and carriage returns among them."""
import drawn.inputs
import plain.answers as answers
import plain.cube
import plain.diagrams
from plain.codes import Ended

BLANK_LINES = (b"", b" ", b"\r", b"\t \r", b"  ")
NO_CODE = b"no code"


def is_far(line):
    """Whether a line is a code whose table takes a scan long: it has more generators than a cube may have."""
    try:
        code = plain.diagrams.code_of(answers.read(line))
    except Ended:
        return False
    return plain.cube.generator_count(code) > answers.GENERATORS


def some_line(draw):
    """A line: a code, a code with faults or any bytes, or blanks."""
    kind = draw.random()
    if kind < 0.15:
        return draw.choice(BLANK_LINES)
    line = drawn.inputs.code_text(draw).encode() if kind < 0.4 else drawn.inputs.some_input(draw, "homology")
    line = line.replace(b"\n", draw.choice((b" ", b"")))
    return (NO_CODE if is_far(line) else line) + b"\r" * (draw.random() < 0.1)


def some_list(draw, most=12):
    """Up to so many lines, the last of which may have no line feed."""
    lines = [some_line(draw) for _ in range(draw.randint(0, most))]
    return b"\n".join(lines) + b"\n" * (draw.random() < 0.7)
