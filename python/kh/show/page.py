"""What all pictures have in common: their ground, their colours on a light and on a dark screen, and what a screen reader says of them."""
import hashlib
import math
import re
from html import escape

# The colours of components and circles, on a light and on a dark screen, and of all else.
COLOURS = (
    ("#0a5cad", "#6cb6ff"), ("#ad4a00", "#f69d50"), ("#1a7435", "#6bc46d"), ("#7a3aa8", "#dcbdfb"),
    ("#a8123e", "#ff93ac"), ("#00707a", "#52cfd6"), ("#6b5b00", "#d9c24a"), ("#59636e", "#b7bfc8"),
)
CLASSES = {f"colour{number}": pair for number, pair in enumerate(COLOURS)}
CLASSES.update(
    ground=("#ffffff", "#0d1117"), ink=("#1f2328", "#e6edf3"), faint=("#59636e", "#9198a1"), accent=("#b3261e", "#ff9492"),
    rule=("#d1d9e0", "#3d444d"), band=("#f6f8fa", "#161b22"), light=("#ffe0b0", "#6b4413"),
)
FONT = "system-ui,-apple-system,'Segoe UI',Helvetica,Arial,sans-serif"
# The most that a digit is broad, and the room of a text over and under its line, as parts of its size.
DIGIT, ABOVE, BELOW = 0.66, 0.76, 0.04


def colour_class(number):
    """The class of the strands and texts in the colour of this number."""
    return f"colour{number % len(COLOURS)}"


def style(rules, lines):
    """The style of a picture, with the class of the picture for it: its own rules, then the colours of the classes that its lines have,
    which are others on a dark screen."""
    used = {name for line in lines for names in re.findall(r'class="([^"]*)"', line) for name in names.split()}
    classes = {name: pair for name, pair in CLASSES.items() if name in used}
    light, dark = ("".join(f".{name}{{color:{pair[at]}}}" for name, pair in classes.items()) for at in (0, 1))
    return own_style(f"text{{font-family:{FONT};fill:currentColor}}{rules}{light}@media(prefers-color-scheme:dark){{{dark}}}")


def own_style(rules):
    """A class for these rules, and the style in which they are for it alone: other pictures of a notebook keep theirs."""
    name = f"kh-{hashlib.sha256(rules.encode()).hexdigest()[:8]}"
    scoped = re.sub(r"(?<![^{}])([^{}@]+)(?=\{)", lambda it: ",".join(f".{name} {one}" for one in it[1].split(",")), rules)
    return name, f"<style>{scoped}</style>"


def text_width(text, size):
    """A width that a text of this size does not exceed."""
    return size * DIGIT * len(text)


def number_text(value):
    """A length with one decimal at most."""
    text = f"{value:.1f}".removesuffix(".0")
    return "0" if text == "-0" else text


def text_at(x, y, text, more=""):
    return f'<text x="{number_text(x)}" y="{number_text(y)}"{more}>{escape(str(text))}</text>'


def path_of(points, more="", closed=False):
    """A path along a curve, whose points are as in `shape.py`."""
    texts = [f"{number_text(x)} {number_text(y)}" for x, y in points]
    parts = "".join("C" + " ".join(texts[at : at + 3]) for at in range(1, len(texts), 3))
    return f'<path{more} d="M{texts[0]}{parts}{"Z" if closed else ""}"/>'


def picture(edges, margin, title, description, rules, lines):
    """A picture of these lines, within a margin around these points, on its own ground, which makes it readable on every page."""
    left, right = (edge([at for at, _ in edges] or [0]) for edge in (min, max))
    top, bottom = (edge([at for _, at in edges] or [0]) for edge in (min, max))
    x, y = math.floor(left - margin), math.floor(top - margin)
    width, height = math.ceil(right + margin) - x, math.ceil(bottom + margin) - y
    size = f'width="{width}" height="{height}" viewBox="{x} {y} {width} {height}"'
    ground = f'<rect class="ground" x="{x}" y="{y}" width="{width}" height="{height}" rx="8" fill="currentColor"/>'
    name, rules = style(rules, [ground, *lines])
    head = f'<svg xmlns="http://www.w3.org/2000/svg" class="{name}" {size} role="img">'
    texts = [f"<title>{escape(title)}</title>", f"<desc>{escape(description)}</desc>", rules]
    return "\n".join([head, *texts, ground, *lines, "</svg>"]) + "\n"
