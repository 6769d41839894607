"""What a page says in words: polynomials, degrees, states, crossings and cells, as HTML."""
from .generators import MOST_LISTED

MINUS = "\u2212"
# What edges make of labels.
EDGES = (
    '<p class="note" id="edges">An edge makes of a generator a sum of others. Where two circles merge, v+ and v+ become v+; v+ and v− become '
    "v−; v− and v− become 0. Where one splits, v+ becomes v+ v− and also v− v+, and these two are added; v− becomes v− v−. The other circles "
    "keep their labels. The sum has the sign − where an odd number of ones stands before the crossing of the edge.</p>"
)


def signed(value):
    """A number with the sign that is printed."""
    return str(value).replace("-", MINUS)


def counted(count, thing, things=None):
    """So many of a thing."""
    return f"{count} {thing if count == 1 else things or thing + 's'}"


def power(letter, exponent):
    """A power of a letter; the exponent may be a text."""
    if exponent in (0, "0"):
        return ""
    return letter if exponent in (1, "1") else f"{letter}<sup>{signed(exponent)}</sup>"


def sum_of(terms):
    """A sum of terms, each a coefficient and a product of powers."""
    parts = []
    for count, powers in terms:
        size = "" if abs(count) == 1 and powers else str(abs(count))
        sign = f" {MINUS if count < 0 else '+'} " if parts else (MINUS if count < 0 else "")
        parts.append(f"{sign}{size}{powers}")
    return "".join(parts) or "0"


def polynomial_html(polynomial):
    """A polynomial in q and t."""
    return sum_of([(count, power("q", j) + power("t", i)) for (j, i), count in polynomial.terms.items()])


def knot_atlas_html(jones):
    """The same in t, with q = -t^(1/2)."""
    terms = []
    for (exponent, _), count in jones.terms.items():
        half = f"{exponent}/2" if exponent % 2 else exponent // 2
        terms.append((-count if exponent % 2 else count, power("t", half)))
    return sum_of(terms)


def listed(texts, last="and"):
    """Texts as a list in a sentence."""
    return f" {last} ".join(filter(None, (", ".join(texts[:-1]), texts[-1]))) if texts else ""


def fields_told(fields):
    return f"over {listed(list(map(str, fields)))} elements"


def circles_told(circles):
    """The circles of a state, each by its arcs."""
    return " ".join("{" + ",".join(map(str, it)) + "}" for it in circles)


def counts_told(counts):
    """What `kh check` counts."""
    parts = [
        f"{counted(counts['crossings'], 'crossing')} ({counts['plus']} positive, {counts['minus']} negative)",
        *(counted(counts[it], it[:-1]) for it in ("components", "pieces", "faces", "loops")),
    ]
    return f"{listed(parts)}"


def state_link(state, is_listed=True):
    """A link to a state; where states are not listed the script makes it one."""
    return f'<a href="#state-{state.text()}">{state.name()}</a>' if is_listed else f'<span class="state-name">{state.name()}</span>'


def generators_told(states):
    """Which states have generators at a pair of degrees: links to them where they are few, else how many there are by their ones."""
    total = sum(count for _, count, _ in states)
    if not states:
        return "No generator stands here."
    if len(states) <= 20:
        is_listed = len(states[0][0].bits) <= MOST_LISTED
        parts = [f"{state_link(state, is_listed)} ({count} with {minus_told(state, minuses)})" for state, count, minuses in states]
        return f"{counted(total, 'generator')}, in {counted(len(states), 'state')}: {', '.join(parts)}."
    return f"{counted(total, 'generator')}, in {len(states)} states with {counted(sum(states[0][0].bits), 'one')}."


def minus_told(state, minuses):
    """Which labels the circles of a state have."""
    return f"{len(state.circles) - minuses} v+ and {minuses} v{MINUS}"
