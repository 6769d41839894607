"""The HOMFLY polynomial of a link from its code: a P(+) - a^-1 P(-) = z P(0), and 1 for the unknot.

Nothing is taken from `kh` or from another program. The diagram is gone along from a first pass of each component on; at a crossing that is
come to below first, the skein relation makes two diagrams of it, one with the crossing changed and one with it smoothed. What is left where
no such crossing is are circles apart, and each but the first is (a - a^-1) / z.
"""
import re
from collections import Counter
from math import comb

import beside  # noqa: F401
import plain.diagrams

TERM = re.compile(r"([+-]?\d+)\*a\^(-?\d+)\*z\^(-?\d+)")


def passes(code):
    """The passes of each component in their order: the number of the crossing, negative where it goes under; and the sign of each."""
    crossings, after = plain.diagrams.accepted(code).crossings, plain.diagrams.followers(code)
    at = {it.under.enters: -number for number, it in enumerate(crossings, 1)}
    at.update({it.over.enters: number for number, it in enumerate(crossings, 1)})
    found = []
    for arcs in plain.diagrams.components(code):
        arc, them = arcs[0], []
        for _ in arcs:
            them.append(at[arc])
            arc = after[arc]
        found.append(tuple(them))
    return [*found, *[()] * code.loops], {number: 1 if it.positive else -1 for number, it in enumerate(crossings, 1)}


def without_curls(component):
    """The passes of a component, without crossings at which it comes back at once."""
    left = []
    for it in component:
        if left and left[-1] == -it:
            left.pop()
        else:
            left.append(it)
    while len(left) > 1 and left[0] == -left[-1]:
        left = left[1:-1]
    return tuple(left)


def first_below(components):
    """The component and the place of the first crossing that is come to below, or nothing."""
    seen = set()
    for number, them in enumerate(components):
        for place, it in enumerate(them):
            if abs(it) not in seen:
                if it < 0:
                    return number, place
                seen.add(abs(it))
    return None


def smoothed(components, number, place):
    """The components without the crossing of this pass, which is smoothed along its directions."""
    them, crossing = components[number], -components[number][place]
    if crossing in them:
        far = them.index(crossing)
        return [*components[:number], them[:place] + them[far + 1 :], them[place + 1 : far], *components[number + 1 :]]
    other = next(it for it, passed in enumerate(components) if crossing in passed)
    far = components[other].index(crossing)
    joined = them[:place] + components[other][far + 1 :] + components[other][:far] + them[place + 1 :]
    return [joined if it == number else passed for it, passed in enumerate(components) if it != other]


def changed(components, crossing):
    """The components with the strands of a crossing exchanged."""
    return [tuple(-it if abs(it) == crossing else it for it in them) for them in components]


def leaves(components, signs, at_a=0, at_z=0, sign=1):
    """The diagrams of circles apart that the skein relation ends with: exponents of a and z, the sign, and how many circles."""
    components = list(map(without_curls, components))
    found = first_below(components)
    if found is None:
        yield at_a, at_z, sign, len(components)
        return
    crossing = -components[found[0]][found[1]]
    kind = signs[crossing]
    # (P(+) = a^-2 P(-) + a^-1 z P(0), and P(-) = a^2 P(+) - a z P(0))
    yield from leaves(changed(components, crossing), {**signs, crossing: -kind}, at_a - 2 * kind, at_z, sign)
    yield from leaves(smoothed(components, *found), signs, at_a - kind, at_z + 1, sign * kind)


def homfly(code):
    """The terms of the HOMFLY polynomial, by the exponents of a and z; of a link with a component."""
    terms = Counter()
    for (at_a, at_z, circles), count in counted(leaves(*passes(code))).items():
        for place in range(circles):
            terms[at_a + circles - 1 - 2 * place, at_z - circles + 1] += count * (-1) ** place * comb(circles - 1, place)
    return {at: terms[at] for at in sorted(terms) if terms[at]}


def counted(found):
    """How often each leaf is there, with its sign."""
    counts = Counter()
    for at_a, at_z, sign, circles in found:
        counts[at_a, at_z, circles] += sign
    return counts


def mirrored(terms):
    """The polynomial of the mirror image."""
    return dict(sorted(((-at_a, at_z), count * (-1) ** at_z) for (at_a, at_z), count in terms.items()))


def text_of(terms):
    """A polynomial as a text: `2*a^-2*z^0 -1*a^-4*z^0`, ascending."""
    return " ".join(f"{count}*a^{at_a}*z^{at_z}" for (at_a, at_z), count in sorted(terms.items()))


def terms_of(text):
    """The polynomial of such a text."""
    return {(int(at_a), int(at_z)): int(count) for count, at_a, at_z in TERM.findall(text)}
