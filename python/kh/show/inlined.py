"""Pictures without a style of their own, for notebooks: what a style says of a class stands as attributes at each element."""
import re

STYLE = re.compile(r"<style>(.*?)</style>\n?", re.S)
RULE = re.compile(r"([^{}@]+)\{([^{}]*)\}")
DARK = re.compile(r"@media\([^)]*\)\{(?:[^{}]*\{[^{}]*\})*\}")
ELEMENT = re.compile(r"<(rect|path|circle|line|text|g|polygon)\b([^<>]*?)(/?)>")
CLASS = re.compile(r' class="([^"]*)"')


def rules_of(svg):
    """What the style of a picture says on a light screen: for each class or element the properties, in their order."""
    found = STYLE.search(svg)
    rules = []
    for selectors, body in RULE.findall(DARK.sub("", found[1]) if found else ""):
        properties = dict(it.split(":", 1) for it in body.split(";") if ":" in it)
        rules += [(one.split()[-1], properties) for one in selectors.split(",")]
    return rules


def inlined(svg: str) -> str:
    """The picture with attributes in place of its style."""
    rules = rules_of(svg)

    def written(found):
        name, attributes, closing = found.groups()
        classes = CLASS.search(attributes)
        wanted = {name, *(f".{it}" for it in (classes[1].split() if classes else ()))}
        properties = {}
        for selector, them in rules:
            if selector in wanted:
                properties.update(them)
        own = dict(re.findall(r' ([\w-]+)="([^"]*)"', CLASS.sub("", attributes)))
        every = {**own, **{key: value for key, value in properties.items() if key != "font-family"}}
        colour = every.pop("color", "#1f2328")
        texts = (f'{key}="{colour if value == "currentColor" else value}"' for key, value in every.items())
        return f"<{' '.join([name, *texts])}{closing}>"

    body = CLASS.sub("", STYLE.sub("", svg), count=1)
    return ELEMENT.sub(written, body)
