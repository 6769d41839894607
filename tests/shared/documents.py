"""Reads a file of HTML into elements, as far as the pages of `show/page` need it, and refuses what is not well nested."""
from html.parser import HTMLParser

VOID = {"meta", "link", "br", "img", "input"}


class Element:
    """An element: its tag, its attributes, what is in it (elements and texts), and the element that it is in."""

    def __init__(self, tag, attributes, parent):
        self.tag, self.attributes, self.parent, self.inside = tag, attributes, parent, []

    def all(self, tag=None, **attributes):
        """The elements below with this tag and these attributes, in their order; `class_` is one of the classes."""
        wanted = attributes.pop("class_", None)
        for it in self.inside:
            if isinstance(it, Element):
                right = (tag is None or it.tag == tag) and all(it.attributes.get(name) == value for name, value in attributes.items())
                if right and (wanted is None or wanted in it.attributes.get("class", "").split()):
                    yield it
                yield from it.all(tag, **attributes, **({"class_": wanted} if wanted else {}))

    def one(self, tag=None, **attributes):
        """The only one of these."""
        found = list(self.all(tag, **attributes))
        if len(found) != 1:
            raise ValueError(f"{len(found)} elements {tag} {attributes}")
        return found[0]

    def text(self):
        """The text, with single blanks."""
        return " ".join("".join(self.texts()).split())

    def texts(self):
        for it in self.inside:
            if isinstance(it, Element):
                yield from it.texts()
            else:
                yield it


class Reader(HTMLParser):
    """Builds the elements."""

    def __init__(self):
        super().__init__(convert_charrefs=True)
        self.root = self.at = Element("", {}, None)

    def handle_starttag(self, tag, attrs):
        if len(dict(attrs)) != len(attrs):
            raise ValueError(f"an attribute stands twice: {self.get_starttag_text()}")
        it = Element(tag, dict(attrs), self.at)
        self.at.inside.append(it)
        if tag not in VOID:
            self.at = it

    def handle_startendtag(self, tag, attrs):
        self.handle_starttag(tag, attrs)
        if tag not in VOID:
            self.at = self.at.parent

    def handle_endtag(self, tag):
        if self.at.tag != tag:
            raise ValueError(f"</{tag}> in <{self.at.tag}>")
        self.at = self.at.parent

    def handle_data(self, data):
        self.at.inside.append(data)


def read(text):
    """The element that has all of a file."""
    reader = Reader()
    reader.feed(text)
    reader.close()
    if reader.at is not reader.root:
        raise ValueError(f"<{reader.at.tag}> is not closed")
    return reader.root
