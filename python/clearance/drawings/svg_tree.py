"""The elements of an SVG document with their places, read by Python's expat.

Files that would grow without bound end here: entities that are declared, and elements in elements.
"""

from xml.parsers import expat

from .curves import Unusable

NAMESPACE = "http://www.w3.org/2000/svg"
XHTML = "http://www.w3.org/1999/xhtml"
HREF = "{http://www.w3.org/1999/xlink}href"
DEEP_MOST = 100
# Measured: so many take about two seconds.
ELEMENTS_MOST = 75_000


class Element:
    """An element, also as cssselect2 takes one: `tag` and `attrib` have names as {namespace}name. `name` is empty where it is no SVG."""

    __slots__ = ("tag", "name", "attrib", "parent", "children", "line", "column", "texts", "has_words")

    def __init__(self, tag, name, attrib, parent, line, column):
        self.tag, self.name, self.attrib, self.parent = tag, name, attrib, parent
        self.line, self.column = line, column
        self.children, self.texts, self.has_words = [], [], False

    def __iter__(self):
        return iter(self.children)

    def get(self, name, other=None):
        return self.attrib.get(name, other)

    @property
    def place(self):
        return self.line, self.column

    def __str__(self):
        own = self.attrib.get("id")
        return f"<{self.name}>" if own is None else f'<{self.name} id="{own[:40]}">'

    def subtree(self):
        """It and all below it, in the order of the document."""
        stack = [self]
        while stack:
            element = stack.pop()
            yield element
            stack.extend(reversed(element.children))

    def link(self):
        """What it refers to: href is above xlink:href."""
        return self.attrib.get("href", self.attrib.get(HREF, "")).strip()

    def is_style(self):
        return self.name == "style" or self.tag == f"{{{XHTML}}}style"


def braced(name):
    space, _, local = name.rpartition(" ")
    return f"{{{space}}}{local}" if space else local


class Document:
    """The tree of a document, its elements by id, and where other files give it styles."""

    def __init__(self, data):
        self.parser = expat.ParserCreate(namespace_separator=" ")
        self.parser.StartElementHandler = self.start
        self.parser.EndElementHandler = self.end
        self.parser.CharacterDataHandler = self.characters
        self.parser.EntityDeclHandler = self.entity
        self.parser.ProcessingInstructionHandler = self.instruction
        self.open, self.root, self.space = [], None, ""
        self.ids, self.twice, self.outside, self.deepest, self.count = {}, set(), [], 1, 0
        try:
            self.parser.Parse(data, True)
        except expat.ExpatError as error:
            raise Unusable(f"it is no XML: {expat.ErrorString(error.code)}", error.lineno, error.offset + 1) from error
        except (LookupError, ValueError) as error:
            raise Unusable(f"it is no XML: {error}") from error
        del self.parser

    def here(self):
        return self.parser.CurrentLineNumber, self.parser.CurrentColumnNumber + 1

    def entity(self, *_words):
        raise Unusable("it declares an entity in its DOCTYPE, and such files are not read", *self.here())

    def instruction(self, target, _data):
        if target == "xml-stylesheet":
            self.outside.append(Unusable("styles of another file are not read: put them into a <style>", *self.here()))

    def start(self, name, attributes):
        space, _, local = name.rpartition(" ")
        if self.root is None:
            if local != "svg" or space not in ("", NAMESPACE):
                raise Unusable(f"it is no SVG drawing: its root is <{local}>", *self.here())
            self.space = space
        if len(self.open) >= DEEP_MOST:
            raise Unusable(f"elements in elements go deeper than {DEEP_MOST}", *self.here())
        self.count += 1
        if self.count > ELEMENTS_MOST:
            raise Unusable(f"it has more than {ELEMENTS_MOST:,} elements", *self.here())
        above = self.open[-1] if self.open else None
        attrib = {braced(key): value for key, value in attributes.items()}
        element = Element(braced(name), local if space in (self.space, NAMESPACE) else "", attrib, above, *self.here())
        if above is None:
            self.root = element
        else:
            above.children.append(element)
        if element.tag == f"{{{XHTML}}}link":
            self.outside.append(Unusable("a <link> to another file is not read: put its styles into a <style>", *element.place))
        self.open.append(element)
        self.deepest = max(self.deepest, len(self.open))
        self.named(element)

    def named(self, element):
        """The first element with an id is the one that it stands for."""
        own = element.get("id")
        if own is not None and self.ids.setdefault(own, element) is not element:
            self.twice.add(own)

    def end(self, _name):
        element = self.open.pop()
        if self.open and element.has_words:
            self.open[-1].has_words = True

    def characters(self, text):
        if self.open:
            element = self.open[-1]
            element.has_words = element.has_words or not text.isspace()
            if element.is_style():
                element.texts.append(text)
