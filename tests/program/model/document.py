"""XML documents as Python's expat reads them."""

from xml.parsers import expat


class Element:
    """An element: its name, its attributes, and the elements and the text that stand directly in it."""

    def __init__(self, name, attributes):
        self.name = name
        self.attributes = attributes
        self.elements = []
        self.text = ""

    def named(self, name):
        """Returns the elements of this name that stand directly in it."""
        return [it for it in self.elements if it.name == name]


def read_document(text):
    """Reads a document: its root, or None where expat refuses it or it has a document type declaration."""
    open_elements, types = [Element("", {})], []

    def begin(name, attributes):
        element = Element(name, attributes)
        open_elements[-1].elements.append(element)
        open_elements.append(element)

    def add(more):
        open_elements[-1].text += more

    parser = expat.ParserCreate()
    parser.buffer_text = True
    parser.StartElementHandler = begin
    parser.EndElementHandler = lambda name: open_elements.pop()
    parser.CharacterDataHandler = add
    parser.StartDoctypeDeclHandler = lambda *names: types.append(names)
    try:
        parser.Parse(text, True)
    except (expat.ExpatError, ValueError, LookupError):
        return None
    return None if types else open_elements[0].elements[0]
