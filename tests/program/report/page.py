"""Reads a page of a report: strict about nesting, and about what a page may have."""

from html.parser import HTMLParser

ELEMENTS = set("html head title style body main section h1 h2 p table caption thead tbody tr th td a bdi svg rect".split())
ATTRIBUTES = set(
    "lang charset name content http-equiv class href rel scope aria-hidden viewbox preserveaspectratio width height".split()
)
POLICY = "default-src 'none'; style-src 'unsafe-inline'"
# which elements may lie in which
INSIDE = {
    "head": {"html"}, "body": {"html"}, "title": {"head"}, "style": {"head"}, "main": {"body"}, "h1": {"main"}, "section": {"main"},
    "h2": {"section"}, "p": {"main", "section"}, "table": {"section"}, "thead": {"table"}, "tbody": {"table"}, "tr": {"thead", "tbody"},
    "th": {"tr"}, "td": {"tr"}, "bdi": {"td"}, "a": {"td"}, "svg": {"td"}, "rect": {"svg"},
}


class Page(HTMLParser):
    """Reads a page, and fails where an element isn't closed in its place, or isn't one of those that pages have."""

    def __init__(self, text):
        super().__init__(convert_charrefs=True)
        self.stack, self.metas = [], []
        self.title = self.heading = self.about = ""
        self.tables = []  # a title, a note, the names of columns, and rows of cells
        assert text.startswith("<!DOCTYPE html><html "), text[:60]
        self.feed(text)
        self.close()
        assert self.stack == [], self.stack
        assert {"http-equiv": "Content-Security-Policy", "content": POLICY} in self.metas

    def handle_starttag(self, tag, attributes):
        assert all(name in ATTRIBUTES for name, _ in attributes), attributes
        values = dict(attributes)
        if tag == "meta":
            assert self.stack[-1] == "head", self.stack
            self.metas.append(values)
            return
        assert tag in ELEMENTS, tag
        assert self.stack[-1:] == [] if tag == "html" else self.stack[-1] in INSIDE[tag], (tag, self.stack)
        self.stack.append(tag)
        if tag == "section":
            self.tables.append(["", "", [], []])
        if tag == "th":
            self.tables[-1][2].append("")
        if tag == "tr" and "tbody" in self.stack:
            self.tables[-1][3].append([])
        if tag == "td":
            self.tables[-1][3][-1].append(("amount", "") if values.get("class") == "n" else ("words", ""))
        if tag == "a":
            assert values["href"].startswith("https://www.nationalarchives.gov.uk/PRONOM/"), values
            self.tables[-1][3][-1][-1] = ("link", values["href"], "")
        if tag == "rect":
            self.tables[-1][3][-1][-1] = ("bar", int(values["width"]))

    def handle_startendtag(self, tag, attributes):
        raise AssertionError(tag)

    def handle_endtag(self, tag):
        assert self.stack and self.stack[-1] == tag, (tag, self.stack)
        if tag == "td":
            row = self.tables[-1][3][-1]
            if row[-1][0] == "amount":
                row[-1] = ("amount", int(row[-1][1]))
        self.stack.pop()

    def handle_comment(self, data):
        raise AssertionError(data)

    def handle_pi(self, data):
        raise AssertionError(data)

    def handle_decl(self, decl):
        assert decl == "DOCTYPE html" and self.stack == [], decl

    def handle_data(self, data):
        where = self.stack[-1]
        if where == "title":
            self.title += data
        elif where == "h1":
            self.heading += data
        elif where == "p" and not self.tables:
            self.about += data
        elif where == "h2":
            self.tables[-1][0] += data
        elif where == "p":
            self.tables[-1][1] += data
        elif where == "th":
            self.tables[-1][2][-1] += data
        elif where in ("td", "bdi", "a"):
            row = self.tables[-1][3][-1]
            row[-1] = (*row[-1][:-1], row[-1][-1] + data)
        else:
            assert where == "style", (where, data)
