"""Reads a page of HTML as a tree, and says what is wrong with it: elements that aren't closed, closed twice or unknown, whatever fetches or runs something, and
links that aren't paths, seen from the page."""
import re
from html.parser import HTMLParser

VOID, OPEN_AT_THE_END = {"meta", "input"}, ["html", "body"]
OF_PICTURES = {"svg", "title", "style", "rect", "path", "g", "text", "circle", "use", "symbol", "desc"}
ELEMENTS = {"html", "head", "title", "style", "script", "body", "header", "h1", "h2", "div", "button", "output", "details", "summary", "section", "span", "p",
            "ul", "li", "table", "thead", "tbody", "tr", "th", "td", "a"} | VOID | OF_PICTURES
FETCHING = ("src", "href", "srcset", "action", "formaction", "background", "poster", "ping", "srcdoc", "style", "xlink:href")
# A link that is a path: no byte of it ends a scheme, a query or a path, and it begins no name of a host.
PATH = re.compile("(?!//)[A-Za-z0-9._~/%-]+")


class Element:
    """An element with its attributes, the elements in it, and its own text and theirs."""

    def __init__(self, name, attributes):
        self.name, self.attributes, self.children, self.text = name, attributes, [], ""

    def all(self, *names):
        """The elements of these names in it, in order."""
        for child in self.children:
            if child.name in names:
                yield child
            yield from child.all(*names)

    def classed(self, name):
        """The first element in it that has this class, or None."""
        return next((child for child in self.walk() if child.attributes.get("class") == name), None)

    def walk(self):
        for child in self.children:
            yield child
            yield from child.walk()


class Page(HTMLParser):
    """A page: its root, and what is wrong with it."""

    def __init__(self, text):
        super().__init__(convert_charrefs=True)
        self.root, self.wrong = Element("", {}), []
        self.stack = [self.root]
        self.feed(text)
        self.close()
        if [element.name for element in self.stack[1:]] != OPEN_AT_THE_END:
            self.wrong.append(f"at the end stand open: {[element.name for element in self.stack[1:]]}")

    def start(self, name, pairs):
        attributes = dict(pairs)
        is_path = name == "a" and list(attributes) == ["href"] and PATH.fullmatch(attributes["href"] or "")
        fetching = [key for key in attributes if not is_path and (key.startswith("on") or key in FETCHING or "url(" in (attributes[key] or ""))]
        if name not in ELEMENTS or len(attributes) != len(pairs) or fetching:
            self.wrong.append(f"<{name}> with {pairs}")
        element = Element(name, attributes)
        self.stack[-1].children.append(element)
        return element

    def handle_starttag(self, tag, attrs):
        element = self.start(tag, attrs)
        if tag not in VOID:
            self.stack.append(element)

    def handle_startendtag(self, tag, attrs):
        self.start(tag, attrs)
        if not any(element.name == "svg" for element in self.stack):
            self.wrong.append(f"<{tag}/> outside of a picture")

    def handle_endtag(self, tag):
        if self.stack[-1].name != tag:
            self.wrong.append(f"</{tag}> in <{self.stack[-1].name}>")
        else:
            self.stack.pop()

    def handle_data(self, data):
        for element in self.stack[1:]:
            element.text += data

    def handle_comment(self, data):
        self.wrong.append(f"the remark {data!r}")

    def unknown_decl(self, data):
        self.wrong.append(f"the declaration {data!r}")

    def handle_pi(self, data):
        self.wrong.append(f"the instruction {data!r}")
