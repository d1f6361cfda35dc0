"""A page as a tree, of the text that Chromium dumps of it."""
from html.parser import HTMLParser

VOID = {'meta', 'br', 'link', 'img', 'hr', 'input', 'base'}


class Node:
    def __init__(self, tag, attributes):
        self.tag, self.attributes, self.children = tag, attributes, []

    def __getitem__(self, name):
        return self.attributes.get(name)

    @property
    def classes(self):
        return (self['class'] or '').split()

    def text(self):
        return ''.join(child if isinstance(child, str) else child.text() for child in self.children)

    def all(self, tag=None, class_=None):
        """Every node below this one, in the order of the page."""
        for child in self.children:
            if isinstance(child, Node):
                if tag in (None, child.tag) and (class_ is None or class_ in child.classes):
                    yield child
                yield from child.all(tag, class_)

    def one(self, tag=None, class_=None):
        found = list(self.all(tag, class_))
        if len(found) != 1:
            raise Missing(f'{len(found)} of {tag or ""}{"." + class_ if class_ else ""} in {self.tag}{"#" + self["id"] if self["id"] else ""}')
        return found[0]

    def by_id(self, name):
        found = [node for node in self.all() if node['id'] == name]
        if len(found) != 1:
            raise Missing(f'{len(found)} of #{name}')
        return found[0]


class Missing(Exception):
    """The page lacks a part that the check looks for, or has it twice."""


class Reader(HTMLParser):
    def __init__(self):
        super().__init__()
        self.root = Node('page', {})
        self.open = [self.root]

    def handle_starttag(self, tag, attrs):
        node = Node(tag, dict(attrs))
        self.open[-1].children.append(node)
        if tag not in VOID:
            self.open.append(node)

    def handle_endtag(self, tag):
        if self.open[-1].tag != tag:
            raise Missing(f'</{tag}> closes {self.open[-1].tag}')
        self.open.pop()

    def handle_data(self, data):
        self.open[-1].children.append(data)


def read(text):
    reader = Reader()
    reader.feed(text)
    reader.close()
    return reader.root
