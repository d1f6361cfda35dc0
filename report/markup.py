"""Elements of HTML and SVG as text. Content is markup; `text` makes it of words."""
from html import escape


def text(words):
    return escape(str(words), quote=False)


def tag(name, *content, **attributes):
    """An attribute is written with hyphens for its underscores, without one at its end; none for None."""
    written = ''.join(f' {key.rstrip("_").replace("_", "-")}="{escape(short(value))}"' for key, value in attributes.items() if value is not None)
    return f'<{name}{written}>{"".join(content)}</{name}>'


def short(value):
    """Lengths to a tenth of a unit."""
    return f'{value:.1f}'.removesuffix('.0') if isinstance(value, float) else str(value)
