"""Elements of a page. Each text in them is escaped when the page is written."""
from __future__ import annotations

from typing import Union
from xml.etree import ElementTree
from xml.etree.ElementTree import Element

Child = Union[str, Element]


def visible(text: str) -> str:
    """A text in which what can't be seen stands as its number: `\\x1b`, `\\u202e`."""
    return "".join(
        letter
        if letter.isprintable() or letter in "\t\n"
        else letter.encode("unicode_escape").decode()
        for letter in text
    )


def element(tag: str, *children: Child, **attributes: str) -> Element:
    """An element with texts and elements in it, in their order.

    An attribute `class` is handed in as `class_`, and one as `text-anchor` as `text_anchor`.
    """
    named = {name.rstrip("_").replace("_", "-"): value for name, value in attributes.items()}
    made = Element(tag, {name: visible(value) for name, value in named.items()})
    last = None
    for child in children:
        if isinstance(child, Element):
            made.append(child)
            last = child
        elif last is None:
            made.text = (made.text or "") + visible(child)
        else:
            last.tail = (last.tail or "") + visible(child)
    return made


def written(page: Element) -> str:
    """The page as HTML."""
    html = ElementTree.tostring(page, encoding="unicode", method="html")
    return f"<!DOCTYPE html>\n{html}\n"
