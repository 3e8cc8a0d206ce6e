"""The picture of all intervals: an SVG that keeps its letters' size at any width."""
from __future__ import annotations

from collections.abc import Sequence
from fractions import Fraction
from xml.etree.ElementTree import Element

from .answers import Query
from .elements import element

LABEL_LETTERS = 38
ROW, TRACK_TOP, TRACK_HEIGHT, LABEL_BASE, VALUE_BASE = 66, 20, 14, 13, 49
TOP, AXIS_HEIGHT = 4, 26
DIAMOND = "M0,-9 L6,0 L0,9 L-6,0 Z"
TICKS = (
    (Fraction(0), "start"),
    (Fraction(1, 4), "middle"),
    (Fraction(1, 2), "middle"),
    (Fraction(3, 4), "middle"),
    (Fraction(1), "end"),
)


def _percent(value: Fraction) -> str:
    return f"{float(100 * value):.3f}%"


def _text(x: str, y: int, words: str, **attributes: str) -> Element:
    return element("text", words, x=x, y=str(y), **attributes)


def _rect(kind: str, top: int, left: Fraction, right: Fraction) -> Element:
    return element(
        "rect",
        class_=kind,
        x=_percent(left),
        y=str(top),
        width=_percent(right - left),
        height=str(TRACK_HEIGHT),
    )


def _point(top: int, at: Fraction) -> Element:
    """A diamond: a bar of no width wouldn't be seen."""
    return element("use", href="#point", x=_percent(at), y=str(top + TRACK_HEIGHT // 2))


def _marks(query: Query, top: int) -> list[Element]:
    """What stands on a query's track: its interval, or a hatched part where a side is open."""
    if query.status == "impossible":
        return []
    low, high = query.lower, query.upper
    if low is None or high is None:
        return [_rect("unknown", top, low or Fraction(0), Fraction(1) if high is None else high)]
    if low == high:
        return [_point(top, low)]
    return [_rect("interval", top, low, high)]


def label(number: int, text: str) -> str:
    """A query's number and text, cut off where it is long."""
    cut = text if len(text) <= LABEL_LETTERS else f"{text[: LABEL_LETTERS - 1]}…"
    return f"{number}  {cut}"


def _axis(height: int) -> list[Element]:
    drawn = []
    for at, anchor in TICKS:
        x = _percent(at)
        drawn.append(element("line", class_="grid", x1=x, x2=x, y1=str(TOP), y2=str(height)))
        drawn.append(_text(x, height + 18, f"{float(at):g}", class_="axis", text_anchor=anchor))
    return drawn


def _hatching() -> Element:
    """What fills the part of a track in which a side is open."""
    stroke = element("line", class_="hatch", x1="0", y1="0", x2="0", y2="8")
    return element(
        "pattern",
        stroke,
        id="unknown",
        width="6",
        height="8",
        patternUnits="userSpaceOnUse",
        patternTransform="rotate(45)",
    )


def _row(number: int, query: Query, words: str) -> list[Element]:
    """A query's label, its track with what stands on it, and its values."""
    y = TOP + ROW * (number - 1)
    return [
        _text("0", y + LABEL_BASE, label(number, query.text)),
        _rect("track", y + TRACK_TOP, Fraction(0), Fraction(1)),
        *_marks(query, y + TRACK_TOP),
        _text("0", y + VALUE_BASE, words),
    ]


def picture(queries: Sequence[Query], values: Sequence[str]) -> Element:
    """All intervals below each other, on an axis from 0 to 1; `values` are their words."""
    height = TOP + ROW * len(queries)
    told = "; ".join(f"{query.text}: {words}" for query, words in zip(queries, values))
    svg = element(
        "svg",
        element("title", "The interval of each query, from 0 to 1"),
        element("desc", told),
        element("defs", _hatching(), element("path", id="point", class_="point", d=DIAMOND)),
        *_axis(height),
        role="img",
        width="100%",
        height=str(height + AXIS_HEIGHT),
    )
    for number, (query, words) in enumerate(zip(queries, values), 1):
        svg.extend(_row(number, query, words))
    return svg
