"""The elements of an SVG picture: texts, lines, marks of points, fills with hatches. All sizes are in pixels."""

from __future__ import annotations

from typing import Any
from unicodedata import category
from xml.sax.saxutils import escape, quoteattr

from .colours import Style

INK, FAINT, GRID, GROUND = "#1A1A1A", "#555555", "#DDDDDD", "#F7F7F7"

# The outlines of marks, by the numbers of styles, so that marks differ by more than their colours; the last is of what has none.
SHAPES = (
    ((-5, 0), (-3.5, -3.5), (0, -5), (3.5, -3.5), (5, 0), (3.5, 3.5), (0, 5), (-3.5, 3.5)),
    ((-4.5, -4.5), (4.5, -4.5), (4.5, 4.5), (-4.5, 4.5)),
    ((0, -5), (5, 4.5), (-5, 4.5)),
    ((0, -5), (5, 0), (0, 5), (-5, 0)),
    ((-5, -4.5), (5, -4.5), (0, 5)),
    ((-2, -5), (2, -5), (2, -2), (5, -2), (5, 2), (2, 2), (2, 5), (-2, 5), (-2, 2), (-5, 2), (-5, -2), (-2, -2)),
    ((-5, -4), (0, -2), (5, -4), (2, 0), (5, 4), (0, 2), (-5, 4), (-2, 0)),
    ((-3, -3), (3, -3), (3, 3), (-3, 3)),
)
# The lines of hatches, by the numbers of styles, in a square of 8 pixels.
HATCHES = (
    "",
    "M0,8 8,0 M-2,2 2,-2 M6,10 10,6",
    "M0,0 8,8 M-2,6 2,10 M6,-2 10,2",
    "M2,0 2,8 M6,0 6,8",
    "M0,2 8,2 M0,6 8,6",
    "M0,8 8,0 M0,0 8,8",
    "M0,4 8,4 M4,0 4,8",
    "M2,1.5 2,2.5 M6,5.5 6,6.5",
)


# Texts.


def clean(text: str) -> str:
    """A text without the characters that XML can't hold, or that would break its line."""
    return "".join("\ufffd" if c in "\ufffe\uffff" or category(c) in ("Cc", "Cs", "Zl", "Zp") else c for c in text)


def shown(value: Any) -> str:
    return "NULL" if value is None else str(value)


def plain(number: float) -> str:
    """A number of pixels, with as many decimals as it needs of two."""
    return ("%.2f" % number).rstrip("0").rstrip(".")


# Elements.


def attributes(**named: Any) -> str:
    pairs = ((name.replace("_", "-"), value if isinstance(value, str) else plain(value)) for name, value in named.items())
    return "".join(" %s=%s" % (name, quoteattr(value)) for name, value in pairs)


def element(tag: str, title: str = "", **named: Any) -> str:
    inside = "<title>%s</title>" % escape(clean(title)) if title else ""
    return "<%s%s>%s</%s>" % (tag, attributes(**named), inside, tag) if inside else "<%s%s/>" % (tag, attributes(**named))


def text_at(x: float, y: float, text: str, title: str = "", **named: Any) -> str:
    inside = "<title>%s</title>" % escape(clean(title)) if title else ""
    return "<text%s>%s%s</text>" % (attributes(x=x, y=y, **named), inside, escape(clean(text)))


def line_from(x1: float, y1: float, x2: float, y2: float, **named: Any) -> str:
    return element("line", x1=x1, y1=y1, x2=x2, y2=y2, **named)


def mark_at(x: float, y: float, style: Style, title: str = "") -> str:
    """The mark of a style at a point."""
    points = " ".join("%s,%s" % (plain(x + dx), plain(y + dy)) for dx, dy in SHAPES[style.shape])
    return element("polygon", title, points=points, fill=style.fill, stroke=INK, stroke_width=0.9)


def swatch_at(x: float, y: float, style: Style) -> str:
    return element("rect", x=x, y=y - 10, width=16, height=11, fill=fill_of(style), stroke=FAINT, stroke_width=0.5)


# Fills. A hatch is a pattern, whose name says what it is, so that pictures in one document may each have it.


def fill_of(style: Style) -> str:
    return "url(#%s)" % pattern_name(style) if style.hatch else style.fill


def pattern_name(style: Style) -> str:
    return "hatch-%d-%s" % (style.hatch, style.fill.lstrip("#"))


def pattern_of(style: Style) -> str:
    ground = element("rect", width=8, height=8, fill=style.fill)
    lines = element("path", d=HATCHES[style.hatch], stroke=style.ink, stroke_opacity=0.6, fill="none")
    place = attributes(id=pattern_name(style), width=8, height=8, patternUnits="userSpaceOnUse")
    return "<pattern%s>%s%s</pattern>" % (place, ground, lines)
