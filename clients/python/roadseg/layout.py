"""Answers as text for a terminal: aligned columns under headers, and a caret under the place of a fault."""

from __future__ import annotations

import unicodedata
from collections.abc import Sequence
from decimal import Decimal
from typing import Any, Optional

from .errors import UNKNOWN_CHARACTER, Refused
from .lines import tokens

NULL = "NULL"
GAP = "  "
INDENT = "    "
CUT = "..."


def clean(text: str) -> str:
    """A text without the characters that would steer a terminal or break a line."""
    return "".join("\ufffd" if unicodedata.category(c) in ("Cc", "Cs", "Zl", "Zp") else c for c in text)


def width_of(text: str) -> int:
    """How many cells of a terminal a text takes."""
    if text.isascii():
        return len(text)
    return sum(0 if unicodedata.combining(c) else 2 if unicodedata.east_asian_width(c) in "WF" else 1 for c in text)


def shown(value: Any) -> str:
    return NULL if value is None else clean(str(value))


class Layout:
    """The widths of columns. They grow with what is laid out, so that later pages are aligned as the ones before."""

    def __init__(self, names: Sequence[str]) -> None:
        self.names = list(names)
        self._widths = [width_of(name) for name in names]

    def page(self, rows: Sequence[Sequence[Any]]) -> list[str]:
        """The lines of some rows, with the header above them. Numbers are aligned to the right."""
        texts = [[shown(value) for value in row] for row in rows]
        for row in texts:
            self._widths = [max(width, width_of(text)) for width, text in zip(self._widths, row)]
        are_numbers = [all(is_number(row[k]) for row in rows) and bool(rows) for k in range(len(self.names))]
        rule = GAP.join("-" * width for width in self._widths)
        return [self._line(self.names, are_numbers), rule, *(self._line(row, are_numbers) for row in texts)]

    def _line(self, texts: Sequence[str], are_numbers: Sequence[bool]) -> str:
        cells = []
        for text, width, is_right in zip(texts, self._widths, are_numbers):
            blanks = " " * (width - width_of(text))
            cells.append(blanks + text if is_right else text + blanks)
        return GAP.join(cells).rstrip()


def is_number(value: Any) -> bool:
    return value is None or isinstance(value, (int, Decimal))


def place_of(refused: Refused) -> Optional[int]:
    """The character of the sent line at which it is at fault, from 0; None where the refusal names no place."""
    if refused.column is not None:
        return len(refused.line.encode()[: refused.column - 1].decode(errors="ignore"))
    if refused.number == UNKNOWN_CHARACTER:
        return next((token.start for token in tokens(refused.line) if token.kind == "other"), None)
    return None


def caret_lines(refused: Refused, columns: int) -> list[str]:
    """The sent line without its session, as much of it as has room, and a caret under the fault, where it has a place."""
    place = place_of(refused)
    if place is None:
        return []
    front = refused.line.index(" ") + 1
    text, place = clean(refused.line[front:]), max(place - front, 0)
    room = max(columns - len(INDENT) - 2 * len(CUT) - 1, 20)
    if len(text) > room:
        start = min(max(place - room // 2, 0), max(len(text) - room, 0))
        before, after = CUT if start else "", CUT if start + room < len(text) else ""
        text, place = before + text[start : start + room] + after, len(before) + place - start
    return [INDENT + text, INDENT + " " * width_of(text[:place]) + "^"]
