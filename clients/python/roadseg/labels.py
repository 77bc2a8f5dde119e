"""How wide texts are at the most, and where labels have room: the part of a diagram that knows nothing of roads.

All sizes are in pixels.
"""

from __future__ import annotations

import unicodedata
from bisect import bisect
from collections.abc import Sequence
from functools import lru_cache
from itertools import accumulate
from typing import NamedTuple, Optional

TEXT_SIZE = 11  # of letters
PAD = 3  # between a label and what is beside it

# The widths of characters in hundredths of the size of letters, from above for each of these fonts.
FONTS = "Verdana, 'DejaVu Sans', Geneva, Helvetica, Arial, sans-serif"
BOLD = 1.15  # times as wide
THIN, BROAD = " .,:;|!'()[]ijlftr-", "mwMW%@+<>=~^&#"


# Texts.


def text_width(text: str, size: float = TEXT_SIZE) -> float:
    """How wide a text is at the most."""
    return sum(map(character_width, text)) * size / 100


def bold_width(text: str, size: float = TEXT_SIZE) -> float:
    return text_width(text, size) * BOLD


@lru_cache(maxsize=4096)
def character_width(character: str) -> int:
    base = unicodedata.normalize("NFD", character)[0]
    if unicodedata.combining(base):
        return 0
    if base in THIN:
        return 47
    if base in BROAD:
        return 108
    if not base.isascii():
        return 145
    return (80 if base.isupper() else 66) + (15 if base != character else 0)


def shortened(text: str, width: float, size: float = TEXT_SIZE) -> str:
    """A text that is no wider than this: its end is cut off where need be."""
    if text_width(text, size) <= width:
        return text
    room, kept = width - text_width("…", size), 0
    for end in accumulate(character_width(character) * size / 100 for character in text):
        if end > room:
            break
        kept += 1
    return text[:kept].rstrip() + "…"


def wrapped(text: str, width: float) -> list[str]:
    lines = [""]
    for word in text.split(" "):
        longer = (lines[-1] + " " + word).lstrip()
        if text_width(longer) > width and lines[-1]:
            lines.append(word)
        else:
            lines[-1] = longer
    return lines


# Room for labels.


class Taken:
    """What of a row is taken, as intervals that do not overlap, in order."""

    def __init__(self) -> None:
        self.starts: list[float] = []
        self.ends: list[float] = []

    def is_free(self, start: float, end: float) -> bool:
        after = bisect(self.ends, start)
        return after == len(self.starts) or self.starts[after] >= end

    def take(self, start: float, end: float) -> None:
        after = bisect(self.starts, start)
        self.starts.insert(after, start)
        self.ends.insert(after, end)


class Label(NamedTuple):
    """A label that wants to be over or under a point of the axis. Those of greater weight come first."""

    x: float
    width: float
    weight: float


class Spot(NamedTuple):
    """Where a label goes: its row, counted from the axis, and where its text begins, or has its middle or end."""

    row: int
    x: float
    anchor: str


def staggered(labels: Sequence[Label], rows: int, left: float, right: float) -> list[Optional[Spot]]:
    """For each label its spot, or None where there is no room for it.

    A line leads from a label to its point through the rows before its own. Labels are
    placed by weight, each in the nearest row; or from the left, each in the farthest row and after its point, like stairs
    that go down to the axis, where this leaves fewer out.
    """
    places = range(len(labels))
    by_weight = sorted(places, key=lambda place: (-labels[place].weight, place))
    from_the_left = sorted(places, key=lambda place: (labels[place].x, place))
    near = spots_of(labels, by_weight, range(rows), left, right)
    far = spots_of(labels, from_the_left, range(rows)[::-1], left, right)
    return min(near, far, key=lambda spots: spots.count(None))


def spots_of(labels: Sequence[Label], order: Sequence[int], rows: range, left: float, right: float) -> list[Optional[Spot]]:
    """The spots of labels that are placed in an order, each in the first of the rows that has room."""
    taken = [Taken() for _ in rows]
    spots: list[Optional[Spot]] = [None] * len(labels)
    sides = ("middle", "start", "end") if rows[0] == 0 else ("start", "end")
    for place in order:
        if labels[place].width <= right - left:
            spots[place] = spot_of(labels[place], taken, rows, sides, left, right)
    return spots


def spot_of(
    label: Label, taken: Sequence[Taken], rows: range, sides: Sequence[str], left: float, right: float
) -> Optional[Spot]:
    """The first row and side by which a label has room. It takes that room, and its line's."""
    for row in rows:
        if not all(before.is_free(label.x - 1, label.x + 1) for before in taken[:row]):
            continue
        for anchor in sides:
            start = {"middle": label.x - label.width / 2, "start": label.x - PAD, "end": label.x - label.width + PAD}[anchor]
            start = max(min(start, right - label.width), left)
            if taken[row].is_free(start - PAD, start + label.width + PAD):
                taken[row].take(start - PAD, start + label.width + PAD)
                for before in taken[:row]:
                    before.take(label.x - 1, label.x + 1)
                return Spot(row, start + {"middle": 0.5, "start": 0, "end": 1}[anchor] * label.width, anchor)
    return None


def rows_of(spots: Sequence[Optional[Spot]]) -> int:
    """How many rows the spots are in."""
    return max((spot.row + 1 for spot in spots if spot is not None), default=0)
