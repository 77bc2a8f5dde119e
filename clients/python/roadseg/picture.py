"""The picture of a part of a route as SVG: the axis with ticks and referents, bands of spans or of points, and a legend."""

from __future__ import annotations

from collections.abc import Sequence
from typing import Any, NamedTuple, Optional
from xml.sax.saxutils import escape

from .colours import OTHER, Entry, Style
from .elements import (
    FAINT,
    GRID,
    GROUND,
    INK,
    attributes,
    clean,
    element,
    fill_of,
    line_from,
    mark_at,
    pattern_of,
    plain,
    swatch_at,
    text_at,
)
from .labels import BOLD, FONTS, PAD, TEXT_SIZE, Label, Taken, bold_width, rows_of, shortened, staggered, text_width, wrapped

MARGIN = 18
WIDEST_TITLE = 190
TITLE_SIZE, BAND_SIZE = 18, 13  # of letters; others have TEXT_SIZE

LANE = 22  # the height of a span
MARK_LANE = 15
MARK = 5  # half the width of a mark
ROW = 13  # the height of a row of labels outside of spans
CALLOUT_ROWS = 2
LEADER = 6  # from a span to the labels outside of it, beside what leads through their rows
REFERENT_ROWS = 4
LABELLED_LANES = 4  # in these lanes marks may have labels
MARK_LANES = 12  # what has no room in these is counted
PILE = 44  # the width within which it is counted together
BETWEEN_BANDS = 12
TICK_ROOM = 26
NARROW = 3  # a span narrower than this has no outline, which would cover it


class Referent(NamedTuple):
    name: str
    place: int


class Drawn(NamedTuple):
    """A row to draw: where it is within the part that is drawn, its texts, and its style."""

    start: int
    end: int
    label: str
    title: str
    style: Style

    def is_point(self) -> bool:
        return self.start == self.end


def measure(place: int) -> str:
    return "%d.%03d" % divmod(place, 1000)


def short_measure(place: int) -> str:
    return measure(place).rstrip("0").rstrip(".")


class Scale(NamedTuple):
    """Where the places of the part that is drawn are in the picture."""

    start: int
    end: int
    left: float
    right: float

    def x(self, place: float) -> float:
        return self.left + (place - self.start) * (self.right - self.left) / (self.end - self.start)


class Picture:
    """A picture that grows downwards: its elements by layers, and how far down it goes by now."""

    def __init__(self, scale: Scale, width: int) -> None:
        self.scale, self.width, self.y = scale, width, float(MARGIN)
        self.ground: list[str] = []
        self.spans: list[str] = []
        self.lines: list[str] = []
        self.marks: list[str] = []
        self.texts: list[str] = []
        self.patterns: dict[str, str] = {}
        self.labels_left_out: list[str] = []  # of each band that leaves some out, how many
        self.marks_left_out: list[str] = []
        self.narrow = 0  # spans that are drawn wider than they are

    # The axis.

    def heading(self, text: str) -> None:
        self.y += TITLE_SIZE
        text = shortened(text, (self.width - 2 * MARGIN) / BOLD, TITLE_SIZE)
        self.texts.append(text_at(MARGIN, self.y, text, font_size=TITLE_SIZE, font_weight="bold"))
        self.y += 14

    def axis(self, referents: Sequence[Referent], unit: str) -> int:
        """Draws the axis with its ticks, and the referents above it. Gives how many names were left out."""
        scale = self.scale
        labels = ["%s %s" % (referent.name, short_measure(referent.place)) for referent in referents]
        wanted = [Label(scale.x(one.place), bold_width(label), 0) for one, label in zip(referents, labels)]
        spots = staggered(wanted, REFERENT_ROWS, scale.left - 20, self.width - 6)
        self.y += rows_of(spots) * ROW + (9 if referents else 0)
        for one, label, spot in zip(wanted, labels, spots):
            if spot is not None:
                y = self.y - 12 - spot.row * ROW
                self.texts.append(text_at(spot.x, y, label, text_anchor=spot.anchor, font_weight="bold"))
                self.lines.append(line_from(one.x, y + 4, one.x, self.y, stroke=FAINT, stroke_width=0.6))
            points = " ".join("%s,%s" % (plain(one.x + dx), plain(self.y + dy)) for dx, dy in ((-4, -7), (4, -7), (0, 0)))
            self.marks.append(element("polygon", label, points=points, fill=INK))
        self.ticks(unit)
        return spots.count(None)

    def ticks(self, unit: str) -> None:
        scale = self.scale
        self.lines.append(line_from(scale.left, self.y, scale.right, self.y, stroke=INK, stroke_width=1.2))
        row = Taken()
        for place in [scale.start, scale.end, *round_places(scale)]:
            x, label = scale.x(place), short_measure(place)
            width = text_width(label)
            start = min(max(x - width / 2, 4), self.width - 4 - width)
            if row.is_free(start - PAD, start + width + PAD):
                row.take(start - PAD, start + width + PAD)
                self.texts.append(text_at(start + width / 2, self.y + 17, label, text_anchor="middle"))
            self.lines.append(line_from(x, self.y, x, self.y + 5, stroke=INK, stroke_width=1))
        if unit:
            unit = shortened(unit, scale.left - MARGIN - 30)
            self.texts.append(text_at(MARGIN, self.y + 17, unit, fill=FAINT))
        self.y += TICK_ROOM

    def band_lines(self, referents: Sequence[Referent], top: float) -> None:
        """Draws the ticks' grid under the bands, and the referents' lines over them."""
        for place in round_places(self.scale):
            x = self.scale.x(place)
            self.ground.append(line_from(x, top, x, self.y, stroke=GRID, stroke_width=0.8))
        for referent in referents:
            x = self.scale.x(referent.place)
            line = line_from(x, top, x, self.y, stroke=INK, stroke_width=0.7, stroke_dasharray="4 3", opacity=0.6)
            self.lines.append(line)

    # Bands.

    def band(self, title: str, rows: Sequence[Drawn], cuts: Sequence[float]) -> None:
        top, scale = self.y, self.scale
        short = shortened(title, scale.left - MARGIN - 10, BAND_SIZE)
        self.marks.append(text_at(MARGIN, top + 16, short, title if short != title else "", font_size=BAND_SIZE))
        if not rows:
            self.texts.append(text_at(scale.left + 6, top + 15, "no rows", fill=FAINT, font_style="italic"))
            self.y += LANE
        left_out = self.marks_of(title, rows) if rows and rows[0].is_point() else self.spans_of(rows, cuts)
        if left_out:
            self.labels_left_out.append("%s %d of %d" % (title, left_out, sum(bool(row.label) for row in rows)))
        shape: dict[str, Any] = {"x": scale.left, "y": top, "width": scale.right - scale.left, "height": self.y - top}
        self.ground.insert(0, element("rect", **shape, fill=GROUND))
        self.y += BETWEEN_BANDS

    def spans_of(self, rows: Sequence[Drawn], cuts: Sequence[float]) -> int:
        """Draws lines, in as many lanes as they need. Gives how many labels were left out."""
        lanes = lanes_of(rows)
        return sum(self.lane([row for row, own in zip(rows, lanes) if own == lane], cuts) for lane in sorted(set(lanes)))

    def lane(self, rows: Sequence[Drawn], cuts: Sequence[float]) -> int:
        """Draws spans that do not overlap: labels in them, or below them with a line to each."""
        outside = []
        for row in rows:
            x1, x2 = self.scale.x(row.start), self.scale.x(row.end)
            self.span(row, x1, x2)
            width = text_width(row.label)
            if width + 2 * PAD <= x2 - x1:
                self.label_within(row, middle(x1, x2, width + 2 * PAD, cuts), width)
            elif row.label:
                outside.append((row.label, Label((x1 + x2) / 2, width, x2 - x1)))
        self.y += LANE
        spots = staggered([label for _text, label in outside], CALLOUT_ROWS, self.scale.left, self.scale.right)
        for (text, label), spot in zip(outside, spots):
            if spot is not None:
                y = self.y + LEADER + (spot.row + 1) * ROW - 2
                self.texts.append(text_at(spot.x, y, text, text_anchor=spot.anchor))
                self.lines.append(line_from(label.x, self.y, label.x, y - 9, stroke=FAINT, stroke_width=0.6))
        self.y += rows_of(spots) * ROW + (LEADER if rows_of(spots) else 0) + 2
        return spots.count(None)

    def label_within(self, row: Drawn, x: float, width: float) -> None:
        """Writes a label in its span, on a plain ground where there are hatches."""
        if row.style.hatch:
            shape: dict[str, Any] = {"x": x - width / 2 - 2, "y": self.y + 4, "width": width + 4, "height": LANE - 8}
            self.spans.append(element("rect", **shape, fill=row.style.fill))
        ink = {} if row.style.ink == INK else {"fill": row.style.ink}
        self.texts.append(text_at(x, self.y + LANE / 2 + 4, row.label, text_anchor="middle", **ink))

    def filled(self, style: Style) -> str:
        """The fill of a style, whose hatch the picture has from now on."""
        if style.hatch:
            self.patterns[fill_of(style)] = pattern_of(style)
        return fill_of(style)

    def span(self, row: Drawn, x1: float, x2: float) -> None:
        shape: dict[str, Any] = {"x": x1, "y": self.y, "width": max(x2 - x1, 1), "height": LANE, "fill": self.filled(row.style)}
        outline: dict[str, Any] = {"stroke": "#FFFFFF", "stroke_width": 1} if x2 - x1 >= NARROW else {}
        self.narrow += x2 - x1 < 1
        self.spans.append(element("rect", row.title, **shape, **outline))

    def marks_of(self, title: str, rows: Sequence[Drawn]) -> int:
        """Draws points in lanes, each with its label beside it where there is room. Gives how many labels were left out."""
        ends: list[float] = []
        left_out, over = 0, []
        for row in rows:
            x, width = self.scale.x(row.start), text_width(row.label)
            lane, side = place_of_mark(x, width if row.label else 0, ends, self.scale)
            left_out += bool(row.label) and not side
            y = self.y + lane * MARK_LANE + MARK_LANE / 2 + 1
            if lane == MARK_LANES:
                over.append(x)
                continue
            self.marks.append(mark_at(x, y, row.style, row.title))
            if side:
                self.texts.append(text_at(x + side * (MARK + PAD + width / 2), y + 4, row.label, text_anchor="middle"))
        self.y += max(len(ends) * MARK_LANE + 2, LANE)
        if over:
            self.marks_left_out.append("%s %d of %d" % (title, len(over), len(rows)))
            self.piles(over)
        return left_out

    def piles(self, over: list[float]) -> None:
        """Says below the lanes how many points have no room in them."""
        self.y += MARK_LANE
        while over:
            pile = [x for x in over if x < over[0] + PILE]
            self.texts.append(text_at(pile[0], self.y - 4, "+%d" % len(pile), text_anchor="middle"))
            over = over[len(pile) :]

    # The legend.

    def legend(self, title: str, rows: Sequence[Drawn], entries: Sequence[Entry]) -> None:
        """Says what the colours of a band stand for."""
        self.y += 17
        left, right = self.scale.left, self.width - MARGIN
        is_point = bool(rows) and rows[0].is_point()
        self.texts.append(text_at(MARGIN, self.y, shortened(title, (left - MARGIN - 10) / BOLD), font_weight="bold"))
        x: float = left
        for text, style in entries or [Entry("no rows", OTHER)]:
            text = shortened(text, (right - left) / 2)
            width = 24 + text_width(text)
            if x + width > right and x > left:
                x, self.y = left, self.y + 17
            if entries:
                self.filled(style)
                self.marks.append(mark_at(x + 8, self.y - 4, style) if is_point else swatch_at(x, self.y, style))
            self.texts.append(text_at(x + (22 if entries else 0), self.y, text))
            x += width + 16

    def note(self, text: str) -> None:
        """Writes a note, on as many lines as it needs."""
        for line in wrapped(text, self.width - MARGIN - self.scale.left):
            self.y += 15
            self.texts.append(text_at(self.scale.left, self.y, line, fill=FAINT))

    def svg(self, title: str) -> str:
        width, height = plain(self.width), plain(self.y + MARGIN)
        size = 'width="%s" height="%s" viewBox="0 0 %s %s"' % (width, height, width, height)
        fonts = attributes(font_family=FONTS, font_size=TEXT_SIZE, fill=INK)
        parts = ['<svg xmlns="http://www.w3.org/2000/svg" %s role="img" xml:space="preserve"%s>' % (size, fonts)]
        parts += ["<title>%s</title>" % escape(clean(title)), element("rect", width=width, height=height, fill="#FFFFFF")]
        parts += ["<defs>%s</defs>" % "".join(self.patterns.values())] if self.patterns else []
        parts += [*self.ground, *self.spans, *self.lines, *self.marks]
        parts += ['<g pointer-events="none">', *self.texts, "</g>", "</svg>"]
        return "\n".join(parts) + "\n"


def round_places(scale: Scale) -> list[int]:
    """The multiples of a round step that lie in the part, not closer to each other than their labels are wide."""
    room = max(50, text_width(measure(scale.end)) + 2 * PAD) / (scale.right - scale.left) * (scale.end - scale.start)
    step = next(digit * 10**power for power in range(10) for digit in (1, 2, 5) if digit * 10**power >= room)
    return list(range(-(-scale.start // step) * step, scale.end + 1, step))


def lanes_of(rows: Sequence[Drawn]) -> list[int]:
    """The lane of each of some rows in order of their starts, the least one in which it overlaps none."""
    ends: list[int] = []
    lanes = []
    for row in rows:
        lane = next((lane for lane, end in enumerate(ends) if end <= row.start), len(ends))
        ends[lane : lane + 1] = [row.end]
        lanes.append(lane)
    return lanes


def middle(x1: float, x2: float, width: float, cuts: Sequence[float]) -> float:
    """Where the middle of a label is within a span: in the widest part between lines that cross it, where it has room."""
    bounds = [x1, *(x for x in cuts if x1 < x < x2), x2]
    lo, hi = max(zip(bounds, bounds[1:]), key=lambda pair: pair[1] - pair[0])
    return (lo + hi) / 2 if hi - lo >= width else (x1 + x2) / 2


def place_of_mark(x: float, width: float, ends: list[float], scale: Scale) -> tuple[int, int]:
    """The lane of a mark, and the side of its label: 1 after it, -1 before it, 0 for none. Lanes are free from `ends` on."""
    for lane in range(LABELLED_LANES if width else 0):
        end = ends[lane] if lane < len(ends) else scale.left - 2 * MARK
        after, before = x + MARK + PAD + width, x - MARK - PAD - width
        if x - MARK >= end and after <= scale.right:
            ends[lane : lane + 1] = [after + PAD]
            return lane, 1
        if before >= max(end, scale.left):
            ends[lane : lane + 1] = [x + MARK + 1]
            return lane, -1
    lane = next((lane for lane, end in enumerate(ends) if x - MARK >= end), len(ends))
    if lane < MARK_LANES:
        ends[lane : lane + 1] = [x + MARK + 1]
    return lane, 0
