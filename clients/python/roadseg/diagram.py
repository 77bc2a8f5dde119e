"""Draws a straight-line diagram of a route as an SVG picture: a measure axis with the route's referents, and a band for
each query, with its spans or its points, and a legend.

    python -m roadseg.diagram --file FILE --route ROUTE --band TITLE QUERY [COLUMN] [--band ..] [--part FROM TO] ..
    python -m roadseg.diagram --port PORT [--host HOST] --route ROUTE ..

The first starts `roadseg run` on a file, the second connects to a `serve`. A query is written as in docs/LANGUAGE.md. Its
spans are coloured by all their values, or by that of the COLUMN, counted from 1; DISSOLVE chooses columns and their order.
`--part` draws what lies between two positions. Another program calls `diagram`, or `draw` with rows that it has.

Two rows at one place are drawn below each other. A label that has no room is left out, and the legend counts these; each
span and each mark has its values as a title, which a browser shows under the pointer. The same rows give the same bytes.
"""

from __future__ import annotations

import argparse
import sys
from collections.abc import Sequence
from decimal import Decimal
from typing import Any, NamedTuple, Optional

from .answers import measure_told, referent_told
from .client import Client
from .colours import OTHER, Entry, Palette, Scheme, given_colours
from .elements import shown
from .errors import Error
from .labels import text_width
from .lines import literal
from .opening import connect, run
from .picture import BAND_SIZE, BETWEEN_BANDS, MARGIN, WIDEST_TITLE, Drawn, Picture, Referent, Scale, measure

WIDTH = 1100  # of the picture, in pixels
NARROWEST = 400
ROW = object()  # what the colour of a row without values stands for


class Band(NamedTuple):
    """A band to draw: its rows as `select` gives them, all of one route, the column that colours go by, from 1, and the styles of
    its values. Without a column it is the first, and without styles they are those of the values that the rows have."""

    title: str
    rows: list[tuple[Any, ...]]
    column: Optional[int] = None
    scheme: Optional[Scheme] = None


class Question(NamedTuple):
    """A band to ask for."""

    title: str
    query: str
    column: Optional[int] = None


# Asking. Places are thousandths.


def diagram(
    road: Client,
    route: str,
    questions: Sequence[Question],
    part: Optional[Sequence[str]] = None,
    unit: str = "",
    width: int = WIDTH,
    palette: Optional[Palette] = None,
) -> str:
    """The diagram of a route, or of a part of it between two positions, with a band for each question."""
    palette = palette or Palette(road)
    start, end = (place_at(road, route, position) for position in part or ("0%", "100%"))
    bands = [asked_band(road, route, question, palette) for question in questions]
    return draw(route, start, end, bands, referents_of(road, route, start, end), unit, width)


def asked_band(road: Client, route: str, question: Question, palette: Palette) -> Band:
    rows = list(road.select("WINDOW(%s, %s)" % (question.query, route)))
    schemes, place = palette.schemes(question.query), (question.column or 1) - 1
    return Band(question.title, rows, question.column, schemes[place] if 0 <= place < len(schemes) else None)


def place_at(road: Client, route: str, position: str) -> int:
    return thousandths(measure_told(road, "TRANSLATE %s %s AS ABSOLUTE" % (route, position)))


def referents_of(road: Client, route: str, start: int, end: int) -> list[Referent]:
    """The referents of a part of a route, in order, START aside; of several at one place the one with the least name.

    A place AS RELATIVE names the last referent that is not after it. So each is found from just before the next one.
    """
    found, place = [], end
    while place >= start:
        name, distance = referent_told(road, "TRANSLATE %s %s AS RELATIVE" % (route, measure(place)))
        place -= thousandths(distance)
        if place >= start and name != "START":
            found.append(Referent(name, place))
        place -= 1
    return found[::-1]


def thousandths(number: Decimal) -> int:
    return int(number * 1000)


# Rows to draw.


def key_of(row: tuple[Any, ...], band: Band) -> Any:
    """The value of a row that its colour stands for. Where rows have none, it is as if all had one and the same."""
    values = values_of(row)
    if band.column is None:
        return values[0] if values else ROW
    if band.column not in range(1, len(values) + 1):
        raise ValueError("a row of %s has no value %d" % (band.title, band.column))
    return values[band.column - 1]


def drawn_rows(band: Band, start: int, end: int) -> tuple[list[Drawn], list[Entry]]:
    """The rows of a band to draw within a part of the route, in order, and what the legend says of them."""
    scheme = band.scheme or Scheme(key_of(row, band) for row in band.rows)
    rows = [(*ends_of(row), row) for row in band.rows]
    rows = [(max(lo, start), min(hi, end), row) for lo, hi, row in rows if is_within(lo, hi, start, end)]
    rows.sort(key=lambda one: one[:2])
    keys = [key_of(row, band) for _lo, _hi, row in rows]
    if keys and keys[0] is ROW:
        return [Drawn(lo, hi, "", title_of(row), OTHER) for lo, hi, row in rows], [Entry("a row", OTHER)]
    drawn = [Drawn(lo, hi, label_of(row), title_of(row), scheme.style(key)) for (lo, hi, row), key in zip(rows, keys)]
    return drawn, [counted(entry, scheme, keys) for entry in scheme.legend(keys)]


def counted(entry: Entry, scheme: Scheme, keys: Sequence[Any]) -> Entry:
    """What the legend says, with the number of values that have no style of their own."""
    if entry.style != OTHER:
        return entry
    count = sum(scheme.style(key) == OTHER for key in set(keys))
    return Entry("%d other value%s" % (count, "s" if count > 1 else ""), OTHER)


def ends_of(row: tuple[Any, ...]) -> tuple[int, int]:
    """The places from and to which a row goes; of a point both are its place."""
    places = [thousandths(part) for part in row[1:3] if isinstance(part, Decimal)]
    return places[0], places[-1]


def values_of(row: tuple[Any, ...]) -> tuple[Any, ...]:
    return tuple(part for part in row[1:] if not isinstance(part, Decimal))


def is_within(lo: int, hi: int, start: int, end: int) -> bool:
    """Whether some of a row is in the part: a line up to its end, without it, and a point also at the part's end."""
    return start <= lo <= end if lo == hi else lo < end and hi > start


def label_of(row: tuple[Any, ...]) -> str:
    return ", ".join(map(shown, values_of(row)))


def title_of(row: tuple[Any, ...]) -> str:
    places = " to ".join(str(part) for part in row[1:] if isinstance(part, Decimal))
    values = " ".join(map(literal, values_of(row)))
    return "%s %s%s" % (row[0], places, ": " + values if values else "")


# The picture.


def draw(
    route: str,
    start: int,
    end: int,
    bands: Sequence[Band],
    referents: Sequence[Referent] = (),
    unit: str = "",
    width: int = WIDTH,
) -> str:
    """The picture of a route from one place to another, as the text of an SVG file."""
    if start >= end:
        raise ValueError("nothing lies from %s to %s" % (measure(start), measure(end)))
    if width < NARROWEST:
        raise ValueError("a picture is at least %d pixels wide" % NARROWEST)
    titles = max((text_width(band.title, BAND_SIZE) for band in bands), default=0)
    scale = Scale(start, end, MARGIN + min(max(titles, 60), WIDEST_TITLE) + 14, width - MARGIN - 12)
    picture = Picture(scale, width)
    title = "%s, %s to %s%s" % (route, measure(start), measure(end), " " + unit if unit else "")
    picture.heading(title)
    names_left_out = picture.axis(referents, unit)
    top, drawn = picture.y, []
    cuts = [scale.x(referent.place) for referent in referents]
    for band in bands:
        rows, entries = drawn_rows(band, start, end)
        drawn.append((band.title, rows, entries))
        picture.band(band.title, rows, cuts)
    picture.y -= BETWEEN_BANDS
    picture.band_lines(referents, top)
    picture.y += 8
    for one in drawn:
        picture.legend(*one)
    add_notes(picture, len(referents), names_left_out)
    return picture.svg(title)


def add_notes(picture: Picture, referents: int, names_left_out: int) -> None:
    """Says below the legend what the dashed lines are, and what the picture leaves out."""
    picture.y += 6
    if referents:
        rest = "; %d of %d names are left out, for want of room" % (names_left_out, referents) if names_left_out else ""
        picture.note("Dashed lines: referents, each with its measure%s." % rest)
    if picture.labels_left_out:
        told = "; ".join(picture.labels_left_out)
        picture.note("Labels left out, for want of room: %s. A browser shows the values under the pointer." % told)
    if picture.marks_left_out:
        picture.note("Points that are only counted, as +N, for want of room: %s." % "; ".join(picture.marks_left_out))
    if picture.narrow:
        picture.note("Spans narrower than a pixel, and drawn a pixel wide: %d." % picture.narrow)


# The program.


def words_of(arguments: Optional[Sequence[str]]) -> argparse.Namespace:
    parser = argparse.ArgumentParser(description="Draws a straight-line diagram of a route as an SVG picture.")
    where = parser.add_mutually_exclusive_group(required=True)
    where.add_argument("--file", metavar="FILE", help="start `roadseg run` on this file")
    where.add_argument("--port", type=int, metavar="PORT", help="connect to a `roadseg serve` at this port")
    parser.add_argument("--host", default="127.0.0.1", metavar="HOST", help="the server's address (default: 127.0.0.1)")
    parser.add_argument("--program", default="roadseg", metavar="PATH", help="what `--file` starts (default: roadseg)")
    parser.add_argument("--session", type=int, default=0, metavar="N", help="the session, 0 to 63 (default: 0)")
    parser.add_argument("--route", required=True, metavar="ROUTE")
    parser.add_argument("--band", nargs="+", action="append", required=True, metavar="WORD", help="TITLE QUERY [COLUMN]")
    parser.add_argument("--part", nargs=2, metavar=("FROM", "TO"), help="two positions (default: 0%% 100%%)")
    parser.add_argument("--colour", action="append", default=[], metavar="COLUMN:VALUE=#RRGGBB", help="the colour of a value")
    parser.add_argument("--definitions", metavar="DUMP", help="what a server's file has, from `roadseg dump --definitions`")
    parser.add_argument("--unit", default="", metavar="UNIT", help="what measures are in, as miles")
    parser.add_argument("--width", type=int, default=WIDTH, metavar="N", help="pixels (default: %d)" % WIDTH)
    parser.add_argument("--out", metavar="SVG", help="the picture's file (default: standard output)")
    words = parser.parse_args(arguments)
    if any(len(band) not in (2, 3) or not all(map(str.isdecimal, band[2:])) for band in words.band):
        parser.error("a band is TITLE QUERY or TITLE QUERY COLUMN")
    words.band = [Question(title, query, *map(int, column)) for title, query, *column in words.band]
    return words


def opened(words: argparse.Namespace) -> Client:
    if words.file is not None:
        return run(words.file, words.program, words.session)
    lines: list[str] = []
    if words.definitions is not None:
        with open(words.definitions, encoding="utf-8") as file:
            lines = file.readlines()
    road = connect(words.host, words.port, words.session)
    road.learn(lines)
    return road


def main(arguments: Optional[Sequence[str]] = None) -> None:
    words = words_of(arguments)
    try:
        given = given_colours(words.colour)
        with opened(words) as road:
            svg = diagram(road, words.route, words.band, words.part, words.unit, words.width, Palette(road, given))
    except (Error, ValueError, OSError) as fault:
        sys.exit("diagram: %s" % fault)
    if words.out is None:
        sys.stdout.buffer.write(svg.encode())
    else:
        with open(words.out, "w", encoding="utf-8", newline="\n") as file:
            file.write(svg)


if __name__ == "__main__":
    main()

