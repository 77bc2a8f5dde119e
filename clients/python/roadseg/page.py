"""Makes a page of a file: one HTML file that a browser shows without a network, with a straight-line diagram of each route.

    python -m roadseg.page FILE [--query NAME=QUERY ..] [--by BAND=COLUMN ..] [--colour COLUMN:VALUE=#RRGGBB ..] > roads.html
    python -m roadseg.page --port PORT --definitions DUMP ..

Each table has a band, and so has each query. The page has all rows, packed, and a script that draws them: `page.html`,
`page.css` and the scripts beside this module. The same file gives the same bytes.

decision: page-with-all-rows
"""

from __future__ import annotations

import argparse
import json
import os
import pkgutil
import re
import sys
from bisect import bisect_left, bisect_right
from collections.abc import Iterable, Sequence
from decimal import Decimal
from itertools import count
from operator import sub
from typing import Any, NamedTuple, Optional

from .client import Client
from .colours import OTHER, Entry, Palette, Style, given_colours, legend_of
from .errors import Error
from .opening import PROGRAM, connect, run
from .places import uncollected
from .schema import LINE, POINT
from .wires import LIMIT

SCRIPTS = ("page_rows.js", "page_picture.js")
VIEW = "page_view.js"
PLACE = re.compile("@@([a-z]+)@@")  # of a part in the template


class Asked(NamedTuple):
    """A band to ask for: its title, its query, and the column that colours go by at first; the first where none is named."""

    title: str
    query: str
    by: Optional[str] = None


@uncollected()
def page(road: Client, asked: Sequence[Asked], palette: Palette, title: str, unit: str = "") -> str:
    """The page of what is asked."""
    return html_of(data_of(road, asked, palette, title, unit))


# What the page knows.


class Answer(NamedTuple):
    """The answer to what was asked: its kind, the names of its columns, its rows' routes, places as thousandths, and values; and of
    each column the different values."""

    asked: Asked
    kind: str
    names: list[str]
    routes: list[str]
    places: list[list[int]]
    values: list[list]
    held: list[set]


def data_of(road: Client, asked: Sequence[Asked], palette: Palette, title: str, unit: str = "") -> dict[str, Any]:
    """What the page knows: routes in order, with thousandths, and bands with their rows on each route, packed."""
    styles, schema = Styles(), road.schema()
    routes = sorted(schema.routes.values())
    answers = [answer_of(road, one) for one in asked]
    for answer in answers:
        if answer.asked.query in schema.tables:
            for column, held in zip(answer.names, answer.held):
                palette.knows(answer.asked.query, column, held)
    names = [route.name for route in routes]
    bands = [band_of(answer, names, palette, styles) for answer in answers]
    told = [[one.name, *thousandths([one.start, one.end]), referents_of(one.referents)] for one in routes]
    plain = styles.number(OTHER)
    return {"title": title, "unit": unit, "routes": told, "bands": bands, "plain": plain, "styles": styles.told()}


def answer_of(road: Client, asked: Asked) -> Answer:
    columns = road.columns(asked.query, thousandths=True)
    shape = road.shape(asked.query)
    if shape is not None and tuple(columns) != shape.names():
        raise ValueError("the rows of %s are not those of what is defined" % asked.title)
    kind = (POINT if "at" in list(columns)[1:2] else LINE) if shape is None else shape.kind
    ends = 2 if kind == POINT else 3
    names = [one.name for one in shape.columns] if shape else list(columns)[ends:]
    routes, *parts = columns.values() if columns else [[]]
    values = parts[ends - 1 :]
    return Answer(asked, kind, names, routes, parts[: ends - 1], values, list(map(set, values)))


def thousandths(measures: Iterable[Decimal]) -> list[int]:
    return [int(measure.scaleb(3)) for measure in measures]


def referents_of(referents: dict[str, Any]) -> list[list]:
    """Referents by their places, of several at one place the one with the least name first."""
    return [[name, place] for place, name in sorted(zip(thousandths(referents.values()), referents))]


class Styles:
    """The styles that a page uses, by their numbers."""

    def __init__(self) -> None:
        self._numbers: dict[Style, int] = {}

    def number(self, style: Style) -> int:
        return self._numbers.setdefault(style, len(self._numbers))

    def told(self) -> list[list]:
        return [list(style) for style in self._numbers]


def band_of(answer: Answer, routes: Sequence[str], palette: Palette, styles: Styles) -> dict[str, Any]:
    """A band: what its columns hold, each value once and in order, and its rows on each route, by the numbers of values."""
    asked = answer.asked
    columns, numbers = [], []
    for name, values, held, scheme in zip(answer.names, answer.values, answer.held, palette.schemes(asked.query)):
        column, places = column_of(name, scheme.entries(held), styles)
        columns.append(column)
        numbers.append(list(map(places.__getitem__, values)))
    rows = [packed(answer.routes, name, answer.places, numbers) for name in routes]
    by = by_of(asked, answer.names) if columns else -1
    return {"title": asked.title, "query": asked.query, "kind": answer.kind, "by": by, "columns": columns, "rows": rows}


def by_of(asked: Asked, names: Sequence[str]) -> int:
    if asked.by is not None and asked.by not in names:
        raise ValueError("%s has no column %s: it has %s" % (asked.title, asked.by, ", ".join(names)))
    return 0 if asked.by is None else list(names).index(asked.by)


def column_of(name: str, told: Sequence[tuple[Any, Entry]], styles: Styles) -> tuple[dict[str, Any], dict[Any, int]]:
    """A column: its values in order, its legend, and for each value the number of what the legend says of it; and the places of
    its values."""
    held, entries = [value for value, _entry in told], [entry for _value, entry in told]
    different = {id(entry): entry for entry in entries}
    legend = legend_of(different.values())
    numbers = {entry: k for k, entry in enumerate(legend)}
    number_of = {key: numbers[entry] for key, entry in different.items()}
    entry = list(map(number_of.__getitem__, map(id, entries)))
    shown = [[one.text, styles.number(one.style)] for one in legend]
    return {"name": name, "values": held, "legend": shown, "entry": entry}, dict(zip(held, count()))


def packed(routes: Sequence[str], name: str, places: Sequence[list[int]], numbers: Sequence[list[int]]) -> list[int]:
    """The rows of a route: how far each start is from the one before it, lengths, and the numbers of the values by columns."""
    first, end = bisect_left(routes, name), bisect_right(routes, name)
    if first == end:
        return []
    starts = places[0][first:end]
    flat = list(map(sub, starts, [0, *starts]))
    if len(places) == 2:
        flat += map(sub, places[1][first:end], starts)
    for column in numbers:
        flat += column[first:end]
    return flat


# The page's text.


def html_of(data: dict[str, Any]) -> str:
    """The page: the template with its style, its data and its scripts."""
    told = json.dumps(data, ensure_ascii=False, separators=(",", ":")).replace("<", "\\u003c")
    parts = {"title": escaped(data["title"]), "style": part("page.css"), "data": told}
    parts.update(parts="".join(map(part, SCRIPTS)), view=part(VIEW))
    return PLACE.sub(lambda found: parts[found[1]], part("page.html"))


def part(name: str) -> str:
    found = pkgutil.get_data(__package__, name)
    if found is None:
        raise ValueError("the package lacks %s" % name)
    return found.decode()


def escaped(text: str) -> str:
    return text.replace("&", "&amp;").replace("<", "&lt;")


# The program.


def words_of(arguments: Optional[Sequence[str]]) -> argparse.Namespace:
    parser = argparse.ArgumentParser(prog="python -m roadseg.page", description="Makes a page of a file, for a browser.")
    parser.add_argument("file", nargs="?", metavar="FILE", help="start `roadseg run` on this file")
    parser.add_argument("--port", type=int, metavar="PORT", help="connect to a `roadseg serve` at this port")
    parser.add_argument("--host", default="127.0.0.1", metavar="HOST", help="the server's address (default: 127.0.0.1)")
    parser.add_argument("--definitions", metavar="DUMP", help="what the server's file has, from `roadseg dump --definitions`")
    parser.add_argument("--program", default=PROGRAM, metavar="PATH", help="what FILE is opened by (default: roadseg)")
    parser.add_argument("--session", type=int, default=0, metavar="N", help="the session, 0 to 63 (default: 0)")
    parser.add_argument("--timeout", type=float, default=LIMIT, metavar="S", help="seconds for a reply; 0 for no limit")
    parser.add_argument("--table", action="append", metavar="TABLE", help="a band for this table, and not for each one")
    parser.add_argument("--query", action="append", default=[], metavar="NAME=QUERY", help="a band for a query")
    parser.add_argument("--by", action="append", default=[], metavar="BAND=COLUMN", help="the column that colours go by at first")
    parser.add_argument("--colour", action="append", default=[], metavar="COLUMN:VALUE=#RRGGBB", help="the colour of a value")
    parser.add_argument("--unit", default="", metavar="UNIT", help="what measures are in, as miles")
    parser.add_argument("--title", metavar="TITLE", help="the page's title (default: the file's name)")
    parser.add_argument("--out", metavar="HTML", help="the page's file (default: standard output)")
    words = parser.parse_args(arguments)
    if (words.file is None) == (words.port is None):
        parser.error("a file is opened, or a server is asked by --port")
    if words.port is not None and words.definitions is None:
        parser.error("a server's lines don't list what is defined: --definitions has it")
    for option in (*words.query, *words.by):
        if "=" not in option:
            parser.error("%s has no =" % option)
    return words


def opened(words: argparse.Namespace) -> Client:
    timeout = words.timeout or None
    if words.port is None:
        return run(words.file, words.program, words.session, timeout)
    with open(words.definitions, encoding="utf-8") as file:
        lines = file.readlines()
    road = connect(words.host, words.port, words.session, timeout)
    road.learn(lines)
    return road


def asked_of(words: argparse.Namespace, tables: Iterable[str]) -> list[Asked]:
    """The bands that the words ask for: tables by their names, then queries in their order."""
    held = sorted(tables)
    missing = [name for name in words.table or () if name not in held]
    if missing:
        raise ValueError("no table %s: there are %s" % (missing[0], ", ".join(held) or "none"))
    pairs = [(name, name) for name in words.table or held] + [tuple(one.split("=", 1)) for one in words.query]
    by = dict(one.rsplit("=", 1) for one in words.by)
    unknown = [name for name in by if name not in (title for title, _query in pairs)]
    if unknown:
        raise ValueError("no band %s: there are %s" % (unknown[0], ", ".join(title for title, _query in pairs)))
    return [Asked(title, query, by.get(title)) for title, query in pairs]


def made(words: argparse.Namespace) -> str:
    given = given_colours(words.colour)
    with opened(words) as road:
        asked = asked_of(words, road.schema().tables)
        title = words.title or os.path.splitext(os.path.basename(words.file or words.definitions))[0]
        return page(road, asked, Palette(road, given), title, words.unit)


def main(arguments: Optional[Sequence[str]] = None) -> None:
    words = words_of(arguments)
    try:
        text = made(words).encode("utf-8", "replace")
    except (Error, ValueError, OSError) as fault:
        sys.exit("page: %s" % fault)
    if words.out is None:
        sys.stdout.buffer.write(text)
    else:
        with open(words.out, "wb") as file:
            file.write(text)


if __name__ == "__main__":
    main()
