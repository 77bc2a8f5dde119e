"""Writes files of RoadSeg from a description in Python, for tests: `written(description)`.

A description is routes, tables with their records, indexes, referents, views and alignments as they are in the format,
with numbers, births and deaths; nothing of it is checked, so that what it says may be wrong. Lists are written in the
order in which they are given, cells in the order of their bytes, indexes as the records ask for them. How many cells
and entries a page gets at the most, how many bytes of the catalogue, and how many free pages there are is part of it.
The file is of version 2, unless another one is said, and its gate is closed.

Each field that is written has a name, `route 0 born` or `page 4 kind`, by which a test writes it anew: items of the
catalogue and pages of a tree are counted from 0.
"""

from dataclasses import dataclass, field
from typing import NamedTuple

PAGE_BYTES = 4096
CONTENT_BYTES = 4080
FILE_HEADER, LEAF, INNER, CATALOGUE, FREE, DIRECTORY = 1, 2, 3, 4, 5, 6
TABLES, INDEXES = 128, 64
LIVING = 2**64 - 1
OK, DAMAGED, NOT_CLOSED = b"OK", b"ERR 94", b"ERR 95"


class File(NamedTuple):
    """The bytes of a file, and what is answered where it is opened."""

    name: str
    data: bytes
    wanted: bytes


class Raw(bytes):
    """Encoded bytes that stand where a value would."""


# Descriptions.


@dataclass
class Route:
    name: bytes
    number: int
    start: int
    finish: int
    born: int = 0


@dataclass
class Record:
    route: int
    start: int
    finish: int
    row: tuple
    born: int = 0
    died: int = LIVING


@dataclass
class Table:
    """Its columns are a name each and the longest text, 0 for numbers; its kind is 1 for lines."""

    name: bytes
    number: int
    kind: int
    columns: list
    records: list = field(default_factory=list)


@dataclass
class Index:
    name: bytes
    number: int
    table: int
    column: int


@dataclass
class View:
    name: bytes
    text: bytes


@dataclass
class Alignment:
    """Its pieces are a route's number, from, to, another route's number, and the place to which the first goes."""

    name: bytes
    pieces: list


@dataclass
class Referent:
    route: int
    name: bytes
    measure: int
    born: int = 0
    died: int = LIVING


@dataclass
class Description:
    routes: list = field(default_factory=list)
    tables: list = field(default_factory=list)
    indexes: list = field(default_factory=list)
    views: list = field(default_factory=list)
    alignments: list = field(default_factory=list)
    referents: list = field(default_factory=list)
    accepted: int = 0
    version: int = 2
    flag: int = 0  # which files of version 1 have
    free: int = 0
    leaf_cells: int = CONTENT_BYTES  # at the most, as are the next two
    inner_entries: int = CONTENT_BYTES
    catalogue_bytes: int = CONTENT_BYTES
    last_bytes: bytes = b""  # what follows the file's pages


# Encoded rows and cells: parts, each with a name.


def width_of(longest):
    return 9 if longest == 0 else longest + 1


def encoded(value, longest):
    width = width_of(longest)
    if isinstance(value, Raw):
        return value
    if value is None:
        return bytes(width)
    if isinstance(value, int):
        return b"\x01" + (value + 2**63).to_bytes(8, "big")
    return b"\x01" + value.ljust(width - 1, b"\0")


def event_parts(record, columns):
    """The parts of an event's cell."""
    parts = [("route", number(record.route, 4)), ("start", number(record.start, 4))]
    for value, (name, longest) in zip(record.row, columns):
        parts.append((name.decode(errors="replace"), encoded(value, longest)))
    parts.append(("born", number(record.born, 8)))
    return parts + [("finish", number(record.finish, 4)), ("died", number(record.died, 8))]


def entry_parts(record, table, column):
    """The parts of an index's entry: the encoded value, and the event's cell."""
    parts = event_parts(record, table.columns)
    return [("value", parts[2 + column][1])] + parts


def referent_parts(referent):
    parts = [("route", number(referent.route, 4)), ("name", referent.name.ljust(32, b"\0"))]
    parts.append(("born", number(referent.born, 8)))
    return parts + [("measure", number(referent.measure, 4)), ("died", number(referent.died, 8))]


def number(value, width):
    return value.to_bytes(width, "big")


def bytes_of(parts):
    return b"".join(data for _, data in parts)


# Files.


class Written:
    """The bytes of a file, and for each field by its name the places of its bytes."""

    def __init__(self):
        self.data = bytearray()
        self.fields = {}

    def value(self, name):
        return int.from_bytes(bytes(self.data[place] for place in self.fields[name]), "big")

    def with_fields(self, values):
        """The bytes with other numbers in these fields."""
        data = bytearray(self.data)
        for name, value in values.items():
            places = self.fields[name]
            for place, byte in zip(places, number(value, len(places))):
                data[place] = byte
        return bytes(data)

    def with_bytes(self, place, new):
        """The bytes with others from a place on."""
        data = bytearray(self.data)
        data[place : place + len(new)] = new
        return bytes(data)

    def put(self, name, place, data):
        """Writes a field."""
        assert name not in self.fields, name
        self.fields[name] = range(place, place + len(data))
        self.data[place : place + len(data)] = data

    def new_page(self, kind, count=0, next_page=0):
        """A further page with its header: its number."""
        page = len(self.data) // PAGE_BYTES
        self.data += bytes(PAGE_BYTES)
        parts = [("kind", 1, kind), ("zero", 1, 0), ("count", 2, count), ("number", 4, page)]
        parts += [("next", 4, next_page), ("last", 4, 0)]
        place = page * PAGE_BYTES
        for name, width, value in parts:
            self.put("page %d %s" % (page, name), place, number(value, width))
            place += width
        return page

    def put_parts(self, title, place, parts):
        """Writes fields one after another: the place after them."""
        for name, data in parts:
            self.put("%s %s" % (title, name), place, data)
            place += len(data)
        return place


class Writer:
    def __init__(self, description):
        self.said = description
        self.out = Written()

    def written(self):
        self.out.new_page(FILE_HEADER)
        self.out.new_page(DIRECTORY)
        catalogue = self.catalogue()
        self.put_directory(self.tables(), self.indexes(), self.referents())
        self.put_page_0(*catalogue, self.free())
        self.out.data += self.said.last_bytes
        return self.out

    # Trees.

    def tables(self):
        """The roots of the tables' records by number."""
        roots = {}
        for place, table in enumerate(self.said.tables):
            cells = [event_parts(record, table.columns) for record in table.records]
            roots[table.number] = self.tree("records of table %d" % place, cells, 12)
        return roots

    def indexes(self):
        """The roots of the indexes by number: an entry for each record of their table."""
        roots, tables = {}, {table.number: table for table in self.said.tables}
        for place, index in enumerate(self.said.indexes):
            table = tables.get(index.table)
            records = table.records if table else []
            cells = [entry_parts(record, table, index.column) for record in records]
            roots[index.number] = self.tree("entries of index %d" % place, cells)
        return roots

    def referents(self):
        return self.tree("referents", [referent_parts(referent) for referent in self.said.referents])

    def tree(self, title, cells, end_before=None):
        """A tree of cells, each by its parts: its root. A summary is the greatest end, which is near the end of a cell."""
        cells = sorted(cells, key=bytes_of)
        if not cells:
            return 0
        width = len(bytes_of(cells[0]))
        level = []
        for place, part in enumerate(shared_out(cells, min(self.said.leaf_cells, CONTENT_BYTES // width))):
            level.append(self.leaf("%s leaf %d" % (title, place), part, end_before))
        depth = 0
        while len(level) > 1:
            depth += 1
            most = min(self.said.inner_entries, CONTENT_BYTES // (width + 8))
            parts = shared_out(level, most)
            titles = ["%s level %d page %d" % (title, depth, place) for place in range(len(parts))]
            level = [self.inner(*titled) for titled in zip(titles, parts)]
        return level[0][0]

    def leaf(self, title, cells, end_before):
        """A leaf: its number, the summary of its cells and the least of them."""
        page = self.out.new_page(LEAF, len(cells))
        place = page * PAGE_BYTES + 16
        for cell, parts in enumerate(cells):
            place = self.out.put_parts("%s cell %d" % (title, cell), place, parts)
        texts = [bytes_of(parts) for parts in cells]
        summary = b"" if end_before is None else max(text[-end_before : len(text) - end_before + 4] for text in texts)
        return page, summary, texts[0]

    def inner(self, title, entries):
        page = self.out.new_page(INNER, len(entries))
        place = page * PAGE_BYTES + 16
        for entry, (child, summary, least) in enumerate(entries):
            parts = [("child", number(child, 4)), ("summary", summary), ("least", least)]
            place = self.out.put_parts("%s entry %d" % (title, entry), place, parts)
        return page, max(summary for _, summary, _ in entries), entries[0][2]

    def free(self):
        """Free pages, the last of them first in their list: the first one's number."""
        first = 0
        for _ in range(self.said.free):
            first = self.out.new_page(FREE, next_page=first)
        return first

    # The catalogue.

    def catalogue(self):
        """The definitions in pages: the first page's number, and how many bytes there are."""
        parts = list(self.catalogue_parts())
        data, most = bytes_of(parts), self.said.catalogue_bytes
        pieces = [data[place : place + most] for place in range(0, len(data), most)]
        pages = [self.out.new_page(CATALOGUE, len(piece)) for piece in pieces]
        places = []
        for page, piece, next_page in zip(pages, pieces, pages[1:] + [0]):
            start = page * PAGE_BYTES + 16
            self.out.data[start : start + len(piece)] = piece
            self.out.data[start - 8 : start - 4] = number(next_page, 4)
            places += range(start, start + len(piece))
        self.name_parts(parts, places)
        return pages[0], len(data)

    def name_parts(self, parts, places):
        """The fields of the catalogue, whose bytes have these places."""
        place = 0
        for name, data in parts:
            self.out.fields[name] = places[place : place + len(data)]
            place += len(data)

    def catalogue_parts(self):
        lists = [
            ("route", self.said.routes, route_parts),
            ("table", self.said.tables, table_parts),
            ("index", self.said.indexes, index_parts),
            ("view", self.said.views, view_parts),
            ("alignment", self.said.alignments, alignment_parts),
        ]
        for kind, items, parts_of in lists:
            yield "count of %s" % kind, number(len(items), 4)
            for place, item in enumerate(items):
                for name, data in name_parts("name", item.name) + parts_of(item):
                    yield "%s %d %s" % (kind, place, name), data

    # Pages 0 and 1.

    def put_directory(self, tables, indexes, referents):
        place = PAGE_BYTES + 16
        records = {table.number: table.records for table in self.said.tables}
        for slot in range(TABLES):
            place = self.put_tree_item("slot %d" % slot, place, tables.get(slot, 0), records.get(slot, []))
        for slot in range(INDEXES):
            place = self.out.put_parts("index slot %d" % slot, place, [("root", number(indexes.get(slot, 0), 4))])
        place = self.put_tree_item("referents", place, referents, self.said.referents)
        self.out.put("accepted", place, number(self.said.accepted, 8))

    def put_tree_item(self, title, place, root, records):
        living = sum(record.died == LIVING for record in records)
        parts = [("root", number(root, 4)), ("living", number(living, 8)), ("dead", number(len(records) - living, 8))]
        return self.out.put_parts(title, place, parts)

    def put_page_0(self, first, length, first_free):
        numbers = [("pages", len(self.out.data) // PAGE_BYTES), ("first free", first_free), ("free", self.said.free)]
        numbers += [("first catalogue", first), ("catalogue bytes", length)]
        flag = ("flag", number(self.said.flag, 1))
        parts = [("mark", b"ROADSEG1"), ("format", number(self.said.version, 4)), flag, ("zeros", bytes(3))]
        self.out.put_parts("file", 16, parts + [(name, number(value, 4)) for name, value in numbers])
        self.out.put_parts("gate", 64, [("byte", bytes(1))])
        self.out.put_parts("gate", 68, [("first page", bytes(4)), ("copies", bytes(4))])


def shared_out(items, most):
    """The items in parts of at most so many, as even as can be: where three are allowed no part has less than two."""
    count = -(-len(items) // most)
    return [items[len(items) * part // count : len(items) * (part + 1) // count] for part in range(count)]


# Parts of the catalogue's items, each with a name.


def name_parts(title, name):
    return [(title + " length", number(len(name), 1)), (title, name)]


def route_parts(route):
    numbers = [("number", route.number), ("start", route.start), ("finish", route.finish)]
    return [(name, number(value, 4)) for name, value in numbers] + [("born", number(route.born, 8))]


def table_parts(table):
    parts = [("number", number(table.number, 4)), ("kind", number(table.kind, 1))]
    parts.append(("columns", number(len(table.columns), 1)))
    for place, (name, longest) in enumerate(table.columns):
        parts += name_parts("column %d name" % place, name) + [("column %d type" % place, number(longest, 1))]
    return parts


def index_parts(index):
    return [("number", number(index.number, 4)), ("table", number(index.table, 4)), ("column", number(index.column, 1))]


def view_parts(view):
    return [("text length", number(len(view.text), 2)), ("text", view.text)]


def alignment_parts(alignment):
    parts = [("pieces", number(len(alignment.pieces), 1))]
    for place, piece in enumerate(alignment.pieces):
        for name, value in zip(("route", "from", "to", "onto route", "onto"), piece):
            parts.append(("piece %d %s" % (place, name), number(value, 4)))
    return parts


def written(description):
    """The bytes of the file, and its fields by name."""
    return Writer(description).written()
