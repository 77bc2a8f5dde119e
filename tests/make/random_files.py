"""Pseudo-random files by a seed: sound ones with something changed, in their bytes, their fields, their pages or what
they say, or with some of their pages in a journal.

The same seed and turn give the same file each time. About a quarter of the files stand for a state.
"""

import random
import re
from copy import copy
from functools import partial

from file_writer import LIVING, PAGE_BYTES, Alignment, Index, Record, Referent, Route, View, written
from files_by_hand import SOUND
from slow_checkpoint import pages_of, with_journal

NUMBERS = [0, 1, 2, 3, 4, 6, 7, 16, 20, 63, 64, 127, 128, 255, 256, 1_000, 4_080, 4_081, 4_095, 4_096, 10_000]
NUMBERS += [999_999_999, 10**9]
NUMBERS += [2**16 - 1, 2**31, 2**32 - 1, 2**63 - 1, 2**63, 2**63 + 10**12, 2**63 + 10**12 + 1, 2**64 - 2, 2**64 - 1]

WORDS = b"pave crash zone none a b c d A B long_name Z K0 K1 K9 START re re2 num sev surf z t s2".split()
WORDS += b"WHERE DISSOLVE RENAME OVERLAY COVER MERGE MINUS WINDOW TRANSFORM GAPS SELECT".split()
WORDS += b"AS FROM TO AND OR NOT IS NULL ABSOLUTE".split()
WORDS += b"( ) , = <> < + - @ % 0 1 2.5 100 1000000000001 0.0001 'AC' 'it''s' '' ;".split()
WORDS += [b" ", b"\t", b"\r", b"\xff", b"'"]

QUERIES = [
    b"pave",
    b"crash",
    b"b",
    b"WHERE(pave, surf = 'AC' AND NOT (surf IS NULL))",
    b"WHERE(crash, num >= 1 OR (sev = -1 AND num <> sev))",
    b"DISSOLVE(crash, (sev))",
    b"RENAME(pave, surf TO s2)",
    b"OVERLAY(pave, crash)",
    b"COVER(pave, RENAME(pave, surf TO s2))",
    b"MERGE(pave, b)",
    b"MINUS(crash, crash)",
    b"WINDOW(pave, A FROM 1 TO 2.5)",
    b"WINDOW(crash, A FROM @K0-1 TO @K2)",
    b"WINDOW(pave, B FROM 50% TO @K0+0.001)",
    b"WINDOW(pave, long_name)",
    b"TRANSFORM(pave, re)",
    b"WINDOW(TRANSFORM(a, re2), A FROM 0.7 TO 0.7)",
    b"GAPS(pave)",
    b"OVERLAY(WINDOW(GAPS(pave), B), crash)",
    b"GAPS(crash)",
]

TOKEN = re.compile(rb"[A-Za-z0-9_.]+|'[^']*'|.", re.DOTALL)


class RandomFile:
    """A file by a seed and a turn: its title and its bytes."""

    def __init__(self, seed, turn):
        self.by = random.Random("file %d %d" % (seed, turn))
        self.name = self.by.choice(["inserted"] * 3 + ["various"] * 6 + ["empty"])
        self.way, change = self.by.choice(
            [("bytes", self.bytes), ("fields", self.fields), ("fields", self.fields), ("pages", self.pages), ("a journal", self.journal)]
            + [("what it says", self.said)] * 4
        )
        self.description = SOUND[self.name]()
        self.shape(self.description)
        self.data = change()

    def title(self):
        return "%s, changed in %s" % (self.name, self.way)

    def shape(self, said):
        """How the file is spread over its pages."""
        said.leaf_cells = self.by.choice([2, 3, 4, 5, 8, 100])
        said.inner_entries = self.by.choice([3, 4, 100])
        said.catalogue_bytes = self.by.choice([30, 100, 4_080, 4_080])
        said.free = self.by.choice([0, 0, 1, 3])
        said.version = self.by.choice([2, 2, 1])
        said.flag = self.by.choice([0] * 8 + [1, 2, 255] if said.version == 1 else [0] * 40 + [1])
        said.last_bytes = bytes(self.by.choice([0] * 10 + [1, 4_096]))
        if self.by.random() < 0.3:
            for table in said.tables:
                table.records += self.more_records(table)

    def more_records(self, table):
        """Events from 9 on, none of which touches another, each third of them dead."""
        rows = [record.row for record in table.records] or [tuple(None for _ in table.columns)]
        for place in range(self.by.choice([3, 20, 150])):
            start = 9_001 + 6 * place
            died = self.by.choice([LIVING, LIVING, 5])
            length = 1 if table.kind == 0 else self.by.choice([1, 4])
            yield Record(0, start, start + length, self.by.choice(rows), 3, died)

    # Bytes, fields and pages.

    def bytes(self):
        data = bytearray(written(self.description).data)
        for _ in range(self.by.choice([1, 1, 2, 3])):
            page = self.by.randrange(len(data) // PAGE_BYTES) * PAGE_BYTES
            place = page + self.by.randrange(self.by.choice([16, 52, 200, PAGE_BYTES]))
            data[place] = self.by.choice([self.by.randrange(256), data[place] ^ (1 << self.by.randrange(8))])
        return bytes(data)

    def fields(self):
        file = written(self.description)
        names = [name for name, places in file.fields.items() if len(places) > 0 and "slot" not in name]
        names += ["slot 0 root", "slot 1 living", "slot 3 dead", "slot 77 root", "index slot 0 root"]
        values = {}
        for name in self.by.sample(names, self.by.choice([1, 1, 1, 2])):
            values[name] = self.number(file, name, names)
        return file.with_fields(values)

    def number(self, file, name, names):
        """Another number for a field: a neighbour, that of another field, or one at which something changes."""
        width = len(file.fields[name])
        value = file.value(name)
        other = file.value(self.by.choice(names))
        near = value + self.by.choice([-2, -1, 1, 2])
        return self.by.choice([near, near, other, self.by.choice(NUMBERS)]) % 256**width

    def pages(self):
        data = bytearray(written(self.description).data)
        count = len(data) // PAGE_BYTES
        one, other = (self.by.randrange(count) * PAGE_BYTES for _ in range(2))
        page, other_page = data[one : one + PAGE_BYTES], data[other : other + PAGE_BYTES]
        match self.by.choice(["swap", "copy", "cut", "garbage", "grow"]):
            case "swap":
                data[one : one + PAGE_BYTES], data[other : other + PAGE_BYTES] = other_page, page
            case "copy":
                data[one : one + PAGE_BYTES] = other_page
            case "cut":
                del data[self.by.randrange(len(data)) :]
            case "garbage":
                data[one + 2_000 : one + 2_000 + 8] = self.by.randbytes(8)
            case "grow":
                data += page
        return bytes(data)

    def journal(self):
        """Some pages in a journal, with anything in their places, and now and then a byte changed where the journal is told or lies."""
        data = bytes(written(self.description).data)
        pages = pages_of(data)
        copied = sorted(self.by.sample(range(len(pages)), self.by.randrange(1, len(pages) + 1)))
        for page in self.by.sample(copied, self.by.randrange(len(copied) + 1)):
            data = data[: page * PAGE_BYTES] + self.by.randbytes(PAGE_BYTES) + data[(page + 1) * PAGE_BYTES :]
        first = len(pages) + self.by.choice([0, 0, 0, 1, 2])
        data = bytearray(with_journal(data, {page: pages[page] for page in copied}, first, self.by.choice([1] * 9 + [0])))
        if self.by.random() < 0.5:
            place = self.by.choice([self.by.randrange(64, 76), first * PAGE_BYTES + self.by.randrange(4 * len(copied) + 4)])
            data[place] = self.by.choice([0, 1, 2, data[place] ^ (1 << self.by.randrange(8))])
        return bytes(data)

    # What a file says.

    def said(self):
        for _ in range(self.by.choice([1, 1, 1, 1, 2, 3])):
            self.by.choice(
                [self.change_record] * 5
                + [self.change_referent] * 2
                + [self.change_view] * 4
                + [self.change_route, self.change_table, self.change_index, self.change_alignment, self.change_version]
            )()
        if self.by.random() < 0.9:
            self.put_in_order()
        return bytes(written(self.description).data)

    def put_in_order(self):
        said = self.description
        for items in (said.routes, said.tables, said.indexes, said.alignments):
            items.sort(key=lambda item: item.name)

    def near(self, number):
        return max(0, number + self.by.choice([-1_000, -100, -2, -1, -1, 1, 1, 2, 100, 1_000]))

    def change_one(self, items, fields, make):
        """Changes an item of a list in one of its numbers, puts it there twice, takes it out, or puts a new one."""
        kind = self.by.choice(["number", "number", "number", "twice", "out", "new"])
        if kind == "new" or not items:
            items.append(make())
            return
        place = self.by.randrange(len(items))
        item = items[place]
        if kind == "twice":
            items.insert(place, self.other(copy(item)))
        elif kind == "out":
            items.remove(item)
        else:
            field = self.by.choice(fields)
            setattr(item, field, self.near(getattr(item, field)) % 2**32)

    def other(self, item):
        """The item, with another birth or another number where it has one."""
        for field in ("born", "number"):
            if hasattr(item, field) and self.by.random() < 0.7:
                setattr(item, field, self.by.choice([0, 1, 2, 3, 4, 5, 6]))
        return item

    def change_record(self):
        tables = [table for table in self.description.tables if table.columns]
        if tables:
            table = self.by.choice(tables)
            fields = ["route", "start", "start", "finish", "finish", "born"]
            self.change_one(table.records, fields, partial(self.record, table))
            for record in table.records[-1:]:
                self.end_or_move(record)

    def record(self, table):
        """A further event of a table, mostly with a row that another one has."""
        rows = [record.row for record in table.records] + [tuple(None for _ in table.columns)]
        start = self.by.choice([0, 1_000, 2_500, 9_999, 10_000, self.by.randrange(10_000)])
        length = 1 if table.kind == 0 else self.by.choice([1, 300, 700, 1_000])
        route, born = self.by.choice([0, 0, 1, 5]), self.by.choice([0, 3, 6])
        return Record(route, start, start + length, self.by.choice(rows), born)

    def end_or_move(self, record):
        """Now and then the record has ended, or a point is one thousandth long again."""
        if self.by.random() < 0.2:
            record.died = self.by.choice([record.born, record.born + 1, self.description.accepted, LIVING])
        if self.by.random() < 0.5:
            record.finish = record.start + 1

    def change_referent(self):
        self.change_one(self.description.referents, ["route", "measure", "measure", "born"], self.referent)

    def referent(self):
        name = self.by.choice([b"K0", b"K1", b"K7", b"START", b"TO", b"", b"L" * 32, b"K\0K", b"k_0"])
        route, measure = self.by.choice([0, 0, 1, 7]), self.by.choice([0, 1_000, 4_000, 10_000])
        return Referent(route, name, measure, self.by.choice([0, 3]))

    def change_view(self):
        views = self.description.views
        text = self.by.choice([view.text for view in views] + QUERIES * 2)
        if self.by.random() < 0.5:
            text = self.changed_text(text)
        name = self.by.choice([b"a", b"b", b"c", b"d", b"e", b"f", b"g"] * 3 + [b"pave", b"TO", b"h" * 32])
        kept = [view for view in views if view.name != name]
        self.description.views = sorted(kept + [View(name, text)], key=lambda view: view.name)

    def changed_text(self, text):
        """The text with a token more, less or other, or with blanks."""
        tokens = TOKEN.findall(text) or [b""]
        place = self.by.randrange(len(tokens))
        match self.by.choice(["other", "other", "more", "out", "blank", "deep"]):
            case "other":
                tokens[place] = self.by.choice(WORDS)
            case "more":
                tokens.insert(place, self.by.choice(WORDS))
            case "out":
                del tokens[place]
            case "blank":
                tokens.insert(self.by.choice([place, 0, len(tokens)]), b" ")
            case "deep":
                tokens = [b"DISSOLVE("] * 30 + [b"MERGE(%b, %b)" % (text, text)]
                tokens += [b", ())"] * self.by.choice([29, 30, 30])
        return b"".join(tokens)

    def change_route(self):
        self.change_one(self.description.routes, ["number", "start", "finish", "born"], self.route)

    def route(self):
        return Route(self.by.choice([b"C", b"Z9", b"FROM"]), self.by.choice([1, 2, 5, 4_095, 4_096]), 0, 5, 1)

    def change_table(self):
        if self.description.tables:
            table = self.by.choice(self.description.tables)
            field = self.by.choice(["number", "kind", "name"])
            value = self.by.choice([b"a", b"zz", b"NOT"]) if field == "name" else self.by.choice([0, 1, 2, 127, 128])
            setattr(table, field, value)

    def change_index(self):
        self.change_one(self.description.indexes, ["number"], self.index)
        self.description.indexes = [index for index in self.description.indexes if self.has_column(index)]

    def index(self):
        name, number = self.by.choice([b"q", b"x", b"ON"]), self.by.choice([0, 3, 63, 64])
        return Index(name, number, self.by.choice([0, 1, 3]), 0)

    def has_column(self, index):
        """Whether entries can be written for it: its table, if there is one, has its column."""
        tables = [table for table in self.description.tables if table.number == index.table]
        return all(index.column < len(table.columns) for table in tables)

    def change_alignment(self):
        alignments = self.description.alignments
        if not alignments or self.by.random() < 0.3:
            pieces = [(0, 0, 1, 0, 0)] * self.by.choice([0, 1, 64, 65])
            alignments.append(Alignment(self.by.choice([b"s", b"re", b"INTO"]), pieces))
            return
        alignment = self.by.choice(alignments)
        pieces = [list(piece) for piece in alignment.pieces] or [[0, 0, 1, 0, 0]]
        piece, place = self.by.choice(pieces), self.by.randrange(5)
        piece[place] = self.near(piece[place])
        alignment.pieces = [tuple(piece) for piece in pieces]

    def change_version(self):
        self.description.accepted = self.by.choice([0, 1, 5, 6, 7, 29, 30, 31, 39, 41, 2**63 - 1, 2**63])
