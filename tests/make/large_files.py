"""Sound files of some to some thousand pages, and pseudo-random changes of their bytes and pages, by a seed.

A grown file has something of each kind, living and dead, and beside it a table of 16 texts, 960 bytes a row, with an index, whose
records fill as many pages as are asked for. A change is of one to eight bytes, of a number somewhere, or of whole pages, which are
swapped, repeated, cut off, put after the last, or moved to a journal, of which some bytes are changed then. One file of five is of
version 1. The same seed and turn give the same change.
"""

import random
from functools import lru_cache

from file_writer import LIVING, PAGE_BYTES, Alignment, Index, Record, Referent, Table, written
from files_by_hand import SOUND
from random_files import NUMBERS
from slow_checkpoint import in_first_version, with_journal

SIZES = (5, 8, 13, 20, 35, 60, 120, 300, 1_000, 3_000)  # pages
ROWS_OF_A_PAGE = 4
PAGES_OF_OTHERS = 30  # at four cells to a leaf
COLUMNS = [(b"c%02d" % number, longest) for number, longest in enumerate([120] * 7 + [1] * 8 + [96])]
WAYS = ["bytes"] * 9 + ["number"] * 3 + ["swap", "repeat", "cut", "append"] + ["journal"] * 3


@lru_cache
def grown(pages):
    """The bytes of a sound file of about so many pages."""
    said = of_each_kind()
    if pages <= PAGES_OF_OTHERS:
        shrink(said, pages)
    else:
        rows = (pages - PAGES_OF_OTHERS) * ROWS_OF_A_PAGE * 3 // 10
        said.tables.append(Table(b"zwide", 7, 1, COLUMNS, list(wide_records(rows))))
        said.indexes.append(Index(b"wide", 9, 7, 5))
        said.indexes.sort(key=lambda index: index.name)
        said.leaf_cells = said.inner_entries = 8
        said.referents += [Referent(5, b"M%03d" % number, 1_000 * number, 9) for number in range(min(rows, 250))]
    return bytes(written(said).data)


def shrink(said, pages):
    """Few tables, each in a page or two."""
    said.tables = said.tables[: max(1, pages // 4)]
    said.leaf_cells = 4_080 if pages < 15 else 6
    said.inner_entries = said.catalogue_bytes = 4_080
    said.free = 2 if pages > 8 else 0
    numbers = {table.number for table in said.tables}
    said.indexes = [index for index in said.indexes if index.table in numbers and pages > 5]
    if len(said.tables) < 3:
        said.views = []


def of_each_kind():
    """`various` of files_by_hand.py, on a route of a tenth of the length: so the slow machine is asked in less time."""
    said = SOUND["various"]()
    said.routes[0].finish = 1_000
    for table in said.tables:
        for record in table.records:
            if record.route == 0:
                length = record.finish - record.start
                record.start //= 10
                record.finish = record.start + max(1, length // 10)
    for referent in said.referents:
        if referent.route == 0:
            referent.measure //= 10
    said.alignments = [
        Alignment(b"re", [(0, 0, 100, 0, 500), (0, 50, 53, 1, 1_000), (5, 0, 999_999_999, 5, 0)]),
        Alignment(b"re2", [(0, 0, 1_000, 0, 0)]),
    ]
    return said


def wide_records(rows):
    """Rows on the longest route, none of which touches another, each seventh of them dead."""
    for number in range(rows):
        row = [b"%d" % (number * (column + 1) % (97 if longest > 1 else 10)) for column, (_, longest) in enumerate(COLUMNS)]
        row[6] = ("é" * 60, "€" * 40, "𝄞" * 30, "x" * 120)[number % 4].encode()
        row[-1] = None if number % 5 else b"x" * 96
        died = 30 if number % 7 == 0 else LIVING
        yield Record(5, 10 * number, 10 * number + 3 + number % 4, tuple(row), 9 + number % 20, died)


class Change:
    """A change of a sound file by a seed and a turn: its title, and the bytes that it makes."""

    def __init__(self, pages, seed, turn):
        self.by = random.Random("change %d %d %d" % (pages, seed, turn))
        self.data = bytearray(grown(pages))
        if self.by.random() < 0.2:
            self.data = bytearray(in_first_version(bytes(self.data), self.by.choice([0, 0, 1])))
        way = self.by.choice(WAYS)
        getattr(self, way)()
        self.title = "%d pages, turn %d of seed %d: %s" % (pages, turn, seed, way)

    def page(self):
        """Where some page begins, each fourth time one of the first three."""
        count = len(self.data) // PAGE_BYTES
        return PAGE_BYTES * self.by.randrange(min(3, count) if self.by.random() < 0.25 else count)

    def place(self):
        """Some place of a page, often in its header or near it."""
        return self.page() + self.by.randrange(self.by.choice([16, 64, 600, PAGE_BYTES, PAGE_BYTES]))

    def bytes(self):
        """One to eight bytes, together or apart."""
        place = self.place()
        for number in range(self.by.choice([1, 1, 2, 3, 4, 8])):
            at = (place + number) % len(self.data) if self.by.random() < 0.7 else self.place()
            self.data[at] = self.by.choice([self.by.randrange(256), self.data[at] ^ (1 << self.by.randrange(8))])

    def number(self):
        """A number of some width, where another one was."""
        width = self.by.choice([1, 2, 4, 4, 8])
        place = self.place() // 4 * 4
        self.data[place : place + width] = (self.by.choice(NUMBERS) % 256**width).to_bytes(width, "big")

    def swap(self):
        one, other = self.page(), self.page()
        first, second = self.data[one : one + PAGE_BYTES], self.data[other : other + PAGE_BYTES]
        self.data[one : one + PAGE_BYTES], self.data[other : other + PAGE_BYTES] = second, first

    def repeat(self):
        """A page where another one was, with that one's number or its own."""
        one, other = self.page(), self.page()
        number = self.data[other + 4 : other + 8]
        self.data[other : other + PAGE_BYTES] = self.data[one : one + PAGE_BYTES]
        if self.by.random() < 0.5:
            self.data[other + 4 : other + 8] = number

    def cut(self):
        """Some of the last bytes or pages away, at times with a count of pages to match."""
        left = self.by.choice([self.by.randrange(len(self.data)), self.page(), len(self.data) - PAGE_BYTES])
        del self.data[left:]
        self.count_pages()

    def append(self):
        """Pages after the last, which the file's count of pages has or has not."""
        place = self.page()
        page = self.by.choice([bytes(PAGE_BYTES), self.data[place : place + PAGE_BYTES], self.by.randbytes(PAGE_BYTES)])
        for _ in range(self.by.choice([1, 1, 3])):
            number = (len(self.data) // PAGE_BYTES).to_bytes(4, "big")
            self.data += page[:4] + number + page[8:] if self.by.random() < 0.5 else page
        self.count_pages()

    def journal(self):
        """Pages in a journal, with zeros in their places; and often other bytes of what a journal is told by, or of any page."""
        count = len(self.data) // PAGE_BYTES
        pages = {page // PAGE_BYTES: bytes(self.data[page : page + PAGE_BYTES]) for page in (self.page() for _ in range(count // 2 + 1))}
        for page in pages:
            self.data[page * PAGE_BYTES : (page + 1) * PAGE_BYTES] = bytes(PAGE_BYTES)
        self.data = bytearray(with_journal(bytes(self.data), pages))
        match self.by.choice(["none", "told", "bytes"]):
            case "told":
                place = self.by.choice([self.by.randrange(64, 76), count * PAGE_BYTES + self.by.randrange(4 * len(pages))])
                self.data[place] ^= 1 << self.by.randrange(8)
            case "bytes":
                self.bytes()

    def count_pages(self):
        if self.by.random() < 0.5 and len(self.data) >= PAGE_BYTES:
            self.data[32:36] = (len(self.data) // PAGE_BYTES).to_bytes(4, "big")
