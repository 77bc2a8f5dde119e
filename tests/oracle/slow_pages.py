"""The pages of a file, for the slow reader of files: page 0, the directory, chains of pages, and trees.

It is written from the format alone and shares nothing with the crates. Where the gate is open, pages are those of the journal
(slow_journal.py). Each page is taken once, by whoever it belongs to, and its first 16 bytes are looked at then. Of what follows
no more is given than is counted there, where something is: so which bytes of a file the reader can have looked at is known. All
numbers are big-endian. What does not fit is `Damaged`.
"""

import struct
from functools import lru_cache
from typing import NamedTuple

from slow_journal import FIRST_VERSION, LAST_VERSION, PAGE_BYTES, page_at, places_of, want

HEADER_BYTES = 16
CONTENT_BYTES = PAGE_BYTES - HEADER_BYTES
MOST_PAGES = 1_048_576
MARK = b"ROADSEG1"
FLAG_PLACE = 28
PAGE_0_END = 52

# The kinds of page.
FILE_HEADER, LEAF, INNER, CATALOGUE, FREE, DIRECTORY = 1, 2, 3, 4, 5, 6

TABLES = 128
INDEXES = 64
TREE_ITEM = struct.Struct(">IQQ")
DIRECTORY_FORM = struct.Struct(">" + "IQQ" * TABLES + "I" * INDEXES + "IQQ" + "Q")
PAGE_HEADER = struct.Struct(">BBHIII")
FILE_FIELDS = struct.Struct(">8sIB3sIIIII")


def is_zeros(data):
    return data == bytes(len(data))


class Page(NamedTuple):
    """A page that fits its kind and number: what is counted in it, the next page, and the bytes after its header, if something is
    counted no more of them than that."""

    kind: int
    count: int
    next: int
    content: bytes


class TreeItem(NamedTuple):
    """What the directory says of a tree of records."""

    root: int
    living: int
    dead: int


NO_TREE = TreeItem(0, 0, 0)


class Directory(NamedTuple):
    tables: list
    indexes: list
    referents: TreeItem
    accepted: int

    def dead(self):
        """How many records are dead, which are kept for a version that saw them."""
        return sum(item.dead for item in [*self.tables, self.referents])


class Pages:
    """The pages of a file up to the count that page 0 tells, which were taken, and from where to where bytes were given."""

    def __init__(self, data):
        self.data = data
        self.places = places_of(data)
        self.taken = set()
        self.given = list(self.places.given)
        self.count = 1
        content = self.take(0, FILE_HEADER).content
        mark, version, self.flag, zeros, self.count, *numbers = FILE_FIELDS.unpack_from(content)
        self.first_free, self.free, self.first_catalogue, self.catalogue_bytes = numbers
        want(mark == MARK and version in (FIRST_VERSION, LAST_VERSION), "the mark and the format")
        want(version == self.places.version, "page 0 says the file's version")
        want(version == FIRST_VERSION or self.flag == 0, "version 2 has no flag")
        want(is_zeros(zeros) and is_zeros(content[PAGE_0_END - HEADER_BYTES :]), "the rest of page 0 is zeros")
        want(2 <= self.count <= MOST_PAGES, "two pages at the least, and no more than the limit")
        want(self.count <= len(data) // PAGE_BYTES, "the file has its pages")

    def take(self, number, *kinds, widths=()):
        """The page with this number, which is of one of these kinds and was not taken before. Of kinds that count something
        the bytes of each may be told."""
        want(number < self.count and number not in self.taken, "a page of its own")
        self.taken.add(number)
        data = page_at(self.data, self.places, number)
        kind, zero, count, own_number, next_page, last = PAGE_HEADER.unpack_from(data)
        end = HEADER_BYTES + min(count * widths[kind] if kind in widths else CONTENT_BYTES, CONTENT_BYTES)
        start = self.places.start(number)
        self.given.append((start, start + end))
        want(kind in kinds, "the kind of page %d" % number)
        want(own_number == number and zero == 0 and last == 0, "the header of page %d" % number)
        want(next_page == 0 or kind in (CATALOGUE, FREE), "no next page of page %d" % number)
        want(count == 0 or kind in (LEAF, INNER, CATALOGUE), "no count in page %d" % number)
        return Page(kind, count, next_page, data[HEADER_BYTES:end])

    def chain(self, first, kind, widths=()):
        """The pages of a chain, from its first on; 0 is the end."""
        while first != 0:
            page = self.take(first, kind, widths=widths)
            yield page
            first = page.next

    def directory(self):
        """What page 1 says."""
        return directory_of(self.take(1, DIRECTORY).content)

    def catalogue(self):
        """The bytes of the definitions."""
        parts = []
        for page in self.chain(self.first_catalogue, CATALOGUE, {CATALOGUE: 1}):
            want(page.count <= CONTENT_BYTES, "the bytes of a page of the catalogue")
            parts.append(page.content)
        data = b"".join(parts)
        want(len(data) == self.catalogue_bytes, "the catalogue has the bytes that page 0 tells")
        return data

    def take_free(self):
        """The free pages, as many as page 0 tells."""
        pages = list(self.chain(self.first_free, FREE))
        want(len(pages) == self.free, "as many free pages as page 0 tells")
        want(all(is_zeros(page.content) for page in pages), "a free page is zeros")

    def end(self):
        """Each page was taken by now."""
        want(len(self.taken) == self.count, "each page belongs to something")

    # Trees.

    def cells(self, root, width, summary_at=None):
        """The cells of a tree, all of one width. A summary is the greatest number u32 at some place of a cell."""
        if root == 0:
            return []
        levels = self.levels(root, width, 0 if summary_at is None else 4)
        cells = [cell for leaf in levels[-1] for cell in leaf]
        want(all(one < other for one, other in zip(cells, cells[1:])), "cells ascend")
        told = [told_of_cells(leaf, summary_at) for leaf in levels[-1]]
        for level in reversed(levels[:-1]):
            told = told_of_level(level, told, summary_at)
        return cells

    def levels(self, root, width, summary_bytes):
        """Level by level from the root: the entries of each inner page, and at last the cells of each leaf."""
        levels, numbers, widths = [], [root], {LEAF: width, INNER: 4 + summary_bytes + width}
        while True:
            pages = [self.take(number, LEAF, INNER, widths=widths) for number in numbers]
            kind = pages[0].kind
            want(all(page.kind == kind for page in pages), "leaves at one depth")
            if kind == LEAF:
                return levels + [[parts_of(page, widths[kind], 1) for page in pages]]
            levels.append([parts_of(page, widths[kind], 2) for page in pages])
            numbers = [int.from_bytes(entry[:4], "big") for page in levels[-1] for entry in page]


@lru_cache
def directory_of(content):
    """What the bytes of page 1 say."""
    want(is_zeros(content[DIRECTORY_FORM.size :]), "the rest of page 1 is zeros")
    numbers = DIRECTORY_FORM.unpack_from(content)
    threes = zip(*(numbers[place : 3 * TABLES : 3] for place in range(3)))
    indexes = list(numbers[3 * TABLES : 3 * TABLES + INDEXES])
    return Directory(list(map(TreeItem._make, threes)), indexes, TreeItem(*numbers[-4:-1]), numbers[-1])


def parts_of(page, width, fewest):
    """The counted cells or entries of a page."""
    want(page.count >= fewest and page.count * width <= CONTENT_BYTES, "the count of a page of a tree")
    return [page.content[place : place + width] for place in range(0, page.count * width, width)]


def told_of_cells(cells, summary_at):
    """What an entry says of these cells after the page's number: their summary, and the least of them."""
    if summary_at is None:
        return cells[0]
    return max(cell[summary_at : summary_at + 4] for cell in cells) + cells[0]


def told_of_level(level, told, summary_at):
    """What the entries above say of the pages of a level, whose own entries have to say what is told of those below."""
    said = [entry[4:] for page in level for entry in page]
    want(said == told, "entries say the summary and the least cell of their page")
    if summary_at is None:
        return [page[0][4:] for page in level]
    return [max(entry[4:8] for entry in page) + page[0][8:] for page in level]
