"""Which version a file is of, and where its pages lie: in their places, or in the journal of a gate that is open.

It is written from the format alone and shares nothing with the crates. All numbers are big-endian. The version is decided before
anything else: a gate that is open means version 2, whatever else page 0 says. A journal that isn't well formed is `Damaged`.
Where the gate is closed, bytes 64 to 75 of page 0 may be any others, also in version 1: its first checkpoint may have been stopped.
"""

from typing import NamedTuple

PAGE_BYTES = 4096
FIRST_VERSION, LAST_VERSION = 1, 2
VERSION = slice(24, 28)
GATE, FIRST, COPIES = 64, slice(68, 72), slice(72, 76)
NO_PAGES = slice(64, 76)  # of page 0: the gate and the journal's fields, which no map of pages has
OPEN = 1
NUMBER_BYTES = 4
MOST_DISK_PAGES = 2**32 - 1


class Damaged(Exception):
    """The file stands for no state."""


def want(is_so, what):
    """What a file of a state has: without it the file is damaged."""
    if not is_so:
        raise Damaged(what)


class Journal(NamedTuple):
    """Its first page, the numbers of the pages that it copies, and the page of its first copy."""

    first: int
    numbers: tuple
    copies: int

    def given(self):
        """From where to where the numbers lie."""
        start = self.first * PAGE_BYTES
        return start, start + NUMBER_BYTES * len(self.numbers)


class Places(NamedTuple):
    """The version of a file, the places of the pages that lie in a journal, and from where to where bytes were read for this."""

    version: int
    copied: dict
    given: list

    def start(self, number):
        """Where a page lies in the file."""
        return self.copied.get(number, number) * PAGE_BYTES


def number_of(data):
    return int.from_bytes(data, "big")


def pages_of_numbers(count):
    """How many pages the numbers of so many copies fill."""
    return -(-count * NUMBER_BYTES // PAGE_BYTES)


def has_open_gate(data):
    return len(data) > GATE and data[GATE] == OPEN


def journal_of(data):
    """The journal that page 0 names, which has to be well formed."""
    first, count, pages = number_of(data[FIRST]), number_of(data[COPIES]), len(data) // PAGE_BYTES
    if count == 0:
        return Journal(first, (), first)
    copies = first + pages_of_numbers(count)
    want(copies + count <= min(pages, MOST_DISK_PAGES), "the journal lies in the file")
    start = first * PAGE_BYTES
    numbers = tuple(number_of(data[start + NUMBER_BYTES * k : start + NUMBER_BYTES * (k + 1)]) for k in range(count))
    want(all(one < other for one, other in zip(numbers, numbers[1:])), "the numbers of a journal ascend")
    want(numbers[-1] < first, "a journal copies pages before it")
    return Journal(first, numbers, copies)


def places_of(data):
    """The version of a file of one page or more, and where its pages lie."""
    want(len(data) >= PAGE_BYTES, "a file has a page")
    if not has_open_gate(data):
        return Places(number_of(data[VERSION]), {}, [])
    journal = journal_of(data)
    copied = {number: journal.copies + place for place, number in enumerate(journal.numbers)}
    return Places(LAST_VERSION, copied, [(NO_PAGES.start, NO_PAGES.stop), journal.given()])


def page_at(data, places, number):
    """The bytes of a page; of page 0 with zeros where no map of pages has bytes."""
    start = places.start(number)
    page = data[start : start + PAGE_BYTES]
    if number == 0:
        return page[: NO_PAGES.start] + bytes(NO_PAGES.stop - NO_PAGES.start) + page[NO_PAGES.stop :]
    return page
