"""Files of version 2 whose journals are written by hand, each with what opening it is answered: `files()`.

Two states are written page for page: the file is closed in one, and a journal brings it to the other. A file opens to the one or
the other, or is refused 94; which is known of each. Journals copy none, one, some and 1,025 pages, are wrong in one way each, and
lie at odd places. `changed_bytes()` are the files with each byte changed of a small one that matters to a journal.
"""

from typing import NamedTuple

from device_calls import SYNC, Write, applied
from file_writer import DAMAGED, NOT_CLOSED, OK, Description, Record, Referent, Route, Table, written
from files_by_hand import various
from slow_checkpoint import FIELDS, changed_pages, fields_of, migration, number, with_journal
from slow_journal import GATE, NO_PAGES, OPEN, PAGE_BYTES, VERSION

BEFORE, AFTER = 7, 8  # accepted changes
MANY = 1_025
FLAG, COUNT = 28, 32


class Journaled(NamedTuple):
    """The bytes of a file, what is answered where it is opened, and how many changes it then has."""

    name: str
    data: bytes
    answer: bytes
    accepted: int | None = None


def small(accepted=BEFORE):
    """A route, and a table with a row; or, a change later, with another row."""
    records = [Record(0, 0, 2_500, (b"AC",), 6), Record(0, 3_000, 4_000, (b"PC",), 7)]
    tables = [Table(b"pave", 0, 1, [(b"surf", 8)], records[: accepted - BEFORE + 1])]
    return Description([Route(b"A", 0, 0, 10_000, 1)], tables, accepted=accepted, version=2)


def large(accepted=BEFORE):
    """Referents, a few to a page, of which each is moved by the later change."""
    referents = [Referent(0, b"K%03d" % k, k + accepted, 5) for k in range(1_000)]
    records = [Record(0, 2 * k, 2 * k + 1, (accepted,), 6) for k in range(1_100)]
    tables = [Table(b"t", 0, 1, [(b"n", 0)], records)]
    return Description([Route(b"A", 0, 0, 10_000, 1)], tables, referents=referents, accepted=accepted, version=2, leaf_cells=2)


def bytes_of(description):
    return bytes(written(description).data)


def with_bytes(data, place, new):
    return applied(data, [Write(place, new)])


def with_number(data, place, value):
    return with_bytes(data, place, number(value))


class Pair(NamedTuple):
    """A closed file, the pages by which it gets to the state after, and the file with their journal."""

    closed: bytes
    copies: dict
    opened: bytes

    def first(self):
        return len(self.closed) // PAGE_BYTES

    def first_number(self):
        """Where the first number of the journal lies."""
        return len(self.closed)


def pair_of(make):
    closed = bytes_of(make(BEFORE))
    copies = changed_pages(closed, bytes_of(make(AFTER)))
    return Pair(closed, copies, with_journal(closed, copies))


def page_0_copied(pair):
    """A journal of page 0 beside the others."""
    return {0: pair.closed[:PAGE_BYTES], **pair.copies}


def sound_files(pair):
    """Journals that are well formed, and gates that are closed."""
    closed, copies, opened = pair
    first = pair.first()
    yield "a journal", opened, AFTER
    yield "no journal", closed, BEFORE
    for place in (0, 1, first, first + 1, 2**32 - 1):
        yield "a journal of none at page %d" % place, applied(closed, [Write(FIELDS, fields_of(place, 0)), Write(GATE, b"\1")]), BEFORE
    yield "a journal of page 0 too", with_journal(closed, page_0_copied(pair)), AFTER
    yield "a journal of page 0 alone", with_journal(closed, {0: closed[:PAGE_BYTES]}), BEFORE
    yield "a journal of all pages", with_journal(closed, {**all_pages(closed), **copies}), AFTER
    yield "a journal after a gap", with_journal(closed, copies, first + 3), AFTER
    yield "a journal in a longer file", opened + bytes([165]) * 5_000, AFTER
    for gate in range(256):
        yield "a gate of %d" % gate, with_bytes(opened, GATE, bytes([gate])), AFTER if gate == OPEN else BEFORE
    yield "a closed gate and other bytes", with_bytes(closed, GATE, other_bytes()), BEFORE
    copied = with_bytes(closed[:PAGE_BYTES], GATE, other_bytes())
    yield "a copy of page 0 with other bytes where the gate is", with_journal(closed, {**pair.copies, 0: copied}), AFTER
    yield from home_pages_torn(pair)


def other_bytes():
    """What may be where the gate and the journal's fields are."""
    return bytes([165]) * (NO_PAGES.stop - NO_PAGES.start)


def with_first_journal(data):
    """A closed file of version 1 whose first checkpoint was stopped before it wrote the gate."""
    calls = list(migration(data))
    return applied(data, calls[: calls.index(SYNC)])


def all_pages(data):
    return {place: data[place * PAGE_BYTES : (place + 1) * PAGE_BYTES] for place in range(len(data) // PAGE_BYTES)}


def home_pages_torn(pair):
    """Home pages that are copied may hold anything: also page 0's format, flag and mark."""
    opened = with_journal(pair.closed, page_0_copied(pair))
    yield "a home page 0 of version 1", with_number(opened, VERSION.start, 1), AFTER
    yield "a home page 0 of version 1 with a flag", with_bytes(opened, VERSION.start, b"\0\0\0\1\1"), AFTER
    yield "a home page 0 of no file", with_bytes(opened, 0, bytes([165]) * GATE), AFTER
    yield "a home page 0 of zeros", with_bytes(with_bytes(opened, 0, bytes(GATE)), NO_PAGES.stop, bytes(PAGE_BYTES - 76)), AFTER
    for page in pair.copies:
        yield "a home page %d of no file" % page, with_bytes(opened, PAGE_BYTES * page, bytes([165]) * PAGE_BYTES), AFTER


def damaged_files(pair):
    """Journals that are not well formed, or make pages that are no file of version 2."""
    closed, copies, opened = pair
    first, place = pair.first(), pair.first_number()
    yield "a journal whose file is a byte too short", opened[:-1]
    yield "a journal whose file is a page too short", opened[:-PAGE_BYTES]
    yield "a journal whose file ends before it", opened[: len(closed)]
    yield "a first number as the second", with_number(opened, place, sorted(copies)[1])
    yield "a second number as the first", with_number(opened, place + 4, sorted(copies)[0])
    yield "numbers that descend", with_number(with_number(opened, place, sorted(copies)[1]), place + 4, sorted(copies)[0])
    yield "a last number as the first page", with_number(opened, place + 4 * (len(copies) - 1), first)
    yield "a last number past the first page", with_number(opened, place + 4 * (len(copies) - 1), first + 1)
    yield "a last number past all pages", with_number(opened, place + 4 * (len(copies) - 1), 2**32 - 1)
    yield "a journal at page 0", with_number(opened, FIELDS, 0)
    yield "a journal past the file", with_number(opened, FIELDS, 2**32 - 1)
    yield "a journal a page too far", with_number(opened, FIELDS, first + 1)
    for count in (len(copies) + 1, MANY, 2**31, 2**32 - 1):
        yield "a journal of %d copies that are not there" % count, with_number(opened, FIELDS + 4, count)
    yield "a journal over the file's pages", with_journal(closed, {1: copies[1]}, first - 1)
    yield "a journal that lacks a copy", with_journal(closed, {1: copies[1]})
    yield "a home page that is not copied", with_bytes(opened, 2 * PAGE_BYTES, b"\0")
    yield from damaged_headers(pair)
    yield "a flag", with_bytes(closed, FLAG, b"\1")
    yield "format 3", with_number(closed, VERSION.start, 3)
    yield "another byte before the gate", with_bytes(closed, NO_PAGES.start - 1, b"\1")
    yield "another byte after the journal's fields", with_bytes(closed, NO_PAGES.stop, b"\1")


def damaged_headers(pair):
    """An open gate whose page 0, as the journal gives it, is no header of version 2 that fits the file."""
    closed, copies = pair.closed, pair.copies
    pages = (len(closed) // PAGE_BYTES) + 1 + len(copies) + 1
    changes = {
        "of version 1": (VERSION.start, number(1)),
        "of version 3": (VERSION.start, number(3)),
        "with a flag": (FLAG, b"\1"),
        "with a byte after the flag": (FLAG + 3, b"\1"),
        "with another mark": (16, b"ROADSEG2"),
        "of another kind": (0, b"\2"),
        "of another number": (7, b"\1"),
        "with a byte before the gate": (NO_PAGES.start - 1, b"\1"),
        "with a byte after the fields": (NO_PAGES.stop, b"\1"),
        "of no pages": (COUNT, number(0)),
        "of one page": (COUNT, number(1)),
        "of more pages than the file": (COUNT, number(pages + 1)),
        "of more pages than the limit": (COUNT, number(1_048_577)),
        "of the most pages": (COUNT, number(2**32 - 1)),
    }
    for name, change in changes.items():
        yield "a copy of page 0 " + name, with_journal(closed, {**copies, 0: with_bytes(closed[:PAGE_BYTES], *change)})
        yield "a page 0 that is not copied " + name, with_bytes(pair.opened, *change)
        yield "a page 0 and a journal of none " + name, applied(closed, [Write(*change), Write(GATE, b"\1")])


def other_files(pair):
    """Files that are none of RoadSeg's, or of version 1."""
    for size in (0, 1, 64, 65, 76, PAGE_BYTES - 1):
        yield "%d bytes with a gate" % size, with_bytes(bytes(PAGE_BYTES), GATE, b"\1")[:size], DAMAGED, None
    library = b"\x7fELF\2\1\1".ljust(PAGE_BYTES * 3, b"\0")
    yield "a library", with_bytes(library, GATE, b"\1"), DAMAGED, None
    yield "a library with a journal", with_bytes(with_bytes(library, GATE, b"\1"), FIELDS, fields_of(1, 1)), DAMAGED, None
    first_version = with_number(pair.closed, VERSION.start, 1)
    yield "version 1", first_version, OK, BEFORE
    yield "version 1 with a flag", with_bytes(first_version, FLAG, b"\1"), NOT_CLOSED, None
    yield "version 1 with an open gate", with_bytes(first_version, GATE, b"\1"), DAMAGED, None
    yield "version 1 with a first checkpoint that was stopped", with_first_journal(first_version), OK, BEFORE
    yield "version 1 with a gate that was being written", with_bytes(with_first_journal(first_version), GATE, b"\2"), OK, BEFORE
    yield "version 1 with other bytes in place of a gate", with_bytes(first_version, GATE, other_bytes()), OK, BEFORE
    yield "version 1 with another byte before the gate", with_bytes(first_version, NO_PAGES.start - 1, b"\1"), DAMAGED, None
    yield "version 1 with another byte after the journal's fields", with_bytes(first_version, NO_PAGES.stop, b"\1"), DAMAGED, None
    yield "version 1 with a journal", with_journal(first_version, pair.copies), DAMAGED, None
    yield "version 1 with a journal of page 0", with_journal(first_version, page_0_copied(pair)), OK, AFTER


def files():
    """All of them."""
    pair = pair_of(small)
    for name, data, accepted in sound_files(pair):
        yield Journaled(name, data, OK, accepted)
    for name, data in damaged_files(pair):
        yield Journaled(name, data, DAMAGED)
    for file in other_files(pair):
        yield Journaled(*file)
    yield from many_copies()
    said = various()
    said.version = 2
    closed = bytes_of(said)
    yield Journaled("a journal of all pages of something of each kind", with_journal(closed, all_pages(closed)), OK, said.accepted)


def many_copies():
    """Journals of as many copies as a page has numbers, and of one more and one less."""
    pair = pair_of(large)
    for count in (MANY - 2, MANY - 1, MANY, len(pair.copies)):
        rest = {page: pair.copies[page] for page in sorted(pair.copies)[count:]}
        copies = {page: pair.copies[page] for page in sorted(pair.copies)[:count]}
        closed = applied(pair.closed, [Write(page * PAGE_BYTES, data) for page, data in rest.items()])
        opened = with_journal(closed, copies)
        yield Journaled("a journal of %d copies" % count, opened, OK, AFTER)
        yield Journaled("a journal of %d copies a page too short" % count, opened[:-PAGE_BYTES], DAMAGED)
        last = with_number(opened, pair.first_number() + 4 * (count - 1), sorted(copies)[-2])
        yield Journaled("a journal of %d copies whose last number is no greater" % count, last, DAMAGED)


def changed_bytes():
    """The small file with each byte changed of its journal, of the gate and the fields, and of the pages that are copied; of what is
    answered it is known only where the byte plays no part."""
    pair = pair_of(small)
    data = with_journal(pair.closed, page_0_copied(pair))
    numbers = range(pair.first_number(), pair.first_number() + 4 * (len(pair.copies) + 1))
    ignored = set(range(PAGE_BYTES)) - set(range(*NO_PAGES.indices(PAGE_BYTES)))
    ignored |= {page * PAGE_BYTES + place for page in pair.copies for place in range(PAGE_BYTES)}
    ignored |= set(range(numbers.stop, pair.first_number() + PAGE_BYTES))
    told = [*range(*NO_PAGES.indices(PAGE_BYTES)), *numbers]
    for place in range(len(data)):
        for change in (1, 2, 4, 8, 16, 32, 64, 128, 255) if place in told else (1 << place % 8,):
            name = "byte %d of page %d changed by %d" % (place % PAGE_BYTES, place // PAGE_BYTES, change)
            yield name, with_bytes(data, place, bytes([data[place] ^ change])), place in ignored
