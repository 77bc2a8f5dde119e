"""The slow checkpoint: the calls of a disk by which changed pages get into a file of version 2, and those of its recovery; and the
bytes of a file after it was opened: `after_opening(data, is_sound)`.

It is written from the format alone and shares nothing with the crates. A journal is written by it where it is sound, and by hand
where it isn't (written_journals.py); what a program does is compared with it (crash_order.py).
"""

from device_calls import SYNC, Cut, Write, applied
from slow_journal import (
    FIRST_VERSION,
    GATE,
    LAST_VERSION,
    NO_PAGES,
    OPEN,
    PAGE_BYTES,
    VERSION,
    Damaged,
    has_open_gate,
    page_at,
    pages_of_numbers,
    places_of,
)
from slow_pages import Pages

CLOSED = 0
FILLING = 165
FIELDS = 68
PAGE_COUNT = slice(32, 36)


def number(value):
    return value.to_bytes(4, "big")


def fields_of(first, count):
    """Bytes 68 to 75 of page 0."""
    return number(first) + number(count)


def pages_of(data):
    return [data[start : start + PAGE_BYTES] for start in range(0, len(data), PAGE_BYTES)]


def changed_pages(old, new):
    """The pages by number that the later ones of two files have other than the earlier one, or alone."""
    before = pages_of(old)
    return {place: page for place, page in enumerate(pages_of(new)) if before[place : place + 1] != [page]}


def journal_writes(first, copies):
    """The journal of these copies, each by the number of its page."""
    numbers = b"".join(map(number, sorted(copies)))
    room = pages_of_numbers(len(copies)) * PAGE_BYTES
    journal = numbers.ljust(room, b"\0") + b"".join(copies[place] for place in sorted(copies))
    yield from (Write((first + place) * PAGE_BYTES, page) for place, page in enumerate(pages_of(journal)))
    yield Write(FIELDS, fields_of(first, len(copies)))


def gate_writes(byte):
    yield Write(GATE, bytes([byte]))


def home_writes(copies):
    """The copies over their home pages, of page 0 all but the gate and the journal's fields."""
    for place in sorted(copies):
        page = copies[place]
        if place == 0:
            yield Write(0, page[: NO_PAGES.start])
            yield Write(NO_PAGES.stop, page[NO_PAGES.stop :])
        else:
            yield Write(place * PAGE_BYTES, page)


def checkpoint(first, copies, count):
    """A whole checkpoint, after which the file has so many pages."""
    for writes in (journal_writes(first, copies), gate_writes(OPEN), home_writes(copies), gate_writes(CLOSED)):
        yield from writes
        yield SYNC
    yield Cut(count * PAGE_BYTES)


def recovery(data):
    """What recovery of a file writes, which is of version 2 and sound."""
    yield SYNC
    if has_open_gate(data):
        places = places_of(data)
        copies = {place: page_at(data, places, place) for place in places.copied}
        yield from home_writes(copies)
        yield SYNC
        yield from gate_writes(CLOSED)
        yield SYNC
        yield Cut(int.from_bytes(page_at(data, places, 0)[PAGE_COUNT], "big") * PAGE_BYTES)


def recovered(data):
    """The bytes of a file after recovery."""
    return applied(data, recovery(data))


def migration(data):
    """What makes a closed file of version 1 one of version 2: a checkpoint of page 0 with that format."""
    first = page_at(data, places_of(data), 0)
    page = first[: VERSION.start] + number(LAST_VERSION) + first[VERSION.stop :]
    count = int.from_bytes(first[PAGE_COUNT], "big")
    return checkpoint(count, {0: page}, count)


def in_first_version(data, flag=0):
    """The bytes of a file with the format of version 1, and its flag, which is 0 where it was closed."""
    return applied(data, [Write(VERSION.start, number(FIRST_VERSION) + bytes([flag])), Write(GATE, bytes(NO_PAGES.stop - GATE))])


def being_written(old, new):
    """The bytes of a file whose checkpoint was stopped while its pages went home: it has the later ones in its journal, and page 0 and
    the other changed ones are torn."""
    copies = {0: new[:PAGE_BYTES], **changed_pages(old, new)}
    opened = with_journal(old, copies, len(new) // PAGE_BYTES)
    return applied(opened, [Write(PAGE_BYTES * page, bytes([FILLING]) * GATE) for page in copies])


def is_recovered(data):
    """Whether page 0, as the journal gives it, is a header that fits, so that a file is recovered before other pages are read."""
    try:
        return Pages(data) is not None
    except Damaged:
        return False


def after_opening(data, is_sound):
    """The bytes of a file that was opened, if it is sound, or refused."""
    if is_sound and places_of(data).version == FIRST_VERSION:
        return applied(data, migration(data))
    return recovered(data) if is_recovered(data) else data


def is_at_rest(data):
    """Whether a file is as a checkpoint leaves it: its gate is closed, and nothing is past its pages."""
    return not has_open_gate(data) and len(data) == PAGE_BYTES * int.from_bytes(data[PAGE_COUNT], "big")


def with_journal(data, copies, first=None, gate=OPEN):
    """The bytes of a file whose journal has these copies, and whose gate is that byte."""
    first = len(data) // PAGE_BYTES if first is None else first
    return applied(data, [*journal_writes(first, copies), *gate_writes(gate)])
