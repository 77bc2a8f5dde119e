"""What a crash may leave of a file: the bytes at the last sync, and of each call since then any part, or bytes never written.

A write's range may hold any bytes until a sync succeeds, and the file may have any size between; a cut is kept or lost; all else
stays. `moments(data, entries)` goes through a log, and `images(moment, ..)` gives what a crash may leave then: what was written
kept, lost, half of it, torn at 512 bytes, or filled with a byte; all alike, each way where the calls are few, and pseudo-random
ones.
"""

from itertools import product
from typing import NamedTuple

from device_calls import Cut, Write, apply
from device_log import SYNCING

SECTOR = 512
FILLING = 165


class Pending(NamedTuple):
    """A write or a cut since the last sync, and what it has done, which is less where it failed: None where that is nothing."""

    call: object
    done: object


class Moment(NamedTuple):
    """How many calls of a log were made, the bytes at the last sync, and what is written or cut from then to the next: so much of it
    by this moment."""

    place: int
    durable: bytes
    calls: list
    count: int

    def pending(self):
        """What was written or cut since the last sync."""
        return self.calls[: self.count]


def pending_of(entry):
    """What a logged write or cut has done."""
    call = entry.call()
    if isinstance(call, Write):
        return Pending(call, Write(call.at, call.data[: entry.done]))
    return Pending(call, None if entry.has_failed() else call)


def moments(data, entries, forgets=False):
    """The moments after each change of a log, and the first. A system may forget what a sync that failed could not write, which is
    lost then, whatever a later one answers."""
    durable, pending = bytes(data), []
    yield Moment(0, durable, pending, 0)
    for place, entry in enumerate(entries, 1):
        if not entry.is_change():
            continue
        if entry.kind != SYNCING:
            pending.append(pending_of(entry))
        elif entry.has_failed():
            pending = [one for one in pending if isinstance(one.call, Cut)] if forgets else pending
        else:
            file = bytearray(durable)
            for one in pending:
                if one.done:
                    apply(file, one.done)
            durable, pending = bytes(file), []
        yield Moment(place, durable, pending, len(pending))


# Ways in which a call since the last sync may be kept: each gives what is left of it.


def kept(file, one, by):
    return one.done


def lost(file, one, by):
    return None


def filled_with(byte):
    def filled(file, one, by):
        return one.call if isinstance(one.call, Cut) else Write(one.call.at, bytes([byte]) * len(one.call.data))

    return filled


def half(file, one, by):
    """The first half of a write is kept."""
    return one.call if isinstance(one.call, Cut) else Write(one.call.at, one.call.data[: len(one.call.data) // 2])


def last_half(file, one, by):
    """The last half of a write is kept."""
    if isinstance(one.call, Cut):
        return None
    middle = len(one.call.data) // 2
    return Write(one.call.at + middle, one.call.data[middle:])


def torn(file, one, by):
    """Of each sector that a write meets, by chance, all is kept or all is lost; those past the file's end have zeros then."""
    if isinstance(one.call, Cut):
        return by.choice([one.call, None])
    at, data = one.call
    old = bytes(file[at : at + len(data)]).ljust(len(data), b"\0")
    parts, place = [], 0
    while place < len(data):
        end = min(len(data), place + SECTOR - (at + place) % SECTOR)
        parts.append(by.choice([old, data])[place:end])
        place = end
    return Write(at, b"".join(parts))


FILLED, ZEROS, ONES = filled_with(FILLING), filled_with(0), filled_with(1)
ALIKE = (kept, lost, FILLED, ZEROS, ONES, torn, torn)
EACH = (kept, lost, FILLED, torn)
ANY = (kept, kept, kept, lost, lost, lost, FILLED, ONES, half, last_half, torn, torn)


class Amount(NamedTuple):
    """How many calls are few, so that each way of each is taken; and half of how many pseudo-random images there are of a moment with
    more. Of one with few there are a third as many."""

    few: int
    chosen: int


def image(moment, ways, by):
    """What is left where each call since the last sync is kept in one of these ways."""
    file = bytearray(moment.durable)
    for one, way in zip(moment.pending(), ways):
        left = way(file, one, by)
        if left is not None:
            apply(file, left)
    return bytes(file)


def ways_at(moment, by, amount):
    """In which ways the calls since the last sync are kept."""
    count, chosen = moment.count, amount.chosen
    yield from ((way,) * count for way in ALIKE)
    if count <= amount.few:
        yield from product(EACH, repeat=count)
        chosen = -(-chosen // 3)
    for _ in range(chosen):
        yield tuple(by.choices(ANY, k=count))
        yield (*by.choices((kept, lost), k=count - 1), by.choice(ANY))


def images(moment, by, amount):
    """What a crash may leave at a moment: none twice where there is nothing since the last sync."""
    if not moment.count:
        yield moment.durable
        return
    for ways in ways_at(moment, by, amount):
        yield image(moment, ways, by)
