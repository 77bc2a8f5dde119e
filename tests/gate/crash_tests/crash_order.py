"""The order of a program's calls of its file: between two checkpoints nothing is changed, and a checkpoint is the journal, a sync,
the gate byte, a sync, the home pages, a sync, the gate byte, a sync, and a cut.

Which calls these are follows from the bytes that they write: the journal says which pages it copies, and the slow checkpoint what
is to come then. Reads play no part. A recovery is a sync, and a checkpoint from its home pages on where the gate is open. A file
of version 1 is synced as it is opened, and gets version 2 by a checkpoint of page 0.
"""

import os

from device_calls import SYNC, Cut, Write, apply, applied
from device_log import FILE, FOLDER, OPENING, SYNCING
from harness import Wrong, expect
from slow_checkpoint import FIELDS, PAGE_COUNT, checkpoint, gate_writes, journal_writes, migration, recovery
from slow_journal import OPEN, page_at, places_of

MOST_CHANGED = 1_024  # pages that may be changed before a checkpoint is made without SAVE
CHANGES = (b"DEFINE", b"DROP", b"MOVE", b"INSERT", b"REMOVE", b"CLOSE")


def text_of(call):
    match call:
        case Write(at, data):
            return "a write of %d bytes at %d" % (len(data), at)
        case Cut(size):
            return "a cut to %d bytes" % size
    return "a sync"


def page_count(data):
    """How many pages a file has, by page 0 as it stands after recovery."""
    return int.from_bytes(page_at(data, places_of(data), 0)[PAGE_COUNT], "big")


class Order:
    """The bytes of a file as its calls are followed, those calls of one line that are still to be followed, and how many checkpoints
    there were for which no line asked."""

    def __init__(self, data):
        self.file = bytearray(data)
        self.calls = []
        self.unasked = 0

    def opening(self, entries):
        """Follows the calls of an opening."""
        self.begin(entries)
        self.recovery()
        self.end()

    def line(self, word, entries, is_large):
        """Follows the calls of a line with this word, None where it was refused. Of other lines than SAVE and REOPEN only those that
        change something may make a checkpoint, and only where many pages may be changed by then."""
        self.begin(entries)
        if word in (b"SAVE", b"REOPEN"):
            self.saving()
        elif is_large and word in CHANGES and self.calls:
            copies = self.checkpoint()
            expect("whether a checkpoint without SAVE copies so many pages", len(copies) > MOST_CHANGED, True)
            self.unasked += 1
        self.end()

    def closing(self, entries):
        """Follows the calls of an end."""
        self.begin(entries)
        self.saving()
        self.end()

    def migrating(self, entries):
        """Follows the calls of a run without lines over a closed file of version 1."""
        self.begin(entries)
        self.expect_next([SYNC], "an opening")
        self.expect_next(list(migration(bytes(self.file))), "a migration")
        self.end()

    # Parts.

    def begin(self, entries):
        self.calls = [entry.call() for entry in entries if entry.is_change()]

    def end(self):
        if self.calls:
            raise Wrong("%s where none is to be" % text_of(self.calls[0]))

    def take(self, what):
        if not self.calls:
            raise Wrong("the calls end in %s" % what)
        call = self.calls.pop(0)
        apply(self.file, call)
        return call

    def expect_next(self, wanted, what):
        """The next calls are these."""
        for call in wanted:
            got = self.take(what)
            if got != call:
                raise Wrong("in %s %s is wanted, and got %s" % (what, text_of(call), text_of(got)))

    def recovery(self):
        wanted = list(recovery(bytes(self.file)))
        after = applied(bytes(self.file), wanted[:-1])
        if isinstance(wanted[-1], Cut) and len(after) <= wanted[-1].size:
            wanted.pop()
        self.expect_next(wanted, "recovery")

    def saving(self):
        """A checkpoint, or nothing where nothing was changed: which of the two it had to be is told by what a crash leaves."""
        if self.calls:
            self.checkpoint()

    def checkpoint(self):
        """A whole checkpoint: its copies."""
        first, copies = self.journal()
        count = page_count(applied(bytes(self.file), gate_writes(OPEN)))
        wanted = list(checkpoint(first, copies, count))
        self.expect_next(wanted[wanted.index(SYNC) + 1 :], "a checkpoint")
        return copies

    def journal(self):
        """A journal with its sync: its first page, and its copies by the numbers of their pages."""
        kept, writes = bytes(self.file), []
        while self.calls and isinstance(self.calls[0], Write):
            writes.append(self.take("a journal"))
        self.expect_next([SYNC], "a journal")
        opened = applied(bytes(self.file), gate_writes(OPEN))
        places = places_of(opened)
        copies = {number: page_at(opened, places, number) for number in places.copied}
        first = int.from_bytes(opened[FIELDS : FIELDS + 4], "big")
        if sorted(writes) != sorted(journal_writes(first, copies)):
            raise Wrong("what is written before the gate's byte is not the journal")
        if first < max(page_count(kept), page_count(opened)):
            raise Wrong("a journal is written over pages of the file")
        if not copies:
            raise Wrong("a journal of none is written")
        return first, copies


def expect_read_alone(entries):
    """The file is opened for reading, and nothing of it is changed."""
    flags = [entry.at & os.O_ACCMODE for entry in entries if (entry.kind, entry.what) == (OPENING, FILE)]
    expect("how a file is opened that is dumped", flags, [os.O_RDONLY])
    expect("whether a dump changes the file", any(entry.is_change() for entry in entries), False)


def expect_folder_synced(entries):
    """A file is made, then its folder is opened and synced before anything is written."""
    what = [(entry.kind, entry.what) for entry in entries if not entry.has_failed()]
    wanted = [(OPENING, FILE), (OPENING, FOLDER), (SYNCING, FOLDER)]
    expect("the calls before a new file is written", [one for one in what if one in wanted], wanted)
    changes = [(place, entry) for place, entry in enumerate(entries) if entry.is_change()]
    if not changes or changes[0][0] < what.index((SYNCING, FOLDER)):
        raise Wrong("a new file is written before its folder is synced")
