"""Files with single fields written anew, over a sound file that has something of each kind: `changed_fields(file)`.

Where a page or a cell is named, its fields are looked up by what lies there: `leaf of records`, for one, is the page
that the first entry of the lowest inner pages of the first table names.
"""

from file_writer import DAMAGED, OK, PAGE_BYTES, File

RECORDS = "records of table 0"
ENTRIES = "entries of index 0"


class Places:
    """Pages of a file by what they are."""

    def __init__(self, file):
        self.file = file
        self.top = file.value("slot 3 root")
        self.inner = file.value(RECORDS + " level 2 page 0 entry 0 child")
        self.leaf = file.value(RECORDS + " level 1 page 0 entry 0 child")
        self.next_leaf = file.value(RECORDS + " level 1 page 0 entry 1 child")
        self.first = file.value("file first catalogue")
        self.second = file.value("page %d next" % self.first)
        self.free = file.value("file first free")
        self.other_free = file.value("page %d next" % self.free)

    def last_of_catalogue(self):
        page = self.first
        while self.file.value("page %d next" % page) != 0:
            page = self.file.value("page %d next" % page)
        return page


def header_changes(at):
    """Headers of pages, and page 0."""
    leaf, free = at.leaf, at.free
    return {
        "fewer pages": {"file pages": 3},
        "a page more": {"file pages": at.file.value("file pages") + 1},
        "the most pages": {"file pages": 1_048_576},
        "more than the most pages": {"file pages": 1_048_577},
        "a byte after page 0's number": {"page 0 last": 1},
        "a second byte of a leaf": {"page %d zero" % leaf: 1},
        "a last number of a leaf": {"page %d last" % leaf: 1},
        "a next page of a leaf": {"page %d next" % leaf: at.free},
        "a next page of an inner page": {"page %d next" % at.inner: at.free},
        "another number of a leaf": {"page %d number" % leaf: at.next_leaf},
        "a leaf of no kind": {"page %d kind" % leaf: 0},
        "a leaf as an inner page": {"page %d kind" % leaf: 3},
        "a leaf as a free page": {"page %d kind" % leaf: 5},
        "an inner page as a leaf": {"page %d kind" % at.inner: 2},
        "a count of a free page": {"page %d count" % free: 1},
        "the mark of another file": {"file mark": int.from_bytes(b"ROADSEG2", "big")},
        "format 0": {"file format": 0},
        "format 3": {"file format": 3},
        "a flag": {"file flag": 1},
        "a byte after the flag": {"file zeros": 1},
        "a gate and a journal past the file": {"gate byte": 1, "gate first page": 2**32 - 1, "gate copies": 1},
    }


def list_changes(at):
    """The catalogue's pages and the free list."""
    last = at.last_of_catalogue()
    return {
        "no catalogue": {"file first catalogue": 0, "file catalogue bytes": 0},
        "a catalogue from its second page on": {"file first catalogue": at.second},
        "a catalogue in the directory": {"file first catalogue": 1},
        "a catalogue in a leaf": {"file first catalogue": at.leaf},
        "a catalogue that is cut": {"file catalogue bytes": 100},
        "a catalogue of a byte more": {"file catalogue bytes": at.file.value("file catalogue bytes") + 1},
        "a catalogue in a circle": {"page %d next" % last: at.first},
        "a catalogue that goes on past the file": {"page %d next" % last: 2**32 - 1},
        "a count of the catalogue's page past its end": {"page %d count" % last: 4_081},
        "free pages that are not listed": {"file first free": 0, "file free": 0},
        "one free page too few": {"file free": 1},
        "one free page too many": {"file free": 3},
        "a free list in a circle": {"page %d next" % at.other_free: at.free},
        "a free list from its second page on": {"file first free": at.other_free, "file free": 1},
        "a free list in the directory": {"file first free": 1, "file free": 1},
        "a free list that goes on into a leaf": {"page %d next" % at.other_free: at.leaf},
    }


def directory_changes(at):
    return {
        "a living record too many": {"slot 0 living": at.file.value("slot 0 living") + 1},
        "a dead record too many": {"slot 0 dead": at.file.value("slot 0 dead") + 1},
        "a living record for a dead one": {"slot 0 living": at.file.value("slot 0 living") + 1, "slot 0 dead": 0},
        "a living referent too many": {"referents living": at.file.value("referents living") + 1},
        "a living record of a table without records": {"slot 1 living": 1},
        "a living record where there is no table": {"slot 7 living": 1},
        "a dead record where there is no table": {"slot 127 dead": 1},
        "a root where there is no table": {"slot 7 root": at.leaf},
        "a root where there is no index": {"index slot 9 root": at.leaf},
        "a table without its root": {"slot 0 root": 0},
        "an index without its root": {"index slot 1 root": 0},
        "two tables of one tree": {"slot 1 root": at.file.value("slot 0 root")},
        "a table whose root is a leaf of it": {"slot 3 root": at.leaf},
        "a table whose root is an inner page of it": {"slot 3 root": at.inner},
        "two tables that exchange their trees": {"slot 3 root": at.file.value("slot 0 root"), "slot 0 root": at.top},
        "two indexes that exchange their trees": {
            "index slot 0 root": at.file.value("index slot 2 root"),
            "index slot 2 root": at.file.value("index slot 0 root"),
        },
        "a root past the file": {"slot 3 root": 2**32 - 1},
        "a root in the directory": {"slot 1 root": 1},
        "fewer accepted changes than there were": {"accepted": 29},
    }


def tree_changes(at):
    """Pages and cells of the trees of a table with two levels of inner pages."""
    entry, second = RECORDS + " level 1 page 0 entry 0", RECORDS + " level 1 page 0 entry 1"
    top = RECORDS + " level 2 page 0 entry 0"
    cell, next_cell = RECORDS + " leaf 0 cell 0 ", RECORDS + " leaf 0 cell 1 "
    value = at.file.value
    next_parts = {cell + part: value(next_cell + part) for part in ("start", "num", "sev", "born", "finish")}
    return {
        "a summary that is too great": {entry + " summary": value(entry + " summary") + 1},
        "a summary that is too small": {entry + " summary": value(entry + " summary") - 1},
        "a summary of the top that is too great": {top + " summary": value(top + " summary") + 1},
        "another least cell": {entry + " least": value(entry + " least") + 1},
        "the least cell of another leaf": {entry + " least": value(second + " least")},
        "another least cell at the top": {top + " least": value(top + " least") - 1},
        "two entries of one leaf": {second + " child": at.leaf},
        "leaves in another order": {entry + " child": at.next_leaf, second + " child": at.leaf},
        "a page as its own child": {entry + " child": at.inner},
        "a leaf beside an inner page": {top + " child": at.leaf},
        "a leaf without cells": {"page %d count" % at.leaf: 0},
        "a leaf of a cell less": {"page %d count" % at.leaf: value("page %d count" % at.leaf) - 1},
        "a leaf of a cell more": {"page %d count" % at.leaf: value("page %d count" % at.leaf) + 1},
        "a leaf of more cells than fit": {"page %d count" % at.leaf: 2**16 - 1},
        "an inner page of one entry": {"page %d count" % at.inner: 1},
        "an inner page without entries": {"page %d count" % at.inner: 0},
        "an inner page of an entry more": {"page %d count" % at.inner: value("page %d count" % at.inner) + 1},
        "an inner page of more entries than fit": {"page %d count" % at.inner: 2**16 - 1},
        "a cell that is there twice": next_parts,
        "a record that the index lacks": {next_cell + "sev": value(next_cell + "sev") + 1},
        "an entry of another birth": {ENTRIES + " leaf 0 cell 1 born": value(ENTRIES + " leaf 0 cell 1 born") + 1},
        "an entry of another value": {ENTRIES + " leaf 3 cell 2 value": value(ENTRIES + " leaf 3 cell 2 value") + 1},
        "an entry that is dead": {ENTRIES + " leaf 0 cell 1 died": 40},
        "a record that is dead, not in the index": {next_cell + "died": 40, "slot 3 living": 11, "slot 3 dead": 2},
    }


def sound_changes(at):
    """Fields that another sound file has: a last page of the catalogue without bytes, and one accepted change more. What is said of a
    journal plays no part where the gate is closed, or where it copies no page."""
    last = at.last_of_catalogue()
    return {
        "format 1": {"file format": 1},
        "a gate that is not open": {"gate byte": 2},
        "a journal and no gate": {"gate first page": at.file.value("file pages"), "gate copies": 1},
        "a gate and a journal of none": {"gate byte": 1, "gate first page": 2**32 - 1},
        "a page of the catalogue without bytes": {
            "page %d kind" % at.other_free: 4,
            "page %d next" % last: at.other_free,
            "page %d next" % at.free: 0,
            "file free": 1,
        },
        "an accepted change more": {"accepted": at.file.value("accepted") + 1},
        "a route of another birth": {"route 0 born": 40},
        "another free page as the first": {
            "file first free": at.other_free,
            "page %d next" % at.other_free: at.free,
            "page %d next" % at.free: 0,
        },
    }


def byte_changes(at):
    """Bytes after what is counted, and those that have to be zeros."""
    page = PAGE_BYTES
    return {
        "the last byte before the gate": (63, DAMAGED),
        "a byte between the gate and the journal's fields": (66, OK),
        "the first byte after the journal's fields": (76, DAMAGED),
        "the last byte of page 0": (page - 1, DAMAGED),
        "the last byte of the directory": (2 * page - 1, DAMAGED),
        "the first byte after the directory": (page + 2_860, DAMAGED),
        "the last byte of a leaf": (at.leaf * page + page - 1, OK),
        "the last byte of an inner page": (at.inner * page + page - 1, OK),
        "the last byte of a page of the catalogue": (at.first * page + page - 1, OK),
        "the first byte of a free page": (at.free * page + 16, DAMAGED),
        "the last byte of a free page": (at.free * page + page - 1, DAMAGED),
    }


def changed_fields(file):
    """The file itself, and with each of the changes."""
    at = Places(file)
    yield File("something of each kind", bytes(file.data), OK)
    for changes in (header_changes, list_changes, directory_changes, tree_changes):
        for name, values in changes(at).items():
            yield File("fields: " + name, file.with_fields(values), DAMAGED)
    for name, values in sound_changes(at).items():
        yield File("fields: " + name, file.with_fields(values), OK)
    for name, (place, wanted) in byte_changes(at).items():
        yield File("bytes: " + name, file.with_bytes(place, b"\x55"), wanted)
