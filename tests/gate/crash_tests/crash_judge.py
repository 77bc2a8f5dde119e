"""Judges what a crash has left of a file: it has to stand for the state after some of the accepted changes, none skipped.

How many changes a file has is in it, so it says itself after how many it stands. The slow reader reads each file, once where its
pages are the same. Files with the same count have to stand for the same state, and in the end a slow machine is told the lines and
compared with each of these states.
"""

from hashlib import blake2b
from typing import NamedTuple

from harness import Wrong
from slow_checkpoint import PAGE_COUNT
from slow_file import lines_of, read
from slow_journal import PAGE_BYTES, Damaged, page_at, places_of
from stored_machine import ChangingMachine, contents_of, machine_of


class Bounds(NamedTuple):
    """How many accepted changes a file has at least, and at the most."""

    fewest: int
    most: int


def digest_of(data):
    """What a file's pages after recovery are known by; all its bytes where there are none."""
    digest = blake2b(digest_size=16)
    try:
        places = places_of(data)
        first = page_at(data, places, 0)
        end = PAGE_BYTES * int.from_bytes(first[PAGE_COUNT], "big")
        digest.update(first)
        digest.update(rest_of(data, places, end))
        digest.update(b"%d" % min(end, len(data)))
    except Damaged:
        digest.update(data)
    return digest.digest()


def rest_of(data, places, end):
    """The bytes of the pages after page 0."""
    if not places.copied:
        return memoryview(data)[PAGE_BYTES:end]
    file = bytearray(data[:end])
    for number in places.copied:
        file[PAGE_BYTES * number : PAGE_BYTES * (number + 1)] = page_at(data, places, number)
    return memoryview(file)[PAGE_BYTES:]


class Judge:
    """Knows what it has read, and which states files of one run have stood for, by their count of changes."""

    def __init__(self):
        self.read = {}
        self.states = {}
        self.met = 0

    def state_of(self, data):
        """The state that a file stands for, which has to be that of each file with its count."""
        self.met += 1
        digest = digest_of(data)
        if digest not in self.read:
            self.read[digest] = self.found(data)
        found = self.read[digest]
        if isinstance(found, Wrong):
            raise found
        return found

    def found(self, data):
        said = read(data)
        if said.state is None:
            return Wrong("the slow reader says %s, %s" % (said.answer.decode(), said.why))
        before = self.states.setdefault(said.state.accepted, said.state)
        if list(lines_of(before)) != list(lines_of(said.state)):
            return Wrong("two files after %d changes stand for different states" % said.state.accepted)
        return before

    def judge(self, data, bounds):
        """Judges a file: the state that it stands for."""
        state = self.state_of(data)
        if not bounds.fewest <= state.accepted <= bounds.most:
            raise Wrong("it stands for %d changes, and from %d to %d are wanted" % (state.accepted, *bounds))
        return state

    def compare(self, machine, lines):
        """Compares the states that were met with those of a slow machine that is told the lines which were accepted."""
        waiting = dict(self.states)
        for line in [None, *lines]:
            if line is not None:
                machine.answer(line)
            state = waiting.pop(machine.changes, None)
            if state is not None and contents_of(machine_of(state, ChangingMachine)) != contents_of(machine):
                raise Wrong("after %d changes a file stands for another state than the slow machine" % machine.changes)
        if waiting:
            raise Wrong("files have %s changes, as the slow machine never has" % sorted(waiting))
