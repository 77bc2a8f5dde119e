"""Runs of the program in which a growth is refused, a device call fails, or the disk lies: refusing.c is loaded before it, and
tells of it.

decision: refused-in-what-runs
"""

import mmap
import os
import struct
from typing import NamedTuple

from harness import Wrong, bytes_at, expect
from programs import Ended, Running, library_of

LONGEST = 60  # seconds that a reply or an end may take

# The end of a run in which nothing is wrong.
WELL = Ended(0, b"", b"")

# What the library tells: how many calls of each kind were made, which kind was refused, whether the program came to its end, how
# many calls were false, how many bytes reads asked for, and how many bytes of memory are in use and were at the most.
KINDS = ("growth", "read", "write", "sync", "cut")
TOLD = struct.Struct("@5L L L L L L L")
REFUSED, HAS_ENDED, LIES, BYTES_READ, _MEMORY, MOST_MEMORY = range(len(KINDS), len(KINDS) + 6)

# What it is asked to do from now on.
ASKED = struct.Struct("@6L")
TOLD_BYTES = TOLD.size + ASKED.size
ZEROS, OTHER_BYTES = 1, 2


def build(folder):
    """Builds the library, and gives its path."""
    return library_of("refusing", folder)


class Refusal(NamedTuple):
    """What is refused: the growth or device call with a number, 0 for none; and how long a device call may be, 0 for any."""

    growth: int = 0
    call: int = 0
    is_half_done: bool = False
    longest: int = 0

    def settings(self):
        names = ("REFUSED_GROWTH", "REFUSED_CALL", "REFUSED_HALF", "LONGEST_CALL")
        return {name: str(int(number)) for name, number in zip(names, self)}

    def __str__(self):
        if self.growth:
            return "growth %d" % self.growth
        return "device call %d%s" % (self.call, ", half of it done" if self.is_half_done else "")


NOTHING = Refusal()


class Lie(NamedTuple):
    """What the disk does from now on: a page that it gives as zeros or with other bits of a byte; which of its next writes tears,
    from 1 on; and how many pages it has room for."""

    lie: int = 0
    page: int = 0
    place: int = 0
    bits: int = 0
    torn_write: int = 0
    room: int = 0


HONEST = Lie()


class Counts(NamedTuple):
    """How many growths a run asked for, and how many device calls of each kind it made."""

    growths: int
    reads: int
    writes: int
    syncs: int
    cuts: int

    def calls(self):
        return sum(self) - self.growths


class Run(Running):
    """A run of the program, with the library loaded before it."""

    def __init__(self, program, words, refusal):
        told = os.memfd_create("told")
        os.truncate(told, TOLD_BYTES)
        self.told = mmap.mmap(told, TOLD_BYTES)
        self.is_noted = False
        settings = dict(os.environ, LD_PRELOAD=program.library, REFUSED_TOLD=str(told), **refusal.settings())
        super().__init__([program.path, *words], LONGEST, env=settings, pass_fds=[told])
        os.close(told)

    def __exit__(self, *fault):
        super().__exit__(*fault)
        self.told.close()

    def counts(self):
        """How many growths the run has asked for by now, and how many device calls it has made."""
        return Counts(*self.told_now()[:len(KINDS)])

    def told_now(self):
        return TOLD.unpack_from(self.told)

    def lie(self, lie):
        """Has the disk do something from now on."""
        ASKED.pack_into(self.told, TOLD.size, *lie)

    def lies(self):
        """How many calls were false by now."""
        return self.told_now()[LIES]

    def refused_now(self):
        """The kind of call that was refused since this was asked last, if one was."""
        refused = self.told_now()[REFUSED]
        if self.is_noted or refused == 0:
            return None
        self.is_noted = True
        return KINDS[refused - 1]

    def end(self, tail=b""):
        """How the run ends by itself once its input does, after a cut line."""
        self.send(tail)
        ended = super().end()
        if not self.told_now()[HAS_ENDED]:
            raise Wrong("it did not end by itself, or without refusing.c: status %d, %.300r" % (ended.status, ended.errors))
        return ended


class Program(NamedTuple):
    """The program, the library that is loaded before it, and a folder for files."""

    path: str
    library: str
    folder: str

    def run(self, file=None, refusal=NOTHING):
        """A run over a file, or in memory."""
        return Run(self, ["run", "--file", file] if file else ["run"], refusal)

    def create(self, file, refusal=NOTHING):
        """A run that creates a file. It has no lines."""
        return Run(self, ["create", "--file", file], refusal)

    def file(self):
        """The path of the file that this process works on. No other one does."""
        return os.path.join(self.folder, "file-%d" % os.getpid())

    def file_of(self, data):
        """The path of that file, which has these bytes then."""
        with open(self.file(), "wb") as file:
            file.write(data)
        return self.file()

    def bytes_left(self):
        """The bytes of that file."""
        return bytes_at(self.file())

    def bytes_after(self, lines):
        """The bytes of that file once it is created and told these lines, each of which is accepted."""
        with self.create(self.file()) as run:
            expect("the creation", run.end(), WELL)
        with self.run(self.file()) as run:
            for line, reply in zip(lines, run.ask_all(lines)):
                expect("whether %.60r is accepted" % line, b" OK " in reply, True)
            expect("the end", run.end(), WELL)
        return self.bytes_left()
