"""Runs of the program whose calls of its file are logged, stopped or failed: device_log.c is loaded before it."""

import mmap
import os
import struct
from typing import NamedTuple

from device_calls import SYNC, Cut, Write
from harness import bytes_at, expect
from programs import Ended, Running, library_of

LONGEST = 120  # seconds that a reply or an end may take

ENTRY = struct.Struct("@6l")
OPENING, CLOSING, READ, WRITE, SYNCING, CUTTING = range(6)
FILE, FOLDER = 1, 2

TOLD = struct.Struct("@8L")
CALLS, CHANGES, WRITES, ASKED = range(4)

# The end of a run in which nothing is wrong.
WELL = Ended(0, b"", b"")


class Entry(NamedTuple):
    """A call: its kind, whether it is one of the file or of its folder, its place or size, how many bytes it was to take, what it
    gave, how many bytes it wrote, and those that a write was given."""

    kind: int
    what: int
    at: int
    length: int
    result: int
    done: int
    data: bytes

    def has_failed(self):
        return self.result < 0

    def is_change(self):
        return self.what == FILE and self.kind in (WRITE, SYNCING, CUTTING)

    def call(self):
        """A change as a call of the disk."""
        return {WRITE: Write(self.at, self.data), CUTTING: Cut(self.at)}.get(self.kind, SYNC)


class Asked(NamedTuple):
    """What is to happen: the process is stopped at a change, before it or once a write is half done; no write has room from one
    on; one change fails; and whether writes that fail are half done. Each is counted from 1, and 0 is none."""

    stop_at: int = 0
    stop_half: bool = False
    full_from: int = 0
    fail_at: int = 0
    fails_half: bool = False


NOTHING = Asked()


class Run(Running):
    """A run of the program, with the library loaded before it."""

    def __init__(self, program, words, file, asked=NOTHING, keeps_log=True):
        told = os.memfd_create("told")
        self.log = os.memfd_create("log") if keeps_log else os.open(os.devnull, os.O_WRONLY)
        os.truncate(told, TOLD.size)
        self.told = mmap.mmap(told, TOLD.size)
        self.ask_for(asked)
        numbers = {"LOGGED_FILE": file, "LOGGED_TO": str(self.log), "LOGGED_TOLD": str(told)}
        settings = dict(os.environ, LD_PRELOAD=program.library, **numbers)
        super().__init__([program.path, *words], LONGEST, env=settings, pass_fds=[told, self.log])
        os.close(told)

    def __exit__(self, *fault):
        super().__exit__(*fault)
        self.told.close()
        os.close(self.log)

    def ask_for(self, asked):
        """Says what is to happen from now on."""
        struct.pack_into("@5L", self.told, ASKED * struct.calcsize("@L"), *map(int, asked))

    def counts(self):
        return TOLD.unpack_from(self.told)

    def calls(self):
        """How many entries the log has by now."""
        return self.counts()[CALLS]

    def entries(self):
        """The log."""
        return list(entries_of(os.pread(self.log, os.fstat(self.log).st_size, 0)))


def entries_of(data):
    place = 0
    while place < len(data):
        fields = ENTRY.unpack_from(data, place)
        place += ENTRY.size
        length = fields[3] if fields[0] == WRITE else 0
        yield Entry(*fields, data[place : place + length])
        place += length


def build(folder):
    """Builds the library, and gives its path."""
    return library_of("device_log", folder)


class Program(NamedTuple):
    """The path of the program, that of the library that is loaded before it, and a folder for files."""

    path: str
    library: str
    folder: str

    def file(self):
        """The path of the file that this process works on. No other one does."""
        return os.path.join(self.folder, "file-%d" % os.getpid())

    def file_of(self, data):
        """The path of that file, which has these bytes then."""
        with open(self.file(), "wb") as file:
            file.write(data)
        return self.file()

    def bytes_left(self):
        return bytes_at(self.file())

    def run(self, asked=NOTHING, command="run"):
        """A run over that file."""
        return Run(self, [command, "--file", self.file()], self.file(), asked)

    def created(self):
        """Creates that file: the log of its run."""
        if os.path.exists(self.file()):
            os.remove(self.file())
        with self.run(command="create") as run:
            expect("the creation", run.end(), WELL)
            return run.entries()

    def bytes_after(self, lines):
        """The bytes of that file once it is created and told these lines."""
        self.created()
        with self.run() as run:
            run.ask_all([line + b"\n" for line in lines])
            expect("the end", run.end(), WELL)
        return self.bytes_left()


def entry_of(call):
    """The entry of a call that has succeeded."""
    match call:
        case Write(at, data):
            return Entry(WRITE, FILE, at, len(data), len(data), len(data), data)
        case Cut(size):
            return Entry(CUTTING, FILE, size, 0, 0, 0, b"")
    return Entry(SYNCING, FILE, 0, 0, 0, 0, b"")
