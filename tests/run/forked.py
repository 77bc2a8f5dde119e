"""Runs of a program that is started once: forked.c is loaded before it, and each run is a fork of it.

It is the same program that runs, from where it opens its file; but the system does not start it anew for each run, nor load and
bind its libraries, nor does it look at its words again. Some runs are asked for at once, and made one after another.

decision: forks-of-one-start
"""

import os
import socket
import struct
import subprocess
from contextlib import suppress
from itertools import pairwise
from typing import NamedTuple

from harness import Wrong

RUNS, JOB, TOLD = struct.Struct("@l"), struct.Struct("@2l"), struct.Struct("@4l")


class Job(NamedTuple):
    """What a run is to do: the bytes that the program's file has then, None where it stays as it is, and what is sent."""

    data: bytes | None
    sent: bytes


class Done(NamedTuple):
    """How a run ended: its status, what it wrote to standard output and to standard error, and what it left in its file."""

    status: int
    out: bytes
    errors: bytes
    left: bytes


class Forked:
    """A program that is started with these words, with libraries before it, of which forked.c is one. A run may take so many
    seconds, or is ended by SIGALRM. Each further setting is an open file whose number is told to the libraries."""

    def __init__(self, words, libraries, longest, **files):
        self.socket, other = socket.socketpair()
        self.jobs, *self.texts, self.told = (os.memfd_create(name) for name in ("jobs", "out", "errors", "left", "told"))
        numbers = [other.fileno(), self.jobs, *self.texts, self.told]
        settings = dict(os.environ, LD_PRELOAD=":".join(libraries), LD_BIND_NOW="1")
        settings["FORKED"] = " ".join(map(str, [longest, *numbers]))
        settings.update((name, str(file)) for name, file in files.items())
        passed = [*numbers, *files.values()]
        self.process = subprocess.Popen(words, stdin=subprocess.DEVNULL, env=settings, pass_fds=passed)
        other.close()

    def runs(self, jobs):
        """Makes some runs, and gives how each ended."""
        parts = []
        for data, sent in jobs:
            parts += [JOB.pack(-1 if data is None else len(data), len(sent)), data or b"", sent]
        os.pwrite(self.jobs, b"".join(parts), 0)
        answer = None
        with suppress(OSError):
            self.socket.send(RUNS.pack(len(jobs)))
            answer = self.socket.recv(RUNS.size)
        if not answer:
            raise Wrong("the program cannot be started and forked")
        told = list(TOLD.iter_unpack(os.pread(self.told, TOLD.size * len(jobs), 0)))
        ends = [(0, 0, 0), *(place for _, *place in told)]
        texts = [os.pread(file, end, 0) for file, end in zip(self.texts, ends[-1])]
        pieces = ([text[start:end] for text, start, end in zip(texts, *places)] for places in pairwise(ends))
        return [Done(os.waitstatus_to_exitcode(one[0]), *some) for one, some in zip(told, pieces)]
