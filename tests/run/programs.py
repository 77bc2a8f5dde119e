"""Where the built programs are, runs of them over lines, and what they answer, cut into replies."""

import os
import re
import select
import shlex
import shutil
import subprocess
import tempfile
from contextlib import suppress
from typing import NamedTuple

from harness import Wrong, expect

HERE = os.path.dirname(os.path.abspath(__file__))
ROOT = os.path.dirname(os.path.dirname(HERE))
SHARED_MEMORY = "/dev/shm"
LONGEST_RUN = 300  # seconds
SENT_AT_ONCE = 16_384  # bytes of lines: a pipe holds more
NOBODY = 65_534  # the number of a user and of a group with no rights

# The last line of a reply.
FINISH = re.compile(rb"^[0-9]+ (?:OK|ERR) [^\n]*\n", re.MULTILINE)


def built(crate):
    """The path of a crate's program, as the gate builds it."""
    return os.path.join(ROOT, "crates", crate, "out", crate)


PROGRAM = built("roadseg")


def scratch_folder(prefix="roadseg-"):
    """A folder for files of a test, which goes at the end of the context; in memory where the system has that."""
    return tempfile.TemporaryDirectory(prefix=prefix, dir=SHARED_MEMORY if os.path.isdir(SHARED_MEMORY) else None)


def library_of(name, folder):
    """Builds a library that is loaded before a program (LD_PRELOAD), of the C file of this name, and gives its path."""
    library = os.path.join(folder, name + ".so")
    source = os.path.join(HERE, name + ".c")
    subprocess.run(["gcc", "-O2", "-Wall", "-Wextra", "-Werror", "-shared", "-fPIC", "-o", library, source], check=True)
    return library


# Whole runs.


class Answer(NamedTuple):
    """What a program wrote, and what is wrong with how it ended."""

    out: bytes
    complaint: str | None


def answer_of(program, data, longest=LONGEST_RUN):
    """The answer of a fresh run of a program to these bytes."""
    try:
        done = subprocess.run(shlex.split(program), input=data, capture_output=True, timeout=longest)
    except subprocess.TimeoutExpired:
        return Answer(b"", "no end within %g seconds" % longest)
    if done.returncode != 0 or done.stderr:
        error = done.stderr[-300:].decode(errors="replace")
        return Answer(done.stdout, "ended with status %d %s" % (done.returncode, error))
    return Answer(done.stdout, None)


def replies_of(out):
    """The output cut after each line that ends a reply; a rest without one is the last."""
    ends = [0, *(found.end() for found in FINISH.finditer(out))]
    replies = [out[start:end] for start, end in zip(ends, ends[1:])]
    return replies + [out[ends[-1] :]] if ends[-1] < len(out) else replies


def expect_answers(answer, lines, replies, title=""):
    """Expects these replies to lines. The title is put before what is wrong."""
    if answer.complaint:
        raise Wrong("%sthe program %s" % (title, answer.complaint))
    for line, reply, wanted in zip(lines, replies_of(answer.out) + [b""] * len(lines), replies):
        expect("%s%.300r" % (title, line), reply, wanted)


# Runs that go on.


class Ended(NamedTuple):
    """How a run ended: its status, and what it wrote to standard output, but for what was read before, and to standard error."""

    status: int
    out: bytes
    errors: bytes


def ended_as_nobody(path, words, longest):
    """How a run of a program ends that may not do what root alone may. A copy is run: who has no rights may not see the program."""
    given = {"user": NOBODY, "group": NOBODY, "extra_groups": []} if os.getuid() == 0 else {}
    with tempfile.TemporaryDirectory() as folder:
        os.chmod(folder, 0o755)
        copy = shutil.copy(path, folder)
        done = subprocess.run([copy, *words], input=b"", capture_output=True, timeout=longest, check=False, **given)
    return Ended(done.returncode, done.stdout, done.stderr)


def batches(lines):
    """The lines some at a time, of no more bytes than are sent at once, and at least one."""
    some, length = [], 0
    for line in lines:
        if some and length + len(line) > SENT_AT_ONCE:
            yield some
            some, length = [], 0
        some.append(line)
        length += len(line)
    if some:
        yield some


class Running:
    """A run of a program, to which lines are sent. It is ended where nothing else has done so."""

    def __init__(self, words, longest, **settings):
        """Starts it. A reply or its end may take so many seconds."""
        pipe = subprocess.PIPE
        self.process = subprocess.Popen(words, stdin=pipe, stdout=pipe, stderr=pipe, bufsize=0, **settings)
        self.longest = longest
        self.poll = select.poll()
        self.poll.register(self.process.stdout, select.POLLIN)

    def __enter__(self):
        return self

    def __exit__(self, *_fault):
        self.process.kill()
        self.process.wait()
        for stream in (self.process.stdin, self.process.stdout, self.process.stderr):
            stream.close()

    def ask(self, line):
        """The reply to a line."""
        return self.ask_all([line])[0]

    def ask_all(self, lines):
        """The replies to lines, some of which are sent at once."""
        found = []
        for some in batches(lines):
            self.send(b"".join(some))
            found += self.replies(len(some))
        return found

    def send(self, sent):
        """Sends bytes, as long as the program has not ended."""
        with suppress(BrokenPipeError):
            self.process.stdin.write(sent)

    def replies(self, count):
        """The next replies. Where the program ends before, one is what it had written of it, and others are empty."""
        data, ends, seen = bytearray(), [0], 0
        while len(ends) <= count:
            piece = self.piece()
            if not piece:
                break
            data += piece
            ends += [found.end() for found in FINISH.finditer(data, seen)]
            seen = data.rfind(b"\n") + 1
        bounds = [*ends[:count], len(data)]
        replies = [bytes(data[start:end]) for start, end in zip(bounds, bounds[1:])]
        return replies + [b""] * (count - len(replies))

    def piece(self):
        """What it writes next; nothing where it has ended."""
        if not self.poll.poll(self.longest * 1_000):
            raise Wrong("no reply within %d seconds" % self.longest)
        return os.read(self.process.stdout.fileno(), 65_536)

    def end(self):
        """How it ends by itself once its input does."""
        try:
            out, errors = self.process.communicate(timeout=self.longest)
        except subprocess.TimeoutExpired:
            raise Wrong("no end within %d seconds" % self.longest) from None
        return Ended(self.process.returncode, out, errors)
