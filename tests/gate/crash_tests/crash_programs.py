"""Opens files that a crash may have left with the built program: `dump` and `run` have to say of each what the slow reader says.

`dump` prints the state's lines and writes nothing. `run` answers as the slow machine in that state, and leaves the bytes that
`after_opening` of the slow checkpoint makes: recovered, and of version 2. A second run defines a route, and the slow reader
finds that then in a file that is closed and no longer than its pages. What is refused keeps its bytes, unless the gate is open and
page 0, as the journal gives it, is a header that fits: then recovery has gone before. The program is started once for each of the
two commands (forked.py).
"""

import os
from functools import lru_cache
from typing import NamedTuple

from file_questions import Exchange, route_defined
from forked import Forked, Job
from harness import Wrong, expect
from read_again import Asked, Talk, talk_of
from slow_checkpoint import after_opening, is_at_rest
from slow_dump import arranged, dumped
from slow_file import State, read

LONGEST_RUN = 120  # seconds
AT_ONCE = 20  # files
MOST_SPANS = 200  # of a state of which much is asked
KEPT = Talk([Exchange(b"0 SAVE", b"0 OK 0\n")])
UNANSWERED = Talk([Exchange(b"0 SAVE", b"")])
SAID = {b"ERR 94": b"roadseg: ERR 94 damaged file\n", b"ERR 95": b"roadseg: ERR 95 file not closed\n"}


class Opening(NamedTuple):
    """A file, what is answered where it is opened, and the state that it stands for, if it stands for one."""

    title: str
    data: bytes
    answer: bytes
    state: State | None = None

    def talk(self):
        """What it is asked."""
        if self.state is None:
            return UNANSWERED
        return talk_of(Asked(self.state)) if len(self.state.spans) <= MOST_SPANS else KEPT

    def jobs(self):
        """A run that asks, and one that defines a route."""
        change = UNANSWERED.sent if self.state is None else route_defined(self.state)[0].line + b"\n"
        return Job(self.data, self.talk().sent), Job(None, change)

    def left(self):
        """The bytes that a run leaves which changes nothing."""
        return after_opening(self.data, self.state is not None)


@lru_cache(maxsize=100)
def dump_of(asked):
    """What `dump` prints of a state: its status, the lines of standard output, and those of standard error."""
    dump = dumped(asked.state)
    return 1 if dump.told else 0, arranged(dump.lines), sorted(line.strip() for line in dump.told)


class Openers:
    """The program, started once for `run` and once for `dump`."""

    def __init__(self, path, library, folder):
        file = os.path.join(folder, "opened-%d" % os.getpid())
        os.close(os.open(file, os.O_RDWR | os.O_CREAT))
        self.run, self.dump = (Forked([path, word, "--file", file], [library], LONGEST_RUN) for word in ("run", "dump"))

    def faults(self, openings):
        """What is wrong with how these files are opened."""
        faults = []
        for start in range(0, len(openings), AT_ONCE):
            some = openings[start : start + AT_ONCE]
            runs = self.run.runs([job for one in some for job in one.jobs()])
            dumps = self.dump.runs([Job(one.data, b"") for one in some])
            for place, (opening, dump) in enumerate(zip(some, dumps)):
                compared = ((compare_run, runs[2 * place]), (compare_change, runs[2 * place + 1]), (compare_dump, dump))
                faults += [fault for compare, done in compared if (fault := fault_of(compare, opening, done))]
        return faults


@lru_cache
def openers_of(path, library, folder):
    """Those of this process."""
    return Openers(path, library, folder)


def fault_of(compare, opening, done):
    try:
        compare(opening, done)
    except Wrong as wrong:
        return "%s: %s" % (opening.title, wrong)
    return None


def compare_run(opening, done):
    expect("the end of run", (done.status, done.errors), (0 if opening.state else 1, SAID.get(opening.answer, b"")))
    expect("the replies of run", done.out, opening.talk().replies)
    if done.left != opening.left():
        raise Wrong("run leaves other bytes than the slow checkpoint")


def compare_change(opening, done):
    """Compares what a second run left, which has defined a route; a file that is refused is refused again."""
    if opening.state is None:
        expect("whether a file that is refused twice has the same bytes", done.left == opening.left(), True)
        return
    exchange, wanted = route_defined(opening.state)
    expect("the definition of a route", (done.status, done.out, done.errors), (0, exchange.reply, b""))
    found = read(done.left)
    expect("the state after a change (%s)" % found.why, found.state, wanted)
    expect("whether a file is closed and no longer than its pages after a change", is_at_rest(done.left), True)


def compare_dump(opening, done):
    if opening.state is None:
        expect("the end of dump", (done.status, done.out, done.errors), (1, b"", SAID[opening.answer]))
    else:
        status, lines, told = dump_of(Asked(opening.state))
        expect("the end of dump", (done.status, sorted(done.errors.splitlines())), (status, told))
        expect("what dump prints", arranged(done.out.splitlines(keepends=True)), lines)
    if done.left != opening.data:
        raise Wrong("dump changes the file")
