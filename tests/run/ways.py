"""The ways in which the program answers the same lines: `memory` is one run without a file, `file` one run over a file
that was just created, `cut` several runs, one after another, over such a file, and `beside` one run without a file in which
other cursors are opened, fetched from and closed before each FETCH, so that no line is there that was formed ahead for it.

Cursors end with their run, so a run ends only where none is open. A file that is left is read by the slow reader of files.
"""

import argparse
import os
import random
import re
import shlex
from bisect import bisect_right
from typing import NamedTuple

from harness import bytes_at
from programs import LONGEST_RUN, PROGRAM, Answer, answer_of, replies_of, scratch_folder
from slow_file import read
from slow_pages import Pages

RUN = shlex.quote(PROGRAM) + " run"

# The ways, and what is said before a fault of each.
WAYS = {"memory": "", "file": "over a file: ", "cut": "in several runs: ", "beside": "beside other cursors: "}

# After how many pseudo-random lines a run ends at the most, and the seed of these lines.
MOST_CUTS = 5
SEED = 0

# As many cursors as a session may have, which are opened beside a FETCH.
MOST_CURSORS = 4
SESSION, FETCHED, OPENED = re.compile(rb"\s*(\d+)"), re.compile(rb" *\d+ *FETCH\b"), re.compile(rb" *\d+ *OPEN +\w+ +FOR(.*)\n")


# The commands that are changes, each of which clears what no cursor sees.
CHANGES = (b"DEFINE", b"DROP", b"MOVE", b"INSERT", b"REMOVE")


class Roadseg(NamedTuple):
    """The commands that answer lines and that create a file. Over a file both are given `--file` and its path."""

    run: str
    create: str


def add_options(parser):
    """Adds the options that say which program it is, and in which ways it answers."""
    names = ",".join(WAYS)
    parser.add_argument("--program", default=RUN, metavar="CMD", help="answers lines (default: as the gate built it)")
    parser.add_argument("--create", metavar="CMD", help="creates a file (default: the first word of CMD, and `create`)")
    parser.add_argument("--ways", type=ways_named, default=list(WAYS), metavar="WAYS", help="some of %s" % names)


def ways_named(text):
    """The ways of an argument."""
    ways = text.split(",")
    if not set(ways) <= set(WAYS):
        raise argparse.ArgumentTypeError("the ways are %s" % ", ".join(WAYS))
    return ways


def program_of(options):
    """The program that the options say."""
    return Roadseg(options.program, options.create or shlex.quote(shlex.split(options.program)[0]) + " create")


def answer_in(way, program, lines, replies, longest=LONGEST_RUN):
    """What is answered to the lines in one way. Where they are cut is said by the replies that are wanted."""
    if way == "memory":
        return answer_of(program.run, b"".join(lines), longest)
    if way == "beside":
        return answer_beside_cursors(program, lines, replies, longest)
    bounds = [0, *(cuts_of(lines, replies) if way == "cut" else []), len(lines)]
    parts = [b"".join(lines[first:end]) for first, end in zip(bounds, bounds[1:])]
    with scratch_folder() as folder:
        file = os.path.join(folder, "file")
        over = " --file " + shlex.quote(file)
        answers = [answer_of(program.create + over, b"", longest)]
        answers += [answer_of(program.run + over, part, longest) for part in parts]
        complaint = next((answer.complaint for answer in answers if answer.complaint), None)
        complaint = complaint or complaint_of(file, is_cleared(lines, replies))
    return Answer(b"".join(answer.out for answer in answers), complaint)


def answer_beside_cursors(program, lines, replies, longest):
    """What is answered to the lines, where other cursors are fetched from before each FETCH."""
    sent = list(with_other_cursors(lines, replies))
    answer = answer_of(program.run, b"".join(line for line, _ in sent), longest)
    found = replies_of(answer.out)
    kept = [reply for reply, (_, is_asked) in zip(found, sent) if is_asked]
    return Answer(b"".join(kept + found[len(sent) :]), answer.complaint)


def with_other_cursors(lines, replies):
    """The lines, and others before each FETCH; each with whether it is one of the lines."""
    used = {int(found[1]) for line in lines if (found := SESSION.match(line))}
    session, query = max(set(range(64)) - used, default=None), None
    for line, reply in zip(lines, [*replies, b""]):
        if query is not None and session is not None and FETCHED.match(line):
            for words in (b"OPEN other%d FOR" + query, b"FETCH other%d 1", b"CLOSE other%d"):
                yield from ((b"%d " % session + words % number + b"\n", False) for number in range(MOST_CURSORS))
        yield line, True
        if (found := OPENED.fullmatch(line)) and reply.split()[1:2] == [b"OK"]:
            query = found[1].replace(b"%", b"%%")


def complaint_of(path, is_clear):
    """What is wrong with a file that was closed: it stands for no state, or has records that no version sees any more. Those that a
    cursor saw may be there unless it is clear: where a cursor was open at the end, nobody cleared them."""
    data = bytes_at(path)
    found = read(data)
    if found.state is None:
        return "the slow reader says of the file %s, %s" % (found.answer.decode(), found.why)
    dead = Pages(data).directory().dead()
    return "the file has %d dead records" % dead if dead and is_clear else None


def cuts_of(lines, replies):
    """The places of the lines with which further runs begin: pseudo-random, moved back to where no cursor is open."""
    chosen = random.Random(SEED).sample(range(1, len(lines)), min(len(lines) - 1, MOST_CUTS))
    places = places_without_cursors(lines, replies)
    return sorted({places[bisect_right(places, place) - 1] for place in chosen} - {0})


def is_cleared(lines, replies):
    """Whether no cursor is open after the last line, and what cursors saw was cleared: by the CLOSE of the last one or by an accepted
    change. REOPEN ends cursors and clears nothing."""
    cursors, is_left = set(), False
    for line, reply in zip(lines, replies):
        words = line.split()
        if reply.split()[1:2] != [b"OK"] or len(words) < 2:
            continue
        if words[1] == b"OPEN":
            cursors.add((int(words[0]), words[2]))
        elif words[1] == b"CLOSE":
            cursors.discard((int(words[0]), words[2]))
            is_left = False
        elif words[1] == b"REOPEN":
            is_left = is_left or bool(cursors)
            cursors.clear()
        elif words[1] in CHANGES:
            is_left = False
    return not cursors and not is_left


def places_without_cursors(lines, replies):
    """The places of the lines before which no cursor is open, the first one among them. The last may have no reply."""
    places, cursors = [], set()
    for place, (line, reply) in enumerate(zip(lines, [*replies, b""])):
        if not cursors:
            places.append(place)
        words = line.split()
        if reply.split()[1:2] != [b"OK"] or len(words) < 2:
            continue
        if words[1] == b"OPEN":
            cursors.add((int(words[0]), words[2]))
        elif words[1] == b"CLOSE":
            cursors.discard((int(words[0]), words[2]))
        elif words[1] == b"REOPEN":
            cursors.clear()
    return places
