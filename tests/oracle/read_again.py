"""What the slow reader says of files, and what is asked of those that it finds sound: found once for all files in which it looks
at the same bytes.

A reading of a file of a state tells which bytes the slow reader was given of it (slow_pages.py). Where another file has the same
length and the same bytes there, it would be given nothing else, and say the same. Now and then such a file is read nevertheless,
and what is said has to be the same.
"""

from functools import cached_property, lru_cache

from file_questions import exchanges_of, route_defined
from harness import expect
from slow_file import lines_of, read

MOST_READINGS = 30  # that are kept
READ = 64  # of so many files that need not be read one is read
MOST_STATES = 2_000  # of which it is kept what is asked


class Asked:
    """A state, by all that can be said of it. Many files stand for the same one."""

    def __init__(self, state):
        self.state, self.said = state, tuple(lines_of(state))

    def __eq__(self, other):
        return self.said == other.said

    def __hash__(self):
        return hash(self.said)


class Talk:
    """Lines to be sent, and their replies."""

    def __init__(self, exchanges):
        self.exchanges = exchanges
        self.sent = b"".join(line + b"\n" for line, _ in exchanges)
        self.replies = b"".join(reply for _, reply in exchanges)


@lru_cache(maxsize=MOST_STATES)
def talk_of(asked):
    """What is asked of a state."""
    return Talk(exchanges_of(asked.state))


class Reading:
    """What the slow reader says of a file, and the bytes of that file that it was given."""

    def __init__(self, data):
        self.answer, self.state, self.why, given = read(data)
        self.length = len(data)
        self.given = [(slice(start, end), data[start:end]) for start, end in given or ()]

    def __eq__(self, other):
        return (self.answer, self.state, self.why) == (other.answer, other.state, other.why)

    def is_of(self, data):
        """Whether it is the reading of this file too."""
        return len(data) == self.length and all(data[place] == part for place, part in self.given)

    @cached_property
    def talk(self):
        """What is asked of its state."""
        return talk_of(Asked(self.state))

    @cached_property
    def route_defined(self):
        """How a route is defined in its state, and the state after that."""
        exchange, state = route_defined(self.state)
        return Talk([exchange]), state


class Readings:
    """The last readings of files that stand for a state, the one that was met last first."""

    def __init__(self):
        self.kept, self.met = [], 0

    def reading_of(self, data):
        """What the slow reader says of a file."""
        place = next((place for place, kept in enumerate(self.kept) if kept.is_of(data)), None)
        if place is None:
            reading = Reading(data)
        else:
            reading, self.met = self.kept.pop(place), self.met + 1
            if self.met % READ == 0:
                expect("whether a file is read as one before", Reading(data) == reading, True)
        if reading.state:
            self.kept = [reading, *self.kept[: MOST_READINGS - 1]]
        return reading
