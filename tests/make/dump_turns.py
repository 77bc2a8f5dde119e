"""What is dumped by dumps.py: files, or the lines that make them.

They are conversations that leave something long, much or odd, pseudo-random lines (random_lines.py) after which referents are
moved that views name, sound files written by hand, an alignment that is too long for any line, and pseudo-random files
(random_files.py), of which a quarter stand for a state. The same seed and number give the same turn.
"""

from functools import partial
from typing import NamedTuple

from conversation_files import exchanges_of
from file_writer import Alignment, Description, Route, Table, View, written
from files_by_hand import SOUND
from random_files import RandomFile
from random_lines import RandomLines

# Conversations that leave something long, much or odd.
LIMITS = (
    "as-many-pieces-as-there-may-be",
    "definitions-over-several-pages",
    "limit-of-a-rows-bytes",
    "limit-of-alignments",
    "limit-of-columns",
    "limit-of-depth",
    "limit-of-indexes",
    "limit-of-names",
    "limit-of-nodes",
    "limit-of-pieces",
    "limit-of-referents",
    "limit-of-tables",
    "limit-of-views",
    "limits-of-numbers",
    "longest-lists",
    "longest-pieces",
    "longest-route-is-one-run",
    "longest-row",
    "many-rows-at-one-place",
    "trees-split-join-and-empty",
    "values-fit-their-columns",
    "views-are-located-at-each-use",
    "views-of-transforms",
    "views-that-double",
)

# Turns: how many of each kind, where 100 are asked for.
KINDS = {"crowded": 2, "short": 60, "long": 22, "file": 140}
LINES = {"short": 150, "long": 120, "crowded": 60}


class Turn(NamedTuple):
    """A file that is judged: its title, its bytes or else the lines that make it."""

    title: str
    data: bytes = None
    lines: bytes = None


class MovedReferents(RandomLines):
    """Lines at whose end referents are moved that views name."""

    def unsettled(self):
        """Referents, views by them, views that name these before and after them by name, and moves."""
        for number in range(self.random.randint(1, 4)):
            route = self.pick(list(self.first_routes()))
            start, finish = self.first_routes()[route]
            places = [self.random.randint(start, finish) for _ in range(3)]
            ends = [b"@M%d_%d" % (number, which) for which in range(2)]
            ends = [end + self.pick([b"", b"+0.001", b"-0.001", b"-0"]) for end in ends]
            table = self.pick([b"pave", b"crash"])
            for which in range(2):
                yield b"DEFINE REFERENT %s M%d_%d AT %s" % (route, number, which, self.measure(sorted(places)[which]))
            yield b"DEFINE VIEW m%d AS WINDOW(%s, %s FROM %s TO %s)" % (number, table, route, *ends)
            yield b"DEFINE VIEW l%d AS MERGE(m%d, %s)" % (number, number, table)
            yield b"DEFINE VIEW n%d AS MINUS(%s, l%d)" % (number, table, number)
            yield b"MOVE REFERENT %s M%d_%d TO %s" % (route, number, self.random.randrange(2), self.measure(places[2]))

    def all_lines(self, count):
        lines = [line.sent for line in self.round(count) if line.sent.endswith(b"\n")]
        self.rate = 0  # none of those that follow is flawed
        return b"".join(lines + [b"0 %s\n" % line for line in self.unsettled()])


def random_turn(seed, kind, number):
    title = "%s turn %d of seed %d" % (kind, number, seed)
    if kind == "file":
        file = RandomFile(seed, number)
        return Turn("%s: %s" % (title, file.title()), data=file.data)
    return Turn(title, lines=MovedReferents("dump %d %d" % (seed, number), kind).all_lines(LINES[kind]))


def limit_turn(name):
    return Turn(name, lines=b"".join(sent for sent, _ in exchanges_of(name)))


def sound_turn(name):
    return Turn("the file %s" % name, data=bytes(written(SOUND[name]()).data))


def long_alignment_turn():
    """Alignments of which one is too long for any line, and views that name them."""
    names = [b"R" * 31 + b"%d" % number for number in range(2)]
    pieces = [(0, 123_456_789, 987_654_321, 1, 123_456_789)] * 64
    said = Description(
        routes=[Route(name, number, 0, 999_999_999, 1) for number, name in enumerate(names)],
        tables=[Table(b"pave", 0, 1, [(b"surf", 8)])],
        views=[
            View(b"a", b"MERGE(v, pave)"),
            View(b"v", b"TRANSFORM(pave, longest)"),
            View(b"w", b"TRANSFORM(pave, short)"),
        ],
        alignments=[Alignment(b"longest", pieces), Alignment(b"short", pieces[:30])],
        accepted=9,
    )
    return Turn("an alignment too long for a line", data=bytes(written(said).data))


def makers_of(seed, share):
    """What makes the turns, as it can be sent to another process: those of the longest first."""
    makers = []
    for kind, count in KINDS.items():
        makers += [partial(random_turn, seed, kind, number) for number in range(max(1, count * share // 100))]
    makers += [partial(limit_turn, name) for name in LIMITS]
    return makers + [partial(sound_turn, name) for name in SOUND] + [long_alignment_turn]
