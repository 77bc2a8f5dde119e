"""What the tests of the client in Python and of diagrams share."""

import os
import sys
from decimal import Decimal

from harness import Wrong, expect
from programs import ROOT

HERE = os.path.dirname(os.path.abspath(__file__))
CLIENTS = os.path.join(ROOT, "clients", "python")
NETWORK = os.path.join(ROOT, "examples", "network.txt")
sys.path.insert(0, CLIENTS)

import roadseg  # noqa: E402

SEED = 41
DEFINED = (
    "DEFINE ROUTE A FROM 0 TO 10",
    "DEFINE LINE TABLE pave (surf TEXT(8))",
    "DEFINE POINT TABLE signs (num INT, code TEXT(120))",
)


def expect_error(kind, call, *arguments, **named):
    """The error that a call has to raise."""
    try:
        got = call(*arguments, **named)
    except kind as fault:
        return fault
    except Exception as fault:
        raise Wrong("%s was wanted, and %r came" % (kind.__name__, fault)) from fault
    raise Wrong("%s was wanted, and %.200r came" % (kind.__name__, got))


def expect_refused(number, words, call, *arguments):
    refused = expect_error(roadseg.Refused, call, *arguments)
    expect("the refusal", (refused.number, refused.words), (number, words))
    return refused


def running(program, *lines, file=None, session=0):
    """A client of a new run of the program, which carries out some lines first."""
    road = roadseg.run(file, program.path, session)
    for line in lines:
        road.execute(line)
    return road


def network(program):
    """A client of a run in memory that has the cookbook's network."""
    with open(NETWORK, encoding="utf-8") as file:
        return running(program, *(line.rstrip("\n").removeprefix("0 ") for line in file))


def measures(*places):
    return tuple(Decimal(place).quantize(Decimal("0.001")) for place in places)
