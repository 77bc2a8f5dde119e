"""Prepared replies for the client in Python, so that its own work or time is measured and no program's."""

import sys
import time
from decimal import Decimal

from client_parts import roadseg
from roadseg.replies import Ending

CHUNK = 262_144
STEPS = 1_000_000
STEPS_SECONDS = 0.045  # of so many steps on the processor that the limits are for, beside nothing else


class Prepared:
    """A wire that answers each line with the same bytes."""

    def __init__(self, data):
        self.data, self.place = data, 0

    def send(self, _data, _longest):
        self.place = 0

    def receive(self, _longest):
        piece = self.data[self.place : self.place + CHUNK]
        self.place += len(piece)
        return piece

    def end(self, _longest):
        return Ending()


def client_of(rows):
    """A client that is answered these rows of a SELECT."""
    return roadseg.Client(Prepared(reply_of(rows)))


def reply_of(rows):
    lines = ["0 ROW " + " ".join(map(text_of, row)) for row in rows]
    return "\n".join([*lines, "0 OK %d\n" % len(rows)]).encode()


class Answers(Prepared):
    """A wire that has the answers of queries."""

    def __init__(self, answers):
        super().__init__(b"")
        self.answers = answers

    def send(self, data, _longest):
        self.data, self.place = self.answers[data.decode().strip().partition("SELECT ")[2]], 0


def client_of_answers(definitions, answers):
    """A client that knows these definitions, and is answered these rows of queries."""
    wire = Answers({query: reply_of(rows) for query, rows in answers.items()})
    return roadseg.Client(wire, schema=roadseg.Schema(definitions))


def text_of(part):
    if part is None or isinstance(part, (int, Decimal)):
        return "NULL" if part is None else str(part)
    return part if part.isalnum() and part[:1] == "R" else "'%s'" % part.replace("'", "''")


def measure(k):
    return Decimal(k).scaleb(-3)


def lines_run(call):
    """How many lines of Python a call runs, and what it gave. The number is the same however busy the machine is."""
    count, before = 0, sys.gettrace()

    def note(_frame, event, _argument):
        nonlocal count
        count += event == "line"
        return note

    sys.settrace(note)
    try:
        got = call()
    finally:
        sys.settrace(before)
    return count, got


def seconds(call, times=2):
    """The least processor time of a call, on a processor without anything beside it, and what the call gave.

    How slow the processor is at the moment is told by counting.
    """
    least = None
    for _ in range(times):
        before = counting()
        start = time.thread_time()
        got = call()
        took = time.thread_time() - start
        slowness = max((before + counting()) / 2 / STEPS_SECONDS, 1)
        least = took / slowness if least is None else min(least, took / slowness)
    return least, got


def least_of(calls, rounds=5, clock=time.thread_time):
    """The least time of each of some calls, and what each gave. They take turns, so that whatever else the machine does at the
    moment meets all of them."""
    times, got = [[] for _ in calls], [None] * len(calls)
    for _ in range(rounds):
        for k, call in enumerate(calls):
            start = clock()
            got[k] = call()
            times[k].append(clock() - start)
    return list(map(min, times)), got


def counting():
    start, count = time.thread_time(), 0
    for number in range(STEPS):
        count += number & 7
    return time.thread_time() - start
