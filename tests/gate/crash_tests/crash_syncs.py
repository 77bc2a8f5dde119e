"""The syncs of the program's own log, each left out in turn: some image of the log without it has to be found at fault. So each of them is
needed, and the judge of crashes looks where it matters. Those of the openings of closed files aside, which make sure of nothing new.
"""

from crash_images import Amount
from crash_replay import Depth, replay, told_of
from crash_stops import Stops
from device_calls import Write
from device_log import FILE, SYNCING, Asked
from harness import Wrong
from slow_journal import GATE, OPEN

DEPTH = Depth(Amount(3, 6), None, 0)


def places_of_syncs(entries):
    return [place for place, entry in enumerate(entries) if (entry.kind, entry.what) == (SYNCING, FILE)]


def without(told, place):
    """What was told, but for one call."""
    marks = [mark._replace(calls=mark.calls - (mark.calls > place)) for mark in told.marks]
    return told._replace(entries=told.entries[:place] + told.entries[place + 1 :], marks=marks)


def expect_wrong(what, judge):
    """A judge finds something at fault."""
    try:
        judge()
    except Wrong:
        return
    raise Wrong("nothing is found at fault %s" % what)


def expect_syncs_needed(program, talk, seed):
    """How many syncs were left out, those at the start of recoveries among them."""
    told = told_of(program, talk)
    _opening, *syncs = places_of_syncs(told.entries)
    for place in syncs:
        expect_wrong("without the sync after %d calls" % place, lambda: replay(talk, without(told, place), seed, DEPTH))
    gates = numbers_of_gates(told.entries)
    for number in gates:
        expect_sync_of_recovery_needed(Stops(program, talk, told, seed), number)
    return len(syncs) + len(gates)


def numbers_of_gates(entries):
    """Which of the changes, counted from 1, are writes that open the gate."""
    changes = [entry.call() for entry in entries if entry.is_change()]
    return [number for number, call in enumerate(changes, 1) if call == Write(GATE, bytes([OPEN]))]


def expect_sync_of_recovery_needed(stops, number):
    """The program is stopped once it has written the gate, before it syncs. The log of the recovery lacks its first sync."""
    left = stops.left_by(Asked(stop_at=number + 1))
    state, entries = stops.recovered(left)
    first, *_ = places_of_syncs(entries)
    expect_wrong("without the first sync of a recovery", lambda: stops.cut_power(left, state, entries[:first] + entries[first + 1 :]))
