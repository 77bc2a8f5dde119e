"""The slow checkpoint itself, judged as a program's is, and the same with a fault planted in the order of its calls: each of these
has to be found by some image. So what the judge of crashes can find is known without a program.

decision: judge-tried-first
"""

import random

from crash_images import Amount, images, moments
from crash_judge import Bounds, Judge
from device_calls import SYNC, Cut, Write, applied
from device_log import entry_of
from harness import Wrong, expect
from slow_checkpoint import CLOSED, FIELDS, checkpoint, fields_of, recovered, recovery
from slow_journal import GATE, OPEN, PAGE_BYTES
from written_journals import AFTER, BEFORE, page_0_copied, pair_of, small

AMOUNT = Amount(4, 40)


def without_sync(place):
    """The calls without one of the four syncs."""

    def planted(calls):
        del calls[[at for at, call in enumerate(calls) if call == SYNC][place]]

    return planted


def opened_at(calls):
    """The place of the write that opens the gate."""
    return calls.index(Write(GATE, bytes([OPEN])))


def gate_written_anew(calls):
    calls.insert(opened_at(calls) + 3, Write(GATE, bytes([OPEN])))


def page_forgotten(calls):
    del calls[calls.index(Write(GATE, bytes([CLOSED]))) - 2]


def copy_forgotten(calls):
    del calls[1]


def nothing_written(calls):
    del calls[:]


def page_0_whole(calls):
    """Page 0 is brought home with its gate in one write."""
    place = opened_at(calls) + 2
    first, rest = calls[place : place + 2]
    fields = next(call for call in calls if isinstance(call, Write) and call.at == FIELDS)
    calls[place : place + 2] = [Write(0, first.data + bytes([OPEN, 0, 0, 0]) + fields.data + rest.data)]


def fields_after_the_gate(calls):
    place = next(place for place, call in enumerate(calls) if isinstance(call, Write) and call.at == FIELDS)
    calls.insert(opened_at(calls), calls.pop(place))


def journal_with_the_gate_open(calls):
    """A checkpoint stops while the pages go home, and another one writes its journal over the first."""
    place = opened_at(calls) + 4
    calls[place:] = [Write(FIELDS, fields_of(1, 1)), *calls[: opened_at(calls)], *calls[opened_at(calls) :]]


PLANTS = {
    "gate-before-journal-sync": without_sync(0),
    "home-before-gate-sync": without_sync(1),
    "gate-closed-before-home-sync": without_sync(2),
    "cut-before-last-sync": without_sync(3),
    "gate-written-anew": gate_written_anew,
    "new-journal-with-gate-open": journal_with_the_gate_open,
    "page-forgotten": page_forgotten,
    "copy-forgotten": copy_forgotten,
    "save-writes-nothing": nothing_written,
    "page-0-written-whole": page_0_whole,
    "fields-after-the-gate": fields_after_the_gate,
}


def judge_calls(data, calls, first, last, seed):
    """Judges the images of some calls: before them a file has so many changes, after the last sync so many, and either meanwhile."""
    by, judge = random.Random("plants %d" % seed), Judge()
    entries = [entry_of(call) for call in calls]
    ends = max((place for place, call in enumerate(calls, 1) if call == SYNC), default=0)
    for moment in moments(data, entries):
        for image in images(moment, by, AMOUNT):
            judge.judge(image, Bounds(last if moment.place >= ends else first, last))
    return judge.met


def checkpoint_calls():
    pair = pair_of(small)
    return pair.closed, list(checkpoint(pair.first(), page_0_copied(pair), pair.first()))


def expect_sound(seed):
    """The slow checkpoint passes, and so does its recovery: how many images there were."""
    data, calls = checkpoint_calls()
    count = judge_calls(data, calls, BEFORE, AFTER, seed)
    opened = applied(data, calls[: opened_at(calls) + 4])
    expect("recovery after recovery", recovered(recovered(opened)), recovered(opened))
    expect("the length after recovery", len(recovered(opened)) % PAGE_BYTES, 0)
    expect("the last call of recovery", isinstance(list(recovery(opened))[-1], Cut), True)
    return count + judge_calls(opened, list(recovery(opened)), AFTER, AFTER, seed)


def expect_found(name, seed):
    """A planted fault is found."""
    data, calls = checkpoint_calls()
    PLANTS[name](calls)
    try:
        judge_calls(data, calls, BEFORE, AFTER, seed)
    except Wrong:
        return
    raise Wrong("%s is not found" % name)
