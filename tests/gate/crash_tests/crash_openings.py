"""Openings that change a file: the recovery of one whose gate is open, and the checkpoint by which one of version 1 gets version 2.

The log of one is replayed, the process is stopped at its changes, and its changes fail, which is told by 91. What is left each time
stands for the state that the opening began with, also where power is cut after a fault, and a further opening leaves the bytes that
the slow checkpoint makes.
"""

from crash_images import Amount, images, moments
from crash_judge import Bounds, Judge
from crash_order import Order
from device_calls import SYNC, Write
from device_log import WELL, Asked
from harness import Wrong, expect
from programs import Ended
from slow_checkpoint import after_opening, migration, recovery
from slow_file import read
from slow_journal import FIRST_VERSION, places_of

KILLED = -9
AMOUNT = Amount(1, 2)  # images after a fault
REFUSED = Ended(1, b"", b"roadseg: ERR 91 disk\n")


def is_of_first_version(data):
    return places_of(data).version == FIRST_VERSION


def calls_of(data):
    """What an opening of a sound file calls that changes it, or makes sure of what was changed."""
    return [SYNC, *migration(data)] if is_of_first_version(data) else list(recovery(data))


def follow(data, entries):
    """Looks at the order of the calls of a run without lines."""
    order = Order(data)
    if is_of_first_version(data):
        order.migrating(entries)
    else:
        order.opening(entries)


def expect_opened(program, data):
    """Opens a file in a run without lines: its log."""
    program.file_of(data)
    with program.run() as run:
        expect("the end of a run over what was left", run.end(), WELL)
        entries = run.entries()
    left = program.bytes_left()
    if left != after_opening(data, True):
        raise Wrong("an opening leaves other bytes than the slow checkpoint (%s)" % read(left).why)
    return entries


def replay_opening(program, data, state, by, depth):
    """Judges the images of an opening's log: how many there were."""
    program.file_of(data)
    with program.run() as run:
        expect("the end of a run without lines", run.end(), WELL)
        entries = run.entries()
    follow(data, entries)
    judge, bounds = Judge(), Bounds(state.accepted, state.accepted)
    for moment in depth.chosen(list(moments(data, entries)), by):
        for image in images(moment, by, depth.amount):
            expect("the state after a crash in an opening", judge.judge(image, bounds), state)
    return judge.met


def interruptions_of(data):
    """Each change of an opening at which the process is stopped, or which fails, also half done."""
    for number, call in enumerate(calls_of(data), 1):
        for is_half in (False, True) if isinstance(call, Write) and len(call.data) > 1 else (False,):
            yield Asked(stop_at=number, stop_half=is_half)
            yield Asked(fail_at=number, fails_half=is_half)


def interrupt_opening(program, judge, data, state, by, most=None):
    """Interrupts an opening at each of its changes, or at so many: how often."""
    found = list(interruptions_of(data))
    chosen = found if most is None else by.sample(found, min(most, len(found)))
    for asked in chosen:
        try:
            expect_interrupted(program, judge, data, state, by, asked)
        except Wrong as wrong:
            raise Wrong("an opening with %s: %s" % (asked, wrong)) from None
    return len(chosen)


def expect_interrupted(program, judge, data, state, by, asked):
    """An opening is stopped or fails, or has no such change left; what is left opens to the same state."""
    program.file_of(data)
    with program.run(asked) as run:
        ended, entries = run.end(), run.entries()
    if ended != WELL or not is_last_cut(data, asked):
        expect("how it ends", ended, Ended(KILLED, b"", b"") if asked.stop_at else REFUSED)
    left, bounds = program.bytes_left(), Bounds(state.accepted, state.accepted)
    expect("the state that is left", judge.judge(left, bounds), state)
    expect_opened(program, left)
    if asked.fail_at:
        *_, last = moments(data, entries)
        for image in images(last, by, AMOUNT):
            expect("the state after a fault and a crash", judge.judge(image, bounds), state)


def is_last_cut(data, asked):
    """Whether the change is the cut at the end, which is none where the file is no longer than its pages."""
    return max(asked.stop_at, asked.fail_at) == len(calls_of(data))
