"""Calls of the file that fail: one change fails once, or the disk is full from a write on and has room again later.

Each line is answered as by the slow machine, or refused by 91 where it may need the disk; later SAVE is accepted, and the file holds
all. The log of each such conversation is replayed as any other: a crash at each moment leaves a state between what was kept
last and what was accepted. Where a sync failed, the log is replayed too as of a system that forgets what it could not write.
"""

from crash_images import Amount
from crash_replay import Depth, replay, told_of
from device_log import SYNCING, WRITE, Asked
from harness import Wrong, expect

DEPTH = Depth(Amount(1, 2), None, 0)


def faults_of(told):
    """What is to happen, and after how many refusals there is room again."""
    changes = [entry for entry in told.entries if entry.is_change()]
    for number, entry in enumerate(changes[1:], 2):  # the first is the sync of the opening, of which nothing is answered
        yield Asked(fail_at=number), 1
        if entry.kind == WRITE:
            yield Asked(fail_at=number, fails_half=True), 1
    for number in range(1, 1 + sum(entry.kind == WRITE for entry in changes)):
        yield Asked(full_from=number, fails_half=number % 2 == 1), 1 + number % 3


def text_of(asked):
    half = ", half done" if asked.fails_half else ""
    return "change %d fails%s" % (asked.fail_at, half) if asked.fail_at else "full from write %d on%s" % (asked.full_from, half)


def fail_everywhere(program, talk, told, seed, every=1):
    """Fails each change, or every so many, and fills the disk at each write: how many conversations, images and refusals."""
    refused = images = count = 0
    for asked, patience in list(faults_of(told))[::every]:
        try:
            other = told_of(program, talk, asked, patience, told.data)
            images += judge_fault(program, talk, other, seed)
        except Wrong as wrong:
            raise Wrong("%s: %s" % (text_of(asked), wrong)) from None
        count, refused = count + 1, refused + other.refused
    return count, images, refused


def judge_fault(program, talk, told, seed):
    """Judges the images of a conversation from the call on that failed first: how many there were."""
    failed = [place for place, entry in enumerate(told.entries, 1) if entry.is_change() and entry.has_failed()]
    expect("whether 91 was answered where a call failed, and nowhere else", told.refused > 0, bool(failed))
    if not failed:
        return 0
    judge, _ = replay(talk, told, seed, DEPTH, failed[0])
    judge.judge(program.bytes_left(), told.bounds()[-1])
    if told.entries[failed[0] - 1].kind != SYNCING:
        return judge.met
    return judge.met + replay(talk, told, seed, DEPTH, failed[0], forgets=True)[0].met
