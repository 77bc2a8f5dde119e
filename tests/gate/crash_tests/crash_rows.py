"""Rows that are entered with a SAVE between them, and what SELECT answers after a crash at each moment: the replies are written by hand, so
that neither the slow reader nor the slow machine says what is wanted.

Each image in which all that was written since the last sync is kept, lost, or filled is opened by the program.
"""

from crash_images import FILLED, image, kept, lost, moments
from crash_lines import Talk, lines_of
from crash_replay import told_of
from forked import Job
from harness import Wrong, expect

ENTERED = Talk("rows with a SAVE", (), lines_of("""
    0 DEFINE ROUTE A FROM 0 TO 10
    0 DEFINE LINE TABLE pave (surf TEXT(8))
    0 INSERT INTO pave ON A FROM 0 TO 1 VALUES ('AC')
    0 INSERT INTO pave ON A FROM 1 TO 2 VALUES ('AC')
    0 SAVE
    0 INSERT INTO pave ON A FROM 0 TO 1 VALUES ('AC')
    0 INSERT INTO pave ON A FROM 0.5 TO 2.5 VALUES ('AC')
"""))  # fmt: skip

SELECT = b"0 SELECT pave\n"
NO_TABLE, NO_ROW = b"0 ERR 21 no such name\n", b"0 OK 0\n"
FIRST, SAVED, LAST = (b"0 ROW A 0.000 %s 'AC'\n0 OK 1\n" % finish for finish in (b"1.000", b"2.000", b"2.500"))

# What SELECT answers after so many of the changes.
SELECTED = [NO_TABLE, NO_TABLE, NO_ROW, FIRST, SAVED, SAVED, LAST]


def select_after_crashes(program, openers):
    """Opens the images of each moment: how many there were."""
    told = told_of(program, ENTERED)
    bounds = told.bounds()
    found = [(moment, way) for moment in moments(told.data, told.entries) for way in (kept, lost, FILLED)]
    runs = openers.run.runs([Job(image(moment, (way,) * moment.count, None), SELECT) for moment, way in found])
    for (moment, way), run in zip(found, runs):
        fewest, most = bounds[moment.place]
        if (run.status, run.errors) != (0, b"") or run.out not in SELECTED[fewest : most + 1]:
            raise Wrong("after %d calls, all %s: %r" % (moment.place, way.__name__, run[:3]))
    expect("what is answered", {run.out for run in runs}, {NO_TABLE, SAVED, LAST})
    return len(runs)
