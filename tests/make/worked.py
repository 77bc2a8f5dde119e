"""The worked conversations: the examples from which each command, operator and refusal was explained first.

Tests that are too long for every conversation take these.
"""

WORKED = (
    "empty-table-has-no-rows",
    "touching-spans-join",
    "repeated-insert-is-not-new",
    "only-new-thousandths-are-counted",
    "a-removal-splits-a-run",
    "no-line-holds-at-the-end",
    "percentages-read-back",
    "nearest-referent-is-printed",
    "cover-pads-with-null",
    "dissolve-and-overlay",
    "a-cursor-keeps-its-opening",
    "reopen-closes-all-cursors",
    "overlapping-pieces-are-joined",
    "null-has-no-weight",
    "not-turns-null-comparisons-true",
    "longest-route-is-one-run",
    "limit-of-totals",
    "operands-that-do-not-fit",
    "a-plan-of-an-overlay",
    "definitions-of-each-kind-come-and-go",
)

# Of these nothing is changed on the way: most of their lines are refused.
REFUSED = ("refused-inserts-change-nothing", "lines-that-are-no-commands")
