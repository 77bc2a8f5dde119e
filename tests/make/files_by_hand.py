"""Files of RoadSeg written by hand, each with what opening it is answered: `files()`.

Each is a description (file_writer.py), changed where it has to be wrong, or the bytes of a sound file with some fields
written anew (files_by_field.py). They are the empty file that is created, the closed file of a table whose row was
inserted four times, and one with something of each kind; legal oddities of these; and files that are wrong in one way
each. What is wanted is OK, ERR 94 for a file that stands for no state, ERR 95 for one of version 1 that was not closed.
"""

from file_writer import (
    DAMAGED,
    LIVING,
    NOT_CLOSED,
    OK,
    PAGE_BYTES,
    Alignment,
    Description,
    File,
    Index,
    Raw,
    Record,
    Referent,
    Route,
    Table,
    View,
    written,
)
from files_by_field import changed_fields

MOST_CHANGES = 2**63 - 1
LONGEST_LINE = 4096
LONG_NAME = b"N" * 32
PIECE = (0, 0, 1, 0, 0)


# Sound files.


def empty():
    """What a file is where nothing is defined."""
    return Description()


def inserted():
    """A route, a table, and a row that was inserted four times, from 0 to 1, 1 to 2, 0 to 1 and 0.5 to 2.5."""
    return Description(
        routes=[Route(b"A", 0, 0, 10_000, born=1)],
        tables=[Table(b"pave", 0, 1, [(b"surf", 8)], [Record(0, 0, 2_500, (b"AC",), born=6)])],
        accepted=6,
    )


def various():
    """Something of each kind: lines and points, living and dead, indexes, referents, views over views, an alignment."""
    paved = [Record(0, 1_000 * k, 1_000 * k + 700, (b"ABCDEFGH"[k % 8 : k % 8 + 1],), 10 + k) for k in range(9)]
    paved += [Record(0, 0, 1_000, (None,), 12), Record(1, 1_000, 1_003, (b"",), 13)]
    paved.append(Record(0, 500, 900, (b"AC",), 14, died=19))
    crashes = [Record(0, 1_000 * k, 1_000 * k + 1, (k, (k % 3) - 1), 20 + k) for k in range(11)]
    crashes += [Record(0, 5_000, 5_001, (99, None), 21), Record(0, 5_000, 5_001, (98, -(10**12)), 21, died=30)]
    return Description(
        routes=[
            Route(b"A", 0, 0, 10_000, 1),
            Route(b"B", 1, 1_000, 1_003, 2),
            Route(b"long_name", 5, 0, 999_999_999, 3),
        ],
        tables=[
            Table(b"crash", 3, 0, [(b"num", 0), (b"sev", 0)], crashes),
            Table(b"pave", 0, 1, [(b"surf", 8)], paved),
            Table(b"zone", 1, 1, [(b"z", 0), (b"t", 40)]),
        ],
        indexes=[Index(b"by_number", 2, 3, 0), Index(b"by_severity", 0, 3, 1), Index(b"ps", 1, 0, 0)],
        views=[
            View(b"a", b"MERGE(b, b)"),
            View(b"b", b"WHERE(pave,  surf = 'AC' OR NOT (surf IS NULL))"),
            View(b"c", b"WINDOW(TRANSFORM(crash, re), B FROM @K0 TO 100%)"),
            View(b"d", b"OVERLAY(DISSOLVE(crash, (num)), RENAME(pave, surf TO s2))"),
            View(b"e", b"WINDOW(GAPS(b), A)"),
        ],
        alignments=[
            Alignment(b"re", [(0, 0, 1_000, 0, 5_000), (0, 500, 503, 1, 1_000), (5, 0, 999_999_999, 5, 0)]),
            Alignment(b"re2", [(0, 0, 10_000, 0, 0)]),
        ],
        referents=[
            Referent(0, b"K0", 4_000, 5),
            Referent(0, b"K1", 4_000, 5),
            Referent(0, b"K2", 10_000, 6),
            Referent(1, b"K0", 1_000, 7),
            Referent(1, b"K1", 1_003, 8, died=9),
        ],
        accepted=40,
        free=2,
        leaf_cells=4,
        inner_entries=3,
        catalogue_bytes=100,
    )


SOUND = {"empty": empty, "inserted": inserted, "various": various}


# Changes of a description. Each takes one and changes it.


def add_records(*records):
    def change(said):
        said.tables[0].records += records

    return change


def put_records(*records):
    def change(said):
        said.tables[0].records = list(records)

    return change


def put_points(*records):
    """In place of the table a table of points with these records."""

    def change(said):
        said.tables = [Table(b"crash", 0, 0, [(b"num", 0)], list(records))]

    return change


def rows_over(count, *records):
    """Records of so many other rows, which begin one after another and end together, and then these."""
    return add_records(*[Record(0, 10 * place, 4_000, (b"r%d" % place,), 6) for place in range(count)], *records)


def put_value(longest, value):
    """In place of the table one of a column with this longest text, with one row."""

    def change(said):
        said.tables = [Table(b"pave", 0, 1, [(b"surf", longest)], [Record(0, 0, 1_000, (value,), 3)])]

    return change


def add_referents(*referents):
    def change(said):
        said.referents += [Referent(*referent) for referent in referents]

    return change


def add_views(*texts):
    """Views v00, v01 and so on, beside a table of points and some more."""

    def change(said):
        beside_views(said)
        said.views = [View(b"v%02d" % place, text) for place, text in enumerate(texts)]

    return change


def add_named_views(*views):
    def change(said):
        beside_views(said)
        said.views = [View(*view) for view in views]

    return change


def beside_views(said):
    """What views may be about: a table of points, one of lines, a referent, an alignment."""
    said.tables.insert(0, Table(b"crash", 1, 0, [(b"num", 0), (b"sev", 0)]))
    said.tables.append(Table(b"wide", 2, 1, [(b"c%d" % place, 0) for place in range(16)]))
    said.referents.append(Referent(0, b"K0", 2_000, 3))
    said.alignments.append(Alignment(b"re", [(0, 0, 1_000, 0, 5_000)]))


def put(kind, *items):
    """Other items of a kind."""

    def change(said):
        setattr(said, kind, list(items))

    return change


def put_columns(*columns):
    """Other columns of the table, which has no records."""

    def change(said):
        said.tables = [Table(b"pave", 0, 1, list(columns))]

    return change


def widest_rows(said):
    """In place of the table one of the widest rows, in trees with as few rows to a page as there may be."""
    columns = [(b"c%d" % place, 120) for place in range(7)] + [(b"last", 112)]
    texts = [tuple(b"%d" % (number * place % 10) * longest for place, (_, longest) in enumerate(columns)) for number in range(30)]
    records = [Record(0, 10 * number, 10 * number + 5, text, 3) for number, text in enumerate(texts)]
    said.tables = [Table(b"wide", 0, 1, columns, records)]
    said.indexes = [Index(b"i", 0, 0, 6)]
    said.inner_entries = 3


def put_alignment(*pieces):
    """An alignment between A, from 0 to 10, and B, from 1 to 1.003."""

    def change(said):
        said.routes.append(Route(b"B", 1, 1_000, 1_003, 2))
        said.alignments.append(Alignment(b"re", list(pieces)))

    return change


def set_to(**fields):
    def change(said):
        for name, value in fields.items():
            setattr(said, name, value)

    return change


def both(*changes):
    def change(said):
        for one in changes:
            one(said)

    return change


def nested(depth, text=b"pave"):
    """A query of operators one in another, the deepest over a table."""
    for _ in range(depth):
        text = b"DISSOLVE(%b, ())" % text
    return text


def doubled(count):
    """Views of which each is twice the one before it, the first twice a table: 3 nodes, 7, 15 and so on."""
    return [b"MERGE(pave, pave)"] + [b"MERGE(v%02d, v%02d)" % (place, place) for place in range(count - 1)]


def text_of_length(length):
    """A query's text of this many bytes."""
    return b"WHERE(pave, surf = '%b')" % (b"x" * (length - 22))


# Legal oddities, and what is wrong, of the file with the inserted row.

LONGEST_VIEW = LONGEST_LINE - len(b"0 DEFINE VIEW v00 AS ")

ODD = {
    "a view that meets 31 today": add_views(b"WINDOW(pave, A FROM @K0 TO 2)"),
    "views that meet 30 today": add_views(
        b"WINDOW(pave, A FROM 11 TO 12)", b"WINDOW(pave, A FROM @K0-3 TO 1)", b"WINDOW(pave, A FROM 0 TO @START+999999)"
    ),
    "a view over one that comes later": add_views(b"v01", b"pave"),
    "a view of the longest text": add_views(text_of_length(LONGEST_VIEW)),
    "a view with blanks between its tokens": add_views(b"MERGE ( pave , pave )"),
    "a view of the reserved name of nothing": add_views(b"WHERE(pave, surf = 'START')"),
    "views of 255 nodes": add_views(*doubled(7)),
    "a view of depth 32": add_views(nested(31)),
    "a view of 16 columns": add_views(b"OVERLAY(DISSOLVE(wide, (c0,c1,c2,c3,c4,c5,c6,c7,c8,c9,c10,c11,c12,c13,c14)), pave)"),
    "a view over points and lines": add_views(b"OVERLAY(crash, pave)"),
    "a view of a value that no row has": add_views(b"WHERE(pave, surf = 'a text that is longer than the column''s')"),
    "128 views": add_named_views(*[(b"w%03d" % place, b"pave") for place in range(128)]),
    "a dead record on a route that is gone": add_records(Record(7, 0, 1_000, (b"AC",), 2, died=4)),
    "a route number given again": both(
        put("routes", Route(b"B", 0, 0, 500, born=6)),
        put_records(Record(0, 0, 10_000, (b"AC",), 2, died=4), Record(0, 0, 500, (b"AC",), 6)),
    ),
    "dead records that were no runs": add_records(
        Record(0, 500, 400, (b"AC",), 2, died=4), Record(0, 1, 1, (b"AC",), 2, died=4)
    ),
    "dead records beyond all routes": add_records(Record(2**32 - 1, 2**32 - 1, 2**32 - 1, (b"AC",), 0, died=1)),
    "a living record beside the same one, dead": add_records(Record(0, 0, 2_500, (b"AC",), 6 - 1, died=6)),
    "a dead record that began with the living one": put_records(
        Record(0, 0, 9, (b"AC",), 3, died=5), Record(0, 0, 9, (b"AC",), 3)
    ),
    "a dead point two thousandths long": put_points(Record(0, 5, 7, (1,), 2, died=3)),
    "a birth equal to the accepted version": both(
        put_records(Record(0, 0, 1, (b"AC",), 6)), put("routes", Route(b"A", 0, 0, 9, 6))
    ),
    "a birth at version 0": both(put_records(Record(0, 0, 1, (b"AC",), 0)), put("routes", Route(b"A", 0, 0, 9, 0))),
    "a death equal to the accepted version": add_records(Record(0, 3_000, 4_000, (b"AC",), 5, died=6)),
    "a table without records": put_records(),
    "a table with dead records alone": put_records(Record(0, 0, 1_000, (b"AC",), 2, died=4)),
    "a row to the end of the route": put_records(Record(0, 0, 10_000, (b"AC",), 6)),
    "points at both ends of the route": put_points(Record(0, 0, 1, (1,), 2), Record(0, 10_000, 10_001, (1,), 2)),
    "touching points": put_points(Record(0, 5, 6, (1,), 2), Record(0, 6, 7, (1,), 2), Record(0, 6, 7, (2,), 2)),
    "touching rows that differ": add_records(Record(0, 2_500, 3_000, (b"PC",), 6), Record(0, 0, 2_500, (b"",), 6)),
    "rows one thousandth apart": add_records(Record(0, 2_501, 3_000, (b"AC",), 6)),
    "15 rows over another": rows_over(15),
    "16 rows over another": rows_over(16),
    "100 rows over another": rows_over(100),
    "rows one thousandth apart below 15 others": rows_over(15, Record(0, 2_501, 3_000, (b"AC",), 6)),
    "rows one thousandth apart below 100 others": rows_over(100, Record(0, 2_501, 3_000, (b"AC",), 6)),
    "20 points at one place": put_points(*[Record(0, 5, 6, (place,), 2) for place in range(20)]),
    "the longest text": put_value(120, b"x" * 120),
    "the greatest number": put_value(0, 10**12),
    "the least number": put_value(0, -(10**12)),
    "NULL": put_value(8, None),
    "a text of two letters in four bytes": put_value(8, "äö".encode()),
    "referents at both ends of the route": add_referents((0, b"S", 0, 2), (0, b"E", 10_000, 2)),
    "1,000 referents of a route": add_referents(*[(0, b"R%03d" % place, place, 2) for place in range(1_000)]),
    "dead referents that no line can say": add_referents(
        (9, b"\xff \n", 2**32 - 1, 2, 3), (9, b"", 0, 2, 3), (0, b"START", 0, 2, 3)
    ),
    "a referent that was moved": add_referents((0, b"K0", 5, 2, 3), (0, b"K0", 6, 3)),
    "names of 32 bytes": both(put("routes", Route(LONG_NAME, 0, 0, 10_000, 1)), add_referents((0, LONG_NAME, 5, 2))),
    "an alignment longer than a line": both(
        put("routes", Route(LONG_NAME, 0, 0, 10_000, 1)),
        put("alignments", Alignment(LONG_NAME, [(0, 0, 10_000, 0, 0)] * 64)),
    ),
    "64 alignments": put("alignments", *[Alignment(b"r%02d" % place, [(0, 0, 1, 0, 9_999)]) for place in range(64)]),
    "two indexes of one column": put("indexes", Index(b"a", 63, 0, 0), Index(b"b", 0, 0, 0)),
    "64 indexes": put("indexes", *[Index(b"i%02d" % place, place, 0, 0) for place in range(64)]),
    "128 tables": put("tables", *[Table(b"t%03d" % place, 127 - place, 1, [(b"c", 0)]) for place in range(128)]),
    "16 columns": put_columns(*[(b"c%d" % place, 59) for place in range(16)]),
    "rows of 960 bytes": put_columns(*[(b"c%d" % place, 120) for place in range(7)], (b"last", 112)),
    "rows of 960 bytes in trees of three levels": widest_rows,
    "4,096 routes": put("routes", *[Route(b"r%04d" % place, place, 0, 10_000) for place in range(4_096)]),
    "the last route number": both(put("routes", Route(b"A", 4_095, 0, 9, 1)), put_records()),
    "the longest route": both(
        put("routes", Route(b"A", 0, 0, 999_999_999, 1)), put_records(Record(0, 0, 999_999_999, (b"AC",), 2))
    ),
    "a point at the greatest measure": both(
        put("routes", Route(b"A", 0, 0, 999_999_999, 1)), put_points(Record(0, 999_999_999, 10**9, (1,), 2))
    ),
    "the most accepted changes": set_to(accepted=MOST_CHANGES),
    "free pages": set_to(free=3),
    "a byte of the catalogue in each page": set_to(catalogue_bytes=1),
    "bytes after the last page": set_to(last_bytes=b"\x01" * 100),
}

WRONG = {
    # Records of lines.
    "touching rows": add_records(Record(0, 2_500, 3_000, (b"AC",), 6)),
    "overlapping rows": add_records(Record(0, 2_499, 3_000, (b"AC",), 6)),
    "touching rows below 3 others": rows_over(3, Record(0, 2_500, 3_000, (b"AC",), 6)),
    "touching rows below 15 others": rows_over(15, Record(0, 2_500, 3_000, (b"AC",), 6)),
    "touching rows below 100 others": rows_over(100, Record(0, 2_500, 3_000, (b"AC",), 6)),
    "overlapping rows below 15 others": rows_over(15, Record(0, 2_400, 3_000, (b"AC",), 6)),
    "a row that comes again below 100 others": rows_over(100, Record(0, 3_000, 3_500, (b"r7",), 6)),
    "a row within another": add_records(Record(0, 1_000, 2_000, (b"AC",), 6)),
    "a repeated row": add_records(Record(0, 0, 2_500, (b"AC",), 5)),
    "a repeated row, shorter": add_records(Record(0, 0, 2_000, (b"AC",), 6)),
    "a touching row between others": add_records(
        Record(0, 2_400, 2_450, (b"PC",), 6), Record(0, 2_500, 3_000, (b"AC",), 6)
    ),
    "a row that ends where it begins": put_records(Record(0, 5, 5, (b"AC",), 6)),
    "a row that ends before it begins": put_records(Record(0, 5, 4, (b"AC",), 6)),
    "a row on no route": put_records(Record(1, 0, 1, (b"AC",), 6)),
    "a row before its route": both(put("routes", Route(b"A", 0, 1, 10_000, 1))),
    "a row after its route": put_records(Record(0, 10_000, 10_001, (b"AC",), 6)),
    "a row past the end of its route": put_records(Record(0, 0, 10_001, (b"AC",), 6)),
    # Records of points.
    "a point two thousandths long": put_points(Record(0, 5, 7, (1,), 2)),
    "a point of no thousandth": put_points(Record(0, 5, 5, (1,), 2)),
    "a point before the thousandth": put_points(Record(0, 5, 4, (1,), 2)),
    "a point twice among 20": put_points(*[Record(0, 5, 6, (place % 19,), 2 + place) for place in range(20)]),
    "a point twice": put_points(Record(0, 5, 6, (1,), 2), Record(0, 5, 6, (1,), 3)),
    "a point past the end": put_points(Record(0, 10_001, 10_002, (1,), 2)),
    "a point on no route": put_points(Record(2, 5, 6, (1,), 2)),
    # Dates.
    "a birth after the accepted version": put_records(Record(0, 0, 1, (b"AC",), 7)),
    "a death after the accepted version": put_records(Record(0, 0, 1, (b"AC",), 5, died=7)),
    "a death before the birth": put_records(Record(0, 0, 1, (b"AC",), 5, died=4)),
    "a death with the birth": put_records(Record(0, 0, 1, (b"AC",), 5, died=5)),
    "a route born later": put("routes", Route(b"A", 0, 0, 10_000, 7)),
    "one accepted change too many": set_to(accepted=MOST_CHANGES + 1),
    "a dead referent born after its death": add_referents((0, b"K0", 5, 3, 2)),
    "a referent born later": add_referents((0, b"K0", 5, 7)),
    # Values.
    "a number too great": put_value(0, 10**12 + 1),
    "a number too small": put_value(0, -(10**12) - 1),
    "NULL with a byte": put_value(8, Raw(b"\0" + b"A" + bytes(7))),
    "NULL with its last byte": put_value(8, Raw(bytes(8) + b"\1")),
    "a tag of 2": put_value(8, Raw(b"\2" + bytes(8))),
    "a text with a zero byte": put_value(8, b"A\0C"),
    "a text that begins with a zero byte": put_value(8, b"\0C"),
    "a text with a control byte": put_value(8, b"A\x1f"),
    "a text with the byte 127": put_value(8, b"A\x7f"),
    "a text that is no UTF-8": put_value(8, b"A\xff"),
    "a text that is cut": put_value(2, "xä".encode()[:2]),
    "a dead row that says nothing": add_records(Record(0, 5, 6, (Raw(b"\2" + bytes(8)),), 2, died=3)),
    # Referents.
    "a referent before its route": both(
        put("routes", Route(b"A", 0, 1, 10_000, 1)), put_records(), add_referents((0, b"K", 0, 2))
    ),
    "a referent after its route": add_referents((0, b"K", 10_001, 2)),
    "a referent on no route": add_referents((1, b"K", 5, 2)),
    "a referent of no name": add_referents((0, b"", 5, 2)),
    "a referent of a reserved word": add_referents((0, b"SELECT", 5, 2)),
    "a referent called START": add_referents((0, b"START", 0, 2)),
    "a referent that begins with a digit": add_referents((0, b"1K", 5, 2)),
    "a referent with a blank": add_referents((0, b"K ", 5, 2)),
    "a referent with a zero in its name": add_referents((0, b"K\0L", 5, 2)),
    "a dead referent with a zero in its name": add_referents((0, b"K\0L", 5, 2, 3)),
    "a referent twice": add_referents((0, b"K", 5, 2), (0, b"K", 6, 2)),
    "a referent twice at one place": add_referents((0, b"K", 5, 2), (0, b"K", 5, 3)),
    "1,001 referents of a route": add_referents(*[(0, b"R%04d" % place, place, 2) for place in range(1_001)]),
    # Views.
    "a view of no text": add_views(b""),
    "a view with a method": add_views(b"pave AS ABSOLUTE"),
    "a view that begins with a blank": add_views(b" pave"),
    "a view that ends with a blank": add_views(b"pave "),
    "a view that ends with a CR": add_views(b"pave\r"),
    "a view with a control byte": add_views(b"MERGE(pave,\tpave)"),
    "a view that is no UTF-8": add_views(b"WHERE(pave, surf = '\xff')"),
    "a view with an unknown character": add_views(b"pave;"),
    "a view that is not whole": add_views(b"MERGE(pave, pave"),
    "a view with an open quote": add_views(b"WHERE(pave, surf = 'AC)"),
    "a view of two queries": add_views(b"pave pave"),
    "a view of a command": add_views(b"SELECT pave"),
    "a view of gaps of two operands": add_views(b"GAPS(pave, pave)"),
    "a view of gaps of points": add_views(b"GAPS(crash)"),
    "a view of 33 brackets": add_views(b"WHERE(pave, %bsurf = 'AC'%b)" % (b"(" * 32, b")" * 32)),
    "a view of a measure too long": add_views(b"WINDOW(pave, A FROM 0.0001 TO 1)"),
    "a view of a number too great": add_views(b"WHERE(crash, num = 1000000000001)"),
    "a view of a percentage too great": add_views(b"WINDOW(pave, A FROM 0 TO 100.0000001%)"),
    "a view of a text too long for a line": add_views(text_of_length(LONGEST_VIEW + 1)),
    "a view of no table": add_views(b"none"),
    "a view of itself": add_views(b"v00"),
    "views in a circle": add_views(b"v01", b"MERGE(pave, v02)", b"v00"),
    "a view of no alignment": add_views(b"TRANSFORM(pave, none)"),
    "a view of no column": add_views(b"WHERE(pave, none = 1)"),
    "a view of a wrong type": add_views(b"WHERE(pave, surf = 1)"),
    "a view of differing columns": add_views(b"MERGE(pave, crash)"),
    "a view of a column twice": add_views(b"OVERLAY(pave, pave)"),
    "a view of a column named twice": add_views(b"DISSOLVE(crash, (num, num))"),
    "a view of a column renamed to another": add_views(b"RENAME(crash, num TO sev)"),
    "a view of differing kinds": add_views(b"COVER(crash, pave)"),
    "a view of 17 columns": add_views(b"OVERLAY(wide, pave)"),
    "a view on no route": add_views(b"WINDOW(pave, Z FROM 0 TO 1)"),
    "a view on the whole of no route": add_views(b"WINDOW(pave, Z)"),
    "a view of no referent": add_views(b"WINDOW(pave, A FROM 0 TO @K9)"),
    "a view of no referent before its place": add_views(b"WINDOW(pave, A FROM @K9 TO 2)"),
    "a view of a referent of another name": add_views(b"WINDOW(pave, A FROM @k0 TO 2)"),
    "views of 511 nodes": add_views(*doubled(8)),
    "views of 2^40 nodes": add_views(*doubled(40)),
    "a view of depth 33": add_views(b"v01", nested(31), b"DISSOLVE(v01, ())"),
    "views out of order": add_named_views((b"w", b"pave"), (b"v", b"pave")),
    "a view twice": add_named_views((b"v", b"pave"), (b"v", b"pave")),
    "a view with a table's name": add_named_views((b"pave", b"crash")),
    "a view with a table's name, of itself": add_named_views((b"pave", b"pave")),
    "a view with a reserved name": add_named_views((b"VIEW", b"pave")),
    "a view without a name": add_named_views((b"", b"pave")),
    "a view with a name of 33 bytes": add_named_views((LONG_NAME + b"N", b"pave")),
    "129 views": add_named_views(*[(b"w%03d" % place, b"pave") for place in range(129)]),
    # Routes.
    "routes out of order": put("routes", Route(b"B", 1, 0, 1), Route(b"A", 0, 0, 10_000)),
    "a route twice": put("routes", Route(b"A", 0, 0, 10_000), Route(b"A", 1, 0, 10_000)),
    "a route number twice": put("routes", Route(b"A", 0, 0, 10_000), Route(b"B", 0, 0, 10_000)),
    "a route number too great": both(put("routes", Route(b"A", 4_096, 0, 9, 1)), put_records()),
    "a route without a length": put("routes", Route(b"A", 0, 0, 10_000), Route(b"B", 1, 5, 5)),
    "a route that ends before it begins": put("routes", Route(b"A", 0, 0, 10_000), Route(b"B", 1, 5, 4)),
    "a route that is too long": put("routes", Route(b"A", 0, 0, 10**9, 1)),
    "a route with a reserved name": put("routes", Route(b"ROUTE", 0, 0, 10_000, 1)),
    "a route with a sign": put("routes", Route(b"I-95", 0, 0, 10_000, 1)),
    "a route called as in another language": put("routes", Route("Süd".encode(), 0, 0, 10_000, 1)),
    "4,097 routes": put("routes", *[Route(b"r%04d" % place, place, 0, 10_000) for place in range(4_097)]),
    # Tables and indexes.
    "a table number twice": put("tables", Table(b"a", 0, 1, [(b"c", 0)]), Table(b"b", 0, 1, [(b"c", 0)])),
    "a table twice": put("tables", Table(b"a", 0, 1, [(b"c", 0)]), Table(b"a", 1, 1, [(b"c", 0)])),
    "tables out of order": put("tables", Table(b"b", 0, 1, [(b"c", 0)]), Table(b"a", 1, 1, [(b"c", 0)])),
    "a table number too great": put("tables", Table(b"a", 128, 1, [(b"c", 0)])),
    "a table of a third kind": put("tables", Table(b"a", 0, 2, [(b"c", 0)])),
    "a table with a reserved name": put("tables", Table(b"TABLE", 0, 1, [(b"c", 0)])),
    "129 tables": put("tables", *[Table(b"t%03d" % place, place, 1, [(b"c", 0)]) for place in range(129)]),
    "no columns": put_columns(),
    "17 columns": put_columns(*[(b"c%d" % place, 0) for place in range(17)]),
    "rows of 961 bytes": put_columns(*[(b"c%d" % place, 120) for place in range(7)], (b"last", 113)),
    "a column twice": put_columns((b"c", 0), (b"c", 0)),
    "a column of texts too long": put_columns((b"c", 121)),
    "a column with a reserved name": put_columns((b"INT", 0)),
    "an index of no table": put("indexes", Index(b"i", 0, 1, 0)),
    "an index of no column": both(put_records(), put("indexes", Index(b"i", 0, 0, 1))),
    "an index number twice": put("indexes", Index(b"i", 0, 0, 0), Index(b"j", 0, 0, 0)),
    "an index twice": put("indexes", Index(b"i", 0, 0, 0), Index(b"i", 1, 0, 0)),
    "indexes out of order": put("indexes", Index(b"j", 0, 0, 0), Index(b"i", 1, 0, 0)),
    "an index number too great": put("indexes", Index(b"i", 64, 0, 0)),
    "an index with a reserved name": put("indexes", Index(b"INDEX", 0, 0, 0)),
    # Alignments.
    "an alignment without pieces": put_alignment(),
    "an alignment of 65 pieces": put_alignment(*[(0, 0, 1, 0, 0)] * 65),
    "a piece from no route": put_alignment((2, 0, 1, 0, 0)),
    "a piece to no route": put_alignment((0, 0, 1, 2, 0)),
    "a piece without a length": put_alignment((0, 5, 5, 0, 0)),
    "a piece that ends before it begins": put_alignment((0, 5, 4, 0, 0)),
    "a piece before its route": put_alignment((1, 999, 1_003, 0, 0)),
    "a piece past the end of its route": put_alignment((1, 1_000, 1_004, 0, 0)),
    "a piece to before its second route": put_alignment((0, 0, 3, 1, 999)),
    "a piece to past the end of its second route": put_alignment((0, 0, 4, 1, 1_000)),
    "alignments out of order": put("alignments", Alignment(b"s", [PIECE]), Alignment(b"r", [PIECE])),
    "an alignment twice": put("alignments", Alignment(b"r", [PIECE]), Alignment(b"r", [PIECE])),
    "an alignment with a reserved name": put("alignments", Alignment(b"AS", [(0, 0, 1, 0, 0)])),
    "65 alignments": put("alignments", *[Alignment(b"r%02d" % place, [(0, 0, 1, 0, 9_999)]) for place in range(65)]),
}


# Files of other bytes.


def described(group, changes, wanted):
    """The file with the inserted row, changed in each of these ways; and so in version 1, where it was closed and where not."""
    for name, change in changes.items():
        said = inserted()
        change(said)
        yield File("%s: %s" % (group, name), bytes(written(said).data), wanted)
        said.version = 1
        yield File("%s, version 1: %s" % (group, name), bytes(written(said).data), wanted)
        said.flag = 1
        left_open = NOT_CLOSED if wanted == OK else wanted
        yield File("%s, not closed: %s" % (group, name), bytes(written(said).data), left_open)


def damaged(version, left_open):
    """The damages that the format's own text speaks of, in a version, with what is answered where the flag is set."""
    file, first = in_version(version, empty), in_version(version, inserted)
    data = bytes(file.data)
    for name, other, wanted in (
        ("the empty file", data, OK),
        ("cut to two pages", data[: 2 * PAGE_BYTES], DAMAGED),
        ("cut inside its third page", data[:-1], DAMAGED),
        ("a fourth page of zeros", data + bytes(PAGE_BYTES), OK),
        ("format 3", file.with_fields({"file format": 3}), DAMAGED),
        ("flag 2", file.with_fields({"file flag": 2}), left_open),
        ("flag 1", file.with_fields({"file flag": 1}), left_open),
        ("flag 1 and the first catalogue page 7", file.with_fields({"file flag": 1, "file first catalogue": 7}), DAMAGED),
        ("100 bytes", data[:100], DAMAGED),
        ("no bytes", b"", DAMAGED),
        ("a birth of 99", first.with_fields({"route 0 born": 99}), DAMAGED),
    ):
        yield File("version %d: %s" % (version, name), other, wanted)


def in_version(version, make):
    said = make()
    said.version = version
    return written(said)


def files():
    """All files."""
    yield from damaged(1, NOT_CLOSED)
    yield from damaged(2, DAMAGED)
    yield from described("odd", ODD, OK)
    yield from described("wrong", WRONG, DAMAGED)
    yield from changed_fields(written(various()))
