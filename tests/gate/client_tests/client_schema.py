"""Tests of the client in Python: what is defined in a file, and the names of columns. tests/gate/clients.py runs them."""

from decimal import Decimal as D

from client_parts import DEFINED, NETWORK, expect_error, measures, network, roadseg, running
from harness import expect
from roadseg.schema import Alignment, Column, Index, Piece, Route, Table, View
from runs import LONGEST, serving

MORE = (
    "DEFINE INDEX by_surface ON pavement (surface)",
    "DEFINE VIEW busy AS WHERE(traffic, aadt > 20000)",
    "DEFINE VIEW busy_pavement AS OVERLAY(pavement, busy)",
    "DEFINE REFERENT I95 HALF AT 50%",
    "DEFINE REFERENT I95 AFTER AT @HALF+0.25",
    "DEFINE REFERENT I95 FIRST AT @START+0.001",
)
TABLES = {
    "pavement": Table("pavement", "LINE", (Column("surface", "TEXT", 12), Column("year", "INT"))),
    "speed": Table("speed", "LINE", (Column("mph", "INT"),)),
    "traffic": Table("traffic", "LINE", (Column("aadt", "INT"),)),
    "crashes": Table("crashes", "POINT", (Column("num", "INT"), Column("severity", "TEXT", 8))),
    "work_zones": Table("work_zones", "LINE", (Column("project", "TEXT", 8), Column("closed", "INT"))),
    "mowing": Table("mowing", "LINE", (Column("contractor", "TEXT", 12), Column("per_mile", "INT"))),
}
ROUTES = {
    "SR12": Route("SR12", *measures("0", "14.25"), {"BRIDGE": D("4.000"), "COUNTY_LINE": D("9.100")}),
    "US40": Route("US40", *measures("102.5", "131.875"), {"EXIT112": D("112.300")}),
    "I95": Route("I95", *measures("10", "22"), {"HALF": D("16.000"), "AFTER": D("16.250"), "FIRST": D("10.001")}),
    "SR12N": Route("SR12N", *measures("0", "13.75"), {}),
}
PIECES = (
    Piece("SR12", *measures("0", "6"), "SR12N", D("0.000")),
    Piece("SR12", *measures("8", "14.25"), "SR12N", D("7.500")),
)


def expect_schema(schema):
    expect("routes", schema.routes, ROUTES)
    expect("tables", schema.tables, TABLES)
    expect("alignments", schema.alignments, {"realigned": Alignment("realigned", PIECES)})
    expect("indexes", schema.indexes, {"by_surface": Index("by_surface", "pavement", "surface")})
    views = {"busy": "WHERE(traffic, aadt > 20000)", "busy_pavement": "OVERLAY(pavement, busy)"}
    expect("views", schema.views, {name: View(name, query) for name, query in views.items()})


def filled(program):
    file = program.created()
    with open(NETWORK, "rb") as lines:
        program.run("run", "--file", file, sent=lines.read() + b"".join(b"0 %s\n" % line.encode() for line in MORE))
    return file


def the_schema_is_that_of_the_lines_that_were_sent(program):
    with network(program) as road:
        for line in MORE:
            road.execute(line)
        expect_schema(road.schema())
        expect_error(roadseg.Refused, road.execute, "DEFINE LINE TABLE pavement (x INT)")
        expect_error(roadseg.Refused, road.execute, "DROP TABLE pavement")
        held = road.schema()
        held.tables.clear()
        held.routes["SR12"].referents.clear()
        expect_schema(road.schema())


def the_schema_is_that_of_the_file_that_is_opened(program):
    file = filled(program)
    expect_schema(roadseg.schema_of(file, program.path))
    with running(program, file=file) as road:
        expect_schema(road.schema())
        road.execute("DEFINE POINT TABLE signs (words TEXT(20))")
        expect("a further table", road.schema().tables["signs"], Table("signs", "POINT", (Column("words", "TEXT", 20),)))
    with roadseg.run(file, program.path, definitions=False) as road:
        expect("without it", road.schema(), roadseg.Schema())
    with running(program, "SAVE", file=file):
        expect_error(roadseg.Failed, roadseg.schema_of, file, program.path)


def what_is_dropped_and_moved_is_followed(program):
    with network(program) as road:
        for line in (*MORE, "MOVE REFERENT SR12 BRIDGE TO @COUNTY_LINE-5", "DROP REFERENT I95 FIRST", "DROP VIEW busy_pavement"):
            road.execute(line)
        for line in ("DROP VIEW busy", "DROP INDEX by_surface", "DEFINE INDEX again ON speed (mph)", "DROP TABLE speed"):
            road.execute(line)
        for line in ("DROP ALIGNMENT realigned", "DROP ROUTE SR12N"):
            road.execute(line)
        schema = road.schema()
        expect("the referents", schema.routes["SR12"].referents, {"BRIDGE": D("4.100"), "COUNTY_LINE": D("9.100")})
        expect("those of another route", schema.routes["I95"].referents, {"HALF": D("16.000"), "AFTER": D("16.250")})
        expect("tables", sorted(schema.tables), ["crashes", "mowing", "pavement", "traffic", "work_zones"])
        others = (schema.views, schema.indexes, schema.alignments, sorted(schema.routes))
        expect("all else", others, ({}, {}, {}, ["I95", "SR12", "US40"]))
        expect("a place", road.ask("TRANSLATE SR12 @BRIDGE AS ABSOLUTE"), ["4.100"])


def a_percentage_lies_where_the_program_says(program):
    with running(program, "DEFINE ROUTE B FROM 1 TO 1.003", "DEFINE ROUTE C FROM 0.007 TO 999.992") as road:
        percentages = ("0%", "33.3333333%", "33.3333334%", "66.6666666%", "66.6666667%", "99.9999999%", "100%", "7.0%", "007.50%")
        for route in "BC":
            for k, percentage in enumerate(percentages):
                road.execute("DEFINE REFERENT %s K%d AT %s" % (route, k, percentage))
                told = road.ask("TRANSLATE %s @K%d AS ABSOLUTE" % (route, k))
                expect("%s on %s" % (percentage, route), [str(road.schema().routes[route].referents["K%d" % k])], told)


def a_server_is_told_what_is_defined(program):
    file = filled(program)
    dump = program.run("dump", "--definitions", "--file", file).out.decode().splitlines()
    with serving(program, file, 1) as server:
        with roadseg.connect(port=server.port, timeout=LONGEST) as road:
            expect("at first", road.schema(), roadseg.Schema())
            rows = road.select("WINDOW(crashes, I95)")
            expect("columns without names", rows.columns, ("route", "at", "value_1", "value_2"))
            expect("and of lines", road.select("WINDOW(speed, I95)").columns, ("route", "from", "to", "value_1"))
            expect("and of none", road.select("WINDOW(speed, SR12N)").columns, ("route",))
            road.learn(dump)
            expect_schema(road.schema())
            expect("columns", road.select("WINDOW(crashes, I95)").columns, ("route", "at", "num", "severity"))
        server.expect_end()


SHAPES = {
    "pavement": ("from", "to", "surface", "year"),
    "crashes": ("at", "num", "severity"),
    "OVERLAY(crashes, work_zones)": ("at", "num", "severity", "project", "closed"),
    "OVERLAY(work_zones, crashes)": ("at", "project", "closed", "num", "severity"),
    "OVERLAY(pavement, traffic)": ("from", "to", "surface", "year", "aadt"),
    "COVER( pavement , work_zones )": ("from", "to", "surface", "year", "project", "closed"),
    "DISSOLVE(pavement, ())": ("from", "to"),
    "DISSOLVE(pavement, (year, surface))": ("from", "to", "year", "surface"),
    "RENAME(DISSOLVE(pavement, (year)), year TO route)": ("from", "to", "route_"),
    "WHERE(crashes, num > 2 AND (severity = '),(' OR severity IS NULL))": ("at", "num", "severity"),
    "MINUS(crashes, DISSOLVE(OVERLAY(crashes, work_zones), (num, severity)))": ("at", "num", "severity"),
    "MERGE(pavement, pavement)": ("from", "to", "surface", "year"),
    "WINDOW(busy_pavement, US40 FROM @EXIT112-5 TO @EXIT112+5)": ("from", "to", "surface", "year", "aadt"),
    "TRANSFORM(busy, realigned)": ("from", "to", "aadt"),
    "GAPS(pavement)": ("from", "to"),
    "OVERLAY(GAPS(pavement), crashes)": ("at", "num", "severity"),
}


def columns_have_names(program):
    with network(program) as road:
        for line in MORE:
            road.execute(line)
        for query, names in SHAPES.items():
            expect(query, road.select(query).columns, ("route", *names))
            expect("by a cursor: %s" % query, road.select(query, batch=10).columns, ("route", *names))
            rows, columns = list(road.select(query)), road.columns(query)
            expect("columns of %s" % query, tuple(columns), ("route", *names))
            expect("rows of %s" % query, list(zip(*columns.values())), rows)
            expect("rows by column", road.select(query).by_column(), columns)
            whole = {name: [int(part * 1000) if isinstance(part, D) else part for part in column] for name, column in columns.items()}
            expect("in thousandths", road.columns(query, thousandths=True), whole)
        expect("of no rows", road.columns("WINDOW(pavement, SR12N)"), {name: [] for name in ("route", "from", "to", "surface", "year")})
        expect("by a method", road.columns("WHERE(crashes, num = 6)", "INTERPOLATIVE")["at"], ["100.0000000%"])
        expect_error(ValueError, road.columns, "crashes", "RELATIVE", thousandths=True)
        described = road.select("crashes").description
        expect("a description", [one[0] for one in described], ["route", "at", "num", "severity"])
        expect("its items", {(len(one), one[1:]) for one in described}, {(7, (None,) * 6)})
        total = road.total("pavement", by=["surface"], sum="year")
        expect("of a total", total.columns, ("surface", "length", "weight", "sum"))
        expect("a total by column", road.total("pavement", by="surface").by_column(), {"surface": ["asphalt", "concrete"], "length": [D("19.725"), D("35.300")]})


def what_is_not_known_has_no_shape(_program):
    schema = roadseg.Schema(["DEFINE LINE TABLE a (n INT)", "DEFINE VIEW v AS v", "DEFINE VIEW w AS OVERLAY(w, w)"])
    from roadseg.shapes import shape_of

    for query in ("", "b", "OVERLAY(a, b)", "DISSOLVE(a, (m))", "WHERE(a", "(", "v", "w", "'a'", "WHERE(" * 5_000, "FIRST(a, a)"):
        expect(query[:20], shape_of(query, schema), None)
    lines = ["", "?", "DEFINE", "DEFINE ROUTE", "DEFINE ROUTE A FROM", "DEFINE ROUTE A FROM 0 TO x", "DEFINE REFERENT B K AT 1", "DROP ROUTE"]
    lines += ["DEFINE LINE TABLE t (", "DEFINE LINE TABLE t (n)", "DEFINE LINE TABLE t (n TEXT(x))", "DROP THING a", "MOVE REFERENT A", "DEFINE VIEW x AS"]
    lines += ["DEFINE ALIGNMENT x (a)", "DEFINE ROUTE A FROM %s TO 1" % ("9" * 9_000), "0 DROP REFERENT Z K", "DEFINE INDEX i ON a n"]
    expect("what such lines define", roadseg.Schema(lines), roadseg.Schema())
    route = ["DEFINE ROUTE A FROM 0 TO 1"]
    lines = ["DEFINE REFERENT A K AT @", "DEFINE REFERENT A K AT @START+", "DEFINE LINE TABLE t (n TEXT(%s))" % ("9" * 9_000)]
    expect("and beside a route", roadseg.Schema(route + lines), roadseg.Schema(route))


def a_table_that_is_defined_in_pieces_of_any_spacing_is_read(program):
    line = "DEFINE  LINE TABLE  t(  a   TEXT( 007 ),b INT  )"
    with running(program, *DEFINED, line) as road:
        wanted = Table("t", "LINE", (Column("a", "TEXT", 7), Column("b", "INT")))
        expect("the table", road.schema().tables["t"], wanted)


SCHEMA_TESTS = [
    the_schema_is_that_of_the_lines_that_were_sent,
    the_schema_is_that_of_the_file_that_is_opened,
    what_is_dropped_and_moved_is_followed,
    a_percentage_lies_where_the_program_says,
    a_server_is_told_what_is_defined,
    columns_have_names,
    what_is_not_known_has_no_shape,
    a_table_that_is_defined_in_pieces_of_any_spacing_is_read,
]
