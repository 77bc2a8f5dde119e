"""Tests of the page: tests/gate/clients.py runs them beside its own.

What the page knows is unpacked here, and compared with what SELECT answers. The pure part of its script is run by node, where
that is there, and compared with WINDOW and TRANSLATE. tests/gate/client_tests/page_pictures.py looks at its pictures.
"""

import csv
import io
import json
import math
import os
import random
import re
import shutil
import subprocess
import sys
import xml.etree.ElementTree as ElementTree
from decimal import Decimal as D
from html.parser import HTMLParser

from client_parts import CLIENTS, HERE, NETWORK, SEED, expect_error, network, roadseg, running
from diagrams import NASTY
from harness import bytes_at, expect
from prepared import client_of_answers, lines_run, measure
from roadseg import colours, page
from runs import LONGEST, serving

CALLS = os.path.join(HERE, "page_calls.js")
NODE = shutil.which("node")
LARGEST = 8_000_000  # bytes of the page of so many routes and spans
ROUTES, SPANS = 400, 250
MOST_LINES = 15  # of Python for a row, beside those of asking
QUESTIONS = {"Old": "WHERE(pavement, year < 2005)", "Both": "OVERLAY(crashes, pavement)", "Known": "DISSOLVE(pavement, ())"}
BLANK = "\ufffd"

if NODE is None:
    print("node is not there: the script of pages is not tried")


# Pages to look at.


def asked_of(road, **queries):
    names = sorted(road.schema().tables)
    return [page.Asked(name, name) for name in names] + [page.Asked(*pair) for pair in queries.items()]


def page_of(road, asked=None, given=None):
    """The text of a page and its data."""
    asked = asked_of(road) if asked is None else asked
    text = page.page(road, asked, colours.Palette(road, given), "Roads", "miles")
    return text, json.loads(re.search('<script id="data" type="application/json">(.*?)</script>', text, re.DOTALL)[1])


def random_network(program, routes=3, rows=60):
    """A network of spans that touch and overlap, of points, some at one place, of texts of all sorts, and of NULL."""
    chance = random.Random(SEED)
    road = running(program, "DEFINE LINE TABLE zones (name TEXT(40), num INT)", "DEFINE POINT TABLE signs (code TEXT(40), num INT)")
    road.execute("DEFINE LINE TABLE surfaces (surface TEXT(9))")
    for r in range(routes):
        start, length = chance.randrange(0, 5_000), chance.randrange(2_000, 20_000)
        road.execute("DEFINE ROUTE R%d FROM %s TO %s" % (r, measure(start), measure(start + length)))
        places = [start, start + length, *(start + chance.randrange(length) for _ in range(4)), start + length // 2, start + length // 2]
        for k, place in enumerate(places[r:]):
            road.execute("DEFINE REFERENT R%d REF%d AT %s" % (r, chance.randrange(100) * 10 + k, measure(place)))
        values = [None, 7, -3, 12, *range(100, 104)]
        texts = [*NASTY, "</script>", "<!--", "a,b", "@@data@@", None, "plain"]
        spans = [sorted(chance.sample(range(start, start + length + 1), 2)) for _ in range(rows)]
        lines = [("R%d" % r, measure(lo), measure(hi), chance.choice(texts), chance.choice(values)) for lo, hi in spans]
        expect("refused spans", road.load("zones", [line for line in lines if is_plain(line[3])]).refused, [])
        at = [start, start + length, *(chance.choice([start + chance.randrange(length), start + 77]) for _ in range(rows))]
        points = [("R%d" % r, measure(place), chance.choice(texts), chance.choice(values)) for place in at]
        expect("refused points", road.load("signs", [point for point in points if is_plain(point[2])]).refused, [])
        cuts = [start, *sorted(chance.sample(range(start + 1, start + length), 12)), start + length]
        touching = [("R%d" % r, measure(lo), measure(hi), chance.choice("abc")) for lo, hi in zip(cuts, cuts[1:])]
        road.load("surfaces", touching)
    return road, chance


def is_plain(text):
    """Whether a text may be in a table: it has no control characters, and is not too long."""
    return text is None or (text.isprintable() or BLANK in text) and len(text.encode()) <= 40 and "\x85" not in text


def unpacked(data, band):
    """The rows of a band, route by route, as SELECT gives them."""
    for (name, *_rest), flat in zip(data["routes"], band["rows"]):
        width = len(band["columns"]) + (2 if band["kind"] == "LINE" else 1)
        count = len(flat) // width
        expect("what is left over", count * width, len(flat))
        parts, start = [flat[k * count : (k + 1) * count] for k in range(width)], 0
        for one in zip(*parts):
            start += one[0]
            places = [measure(start)] + ([measure(start + one[1])] if band["kind"] == "LINE" else [])
            numbers = one[len(places) :]
            yield (name, *places, *(column["values"][number] for column, number in zip(band["columns"], numbers)))


def changes_of(data, r):
    """The places of a route at which something begins, ends or is, in order."""
    name, start, end, referents = data["routes"][r]
    places = {start, end, *(at for _name, at in referents)}
    for band in data["bands"]:
        for row in unpacked(data, band):
            places |= {int(part * 1000) for part in row[1:3] if isinstance(part, D) and row[0] == name}
    return sorted(places)


def node(program, text, calls):
    """What node makes of calls of the script of a page."""
    path = program.file("page.html")
    with open(path, "w", encoding="utf-8") as file:
        file.write(text)
    sent = json.dumps({"page": path, "calls": calls}).encode()
    done = subprocess.run([NODE, CALLS], input=sent, capture_output=True, timeout=LONGEST)
    expect("what node says", (done.returncode, done.stderr), (0, b""))
    return json.loads(done.stdout)


# What the page knows.


def a_page_knows_what_select_answers(program):
    for road, queries in ((network(program), QUESTIONS), (random_network(program)[0], {"Two": "OVERLAY(zones, surfaces)"})):
        with road:
            asked = asked_of(road, **queries)
            _text, data = page_of(road, asked)
            for one, band in zip(asked, data["bands"]):
                expect("rows of %s" % one.query, list(unpacked(data, band)), list(road.select(one.query)))
                names = [column["name"] for column in band["columns"]]
                expect("columns of %s" % one.query, names, [column.name for column in road.shape(one.query).columns])
                expect("kind of %s" % one.query, band["kind"], road.shape(one.query).kind)
            for name, start, end, referents in data["routes"]:
                route = road.schema().routes[name]
                expect("ends of %s" % name, (measure(start), measure(end)), (route.start, route.end))
                expect("referents of %s" % name, {one: measure(at) for one, at in referents}, route.referents)
                expect("their order", referents, sorted(referents, key=lambda one: (one[1], one[0])))


def colours_of_a_page_are_those_of_diagrams(program):
    given = {"severity": {"fatal": "#FF0000"}, "aadt": {"8200": "#00FF00"}}
    with network(program) as road:
        asked = [page.Asked("crashes", "crashes", "severity"), *asked_of(road, Again="RENAME(pavement, surface TO s)")]
        _text, data = page_of(road, asked, given)
        palette = colours.Palette(road, given)
        for one, band in zip(asked, data["bands"]):
            for column, scheme in zip(band["columns"], palette.schemes(one.query)):
                for value, entry in zip(column["values"], column["entry"]):
                    text, style = column["legend"][entry]
                    expect("%r of %s" % (value, one.title), (text, tuple(data["styles"][style])), tuple(scheme.entry(value)))
        expect("the columns that colours go by", [band["by"] for band in data["bands"]], [1, 0, 0, 0, 0, 0, 0, 0])
        fault = expect_error(ValueError, page_of, road, [page.Asked("P", "pavement", "none")])
        expect("what is told", str(fault), "P has no column none: it has surface, year")


def a_page_of_nothing_is_a_page(program):
    with running(program) as road:
        text, data = page_of(road)
        expect("what it knows", (data["routes"], data["bands"]), ([], []))
    with running(program, "DEFINE ROUTE A FROM 0 TO 10", "DEFINE POINT TABLE t (a INT)") as road:
        text, data = page_of(road)
        expect("a table without rows", (data["bands"][0]["kind"], data["bands"][0]["rows"]), ("POINT", [[]]))
        if NODE:
            read = node(program, text, ["picture(0, 0, 10000, 800).svg()", "book.table(0, 0, 0, 10000)", "book.rowsAt(0, 0, 5)"])
            expect("what is drawn of it", ("no rows" in read[0], read[1]["rows"], read[2]), (True, [], []))


class Looked(HTMLParser):
    """The tags and attributes of a page, its texts, and its scripts."""

    def __init__(self, text):
        super().__init__()
        self.tags, self.scripts = [], []
        self.feed(text)

    def handle_starttag(self, tag, attributes):
        self.tags.append((tag, dict(attributes)))

    def handle_data(self, data):
        if self.tags and self.tags[-1][0] == "script":
            self.scripts.append(data)


def a_page_needs_no_network_and_no_mouse(program):
    with network(program) as road:
        text, _data = page_of(road)
    looked = Looked(text)
    expect("scripts", len([tag for tag, _ in looked.tags if tag == "script"]), 3)
    for tag, attributes in looked.tags:
        expect("whether %s brings something" % tag, {"src", "srcset", "data"} & set(attributes), set())
        expect("whether %s links to somewhere" % tag, attributes.get("href", "#").startswith("#"), True)
    expect("what is fetched", re.findall(r"@import|url\((?!#)|fetch\(|XMLHttpRequest|WebSocket|import\(|//[a-z]+\.[a-z]", text), [])
    [policy] = [one["content"] for tag, one in looked.tags if one.get("http-equiv") == "Content-Security-Policy"]
    expect("what it may fetch", policy.startswith("default-src 'none';"), True)
    expect("its language", dict(looked.tags)["html"], {"lang": "en"})
    labelled = {one.get("for") for tag, one in looked.tags if tag == "label"}
    for tag, one in looked.tags:
        if tag in ("input", "select") and one.get("id") not in {*labelled, "from", "to", "band"}:
            expect("the name of %s" % one, "aria-label" in one, True)
    expect("what keys reach", [one["id"] for _tag, one in looked.tags if one.get("tabindex") == "0"], ["diagram", "scrolled"])
    expect("what is spoken", [one["id"] for _tag, one in looked.tags if one.get("role") == "status"], ["found", "spoken", "copied"])


def texts_of_a_page_are_escaped(program):
    with random_network(program)[0] as road:
        asked = [page.Asked("</script><b>&@@data@@", "signs"), page.Asked("<i>'\"", "zones")]
        text = page.page(road, asked, colours.Palette(road), "</title><i>@@view@@", "<miles>")
        looked = Looked(text)
        expect("tags of texts", [tag for tag, _ in looked.tags if tag in ("b", "i")], [])
        expect("how many scripts", len([tag for tag, _ in looked.tags if tag == "script"]), 3)
        _text, data = text, json.loads(looked.scripts[0])
        expect("titles", [band["title"] for band in data["bands"]], [one.title for one in asked])
        held = {value for band in data["bands"] for column in band["columns"] for value in column["values"]}
        expect("texts that are there", {"</script>", "<!--", "@@data@@"} <= held, True)
        if NODE:
            for svg in node(program, text, ["picture(%d, %d, %d, 900).svg()" % (r, *data["routes"][r][1:3]) for r in range(3)]):
                ElementTree.fromstring(svg)


# The script.


def rows_in_view_are_those_of_a_window(program):
    road, chance = random_network(program)
    with road:
        text, data = page_of(road, asked_of(road, Two="OVERLAY(RENAME(signs, num TO n), zones)", Known="DISSOLVE(zones, ())"))
        calls, wanted, changes = [], [], [changes_of(data, r) for r in range(len(data["routes"]))]
        for k in range(60):
            r = k % len(data["routes"])
            name, start, end, _referents = data["routes"][r]
            lo, hi = sorted(chance.sample(changes[r] if k % 2 else range(start, end + 1), 2)) if k > 5 else (start, end)
            for b, band in enumerate(data["bands"]):
                calls.append("book.table(%d, %d, %d, %d)" % (b, r, lo, hi))
                part = "" if (lo, hi) == (start, end) else " FROM %s TO %s" % (measure(lo), measure(hi))
                rows = list(road.select("WINDOW(%s, %s%s)" % (band["query"], name, part)))
                if band["kind"] == "POINT" and part and hi == end:  # the page has the points at a route's end too
                    rows += [row for row in road.select("WINDOW(%s, %s)" % (band["query"], name)) if row[1] == measure(end)]
                wanted.append([list(map(plain, row)) for row in rows])
        if NODE is None:
            return
        for call, got, rows in zip(calls, node(program, text, calls), wanted):
            expect(call, ordered(got["rows"]), ordered(rows))


def plain(part):
    return str(part) if isinstance(part, D) else part


def ordered(rows):
    return sorted(rows, key=lambda row: [(value is not None, str(value)) for value in row])


def the_cross_lists_what_holds_at_its_place(program):
    road, chance = random_network(program)
    with road:
        text, data = page_of(road)
        calls, wanted, changes = [], [], [changes_of(data, r) for r in range(len(data["routes"]))]
        for k in range(90):
            r = k % len(data["routes"])
            name, start, end, _referents = data["routes"][r]
            place = min(chance.choice([*changes[r], *(at - 1 for at in changes[r][1:]), chance.randrange(start, end)]), end - 1)
            for b, band in enumerate(data["bands"]):
                calls.append("book.rowsAt(%d, %d, %d).map((i) => book.values(%d, %d, i))" % (b, r, place, b, r))
                rows = road.select("WINDOW(%s, %s FROM %s TO %s)" % (band["query"], name, measure(place), measure(place + 1)))
                wanted.append([list(row[2 if band["kind"] == "POINT" else 3 :]) for row in rows])
            calls.append("book.relative(%d, %d)" % (r, place))
            wanted.append(road.ask("TRANSLATE %s %s AS RELATIVE" % (name, measure(place)))[0].split(" ")[-1])
        near = "book.rowsAt(0, 0, %d, 300).map((i) => book.rows(0, 0).starts[i])" % (data["routes"][0][1] + 200)
        points = [int(row[1] * 1000) for row in road.select("WINDOW(signs, R0)")]
        calls.append(near)
        wanted.append([at for at in points if abs(at - data["routes"][0][1] - 200) <= 300])
        if NODE is None:
            return
        for call, got, rows in zip(calls, node(program, text, calls), wanted):
            expect(call, got if isinstance(got, str) else ordered(map(listed, got)), rows if isinstance(rows, str) else ordered(map(listed, rows)))


def listed(row):
    return row if isinstance(row, list) else [row]


def the_cross_goes_from_change_to_change(program):
    if NODE is None:
        return
    road, chance = random_network(program)
    with road:
        text, data = page_of(road)
        calls, wanted = [], []
        for r, (_name, start, end, _referents) in enumerate(data["routes"]):
            places = changes_of(data, r)
            for place in [*chance.sample(range(start, end + 1), 20), *chance.sample(places, 20)]:
                calls += ["book.change(%d, %d, 1)" % (r, place), "book.change(%d, %d, -1)" % (r, place)]
                wanted.append(min((at for at in places if at > place), default=end))
                wanted.append(max((at for at in places if at < place), default=start))
        expect("changes", node(program, text, calls), wanted)


def csv_is_what_a_spreadsheet_reads(program):
    if NODE is None:
        return
    with random_network(program)[0] as road:
        text, data = page_of(road)
        name, start, end, _referents = data["routes"][1]
        calls = ["roadseg.csv(book.table(%d, 1, %d, %d))" % (b, start, end) for b in range(3)]
        for band, got in zip(data["bands"], node(program, text, calls)):
            wanted = io.StringIO()
            rows = road.select("WINDOW(%s, %s)" % (band["query"], name))
            csv.writer(wanted, lineterminator="\n").writerows([rows.columns, *rows])
            expect("CSV of %s" % band["title"], got, wanted.getvalue())


def views_stay_on_their_route(program):
    if NODE is None:
        return
    chance = random.Random(SEED)
    with network(program) as road:
        text, _data = page_of(road)
    route, calls = "{ start: 1000, end: 9000 }", []
    for _ in range(200):
        lo, hi = sorted(chance.sample(range(1_000, 9_001), 2))
        kept, factor = chance.uniform(lo, hi), chance.choice([0.01, 0.5, 1, 2, 100])
        calls.append("[%d, %d, %r, %r, roadseg.zoomed(%s, { from: %d, to: %d }, %r, %r)]" % (lo, hi, kept, factor, route, lo, hi, factor, kept))
    for lo, hi, kept, factor, view in node(program, text, calls):
        start, end = view["from"], view["to"]
        expect("whether %s is on the route" % view, 1_000 <= start < end <= 9_000 + 1e-6, True)
        length = min(max((hi - lo) * factor, 10), 8_000)
        expect("its length", math.isclose(end - start, length, rel_tol=1e-9), True)
        before, after = (kept - lo) / (hi - lo), (kept - start) / (end - start)
        is_kept = math.isclose(before, after, abs_tol=1e-6) or math.isclose(start, 1_000, abs_tol=1e-6) or math.isclose(end, 9_000, abs_tol=1e-6)
        expect("whether the place is kept", is_kept, True)
    calls = ["roadseg.panned(%s, { from: 2000, to: 3000 }, %d)" % (route, by) for by in (-5_000, -100, 100, 10_000)]
    calls += ["roadseg.placeOf(%s)" % json.dumps(words) for words in (" 1.5 ", "12", "0.001", "1.2345", "-1", "x", "1000000", "")]
    calls += ["[0, 1, 999, 1000, 102500, 999999999].map((at) => roadseg.measure(at) + ' ' + roadseg.shortMeasure(at))"]
    wanted = [{"from": lo, "to": lo + 1_000} for lo in (1_000, 1_900, 2_100, 8_000)]
    wanted += [1_500, 12_000, 1, None, None, None, None, None]
    wanted += [["0.000 0", "0.001 0.001", "0.999 0.999", "1.000 1", "102.500 102.5", "999999.999 999999.999"]]
    expect("others", node(program, text, calls), wanted)


def a_link_has_the_view_and_the_cross(program):
    if NODE is None:
        return
    with network(program) as road:
        text, data = page_of(road)
    [sr12] = [r for r, route in enumerate(data["routes"]) if route[0] == "SR12"]
    links = ["roadseg.linkOf('SR12', { from: 1000, to: 2500 }, 1700)", "roadseg.linkOf('SR12', { from: 1000, to: 2500 }, null)"]
    expect("links", node(program, text, links), ["#SR12/1.000/2.500/1.700", "#SR12/1.000/2.500"])
    whole, part = {"from": 0, "to": 14_250}, {"from": 1_000, "to": 2_500}
    for link, view, at in (
        ("#SR12/1.000/2.500/1.700", part, 1_700),
        ("#SR12/1/2.5", part, None),
        ("#SR12", whole, None),
        ("#SR12/x/y/z", whole, None),
        ("#SR12/3/2/20", whole, None),
    ):
        [got] = node(program, text, ["roadseg.readLink(book, %s)" % json.dumps(link)])
        expect(link, got, {"r": sr12, "view": view, "at": at})
    expect("links to nothing", node(program, text, ["roadseg.readLink(book, %s)" % json.dumps(link) for link in ("", "#", "#none", "#%E0%A4")]), [None] * 4)


def routes_and_referents_are_searched(program):
    if NODE is None:
        return
    with running(program, *("DEFINE ROUTE SR%d FROM 0 TO 1" % k for k in (1, 2, 10, 100)), "DEFINE ROUTE I95 FROM 0 TO 1") as road:
        road.execute("DEFINE REFERENT I95 BRIDGE_1 AT 0.5")
        text, _data = page_of(road)
        calls = ["book.search(%s).found.map((one) => one.text)" % json.dumps(words) for words in ("", "sr1", "1", " bridge ", "none")]
        wanted = [["I95", "SR1", "SR2", "SR10", "SR100"], ["SR1", "SR10", "SR100"], ["SR1", "SR10", "SR100", "I95 @BRIDGE_1 0.5"]]
        expect("what is found", node(program, text, calls), [*wanted, ["I95 @BRIDGE_1 0.5"], []])


# Large pages. The answers are prepared.


def dense(spans, points):
    chance = random.Random(SEED)
    lines = [("R", measure(k * 10), measure(k * 10 + 10), chance.choice(("a", "b", "c"))) for k in range(spans)]
    at = sorted(chance.randrange(1_000_000) for _ in range(points))
    definitions = ["DEFINE ROUTE R FROM 0 TO 1000", "DEFINE LINE TABLE t (a TEXT(9))", "DEFINE POINT TABLE u (b INT)"]
    definitions += ["DEFINE REFERENT R MARK%d AT %s" % (k, measure(k * 333)) for k in range(3_000)]
    return client_of_answers(definitions, {"t": lines, "u": [("R", measure(place), k % 90) for k, place in enumerate(at)]})


def large_rows():
    """The definitions and the rows of 400 routes with 100,000 spans: surfaces, years, and numbers that hardly repeat."""
    chance = random.Random(SEED)
    names = sorted("R%03d" % k for k in range(ROUTES))
    rows = {"pavement": [], "crashes": []}
    for name in names:
        cuts = [0, *sorted(chance.sample(range(1, 90_000), SPANS - 51)), 90_000]
        values = [(chance.choice(("asphalt", "concrete", "chip seal")), chance.choice((None, *range(1960, 2026)))) for _ in cuts]
        rows["pavement"] += [(name, measure(lo), measure(hi), *value) for lo, hi, value in zip(cuts, cuts[1:], values)]
        at = sorted(chance.randrange(90_001) for _ in range(50))
        rows["crashes"] += [(name, measure(place), chance.randrange(10**9), "report %d" % chance.randrange(10**6)) for place in at]
    definitions = ["DEFINE ROUTE %s FROM 0 TO 90" % name for name in names]
    definitions += ["DEFINE LINE TABLE pavement (surface TEXT(12), year INT)", "DEFINE POINT TABLE crashes (num INT, report TEXT(20))"]
    return definitions, rows


def a_large_network_is_a_small_page(_program):
    with client_of_answers(*large_rows()) as road:
        asking, answers = lines_run(lambda: [road.columns(name) for name in ("crashes", "pavement")])
        count = sum(len(one["route"]) for one in answers)
        expect("rows", count, ROUTES * SPANS)
        making, (text, _data) = lines_run(lambda: page_of(road))
        expect("whether %d bytes are few" % len(text.encode()), len(text.encode()) <= LARGEST, True)
        expect("whether %d lines of Python are few" % (making - asking), making - asking <= MOST_LINES * count, True)


# The program.


def file_of_network(program):
    file = program.created()
    expect("the network", program.run("run", "--file", file, sent=bytes_at(NETWORK)).status, 0)
    return file


def paged(program, *words):
    variables = {**os.environ, "PYTHONPATH": CLIENTS, "PYTHONHASHSEED": "1"}
    words = [sys.executable, "-m", "roadseg.page", *words]
    return subprocess.run(words, capture_output=True, timeout=LONGEST, env=variables, cwd=program.folder)


def the_program_of_pages_tells_what_fails(program):
    file = file_of_network(program)
    words = [file, "--program", program.path]
    whole = paged(program, *words)
    expect("a page", (whole.returncode, whole.stderr, whole.stdout.endswith(b"</html>\n")), (0, b"", True))
    out = program.file("out.html")
    expect("a page in a file", paged(program, *words, "--out", out).returncode, 0)
    with open(out, "rb") as made:
        expect("and on standard output", made.read() == whole.stdout, True)
    for more, said in (
        (["--query", "X=none"], b"page: 21 no such name: 0 SELECT none\n"),
        (["--table", "none"], b"page: no table none: there are crashes, mowing, pavement, speed, traffic, work_zones\n"),
        (["--table", "speed", "--by", "speed=x"], b"page: speed has no column x: it has mph\n"),
        (["--table", "speed", "--by", "x=mph"], b"page: no band x: there are speed\n"),
        (["--colour", "surface=#123456"], b"page: 'surface=#123456' is no colour: one is like surface:asphalt=#4477AA\n"),
        (["--colour", "x:y=#123456"], b"page: no table has a column x, for which a colour is given\n"),
        (["--session", "64"], b"page: 64 is no session: 0 to 63 are\n"),
    ):
        done = paged(program, *words, *more)
        expect(" ".join(more), (done.returncode, done.stdout, done.stderr), (1, b"", said))
    missing = paged(program, program.file("missing"), "--program", program.path)
    expect("a missing file", (missing.returncode, missing.stdout, missing.stderr.startswith(b"page: roadseg: cannot open file")), (1, b"", True))
    with network(program) as road:
        road.learn(["DROP TABLE crashes", "DEFINE LINE TABLE crashes (num INT, severity TEXT(8))"])
        fault = expect_error(ValueError, page_of, road)
        expect("definitions of another file", str(fault), "the rows of crashes are not those of what is defined")
    for more in ([], [file, "--port", "1"], ["--port", "1"], [file, "--query", "x"], [file, "--by", "x"]):
        expect(" ".join(more), paged(program, *more).returncode, 2)


def a_page_of_a_server_is_that_of_its_file(program):
    file, dump = file_of_network(program), program.file("roads.txt")
    wanted = paged(program, file, "--program", program.path, "--title", "T")
    with open(dump, "wb") as held:
        held.write(program.run("dump", "--file", file, "--definitions").out)
    with serving(program, file, 1) as server:
        done = paged(program, "--port", str(server.port), "--definitions", dump, "--title", "T")
        server.expect_end()
    expect("a page", (done.returncode, done.stderr, done.stdout == wanted.stdout), (0, b"", True))


PAGE_TESTS = [
    a_page_knows_what_select_answers,
    colours_of_a_page_are_those_of_diagrams,
    a_page_of_nothing_is_a_page,
    a_page_needs_no_network_and_no_mouse,
    texts_of_a_page_are_escaped,
    rows_in_view_are_those_of_a_window,
    the_cross_lists_what_holds_at_its_place,
    the_cross_goes_from_change_to_change,
    csv_is_what_a_spreadsheet_reads,
    views_stay_on_their_route,
    a_link_has_the_view_and_the_cross,
    routes_and_referents_are_searched,
    a_large_network_is_a_small_page,
    the_program_of_pages_tells_what_fails,
    a_page_of_a_server_is_that_of_its_file,
]
