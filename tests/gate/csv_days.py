#!/usr/bin/env python3
"""The CSV files of an office's day, taken in by one command each and out again; scripts/test.sh runs it.

    csv_days.py [--program PATH] [SEED ..]

A generator with a seed writes them as offices do: with a byte order mark, in UTF-16 or in Latin-1, with CRLF, semicolons, quotes, empty
fields, routes such as `I-95` and `US 40`, four decimals, `2012.0`, duplicates, overlaps, and records that a clerk spoilt, which are
mended where `--rejects` has them and go in again. What is told, and what the tables then hold, is reckoned here by Python's decimal
numbers. Day 1 has 400 routes, 100,920 pavement records, 20,000 crashes, and 1,000 signs in each encoding; day 2 has 40 routes and a
fortieth of the records. One record in fifty is spoilt, of the signs one in ten.
"""

import contextlib
import os
import random
import re
import shutil
import subprocess
import sys
import tempfile
from decimal import ROUND_HALF_EVEN, Decimal
from functools import lru_cache
from typing import NamedTuple

import folders  # noqa: F401, the path of modules
from harness import parser_of
from programs import PROGRAM

LONGEST = 120  # seconds
MARK = b"\xef\xbb\xbf"  # a byte order mark
TOLD = 20  # how many faults of a kind are told
SHOWN = 10  # how many refused lines of a number `--report` shows
SPOILT = 50  # one record of so many is spoilt, of signs one of OFTEN
OFTEN = 10
REASON = "left_out_because"
ROUTES = ["I-95", "US 40", "SR 12", "101", "CR-7/A", "I-95 Bus.", "Select", "SELECT", "Élan", "9th St", "US 1 & 9"]
FORMS = ["I-%d", "US %d", "SR %d", "%d", "CR-%d/A", "%dth St", "Co. Rd. %d", "Rue Élan %d", "US %d & 9"]
NETWORK = "DEFINE LINE TABLE network (class TEXT(20))"
PAVEMENT = "DEFINE LINE TABLE pavement (surface TEXT(20), built INT, width INT)"
CRASHES = "DEFINE POINT TABLE crashes (severity TEXT(20), cars INT)"
NUMBERED = "DEFINE POINT TABLE numbered (nr INT, severity TEXT(20), cars INT)"
SPEEDS = "DEFINE LINE TABLE speeds (mph INT, sign TEXT(20))"
SURFACES = ["asphalt", "Asphalt, hot mix", 'so-called "seal"', "O'Brien's mix", "béton", " gravel ", "", None]
SEVERITIES = ["injury", "none; unknown", 'a "near" miss', "zone blessée", None]
SPOILS = [  # the field, what a clerk writes there, what is told of it, and its kind
    (0, None, "an empty field is not a name", "not a name"),
    (0, "", "an empty field is not a name", "not a name"),
    (1, "mile 7", "mile 7 is not a position", "not a position"),
    (1, "-0.5", "-0.5 is below 0", "below 0"),
]
KINDS = [  # in the order of their counts
    "no such field", "not text", "not a name", "not a position", "not a number", "not a whole number", "too many decimals", "below 0", "more fields than the header",
    "one name of two texts",
]


class Unexpected(Exception):
    """The program did something else."""


class Sizes(NamedTuple):
    """How much a day has: pavement records beside those that are there twice, and signs in each encoding."""

    routes: int
    pavement: int
    twice: int
    crashes: int
    signs: int


class Fact(NamedTuple):
    """A row on a route, in thousandths from one measure to another, or at one."""

    route: str
    begin: int
    end: int
    row: tuple


class Fault(NamedTuple):
    """A spoilt record: its fields then, the column of the one that is wrong, the words for it, and their kind."""

    fields: list
    column: str
    words: str
    kind: str

    def reason(self):
        """What is told of it."""
        return "%s: %s" % (self.column, self.words) if self.column else self.words

    def told(self, number):
        """What is told of it where it is the record of this number."""
        return "record %d, line %d%s%s" % (number, number + 1, ", " if self.column else ": ", self.reason())


class Entry(NamedTuple):
    """A record: its fields as they are meant, what they say, how many of its measures are rounded, and how it is spoilt, where it is."""

    fields: list
    fact: Fact
    rounded: int
    fault: Fault | None


DAYS = {1: Sizes(400, 100_000, 920, 20_000, 1_000), 2: Sizes(40, 2_500, 50, 500, 200)}


def expect(what, got, wanted):
    """Compares what was got with what is wanted."""
    if got != wanted:
        raise Unexpected("%s:\n got    %.900r\n wanted %.900r" % (what, got, wanted))


@lru_cache(maxsize=None)
def made_name(text):
    """The name that a route or a column is made with `--names`."""
    name = "".join(byte if re.match("[A-Za-z0-9_]", byte) else "_" for byte in text.encode().decode("latin-1"))
    name = (name if re.match("[A-Za-z]", name) else "R" + name)[:32]
    return name + "_" if name in ("FROM", "SELECT") else name


def names_of_routes(chance, count):
    """Names of routes as offices write them, each of which is made another name."""
    names = {made_name(name): name for name in ROUTES}
    while len(names) < count:
        name = chance.choice(FORMS) % chance.randrange(1, 1_000)
        names.setdefault(made_name(name), name)
    return list(names.values())


def other_text(route):
    """Another text of which the route's name is made, where one comes to mind."""
    return re.sub("[ /&-]", lambda found: "-" if found[0] == " " else " ", route, count=1)


def measure_of(text):
    """The thousandths that a measure says, and whether it was rounded."""
    exact = Decimal(text)
    nearest = exact.quantize(Decimal("0.001"), ROUND_HALF_EVEN)
    return int(nearest * 1000), exact != nearest


def plain_measure(thousandths):
    """A measure with three decimals."""
    return "%d.%03d" % divmod(thousandths, 1000)


def office_measure(chance, thousandths):
    """A measure as an office may write it, with a fourth decimal at times."""
    text = plain_measure(thousandths)
    whole, part = divmod(thousandths, 1000)
    return [text, text + "0", text + "000", text + chance.choice("123456789"), "+" + text, text if whole else text[1:], text if part else "%d.0000" % whole][chance.randrange(7)]


def quoted(text, separator, always=False):
    """A text as a field: NULL is an empty one, and an empty text stands between marks."""
    if text is None:
        return ""
    if always or text == "" or separator in text or '"' in text:
        return '"%s"' % text.replace('"', '""')
    return text


def csv_of(header, records, separator=",", ending="\r\n"):
    """Fields as they stand, as a text of CSV."""
    return "".join(separator.join(fields) + ending for fields in [header, *records])


class Sheet:
    """A file of records, some of which are spoilt."""

    def __init__(self, chance, columns, spoils, separator=",", marks=False, spoilt=SPOILT):
        """An empty one, with marks round all fields or where they have to be. One record of so many is spoilt, by what may be wrong with any, or with one of it."""
        self.chance, self.columns, self.separator, self.marks, self.spoilt = chance, columns, separator, marks, spoilt
        self.spoils = [*SPOILS, *spoils]
        self.header = [self.field(column) for column in columns]
        self.entries, self.accepted = [], set()

    def field(self, text):
        """A text as a field."""
        return quoted(text, self.separator, self.marks and text is not None)

    def add(self, fields, fact, rounded=0):
        """Adds a record, which may be spoilt. What is rounded is not, so that the counts of those are of records that go in."""
        fault = None if rounded or self.chance.randrange(self.spoilt) else self.fault(fields, fact)
        self.entries.append(Entry(fields, fact, rounded, fault))
        if not fault:
            self.accepted.add(fact.route)

    def fault(self, fields, fact):
        """A record with one thing wrong."""
        way, other = self.chance.randrange(6), other_text(fact.route)
        if way == 0:
            return Fault(fields[:-1], self.columns[-1], "no such field", "no such field")
        if way == 1:
            words = "%d fields, where the header has %d; the first past it is x" % (len(fields) + 1, len(self.columns))
            return Fault([*fields, "x"], "", words, "more fields than the header")
        if way == 2 and fact.route in self.accepted and other != fact.route:
            return Fault([self.field(other), *fields[1:]], self.columns[0], "%s would be %s, as %s is" % (other, made_name(other), fact.route), "one name of two texts")
        place, text, words, kind = self.chance.choice(self.spoils)
        return Fault([*fields[:place], self.field(text), *fields[place + 1 :]], self.columns[place], words, kind)

    def text(self, ending="\r\n"):
        """The file as it comes."""
        return csv_of(self.header, [entry.fault.fields if entry.fault else entry.fields for entry in self.entries], self.separator, ending)

    def left_out(self):
        """The records that are spoilt."""
        return [entry for entry in self.entries if entry.fault]

    def with_reasons(self, records, ending):
        """The header and some records, each of which has all columns, and the reasons after them."""
        rows = [[*fields, *[""] * (len(self.columns) - len(fields)), quoted(reason, self.separator, True)] for fields, reason in records]
        return csv_of([*self.header, '"%s"' % REASON], rows, self.separator, ending)

    def rejects(self):
        """What the file of `--rejects` is to have."""
        return self.with_reasons([(entry.fault.fields, entry.fault.reason()) for entry in self.left_out()], "\n")

    def mended(self):
        """That file, mended."""
        return self.with_reasons([(entry.fields, entry.fault.reason()) for entry in self.left_out()], "\r\n")

    def told(self):
        """What is told of the records that are spoilt."""
        lines, kinds = [], {}
        for number, entry in enumerate(self.entries, 1):
            if entry.fault:
                kinds[entry.fault.kind] = kinds.get(entry.fault.kind, 0) + 1
                if kinds[entry.fault.kind] <= TOLD:
                    lines.append(entry.fault.told(number))
        counts = ["%s: %d%s" % (kind, kinds[kind], ", of which %d are told" % TOLD if kinds[kind] > TOLD else "") for kind in KINDS if kind in kinds]
        return [*lines, "records left out: %d" % sum(kinds.values()), *counts] if kinds else []

    def facts(self):
        """What all records say, once they are mended."""
        return [entry.fact for entry in self.entries]

    def numbered_facts(self):
        """The same, with the number of each record in its row: of one that was mended its number in the file of such."""
        mended = [entry for entry in self.entries if entry.fault]
        numbers = {id(entry): number for entries in (self.entries, mended) for number, entry in enumerate(entries, 1)}
        return [entry.fact._replace(row=(numbers[id(entry)], *entry.fact.row)) for entry in self.entries]


class Day:
    """An office's file, and its sheets of one day."""

    def __init__(self, seed, program, folder):
        self.chance, self.sizes, self.program, self.folder = random.Random(seed), DAYS[seed], program, folder
        self.ends = {name: self.chance.randrange(5_000, 250_000) for name in names_of_routes(self.chance, self.sizes.routes)}
        self.routes = list(self.ends)
        self.file = self.created("office.seg")

    def path(self, name):
        """The path of a file of the day."""
        return os.path.join(self.folder, name)

    def run(self, *words, data=b""):
        """Runs the program: its status, standard output and standard error."""
        done = subprocess.run([self.program, *words], input=data, capture_output=True, timeout=LONGEST)
        return done.returncode, done.stdout, done.stderr

    def created(self, name):
        """The path of an empty file."""
        expect("create", self.run("create", "--file", self.path(name)), (0, b"", b""))
        return self.path(name)

    def stretch(self, route):
        """The ends of a stretch of a route, so that rounding leaves it there, with duplicates and overlaps."""
        last = self.ends[route] - 1
        begin = self.chance.randrange(0, last - 20, 10)
        return begin, min(last, begin + self.chance.choice([20, 500, 500, 4_000]))

    def sheet(self, columns, spoils=(), **form):
        """An empty sheet."""
        return Sheet(self.chance, columns, spoils, **form)

    def lines_of(self, what, data, words, told):
        """The lines that `csv` makes of a file, of which this is told."""
        status, lines, errors = self.run("csv", *words, data=data)
        wanted = "".join("roadseg: %s\n" % line for line in told)
        expect("what is told of %s" % what, (errors.decode(), status), (wanted, int(any("left out" in line for line in told))))
        return lines

    def load(self, what, lines, file=None):
        """Lines go in, all of which are accepted."""
        status, _, errors = self.run("run", "--file", file or self.file, "--bail", data=lines)
        expect("the load of %s" % what, (status, errors), (0, b""))

    def left_lines(self, what, sheet, words, data):
        """The lines of a sheet that go in at once; what is left out is in the file of `--rejects`."""
        left, rounds = self.path("left.csv"), "--round" in words
        with contextlib.suppress(FileNotFoundError):
            os.remove(left)
        told = [*sheet.told(), *(["measures rounded: %d" % sum(entry.rounded for entry in sheet.entries)] if rounds else [])]
        lines = self.lines_of(what, data, [*words, "--rejects", left], told)
        with open(left, encoding="utf-8", newline="") as rows:
            expect("what was left out of %s" % what, rows.read(), sheet.rejects() if sheet.left_out() else "")
        return lines

    def mended_lines(self, what, sheet, words):
        """The lines of what was left out, once it is mended."""
        told = ["measures rounded: 0"] if "--round" in words else []
        words = [word for word in words if word != "--latin1"]
        if "--names-file" in words:
            words[words.index("--names-file") + 1] = self.path("more_names.csv")
        return self.lines_of("%s, mended" % what, sheet.mended().encode(), [*words, "--no-define"], told)

    def taken_in(self, what, sheet, words, data):
        """The lines of a sheet, which goes in by one command, and what was left out by a second one."""
        lines = self.left_lines(what, sheet, words, data)
        self.load(what, lines)
        mended = self.mended_lines(what, sheet, words)
        self.load("%s, mended" % what, mended)
        return lines + mended


def number_of(row):
    """A value as a record has it."""
    return "" if row is None else quoted(row, ",") if isinstance(row, str) else str(row)


def sorting(fact):
    """What facts are sorted by, so that those of one row on a route follow one another."""
    return fact.route, [(value is not None, value) for value in fact.row], fact.begin, fact.end


def runs_of(facts):
    """The stretches of facts, joined where those of one row touch or overlap."""
    joined = []
    for fact in sorted(set(facts), key=sorting):
        last = joined[-1] if joined else None
        if last and (last.route, last.row) == (fact.route, fact.row) and fact.begin <= last.end and fact.begin < fact.end:
            joined[-1] = last._replace(end=max(last.end, fact.end))
        else:
            joined.append(fact)
    return joined


def record_of(fact):
    """The record of an answer that says a fact."""
    places = [plain_measure(place) for place in ([fact.begin, fact.end] if fact.begin < fact.end else [fact.begin])]
    return ",".join([made_name(fact.route), *places, *map(number_of, fact.row)])


def comes_out(day, table, header, facts, define, file=None):
    """What a table holds comes out as CSV, by `ask` and by `run --csv`, and goes in again."""
    question, file = "SELECT %s" % table, file or day.file
    status, out, errors = day.run("ask", "--file", file, question)
    expect("the end of %s" % table, (status, errors), (0, b""))
    lines = out.decode().split("\n")
    expect("the header of %s" % table, (lines[0], lines[-1]), (header, ""))
    wanted = sorted(map(record_of, runs_of(facts)))
    if sorted(lines[1:-1]) != wanted:  # which two sets differ tells more than two long lists
        expect("the records of %s" % table, sorted(set(lines[1:-1]) ^ set(wanted)), ["none that is only in one"])
    expect("%s by run" % table, day.run("run", "--csv", "--file", file, data=("0 %s\n" % question).encode()), (0, out, b""))
    again = day.created("again_%s.seg" % table)
    routes = [line for line in day.run("dump", "--definitions", "--file", file)[1].splitlines(True) if line.startswith(b"0 DEFINE ROUTE ")]
    day.load("%s again" % table, b"".join(routes) + day.lines_of("%s again" % table, out, [define], []), again)
    expect("%s out again" % table, day.run("ask", "--file", again, question), (0, out, b""))


def check_network(day):
    """The office's own table of routes, with marks round all fields: true ends, and a table by which totals go by route."""
    sheet = day.sheet(["Route", "Begin MP", "End MP", "Class"], [(2, "end", "end is not a position", "not a position")], marks=True)
    for name, end in day.ends.items():
        kind = day.chance.choice(["local", "state, primary", 'the "old" road'])
        fields = [name, "0.0000", plain_measure(end) + "0", kind]
        sheet.add([sheet.field(field) for field in fields], Fact(name, 0, end, (kind,)))
    words = [NETWORK, "--names", "--routes", "--from", "Begin MP", "--to", "End MP"]
    lines = day.taken_in("the network", sheet, words, MARK + sheet.text().encode())
    defined = ["0 DEFINE ROUTE %s FROM 0.000 TO %s" % (made_name(name), plain_measure(end)) for name, end in day.ends.items()]
    expect("the routes", sorted(line for line in lines.decode().splitlines() if "DEFINE ROUTE" in line), sorted(defined))
    comes_out(day, "network", "route,from,to,class", sheet.facts(), NETWORK)


def add_pavement(day, sheet):
    """A record of a survey."""
    route, separator = day.chance.choice(day.routes), sheet.separator
    begin, end = (office_measure(day.chance, place) for place in day.stretch(route))
    surface, built, width = day.chance.choice(SURFACES), day.chance.choice([None, 1998, 2012]), day.chance.choice([None, 100, 115])
    fields = [
        quoted(day.chance.choice(["%s", "%s", "%s ", " %s"]) % route, separator), begin, end, quoted(surface, separator, day.chance.randrange(2) == 0 and surface is not None),
        "" if built is None else day.chance.choice(["%d", "%d.0", "+%d."]) % built, "" if width is None else "%d.%d" % divmod(width, 10),
    ]
    (first, cut), (last, cut_too) = measure_of(begin), measure_of(end)
    sheet.add(fields, Fact(route, first, last, (surface, built, width)), cut + cut_too)


def check_pavement(day):
    """A survey with four decimals, years such as 2012.0, widths in tenths, blanks round names, duplicates and overlaps."""
    spoils = [(3, "\x07", "? is not text", "not text"), (4, "2012.5", "2012.5 is not a whole number", "not a whole number"), (5, "wide", "wide is not a number", "not a number")]
    sheet = day.sheet(["RTE", "FROM", "to", "Surface", "Year built", "Width, ft"], spoils)
    for _ in range(day.sizes.pavement):
        add_pavement(day, sheet)
    for entry in sheet.entries[: day.sizes.twice]:
        sheet.add(*entry[:3])
    names = day.path("names.csv")
    words = [PAVEMENT, "--names-file", names, "--round", "--route", "rte", "--column", "built=Year built", "--column", "width=Width, ft", "--scale", "width=10"]
    lines = day.left_lines("the pavement", sheet, words, MARK + sheet.text().encode())
    with open(names, encoding="utf-8") as rows:
        columns = ['"%s",%s,column' % (column, made_name(column)) for column in sheet.columns]
        routes = sorted((made_name(route), '"%s",%s,route' % (route, made_name(route))) for route in sheet.accepted)
        expect("the names that were made", rows.read().splitlines(), ["old,new,what", *columns, *(row for _, row in routes)])
    day.load("the pavement", lines)
    day.load("the pavement, mended", day.mended_lines("the pavement", sheet, words))
    comes_out(day, "pavement", "route,from,to,surface,built,width", sheet.facts(), PAVEMENT)
    lengths = ["%s,%s" % (number_of(surface), plain_measure(covered(sheet.facts(), surface))) for surface in SURFACES]
    status, out, errors = day.run("ask", "--file", day.file, "TOTAL pavement BY (surface)")
    expect("how long each surface is", (status, sorted(out.decode().splitlines()), errors), (0, sorted(["surface,length", *lengths]), b""))


def covered(facts, surface):
    """How many thousandths a surface covers."""
    return sum(run.end - run.begin for run in runs_of(fact._replace(row=()) for fact in facts if fact.row[0] == surface))


def check_crashes(day):
    """Points, parted by semicolons; by their numbers, in a file of UTF-16, equal ones stay apart."""
    spoils = [(1, "1.2345", "1.2345 has four decimals", "too many decimals"), (3, "1.5", "1.5 is not a whole number", "not a whole number")]
    sheet = day.sheet(["Route", "MP", "Severity", "Cars"], spoils, separator=";")
    for _ in range(day.sizes.crashes):
        route = day.chance.choice(day.routes)
        place, severity, cars = day.stretch(route)[0] // 1000 * 1000, day.chance.choice(SEVERITIES), day.chance.randrange(1, 4)
        sheet.add([quoted(route, ";"), plain_measure(place), quoted(severity, ";"), "%d.0" % cars], Fact(route, place, place, (severity, cars)))
    words = ["--names", "--separator", ";", "--at", "mp"]
    day.taken_in("the crashes", sheet, [CRASHES, *words], sheet.text("\n").encode())
    comes_out(day, "crashes", "route,at,severity,cars", sheet.facts(), CRASHES)
    day.taken_in("the numbered crashes", sheet, [NUMBERED, *words, "--number", "nr"], b"\xff\xfe" + sheet.text().encode("utf-16-le"))
    facts = set(sheet.numbered_facts())
    comes_out(day, "numbered", "route,at,nr,severity,cars", facts, NUMBERED)
    places = len({(fact.route, fact.begin) for fact in facts})
    total = "length,weight,sum\n%d,%d,%d\n" % (places, len(facts), sum(fact.row[0] for fact in facts))
    expect("how many crashes", day.run("ask", "--file", day.file, "TOTAL numbered BY () SUM nr"), (0, total.encode(), b""))


def signs(day, stations=False):
    """A sheet of signs, with measures or with stations of a hundred units."""
    spoils = [(3, "55.5", "55.5 is not a whole number", "not a whole number"), (2, "2.1622", "2.1622 has four decimals", "too many decimals")]
    sheet = day.sheet(["route", "from", "to", "mph", "sign"], spoils, spoilt=OFTEN)
    for _ in range(day.sizes.signs):
        route = day.chance.choice(day.routes)
        begin, end = day.stretch(route)
        mph, sign = day.chance.choice([25, 55, None]), day.chance.choice(["école", "limite, nuit", None])
        places = ["%d+%s" % (place // 100_000, plain_measure(place % 100_000)) if stations else plain_measure(place) for place in (begin, end)]
        sheet.add([quoted(route, ","), *places, "" if mph is None else str(mph), quoted(sign, ",")], Fact(route, begin, end, (mph, sign)))
    return sheet


def check_signs(day):
    """Signs in each encoding, and in stations."""
    ways = [("utf-8", MARK, []), ("utf-16-le", b"\xff\xfe", []), ("utf-16-be", b"\xfe\xff", []), ("latin-1", b"", ["--latin1"]), ("utf-8", b"", ["--stations", "100"])]
    for number, (way, mark, words) in enumerate(ways):
        table, sheet = "speeds%d" % number, signs(day, "--stations" in words)
        define = SPEEDS.replace("speeds", table)
        day.taken_in("signs in %s" % way, sheet, [define, "--names", *words], mark + sheet.text().encode(way))
        comes_out(day, table, "route,from,to,mph,sign", sheet.facts(), define)


def refusal_of(fact, extents):
    """How a row is refused where the routes are as they were met; not at all where it lies on one."""
    if fact.route not in extents:
        return "20 no such route"
    return None if extents[fact.route][0] <= fact.begin and fact.end <= extents[fact.route][1] else "30 outside the route"


def told_of(refusals, lines, shown):
    """What a report tells of lines, so many refused ones of a number among it."""
    told, counts = [], {}
    for number, (refusal, line) in enumerate(zip(refusals, lines), 1):
        if refusal:
            counts[refusal] = counts.get(refusal, 0) + 1
            if counts[refusal] <= shown:
                told.append("line %d: ERR %s: %s" % (number, refusal, line))
    told += ["lines answered: %d, refused: %d" % (len(refusals), sum(counts.values())), *("refused %s: %d" % (refusal, counts[refusal]) for refusal in sorted(counts))]
    return "".join("roadseg: %s\n" % line for line in told).encode()


def check_survey(day):
    """Signs on routes that are defined as they are met: what is mended later may lie outside its route, or on none, and is counted."""
    define, sheet, file = SPEEDS.replace("speeds", "survey"), signs(day), day.created("survey.seg")
    words, extents = [define, "--names", "--latin1", "--routes"], {}
    lines = day.left_lines("the survey", sheet, words, sheet.text().encode("latin-1"))
    for fact in (entry.fact for entry in sheet.entries if not entry.fault):
        least, greatest = extents.get(fact.route, (fact.begin, fact.end))
        extents[fact.route] = min(least, fact.begin), max(greatest, fact.end)
    defined = ["0 DEFINE ROUTE %s FROM %s TO %s" % (made_name(name), *map(plain_measure, ends)) for name, ends in extents.items()]
    expect("the routes that were met", sorted(line for line in lines.decode().splitlines() if "DEFINE ROUTE" in line), sorted(defined))
    day.load("the survey", lines, file)
    mended = day.mended_lines("the survey", sheet, words[:-1])
    refusals, other = [refusal_of(entry.fact, extents) for entry in sheet.left_out()], shutil.copy(file, day.path("other.seg"))
    status, texts = int(any(refusals)), mended.decode().splitlines()
    got = day.run("run", "--file", file, "--report", data=mended)
    expect("the report", (got[0], got[2]), (status, told_of(refusals, texts, SHOWN)))
    expect("the report beside CSV", day.run("run", "--csv", "--file", other, "--report", data=mended), (status, b"", told_of(refusals, texts, len(texts))))
    facts = [entry.fact for entry in sheet.entries if not entry.fault or not refusal_of(entry.fact, extents)]
    comes_out(day, "survey", "route,from,to,mph,sign", facts, define, file)


CHECKS = [check_network, check_pavement, check_crashes, check_signs, check_survey]


def main():
    """Runs the checks of each day, and gives the exit status."""
    parser = parser_of(__doc__, PROGRAM)
    parser.add_argument("seeds", nargs="*", type=int, choices=[[], *DAYS], metavar="SEED")
    chosen, failed = parser.parse_args(), 0
    days = chosen.seeds or list(DAYS)
    for seed in days:
        with tempfile.TemporaryDirectory() as folder:
            try:
                day = Day(seed, chosen.program, folder)
                for check in CHECKS:
                    check(day)
            except Unexpected as wrong:
                failed += 1
                print("csv_days: seed %d: %s" % (seed, wrong))
    print("%d passed, %d failed" % (len(days) - failed, failed))
    return 1 if failed else 0


if __name__ == "__main__":
    sys.exit(main())
