"""`roadseg csv`, `roadseg explain`, `run --bail` and `run --report`; scripts/test.sh runs it.

The module `csv` of Python reads the same records as the program, and the lines that it gives have to be those of the program, byte
by byte: of a hundred thousand pseudo-random records, of which some are left out, each of which is told. Measures and numbers as offices
write them are reckoned by Python's decimal numbers.
"""

import csv
import io
import os
import random
import re
import string
import subprocess
import sys
import tempfile
import time
from decimal import ROUND_HALF_EVEN, Decimal

import folders  # noqa: F401, the path of modules
import refusing
from programs import PROGRAM, ROOT

LANGUAGE = os.path.join(ROOT, "docs", "LANGUAGE.md")
DEFINE = "DEFINE LINE TABLE pavement (surface TEXT(12), year INT)"
POINTS = "DEFINE POINT TABLE crash (year INT)"
RECORDS = 100_000
LONGEST = 120  # seconds
MARK = b"\xef\xbb\xbf"  # a byte order mark
LETTERS = "abc XYZ'',\"é;"


class Unexpected(Exception):
    """The program did something else."""


def expect(what, got, wanted):
    """Compares what was got with what is wanted."""
    if got != wanted:
        raise Unexpected("%s:\n got    %.600r\n wanted %.600r" % (what, got, wanted))


def run(*words, data=b""):
    """Runs the program: its status, standard output and standard error."""
    done = subprocess.run([PROGRAM, *words], input=data, capture_output=True, timeout=LONGEST)
    return done.returncode, done.stdout, done.stderr


def some_text(chance):
    """A text of up to 12 characters."""
    return "".join(chance.choice(LETTERS) for _ in range(chance.randrange(13)))


def some_position(chance, thousandths):
    """A position in one of the methods of location, with blanks where a line may have them."""
    way = chance.randrange(10)
    if way < 4:
        return "%.3f" % (thousandths / 1000)
    if way > 7:
        return office_measure(chance, thousandths)
    blank = chance.choice(["", "", " "])
    if way == 4:
        return blank + "%d" % (thousandths // 1000) + blank
    if way == 5:
        return "%s.5%s%%" % (chance.randrange(100), blank)
    if way == 6:
        return "@BRIDGE" + blank
    number = office_measure(chance, thousandths // 1000)
    if chance.randrange(4):
        number = number.replace("+", "").replace("-", "")
    return "@Exit_%d%s%s%s%s" % (chance.randrange(30), blank, chance.choice("+-"), blank, number)


def office_measure(chance, thousandths):
    """A measure as an office may write it: a sign, leading zeros, no digit before the point or after it, more decimals."""
    whole, part = divmod(thousandths, 1000)
    digits = str(whole) if whole or chance.randrange(2) else ""
    decimals = "%03d" % part
    way = chance.randrange(4)
    if way == 0:
        decimals += "0" * chance.randrange(5)
    elif way == 1:
        decimals += "".join(chance.choice("0459") for _ in range(chance.randrange(25)))
    elif way == 2:
        decimals = decimals.rstrip("0")
    else:
        decimals = ""
        digits = digits or "0"
    point = "." if decimals or chance.randrange(2) else ""
    sign, zeros = chance.choice(["", "", "+", "-"]), chance.choice(["", "", "0", "0000000"])
    blank = chance.choice(["", " ", "  "])
    return blank + sign + (zeros if digits else "") + (digits or "" if decimals else digits or "0") + point + decimals + blank


def some_record(chance, is_measured=False):
    """The fields of a record, in the order route, from, to, surface, year; some of them are wrong."""
    begin = chance.randrange(0, 900_000)
    end = begin + chance.randrange(1, 90_000)
    ends = ["%.3f" % (place / 1000) if is_measured else some_position(chance, place) for place in (begin, end)]
    fields = ["SR%d" % chance.randrange(1, 40), *ends]
    number = chance.randrange(1900, 2100)
    year = chance.choice(["", str(number), "-%d" % chance.randrange(10), "%d.0" % number, "+%d." % number, "0%d.000" % number])
    fields += [some_text(chance), year]
    if chance.randrange(50) == 0:
        place = chance.choice([0, 1, 2, 4])
        fields[place] = {
            0: chance.choice(["9!", "", "SELECT", "x" * 33]),
            1: chance.choice(["1.2.3", "1.2345", "101%", "1000000", "@", "@B+"]),
            2: chance.choice(["", "-1", "@A*2", "5%+1"]),
            4: chance.choice(["x", "1.5", "9" * 13, "+ 1", "1 2", "1000000000001.0", "-.50", "1e3", "."]),
        }[place]
    return fields


COUNTS = {4: "four", 5: "five", 6: "six", 7: "seven", 8: "eight", 9: "nine"}


def shown(field):
    """A field as it is shown in what is told: its first 60 bytes up to a whole character, with `?` for each that is no printable text."""
    data = field.encode(errors="surrogateescape")
    end = len(data)
    if end > 60:
        end = next((end for end in range(60, 0, -1) if data[end] & 0xC0 != 0x80), 60)
    text = data[:end].decode(errors="surrogateescape")
    return re.sub("[\0-\x1f\x7f\udc80-\udcff]", "?", text) + (".." if end < len(data) else "")


def measure_of(field, rounds):
    """The measure that an office wrote, in the text of a line, and whether it was rounded; or the words for what is wrong."""
    field = field.strip(" ")
    if not re.fullmatch(NUMBER, field):
        past = re.fullmatch(r"0*([0-9]+(?:\.[0-9]{1,7})?) *%", field)
        return "is more than 100%" if past and Decimal(past[1]) > 100 else "is not a position"
    exact = Decimal(field)
    if field.startswith("-"):
        return "is below 0"
    nearest = exact.quantize(Decimal("0.001"), ROUND_HALF_EVEN)
    if exact >= 1_000_000 or rounds and nearest >= 1_000_000:
        return "is past 999999.999"
    if exact == nearest or rounds:
        return ("%.3f" % nearest, exact != nearest)
    count = len(field.partition(".")[2].rstrip("0"))
    return "has %s decimals" % COUNTS.get(count, count)


def position_of(field, rounds):
    """The position that a field says, in the text of a line, and whether it was rounded; or the words for what is wrong."""
    if re.fullmatch(POSITION, field.replace(" ", "")) and not re.search(r"[0-9.] +[0-9.]", field):
        return (field.replace(" ", ""), False)
    beside = re.fullmatch(BESIDE, field)
    if beside and re.fullmatch(NUMBER, beside[3].strip(" ")):
        measure = measure_of(beside[3], rounds)
        return measure if isinstance(measure, str) else ("@%s%s%s" % (beside[1], beside[2], measure[0]), measure[1])
    return measure_of(field, rounds)


def number_of(field):
    """The text of the number that a field says, or the words for what is wrong."""
    if re.fullmatch(r" *-? *[0-9]+ *", field) and abs(int(field.replace(" ", ""))) <= 10**12:
        return (field.replace(" ", ""),)
    if not re.fullmatch(NUMBER, field.strip(" ")):
        return "is not a number"
    exact = Decimal(field.strip(" "))
    if abs(exact) >= 10**12 + 1:
        return "is past 10^12"
    if exact != int(exact):
        return "is not a whole number"
    return (("-" if "-" in field else "") + str(abs(int(exact))),)


def line_of(fields, session=0, rounds=False):
    """The line of a record and how many of its measures were rounded, or which fields of it are wrong: the place of each, and the words for it."""
    route, begin, end, surface, year = fields
    wrong = []
    if not re.fullmatch("[A-Za-z][A-Za-z0-9_]{0,31}", route) or route == "SELECT":
        wrong.append((0, told_of(route, "is not a name")))
    positions = []
    for place, field in ((1, begin), (2, end)):
        position = position_of(field, rounds)
        if isinstance(position, str):
            wrong.append((place, told_of(field, position)))
        positions.append(position)
    number = number_of(year) if year else ("NULL",)
    if isinstance(number, str):
        wrong.append((4, told_of(year, number)))
    if wrong:
        return (wrong, None)
    text = "'%s'" % surface.replace("'", "''") if surface else "NULL"
    (begin, first), (end, last) = positions
    return "%d INSERT INTO pavement ON %s FROM %s TO %s VALUES (%s, %s)\n" % (session, route, begin, end, text, number[0]), first + last


def field_told(field):
    """A field in what is told."""
    if field.strip(" "):
        return shown(field)
    return "a blank field" if field else "an empty field"


def told_of(field, words):
    """What is told of a field."""
    return "%s %s" % (field_told(field), words)


def more_fields(fields, width):
    """What is told of a record with more fields than the header."""
    return "%d fields, where the header has %d; the first past it is %s" % (len(fields), width, field_told(fields[width]))


KINDS = [
    "no such field", "not text", "not a name", "not a position", "not a number", "not a whole number", "past 10^12", "too many decimals", "below 0", "past 999999.999",
    "more than 100%", "line past 4096 bytes", "longer than 65536 bytes", "more fields than the header", "one name of two texts", "no measure met on the route",
    "quote not closed",
]


def kind_of(words):
    """The kind of a fault that is told in these words."""
    if re.search(" has [a-z0-9]+ decimals$", words):
        return "too many decimals"
    if re.match("[0-9]+ fields, where the header has [0-9]+; the first past it is ", words):
        return "more fields than the header"
    if re.search(" would be .*, as .* is$", words):
        return "one name of two texts"
    return next(kind for kind in sorted(KINDS, key=len, reverse=True) if words.endswith(kind))


class Told:
    """What is told of records that are left out: the first twenty faults of a kind, and counts at the end."""

    def __init__(self):
        self.lines, self.counts, self.records = [], dict.fromkeys(KINDS, 0), 0

    def meet(self, words, told):
        """Meets a fault."""
        kind = kind_of(words)
        self.counts[kind] += 1
        if self.counts[kind] <= 20:
            self.lines.append(told)

    def leave_out(self, number, line, faults):
        """Leaves out the record of this number, which begins on this line, for faults of its fields, or for one without a field."""
        self.records += 1
        for name, words in faults:
            self.meet(words, "roadseg: record %d, line %d%s: %s\n" % (number, line, ", " + name if name else "", words))

    def leave_open(self, line):
        """Tells of a quote that opens on this line and is not closed, where there is one. It is told after all records."""
        if line:
            self.meet("quote not closed", "roadseg: line %d: quote not closed\n" % line)

    def text(self):
        """All that is told."""
        if not any(self.counts.values()):
            return ""
        counts = ["roadseg: records left out: %d\n" % self.records]
        for kind, count in self.counts.items():
            if count:
                counts.append("roadseg: %s: %d%s\n" % (kind, count, ", of which 20 are told" if count > 20 else ""))
        return "".join(self.lines + counts)


def told_once(line, *faults, number=1):
    """What is told where one record is left out."""
    told = Told()
    told.leave_out(number, line, faults)
    return told.text().encode()


class Lines:
    """The lines of a text, each of which ends with LF, CR LF or CR alone, and how many were taken."""

    def __init__(self, text):
        self.lines, self.taken = io.StringIO(text, newline=""), 0

    def __iter__(self):
        return self

    def __next__(self):
        line = next(self.lines)
        self.taken += 1
        return line


def records_of(text, separator=","):
    """The records of a text, as Python reads them: the number of each, the line on which it begins, and its fields. The header has 0."""
    lines = Lines(text)
    reader = csv.reader(lines, delimiter=separator)
    number = 0
    while True:
        line = lines.taken + 1
        fields = next(reader, None)
        if fields is None:
            return
        if fields:
            yield number, line, fields
            number += 1


def open_quote(text, separator=","):
    """The line on which a quote opens that is not closed, if there is one."""
    line, opened, place = 1, None, "start"
    for before, byte in zip("\0" + text, text):
        if byte == '"' and place in ("start", "inside", "behind"):
            opened = line if place == "start" else opened
            place = "behind" if place == "inside" else "inside"
        elif place != "inside":
            place = "start" if byte in separator + "\n\r" else "plain"
        line += byte == "\r" or byte == "\n" and before != "\r"
    return opened if place == "inside" else None


MEASURE = r"[0-9]{1,6}(\.[0-9]{1,3})?"
POSITION = r"%s|[0-9]{1,2}(\.[0-9]+)? *%%|@[A-Za-z][A-Za-z0-9_]*([+-]%s)?" % (MEASURE, MEASURE)
BESIDE = r" *@ *([A-Za-z][A-Za-z0-9_]*) *([+-])([^+-]*)"
NUMBER = r"[+-]?([0-9]+\.?[0-9]*|\.[0-9]+)"
HEADER = ["road", "beg_mp", "end_mp", "surface", "built"]
WORDS = ["csv", DEFINE, "--route", "road", "--from", "beg_mp", "--to", "end_mp", "--column", "year=built"]


def csv_of(records, ending, header=HEADER, separator=","):
    """A text of CSV."""
    text = io.StringIO()
    writer = csv.writer(text, lineterminator=ending, delimiter=separator)
    writer.writerow(header)
    writer.writerows(records)
    return text.getvalue().encode()


def wanted_of(data, rounds=False, separator=","):
    """What Python reads in the text: the lines of its records, and what is told."""
    lines, told, rounded = ["0 %s\n" % DEFINE], Told(), 0
    for number, begins, fields in records_of(data.decode("utf-8-sig"), separator):
        if not number:
            continue
        line = line_of(fields, rounds=rounds)
        if isinstance(line[0], str):
            lines.append(line[0])
            rounded += line[1]
        else:
            told.leave_out(number, begins, [(HEADER[place], words) for place, words in line[0]])
    count = "roadseg: measures rounded: %d\n" % rounded if rounds else ""
    return "".join(lines).encode(), told.text().encode(), count.encode()


def check_random():
    """Pseudo-random records, with each line end and with a byte order mark, with measures rounded, and with other separators."""
    for count, ending, mark, seed, words, separator in (
        (RECORDS, "\n", b"", 1, [], ","), (2_000, "\r\n", MARK, 2, [], ","), (5_000, "\r", b"", 15, [], ","), (0, "\n", b"", 3, [], ","), (20_000, "\n", b"", 7, ["--round"], ","),
        (2_000, "\r\n", MARK, 9, ["--separator", ";"], ";"), (2_000, "\n", b"", 10, ["--separator", "tab"], "\t"), (2_000, "\n", b"", 11, ["--separator", "a"], "a"),
    ):
        chance = random.Random(seed)
        rounds = "--round" in words
        data = mark + csv_of([some_record(chance) for _ in range(count)], ending, separator=separator)
        lines, told, rounded = wanted_of(data, rounds, separator)
        status, out, errors = run(*WORDS, *words, data=data)
        expect("what is told of %d records" % count, errors, told + rounded)
        expect("the lines of %d records" % count, out, lines)
        expect("the status over %d records" % count, status, 1 if told else 0)
    return RECORDS


def check_numbers():
    """Measures and numbers as offices write them, one by one."""
    head = b"route,from,to,surface,year\n"
    for begin, end, year, line in (
        (".5", "1.", "2012.0", "FROM 0.500 TO 1.000 VALUES (NULL, 2012)"),
        ("+1", "1.1000", "+7", "FROM 1.000 TO 1.100 VALUES (NULL, 7)"),
        ("0.0000", "+.75", "-3.", "FROM 0.000 TO 0.750 VALUES (NULL, -3)"),
        ("0", "000000999999.99900", "1000000000000.0", "FROM 0 TO 999999.999 VALUES (NULL, 1000000000000)"),
        ("@BRIDGE+1.2340", "@BRIDGE-0.50000", "1", "FROM @BRIDGE+1.234 TO @BRIDGE-0.500 VALUES (NULL, 1)"),
        (" @ BRIDGE + 1.2340 ", "@B -  .5  ", "1", "FROM @BRIDGE+1.234 TO @B-0.500 VALUES (NULL, 1)"),
        ("@B+1.", "@B-0000000001.50", "1", "FROM @B+1.000 TO @B-1.500 VALUES (NULL, 1)"),
        ("@B+1.20", "@B - 0.123", "1", "FROM @B+1.20 TO @B-0.123 VALUES (NULL, 1)"),
    ):
        data = head + ("SR1,%s,%s,,%s\n" % (begin, end, year)).encode()
        expect(line, run("csv", DEFINE, "--no-define", data=data), (0, ("0 INSERT INTO pavement ON SR1 %s\n" % line).encode(), b""))
    for measure, words in (
        ("2.1622", "has four decimals"), ("2.16225", "has five decimals"), ("0.1234567890", "has nine decimals"), (".30000000000000004", "has 17 decimals"),
        ("-1", "is below 0"), ("-0.0", "is below 0"), ("1000000", "is past 999999.999"), ("1000000.00001", "is past 999999.999"), ("1e3", "is not a position"),
        (".", "is not a position"), ("+", "is not a position"), ("1..2", "is not a position"), ("+ 1", "is not a position"), ("1_0", "is not a position"),
        ("é" * 70, "is not a position"), ("12.12345678%", "has eight decimals"), ("12.500000000 %", "has nine decimals"), ("101%", "is more than 100%"),
        ("100.0000001%", "is more than 100%"), (" 0101.5 %", "is more than 100%"), ("1000 %", "is more than 100%"), ("0100%", "is not a position"), ("0050.5%", "is not a position"),
        ("0100.5%", "is more than 100%"), ("0099.5%", "is not a position"), ("0100.000%", "is not a position"),
        ("@B+1.2345", "has four decimals"), ("@B - 0.12340", "has four decimals"), ("@B-1.23456", "has five decimals"), ("@B+.1234", "has four decimals"),
        ("@B+1000000", "is past 999999.999"), ("@B-1000000.00001", "is past 999999.999"), ("@B++1.2340", "is not a position"), ("@B+-1.2340", "is not a position"), ("@B-+1", "is not a position"),
        ("@B--1", "is not a position"), ("@B+", "is not a position"), ("@B+1 2", "is not a position"), ("@B+1.2340%", "is not a position"), ("@B+1+050", "is not a position"), ("@B-1+2", "is not a position"),
        ("@+1.2340", "is not a position"), ("@9+1.2340", "is not a position"), ("@FROM+1.2340", "is not a position"), ("@B@B+1.2340", "is not a position"), ("B@+1.2340", "is not a position"),
    ):
        got = run("csv", DEFINE, "--no-define", data=head + ("SR1,0,%s,a,1\n" % measure).encode())
        expect(measure, got, (1, b"", told_once(2, ("to", "%s %s" % (shown(measure), words)))))
    for measure, rounded, count in (
        ("2.1622", "2.162", 1), ("2.1625", "2.162", 1), ("2.1635", "2.164", 1), ("2.16250000001", "2.163", 1), ("2.1624999", "2.162", 1), ("0.0005", "0.000", 1),
        ("0.00051", "0.001", 1), ("1.9995", "2.000", 1), ("1.1000", "1.100", 0), ("999999.9994", "999999.999", 1), ("2.16", "2.16", 0),
        ("@B+1.23456", "@B+1.235", 1), ("@B-1.23456", "@B-1.235", 1), (" @ B + 2.1625 ", "@B+2.162", 1), ("@B-2.1635", "@B-2.164", 1), ("@B+0.0005", "@B+0.000", 1), ("@B+.00051", "@B+0.001", 1),
        ("@B+1.2340", "@B+1.234", 0), ("@B-1.2", "@B-1.2", 0), ("@B", "@B", 0),
    ):
        got = run("csv", POINTS, "--no-define", "--round", data=("route,at,year\nSR1,%s,\n" % measure).encode())
        line = "0 INSERT INTO crash ON SR1 AT %s VALUES (NULL)\n" % rounded
        expect("%s, rounded" % measure, got, (0, line.encode(), b"roadseg: measures rounded: %d\n" % count))
    for measure in ("999999.9995", "@B+999999.9995"):
        got = run("csv", POINTS, "--no-define", "--round", data=("route,at,year\nSR1,%s,\n" % measure).encode())
        told = told_once(2, ("at", measure + " is past 999999.999")) + b"roadseg: measures rounded: 0\n"
        expect("%s, rounded past the greatest" % measure, got, (1, b"", told))
    data = b"route,from,to,surface,year\nSR2,@B-1.00004,@B+2.0006,c,3\nSR2,@B,@B+9.5001,a,1\nSR2,1,@B+9.5000,a,1\n"
    wanted = [("@B-1.000", "@B+2.001", "'c', 3"), ("@B", "@B+9.500", "'a', 1"), ("1", "@B+9.500", "'a', 1")]
    lines = "".join("0 INSERT INTO pavement ON SR2 FROM %s TO %s VALUES (%s)\n" % parts for parts in wanted)
    expect("rounded beside a referent", run("csv", DEFINE, "--no-define", "--round", data=data), (0, lines.encode(), b"roadseg: measures rounded: 3\n"))
    data = b"route,from,to,surface,year\nSR2,1.00004,2.00006,c,3\nSR2,5,9.5001,a,1\n"
    status, out, errors = run("csv", DEFINE, "--routes", "--round", data=data)
    expect("the count with --routes", (status, errors), (0, b"roadseg: measures rounded: 3\n"))
    expect("a rounded route", b"0 DEFINE ROUTE SR2 FROM 1.000 TO 9.500\n" in out, True)


def check_fields():
    """Fields one by one: empty ones and quoted ones, blanks, the last line without its LF, methods of location."""
    head = b"route,from,to,surface,year\n"
    for record, values in (
        (b'SR1,0,1,,', "FROM 0 TO 1 VALUES (NULL, NULL)"),
        (b'SR1,0,1,"",2', "FROM 0 TO 1 VALUES ('', 2)"),
        (b'"SR1","0","1","a,""b""",-7', "FROM 0 TO 1 VALUES ('a,\"b\"', -7)"),
        (b"SR1, @BRIDGE + 2 ,50%,it's, 4 ", "FROM @BRIDGE+2 TO 50% VALUES ('it''s', 4)"),
    ):
        for end in (b"", b"\n", b"\r\n", b"\n\n\n"):
            got = run("csv", DEFINE, "--no-define", data=head + record + end)
            expect(record.decode(), got, (0, ("0 INSERT INTO pavement ON SR1 %s\n" % values).encode(), b""))
    for record, told in (
        (b"SR1,0,1,a", "year: no such field"),
        (b'SR1,0,1,"a\nb",1', "surface: a?b is not text"),
        (b"SR1,0,1,\xff,1", "surface: ? is not text"),
        (b"SR1,0,1,as\x7fhalt,1", "surface: as?halt is not text"),
        (b"SR1,0,1,\xc3\xa9\xe2\x82a\t\xed\xa0\x80\xc3,1", "surface: \u00e9??a????? is not text"),
        (b"SR1,0,1," + b"\xc3\xa9" * 29 + b"a\x80" + b"b" * 9 + b",1", "surface: %sa?.. is not text" % ("\u00e9" * 29)),
        (b"SR1,0,1," + b"\x80" * 70 + b",1", "surface: %s.. is not text" % ("?" * 60)),
        (b"  ,0,1,a,1", "route: a blank field is not a name"),
        (b"SR1, ,1,a,1", "from: a blank field is not a position"),
        (b"SR1,0,1,a,   ", "year: a blank field is not a number"),
        (b'SR1,0,1,a,""', "year: an empty field is not a number"),
        (b",0,1,a,1", "route: an empty field is not a name"),
        (b"I-95,0,1,a,1", "route: I-95 is not a name"),
        (b"SR1,0,1 2,a,1", "to: 1 2 is not a position"),
        (b"SR1,0,1,a,1;", "year: 1; is not a number"),
    ):
        got = run("csv", DEFINE, "--no-define", data=head + record + b"\n")
        expect(repr(record), got, (1, b"", told_once(2, tuple(told.split(": ", 1)))))
    got = run("csv", DEFINE, "--no-define", data=head + b"\n\nI-95,-1,2.16225,a,x\n")
    faults = [("route", "I-95 is not a name"), ("from", "-1 is below 0"), ("to", "2.16225 has five decimals"), ("year", "x is not a number")]
    expect("all faults of a record", got, (1, b"", told_once(4, *faults)))
    more = head + b"SR1,0,1,Main St, North,2011\nSR1,1,2,a,1\n"
    after = b"0 INSERT INTO pavement ON SR1 FROM 1 TO 2 VALUES ('a', 1)\n"
    told = told_once(2, ("", "6 fields, where the header has 5; the first past it is 2011"))
    expect("an unquoted comma", run("csv", DEFINE, "--no-define", data=more), (1, after, told))
    for first, words in ((b"", "an empty field"), (b" ", "a blank field"), (b'"b\t"', "b?")):
        told = told_once(2, ("", "7 fields, where the header has 5; the first past it is " + words))
        expect("fields past the header", run("csv", DEFINE, "--no-define", data=head + b"9,x,y,z,2011," + first + b",1\n"), (1, b"", told))
    long = head + b'SR1,0,1,"%s\n\n%s\n",1\nSR1,1,2,a,1\n,1,2,a,1\n' % (b"x\n" * 10_000, b"x" * 70_000)
    told = Told()
    told.leave_out(1, 2, [("", "longer than 65536 bytes")])
    told.leave_out(3, 10_007, [("route", "an empty field is not a name")])
    for words in ((), ("--routes",)):
        for end in (b"\n", b"\r", b"\r\n"):
            status, out, errors = run("csv", DEFINE, "--no-define", *words, data=long.replace(b"\n", end))
            expect("a long record with %r" % end, (status, out[-len(after):], errors), (1, after, told.text().encode()))
    for data, line, record in (
        (b'SR1,0,1,"a,1\n', 2, "year: no such field"), (b'SR1,0,1,"a","1', 2, None), (b'SR1,0,1,"a\nb",1\nSR1,0,1,c,"2', 4, "surface: a?b is not text"),
        (b'SR1,0,1,a,1\r\nSR1,0,1,"a""b\r,""', 3, "surface: a\"b?,\" is not text"), (b'SR1,0,1,a,1\n"', 3, "route: an empty field is not a name"),
    ):
        status, _, errors = run("csv", DEFINE, "--no-define", data=head + data)
        expect("the status with %r" % data, status, 1)
        expect("an open quote in %r" % data, b"roadseg: line %d: quote not closed\n" % line in errors, True)
        expect("its record in %r" % data, record is None or record.encode() in errors, True)
    mixed = head + b'SR1,0,1,"a\r\r\nb\n\r",1\r\r\n\n\r-,1,2,a,1\r-,1,2,a,1\r\n-,1,2,a,1\n'
    told = Told()
    told.leave_out(1, 2, [("surface", "a???b?? is not text")])
    for number, line in ((2, 10), (3, 11), (4, 12)):
        told.leave_out(number, line, [("route", "- is not a name")])
    expect("each end of a line", run("csv", DEFINE, "--no-define", data=mixed), (1, b"", told.text().encode()))


NOTES = "DEFINE POINT TABLE notes (note TEXT(40))"
NOTE_COLUMNS = ["route", "at", "note"]


def note_of(fields):
    """What is made of a record of notes: its line, or what is wrong with it."""
    if len(fields) > len(NOTE_COLUMNS):
        return [("", more_fields(fields, len(NOTE_COLUMNS)))]
    faults = []
    for place, (name, wrong) in enumerate(zip(NOTE_COLUMNS, ("is not a name", "is not a position", ""))):
        if place >= len(fields):
            faults.append((name, "no such field"))
        elif re.search(r"[\r\n\t]", fields[place]):
            faults.append((name, told_of(fields[place], "is not text")))
        elif not re.fullmatch(("[A-Za-z][A-Za-z0-9_]*", "1", ".*")[place], fields[place]):
            faults.append((name, told_of(fields[place], wrong)))
    if faults:
        return faults
    return "0 INSERT INTO notes ON %s AT 1 VALUES (%s)\n" % (fields[0], "'%s'" % fields[2] if fields[2] else "NULL")


def check_quotes(rounds=3_000):
    """Quotes, separators and ends of lines wherever they stand, read as Python reads them. An empty text is as good as NULL here."""
    chance = random.Random(5)
    for turn in range(rounds):
        separator = ",;\t"[0 if turn % 2 else chance.randrange(3)]
        tail = "".join(chance.choice('""",;%s\n\rab' % separator) for _ in range(chance.randrange(12)))
        text = "route,at,note\nSR1,1,".replace(",", separator) + tail + chance.choice(["\n", "\r\n", ""]) + "SR1,1,b".replace(",", separator)
        lines, told = "", Told()
        for number, begins, fields in records_of(text, separator):
            made = note_of(fields) if number else ""
            if isinstance(made, str):
                lines += made
            else:
                told.leave_out(number, begins, made)
        told.leave_open(open_quote(text, separator))
        told = told.text()
        words = [] if separator == "," else ["--separator", separator]
        status, out, errors = run("csv", NOTES, "--no-define", *words, data=text.encode())
        got = (status, out.decode().replace("('')", "(NULL)"), errors.decode())
        expect(repr(text), got, (1 if told else 0, lines, told))


def check_words():
    """The table, the session, the header, points, and the routes."""
    lines = ("7 %s\n7 INSERT INTO crash ON SR1 AT 3.5 VALUES (1999)\n" % POINTS).encode()
    expect("a point", run("csv", POINTS, "--session", "7", data=b"at,route,year\n3.5,SR1,1999\n"), (0, lines, b""))
    expect("no table", run("csv", "DEFINE ROUTE SR1 FROM 0 TO 1", data=b"")[:2], (2, b""))
    expect("a session past 63", run("csv", POINTS, "--session", "64", data=b"")[:2], (2, b""))
    expect("no words", run("csv")[:2], (2, b""))
    told = b"roadseg: year: no such column in the header, which has: at, route\n"
    expect("a column that is not there", run("csv", POINTS, data=b"at,route\n1,SR1\n"), (1, b"", told))
    told = b"roadseg: year: column twice in the header\n"
    expect("a column twice", run("csv", POINTS, data=b"at,route,year,year\n1,SR1,1,1\n"), (1, b"", told))
    data = b"route,from,to,surface,year\nSR2,5,9.5,a,1\nSR1,3,4,b,2\nSR2,1,2,c,3\nSR3,50%,60%,d,4\n"
    got = run("csv", DEFINE, "--routes", data=data)
    routes = b"0 DEFINE ROUTE SR1 FROM 3.000 TO 4.000\n0 DEFINE ROUTE SR2 FROM 1.000 TO 9.500\n"
    expect("the status with --routes", got[0], 1)
    expect("the routes", got[1][: len(routes)], routes)
    told = b"roadseg: SR3: no measure met on the route\nroadseg: records left out: 0\nroadseg: no measure met on the route: 1\n"
    expect("the route that is told", got[2], told)
    records = "".join("SR%d,50%%,60%%,d,4\n" % number for number in range(30))
    errors = run("csv", DEFINE, "--routes", data=("route,from,to,surface,year\n" + records).encode())[2].decode()
    expect("many routes that are told", (errors.count(": no measure met on the route\n"), errors.splitlines()[-1]), (20, "roadseg: no measure met on the route: 30, of which 20 are told"))


def check_names():
    """Names of the header in letters of another case, which are taken where there is one, and none as it is written."""
    line = b"0 INSERT INTO crash ON SR1 AT 3.5 VALUES (1999)\n"
    for header, words in (
        (b"Route,AT,Year", []), (b"ROUTE,at,year", []), (b'"rOUTE","At","yEAR"', []), (b"Road,MP,Built", ["--route", "road", "--at", "Mp", "--column", "year=BUILT"]),
    ):
        got = run("csv", POINTS, "--no-define", *words, data=header + b"\nSR1,3.5,1999\n")
        expect(header.decode(), got, (0, line, b""))
    for header, record in ((b"route,at,YEAR,year,Year", b"SR1,3.5,1,1999,2"), (b"Year,at,ROUTE,route,year", b"1,3.5,SR2,SR1,1999")):
        got = run("csv", POINTS, "--no-define", data=header + b"\n" + record + b"\n")
        expect(header.decode(), got, (0, line, b""))
    told = b"roadseg: year: column twice in the header but for the case of letters: route, at, Year, YEAR\n"
    expect("two cases", run("csv", POINTS, data=b"route,at,Year,YEAR\nSR1,3.5,1,2\n"), (1, b"", told))
    told = "roadseg: year: no such column in the header, which has: route, at, y\u00c9ar\n".encode()
    expect("a letter that is not of ASCII", run("csv", POINTS, data="route,at,y\u00c9ar\nSR1,3.5,1\n".encode()), (1, b"", told))
    names = ["c%d" % number for number in range(60)]
    told = "roadseg: route: no such column in the header, which has: %s, ..\n" % ", ".join(names[:50])
    expect("many names", run("csv", POINTS, data=(",".join(names) + "\n").encode()), (1, b"", told.encode()))
    told = "roadseg: route: no such column in the header, which has: %s, at\n" % ("\u00e9" * 30)
    expect("a long name", run("csv", POINTS, data=("\u00e9" * 40 + ",at\n").encode()), (1, b"", told.encode()))


def check_scales():
    """Numbers that are multiplied, one by one, and words that scale nothing."""
    head = b"route,from,to,surface,year\n"
    for scale, number, made in (
        ("10", "115.8", "1158"), ("10", "-.5", "-5"), ("10", "7", "70"), ("1000", "+1.", "1000"), ("1000000", "0.000001", "1"), ("10", "100000000000", "1000000000000"),
        ("1", "2012.0", "2012"), ("1", "- 5", "-5"), ("100", "1.230", "123"), ("100", "", "NULL"),
    ):
        line = "0 INSERT INTO pavement ON SR1 FROM 0 TO 1 VALUES (NULL, %s)\n" % made
        got = run("csv", DEFINE, "--no-define", "--scale", "year=" + scale, data=head + ("SR1,0,1,,%s\n" % number).encode())
        expect("%s times %s" % (number, scale), got, (0, line.encode(), b""))
    for scale, number, words in (
        ("10", "115.83", "is not a whole number"), ("10", "100000000000.1", "is past 10^12"), ("10", "x", "is not a number"), ("10", "- 5", "is not a number"),
    ):
        got = run("csv", DEFINE, "--no-define", "--scale", "year=" + scale, data=head + ("SR1,0,1,,%s\n" % number).encode())
        expect("%s times %s" % (number, scale), got, (1, b"", told_once(2, ("year", "%s %s" % (number, words)))))
    told = b"error: a scale is no column of numbers with 1, 10, 100 and so on up to 1000000\n"
    for words in ("year", "year=", "year=7", "year=10000000", "year=010", "surface=10", "built=10", "=10"):
        expect("--scale %s" % words, run("csv", DEFINE, "--scale", words, data=head), (2, b"", told))


BLANKS = " \t\n\f\r"  # what is dropped round a text of which a name is made


def made_name(text):
    """The name that a text is made with `--names`, or None."""
    data = text.strip(BLANKS).encode(errors="surrogateescape").decode("latin-1")
    name = "".join(byte if re.match("[A-Za-z0-9_]", byte) else "_" for byte in data)
    if not name:
        return None
    name = (name if name[0].isalpha() else "R" + name)[:32]
    return name + "_" if name in RESERVED else name


RESERVED = set(
    "ABSOLUTE ALIGNMENT AND AS AT BY CLOSE COVER DEFINE DISSOLVE DROP EXPLAIN FETCH FOR FROM GAPS INDEX INSERT INT INTERPOLATIVE INTO IS LINE MERGE MINUS MOVE NOT NULL ON OPEN "
    "OR OVERLAY POINT REFERENT RELATIVE REMOVE RENAME REOPEN ROUTE SAVE SELECT SUM TABLE TEXT TO TOTAL TRANSFORM TRANSLATE VALUES VIEW WHERE WINDOW".split()
)


def check_made_names(count=20_000):
    """Names made of routes and of columns of the header, and texts that would become one name."""
    for text, name in (("I-95", "I_95"), ("US 40", "US_40"), ("101", "R101"), ("LINE", "LINE_"), (" SR1 ", "SR1"), ("_a", "R_a"), ("x" * 40, "x" * 32), ("\u00e9", "R__"), ("line", "line"), ("9" * 32, "R" + "9" * 31)):
        expect("what Python makes of %s" % text, made_name(text), name)
        line = "0 INSERT INTO crash ON %s AT 1 VALUES (NULL)\n" % name
        expect("the name of %r" % text, run("csv", POINTS, "--no-define", "--names", data=("route,at,year\n%s,1,\n" % text).encode()), (0, line.encode(), b""))
    for text, words in (("", "an empty field"), ('""', "an empty field"), (" ", "a blank field"), ('"   "', "a blank field"), ("\t", "?")):
        told = told_once(2, ("route", words + " is not a name"))
        expect("no name of %r" % text, run("csv", POINTS, "--no-define", "--names", data=("route,at,year\n%s,1,\n" % text).encode()), (1, b"", told))
    check_odd_routes()
    chance = random.Random(12)
    made, lines, told, records = {}, [], Told(), []
    for number in range(1, count + 1):
        route = "".join(chance.choice(["I", "US", "SR", "", "LINE", "\u00c9"]) + chance.choice(["-", " ", "_", ""]) + str(chance.randrange(1, 400)))
        records.append([route, "1", ""])
        name, text = made_name(route), route.strip(" ")
        first = made.setdefault(name, text)
        if first == text:
            lines.append("0 INSERT INTO crash ON %s AT 1 VALUES (NULL)\n" % name)
        else:
            told.leave_out(number, number + 1, [("route", "%s would be %s, as %s is" % (text, name, first))])
    data = csv_of(records, "\n", ["route", "at", "year"])
    expect("made names", run("csv", POINTS, "--no-define", "--names", data=data), (1, "".join(lines).encode(), told.text().encode()))
    status, out, errors = run("csv", POINTS, "--no-define", "--names", "--routes", data=data)
    expect("made names with --routes", (status, out[-len("".join(lines).encode()):], errors), (1, "".join(lines).encode(), told.text().encode()))
    expect("the routes", sorted(re.findall(rb"DEFINE ROUTE ([^ ]*)", out)), sorted(name.encode() for name in made))
    line = b"0 INSERT INTO crash ON SR1 AT 3.5 VALUES (1999)\n"
    for header, words in (
        (b"Route,MP (mi),Year", ["--at", "MP (mi)"]), (b"Route,MP (mi),Year", ["--at", "mp__mi_"]), (b"Road No.,at,101", ["--route", "Road_No_", "--column", "year=101"]), (b" route ,at,year", []),
        (b"ROUTE,AT,YEAR", []), (b"route,AT,year", ["--at", "AT_"]), (b"route,At,year", ["--at", "AT"]), (b"route,FROM,YEAR", ["--at", "from"]),
    ):
        got = run("csv", POINTS, "--no-define", "--names", *words, data=header + b"\nSR1,3.5,1999\n")
        expect(header.decode(), got, (0, line, b""))
    told = b"roadseg: mp_1: column twice in the header once names are made: route, mp 1, mp-1, year\n"
    expect("two columns", run("csv", POINTS, "--names", "--at", "mp_1", data=b"route,mp 1,mp-1,year\n"), (1, b"", told))


def check_odd_routes():
    """Names made of bytes that are no text, and names that are taken beside other faults."""
    head = b"route,at,year\n"
    for text in (b"I\xff95", b'"I\n95"', b"I\t95", b"I\x7f95", b'" \r\nI-95\t"', b"\xc9\xe2\x82", b"9\0", b"LINE\n"):
        said = text.strip(b'"').decode(errors="surrogateescape")
        line = "0 INSERT INTO crash ON %s AT 1 VALUES (NULL)\n" % made_name(said)
        data = head + (text if text[:1] == b'"' else b'"%s"' % text) + b",1,\n"
        expect("the name of %r" % text, run("csv", POINTS, "--no-define", "--names", data=data), (0, line.encode(), b""))
    expect("no name without its word", run("csv", POINTS, "--no-define", data=head + b"I\xff95,1,\n"), (1, b"", told_once(2, ("route", "I?95 is not text"))))
    data = head + b'I-95,x,\nI 95,1,\nI-95,1,\n"I\n95",1.2345,y\n%s,2,\n' % (b"I_95" + b"\xc3\xa9" * 40)
    data += b'"%s",3,1,4\nI 95,2,\nI_95,,\n' % (b"I_95" + b"?" * 80)
    insert = "0 INSERT INTO crash ON %s AT %s VALUES (NULL)\n"
    long = "I_95" + "_" * 28
    lines = insert % ("I_95", "1") + insert % (long, "2") + insert % ("I_95", "2")
    told = Told()
    told.leave_out(1, 2, [("at", "x is not a position")])
    told.leave_out(3, 4, [("route", "I-95 would be I_95, as I 95 is")])
    told.leave_out(4, 5, [("route", "I?95 would be I_95, as I 95 is"), ("at", "1.2345 has four decimals"), ("year", "y is not a number")])
    told.leave_out(6, 8, [("", "4 fields, where the header has 3; the first past it is 4")])
    told.leave_out(8, 10, [("route", "I_95 would be I_95, as I 95 is"), ("at", "an empty field is not a position")])
    expect("taken names", run("csv", POINTS, "--no-define", "--names", data=data), (1, lines.encode(), told.text().encode()))
    data = head + b"%s,1,\n%s,1,\n" % (b"a" * 70, b"a" * 59 + "\u00e9\u00e9".encode())
    told = told_once(3, ("route", "%s.. would be %s, as %s.. is" % ("a" * 59, "a" * 32, "a" * 60)), number=2)
    line = insert % ("a" * 32, "1")
    expect("long texts of one name", run("csv", POINTS, "--no-define", "--names", data=data), (1, line.encode(), told))


def check_numbered():
    """The number of a record in a column of the table: of all records, also after some that are left out or too long, and with --routes."""
    define = "DEFINE POINT TABLE crash (id INT, year INT)"
    long = "SR1,1,%s\n" % ("9" * 70_000)
    text = "route,at,year\nSR1,1,\nSR1,1,\nI-95,1,\n" + long + "SR1,2,1999\n" + "SR1,3,1\n" * 5_000 + long + "SR1,4,\n"
    numbers = [1, 2, 5, *range(6, 5_006), 5_007]
    ats = [("1", "NULL"), ("1", "NULL"), ("2", "1999"), *[("3", "1")] * 5_000, ("4", "NULL")]
    lines = "".join("0 INSERT INTO crash ON SR1 AT %s VALUES (%d, %s)\n" % (at, number, year) for number, (at, year) in zip(numbers, ats))
    told = Told()
    told.leave_out(3, 4, [("route", "I-95 is not a name")])
    told.leave_out(4, 5, [("", "longer than 65536 bytes")])
    told.leave_out(5_006, 5_007, [("", "longer than 65536 bytes")])
    got = run("csv", define, "--no-define", "--number", "id", data=text.encode())
    expect("numbered records", got, (1, lines.encode(), told.text().encode()))
    route = "0 DEFINE ROUTE SR1 FROM 1.000 TO 4.000\n"
    got = run("csv", define, "--no-define", "--routes", "--number", "id", data=text.encode())
    expect("numbered records with --routes", got, (1, (route + lines).encode(), told.text().encode()))
    data = b"route,at,id,year\nSR1,1,77,2\n"
    for words in (["id"], ["id", "--column", "id=year"]):
        line = b"0 INSERT INTO crash ON SR1 AT 1 VALUES (1, 2)\n"
        expect("a field of that name", run("csv", define, "--no-define", "--number", *words, data=data), (0, line, b""))
    told = b"error: --number names no column of numbers of the table\n"
    for number in ("year", "note", "ID", ""):
        expect("--number %s" % number, run("csv", NOTES, "--number", number, data=data), (2, b"", told))
    told = b"error: a scale is no column of numbers with 1, 10, 100 and so on up to 1000000\n"
    expect("a scale of numbers", run("csv", define, "--number", "id", "--scale", "id=10", data=data), (2, b"", told))


def reasons_of(faults):
    """The reason that stands after a record with these faults."""
    return "; ".join("%s: %s" % (name, words) if name else words for name, words in faults)


def emptied(file):
    """Leaves nothing in a file, so that it may be written again."""
    with open(file, "wb"):
        pass


def check_rejects(count=3_000):
    """Records that are left out are written as they stood, with the reason after them, and go in again once they are mended."""
    with tempfile.TemporaryDirectory() as folder:
        file = os.path.join(folder, "left.csv")
        for ending, separator, words in (("\n", ",", []), ("\r\n", ";", ["--separator", ";"])):
            chance = random.Random(14)
            records = [some_record(chance, True) for _ in range(count)]
            data = csv_of(records, ending, separator=separator)
            lines, told, _ = wanted_of(data, False, separator)
            emptied(file)
            expect("with --rejects", run(*WORDS, *words, "--rejects", file, data=data), (1, lines, told))
            with open(file, newline="") as left:
                rows = list(csv.reader(left, delimiter=separator))
            wrong = [(fields, line_of(fields)[0]) for fields in records if not isinstance(line_of(fields)[0], str)]
            wanted = [[*fields, reasons_of([(HEADER[place], said) for place, said in faults])] for fields, faults in wrong]
            expect("the rejects", rows, [[*HEADER, "left_out_because"], *wanted])
            expect("some records are wrong", len(wrong) > count // 60, True)
            for row, (fields, faults) in zip(rows[1:], wrong):
                for place, _ in faults:
                    row[place] = ["SR1", "0", "1", "", "1"][place]
            mended = csv_of(rows[1:], ending, rows[0], separator)
            lines = "".join(line_of(row[:5])[0] for row in rows[1:])
            again = os.path.join(folder, "again.csv")
            expect("mended rejects", run(*WORDS, "--no-define", *words, "--rejects", again, data=mended), (0, lines.encode(), b""))
            expect("no more rejects", os.path.getsize(again), 0)
        data = b'route,at,"no""te"\nSR1,1,""\n"S ",x,""\nSR1,2\nSR1,3,a,b\nSR1,x,"a, ""b"""\n'
        header = b'route,at,"no""te","left_out_because"\n'
        wrong = b'"S ",x,"","at: x is not a position"\nSR1,2,,"no""te: no such field"\nSR1,3,a,b,"4 fields, where the header has 3; the first past it is b"\nSR1,x,"a, ""b""","at: x is not a position"\n'
        words = ["csv", NOTES, "--no-define", "--column", 'note=no"te', "--rejects", file]
        emptied(file)
        expect("rejects one by one", run(*words, data=data)[:2], (1, b"0 INSERT INTO notes ON SR1 AT 1 VALUES ('')\n"))
        with open(file, "rb") as left:
            data = left.read()
        expect("their rows", data, header + wrong)
        told = ("roadseg: cannot open file\nroadseg: %s: there already, and not empty\n" % file).encode()
        expect("over what is there", run(*words, data=data), (1, b"", told))
        with open(file, "rb") as left:
            expect("what stays there", left.read(), data)
        emptied(file)
        expect("read again", run(*words, data=data)[:2], (1, b"0 INSERT INTO notes ON SR1 AT 2 VALUES (NULL)\n"))
        with open(file, "rb") as left:
            expect("their rows", left.read(), header + b"".join(row for row in wrong.splitlines(True) if b"SR1,2" not in row))
        data = b"route,at,year\nI-95,1,\nI 95,x,\n"
        emptied(file)
        status = run("csv", POINTS, "--names", "--rejects", file, data=data)[0]
        with open(file, "rb") as left:
            row = b'I 95,x,,"route: I 95 would be I_95, as I-95 is; at: x is not a position"\n'
            expect("all that is wrong", (status, left.read()), (1, b'route,at,year,"left_out_because"\n' + row))
        names = os.path.join(folder, "names.csv")
        data = b'route,at,year\nI-95,1,\n"US ""40""",1,\nSR1,1,\n'
        columns = b'old,new,what\n"route",route,column\n"at",at,column\n"year",year,column\n'
        expect("the status with --names-file", run("csv", POINTS, "--names-file", names, data=data)[0], 0)
        with open(names, "rb") as made:
            expect("the names", made.read(), columns + b'"I-95",I_95,route\n"SR1",SR1,route\n"US ""40""",US__40_,route\n')
        emptied(names)
        data = b'Route No., "MP","MP (mi)",,"a ""b"""," ",Year,101,SELECT,\xff,x\ty\n I_9\xff\t,,1,,,,7,,,,\n'
        expect("the status with other columns", run("csv", POINTS, "--names-file", names, "--route", "Route No.", "--at", "MP (mi)", data=data)[0], 0)
        with open(names, "rb") as made:
            rows = b'old,new,what\n"Route No.",Route_No_,column\n" ""MP""",R_MP_,column\n"MP (mi)",MP__mi_,column\n"a ""b""",a__b_,column\n"Year",Year,column\n"101",R101,column\n'
            rows += b'"SELECT",SELECT_,column\n"\xff",R_,column\n"x\ty",x_y,column\n"I_9\xff",I_9_,route\n'
            expect("the names of other columns", made.read(), rows)
        emptied(names)
        expect("the status without a record", run("csv", POINTS, "--names-file", names, data=b"")[0], 0)
        with open(names, "rb") as made:
            expect("no names", made.read(), b"old,new,what\n")
        got = run("csv", POINTS, "--rejects", names, "--names-file", names, data=data)
        expect("one file for both", got, (2, b"", b"error: --rejects and --names-file name one file\n"))
        with open(names, "rb") as left:
            expect("what stays in it", left.read(), b"old,new,what\n")
        for option in ("--rejects", "--names-file"):
            told = ("roadseg: cannot open file\nroadseg: %s: a folder\n" % folder).encode()
            expect("%s to a folder" % option, run("csv", POINTS, option, folder, data=data), (1, b"", told))
            got = run("csv", POINTS, option, "/dev/full", data=b"route,at,year\nSR 1,x,\n")
            expect("%s without room" % option, (got[0], got[2].splitlines()[-1]), (1, b"roadseg: write fault"))


def check_stations():
    """Measures in stations, one by one."""
    for units, measure, made in (
        (100, "12+50.5", "1250.500"), (1000, "0+000", "0.000"), (100, " 012+5. ", "1205.000"), (1, "7+.5", "7.500"), (100, "12.5", "12.5"), (100, "+3", "3.000"), (30, "2+61.1000", "121.100"),
        (1_000_000, "0+999999.999", "999999.999"), (100, "@B+2", "@B+2"), (100, "9999+99.999", "999999.999"), (100, "@B+2.0500", "@B+2.050"), (100, "@B - .5", "@B-0.500"),
    ):
        got = run("csv", POINTS, "--no-define", "--stations", str(units), data=("route,at,year\nSR1,%s,\n" % measure).encode())
        expect("%s by %d" % (measure, units), got, (0, ("0 INSERT INTO crash ON SR1 AT %s VALUES (NULL)\n" % made).encode(), b""))
    for units, measure, words in (
        (100, "12+1.2345", "has four decimals"), (100, "9999+100", "is past 999999.999"), (100, "-1+5", "is not a position"), (100, "1.5+5", "is not a position"), (100, "1+", "is not a position"),
        (100, "+5+5+5", "is not a position"), (100, "1+-5", "is below 0"), (1000, "4294967296+0", "is not a position"), (None, "12+50.5", "is not a position"),
        (100, "@B+1+50", "is not a position"), (100, "@B-1+50", "is not a position"), (100, "@B+1.2345", "has four decimals"),
    ):
        got = run("csv", POINTS, "--no-define", *(["--stations", str(units)] if units else []), data=("route,at,year\nSR1,%s,\n" % measure).encode())
        expect("%s by %s" % (measure, units), got, (1, b"", told_once(2, ("at", "%s %s" % (measure, words)))))
    got = run("csv", POINTS, "--no-define", "--stations", "100", "--round", data=b"route,at,year\nSR1,12+50.0005,\n")
    expect("rounded stations", got, (0, b"0 INSERT INTO crash ON SR1 AT 1250.000 VALUES (NULL)\n", b"roadseg: measures rounded: 1\n"))
    told = b"error: a station has a whole number of units from 1 to 1000000\n"
    for text in ("0", "1000001", "-1", "1.5", "", "x"):
        expect("--stations %s" % text, run("csv", POINTS, "--stations=" + text, data=b""), (2, b"", told))


def check_definitions():
    """A definition is refused as `run` refuses its line."""
    wide = ", ".join("c%d TEXT(120)" % number for number in range(8))
    for define in (
        "DEFINE POINT TABLE crash", "DEFINE POINT TABLE crash (year INT", "DEFINE POINT TABLE (a INT)", "DEFINE TABLE a (b INT)", "DEFINE POINT TABLE crash (year INT) x", "DEFINE POINT TABLE c (a INT, a INT)",
        "DEFINE POINT TABLE c (a TEXT(121))", "DEFINE POINT TABLE c (a TEXT(0))", "DEFINE POINT TABLE c (%s)" % ", ".join("a%d INT" % number for number in range(17)), "DEFINE POINT TABLE c (%s, x TEXT(1))" % wide,
        "DEFINE POINT TABLE c (%s)" % wide, "DEFINE POINT TABLE c (a INT) ?", "DEFINE POINT TABLE c (a INT'", "", "x" * 5_000, "DEFINE POINT TABLE %s (a INT)" % ("n" * 33), POINTS, "\tDEFINE",
    ):
        for session in ("0", "17"):
            reply = run("run", data=("%s %s\n" % (session, define)).encode())[1].decode()
            status, out, errors = run("csv", define, "--session", session, data=b"")
            if " OK " in reply:
                expect("a definition", (status, out, errors), (0, b"", b""))
            else:
                told = "error: %s: %s %s\n" % (reply[reply.index("ERR"):-1], session, define)
                expect("refused: %.60s" % define, (status, out, errors.decode()), (2, b"", told))


def check_separators():
    """Other bytes between fields, the word for a tab, and the texts that say none."""
    data = b'route,at,note\nSR1,1,"a;b"\nSR1,2,d\n'
    lines = b"0 INSERT INTO notes ON SR1 AT 1 VALUES ('a;b')\n0 INSERT INTO notes ON SR1 AT 2 VALUES ('d')\n"
    for text, byte in ((",", b","), (";", b";"), ("tab", b"\t"), ("\t", b"\t"), ("|", b"|"), (" ", b" "), ("'", b"'"), ("x", b"x")):
        expect("separator %r" % text, run("csv", NOTES, "--no-define", "--separator", text, data=data.replace(b",", byte)), (0, lines, b""))
    line = b"0 INSERT INTO notes ON SR1 AT 1 VALUES ('a,b')\n"
    expect("a comma then", run("csv", NOTES, "--no-define", "--separator", ";", data=b"route;at;note\nSR1;1;a,b\n"), (0, line, b""))
    for text in ('"', "\n", "\r", "", ";;", "\u00e9", "comma", "TAB", "\ttab"):
        told = b"error: the separator is no byte that parts fields, nor tab\n"
        expect("separator %r" % text, run("csv", NOTES, "--separator", text, data=data), (2, b"", told))


def check_widest():
    """Sixteen columns with texts of 120 bytes, whose rows take 960 bytes. A table of 961 is refused, as `run` does it."""
    head = ",".join(["route", "from", "to", *("c%d" % number for number in range(16))])
    texts = ["é" * 60, "'" * 120, '"' * 120, "€" * 40, "𝄞" * 30, "", " " * 120]
    values = ["'%s'" % text.replace("'", "''") if text else "NULL" for text in texts] + ["%d" % (number - 4) for number in range(8)]
    for bytes_left in (40, 41):
        types = ["TEXT(120)"] * 7 + ["INT"] * 8 + ["TEXT(%d)" % bytes_left]
        define = "DEFINE LINE TABLE wide (%s)" % ", ".join("c%d %s" % one for one in enumerate(types))
        records = [["A", "0", "1", *texts, *values[7:], "z" * bytes_left]]
        lines = ("0 %s\n0 INSERT INTO wide ON A FROM 0 TO 1 VALUES (%s, '%s')\n" % (define, ", ".join(values), "z" * bytes_left)).encode()
        got = run("csv", define, data=csv_of(records, "\n", head.split(",")))
        if bytes_left == 41:
            expect("a wider table", got, (2, b"", ("error: ERR 27 limit: 0 %s\n" % define).encode()))
            continue
        expect("the widest record", got, (0, lines, b""))
        expect("its replies", run("run", data=b"0 DEFINE ROUTE A FROM 0 TO 10\n" + lines), (0, b"0 OK 0\n0 OK 0\n0 OK 1000\n", b""))
    expect("a text of 121 bytes", run("csv", "DEFINE LINE TABLE wide (c0 TEXT(121))", data=b"")[:2], (2, b""))


def check_loading():
    """The lines are accepted by `run`."""
    chance = random.Random(4)
    records = [some_record(chance, is_measured=True) for _ in range(3_000)]
    records = [fields for fields in records if isinstance(line_of(fields)[0], str) and len(fields[3].encode()) <= 12]
    status, lines, _ = run(*WORDS, "--routes", data=csv_of(records, "\n"))
    expect("the status", status, 0)
    replies = run("run", data=lines)[1].splitlines()
    expect("what is refused", [reply for reply in replies if b" OK " not in reply], [])
    expect("how many", len(replies), len(lines.splitlines()))
    greatest = {}
    for route, _, end, *_ in records:
        greatest[route] = max(greatest.get(route, Decimal(0)), Decimal(end))
    for route, end in greatest.items():
        expect("the end of %s" % route, b" TO %.3f\n" % end in lines, True)


def check_explained():
    """Each refusal of the table of the language is explained, with its number."""
    with open(LANGUAGE, encoding="utf-8") as file:
        language = file.read()
    status, out, errors = run("explain")
    expect("the status of explain", (status, errors), (0, b""))
    rows = re.findall(r"^\| ?([0-9]*) \| ?[^|]*\| ([0-9]+) \| [a-z ]+ \|$", language, re.MULTILINE)
    table = {number for row in rows for number in row if number}
    numbers = re.findall(r"^([0-9]+) ", out.decode(), re.MULTILINE)
    expect("the numbers that are explained", set(numbers), table)
    expect("each once", len(numbers), len(set(numbers)))
    for number in numbers:
        status, one, errors = run("explain", number)
        said = (status, one in out, one.startswith(number.encode()), errors)
        expect("explain %s" % number, said, (0, True, True, b""))
    expect("what the page has", out.decode() in language, True)
    expect("a number of no refusal", run("explain", "5")[:2], (2, b""))
    check_options(out.decode())
    return len(numbers)


def check_options(explained):
    """Each option of `csv` that an explanation leads to is one of its help, and each line that is shown as refused is refused so."""
    options = set(re.findall(r"--[a-z0-9-]+", run("csv", "--help")[1].decode()))
    parts = dict(re.findall(r"^([0-9]+) (.*(?:\n    .*)+)", explained, re.MULTILINE))
    led = {number: re.findall(r"^    By csv:  .*?(--[a-z0-9-]+)", part, re.MULTILINE) for number, part in parts.items()}
    wanted = {
        "1": "--latin1", "3": "--session", "10": "--separator", "11": "--names", "12": "--round", "20": "--routes", "22": "--column", "24": "--no-define", "30": "--routes", "31": "--at",
        "33": "--scale",
    }
    expect("the options", {number: found[0] for number, found in led.items() if found}, wanted)
    expect("options of csv", set(wanted.values()) - options, set())
    for number, words in (("10", [" ; ", " * ", ' " ', " != ", " . "]), ("33", ["comparison", "SUM"]), ("3", ["Comments", "blank lines", "quit"])):
        expect("what %s names" % number, [word for word in words if word not in parts[number]], [])
    expect("the head of 11", parts["11"].splitlines()[0], "syntax at C")


def told_of_lines(lines, replies):
    """What `--report` tells of lines and of their last replies: the first ten refused of each number, and how many there were."""
    told, counts, words = [], {}, {}
    for number, (line, reply) in enumerate(zip(lines, replies), 1):
        refusal = reply.split(b" ", 1)[1].strip()
        if not refusal.startswith(b"ERR "):
            continue
        code = int(refusal.split()[1])
        counts[code] = counts.get(code, 0) + 1
        words[code] = re.sub(rb" at [0-9]+", b" at C", refusal[4:])
        if counts[code] <= 10:
            told.append(b"roadseg: line %d: %s: %s\n" % (number, refusal, shown_line(line)))
    told.append(b"roadseg: lines answered: %d, refused: %d\n" % (len(replies), sum(counts.values())))
    told += [b"roadseg: refused %s: %d\n" % (words[code], counts[code]) for code in sorted(counts)]
    return b"".join(told)


def shown_line(line):
    """A line as it is told: without the CR at its end, up to what is no text of a line, and at most 4,096 bytes of it."""
    kept = line[:4096]
    text = kept[:-1] if kept.endswith(b"\r") else kept
    plain = re.match(rb"[^\0-\x1f\x7f]*", text).group().decode(errors="surrogateescape")
    shown = re.match("[^\udc80-\udcff]*", plain).group().encode()
    return shown if len(shown) == len(text) and len(line) <= 4096 else shown + b".."


def last_replies(out):
    """The last line of each reply, which is no ROW."""
    return [line for line in out.splitlines(keepends=True) if line.split(b" ")[1] != b"ROW"]


UNENDED = b"roadseg: the last line lacks its line feed and was not answered\n"


def check_watched():
    """`--bail` stops at the first refused line, and `--report` shows the refused ones."""
    lines = b"0 DEFINE ROUTE SR1 FROM 0 TO 1\n0 SELECT nothing\n0 DEFINE ROUTE SR2 FROM 0 TO 1\n0 bad"
    replies = [b"0 OK 0\n", b"0 ERR 21 no such name\n", b"0 OK 0\n"]
    expect("without options", run("run", data=lines), (0, b"".join(replies), b""))
    expect("--bail", run("run", "--bail", data=lines), (1, b"".join(replies[:2]), b""))
    accepted = b"".join(lines.splitlines(keepends=True)[::2][:2])
    expect("--bail of lines that are accepted", run("run", "--bail", data=accepted), (0, b"0 OK 0\n" * 2, b""))
    shown = b"roadseg: line 2: ERR 21 no such name: 0 SELECT nothing\n"
    counts = b"roadseg: lines answered: 3, refused: 1\nroadseg: refused 21 no such name: 1\n"
    expect("--report", run("run", "--report", data=lines), (1, b"".join(replies), shown + counts + UNENDED))
    expect("--report of whole lines", run("run", "--report", data=lines[:-5]), (1, b"".join(replies), shown + counts))
    expect("both", run("run", "--bail", "--report", data=lines), (1, b"".join(replies[:2]), shown + counts.replace(b"3", b"2", 1)))
    none = b"roadseg: lines answered: 2, refused: 0\n"
    expect("--report where none is refused", run("run", "--report", data=accepted), (0, b"0 OK 0\n" * 2, none))
    expect("--report of no line", run("run", "--report", data=b""), (0, b"", none.replace(b"2", b"0", 1)))
    with tempfile.TemporaryDirectory() as folder:
        path = os.path.join(folder, "roads.seg")
        expect("create", run("create", "--file", path)[0], 0)
        expect("--bail over a file", run("run", "--file", path, "--bail", data=lines)[0], 1)
        kept = run("run", "--file", path, data=b"0 DEFINE ROUTE SR1 FROM 0 TO 1\n0 DEFINE ROUTE SR2 FROM 0 TO 1\n")
        expect("what the file keeps", kept, (0, b"0 ERR 24 name taken\n0 OK 0\n", b""))
        again = run("run", "--file", path, "--report", data=lines[:-5])
        expect("--report over a file", again[::2], (1, told_of_lines(lines.split(b"\n"), last_replies(again[1]))))


def refused_lines():
    """Lines with what may be wrong with them: bytes that are no text, a length at the limit and past it, CRs, rows between them."""
    rows = [b"0 DEFINE LINE TABLE t (s TEXT(120))", b"0 DEFINE ROUTE SR1 FROM 0 TO 100"]
    rows += [b"0 INSERT INTO t ON SR1 FROM %d TO %d VALUES ('%s')" % (place, place + 1, b"it''s 0 ERR 21 no such name") for place in range(50)]
    odd = [
        b"", b"\r", b"0", b"64 SELECT t", b"quit", b"0 SELECT t;\r", b"0 SELECT\tt", b"0 SELECT caf\xc3\xa9", b"0 SELECT caf\xc3", b"\xff", b"0 SELECT \x7f", b"0 SELECT \r\r",
        b"0 SELECT t", b"63 SELECT none", b"7 SELECT WHERE(t, s = 1)", b"0 FETCH c 0", b"0 SELECT " + b"x" * 4087, b"0 SELECT " + b"x" * 4088, b"0 SELECT " + b"x" * 9000,
        b"0 SELECT " + b"x" * 4085 + b"\xc3\xa9\xc3\xa9", b"0 SELECT " + b"x" * 4086 + b"\xc3\xa9", b"0 SELECT " + b"x" * 4086 + b"\r", b"0 SELECT " + b"x" * 4087 + b"\r",
    ]
    return rows + odd


def check_reported():
    """Pseudo-random lines of all these, in one piece and in pieces: each is told with its number and its text."""
    chance = random.Random(8)
    odd = refused_lines()
    for count in (len(odd), 3_000):
        lines = odd if count == len(odd) else odd[:2] + [chance.choice(odd) for _ in range(count)]
        data = b"".join(line + b"\n" for line in lines)
        plain = run("run", data=data)
        status, out, errors = run("run", "--report", data=data)
        expect("the replies with --report", out, plain[1])
        expect("what is told of %d lines" % len(lines), errors, told_of_lines(lines, last_replies(out)))
        expect("the status with --report", status, 1)
        expect("how many are told", len(errors.splitlines()) < 200, True)
    with subprocess.Popen([PROGRAM, "run", "--report"], stdin=subprocess.PIPE, stdout=subprocess.PIPE, stderr=subprocess.PIPE) as process:
        process.stdin.write(b"0 SELECT no")
        process.stdin.flush()
        time.sleep(0.1)
        process.stdin.write(b"thing\n")
        process.stdin.flush()
        expect("a line in two pieces", process.stdout.readline(), b"0 ERR 21 no such name\n")
        expect("told at once", process.stderr.readline(), b"roadseg: line 1: ERR 21 no such name: 0 SELECT nothing\n")
        process.stdin.close()
        process.stderr.read()
        expect("the status then", process.wait(LONGEST), 1)


def check_nowhere():
    """Where the errors stream takes nothing, the replies and the status are the same."""
    lines = b"0 SELECT nothing\n" * 30
    with open("/dev/full", "wb") as full:
        done = subprocess.run([PROGRAM, "run", "--report"], input=lines, stdout=subprocess.PIPE, stderr=full, timeout=LONGEST)
    expect("without room for errors", (done.returncode, done.stdout), (1, b"0 ERR 21 no such name\n" * 30))


def check_packed(count=12_000):
    """Lines that wait for routes go out as they were: notes that repeat one another and others, in more texts than are known, and in letters of many kinds."""
    chance = random.Random(9)
    alphabets = [string.ascii_letters + string.digits + " ,'-", "абвгдежзик ", "山川道路橋雨雪", "\U0001f6a7\U0001f698é'"]
    streets = ["%d %s %s" % (chance.randrange(100), chance.choice(["Main", "Élan", "O'Brien's", "Franklin", "山"]), chance.choice(["St", "Ave", "Rd"])) for _ in range(200)]
    records, wanted = ["route,at,note,nr"], []
    for number in range(count):
        letters = alphabets[chance.randrange(4) if number > count // 2 else 0]
        note = chance.choice(streets) if chance.randrange(3) == 0 else "".join(chance.choice(letters) for _ in range(chance.randrange(1, 30))).strip(" ") or "x"
        records.append('SR%d,%d.%03d,"%s",%d' % (number % 7, number, number % 1000, note, number))
        wanted.append("0 INSERT INTO notes ON SR%d AT %d.%03d VALUES ('%s', %d)" % (number % 7, number, number % 1000, note.replace("'", "''"), number))
    got = run("csv", "DEFINE POINT TABLE notes (note TEXT(120), nr INT)", "--no-define", "--routes", data=("\n".join(records) + "\n").encode())
    expect("the end of lines that waited", (got[0], got[2]), (0, b""))
    lines = got[1].decode().split("\n")
    expect("routes before lines that waited", [line.split(" FROM ")[0] for line in lines[:7]], ["0 DEFINE ROUTE SR%d" % route for route in range(7)])
    for place, (line, other) in enumerate(zip(lines[7:], [*wanted, ""], strict=True)):
        expect("line %d that waited" % place, line, other)


def check_refused_growths():
    """Whichever growth is refused, a front of the lines is out, and want of memory is told."""
    chance = random.Random(6)
    records = [some_record(chance) for _ in range(20)]
    data = csv_of([fields for fields in records if isinstance(line_of(fields)[0], str)], "\n")
    with tempfile.TemporaryDirectory() as folder:
        library = refusing.build(folder)
        for words in (WORDS, [*WORDS, "--routes", "--round"], ["explain"]):
            whole = run(*words, data=data)[1]
            for number in range(1, 101):
                settings = dict(os.environ, LD_PRELOAD=library, **refusing.Refusal(growth=number).settings())
                done = subprocess.run([PROGRAM, *words], input=data, capture_output=True, env=settings, timeout=LONGEST)
                if done.stdout == whole:
                    break
                what = "growth %d of %s" % (number, words[0])
                expect(what, (done.returncode, done.stderr), (1, b"roadseg: ERR 90 out of memory\n"))
                expect(what, whole.startswith(done.stdout), True)


def main():
    try:
        records = check_random()
        check_numbers()
        check_fields()
        check_quotes()
        check_words()
        check_names()
        check_scales()
        check_made_names()
        check_numbered()
        check_rejects()
        check_stations()
        check_definitions()
        check_separators()
        check_widest()
        check_loading()
        refusals = check_explained()
        check_watched()
        check_reported()
        check_nowhere()
        check_packed()
        check_refused_growths()
    except Unexpected as fault:
        print("csv_lines: %s" % fault)
        print("0 passed, 1 failed")
        sys.exit(1)
    print("csv and explain: %d records made into lines, %d refusals explained" % (records, refusals))
    print("%d passed, 0 failed" % (records + refusals))


if __name__ == "__main__":
    if len(sys.argv) > 1:
        PROGRAM = sys.argv[1]
    main()
