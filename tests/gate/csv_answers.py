"""`roadseg ask`, `roadseg run --csv` and `roadseg table`; scripts/test.sh runs it.

What the first two print is read by the module `csv` of Python and compared with the replies of `run` to the same lines, which are read here
by a reader of their own, over pseudo-random texts with quotes, commas, marks and spaces. Files are read as they are: closed, with an open
gate, only readable, in use, or none. Tables are aligned by Python too, over pseudo-random records.
"""

import csv
import io
import os
import random
import re
import subprocess
import sys
import tempfile

import folders  # noqa: F401, the path of modules
import refusing
from programs import PROGRAM, ROOT, ended_as_nobody
from slow_checkpoint import being_written

NETWORK = os.path.join(ROOT, "examples", "network.txt")
LETTERS = "ab Z'',\"\"é;"
ROWS = 2_000
LONGEST = 120  # seconds
CELL = re.compile(r"'(?:[^']|'')*'|[^ ]+")
SETUP = ["DEFINE ROUTE A FROM 0 TO 100", "DEFINE REFERENT A BRIDGE AT 50", "DEFINE LINE TABLE t (name TEXT(12), n INT)", "DEFINE POINT TABLE p (v INT, w TEXT(12))"]
QUESTIONS = [
    ("SELECT t", ["route", "from", "to", "name", "n"]),
    ("  SELECT p", ["route", "at", "v", "w"]),
    ("SELECT t AS RELATIVE", ["route", "from", "to", "name", "n"]),
    ("SELECT DISSOLVE(t, ())", ["route", "from", "to"]),
    ("SELECT RENAME(WHERE(t, n < 0), n TO m)", ["route", "from", "to", "name", "m"]),
    ("SELECT OVERLAY(p, t)", ["route", "at", "v", "w", "name", "n"]),
    ("TOTAL t BY (name)", ["name", "length"]),
    ("TOTAL t BY ()", ["length"]),
    ("TOTAL OVERLAY(p, t) BY (w, name) SUM n", ["w", "name", "length", "weight", "sum"]),
]


class Unexpected(Exception):
    """The program did something else."""


def expect(what, got, wanted):
    """Compares what was got with what is wanted."""
    if got != wanted:
        raise Unexpected("%s:\n got    %.600r\n wanted %.600r" % (what, got, wanted))


def run(*words, data=b""):
    """Runs the program: its status, standard output and standard error."""
    done = subprocess.run([PROGRAM, *words], input=data, capture_output=True, timeout=LONGEST)
    return done.returncode, done.stdout, done.stderr


def answered(file, lines):
    """What `run` answers to lines of session 0."""
    status, out, errors = run("run", "--file", file, data="".join("0 %s\n" % line for line in lines).encode())
    expect("a run", (status, errors), (0, b""))
    return out.decode()


def created(file, lines):
    """Makes a file in which these lines are accepted."""
    expect("create", run("create", "--file", file), (0, b"", b""))
    expect("what is refused", [line for line in answered(file, lines).splitlines() if " OK " not in line], [])


def field_of(cell):
    """What a record has for a cell of a row."""
    if cell == "NULL":
        return ""
    return cell[1:-1].replace("''", "'") if cell.startswith("'") else cell


def rows_of(reply):
    """The fields of each row of a reply."""
    return [[field_of(cell) for cell in CELL.findall(line[6:])] for line in reply.splitlines() if line.startswith("0 ROW ")]


def text_of(chance):
    """A text as a line has it, or NULL."""
    text = "".join(chance.choice(LETTERS) for _ in range(chance.randrange(9)))
    return chance.choice(["NULL", "'%s'" % text.replace("'", "''")])


def filled(folder, rows=ROWS):
    """A file of pseudo-random rows."""
    chance, lines = random.Random(68), list(SETUP)
    for place in range(rows):
        start = chance.randrange(99_000)
        lines.append("INSERT INTO t ON A FROM %.3f TO %.3f VALUES (%s, %d)" % (start / 1000, (start + 500) / 1000, text_of(chance), chance.randrange(-9, 9)))
        lines.append("INSERT INTO p ON A AT %.3f VALUES (%d, %s)" % (start / 1000, place, text_of(chance)))
    file = os.path.join(folder, "filled.seg")
    created(file, lines)
    return file


def the_rows_are_those_of_run(folder):
    file = filled(folder)
    with open(file, "rb") as bytes_of:
        before = bytes_of.read()
    together = b""
    for question, header in QUESTIONS:
        reply = answered(file, [question])
        status, out, errors = run("ask", "--file", file, question)
        expect("the end of %r" % question, (status, errors), (0, b""))
        records = list(csv.reader(io.StringIO(out.decode(), newline=""), lineterminator="\n"))
        expect("the header of %r" % question, records[0], header)
        expect("the rows of %r" % question, records[1:], rows_of(reply))
        together += out
    expect("all questions", run("ask", "--file", file, *[question for question, _ in QUESTIONS]), (0, together, b""))
    with open(file, "rb") as bytes_of:
        expect("whether the file is as it was", bytes_of.read() == before, True)


def a_table_goes_in_again(folder):
    file, again = filled(folder, 300), os.path.join(folder, "again.seg")
    _, out, _ = run("ask", "--file", file, "SELECT t")
    status, lines, errors = run("csv", "DEFINE LINE TABLE t (name TEXT(12), n INT)", "--no-define", data=out)
    expect("csv of an answer", (status, errors), (0, b""))
    created(again, SETUP)
    expect("a load", run("run", "--file", again, "--bail", data=lines)[0], 0)
    expect("the same answer", run("ask", "--file", again, "SELECT t"), (0, out, b""))


def refused_questions_are_told(folder):
    file = os.path.join(folder, "empty.seg")
    created(file, SETUP)
    told = b"roadseg: question 2: ERR 21 no such name: 0 SELECT crash\nroadseg: question 4: ERR 11 syntax at 10: 0 SELECT (\n"
    wanted = (1, b"route,from,to,name,n\nv,length\n", told)
    expect("refused questions", run("ask", "--file", file, "SELECT t", "SELECT crash", "TOTAL p BY (v)", "SELECT ("), wanted)


def other_words_are_refused(folder):
    missing = os.path.join(folder, "missing.seg")
    for question in ("OPEN c FOR SELECT t", "FETCH 3 FROM c", "EXPLAIN t", "INSERT INTO t ON A AT 1 VALUES (1)", "select t", "SELECTED", "TOTAL_ t", "0 SELECT t", " (SELECT t", "  ", ""):
        told = "error: a question begins with SELECT or TOTAL, unlike: %s\n" % question
        expect(question, run("ask", "--file", missing, "SELECT t", question, "DROP TABLE t"), (2, b"", told.encode()))
    expect("no question", run("ask", "--file", missing)[:2], (2, b""))
    expect("no file", run("ask", "SELECT t")[:2], (2, b""))


def files_are_read_as_they_are(folder):
    file, early = filled(folder, 200), os.path.join(folder, "early.seg")
    created(early, SETUP)
    wanted = run("ask", "--file", file, "SELECT t")
    with open(file, "rb") as late, open(early, "rb") as first:
        data, before = late.read(), first.read()
    torn = os.path.join(folder, "torn.seg")
    with open(torn, "wb") as written:
        written.write(being_written(before, data))
    with open(torn, "rb") as bytes_of:
        shown = bytes_of.read()
    expect("a file whose gate is open", run("ask", "--file", torn, "SELECT t"), wanted)
    with open(torn, "rb") as bytes_of:
        expect("whether it is as it was", bytes_of.read() == shown, True)
    os.chmod(file, 0o444)
    os.chmod(folder, 0o555)
    try:
        ended = ended_as_nobody(PROGRAM, ["ask", "--file", file, "SELECT t"], LONGEST)
        expect("a file that is only readable", tuple(ended), wanted)
    finally:
        os.chmod(folder, 0o755)
        os.chmod(file, 0o644)
    absent = os.path.join(folder, "absent.seg")
    told = "roadseg: cannot open file\nroadseg: %s: no such file\n" % absent
    expect("no file", run("ask", "--file", absent, "SELECT t"), (1, b"", told.encode()))
    expect("a text", run("ask", "--file", NETWORK, "SELECT t"), (1, b"", b"roadseg: ERR 94 damaged file\n"))
    with subprocess.Popen([PROGRAM, "run", "--file", file], stdin=subprocess.PIPE, stdout=subprocess.PIPE) as other:
        other.stdin.write(b"0 SAVE\n")
        other.stdin.flush()
        other.stdout.readline()
        told = "roadseg: cannot open file\nroadseg: %s: in use by another program\n" % file
        expect("a file in use", run("ask", "--file", file, "SELECT t"), (1, b"", told.encode()))
        other.stdin.close()
        other.wait(LONGEST)
    with open("/dev/full", "wb") as full:
        done = subprocess.run([PROGRAM, "ask", "--file", file, "SELECT t"], stdout=full, stderr=subprocess.PIPE, timeout=LONGEST)
    expect("a full output", (done.returncode, done.stderr), (1, b"roadseg: write fault\n"))


def last_lines(replies):
    """The replies to the lines of a run, each as its lines."""
    reply, found = [], []
    for line in replies.splitlines():
        reply.append(line)
        if not re.match("[0-9]+ ROW ", line):
            found.append(reply)
            reply = []
    return found


def asked_lines(chance, count):
    """Pseudo-random lines of sessions, each with the header of its answer."""
    lines = [("0 %s" % line, []) for line in SETUP]
    for place in range(count):
        start = chance.randrange(99_000)
        session = chance.randrange(3)
        question, header = chance.choice(QUESTIONS)
        way = chance.randrange(12)
        if way < 4:
            lines.append(("%d INSERT INTO t ON A FROM %.3f TO %.3f VALUES (%s, %d)" % (session, start / 1000, (start + 500) / 1000, text_of(chance), chance.randrange(-9, 9)), []))
        elif way < 6:
            lines.append(("%d INSERT INTO p ON A AT %.3f VALUES (%d, %s)" % (session, start / 1000, place, text_of(chance)), []))
        elif way < 8:
            lines.append(("%d %s" % (session, question.strip()), header))
        elif way == 8:
            lines.append(("%d TRANSLATE A %s AS RELATIVE" % (session, chance.choice(["7", "50%", "@BRIDGE", "101"])), ["position"]))
        elif way == 9 and question.strip().startswith("SELECT"):
            lines.append(("%d OPEN %s FOR %s" % (session, chance.choice("cd"), question.strip()[7:]), header))
        elif way == 10:
            lines.append(("%d FETCH %s %d" % (session, chance.choice("cd"), chance.randrange(1, 9)), []))
        else:
            lines.append((chance.choice(["%d CLOSE c", "%d SELECT none", "%d DROP TABLE q", "%d", "%d SELECT t;", "%d REOPEN", "64 SAVE%.0d", "%d SELECT t \t", "%d " + "x" * 5000]) % session, []))
    return lines


def told_of(number, line, reply):
    """What is told of a refused line."""
    front = re.split("[\\x00-\\x1f\\x7f]", line[:4096])[0]
    return "roadseg: line %d: %s: %s%s\n" % (number, reply.split(" ", 1)[1], front, "" if front == line else "..")


def lines_are_answered_as_csv(folder):
    lines = asked_lines(random.Random(69), 1_500)
    data = "".join("%s\n" % line for line, _ in lines).encode()
    file, other = os.path.join(folder, "file.seg"), os.path.join(folder, "other.seg")
    created(file, [])
    created(other, [])
    replies = last_lines(run("run", "--file", file, data=data)[1].decode())
    expect("how many replies", len(replies), len(lines))
    text, told, refused = io.StringIO(), "", []
    writer = csv.writer(text, lineterminator="\n")
    for number, ((line, header), reply) in enumerate(zip(lines, replies), 1):
        if " ERR " in reply[-1]:
            told += told_of(number, line, reply[-1])
            refused.append(re.sub(" at [0-9]+", " at C", reply[-1].split(" ERR ", 1)[1]))
            continue
        if header:
            writer.writerow(header)
        writer.writerows([[field_of(cell) for cell in CELL.findall(row.split(" ROW ", 1)[1])] for row in reply[:-1]])
    for words in (["--file", other], []):
        status, out, errors = run("run", "--csv", *words, data=data)
        expect("the records", list(csv.reader(io.StringIO(out.decode(), newline=""))), list(csv.reader(io.StringIO(text.getvalue(), newline=""))))
        expect("what is told", errors.decode(), told)
        expect("the status", status, 1)
    expect("the files", run("dump", "--file", file), run("dump", "--file", other))
    counted = told + "roadseg: lines answered: %d, refused: %d\n" % (len(lines), len(refused))
    counted += "".join("roadseg: refused %s: %d\n" % (refusal, refused.count(refusal)) for refusal in sorted(set(refused), key=lambda refusal: int(refusal.split()[0])))
    expect("with a report", run("run", "--csv", "--report", data=data)[2].decode(), counted)
    first = told.splitlines(True)[0]
    status, out, errors = run("run", "--csv", "--bail", "--report", data=data)
    expect("up to the first refused line", (status, errors.decode().startswith(first), errors.count(b"\n")), (1, True, 3))
    number = int(re.match("roadseg: line ([0-9]+)", first).group(1))
    accepted = "".join("%s\n" % line for line, _ in lines[: number - 1]).encode()
    expect("what was answered by then", run("run", "--csv", data=accepted), (0, out, b""))


def a_cursor_has_one_header(folder):
    file = filled(folder, 900)
    whole = run("ask", "--file", file, "SELECT OVERLAY(p, t)")[1]
    fetches = "".join("5 FETCH c 100\n" for _ in range(whole.count(b"\n") // 100 + 1))
    expect("the parts", run("run", "--csv", "--file", file, data=("5 OPEN c FOR OVERLAY(p, t)\n%s" % fetches).encode()), (0, whole, b""))


def inputs_end_as_they_do(folder):
    file = os.path.join(folder, "file.seg")
    created(file, SETUP)
    head = b"route,from,to,name,n\n"
    expect("no line", run("run", "--csv", "--file", file), (0, b"", b""))
    expect("a cut line", run("run", "--csv", "--file", file, data=b"0 SELECT t\n0 SELECT p"), (0, head, b""))
    told = b"roadseg: lines answered: 1, refused: 0\nroadseg: the last line lacks its line feed and was not answered\n"
    expect("a cut line, reported", run("run", "--csv", "--report", "--file", file, data=b"0 SELECT t\r\n0 SELECT p"), (0, head, told))
    expect("a long line", run("run", "--csv", data=b"0 " + b"x" * 100_000 + b"\n")[2], b"roadseg: line 1: ERR 2 line too long: 0 " + b"x" * 4094 + b"..\n")
    absent = os.path.join(folder, "absent.seg")
    expect("no file", run("run", "--csv", "--file", absent), (1, b"", ("roadseg: cannot open file\nroadseg: %s: no such file\n" % absent).encode()))
    with open("/dev/full", "wb") as full:
        done = subprocess.run([PROGRAM, "run", "--csv", "--file", file], input=b"0 SELECT t\n", stdout=full, stderr=subprocess.PIPE, timeout=LONGEST)
    expect("a full output", (done.returncode, done.stderr), (1, b"roadseg: write fault\n"))


def aligned(records):
    """Records as lines, with their columns aligned."""
    shown = [[re.sub("[\\x00-\\x1f\\x7f]", " ", field) for field in record] for record in records]
    widths = [max(len(record[place]) if place < len(record) else 0 for record in shown) for place in range(max(map(len, shown)))]
    right = [all(place >= len(row) or row[place] == "" or re.fullmatch("[0-9.+%-]*[0-9][0-9.+%-]*", row[place]) for row in records[1:]) for place in range(len(widths))]
    lines = []
    for record in shown:
        cells = [field.rjust(widths[place]) if right[place] else field.ljust(widths[place]) for place, field in enumerate(record)]
        if record and not right[len(record) - 1]:
            cells[-1] = record[-1]
        lines.append("  ".join(cells) + "\n")
    return "".join(lines)


def table_of(records):
    """The table of some records, a portion of 1,000 at a time."""
    rows = records[1:]
    return "\n".join(aligned(records[:1] + rows[place : place + 1000]) for place in range(0, max(len(rows), 1), 1000)) if records else ""


def columns_are_aligned(folder):
    chance = random.Random(70)
    letters = "ab 7.,\"é;'語\n-"
    for count, separator in ((0, ","), (1, ","), (999, ","), (1000, ";"), (1001, ","), (3_500, "\t")):
        records = [["route", "from", "é,\"", "n"]]
        for _ in range(count):
            fields = ["SR%d" % chance.randrange(200), "%.3f" % (chance.randrange(10**6) / 1000), "".join(chance.choice(letters) for _ in range(chance.randrange(9))), chance.choice(["", "12", "-3.5", "28.07%", "12+50.5"])]
            records.append(fields + ["x"] * (chance.randrange(50) == 0) if chance.randrange(40) else fields[: chance.randrange(1, 4)])
        text = io.StringIO()
        csv.writer(text, delimiter=separator, lineterminator=chance.choice(["\n", "\r\n"])).writerows(records)
        words = [] if separator == "," else ["--separator", "tab" if separator == "\t" else separator]
        wanted = table_of([record for record in csv.reader(io.StringIO(text.getvalue(), newline=""), delimiter=separator) if record])
        expect("a table of %d" % count, run("table", *words, data=text.getvalue().encode()), (0, wanted.encode(), b""))
    expect("no record", run("table"), (0, b"", b""))
    expect("no separator", run("table", "--separator", "ab"), (2, b"", b"error: the separator is no byte that parts fields, nor tab\n"))
    shown = b"route   from     to  name\nA      0.000  1.000  ab\nA      9.500      1  c\n"
    expect("a small one", run("table", data=b"route,from,to,name\nA,0.000,1.000,ab\nA,9.500,1,c\n"), (0, shown, b""))
    with open("/dev/full", "wb") as full:
        done = subprocess.run([PROGRAM, "table"], input=b"a,b\n1,2\n", stdout=full, stderr=subprocess.PIPE, timeout=LONGEST)
    expect("a full output", (done.returncode, done.stderr), (1, b"roadseg: write fault\n"))


def each_growth_is_refused(folder):
    """Whichever growth is refused, what is out is a front, or lacks what was refused, and want of memory is told."""
    library, file = refusing.build(folder), filled(folder, 20)
    lines = b"0 SELECT t\n1 OPEN c FOR p\n1 FETCH c 9\n0 TOTAL t BY (name)\n"
    records = run("ask", "--file", file, "SELECT t")[1]
    for words, data in ((["table"], records), (["ask", "--file", file, "SELECT t", "TOTAL p BY (w)"], b""), (["run", "--csv", "--file", file], lines)):
        whole, told = run(*words, data=data)[1], set()
        for number in range(1, 1_000):
            settings = dict(os.environ, LD_PRELOAD=library, **refusing.Refusal(growth=number).settings())
            done = subprocess.run([PROGRAM, *words], input=data, capture_output=True, env=settings, timeout=LONGEST)
            if (done.stdout, done.returncode, done.stderr) == (whole, 0, b""):
                break
            what = "growth %d of %s" % (number, words[0])
            told.add(re.sub(b"(line|question) [0-9]+: ERR 90.*", rb"\1", done.stderr))
            expect(what, (done.returncode, set(done.stdout.splitlines()) <= set(whole.splitlines())), (1, True))
        expect("the last growth of %s" % words[0], done.stdout, whole)
        allowed = {b"roadseg: ERR 90 out of memory\n", b"roadseg: line\n", b"roadseg: question\n", b"roadseg: read fault\n"}
        expect("what is told of %s" % words[0], told - allowed, set())


TESTS = [
    the_rows_are_those_of_run, a_table_goes_in_again, refused_questions_are_told, other_words_are_refused, files_are_read_as_they_are, lines_are_answered_as_csv, a_cursor_has_one_header,
    inputs_end_as_they_do, columns_are_aligned, each_growth_is_refused,
]


def main():
    """Runs the tests, and gives the exit status."""
    failed = 0
    for test in TESTS:
        with tempfile.TemporaryDirectory() as folder:
            os.chmod(folder, 0o755)
            try:
                test(folder)
            except Unexpected as wrong:
                failed += 1
                print("%s: %s" % (test.__name__, wrong))
    print("%d passed, %d failed" % (len(TESTS) - failed, failed))
    return 1 if failed else 0


if __name__ == "__main__":
    sys.exit(main())
