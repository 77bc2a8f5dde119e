"""Tests of the prompt, `python -m roadseg`, in a pseudo-terminal and without one. tests/gate/clients.py runs them."""

import functools
import os
import pty
import re
import select
import subprocess
import sys
import time

from client_parts import CLIENTS, DEFINED, NETWORK, measures, running
from harness import Wrong, bytes_at, expect
from runs import LONGEST, serving

PROMPT, MORE = "roadseg> ", "    ...> "
# Takes the terminal as its own, as a shell's child has it, so that Ctrl-C reaches it; and becomes the prompt.
STARTED = """
import fcntl, os, signal, sys, termios
signal.signal(signal.SIGINT, signal.SIG_DFL)  # also where this test was started in the background, which ignores it
fcntl.ioctl(0, termios.TIOCSCTTY, 0)
os.execv(sys.executable, [sys.executable] + sys.argv[1:])
"""
PATIENCE = 5 * LONGEST  # seconds that anything may take: Python starts for each prompt, and a busy machine is slow at that
PAUSE = 0.01  # seconds between looks at a process
UP, INTERRUPT, END = "\x10", "\x03", "\x04"  # Ctrl-P is the line before
ASLEEP = b"S"  # the state of a process that waits, as /proc tells it


class Terminal:
    """A prompt in a pseudo-terminal."""

    def __init__(self, program, *words):
        self.screen, child = pty.openpty()
        environment = {**os.environ, "PYTHONPATH": CLIENTS, "TERM": "dumb", "COLUMNS": "100", "LINES": "24"}
        environment.update(ROADSEG_HISTORY=program.file("history"), PYTHONIOENCODING="utf-8", INPUTRC=os.devnull)
        words = [sys.executable, "-c", STARTED, "-m", "roadseg", "--program", program.path, *words]
        self.process = subprocess.Popen(words, stdin=child, stdout=child, stderr=child, env=environment, start_new_session=True)
        os.close(child)

    def __enter__(self):
        return self

    def __exit__(self, *_fault):
        if self.process.poll() is None:
            self.process.kill()
        self.process.wait()
        os.close(self.screen)

    def until(self, wanted):
        """What is written up to these words at the end of it."""
        until, seen = time.monotonic() + PATIENCE, b""
        while not seen.decode(errors="replace").endswith(wanted):
            if not select.select([self.screen], [], [], max(until - time.monotonic(), 0))[0]:
                raise Wrong("no %r came after %r" % (wanted, seen))
            try:
                data = os.read(self.screen, 65_536)
            except OSError:
                data = b""
            if not data:
                raise Wrong("it ended, and no %r came after %r" % (wanted, seen))
            seen += data
        return seen.decode().replace("\r\n", "\n")

    def send(self, text):
        os.write(self.screen, text.encode())

    def ask(self, line, then=PROMPT):
        """What is written after a line was typed, up to the next prompt. The echo of the line is left out."""
        self.send(line + "\n")
        seen = self.until(then)
        return seen[: -len(then)].partition("\n")[2]

    def interrupt(self):
        """Types Ctrl-C, and gives what is written up to the next prompt. It is typed once the prompt waits for keys: before that
        Python would note it, and go on waiting up to the next key."""
        until = time.monotonic() + PATIENCE
        while state_of(self.process.pid) != ASLEEP:
            if time.monotonic() > until:
                raise Wrong("the prompt waits for nothing")
            time.sleep(PAUSE)
        self.send(INTERRUPT)
        return self.until(PROMPT)

    def end(self, keys=".quit\n"):
        self.send(keys)
        return self.process.wait(PATIENCE)


def state_of(process):
    """The letter by which the system says what a process does."""
    return bytes_at("/proc/%d/stat" % process).rpartition(b") ")[2][:1]


def started(program, *words):
    terminal = Terminal(program, *words)
    terminal.until(PROMPT)
    return terminal


def filled(program):
    file = program.created()
    with open(NETWORK, "rb") as lines:
        program.run("run", "--file", file, sent=lines.read())
    return file


CRASHES = """route     at  num  severity
-----  -----  ---  --------
SR12   2.480    1  injury
SR12   4.000    2  fatal
SR12   4.000    3  property
(3 rows)
"""
TOTALS = """surface   length
--------  ------
asphalt   19.725
concrete  35.300
(2 rows)
"""


def answers_are_aligned_under_headers(program):
    file = filled(program)
    with started(program, file) as terminal:
        expect("rows", terminal.ask("SELECT WINDOW(crashes, SR12)"), CRASHES)
        expect("a total", terminal.ask("TOTAL pavement BY (surface);"), TOTALS)
        wanted = "route    from      to  contractor  per_mile\n-----  ------  ------  ----------  --------\nI95    10.000  22.000  Verge           NULL\n(1 row)\n"
        expect("NULL", terminal.ask("SELECT WINDOW(mowing, I95)"), wanted)
        expect("no rows", terminal.ask("SELECT WINDOW(speed, SR12N)"), "route  from  to  mph\n-----  ----  --  ---\n(0 rows)\n")
        expect("a position", terminal.ask("TRANSLATE SR12 4 AS RELATIVE"), "position\n-------------\n@BRIDGE+0.000\n(1 row)\n")
        expect("a plan", terminal.ask("EXPLAIN OVERLAY(pavement, traffic)"), "OVERLAY 2\n  SCAN traffic 0 0\n  SCAN pavement 0 0\n")
        expect("an insertion", terminal.ask("INSERT INTO speed ON SR12N FROM 0 TO 1 VALUES (25)"), "OK 1000\n")
        expect("an empty line", terminal.ask(""), "")
        expect("its end", terminal.end(), 0)
    with running(program, file=file) as road:
        expect("what it kept", list(road.select("WINDOW(speed, SR12N)")), [("SR12N", *measures("0", "1"), 25)])


def texts_of_all_scripts_are_aligned_and_steer_no_terminal(program):
    file = program.created()
    with running(program, *DEFINED, file=file) as road:
        for k, text in enumerate(("道路", "é", "e\u0301", "x\x9b31m\x80", "\u2028", "plain")):
            road.execute("INSERT INTO signs ON A AT ? VALUES (?, ?)", [k, k, text])
    with started(program, file) as terminal:
        lines = terminal.ask("SELECT DISSOLVE(signs, (code, num))").splitlines()[2:8]
        wanted = ["道路      0", "é         1", "e\u0301         2", "x\ufffd31m\ufffd    3", "\ufffd         4", "plain     5"]
        expect("the rows", [line[len("route     at  ") :] for line in lines], wanted)
        expect("its end", terminal.end(), 0)


def a_caret_is_under_the_fault(program):
    with started(program, filled(program)) as terminal:
        for line, caret, refusal in (
            ("SELECT pavement WHERE year < 2005", "                ^", "11 syntax at 19"),
            ("SELECT WHERE(pavement, surface = é)", "                                 ^", "10 unknown character"),
            ("SELECT WHERE(pavement, surface = '道' year)", "                                      ^", "11 syntax at 42"),
            ("DEFINE ROUTE I-95 FROM 0 TO 12", "              ^", "11 syntax at 17"),
            ("SELECT OVERLAY(pavement traffic)", "                        ^", "11 syntax at 27"),
            ("TOTAL pavement BY surface", "                  ^", "11 syntax at 21"),
            ("SELECT 'open", "       ^", "10 unknown character"),
            ("SAVE now", "     ^", "11 syntax at 8"),
        ):
            wanted = "    %s\n    %s\n%s (.explain says what it means)\n" % (line, caret, refusal)
            expect(line, terminal.ask(line), wanted)
        expect("a refusal without a place", terminal.ask("SELECT none"), "21 no such name (.explain says what it means)\n")
        found = terminal.ask("SELECT " + "WHERE(" * 12 + "pavement, year = 1 AND " * 4 + "?" + "x" * 40).splitlines()
        expect("a long line", (len(found[0]) < 100, found[0][found[1].index("^")]), (True, "?"))
        expect("a session in front", terminal.ask("7 SELECT ,;").splitlines()[:2], ["    SELECT ,", "           ^"])


def a_refusal_is_explained_on_request(program):
    with started(program, filled(program)) as terminal:
        expect("before any", terminal.ask(".explain"), "nothing was refused yet\n")
        terminal.ask("SELECT none")
        wanted = program.run("explain", "21").out.decode()
        expect("the last", terminal.ask(".explain"), wanted)
        expect("another", terminal.ask(".explain 95"), program.run("explain", "95").out.decode())
        expect("one that is none", terminal.ask(".explain 77"), program.run("explain", "77").errors.decode().strip() + "\n")
        expect("a plan", terminal.ask(".explain OVERLAY(pavement, traffic);"), "OVERLAY 2\n  SCAN traffic 0 0\n  SCAN pavement 0 0\n")
        expect("a plan that is none", terminal.ask(".explain none"), "21 no such name (.explain says what it means)\n")


def statements_end_where_they_can(program):
    with started(program, filled(program)) as terminal:
        expect("a comment", terminal.ask("SELECT WINDOW(crashes, SR12); -- where; and what"), CRASHES)
        expect("two on a line", terminal.ask("TOTAL pavement BY (surface); SELECT WINDOW(crashes, SR12)"), TOTALS + CRASHES)
        terminal.ask("SELECT WINDOW(crashes, -- open", MORE)
        terminal.ask("", MORE)
        expect("over lines", terminal.ask("SR12);"), CRASHES)
        terminal.ask("TOTAL pavement", MORE)
        expect("a word that lacks", terminal.ask("  BY (surface)"), TOTALS)
        terminal.ask("SELECT", MORE)
        expect("after a word", terminal.ask("WINDOW(crashes, SR12)"), CRASHES)
        wanted = "route  at  num  severity\n-----  --  ---  --------\n(0 rows)\n"
        expect("signs in quotes", terminal.ask("SELECT WHERE(crashes, severity = '; -- ''');"), wanted)
        terminal.ask("SELECT", MORE)
        expect("an end that is asked for", terminal.ask(";").splitlines()[2], "11 syntax at 9 (.explain says what it means)")
        expect("only a comment", terminal.ask("-- nothing"), "")
        expect("a line as it stands in a document", terminal.ask("0 SELECT WINDOW(crashes, SR12)"), CRASHES)


def on_screen(text):
    """What a line shows once all was written, where some of it goes back."""
    cells, place = [], 0
    for character in text.replace("\x07", ""):
        if character == "\x08":
            place -= 1
        else:
            cells[place : place + 1] = [character]
            place += 1
    return "".join(cells)


def words_are_completed(program):
    with started(program, filled(program)) as terminal:
        for typed, shown in (
            ("SEL\tpav\t;", "SELECT pavement;"),
            ("sel\tWIN\tcras\t, SR12N\t)", "SELECT WINDOW(crashes, SR12N)"),
            ("TOTAL pavement BY (sur\t)", "TOTAL pavement BY (surface)"),
            ("SELECT crashes AS INT\t", "SELECT crashes AS INTERPOLATIVE"),
            ("TRANSLATE SR12 @BR\t AS ABS\t", "TRANSLATE SR12 @BRIDGE AS ABSOLUTE"),
            (".rou\t", ".routes "),
            (".schema cra\t", ".schema crashes"),
            ("EXPLAIN OVER\tpavement, traf\t)", "EXPLAIN OVERLAY(pavement, traffic)"),
        ):
            terminal.send(typed + "\n")
            seen = terminal.until(PROMPT)
            expect("what %r becomes" % typed, on_screen(seen.partition("\n")[0]), shown)


def lines_are_remembered(program):
    file = filled(program)
    with started(program, file) as terminal:
        terminal.ask("SELECT WINDOW(crashes, SR12)")
        expect("the line before", terminal.ask(UP), CRASHES)
        expect("its end", terminal.end(), 0)
    with started(program, file) as terminal:
        terminal.send(UP + UP + "\n")
        expect("the line of the day before", CRASHES in terminal.until(PROMPT), True)
        expect("its end", terminal.end(), 0)
    expect("who may read them", os.stat(program.file("history")).st_mode & 0o077, 0)


def large_answers_come_page_by_page(program):
    file = program.created()
    with running(program, *DEFINED, file=file) as road:
        road.load("signs", [("A", k, k, "x" * k) for k in range(10)])
    ends = "-- more: Enter goes on, q ends -- "
    with started(program, "--page", "4", file) as terminal:
        first = terminal.ask("SELECT signs", ends)
        expect("the first page", [line.split()[1] for line in first.splitlines()[2:]], ["0.000", "1.000", "2.000", "3.000"])
        second = terminal.ask("", ends)
        expect("the second", [line.split()[1] for line in second.splitlines()[2:]], ["4.000", "5.000", "6.000", "7.000"])
        last = terminal.ask("")
        expect("the last", (last.splitlines()[0].split(), last.splitlines()[2:][0].split()[1], last.splitlines()[-1]), (["route", "at", "num", "code"], "8.000", "(10 rows)"))
        terminal.ask("SELECT signs", ends)
        expect("an end", terminal.ask("q"), "(4 rows so far)\n")
        terminal.ask("SELECT signs", ends)
        expect("an interrupt", terminal.interrupt().endswith("^C\n" + PROMPT), True)
        expect("no cursor is open", terminal.ask("DROP TABLE pave"), "OK 0\n")
        expect("a page that is full", terminal.ask("SELECT WHERE(signs, num < 4)", ends).splitlines()[-1].split()[1], "3.000")
        expect("and nothing after it", terminal.ask(""), "(4 rows)\n")
        for k in range(4):
            terminal.ask("OPEN c%d FOR signs" % k)
        terminal.ask("SELECT signs", ends)
        expect("without a cursor", terminal.ask("q"), "(4 rows so far)\n")
        expect("its end", terminal.end(), 0)


def keys_interrupt_and_end(program):
    file = filled(program)
    with started(program, file) as terminal:
        terminal.ask("SELECT WINDOW(crashes,", MORE)
        terminal.interrupt()
        expect("after an interrupt", terminal.ask("TOTAL pavement BY (surface)"), TOTALS)
        terminal.send("SELECT cras")
        terminal.until("SELECT cras")
        terminal.interrupt()
        expect("after another", terminal.ask("TOTAL pavement BY (surface)"), TOTALS)
        expect("its end by Ctrl-D", terminal.end(END), 0)
    expect("whether the file is closed", program.run("dump", "--file", file).status, 0)


INTERRUPTED = """
import os, signal
from roadseg.prompt import uninterrupted
signal.signal(signal.SIGINT, signal.default_int_handler)  # also where this test was started in the background
for times in (0, 1, 2):
    try:
        with uninterrupted():
            for _ in range(times):
                os.kill(os.getpid(), signal.SIGINT)
            print(times, "read to its end")
        print(times, "not interrupted")
    except KeyboardInterrupt:
        print(times, "interrupted")
"""


def an_interrupt_waits_for_the_end_of_a_reply(_program):
    """And a second one does not."""
    words = [sys.executable, "-c", INTERRUPTED]
    done = subprocess.run(words, capture_output=True, env={**os.environ, "PYTHONPATH": CLIENTS}, timeout=PATIENCE)
    wanted = b"0 read to its end\n0 not interrupted\n1 read to its end\n1 interrupted\n2 interrupted\n"
    expect("what comes", (done.returncode, done.stdout, done.stderr), (0, wanted, b""))


def commands_of_the_prompt_are_carried_out(program):
    file, path = filled(program), program.file("out.csv")
    with open(program.file("lines.txt"), "w", encoding="utf-8") as lines:
        lines.write("-- two lines\n0 DEFINE VIEW busy AS WHERE(traffic, aadt > 20000)\nSELECT busy\n7 SELECT none;\nINSERT INTO speed ON SR12N FROM 0 TO 1\n VALUES (25)")
    with started(program, file) as terminal:
        helped = terminal.ask(".help")
        expect("help", sorted(set(re.findall(r"^\.(\w+)", helped, re.MULTILINE))), sorted("csv explain help quit read routes schema timer".split()))
        wanted = "route     from       to  referents\n-----  -------  -------  -------------------------------\nI95     10.000   22.000\n"
        wanted += "SR12     0.000   14.250  BRIDGE 4.000, COUNTY_LINE 9.100\nSR12N    0.000   13.750\nUS40   102.500  131.875  EXIT112 112.300\n(4 rows)\n"
        expect("routes", terminal.ask(".routes"), wanted)
        expect("a table", terminal.ask(".schema crashes"), "DEFINE POINT TABLE crashes (num INT, severity TEXT(8))\n")
        expect("nothing", terminal.ask(".schema none"), "nothing is known here of none\n")
        expect("all", len(terminal.ask(".schema").splitlines()), 4 + 3 + 6 + 1)
        expect("rows in a file", terminal.ask(".csv %s WINDOW(crashes, I95)" % path), "(2 rows)\n")
        expect("the file", bytes_at(path), b"route,at,num,severity\nI95,11.200,7,\nI95,18.700,8,fatal\n")
        expect("rows to see", terminal.ask(".csv - WINDOW(speed, I95)"), "route,from,to,mph\nI95,10.000,22.000,65\n(1 row)\n")
        read = terminal.ask(".read " + program.file("lines.txt"))
        wanted = ["line 4: 21 no such name (.explain says what it means)", "%s was read, 1 refused" % program.file("lines.txt")]
        expect("lines of a file", read.splitlines()[-2:], wanted)
        expect("its rows", read.splitlines()[2].split(), ["I95", "10.000", "16.000", "88000"])
        expect("what it entered", terminal.ask("TOTAL WINDOW(speed, SR12N) BY ()"), "length\n------\n 1.000\n(1 row)\n")
        with open(program.file("again"), "w", encoding="utf-8") as lines:
            lines.write(".read %s\n" % program.file("again"))
        expect("a file that reads itself", "files read each other" in terminal.ask(".read " + program.file("again")), True)
        expect("a timer", terminal.ask(".timer on"), "")
        expect("a time", re.fullmatch(r"OK 0\n[0-9]+\.[0-9]{3} s\n", terminal.ask("SAVE")) is not None, True)
        expect("no timer", (terminal.ask(".timer off"), terminal.ask("SAVE")), ("", "OK 0\n"))
        for line, said in (
            (".timer", ".timer on, or .timer off\n"),
            (".csv", ".csv FILE QUERY\n"),
            (".read", ".read FILE\n"),
            (".none", "no command .none: .help lists them\n"),
            (".csv x none", "21 no such name (.explain says what it means)\n"),
        ):
            expect(line, terminal.ask(line), said)
        expect("a file that is not there", "No such file" in terminal.ask(".read " + program.file("none")), True)
        expect("its end", terminal.end(".exit\n"), 0)


def prompt(program, *words, sent=b""):
    environment = {**os.environ, "PYTHONPATH": CLIENTS}
    words = [sys.executable, "-m", "roadseg", "--program", program.path, *words]
    return subprocess.run(words, input=sent, capture_output=True, env=environment, timeout=PATIENCE)


def without_a_terminal_lines_are_read_to_their_end(program):
    file = filled(program)
    done = prompt(program, file, sent=b"SELECT WINDOW(crashes, SR12);\nTOTAL pavement BY (surface)")
    expect("rows", (done.returncode, done.stdout.decode(), done.stderr), (0, CRASHES + TOTALS, b""))
    done = prompt(program, file, sent=b"SELECT none\nSELECT 'a\nSAVE\n.quit\nSAVE\n")
    said = b"21 no such name\n    SELECT 'a\n           ^\n10 unknown character\n"
    expect("refusals", (done.returncode, done.stdout, done.stderr), (1, b"OK 0\n", said))
    done = prompt(program, sent=b"99 SAVE\nDEFINE ROUTE A FROM 0 TO 1\n")
    expect("in memory", (done.returncode, done.stdout, done.stderr), (1, b"OK 0\n", b"99 is no session: 0 to 63 are\n"))
    done = prompt(program, program.file("none"), sent=b"SAVE\n")
    expect("no file", (done.returncode, done.stdout, b"cannot open file" in done.stderr), (1, b"", True))
    for words in (["a", "b"], ["--port", "1", "a"], ["--page", "0"], ["--none"]):
        expect(" ".join(words), prompt(program, *words).returncode, 2)
    with open(NETWORK, "rb") as lines:
        done = prompt(program, sent=lines.read() + b"SELECT WINDOW(crashes, SR12)")
    expect("the lines of a document", done.stdout.decode().replace("OK 0\n", "")[-len(CRASHES) :], CRASHES)


def a_server_is_asked_by_the_prompt(program):
    file = filled(program)
    dump = program.file("dump")
    with open(dump, "wb") as out:
        out.write(program.run("dump", "--definitions", "--file", file).out)
    with serving(program, file, 2) as server:
        done = prompt(program, "--port", str(server.port), "--definitions", dump, sent=b"SELECT WINDOW(crashes, SR12)\n")
        expect("rows", (done.returncode, done.stdout.decode(), done.stderr), (0, CRASHES, b""))
        done = prompt(program, "--port", str(server.port), sent=b"SELECT WINDOW(speed, I95)\n")
        expect("without names", done.stdout.decode().splitlines()[0].split(), ["route", "from", "to", "value_1"])
        server.expect_end()


def in_a_terminal(test):
    """A test that is passed over where there is no pseudo-terminal, or where Python edits no lines, or by another library."""

    @functools.wraps(test)
    def tried(program):
        lacking = what_is_lacking()
        if lacking:
            print("%s is passed over: there is no %s" % (test.__name__, lacking))
        else:
            test(program)

    return tried


@functools.lru_cache(maxsize=None)
def what_is_lacking():
    """What there is not of what a terminal needs here; None where it is all there."""
    try:
        for descriptor in pty.openpty():
            os.close(descriptor)
    except OSError:
        return "pseudo-terminal"
    words = [sys.executable, "-c", "import readline; print('libedit' in (readline.__doc__ or ''))"]
    done = subprocess.run(words, capture_output=True, env={**os.environ, "TERM": "dumb"}, timeout=PATIENCE)
    return None if done.stdout == b"False\n" else "GNU readline in this Python"


TERMINAL_TESTS = [
    answers_are_aligned_under_headers,
    texts_of_all_scripts_are_aligned_and_steer_no_terminal,
    a_caret_is_under_the_fault,
    a_refusal_is_explained_on_request,
    statements_end_where_they_can,
    words_are_completed,
    lines_are_remembered,
    large_answers_come_page_by_page,
    keys_interrupt_and_end,
    commands_of_the_prompt_are_carried_out,
]
PROMPT_TESTS = [
    *map(in_a_terminal, TERMINAL_TESTS),
    an_interrupt_waits_for_the_end_of_a_reply,
    without_a_terminal_lines_are_read_to_their_end,
    a_server_is_asked_by_the_prompt,
]
