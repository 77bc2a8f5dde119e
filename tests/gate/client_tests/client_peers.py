"""Tests of the client in Python beside servers that close, cut a reply, stall, or send what is no reply. tests/gate/clients.py runs
them."""

import random
import re
import socket
import threading
import time
from contextlib import contextmanager, suppress
from decimal import Decimal as D

from client_parts import SEED, expect_error, expect_refused, roadseg
from harness import Wrong, expect
from prepared import Prepared
from roadseg import dbapi, diagram
from roadseg.replies import Ending
from runs import LONGEST

# Servers that fail.


class Played:
    """A server of one connection that answers each line with the next of some replies, whatever it says, and closes."""

    def __init__(self, replies, is_reset=False):
        self.replies, self.is_reset, self.lines = replies, is_reset, []
        self.listener = socket.create_server(("127.0.0.1", 0))
        self.port = self.listener.getsockname()[1]
        self.thread = threading.Thread(target=self.play, daemon=True)
        self.thread.start()

    def play(self):
        self.listener.settimeout(LONGEST)
        with suppress(OSError), self.listener, self.listener.accept()[0] as peer, peer.makefile("rb") as lines:
            for reply in self.replies:
                self.lines.append(lines.readline())
                peer.sendall(reply)
            if self.is_reset:
                peer.setsockopt(socket.SOL_SOCKET, socket.SO_LINGER, b"\x01\x00\x00\x00\x00\x00\x00\x00")
            else:
                peer.shutdown(socket.SHUT_WR)
                self.lines += lines.readlines()

    def received(self):
        """All lines that were sent, once the client has closed."""
        self.thread.join(LONGEST)
        return self.lines


@contextmanager
def connected(port, timeout=LONGEST):
    """A client of a server of this test. A short limit holds once it is connected, which a busy machine may take long for."""
    with roadseg.connect(port=port, timeout=LONGEST) as road:
        road._timeout = road._replies._longest = timeout
        yield road


@contextmanager
def played(*replies, is_reset=False, timeout=LONGEST):
    server = Played(replies, is_reset)
    with connected(server.port, timeout) as road:
        yield server, road


def expect_failed(road, call, *arguments):
    """The words of a call that fails, and after which no line is sent any more."""
    failed = expect_error(roadseg.Failed, call, *arguments)
    expect("what is said of a connection", (failed.status, failed.said), (None, ""))
    expect_error(roadseg.Failed, road.execute, "SAVE")
    return str(failed)


def a_server_that_closes_fails_the_line(_program):
    none, cut = "no reply: the other side has closed", "the reply was cut off"
    row = b"0 ROW A 0.000 1.000 'AC'\n"
    for reply, words in ((b"", none), (b"0", cut), (b"0 OK 0", cut), (row, none), (row + b"0 OK 1", cut)):
        with played(reply) as (server, road):
            expect("its words", expect_failed(road, road.select, "pave"), words)
        expect("lines", server.received(), [b"0 SELECT pave\n"])
    with played(b"0 OK 0\n", b"", is_reset=True) as (server, road):
        expect("before the reset", road.execute("SAVE"), 0)
        expect_failed(road, road.execute, "SAVE")


def what_is_no_reply_fails_the_line(_program):
    replies = [b"hello\n", b"\n", b"0\n", b"0 OK\n", b"0 OK x\n", b"0 OK -1\n", b"0 ok 0\n", b"0 ERR 21\n"]
    replies += [b"0 ERR x words\n", b"\xff\n", b"0 ROW \xff\n0 OK 1\n", "0 OK \u0663\n".encode(), b"0 OK 0\r\n", b" 0 OK 0\n", b"000 OK 0\n"]
    replies += [b"1 OK 0\n", b"1 ERR 21 no such name\n", b"0 ROW A 0.000 1\n1 OK 1\n", b"x" * 70_000]
    for reply in replies:
        with played(reply) as (_server, road):
            expect_failed(road, road.execute, "SELECT pave")
    for reply in (b"0 OK 1\n", b"0 ROW A 0.000 1\n0 OK 0\n", b"0 ROW A 0.000 1\n0 OK 2\n"):
        for name in ("select", "total"):
            with played(reply) as (_server, road):
                expect_failed(road, getattr(road, name), "pave")


def what_is_no_row_is_not_given(_program):
    rows = ["A", "A x 1", "A 1 1", "A 1.00 1", "A 1.000  1", "A 1.000 1 ", "A 1.000 'x", "A 1.000 x'", "A 1.000 'x'y"]
    rows += ["A 1.000 1.5", "A 1.000 1.000 1.000", "A 1.000 null", "A 1.000 \u0663", "A 1.000 --1", "A @K 1", " A 1.000 1"]
    for row in rows:
        with played(b"0 ROW %s\n0 OK 1\n" % row.encode(), b"0 OK 0\n") as (_server, road):
            expect_error(roadseg.Failed, next, road.select("pave"))
    for row in ("", "'AC'", "1.000 1.000", "'AC' x", "'AC' 1.00", "1.000 'AC'", "'AC' NULL"):
        with played(b"0 ROW %s\n0 OK 1\n" % row.encode()) as (_server, road):
            expect_error(roadseg.Failed, lambda road=road: next(road.total("pave", by="surf")))


def a_refused_fetch_takes_no_row(_program):
    first, rest = b"0 ROW A 1.000 1\n0 ROW A 2.000 2\n0 OK 2\n", b"0 ROW A 3.000 3\n0 OK 1\n"
    replies = [b"0 OK 0\n", first, b"0 ERR 90 out of memory\n", b"0 ERR 91 disk\n", rest, b"0 OK 0\n"]
    with played(*replies) as (server, road):
        rows = road.select("signs", batch=2)
        expect("the first rows", [next(rows), next(rows)], [("A", D("1.000"), 1), ("A", D("2.000"), 2)])
        for number, words in ((90, "out of memory"), (91, "disk")):
            refused = expect_refused(number, words, next, rows)
            expect("whether it is a want", refused.is_want, True)
        expect("the other rows", list(rows), [("A", D("3.000"), 3)])
    fetches = [b"0 FETCH client_1 2\n"] * 4
    expect("lines", server.received(), [b"0 OPEN client_1 FOR signs\n", *fetches, b"0 CLOSE client_1\n"])


def a_refused_close_loses_no_row(_program):
    replies = [b"0 OK 0\n", b"0 ROW A 1.000 1\n0 OK 1\n", b"0 ERR 90 out of memory\n", b"0 OK 0\n"]
    with played(*replies) as (server, road):
        expect("rows", list(road.select("signs", batch=2)), [("A", D("1.000"), 1)])
    closes = [b"0 CLOSE client_1\n"] * 2
    expect("lines", server.received(), [b"0 OPEN client_1 FOR signs\n", b"0 FETCH client_1 2\n", *closes])


def a_refusal_after_rows_gives_none_of_them(_program):
    with played(b"0 ROW A 1.000 1\n0 ERR 90 out of memory\n", b"0 OK 0\n") as (_server, road):
        expect_refused(90, "out of memory", road.select, "signs")
        expect("the next line", road.execute("SAVE"), 0)


def a_server_that_goes_while_rows_are_fetched_fails(_program):
    with played(b"0 OK 0\n", b"0 ROW A 1.000 1\n0 OK 1\n", b"0 ROW A 2.0") as (server, road):
        with road.select("signs", batch=1) as rows:
            expect("the first row", next(rows), ("A", D("1.000"), 1))
            expect_failed(road, next, rows)
            expect_error(roadseg.Failed, next, rows)
    fetches = [b"0 FETCH client_1 1\n"] * 2
    expect("lines", server.received(), [b"0 OPEN client_1 FOR signs\n", *fetches])


def a_reply_that_does_not_come_fails(_program):
    wait = threading.Event()

    def stall(listener):
        with listener, listener.accept()[0]:
            wait.wait(LONGEST)

    listener = socket.create_server(("127.0.0.1", 0))
    threading.Thread(target=stall, args=[listener], daemon=True).start()
    with connected(listener.getsockname()[1], 0.2) as road:
        expect("its words", expect_failed(road, road.execute, "SAVE"), "no reply: timed out")
    wait.set()


def an_address_where_nobody_listens_fails(_program):
    with socket.socket() as closed:
        closed.bind(("127.0.0.1", 0))
        failed = expect_error(roadseg.Failed, roadseg.connect, port=closed.getsockname()[1])
    expect("its words", str(failed).startswith("cannot connect to 127.0.0.1:"), True)


def nothing_is_sent_after_a_reply_was_broken_off(_program):
    """As by Ctrl-C: the rest of the reply would be taken for the next line's."""
    with played(b"0 ROW A 1.000 1\n0 OK 1\n", b"0 OK 0\n") as (server, road):
        receive, calls = road._wire.receive, []

        def interrupted(longest):
            calls.append(receive(longest)[:16])
            raise KeyboardInterrupt

        road._wire.receive = interrupted
        with suppress(KeyboardInterrupt):
            road.execute("SELECT signs")
            raise Wrong("no interrupt")
        expect("what was read", calls, [b"0 ROW A 1.000 1\n"])
        expect_error(roadseg.Failed, road.execute, "SAVE")
    expect("lines", [line for line in server.received() if line], [b"0 SELECT signs\n"])


# What any peer may send.


def calls_of(road):
    """A call of each kind that reads a reply."""
    return [
        lambda: road.execute("SAVE"),
        lambda: list(road.select("pave")),
        lambda: list(road.select("pave", batch=2)),
        lambda: list(road.total("pave", by="surf", sum="n")),
        lambda: road.columns("pave"),
        lambda: road.load("pave", [("A", 0, 1, "x")], "LINE"),
        lambda: road.ask("EXPLAIN pave"),
    ]


PIECES = [b"0", b"1", b" ", b"  ", b"ROW", b"OK", b"ERR", b"A", b"1.000", b"2.000", b"'AC'", b"'", b"NULL", b"@K+0.000", b"50.0000000%"]
PIECES += [b"99999999999999999999999", b"-1", b"\xff", b"\x00", b"\x1b[2J", b"\r", b"\n", b"\n", b"0 OK 1\n", b"0 ROW A 1.000 2.000 3\n", b"\xc3"]
WHOLE = [b"0 OK 0\n", b"0 OK 1\n", b"0 ERR 21 no such name\n", b"0 ROW A 0.000 1.000 'AC'\n0 OK 1\n", b"0 ROW 'x' 1.000 2.000 3.000\n0 OK 1\n"]


MEASURE, ROUTE = re.compile(r"[0-9]{1,6}\.[0-9]{3}"), re.compile("[A-Za-z][A-Za-z0-9_]{0,31}")
SOME_TEXTS = ["'x'", "'a b'", "'it''s'", "''", "' '", "''''", "'  ''  '", "NULL", "'é'"]


def random_reply(chance):
    if chance.random() < 0.3:
        return chance.choice(WHOLE)
    junk = b"".join(chance.choices(PIECES, k=chance.randrange(1, 12)))
    return chance.choice((b"", b"0 ", b"0 ROW ", b"0 OK ")) + junk + chance.choice((b"", b"\n", b"\n0 OK 1\n"))


def sent_by(road):
    """The list of what a client sends from now on."""
    sent, send = [], road._wire.send

    def noted(data, longest):
        sent.append(data)
        send(data, longest)

    road._wire.send = noted
    return sent


def whatever_a_peer_sends_only_errors_of_the_client_come(_program):
    chance, failed = random.Random(SEED), 0
    for k in range(280):
        with played(*(random_reply(chance) for _ in range(3)), timeout=0.1) as (_server, road):
            sent = sent_by(road)
            try:
                calls_of(road)[k % 7]()
            except roadseg.Failed:
                failed += 1
                before = len(sent)
                for call in calls_of(road):
                    expect_error(roadseg.Failed, call)
                expect("what was sent after the failure", sent[before:], [])
            except roadseg.Error:
                pass
    expect("whether many failed", failed > 100, True)


def numbers_without_end_are_no_reply(_program):
    nines = b"9" * 5_000  # Python makes no number of so many digits
    replies = [b"0 OK %s\n" % nines, b"0 ERR %s words\n" % nines, b"%s OK 0\n" % nines, b"0 ROW A %s.000 1\n0 OK 1\n" % nines]
    replies += [b"0 ROW A 1.000 %s\n0 OK 1\n" % nines, b"0 ROW A 1.000 1\n0 OK %s\n" % nines]
    for reply in replies:
        with played(reply) as (_server, road):
            expect_error(roadseg.Failed, lambda road=road: list(road.select("signs")))
    with played(b"0 ROW %s\n0 OK 1\n" % nines) as (_server, road):
        expect_error(roadseg.Failed, lambda road=road: list(road.total("signs")))


def a_row_that_is_none_ends_the_client(_program):
    good, bad = b"0 ROW A 1.000 1\n", b"0 ROW A 1.000 x\n"
    with played(good + bad + good + b"0 OK 3\n", b"0 OK 0\n") as (server, road):
        rows = road.select("signs")
        expect("the row before it", next(rows), ("A", D("1.000"), 1))
        expect_error(roadseg.Failed, next, rows)
        expect_error(roadseg.Failed, next, rows)
        expect_error(roadseg.Failed, road.execute, "SAVE")
    expect("lines", [line for line in server.received() if line], [b"0 SELECT signs\n"])
    for rows in (b"0 ROW A 1.000 1\n0 ROW A 1.000 2.000 1\n", b"0 ROW A 1.000 1\n0 ROW A 1.000 1 2\n"):
        with played(rows + b"0 OK 2\n") as (_server, road):
            expect_error(roadseg.Failed, lambda road=road: list(road.select("signs")))
        with played(rows + b"0 OK 2\n") as (_server, road):
            expect_error(roadseg.Failed, road.columns, "signs")


def slow_parts(text):
    """The parts of a row, read character by character; None where it is no row."""
    parts, place = [], 0
    while True:
        start = place
        if text[place : place + 1] == "'":
            place += 1
            while place < len(text) and (text[place] != "'" or text[place : place + 2] == "''"):
                place += 2 if text[place] == "'" else 1
            place += 1
        else:
            while text[place : place + 1] not in (" ", "'", ""):
                place += 1
        if place == start or place > len(text):
            return None
        parts.append(text[start:place])
        if place == len(text):
            return parts
        if text[place] != " ":
            return None
        place += 1


def slow_value(part):
    """What a part stands for, in a list; none where it stands for nothing."""
    if part[0] == "'":
        return [part[1:-1].replace("''", "'")]
    if part == "NULL":
        return [None]
    return [int(part)] if re.fullmatch("-?[0-9]{1,13}", part) else []


def slow_rows(texts):
    """The rows of texts, each read by itself; None where they are no rows of one form."""
    rows = [slow_parts(text) for text in texts]
    if None in rows or len({len(row) for row in rows}) > 1 or len(rows[0]) < 2:
        return None
    ends = 2 if len(rows[0]) > 2 and MEASURE.fullmatch(rows[0][2]) else 1
    found = []
    for route, *parts in rows:
        values = [slow_value(part) for part in parts[ends:]]
        if not ROUTE.fullmatch(route) or not all(map(MEASURE.fullmatch, parts[:ends])) or [] in values:
            return None
        found.append((route, *map(D, parts[:ends]), *(value for [value] in values)))
    is_mixed = any(len({type(value) for value in column} - {type(None)}) > 1 for column in zip(*found))
    return None if is_mixed or ends == 2 and any(row[1] >= row[2] for row in found) else found


def random_rows(chance):
    """Rows of one form, in which characters may have come or gone."""
    front = chance.choice(("A 1.000", "A 1.000 2.000"))
    columns = [chance.choice((SOME_TEXTS, ["1", "-20", "NULL"])) for _ in range(chance.randrange(3))]
    rows = [" ".join([front, *map(chance.choice, columns)]) for _ in range(chance.randrange(1, 4))]
    for _ in range(chance.choice((0, 0, 1, 2))):
        k = chance.randrange(len(rows))
        at = chance.randrange(len(rows[k]) + 1)
        rows[k] = rows[k][:at] + chance.choice(("", " ", "'", "''", "x", "1")) + rows[k][at + chance.randrange(2) :]
    return rows


def rows_are_read_as_each_by_itself(_program):
    """The rows of a slow reader come, or none."""
    chance, counts = random.Random(SEED), [0, 0]
    for _ in range(4_000):
        rows = random_rows(chance)
        wanted = slow_rows(rows)
        reply = "".join("0 ROW %s\n" % row for row in rows) + "0 OK %d\n" % len(rows)
        whole = None if wanted is None else [tuple(int(part * 1000) if isinstance(part, D) else part for part in row) for row in wanted]
        for call, same in (
            (lambda road: list(road.select("q")), wanted),
            (lambda road: list(zip(*road.columns("q").values())), wanted),
            (lambda road: list(zip(*road.columns("q", thousandths=True).values())), whole),
        ):
            road = roadseg.Client(Prepared(reply.encode()))
            if wanted is None:
                expect_error(roadseg.Failed, call, road)
            else:
                expect("the rows of %r" % reply, call(road), same)
        counts[wanted is None] += 1
    expect("whether many are rows, and many are none", min(counts) > 1_000, True)


def rows_of_another_form_than_was_asked_for_are_not_given(_program):
    for method, rows in (
        (None, (b"A @K+1.000 1", b"A 50.0000000% 1", b"A 1.000 @K+1.000 1", b"A 1.000 1.000 1", b"A 2.000 1.000 1")),
        ("RELATIVE", (b"A 1.000 1", b"A @K+1.000 2.000 1")),
        (None, (b"A 1.000 1\n0 ROW A 1.000 'x'", b"A 1.000 'x'\n0 ROW A 1.000 1")),
    ):
        for row in rows:
            reply = b"0 ROW %s\n0 OK %d\n" % (row, row.count(b"\n") + 1)
            calls = [(reply, lambda road: list(road.select("q", method))), (reply, lambda road: road.columns("q", method))]
            for first, call in (*calls, (b"0 OK 0\n", lambda road: list(road.select("q", method, 9)))):
                with played(first, reply) as (_server, road):
                    expect_error(roadseg.Failed, call, road)
                    expect_error(roadseg.Failed, road.execute, "SAVE")


def a_schema_that_is_no_longer_true_names_no_columns(_program):
    row = b"0 ROW A 1.000 'x' 7\n0 OK 1\n"
    with played(row, row, row) as (_server, road):
        road.learn(["DEFINE LINE TABLE pave (surf TEXT(8))"])
        names = ("route", "at", "value_1", "value_2")
        rows = road.select("pave")
        expect("names", (rows.columns, list(rows), rows.columns), (names, [("A", D("1.000"), "x", 7)], names))
        expect("columns", tuple(road.columns("pave")), names)
        expect("a cursor of DB-API 2", [one[0] for one in dbapi.Connection(road).cursor().execute("SELECT pave").description], list(names))


def a_diagram_takes_no_junk(_program):
    for replies in (
        [b"0 OK 0\n"],
        [b"0 ROW 1.000\n0 ROW 2.000\n0 OK 2\n"],
        [b"0 ROW x\n0 OK 1\n"],
        [b"0 ROW 0.000\n0 OK 1\n", b"0 ROW 9.000\n0 OK 1\n", b"0 ROW A @K+0.000 1\n0 OK 1\n"],
        [b"0 ROW 0.000\n0 OK 1\n", b"0 ROW 9.000\n0 OK 1\n", b"0 OK 0\n", b"0 ROW 50.0000000%\n0 OK 1\n"],
        [b"0 ROW 0.000\n0 OK 1\n", b"0 ROW 9.000\n0 OK 1\n", b"0 OK 0\n", b"0 ROW @K-1.000\n0 OK 1\n"],
    ):
        with played(*replies) as (_server, road):
            expect_error(roadseg.Failed, diagram.diagram, road, "A", [diagram.Question("Pavement", "pave")])


def what_nobody_asked_for_ends_the_client(_program):
    with played(b"0 OK 0\n0 OK 7\n", b"0 OK 0\n") as (server, road):
        expect("the reply", road.execute("SAVE"), 0)
        failed = expect_error(roadseg.Failed, road.execute, "SAVE")
        expect("its words", str(failed), "more came than was asked for")
    expect("lines", [line for line in server.received() if line], [b"0 SAVE\n"])


@contextmanager
def served_by(act):
    """The port of a server that does this with its peer, and then nothing up to the end of the context."""
    listener, is_over = socket.create_server(("127.0.0.1", 0)), threading.Event()

    def serve():
        with suppress(OSError), listener, listener.accept()[0] as peer:
            act(peer, is_over)
            is_over.wait(LONGEST)

    thread = threading.Thread(target=serve, daemon=True)
    thread.start()
    try:
        yield listener.getsockname()[1]
    finally:
        is_over.set()
        thread.join(LONGEST)


def expect_limit(act, call):
    """Expects that a call fails by its limit of a fifth of a second: the server waits for it, so nothing else can end it."""
    with served_by(act) as port, connected(port, 0.2) as road:
        expect("its words", str(expect_error(roadseg.Failed, call, road)), "no reply: timed out")


def each_wait_has_a_limit(_program):
    def drip(peer, is_over):
        """A byte at a time, none of which ends a line."""
        for _ in range(50 * LONGEST):
            peer.sendall(b"0")
            if is_over.wait(0.02):
                break

    def rows_and_then_nothing(peer, _is_over):
        peer.sendall(b"0 ROW A 1.000 1\n" * 3)

    def read_nothing(_peer, _is_over):
        pass

    expect_limit(drip, lambda road: road.execute("SAVE"))
    expect_limit(rows_and_then_nothing, lambda road: road.select("signs"))
    rows = [("A", 0, 1, "x" * 40)] * 100_000
    expect_limit(read_nothing, lambda road: road.load("pave", rows, "LINE"))
    with served_by(read_nothing) as port, roadseg.connect(port=port, timeout=LONGEST + 1) as road:
        expect("the limit that is said", (road._timeout, road._replies._longest), (LONGEST + 1, LONGEST + 1))
    expect("the limit that holds where none is said", roadseg.connect.__defaults__[-1] > 0, True)
    expect("and of a run", roadseg.run.__defaults__[3] > 0, True)


class Slow:
    """A wire that gives a line at a time, each after a while, and notes how long it was to wait at the most, and since when."""

    def __init__(self, lines):
        self.lines, self.waits, self.last = list(lines), [], 0.0

    def send(self, _data, _longest):
        self.last = time.monotonic()

    def receive(self, longest):
        self.waits.append((longest, time.monotonic() - self.last))
        time.sleep(0.01)
        self.last = time.monotonic()
        return self.lines.pop(0)

    def end(self, _longest):
        return Ending()


def a_slow_reply_that_goes_on_is_read(_program):
    """The limit is one of each line, and not of the whole reply: what is left of it counts from the line before."""
    wire = Slow([*(b"0 ROW A %d.000 1\n" % k for k in range(12)), b"0 OK 12\n"])
    with roadseg.Client(wire, timeout=LONGEST) as road:
        expect("rows", len(list(road.select("signs"))), 12)
    expect("waits", len(wire.waits), 13)
    for longest, passed in wire.waits:
        expect("whether %r is the whole limit, %r after a line" % (longest, passed), LONGEST - passed - 0.001 <= longest <= LONGEST, True)


PEER_TESTS = [
    a_server_that_closes_fails_the_line,
    what_is_no_reply_fails_the_line,
    what_is_no_row_is_not_given,
    a_refused_fetch_takes_no_row,
    a_refused_close_loses_no_row,
    a_refusal_after_rows_gives_none_of_them,
    a_server_that_goes_while_rows_are_fetched_fails,
    a_reply_that_does_not_come_fails,
    an_address_where_nobody_listens_fails,
    nothing_is_sent_after_a_reply_was_broken_off,
    whatever_a_peer_sends_only_errors_of_the_client_come,
    numbers_without_end_are_no_reply,
    a_row_that_is_none_ends_the_client,
    rows_are_read_as_each_by_itself,
    rows_of_another_form_than_was_asked_for_are_not_given,
    a_schema_that_is_no_longer_true_names_no_columns,
    a_diagram_takes_no_junk,
    what_nobody_asked_for_ends_the_client,
    each_wait_has_a_limit,
    a_slow_reply_that_goes_on_is_read,
]
