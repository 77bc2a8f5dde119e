#!/usr/bin/env python3
"""Has thousands of peers connect to the built program one after another, slow ones and such as never read among them.

    many_peers.py [--program PATH] [--peers N] [--seed S] [--all] [TEST ..]

Half of the peers are cut off at a random byte; the others get the replies that they should. After the last of them the server
has no more memory than after the first hundred. 800 peers connect by default, 10,000 with --all. It prints what is not as
wanted, what memory there was, and at last `N passed, M failed`, counted in tests.
"""

import random
import socket
import sys
import tempfile
import time

import folders  # noqa: F401, the path of modules
from harness import Wrong, expect, named, parser_of, summary
from programs import PROGRAM
from runs import LONGEST, Program, line_sent_to, received, reset, serving

SHARE, ALL = 800, 10_000
FIRST = 100  # peers, after which memory is looked at first
GROWTH = 64 * 1024  # bytes that a process may have more
PAUSE, LONG_PAUSE = 0.1, 1  # seconds between the bytes of a slow peer
QUIET = 2  # seconds in which nothing comes to who waits

DEFINED = b"0 DEFINE ROUTE A FROM 0 TO 10\n0 DEFINE LINE TABLE pave (surf TEXT(8))\n0 DEFINE REFERENT A K0 AT 1\n"
ROWS = 50
INSERTED = b"".join(b"0 INSERT INTO pave ON A FROM 0.%03d TO 0.%03d VALUES ('AC')\n" % (20 * k, 20 * k + 9) for k in range(ROWS))
FULL_REPLY = b"".join(b"7 ROW A 0.%03d 0.%03d 'AC'\n" % (20 * k, 20 * k + 9) for k in range(ROWS)) + b"7 OK %d\n" % ROWS

# What a peer sends, and what it gets. Wherever it is cut, the lines before leave the same rows.
SENT = (b"7 SELECT pave\n7 INSERT INTO pave ON A FROM 0 TO 0.009 VALUES ('AC')\n7 MOVE REFERENT A K0 TO 2\n7 SELECT none\n"
        b"7 REMOVE pave ON A FROM 9 TO 10\n7 EXPLAIN pave\n7 SELECT WINDOW(pave, A FROM 0 TO 0.009)\n")  # fmt: skip
GOT = FULL_REPLY + (b"7 OK 0\n7 OK 0\n7 ERR 21 no such name\n7 OK 0\n7 ROW 0 SCAN pave 0 0\n7 OK 1\n"
                    b"7 ROW A 0.000 0.009 'AC'\n7 OK 1\n")  # fmt: skip


def created(program):
    """The path of a file with some rows."""
    replies = b"0 OK 0\n" * 3 + b"0 OK 9\n" * ROWS
    return program.created(DEFINED + INSERTED, replies)


def memory_of(process):
    """Bytes of memory that a process has for itself, counted page by page: the counts in `statm` may be some pages off for each
    processor, and pages of its program come and go as the machine has room."""
    with open("/proc/%d/smaps_rollup" % process.pid, encoding="ascii") as file:
        own = next(line for line in file if line.startswith("Anonymous:"))
    return int(own.split()[1]) * 1024


def thousands_of_peers(program, words):
    by = random.Random(words.seed)
    file = created(program)
    with serving(program, file, words.peers + 1) as server:
        for number in range(words.peers):
            if number == FIRST:
                before = memory_of(server.process)
            if by.random() < 0.5:
                reset(server, SENT[: by.randrange(len(SENT))])
            else:
                server.expect_answers(SENT, GOT)
        server.expect_answers(SENT, GOT)  # all that came before has been served
        after = memory_of(server.process)
        server.expect_end()
    print("after %d peers %d bytes of memory, after %d %d" % (FIRST, before, words.peers, after))
    expect("memory that has grown by %d bytes" % (after - before), after - before <= GROWTH, True)
    program.expect(["run", "--file", file], b"7 SELECT pave\n", FULL_REPLY)


def a_peer_may_take_its_time(program, words):
    """A byte at a time comes in, and a byte at a time is taken."""
    sent = b"7 SELECT WINDOW(pave, A FROM 0 TO 0.009)\n7 SELECT none\n"
    got = b"7 ROW A 0.000 0.009 'AC'\n7 OK 1\n7 ERR 21 no such name\n"
    with serving(program, created(program), 2) as server:
        with server.connected() as peer:
            for place in range(len(sent)):
                time.sleep(LONG_PAUSE if words.is_all else PAUSE)
                peer.sendall(sent[place : place + 1])
            peer.shutdown(socket.SHUT_WR)
            out = b""
            while piece := peer.recv(1):
                out += piece
                time.sleep(LONG_PAUSE if words.is_all else 0)
            expect("what a slow peer gets", out, got)
        server.expect_answers(SENT, GOT)
        server.expect_end()


def a_peer_that_never_reads_keeps_others_waiting(program, _words):
    """Its replies fill what the system keeps for it; then the server waits, and with it the next peer, until the first one goes."""
    with serving(program, created(program), 2) as server:
        first = server.connected()
        first.settimeout(QUIET)
        try:
            while True:
                first.sendall(b"7 SELECT pave\n" * 1_000)
        except TimeoutError:
            pass
        with server.connected() as second:
            second.sendall(b"7 SELECT none\n")
            second.settimeout(QUIET)
            try:
                raise Wrong("an answer beside a peer that does not read: %r" % second.recv(1))
            except TimeoutError:
                second.settimeout(LONGEST)
            memory = memory_of(server.process)
            first.close()
            expect("the next peer's answer", line_sent_to(second), b"7 ERR 21 no such name\n")
            second.shutdown(socket.SHUT_WR)
            expect("no more", received(second), b"")
            expect("memory beside a peer that does not read", memory < 64_000_000, True)
        server.expect_end()


TESTS = (thousands_of_peers, a_peer_may_take_its_time, a_peer_that_never_reads_keeps_others_waiting)


def main():
    parser = parser_of(__doc__, PROGRAM)
    parser.add_argument("--peers", type=int, default=SHARE)
    parser.add_argument("--seed", type=int, default=0)
    parser.add_argument("--all", action="store_true", dest="is_all")
    parser.add_argument("names", nargs="*", metavar="TEST")
    words = parser.parse_args()
    words.peers = ALL if words.is_all else words.peers
    tests, failed = named(TESTS, words.names), 0
    for test in tests:
        with tempfile.TemporaryDirectory(prefix="roadseg-") as folder:
            try:
                test(Program(words.program, folder), words)
            except (Wrong, OSError) as fault:
                print("%s: %s" % (test.__name__, fault))
                failed += 1
    return summary(len(tests) - failed, failed)


if __name__ == "__main__":
    sys.exit(main())
