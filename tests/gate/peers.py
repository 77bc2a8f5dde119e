#!/usr/bin/env python3
"""Serves peers over TCP by the program: its status, what they receive, and what becomes of the file.

    peers.py [--program PATH] [--jobs N] [TEST ..]

Peers connect on 127.0.0.1, one after another, and some of them cut, stall, or send junk; a server has no descriptor left, or is
killed. PATH is `crates/roadseg/out/roadseg` by default; a TEST is the name of a function of the list TESTS. It prints what is not
as wanted, and at last `N passed, M failed`.
"""

import os
import random
import re
import resource
import signal
import socket
import sys
import time
from contextlib import contextmanager
from functools import partial

import folders  # noqa: F401, the path of modules
from conversation_files import exchanges_of
from file_writer import PAGE_BYTES
from harness import bytes_at, expect, run_tests
from programs import PROGRAM, Ended
from runs import (
    CURSORS,
    DAMAGED,
    DEFINED,
    INSERTED,
    IN_USE,
    LONGEST,
    NO_ADDRESS,
    NO_FILE,
    PLACE,
    ROWS,
    SELECTED,
    STALL,
    TRANSLATED,
    Program,
    Server,
    ended,
    free_port,
    line_sent_to,
    not_bound,
    not_opened,
    put,
    received,
    reset,
    serving,
    started,
)

OPEN = 5  # files that are open in a server that waits: the streams, the file and the listener
NOT_ACCEPTED = b"roadseg: cannot accept\n"


def cursors_outlive_their_connection(program):
    exchanges = exchanges_of(CURSORS)
    for cut in range(len(exchanges) + 1):
        file = program.file(str(cut))
        program.expect(["create", "--file", file], b"", b"")
        with serving(program, file, 2) as server:
            for part in (exchanges[:cut], exchanges[cut:]):
                server.expect_answers(b"".join(sent for sent, _ in part), b"".join(wanted for _, wanted in part))
            server.expect_end()
        program.expect(["run", "--file", file], b"1 FETCH c 1\n", b"1 ERR 60 no such cursor\n")


def one_connection_is_served_where_no_number_is_said(program):
    file, port = program.created(), free_port()
    with started(program, "serve", "--file", file, "--listen", "127.0.0.1:%d" % port) as process:
        expect("what it says first", process.stdout.readline(), b"listening\n")
        server = Server(process, port)
        server.expect_answers(DEFINED, b"0 OK 0\n0 OK 0\n")
        server.expect_end()
    program.expect(["run", "--file", file], SELECTED, b"0 OK 0\n")


def a_peer_is_answered_line_by_line(program):
    file = program.created()
    answers = b""
    with serving(program, file, 1) as server, server.connected() as peer:
        for line in (DEFINED + INSERTED + INSERTED).splitlines(keepends=True):
            peer.sendall(line)
            answers += line_sent_to(peer)
        expect("what is answered", answers, b"0 OK 0\n0 OK 0\n0 OK 1000\n0 OK 0\n")
        peer.close()
        server.expect_end()
    program.expect(["run", "--file", file], SELECTED, ROWS)


def peers_may_cut_and_stall(program):
    file = program.created()
    with serving(program, file, 6) as server:
        server.expect_answers(b"", b"")
        server.expect_answers(DEFINED + INSERTED[:20], b"0 OK 0\n0 OK 0\n")
        server.expect_answers(INSERTED[20:], b"0 ERR 3 session number\n")
        answers = server.answers(INSERTED[:20], INSERTED[20:] + SELECTED[:5], SELECTED[5:])
        expect("a peer that stalls", answers, b"0 OK 1000\n" + ROWS)
        reset(server, SELECTED[:-3])
        server.expect_answers(SELECTED, ROWS)
        server.expect_end()
    program.expect(["run", "--file", file], SELECTED, ROWS)


def peers_may_send_junk(program):
    file = program.created(DEFINED + INSERTED, b"0 OK 0\n0 OK 0\n0 OK 1000\n")
    junk = random.Random(0).randbytes(100_000)
    with serving(program, file, 5) as server:
        answers = server.answers(junk + b"\n").split(b"\n")
        expect("refused lines of junk", {b" ".join(line.split(b" ")[:2]) for line in answers[:-1]}, {b"0 ERR"})
        expect("how many they are", len(answers), junk.count(b"\n") + 2)
        server.expect_answers(bytes(1_000_000), b"")
        server.expect_answers(b"x" * 100_000 + b"\n" + SELECTED, b"0 ERR 2 line too long\n" + ROWS)
        server.expect_answers(b"GET / HTTP/1.1\r\n\r\n", b"0 ERR 3 session number\n" * 2)
        server.expect_answers(SELECTED, ROWS)
        server.expect_end()
    program.expect(["run", "--file", file], SELECTED, ROWS)


def peers_may_read_nothing(program):
    file = program.created(DEFINED + INSERTED, b"0 OK 0\n0 OK 0\n0 OK 1000\n")
    with serving(program, file, 3) as server:
        reset(server, SELECTED * 20_000)
        reset(server, b"0 REMOVE pave ON A FROM 0 TO 0.5\n")
        server.answers(SELECTED)
        server.expect_end()
    program.expect(["run", "--file", file], TRANSLATED, PLACE)


def a_hundred_peers_are_served_one_after_another(program):
    file = program.created(DEFINED, b"0 OK 0\n0 OK 0\n")
    with serving(program, file, 100) as server:
        for k in range(100):
            line = b"%d INSERT INTO pave ON A FROM 0.%03d TO 0.%03d VALUES ('AC')\n" % (k % 64, k, k + 1)
            server.expect_answers(line, b"%d OK 1\n" % (k % 64))
        server.expect_end()
        expect("one peer more", connects(server.port), False)
    program.expect(["run", "--file", file], SELECTED, b"0 ROW A 0.000 0.100 'AC'\n0 OK 1\n")


def connects(port):
    try:
        socket.create_connection(("127.0.0.1", port), timeout=LONGEST).close()
    except ConnectionRefusedError:
        return False
    return True


def peers_wait_for_their_turn(program):
    file = program.created(DEFINED, b"0 OK 0\n0 OK 0\n")
    with serving(program, file, 2) as server, server.connected() as first, server.connected() as second:
        second.sendall(INSERTED)
        second.shutdown(socket.SHUT_WR)
        first.sendall(SELECTED)
        expect("the first peer's answer", line_sent_to(first), b"0 OK 0\n")
        first.shutdown(socket.SHUT_WR)
        expect("the second peer's answer", received(second), b"0 OK 1000\n")
        server.expect_end()


def an_address_in_use_closes_the_file(program):
    file = program.created(DEFINED + INSERTED, b"0 OK 0\n0 OK 0\n0 OK 1000\n")
    with socket.socket() as other:
        other.bind(("127.0.0.1", 0))
        other.listen()
        address = "127.0.0.1:%d" % other.getsockname()[1]
        program.expect(["serve", "--file", file, "--listen", address], b"", b"", not_bound(address, IN_USE))
        none = program.file("none")
        program.expect(["serve", "--file", none, "--listen", address], b"", b"", not_opened(none, NO_FILE))
    for address in ("nowhere", "", "127.0.0.1", "127.0.0.1:65536", "192.0.2.1:7400"):
        program.expect(["serve", "--file", file, "--listen", address], b"", b"", not_bound(address, NO_ADDRESS))
    program.expect(["run", "--file", file], SELECTED, ROWS)


def a_port_of_the_system_is_told(program):
    """Where the address has the port 0, a second line tells the port."""
    for address in ("127.0.0.1:0", "localhost:00"):
        file = program.created(DEFINED, b"0 OK 0\n0 OK 0\n")
        with started(program, "serve", "--file", file, "--listen", address) as process:
            expect("what it says first", process.stdout.readline(), b"listening\n")
            told = process.stdout.readline()
            expect("the port: %r" % told, re.fullmatch(rb"port [1-9][0-9]{0,4}\n", told) is not None, True)
            server = Server(process, int(told[len(b"port ") :]))
            server.expect_answers(SELECTED, b"0 OK 0\n")
            server.expect_end()
        os.remove(file)


def a_server_waits_for_a_descriptor(program):
    """What the system lacks for any connection counts as none, and is asked for again."""
    file = program.created(DEFINED, b"0 OK 0\n0 OK 0\n")
    with serving(program, file, 2) as server:
        most = resource.prlimit(server.process.pid, resource.RLIMIT_NOFILE)
        with server.connected() as peer:
            peer.sendall(INSERTED)
            expect("the first peer's answer", line_sent_to(peer), b"0 OK 1000\n")
            resource.prlimit(server.process.pid, resource.RLIMIT_NOFILE, (OPEN, most[1]))
        with server.connected() as peer:
            peer.sendall(SELECTED)
            peer.shutdown(socket.SHUT_WR)
            time.sleep(STALL)
            expect("whether it goes on", server.process.poll(), None)
            resource.prlimit(server.process.pid, resource.RLIMIT_NOFILE, most)
            expect("the second peer's answer", received(peer), ROWS)
        server.expect_end()


def a_server_without_descriptors_ends(program):
    """After a hundred times in a row it says so, and closes the file."""
    file = program.created(DEFINED, b"0 OK 0\n0 OK 0\n")
    with serving(program, file, 1_000_000) as server:
        most = resource.prlimit(server.process.pid, resource.RLIMIT_NOFILE)
        with server.connected() as peer:
            peer.sendall(INSERTED)
            expect("the peer's answer", line_sent_to(peer), b"0 OK 1000\n")
            resource.prlimit(server.process.pid, resource.RLIMIT_NOFILE, (OPEN, most[1]))
        since = time.monotonic()
        expect("the end of the server", ended(server.process), Ended(1, b"", NOT_ACCEPTED))
        expect("how long it waited", time.monotonic() - since > 9, True)
    program.expect(["run", "--file", file], SELECTED, ROWS)


def a_file_that_is_found_damaged_is_told_at_the_end(program):
    """A REOPEN that is refused 94 is the end's failure, unless a later one is accepted; the file is closed."""
    for words in (["run"], ["serve", "--listen", "127.0.0.1:0"]):
        for is_mended in (False, True):
            file = program.created(DEFINED, b"0 OK 0\n0 OK 0\n")
            data = bytes_at(file)
            with started(program, words[0], "--file", file, *words[1:]) as process:
                with lines_to(process, words[0]) as (send, receive):
                    send(b"0 REOPEN\n")
                    expect("REOPEN before", receive(), b"0 OK 0\n")
                    put(file, bytes([data[PAGE_BYTES] ^ 1]), PAGE_BYTES)
                    send(b"0 REOPEN\n")
                    expect("REOPEN", receive(), b"0 ERR 94 damaged file\n")
                    put(file, data[PAGE_BYTES : PAGE_BYTES + 1], PAGE_BYTES)
                    if is_mended:
                        send(b"0 REOPEN\n")
                        expect("REOPEN after that", receive(), b"0 OK 0\n")
                    send(SELECTED)
                    expect("what is answered", receive(), b"0 OK 0\n")
                expect("the end of %s" % words[0], ended(process), Ended(0, b"", b"") if is_mended else Ended(1, b"", DAMAGED))
            program.expect(["run", "--file", file], SELECTED, b"0 OK 0\n")
            os.remove(file)


@contextmanager
def lines_to(process, word):
    """What sends a line to a run or to a server, and what receives one."""
    if word == "run":
        yield process.stdin.write, process.stdout.readline
    else:
        expect("what it says first", process.stdout.readline(), b"listening\n")
        port = int(process.stdout.readline()[len(b"port ") :])
        with socket.create_connection(("127.0.0.1", port), timeout=LONGEST) as peer:
            yield peer.sendall, partial(line_sent_to, peer)


def a_killed_server_leaves_what_was_saved(program):
    """What was accepted after SAVE is gone, and what was saved is there; where only questions were asked, no byte is another."""
    file = program.created(DEFINED, b"0 OK 0\n0 OK 0\n")
    saved, lost = (b"0 INSERT INTO pave ON A FROM %d TO %d VALUES ('AC')\n" % span for span in ((0, 2), (3, 4)))
    data = bytes_at(file)
    for sign in (signal.SIGKILL, signal.SIGTERM):
        with serving(program, file, 2) as server:
            server.expect_answers(SELECTED, b"0 OK 0\n")
            server.process.send_signal(sign)
            expect("the end of the server", ended(server.process).status, -sign)
        expect("the file that was only asked", bytes_at(file), data)
    answered = b"0 ROW A 0.000 2.000 'AC'\n0 OK 1\n"
    for sign, new in ((signal.SIGKILL, b"2000"), (signal.SIGTERM, b"0")):
        with serving(program, file, 2) as server:
            server.expect_answers(saved + b"0 SAVE\n" + lost, b"0 OK %s\n0 OK 0\n0 OK 1000\n" % new)
            server.process.send_signal(sign)
            expect("the end of the server", ended(server.process).status, -sign)
        program.expect(["run", "--file", file], SELECTED, answered)


TESTS = [
    cursors_outlive_their_connection,
    one_connection_is_served_where_no_number_is_said,
    a_peer_is_answered_line_by_line,
    peers_may_cut_and_stall,
    peers_may_send_junk,
    peers_may_read_nothing,
    a_hundred_peers_are_served_one_after_another,
    peers_wait_for_their_turn,
    an_address_in_use_closes_the_file,
    a_port_of_the_system_is_told,
    a_server_waits_for_a_descriptor,
    a_server_without_descriptors_ends,
    a_file_that_is_found_damaged_is_told_at_the_end,
    a_killed_server_leaves_what_was_saved,
]


if __name__ == "__main__":
    sys.exit(run_tests("Serves peers of a network.", TESTS, Program, PROGRAM))
