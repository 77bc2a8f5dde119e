"""What tests ask of the program by its words: runs that end or go on, and servers, with what is said where one fails."""

import os
import random
import socket
import struct
import subprocess
import time
from contextlib import contextmanager, suppress
from typing import NamedTuple

from harness import expect
from programs import Ended

CURSORS = "a-cursor-keeps-its-opening"
LONGEST = 60  # seconds that anything may take
STALL = 1  # seconds
FULL = "/dev/full"  # each write to it fails

DEFINED = b"0 DEFINE ROUTE A FROM 0 TO 10\n0 DEFINE LINE TABLE pave (surf TEXT(8))\n"
INSERTED = b"0 INSERT INTO pave ON A FROM 0 TO 1 VALUES ('AC')\n"
SELECTED = b"0 SELECT pave\n"
ROWS = b"0 ROW A 0.000 1.000 'AC'\n0 OK 1\n"
TRANSLATED = b"0 TRANSLATE A 4 AS ABSOLUTE\n"
PLACE = b"0 ROW 4.000\n0 OK 1\n"

READ_FAULT = b"roadseg: read fault\n"
WRITE_FAULT = b"roadseg: write fault\n"
NO_DISK = b"roadseg: ERR 91 disk\n"
DAMAGED = b"roadseg: ERR 94 damaged file\n"
NO_FILE, NO_FOLDER, NO_ADDRESS = "no such file", "no such folder", "no address of this machine"
IN_USE, NO_PERMISSION, A_FOLDER, A_DEVICE = "in use by another program", "no permission", "a folder", "a device, a pipe or a socket"


def not_opened(path, why):
    """What is said of a file that is not opened, or not made."""
    return ("roadseg: cannot open file\nroadseg: %s: %s\n" % (path, why)).encode()


def not_bound(address, why):
    """What is said of an address that is not bound."""
    return ("roadseg: cannot listen\nroadseg: %s: %s\n" % (address, why)).encode()


class Program(NamedTuple):
    """The program, and a folder for the files of one test."""

    path: str
    folder: str

    def file(self, name="file"):
        return os.path.join(self.folder, name)

    def run(self, *words, sent=b""):
        done = subprocess.run([self.path, *words], input=sent, capture_output=True, timeout=LONGEST)
        return Ended(done.returncode, done.stdout, done.stderr)

    def expect(self, words, sent, out, said=b""):
        """Expects that a run writes this, and fails where it has to say something."""
        expect(" ".join(words), self.run(*words, sent=sent), Ended(1 if said else 0, out, said))

    def created(self, sent=b"", out=b""):
        """The path of a file that is created, and then told these lines."""
        file = self.file()
        self.expect(["create", "--file", file], b"", b"")
        if sent:
            self.expect(["run", "--file", file], sent, out)
        return file


def put(path, data, place=0):
    """Puts bytes into a file, which is made if need be."""
    with open(path, "r+b" if os.path.exists(path) else "wb") as file:
        file.seek(place)
        file.write(data)


def run_into_full(program, sent, *words):
    """The status of a run that can write nothing to standard output, and what it says of that."""
    with open(FULL, "wb") as full:
        words = [program.path, *words]
        done = subprocess.run(words, input=sent, stdout=full, stderr=subprocess.PIPE, timeout=LONGEST)
    return done.returncode, done.stderr


def free_port():
    """A port at which nothing listens, below those that peers are given."""
    while True:
        port = random.randrange(20_000, 32_000)
        with socket.socket() as probe, suppress(OSError):
            probe.bind(("127.0.0.1", port))
            return port


@contextmanager
def started(program, *words):
    """A run of the program that goes on; it is ended where nothing else has done so."""
    pipe = subprocess.PIPE
    process = subprocess.Popen([program.path, *words], stdin=pipe, stdout=pipe, stderr=pipe, bufsize=0)
    try:
        yield process
    finally:
        process.kill()
        process.communicate()


def ended(process):
    """How the process ends by itself once its input does."""
    out, errors = process.communicate(timeout=LONGEST)
    return Ended(process.returncode, out, errors)


class Server(NamedTuple):
    """A run of `serve`, and its port."""

    process: subprocess.Popen
    port: int

    def connected(self):
        return socket.create_connection(("127.0.0.1", self.port), timeout=LONGEST)

    def answers(self, *pieces):
        """What a peer receives that sends these pieces, and stalls between them."""
        with self.connected() as peer:
            for place, piece in enumerate(pieces):
                time.sleep(STALL if place else 0)
                peer.sendall(piece)
            peer.shutdown(socket.SHUT_WR)
            return received(peer)

    def expect_answers(self, sent, wanted):
        expect("a peer that sends %.100r" % sent, self.answers(sent), wanted)

    def expect_end(self):
        expect("the end of the server", ended(self.process), Ended(0, b"", b""))


def received(peer):
    """All that is still sent to a peer."""
    out = b""
    while piece := peer.recv(65_536):
        out += piece
    return out


def line_sent_to(peer):
    """The next line that is sent to a peer."""
    line = b""
    while not line.endswith(b"\n"):
        line += peer.recv(1) or b"the end\n"
    return line


@contextmanager
def serving(program, file, connections):
    """A run of `serve` that listens."""
    port = free_port()
    words = ["serve", "--file", file, "--listen", "127.0.0.1:%d" % port, "--connections", str(connections)]
    with started(program, *words) as process:
        expect("what it says first", process.stdout.readline(), b"listening\n")
        yield Server(process, port)


def reset(server, sent):
    """A peer that sends this, or as much of it as it can, and whose connection is then reset."""
    with server.connected() as peer:
        peer.settimeout(STALL)
        with suppress(TimeoutError):
            peer.sendall(sent)
        peer.setsockopt(socket.SOL_SOCKET, socket.SO_LINGER, struct.pack("ii", 1, 0))
