"""Where it begins: a run of the program over a file, a connection to a server, a new file, a file's dump, an edit, a snapshot."""

from __future__ import annotations

import contextlib
import os
import shutil
import tempfile
from collections.abc import Iterator
from typing import IO, Optional, Union

from .client import Client
from .errors import Failed
from .lines import checked_session
from .schema import Schema
from .wires import LIMIT, Connection, Process, output_of

PROGRAM = "roadseg"
Path = Union[str, os.PathLike[str]]


def connect(
    host: str = "127.0.0.1", port: int = 7400, session: int = 0, timeout: Optional[float] = LIMIT
) -> Client:
    """A client of the `serve` at an address.

    `serve` answers one connection after another: while another one is open, the first reply waits for its end. A wait of
    more than `timeout` seconds for the next line of a reply fails; with None there is no limit.
    """
    checked_session(session)
    try:
        return Client(Connection(host, port, timeout), session, timeout)
    except (OSError, OverflowError, UnicodeError) as fault:
        raise Failed("cannot connect to %s:%s: %s" % (host, port, fault)) from fault


def run(
    file: Optional[Path] = None,
    program: Path = PROGRAM,
    session: int = 0,
    timeout: Optional[float] = LIMIT,
    definitions: bool = True,
) -> Client:
    """A client of a new `roadseg run`, over a file or, without one, in memory.

    A file's definitions are dumped first, so that `schema` and the names of columns are known; this reads the file once
    more, and is left out where `definitions` is False.
    """
    checked_session(session)
    words = [os.fspath(program), "run"] + ([] if file is None else ["--file=" + os.fspath(file)])
    schema = held_by(file, program, timeout) if file is not None and definitions else Schema()
    try:
        return Client(Process(words), session, timeout, schema)
    except OSError as fault:
        raise Failed("cannot start %s: %s" % (program, fault)) from fault


def create(file: Path, program: Path = PROGRAM, timeout: Optional[float] = LIMIT) -> None:
    """Makes a file with nothing in it, as `roadseg create` does. There must be no such file yet."""
    output_of([os.fspath(program), "create", "--file=" + os.fspath(file)], timeout)


def schema_of(file: Path, program: Path = PROGRAM, timeout: Optional[float] = LIMIT) -> Schema:
    """What is defined in a file that no run has open, by a dump, which writes nothing to it."""
    words = [os.fspath(program), "dump", "--definitions", "--file=" + os.fspath(file)]
    return Schema(output_of(words, timeout).decode(errors="replace").splitlines())


def held_by(file: Path, program: Path, timeout: Optional[float]) -> Schema:
    """What is defined in a file that is about to be opened. Where it can't be dumped, the run tells why."""
    try:
        return schema_of(file, program, timeout)
    except Failed:
        return Schema()


@contextlib.contextmanager
def edit(file: Path, program: Path = PROGRAM, session: int = 0, timeout: Optional[float] = LIMIT) -> Iterator[Client]:
    """A client of a copy of a file. The copy takes the file's place when the block ended well; else the file stays as it was.

    No other program opens the file meanwhile. The copy is in the file's folder, has its permissions, and is on the disk
    before it takes the place.
    """
    path = os.path.realpath(os.fspath(file))
    with locked(path), copied(path, os.path.dirname(path)) as copy:
        with run(copy, program, session, timeout) as road:
            yield road
        if road.failure is not None:
            raise road.failure
        with in_the_system("cannot replace %s" % path):
            keep_owner(path, copy)
            synced(copy)
            os.replace(copy, path)
            synced(os.path.dirname(path))


@contextlib.contextmanager
def snapshot(file: Path, program: Path = PROGRAM, session: int = 0, timeout: Optional[float] = LIMIT) -> Iterator[Client]:
    """A client of a copy of a file as it is now, to ask: what it is told is gone at the end, and the file is free meanwhile."""
    path = os.path.realpath(os.fspath(file))
    with contextlib.ExitStack() as stack:
        with locked(path):
            copy = stack.enter_context(copied(path, None))
        yield stack.enter_context(run(copy, program, session, timeout))


@contextlib.contextmanager
def locked(path: str) -> Iterator[None]:
    """Holds the lock by which programs keep each other from a file."""
    with in_the_system("cannot open %s" % path):
        if not os.path.isfile(path):
            raise Failed("cannot open %s: it is no file" % path)
        held = open(path, "rb")
    with held:
        with in_the_system("cannot open %s" % path):
            take_lock(held, path)
        try:
            yield
        finally:
            give_back_lock(held)


def take_lock(held: IO[bytes], path: str) -> None:
    import fcntl  # which only Unix has

    try:
        fcntl.flock(held, fcntl.LOCK_EX | fcntl.LOCK_NB)
    except BlockingIOError as fault:
        raise Failed("cannot open %s: another program has it" % path) from fault
    if not os.path.samestat(os.fstat(held.fileno()), os.stat(path)):
        raise Failed("cannot open %s: another program has replaced it meanwhile" % path)


def give_back_lock(held: IO[bytes]) -> None:
    """Closing the file is not enough: a process that another thread is starting has it as well until it runs its program."""
    import fcntl

    fcntl.flock(held, fcntl.LOCK_UN)


@contextlib.contextmanager
def copied(path: str, folder: Optional[str]) -> Iterator[str]:
    """The path of a copy of a file, in a folder of its own within another one, which goes at the end."""
    with in_the_system("cannot copy %s" % path):
        own = tempfile.mkdtemp(prefix=".roadseg-", dir=folder)
    try:
        copy = os.path.join(own, os.path.basename(path))
        with in_the_system("cannot copy %s" % path):
            shutil.copyfile(path, copy)
        yield copy
    finally:
        shutil.rmtree(own, ignore_errors=True)


def keep_owner(path: str, copy: str) -> None:
    """Gives a copy the permissions of a file, and its owner where that is allowed."""
    about = os.stat(path)
    with contextlib.suppress(PermissionError):
        os.chown(copy, about.st_uid, about.st_gid)
    shutil.copymode(path, copy)


@contextlib.contextmanager
def in_the_system(what: str) -> Iterator[None]:
    """Tells an error of the system as `Failed`."""
    try:
        yield
    except OSError as fault:
        raise Failed("%s: %s" % (what, fault)) from fault


def synced(path: str) -> None:
    """Has a file, or the names in a folder, written to the disk."""
    descriptor = os.open(path, os.O_RDONLY)
    try:
        os.fsync(descriptor)
    finally:
        os.close(descriptor)
