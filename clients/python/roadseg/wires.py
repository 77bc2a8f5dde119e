"""Where lines go: a connection to `serve`, or a run of the program. Every wait has a limit, unless the caller wants none."""

from __future__ import annotations

import os
import select
import socket
import subprocess
import time
from collections.abc import Callable, Sequence
from typing import Any, Optional

from .errors import Failed
from .replies import Ending

LIMIT = 60.0  # seconds that the next line of a reply, a send, or the program's end may take, unless the caller says otherwise
AT_ONCE = 262_144  # bytes that are received at once
TIMED_OUT = "timed out"


class Connection:
    """A connection to `serve`."""

    def __init__(self, host: str, port: int, longest: Optional[float]) -> None:
        self._socket = socket.create_connection((host, port), longest)
        self._socket.setsockopt(socket.IPPROTO_TCP, socket.TCP_NODELAY, 1)

    def send(self, data: bytes, longest: Optional[float]) -> None:
        self._within(longest, self._socket.sendall, data)

    def receive(self, longest: Optional[float]) -> bytes:
        return self._within(longest, self._socket.recv, AT_ONCE)

    def end(self, longest: Optional[float]) -> Ending:
        """Closes it. Of a connection there is nothing to say."""
        self._socket.close()
        return Ending()

    def _within(self, longest: Optional[float], call: Callable, argument: object) -> Any:
        if longest is not None and longest <= 0:
            raise TimeoutError(TIMED_OUT)
        self._socket.settimeout(longest)
        try:
            return call(argument)
        except socket.timeout as fault:  # of another class than TimeoutError up to Python 3.9
            raise TimeoutError(TIMED_OUT) from fault


class Process:
    """A run of the program.

    It is in a session of its own, since Ctrl-C in the terminal would kill it and lose what was not saved. It ends when
    its input does, also where this process is killed.
    """

    def __init__(self, words: Sequence[str]) -> None:
        pipe = subprocess.PIPE
        # decision: own-session-of-the-system
        self._process = subprocess.Popen(words, bufsize=0, stdin=pipe, stdout=pipe, stderr=pipe, start_new_session=True)
        assert self._process.stdin and self._process.stdout
        self._input, self._output = self._process.stdin.fileno(), self._process.stdout.fileno()
        os.set_blocking(self._input, False)

    def send(self, data: bytes, longest: Optional[float]) -> None:
        until = None if longest is None else time.monotonic() + longest
        left = memoryview(data)
        while left:
            try:
                left = left[os.write(self._input, left) :]
            except BlockingIOError:
                wait(self._input, select.POLLOUT, None if until is None else until - time.monotonic())

    def receive(self, longest: Optional[float]) -> bytes:
        wait(self._output, select.POLLIN, longest)
        return os.read(self._output, AT_ONCE)

    def end(self, longest: Optional[float]) -> Ending:
        """Ends its input, and waits for it to close its file. It is not killed where that takes too long."""
        try:
            _, said = self._process.communicate(timeout=longest)
        except subprocess.TimeoutExpired:
            return Ending(None, "the program has not ended within %g seconds" % (longest or 0), True)
        return Ending(self._process.returncode, said.decode(errors="replace").strip())


def wait(descriptor: int, event: int, longest: Optional[float]) -> None:
    """Waits for an event of a file descriptor, at most so many seconds."""
    poll = select.poll()
    poll.register(descriptor, event)
    if not poll.poll(None if longest is None else max(longest, 0) * 1000):
        raise TimeoutError(TIMED_OUT)


def output_of(words: Sequence[str], longest: Optional[float]) -> bytes:
    """What a run of the program prints. Raises `Failed` where it does not end with status 0 in time."""
    try:
        done = subprocess.run(words, capture_output=True, stdin=subprocess.DEVNULL, start_new_session=True, timeout=longest)
    except OSError as fault:
        raise Failed("cannot start %s: %s" % (words[0], fault)) from fault
    except subprocess.TimeoutExpired as fault:
        raise Failed("%s has not ended within %g seconds" % (words[0], fault.timeout)) from fault
    said = done.stderr.decode(errors="replace").strip()
    if done.returncode:
        raise Failed(said or "status %d" % done.returncode, done.returncode, said)
    return done.stdout
