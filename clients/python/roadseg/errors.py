"""What goes wrong: the exceptions of this package, all of which are `Error`."""

from __future__ import annotations

from typing import Any, Optional

UNKNOWN_CHARACTER = 10
SYNTAX = 11
NO_SUCH_CURSOR = 60
CURSOR_NAME_TAKEN = 61
TOO_MANY_CURSORS = 62
WANTS = (90, 91, 92)  # of memory, of the disk, of room in the file


class Error(Exception):
    """Whatever goes wrong between this client and RoadSeg."""


class Refused(Error):
    """A line that was answered ERR, and has changed nothing.

    `number` and `words` are those of the reply, as 11 and 'syntax at 17'. `line` is the line as it was sent, with its
    session, so that the column of a syntax error counts in it.
    """

    def __init__(self, number: int, words: str, line: str) -> None:
        super().__init__("%d %s: %s" % (number, words, line))
        self.number, self.words, self.line = number, words, line

    @property
    def is_want(self) -> bool:
        """Whether memory, the disk or room in the file was lacking: the line may be sent again."""
        return self.number in WANTS

    @property
    def column(self) -> Optional[int]:
        """The column of a syntax error, in bytes of the line and from 1; of other refusals None."""
        place = self.words.rpartition(" ")[2]
        is_place = self.number == SYNTAX and place.isascii() and place.isdecimal() and len(place) < 6
        return int(place) if is_place else None


class Unsendable(Error, ValueError):
    """What can't be a line, and was not sent: it is too long, or has an LF or another control character."""


class Failed(Error):
    """The program or the connection failed, or what came is no reply: no more lines are sent.

    Where a line was sent and its reply is missing, it is not known whether the line was carried out. `status` is the
    program's, and `said` what it wrote to standard error; of a connection they are None and ''. `loaded` is what `load` had
    entered by then.
    """

    def __init__(self, words: str, status: Optional[int] = None, said: str = "") -> None:
        super().__init__(words)
        self.status, self.said = status, said
        self.loaded: Any = None


def add_note(fault: BaseException, words: str) -> None:
    """Adds a note to an error, as `add_note` does from Python 3.11 on."""
    if hasattr(fault, "add_note"):
        fault.add_note(words)
    else:
        fault.__notes__ = [*getattr(fault, "__notes__", []), words]  # type: ignore[attr-defined]
