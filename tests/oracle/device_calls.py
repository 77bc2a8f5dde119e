"""Calls of a disk that change it, or make sure of what was changed, and what they make of a file's bytes."""

from typing import NamedTuple


class Write(NamedTuple):
    at: int
    data: bytes

    def end(self):
        return self.at + len(self.data)


class Sync(NamedTuple):
    pass


class Cut(NamedTuple):
    """The file has no more than so many bytes from then on."""

    size: int


SYNC = Sync()


def apply(file, call):
    """Makes a call on the bytes of a file."""
    if isinstance(call, Cut):
        del file[call.size :]
    elif isinstance(call, Write):
        file.extend(bytes(max(0, call.at - len(file))))
        file[call.at : call.end()] = call.data


def applied(data, calls):
    """The bytes of a file after these calls."""
    file = bytearray(data)
    for call in calls:
        apply(file, call)
    return bytes(file)
