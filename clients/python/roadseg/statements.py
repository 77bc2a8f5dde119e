"""What is typed at the prompt, cut into statements: by `;`, or by the end of a line that can be a command's end."""

from __future__ import annotations

import re
from typing import NamedTuple, Optional

from .lines import METHODS, QUOTED, RESERVED, tokens

COMMENT = "--"
PIECE = re.compile(r"%s|'[^\n]*|--[^\n]*|;|[^';-]+|-" % QUOTED)
LAST_WORDS = frozenset([*METHODS, "SAVE", "REOPEN", "NULL"])  # the reserved words that a command may end with
LAST_SYMBOLS = (")", "%")
NEEDED = {"TOTAL": "BY", "INSERT": "VALUES", "TRANSLATE": "AS", "OPEN": "FOR", "MOVE": "TO"}  # words that a command has
SESSION = re.compile("([0-9]{1,2}) +(?=[A-Za-z])")


class Statement(NamedTuple):
    """A command, and the session that was written in front of it, if any was."""

    text: str
    session: Optional[int]


class Splitter:
    """Takes lines, and gives the statements that end with them. Comments, from `--` to a line's end, are dropped."""

    def __init__(self) -> None:
        self._text = ""

    @property
    def is_open(self) -> bool:
        """Whether a statement has begun and not ended."""
        return bool(self._text.strip())

    def feed(self, line: str) -> list[Statement]:
        """The statements that end in this line."""
        found = []
        for piece in PIECE.findall(line):
            if piece == ";":
                found += self.end()
            elif not piece.startswith(COMMENT):
                self._text += piece
        self._text += " "
        return found if wants_more(self._text) else found + self.end()

    def end(self) -> list[Statement]:
        """What has begun, as a statement."""
        text, self._text = self._text.strip(), ""
        return [statement_of(text)] if text else []

    def drop(self) -> None:
        """Gives up what has begun."""
        self._text = ""


def statement_of(text: str) -> Statement:
    found = SESSION.match(text)
    if found is None:
        return Statement(text, None)
    return Statement(text[found.end() :], int(found[1]))


def wants_more(text: str) -> bool:
    """Whether a text has open brackets, lacks a word of its command, or ends with a word or a sign that no command ends with."""
    found = list(tokens(text))
    if not found or found[-1].kind == "other":
        return False
    symbols = [token.text for token in found if token.kind == "symbol"]
    if symbols.count("(") > symbols.count(")"):
        return True
    last, words = found[-1], [token.text for token in found if token.kind == "word"]
    if words and NEEDED.get(words[0], words[0]) not in words:
        return True
    if last.kind == "word":
        return last.text in RESERVED - LAST_WORDS
    return last.kind == "symbol" and last.text not in LAST_SYMBOLS
