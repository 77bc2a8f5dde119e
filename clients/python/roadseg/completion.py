"""What a word that is begun at the prompt may become: words of the language, names of what is defined, commands of the prompt."""

from __future__ import annotations

import glob
from collections.abc import Iterable, Sequence

from .lines import METHODS, RESERVED
from .schema import Schema

OPERATORS = ("WHERE", "DISSOLVE", "RENAME", "OVERLAY", "COVER", "MERGE", "MINUS", "WINDOW", "TRANSFORM", "GAPS")
DELIMITERS = " \t(),=<>+-;'%"


def options(line: str, word: str, schema: Schema, commands: Sequence[str]) -> list[str]:
    """What the last word of a line may become. A command of the prompt begins with a point."""
    before = line[: len(line) - len(word)].split()
    if line.lstrip().startswith("."):
        return command_options(before, word, schema, commands)
    if word.startswith("@"):
        return sorted(name for name in referents(schema) if name.startswith(word))
    if before[-1:] == ["AS"]:
        return matching(word, METHODS)
    return matching(word, language_words(before)) + matching(word, names(schema))


def command_options(before: Sequence[str], word: str, schema: Schema, commands: Sequence[str]) -> list[str]:
    if not before:
        return matching(word, [command + " " for command in commands])
    if before[0] in (".read", ".csv") and len(before) == 1:
        return sorted(glob.glob(glob.escape(word) + "*"))
    return matching(word, names(schema))


def language_words(before: Sequence[str]) -> list[str]:
    """The words of the language as they are typed: an operator with its bracket, any other with a blank."""
    if not before:
        firsts = "DEFINE DROP MOVE INSERT REMOVE TRANSLATE SELECT TOTAL EXPLAIN OPEN FETCH CLOSE SAVE REOPEN"
        return [word + " " for word in firsts.split()]
    return [word + "(" if word in OPERATORS else word + " " for word in sorted(RESERVED)]


def matching(word: str, candidates: Iterable[str]) -> list[str]:
    """The candidates that begin with a word, whatever its capitals."""
    return sorted({one for one in candidates if one.lower().startswith(word.lower())})


def names(schema: Schema) -> list[str]:
    """The names of what is defined."""
    columns = [column.name for table in schema.tables.values() for column in table.columns]
    return [*schema.routes, *schema.tables, *schema.views, *schema.alignments, *schema.indexes, *columns]


def referents(schema: Schema) -> set[str]:
    return {"@START"} | {"@" + name for route in schema.routes.values() for name in route.referents}
