"""The prompt: `python -m roadseg FILE`. Lines of the language are typed, and answers come as tables, page by page.

A statement ends with `;`, or with a line that can be a command's end; `--` begins a comment. `.help` lists what else there is.
"""

from __future__ import annotations

import argparse
import contextlib
import csv
import os
import shutil
import signal
import sys
import time
from collections.abc import Callable, Iterable, Iterator, Sequence
from itertools import islice
from typing import Any, NamedTuple, Optional, TextIO

from . import __version__
from .answers import answer_of
from .client import Client
from .errors import SYNTAX, TOO_MANY_CURSORS, UNKNOWN_CHARACTER, Error, Failed, Refused
from .layout import Layout, caret_lines, clean
from .lines import METHODS, tokens
from .opening import PROGRAM, connect, run
from .rows import Rows
from .schema import Schema
from .statements import Splitter, Statement
from .wires import LIMIT, output_of

PROMPT, MORE = "roadseg> ", "    ...> "
PAGE_ENDS = "-- more: Enter goes on, q ends -- "
LARGEST_PAGE = 1_000
REST_OF_SCREEN = 4  # lines of a page that are no rows
DEEPEST_FILE = 16
SHOWN_PLAN = "  "  # before each node, for each step of its depth

HELP = """Lines of the language, as SELECT pavement, end with ; or where a line can be a command's end. -- begins a comment.
.csv FILE QUERY       write the answer of a query as CSV into a file, or - to see it
.explain              what the last refusal means, and how such a line is mended
.explain NUMBER       what a refusal of this number means
.explain QUERY        the plan of a query
.help                 this
.quit                 end, and close the file; so does Ctrl-D
.read FILE            carry out the lines of a file
.routes               the routes, with their ends and referents
.schema [NAME]        what is defined, as lines; or a table, view, route, alignment or index alone
.timer on|off         how long each statement takes"""


class Usage(Exception):
    """A command of the prompt that can't be carried out, and why."""


class Settings(NamedTuple):
    """How the prompt talks: whether somebody reads along, how many rows a page has, and the program that explains."""

    is_terminal: bool
    page: int
    program: str


class Prompt:
    """Carries out statements and commands over a client, and writes what they answer."""

    def __init__(self, road: Client, output: TextIO, errors: TextIO, settings: Settings) -> None:
        self.road, self.settings = road, settings
        self._output, self._errors = output, errors
        self._last: Optional[Refused] = None  # the last refusal
        self._is_timed = False
        self._depth = 0  # of files that are read, one by a line of another
        self.refusals = 0
        self.commands: dict[str, Callable[[str], None]] = {
            ".csv": self.write_csv,
            ".explain": self.explain,
            ".help": lambda _words: self.say(HELP),
            ".quit": lambda _words: None,
            ".read": self.read,
            ".routes": self.show_routes,
            ".schema": self.show_schema,
            ".timer": self.set_timer,
        }

    # What it writes.

    def say(self, text: str) -> None:
        print(text, file=self._output, flush=True)

    def complain(self, text: str) -> None:
        self._output.flush()
        print(text, file=self._errors, flush=True)

    # What it is given.

    def take(self, lines: Iterable[str]) -> None:
        """Carries out lines up to their end, or to `.quit`."""
        splitter = Splitter()
        for number, line in enumerate(lines, 1):
            line = line.rstrip("\r\n")
            if line.startswith(".") and not splitter.is_open:
                if line.split()[0] in (".quit", ".exit"):
                    return
                self.command(line)
                continue
            for statement in splitter.feed(line):
                self.carry_out(statement, number)
        for statement in splitter.end():
            self.carry_out(statement, number)

    def carry_out(self, statement: Statement, number: int = 0) -> None:
        """Carries out a statement, in its session where it names one. A refusal is written; a failure ends the prompt."""
        before, began = self.road.session, time.monotonic()
        try:
            if statement.session is not None:
                self.road.session = statement.session
            self.answer(statement.text)
        except Refused as refused:
            self.tell_refusal(refused, number)
        except Failed:
            raise
        except (Error, ValueError) as fault:
            self.refusals += 1
            self.complain(str(fault))
        finally:
            self.road.session = before
        if self._is_timed:
            self.say("%.3f s" % (time.monotonic() - began))

    def tell_refusal(self, refused: Refused, number: int) -> None:
        self._last = refused
        self.refusals += 1
        for line in caret_lines(refused, shutil.get_terminal_size().columns):
            self.complain(line)
        place = "line %d: " % number if self._depth else ""
        hint = " (.explain says what it means)" if self.settings.is_terminal else ""
        self.complain("%s%d %s%s" % (place, refused.number, clean(refused.words), hint))

    # Answers.

    def answer(self, text: str) -> None:
        words = [token.text for token in tokens(text)]
        if words[:1] == ["SELECT"] and len(words) > 1:
            self.show_selected(text, words)
            return
        with uninterrupted():
            reply = self.road._answer(text)
            answer = answer_of(self.road, text, reply)
        if answer is None:
            if not self._depth:
                self.say("OK %d" % reply.count)
        elif words[0] == "EXPLAIN":
            for depth, node in answer.rows:
                self.say(SHOWN_PLAN * depth + clean(node))
        else:
            self.show(answer.rows, [name for name, _type in answer.columns])

    def show_selected(self, text: str, words: list[str]) -> None:
        """Shows the rows of a SELECT, which are fetched page by page."""
        method = words[-1] if words[-1] in METHODS and words[-2] == "AS" else None
        query = text.partition("SELECT")[2].strip()
        if method is not None:
            query = query[: query.rindex("AS")].strip()
        with uninterrupted():
            rows = self.selected(query, method, text)
            first = list(islice(rows, self.settings.page))
        try:
            self.show_pages(first, rows, rows.columns)
        finally:
            with uninterrupted():
                rows.close()

    def selected(self, query: str, method: Optional[str], text: str) -> Rows:
        try:
            return self.road.select(query, method, batch=self.settings.page)
        except Refused as refused:
            if refused.number in (SYNTAX, UNKNOWN_CHARACTER):
                self.road.execute(text)  # which is refused at the column of what was typed
            if refused.number != TOO_MANY_CURSORS:
                raise
        return self.road.select(query, method)

    def show(self, rows: Iterator[tuple], names: Sequence[str]) -> None:
        """Shows rows that have all come."""
        first = list(islice(rows, self.settings.page))
        self.show_pages(first, rows, names)

    def show_pages(self, page: list[tuple], rows: Iterator[tuple], names: Sequence[str]) -> None:
        """Shows rows, of which the first page was read already. Between pages somebody is asked whether to go on."""
        layout, count = Layout(names), 0
        while True:
            self.say("\n".join(layout.page(page)))
            count += len(page)
            if len(page) < self.settings.page or not self.goes_on():
                break
            with uninterrupted():
                page = list(islice(rows, self.settings.page))
            if not page:
                break
        self.say(counted(count, "" if len(page) < self.settings.page else " so far"))

    def goes_on(self) -> bool:
        if not self.settings.is_terminal:
            return True
        try:
            return not input(PAGE_ENDS).strip().lower().startswith("q")
        except EOFError:
            return False

    # Commands.

    def command(self, line: str) -> None:
        word, _, rest = line.strip().partition(" ")
        found = [name for name in self.commands if name.startswith(word) and len(word) > 1]
        if len(found) != 1:
            self.complain("no command %s: .help lists them" % clean(word))
            return
        try:
            self.commands[found[0]](rest.strip())
        except Refused as refused:
            self.tell_refusal(refused, 0)
        except Failed:
            raise
        except (Usage, Error, ValueError, OSError) as fault:
            self.complain(str(fault))

    def write_csv(self, words: str) -> None:
        path, _, query = words.partition(" ")
        if not query.strip():
            raise Usage(".csv FILE QUERY")
        with uninterrupted():
            rows = self.road.select(query.strip().rstrip(";"), batch=LARGEST_PAGE)
        if path == "-":
            count = write_rows(self._output, rows)
        else:
            with open(path, "w", newline="", encoding="utf-8") as file:
                count = write_rows(file, rows)
        self.say(counted(count))

    def explain(self, words: str) -> None:
        """Says what a refusal means, by the program's own words; or shows a plan."""
        if words and not words.isdecimal():
            self.answer("EXPLAIN " + words.rstrip("; "))
            return
        if not words and self._last is None:
            raise Usage("nothing was refused yet")
        number = words or str(self._last.number if self._last else "")
        try:
            said = output_of([self.settings.program, "explain", number], LIMIT)
        except Failed as fault:
            raise Usage(clean_lines(fault.said or str(fault))) from fault
        self.say(clean_lines(said.decode(errors="replace").rstrip("\n")))

    def read(self, words: str) -> None:
        if not words:
            raise Usage(".read FILE")
        if self._depth == DEEPEST_FILE:
            raise Usage("%s is not read: files read each other" % words)
        refusals, self._depth = self.refusals, self._depth + 1
        try:
            with open(words, encoding="utf-8") as file:
                self.take(file)
        except UnicodeDecodeError as fault:
            raise Usage("%s is no text: %s" % (words, fault)) from fault
        finally:
            self._depth -= 1
        self.say("%s was read, %d refused" % (words, self.refusals - refusals))

    def show_routes(self, _words: str) -> None:
        routes = sorted(self.road.schema().routes.values())
        referents = [", ".join("%s %s" % pair for pair in sorted(one.referents.items())) for one in routes]
        rows = [(*one[:3], told) for one, told in zip(routes, referents)]
        self.show(iter(rows), ["route", "from", "to", "referents"])

    def show_schema(self, words: str) -> None:
        lines = definition_lines(self.road.schema())
        found = [line for name, line in lines if not words or name == words]
        if words and not found:
            raise Usage("nothing is known here of %s" % clean(words))
        for line in found:
            self.say(clean(line))

    def set_timer(self, words: str) -> None:
        if words not in ("on", "off"):
            raise Usage(".timer on, or .timer off")
        self._is_timed = words == "on"


def write_rows(file: TextIO, rows: Rows) -> int:
    """Writes rows as CSV, with a header. Gives how many there were."""
    table = csv.writer(file, lineterminator="\n")
    table.writerow(rows.columns)
    count = 0
    for row in rows:
        table.writerow(row)
        count += 1
    file.flush()
    return count


def counted(count: int, more: str = "") -> str:
    return "(%d row%s%s)" % (count, "" if count == 1 else "s", more)


def clean_lines(text: str) -> str:
    return "\n".join(map(clean, text.split("\n")))


def definition_lines(schema: Schema) -> list[tuple[str, str]]:
    """What is defined, as lines, each with the name of which it is."""
    found = []
    for route in schema.routes.values():
        found.append((route.name, "DEFINE ROUTE %s FROM %s TO %s" % route[:3]))
        found += [(route.name, "DEFINE REFERENT %s %s AT %s" % (route.name, *one)) for one in route.referents.items()]
    for table in schema.tables.values():
        types = [one.type if one.length is None else "%s(%d)" % (one.type, one.length) for one in table.columns]
        columns = ", ".join("%s %s" % (one.name, kind) for one, kind in zip(table.columns, types))
        found.append((table.name, "DEFINE %s TABLE %s (%s)" % (table.kind, table.name, columns)))
    for index in schema.indexes.values():
        found.append((index.name, "DEFINE INDEX %s ON %s (%s)" % index))
    for alignment in schema.alignments.values():
        pieces = ", ".join("%s FROM %s TO %s INTO %s AT %s" % piece for piece in alignment.pieces)
        found.append((alignment.name, "DEFINE ALIGNMENT %s (%s)" % (alignment.name, pieces)))
    found += [(view.name, "DEFINE VIEW %s AS %s" % view) for view in schema.views.values()]
    return found


# Interrupts.


@contextlib.contextmanager
def uninterrupted() -> Iterator[None]:
    """Has Ctrl-C wait for the end of the block, so that no reply is broken off. A second one does not wait."""
    noted: list[bool] = []

    def note(_number: int, _frame: Any) -> None:
        if noted:
            raise KeyboardInterrupt
        noted.append(True)

    try:
        before = signal.signal(signal.SIGINT, note)
    except ValueError:  # not in the main thread, which alone gets signals
        yield
        return
    try:
        yield
    finally:
        signal.signal(signal.SIGINT, before)
    if noted:
        raise KeyboardInterrupt


# Somebody at a terminal.


def typed_lines(prompt: Prompt) -> None:
    """Carries out what is typed, up to Ctrl-D or `.quit`. Ctrl-C gives up what was begun."""
    splitter = Splitter()
    while True:
        try:
            line = input(MORE if splitter.is_open else PROMPT)
            if line.startswith(".") and not splitter.is_open:
                if line.split()[0] in (".quit", ".exit"):
                    return
                prompt.command(line)
                continue
            for statement in splitter.feed(line):
                prompt.carry_out(statement)
        except KeyboardInterrupt:
            splitter.drop()
            prompt.say("^C")
        except EOFError:
            prompt.say("")
            return


def prepare_terminal(prompt: Prompt) -> Callable[[], None]:
    """Has lines edited, completed and remembered, where the library for it is there. Gives what remembers them at the end."""
    try:
        import readline
    except ImportError:
        return lambda: None
    from . import completion

    path = os.environ.get("ROADSEG_HISTORY") or os.path.expanduser("~/.roadseg_history")
    with contextlib.suppress(OSError):
        readline.read_history_file(path)
    readline.set_history_length(1_000)
    readline.set_completer_delims(completion.DELIMITERS)
    readline.set_completer(completer_of(prompt))
    is_libedit = "libedit" in (readline.__doc__ or "")
    readline.parse_and_bind("bind ^I rl_complete" if is_libedit else "tab: complete")

    def remember() -> None:
        with contextlib.suppress(OSError):
            readline.write_history_file(path)
            os.chmod(path, 0o600)

    return remember


def completer_of(prompt: Prompt) -> Callable[[str, int], Optional[str]]:
    """What readline asks: the options for a word, one after another."""
    found: list[str] = []

    def complete(word: str, state: int) -> Optional[str]:
        import readline

        from . import completion

        if state == 0:
            line = readline.get_line_buffer()[: readline.get_endidx()]
            found[:] = completion.options(line, word, prompt.road.schema(), list(prompt.commands))
        return found[state] if state < len(found) else None

    return complete


# The program.


def words_of(arguments: Optional[list[str]]) -> argparse.Namespace:
    parser = argparse.ArgumentParser(prog="python -m roadseg", description="A prompt for RoadSeg. `.help` lists its commands.")
    parser.add_argument("file", nargs="?", metavar="FILE", help="start `roadseg run` on this file; without it, in memory")
    parser.add_argument("--port", type=int, metavar="PORT", help="connect to a `roadseg serve` at this port")
    parser.add_argument("--host", default="127.0.0.1", metavar="HOST", help="the server's address (default: 127.0.0.1)")
    parser.add_argument("--definitions", metavar="DUMP", help="what the server's file has, from `roadseg dump --definitions`")
    parser.add_argument("--program", default=PROGRAM, metavar="PATH", help="what FILE is opened by (default: roadseg)")
    parser.add_argument("--session", type=int, default=0, metavar="N", help="the session, 0 to 63 (default: 0)")
    parser.add_argument("--timeout", type=float, default=LIMIT, metavar="S", help="seconds for a reply; 0 for no limit")
    parser.add_argument("--page", type=int, metavar="ROWS", help="rows of a page (default: as the terminal has room)")
    parser.add_argument("--version", action="version", version=__version__)
    words = parser.parse_args(arguments)
    if words.file is not None and words.port is not None:
        parser.error("a file is opened, or a server is asked, and not both")
    if words.page is not None and not 1 <= words.page <= LARGEST_PAGE:
        parser.error("a page has 1 to 1,000 rows")
    return words


def opened(words: argparse.Namespace) -> Client:
    timeout = words.timeout or None
    if words.port is None:
        return run(words.file, words.program, words.session, timeout)
    road = connect(words.host, words.port, words.session, timeout)
    if words.definitions is not None:
        with open(words.definitions, encoding="utf-8") as file:
            road.learn(file)
    return road


def settings_of(words: argparse.Namespace) -> Settings:
    is_terminal = sys.stdin.isatty() and sys.stdout.isatty()
    room = shutil.get_terminal_size().lines - REST_OF_SCREEN if is_terminal else LARGEST_PAGE
    return Settings(is_terminal, words.page or min(max(room, 1), LARGEST_PAGE), os.fspath(words.program))


def talk(road: Client, settings: Settings) -> int:
    """Talks until the end of what is typed or read. Gives how many lines were refused."""
    prompt = Prompt(road, sys.stdout, sys.stderr, settings)
    if not settings.is_terminal:
        prompt.take(sys.stdin)
        return prompt.refusals
    remember = prepare_terminal(prompt)
    prompt.say("RoadSeg: .help lists the commands, .quit ends")
    try:
        typed_lines(prompt)
    finally:
        remember()
    return 0


def main(arguments: Optional[list[str]] = None) -> int:
    """Runs the prompt. The status is 1 after a failure, and where lines that nobody typed were refused."""
    words = words_of(arguments)
    try:
        with opened(words) as road:
            return 1 if talk(road, settings_of(words)) else 0
    except (Error, ValueError, OSError) as fault:
        print("roadseg: %s" % fault, file=sys.stderr)
        return 1
    except KeyboardInterrupt:
        return 130


if __name__ == "__main__":
    sys.exit(main())
