#!/usr/bin/env python3
"""Holds conversations: each sends its lines to the program, and compares the answers byte for byte.

    tests/gate/conversations.py [--program CMD] [--create CMD] [--ways WAYS] [--timeout SECONDS] [--jobs N] [FILE ..]
    tests/gate/conversations.py --expand FILE

Each is held in four ways, and answered alike: `memory` is one run without a file, `file` one run over a file that was
just created, `cut` several runs over such a file, which end at pseudo-random lines where no cursor is open, and `beside` one
run without a file in which other cursors are fetched from before each FETCH, held where there is one (ways.py).
WAYS are some of these names, with commas between them. CMD answers lines without a file, and is
`crates/roadseg/out/roadseg run` by default; what creates a file is its first word and `create` by default. Over a file
both are given `--file` and a path.

Without files it takes every tests/conversations/*.txt and every example of README.md, docs/LANGUAGE.md and
docs/COOKBOOK.md. An example is a fenced or indented block whose first line begins with `> `; other blocks of a `.md`
file are skipped. Where the file has a line `<!-- each example follows FILE -->`, the lines of FILE, a path from the
repository's root, are sent before each of its examples, and each of them must be accepted. For each line that is answered otherwise it
prints the file, the number of the line in the file, the line sent, and the first line of the reply that differs, as
wanted and as got. A run that does not end with status 0, or writes to standard error, fails too. The last line is
`N passed, M failed`, counted in conversations, once in each way; the exit status is 0 only where none failed.

What a file may say is in conversation_files.py. `--expand` prints a conversation without loops and escapes, for programs that read
it: `> ` and a line to send, `>n ` and what is sent last without an LF, `< ` and a line of the answer, each up to an LF. All other
bytes are in it as they are sent and answered, a CR among them. A line's answer follows it.
"""

import argparse
import concurrent.futures
import os
import re
import shlex
import shutil
import sys

import folders  # noqa: F401, the path of modules
from conversation_files import FOLDER, Misspelt, conversations_of
from harness import summary
from programs import ROOT, replies_of
from ways import FETCHED, WAYS, add_options, answer_in, program_of

DOCUMENTS = ["README.md", os.path.join("docs", "LANGUAGE.md"), os.path.join("docs", "COOKBOOK.md")]

# Of so many lines of a conversation the differences are printed; the others are counted.
DIFFERENCES_SHOWN = 5
BYTES_SHOWN = 300


def all_files():
    """The files that are run where none is named."""
    texts = sorted(name for name in os.listdir(FOLDER) if name.endswith(".txt"))
    return [os.path.join(FOLDER, name) for name in texts] + [os.path.join(ROOT, name) for name in DOCUMENTS]


def expanded(conversation):
    """The plain form of a conversation."""
    out = bytearray()
    for exchange in conversation.exchanges:
        if exchange.sent.endswith(b"\n"):
            out += b"> " + exchange.sent
        else:
            out += b">n " + exchange.sent + b"\n"
        for line in lines_of(exchange.wanted):
            out += b"< " + line
    return bytes(out)


def lines_of(data):
    """The bytes cut after each LF; a rest without one is the last."""
    return [line for line in re.split(rb"(?<=\n)", data) if line]


def shown(data):
    """Some bytes as printable text, without an LF at the end."""
    text = data.decode("utf-8", "backslashreplace").removesuffix("\n")
    text = "".join(c if c.isprintable() else repr(c)[1:-1] for c in text)
    text = text[:-1] + "\\x20" if text.endswith(" ") else text
    return text if len(text) <= BYTES_SHOWN else "%s.. (%d bytes)" % (text[:BYTES_SHOWN], len(data))


def told_line(lines, place):
    """One of the lines of a reply, as it is printed."""
    if place >= len(lines):
        return "nothing"
    return shown(lines[place]) + ("" if lines[place].endswith(b"\n") else " (without its LF)")


def difference(name, exchange, got):
    """What differs in the answer to one line."""
    wanted, got = lines_of(exchange.wanted), lines_of(got)
    place = 0
    while place < len(wanted) and place < len(got) and wanted[place] == got[place]:
        place += 1
    told = [told_line(lines, place) for lines in (wanted, got)]
    at = " (line %d of the reply)" % (place + 1) if place else ""
    return "%s:%d: %s\n  wanted%s: %s\n  got%s: %s" % (
        name, exchange.number, shown(exchange.sent), at, told[0], at, told[1])


def differences(conversation, out):
    """What differs, line by line. There is none exactly where the output is what is wanted, byte for byte."""
    replies, found = iter(replies_of(out)), []
    for exchange in conversation.exchanges:
        is_whole = exchange.sent.endswith(b"\n")
        got = next(replies, b"") if is_whole else b""
        if not exchange.is_answered_by(got):
            found.append(difference(conversation.name, exchange, got))
    rest = b"".join(replies)
    if rest:
        found.append("%s: answers to no line: %s" % (conversation.name, shown(rest)))
    return found


def complaints(conversation, way, program, timeout):
    """What is wrong with the conversation as the program holds it in one way."""
    exchanges = conversation.exchanges
    lines = [bytes(exchange.sent) for exchange in exchanges]
    wanted = [b"0 OK 0\n" if exchange.is_answer_free else bytes(exchange.wanted) for exchange in exchanges]
    answer = answer_in(way, program, lines, wanted, timeout)
    found = differences(conversation, answer.out) if answer.out or not answer.complaint else []
    if len(found) > DIFFERENCES_SHOWN:
        more = "%s: %d lines more were answered otherwise" % (conversation.name, len(found) - DIFFERENCES_SHOWN)
        found = found[:DIFFERENCES_SHOWN] + [more]
    if answer.complaint:
        found.append("%s: %s" % (conversation.name, answer.complaint))
    return [WAYS[way] + one for one in found]


def is_held(conversation, way):
    """Whether a way differs from the others in a conversation."""
    return way != "beside" or any(FETCHED.match(exchange.sent) for exchange in conversation.exchanges)


def read_all(files):
    """The conversations of the files, and what is wrong with files that are none."""
    conversations, faults = [], []
    for path in files:
        try:
            conversations += conversations_of(path)
        except (Misspelt, OSError, UnicodeDecodeError) as fault:
            faults.append("%s: %s" % (os.path.relpath(path), fault))
    return conversations, faults


def hold_all(conversations, faults, words):
    """Holds the conversations side by side, prints what is wrong, and gives the exit status."""
    failed = len(faults)
    for fault in faults:
        print(fault)
    program = program_of(words)
    turns = [(conversation, way) for conversation in conversations for way in words.ways if is_held(conversation, way)]
    with concurrent.futures.ThreadPoolExecutor(words.jobs) as pool:
        for found in pool.map(lambda turn: complaints(*turn, program, words.timeout), turns):
            if found:
                failed += 1
                print("\n".join(found), flush=True)
    return summary(len(turns) + len(faults) - failed, failed)


def main():
    parser = argparse.ArgumentParser(description="Holds conversations, or prints one without loops and escapes.")
    add_options(parser)
    parser.add_argument("--timeout", type=float, default=120, metavar="SECONDS")
    parser.add_argument("--jobs", type=int, default=os.cpu_count() or 1, metavar="N")
    parser.add_argument("--expand", action="store_true")
    parser.add_argument("files", nargs="*", metavar="FILE")
    words = parser.parse_args()
    conversations, faults = read_all(words.files or all_files())
    if words.expand:
        if faults or len(conversations) != 1:
            sys.exit("\n".join(faults) or "one conversation can be expanded, not %d" % len(conversations))
        sys.stdout.buffer.write(expanded(conversations[0]))
        return 0
    program = shlex.split(words.program)
    if not program or not shutil.which(program[0]):
        sys.exit("there is no program %s" % words.program)
    return hold_all(conversations, faults, words)


if __name__ == "__main__":
    sys.exit(main())
