"""Conversations as text: the lines that a file sends, and their answers.

Each line of a conversation begins with a mark:

    > text          a line to send; its LF is added
    >e text         the same, with escapes
    >n text         the same, with escapes and without the LF: what is sent next goes on with the line
    < text          the next line of the answer; its LF is added
    <e text         the same, with escapes
    0 OK 0          a line that begins with a digit is a line of the answer too
    # text          a remark
    @for i A B      the lines up to `@end` once for each i from A to B
    @end

An empty line says nothing. `>` alone sends an empty line. Escapes are `\\xHH` for a byte, `\\r`, `\\t`, `\\\\`, and
`\\{N:text}` for N times the text; none of them makes an LF. Inside `@for`, `${EXPR}` is the value of EXPR, made of i,
digits, + - * ( ), and `${m:EXPR}` is that number of thousandths as a measure.

decision: conversations
"""

import os
import re

from programs import ROOT

FOLDER = os.path.join(ROOT, "tests", "conversations")

# What a document says where its examples follow the lines of a file.
FOLLOWS = re.compile(r"<!-- each example follows (\S+) -->")

# The reply to a line that is only to be accepted.
ACCEPTED = re.compile(rb"[0-9]+ OK [0-9]+\n")


class Misspelt(Exception):
    """A file that is no conversation."""


class Exchange:
    """A line that is sent, or the rest of one that is cut, and its whole answer; or only that it is accepted."""

    def __init__(self, number, sent, is_answer_free=False):
        self.number, self.sent, self.wanted, self.is_answer_free = number, sent, bytearray(), is_answer_free

    def is_answered_by(self, reply):
        return bool(ACCEPTED.fullmatch(reply)) if self.is_answer_free else reply == self.wanted


class Conversation:
    """Exchanges in order, of a file from one of its lines on."""

    def __init__(self, name):
        self.name, self.exchanges = name, []

    def send(self, number, piece):
        """Sends a piece, which goes on with a line that is not ended yet."""
        if self.exchanges and not self.exchanges[-1].sent.endswith(b"\n"):
            self.exchanges[-1].sent += piece
        else:
            self.exchanges.append(Exchange(number, piece))

    def want(self, line):
        if not self.exchanges or not self.exchanges[-1].sent.endswith(b"\n"):
            raise Misspelt("an answer to no line")
        self.exchanges[-1].wanted += line + b"\n"


def escape(text, place):
    """The bytes of the escape at a place of the text, and the place after it."""
    kind = text[place + 1:place + 2]
    if kind == "x":
        return bytes([int(text[place + 2:place + 4], 16)]), place + 4
    if kind == "{":
        end = text.index("}", place)
        count, repeated = text[place + 2:end].split(":", 1)
        return repeated.encode() * int(count), end + 1
    return {"r": b"\r", "t": b"\t", "\\": b"\\"}[kind], place + 2


def unescaped(text):
    """The bytes of a text with escapes."""
    out, place = bytearray(), 0
    while place < len(text):
        if text[place] == "\\":
            piece, place = escape(text, place)
            out += piece
        else:
            out += text[place].encode()
            place += 1
    if b"\n" in out:
        raise Misspelt("an LF in an escape")
    return bytes(out)


def value_of(expression, i):
    """The value of an expression of a loop."""
    try:
        if re.fullmatch(r"[i0-9+*() -]+", expression):
            return int(eval(expression, {"__builtins__": {}}, {"i": i}))
    except (SyntaxError, TypeError):
        pass
    raise Misspelt("no expression: %s" % expression)


def filled(text, i):
    """The text of a line of a loop, for one value of i."""
    def digits(found):
        n = value_of(found[2], i)
        return "%d.%03d" % (n // 1000, n % 1000) if found[1] else str(n)
    return re.sub(r"\$\{(m:)?([^}]*)\}", digits, text)


def unrolled(lines):
    """The lines, each with its number, with loops written out."""
    lines = iter(lines)
    for number, line in lines:
        if not line.startswith("@for"):
            yield number, line
            continue
        loop = re.fullmatch(r"@for i ([0-9]+) ([0-9]+)", line)
        block = []
        for inner in lines:
            if inner[1] == "@end":
                break
            block.append(inner)
        else:
            raise Misspelt("line %d: a loop without @end" % number)
        if not loop:
            raise Misspelt("line %d: %s" % (number, line))
        for i in range(int(loop[1]), int(loop[2]) + 1):
            yield from ((n, filled(text, i)) for n, text in block)


def take(conversation, number, line):
    """Adds one line of a file to the conversation."""
    mark, _space, text = line.partition(" ")
    if not line or mark.startswith("#"):
        return
    if mark == ">":
        conversation.send(number, text.encode() + b"\n")
    elif mark == ">e":
        conversation.send(number, unescaped(text) + b"\n")
    elif mark == ">n":
        conversation.send(number, unescaped(text))
    elif mark == "<":
        conversation.want(text.encode())
    elif mark == "<e":
        conversation.want(unescaped(text))
    elif line[0] in "0123456789":
        conversation.want(line.encode())
    else:
        raise Misspelt("no mark")


def conversation_of(name, lines):
    """The conversation of some numbered lines of a file."""
    conversation = Conversation(name)
    for number, line in unrolled(lines):
        try:
            take(conversation, number, line)
        except (Misspelt, ValueError, KeyError, SyntaxError) as fault:
            raise Misspelt("line %d: %s: %r" % (number, fault, line)) from fault
    if not conversation.exchanges:
        raise Misspelt("nothing is sent")
    return conversation


def blocks_of(lines):
    """The fenced and indented blocks of a document, each a list of numbered lines."""
    block, is_fenced = [], False
    for number, line in list(lines) + [(0, "end")]:
        is_fence = line.startswith("```")
        if is_fenced and not is_fence:
            block.append((number, line))
        elif not is_fenced and line.startswith("    "):
            block.append((number, line[4:]))
        elif not is_fenced and not line and block:
            block.append((number, line))
        else:
            yield block
            block, is_fenced = [], is_fence and not is_fenced


def numbered_lines(path):
    with open(path, encoding="utf-8", newline="\n") as file:
        return list(enumerate(file.read().split("\n"), 1))


def example_of(name, block, before):
    """The conversation of an example, after lines that are only to be accepted."""
    conversation = conversation_of(name, block)
    conversation.exchanges[:0] = [Exchange(number, line.encode() + b"\n", True) for number, line in before if line]
    return conversation


def conversations_of(path):
    """The conversations of a file: one of a `.txt` file, each example of a `.md` file."""
    lines = numbered_lines(path)
    name = os.path.relpath(path)
    if not path.endswith(".md"):
        return [conversation_of(name, lines)]
    files = [found[1] for _number, line in lines if (found := FOLLOWS.fullmatch(line))]
    before = [line for file in files for line in numbered_lines(os.path.join(ROOT, file))]
    return [example_of(name, block, before) for block in blocks_of(lines)
            if block and block[0][1].startswith("> ")]


def path_of(name):
    """The file of the conversation of this name."""
    return os.path.join(FOLDER, name + ".txt")


def exchanges_of(name):
    """What is sent in the conversation of this name, each with its answer."""
    [conversation] = conversations_of(path_of(name))
    return [(bytes(exchange.sent), bytes(exchange.wanted)) for exchange in conversation.exchanges]
