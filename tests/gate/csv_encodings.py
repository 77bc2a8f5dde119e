"""`roadseg csv` over Latin-1 and UTF-16; scripts/test.sh runs it.

Each text is encoded by Python's own codecs, in pieces that are cut anywhere, and the program has to write what it writes of the same
text in UTF-8. What is no character of UTF-16 is put into texts too: it has to be told with its record, which is left out.
"""

import random
import subprocess
import sys

import folders  # noqa: F401, the path of modules
from programs import PROGRAM

NOTES = "DEFINE POINT TABLE notes (note TEXT(120), tail INT)"
LONGEST = 120  # seconds
LATIN = [chr(code) for code in range(160, 256)]
WIDE = ["\u0100", "\u07ff", "\u0800", "\ud7ff", "\ue000", "\ufeff", "\uffff", "\U00010000", "\U0001f6a7", "\U0010ffff"]
ORDERS = (("utf-16-le", b"\xff\xfe"), ("utf-16-be", b"\xfe\xff"))


class Unexpected(Exception):
    """The program did something else."""


def expect(what, got, wanted):
    """Compares what was got with what is wanted."""
    if got != wanted:
        raise Unexpected("%s:\n got    %.600r\n wanted %.600r" % (what, got, wanted))


def run(*words, data=b"", cuts=()):
    """Runs the program over data that comes in pieces: its status, standard output and standard error."""
    if not cuts:
        done = subprocess.run([PROGRAM, *words], input=data, capture_output=True, timeout=LONGEST)
        return done.returncode, done.stdout, done.stderr
    process = subprocess.Popen([PROGRAM, *words], stdin=subprocess.PIPE, stdout=subprocess.PIPE, stderr=subprocess.PIPE, bufsize=0)
    for begin, end in zip((0, *cuts), (*cuts, len(data))):
        process.stdin.write(data[begin:end])
    out, errors = process.communicate(timeout=LONGEST)
    return process.returncode, out, errors


def some_note(chance, letters):
    """A text of up to 30 characters, as a field of CSV."""
    text = "".join(chance.choice(letters) for _ in range(chance.randrange(31)))
    return '"%s"' % text.replace('"', '""') if chance.randrange(2) or "," in text or '"' in text else text


def some_text(chance, letters, count):
    """A text of CSV, with an end of either kind after its last line or none."""
    ending = chance.choice(["\n", "\r\n"])
    records = ["route,at,note,tail"]
    for number in range(count):
        records.append("SR%d,%d,%s,%d" % (chance.randrange(1, 40), number % 900_000, some_note(chance, letters), number))
    return ending.join(records) + chance.choice(["", ending])


def some_cuts(chance, length):
    """A few places at which an input is cut."""
    return sorted(chance.randrange(length + 1) for _ in range(chance.randrange(6)))


def check_texts(rounds=400):
    """Pseudo-random texts of a few records, in each encoding."""
    chance = random.Random(21)
    plain = [chr(code) for code in range(32, 127)]
    for number in range(rounds):
        text = some_text(chance, plain + LATIN, chance.randrange(8))
        wanted = run("csv", NOTES, data=text.encode())
        data = text.encode("latin-1")
        expect("Latin-1, text %d" % number, run("csv", NOTES, "--latin1", data=data, cuts=some_cuts(chance, len(data))), wanted)
        text = some_text(chance, plain[:10] + LATIN[:10] + WIDE, chance.randrange(8))
        wanted = run("csv", NOTES, data=text.encode())
        for codec, mark in ORDERS:
            data = mark + text.encode(codec)
            expect("%s, text %d" % (codec, number), run("csv", NOTES, data=data, cuts=some_cuts(chance, len(data))), wanted)
    return 3 * rounds


def check_long(records=20_000):
    """Texts longer than any buffer, at each place within a unit and a pair of units."""
    chance = random.Random(22)
    wide = some_text(chance, ["a", "é", *WIDE], records)
    for shift in range(4):
        text = "\n" * shift + wide
        wanted = run("csv", NOTES, data=text.encode())
        expect("the status over a long text", wanted[0], 0)
        for codec, mark in ORDERS:
            expect("a long text in %s" % codec, run("csv", NOTES, data=mark + text.encode(codec)), wanted)
    text = some_text(chance, ["a", *LATIN], records)
    wanted = run("csv", NOTES, data=text.encode())
    expect("the status over a long text", wanted[0], 0)
    expect("a long text in Latin-1", run("csv", NOTES, "--latin1", data=text.encode("latin-1")), wanted)
    return 10 * records


HEAD = "route,at,note,tail\n"
GOOD = "SR1,1,a,1\n"
LINE = b"0 INSERT INTO notes ON SR1 AT 1 VALUES ('a', 1)\n"
HIGH, LOW = "\ud800", "\udfff"  # the first and the second unit of a pair
PAIR = "\U000103ff"  # both
NOTHING = b"\xff"  # what stands for what is no character: a byte that is in no UTF-8


def check_no_characters():
    """Surrogates without their partner, and a byte after the last unit: the record is told and left out, and the others are written."""
    words = ["csv", NOTES, "--no-define"]
    for codec, mark in ORDERS:
        for note, plain in (
            (HIGH, NOTHING), (LOW, NOTHING), ("a" + HIGH + "b", b"a\xffb"), (HIGH + HIGH, 2 * NOTHING), (LOW + HIGH, 2 * NOTHING), (LOW + LOW + "a", b"\xff\xffa"),
            ("\udbff\ue000", NOTHING + "\ue000".encode()), (HIGH + PAIR, NOTHING + PAIR.encode()), (LOW + PAIR + HIGH, NOTHING + PAIR.encode() + NOTHING),
        ):
            wanted = run(*words, data=(HEAD + GOOD).encode() + b"SR1,2,%s,2\n" % plain + GOOD.encode())
            expect("the lines beside %r" % note, wanted[:2], (1, LINE + LINE))
            data = mark + (HEAD + GOOD + "SR1,2,%s,2\n" % note + GOOD).encode(codec, "surrogatepass")
            for cut in range(0, len(data), 7):
                expect("%r in %s" % (note, codec), run(*words, data=data, cuts=(cut, cut + 1)), wanted)
        for tail, plain in (("SR1,2,b,2", b"SR1,2,b,2\xff"), ("", NOTHING), ("SR1,2,b," + HIGH, b"SR1,2,b,\xff\xff")):
            data = mark + (HEAD + GOOD + tail).encode(codec, "surrogatepass") + b"1"
            wanted = run(*words, data=(HEAD + GOOD).encode() + plain)
            expect("the lines before an odd byte", wanted[:2], (1, LINE))
            expect("an odd byte after %r in %s" % (tail, codec), run(*words, data=data), wanted)


def check_marks():
    """Which inputs are UTF-16, and which are passed on as they are."""
    define = ("0 %s\n" % NOTES).encode()
    for data in (b"", b"\xff\xfe", b"\xfe\xff", b"\xef\xbb\xbf"):
        expect("the input %r" % data, run("csv", NOTES, data=data), (0, b"", b""))
    for codec, mark in ORDERS:
        expect("a header alone", run("csv", NOTES, data=mark + HEAD.encode(codec)), (0, define, b""))
        expect("a second mark", run("csv", NOTES, data=mark + mark + (HEAD + GOOD).encode(codec))[:2], (1, b""))
        expect("UTF-16 without a mark", run("csv", NOTES, data=(HEAD + GOOD).encode(codec))[:2], (1, b""))
        expect("UTF-16 that is read as Latin-1", run("csv", NOTES, "--latin1", data=mark + (HEAD + GOOD).encode(codec))[:2], (1, b""))
    for head in (b"\xff", b"\xfe", b"\xff\xff", b"\xfe\xfe", b"\xfea", b"\xffa\xfe"):
        expect("the head %r" % head, run("csv", NOTES, data=head + (HEAD + GOOD).encode())[:2], (1, b""))
    expect("a mark of UTF-8 in Latin-1", run("csv", NOTES, "--latin1", data=b"\xef\xbb\xbf" + HEAD.encode()), run("csv", NOTES, data=("\u00ef\u00bb\u00bf" + HEAD).encode()))
    text = HEAD + "SR1,1,\u00e9,1\n"
    line = "0 INSERT INTO notes ON SR1 AT 1 VALUES ('\u00c3\u00a9', 1)\n"
    expect("Latin-1 without its word", run("csv", NOTES, "--no-define", data=text.encode("latin-1"))[:2], (1, b""))
    expect("UTF-8 that is read as Latin-1", run("csv", NOTES, "--no-define", "--latin1", data=text.encode()), (0, line.encode(), b""))


def main():
    try:
        texts = check_texts()
        records = check_long()
        check_no_characters()
        check_marks()
    except Unexpected as fault:
        print("csv_encodings: %s" % fault)
        print("0 passed, 1 failed")
        sys.exit(1)
    print("csv in other encodings: %d texts and %d records read as in UTF-8" % (texts, records))
    print("%d passed, 0 failed" % texts)


if __name__ == "__main__":
    if len(sys.argv) > 1:
        PROGRAM = sys.argv[1]
    main()
