"""Times `roadseg csv` over 100,000 records beside `roadseg run --file` over the lines that it gives.

The records are 250 stretches on each of 400 routes, in order. The best of five rounds is told, and the greatest memory of `csv`.
"""

import os
import subprocess
import sys
import tempfile
import time

from measuring import ROOT, kilobytes_of

PROGRAM = os.path.join(ROOT, "crates", "roadseg", "out", "roadseg")
DEFINE = "DEFINE LINE TABLE pavement (surface TEXT(12), year INT)"
ROUTES, STRETCHES, ROUNDS = 400, 250, 5


def csv_text(stretches=STRETCHES):
    """The records, so many stretches on each route, with their header."""
    lines = ["route,from,to,surface,year"]
    for route in range(1, ROUTES + 1):
        for place in range(stretches):
            surface = ("asphalt", "concrete", "", '"chip, seal"')[place % 4]
            lines.append("SR%d,%d.125,%d.125,%s,%d" % (route, place, place + 1, surface, 1990 + place % 30))
    return "\n".join(lines) + "\n"


def most_memory(path):
    """The greatest memory of `csv` while it reads a file, in kB."""
    with open(path, "rb") as file, subprocess.Popen([PROGRAM, "csv", DEFINE], stdin=subprocess.PIPE, stdout=subprocess.DEVNULL) as process:
        process.stdin.write(file.read())
        process.stdin.flush()
        time.sleep(0.3)
        most = kilobytes_of(process, "VmHWM")
        process.stdin.close()
    return most


def most_memory_with_routes(path):
    """The same of `csv --routes`, once it has read all and written most of its lines, in kB."""
    with open(path, "rb") as file, subprocess.Popen([PROGRAM, "csv", DEFINE, "--routes"], stdin=file, stdout=subprocess.PIPE) as process:
        process.stdout.read(ROUTES * STRETCHES * 50)
        most = kilobytes_of(process, "VmHWM")
        process.stdout.read()
    return most


def milliseconds(words, source, target):
    """How long a run of the program takes, from one file to another."""
    with open(source, "rb") as data, open(target, "wb") as out:
        begin = time.monotonic()
        subprocess.run([PROGRAM, *words], stdin=data, stdout=out, check=True)
        return (time.monotonic() - begin) * 1000


def main():
    with tempfile.TemporaryDirectory() as folder:
        source, lines, replies, file = (os.path.join(folder, name) for name in ("rows.csv", "lines", "replies", "rows.seg"))
        with open(source, "w", encoding="utf-8") as out:
            out.write(csv_text())
        words = ["csv", DEFINE, "--routes"]
        made = min(milliseconds(words[:2], source, lines) for _ in range(ROUNDS))
        routed = min(milliseconds(words, source, lines) for _ in range(ROUNDS))
        loads = []
        for _ in range(ROUNDS):
            if os.path.exists(file):
                os.remove(file)
            subprocess.run([PROGRAM, "create", "--file", file], check=True)
            loads.append(milliseconds(["run", "--file", file], lines, replies))
        with open(replies, "rb") as got:
            if b" ERR " in got.read():
                sys.exit("a line is refused")
        records = ROUTES * STRETCHES
        print("csv: %d records in %.0f ms, with --routes in %.0f ms; run --file: %.0f ms" % (records, made, routed, min(loads)))
        print("the greatest memory of csv: %d kB, with --routes: %d kB" % (most_memory(source), most_memory_with_routes(source)))


if __name__ == "__main__":
    main()
