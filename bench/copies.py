"""A repository of copies: the crates that a bench's program stands on, and the program, so that it is built outside of this one;
and what the commands of such a program say and take."""

import os
import re
import shutil
import subprocess
import sys
import tempfile
from contextlib import contextmanager
from typing import NamedTuple

from measuring import COLLECTED, ROOT, parser_of

FIELD = re.compile(r"(\w+)=(\d+)")


class Bench(NamedTuple):
    """A program in a folder of its name beside this file. Of a size it prints one line: the size, and what each load took."""

    name: str
    stands_on: list
    files: list
    loads: list
    counted: str = "count"  # by which name it prints the size
    first_size: int = 1000  # of the run that builds it

    def program(self):
        return self.name + "_bench"

    @contextmanager
    def folder(self, kept):
        """The folder for the repository: this one, which is kept, or a new one."""
        folder = kept or tempfile.mkdtemp(prefix=self.name + "-bench-")
        try:
            yield folder
        finally:
            if not kept:
                shutil.rmtree(folder, ignore_errors=True)

    def command(self, place, is_proved):
        """What runs the program in its folder, up to its argument. It is built before that."""
        if not is_proved:
            return ["rt", "try", "--steps", "1", "--seconds", "1200", "--"]
        status, output = output_of(["rt", "run", "--", str(self.first_size)], place)
        if status != 0 or not self.fields_of(output, self.first_size):
            sys.exit("%s\nthe program could not be built" % "\n".join(output.split("\n")[-40:]))
        return [os.path.join(place, "out", self.program())]

    def fields_of(self, output, size):
        """What was printed of this size; none where nothing was."""
        for line in output.split("\n"):
            fields = {name: int(number) for name, number in FIELD.findall(line)}
            if fields.get(self.counted) == size and all(load in fields for load in self.loads):
                return fields
        return None

    def timed(self, command, folder, size):
        """What a command prints of this size: the program's, or that of another side."""
        _status, output = output_of([*command, str(size)], folder)
        fields = self.fields_of(output, size)
        if not fields:
            sys.exit("%s\nno times for a size of %d" % (output[-4000:], size))
        return fields


def parser_of_repository(description, sizes, rounds):
    """A parser of what may be said of sizes, of rounds, and of the repository."""
    parser = parser_of(description, sizes=sizes, rounds=rounds)
    parser.add_argument("--folder")
    parser.add_argument("--unproved", action="store_true")
    return parser


def dependencies():
    """What each crate of the repository stands on."""
    below = {}
    with open(os.path.join(ROOT, "crates.txt"), encoding="utf-8") as file:
        for line in file:
            name, colon, rest = line.partition("#")[0].partition(":")
            if colon:
                below[name.split()[0]] = rest.split()
    return below


def needed(below, stands_on):
    """The repository's crates among these and below them, each after those below it."""
    found = []

    def visit(name):
        if name in below and name not in found:
            for other in below[name]:
                visit(other)
            found.append(name)

    for name in stands_on:
        visit(name)
    return found


def make_repository(folder, bench):
    """Copies the crates and the program's files (`NAME.in` in the bench's folder; lemmas, which end in `.antt`, go to its
    proofs), and answers the program's folder. Work that is kept there stays."""
    below = dependencies()
    crates = needed(below, bench.stands_on)
    for name in crates:
        place = os.path.join(folder, "crates", name)
        skipped = shutil.ignore_patterns("must-fail", *(["out"] if os.path.isdir(os.path.join(place, "out")) else []))
        for part in ["src", "specs", "proofs"]:
            shutil.rmtree(os.path.join(place, part), ignore_errors=True)
        shutil.copytree(os.path.join(ROOT, "crates", name), place, ignore=skipped, dirs_exist_ok=True)
    place = os.path.join(folder, "crates", bench.program())
    lemmas = [name for name in bench.files if name.endswith(".antt")]
    for name in bench.files:
        part = os.path.join(place, "proofs" if name in lemmas else "src")
        os.makedirs(part, exist_ok=True)
        shutil.copy(os.path.join(ROOT, "bench", bench.name, name + ".in"), os.path.join(part, name))
    if lemmas:
        with open(os.path.join(place, "proofs", "Lib.antt"), "w", encoding="utf-8") as file:
            file.writelines("mod %s\n" % name.removesuffix(".antt") for name in lemmas)
    with open(os.path.join(folder, "crates.txt"), "w", encoding="utf-8") as file:
        for name in crates:
            file.write("%s: %s\n" % (name, " ".join(below[name])))
        file.write("%s: %s\n" % (bench.program(), " ".join(bench.stands_on)))
    return place


def output_of(command, folder, source=os.devnull):
    """The status and the output of a command that reads a file."""
    with open(source, "rb") as data:
        done = subprocess.run(command, cwd=folder, stdin=data, stdout=subprocess.PIPE, stderr=subprocess.STDOUT, text=True,
                              errors="replace", check=False)
    return done.returncode, done.stdout


def instructions_of(command, folder, source=os.devnull):
    """How many instructions a command takes that reads a file (`valgrind --tool=callgrind`)."""
    counted = ["valgrind", "--tool=callgrind", "--callgrind-out-file=/dev/null", *command]
    _status, output = output_of(counted, folder, source)
    found = COLLECTED.search(output)
    if not found:
        sys.exit("%s\nno count of instructions for: %s" % (output[-4000:], " ".join(command)))
    return int(found[1])
