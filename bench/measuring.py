"""What the benches share: where the program is, the words that they take, how a program in C is built, what memory a process has, and how
what is measured grows."""

import argparse
import math
import os
import re
import subprocess
import sys
import tempfile

ROOT = os.path.dirname(os.path.dirname(os.path.abspath(__file__)))
PROGRAM = os.path.join("crates", "roadseg", "out", "roadseg")
RUN = PROGRAM + " run"
COLLECTED = re.compile(r"Collected : (\d+)")
COUNTING = {
    # what valgrind is told, and where it says how many instructions there were
    "callgrind": (["--tool=callgrind", "--callgrind-out-file=/dev/null"], COLLECTED),
    "cachegrind": (["--tool=cachegrind", "--cache-sim=no", "--cachegrind-out-file=/dev/null"], re.compile(r"I +refs: +([\d,]+)")),
}


def numbers_of(text):
    """The numbers of a list with commas between."""
    return [int(number) for number in text.split(",")]


def parser_of(description, **defaults):
    """A parser with an option for each of these names, whose value is of its default's type."""
    parser = argparse.ArgumentParser(description=description, formatter_class=argparse.RawDescriptionHelpFormatter)
    for name, default in defaults.items():
        parser.add_argument("--" + name, type=numbers_of if isinstance(default, list) else type(default), default=default)
    return parser


def built_in_c(bench, name, folder):
    """The path of a bench's program in C, which is built into a folder."""
    program = os.path.join(folder, name)
    source = os.path.join(ROOT, "bench", bench, name + ".c")
    if subprocess.run(["cc", "-O2", "-o", program, source, "-lsqlite3"], check=False).returncode != 0:
        sys.exit("%s could not be built" % source)
    return program


def counted(command, data=b"", folder=None, tool="callgrind"):
    """How many instructions a command takes, with the processes that it starts, and what it prints. Both tools of valgrind tell the same
    to within half a percent; cachegrind takes half the time."""
    options, said = COUNTING[tool]
    with tempfile.TemporaryDirectory() as logs:
        counting = ["valgrind", *options, "--trace-children=yes", "--log-file=%s/%%p" % logs]
        answer = subprocess.run(counting + command, input=data, stdout=subprocess.PIPE, cwd=folder, check=True).stdout
        count = 0
        for name in os.listdir(logs):
            with open(os.path.join(logs, name), encoding="utf-8", errors="replace") as log:
                count += sum(int(number.replace(",", "")) for number in said.findall(log.read()))
    return count, answer


def kilobytes_of(process, name):
    """What memory a process has, by the system's name for it: VmRSS is what it has now, VmHWM at the most so far."""
    with open("/proc/%d/status" % process.pid, encoding="ascii") as status:
        return int(re.search(name + r":\s+(\d+) kB", status.read())[1])


def exponent_of(measured):
    """The growth exponent of what was measured of each size, from the first size to the last one."""
    sizes = list(measured)
    return math.log(measured[sizes[-1]] / measured[sizes[0]]) / math.log(sizes[-1] / sizes[0])
