"""The harness of the tests: what they raise where something is not as wanted, the words that they take, functions that are run as
tests by their names, and the last line that is printed."""

import argparse
import concurrent.futures
import os
import subprocess
import tempfile


class Wrong(Exception):
    """Something is not as wanted."""


def expect(what, got, wanted):
    if got != wanted:
        raise Wrong("%s: wanted %.300r, got %.300r" % (what, wanted, got))


def bytes_at(path):
    with open(path, "rb") as file:
        return file.read()


def parser_of(description, program):
    """A parser that takes `--program`, the path of a program: this one by default."""
    parser = argparse.ArgumentParser(description=description, formatter_class=argparse.RawDescriptionHelpFormatter)
    parser.add_argument("--program", default=program, type=os.path.abspath, metavar="PATH")
    return parser


def named(tests, names):
    """The tests that have these names; all where no name is given."""
    return [test for test in tests if not names or test.__name__ in names]


def fault_of(test, kind, path, errors):
    """What is wrong in one test, or None."""
    with tempfile.TemporaryDirectory(prefix="roadseg-") as folder:
        try:
            test(kind(path, folder))
        except (Wrong, OSError, subprocess.SubprocessError, *errors) as fault:
            return "%s: %s" % (test.__name__, fault)
    return None


def run_tests(description, tests, kind, program, errors=(), speed=()):
    """Runs the tests that the command line names, or all, prints what is not as wanted, and gives the exit status.

    A test is a function of one program, which is of this kind: made of a path, and of a folder of the test's own. It fails by
    Wrong, an error of the system, or one of these errors. Tests of speed run only where `--speed` asks for them.
    """
    parser = parser_of(description, program)
    parser.add_argument("--jobs", type=int, default=os.cpu_count() or 1, metavar="N")
    parser.add_argument("names", nargs="*", metavar="TEST")
    parser.set_defaults(speed=False)
    if speed:
        parser.add_argument("--speed", action="store_true", help="run the tests of speed instead, for which the machine has to be idle")
    words = parser.parse_args()
    tests = named(speed if words.speed else tests, words.names)
    with concurrent.futures.ThreadPoolExecutor(words.jobs) as pool:
        faults = [fault for fault in pool.map(lambda test: fault_of(test, kind, words.program, errors), tests) if fault]
    for fault in faults:
        print(fault)
    return summary(len(tests) - len(faults), len(faults))


def summary(passed, failed):
    """Prints the last line of a program of tests, and gives its exit status."""
    print("%d passed, %d failed" % (passed, failed))
    return 1 if failed else 0
