#!/usr/bin/env python3
"""Runs the gate and says where its time goes.

    gate_times.py [COMMAND ..]     (default: bash scripts/test.sh)

What was proved and tried in this run is read off the gate's own log, which goes to standard error as it comes. For each
crate it prints the seconds and the processor seconds of its proof, its tests and its must-fail edits, and then the longest
chain of proofs, each crate after those that it stands on, in processor seconds: the seconds have waits for a free processor
in them. The processor seconds are those of the running checks, looked at several times a second from outside, so a figure
may lack what a check did since it was last seen.
"""

import collections
import os
import re
import resource
import subprocess
import sys
import threading
import time

ROOT = os.path.join(os.path.dirname(os.path.abspath(__file__)), "..")
sys.path.insert(1, os.path.join(ROOT, "bench"))

from copies import dependencies  # noqa: E402

TICK = os.sysconf("SC_CLK_TCK")
SECONDS_BETWEEN_LOOKS = 0.25
KINDS = ["proof", "tests", "edits"]
LOG_LINE = re.compile(r"(?P<tests>: its tests are proved$)|(?P<proved>^(rt: )?\w+ proved$)|(?P<kept>\w+ is kept: )|(?P<refused>^(rt: )?must-fail \S+: refused, )")
LOG_GROUPS = LOG_LINE.groupindex
SUMMARY = re.compile(r"\d+ passed, \d+ failed.*")


class Span:
    """When the first process of some work was seen and when the last, and the processor seconds of each."""

    def __init__(self):
        self.first, self.last, self.processor = None, 0.0, {}

    def see(self, now, process, processor):
        self.first = now if self.first is None else self.first
        self.last = now
        self.processor[process] = processor

    def seconds(self):
        return 0.0 if self.first is None else self.last - self.first

    def processor_seconds(self):
        return sum(self.processor.values())


def crates():
    """Each crate of the repository with those of its crates that it stands on."""
    below = dependencies()
    return {name: [it for it in names if it in below] for name, names in below.items()}


def work_of(process):
    """The crate and the kind of work of a process of the prover, or None."""
    with open("/proc/%s/cmdline" % process, "rb") as file:
        words = file.read().decode(errors="replace").split("\0")
    if not words[0].endswith("/rattle") or "--crate-name" not in words:
        return None
    if os.path.basename(os.readlink("/proc/%s/cwd" % process)).startswith("rt-edit-"):
        kind = "edits"
    else:
        kind = "tests" if "--test" in words else "proof"
    return words[words.index("--crate-name") + 1], kind


def processor_seconds_of(process):
    with open("/proc/%s/stat" % process, encoding="utf-8", errors="replace") as file:
        fields = file.read().rpartition(")")[2].split()
    return (int(fields[11]) + int(fields[12])) / TICK


def is_of_session(process, session):
    with open("/proc/%s/stat" % process, encoding="utf-8", errors="replace") as file:
        return file.read().rpartition(")")[2].split()[3] == session


def look(spans, session, start):
    now = time.monotonic() - start
    for process in filter(str.isdigit, os.listdir("/proc")):
        try:
            if not is_of_session(process, session):
                continue
            work = work_of(process)
            if work:
                spans[work].see(now, process, processor_seconds_of(process))
        except OSError:
            pass


def run(command):
    """The exit status, the seconds, what was seen of each crate's work, and the gate's log."""
    spans, start, log = collections.defaultdict(Span), time.monotonic(), []
    gate = subprocess.Popen(command, cwd=ROOT, stdin=subprocess.DEVNULL, stdout=subprocess.PIPE, errors="replace", start_new_session=True)
    ended = threading.Event()

    def watch():
        while not ended.wait(SECONDS_BETWEEN_LOOKS):
            look(spans, str(gate.pid), start)

    watcher = threading.Thread(target=watch)
    watcher.start()
    for line in gate.stdout:
        log.append(line.rstrip("\n"))
        print(log[-1], file=sys.stderr)
    status = gate.wait()
    ended.set()
    watcher.join()
    return status, time.monotonic() - start, spans, log


def told(log):
    """What the log says was done in this run, and the counts of each part."""
    counts = collections.Counter()
    for line in log:
        found = LOG_LINE.search(line)
        if found:
            counts[found.lastgroup] += 1
    yield "by the log: %(proved)d crates proved, %(tests)d proved with tests, %(kept)d kept, %(refused)d edits refused" % {**dict.fromkeys(LOG_GROUPS, 0), **counts}
    yield from (line for line in log if SUMMARY.fullmatch(line))


def longest_chain(below, seconds):
    """The crates of the longest chain of proofs, lowest first, and the sum of their seconds."""
    chains = {}

    def chain_to(name):
        if name not in chains:
            before = max((chain_to(it) for it in below[name]), key=lambda it: it[1], default=([], 0.0))
            chains[name] = (before[0] + [name], before[1] + seconds(name))
        return chains[name]

    return max((chain_to(it) for it in below), key=lambda it: it[1])


def table(below, spans):
    yield "| Crate | " + " | ".join("%s: seconds, processor" % it for it in KINDS) + " | starts | ends |"
    yield "|---|" + "---|" * (len(KINDS) + 2)
    whole = {name: sum(spans[name, kind].processor_seconds() for kind in KINDS) for name in below}
    for name in sorted((it for it in below if whole[it]), key=lambda it: -whole[it]):
        seen = [spans[name, kind] for kind in KINDS]
        cells = ["%.0f, %.0f" % (it.seconds(), it.processor_seconds()) if it.processor else "" for it in seen]
        starts = min((it.first for it in seen if it.first is not None), default=0.0)
        yield "| `%s` | %s | %.0f | %.0f |" % (name, " | ".join(cells), starts, max(it.last for it in seen))


def main():
    status, seconds, spans, log = run(sys.argv[1:] or ["bash", "scripts/test.sh"])
    used = resource.getrusage(resource.RUSAGE_CHILDREN)
    below = crates()
    print("\n".join(table(below, spans)))
    for kind in KINDS:
        print("%s: %.1f processor minutes" % (kind, sum(it.processor_seconds() for key, it in spans.items() if key[1] == kind) / 60))
    names, length = longest_chain(below, lambda name: spans[name, "proof"].processor_seconds())
    print("\n".join(told(log)))
    print("longest chain of proofs: %.1f processor minutes: %s" % (length / 60, ", ".join(names)))
    print("whole: %.1f minutes, %.1f processor minutes, status %d" % (seconds / 60, (used.ru_utime + used.ru_stime) / 60, status))
    return status


if __name__ == "__main__":
    sys.exit(main())
