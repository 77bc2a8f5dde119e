#!/usr/bin/env python3
"""Compares the lists of docs/MODEL.md with the specs: what the headline reaches has to be believed, and nothing else has.

    model_lists.py [--reached]

It reads which words each definition of `crates/*/specs` uses (spec_words.py), and what these take from the code (code_words.py). From the
two clauses of the headline, `served` of `rs_protocol::run` and `ends` of `rs_server::program`, it walks to all that they reach by
`Ends`, `EndsBy` and what stands beside these. Each word reached has to be in a row of "What has to be believed", with its file in the
row's last column, but for a helper: a definition that one definition alone uses, of the same file. No other word may be there, and no word
reached in another list. Each word and file that MODEL names has to be there. The sentences of the rows are written by hand. The walk ends
where `EndsBy` speaks of a file that was opened: what is said of one has a section of its own.

`--reached` prints the words that have to be believed, by file, helpers in brackets. Else each difference is printed with what to do, and
at last `N passed, M failed`, counted in words and files.

decision: model-lists-by-hand
"""

import argparse
import collections
import os
import re
import sys
from typing import NamedTuple

from code_words import Code
from spec_words import CRATES, ROOT, Specs, Word

sys.path.insert(1, os.path.join(ROOT, "tests", "run"))

from harness import summary  # noqa: E402

MODEL = os.path.join(ROOT, "docs", "MODEL.md")
BELIEVED = "What has to be believed"
CLAUSES = [("rs_protocol", "src/stream.rt", "run", "served"), ("rs_server", "src/service.rt", "program", "ends")]
OF_FILES = ("rs_server", "specs/Opened")  # what comes of a file that was opened
HEADLINE = {Word("rs_protocol", "specs/Ends", "Ends"), Word("rs_server", "specs/Ending", "EndsBy")}

QUOTED = re.compile(r"`([^`]+)`")
NAMED = re.compile(r"(?:`(\w+)`'s )?`([^`]+)`")
IDENTIFIER = re.compile(r"[^\W\d]\w*")


class Row(NamedTuple):
    """A row of a table, or a part of one: its section, its line, the words that it names and the places where they are."""

    section: str
    line: int
    names: list
    places: list

    def __str__(self):
        return "docs/MODEL.md:%d" % self.line


# MODEL.


def names_in(cell):
    """The words of a first cell; those after `Trait`'s are members of the trait."""
    found, trait = [], None
    for owner, name in NAMED.findall(cell):
        trait = owner or trait
        found.append("%s.%s" % (trait, name) if trait else name)
    return found


def places_in(cell):
    """The files and folders of a last cell, each from `crates` on; a name alone is beside the one before it."""
    found = []
    for place in QUOTED.findall(cell):
        if "/" not in place:
            place = "%s/src" % place if place.startswith("rs_") else "%s/%s" % (found[-1].rpartition("/")[0] if found else "", place)
        found.append(place)
    return found


def rows_of(section, line, cells):
    """The parts of a row: where both cells have as many parts between semicolons, each has its own places."""
    names, places = cells[0].split(";"), cells[-1].split(";")
    if len(names) != len(places):
        names, places = [cells[0]], [cells[-1]]
    return [Row(section, line, names_in(one), places_in(other)) for one, other in zip(names, places)]


def read_model(lines):
    """The rows of the tables, and each quoted word of the other text with its line."""
    section, rows, quoted = "", [], []
    for number, line in enumerate(lines, 1):
        if line.startswith("## "):
            section = line[3:]
        cells = [cell.strip() for cell in line.strip("|").split(" | ")]
        if line.startswith("| `"):
            rows += rows_of(section, number, cells)
            line = " ".join(cells[1:-1])
        quoted += [(number, word) for word in QUOTED.findall(line)]
    return rows, quoted


# The words.


class Reached:
    """What the headline reaches, and which of it are helpers."""

    def __init__(self, specs, code):
        roots = set().union(*(code.named_by(*clause, specs) for clause in CLAUSES))
        if not HEADLINE <= roots:
            sys.exit("the clauses of the headline name no %s: mend CLAUSES or HEADLINE" % ", ".join(map(str, sorted(HEADLINE - roots))))
        self.words, self.users = set(), collections.defaultdict(set)
        waiting = list(roots)
        while waiting:
            word = waiting.pop()
            if word not in self.words and word[:2] != OF_FILES:
                self.words.add(word)
                uses = specs.uses.get(word) or code.uses_of(word)
                waiting += uses
                for used in uses:
                    self.users[used].add(word)
        self.helpers = {word for word in self.words - roots if self.is_helper(word)}

    def is_helper(self, word):
        users = self.users[word]
        return word.file.startswith("specs/") and len(users) == 1 and all(user[:2] == word[:2] for user in users)


class Sources:
    """The specs and the code."""

    def __init__(self):
        self.specs, self.code = Specs(), Code()
        self.known = {name for text in self.code.texts.values() for name in IDENTIFIER.findall(text)}
        for spec in self.specs.files.values():
            self.known |= set(spec.definitions) | set(spec.owners)

    def words_at(self, place, name):
        """The words of this name in a file or folder."""
        crate, _slash, file = place.partition("/")
        if file.startswith("src"):
            files = [one for of, one in self.code.texts if of == crate and (one == file or file == "src")]
            return {Word(crate, one, name) for one in files if self.code.declares(crate, one, name)}
        modules = [module for of, module in self.specs.files if of == crate and file in ("specs", "specs/" + module)]
        words = {self.specs.word_in(crate, module, name) for module in modules} - {None}
        return {word for word in words if word.name == name}

    def is_there(self, quoted):
        """Whether what is quoted in a sentence is a path of the repository, or words of its sources."""
        if "/" in quoted:
            paths = [os.path.join(folder, quoted + ending) for folder in (ROOT, CRATES) for ending in ("", ".antt")]
            return any(os.path.exists(path) for path in paths)
        return all(name in self.known or os.path.isdir(os.path.join(CRATES, name))
                   for part in quoted.split() if not part.startswith("-") for name in IDENTIFIER.findall(part))


# The comparison.


def faults_of_row(row, sources, reached):
    """What is wrong with the words and the files of a row, and the words that it names."""
    found = {name: set().union(*(sources.words_at(place, name) for place in row.places)) for name in row.names}
    faults = ["%s: `%s` is in no file of the last column: mend the word or the file" % (row, name) for name in row.names if not found[name]]
    empty = [place for place in row.places if not any(sources.words_at(place, name) for name in row.names)]
    faults += ["%s: `%s` has no word of the row: mend the file, or take it out" % (row, place) for place in empty]
    is_believed = row.section == BELIEVED
    for name, words in found.items():
        if words and is_believed and not words & reached.words:
            faults.append("%s: `%s` is not reached by the headline: move it to a list below \"%s\"" % (row, name, BELIEVED))
        if words & reached.words and not is_believed:
            faults.append("%s: `%s` is reached by the headline: move it to \"%s\"" % (row, name, BELIEVED))
    return faults, set().union(*found.values()) if is_believed else set()


def compare(lines, sources, reached):
    """All that is wrong, and how many words and files were looked at."""
    rows, quoted = read_model(lines)
    faults, named = [], collections.Counter()
    for row in rows:
        wrong, words = faults_of_row(row, sources, reached)
        faults += wrong
        named.update(words & reached.words)
    wanted = reached.words - reached.helpers
    lacking = sorted(wanted - set(named))
    doubled = sorted((word, count) for word, count in named.items() if count > 1)
    faults += ["%s has to be believed and is in no row: give it one in \"%s\"" % (word, BELIEVED) for word in lacking]
    faults += ["%s is in %d rows of \"%s\": leave it in one" % (word, count, BELIEVED) for word, count in doubled]
    faults += ["docs/MODEL.md:%d: there is no `%s`: mend the sentence" % (line, word) for line, word in quoted if not sources.is_there(word)]
    return faults, sum(len(row.names) + len(row.places) for row in rows) + len(wanted) + len(quoted)


def print_reached(reached):
    files = collections.defaultdict(list)
    for word in sorted(reached.words):
        files[word.place()].append("(%s)" % word.name if word in reached.helpers else word.name)
    for place, names in files.items():
        print("%s: %s" % (place, " ".join(names)))


def main():
    parser = argparse.ArgumentParser(description=__doc__, formatter_class=argparse.RawDescriptionHelpFormatter)
    parser.add_argument("--reached", action="store_true", help="print the words that have to be believed")
    words = parser.parse_args()
    sources = Sources()
    reached = Reached(sources.specs, sources.code)
    if words.reached:
        print_reached(reached)
        return 0
    with open(MODEL, encoding="utf-8") as file:
        faults, looked_at = compare(file.read().split("\n"), sources, reached)
    for fault in faults:
        print(fault)
    return summary(looked_at - len(faults), len(faults))


if __name__ == "__main__":
    sys.exit(main())
