#!/usr/bin/env python3
"""Compares the documents with the repository: the lists of crates, and each file, clause and decision that a document names.

    documents.py [DOCUMENT ..]

Each crate of crates.txt has its folder, a README.md, its line of docs/ARCHITECTURE.md, which is the README's first, and its place in
the picture there; a mark there tells that another crate names its lemmas. A file in backticks is there. In a crate's README a word in
backticks stands in that crate, or in one that its line names. In docs/PROOFS.md, and wherever a file of a crate comes before them, the
words after it stand in that file. A decision that a text cites (`decision: NAME`) is an item of docs/DECISIONS.md, whose names are
different, and each is cited. It prints what is not so, and at last `N passed, M failed`.
"""

import glob
import os
import re
import sys
from functools import lru_cache

import folders  # noqa: F401, the path of modules
from harness import summary
from programs import ROOT

CRATES = os.path.join(ROOT, "crates")
UNDRAWN = {"rs_room", "rs_disk_tests"}  # crates for tests are not in the picture
MOST_LINES = {"README.md": 130, "docs/PROOFS.md": 200}
MOST_DECISIONS = 120
CODE = re.compile(r"`([^`]+)`")
WORD = re.compile(r"[A-Za-z_][A-Za-z0-9_]*")
PATH = re.compile(r"[\w.-]+(?:/[\w.-]+)+/?|[\w-]+\.(?:py|md|rt|antt|sh|txt|c|js|edit|html|svg|csv)")
SUFFIXES = ("", ".rt", ".antt")
# A comment of a line of code that cites a decision, and an item of the list of decisions.
CITED = re.compile(r"decision: ([a-z][a-z0-9-]*)")
ITEM = re.compile(r"- `([a-z][a-z0-9-]*)`: ")


def text_of(path):
    with open(os.path.join(ROOT, path), encoding="utf-8") as file:
        return file.read()


@lru_cache(maxsize=None)
def words_of(path):
    """The words of a file of a crate, or of all files of a crate's folder."""
    if os.path.isdir(path):
        found = [os.path.join(at, name) for at, _, names in os.walk(path) for name in names if name.endswith((".rt", ".antt"))]
        return frozenset().union(*(words_of(name) for name in found))
    with open(path, encoding="utf-8") as file:
        return frozenset(re.findall(r"\w+", file.read()))


def documents():
    """The documents, as paths from the root."""
    found = ["README.md", *glob.glob("docs/*.md", root_dir=ROOT), "bench/README.md", "clients/python/README.md"]
    return found + sorted(glob.glob("crates/*/README.md", root_dir=ROOT))


@lru_cache(maxsize=None)
def files():
    """All files and folders of the repository but what is built, as paths from the root."""
    found = []
    for at, names, inner in os.walk(ROOT):
        names[:] = [name for name in names if name not in (".git", "out", "__pycache__")]
        found += [os.path.relpath(os.path.join(at, name), ROOT) for name in [*names, *inner]]
    return found


@lru_cache(maxsize=None)
def place_of(name, folder):
    """The path of a file that a document in some folder names, or None."""
    name = name.rstrip("/")
    for base in (folder, ".", "crates"):
        for suffix in SUFFIXES:
            path = os.path.normpath(os.path.join(base, name + suffix))
            if os.path.exists(os.path.join(ROOT, path)):
                return path
    return next((path for path in files() if any(path.endswith("/" + name + suffix) for suffix in SUFFIXES)), None)


def listed():
    """The crates of crates.txt."""
    return re.findall(r"^(\w+):", text_of("crates.txt"), re.MULTILINE)


def lemmas_lent():
    """The crates whose lemmas others name."""
    found = set()
    for path in glob.glob("*/**/*.*t", root_dir=CRATES, recursive=True):
        if path.endswith((".rt", ".antt")) and "/out/" not in path:
            with open(os.path.join(CRATES, path), encoding="utf-8") as file:
                found.update(name for name in re.findall(r"Rattle\.(\w+)\.proofs\.", file.read()) if name != path.split("/")[0])
    return found & set(listed())


def crates_told():
    """What is wrong with the lists of crates."""
    names, map_text = listed(), text_of("docs/ARCHITECTURE.md")
    if set(names) != {name for name in os.listdir(CRATES) if os.path.isdir(os.path.join(CRATES, name))} or len(names) != len(set(names)):
        yield "crates.txt: other crates than the folders of crates/, or one twice"
    lines = dict(re.findall(r"^- `(\w+)`: (.*)$", map_text, re.MULTILINE))
    picture = "\n".join(line for line in map_text.split("\n") if re.match(r" {4,}\|", line))
    drawn = dict(re.findall(r"\b(rs_\w+|roadseg)(°?)", picture))
    for wanted, found, where in ((set(names), set(lines), "list"), (set(names) - UNDRAWN, set(drawn), "picture")):
        for name in sorted(wanted ^ found):
            yield "docs/ARCHITECTURE.md: `%s` is %s its %s" % (name, "not in" if name in wanted else "no crate, but in", where)
    for name in sorted({name for name, mark in drawn.items() if mark} ^ lemmas_lent()):
        yield "docs/ARCHITECTURE.md: the mark of lemmas that are lent is wrong: `%s`" % name
    for name in names:
        path = os.path.join(CRATES, name, "README.md")
        if not os.path.exists(path):
            yield "crates/%s has no README.md" % name
        elif text_of(path).split("\n")[:3] != ["# `%s`" % name, "", lines.get(name)]:
            yield "crates/%s/README.md does not begin with its line of docs/ARCHITECTURE.md" % name


def crates_in(line):
    return [os.path.join(CRATES, word) for word in WORD.findall(line) if word.startswith("rs_") and os.path.isdir(os.path.join(CRATES, word))]


def codes_of(text):
    """What stands in backticks outside of fenced blocks, by lines and cells of tables: (line, number, codes)."""
    is_fenced = False
    for number, line in enumerate(text.split("\n"), 1):
        is_fenced ^= line.startswith("```")
        if not is_fenced and not line.startswith("    "):
            for cell in line.split(" | "):
                yield line, number, CODE.findall(cell)


def names_told(path):
    """What a document names that is not there."""
    own = [os.path.join(CRATES, path.split("/")[1])] if path.startswith("crates/") else []
    folder = os.path.dirname(path)
    for line, number, codes in codes_of(text_of(path)):
        file = None
        for code in codes:
            if PATH.fullmatch(code) and "*" not in code:
                place = place_of(code, folder)
                is_example = not re.search(r"/|\.(py|rt|antt|sh|c|js|md)$", code)
                if place is None and not is_example:
                    yield "%s:%d: there is no file %s" % (path, number, code)
                file = os.path.join(ROOT, place) if place and place.startswith(("crates/", "tests/")) and not os.path.isdir(os.path.join(ROOT, place)) else None
            elif re.fullmatch(r"(?:\w+::)*[A-Za-z_]\w+", code):
                word = code.split("::")[-1]
                if file and path == "docs/PROOFS.md" or file and own:
                    if word not in words_of(file) and not (own and any(word in words_of(crate) for crate in own)):
                        yield "%s:%d: %s is not in %s" % (path, number, code, os.path.relpath(file, ROOT))
                elif own and not any(word in words_of(crate) for crate in own + crates_in(line)) and not os.path.isdir(os.path.join(CRATES, word)):
                    yield "%s:%d: %s is in none of the crates that are named" % (path, number, code)


def decisions_told():
    """What is wrong with the names of decisions, and with their citations."""
    names = ITEM.findall(text_of("docs/DECISIONS.md"))
    if len(names) != len(set(names)) or len(names) > MOST_DECISIONS:
        yield "docs/DECISIONS.md: a name twice, or more than %d items" % MOST_DECISIONS
    if text_of("docs/DECISIONS.md").count("\n- ") != len(names):
        yield "docs/DECISIONS.md: an item without a name"
    cited = set()
    for path in files():
        if path.endswith((".rt", ".antt", ".py", ".md", ".sh", ".c", ".js")) and path not in ("docs/DECISIONS.md", "tests/gate/documents.py"):
            found = set(CITED.findall(text_of(path)))
            cited |= found
            for name in found - set(names):
                yield "%s: there is no decision %s" % (path, name)
    for name in sorted(set(names) - cited):
        yield "docs/DECISIONS.md: nothing cites %s" % name


def main():
    chosen = sys.argv[1:] or documents()
    told = [*crates_told(), *decisions_told()]
    for path in chosen:
        told += names_told(path)
        most = MOST_LINES.get(path)
        if most and text_of(path).count("\n") > most:
            told.append("%s: more than %d lines" % (path, most))
    for fault in told:
        print(fault)
    return summary(len(chosen), len(told))


if __name__ == "__main__":
    sys.exit(main())
