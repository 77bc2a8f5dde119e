"""What the specs take from the code: its types, constants and ghost members, and the words that a contract names."""

import glob
import os
import re

from spec_words import CRATES, TOKEN, Imports, Word

DECLARED = re.compile(r"^(?:pub(?:\(crate\))? )?(?:struct|enum|trait|const) (\w+)", re.MULTILINE)
GHOST = re.compile(r"^    ghost (\w+):", re.MULTILINE)
IMPORT = re.compile(r"^(?:pub )?use (\w+)::([^;]*);", re.MULTILINE)
TYPE_NAME = re.compile(r"\b[A-Z]\w*\b")
LINE_COMMENT = re.compile(r"//.*")
BOUND = re.compile(r"\b([A-Z]\w*): ([A-Z]\w*)\b")  # a parameter and its trait


def braced(text, at):
    """The text between the first brace from a place on and the one that closes it."""
    start = text.index("{", at)
    depth, end = 1, start + 1
    while depth:
        depth += {"{": 1, "}": -1}.get(text[end], 0)
        end += 1
    return text[start + 1:end - 1]


class Code:
    """The sources of all crates, each by its crate and its path in it."""

    def __init__(self):
        self.texts, self.places = {}, {}
        for path in sorted(glob.glob(os.path.join(CRATES, "*", "src", "**", "*.rt"), recursive=True)):
            crate, file = os.path.relpath(path, CRATES).split(os.sep, 1)
            with open(path, encoding="utf-8") as source:
                text = LINE_COMMENT.sub("", source.read())
            self.texts[crate, file] = text
            for name in DECLARED.findall(text):
                self.places.setdefault((crate, name), []).append(file)

    def declares(self, crate, file, name):
        """Whether a file declares a type, a constant, a trait or a ghost member of this name; `Trait.member` is one of this trait."""
        text = self.texts.get((crate, file), "")
        trait, _dot, member = name.partition(".")
        found = re.search(r"^pub trait %s\b" % trait, text, re.MULTILINE) if member else None
        return member in GHOST.findall(braced(text, found.start())) if found else name in DECLARED.findall(text) + GHOST.findall(text)

    def imports(self, crate, file):
        """Of each name that a file may name, the crate that declares it."""
        found = {name: crate for name in DECLARED.findall(self.texts[crate, file])}
        for source, names in IMPORT.findall(self.texts[crate, file]):
            found.update(dict.fromkeys(TYPE_NAME.findall(names), crate if source == "crate" else source))
        return found

    def word(self, crate, file, name):
        """The word of a name that a file names, or None."""
        source = self.imports(crate, file).get(name)
        places = self.places.get((source, name), [])
        if not places:
            return None
        return Word(source, file if source == crate and file in places else places[0], name)

    def uses_of(self, word):
        """The types of this repository that the declaration of a type names."""
        text = self.texts.get((word.crate, word.file), "")
        found = re.search(r"^pub (?:struct|enum) %s\b[^;{]*{" % word.name, text, re.MULTILINE)
        names = TYPE_NAME.findall(braced(text, found.start())) if found else ()
        return {self.word(word.crate, word.file, name) for name in names} - {None, word}

    def named_by(self, crate, file, function, clause, specs):
        """The words that a clause of a function's contract names."""
        text = self.texts[crate, file]
        start = text.index("pub fn %s<" % function)
        imports = Imports()
        for statement in re.findall(r"^ghost (use [^;]*);", text, re.MULTILINE):
            imports.add(" ".join(statement.split()))
        bounds = dict(BOUND.findall(text[start:text.index("(", start)]))
        tokens = TOKEN.findall(braced(text, text.index("ensures %s {" % clause, start)))
        return {self.named(crate, file, token, imports, bounds, specs) for token in tokens} - {None}

    def named(self, crate, file, token, imports, bounds, specs):
        """The word that a token of a contract means: a ghost member of a parameter's trait, or what a `use` brings."""
        head, _dot, member = token.partition(".")
        trait = self.word(crate, file, bounds[head]) if head in bounds and member else None
        if trait:  # by its own name a trait is all of its members
            return trait if member == trait.name else trait._replace(name="%s.%s" % (trait.name, member))
        return specs.word_at(*imports.names[head]) if head in imports.names else None
