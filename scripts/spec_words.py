"""What the specs define, and which words each definition uses.

A word is a definition of a file in `specs/`, or what such a definition takes from the code: a type, a constant, or a ghost member of a
trait. Constructors and fields are read as the type that they are of, laws as what their statements and proofs name, and `do` as the word
for one check after another. A name that is bound, by a parameter, a pattern, `λ`, `let` or a field, is no use of a word.
"""

import glob
import os
import re
from typing import NamedTuple

ROOT = os.path.dirname(os.path.dirname(os.path.abspath(__file__)))
CRATES = os.path.join(ROOT, "crates")

DECLARATION = re.compile(r"(?P<how>(?:abbrev|unfoldable)(?: pub)?|pub|) ?(?:(?P<form>record|data) )?(?P<name>[^\s(){}:]+)(?=\s*[:({])")
USE = re.compile(r"(?:pub )?use (?P<path>[\w.]+?)(?:\.\{(?P<names>.*)\}| as (?P<alias>\w+))?;?")
TOKEN = re.compile(r"[^\s(){}\[\],;\"]+")
COMMENT = re.compile(r"(?:^|\s)--(?:\s|$).*")
TEXT = re.compile(r'"[^"]*"')
LABEL = re.compile(r"([{;])\s*[^\s(){}\[\],;:.]+\s+=\s")  # of a field, in the making of a record
BINDERS = re.compile(r"[({]\s*((?:[^\s(){}\[\],;:.]+\s+)+):\s")
BOUND_BY_LAMBDA = re.compile(r"λ\s+([^.():]*?)\.(?=\s|$)")
BOUND_BY_NAME = re.compile(r"(?:\blet\s+(\S+)|(\S+)\s+←)")
BIND = ">>="  # what `do` stands for
FIELD = re.compile(r"(?:pub )?([^\s(){}:]+(?:\s+[^\s(){}:]+)*)\s*:\s")


class Word(NamedTuple):
    """A word, by the crate, the file below it, without its ending, and its name."""

    crate: str
    file: str
    name: str

    def place(self):
        return "%s/%s" % (self.crate, self.file)

    def __str__(self):
        return "`%s` (`%s`)" % (self.name, self.place())


class Definition:
    """A definition or law as it is written: its text in chunks (the head, then fields, constructors or equations), and the parameters of
    the modules in which it is."""

    def __init__(self, name, kind, parameters):
        self.name, self.kind, self.parameters = name, kind, parameters
        self.chunks, self.constructors = [], []


def depth_of(line):
    return len(line) - len(line.lstrip())


def statements_of(text):
    """The lines of a file without comments, the ones of a `use` joined."""
    joined = []
    for line in (COMMENT.sub("", line).rstrip() for line in text.split("\n")):
        is_open = joined and re.match(r"(pub )?use ", joined[-1]) and joined[-1].count("{") > joined[-1].count("}")
        if is_open:
            joined[-1] += " " + line.strip()
        elif line:
            joined.append(line)
    return joined


class Imports:
    """The names that the `use` of a file bring: each its path and its name there, and each alias its path."""

    def __init__(self):
        self.names, self.aliases = {}, {}

    def add(self, statement):
        use = USE.fullmatch(statement)
        if not use:
            raise ValueError("no `use` that can be read: %s" % statement)
        if use["names"] is None:
            self.aliases[use["alias"] or use["path"].split(".")[-1]] = use["path"]
            return
        for name in filter(None, (name.strip() for name in use["names"].split(","))):
            old, _as, new = name.partition(" as ")
            self.names[new or old] = (use["path"], old)


class Spec:
    """A file of `specs/`."""

    def __init__(self, crate, module, text):
        self.crate, self.module, self.file = crate, module, "specs/" + module
        self.imports, self.lent = Imports(), Imports()
        self.definitions, self.owners = {}, {}  # by name; of each constructor and field, its type
        lines = statements_of(text)
        for line in lines:
            if re.match(r"(pub )?use ", line):
                self.imports.add(line)
                if line.startswith("pub "):
                    self.lent.add(line)
        self.read_block([line for line in lines if not re.match(r"(pub )?use |pub mod ", line)], 0, [])

    def word(self, name):
        return Word(self.crate, self.file, name)

    def constructed(self, name):
        """The data that a constructor of this name is of, or None."""
        owner = self.owners.get(name)
        return owner if owner and name in self.definitions[owner].constructors else None

    def read_block(self, lines, depth, parameters):
        """Reads the definitions of some lines, those of `module` and `mutual` within them too."""
        at, current = 0, None
        while at < len(lines):
            line, at = lines[at], at + 1
            opens = re.fullmatch(r"(?:module _ (.*) where|(?:abbrev )?mutual)", line.strip())
            if depth_of(line) > depth or not opens:
                current = self.read_line(line, depth, parameters, current)
                continue
            end = next((i for i in range(at, len(lines)) if depth_of(lines[i]) <= depth), len(lines))
            self.read_block(lines[at:end], depth + 2, parameters + [opens[1]] * bool(opens[1]))
            at = end

    def read_line(self, line, depth, parameters, current):
        """Reads one line, and gives the definition to which it belongs."""
        text = line.strip()
        if depth_of(line) > depth:
            if current:
                self.go_on(current, text, depth_of(line) == depth + 2)
            return current
        head = DECLARATION.match(text)
        if head and (head["how"] or head["form"] or re.match(r"\S+ :", text)):
            kind = head["form"] or head["how"].split(" ")[0] or "law"
            current = Definition(head["name"], "law" if kind == "pub" else kind, parameters)
            current.chunks.append(text)
            self.definitions[current.name] = current
        elif text.split(" ")[0] in self.definitions:
            current = self.definitions[text.split(" ")[0]]
            current.chunks.append(text)
        elif current:
            current.chunks[-1] += " " + text
        return current

    def go_on(self, definition, text, is_new):
        """Adds a line below the head of a definition to it."""
        member = FIELD.match(text) if definition.kind in ("record", "data") and is_new else None
        if not member:
            definition.chunks[-1] += " " + text
            return
        definition.chunks.append(text)
        names = member[1].split()
        self.owners.update(dict.fromkeys(names, definition.name))
        if definition.kind == "data":
            definition.constructors += names


def bound_in(text):
    """The names that some text binds."""
    found = BINDERS.findall(text) + BOUND_BY_LAMBDA.findall(text)
    found += [one or other for one, other in BOUND_BY_NAME.findall(text)]
    return {name for names in found for name in names.split()}


class Specs:
    """All specs, and the words that each word uses."""

    def __init__(self):
        self.files = {}
        for path in sorted(glob.glob(os.path.join(CRATES, "*", "specs", "**", "*.antt"), recursive=True)):
            crate, _specs, module = os.path.relpath(path, CRATES).removesuffix(".antt").split(os.sep, 2)
            with open(path, encoding="utf-8") as file:
                self.files[crate, module] = Spec(crate, module, file.read())
        named = [(spec, definition) for spec in self.files.values() for definition in spec.definitions.values()]
        self.uses = {spec.word(definition.name): self.uses_of(spec, definition) for spec, definition in named}

    def word_at(self, path, name):
        """The word of a path's name, or None for what is no word of this repository."""
        parts = path.split(".")
        if parts[0] != "Rattle" or len(parts) < 4 or parts[2] != "specs" or not os.path.isdir(os.path.join(CRATES, parts[1])):
            return None
        if parts[3] in ("declared", "contracts"):
            return word_of_code(parts[1], parts[4:], name)
        return self.word_in(parts[1], "/".join(parts[3:]), name)

    def word_in(self, crate, module, name):
        """The word of a name in a file of specs, or in one that the crate lends under this name."""
        spec, lib = self.files.get((crate, module)), self.files.get((crate, "Lib"))
        if not spec:
            return self.word_at(lib.lent.aliases[module], name) if lib and module in lib.lent.aliases else None
        if name in spec.definitions:
            return spec.word(name)
        if name in spec.owners:
            return spec.word(spec.owners[name])
        return self.word_at(*spec.lent.names[name]) if name in spec.lent.names else None

    def meaning(self, spec, token):
        """The word that a token of a file means, or None."""
        head, _dot, rest = token.partition(".")
        if rest and head in spec.imports.aliases:
            return self.word_at(spec.imports.aliases[head], rest.split(".")[0])
        for name in (head, "◌%s◌" % head):
            if name in spec.definitions:
                return spec.word(name)
            if name in spec.imports.names:
                return self.word_at(*spec.imports.names[name])
        owner = spec.constructed(head)
        return spec.word(owner) if owner else None

    def is_pattern(self, spec, token):
        """Whether a token on the left of an equation is no name that it binds: a constructor, or what another repository has."""
        if "." in token or spec.constructed(token):
            return True
        if token not in spec.imports.names:
            return False
        path, name = spec.imports.names[token]
        word = self.word_at(path, name)
        return word is None or word.name != name

    def uses_of(self, spec, definition):
        """The words that a definition uses, itself left out."""
        chunks = [TEXT.sub("", chunk) for chunk in definition.chunks]
        known = bound_in(" ".join(definition.parameters))
        if definition.kind == "record":
            known |= bound_in(chunks[0]) | {name for chunk in chunks[1:] for name in FIELD.match(chunk)[1].split()}
        found = set()
        for number, chunk in enumerate(definition.parameters + chunks):
            is_equation = number > len(definition.parameters) and definition.kind not in ("record", "data")
            found |= self.uses_in(spec, chunk, known, is_equation)
        return found - {spec.word(definition.name), None}

    def uses_in(self, spec, chunk, known, is_equation):
        """The words that a chunk uses beside the names that are known to be bound."""
        known = known | bound_in(chunk)
        chunk = LABEL.sub(r"\1 ", LABEL.sub(r"\1 ", chunk))
        if is_equation:
            left = TOKEN.findall(chunk.partition(" = ")[0])[1:]
            known |= {token for token in left if not self.is_pattern(spec, token)}
        tokens = {BIND if token == "do" else token.rstrip(".").lstrip("λ") for token in TOKEN.findall(chunk)}
        return {self.meaning(spec, token) for token in tokens if token.split(".")[0] not in known}


def word_of_code(crate, parts, name):
    """The word of what the code declares: a constant, or the type or trait in whose module a name is."""
    if parts[-1] == "TheConstants":
        return Word(crate, "src/" + "/".join(parts[:-1]) + ".rt", name)
    if parts[-1] in ("TheVariants", "TheOpen"):
        parts = parts[:-1]
    return Word(crate, "src/" + "/".join(parts[:-1]) + ".rt", parts[-1])
