"""What the crates have, as far as documents name it: functions with their clauses, types, and definitions of specs."""

import os
import re
from dataclasses import dataclass, field
from functools import cached_property, lru_cache

FUNCTION = re.compile(r"\s*(?:pub(?:\([a-z]+\))? )?(?:const )?(?:unsafe )?(?:extern \"C\" )?fn (\w+)")
BLOCK = re.compile(r"(?:pub(?:\([a-z]+\))? )?(?:unsafe )?(impl|trait)\b")
CLAUSE = re.compile(r"\b(?:ensures|requires)\b(?: (\w+))? \{")
GHOST = re.compile(r"\s*ghost (\w+)")
TYPE = re.compile(r"\s*(?:pub(?:\([a-z]+\))? )?(?:struct|enum|trait|type|const|static|mod) (\w+)")
VARIANT = re.compile(r"    ([A-Z]\w*)[,({ ]")
HEAD = re.compile(r"\s*(?:pub record|record|pub data|data|abbrev pub|abbrev|pub abbrev) (\w+)")
FIELD = re.compile(r"\s+(?:pub )?(\w+) :")
WORD = re.compile(r"[^\W\d]\w*")


def read(path):
    with open(path, encoding="utf-8") as file:
        return file.read()


def files(folder, end):
    """The files below a folder whose names end so."""
    return [f"{at}/{name}" for at, _, names in os.walk(folder) for name in sorted(names) if name.endswith(end)]


def block(text, start):
    """The text from an opening brace to the one that closes it."""
    depth = 0
    for at in range(start, len(text)):
        depth += {"{": 1, "}": -1}.get(text[at], 0)
        if depth == 0:
            return text[start : at + 1]
    return text[start:]


@dataclass
class Function:
    """A function: whose it is (a type, a trait, or none), its module, the names of its clauses, and what these cite."""

    name: str
    owners: tuple
    module: str
    clauses: set
    cited: set


@dataclass
class Definition:
    """A definition of specs: what it has of its own (fields, kinds), and what it cites."""

    name: str
    parts: set = field(default_factory=set)
    cited: set = field(default_factory=set)


class Crate:
    """One crate, by its files."""

    def __init__(self, root, name, needs):
        self.name, self.needs, self.folder = name, needs, f"{root}/crates/{name}"

    @cached_property
    def sources(self):
        return [(path, read(path)) for path in files(f"{self.folder}/src", ".rt")]

    @cached_property
    def functions(self):
        return [it for path, text in self.sources for it in functions_of(path, text)]

    @cached_property
    def by_name(self):
        """Its functions, by their names."""
        found = {}
        for it in self.functions:
            found.setdefault(it.name, []).append(it)
        return found

    @cached_property
    def types(self):
        """The names of its types, their variants, its traits, constants and modules."""
        found = {self.name, *(os.path.basename(path)[:-3] for path, _ in self.sources)}
        for _, text in self.sources:
            found |= {it[1] for line in text.split("\n") for it in [TYPE.match(line) or VARIANT.match(line)] if it}
        return found

    @cached_property
    def parts(self):
        """What its types and definitions have: fields, and what a trait says of each type that has it."""
        forms = r"^    (?:(?:pub(?:\([a-z]+\))? )?(\w+):|ghost (\w+))"
        fields = {it for _, text in self.sources for pair in re.findall(forms, text, re.M) for it in pair if it}
        return fields.union(*(it.parts for it in self.definitions.values()))

    @cached_property
    def invariants(self):
        """The names that the invariants, models and rules of its types cite."""
        ghosts = r"ghost (?:invariant|view|holds|then|kept_by|Value|own|laws|state|output|first)\b[^{]*\{"
        texts = [block(text, it.end() - 1) for _, text in self.sources for it in re.finditer(ghosts, text)]
        return {word for text in texts for word in WORD.findall(text)}

    @cached_property
    def impls(self):
        """Its implementations: of which trait for which type, with the words of their own definitions and what those cite."""
        found = {}
        for _, text in self.sources:
            for it in re.finditer(r"^(?:unsafe )?impl\b[^\n]*(?:\n[^{\n]+)*", text, re.M):
                start = text.find("{", it.start())
                owners = owners_of(text[it.start() : start])
                body = text[start : text.find("\n}", start)]
                ghosts, cited = found.setdefault(owners, (set(), set()))
                ghosts.update(match[1] for match in map(GHOST.match, body.split("\n")) if match)
                cited.update(WORD.findall(body))
        return found

    @cached_property
    def lemmas(self):
        """The names that its specs and its proofs define, and those of their files."""
        paths = files(f"{self.folder}/specs", ".antt") + files(f"{self.folder}/proofs", ".antt")
        defined = {it for path in paths for it in re.findall(r"^ *(?:(?:pub|record|data|abbrev) )*(\w+)", read(path), re.M)}
        return defined.union(os.path.basename(path)[:-5] for path in paths)

    @cached_property
    def definitions(self):
        """The definitions of its specs, by name."""
        found = {}
        for path in files(f"{self.folder}/specs", ".antt"):
            for it in definitions_of(read(path)):
                old = found.setdefault(it.name, it)
                old.parts |= it.parts
                old.cited |= it.cited
        return found


def owners_of(head):
    """The type and the trait that the head of an implementation, or of a trait, names."""
    words = head
    while re.search(r"<[^<>]*>", words):
        words = re.sub(r"<[^<>]*>", "", words)
    words = words.partition(" where ")[0]
    match = re.match(r"(?:pub(?:\([a-z]+\))? )?(?:unsafe )?(?:impl|trait)\s+([\w:]*\w)(?:\s+for\s+&?([\w:]*\w))?", words.strip())
    if not match:
        return ()
    return tuple(it.rpartition("::")[2] for it in match.groups() if it)


def functions_of(path, text):
    """The functions of a file."""
    module = os.path.basename(path)[:-3]
    owners, found, starts = (), [], []
    at = 0
    lines = text.split("\n")
    for row, line in enumerate(lines):
        if BLOCK.match(line):
            head = "\n".join(lines[row : row + 6]).partition("{")[0]
            owners = owners_of(head)
        elif line == "}":
            owners = ()
        match = FUNCTION.match(line)
        if match:
            starts.append((at, match[1], owners if line[0] == " " else ()))
        at += len(line) + 1
    for index, (start, name, whose) in enumerate(starts):
        end = starts[index + 1][0] if index + 1 < len(starts) else len(text)
        own = text[start:end]
        clauses, cited = set(), set()
        for it in CLAUSE.finditer(own):
            clauses.add(it[1] or "")
            cited |= set(WORD.findall(block(own, it.end() - 1)))
        clauses |= set(re.findall(r"\b(?:ensures|requires)\b", own))
        found.append(Function(name, whose, module, clauses, cited | {name}))
    return found


def definitions_of(text):
    """The definitions of a file of specs."""
    found, last = [], None
    for line in text.split("\n"):
        line = line.partition("--")[0]
        if not line.strip() or re.match(r"\s*(pub )?(use|mod|module|open)\b", line):
            continue
        head = HEAD.match(line)
        if head:
            last = Definition(head[1])
            found.append(last)
        elif not line[0].isspace() and re.match(r"(?:pub )?(\w+) ", line):
            name = re.match(r"(?:pub )?(\w+)", line)[1]
            if last is None or last.name != name:
                last = Definition(name)
                found.append(last)
        if last is None:
            continue
        part = FIELD.match(line)
        if part and not head:
            last.parts.add(part[1])
        last.cited |= set(WORD.findall(line)) - {last.name}
    return found


class Code:
    """All crates of a tree, in the order of crates.txt."""

    def __init__(self, root):
        self.root, self.crates = root, {}
        for line in read(f"{root}/crates.txt").split("\n"):
            name, colon, needs = line.partition(":")
            if colon and not name.startswith("#"):
                self.crates[name] = Crate(root, name, [it for it in needs.split() if os.path.isdir(f"{root}/crates/{it}")])

    @lru_cache(maxsize=None)
    def below(self, name):
        """A crate and all crates below it."""
        found = [self.crates[name]]
        for need in self.crates[name].needs:
            found += [it for it in self.below(need) if it not in found]
        return found

    def defined(self, name, crates):
        """The definitions of this name in the specs of these crates."""
        return [it.definitions[name] for it in crates if name in it.definitions]

    def is_type(self, name, crates):
        return any(name in it.types for it in crates)

    @lru_cache(maxsize=None)
    def reached(self, cited, crates):
        """All names that these names come to, each by what the definitions of its name cite in these crates."""
        found, open_names = set(), set(cited)
        while open_names:
            name = open_names.pop()
            if name in found:
                continue
            found.add(name)
            for it in self.defined(name, crates):
                open_names |= it.cited | it.parts
        return found
