"""What the rows of docs/CONTRACTS.md name, held against the code.

A row's second column is read from left to right. A function stands there by its name, behind its type or its module where one is named. In
brackets behind it stand clauses of it, and what these cite; behind `by` and its like what they cite, too. In brackets behind a definition
stand parts of it, or of what it cites. What a clause cites is also what the definitions cite that it names, and so on.
"""

import re
from dataclasses import dataclass, field

TOKEN = re.compile(r"`([^`]*)`|[();:]|[\w'’]+")
NAME = re.compile(r"[^\W\d]\w*(?:::[^\W\d]\w*)*")
# Behind these words stands what is cited, or another function, and no clause.
CITING = {"by", "over", "with", "of", "as", "in"}
# Behind these stands what a type says, and no function does.
OF_TYPES = {"invariant", "rule", "promise"}


@dataclass
class Named:
    """A name in a row: how deep in brackets, the words on both sides, and whether it is said to be cited."""

    name: str
    depth: int
    before: str
    behind: str
    is_cited: bool
    of_each: bool


@dataclass
class Said:
    """What the names since the last semicolon have come to: all functions, and those that the next brackets are of; what types say; the
    definitions behind the last function; whether a function was named last; and the functions that were named in brackets."""

    functions: list = field(default_factory=list)
    last: list = field(default_factory=list)
    of_types: tuple = None
    definitions: list = field(default_factory=list)
    is_of_function: bool = False
    inner: list = field(default_factory=list)


def tokens(cell):
    """The names of a cell, and its semicolons outside brackets as None. Whether a name is cited ends with its brackets."""
    found, depth, is_cited, before, of_each = [], 0, False, "", False
    words = [*TOKEN.finditer(cell)]
    for at, token in enumerate(words):
        word = token[0]
        if token[1] is not None:
            behind = words[at + 1][0] if at + 1 < len(words) else ""
            if behind == "of" and cell[words[at + 1].end() :].startswith(" each"):
                behind = "of each"
            found.append(Named(token[1], depth, before, behind, is_cited, of_each))
        elif word in "()":
            depth += 1 if word == "(" else -1
            is_cited = False
            of_each = depth > 0 and bool(re.match(r"[^()]* of each\)", cell[token.end() :]))
        elif word == ";":
            is_cited = False
            if not depth:
                found.append(None)
        elif word in CITING or word == ":" and depth:
            is_cited = True
        elif word in OF_TYPES:
            found.append(word)
        before = word
    return found


class Row:
    def __init__(self, code, crate, cell):
        self.code, self.crate, self.cell = code, crate, cell
        others = [code.crates[it] for it in re.findall(r"`(\w+)`", cell) if it in code.crates]
        self.crates = [*dict.fromkeys([code.crates[crate], *others])]
        self.below = [*dict.fromkeys(it for own in self.crates for it in code.below(own.name))]
        self.owner, self.said, self.wrong, self.count = None, Said(), [], 0

    def fault(self, name, why):
        self.wrong.append(f"{self.crate}: `{name}` {why} (| {self.cell[:80]})")

    # What the code has.

    def functions(self, name):
        """The functions that a name may mean: those of the type or module that it names, or of the type that was named last."""
        path, _, last = name.rpartition("::")
        path = path.rpartition("::")[2]
        found = [it for own in self.crates for it in own.by_name.get(last, [])]
        if path:
            return [it for it in found if path in (*it.owners, it.module)]
        return [it for it in found if self.owner in it.owners] or found

    def promised(self, functions):
        """The clauses of these functions, and what they cite; those of a trait's functions are those of each implementation."""
        traits = {(it.name, it.owners[0]) for it in functions if it.owners}
        names = {name for name, _ in traits}
        alike = [it for own in self.below for name in names for it in own.by_name.get(name, [])]
        passed = [it for it in alike if it.owners and (it.name, it.owners[0]) in traits]
        every = [*functions, *passed]
        return {name for it in every for name in it.clauses}, {name for it in every for name in it.cited}

    def implemented(self, traits, types):
        """What the implementations of these traits for these types say, and cite, or None where there is none."""
        pairs = [(trait, name) for trait in traits for name in types]
        found = [it for own in self.crates for owners, it in own.impls.items() if owners in pairs]
        if not found:
            return None
        own = [it for crate in self.below for it in crate.functions if it.owners and it.owners[0] in traits]
        said = {name for it in own for name in it.clauses}
        return said.union(*(words for words, _ in found)), set().union(*(cited for _, cited in found))

    def parts(self, names):
        return {it for name in names for found in self.code.defined(name, self.below) for it in found.parts}

    def is_known(self, name):
        """Whether anything has this name: a definition or a part of one, a type, a field or a function."""
        if self.code.defined(name, self.below) or self.code.is_type(name, self.below) or self.functions(name):
            return True
        return any(name in own.parts for own in self.below)

    def cited(self):
        """What the functions of this part of the row cite, or what its types or definitions do."""
        said = self.said
        if said.of_types:
            first = said.of_types[1]
        else:
            first = self.promised(said.functions)[1] if said.functions else said.definitions
        return self.code.reached(frozenset(first), tuple(self.below))

    # What is judged.

    def judge_cited(self, it):
        """A name of something that clauses cite, or of a part of that."""
        said, name = self.said, it.name.rpartition("::")[2]
        is_function = not self.code.defined(name, self.below) or it.behind == "(" and not it.depth
        if is_function and self.functions(it.name):
            return self.judge_function(it)
        if name in self.promised(said.inner)[0]:
            return None
        if not self.is_known(name):
            return self.fault(it.name, "is nothing there")
        # (in a row that names no function the definitions outside brackets are known to be cited by the row before, if any)
        is_open = not (said.functions or said.of_types or it.depth and said.definitions)
        if is_open or self.code.is_type(name, self.below) or name in self.cited():
            said.definitions.append(name)
            if not it.depth:
                said.is_of_function = False
            return None
        return self.fault(it.name, "isn't what is cited there")

    def judge_function(self, it):
        """A function: outside brackets one that the next brackets are of, and in them one that another name stands behind."""
        found, said = self.functions(it.name), self.said
        if "::" in it.name:
            self.owner = it.name.split("::")[-2]
        if it.depth:
            said.inner = found
            return
        said.last = [*said.last, found] if it.before != ")" and said.is_of_function else [found]
        said.functions += found
        said.of_types, said.is_of_function, said.definitions = None, True, []

    def judge_head(self, it):
        """A name outside brackets of which it isn't said that it is cited."""
        name, said = it.name, self.said
        if self.functions(name):
            self.judge_function(it)
        elif name in self.code.crates[self.crate].definitions or name[0].isupper() and "::" not in name and self.is_known(name):
            said.definitions = [name]
            said.is_of_function = False
        else:
            self.fault(name, "is no function there")

    def judge_in_brackets(self, it):
        """A clause of the function before the brackets, a part of the definition before them, or what these cite."""
        said, name = self.said, it.name
        is_clause_name = name[0].islower() and "::" not in name and it.behind != "of"
        if is_clause_name and said.of_types and name in said.of_types[0]:
            return
        if not is_clause_name or not said.is_of_function:
            self.judge_cited(it)
            return
        asked = [[own] for own in said.last] if it.of_each else [said.last]
        for each in asked:
            functions = [own for found in each for own in found]
            known = self.promised(functions)[0] | self.parts(said.definitions)
            if name not in known and (it.of_each or not self.is_definition_cited(name)):
                self.fault(name, f"is no clause of `{functions[0].name}`")

    def is_definition_cited(self, name):
        return bool(self.code.defined(name, self.below)) and name in self.cited()

    def judge_implementation(self, traits, types):
        found = self.implemented(traits, types)
        if not found:
            self.fault(f"{traits[0]} for {types[0]}", "isn't there")
        self.said = Said(of_types=found or (set(), set()))

    def judge(self):
        found = tokens(self.cell)
        for at, it in enumerate(found):
            if it is None:
                self.said = Said()
            elif isinstance(it, str):
                self.said = Said(of_types=(set(), {name for own in self.crates for name in own.invariants}))
            elif NAME.fullmatch(it.name) and (it.name not in self.code.crates or self.functions(it.name)):
                self.count += 1
                self.judge_name(found, at, it)
        return self

    def judge_name(self, found, at, it):
        earlier = [other for other in found[max(0, at - 2) : at] if isinstance(other, Named)]
        following = [other for other in found[at + 1 : at + 2] if isinstance(other, Named)]
        if it.before == "for" and it.depth == 0:
            traits = [other.name for other in earlier if other.behind in ("for", "and")]
            types = [it.name, *(other.name for other in following if it.behind == "and")]
            if traits:
                self.judge_implementation(traits, types)
        elif it.behind == "for" or it.behind == "and" and any(other.behind == "for" for other in following):
            pass  # a trait: what is judged is the type behind it
        elif it.behind == "of each" and not it.depth:
            self.said = Said()
        elif it.depth and not it.is_cited:
            self.judge_in_brackets(it)
        elif it.is_cited:
            self.judge_cited(it)
        else:
            self.judge_head(it)


def chapters(text):
    """Each chapter: the names of its crates, its rows, cell by cell and without their head, and its text."""
    found = []
    for part in re.split(r"^### ", text, flags=re.M)[1:]:
        head, _, body = part.partition("\n")
        body = re.split(r"^## ", body, flags=re.M)[0]
        rows = [[*map(str.strip, line.split("|")[1:-1])] for line in body.split("\n") if line.startswith("| ")]
        found.append((re.findall(r"`(\w+)`", head), rows[1:], body))
    return found


def capitals(cell):
    """The names of a text in brackets that begin with a capital: definitions and types, as documents write them."""
    return [it for brackets in re.findall(r"\(([^()]*)\)", cell) for it in re.findall(r"`([A-Z]\w*[a-z]\w*)`", brackets)]


def judge_claim(code, crate, cell):
    """What is wrong in a row's first column, or in a chapter's text, and how many names of it were judged."""
    names = capitals(cell)
    row = Row(code, crate, cell)
    wrong = [f"{crate}: `{it}` is nothing there (| {cell[:80]})" for it in names if not row.is_known(it)]
    return wrong, len(names)


def judge_lemmas(code, crates, cells):
    """The same of a row of the chapter of crates that have nothing but lemmas: what the last column names stands in the first's crate."""
    crate = cells[0].strip("`")
    if crate not in crates:
        return [f"{crate} stands in a chapter that isn't its own"], 1
    names = [it for it in re.findall(r"`(\w+)`", cells[2]) if it not in code.crates]
    return [f"{crate}: `{it}` stands nowhere in it" for it in names if it not in code.crates[crate].lemmas], len(names)


def judge_chapter(code, names, rows, body):
    """What is wrong in a chapter, and how many names in it were judged."""
    if len(names) > 1:
        found = [judge_lemmas(code, names, cells) for cells in rows]
    else:
        text = "\n".join(line for line in body.split("\n") if not line.startswith("|"))
        found = [judge_claim(code, names[0], it) for it in [text, *(cells[0] for cells in rows)]]
        judged = [Row(code, names[0], cells[1]).judge() for cells in rows]
        found += [(row.wrong, row.count) for row in judged]
    return [it for wrong, _ in found for it in wrong], sum(count for _, count in found)
