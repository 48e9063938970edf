"""The names in docs/PROMISES.md and docs/FAILURES.md: a function, and the clause of it that a promise cites, must stand
in the crates.

A name in a contract cell is that of a crate, a function, a type, a path, or a definition of `specs`. Any other is of a
clause of the functions that were named before it in the cell, or of a field of a record that their clauses come to.
**run** and **day** are what the page says of them; no row is read by the one above it. What a sentence says of its clause
no check tells.
"""

import re
from collections import defaultdict
from collections.abc import Iterator
from dataclasses import dataclass, field
from functools import cache
from pathlib import Path

from .harness import TOP

PAGES = (Path("docs/PROMISES.md"), Path("docs/FAILURES.md"))
WORDS_FOR_CALLS = {"run": ("replay_cli", "run"), "day": ("desk_day", "run_day_along")}
# The first cell of the tables whose rows cite contracts. In the third kind the call stands in the first cell.
PROMISED, ENDED, CALLED = ("promise", "law"), "exit", "call"

FUNCTION = re.compile(r"^ *(?:pub(?:\([\w ]+\))? )?(?:const )?fn (\w+)", re.M)
BLOCK = re.compile(r"^(?:pub )?(impl|trait)\b([^{;]*)\{", re.M)
OWNER = re.compile(r"\s*(?:\w+::)*(\w+)")
PARAMETERS = re.compile(r"^\s*<(?:[^<>]|<[^<>]*>)*>")
CLAUSE = re.compile(r"\b(?:ensures|requires)(?: (\w+))?\s*\{")
GHOST = re.compile(r"\bghost (\w+)\b")
TYPE = re.compile(r"\b(?:struct|enum|trait|type) (\w+)")
VARIANT = re.compile(r"^    (\w+)(?:\(.*\)| \{.*\}|),$", re.M)
EXPORT = re.compile(r"\bpub use (\w+)::([^;]+);")
DEFINITION = re.compile(r"(?:abbrev|unfoldable|record)(?: pub)? ([\w'-]+)|pub record ([\w'-]+)")
FIELD = re.compile(r"^  (?:pub )?(\w+) :", re.M)
WORD = re.compile(r"[\w'-]+")
NAMED = re.compile(r"`([^`]+)`|\*\*(run|day)\*\*")
CELLS = re.compile(r"(?<!\\)\|")


@dataclass(frozen=True)
class Function:
    """A function of a crate: whose it is, its clauses, and what they say."""

    crate: str
    owners: frozenset[str]
    clauses: frozenset[str]
    said: str


@dataclass
class Definition:
    """A definition of `specs`: the words in it, and its fields if it is a record."""

    words: set[str] = field(default_factory=set)
    fields: set[str] = field(default_factory=set)


@dataclass
class Crates:
    """What has a name in the crates."""

    names: set[str] = field(default_factory=set)
    functions: dict[str, list[Function]] = field(default_factory=lambda: defaultdict(list))
    types: dict[str, set[str]] = field(default_factory=lambda: defaultdict(set))
    ghosts: dict[str, set[str]] = field(default_factory=lambda: defaultdict(set))
    variants: set[str] = field(default_factory=set)
    exports: dict[str, list[tuple[str, set[str]]]] = field(default_factory=lambda: defaultdict(list))
    definitions: dict[str, Definition] = field(default_factory=lambda: defaultdict(Definition))
    known: dict[str, set[str]] = field(default_factory=dict)

    def functions_of(self, crate: str, name: str, owner: str = "") -> list[Function]:
        """The functions of this name that a crate has, or exports of another one."""
        own = [it for it in self.functions.get(name, ()) if it.crate == crate and (not owner or owner in it.owners)]
        if own:
            return own
        return [it for other, names in self.exports.get(crate, ()) if names & {name, owner}
                for it in self.functions_of(other, name, owner)]

    def methods_of(self, crate: str, type_name: str) -> list[Function]:
        """The functions of a type that a crate has, or exports of another one."""
        crates = {crate} | {other for other, names in self.exports.get(crate, ()) if type_name in names}
        return [it for of_name in self.functions.values() for it in of_name
                if type_name in it.owners and it.crate in crates]

    def is_type(self, crate: str, name: str) -> bool:
        exported = (other for other, names in self.exports.get(crate, ()) if name in names)
        return name in self.types.get(crate, ()) or any(self.is_type(other, name) for other in exported)

    def reached(self, said: str) -> set[str]:
        """The definitions that clauses come to, and the fields of those that are records."""
        if said not in self.known:
            self.known[said] = self.reached_anew(said)
        return self.known[said]

    def reached_anew(self, said: str) -> set[str]:
        met: set[str] = set()
        rest = set(WORD.findall(said))
        while rest:
            further = {name for name in rest - met if name in self.definitions}
            met |= further
            rest = set().union(*(self.definitions[name].words for name in further))
        return met.union(*(self.definitions[name].fields for name in met))


def end_of_braces(text: str, begin: int) -> int:
    """Where the braces end that open at a place."""
    depth = 0
    for place in range(begin, len(text)):
        depth += {"{": 1, "}": -1}.get(text[place], 0)
        if depth == 0:
            return place + 1
    return len(text)


def owners_in(text: str) -> list[tuple[int, int, frozenset[str]]]:
    """The blocks of code that belong to types and traits, with the names of these."""
    found = []
    for block in BLOCK.finditer(text):
        head = PARAMETERS.sub("", block[2])
        names = frozenset(owner[1] for part in head.split(" for ") if (owner := OWNER.match(part)))
        found.append((block.start(), end_of_braces(text, block.end() - 1), names))
    return found


def functions_in(crate: str, text: str) -> Iterator[tuple[str, Function]]:
    blocks = owners_in(text)
    begun = list(FUNCTION.finditer(text))
    ends = [*(it.start() for it in begun), len(text)][1:]
    for here, after in zip(begun, ends, strict=True):
        clauses = list(CLAUSE.finditer(text, here.end(), after))
        said = "\n".join(text[it.end():end_of_braces(text, it.end() - 1)] for it in clauses)
        owners = frozenset[str]().union(*(names for begin, end, names in blocks if begin <= here.start() < end))
        yield here[1], Function(crate, owners, frozenset(it[1] for it in clauses if it[1]), said)


def add_code(crates: Crates, crate: str, text: str) -> None:
    for name, function in functions_in(crate, text):
        crates.functions[name].append(function)
    for begin, end, names in owners_in(text):
        for name in names:
            crates.ghosts[name] |= set(GHOST.findall(text, begin, end))
    crates.types[crate] |= set(TYPE.findall(text))
    crates.variants |= set(VARIANT.findall(text))
    crates.exports[crate] += [(other, set(WORD.findall(names))) for other, names in EXPORT.findall(text)
                              if other in crates.names]


def add_definitions(crates: Crates, text: str) -> None:
    """A definition goes on to the next one that begins at the margin."""
    name = ""
    for part in re.split(r"\n(?=[^\s])", text):
        if found := DEFINITION.match(part):
            name = found[1] or found[2]
        elif not name or not part.startswith(name):
            name = ""
        if name:
            crates.definitions[name].words |= set(WORD.findall(part))
            crates.definitions[name].fields |= set(FIELD.findall(part))


@cache
def crates_here() -> Crates:
    crates = Crates({path.name for path in (TOP / "crates").iterdir()})
    for path in sorted((TOP / "crates").glob("*/src/**/*.rt")):
        add_code(crates, path.relative_to(TOP / "crates").parts[0], path.read_text())
    for path in sorted((TOP / "crates").glob("*/specs/**/*.antt")):
        add_definitions(crates, path.read_text())
    return crates


class Scope:
    """What the names of a cell may be of."""

    def __init__(self, crates: Crates) -> None:
        self.crates, self.crate = crates, ""
        self.functions: list[Function] = []
        self.fields: set[str] = set()

    def add(self, functions: list[Function]) -> bool:
        self.functions += functions
        return bool(functions)

    def takes(self, name: str) -> bool:
        """Whether a name is one of the crates, or of what was named before it."""
        parts = name.split("::")
        if parts[0] in self.crates.names:
            self.crate = parts.pop(0)
        if len(parts) == 2:
            return self.takes_method(*parts)
        if not parts:
            return True
        return self.takes_call(parts[0]) if "::" in name else self.takes_word(parts[0])

    def takes_method(self, owner: str, name: str) -> bool:
        return self.add([it for it in self.crates.functions.get(name, ()) if owner in it.owners])

    def takes_call(self, name: str) -> bool:
        if self.crates.is_type(self.crate, name):
            self.fields |= self.crates.ghosts.get(name, set())
            self.add(self.crates.methods_of(self.crate, name))
            return True
        return self.add(self.crates.functions_of(self.crate, name))

    def takes_word(self, name: str) -> bool:
        if all(self.is_clause(part) for part in name.split(".")) or self.takes_call(name):
            return True
        if name in self.crates.functions:
            return self.add(self.crates.functions[name])
        if owned := [it for of_name in self.crates.functions.values() for it in of_name if name in it.owners]:
            return self.add(owned)
        if name in self.crates.definitions:
            self.fields |= self.crates.definitions[name].fields
            return True
        return name in self.crates.variants or any(name in types for types in self.crates.types.values())

    def is_clause(self, name: str) -> bool:
        if name in self.fields or any(name in it.clauses for it in self.functions):
            return True
        return any(name in self.crates.reached(it.said) for it in self.functions)


def is_no_name(text: str) -> bool:
    """Paths are tested as such; options, `&` and families of names are no names."""
    return bool(re.search(r"[/ &<>]|\.\.|^-|\.\w+t$", text))


def contract_in(header: str, cells: list[str]) -> str:
    """What a row of a table of this header cites."""
    if header == CALLED:
        return " ".join([cells[0], *cells[2:]])
    return f"**run** {' '.join(cells[1:])}" if header == ENDED else cells[-1]


def rows_in(page: str) -> Iterator[tuple[int, str]]:
    """The rows that cite contracts: their line in the page, and what they cite."""
    header = ""
    for number, line in enumerate(page.splitlines(), start=1):
        cells = [cell.strip() for cell in CELLS.split(line)[1:-1]]
        if not cells:
            header = ""
        elif not header:
            header = cells[0] or "none"
        elif header in (*PROMISED, ENDED, CALLED) and set(line) - set("|- "):
            yield number, contract_in(header, cells)


def unknown_names(page: str) -> list[str]:
    """What the page cites and the crates do not have, each with its line."""
    crates = crates_here()
    unknown = []
    for number, cited in rows_in(page):
        scope = Scope(crates)
        for name, word in NAMED.findall(cited):
            if word:
                scope.crate, function = WORDS_FOR_CALLS[word]
                scope.add(crates.functions_of(scope.crate, function))
            elif name and not is_no_name(name) and not scope.takes(name):
                unknown.append(f"line {number}: {name}")
    return unknown
