#!/usr/bin/env python3
"""laws_without_witness.py [--list]: prints the laws that no worked case meets.

A law is a type that a clause of a call named law(s)_of_.. names, or a conditional statement of the same file of
specs that such a law's conclusion names. The witness of the law NAME is a definition NAMEWitness, which a clause
names too; of a further shape, NAMEOtherWitness, and of a field of a record NAME, NAMEFieldWitness. It has a value
(`let x : T = .. in`) for each variable of the law, and then the law's own text with a product for each arrow: so its
theorem says that all premises hold of these values, and the conclusion too. With --list, all laws with their
witnesses. Status: 0 each law that has a premise has a witness, 1 some have none, or one with another text,
2 bad words."""
import collections
import glob
import os
import re
import signal
import sys
import textwrap

ROOT = os.path.dirname(os.path.dirname(os.path.realpath(__file__)))
LAWS = re.compile(r"laws?_of_\w+|candidates_stand_apart")
CALL = re.compile(r"^pub fn (\w+)\(\)\n((?:    .*\n)*)\{\}", re.M)
CLAUSE = re.compile(r"ensures (\w+) \{ ([^}]*) \}")
OPENS, CLOSES = "([{", ")]}"
BINDERS = re.compile(r"\(([^():]+) : .*\)|\{([^{}:]+) : .*\}", re.S)
COMMENT = re.compile(r'("[^"\n]*")| *--.*')  # what stands between quotes is none

# A statement by cases: the names of its parameters, and each case with the names that it binds.
Definition = collections.namedtuple("Definition", "file parameters cases fields")


def parts(text, signs):
    """A text cut at these signs, where they stand in no brackets."""
    found, depth, start = [], 0, 0
    for place, letter in enumerate(text):
        depth += (letter in OPENS) - (letter in CLOSES)
        if depth == 0 and letter in signs:
            found.append(text[start:place])
            start = place + 1
    return [" ".join(part.split()) for part in [*found, text[start:]]]


def bare(text):
    """A text without the brackets around the whole of it."""
    while text.startswith("(") and text.endswith(")"):
        depth = 0
        for place, letter in enumerate(text):
            depth += (letter in OPENS) - (letter in CLOSES)
            if depth == 0 and place < len(text) - 1:
                return text
        text = text[1:-1].strip()
    return text


def groups(text):
    """The brackets that a text begins with, and what stands behind them."""
    found = []
    while text[:1] in ("(", "{"):
        depth = 0
        for place, letter in enumerate(text):
            depth += (letter in OPENS) - (letter in CLOSES)
            if depth == 0:
                break
        found.append(text[: place + 1])
        text = text[place + 1 :].lstrip()
    return found, text


def bound(part):
    """The names that a part binds if it binds names alone, else none."""
    found, rest = groups(part)
    fits = [BINDERS.fullmatch(group) for group in found]
    if rest or not all(fits):
        return None
    return [name for fit in fits for name in (fit[1] or fit[2]).split()]


def premises(body):
    """The variables of a statement, its premises, and its conclusion."""
    variables, found = [], []
    for part in parts(body, "→"):
        names = bound(part)
        if names is None:
            found.append(part)
        else:
            variables += names
    return variables, found[:-1], found[-1] if found else ""


def factors(texts):
    """The single statements of some texts, without their brackets."""
    return [bare(factor) for text in texts for factor in parts(text, "×") if bound(factor) is None]


def values(text):
    """The names to which a witness gives values, and what it says of them."""
    names = []
    while found := re.match(r"let ([\w']+) : ", text):
        names.append(found[1])
        depth, place = 0, found.end()
        while depth or not re.match(r"\sin\s", text[place:]):
            depth += (text[place] in OPENS) - (text[place] in CLOSES)
            place += 1
        text = text[place + 4 :].lstrip()
    return names, text


def definitions(crate):
    """All statements of a crate's specs, by name."""
    found = {}
    for path in sorted(glob.glob(f"{ROOT}/crates/{crate}/specs/**/*.antt", recursive=True)):
        with open(path) as file:
            text = COMMENT.sub(lambda found: found[1] or "", file.read())
        for item in re.split(r"\n(?=(?:abbrev|pub|unfoldable|record|use)\b)", text):
            if head := re.match(r"(?:pub )?record ([\w']+)", item):
                before, _, fields = item.partition(" where\n")
                names, _ = groups(" ".join(before[head.end() :].split()))
                parameters = [name for group in names for name in (bound(group) or [])]
                each = re.split(r"\n  pub ", "\n" + fields)[1:]
                found[head[1]] = Definition(path, parameters, [], dict(
                    (name, body) for name, _, body in (" ".join(field.split()).partition(" : ") for field in each)))
            elif head := re.match(r"(?:abbrev|unfoldable) pub ([\w']+) :", item):
                cases = re.split(rf"\n(?={re.escape(head[1])}\b)", item)[1:]
                each = [case.partition(" =") for case in cases]
                found[head[1]] = Definition(path, [], [
                    (re.findall(r"[\w']+", left)[1:], " ".join(right.split())) for left, _, right in each], {})
    return found


def clauses(crate):
    """Each clause of the crate's calls that do nothing: the call, the clause's name and its type."""
    for path in sorted(glob.glob(f"{ROOT}/crates/{crate}/src/*.rt")):
        with open(path) as file:
            text = re.sub(r" *//.*", "", file.read())
        for call, body in CALL.findall(text):
            for name, kind in CLAUSE.findall(" ".join(body.split())):
                yield f"{crate}::{call}", name, " ".join(kind.split())


class Book:
    """What the repository states, and which of it has a witness."""

    def __init__(self):
        crates = sorted(os.path.basename(path) for path in glob.glob(f"{ROOT}/crates/*") if os.path.isdir(path))
        self.of_crate = {crate: definitions(crate) for crate in crates}
        self.said = [clause for crate in crates for clause in clauses(crate)]
        self.named = {kind: (call, name) for call, name, kind in self.said}
        self.witnesses = {name: made for made_here in self.of_crate.values() for name, made in made_here.items()
                          if name.endswith("Witness")}
        self.laws = {}  # name: (where it is said, each statement as (variables, premises, conclusion))

    def read(self):
        for call, name, kind in self.said:
            if LAWS.fullmatch(call.partition("::")[2]):
                crate = call.partition("::")[0]
                self.add(kind.split(), f"{call}, {name}", crate)

    def find(self, crate, name):
        """A statement, in the crate or, where it names one of another, there."""
        here = self.of_crate[crate].get(name)
        return here or next((made[name] for made in self.of_crate.values() if name in made), None)

    def add(self, words, where, crate, around=((), ())):
        """A law, and the conditional statements that its conclusion names in the same file."""
        made = self.find(crate, words[0])
        if made is None or words[0] in self.laws:
            return
        for parameters, body in made.cases:
            variables, found, conclusion = premises(body)
            if len(words) > 1:  # what holds of all that the first word speaks of: the second one
                self.add(words[1:], where, crate, (variables, found))
            elif self.speaks_of_all(crate, conclusion) and not found:  # as `OfCallOrders KeepsOrderLaws`
                _, needs, last = premises(self.find(crate, conclusion.split()[0]).cases[0][1])
                names = premises(self.find(crate, conclusion.split()[0]).cases[0][1])[0]
                self.put(words[0], where, names, needs, " ".join([conclusion.split()[1], *last.split()[1:]]))
                self.follow(made, conclusion.split()[1], where, crate)
            else:
                names = variables if around[0] else [*parameters, *variables]
                self.put(words[0], where, [*around[0], *names], [*around[1], *found], conclusion)
                self.follow(made, conclusion, where, crate)
        for field, body in made.fields.items():
            variables, found, conclusion = premises(body)
            if found:
                name = words[0] + "".join(word.capitalize() for word in field.split("_"))
                self.put(name, where, made.parameters + variables, found, conclusion)
            self.follow(made, conclusion, where, crate)

    def speaks_of_all(self, crate, text):
        """Whether a text is a statement about all that another one, its parameter, holds of."""
        words = text.split()
        made = self.find(crate, words[0]) if len(words) == 2 else None
        return bool(made and made.cases and made.cases[0][0]
                    and premises(made.cases[0][1])[2].split()[0] == made.cases[0][0][0])

    def follow(self, made, conclusion, where, crate):
        for name in re.findall(r"[A-Z]\w+", conclusion):
            other = self.find(crate, name)
            if other and other.file == made.file and not name.endswith("Witness"):
                self.add([name], where, crate)

    def put(self, name, where, variables, found, conclusion):
        self.laws.setdefault(name, (where, []))[1].append((variables, found, conclusion))

    def witness_of(self, name):
        """The witnesses of a law, each with what is wrong with it."""
        for kind in (f"{name}Witness", f"{name}OtherWitness"):
            if kind in self.witnesses:
                names, text = values(self.witnesses[kind].cases[0][1])
                says = factors([text])
                fits = any(
                    set(names) == set(variables) and says == factors([*found, conclusion])
                    for variables, found, conclusion in self.laws[name][1])
                yield kind, "not the law's text" if not fits else "" if kind in self.named else "no clause names it"


def main(words):
    # Where the reader of a pipe has gone, as head does, this ends as other programs do.
    signal.signal(signal.SIGPIPE, signal.SIG_DFL)
    if set(words) & {"--help", "-h", "help"}:
        print("usage: laws_without_witness.py [--list]\n" + textwrap.fill(" ".join(__doc__.split()), 80))
        return 0
    if words not in ([], ["--list"]):
        print("usage: laws_without_witness.py [--list]", file=sys.stderr)
        return 2
    book = Book()
    book.read()
    without = wrong = met = 0
    for name, (where, said) in book.laws.items():
        if not any(found for _, found, _ in said):
            continue
        witnesses = list(book.witness_of(name))
        met += any(not fault for _, fault in witnesses)
        without += not witnesses
        wrong += sum(bool(fault) for _, fault in witnesses)
        for kind, fault in witnesses:
            if fault or "--list" in words:
                print(f"{name} ({where}): {kind} ({fault or ', '.join(book.named[kind])})")
        if not witnesses:
            print(f"{name} ({where}): no witness")
    print(f"laws with a witness: {met}, without one: {without}; witnesses that are wrong: {wrong}")
    return 1 if without or wrong else 0


if __name__ == "__main__":
    sys.exit(main(sys.argv[1:]))
