#!/usr/bin/env python3
"""same_lemmas.py: prints the lemmas of the crates' proofs whose statements are the same but for the names of
their variables, each with its files and names. A lemma is stated once: one that two crates cite stands beside what
it speaks of, or in admit_core/proofs/Plain.antt. Status: 0 there are none, 1 there are some, 2 bad words."""
import collections
import glob
import os
import re
import signal
import sys
import textwrap

ROOT = os.path.dirname(os.path.dirname(os.path.realpath(__file__)))
SIGNATURE = re.compile(r"(?:pub )?([^\s:(){}=-][^\s:(){}=]*) : (.*)")
BINDERS = re.compile(r"[({]([\w' ₀-₉-]+) : ")


def statements(text):
    """The name and the statement of each lemma that stands at a file's outermost level."""
    lines = [re.sub(r" *--.*", "", line) for line in text.split("\n")]
    for number, line in enumerate(lines):
        if found := SIGNATURE.fullmatch(line):
            rest = []
            for further in lines[number + 1 :]:
                if not further.startswith("    "):
                    break
                rest.append(further.strip())
            yield found[1], " ".join([found[2], *rest])


def without_names(statement):
    """A statement whose variables are numbered in the order of their binders."""
    names = dict.fromkeys(name for group in BINDERS.findall(statement) for name in group.split())
    for number, name in enumerate(names):
        statement = re.sub(rf"(?<![\w'.-]){re.escape(name)}(?![\w'-])", f"${number}", statement)
    return statement if names else ""


def main():
    # Where the reader of a pipe has gone, as head does, this ends as other programs do.
    signal.signal(signal.SIGPIPE, signal.SIG_DFL)
    if set(sys.argv[1:]) & {"--help", "-h", "help"}:
        print("usage: same_lemmas.py\n" + textwrap.fill(" ".join(__doc__.split()), 80))
        return 0
    if sys.argv[1:]:
        print("usage: same_lemmas.py", file=sys.stderr)
        return 2
    found = collections.defaultdict(list)
    for path in sorted(glob.glob(f"{ROOT}/crates/*/proofs/**/*.antt", recursive=True)):
        with open(path) as file:
            for name, statement in statements(file.read()):
                if same := without_names(statement):
                    found[same].append((os.path.relpath(path, ROOT), name))
    twice = {same: places for same, places in found.items() if len(places) > 1}
    for same, places in twice.items():
        print(same)
        for path, name in places:
            print(f"    {path}: {name}")
    print(f"{len(twice)} {'statement stands' if len(twice) == 1 else 'statements stand'} more than once")
    return 1 if twice else 0


if __name__ == "__main__":
    sys.exit(main())
