#!/usr/bin/env python3
"""memory_answers.py: prints each line of the crates' code that answers by its own words that memory ran out, or that
takes room of a size that it states, and is not in memory_answers.txt beside it, and each line there that the code does
not have. Contracts mostly allow that answer at any step, so a fault could be told so: by such words, or by room that no
machine has. Handed on by `?` it is in no line of its own. A new line is read, and added where it is right. Crates of
cases, worked_*, are left out. Status: 0 there is no difference, 1 there is, 2 bad words."""
import collections
import glob
import os
import re
import sys
import textwrap

TOOLS = os.path.dirname(os.path.realpath(__file__))
ROOT = os.path.dirname(TOOLS)
ANSWERS = re.compile(r"::(OutOfMemory|NoMemory)\b|\b(OutOfMemory|AllocError)\)|^(OutOfMemory|AllocError)$"
                     r"|\b(OutOfMemory|AllocError)\.into\b|\(NoRoom \{")
ROOM = re.compile(r"\bwith_capacity\(|\.(reserve|reserve_exact|resize)\(|\bvec!\[in .*;.*;")


def answers():
    """Each such line, behind the name of its file."""
    for path in sorted(glob.glob(f"{ROOT}/crates/*/src/**/*.rt", recursive=True)):
        name = os.path.relpath(path, f"{ROOT}/crates")
        if not name.startswith("worked_"):
            with open(path, encoding="utf-8") as file:
                for line in file:
                    code = re.sub(r"//.*", "", line).strip()
                    said = ANSWERS.search(code) or ROOM.search(code)
                    if said and not re.match(r"(pub )?(ensures|fn|ghost|impl|requires|use)\b", code):
                        yield f"{name}: {code}"


def main():
    if sys.argv[1:] in (["--help"], ["-h"], ["help"]):
        print("usage: memory_answers.py\n" + textwrap.fill(" ".join(__doc__.split()), 80))
        return 0
    if sys.argv[1:]:
        print("usage: memory_answers.py", file=sys.stderr)
        return 2
    with open(f"{TOOLS}/memory_answers.txt", encoding="utf-8") as file:
        known = collections.Counter(file.read().splitlines())
    found = collections.Counter(answers())
    for mark, lines in (("+", found - known), ("-", known - found)):
        for line in sorted(lines.elements()):
            print(mark, line)
    print(f"{sum(found.values())} lines answer that memory ran out, or state a size; "
          f"{sum((found - known).values())} new, {sum((known - found).values())} gone")
    return int(found != known)


if __name__ == "__main__":
    sys.exit(main())
