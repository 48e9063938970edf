#!/usr/bin/env python3
"""break_lines.py [CRATE..]: breaks the lines of definitions and proofs (.antt) that have over 120 characters, in these
crates or in all, where that moves blanks alone: before an operator or an argument of the outermost brackets that the
line has. A `use` becomes two. Run `rt fmt` afterwards. It prints the lines that it cannot break: long texts, mostly.
Status: 0 none are left, 1 some are, 2 bad words."""
import glob
import os
import re
import signal
import sys
import textwrap

ROOT = os.path.dirname(os.path.dirname(os.path.realpath(__file__)))
MOST = 120
OPERATORS = [" → ", " × ", " ≡ ", " || ", " && ", " ∙ ", " ++ ", " ∷ ", " + ", " < ", " ≤ "]
# Words behind which, and before which, a line is not broken.
HOLDS_NEXT = re.compile(
    r"(?:^|[ ({\[])(?:λ|let|pub|abbrev|record|use|data|elim|rw|at|then|else|if|of|as|by|module|↦|:|"
    + "|".join(re.escape(sign.strip()) for sign in OPERATORS)
    + r")$"
)
HOLDS_BEFORE = re.compile(r" (?:of|where|at|then|else|as|by|in|↦|=|:)(?: |$)")
USE = re.compile(r"( *(?:pub )?use [^{]*\{)(.*)\}")


def worth(before, after, depth):
    """How badly a line is broken between these two parts, the least being best; None where it must not be."""
    if before.endswith((" in", ";")):
        return 0
    if before.endswith(" ="):
        return 1
    if HOLDS_NEXT.search(before) or HOLDS_BEFORE.match(after) or re.search(r"λ[^.()]*$", before):
        return None
    for place, sign in enumerate(OPERATORS):
        if after.startswith(sign):
            return 4 + place
    if before.endswith(","):
        return 17 if depth else 2
    return 16 if after.startswith((" (", " {", " [", " λ")) else 18


def places(line, indent):
    """Each blank at which the line may be broken: how many brackets are open, how badly, and where."""
    depth, is_text = 0, False
    for at, sign in enumerate(line):
        if sign == '"':
            is_text = not is_text
        elif not is_text:
            depth += (sign in "([{") - (sign in ")]}")
            if sign == " " and indent + 20 <= at <= MOST and line[at + 1 : at + 2] not in ("", " "):
                bad = worth(line[:at], line[at:], depth)
                if bad is not None:
                    yield depth, bad, at


def best(found, indent):
    """The last of the best places; one further right where that is near the line's begin."""
    least = min(place[:2] for place in found)
    at = max(place[2] for place in found if place[:2] == least)
    later = [place for place in found if place[2] >= 70]
    if at < indent + 40 and later:
        least_later = min(place[:2] for place in later)
        if least_later[0] <= least[0] + 1:
            return max(place[2] for place in later if place[:2] == least_later)
    return at


def parts_of_use(head, names):
    """The names of a `use` in as many as they need."""
    now = ""
    for name in names.split(", "):
        if now and len(f"{head}{now}, {name}}}") > MOST:
            yield head + now + "}"
            now = ""
        now = f"{now}, {name}" if now else name
    yield head + now + "}"


def broken(line, further=None):
    """The line in parts, each of at most 120 characters where it has places to be broken."""
    if len(line) <= MOST:
        return [line]
    indent = len(line) - len(line.lstrip(" "))
    if line.lstrip().startswith("--"):
        begin = " " * indent + "-- "
        return textwrap.wrap(line.strip()[2:].strip(), MOST, initial_indent=begin, subsequent_indent=begin)
    if used := USE.fullmatch(line):
        return list(parts_of_use(used[1], used[2]))
    found = list(places(line, indent))
    if not found:
        return [line]
    further = further or indent + 4
    at = best(found, indent)
    return [line[:at].rstrip(), *broken(" " * further + line[at:].lstrip(), further)]


def break_file(path):
    """Breaks the long lines of a file, and prints those that are left; answers how many these are."""
    with open(path, encoding="utf-8") as file:
        lines = file.read().split("\n")
    parts = [part for line in lines for part in broken(line)]
    if parts != lines:
        with open(path, "w", encoding="utf-8") as file:
            file.write("\n".join(parts))
    left = [part for part in parts if len(part) > MOST]
    for part in left:
        print(f"{os.path.relpath(path, ROOT)}: {len(part)}: {part.strip()[:80]}")
    return len(left)


def main():
    # Where the reader of a pipe has gone, as head does, this ends as other programs do.
    signal.signal(signal.SIGPIPE, signal.SIG_DFL)
    words = sys.argv[1:]
    if set(words) & {"--help", "-h", "help"}:
        print("usage: break_lines.py [CRATE..]\n" + textwrap.fill(" ".join(__doc__.split()), 80))
        return 0
    crates = words or sorted(os.listdir(f"{ROOT}/crates"))
    if not all(os.path.isdir(f"{ROOT}/crates/{crate}") for crate in crates):
        print("usage: break_lines.py [CRATE..]", file=sys.stderr)
        return 2
    left = 0
    for crate in crates:
        for path in sorted(glob.glob(f"{ROOT}/crates/{crate}/[sp]*/**/*.antt", recursive=True)):
            left += break_file(path)
    print(f"{left} {'line has' if left == 1 else 'lines have'} over {MOST} characters")
    return 1 if left else 0


if __name__ == "__main__":
    sys.exit(main())
