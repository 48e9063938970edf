"""Reports with one thing changed, and where the first line is that no run could have written.

What is wrong is told without `recheck`: lines that are no falls are compared with those of the right report, and the
falls are tested by the program's own mode `check`.
"""

import csv
import re
import subprocess
from collections.abc import Callable
from dataclasses import dataclass
from datetime import date, timedelta
from pathlib import Path
from random import Random

from .mutations import CHANGES

Lines = list[bytes]
CHAIN_WORDS = (b"day", b"pass", b"fall")


@dataclass(frozen=True)
class Case:
    """A dossier's folder with the words of a run, its right report, and how the program is called."""

    folder: Path
    words: tuple[str, ...]
    lines: Lines
    program: str


def run_text(program: str, words: tuple[str, ...], folder: Path) -> tuple[int, bytes]:
    done = subprocess.run([program, *words], cwd=folder, stdin=subprocess.DEVNULL, stdout=subprocess.PIPE, check=False)
    return done.returncode, done.stdout


def word(line: bytes) -> bytes:
    return line.split(b" ", 1)[0].strip()


def one_off(random: Random, lines: Lines) -> Lines:
    """A number is one more or less."""
    place = random.choice([place for place, line in enumerate(lines) if re.search(rb"\d", line)] or [0])
    numbers = list(re.finditer(rb"\d+", lines[place]))
    if not numbers:
        return lines
    number = random.choice(numbers)
    changed = max(0, int(number.group()) + random.choice((-1, 1)))
    line = lines[place][:number.start()] + str(changed).encode() + lines[place][number.end():]
    return [*lines[:place], line, *lines[place + 1:]]


def exchanged(random: Random, lines: Lines) -> Lines:
    """Two lines are exchanged; half the time they are neighbours."""
    place = random.randrange(len(lines))
    other = random.choice((min(place + 1, len(lines) - 1), random.randrange(len(lines))))
    changed = lines.copy()
    changed[place], changed[other] = changed[other], changed[place]
    return changed


def left_out(random: Random, lines: Lines) -> Lines:
    place = random.randrange(len(lines))
    return [*lines[:place], *lines[place + 1:]]


def repeated(random: Random, lines: Lines) -> Lines:
    """A line stands a second time, behind itself or elsewhere."""
    place = random.randrange(len(lines))
    other = random.choice((place + 1, random.randrange(len(lines) + 1)))
    return [*lines[:other], lines[place], *lines[other:]]


def of_another(random: Random, lines: Lines) -> Lines:
    """A line is that of another pass or day: one of the same kind from elsewhere stands in its place."""
    kinds: dict[bytes, list[int]] = {}
    for place, line in enumerate(lines):
        kinds.setdefault(word(line), []).append(place)
    several = [places for places in kinds.values() if len(places) > 1]
    if not several:
        return lines
    place, other = random.sample(random.choice(several), 2)
    return [*lines[:place], lines[other], *lines[place + 1:]]


def cut(random: Random, lines: Lines) -> Lines:
    """The report ends early, at a line's end or within a line."""
    place = random.randrange(len(lines))
    line = lines[place][:random.randrange(len(lines[place]))] if random.random() < 0.5 else b""
    return lines[:place] + ([line] if line else [])


def bytes_changed(random: Random, lines: Lines) -> Lines:
    """Some bytes of a line, or of the whole report, are others."""
    if random.random() < 0.3:
        return re.findall(rb"[^\n]*\n|[^\n]+", random.choice(CHANGES)(b"".join(lines), random))
    place = random.randrange(len(lines))
    changed = random.choice(CHANGES)(lines[place], random)
    return re.findall(rb"[^\n]*\n|[^\n]+", b"".join([*lines[:place], changed, *lines[place + 1:]]))


def falls_moved(random: Random, lines: Lines) -> Lines:
    """Two falls are exchanged, or a named wish is another one that some fall names."""
    falls = [place for place, line in enumerate(lines) if word(line) == b"fall"]
    if len(falls) < 2:
        return lines
    changed = lines.copy()
    place, other = random.sample(falls, 2)
    if random.random() < 0.5:
        changed[place], changed[other] = changed[other], changed[place]
    else:
        here, there = lines[place].split(), lines[other].split()
        here[random.randrange(4, len(here))] = there[random.randrange(4, len(there))]
        changed[place] = b" ".join(here) + b"\n"
    return changed


def other_wish_named(random: Random, lines: Lines) -> Lines:
    """A fall names another wish of the dossier, which may be of the same candidate; or a name more, or one less."""
    falls = [place for place, line in enumerate(lines) if word(line) == b"fall"]
    wishes = [line.split(b",")[0] for line in lines[lines.index(b"final\n") + 2:]] if b"final\n" in lines else []
    if not falls or not wishes:
        return lines
    place, number = random.choice(falls), 0
    words = lines[place].split()
    number = random.randrange(4, len(words))
    kind = random.random()
    words[number:number + (kind < 0.8)] = [random.choice(wishes)] if kind < 0.9 else []
    return [*lines[:place], b" ".join(words) + b"\n", *lines[place + 1:]]


def offer_changed(random: Random, case: Case) -> Lines:
    """In the last pass an offer more or less, to who answers in person, and all that follows from it made consistent:
    the seats and beds that are left, and the final state."""
    lines = case.lines.copy()
    if b"final\n" not in lines:
        return lines
    with open(case.folder / "wishes.csv", encoding="utf-8", newline="") as file:
        wishes = {int(row["wish"]): row for row in csv.DictReader(file)}
    final = {int(line.split(b",")[0]): place for place, line in enumerate(lines) if b"," in line and line[:1].isdigit()}
    status = {wish: lines[place].strip().split(b",")[1] for wish, place in final.items()}
    first = max(place for place, line in enumerate(lines) if word(line) in (b"pass", b"fall", b"bar")) + 1
    last = next(place for place in range(first, len(lines)) if word(lines[place]) != b"offer")
    offered = [int(line.split()[1]) for line in lines[first:last]]
    by_hand = [wish for wish, row in wishes.items() if int(row["preference"]) == 0 and (
        status[wish] == b"waiting" or status[wish] == b"offered" and wish in offered)]
    if not by_hand:
        return lines
    changed = random.choice(by_hand)
    by = -1 if status[changed] == b"waiting" else 1
    for column, name in (("programme", b"left"), ("school", b"free")):
        place = wishes[changed][column]
        others = [wish for wish, row in wishes.items() if wish != changed and status[wish] in (b"offered", b"accepted")
                  and (row["candidate"], row[column]) == (wishes[changed]["candidate"], place)]
        if place and not others:
            at = max(at for at, line in enumerate(lines) if line.startswith(b"%s %d " % (name, int(place))))
            lines[at] = b"%s %d %d\n" % (name, int(place), max(0, int(lines[at].split()[2]) + by))
    lines[final[changed]] = final_line(case, changed, by)
    listed = [wish for wish in wishes if (wish in offered) != (wish == changed)]
    return [*lines[:first], *(b"offer %d\n" % wish for wish in listed), *lines[last:]]


def final_line(case: Case, wish: int, by: int) -> bytes:
    """How a wish that was offered on the last day, or was not, stands in the final state."""
    status = "offered" if by < 0 else "waiting"
    if "--start" not in case.words:
        return f"{wish},{status}\n".encode()
    days = sum(word(line) == b"day" for line in case.lines)
    day = date.fromisoformat(case.words[case.words.index("--start") + 1]) + timedelta(days - 1)
    return f"{wish},{status},{day if by < 0 else ''}\n".encode()


MUTATIONS: dict[str, Callable[[Random, Lines], Lines]] = {
    "a number one off": one_off, "two lines exchanged": exchanged, "a line left out": left_out,
    "a line repeated": repeated, "a line of another pass or day": of_another, "cut": cut,
    "bytes changed": bytes_changed, "falls moved": falls_moved, "another wish named": other_wish_named,
}


def first_wrong(case: Case, lines: Lines) -> int | None:
    """The number of the first line that no run of the case could have written, or None where there is none.

    A report of several days that is cut behind its call orders is a right text of `order`; and where a refusal stands
    first, it may be that of another mode, so that it is what follows that is wrong.
    """
    orders = [line for line in case.lines if word(line) in (b"order", b"rule")]
    is_order = lines == orders and (bool(orders) or "replay" in case.words and word(case.lines[0]) == b"day")
    if is_order or lines and word(lines[0]) == b"refused" and lines[0] in case.lines:
        return None if len(lines) == len(orders) or len(lines) == 1 else 2
    right = [line for line in case.lines if word(line) != b"fall"]
    number, wrong, may_fall = 0, None, False
    for place, line in enumerate(lines, 1):
        if word(line) == b"fall" and may_fall:
            continue
        if number == len(right) or line != right[number]:
            # How many days were asked for no report tells: it may end after any.
            ends_early = line == b"final\n" and number < len(right) and re.match(rb"day ([2-9]|\d\d)", right[number])
            wrong = place + bool(ends_early)
            break
        may_fall = word(line) == b"pass"
        number += 1
    if wrong is None and number < len(right):
        wrong = len(lines) + 1
    fall = first_wrong_fall(case, lines[:wrong - 1] if wrong else lines)
    return min((each for each in (wrong, fall) if each), default=None)


def first_wrong_fall(case: Case, lines: Lines) -> int | None:
    """The line of the first fall, or of what stands in its place, that `check` finds wrong."""
    if lines == case.lines[:len(lines)]:
        return None
    places = [place for place, line in enumerate(lines, 1) if word(line) in CHAIN_WORDS]
    if not any(word(line) in (b"pass", b"fall") for line in lines):
        return None
    (case.folder / "chain.txt").write_bytes(b"".join(lines[place - 1] for place in places) + b"end\n")
    deadlines = case.words[case.words.index("--start"):] if "--start" in case.words else ()
    status, text = run_text(case.program, ("check", *deadlines), case.folder)
    (case.folder / "chain.txt").unlink()
    if status != 6:
        return None
    kind = re.fullmatch(rb"not (a chain|proved) row (\d+) reason (\d+) .*\n", text)
    row = int(kind.group(2))
    if kind.group(1) == b"a chain":
        return places[row - 1]
    if kind.group(3) == b"4":
        behind = places[row - 2] + 1
        return behind if behind <= len(lines) else None
    return places[row - 1] if kind.group(3) in b"123" else None
