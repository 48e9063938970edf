"""Random dossiers of few places for many: bars fall, passes are repeated, and most answers fit. And changes of them."""

import copy
import csv
import subprocess
from collections.abc import Callable
from dataclasses import dataclass
from datetime import date, timedelta
from pathlib import Path
from random import Random

from dossier.slots import SLOTS

from .dossiers import FIRST_DAY, Cell, Dossier, Rows, add_state, distinct_ids, random_wishes, ranks

LIVE = ("offered", "accepted")
CEILINGS = (0, 3, 6, 12, 2_000_000_000, 2_000_000_000)
FITTING = {"waiting": ["withdraw"], "offered": ["accept", "refuse"], "accepted": ["accept", "refuse"]}
BECOMES = {"accept": "accepted", "refuse": "refused", "withdraw": "withdrawn", "quit": "quit"}


@dataclass(frozen=True)
class Crowd:
    """A dossier with the days of its run, and the words of its deadlines or none."""

    dossier: Dossier
    days: int
    deadlines: tuple[str, ...]

    def words(self, mode: str) -> tuple[str, ...]:
        return (mode, "--days", str(self.days), *self.deadlines)


def crowd(random: Random, program: str, folder: Path) -> Crowd:
    """A random dossier of up to 14 candidates, whose slots are written to a new folder."""
    dossier, days = crowded_dossier(random), random.randint(1, 4)
    start = FIRST_DAY - timedelta(days=random.randint(0, 2))
    term = random.choice((0, 1, 2, 5))
    deadlines = ("--start", str(start), "--term", str(term)) if random.random() < 0.4 else ()
    dossier.write(folder)
    for day in range(1, days + 1):
        if not give_answers(random, dossier, day, standing(program, folder, dossier, day, deadlines)):
            break
        (folder / "answers.csv").write_bytes(dossier.slot_bytes(next(slot for slot in SLOTS if slot.name == "answers")))
    return Crowd(dossier, days, deadlines)


def crowded_dossier(random: Random) -> Dossier:
    groups = distinct_ids(random, random.randint(1, 3))
    programmes = {programme: random.choice(groups) for programme in distinct_ids(random, random.randint(1, 5))}
    schools = distinct_ids(random, random.choice((0, 1, 1, 2, 2, 3)))
    candidates = distinct_ids(random, random.randint(1, 14))
    dossier = Dossier()
    rows = dossier.rows
    rows["groups"] = [(group, random.choice((0, 7, 20, 50, 100)), random.choice((0, 30, 100))) for group in groups]
    limits = random.random() < 0.4
    if limits:
        dossier.with_optional.add("programmes")
    rows["programmes"] = [(programme, group, random.choice((0, 1, 1, 2, 3, 6)),
                           *([random.choice((0, 0, 2, 4))] if limits else []))
                          for programme, group in programmes.items()]
    rows["schools"] = [(school, random.choice((0, 0, 1, 1, 2, 3)), random.choice(CEILINGS)) for school in schools]
    rows["rankings"] = shuffled(random, [(group, candidate, rank, random.randint(0, 1), random.randint(0, 1))
                                         for group in groups for candidate, rank in ranks(random, candidates)])
    rows["boarding"] = shuffled(random, [(school, candidate, rank)
                                         for school in schools for candidate, rank in ranks(random, candidates)])
    rows["wishes"] = crowded_wishes(random, candidates, list(programmes), schools)
    rows["state"] = []
    if random.random() < 0.5:
        add_state(random, dossier)
    days = sorted(random.randint(1, 5) for _ in range(random.choice((0, 2, 4))))
    changes = [(day, random.choice(schools), random.choice(CEILINGS)) for day in days] if schools else []
    rows["ceilings"] = list({change[:2]: change for change in changes}.values())
    rows["answers"] = []
    return dossier


def shuffled(random: Random, rows: Rows) -> Rows:
    return random.sample(rows, len(rows)) if random.random() < 0.5 else rows


def crowded_wishes(random: Random, candidates: list[int], programmes: list[int], schools: list[int]) -> Rows:
    """Most wishes are with boarding, where there is a school."""
    choices = [(programme, school) for programme in programmes for school in [None, *schools]]
    return random_wishes(random, candidates, choices, random.choice((1, 3, 6)), random.choice((0, 0.4, 0.8, 1)))


def standing(program: str, folder: Path, dossier: Dossier, day: int, deadlines: tuple[str, ...]) -> dict[Cell, str]:
    """How each wish stands in the evening before a day; empty where an earlier answer does not fit."""
    known = {wish: status for wish, status, *_ in dossier.rows["state"]}
    if day > 1:
        words = [program, "replay", "--days", str(day - 1), *deadlines]
        text = subprocess.run(words, cwd=folder, capture_output=True, text=True, check=False).stdout
        if "final\n" not in text:
            return {}
        known = {int(row[0]): row[1] for row in csv.reader(text[text.index("final\n") + 6:].splitlines()[1:])}
    return {wish: str(known.get(wish, "waiting")) for wish, *_ in dossier.rows["wishes"]}


def give_answers(random: Random, dossier: Dossier, day: int, stands: dict[Cell, str]) -> bool:
    """Adds answers of a day, of which nearly all fit; whether there may be more on the days after it."""
    owner = {wish: candidate for wish, candidate, *_ in dossier.rows["wishes"]}
    for _ in range(random.choice((0, 1, 2, 4)) if stands else 0):
        wish = random.choice(list(owner))
        kind = random.choice(["quit", *3 * FITTING.get(stands[wish], [])])
        if kind in ("accept", "quit"):
            others = [each for each in owner if owner[each] == owner[wish] and (kind == "quit" or stands[each] in LIVE)]
            stands.update({each: "quit" if kind == "quit" else "refused" for each in others})
        stands[wish] = BECOMES[kind]
        dossier.rows["answers"].append((day, kind, owner[wish] if kind == "quit" else wish))
    if stands and random.random() < 0.03:
        dossier.rows["answers"].append((day, random.choice(("accept", "withdraw")), random.choice(list(owner))))
    return bool(stands)


# --- Changes of one thing, as a wrong program or a wrong hand would bring them about -------------------------------

def cell_changed(slot: str, column: int, change: Callable[[Random, Cell], Cell]) -> Callable[[Random, Dossier], None]:
    def changed(random: Random, dossier: Dossier) -> None:
        rows = dossier.rows[slot]
        if rows:
            place = random.randrange(len(rows))
            if column < len(rows[place]):
                row = list(rows[place])
                row[column] = change(random, row[column])
                rows[place] = tuple(row)
    return changed


def cells_exchanged(slot: str, column: int, alike: int) -> Callable[[Random, Dossier], None]:
    """Two rows that are alike in one column have their cells of another column exchanged."""
    def changed(random: Random, dossier: Dossier) -> None:
        rows = dossier.rows[slot]
        pairs = [(a, b) for a in range(len(rows)) for b in range(a) if rows[a][alike] == rows[b][alike]]
        if pairs:
            a, b = random.choice(pairs)
            one, two = list(rows[a]), list(rows[b])
            one[column], two[column] = two[column], one[column]
            rows[a], rows[b] = tuple(one), tuple(two)
    return changed


def row_left_out(slot: str) -> Callable[[Random, Dossier], None]:
    def changed(random: Random, dossier: Dossier) -> None:
        if dossier.rows[slot]:
            dossier.rows[slot].pop(random.randrange(len(dossier.rows[slot])))
    return changed


def more_or_less(random: Random, cell: Cell) -> Cell:
    return max(0, int(cell or 0) + random.choice((-1, 1)))


def other_day(random: Random, cell: Cell) -> Cell:
    return str(date.fromisoformat(str(cell)) + timedelta(random.choice((-1, 1)))) if cell else cell


CHANGES: dict[str, Callable[[Random, Dossier], None]] = {
    "a seat more or less": cell_changed("programmes", 2, more_or_less),
    "a limit more or less": cell_changed("programmes", 3, more_or_less),
    "a bed more or less": cell_changed("schools", 1, more_or_less),
    "another ceiling": cell_changed("schools", 2, lambda random, _: random.choice(CEILINGS)),
    "another rate": cell_changed("groups", 1, lambda random, _: random.randint(0, 100)),
    "a scholar more or less": cell_changed("rankings", 3, lambda _, cell: 1 - int(cell or 0)),
    "a resident more or less": cell_changed("rankings", 4, lambda _, cell: 1 - int(cell or 0)),
    "two ranks exchanged": cells_exchanged("rankings", 2, 0),
    "two boarding ranks exchanged": cells_exchanged("boarding", 2, 0),
    "two preferences exchanged": cells_exchanged("wishes", 4, 1),
    "an answer left out": row_left_out("answers"),
    "a change of a ceiling left out": row_left_out("ceilings"),
    "a status left out": row_left_out("state"),
    "another status": cell_changed("state", 1, lambda random, _: random.choice(("offered", "waiting", "refused"))),
    "another date": cell_changed("state", 2, other_day),
}


def other_dossier(random: Random, dossier: Dossier) -> tuple[str, Dossier]:
    """The dossier with one thing changed, and what that is."""
    name, change = random.choice(list(CHANGES.items()))
    other = copy.deepcopy(dossier)
    change(random, other)
    return name, other
