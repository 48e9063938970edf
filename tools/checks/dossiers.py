"""Random valid dossiers, as the rows of their slots."""

from dataclasses import dataclass, field
from datetime import date, timedelta
from pathlib import Path
from random import Random

from dossier.slots import SLOTS, Slot
from dossier.writing import csv_bytes

Cell = int | str | None
Rows = list[tuple[Cell, ...]]
Choice = tuple[int, int | None]  # a programme, with a school or without
FIRST_DAY = date(2026, 6, 2)
GONE = ("refused", "withdrawn", "quit", "auto_refused", "auto_withdrawn", "lapsed")


@dataclass
class Dossier:
    """The rows of each slot by its name; a slot whose rows lack its last column is written without it."""

    rows: dict[str, Rows] = field(default_factory=dict)

    def header(self, slot: Slot) -> list[str]:
        names = [column.name for column in slot.columns]
        optional = slot.columns[-1].is_optional
        return names[:-1] if optional and slot.name not in self.with_optional else names

    with_optional: set[str] = field(default_factory=set)

    def slot_bytes(self, slot: Slot) -> bytes:
        rows = ([("" if cell is None else cell) for cell in row] for row in self.rows[slot.name])
        return csv_bytes(self.header(slot), rows)

    def write(self, folder: Path) -> None:
        folder.mkdir()
        for slot in SLOTS:
            (folder / slot.file).write_bytes(self.slot_bytes(slot))


def distinct_ids(random: Random, count: int) -> list[int]:
    greatest = random.choice((count + 3, 1000, 2_000_000_000))
    return random.sample(range(1, greatest + 1), count)


def random_dossier(random: Random) -> Dossier:
    """A dossier of up to ten candidates; about half have call limits, or dates in the state."""
    groups = distinct_ids(random, random.randint(1, 3))
    programmes = {programme: random.choice(groups) for programme in distinct_ids(random, random.randint(1, 4))}
    schools = distinct_ids(random, random.randint(0, 3))
    candidates = distinct_ids(random, random.randint(1, 10))
    dossier = Dossier()
    rows = dossier.rows
    rows["groups"] = [(group, random.choice((0, 20, 50, 100)), random.choice((0, 30, 100))) for group in groups]
    if random.random() < 0.5:
        dossier.with_optional.add("programmes")
    limits = "programmes" in dossier.with_optional
    rows["programmes"] = [(programme, group, random.randint(0, 3), *([random.choice((0, 0, 2))] if limits else []))
                          for programme, group in programmes.items()]
    rows["schools"] = [(school, random.randint(0, 2), random.choice((0, 3, 1500, 2_000_000_000))) for school in schools]
    rows["rankings"] = [(group, candidate, rank, random.randint(0, 1), random.randint(0, 1))
                        for group in groups for candidate, rank in ranks(random, candidates)]
    rows["boarding"] = [(school, candidate, rank)
                        for school in schools for candidate, rank in ranks(random, candidates)]
    choices = [(programme, school) for programme in programmes for school in [None, *schools]]
    rows["wishes"] = random_wishes(random, candidates, choices, most=4, automatic=0.4)
    add_state(random, dossier)
    days = sorted(random.randint(1, 8) for _ in range(3))
    changes = [(day, random.choice(schools), random.randint(0, 12)) for day in days] if schools else []
    rows["ceilings"] = list({change[:2]: change for change in changes}.values())
    rows["answers"] = []
    return dossier


def ranks(random: Random, candidates: list[int]) -> list[tuple[int, int]]:
    places = random.sample(range(1, len(candidates) + 4), len(candidates))
    return list(zip(random.sample(candidates, len(candidates)), places))


def random_wishes(random: Random, candidates: list[int], choices: list[Choice], most: int, automatic: float) -> Rows:
    """Wishes among the choices, at most so many a candidate; such a part of the candidates rank theirs."""
    asked = [(candidate, choice) for candidate in candidates
             for choice in random.sample(choices, min(len(choices), random.randint(1, most)))]
    is_automatic = {candidate: random.random() < automatic for candidate in candidates}
    numbers = distinct_ids(random, len(asked))
    preferences = random.sample(range(1, len(asked) + 1), len(asked))
    rows: Rows = [(number, candidate, programme, school, preference if is_automatic[candidate] else 0)
                  for number, (candidate, (programme, school)), preference in zip(numbers, asked, preferences)]
    random.shuffle(rows)
    return rows


def add_state(random: Random, dossier: Dossier) -> None:
    """Some wishes are offered, accepted or gone already; no candidate has accepted two."""
    dated = random.random() < 0.5
    if dated:
        dossier.with_optional.add("state")
    accepted: set[Cell] = set()
    rows: Rows = []
    for wish, candidate, *_ in dossier.rows["wishes"]:
        status = random.choice(("waiting", "waiting", "waiting", "offered", "accepted", random.choice(GONE)))
        if status == "accepted" and candidate in accepted:
            status = "waiting"
        if status == "accepted":
            accepted.add(candidate)
        if random.random() < 0.6:
            since = str(FIRST_DAY - timedelta(days=random.randint(0, 3))) if status == "offered" else None
            rows.append((wish, status, *([since] if dated else [])))
    dossier.rows["state"] = rows
