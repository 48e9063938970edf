"""The ids of the exports behind the numbers of a prepared dossier, as its `ids.csv` has them."""

import csv
from collections.abc import Iterable
from dataclasses import dataclass
from pathlib import Path

from .campaign import IDS
from .headers import fold
from .program import READ_FAULT
from .slots import Thing
from .stops import NOT_IDS, Stopped

NUMBER = "number"
KINDS = tuple(Thing)
HEADER = (NUMBER, *(thing.value for thing in KINDS))
EARLIER_HEADER = ("thing", NUMBER, "id")


@dataclass(frozen=True)
class Names:
    """The spelled id of each number that stands for one, by its kind, and the number of each id."""

    by_number: dict[Thing, dict[int, str]]
    by_id: dict[Thing, dict[str, int]]

    def spelled(self, thing: Thing, number: int) -> str:
        """The id as the exports have it; numbers that were ids already stay as they are."""
        return self.by_number[thing].get(number, str(number))

    def number(self, thing: Thing, word: str) -> int | None:
        """The number of an id, or of the one id that differs from the word in capitals, accents, hyphens and blanks
        alone."""
        if word in self.by_id[thing]:
            return self.by_id[thing][word]
        if word.isascii() and word.isdigit() and len(word) <= 10:
            return int(word)
        like = [number for spelled, number in self.by_id[thing].items() if fold(spelled) == fold(word)]
        return like[0] if len(like) == 1 else None


def names_of(entries: Iterable[tuple[Thing, int, str]]) -> Names:
    by_number: dict[Thing, dict[int, str]] = {thing: {} for thing in KINDS}
    by_id: dict[Thing, dict[str, int]] = {thing: {} for thing in KINDS}
    for thing, number, spelled in entries:
        by_number[thing][number] = spelled
        by_id[thing][spelled] = number
    return Names(by_number, by_id)


def read_names(path: Path) -> Names:
    """Reads a table of ids; raises Stopped where the file is none, and OSError where it cannot be read."""
    with open(path, newline="", encoding="utf-8-sig") as file:
        try:
            header, *rows = csv.reader(file)
            return names_of(list(_entries(tuple(header), rows)))
        except (ValueError, csv.Error):
            raise Stopped(READ_FAULT, NOT_IDS.of(path=path)) from None


def _entries(header: tuple[str, ...], rows: list[list[str]]) -> Iterable[tuple[Thing, int, str]]:
    if header == EARLIER_HEADER:
        for kind, number, spelled in rows:
            yield Thing(kind), int(number), spelled
    elif header == HEADER:
        for number, *ids in rows:
            for thing, spelled in zip(KINDS, ids, strict=True):
                if spelled:
                    yield thing, int(number), spelled
    else:
        raise ValueError("another header")


def names_in(folder: Path) -> Names:
    """The names of a dossier's folder; where it has no table of ids, its numbers are the ids."""
    path = folder / IDS
    return read_names(path) if path.exists() else names_of(())


def table_of(entries: Iterable[tuple[Thing, int, str]]) -> tuple[tuple[str, ...], list[list[object]]]:
    """The table of ids: a row for each number, with the id of each kind that the number stands for."""
    rows: dict[int, dict[Thing, str]] = {}
    for thing, number, spelled in entries:
        rows.setdefault(number, {})[thing] = spelled
    return HEADER, [[number, *(ids.get(thing, "") for thing in KINDS)] for number, ids in sorted(rows.items())]
