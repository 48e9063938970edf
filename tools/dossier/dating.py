"""Dates of a dossier's rows as the days go by: what was day 2 is day 1 of the next run."""

import csv
import io
from collections.abc import Callable
from dataclasses import dataclass
from datetime import date, timedelta

from . import program
from .stops import TOO_LATE, Stopped
from .writing import csv_bytes

Rows = list[list[str]]

# Of these years a run may begin.
FIRST_YEAR, LAST_YEAR = 1901, 2298


def _redated(slot: bytes, change: Callable[[Rows], Rows]) -> bytes:
    """The slot with its rows changed, and its header as it was."""
    records = csv.reader(io.StringIO(slot.decode("utf-8-sig"), newline=""))
    header, *rows = [cells for cells in records if cells]
    return csv_bytes(header, change(rows))


def next_answers(slot: bytes) -> bytes:
    """The answers of the coming days. Those of day 1 are applied, and leave."""
    def change(rows: Rows) -> Rows:
        return [[str(int(day) - 1), kind, target] for day, kind, target in rows if int(day) > 1]

    return _redated(slot, change)


def next_ceilings(slot: bytes) -> bytes:
    """The ceilings of the coming days: for each school its latest row up to the new day 1 stands for day 1."""
    def change(rows: Rows) -> Rows:
        latest = {int(school): ceiling for day, school, ceiling in rows if int(day) <= 2}
        later = [[str(int(day) - 1), school, ceiling] for day, school, ceiling in rows if int(day) > 2]
        return [["1", str(school), ceiling] for school, ceiling in latest.items()] + later

    return _redated(slot, change)


@dataclass(frozen=True)
class Calendar:
    """The coming day of a campaign: its number, and with deadlines its date and their term."""

    day: int = 1
    today: date | None = None
    term: int | None = None

    HEADER = ("day", "date", "term")

    def next(self) -> "Calendar":
        return Calendar(self.day + 1, self.today and self.today + timedelta(days=1), self.term)

    def words(self) -> list[str]:
        """The words of the program by which it runs this day as day 1; raises Stopped where it does not run it."""
        if self.today and self.today.year > LAST_YEAR:
            raise Stopped(program.BAD_WORDS, TOO_LATE.of(day=self.today, first=FIRST_YEAR, last=LAST_YEAR))
        return ["--start", self.today.isoformat(), "--term", str(self.term)] if self.today else []

    def to_bytes(self) -> bytes:
        term = "" if self.term is None else self.term
        return csv_bytes(self.HEADER, [(self.day, self.today.isoformat() if self.today else "", term)])

    @classmethod
    def from_bytes(cls, data: bytes) -> "Calendar":
        """Reads what `to_bytes` wrote; raises ValueError on anything else."""
        header, row = list(csv.reader(io.StringIO(data.decode(), newline="")))
        if tuple(header) != cls.HEADER:
            raise ValueError("another header")
        day, start, term = row
        found = cls(int(day), date.fromisoformat(start) if start else None, int(term) if term else None)
        if found.day < 1 or (found.today is None) != (found.term is None):
            raise ValueError("no day of a campaign")
        return found
