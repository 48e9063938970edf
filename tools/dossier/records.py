"""The days that `next_day` has made in a folder, as their records keep them."""

import csv
import io
import re
from collections.abc import Iterator
from dataclasses import dataclass
from datetime import timedelta
from functools import cached_property
from pathlib import Path
from typing import NamedTuple

from .campaign import (CALENDAR, CHANGING, CHECKSUMS, IDS, IDS_CHECKSUM, LASTING, checksums, ids_checksum,
                       slots_changed, test_files, unread)
from .dating import Calendar
from .faults import shown
from .program import READ_FAULT
from .slots import WISHES, Slot
from .stops import (CHANGED_SINCE, HALF_MADE, NO_DAY_MADE, NOT_NUMBERS, NOT_TAKEN, ODD_DAY, ODD_RECORD, Stopped)

WAITING, OFFERED = "waiting", "offered"
A_DAY = re.compile("day-[0-9]{3,}")


class Wish(NamedTuple):
    """A row of the wishes, by numbers."""

    wish: int
    candidate: int
    programme: int
    school: int | None
    preference: int


def records_of(dossier: Path, slot: Slot) -> Iterator[tuple[int, list[str]]]:
    """The rows of a slot below its header, with their numbers; raises Stopped where it is not as the program takes
    it."""
    names = [column.name for column in slot.columns]
    row, path = 1, dossier / slot.file
    try:
        with open(path, newline="", encoding="utf-8-sig") as file:
            records = (cells for cells in csv.reader(file) if cells)
            header = next(records, [])
            if header not in (names, names[:-1] if slot.columns[-1].is_optional else names):
                raise ValueError("another header")
            for row, cells in enumerate(records, start=2):
                if len(cells) != len(header):
                    raise ValueError("another number of cells")
                yield row, cells
    except (ValueError, csv.Error):
        raise Stopped(READ_FAULT, NOT_TAKEN.of(path=path, row=row)) from None


def rows_of(dossier: Path, slot: Slot) -> Iterator[list[int]]:
    """The rows of a slot of numbers; an empty cell is 0."""
    for row, cells in records_of(dossier, slot):
        try:
            yield [int(cell or 0) for cell in cells]
        except ValueError:
            raise Stopped(READ_FAULT, NOT_NUMBERS.of(path=dossier / slot.file, row=row,
                                                     cells=shown(",".join(cells)))) from None


def wishes_in(dossier: Path) -> list[Wish]:
    return [Wish(wish, candidate, programme, school or None, preference)
            for wish, candidate, programme, school, preference in rows_of(dossier, WISHES)]


class Held(NamedTuple):
    """How a wish stands in a state: its status, and since when where that is an offer with a date."""

    status: str
    since: str = ""


WAITS = Held(WAITING)


def state_of(slot: bytes, path: Path) -> dict[int, Held]:
    """The wishes of a state slot that have a row, as this file of a record has it; the others wait."""
    try:
        records = csv.reader(io.StringIO(slot.decode("utf-8-sig"), newline=""))
        _, *rows = [cells for cells in records if cells]
        return {int(wish): Held(status, *since) for wish, status, *since in rows}
    except (ValueError, TypeError, csv.Error):
        raise Stopped(READ_FAULT, ODD_RECORD.of(path=path)) from None


@dataclass(frozen=True)
class KeptDay:
    """A day that was made: its record, and the day of the campaign that it was."""

    folder: Path
    calendar: Calendar

    @cached_property
    def report(self) -> bytes:
        return (self.folder / "report.txt").read_bytes()

    @cached_property
    def before(self) -> dict[int, Held]:
        path = self.folder / "before/state.csv"
        return state_of(path.read_bytes(), path)

    @cached_property
    def after(self) -> dict[int, Held]:
        """How each wish stood in the evening, as the program wrote it."""
        return state_of(self.report.partition(b"\nfinal\n")[2], self.folder / "report.txt")

    @cached_property
    def last_passes(self) -> dict[int, int]:
        """The last pass in which each wish was offered, or answered for automatically."""
        return {int(rest.partition(" ")[0]): number for number, word, rest in self._lines()
                if word in ("offer", "auto")}

    @property
    def number(self) -> int:
        return self.calendar.day

    @cached_property
    def checksums(self) -> bytes:
        """The checksums of the slots that do not change from day to day, as they were for this one, and of the table
        of ids."""
        ids = self.folder / IDS_CHECKSUM
        return (self.folder / CHECKSUMS).read_bytes() + (ids.read_bytes() if ids.is_file() else b"")

    def had_wishes_of(self, other: "KeptDay") -> bool:
        """Whether the wishes and the ids were the same on the other day: a number may have changed hands meanwhile."""
        return {WISHES.file, IDS}.isdisjoint(self._changed(other))

    def had_ids_of(self, other: "KeptDay") -> bool:
        """Whether a number stood for the same id on the other day."""
        return IDS not in self._changed(other)

    def _changed(self, other: "KeptDay") -> list[str]:
        """What is not the same on both days; also what was there on one of them alone."""
        return [*slots_changed(self.checksums, other.checksums), *slots_changed(other.checksums, self.checksums)]

    @cached_property
    def offers(self) -> list[tuple[int, int]]:
        """The pass and the wish of each offer, in the order of the report."""
        return [(number, int(rest)) for number, word, rest in self._lines() if word == "offer"]

    @cached_property
    def bars(self) -> list[tuple[int, int, int]]:
        """The pass, the school and the bar of each line on a bar."""
        return [(number, int(school), int(bar)) for number, word, rest in self._lines() if word == "bar"
                for school, _, bar in [rest.partition(" ")]]

    @cached_property
    def orders(self) -> dict[int, list[int]]:
        """The call order of each group."""
        return {int(group): list(map(int, order.split())) for _, word, rest in self._lines() if word == "order"
                for group, _, order in [rest.partition(":")]}

    def _lines(self) -> Iterator[tuple[int, str, str]]:
        """The lines of the report before the final state: the pass, the first word and the rest of each."""
        number = 0
        for line in self.report.partition(b"\nfinal\n")[0].decode().splitlines():
            word, _, rest = line.partition(" ")
            if word == "pass":
                number = int(rest)
            yield number, word, rest

    def test_slots(self, dossier: Path) -> None:
        """The slots that do not change from day to day, and the ids, must be as they were for this one."""
        changed = slots_changed(self.checksums, checksums(dossier) + ids_checksum(dossier))
        if changed:
            raise Stopped(READ_FAULT, CHANGED_SINCE.of(changed=", ".join(changed), day=self.number))

    def put_slots(self, dossier: Path, place: Path) -> None:
        """Makes the place hold the slots as they were for this day."""
        self.test_slots(dossier)
        for name in CHANGING:
            (place / name).write_bytes((self.folder / "before" / name).read_bytes())
        for name in LASTING:
            (place / name).symlink_to((dossier / name).resolve())


def kept_day(folder: Path) -> KeptDay:
    """The day of a record."""
    try:
        coming = Calendar.from_bytes((folder / "after" / CALENDAR).read_bytes())
        today = coming.today and coming.today - timedelta(days=1)
        return KeptDay(folder, Calendar(coming.day - 1, today, coming.term))
    except ValueError:
        raise Stopped(READ_FAULT, ODD_DAY.of(folder=folder, file=CALENDAR)) from None


def kept_days(dossier: Path) -> list[KeptDay]:
    """The days that have records, in order; whatever else lies beside these is passed over."""
    try:
        found = [kept_day(folder) for folder in (dossier / "days").iterdir() if A_DAY.fullmatch(folder.name)]
        return sorted(found, key=lambda day: day.number)
    except FileNotFoundError as error:
        if Path(error.filename) == dossier / "days":
            return []
        raise unread(error) from None
    except OSError as error:
        raise unread(error) from None


def made_days(dossier: Path) -> list[KeptDay]:
    """The days that were made, of which there is one at least, the last of them to its end."""
    test_files(dossier)
    days = kept_days(dossier)
    if not days:
        raise Stopped(READ_FAULT, NO_DAY_MADE.of(dossier=dossier))
    last = days[-1].folder / "after" / CALENDAR
    coming = dossier / CALENDAR
    if not coming.exists() or coming.read_bytes() != last.read_bytes():
        raise Stopped(READ_FAULT, HALF_MADE.of(day=days[-1].number))
    return days
