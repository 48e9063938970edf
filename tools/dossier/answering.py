"""The answers of a sheet: read, held against the dossier, and tried by the program on the coming day."""

import re
import tempfile
from collections.abc import Iterable, Iterator
from dataclasses import dataclass
from datetime import date
from pathlib import Path

from . import program
from .campaign import CALENDAR, complaint, read_calendar
from .cells import IN_ENGLISH, IN_FRENCH
from .dating import Calendar
from .faults import Faults, Row, shown
from .messages import (CORRECT_EITHER, CORRECT_WISH, DONE, FAR_DAY, NAME_TARGET, NAME_WISH, NAMES_TWO,
                       NO_CANDIDATE_NAMED, NO_DATES, NO_TARGET, NO_WISH, NO_WISH_NAMED, NO_WISH_OF, NUMBER_DAY,
                       OTHER_CANDIDATE, PAST_DAY, QUIT_CANDIDATE, REFUSE_IT, TAKE_OUT, TAKE_OUT_WAITING, UNFIT,
                       WITHDRAW_IT)
from .naming import Names
from .records import Wish, records_of
from .slots import ANSWERS, GREATEST_DAY, SLOTS, Thing
from .stops import NOT_ANSWERS, Stopped
from .tables import Table
from .texts import Text
from .values import ANSWER_WORDS, NOTHING, QUIT, Spellings
from .writing import csv_bytes

HEADER = tuple(column.name for column in ANSWERS.columns)
UNFIT_LINE = re.compile(rb"refused answers row ([0-9]+) reason 18 UnfitAnswer ([a-z_]+)\n?")


@dataclass(frozen=True)
class Answer:
    """An answer as the slot has it."""

    day: int
    kind: str
    target: int

    def cells(self) -> tuple[int, str, int]:
        return self.day, self.kind, self.target


@dataclass(frozen=True)
class SlotSheet:
    """The answers that the dossier has already, as a sheet whose rows a fault may show."""

    label: str
    rows: dict[int, list[str]]

    def cells_of(self, numbers: Iterable[int]) -> dict[int, list[str]]:
        return {number: self.rows[number] for number in numbers}


def answers_in(dossier: Path) -> tuple[SlotSheet, list[Answer]]:
    """The answers that are there already."""
    rows = list(records_of(dossier, ANSWERS))
    return SlotSheet(ANSWERS.file, dict(rows)), [answer_of(dossier, number, cells) for number, cells in rows]


def answer_of(dossier: Path, number: int, cells: list[str]) -> Answer:
    """The answer of a row, which has this number."""
    try:
        day, kind, target = cells
        return Answer(int(day), kind, int(target))
    except ValueError:
        raise Stopped(program.READ_FAULT, NOT_ANSWERS.of(path=dossier / ANSWERS.file, row=number,
                                                         cells=shown(",".join(cells)))) from None


@dataclass
class SheetOfAnswers:
    """What a sheet says of a dossier's wishes and candidates."""

    table: Table
    spellings: dict[Thing, Spellings]
    names: Names
    wishes: dict[int, Wish]
    calendar: Calendar
    faults: Faults

    def __post_init__(self) -> None:
        self.candidates = {wish.candidate for wish in self.wishes.values()}

    def answers(self) -> Iterator[tuple[int, Answer]]:
        """The place and the answer of each row that has no fault."""
        if not any(name in self.table.values for name in ("target", "wish", "candidate")):
            self.faults.in_file(self.table.sheet.label, NO_TARGET.of(), NAME_TARGET.of())
            return
        for place in self.table.places(*(column.name for column in self.table.columns)):
            kind = self.table.values["kind"][place]
            day = self.day(place)
            target = self.candidate(place) if kind == QUIT else self.wish(place)
            if day is not None and target is not None:
                yield place, Answer(day, ANSWER_WORDS[kind], target)

    def value(self, name: str, place: int) -> int:
        """The code in a column of a row, nothing where the sheet has no such column."""
        return self.table.values[name][place] if name in self.table.values else NOTHING

    def day(self, place: int) -> int | None:
        """The day of a row counted from the coming one; the coming one where none is named."""
        value = self.value("day", place)
        if value <= GREATEST_DAY:
            return value or 1
        named, today = date.fromordinal(value), self.calendar.today
        if today is None:
            self.tell(place, NO_DATES, NUMBER_DAY, "day", date=named)
            return None
        day = (named - today).days + 1
        if not 1 <= day <= GREATEST_DAY:
            self.tell(place, PAST_DAY if day < 1 else FAR_DAY, NUMBER_DAY, "day", date=named, coming=today)
            return None
        return day

    def number(self, thing: Thing, name: str, place: int) -> int | None:
        """The number of the id in a column; none where the cell is empty."""
        code = self.value(name, place)
        if code == NOTHING:
            return None
        return code if code > 0 else self.names.number(thing, self.spellings[thing].of(code)) or -1

    def id_at(self, thing: Thing, *columns: str, place: int) -> tuple[int | None, str]:
        """The number of the id in the first of these columns that has one, and how it is spelled. Two that differ are
        told."""
        found = [(number, self.spellings[thing].of(self.value(name, place))) for name in columns
                 if (number := self.number(thing, name, place)) is not None]
        if len({number for number, _ in found}) > 1:
            self.tell(place, NAMES_TWO, CORRECT_EITHER, one=found[0][1], other=found[1][1])
        return found[0] if found else (None, "")

    def wish(self, place: int) -> int | None:
        number, spelled = self.id_at(Thing.WISH, "target", "wish", place=place)
        if number is None:
            self.tell(place, NO_WISH_NAMED, NAME_WISH)
        elif number not in self.wishes:
            self.tell(place, NO_WISH, NAME_WISH, id=spelled)
        else:
            other, named = self.id_at(Thing.CANDIDATE, "candidate", place=place)
            if other is None or self.is_of(number, spelled, other, named, place):
                return number
        return None

    def candidate(self, place: int) -> int | None:
        number, spelled = self.id_at(Thing.CANDIDATE, "target", "candidate", place=place)
        if number is None:
            self.tell(place, NO_CANDIDATE_NAMED, QUIT_CANDIDATE)
        elif number not in self.candidates:
            self.tell(place, NO_WISH_OF, QUIT_CANDIDATE, id=spelled)
        else:
            wish, named = self.id_at(Thing.WISH, "wish", place=place)
            if wish is None or self.is_of(wish, named, number, spelled, place):
                return number
        return None

    def is_of(self, wish: int, spelled: str, candidate: int, named: str, place: int) -> bool:
        """Whether a wish that a row names is of the candidate that it names; if not, that is told."""
        found = self.wishes.get(wish)
        if found is None:
            self.tell(place, NO_WISH, CORRECT_WISH, id=spelled)
        elif found.candidate != candidate:
            self.tell(place, OTHER_CANDIDATE, CORRECT_WISH, wish=spelled, other=named,
                      candidate=self.names.spelled(Thing.CANDIDATE, found.candidate))
        return found is not None and found.candidate == candidate

    def tell(self, place: int, what: Text, to_do: Text, column: str = "", **values: object) -> None:
        title = self.table.title(column) if column else ""
        self.faults.at(self.table.row(place), what.of(**values), to_do.of(), title)


def advice(kind: str, status: str) -> Text:
    if kind == "withdraw" and status in ("offered", "accepted"):
        return REFUSE_IT
    if kind == "refuse" and status == "waiting":
        return WITHDRAW_IT
    return TAKE_OUT_WAITING if kind == "accept" and status == "waiting" else TAKE_OUT


def first_unfit(dossier: Path, answers: list[Answer], calendar: Calendar) -> tuple[int, str] | None:
    """The place of the first answer that does not fit on the coming day, and the status that the program found."""
    with tempfile.TemporaryDirectory(prefix="take_in.") as place:
        for slot in SLOTS:
            if slot is not ANSWERS:
                (Path(place) / slot.file).symlink_to((dossier / slot.file).resolve())
        (Path(place) / ANSWERS.file).write_bytes(csv_bytes(HEADER, (answer.cells() for answer in answers)))
        with tempfile.TemporaryFile() as output:
            status = program.run(["envy", "--days", "1", *calendar.words()], Path(place), output)
            output.seek(0)
            text = output.read()
        if match := UNFIT_LINE.fullmatch(text):
            return int(match[1]) - 2, match[2].decode()
        if status != program.DONE:
            raise Stopped(status if 0 < status < 256 else program.READ_FAULT, complaint(Path(place), status, text))
    return None


def tell_unfit(rows: list[tuple[Row, Answer]], dossier: Path, calendar: Calendar, wishes: dict[int, Wish], names: Names,
               faults: Faults) -> None:
    """Tells all answers that do not fit on the coming day: each that the program refuses, one after another."""
    rows = list(rows)
    while found := first_unfit(dossier, [answer for _, answer in rows], calendar):
        place, status = found
        row, answer = rows.pop(place)
        wish = wishes[answer.target]
        what = UNFIT.of(wish=names.spelled(Thing.WISH, wish.wish), done=DONE[answer.kind],
                        candidate=names.spelled(Thing.CANDIDATE, wish.candidate),
                        programme=names.spelled(Thing.PROGRAMME, wish.programme),
                        status=Text(IN_ENGLISH[status], IN_FRENCH[status]))
        faults.at(row, what, advice(answer.kind, status).of(), cause=("unfit", row))


def coming_day(dossier: Path, asked: Calendar) -> Calendar:
    """The coming day of a dossier: as next_day keeps it, else day 1 as the user says."""
    kept = dossier / CALENDAR
    return read_calendar(kept.read_bytes(), kept) if kept.exists() else asked
