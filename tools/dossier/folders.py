"""The sheets of a folder, each read as the slot whose columns its first row names."""

from collections.abc import Iterator
from dataclasses import dataclass, field
from pathlib import Path

from .decoding import Unreadable
from .faults import Faults, shown
from .headers import Header, best_headers, differing
from .messages import (EXPORT_MISSING, HIDDEN_SHEET, LEAVE_ONE, OLD_WORKBOOK, ONE_SHEET, RENAME_COLUMNS, SAVE_AGAIN,
                       SAVE_WORKBOOK, SLOT_IN_SHEETS, SLOT_TWICE, SLOTS_MISSING, TWO_READINGS, TWO_SHEETS, TWO_SLOTS)
from .naming import IDS
from .slots import SLOTS, Slot, Thing
from .sources import SEPARATORS, AnySheet, TextSheet, WorkbookSheet, first_row, likeliest, readings_of
from .tables import PROGRESS, Choices, Reading, Table
from .texts import Filled, Language, joined, said
from .values import Spellings, things
from .workbooks import WORKBOOK_ENDINGS, sheets_of_workbook

EXPORT_ENDINGS = (".csv", ".tsv", ".txt")
OTHER_WORKBOOKS = (".xls", ".xlsb", ".numbers", ".fods")
# Files with such names are not the user's: a system's own, and those that say that a sheet is open.
HIDDEN = (".", "~$")


@dataclass(frozen=True)
class Ways:
    """The ways to read an export."""

    readings: tuple[TextSheet, ...]

    def said(self, language: Language) -> str:
        return (" et " if language == "fr" else " and ").join(
            f"{reading.coding.name}, {said(SEPARATORS[reading.separator], language)}" for reading in self.readings)


@dataclass(frozen=True)
class Sheets:
    """Sheets of a workbook by their names, of which those that are hidden are told as such."""

    sheets: tuple[AnySheet, ...]

    def said(self, language: Language) -> str:
        return joined([f"{shown(sheet.label)}{said(HIDDEN_SHEET, language) if is_hidden(sheet) else ''}"
                       for sheet in self.sheets], language)

    def told_twice(self, slot: Slot) -> Filled:
        """That the last one has the columns of a slot that another has."""
        if any(map(is_hidden, self.sheets)):
            return SLOT_IN_SHEETS.of(slot=slot.name, sheets=self)
        return SLOT_TWICE.of(other=self.sheets[0].label, slot=slot.name)


@dataclass(frozen=True)
class Named:
    """A sheet whose first row, of this number, names the columns of a slot."""

    sheet: AnySheet
    header: Header
    number: int


@dataclass
class Exports:
    """The tables by the name of their slot, the ids that are no numbers, and what was passed over."""

    tables: dict[str, Table] = field(default_factory=dict)
    spellings: dict[Thing, Spellings] = field(default_factory=things)
    passed_over: list[str] = field(default_factory=list)
    files: list[str] = field(default_factory=list)

    def language(self) -> Language:
        """The language of most titles."""
        return "fr" if sum(table.header.language() for table in self.tables.values()) > 0 else "en"


def sheets_in(folder: Path, exports: Exports, faults: Faults) -> Iterator[list[AnySheet]]:
    """Each sheet of the folder, in all of its readings."""
    for path in sorted(folder.iterdir()):
        ending = path.suffix.lower()
        try:
            if path.name.startswith(HIDDEN):
                continue
            if ending in OTHER_WORKBOOKS:
                faults.in_file(path.name, OLD_WORKBOOK.of(), SAVE_WORKBOOK.of())
            elif path.name == IDS:
                continue
            elif ending in WORKBOOK_ENDINGS and path.is_file():
                for sheet in sheets_of_workbook(path):
                    yield [sheet]
            elif ending in EXPORT_ENDINGS and path.is_file():
                yield list(readings_of(path))
            else:
                exports.passed_over.append(path.name)
        except Unreadable as error:
            faults.in_file(path.name, error.what, error.to_do)


def named_sheet(readings: list[AnySheet], slots: tuple[Slot, ...], choices: Choices) -> Named | list[str]:
    """The one reading whose first row names a slot; else the titles of the first row. Raises Unreadable where there are
    several."""
    named = []
    titles: list[str] = []
    for sheet in readings:
        number, cells = first_row(sheet)
        headers = best_headers(slots, cells, choices.columns)
        if len(headers) > 1:
            raise Unreadable(TWO_SLOTS.of(one=headers[0].slot.name, other=headers[1].slot.name), RENAME_COLUMNS.of())
        named += [Named(sheet, header, number) for header in headers]
        titles = max(titles, cells, key=len)
    meant = likeliest([found.sheet for found in named if isinstance(found.sheet, TextSheet)])
    named = [found for found in named if not isinstance(found.sheet, TextSheet) or found.sheet in meant]
    if len(named) > 1:
        raise Unreadable(TWO_READINGS.of(ways=Ways(tuple(meant))), SAVE_AGAIN.of())
    return named[0] if named else titles


def read_folder(folder: Path, choices: Choices, faults: Faults) -> Exports:
    """Reads all sheets of a folder, one for each slot. A sheet that names no slot is passed over if none is missing."""
    exports = Exports()
    found: dict[str, Named] = {}
    others: list[tuple[str, list[str]]] = []
    for readings in sheets_in(folder, exports, faults):
        label = readings[0].label
        try:
            named = named_sheet(readings, SLOTS, choices)
            if isinstance(named, list):
                others.append((label, named))
            elif (slot := named.header.slot).name in found:
                both = Sheets((found[slot.name].sheet, named.sheet))
                faults.in_file(label, both.told_twice(slot), LEAVE_ONE.of())
            else:
                found[slot.name] = named
        except Unreadable as error:
            faults.in_file(label, error.what, error.to_do)
    read_tables(found, exports, choices, faults)
    tell_missing(folder, exports, others, found, choices, faults)
    return exports


def is_hidden(sheet: AnySheet) -> bool:
    return isinstance(sheet, WorkbookSheet) and sheet.is_hidden


def read_tables(found: dict[str, Named], exports: Exports, choices: Choices, faults: Faults) -> None:
    for slot in SLOTS:
        if slot.name in found:
            named = found[slot.name]
            exports.files.append(named.sheet.label)
            try:
                exports.tables[slot.name] = Reading(named.sheet, named.header, named.number, choices, faults,
                                                    exports.spellings).run()
            except Unreadable as error:
                faults.in_file(named.sheet.label, error.what, error.to_do)
    PROGRESS.end()


def tell_missing(folder: Path, exports: Exports, others: list[tuple[str, list[str]]], found: dict[str, Named],
                 choices: Choices, faults: Faults) -> None:
    """Tells the slots that no sheet names, and how the other sheets differ from them."""
    missing = [slot for slot in SLOTS if slot.name not in found]
    for label, titles in others:
        if missing:
            error = differing(SLOTS, titles, choices.columns)
            faults.in_file(label, error.what, error.to_do)
        else:
            exports.passed_over.append(label)
    if missing:
        names = ", ".join(slot.name for slot in missing)
        faults.in_file(shown(str(folder)), SLOTS_MISSING.of(slots=names), EXPORT_MISSING.of(file=missing[0].file))


def one_table(path: Path, slot: Slot, choices: Choices, faults: Faults, spellings: dict[Thing, Spellings]) -> Table:
    """Reads the one sheet of a file that has the columns of this slot."""
    readings: list[list[AnySheet]] = [[sheet] for sheet in sheets_of_workbook(path)] \
        if path.suffix.lower() in WORKBOOK_ENDINGS else [[*readings_of(path)]]
    titles: list[str] = []
    found: list[Named] = []
    for sheets in readings:
        named = named_sheet(sheets, (slot,), choices)
        if isinstance(named, list):
            titles = titles or named
        else:
            found.append(named)
    if not found:
        raise differing((slot,), titles, choices.columns)
    if len(found) > 1:
        raise Unreadable(TWO_SHEETS.of(sheets=Sheets(tuple(each.sheet for each in found)), slot=slot.name),
                         ONE_SHEET.of())
    return Reading(found[0].sheet, found[0].header, found[0].number, choices, faults, spellings).run()
