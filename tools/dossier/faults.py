"""Faults of sheets: where each stands, what it is, and what to do about it. What is wrong in many rows is told once."""

from collections.abc import Iterable
from dataclasses import dataclass, field
from typing import Protocol

from .texts import Filled, Language, Text, joined, spaced

WIDEST = 160
MOST_SHOWN = 3

ROW = Text("{file}, row {row}: {cells}", "{file}, ligne {row} : {cells}")
ROWS = Text("{file}, {count} rows ({rows}); row {row}: {cells}",
            "{file}, {count} lignes ({rows}) ; ligne {row} : {cells}")
OTHERS = Text("others", "d'autres")
SEE = Text("see ", "voir ")
TO_DO = Text("What to do: {to_do}", "Que faire : {to_do}")
ONE_FAULT = Text("1 fault; nothing is written.", "1 faute ; rien n'est écrit.")
FAULTS = Text("{count} faults; nothing is written.", "{count} fautes ; rien n'est écrit.")


def shown(text: str) -> str:
    """The text on one line of a terminal: nothing unprintable, and not too long."""
    plain = "".join(letter if letter.isprintable() else " " for letter in text)
    return plain if len(plain) <= WIDEST else plain[:WIDEST] + "…"


class Sheet(Protocol):
    """What has rows that a fault may show, numbered as the spreadsheet numbers them."""

    @property
    def label(self) -> str:
        """What the sheet is called."""
        ...

    def cells_of(self, numbers: Iterable[int]) -> dict[int, list[str]]:
        """The cells of these rows."""
        ...


@dataclass(frozen=True)
class Row:
    """A row of a sheet, by its number."""

    sheet: Sheet
    number: int


@dataclass
class Fault:
    """What is wrong with a file, or with some rows, of which the first are shown; and what to do."""

    what: Filled
    to_do: Filled
    file: str
    column: str = ""
    count: int = 0
    rows: list[Row] = field(default_factory=list)
    beside: Row | None = None

    def told(self, cells: dict[Row, list[str]], language: Language) -> str:
        colon = " : " if language == "fr" else ": "
        what = f"{shown(self.column)}{colon}{self.what.said(language)}" if self.column else self.what.said(language)
        lines = [self._head(cells, language), f"    {spaced(what, language)}"]
        if self.beside is not None:
            lines.append(f"    {SEE.of().said(language)}{one_row(self.beside, cells, language)}")
        return "\n".join([*lines, f"    {TO_DO.of(to_do=self.to_do).said(language)}"])

    def _head(self, cells: dict[Row, list[str]], language: Language) -> str:
        if not self.rows:
            return shown(self.file)
        if self.count == 1:
            return one_row(self.rows[0], cells, language)
        numbers = [str(row.number) for row in self.rows]
        if self.count > len(numbers):
            numbers.append(OTHERS.of().said(language))
        return ROWS.of(file=shown(self.file), count=self.count, rows=joined(numbers, language), row=self.rows[0].number,
                       cells=shown(" | ".join(cells[self.rows[0]]))).said(language)


def one_row(row: Row, cells: dict[Row, list[str]], language: Language) -> str:
    return ROW.of(file=shown(row.sheet.label), row=row.number, cells=shown(" | ".join(cells[row]))).said(language)


@dataclass
class Faults:
    """All faults found so far, and what could not be tested because of them."""

    found: dict[object, Fault] = field(default_factory=dict)
    untested: list[Filled] = field(default_factory=list)

    def in_file(self, file: str, what: Filled, to_do: Filled) -> None:
        self.found[len(self.found), file] = Fault(what, to_do, file)

    def at(self, row: Row, what: Filled, to_do: Filled, column: str = "", beside: Row | None = None,
           cause: object = None) -> None:
        """A fault of a row. Faults of one kind in one column of a sheet, or of one cause, are one."""
        kind = (id(row.sheet), column, what.text, to_do.text) if cause is None else cause
        fault = self.found.setdefault(kind, Fault(what, to_do, row.sheet.label, column, beside=beside))
        fault.count += 1
        if len(fault.rows) < MOST_SHOWN and row.sheet.label == fault.file:
            fault.rows.append(row)

    def told(self, files: list[str], language: Language) -> str:
        """All faults: first those of whole files, then by row, in the order of the files."""
        def place(fault: Fault) -> tuple[int, int]:
            return (files.index(fault.file), fault.rows[0].number) if fault.rows else (-1, 0)

        cells = self._cells()
        told = [fault.told(cells, language) for fault in sorted(self.found.values(), key=place)]
        count = len(told)
        last = ONE_FAULT if count == 1 else FAULTS
        return "\n".join([*told, *(text.said(language) for text in self.untested), last.of(count=count).said(language)])

    def _cells(self) -> dict[Row, list[str]]:
        """The cells of all rows that are shown; each sheet is read once for them."""
        shown_rows = {row for fault in self.found.values() for row in (*fault.rows[:1], fault.beside)
                      if row is not None}
        by_sheet: dict[int, list[Row]] = {}
        for row in shown_rows:
            by_sheet.setdefault(id(row.sheet), []).append(row)
        cells: dict[Row, list[str]] = {}
        for rows in by_sheet.values():
            found = rows[0].sheet.cells_of({row.number for row in rows})
            cells |= {row: found.get(row.number, []) for row in rows}
        return cells
