"""Tables: a sheet for each slot, with the values of its cells by column."""

import sys
from array import array
from bisect import bisect_right
from collections.abc import Iterable, Iterator, Sequence
from dataclasses import dataclass, field

from .cells import DateOrder, Rates, rates_of
from .faults import Faults, Row
from .headers import Header
from .messages import CELL, CELLS, FEW_CELLS, FEWER_ROWS, NAME_IT, TOO_MANY_ROWS, UNNAMED_CELL, WRITE_CELLS
from .slots import MOST_ROWS, Column, Content, Slot, Thing
from .sources import CHUNK, AnySheet, records_of
from .texts import Counted
from .values import FAULT, QUIT, Reader, Spellings, Values, no_values, numerals_of, reader_of

LARGE = 400_000


@dataclass
class Table:
    """A slot's values by column, all of one length, and the numbers of the sheet's rows that they are of."""

    slot: Slot
    sheet: AnySheet
    header: Header
    columns: tuple[Column, ...]
    values: dict[str, Values]
    first_number: int
    gap_places: list[int] = field(default_factory=list)  # from these places on rows were passed over, so many in all
    gap_totals: list[int] = field(default_factory=list)
    has_whole_rows: bool = True
    faulty: set[str] = field(default_factory=set)

    def __len__(self) -> int:
        return len(self.values[self.columns[0].name])

    def is_whole(self, *names: str) -> bool:
        """Whether each row has a value in each of these columns."""
        return self.has_whole_rows and self.faulty.isdisjoint(names)

    def row(self, place: int) -> Row:
        """The row of a place, as the spreadsheet numbers it."""
        gaps = bisect_right(self.gap_places, place)
        return Row(self.sheet, self.first_number + place + (self.gap_totals[gaps - 1] if gaps else 0))

    def pass_over(self, place: int, rows: int) -> None:
        """Notes that so many rows of the sheet stand before this place and are none of the table's."""
        self.gap_places.append(place)
        self.gap_totals.append(rows + (self.gap_totals[-1] if self.gap_totals else 0))

    def rows(self) -> Iterator[list[str]]:
        """The cells of each place's row, read anew."""
        numbers = (self.row(place).number for place in range(len(self)))
        wanted = next(numbers, None)
        for number, cells in enumerate(records_of(self.sheet), start=1):
            if number == wanted:
                yield cells
                wanted = next(numbers, None)

    def title(self, name: str) -> str:
        """What the sheet calls a column."""
        return self.header.titles[self.header.places[name]].strip()

    def places(self, *names: str) -> Iterable[int]:
        """The places with a value in each of these columns."""
        columns = [self.values[name] for name in names if name in self.faulty]
        if not columns:
            return range(len(self))
        return (place for place in range(len(self)) if all(column[place] != FAULT for column in columns))

    def having(self, names: Sequence[str], name: str) -> Values:
        """The values of a column in the rows that have one in each of the columns."""
        column = self.values[name]
        places = self.places(*names)
        return column if isinstance(places, range) else array("q", [column[place] for place in places])


@dataclass(frozen=True)
class Choices:
    """What the user said where sheets alone leave it open: titles by folded text, each with its column, or none."""

    dates: DateOrder | None = None
    rates: Rates | None = None
    columns: dict[str, str] = field(default_factory=dict)


class Progress:
    """On a terminal, a line that says how far a large sheet is read."""

    def __init__(self) -> None:
        self.is_told = False

    def at(self, label: str, rows: int) -> None:
        if rows % LARGE < CHUNK and rows >= LARGE and sys.stderr.isatty():
            self.is_told = True
            self.say(f"{label}: {rows:,} ..")

    def say(self, what: str) -> None:
        """Says what is done now, where a sheet was large."""
        if self.is_told:
            print(f"\r\x1b[K{what}", end="", file=sys.stderr, flush=True)

    def end(self) -> None:
        """Takes the line away."""
        self.say("")


PROGRESS = Progress()


class Reading:
    """Reads one sheet into a table."""

    def __init__(self, sheet: AnySheet, header: Header, number: int, choices: Choices, faults: Faults,
                 spellings: dict[Thing, Spellings]):
        self.choices = choices
        self.faults = faults
        self.spellings = spellings
        self.header = header
        self.unnamed = header.unnamed
        columns = tuple(column for column in header.slot.columns if column.name in header.places)
        self.table = Table(header.slot, sheet, header, columns, {column.name: no_values() for column in columns},
                           number + 1)
        self.readers = {column.name: self._reader(column) for column in columns
                        if column.content not in (Content.PERCENTAGE, Content.TARGET)}
        self.numerals = {column.name: numerals_of(column) for column in columns}

    def _reader(self, column: Column, rates: Rates | None = None) -> Reader:
        spellings = self.spellings[column.thing] if column.thing else Spellings()
        return reader_of(column, self.choices.dates, rates, spellings)

    def run(self) -> Table:
        number = self.table.first_number
        rates: dict[str, list[str]] = {column.name: [] for column in self.table.columns
                                       if column.content is Content.PERCENTAGE}
        for chunk in chunks_behind(self.table.sheet, number - 1):
            columns = self._columns(chunk, number)
            number += len(chunk)
            if columns is None:
                continue
            for column in self.table.columns:
                texts = columns[self.header.places[column.name]]
                if column.name in rates:
                    rates[column.name] += texts
                elif column.content is Content.TARGET:
                    self._targets(column, texts)
                else:
                    self._values(column, texts)
            PROGRESS.at(self.table.sheet.label, number)
        for name, texts in rates.items():
            column = self.header.slot.column(name)
            self.readers[name] = self._reader(column, self.choices.rates or rates_of(texts))
            self._values(column, texts)
        if len(self.table) > MOST_ROWS:
            self.faults.in_file(self.table.sheet.label, TOO_MANY_ROWS.of(most=MOST_ROWS), FEWER_ROWS.of())
        return self.table

    def _columns(self, chunk: list[list[str]], number: int) -> Sequence[Sequence[str]] | None:
        """The cells of some rows by column, without the empty rows and those that aren't whole."""
        if not self.unnamed and set(map(len, chunk)) == {self.header.width}:
            columns = list(zip(*chunk))
            first = columns[0]
            if "" not in first and ("".join(first).isdigit() or "" not in map(str.strip, first)):
                return columns
        rows = list(self._whole_rows(chunk, number))
        return list(zip(*rows)) if rows else None

    def _whole_rows(self, chunk: list[list[str]], number: int) -> Iterator[list[str]]:
        width = self.header.width
        place = len(self.table)
        passed = 0
        for here, cells in enumerate(chunk, start=number):
            if any(map(str.strip, cells)):
                if self._is_whole(cells, here):
                    if passed:
                        self.table.pass_over(place, passed)
                        passed = 0
                    place += 1
                    yield cells[:width]
                    continue
                self.table.has_whole_rows = False
            passed += 1
        if passed:
            self.table.pass_over(place, passed)

    def _is_whole(self, cells: list[str], number: int) -> bool:
        width = self.header.width
        if len(cells) < width:
            found = Counted(len(cells), CELL, CELLS)
            self.faults.at(Row(self.table.sheet, number), FEW_CELLS.of(cells=found, width=width), WRITE_CELLS.of())
            return False
        if any(map(str.strip, cells[width:])) or any(cells[place].strip() for place in self.unnamed):
            self.faults.at(Row(self.table.sheet, number), UNNAMED_CELL.of(), NAME_IT.of())
            return False
        return True

    def _values(self, column: Column, texts: Sequence[str]) -> None:
        values = self.table.values[column.name]
        numerals = self.numerals[column.name]
        numbers = numerals.read(texts) if numerals else None
        if numbers is None:
            reader = self.readers[column.name]
            start = len(values)
            values.extend(array("q", list(map(reader.__getitem__, texts))))
            if reader.unclear:
                self._tell(column, reader, texts, start)
        else:
            values.extend(array("q", numbers))

    def _targets(self, column: Column, texts: Sequence[str]) -> None:
        """A target is a candidate's id where somebody quits, else a wish's; its kind was read before."""
        values = self.table.values[column.name]
        start = len(values)
        kinds = self.table.values["kind"][start:]
        readers = [reader_of(column, None, None, self.spellings[thing]) for thing in (Thing.WISH, Thing.CANDIDATE)]
        for kind, text in zip(kinds, texts):
            values.append(FAULT if kind == FAULT else readers[kind == QUIT][text])
        self.table.faulty.update([column.name] if FAULT in kinds else [])
        for is_quit, reader in enumerate(readers):
            theirs = [text if (kind == QUIT) == is_quit else "0000" for kind, text in zip(kinds, texts)]
            if reader.unclear:
                self._tell(column, reader, theirs, start)

    def _tell(self, column: Column, reader: Reader, texts: Sequence[str], start: int) -> None:
        """Tells the cells of these that have no reading."""
        for place, text in enumerate(texts, start=start):
            if text in reader.unclear:
                error = reader.unclear[text]
                self.table.faulty.add(column.name)
                self.faults.at(self.table.row(place), error.what, error.to_do, self.table.title(column.name))


def chunks_behind(sheet: AnySheet, skipped: int) -> Iterator[list[list[str]]]:
    """The rows behind the first so many, some thousands at once."""
    for chunk in sheet.chunks():
        rest = chunk[skipped:] if skipped else chunk
        skipped = max(0, skipped - len(chunk))
        if rest:
            yield rest
