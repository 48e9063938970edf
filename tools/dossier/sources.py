"""Sheets as they come: the rows of a text export, or of a sheet of a workbook."""

import csv
import io
from collections.abc import Iterable, Iterator
from dataclasses import dataclass
from itertools import chain, islice
from pathlib import Path

from .decoding import HEAD, Coding, Unreadable, codings_of, is_windows
from .messages import BROKEN_QUOTES, CLOSE_QUOTES
from .texts import Text

SEPARATORS = {";": Text("semicolons", "points-virgules"), ",": Text("commas", "virgules"),
              "\t": Text("tabs", "tabulations"), "|": Text("bars", "barres")}
FIRST_LINE = "sep="
# What stands for a cell of a workbook that a merged one covers. It is blank, so that where no value is wanted it is as
# an empty cell; no text of a workbook has these letters.
MERGED = "\x1c\x1f\x1c"
CHUNK = 4_000
# A cell may be as long as its file; else a long remark would be told as a quote that is not closed.
csv.field_size_limit(1 << 31)


@dataclass(frozen=True)
class TextSheet:
    """A text export, in one of its readings."""

    path: Path
    label: str
    coding: Coding
    separator: str
    is_named: bool  # its first line names its separator

    def chunks(self) -> Iterator[list[list[str]]]:
        """All rows from the first on, some thousands at once; raises Unreadable where the quotes are broken."""
        with open(self.path, "rb") as raw:
            raw.seek(self.coding.mark)
            with io.TextIOWrapper(raw, encoding=self.coding.codec, newline="") as text:
                if self.is_named:
                    text.readline()
                yield from _parted(text, self.separator)

    def cells_of(self, numbers: Iterable[int]) -> dict[int, list[str]]:
        return cells_of(records_of(self), numbers)


def _parted(text: Iterable[str], separator: str) -> Iterator[list[list[str]]]:
    reader = csv.reader(text, delimiter=separator, strict=True)
    number = 0
    while True:
        chunk: list[list[str]] = []
        try:
            chunk.extend(islice(reader, CHUNK))
        except csv.Error as error:
            row = number + len(chunk) + 1
            raise Unreadable(BROKEN_QUOTES.of(row=row, why=error), CLOSE_QUOTES.of()) from None
        if not chunk:
            return
        number += len(chunk)
        yield chunk


@dataclass(frozen=True, eq=False)
class WorkbookSheet:
    """A sheet of a workbook, whose cells were read by their types. Of what is hidden it has how many rows that are not
    empty, and the places of the columns. It is the same as itself alone, so that a fault may name a row of it."""

    label: str
    rows: list[list[str]]
    is_hidden: bool = False
    hidden_rows: int = 0
    hidden_columns: frozenset[int] = frozenset()

    def chunks(self) -> Iterator[list[list[str]]]:
        """All rows at once."""
        yield self.rows

    def cells_of(self, numbers: Iterable[int]) -> dict[int, list[str]]:
        return cells_of(self.rows, numbers)


AnySheet = TextSheet | WorkbookSheet


def records_of(sheet: AnySheet) -> Iterator[list[str]]:
    """All rows of a sheet, from the first on."""
    return chain.from_iterable(sheet.chunks())


def cells_of(records: Iterable[list[str]], numbers: Iterable[int]) -> dict[int, list[str]]:
    """The rows of these numbers, counted from 1."""
    found: dict[int, list[str]] = {}
    rows = iter(records)
    passed = 0
    for number in sorted(numbers):
        row = next(islice(rows, number - passed - 1, None), None)
        passed = number
        if row is not None:
            found[number] = row
    return found


def readings_of(path: Path) -> list[TextSheet]:
    """All ways to read an export that its bytes leave open; which of them is meant, its first row tells."""
    data = path.read_bytes()
    readings = []
    for coding in codings_of(data):
        first, _, _ = coding.head(data).partition("\n")
        named = first.rstrip("\r").strip('"')
        own = named[len(FIRST_LINE):] if named.startswith(FIRST_LINE) else ""
        separators = [own] if own in SEPARATORS else list(SEPARATORS)
        readings += [TextSheet(path, path.name, coding, separator, own in SEPARATORS) for separator in separators]
    return readings


def likeliest(readings: list[TextSheet]) -> list[TextSheet]:
    """Of readings that are all possible, those that stay when typographic letters are no reason for doubt."""
    codes = {reading.coding.codec for reading in readings}
    if len(readings) > 1 and codes == {"cp1252", "mac-roman"} and is_windows(readings[0].path.read_bytes()):
        return [reading for reading in readings if reading.coding.codec == "cp1252"]
    return readings


def first_row(sheet: AnySheet) -> tuple[int, list[str]]:
    """The number and the cells of the first row that isn't empty."""
    if isinstance(sheet, TextSheet):
        data = sheet.path.open("rb").read(HEAD + sheet.coding.mark)
        text = sheet.coding.head(data)
        lines = io.StringIO(text, newline="")
        if sheet.is_named:
            lines.readline()
        records: Iterator[list[str]] = csv.reader(lines, delimiter=sheet.separator)
    else:
        records = records_of(sheet)
    try:
        return next(((number, cells) for number, cells in enumerate(records, start=1)
                     if any(cell.strip() for cell in cells)), (0, []))
    except csv.Error:
        return 0, []
