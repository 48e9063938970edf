"""The values of columns as numbers, so that a column of millions of rows is an array.

An id that is a number is that number; another id is a negative number, by which its spelling is found. A word is its
place among its column's words, a date its number of days, a flag 0 or 1. A cell that is empty has no value, and a cell
without one reading is a fault.
"""

import re
from array import array
from collections.abc import Callable, Sequence
from dataclasses import dataclass, field
from datetime import date

from .cells import ANSWERS, STATUSES, DateOrder, Id, Rates, Unclear, Value, read_cell
from .slots import Column, Content, Thing

FAULT = -(1 << 62)
NOTHING = 0
STATUS_WORDS = tuple(STATUSES)
ANSWER_WORDS = tuple(ANSWERS)
QUIT = ANSWER_WORDS.index("quit")
ACCEPTED = STATUS_WORDS.index("accepted")
ZERO_IN_FRONT = re.compile(r"\n0[0-9]")

Values = array


def no_values() -> Values:
    return array("q")


@dataclass
class Spellings:
    """The ids of a kind that are no numbers in range: the code of each by its key, and how it was spelled first. Ids
    that are spelled in a way by which they may be taken for another are kept beside them."""

    codes: dict[str, int] = field(default_factory=dict)
    spelled: list[str] = field(default_factory=list)
    odd: dict[str, Id] = field(default_factory=dict)

    def code_of(self, identifier: Id) -> int:
        number = identifier.number
        if number is not None:
            if identifier.spelled != identifier.key:
                self.odd.setdefault(identifier.spelled, identifier)
            return number
        self.odd.setdefault(identifier.spelled, identifier)
        code = self.codes.setdefault(identifier.key, -len(self.spelled) - 1)
        if -code > len(self.spelled):
            self.spelled.append(identifier.spelled)
        return code

    def of(self, code: int) -> str:
        """An id as it was spelled first."""
        return str(code) if code > 0 else self.spelled[-code - 1]


class Reader(dict[str, int]):
    """Reads the texts of a column's cells, each but once, and keeps why a text has no reading."""

    def __init__(self, read: Callable[[str], int]):
        super().__init__()
        self.read = read
        self.unclear: dict[str, Unclear] = {}

    def __missing__(self, text: str) -> int:
        try:
            value = self.read(text)
        except Unclear as error:
            self.unclear[text] = error
            value = FAULT
        self[text] = value
        return value


def coded(value: Value, column: Column, spellings: Spellings) -> int:
    """A value as a number."""
    match value:
        case None:
            return NOTHING
        case Id():
            return spellings.code_of(value)
        case str() if column.content in (Content.DATE, Content.DAY):
            return date.fromisoformat(value).toordinal()
        case str():
            return (STATUS_WORDS if column.content is Content.STATUS else ANSWER_WORDS).index(value)
    return int(value)


def reader_of(column: Column, dates: DateOrder | None, rates: Rates | None, spellings: Spellings) -> Reader:
    return Reader(lambda text: coded(read_cell(text, column, dates, rates), column, spellings))


@dataclass(frozen=True)
class Numerals:
    """Columns whose cells may be plain numerals, which are read many at once."""

    least: int
    greatest: int

    def read(self, texts: Sequence[str]) -> list[int] | None:
        """The numbers, where all cells are numerals in range as a program writes them; else nothing."""
        lines = "\n" + "\n".join(texts) + "\n"
        if not lines.isascii() or "\n\n" in lines or not "".join(texts).isdigit():
            return None
        if "\n0" in lines and (self.least > 0 or ZERO_IN_FRONT.search(lines)):
            return None
        try:
            numbers = list(map(int, texts))
        except ValueError:
            return None
        return numbers if max(numbers) <= self.greatest else None


def numerals_of(column: Column) -> Numerals | None:
    if column.content in (Content.ID, Content.NUMBER):
        return Numerals(max(column.least, 1) if column.content is Content.ID else column.least, column.greatest)
    return None


def things() -> dict[Thing, Spellings]:
    return {thing: Spellings() for thing in Thing}
