"""Numbers for ids that aren't numbers. Those that an earlier dossier gave stay."""

from collections.abc import Iterator
from dataclasses import dataclass
from itertools import repeat

from .cells import Id, spelled_as
from .faults import MOST_SHOWN, Faults, Row, shown
from .headers import fold
from .messages import (GIVE_ANOTHER, LESSER_NUMBERS, NO_NUMBERS, NUMBER_TAKEN, ONE_OR_TWO, PLURALS, THINGS,
                       WRITE_ALIKE)
from .naming import Names
from .slots import GREATEST_NUMBER, SLOTS, Column, Content, Thing
from .tables import Table
from .values import FAULT, QUIT, Spellings


KEPT = ("state", "ceilings", "answers")


@dataclass(frozen=True)
class Numbers:
    """The number of each id that is none, by its code."""

    by_code: dict[Thing, dict[int, int]]

    def of(self, thing: Thing, code: int) -> int:
        return code if code >= 0 else self.by_code[thing][code]


def id_columns(tables: dict[str, Table]) -> Iterator[tuple[Table, Column]]:
    """The columns of ids and targets, in the order of the slots."""
    for slot in SLOTS:
        if slot.name in tables:
            table = tables[slot.name]
            yield from ((table, column) for column in table.columns if column.content in (Content.ID, Content.TARGET))


def codes_of(thing: Thing, tables: dict[str, Table]) -> Iterator[tuple[Table, Column, Iterator[int]]]:
    """The codes of a kind of ids, column by column; what is named by no id of the kind is 0."""
    for table, column in id_columns(tables):
        values = table.values[column.name]
        if column.content is Content.TARGET:
            kinds = table.values["kind"]
            yield table, column, (value if (kind == QUIT) == (thing is Thing.CANDIDATE) and value != FAULT else 0
                                  for kind, value in zip(kinds, values)) \
                if thing in (Thing.CANDIDATE, Thing.WISH) else iter(())
        elif column.thing is thing:
            yield table, column, iter(values)


def number_ids(tables: dict[str, Table], spellings: dict[Thing, Spellings], earlier: Names, faults: Faults) -> Numbers:
    """Numbers the ids by the place where they stand first; two that may or may not be one are a fault."""
    numbers = {}
    for thing in Thing:
        if spellings[thing].odd:
            tell_doubtful(thing, tables, spellings[thing], faults)
        are_named = bool(spellings[thing].spelled)
        numbers[thing] = numbers_of(thing, tables, spellings[thing], earlier, faults) if are_named else {}
    return Numbers(numbers)


def numbers_of(thing: Thing, tables: dict[str, Table], spellings: Spellings, earlier: Names,
               faults: Faults) -> dict[int, int]:
    """Ids that were numbered before keep their numbers; the others get those after the greatest of all."""
    met: dict[int, None] = {}
    greatest = max(earlier.by_number[thing], default=0)
    for _, column, codes in codes_of(thing, tables):
        values = list(codes)
        met.update(dict.fromkeys(code for code in values if FAULT < code < 0))
        greatest = max(greatest, max(values, default=0))
    known = earlier.by_id[thing]
    numbers: dict[int, int] = {}
    for code in met:
        spelled = spellings.of(code)
        if spelled not in known:
            greatest += 1
        numbers[code] = known.get(spelled, greatest)
    if greatest > GREATEST_NUMBER:
        row = row_of_code(thing, tables, next(iter(met)))
        things = PLURALS[thing.value]
        if row is not None:
            faults.at(row, NO_NUMBERS.of(things=things), LESSER_NUMBERS.of(things=things))
    return numbers


def likeness(identifier: Id) -> str:
    """Equal for ids that a hurried reader would take for one."""
    return fold(identifier.spelled).replace(" ", "").lstrip("0")


def zeros(spelled: str) -> int:
    return len(spelled) - len(spelled.lstrip("0"))


def may_differ(one: Id, other: Id) -> bool:
    """Whether two ids that look alike are spelled so that they may be two: capitals, accents, zeros in front."""
    return one.key != other.key or zeros(one.spelled) != zeros(other.spelled)


def doubtful(thing: Thing, tables: dict[str, Table], spellings: Spellings) -> Iterator[tuple[str, str]]:
    """The spellings of ids that may be one or two, each with the other."""
    likes: dict[str, Id] = {}
    numerals: set[str] | None = None
    for identifier in spellings.odd.values():
        like = likeness(identifier)
        other = likes.setdefault(like, identifier)
        if other is identifier and like.isascii() and like.isdigit():
            if numerals is None:
                numerals = {str(value) for _, _, codes in codes_of(thing, tables) for value in codes if value > 0}
            other = Id(like, like) if like in numerals else identifier
        if other is not identifier and may_differ(other, identifier):
            yield identifier.spelled, other.spelled


def tell_doubtful(thing: Thing, tables: dict[str, Table], spellings: Spellings, faults: Faults) -> None:
    """Tells the ids that may be one or two; the first of them are shown."""
    pairs = list(doubtful(thing, tables, spellings))
    rows = rows_of_spellings(thing, tables, {spelled for pair in pairs[:MOST_SHOWN] for spelled in pair})
    for one, other in pairs:
        row = rows.get(one) or next(iter(rows.values()), None)
        if row is not None:
            what = ONE_OR_TWO.of(things=PLURALS[thing.value], one=shown(one), other=shown(other))
            faults.at(row, what, WRITE_ALIKE.of(), beside=rows.get(other), cause=("alike", thing))


def row_of_code(thing: Thing, tables: dict[str, Table], wanted: int) -> Row | None:
    """The first row that has the id of this code."""
    return next((table.row(place) for table, _, codes in codes_of(thing, tables)
                 for place, code in enumerate(codes) if code == wanted), None)


def rows_of_spellings(thing: Thing, tables: dict[str, Table], wanted: set[str]) -> dict[str, Row]:
    """The first row that has each of these ids in just this spelling."""
    rows: dict[str, Row] = {}
    for table, column, codes in codes_of(thing, tables):
        place_of_cell = table.header.places[column.name]
        for place, (code, cells) in enumerate(zip(codes, table.rows())):
            spelled = spelled_as(cells[place_of_cell]) if code != 0 else ""
            if spelled in wanted:
                rows.setdefault(spelled, table.row(place))
        if len(rows) == len(wanted):
            break
    return rows


def translated(tables: dict[str, Table], spellings: dict[Thing, Spellings], earlier: Names, faults: Faults) -> None:
    """In the slots that a campaign keeps, the numbers of an earlier dossier are the ids that they stood for."""
    for thing in Thing:
        if not earlier.by_number[thing]:
            continue
        own = {code for table, _, codes in codes_of(thing, tables) if table.slot.name not in KEPT for code in codes}
        taken = sorted(own & earlier.by_number[thing].keys())
        for number in taken[:1]:
            row = row_of_code(thing, tables, number)
            if row is not None:
                what = NUMBER_TAKEN.of(thing=THINGS[thing.value], number=number, id=earlier.by_number[thing][number])
                faults.at(row, what, GIVE_ANOTHER.of())
        codes = {number: spellings[thing].code_of(Id(spelled, spelled))
                 for number, spelled in earlier.by_number[thing].items() if number not in own}
        for table, column in id_columns(tables):
            if table.slot.name in KEPT and column.thing in (thing, None):
                values = table.values[column.name]
                for place, is_of_kind in enumerate(own_of(thing, table, column)):
                    if is_of_kind and values[place] in codes:
                        values[place] = codes[values[place]]


def own_of(thing: Thing, table: Table, column: Column) -> Iterator[bool]:
    """Of each row whether its cell in the column is an id of the kind."""
    if column.content is not Content.TARGET:
        return repeat(column.thing is thing, len(table))
    named = Thing.CANDIDATE, Thing.WISH
    return (thing in named and (kind == QUIT) == (thing is Thing.CANDIDATE) for kind in table.values["kind"])
