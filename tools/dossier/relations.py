"""The relations between the rows of a dossier: each that fails is a fault, shown at both rows.

Keys of two or three columns are single numbers, and a set of them tells at once whether any stands twice; only where
one does are the rows looked at one by one. So the time grows as the rows do.
"""

from collections.abc import Iterable, Iterator, Sequence
from dataclasses import dataclass
from functools import cached_property
from itertools import compress, islice, repeat
from operator import add, lt, mul, not_

from .faults import Faults
from .messages import (ADD_BOARDER, ADD_RANK, ADD_ROW, ALL_OR_NONE, CORRECT_EITHER, CORRECT_ONE, DAY_FALLS, KEYS, MIXED,
                       NAME_WISH, NO_RANK, NO_ROW, NO_ROWS, NO_WISH, NO_WISH_OF, PLURALS, PREFERENCE_TWICE,
                       QUIT_CANDIDATE, SORT_DAYS, THINGS, TWICE, TWO_ACCEPTED, UNRANKED, UNTESTED, WRITE_DIFFERENT)
from .slots import Content, Thing
from .tables import Table
from .texts import Filled, OfName
from .values import ACCEPTED, FAULT, NOTHING, QUIT, Spellings

SHIFT = 1 << 32
MOST_NAMED = 3


def combined(columns: Sequence[Iterable[int]]) -> Iterator[int]:
    """A number for each row of the columns, the same only for rows that are."""
    first, *others = columns
    keys = iter(first)
    for column in others:
        keys = map(add, map(mul, keys, repeat(SHIFT)), column)
    return keys


@dataclass(frozen=True)
class Keys:
    """The keys of a table's rows, those that have one; whole where each row has."""

    table: Table
    names: tuple[str, ...]
    is_whole: bool

    def numbers(self) -> Iterator[int]:
        return combined([self.table.having(self.names, name) for name in self.names])

    def of(self) -> Iterator[tuple[int, int]]:
        """The place and the key of each row that has one."""
        return zip(self.table.places(*self.names), self.numbers())

    @cached_property
    def present(self) -> set[int]:
        return set(self.numbers())

    def rise(self) -> bool:
        """Whether each key is greater than the one before, so that none stands twice."""
        return all(map(lt, self.numbers(), islice(self.numbers(), 1, None)))

    def repeats(self) -> dict[int, int]:
        """The places whose key stands in an earlier row, each with the first one."""
        if self.rise() or self.is_whole and len(self.present) == len(self.table):
            return {}
        first: dict[int, int] = {}
        return {place: earlier for place, key in self.of() if (earlier := first.setdefault(key, place)) != place}

    def lacks(self, key: int) -> bool:
        """Whether no row has the key, where that can be told."""
        return self.is_whole and key not in self.present


class Relations:
    """Tests all relations of the tables, and lists the faults."""

    def __init__(self, tables: dict[str, Table], spellings: dict[Thing, Spellings], faults: Faults,
                 may_be_numbers: Filled | None = None):
        self.tables = tables
        self.spellings = spellings
        self.faults = faults
        self.may_be_numbers = may_be_numbers
        self.homes = {Thing(name): self.keys(f"{name}s" if name != "wish" else "wishes", name)
                      for name in ("group", "programme", "school", "wish")}

    def test(self) -> None:
        for thing in (Thing.GROUP, Thing.PROGRAMME, Thing.SCHOOL):
            self.distinct(self.homes[thing])
        ranked, boarders = self.ranks("rankings", "group"), self.ranks("boarding", "school")
        repeated = self.distinct(self.homes[Thing.WISH])
        self.distinct(self.keys("wishes", "candidate", "programme", "school"), repeated)
        self.distinct(self.keys("state", "wish"))
        self.distinct(self.keys("ceilings", "day", "school"))
        for thing, slots in ((Thing.GROUP, ("programmes", "rankings")),
                             (Thing.SCHOOL, ("boarding", "wishes", "ceilings")),
                             (Thing.PROGRAMME, ("wishes",)), (Thing.WISH, ("state",))):
            self.known(thing, slots)
        self.targets()
        self.wishes_are_ranked(ranked)
        self.wishes_have_boarding_ranks(boarders)
        self.preferences()
        self.one_accepted()
        self.days_rise("ceilings")
        self.days_rise("answers")
        self.tell_untested(ranked, boarders)

    def tell_untested(self, *ranks: Keys | None) -> None:
        for keys in (*self.homes.values(), *ranks):
            if keys is not None and not keys.is_whole:
                self.faults.untested.append(UNTESTED.of(of_file=OfName(keys.table.sheet.label)))

    def keys(self, slot: str, *names: str) -> Keys | None:
        table = self.tables.get(slot)
        return None if table is None else Keys(table, names, table.is_whole(*names))

    def text(self, table: Table, name: str, place: int) -> str:
        """A value as the sheet has it, an id as it was spelled first."""
        value = table.values[name][place]
        thing = table.slot.column(name).thing
        if table.slot.column(name).content is Content.TARGET:
            thing = Thing.CANDIDATE if table.values["kind"][place] == QUIT else Thing.WISH
        return self.spellings[thing].of(value) if thing and value != NOTHING else str(value)

    def fault(self, table: Table, place: int, what: Filled, to_do: Filled,
              beside: tuple[Table, int] | None = None) -> None:
        self.faults.at(table.row(place), what, to_do, beside=beside and beside[0].row(beside[1]))

    def distinct(self, keys: Keys | None, beside: Iterable[int] = ()) -> dict[int, int]:
        """Each key stands in one row. A row whose other key is a fault already is passed over."""
        if keys is None:
            return {}
        repeats = keys.repeats()
        passed = set(beside) if repeats else set()
        for place, earlier in repeats.items():
            if place not in passed:
                values = {name: self.text(keys.table, name, place) for name in keys.names}
                self.fault(keys.table, place, TWICE.of(what=KEYS[keys.names].of(**values)), CORRECT_ONE.of(),
                           (keys.table, earlier))
        return repeats

    def ranks(self, slot: str, name: str) -> Keys | None:
        """Each candidate stands once in a list, and each rank; answers the keys of the candidates."""
        keys = self.keys(slot, name, "candidate")
        self.distinct(self.keys(slot, name, "rank"), self.distinct(keys))
        return keys

    def known(self, thing: Thing, slots: tuple[str, ...]) -> None:
        """What the columns name has a row in the slot of its own. Each id that has none is a fault, or many are one."""
        home = self.homes[thing]
        if home is None or not home.is_whole:
            return
        unknown: dict[int, list[tuple[Table, int]]] = {}
        for table in (self.tables[slot] for slot in slots if slot in self.tables):
            column = table.values[thing.value]
            ids = set(column) - home.present - {NOTHING, FAULT}
            if ids:
                for place in (place for place, value in enumerate(column) if value in ids):
                    unknown.setdefault(column[place], []).append((table, place))
        file = home.table.sheet.label
        are_numbers = all(code > 0 for code in unknown) and bool(self.spellings[thing].spelled)
        to_do = self.may_be_numbers if are_numbers and self.may_be_numbers else ADD_ROW.of(file=file)
        if len(unknown) <= MOST_NAMED:
            for code, rows in unknown.items():
                what = NO_ROW.of(thing=THINGS[thing.value], id=self.spellings[thing].of(code))
                for table, place in rows:
                    self.faults.at(table.row(place), what, to_do, cause=("unknown", thing, code))
            return
        named = ", ".join(self.spellings[thing].of(code) for code in list(unknown)[:MOST_NAMED])
        what = NO_ROWS.of(count=len(unknown), things=PLURALS[thing.value], ids=named)
        for table, place in (row for rows in unknown.values() for row in rows):
            self.faults.at(table.row(place), what, to_do, cause=("unknown", thing))

    def targets(self) -> None:
        table, wishes = self.tables.get("answers"), self.tables.get("wishes")
        if table is None or wishes is None:
            return
        candidates = self.keys("wishes", "candidate")
        home = self.homes[Thing.WISH]
        for place in table.places("kind", "target"):
            target = table.values["target"][place]
            is_quit = table.values["kind"][place] == QUIT
            if is_quit and candidates and candidates.lacks(target):
                self.fault(table, place, NO_WISH_OF.of(id=self.text(table, "target", place)), QUIT_CANDIDATE.of())
            elif not is_quit and home and home.lacks(target):
                self.fault(table, place, NO_WISH.of(id=self.text(table, "target", place)), NAME_WISH.of())

    def wishes_are_ranked(self, ranked: Keys | None) -> None:
        wishes, programmes = self.tables.get("wishes"), self.tables.get("programmes")
        if wishes is None or programmes is None or ranked is None or not ranked.is_whole:
            return
        places: dict[int, int] = {}
        for place in programmes.places("programme", "group"):
            places.setdefault(programmes.values["programme"][place], place)
        bases = {programme: programmes.values["group"][place] * SHIFT for programme, place in places.items()}
        if wishes.is_whole("programme", "candidate") and bases.keys() >= set(wishes.values["programme"]):
            keys = map(add, map(bases.__getitem__, wishes.values["programme"]), wishes.values["candidate"])
            if all(map(ranked.present.__contains__, keys)):
                return
        for place, programme, candidate in of_rows(wishes, "programme", "candidate"):
            base = bases.get(programme)
            if base is not None and base + candidate not in ranked.present:
                home = places[programme]
                what = UNRANKED.of(candidate=self.text(wishes, "candidate", place),
                                   group=self.text(programmes, "group", home))
                self.fault(wishes, place, what, ADD_RANK.of(file=ranked.table.sheet.label), (programmes, home))

    def wishes_have_boarding_ranks(self, boarders: Keys | None) -> None:
        wishes, schools = self.tables.get("wishes"), self.homes[Thing.SCHOOL]
        if wishes is None or schools is None or boarders is None or not boarders.is_whole:
            return
        homes = {key: place for place, key in schools.of()}
        if wishes.is_whole("school", "candidate"):
            columns = wishes.values["school"], wishes.values["candidate"]
            if boarders.present.issuperset(compress(combined(columns), columns[0])):
                return
        for place, school, candidate in of_rows(wishes, "school", "candidate"):
            if school != NOTHING and school * SHIFT + candidate not in boarders.present and school in homes:
                what = NO_RANK.of(candidate=self.text(wishes, "candidate", place),
                                  school=self.text(wishes, "school", place))
                self.fault(wishes, place, what, ADD_BOARDER.of(file=boarders.table.sheet.label),
                           (schools.table, homes[school]))

    def preferences(self) -> None:
        """All of a candidate's preferences are 0, or all are positive and different."""
        wishes = self.tables.get("wishes")
        if wishes is None:
            return
        names = ("candidate", "preference")
        candidates, preferences = wishes.having(names, "candidate"), wishes.having(names, "preference")
        automatic = set(compress(candidates, preferences))
        if not automatic.isdisjoint(compress(candidates, map(not_, preferences))):
            first: dict[int, int] = {}
            for place, candidate, preference in of_rows(wishes, *names):
                if (wishes.values["preference"][first.setdefault(candidate, place)] == 0) != (preference == 0):
                    self.fault(wishes, place, MIXED.of(), ALL_OR_NONE.of(), (wishes, first[candidate]))
        keys = Keys(wishes, names, True)
        if len(set(compress(keys.numbers(), preferences))) == sum(map(bool, preferences)):
            return
        taken: dict[int, int] = {}
        for place, key in keys.of():
            preference = wishes.values["preference"][place]
            if preference > 0 and (earlier := taken.setdefault(key, place)) != place:
                self.fault(wishes, place, PREFERENCE_TWICE.of(preference=preference), WRITE_DIFFERENT.of(),
                           (wishes, earlier))

    def one_accepted(self) -> None:
        state, wishes = self.tables.get("state"), self.tables.get("wishes")
        if state is None or wishes is None:
            return
        of_wishes = {wish for _, wish, status in of_rows(state, "wish", "status") if status == ACCEPTED}
        candidates: dict[int, int] = {}
        if of_wishes:
            for _, wish, candidate in of_rows(wishes, "wish", "candidate"):
                if wish in of_wishes:
                    candidates.setdefault(wish, candidate)
        accepted: dict[int, int] = {}
        seen: set[int] = set()
        for place, wish, status in of_rows(state, "wish", "status"):
            if status != ACCEPTED or wish in seen or wish not in candidates:
                continue
            seen.add(wish)
            earlier = accepted.setdefault(candidates[wish], place)
            if earlier != place:
                name = self.spellings[Thing.CANDIDATE].of(candidates[wish])
                self.fault(state, place, TWO_ACCEPTED.of(candidate=name), CORRECT_EITHER.of(), (state, earlier))

    def days_rise(self, slot: str) -> None:
        table = self.tables.get(slot)
        if table is None:
            return
        days = table.values["day"]
        before = None
        for place in table.places("day"):
            if before is not None and days[place] < days[before]:
                what = DAY_FALLS.of(day=days[place], before=days[before])
                self.fault(table, place, what, SORT_DAYS.of(), (table, before))
            before = place


def of_rows(table: Table, one: str, other: str) -> Iterator[tuple[int, int, int]]:
    """The place and both values of each row that has them."""
    names = (one, other)
    return zip(table.places(*names), table.having(names, one), table.having(names, other))


