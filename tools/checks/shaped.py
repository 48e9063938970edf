"""Dossiers of extreme shapes, in which a program may take longer, or more memory, than their rows say.

Each is made of few rules, so that the same size always gives the same rows. Candidates, programmes, schools and wishes
are numbered from 1. As a program, `MAKER SIZE FOLDER` writes a dossier to a new folder and prints how many rows it has.
"""

import sys
from collections.abc import Callable, Iterable
from dataclasses import dataclass, field
from itertools import count
from pathlib import Path
from random import Random

from .samples import HEADERS

CEILING = 1_000_000
MOST_ID = 2_000_000_000
PROGRAMMES_OF_A_SCHOOL = 200
CANDIDATES_OF_A_PROGRAMME = 100
IDLE_WISHES_OF_A_PASS = 200
WISHES_OF_AN_APPLICANT = 4
Row = tuple[int | str, ...]


@dataclass
class Dossier:
    """The rows of each slot; a slot that is not named has none."""

    rows: dict[str, list[Row]] = field(default_factory=lambda: {slot: [] for slot in HEADERS})

    def add(self, slot: str, rows: Iterable[Row]) -> None:
        self.rows[slot].extend(rows)

    def group(self, group: int, candidates: Iterable[int], scholars: int = 0) -> None:
        """A group that ranks the candidates in this order; each candidate of the multiple `scholars` is one."""
        self.add("groups", [(group, 20 if scholars else 0, 0)])
        self.add("rankings", ((group, candidate, rank, int(scholars > 0 and candidate % scholars == 0), 0)
                              for rank, candidate in enumerate(candidates, 1)))

    def school(self, school: int, beds: int, candidates: Iterable[int]) -> None:
        """A school that ranks the candidates in this order."""
        self.add("schools", [(school, beds, CEILING)])
        self.add("boarding", ((school, candidate, rank) for rank, candidate in enumerate(candidates, 1)))

    def wish(self, wishes: Iterable[tuple[int, int, int | str, int]]) -> None:
        """Wishes by candidate, programme, school (or none) and preference (or 0), numbered on."""
        numbers = count(len(self.rows["wishes"]) + 1)
        self.add("wishes", ((wish, *named) for wish, named in zip(numbers, wishes)))

    @property
    def size(self) -> int:
        """How many rows there are."""
        return sum(map(len, self.rows.values()))

    def write(self, folder: Path) -> None:
        """Writes the slots to a new folder."""
        folder.mkdir()
        for slot, header in HEADERS.items():
            with (folder / f"{slot}.csv").open("w", encoding="ascii") as file:
                file.write(f"{header}\n")
                file.writelines(",".join(map(str, row)) + "\n" for row in self.rows[slot])


def mixed(items: list, seed: int) -> list:
    """The same items in an order that the seed fixes."""
    mixed_items = list(items)
    Random(seed).shuffle(mixed_items)
    return mixed_items


def up_to(most: int, first: int = 1) -> range:
    return range(first, most + 1)


def offers_move(size: int, ranked: bool) -> Dossier:
    """One candidate has all offers and quits on day 2; another one waits for all of them."""
    made = Dossier()
    made.group(1, (1, 2))
    made.add("programmes", ((programme, 1, 1) for programme in up_to(size)))
    for candidate in (1, 2):
        is_ranked = ranked and candidate == 2
        made.wish((candidate, programme, "", size + 1 - programme if is_ranked else 0) for programme in up_to(size))
    made.add("answers", [(2, "quit", 1)])
    return made


def one_candidate(size: int) -> Dossier:
    """One candidate wishes for every programme, and gets an offer of each."""
    made = Dossier()
    made.group(1, [1])
    made.add("programmes", ((programme, 1, 1) for programme in up_to(size)))
    made.wish((1, programme, "", 0) for programme in up_to(size))
    return made


def one_claim(size: int) -> Dossier:
    """One candidate wishes for one programme with each of many schools that have no bed."""
    made = Dossier()
    made.group(1, [1])
    made.add("programmes", [(1, 1, 1)])
    for school in up_to(size):
        made.school(school, 0, [1])
    made.wish((1, 1, school, 0) for school in up_to(size))
    return made


def one_group(size: int) -> Dossier:
    """A group ranks all candidates once, for many programmes; each candidate wishes for one of them."""
    made = Dossier()
    programmes = max(1, size // CANDIDATES_OF_A_PROGRAMME)
    made.group(1, mixed(list(up_to(size)), 1), scholars=5)
    made.add("programmes", ((programme, 1, CANDIDATES_OF_A_PROGRAMME // 2) for programme in up_to(programmes)))
    made.wish((candidate, 1 + candidate * 7 % programmes, "", candidate % 2) for candidate in up_to(size))
    return made


def one_school(size: int) -> Dossier:
    """All candidates wish to board in one school, at one of its many programmes."""
    made = Dossier()
    programmes = PROGRAMMES_OF_A_SCHOOL
    made.group(1, mixed(list(up_to(size)), 1), scholars=5)
    made.add("programmes", ((programme, 1, max(1, size // programmes // 2)) for programme in up_to(programmes)))
    made.school(1, size // 8, mixed(list(up_to(size)), 2))
    made.wish((candidate, 1 + candidate * 7 % programmes, 1, candidate % 2) for candidate in up_to(size))
    return made


def cascade(size: int) -> Dossier:
    """Two schools, of which each fall of one overfills the other: as many falls as wishes, and the names of each are
    all who have a bed."""
    made = Dossier()
    called = (list(up_to(size + 1)), list(up_to(3 * size + 1, 2 * size + 2)))
    next_called = (list(up_to(2 * size + 1, size + 2)), list(up_to(4 * size + 1, 3 * size + 2)))
    for one, other in ((0, 1), (1, 0)):
        made.group(one + 1, called[one] + next_called[one])
        made.add("programmes", [(one + 1, one + 1, size + 1 - one)])
        made.school(one + 1, size, next_called[other] + called[one])
        made.wish((candidate, one + 1, one + 1, 0) for candidate in called[one])
        made.wish((candidate, one + 1, other + 1, 0) for candidate in next_called[one])
    return made


def schools_at_once(size: int) -> Dossier:
    """Many schools, each overfilled by one at the ceilings."""
    made = Dossier()
    made.group(1, up_to(2 * size))
    made.add("programmes", [(1, 1, 2 * size)])
    for school in up_to(size):
        made.school(school, 1, (2 * school - 1, 2 * school))
    made.wish((candidate, 1, (candidate + 1) // 2, 0) for candidate in up_to(2 * size))
    return made


def passes(size: int) -> Dossier:
    """Each pass frees the one seat that the next pass offers, beside many wishes that wait for no seat."""
    made = Dossier()
    idle = up_to(size * (IDLE_WISHES_OF_A_PASS + 1), size + 1)
    for programme in up_to(size + 1):
        made.group(programme, (who for who in (programme, programme - 1) if 1 <= who <= size))
    made.group(size + 2, idle)
    made.add("programmes", ((programme, programme, 1) for programme in up_to(size + 1)))
    made.add("programmes", [(size + 2, size + 2, 0)])
    made.wish((candidate, candidate + more, "", 2 - more) for candidate in up_to(size) for more in (0, 1))
    made.wish((candidate, size + 2, "", 0) for candidate in idle)
    return made


def displaced(size: int) -> Dossier:
    """Two programmes, of which each that is full displaces one candidate to the other, as often as there are seats."""
    made = Dossier()
    ones, others = list(up_to(size + 1)), list(up_to(2 * size + 1, size + 2))
    made.group(1, others + ones)
    made.group(2, ones + others)
    made.add("programmes", [(1, 1, size), (2, 2, size)])
    for who, order in ((ones, (1, 2)), (others, (2, 1))):
        made.wish((candidate, programme, "", preference)
                  for candidate in who for preference, programme in enumerate(order, 1))
    return made


def programmes_at_once(size: int) -> Dossier:
    """A market of many programmes, each of which has two candidates for its one seat."""
    made = Dossier()
    for programme in up_to(size):
        made.group(programme, (2 * programme - 1, 2 * programme))
        made.add("programmes", [(programme, programme, 1)])
        made.wish((candidate, programme, "", 1) for candidate in (2 * programme - 1, 2 * programme))
    return made


def applicants(size: int) -> Dossier:
    """A dossier as it may come: candidates with some wishes each, every other one with a bed, some ranked."""
    made = Dossier()
    programmes = max(WISHES_OF_AN_APPLICANT, size // CANDIDATES_OF_A_PROGRAMME)
    schools = max(1, programmes // 4)
    named = [(candidate, 1 + (candidate * 31 + nth * nth * 17 + nth) % programmes)
             for candidate in up_to(size) for nth in range(WISHES_OF_AN_APPLICANT)]
    wished = sorted(set(named))
    rooms = [(candidate, programme, 1 + programme % schools if candidate % 2 else "",
              programme if candidate % 4 == 0 else 0) for candidate, programme in wished]
    for group, ranked in sorted(by_second(wished).items()):
        made.group(group, mixed(ranked, group), scholars=7)
        made.add("programmes", [(group, group, max(1, len(ranked) // 3))])
    boarders = by_second(sorted({(candidate, school) for candidate, _, school, _ in rooms if school != ""}))
    for school in up_to(schools):
        made.school(school, len(boarders.get(school, [])) // 5, mixed(boarders.get(school, []), school))
    made.wish(rooms)
    return made


def by_second(pairs: list[tuple[int, int]]) -> dict[int, list[int]]:
    """The first ones of pairs, by the second one."""
    found: dict[int, list[int]] = {}
    for first, second in pairs:
        found.setdefault(second, []).append(first)
    return found


def shuffled(size: int) -> Dossier:
    """The same, with the rows of the long slots in no order."""
    made = applicants(size)
    for slot in ("rankings", "boarding", "wishes"):
        made.rows[slot] = mixed(made.rows[slot], 3)
    return made


def with_gaps(size: int) -> Dossier:
    """The same, with ids of candidates and wishes anywhere below 2,000,000,000."""
    made = shuffled(size)
    ids = Random(4).sample(range(1, MOST_ID), size + len(made.rows["wishes"]))
    people, wishes = [0, *ids[:size]], [0, *ids[size:]]
    for slot, place in (("rankings", 1), ("boarding", 1), ("wishes", 1)):
        made.rows[slot] = [renamed(row, place, people) for row in made.rows[slot]]
    made.rows["wishes"] = [renamed(row, 0, wishes) for row in made.rows["wishes"]]
    return made


def renamed(row: Row, place: int, names: list[int]) -> Row:
    return (*row[:place], names[int(row[place])], *row[place + 1:])


MAKERS: dict[str, Callable[[int], Dossier]] = {
    maker.__name__: maker for maker in (
        applicants, cascade, displaced, one_candidate, one_claim, one_group, one_school, passes, programmes_at_once,
        schools_at_once, shuffled, with_gaps)}
MAKERS["offers_move"] = lambda size: offers_move(size, ranked=False)
MAKERS["offers_move_ranked"] = lambda size: offers_move(size, ranked=True)


def main(maker: str, size: str, folder: str) -> None:
    made = MAKERS[maker](int(size))
    made.write(Path(folder))
    print(made.size)


if __name__ == "__main__":
    main(*sys.argv[1:])
