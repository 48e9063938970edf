"""Dossiers of national shape: as the nation's, with any number of candidates.

There is a programme for every 40 candidates, of very different sizes: at a million candidates from 2 seats to many
thousands, and the best known one is wished for by more than 100,000. Three of ten programmes share a group, all three
the same one; one of four has a boarding school, and some schools have many programmes. A candidate wishes for up to 19
programmes, and every third one boards too where they can. A third rank their wishes; a tenth hold a seat, others an
offer. Some accept, refuse or quit: most of them on days 1 to 3, and a fourth of them on any of thirty days. On day 1
some withdraw a wish. The groups rank by what they share, a candidate's merit, and by as much of their own.

The same size always gives the same rows, which go to the disk as they are made. As a program, `KIND SIZE FOLDER`
writes a dossier of sorted or shuffled rows, or of shuffled ones with gaps in the ids, to a new folder. It prints how
many rows there are, a wish of them, and the boarding school that most candidates wish for.
"""

import sys
import tempfile
from array import array
from collections.abc import Iterable, Iterator
from contextlib import ExitStack
from itertools import accumulate
from pathlib import Path
from random import Random

from .samples import HEADERS
from .shaped import mixed, up_to

KINDS = ("sorted", "shuffled", "gaps")
LONG_SLOTS = ("rankings", "boarding", "wishes")
PARTS = 64
CANDIDATES_OF_A_PROGRAMME = 40
LEAST_PROGRAMMES = 12
PROGRAMMES_OF_A_SCHOOL = 20
MOST_CHOICES = 19
# How much less the next smaller programme is wished for, as a power of its place.
FALL = 0.85
FIRST_PLACE = 3
SEATS_OF_A_CANDIDATE = 0.8
NO_CEILING = 2_000_000_000
# Most answers come on the first days, and a fourth of them on any of all.
FIRST_DAYS, ALL_DAYS = 3, 30
# The greatest prime below 2,000,000,000. It leaves 2 when divided by 3, so by it no two cubes leave the same.
PRIME = 1_999_999_973
FIRST_WISH = 500_000_000
FIRST_PERSON = 1_000_000


def scattered(number: int) -> int:
    """An id anywhere from 1 to 2,000,000,000, another one for each number."""
    return number * number * number % PRIME


def strewn(lines: Iterable[str], chance: Random) -> Iterator[str]:
    """The same lines in no order; a part of them at a time is in memory."""
    with ExitStack() as stack:
        parts = [stack.enter_context(tempfile.TemporaryFile("w+", encoding="ascii")) for _ in range(PARTS)]
        for line in lines:
            parts[int(chance.random() * PARTS)].write(line)
        for part in parts:
            part.seek(0)
            held = part.readlines()
            chance.shuffle(held)
            yield from held


class Nation:
    """Who wishes for what. The wishes are made first; who is to be ranked where comes of them."""

    def __init__(self, size: int, have_gaps: bool):
        self.size, self.have_gaps = size, have_gaps
        self.chance = Random(size)
        count = max(LEAST_PROGRAMMES, size // CANDIDATES_OF_A_PROGRAMME)
        self.programmes = range(count)
        self.weights = mixed([(place + FIRST_PLACE) ** -FALL for place in up_to(count)], 1)
        # Of each ten programmes the last three have the group of the eighth.
        self.group_of = [place - max(0, place % 10 - 7) for place in self.programmes]
        schools = max(2, count // PROGRAMMES_OF_A_SCHOOL)
        self.school_of = [1 + int(schools * self.chance.random() ** 2) if place % 4 == 0 else 0
                          for place in self.programmes]
        self.ranked = [array("I") for _ in self.programmes]
        self.boarders = [array("I") for _ in range(schools + 1)]
        self.people = array("I", map(self.person, range(size + 1)))
        self.state: list[str] = []
        self.answers: list[tuple[int, str]] = []
        self.wishes_made = 0

    def person(self, candidate: int) -> int:
        return scattered(FIRST_PERSON + candidate) if self.have_gaps else candidate

    def wish(self, number: int) -> int:
        return scattered(FIRST_WISH + number) if self.have_gaps else number

    def wishes(self) -> Iterator[str]:
        cumulated = list(accumulate(self.weights))
        for candidate in up_to(self.size):
            choices = self.chance.choices(self.programmes, cum_weights=cumulated,
                                          k=self.chance.randrange(MOST_CHOICES) + 1)
            named = self.rooms(candidate, sorted(set(choices)))
            is_automatic = candidate // 3 % 3 == 0
            preferences = self.chance.sample(up_to(len(named)), len(named)) if is_automatic else [0] * len(named)
            wishes = [self.wish(self.wishes_made + nth) for nth in up_to(len(named))]
            self.wishes_made += len(wishes)
            self.tell_past(candidate, wishes[candidate % len(wishes)], is_automatic)
            who = self.people[candidate]
            for wish, (programme, school), preference in zip(wishes, named, preferences):
                yield f"{wish},{who},{programme + 1},{school},{preference}\n"

    def rooms(self, candidate: int, chosen: list[int]) -> list[tuple[int, int | str]]:
        """What a candidate wishes for: programmes, each without a school and, if they board, with its school."""
        for group in {self.group_of[programme] for programme in chosen}:
            self.ranked[group].append(candidate)
        named: list[tuple[int, int | str]] = []
        schools = set()
        for programme in chosen:
            named.append((programme, ""))
            school = self.school_of[programme]
            if school and candidate % 3 == 0:
                named.append((programme, school))
                schools.add(school)
        for school in schools:
            self.boarders[school].append(candidate)
        return named

    def tell_past(self, candidate: int, wish: int, is_automatic: bool) -> None:
        """What the candidate has when the run begins, and what they answer."""
        turn, part = divmod(candidate, 20)
        day = 1 + (turn % FIRST_DAYS if turn % 4 else turn // 4 % ALL_DAYS)
        if part < 2:
            self.state.append(f"{wish},accepted\n")
        elif part == 5:
            self.answers.append((day, f"{day},quit,{self.people[candidate]}\n"))
        elif part < 5 and not is_automatic:
            self.state.append(f"{wish},offered\n")
            if part < 4:
                self.answers.append((day, f"{day},{'accept' if part == 2 else 'refuse'},{wish}\n"))
        elif part == 6 and not is_automatic:
            self.answers.append((1, f"1,withdraw,{wish}\n"))

    def groups(self) -> Iterator[str]:
        return (f"{group + 1},{5 + group * 7 % 21},{group * 11 % 61}\n"
                for group in self.programmes if self.group_of[group] == group)

    def seats(self) -> Iterator[str]:
        share = self.size * SEATS_OF_A_CANDIDATE / sum(self.weights)
        for place, (group, weight) in enumerate(zip(self.group_of, self.weights), 1):
            seats = max(2, round(share * weight * (0.3 + 1.4 * self.chance.random())))
            yield f"{place},{group + 1},{seats}\n"

    def schools(self) -> Iterator[str]:
        for school, boarders in enumerate(self.boarders[1:], 1):
            ceiling = len(boarders) // 2 if school % 4 == 2 else NO_CEILING
            yield f"{school},{len(boarders) // 8 + 1},{ceiling}\n"

    def ceilings(self) -> Iterator[str]:
        for day, part in ((2, 3), (3, 4)):
            for school in range(2, len(self.boarders), 4):
                yield f"{day},{school},{len(self.boarders[school]) * part // 4}\n"

    def rankings(self) -> Iterator[str]:
        """Each group's best first."""
        random = self.chance.random
        merits = array("d", (random() for _ in range(self.size + 1)))
        for group, ranked in enumerate(self.ranked, 1):
            order = sorted((merits[candidate] + random(), candidate) for candidate in ranked)
            for rank, (_, candidate) in enumerate(order, 1):
                yield (f"{group},{self.people[candidate]},{rank},{int(candidate % 5 == 0)},"
                       f"{int((candidate + group) % 3 == 0)}\n")

    def boarding(self) -> Iterator[str]:
        for school, boarders in enumerate(self.boarders):
            for rank, candidate in enumerate(mixed(list(boarders), school), 1):
                yield f"{school},{self.people[candidate]},{rank}\n"

    def slots(self) -> Iterator[tuple[str, Iterable[str]]]:
        yield "wishes", self.wishes()
        yield from {"groups": self.groups(), "programmes": self.seats(), "schools": self.schools(),
                    "rankings": self.rankings(), "boarding": self.boarding(), "state": self.state,
                    "ceilings": self.ceilings(),
                    "answers": (line for _, line in sorted(self.answers, key=lambda answer: answer[0]))}.items()


def write(nation: Nation, are_mixed: bool, folder: Path) -> int:
    """Writes the slots to a new folder, and answers how many rows they have."""
    folder.mkdir()
    rows, chance = 0, Random(3)
    for slot, lines in nation.slots():
        with (folder / f"{slot}.csv").open("w", encoding="ascii") as file:
            file.write(f"{HEADERS[slot]}\n")
            for line in strewn(lines, chance) if are_mixed and slot in LONG_SLOTS else lines:
                file.write(line)
                rows += 1
    return rows


def main(kind: str, size: str, folder: str) -> None:
    nation = Nation(int(size), kind == "gaps")
    try:
        rows = write(nation, kind != "sorted", Path(folder))
    except OSError as error:
        sys.exit(f"{folder} could not be written: {error.strerror}")
    best_known = max(range(1, len(nation.boarders)), key=lambda school: len(nation.boarders[school]))
    print(rows, nation.wish((nation.wishes_made + 1) // 2), best_known)


if __name__ == "__main__":
    main(*sys.argv[1:])
