"""Whether `recheck` refuses the whole reports of engines that have one rule wrong, each consistent in itself."""

import re
from collections import Counter
from datetime import date
from random import Random

from .dossiers import Rows
from .harness import Tally, scratch
from .odd import FIRST_DAYS, Told, odd_dossier
from .rechecking import RIGHT, WRONG, told
from .rules import LIVE, Bars, Fall

CAMPAIGNS = 80
SEED = 77
LEAST_TRIED = 500


class Engine(Told):
    """An engine that may go wrong at random."""

    def __init__(self, rows: dict[str, Rows], start: date, term: int | None, seed: int):
        super().__init__(rows, start, term)
        self.random = Random(seed)
        self.begin()

    def begin(self) -> None:
        """What is wrong from the beginning."""

    def text(self, days: int) -> bytes:
        of_days = [line for day in range(1, days + 1) for line in self.run_day(day)]
        return "".join(f"{line}\n" for line in [*self.call_orders(), *of_days, *self.final()]).encode()

    def wishes_of(self, candidate: int, *statuses: str) -> list[int]:
        return [number for number, wish in self.wishes.items() if wish.candidate == candidate
                and self.status[number] in statuses]


class ASeatMore(Engine):
    def seats_left(self, programme: int) -> int:
        return super().seats_left(programme) + (self.seats[programme] > 0)


class ABedMore(Engine):
    def greatest_bars(self, day: int) -> tuple[Bars, list[Fall]]:
        own, self.beds = self.beds, {school: beds + 1 for school, beds in self.beds.items()}
        found = super().greatest_bars(day)
        self.beds = own
        return found


class BarTooLow(Engine):
    """A bar ends below the worst rank that it lets in."""

    def greatest_bars(self, day: int) -> tuple[Bars, list[Fall]]:
        bars, falls = super().greatest_bars(day)
        for school in bars:
            within = [rank for (of, _), rank in self.rank.items() if of == school and rank <= bars[school]]
            bars[school] = max(within) - 1 if within and self.random.random() < 0.5 else bars[school]
        return bars, falls


class BarTooHigh(Engine):
    """The last fall does not come."""

    def greatest_bars(self, day: int) -> tuple[Bars, list[Fall]]:
        bars, falls = super().greatest_bars(day)
        return (bars | {falls[-1][0]: falls[-1][1]}, falls[:-1]) if falls else (bars, falls)


class BarredStandAhead(Engine):
    def ahead(self, number: int, bars: Bars) -> int:
        return super().ahead(number, dict.fromkeys(bars, 2_000_000_000))


class LimitIsOneMore(Engine):
    def begin(self) -> None:
        self.limits = {programme: limit + 1 for programme, limit in self.limits.items()}


class HoldersAreBarred(Engine):
    def is_barred(self, number: int, bars: Bars) -> bool:
        wish = self.wishes[number]
        return self.status[number] == "waiting" and wish.school is not None \
            and self.rank[wish.school, wish.candidate] > bars[wish.school]


class OneIsPassedOver(Engine):
    """A candidate is never offered anything, and whoever comes next is."""

    def begin(self) -> None:
        self.passed_over = self.random.choice(self.candidates or [0])

    def is_open(self, number: int, bars: Bars) -> bool:
        return self.wishes[number].candidate != self.passed_over and super().is_open(number, bars)


class NextInCallOrder(Engine):
    """The first two of a call order change places in it, and in nothing else that is told."""

    def position(self, candidate: int, programme: int) -> int:
        return {1: 2, 2: 1}.get(own := super().position(candidate, programme), own)


class NoAnswerForOne(Engine):
    def begin(self) -> None:
        self.candidates = self.candidates[1:]


class WorseGoOnWaiting(Engine):
    def become(self, number: int, status: str, *stamp: int) -> None:
        if status != "auto_withdrawn":
            super().become(number, status, *stamp)


class BetterAreWithdrawn(Engine):
    def automatic_answers(self, day: int, turn: int) -> None:
        super().automatic_answers(day, turn)
        for candidate in self.candidates:
            for number in self.wishes_of(candidate, "waiting") if self.wishes_of(candidate, "accepted") else ():
                if self.wishes[number].preference:
                    self.become(number, "auto_withdrawn", day, turn)


class LapsesADayLater(Engine):
    def lapses(self, day: int) -> list[str]:
        self.term = self.term and self.term + 1
        lines = super().lapses(day)
        self.term = self.term and self.term - 1
        return lines


class OneAnswerIsLost(Engine):
    def begin(self) -> None:
        self.answers = self.answers[1:]


class AcceptingKeepsOffers(Engine):
    def answer(self, day: int, kind: str, target: int) -> None:
        super().answer(day, kind, target) if kind != "accept" else self.become(target, "accepted", day, 0)


class QuittingKeepsWhatWaits(Engine):
    def answer(self, day: int, kind: str, target: int) -> None:
        for number in self.wishes_of(target, *LIVE) if kind == "quit" else ():
            self.become(number, "quit", day, 0)
        if kind != "quit":
            super().answer(day, kind, target)


class OnePassADay(Engine):
    def run_pass(self, day: int, turn: int) -> tuple[list[str], bool]:
        return super().run_pass(day, turn)[0], False


class APassMore(Engine):
    def run_pass(self, day: int, turn: int) -> tuple[list[str], bool]:
        lines, goes_on = super().run_pass(day, turn)
        return lines, goes_on or turn == 1


class CeilingsADayLate(Engine):
    def ceilings(self, day: int) -> Bars:
        return super().ceilings(day - 1)


WRONG_ENGINES = Engine.__subclasses__()


def without_names(text: bytes) -> bytes:
    """The text without the wishes that its falls name, of which any of a candidate's may stand."""
    return re.sub(rb"(?m)^(fall \d+ \d+ \d+) .*$", rb"\1", text)


def check_wrong_rules(tally: Tally) -> None:
    tally.begin(f"recheck: {len(WRONG_ENGINES)} engines with one rule wrong, on {CAMPAIGNS} odd campaigns")
    random, tried = Random(SEED), Counter[str]()
    for number in range(CAMPAIGNS):
        term, first_day = random.choice((None, 0, 1, 2)), random.choice(FIRST_DAYS)
        dossier, days = odd_dossier(random, first_day), random.randint(1, 4)
        with scratch() as place:
            rules = Told(dossier.rows, first_day, term)
            for day in range(1, days + 1):
                dossier.rows["answers"] = rules.answers = [*rules.answers, *rules.answers_of(random, day)]
                rules.run_day(day)
            dossier.write(place / "slots")
            words = () if term is None else ("--start", str(first_day), "--term", str(term))
            right = Engine(dossier.rows, first_day, term, 0).text(days)
            tally.equal(f"campaign {number}: right", told(place / "slots", right, words), (RIGHT, right.count(b"\n")))
            for engine in WRONG_ENGINES:
                text = engine(dossier.rows, first_day, term, number).text(days)
                if without_names(text) != without_names(right):
                    tried[engine.__name__] += 1
                    found = told(place / "slots", text, words)[0]
                    tally.equal(f"campaign {number}, {engine.__name__}", found, WRONG)
    seldom = [engine.__name__ for engine in WRONG_ENGINES if not tried[engine.__name__]]
    tally.check("each of them was wrong somewhere", not seldom and sum(tried.values()) >= LEAST_TRIED, (seldom, tried))
