"""The rules once more, from the words of docs/RULES.md alone and as slowly as they read: for small dossiers.

It shares nothing with the program or with `recheck`. Where the page says "how many", this counts them one by one.
"""

from collections.abc import Iterable
from dataclasses import dataclass
from datetime import date, timedelta

from dossier.records import Wish

from .dossiers import Rows

LIVE = ("offered", "accepted")
OPEN = ("waiting", *LIVE)
Bars = dict[int, int]
Fall = tuple[int, int, int, list[int]]  # the school, the bar before and after, and the wishes that show the ranks


@dataclass(frozen=True)
class Ranked:
    """A candidate in a ranking."""

    rank: int
    candidate: int
    scholar: int
    resident: int


def call_order(ranking: Iterable[Ranked], scholar_pct: int, resident_pct: int) -> tuple[list[int], list[str]]:
    """The call order of a ranking, and the letters of what bound at each position."""
    remain, order, letters = sorted(ranking, key=lambda each: each.rank), [], []
    scholars = residents = 0
    while remain:
        calls = len(order) + 1
        kinds = {"-": remain, "s": [each for each in remain if each.scholar],
                 "r": [each for each in remain if each.resident],
                 "b": [each for each in remain if each.scholar and each.resident]}
        binds = {"s": bool(kinds["s"]) and 100 * scholars < scholar_pct * calls,
                 "r": bool(kinds["r"]) and 100 * residents < resident_pct * calls}
        letter = "b" if all(binds.values()) else next((kind for kind, holds in binds.items() if holds), "-")
        is_alone = letter == "b" and not kinds["b"]
        called = kinds["s" if is_alone else letter][0]
        remain.remove(called)
        order.append(called.candidate)
        letters.append("x" if is_alone else letter)
        scholars += called.scholar
        residents += called.resident
    return order, letters


class Rules:
    """A small dossier, and how its wishes stand as its days go by."""

    def __init__(self, rows: dict[str, Rows], start: date, term: int | None):
        self.start, self.term = start, term
        self.wishes = {row[0]: Wish(*row) for row in rows["wishes"]}
        self.candidates = list(dict.fromkeys(wish.candidate for wish in self.wishes.values()))
        self.group_of = {programme: group for programme, group, *_ in rows["programmes"]}
        self.seats = {programme: seats for programme, _, seats, *_ in rows["programmes"]}
        self.limits = {programme: limit[0] if limit else 0 for programme, _, _, *limit in rows["programmes"]}
        self.beds = {school: beds for school, beds, _ in rows["schools"]}
        self.rank = {(school, candidate): rank for school, candidate, rank in rows["boarding"]}
        self.orders = {group: call_order([Ranked(rank, candidate, *flags) for its, candidate, rank, *flags
                                          in rows["rankings"] if its == group], *rates)
                       for group, *rates in rows["groups"]}
        self.changes = [(0, school, ceiling) for school, _, ceiling in rows["schools"]] + rows["ceilings"]
        self.answers = rows["answers"]
        self.status = dict.fromkeys(self.wishes, "waiting") | {wish: status for wish, status, *_ in rows["state"]}
        self.stamp = dict.fromkeys(self.wishes, (0, 0))
        self.since = {wish: date.fromisoformat(since[0]) for wish, _, *since in rows["state"] if since and since[0]}
        # Of the last pass: why each wish waited, what `beds` says of each school, and the bars.
        self.opening: dict[int, str] = {}
        self.needs: dict[int, list[str]] = {}
        self.bars: Bars = {}

    # Seats and beds

    def live_in(self, **place: int) -> set[int]:
        """Who is live in a programme, or in a school."""
        return {wish.candidate for number, wish in self.wishes.items() if self.status[number] in LIVE
                and all(getattr(wish, name) == value for name, value in place.items())}

    def seats_left(self, programme: int) -> int:
        return max(0, self.seats[programme] - len(self.live_in(programme=programme)))

    def free_beds(self, school: int) -> int:
        return max(0, self.beds[school] - len(self.live_in(school=school)))

    def position(self, candidate: int, programme: int) -> int:
        return self.orders[self.group_of[programme]][0].index(candidate) + 1

    # Bars and proposed wishes

    def is_barred(self, number: int, bars: Bars) -> bool:
        wish = self.wishes[number]
        return self.status[number] == "waiting" and wish.school is not None \
            and wish.candidate not in self.live_in(school=wish.school) \
            and self.rank[wish.school, wish.candidate] > bars[wish.school]

    def is_open(self, number: int, bars: Bars) -> bool:
        return self.status[number] == "waiting" and not self.is_barred(number, bars)

    def ahead(self, number: int, bars: Bars) -> int:
        """How many candidates stand ahead of the wish."""
        wish = self.wishes[number]
        own = self.position(wish.candidate, wish.programme)
        there = self.live_in(programme=wish.programme)
        return len({other.candidate for place, other in self.wishes.items() if other.programme == wish.programme
                    and self.position(other.candidate, wish.programme) < own
                    and self.is_open(place, bars) and other.candidate not in there})

    def is_proposed(self, number: int, bars: Bars) -> bool:
        wish = self.wishes[number]
        return self.is_open(number, bars) and (
            wish.candidate in self.live_in(programme=wish.programme)
            or self.position(wish.candidate, wish.programme) <= self.limits[wish.programme]
            or self.ahead(number, bars) < self.seats_left(wish.programme))

    def demand(self, school: int, bars: Bars) -> dict[int, int]:
        """The demanded ranks of a school from the least, each with the first wish that shows it."""
        there = self.live_in(school=school)
        shown: dict[int, int] = {}
        for number, wish in self.wishes.items():
            if wish.school == school and wish.candidate not in there and self.is_proposed(number, bars):
                shown.setdefault(self.rank[school, wish.candidate], number)
        return dict(sorted(shown.items()))

    def greatest_bars(self, day: int) -> tuple[Bars, list[Fall]]:
        """The greatest bars under the day's ceilings, and the falls to them where the first overfilled one falls."""
        bars, falls = self.ceilings(day), []
        while True:
            demands = {school: self.demand(school, bars) for school in bars}
            over = [school for school in bars if len(demands[school]) > self.free_beds(school)]
            if not over:
                return bars, falls
            school, free = over[0], self.free_beds(over[0])
            bar = list(demands[school])[free] - 1
            falls.append((school, bars[school], bar, list(demands[school].values())[:free + 1]))
            bars[school] = bar

    def ceilings(self, day: int) -> Bars:
        return {school: ceiling for since, school, ceiling in self.changes if since <= day}

    # A day

    def become(self, number: int, status: str, *stamp: int) -> None:
        if self.status[number] != status:
            self.status[number], self.stamp[number] = status, stamp

    def offer_date(self, number: int) -> date:
        """The date of an offer: that of its day, or the one that it came in with."""
        day = self.stamp[number][0]
        return self.start + timedelta(days=day - 1) if day else \
            self.since.get(number, self.start - timedelta(days=1))

    def lapses(self, day: int) -> list[str]:
        """Lets offers lapse; their lines."""
        if self.term is None:
            return []
        deadlines = {number: self.offer_date(number) + timedelta(days=self.term) for number in self.wishes
                     if self.status[number] == "offered"}
        over = [number for number, deadline in deadlines.items() if deadline < self.start + timedelta(days=day - 1)]
        for number in over:
            self.become(number, "lapsed", day, 0)
        return [f"lapse {number} {deadlines[number]}" for number in over]

    def answer(self, day: int, kind: str, target: int) -> None:
        """Applies an answer that fits."""
        if kind == "quit":
            for number, wish in self.wishes.items():
                if wish.candidate == target and self.status[number] in OPEN:
                    self.become(number, "quit", day, 0)
            return
        after = {"accept": "accepted", "refuse": "refused", "withdraw": "withdrawn"}[kind]
        for number, wish in self.wishes.items():
            is_other = number != target and wish.candidate == self.wishes[target].candidate
            if kind == "accept" and is_other and self.status[number] in LIVE:
                self.become(number, "refused", day, 0)
        self.become(target, after, day, 0)

    def automatic_answers(self, day: int, turn: int) -> None:
        for candidate in self.candidates:
            own = sorted((wish.preference, number) for number, wish in self.wishes.items()
                         if wish.candidate == candidate and wish.preference)
            has_better = False
            for _, number in own:
                if self.status[number] in LIVE:
                    self.become(number, "auto_refused" if has_better else "accepted", day, turn)
                    has_better = True
                elif self.status[number] == "waiting" and has_better:
                    self.become(number, "auto_withdrawn", day, turn)

    def seats_and_beds(self) -> tuple[set[tuple[int, int]], set[tuple[int, int]]]:
        """Who has a seat where, and who has a bed where."""
        return ({(each, programme) for programme in self.seats for each in self.live_in(programme=programme)},
                {(each, school) for school in self.beds for each in self.live_in(school=school)})

    def run_pass(self, day: int, turn: int) -> tuple[list[str], bool]:
        """The lines of a pass, and whether its automatic answers freed something."""
        self.bars, falls = self.greatest_bars(day)
        self.opening = {number: self.why_waiting(number, day) for number in self.wishes
                        if self.status[number] == "waiting"}
        self.needs = {school: self.need(school, day) for school in self.beds}
        offered = [number for number in self.wishes if self.is_proposed(number, self.bars)]
        for number in offered:
            self.become(number, "offered", day, turn)
        before, held = dict(self.status), self.seats_and_beds()
        self.automatic_answers(day, turn)
        freed = [len(had - has) for had, has in zip(held, self.seats_and_beds())]
        changed = [number for number in self.wishes if self.status[number] != before[number]]
        return [f"pass {turn}",
                *(f"fall {school} {old} {new} {' '.join(map(str, shown))}" for school, old, new, shown in falls),
                *(f"bar {school} {self.bars[school]}" for school in self.beds),
                *(f"offer {number}" for number in offered),
                *(f"auto {number} {self.status[number]}" for number in changed),
                f"freed {freed[0]} {freed[1]}"], any(freed)

    def run_day(self, day: int) -> list[str]:
        """The lines of a day whose answers fit."""
        lines = [f"day {day}", *self.lapses(day)]
        for _, kind, target in (answer for answer in self.answers if answer[0] == day):
            self.answer(day, kind, target)
        turn, goes_on = 0, True
        while goes_on:
            turn += 1
            told, goes_on = self.run_pass(day, turn)
            lines += told
        return [*lines, *(f"left {programme} {self.seats_left(programme)}" for programme in self.seats),
                *(f"free {school} {self.free_beds(school)}" for school in self.beds)]

    # What the modes say

    def call_orders(self) -> list[str]:
        return [line for group, (order, letters) in self.orders.items()
                for line in (" ".join([f"order {group}:", *map(str, order)]), " ".join([f"rule {group}:", *letters]))]

    def final(self) -> list[str]:
        dated = self.term is not None
        since = {number: f",{self.offer_date(number) if self.status[number] == 'offered' else ''}" if dated else ""
                 for number in self.wishes}
        return ["final", f"wish,status{',since' if dated else ''}",
                *(f"{number},{self.status[number]}{since[number]}" for number in self.wishes)]

    def why_waiting(self, number: int, day: int) -> str:
        """Why a wish waits, in the opening of a pass."""
        wish, bars = self.wishes[number], self.bars
        if wish.school is not None and self.is_barred(number, bars):
            bar, rank = bars[wish.school], self.rank[wish.school, wish.candidate]
            cause = "ceiling" if bar == self.ceilings(day)[wish.school] else f"full {self.beds[wish.school]}"
            return f"barred school {wish.school} rank {rank} bar {bar} {cause}"
        limit = self.limits[wish.programme]
        beyond = f" position {self.position(wish.candidate, wish.programme)} limit {limit}" if limit else ""
        return f"noseat ahead {self.ahead(number, bars)} left {self.seats_left(wish.programme)}{beyond}"

    def explained(self, number: int) -> str:
        status, (day, turn) = self.status[number], self.stamp[number]
        if status == "waiting":
            return f"wish {number} {self.opening[number]}"
        return f"wish {number} {'live' if status in LIVE else 'gone'} {status} day {day} pass {turn}"

    def blocks(self) -> list[str]:
        """The wishes that block the evening, and whom they envy."""
        lines = []
        for number, wish in self.wishes.items():
            gave_up = self.status[number] not in ("waiting", "auto_refused", "auto_withdrawn")
            there = self.live_in(programme=wish.programme)
            better = any(self.status[place] in LIVE and other.preference < wish.preference
                         for place, other in self.wishes.items() if other.candidate == wish.candidate)
            if wish.school is not None or not wish.preference or gave_up or wish.candidate in there or better:
                continue
            own = self.position(wish.candidate, wish.programme)
            later = [(self.position(each, wish.programme), each) for each in there
                     if self.position(each, wish.programme) > own]
            left = self.seats_left(wish.programme)
            if left or later:
                lines.append(f"block {number} left {left}{f' envies {max(later)[1]}' if later else ''}")
        return [*lines, f"blocks {len(lines)}"]

    def need(self, school: int, day: int) -> list[str]:
        """What `beds` says of a school in the opening of a pass: the need, tried from no bed on, and the bars."""
        own = self.beds
        need = 0
        while self.bars_with(own | {school: need}, day)[school] < self.ceilings(day)[school]:
            need += 1
        bars = self.bars_with(own | {school: max(need, own[school])}, day)
        return [f"school {school} beds {own[school]} need {need}",
                *(f"bar {each} {self.bars[each]} {bars[each]}" for each in own)]

    def bars_with(self, beds: dict[int, int], day: int) -> Bars:
        own, self.beds = self.beds, beds
        bars, _ = self.greatest_bars(day)
        self.beds = own
        return bars
