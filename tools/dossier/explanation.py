"""The one line of `explain` as data. A line that the program cannot have written is refused."""

import re
from dataclasses import dataclass
from enum import Enum

from .slots import GREATEST_DAY, GREATEST_NUMBER

GREATEST_COUNT = 16_000_000


class Gone(Enum):
    """How a wish ended."""

    REFUSED = "refused"
    WITHDRAWN = "withdrawn"
    QUIT = "quit"
    AUTO_REFUSED = "auto_refused"
    AUTO_WITHDRAWN = "auto_withdrawn"
    LAPSED = "lapsed"

    @property
    def is_automatic(self) -> bool:
        return self in (Gone.AUTO_REFUSED, Gone.AUTO_WITHDRAWN)


@dataclass(frozen=True)
class Stamp:
    """When a wish last changed: day 0 before the first day, pass 0 by an answer or a lapse."""

    day: int
    turn: int


@dataclass(frozen=True)
class GoneWish:
    wish: int
    how: Gone
    stamp: Stamp


@dataclass(frozen=True)
class OfferedWish:
    wish: int
    stamp: Stamp


@dataclass(frozen=True)
class AcceptedWish:
    wish: int
    stamp: Stamp

    @property
    def is_by_answerer(self) -> bool:
        return self.stamp.turn > 0


@dataclass(frozen=True)
class BarredWish:
    """A wish whose rank in the school is past the bar; `beds` is none where the bar stands at the ceiling."""

    wish: int
    school: int
    rank: int
    bar: int
    beds: int | None


@dataclass(frozen=True)
class CallLimit:
    position: int
    limit: int


@dataclass(frozen=True)
class SeatlessWish:
    wish: int
    ahead: int
    left: int
    call_limit: CallLimit | None


@dataclass(frozen=True)
class UnknownWish:
    wish: int


Explanation = GoneWish | OfferedWish | AcceptedWish | BarredWish | SeatlessWish | UnknownWish

NUMBER = r"(0|[1-9][0-9]{0,9})"
STAMP = rf" day {NUMBER} pass {NUMBER}"
GONE = re.compile(rf"wish {NUMBER} gone ([a-z_]+){STAMP}")
OFFERED = re.compile(rf"wish {NUMBER} live offered{STAMP}")
ACCEPTED = re.compile(rf"wish {NUMBER} live accepted{STAMP}")
BARRED = re.compile(rf"wish {NUMBER} barred school {NUMBER} rank {NUMBER} bar {NUMBER} (?:ceiling|full {NUMBER})")
SEATLESS = re.compile(rf"wish {NUMBER} noseat ahead {NUMBER} left {NUMBER}(?: position {NUMBER} limit {NUMBER})?")
UNKNOWN = re.compile(rf"no such wish {NUMBER}")


def explanation_of(line: str) -> Explanation | None:
    """The explanation that the line gives; none where the program writes no such line."""
    found = _matched(line)
    return found if found is not None and _can_be(found) else None


def _matched(line: str) -> Explanation | None:
    if match := GONE.fullmatch(line):
        wish, status, day, turn = match.groups()
        return GoneWish(int(wish), Gone(status), _stamp(day, turn)) if status in {how.value for how in Gone} else None
    if match := OFFERED.fullmatch(line):
        return OfferedWish(int(match[1]), _stamp(match[2], match[3]))
    if match := ACCEPTED.fullmatch(line):
        return AcceptedWish(int(match[1]), _stamp(match[2], match[3]))
    if match := BARRED.fullmatch(line):
        wish, school, rank, bar = map(int, match.groups()[:4])
        return BarredWish(wish, school, rank, bar, None if match[5] is None else int(match[5]))
    if match := SEATLESS.fullmatch(line):
        call_limit = None if match[4] is None else CallLimit(int(match[4]), int(match[5]))
        return SeatlessWish(int(match[1]), int(match[2]), int(match[3]), call_limit)
    if match := UNKNOWN.fullmatch(line):
        return UnknownWish(int(match[1]))
    return None


def _stamp(day: str, turn: str) -> Stamp:
    return Stamp(int(day), int(turn))


def _can_be(found: Explanation) -> bool:
    """Whether the rules leave room for it."""
    if not 1 <= found.wish <= GREATEST_NUMBER:
        return False
    match found:
        case GoneWish(how=how, stamp=stamp):
            return _is_stamp(stamp) and (stamp.day == 0 or how.is_automatic == (stamp.turn > 0))
        case OfferedWish(stamp=stamp):
            return _is_stamp(stamp) and (stamp.day == 0 or stamp.turn > 0)
        case AcceptedWish(stamp=stamp):
            return _is_stamp(stamp)
        case BarredWish(school=school, rank=rank, bar=bar, beds=beds):
            return 1 <= school <= GREATEST_NUMBER and bar < rank <= GREATEST_NUMBER and (beds or 0) <= GREATEST_NUMBER
        case SeatlessWish(ahead=ahead, left=left, call_limit=limit):
            beyond = limit is None or 1 <= limit.limit < limit.position <= GREATEST_COUNT
            return left <= ahead < GREATEST_COUNT and beyond
        case UnknownWish():
            return True


def _is_stamp(stamp: Stamp) -> bool:
    return stamp.day <= GREATEST_DAY and (stamp.day > 0 or stamp.turn == 0)
