"""What a line of `explain` leaves to its reader: how its wish and its school are called, and when its days were."""

from collections.abc import Callable
from dataclasses import dataclass
from datetime import date

from .explanation import Stamp

Day = int | date


@dataclass(frozen=True)
class Moment:
    """When a wish changed: on the day, or at some time before it."""

    day: Day
    is_before: bool = False


@dataclass(frozen=True)
class Deadline:
    """The last day on which an offer can be answered, and whether that day is over."""

    day: Day
    is_over: bool = False


def moment_of_run(stamp: Stamp) -> Moment:
    """The days of a run have numbers and no dates; what came in with the dossier changed before the first."""
    return Moment(1, is_before=True) if stamp.day == 0 else Moment(stamp.day)


@dataclass(frozen=True)
class Setting:
    """How wishes and schools are called, when a stamp was, by when an offer is to be answered, where that is known,
    whether it may lapse at all; whether the candidate uses the automatic answerer, and whether the wish is with
    boarding, where these are known."""

    wish: Callable[[int], str] = str
    school: Callable[[int], str] = str
    moment: Callable[[Stamp], Moment] = moment_of_run
    deadline: Deadline | None = None
    may_lapse: bool = True
    has_answerer: bool | None = None
    has_boarding: bool | None = None


OF_A_RUN = Setting()
