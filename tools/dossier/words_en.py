"""Explanations in English, said to the candidate: how the wish stands, then why, then what they can do."""

from datetime import date

from .explanation import AcceptedWish, BarredWish, Gone, GoneWish, OfferedWish, SeatlessWish, UnknownWish
from .setting import Day, Moment, Setting

MONTHS = ("January", "February", "March", "April", "May", "June", "July", "August", "September", "October", "November",
          "December")
ENDED = {
    Gone.REFUSED: "Its offer was refused {when}: you refused it, or you accepted another one.",
    Gone.WITHDRAWN: "You withdrew it {when}, while it was waiting.",
    Gone.QUIT: "You left the procedure {when}.",
    Gone.AUTO_REFUSED: "The automatic answerer gave it up {when}, because you had an offer that you prefer.",
    Gone.AUTO_WITHDRAWN: "The automatic answerer withdrew it {when}, because you had an offer that you prefer.",
    Gone.LAPSED: "Its offer had no answer in time, and lapsed {when}.",
}
OVER = "It cannot come back, and there is nothing to do about it. This says nothing of your other wishes."
OVER_WITH_ALL = "Leaving ends all wishes that one still has, and this one cannot come back."
WAIT_OR_WITHDRAW = "You can leave it waiting, or withdraw it."
NOTHING_TO_DO = {  # by whether the candidate uses the automatic answerer, where that is known
    True: "There is nothing to do: of the wishes that you prefer, those that wait go on waiting, and an offer for one "
          "of them would take the place of this one.",
    False: "There is nothing to do: your waiting wishes go on waiting, and if you accept another offer, this wish is "
           "refused.",
    None: "There is nothing to do: your waiting wishes go on waiting. If another offer is accepted, by you or by the "
          "automatic answerer, this wish is refused."}
STILL_REFUSE = "You can still refuse this place, but a wish that is refused never comes back."
STILL_REFUSE_ALL = ("You can still refuse this place, but a wish that is refused never comes back, nor do those that "
                    "the automatic answerer gave up for you.")
ANEW = "Each pass looks at your wish again."
A_BED_AND_A_SEAT = ("a bed for you and a seat left for you in the programme. You need no seat if you have one there "
                    "already, or are within its call limit")
SEAT_BY_ANOTHER = "You need no seat if another wish gets you one in the programme by then."
A_BED_TOO = {  # by whether the wish is with boarding, where that is known
    True: ["It takes a bed for you in the boarding school too.", SEAT_BY_ANOTHER],
    False: [],
    None: ["A wish with boarding takes a bed too.", SEAT_BY_ANOTHER]}


def of_day(day: Day) -> str:
    return f"{day.day} {MONTHS[day.month - 1]}" if isinstance(day, date) else f"day {day}"


def of_date(day: date) -> str:
    return f"{of_day(day)} {day.year}"


def when(moment: Moment) -> str:
    """When; of what changed before the days that were made, the dossier alone tells."""
    day = of_day(moment.day)
    return f"before {day}, as the dossier says" if moment.is_before else f"on {day}"


def evening(day: Day, number: int) -> str:
    """Which evening is spoken of."""
    return f"In the evening of {of_date(day)}, day {number} of the campaign." if isinstance(day, date) else \
        f"In the evening of day {number} of the campaign."


def heading(wish: str, candidate: str, programme: str, school: str | None) -> str:
    boarding = "without boarding" if school is None else f"with boarding at {school}"
    return f"Wish {wish} of candidate {candidate}, for {programme}, {boarding}:"


def gone(found: GoneWish, setting: Setting) -> list[str]:
    return [f"Wish {setting.wish(found.wish)} is over.",
            ENDED[found.how].format(when=when(setting.moment(found.stamp))),
            OVER_WITH_ALL if found.how is Gone.QUIT else OVER]


def offered(found: OfferedWish, setting: Setting) -> list[str]:
    told = [f"Wish {setting.wish(found.wish)} has an offer, which was made {when(setting.moment(found.stamp))}."]
    limit = setting.deadline
    if limit is not None and limit.is_over:
        return [*told, f"It was to be answered by {of_day(limit.day)}; that day is over, and the offer lapses when the "
                       "next day begins."]
    by = "by its deadline, if there is one" if limit is None else f"by {of_day(limit.day)}"
    lapse = f", {by}: after that it lapses, and is lost" if setting.may_lapse else ""
    return [*told, f"Accept it or refuse it{lapse}.",
            "If you accept it, your other offers are refused, and so is any wish that you accepted before; your waiting "
            "wishes go on waiting."]


def accepted(found: AcceptedWish, setting: Setting) -> list[str]:
    moment = when(setting.moment(found.stamp))
    by_whom = f"The automatic answerer accepted it for you {moment}." if found.is_by_answerer else \
        f"It was accepted {moment}."
    has_answerer = True if found.is_by_answerer else setting.has_answerer
    return [f"Wish {setting.wish(found.wish)} is accepted: the place is yours.", by_whom,
            NOTHING_TO_DO[has_answerer], STILL_REFUSE_ALL if has_answerer else STILL_REFUSE]


def barred(found: BarredWish, setting: Setting) -> list[str]:
    told = [f"Wish {setting.wish(found.wish)} is waiting: there is no offer."]
    school = f"Boarding school {setting.school(found.school)}"
    if found.beds is None:
        reach = "takes nobody in on this day" if found.bar == 0 else \
            f"takes nobody ranked after {found.bar} on this day"
        return [*told, f"{school} {reach}, by its ceiling, and your rank there is {found.rank}.",
                f"{ANEW} For an offer it takes a ceiling that reaches your rank, {A_BED_AND_A_SEAT}.", WAIT_OR_WITHDRAW]
    return [*told, f"{school} {fullness(found.beds)}. {reach_of(found)}, and your rank there is {found.rank}.",
            f"{ANEW} For an offer it takes {A_BED_AND_A_SEAT}.", WAIT_OR_WITHDRAW]


def fullness(beds: int) -> str:
    if beds == 0:
        return "has no beds"
    return "is full: its only bed is taken" if beds == 1 else f"is full: all of its {beds} beds are taken"


def reach_of(found: BarredWish) -> str:
    """Whom the bar stopped. Whoever it did not stop may have found no bed either; at 0 none was free."""
    if found.bar == 0 or found.beds == 0:
        return "In the last pass no bed was free"
    return f"In the last pass nobody ranked after {found.bar} could get a bed there"


def seatless(found: SeatlessWish, setting: Setting) -> list[str]:
    ahead = {0: "nobody came", 1: "1 candidate came"}.get(found.ahead, f"{found.ahead} candidates came")
    left = {0: "no seat was left", 1: "1 seat was left"}.get(found.left, f"{found.left} seats were left")
    told = [f"Wish {setting.wish(found.wish)} is waiting: there is no offer.",
            f"In the last pass {left} in the programme, and {ahead} before you for one."]
    if found.call_limit is not None:
        limit = found.call_limit
        first = "The first of its call order needs" if limit.limit == 1 else \
            f"The first {limit.limit} of its call order need"
        told.append(f"{first} no seat left, and you are number {limit.position}.")
    return [*told, "For an offer, more seats must be left than candidates come before you: seats come free when others "
                   "refuse or leave.", *A_BED_TOO[setting.has_boarding], WAIT_OR_WITHDRAW]


def unknown(found: UnknownWish, setting: Setting) -> list[str]:
    return [f"There is no wish {setting.wish(found.wish)} in the dossier.", "Check its number and ask again."]
