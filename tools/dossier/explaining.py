"""Why wishes stand as they do, in the evening of the last day that `next_day` made: said by the program, of its record.

The program explains each wish from the slots as they were for that day. Its days are told as those of the campaign: a
stamp of the day itself as that day, and where a wish changed earlier, by the record of the day on which it did.
"""

import gc
import sys
import tempfile
from dataclasses import dataclass, replace
from datetime import date, timedelta
from pathlib import Path

from . import program
from .campaign import unread
from .explanation import AcceptedWish, Explanation, GoneWish, OfferedWish, Stamp, explanation_of
from .faults import shown
from .naming import Names, names_in
from .records import OFFERED, WAITS, KeptDay, Wish, made_days, wishes_in
from .setting import Day, Deadline, Moment, Setting
from .slots import Thing
from .stops import MEANT, MEANT_ALONE, NO_CAMPAIGN, Stopped
from .telling import LANGUAGES, sentences
from .texts import Filled, Language, Text, said, spaced
from .wording import Words, language_here
from .writing import is_folder, named_folder, stop_cleanly, write_whole

SAID, NOT_THERE = 0, 1
NO_WISH = Text("there is no wish {id} in the dossier; {instead}",
               "il n'y a pas de vœu {id} dans le dossier ; {instead}")
IS_CANDIDATE = Text("it has a candidate of that id: name them behind --candidate.",
                    "il y a un candidat de cet identifiant : nommez-le derrière --candidate.")
GIVE_WISH = Text("give the id of its sheet, or its number.", "donnez son identifiant dans la feuille, ou son numéro.")
NO_CANDIDATE = Text("no wish is of a candidate {id}; {instead}", "aucun vœu n'est d'un candidat {id} ; {instead}")
IS_WISH = Text("there is a wish of that id: leave --candidate out.",
               "il y a un vœu de cet identifiant : ne mettez pas --candidate.")
GIVE_CANDIDATE = Text("give the id of the sheets, or the number.",
                      "donnez son identifiant dans les feuilles, ou son numéro.")


class NotThere(LookupError):
    """What was asked about and is not in the dossier."""

    def __init__(self, what: Filled):
        super().__init__(what)
        self.what = what


def asked_wishes(given: list[str], candidates: list[str], wishes: list[Wish], names: Names) -> list[Wish]:
    """The wishes that the words name, and those of the candidates; raises NotThere with what is not there."""
    by_number = {wish.wish: wish for wish in wishes}
    by_candidate: dict[int, list[Wish]] = {}
    for wish in wishes:
        by_candidate.setdefault(wish.candidate, []).append(wish)
    found = []
    for word in given:
        number = names.number(Thing.WISH, word)
        if number not in by_number:
            is_candidate = names.number(Thing.CANDIDATE, word) in by_candidate
            raise NotThere(NO_WISH.of(id=shown(word), instead=IS_CANDIDATE if is_candidate else GIVE_WISH))
        found.append(by_number[number])
    for word in candidates:
        number = names.number(Thing.CANDIDATE, word)
        if number not in by_candidate:
            is_wish = names.number(Thing.WISH, word) in by_number
            raise NotThere(NO_CANDIDATE.of(id=shown(word), instead=IS_WISH if is_wish else GIVE_CANDIDATE))
        found += by_candidate[number]
    return list(dict.fromkeys(found))


@dataclass(frozen=True)
class Evening:
    """The evening of the last day that was made, and the days before it."""

    days: list[KeptDay]
    names: Names

    @property
    def last(self) -> KeptDay:
        return self.days[-1]

    def day(self, number: int) -> Day:
        """A day of the campaign: its date where there are dates, else its number."""
        calendar = self.last.calendar
        return calendar.today - timedelta(days=calendar.day - number) if calendar.today else number

    def changed(self, wish: int, stamp: Stamp) -> tuple[Moment, int]:
        """When the wish came to stand as it does, and in which pass. The program's stamp has the last day as day 1."""
        if stamp.day > 0:
            return Moment(self.day(self.last.number)), stamp.turn
        held = self.last.before.get(wish, WAITS)
        for day, later in zip(self.days[-2::-1], self.days[:0:-1]):
            # What changed between two records, by hand or on a day whose record is gone, is told as before the later.
            # So is all that is older than the wishes of the last day: the number may have been another's.
            if day.after.get(wish, WAITS).status != held.status or not day.had_wishes_of(self.last):
                return self.before(later, wish), 0
            if day.before.get(wish, WAITS).status != held.status:
                return Moment(self.day(day.number)), day.last_passes.get(wish, 0)
        return self.before(self.days[0], wish), 0

    def before(self, day: KeptDay, wish: int) -> Moment:
        """Some time before the day; of an offer whose date the state has, that date. The day before day 1 is what the
        program writes where the dossier gave none, so from day 2 on it tells nothing."""
        held = day.before.get(wish, WAITS)
        is_given = held.status == OFFERED and bool(held.since) and self.last.calendar.today is not None
        if is_given and (day.number == 1 or held.since != str(self.day(0))):
            return Moment(date.fromisoformat(held.since))
        return Moment(self.day(day.number), is_before=True)

    def deadline(self, wish: int) -> Deadline | None:
        """By when an offer is to be answered: its date, which the state has, and the term."""
        calendar = self.last.calendar
        since = self.last.after[wish].since
        if calendar.today is None or calendar.term is None or not since:
            return None
        limit = date.fromisoformat(since) + timedelta(days=calendar.term)
        return Deadline(limit, is_over=limit <= calendar.today)

    def told(self, wish: Wish, found: Explanation, language: Language) -> list[str]:
        """The sentences of a wish's explanation, with the ids of the exports and the days of the campaign."""
        moment = Moment(self.day(self.last.number))
        if isinstance(found, AcceptedWish | GoneWish | OfferedWish):
            moment, turn = self.changed(found.wish, found.stamp)
            found = replace(found, stamp=Stamp(found.stamp.day, turn))
        setting = Setting(
            lambda wish: self.names.spelled(Thing.WISH, wish), lambda school: self.names.spelled(Thing.SCHOOL, school),
            lambda _: moment, self.deadline(found.wish) if isinstance(found, OfferedWish) else None,
            self.last.calendar.today is not None, wish.preference > 0, bool(wish.school))
        return sentences(found, setting, language)


def explained(wish: Wish, day: KeptDay, slots: Path) -> Explanation:
    """What the program says of a wish on that day."""
    with tempfile.TemporaryFile() as output:
        status = program.run(["explain", "--wish", str(wish.wish), *day.calendar.words()], slots, output)
        output.seek(0)
        line = output.read().decode(errors="replace")
    found = explanation_of(line.removesuffix("\n"))
    if status != program.DONE or found is None:
        raise Stopped(status if 0 < status < 256 else program.READ_FAULT,
                      (MEANT if line else MEANT_ALONE).of(meaning=program.meaning(status), status=status,
                                                          line=shown(line)))
    return found


def paragraphs(asked: list[Wish], evening: Evening, dossier: Path, language: Language) -> list[str]:
    """A heading for the evening, and a paragraph for each wish."""
    day, words_of = evening.last, LANGUAGES[language]
    told = [words_of.evening(evening.day(day.number), day.number)]
    with tempfile.TemporaryDirectory(prefix="why.") as place:
        day.put_slots(dossier, Path(place))
        for wish in asked:
            found = explained(wish, day, Path(place))
            spelled = evening.names.spelled
            heading = words_of.heading(spelled(Thing.WISH, wish.wish), spelled(Thing.CANDIDATE, wish.candidate),
                                       spelled(Thing.PROGRAMME, wish.programme),
                                       spelled(Thing.SCHOOL, wish.school) if wish.school else None)
            told.append(spaced(heading, language) + "\n" + " ".join(evening.told(wish, found, language)))
    return told


def words() -> Words:
    parser = Words(
        "why",
        "Says why wishes stand as they do in the evening of the last day that next_day made in FOLDER, in plain "
        "sentences. What is said is what the program explains of that day, from its record.",
        "Status: 0 said, 1 no such wish or candidate, 2 bad words, 3 not read, 4 not written; else the program's.")
    parser.add_argument("folder", type=named_folder, metavar="FOLDER", help="the folder that next_day keeps")
    parser.add_argument("words", nargs="*", metavar="WISH",
                        help="wishes, each by its id or its number; a last word fr or en is the language, "
                        "else that of the surroundings")
    parser.add_argument("--candidate", action="append", default=[], metavar="C",
                        help="all wishes of this candidate; may be given again")
    return parser


def main(arguments: list[str]) -> int:
    parser = words()
    given = parser.of(arguments)
    *wishes, last = given.words or [""]
    language: Language = "fr" if last == "fr" else "en" if last == "en" else language_here()
    wishes += [last] if last and last not in LANGUAGES else []
    if not wishes and not given.candidate:
        parser.bad("name a wish, or a candidate with --candidate")
    try:
        stop_cleanly()
        gc.disable()
        return tell(given.folder, wishes, given.candidate, language)
    except NotThere as error:
        print(f"why: {said(error.what, language)}", file=sys.stderr)
        return NOT_THERE
    except Stopped as stop:
        print(f"why: {stop.said(language)}", file=sys.stderr)
        return stop.status
    except OSError as error:
        stop = unread(error)
        print(f"why: {stop.said(language)}", file=sys.stderr)
        return stop.status


def tell(folder: Path, wishes: list[str], candidates: list[str], language: Language) -> int:
    if not is_folder(folder):
        raise Stopped(program.READ_FAULT, NO_CAMPAIGN.of(folder=folder))
    evening = Evening(made_days(folder), names_in(folder))
    asked = asked_wishes(wishes, candidates, wishes_in(folder), evening.names)
    told = "\n\n".join(paragraphs(asked, evening, folder, language)) + "\n"
    return SAID if write_whole("why", told) else program.WRITE_FAULT
