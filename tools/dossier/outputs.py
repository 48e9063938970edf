"""What a campaign has come to, as tables for people: their titles, their rows, and how spreadsheets open them."""

import csv
import io
from collections.abc import Iterable, Iterator
from dataclasses import dataclass
from datetime import date, timedelta
from typing import NamedTuple

from .cells import IN_ENGLISH, IN_FRENCH
from .labels import Labels
from .naming import Names
from .records import OFFERED, WAITING, WAITS, Held, KeptDay, Wish
from .slots import Thing
from .texts import Language, Text

FORMULAS = ("=", "+", "-", "@", "\t", "\r")
Row = list[object]

WISH = Text("Wish", "Vœu")
CANDIDATE = Text("Candidate", "Candidat")
PROGRAMME = Text("Programme", "Formation")
SCHOOL = Text("Boarding school", "Internat")
LABELS = {Thing.CANDIDATE: Text("Name of the candidate", "Nom du candidat"),
          Thing.PROGRAMME: Text("Name of the programme", "Nom de la formation"),
          Thing.SCHOOL: Text("Name of the boarding school", "Nom de l'internat")}
PREFERENCE = Text("Preference", "Préférence")
STATUS = Text("Status", "Statut")
STATUS_THEN = Text("Status that evening", "Statut ce soir-là")
SINCE = Text("Offer of", "Proposition du")
ANSWER_BY = Text("Answer by", "Réponse au plus tard le")
CALL = Text("Place in the call order", "Position dans l'ordre d'appel")
QUEUE = Text("Place in the waiting list", "Position dans la liste d'attente")
RANK = Text("Rank", "Rang")
SCHOLAR = Text("Scholar", "Boursier")
RESIDENT = Text("Resident", "Secteur")
DAY = Text("Day", "Jour")
DATE = Text("Date", "Date")
PASS = Text("Pass", "Passage")
BAR = Text("Bar", "Barre")
FLAGS = {"en": ("no", "yes"), "fr": ("non", "oui")}
STATUSES = {"en": IN_ENGLISH, "fr": IN_FRENCH}


@dataclass(frozen=True)
class Dialect:
    """How a table is written for a spreadsheet."""

    separator: str
    codec: str
    mark: bytes
    line_end: str

    def bytes_of(self, rows: Iterable[Row]) -> bytes:
        text = io.StringIO(newline="")
        csv.writer(text, delimiter=self.separator, lineterminator=self.line_end).writerows(rows)
        return self.mark + text.getvalue().encode(self.codec)

    def written(self, rows: Iterable[Row]) -> Iterator[bytes]:
        """The bytes of the rows, which are made when they are asked for."""
        yield self.bytes_of(rows)


DIALECTS = {
    "semicolons": Dialect(";", "utf-8", b"\xef\xbb\xbf", "\r\n"),
    "commas": Dialect(",", "utf-8", b"\xef\xbb\xbf", "\r\n"),
    "tabs": Dialect("\t", "utf-16-le", b"\xff\xfe", "\r\n"),
    "plain": Dialect(",", "utf-8", b"", "\n"),
}


def harmless(name: str) -> str:
    """An id or a name that no spreadsheet takes for a formula."""
    return f"'{name}" if name.startswith(FORMULAS) else name


class Ranked(NamedTuple):
    """A candidate in a group's ranking."""

    rank: int
    scholar: int
    resident: int


@dataclass(frozen=True)
class Campaign:
    """What the tables tell of: the days that were made, the wishes, the lists, and what everything is called."""

    days: list[KeptDay]
    wishes: list[Wish]
    groups: dict[int, int]  # of the programmes
    rankings: dict[tuple[int, int], Ranked]  # by group and candidate
    boarding: dict[int, dict[int, int]]  # of the schools, the rank of each candidate
    names: Names
    labels: Labels
    language: Language

    def said(self, text: Text) -> str:
        return text.of().said(self.language)

    def titles(self, *texts: Text) -> Row:
        """The titles of a table; beside ids stand names where a file has them."""
        things = {CANDIDATE: Thing.CANDIDATE, PROGRAMME: Thing.PROGRAMME, SCHOOL: Thing.SCHOOL}
        row: Row = []
        for text in texts:
            row.append(self.said(text))
            if text in things and things[text] in self.labels:
                row.append(self.said(LABELS[things[text]]))
        return row

    def id_cells(self, thing: Thing, number: int | None, is_known: bool = True) -> Row:
        """An id as the sheets have it, with its name where a file has names; the number alone where it is not known for
        which id it stood."""
        labels = self.labels.get(thing)
        if number is None:
            return [""] if labels is None else ["", ""]
        spelled = harmless(self.names.spelled(thing, number)) if is_known else number
        return [spelled] if labels is None else [spelled, harmless(labels.get(number, "")) if is_known else ""]

    @property
    def last(self) -> KeptDay:
        return self.days[-1]

    def held(self, wish: int) -> Held:
        return self.last.after.get(wish, WAITS)

    def status_cells(self, wish: int) -> Row:
        """The status, the date of an offer, and the date to answer it by."""
        held = self.held(wish)
        if not held.since:
            return [STATUSES[self.language][held.status], "", ""]
        term = self.last.calendar.term
        by = date.fromisoformat(held.since) + timedelta(days=term) if term is not None else ""
        return [STATUSES[self.language][held.status], held.since, by]

    def calls(self) -> dict[int, dict[int, int]]:
        """The place of each candidate in each group's call order, as the program wrote it."""
        return {group: {candidate: place for place, candidate in enumerate(order, start=1)}
                for group, order in self.last.orders.items()}

    def queues(self, calls: dict[int, dict[int, int]]) -> dict[tuple[int, int], int]:
        """The place of each who waits for a programme among all who do, in its call order."""
        waiting: dict[int, set[int]] = {}
        for row in self.wishes:
            if self.held(row.wish).status == WAITING:
                waiting.setdefault(row.programme, set()).add(row.candidate)
        return {(programme, candidate): place for programme, candidates in waiting.items()
                for place, candidate in enumerate(sorted(candidates, key=calls[self.groups[programme]].__getitem__),
                                                  start=1)}


@dataclass(frozen=True)
class Tables:
    """The tables of a campaign, each with the rows below its titles."""

    campaign: Campaign
    calls: dict[int, dict[int, int]]
    queues: dict[tuple[int, int], int]

    def place_cells(self, row: Wish) -> Row:
        call = self.calls[self.campaign.groups[row.programme]][row.candidate]
        is_waiting = self.campaign.held(row.wish).status == WAITING
        return [call, self.queues[row.programme, row.candidate] if is_waiting else ""]

    def wishes(self) -> Iterator[Row]:
        campaign = self.campaign
        yield campaign.titles(WISH, CANDIDATE, PROGRAMME, SCHOOL, PREFERENCE, STATUS, SINCE, ANSWER_BY, CALL, QUEUE)
        for row in campaign.wishes:
            yield [*campaign.id_cells(Thing.WISH, row.wish), *campaign.id_cells(Thing.CANDIDATE, row.candidate),
                   *campaign.id_cells(Thing.PROGRAMME, row.programme), *campaign.id_cells(Thing.SCHOOL, row.school),
                   row.preference, *campaign.status_cells(row.wish), *self.place_cells(row)]

    def programme(self, number: int, rows: list[Wish]) -> Iterator[Row]:
        """A programme's wishes in the call order."""
        campaign = self.campaign
        group = campaign.groups[number]
        yield campaign.titles(CALL, CANDIDATE, RANK, SCHOLAR, RESIDENT, WISH, SCHOOL, PREFERENCE, STATUS, SINCE,
                              ANSWER_BY, QUEUE)
        for row in sorted(rows, key=lambda row: (self.calls[group][row.candidate], row.wish)):
            ranked = campaign.rankings[group, row.candidate]
            flags = FLAGS[campaign.language]
            call, queue = self.place_cells(row)
            yield [call, *campaign.id_cells(Thing.CANDIDATE, row.candidate), ranked.rank, flags[ranked.scholar],
                   flags[ranked.resident], *campaign.id_cells(Thing.WISH, row.wish),
                   *campaign.id_cells(Thing.SCHOOL, row.school), row.preference,
                   *campaign.status_cells(row.wish), queue]

    def school(self, number: int, rows: list[Wish]) -> Iterator[Row]:
        """A boarding school's wishes by its own ranking."""
        campaign = self.campaign
        ranks = campaign.boarding.get(number, {})
        yield campaign.titles(RANK, CANDIDATE, WISH, PROGRAMME, PREFERENCE, STATUS, SINCE, ANSWER_BY, CALL, QUEUE)
        for row in sorted(rows, key=lambda row: (ranks[row.candidate], row.wish)):
            yield [ranks[row.candidate], *campaign.id_cells(Thing.CANDIDATE, row.candidate),
                   *campaign.id_cells(Thing.WISH, row.wish), *campaign.id_cells(Thing.PROGRAMME, row.programme),
                   row.preference, *campaign.status_cells(row.wish), *self.place_cells(row)]

    def offers(self, day: KeptDay) -> Iterator[Row]:
        """The offers of a day, and how each stood in that day's evening. Whose they were is told where the wishes are
        as they were then."""
        campaign, has_ids = self.campaign, day.had_ids_of(self.campaign.last)
        by_wish = {row.wish: row for row in campaign.wishes} if day.had_wishes_of(campaign.last) else {}
        today, term = day.calendar.today, day.calendar.term
        by = today + timedelta(days=term) if today and term is not None else ""
        yield campaign.titles(PASS, WISH, CANDIDATE, PROGRAMME, SCHOOL, STATUS_THEN, ANSWER_BY)
        for number, wish in day.offers:
            row = by_wish.get(wish)
            candidate, programme, school = (row.candidate, row.programme, row.school) if row else (None, None, None)
            held = day.after[wish]
            yield [number, *campaign.id_cells(Thing.WISH, wish, has_ids),
                   *campaign.id_cells(Thing.CANDIDATE, candidate),
                   *campaign.id_cells(Thing.PROGRAMME, programme), *campaign.id_cells(Thing.SCHOOL, school),
                   STATUSES[campaign.language][held.status], by if held.status == OFFERED else ""]

    def bars(self) -> Iterator[Row]:
        """The bars of all passes of all days."""
        campaign = self.campaign
        yield campaign.titles(DAY, DATE, PASS, SCHOOL, BAR)
        for day in campaign.days:
            has_ids = day.had_ids_of(campaign.last)
            for number, school, bar in day.bars:
                yield [day.number, day.calendar.today or "", number,
                       *campaign.id_cells(Thing.SCHOOL, school, has_ids), bar]
