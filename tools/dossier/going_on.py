"""The words of `next_day`, and its messages."""

import os
import re
import sys
from argparse import ArgumentTypeError
from contextlib import suppress
from datetime import date
from pathlib import Path

from . import program
from .campaign import CALENDAR, next_day
from .dating import FIRST_YEAR, LAST_YEAR, Calendar
from .faults import shown
from .stops import NO_DOSSIER, Stopped
from .texts import Filled, Text
from .wording import Words, language_here
from .writing import Told, is_folder, named_folder, say, stop_cleanly

LONGEST_TERM = 366
PLAIN_DATE = re.compile(r"[0-9]{4}-[0-9]{2}-[0-9]{2}")
GO_ON = Text("Nothing is lost: {day}, and the next call makes it.",
             "Rien n'est perdu : {day}, et le prochain appel le joue.")
COMING = Text("{calendar} says which day is coming", "{calendar} dit quel jour vient")
FIRST_IS_COMING = Text("day 1 is coming still", "le jour 1 est encore à venir")
NOT_DONE = Text("{file}: {error}. {go_on}", "{file} : {error}. {go_on}")
TOLD_TO_STOP = Text("stopped. {go_on}", "arrêté. {go_on}")


def start_date(text: str) -> date:
    with suppress(ValueError):
        found = date.fromisoformat(text)
        if PLAIN_DATE.fullmatch(text) and FIRST_YEAR <= found.year <= LAST_YEAR:
            return found
    raise ArgumentTypeError(f"{shown(text)} is no date as 2026-06-02, of a year from {FIRST_YEAR} to {LAST_YEAR}")


def term_of_days(text: str) -> int:
    if text.isascii() and text.isdigit() and int(text) <= LONGEST_TERM:
        return int(text)
    raise ArgumentTypeError(f"{shown(text)} is no number of days from 0 to {LONGEST_TERM}")


def words() -> Words:
    parser = Words(
        "next_day",
        "Runs the coming day of the dossier in FOLDER, keeps its record in FOLDER/days, and makes the slots those of "
        "the day after. A day that was stopped half way is ended, and no other is begun.",
        "Status: 0 the day is made; otherwise nothing is lost, and the status is the program's, or 2 for bad words, 3 "
        "where the folder cannot be read, 4 where it cannot be written.")
    parser.add_argument("folder", type=named_folder, metavar="FOLDER", help="the folder of the nine slots")
    parser.add_argument("--start", type=start_date, metavar="DATE",
                        help="the date of day 1, when the campaign begins with deadlines")
    parser.add_argument("--term", type=term_of_days, metavar="N",
                        help="the days that an offer stands after its own; given with --start")
    parser.add_argument("--lang", choices=("en", "fr"), default=language_here(),
                        help="the language of what is said; else that of the surroundings")
    return parser


def go_on(folder: Path) -> Filled:
    """What to do after a stop, which may have come when the day was made already."""
    coming = folder / CALENDAR
    return GO_ON.of(day=COMING.of(calendar=coming) if os.path.exists(coming) else FIRST_IS_COMING)


def main(arguments: list[str]) -> int:
    given = words().of_campaign(arguments)

    def complain(why: Filled) -> None:
        print(f"next_day: {why.said(given.lang)}", file=sys.stderr)

    if not is_folder(given.folder):
        complain(NO_DOSSIER.of(folder=given.folder))
        return program.READ_FAULT
    try:
        stop_cleanly()
        told = next_day(given.folder, Calendar(1, given.start, given.term))
    except Stopped as stop:
        complain(stop.why)
        return stop.status
    except OSError as error:
        complain(NOT_DONE.of(file=error.filename or given.folder, error=error.strerror, go_on=go_on(given.folder)))
        return program.READ_FAULT if isinstance(error, FileNotFoundError) else program.WRITE_FAULT
    except Told as stop:
        complain(TOLD_TO_STOP.of(go_on=go_on(given.folder)))
        return stop.status
    say("next_day", told.said(given.lang))
    return program.DONE
