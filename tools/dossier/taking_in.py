"""The day's answers, from a sheet into the slot of a campaign."""

import os
import sys
from pathlib import Path

from . import program
from .answering import HEADER, Answer, SheetOfAnswers, answers_in, coming_day, tell_unfit
from .campaign import alone, test_file, test_files, unread
from .cells import DateOrder
from .dating import Calendar
from .decoding import Unreadable
from .faults import Faults, Row, shown
from .folders import Sheets, one_table
from .going_on import start_date, term_of_days
from .naming import names_in
from .preparing import chosen_column, chosen_titles, notes_on
from .records import wishes_in
from .slots import ANSWER_SHEET, ANSWERS
from .stops import AS_THEY_WERE, NO_DOSSIER, TAKING_STOPPED, Stopped
from .tables import Choices, Table
from .texts import Language, OfName, Text
from .values import things
from .wording import Words, language_here, one_of
from .writing import Told, csv_bytes, is_folder, named_folder, replace_file, say, stop_cleanly

DONE, FAULTY = 0, 1
TAKEN = Text("answers {of_file} for the coming day{dated}: {count}, for later days: {later}, there already: {known}.",
             "réponses {of_file} pour le jour qui vient{dated} : {count}, pour plus tard : {later}, déjà là : {known}.")
REPLACED = Text("answers that were there and are replaced: {count}.",
                "réponses qui y étaient et sont remplacées : {count}.")
LATER = Text("Whether an answer of a later day fits is told when that day comes.",
             "Si une réponse convient un jour plus lointain, on le saura ce jour-là.")


def words() -> Words:
    parser = Words(
        "take_in",
        "Takes the answers of SHEET (.csv, .tsv, .txt, .ods, .xlsx) into FOLDER/answers.csv. Each row has an answer, "
        "its wish or, to quit, its candidate, by id or number, and if it is not for the coming day its day or date. "
        "What does not fit on the coming day is told at once, by the program, and then nothing is written.",
        "Status: 0 taken in, 1 faults, 2 bad words, 3 not read, 4 not written; else the program's.")
    parser.add_argument("folder", type=named_folder, metavar="FOLDER", help="the folder of the dossier")
    parser.add_argument("sheet", type=named_folder, metavar="SHEET", help="the sheet of answers")
    parser.add_argument("--replace", action="store_true",
                        help="puts the sheet in the place of the answers that are there for its days")
    parser.add_argument("--start", type=start_date, metavar="DATE", help="the date of day 1, where no day is made yet")
    parser.add_argument("--term", type=term_of_days, metavar="N",
                        help="the days that an offer stands after its own; with --start")
    parser.add_argument("--dates", type=one_of(DateOrder), metavar="day-first|month-first",
                        help="how dates such as 02/06/2025 are to be read")
    parser.add_argument("--column", action="append", default=[], type=chosen_column, metavar="TITLE=COLUMN",
                        help="which column a title names; may be given again")
    parser.add_argument("--leave-out", action="append", default=[], metavar="TITLE",
                        help="a title that names no column of answers; may be given again")
    parser.add_argument("--lang", choices=("en", "fr"), help="the language of faults; else that of the titles")
    return parser


def merged(old: list[tuple[Row, Answer]], new: list[tuple[Row, Answer]], is_replaced: bool) -> list[tuple[Row, Answer]]:
    """The answers of both by day, those that were there first; what is there already is taken once."""
    days = {answer.day for _, answer in new} if is_replaced else set()
    kept = [(row, answer) for row, answer in old if answer.day not in days]
    known = {answer for _, answer in kept}
    both = kept + [(row, answer) for row, answer in new if answer not in known]
    return sorted(both, key=lambda each: each[1].day)


def summary(table: Table, old: list[tuple[Row, Answer]], new: list[tuple[Row, Answer]], both: list[tuple[Row, Answer]],
            calendar: Calendar, language: Language) -> str:
    added = [answer for row, answer in both if row.sheet is table.sheet]
    later = sum(answer.day > 1 for answer in added)
    replaced = len(old) - (len(both) - len(added))
    dated = f" ({calendar.today})" if calendar.today else ""
    lines = [TAKEN.of(count=len(added) - later, later=later, known=len(new) - len(added), dated=dated,
                      of_file=OfName(Sheets((table.sheet,)).said(language)))]
    lines += [REPLACED.of(count=replaced)] if replaced else []
    lines += [LATER.of()] if later else []
    lines += notes_on(table)
    return "\n".join(line.said(language) for line in lines)


def take_in(folder: Path, sheet: Path, choices: Choices, calendar: Calendar, is_replaced: bool,
            asked: Language | None) -> int:
    faults = Faults()
    names = names_in(folder)
    wishes = {wish.wish: wish for wish in wishes_in(folder)}
    spellings = things()
    table = one_table(sheet, ANSWER_SHEET, choices, faults, spellings)
    language: Language = asked or ("fr" if table.header.language() > 0 else "en")
    answers = SheetOfAnswers(table, spellings, names, wishes, calendar, faults)
    new = [(table.row(place), answer) for place, answer in answers.answers()]
    slot, there = answers_in(folder)
    old = [(Row(slot, number), answer) for number, answer in enumerate(there, start=2)]
    both = merged(old, new, is_replaced)
    tell_unfit(both, folder, calendar, wishes, names, faults)
    if faults.found:
        print(faults.told([slot.label, table.sheet.label], language), file=sys.stderr)
        return FAULTY
    replace_file(folder / ANSWERS.file, csv_bytes(HEADER, (answer.cells() for _, answer in both)))
    say("take_in", summary(table, old, new, both, calendar, language))
    return DONE


def main(arguments: list[str]) -> int:
    given = words().of_campaign(arguments)
    here: Language = given.lang or language_here()
    if not is_folder(given.folder):
        print(f"take_in: {NO_DOSSIER.of(folder=given.folder).said(here)}", file=sys.stderr)
        return program.READ_FAULT
    try:
        stop_cleanly()
        with alone(given.folder):
            test_files(given.folder)
            test_file(given.sheet)
            calendar = coming_day(given.folder, Calendar(1, given.start, given.term))
            choices = Choices(given.dates, None, chosen_titles(given.leave_out, given.column))
            return take_in(given.folder, given.sheet, choices, calendar, given.replace, given.lang)
    except Stopped as stop:
        print(f"take_in: {stop.said(here)}", file=sys.stderr)
        return stop.status
    except Unreadable as error:
        faults = Faults()
        faults.in_file(str(given.sheet), error.what, error.to_do)
        print(faults.told([], here), file=sys.stderr)
        return FAULTY
    except OSError as error:
        is_written = os.path.basename(str(error.filename)) == f".{ANSWERS.file}.new" or not error.filename
        told = AS_THEY_WERE.of(file=error.filename or given.folder, error=error.strerror)
        print(f"take_in: {(told if is_written else unread(error).why).said(here)}", file=sys.stderr)
        return program.WRITE_FAULT if is_written else program.READ_FAULT
    except Told as stop:
        print(f"take_in: {TAKING_STOPPED.of().said(here)}", file=sys.stderr)
        return stop.status


