"""From the numbers of a campaign to tables that a spreadsheet opens, with the ids of the sheets, and names."""

import gc
import os
import sys
from collections.abc import Iterator
from pathlib import Path

from . import program
from .campaign import test_file, test_files, unread
from .decoding import Unreadable
from .faults import TO_DO
from .labels import Labels, read_labels
from .naming import Names, names_in
from .outputs import DIALECTS, Campaign, Dialect, Ranked, Row, Tables
from .records import Wish, made_days, rows_of, wishes_in
from .slots import BOARDING, PROGRAMMES, RANKINGS, SCHOOLS, Thing
from .stops import NO_CAMPAIGN, NO_PARENT, STOPPED, TAKEN, UNWRITTEN, Stopped
from .texts import Filled, Language, Text
from .wording import Words, language_here
from .writing import Taken, Told, is_folder, named_folder, say, stop_cleanly, write_folder

DONE, FAULTY = 0, 1
LONGEST_NAME, MOST_BYTES = 80, 200

WISHES = Text("wishes", "voeux")
PROGRAMME = Text("programme", "formation")
SCHOOL = Text("boarding school", "internat")
OFFERS = Text("offers of day", "propositions du jour")
BARS = Text("bars", "barres")
CHANGED = Text("The wishes or ids have changed since: of the offers of day {days} the tables name the wish alone.",
               "Les vœux ou les identifiants ont changé depuis : des propositions du jour {days}, les tableaux ne "
               "nomment que le vœu.")
OTHER_IDS = Text("The ids have changed since: of the offers and bars of day {days} the tables have the numbers of the "
                 "report in place of ids.",
                 "Les identifiants ont changé depuis : pour les propositions et les barres du jour {days}, les "
                 "tableaux donnent les numéros du rapport à la place des identifiants.")
WRITTEN = Text("{count} tables of the evening of day {day} are in {folder}.",
               "{count} tableaux du soir du jour {day} sont dans {folder}.")


def words() -> Words:
    parser = Words(
        "tables",
        "Writes what the campaign in FOLDER has come to, in the evening of the last day that next_day made, as tables "
        "that a spreadsheet opens, to the new folder OUT: one of all wishes, one a programme, one a boarding school, "
        "one a day of offers, and one of bars; with the ids of the sheets, and with names where a file has them.",
        "Status: 0 written, 1 a file of names has none, or two for one id, 2 bad words, 3 not read, 4 not written.")
    parser.add_argument("folder", type=named_folder, metavar="FOLDER", help="the folder that next_day keeps")
    parser.add_argument("out", type=named_folder, metavar="OUT", help="the new folder for the tables")
    parser.add_argument("--names", action="append", default=[], type=named_folder, metavar="FILE",
                        help="a sheet with ids and names of candidates, programmes or schools; may be given again")
    parser.add_argument("--dialect", choices=list(DIALECTS), default="semicolons",
                        help="semicolons where it is left out; plain is for programs: commas, and no mark")
    parser.add_argument("--lang", choices=("en", "fr"), default=language_here(),
                        help="the language of titles and statuses; else that of the surroundings")
    return parser


def campaign_of(dossier: Path, names: Names, labels: Labels, language: Language) -> Campaign:
    days = made_days(dossier)
    days[-1].test_slots(dossier)
    boarding: dict[int, dict[int, int]] = {row[0]: {} for row in rows_of(dossier, SCHOOLS)}
    for school, candidate, rank in rows_of(dossier, BOARDING):
        boarding[school][candidate] = rank
    return Campaign(days, wishes_in(dossier), {row[0]: row[1] for row in rows_of(dossier, PROGRAMMES)},
                    {(group, candidate): Ranked(rank, scholar, resident)
                     for group, candidate, rank, scholar, resident in rows_of(dossier, RANKINGS)},
                    boarding, names, labels, language)


def file_name(kind: Text, name: str, language: Language, taken: set[str]) -> str:
    """A name that every system allows for a file, and that no other file has."""
    whole = f"{kind.of().said(language)} {name}"
    plain = "".join(letter if letter.isalnum() or letter in " -_.()" else "_" for letter in whole)
    cut = plain.strip()[:LONGEST_NAME].encode()[:MOST_BYTES].decode(errors="ignore")
    base = cut.rstrip(" .").replace(" ", "-")
    found, count = base, 1
    while found.casefold() in taken:
        count += 1
        found = f"{base}-{count}"
    taken.add(found.casefold())
    return f"{found}.csv"


def files_of(campaign: Campaign, dialect: Dialect) -> dict[str, Iterator[bytes]]:
    """The tables by the names of their files, each made when it is written."""
    calls = campaign.calls()
    tables = Tables(campaign, calls, campaign.queues(calls))
    files: dict[str, Iterator[bytes]] = {}
    taken: set[str] = set()
    spelled = campaign.names.spelled

    def put(kind: Text, name: str, rows: Iterator[Row]) -> None:
        files[file_name(kind, name, campaign.language, taken)] = dialect.written(rows)

    put(WISHES, "", tables.wishes())
    put(BARS, "", tables.bars())
    for day in campaign.days:
        put(OFFERS, f"{day.number:03}", tables.offers(day))
    of_programmes: dict[int, list[Wish]] = {number: [] for number in campaign.groups}
    of_schools: dict[int, list[Wish]] = {number: [] for number in campaign.boarding}
    for row in campaign.wishes:
        of_programmes[row.programme].append(row)
        if row.school is not None:
            of_schools[row.school].append(row)
    for number, rows in of_programmes.items():
        put(PROGRAMME, spelled(Thing.PROGRAMME, number), tables.programme(number, rows))
    for number, rows in of_schools.items():
        put(SCHOOL, spelled(Thing.SCHOOL, number), tables.school(number, rows))
    return files


def labels_in(paths: list[Path], names: Names) -> tuple[Labels, list[Filled]]:
    """The names in the files, and what is said of where they are."""
    labels: Labels = {}
    told = [line for path in paths for line in read_labels(path, names, labels)]
    return labels, told


def tabulate(folder: Path, out: Path, paths: list[Path], dialect: Dialect, language: Language) -> int:
    test_files(folder)
    for path in paths:
        test_file(path)
    names = names_in(folder)
    labels, told = labels_in(paths, names)
    campaign = campaign_of(folder, names, labels, language)
    files = files_of(campaign, dialect)
    write_folder(out, files, is_kept=False)
    lines = [*told, WRITTEN.of(count=len(files), day=campaign.last.number, folder=out)]
    if changed := [str(day.number) for day in campaign.days if not day.had_wishes_of(campaign.last)]:
        lines.append(CHANGED.of(days=", ".join(changed)))
    if changed := [str(day.number) for day in campaign.days if not day.had_ids_of(campaign.last)]:
        lines.append(OTHER_IDS.of(days=", ".join(changed)))
    say("tables", "\n".join(line.said(language) for line in lines))
    return DONE


def is_of_new(error: OSError, out: Path) -> bool:
    """Whether the error is of the new folder, which is made beside its place, or of a file in it."""
    parts = Path(error.filename).parts if error.filename else ()
    return not parts or any(part.startswith(f".{out.name}.") for part in parts)


def main(arguments: list[str]) -> int:
    given = words().of(arguments)

    def complain(why: Filled) -> None:
        print(f"tables: {why.said(given.lang)}", file=sys.stderr)

    if os.path.lexists(given.out) or not is_folder(given.out.parent):
        complain((TAKEN if os.path.lexists(given.out) else NO_PARENT).of(folder=given.out))
        return program.READ_FAULT
    if not is_folder(given.folder):
        complain(NO_CAMPAIGN.of(folder=given.folder))
        return program.READ_FAULT
    try:
        stop_cleanly()
        gc.disable()
        return tabulate(given.folder, given.out, given.names, DIALECTS[given.dialect], given.lang)
    except Stopped as stop:
        complain(stop.why)
        return stop.status
    except Unreadable as error:
        what, to_do = error.what.said(given.lang), TO_DO.of(to_do=error.to_do).said(given.lang)
        print(f"tables: {what}\n{to_do}", file=sys.stderr)
        return FAULTY
    except Taken:
        complain(TAKEN.of(folder=given.out))
        return program.READ_FAULT
    except OSError as error:
        if is_of_new(error, given.out):
            complain(UNWRITTEN.of(file=error.filename or given.out, error=error.strerror))
            return program.WRITE_FAULT
        complain(unread(error).why)
        return program.READ_FAULT
    except Told as stop:
        complain(STOPPED.of())
        return stop.status
