"""From nine sheets to the nine slots of a dossier, or to all of their faults."""

import argparse
import gc
import os
import sys
from collections.abc import Callable, Iterable, Iterator
from datetime import date
from itertools import islice
from pathlib import Path

from .cells import DateOrder, Rates
from .faults import Faults, shown
from .folders import Exports, read_folder
from .headers import fold
from .messages import HIDDEN_SHEET, NUMBERS_OF_CAMPAIGN, PLURALS
from .naming import IDS, Names, names_of, read_names, table_of
from .numbering import Numbers, number_ids, translated
from .relations import Relations
from .slots import SLOTS, Column, Content, Thing
from .sources import SEPARATORS, TextSheet, WorkbookSheet
from .stops import Stopped
from .tables import PROGRESS, Choices, Table
from .texts import Counted, Filled, Language, OfName, Text, said
from .values import ANSWER_WORDS, NOTHING, QUIT, STATUS_WORDS
from .wording import Words, language_here, one_of
from .writing import Taken, Told, csv_bytes, is_folder, named_folder, say, stop_cleanly, write_folder

DONE, FAULTY, BAD_WORDS, NOT_WRITTEN = range(4)
CHUNK = 4_000
COLUMN_NAMES = frozenset(column.name for slot in SLOTS for column in slot.columns)

READ = Text("{slot}: {rows} {of_file}{how}", "{slot} : {rows} {of_file}{how}")
ROW, ROWS = Text("row", "ligne"), Text("rows", "lignes")
LEFT_OUT = Text("{file}: not read are the columns {names}", "{file} : colonnes qui ne sont pas lues : {names}")
HIDDEN = Text("{file}: read too, though hidden: {what}", "{file} : lu aussi, quoique masqué : {what}")
COLUMNS = Text("the columns {names}", "les colonnes {names}")
NUMBERED = Text("{ids}: ids of {things} numbered, {count} from {first} to {last}",
                "{ids} : {things}, {numbers} de {first} à {last}")
NUMBER, NUMBERS = Text("number", "numéro"), Text("numbers", "numéros")
NOT_READ = Text("not read: {name}", "pas lu : {name}")
IS_IN = Text("The dossier is in {folder}.", "Le dossier est dans {folder}.")


def chosen_column(text: str) -> tuple[str, str]:
    """A title and the column that it names, as `N° candidat=candidate`."""
    title, _, name = text.rpartition("=")
    column = fold(name).replace(" ", "_")
    if not fold(title) or column not in COLUMN_NAMES:
        raise argparse.ArgumentTypeError(f"{text} is no title and column, as \"N° candidat=candidate\"")
    return fold(title), column


def chosen_titles(left_out: list[str], columns: list[tuple[str, str]]) -> dict[str, str]:
    """The titles that the words name, each with its column, or none where it is left out."""
    return {fold(title): "" for title in left_out} | dict(columns)


def words() -> Words:
    parser = Words(
        "prepare",
        "Reads nine sheets of a folder as they come, exports (.csv, .tsv, .txt) or sheets of workbooks (.ods, .xlsx), "
        "and writes the nine slots of a dossier to a new folder. All faults are listed at once, and then nothing is "
        "written.",
        "Status: 0 written, 1 faults, 2 bad words, 3 not read or not written.")
    parser.add_argument("exports", metavar="SHEETS", type=named_folder, help="the folder of the sheets")
    parser.add_argument("folder", type=named_folder, metavar="FOLDER", help="the new folder for the slots")
    parser.add_argument("--dates", type=one_of(DateOrder), metavar="day-first|month-first",
                        help="how dates such as 02/06/2025 are to be read")
    parser.add_argument("--rates", type=one_of(Rates), metavar="percent|fraction",
                        help="how rates without a sign are to be read: 20, or 0.2, for 20 %%")
    parser.add_argument("--column", action="append", default=[], type=chosen_column, metavar="TITLE=COLUMN",
                        help="which column a title names; may be given again")
    parser.add_argument("--leave-out", action="append", default=[], metavar="TITLE",
                        help="a title that names no column of the dossier; may be given again")
    parser.add_argument("--ids", type=named_folder, metavar="EARLIER",
                        help="an earlier dossier, or its ids.csv: its ids keep their numbers")
    parser.add_argument("--lang", choices=("en", "fr"), help="the language of faults; else that of the titles")
    return parser


def text_of(column: Column, numbers: Numbers) -> Callable[[int], str]:
    """How the values of a column are written."""
    match column.content:
        case Content.ID if column.thing and (by_code := numbers.by_code[column.thing]) or column.may_be_empty:
            known = by_code if column.thing else {}
            return lambda value: str(value) if value > 0 else str(known[value]) if value < 0 else ""
        case Content.STATUS:
            return STATUS_WORDS.__getitem__
        case Content.ANSWER:
            return ANSWER_WORDS.__getitem__
        case Content.DATE:
            return lambda value: "" if value == NOTHING else date.fromordinal(value).isoformat()
    return str


def column_texts(column: Column, table: Table, numbers: Numbers) -> Iterator[str]:
    """The cells of a column as the slot writes them."""
    values = table.values[column.name]
    if column.content is Content.TARGET:
        return (str(numbers.of(Thing.CANDIDATE if kind == QUIT else Thing.WISH, value))
                for kind, value in zip(table.values["kind"], values))
    return map(text_of(column, numbers), values)


def slot_parts(table: Table, numbers: Numbers) -> Iterator[bytes]:
    """A slot's file, some thousand rows at once. No cell of a slot needs quotes."""
    yield f"{','.join(column.name for column in table.columns)}\n".encode()
    rows = map(",".join, zip(*(column_texts(column, table, numbers) for column in table.columns)))
    while chunk := list(islice(rows, CHUNK)):
        yield ("\n".join(chunk) + "\n").encode()


def table_back(exports: Exports, numbers: Numbers) -> bytes:
    """Which number stands for which id of the sheets."""
    return csv_bytes(*table_of((thing, number, exports.spellings[thing].of(code))
                               for thing, by_code in numbers.by_code.items() for code, number in by_code.items()))


def slot_files(exports: Exports, numbers: Numbers) -> dict[str, bytes | Iterator[bytes]]:
    files: dict[str, bytes | Iterator[bytes]] = {
        slot.file: slot_parts(exports.tables[slot.name], numbers) for slot in SLOTS}
    if any(numbers.by_code.values()):
        files[IDS] = table_back(exports, numbers)
    return files


def notes_on(table: Table) -> list[Filled]:
    """A line on the columns of a sheet that are not read, and lines on its rows and columns that are read though hidden,
    where there are some."""
    def titles(places: Iterable[int]) -> str:
        return ", ".join(shown(table.header.titles[place].strip()) for place in sorted(places))

    label, sheet = shown(table.sheet.label), table.sheet
    notes = [LEFT_OUT.of(file=label, names=titles(table.header.left_out))] if table.header.left_out else []
    if isinstance(sheet, WorkbookSheet) and sheet.hidden_rows:
        notes.append(HIDDEN.of(file=label, what=Counted(sheet.hidden_rows, ROW, ROWS)))
    if isinstance(sheet, WorkbookSheet) and (places := sheet.hidden_columns.intersection(table.header.places.values())):
        notes.append(HIDDEN.of(file=label, what=COLUMNS.of(names=titles(places))))
    return notes


def summary(exports: Exports, numbers: Numbers, folder: Path, language: Language) -> str:
    """What was read and written, a line for each slot."""
    lines, left_out = [], []
    for slot in SLOTS:
        table = exports.tables[slot.name]
        sheet = table.sheet
        how = f" ({sheet.coding.name}, {said(SEPARATORS[sheet.separator], language)})" \
            if isinstance(sheet, TextSheet) else said(HIDDEN_SHEET, language) if sheet.is_hidden else ""
        lines.append(READ.of(slot=slot.file, rows=Counted(len(table), ROW, ROWS), how=how,
                             of_file=OfName(shown(sheet.label))))
        left_out += notes_on(table)
    for thing, by_code in numbers.by_code.items():
        if by_code:
            count = len(by_code)
            lines.append(NUMBERED.of(ids=IDS, count=count, numbers=Counted(count, NUMBER, NUMBERS),
                                     things=PLURALS[thing.value],
                                     first=min(by_code.values()), last=max(by_code.values())))
    lines += left_out + [NOT_READ.of(name=shown(name)) for name in exports.passed_over]
    return "\n".join(line.said(language) for line in [*lines, IS_IN.of(folder=shown(str(folder)))])


def earlier_names(given: Path | None, source: Path) -> Names:
    """The numbers of an earlier dossier: as the words name it, else by a table of ids among the sheets."""
    if given is not None:
        return read_names(given / IDS if given.is_dir() else given)
    beside = source / IDS
    return read_names(beside) if beside.is_file() else names_of(())


def prepare(source: Path, folder: Path, choices: Choices, earlier: Names, asked: Language | None) -> int:
    faults = Faults()
    exports = read_folder(source, choices, faults)
    language = asked or exports.language()
    translated(exports.tables, exports.spellings, earlier, faults)
    PROGRESS.say("testing ..")
    may_be_numbers = None if any(earlier.by_number.values()) else NUMBERS_OF_CAMPAIGN.of()
    Relations(exports.tables, exports.spellings, faults, may_be_numbers).test()
    numbers = number_ids(exports.tables, exports.spellings, earlier, faults)
    PROGRESS.end()
    if faults.found:
        print(faults.told(exports.files, language), file=sys.stderr)
        return FAULTY
    PROGRESS.say("writing ..")
    write_folder(folder, slot_files(exports, numbers))
    PROGRESS.end()
    say("prepare", summary(exports, numbers, folder, language))
    return DONE


def left(folder: Path) -> str:
    """What there is of a new folder after a stop, which may have come when all of it was written."""
    return "the dossier is written whole." if os.path.exists(folder) else "nothing is written."


def is_taken(folder: Path) -> int:
    """Says that there is something where the new folder was to be."""
    print(f"prepare: {folder} is there already; name a new folder.", file=sys.stderr)
    return NOT_WRITTEN


def main(arguments: list[str]) -> int:
    given = words().of(arguments)
    if not is_folder(given.exports):
        print(f"prepare: there is no folder {given.exports}; name the folder of the exports.", file=sys.stderr)
        return NOT_WRITTEN
    if os.path.lexists(given.folder):
        return is_taken(given.folder)
    if not is_folder(given.folder.parent):
        print(f"prepare: there is no folder {given.folder.parent}; make it first.", file=sys.stderr)
        return NOT_WRITTEN
    try:
        stop_cleanly()
        # Millions of rows come and go, and none of them is part of a ring.
        gc.disable()
        choices = Choices(given.dates, given.rates, chosen_titles(given.leave_out, given.column))
        return prepare(given.exports, given.folder, choices, earlier_names(given.ids, given.exports), given.lang)
    except Stopped as stop:
        print(f"prepare: {stop.said(given.lang or language_here())}", file=sys.stderr)
        return stop.status
    except Taken:
        return is_taken(given.folder)
    except OSError as error:
        print(f"prepare: {error.filename or given.folder}: {error.strerror}; {left(given.folder)}", file=sys.stderr)
        return NOT_WRITTEN
    except Told as stop:
        print(f"prepare: stopped; {left(given.folder)}", file=sys.stderr)
        return stop.status
