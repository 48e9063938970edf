"""Four ways in which spreadsheets export a dossier."""

import csv
import io
from collections.abc import Callable
from dataclasses import dataclass
from pathlib import Path
from random import Random

from dossier.slots import SLOTS, Column, Content, Slot, Thing

from .dossiers import Cell, Dossier

FRENCH_HEADERS = {
    "group": "Groupe", "scholar_pct": "Taux boursiers", "resident_pct": "Taux secteur", "programme": "Formation",
    "seats": "Places", "limit": "Rang limite", "school": "Internat", "beds": "Lits", "ceiling": "Plafond",
    "candidate": "Candidat", "rank": "Rang", "scholar": "Boursier", "resident": "Secteur", "wish": "Vœu",
    "preference": "Ordre de préférence", "status": "Statut", "since": "Depuis le", "day": "Jour",
    "kind": "Réponse", "target": "Vœu ou candidat",
}
FRENCH_WORDS = {
    "waiting": "en attente", "offered": "Proposition", "accepted": "Accepté", "refused": "refusé",
    "withdrawn": "retiré",
    "quit": "démission", "auto_refused": "refusé automatiquement", "auto_withdrawn": "Retiré automatiquement",
    "lapsed": "caduc", "accept": "Accepter", "refuse": "refuser", "withdraw": "retirer",
}
BEGINNINGS = {Thing.GROUP: "Groupe ", Thing.PROGRAMME: "BTS-", Thing.SCHOOL: "Été ", Thing.CANDIDATE: "E",
              Thing.WISH: "vœu n"}


@dataclass(frozen=True)
class Dialect:
    """How a spreadsheet writes a sheet."""

    name: str
    separator: str
    codec: str
    flags: tuple[str, str]
    mark: bytes = b""
    first_line: str = ""
    line_end: str = "\n"
    is_french: bool = False
    thousands: str = ""
    tail: str = ""
    quotes_all: bool = False
    is_day_first: bool = False
    ending: str = ".csv"

    def number(self, value: int) -> str:
        return f"{value:,}".replace(",", self.thousands) + self.tail

    def date(self, text: str) -> str:
        year, month, day = text.split("-")
        return f"{day}/{month}/{year}" if self.is_day_first else text


FRENCH_EXCEL = Dialect(
    "French Excel", separator=";", codec="cp1252", line_end="\r\n", first_line="sep=;\r\n", is_french=True,
    flags=("FAUX", "VRAI"), thousands="\u00a0", is_day_first=True)
UNICODE_TEXT = Dialect(
    "Unicode text", separator="\t", codec="utf-16-le", mark=b"\xff\xfe", line_end="\r\n", flags=("FALSE", "TRUE"),
    ending=".txt")
LIBRE_OFFICE = Dialect(
    "LibreOffice", separator=",", codec="utf-8", flags=("no", "yes"), thousands=" ", quotes_all=True, ending=".CSV")
FRENCH_NUMBERS = Dialect(
    "French Numbers", separator=";", codec="utf-8", mark=b"\xef\xbb\xbf", is_french=True, flags=("NON", "OUI"),
    thousands="\u202f", tail=",0", is_day_first=True)
DIALECTS = (FRENCH_EXCEL, UNICODE_TEXT, LIBRE_OFFICE, FRENCH_NUMBERS)

Namer = Callable[[Thing, int], str]


def named(thing: Thing, number: int) -> str:
    """A name for an id that is no number."""
    return f"{BEGINNINGS[thing]}{number}"


def named_in_part(thing: Thing, number: int) -> str:
    """A name for every second id; the others stay numbers."""
    return named(thing, number) if number % 2 else str(number)


def thing_at(column: Column, row: tuple[Cell, ...]) -> Thing | None:
    if column.content is Content.TARGET:
        return Thing.CANDIDATE if row[1] == "quit" else Thing.WISH
    return column.thing


def cell_text(dialect: Dialect, column: Column, row: tuple[Cell, ...], cell: Cell, namer: Namer | None) -> str:
    if cell is None:
        return ""
    thing = thing_at(column, row)
    if thing is not None:
        return namer(thing, int(cell)) if namer else str(cell)
    match column.content:
        case Content.FLAG:
            return dialect.flags[int(cell)]
        case Content.STATUS | Content.ANSWER:
            return FRENCH_WORDS[str(cell)] if dialect.is_french else str(cell).replace("_", " ").upper()
        case Content.DATE:
            return dialect.date(str(cell))
        case Content.PERCENTAGE:
            return f"{cell} %"
        case _:
            return dialect.number(int(cell))


def sheet(dialect: Dialect, slot: Slot, dossier: Dossier, random: Random, namer: Namer | None) -> bytes:
    """A slot as an export: columns in any order, with an empty row here and there."""
    columns = [column for column in slot.columns if column.name in dossier.header(slot)]
    order = random.sample(range(len(columns)), len(columns))
    title = FRENCH_HEADERS.__getitem__ if dialect.is_french else lambda name: name.replace("_", " ").capitalize()
    lines = [[title(columns[place].name) for place in order]]
    for row in dossier.rows[slot.name]:
        if random.random() < 0.1:
            lines.append([""] * len(columns))
        lines.append([cell_text(dialect, columns[place], row, row[place], namer) for place in order])
    text = io.StringIO(newline="")
    quoting = csv.QUOTE_ALL if dialect.quotes_all else csv.QUOTE_MINIMAL
    csv.writer(text, delimiter=dialect.separator, lineterminator=dialect.line_end, quoting=quoting).writerows(lines)
    return dialect.mark + (dialect.first_line + text.getvalue()).encode(dialect.codec)


def export(dialect: Dialect, dossier: Dossier, folder: Path, random: Random, namer: Namer | None) -> None:
    folder.mkdir()
    for slot in SLOTS:
        name = f"sheet of {slot.name}{dialect.ending}"
        (folder / name).write_bytes(sheet(dialect, slot, dossier, random, namer))
