"""The names of people, programmes and schools, where a sheet has them beside their ids."""

from collections.abc import Sequence
from pathlib import Path

from .cells import Unclear, read_id
from .decoding import Unreadable
from .faults import shown
from .headers import FILLERS, candidates_for, core, fold
from .messages import CORRECT_EITHER, IN_FILE, NAME_COLUMNS, NO_NAMES, TWO_NAMES
from .naming import Names
from .slots import WISHES, Thing
from .sources import AnySheet, first_row, likeliest, readings_of, records_of
from .texts import Filled, Text
from .workbooks import WORKBOOK_ENDINGS, sheets_of_workbook

NAMED = (Thing.CANDIDATE, Thing.PROGRAMME, Thing.SCHOOL)
OF_A_NAME = frozenset(("nom", "noms", "prenom", "prenoms", "name", "names", "surname", "forename", "firstname",
                       "lastname", "libelle", "intitule", "denomination"))
# What else a title of a candidate's own name may have. Any other word may make it the name of somebody or something
# else, as that of a parent or of the school that they come from.
OF_THEIR_OWN = OF_A_NAME | FILLERS | frozenset((
    "candidat", "candidate", "eleve", "applicant", "student", "e", "naissance", "usage", "usuel", "famille", "marital",
    "complet", "patronymique", "s", "birth", "first", "last", "middle", "given", "family", "full", "et", "and", "ou",
    "or", "1", "2"))
NAMES_OF = Text("{file}: names are in {names}", "{file} : les noms sont dans {names}")

Labels = dict[Thing, dict[int, str]]


def name_places(titles: Sequence[str]) -> list[int]:
    """The places of the columns that have names or parts of names."""
    return [place for place, title in enumerate(titles) if OF_A_NAME.intersection(fold(title).split())]


def id_place(titles: Sequence[str]) -> tuple[Thing, int] | None:
    """What the sheet names, and the place of its ids."""
    folded = [fold(title) for title in titles]
    parts = set(name_places(titles))
    for thing in NAMED:
        found = [place for place in candidates_for(WISHES.column(thing.value), folded, {}) if place not in parts]
        if len(found) == 1:
            return thing, found[0]
    return None


def label_places(titles: Sequence[str], thing: Thing) -> list[int]:
    """The places of the columns that have names of such things: of candidates only those that are their own."""
    return [place for place in name_places(titles)
            if thing is not Thing.CANDIDATE or OF_THEIR_OWN.issuperset(core(fold(titles[place])).split())]


def sheets_of(path: Path) -> list[AnySheet]:
    """The sheets of a file, each in its likeliest reading with names. What cannot be read is told with the file."""
    try:
        if path.suffix.lower() in WORKBOOK_ENDINGS:
            return [*sheets_of_workbook(path)]
        return [*likeliest([sheet for sheet in readings_of(path) if has_names(first_row(sheet)[1])])[:1]]
    except Unreadable as error:
        raise Unreadable(IN_FILE.of(file=shown(path.name), what=error.what), error.to_do) from None


def has_names(titles: Sequence[str]) -> bool:
    place = id_place(titles)
    return place is not None and bool(label_places(titles, place[0]))


def read_labels(path: Path, names: Names, labels: Labels) -> list[Filled]:
    """Adds the names in a file by number; what is said of each sheet with ids and names. Raises Unreadable where there
    is none, or where an id has two names."""
    told: list[Filled] = []
    for sheet in sheets_of(path):
        number, titles = first_row(sheet)
        if not has_names(titles) or (place := id_place(titles)) is None:
            continue
        thing, of_id = place
        parts = label_places(titles, thing)
        their_titles = ", ".join(titles[part].strip() for part in parts)
        told.append(NAMES_OF.of(file=shown(sheet.label), names=shown(their_titles)))
        known = labels.setdefault(thing, {})
        for count, cells in enumerate(records_of(sheet), start=1):
            if count > number and len(cells) > of_id and (wanted := number_of(cells[of_id], thing, names)) is not None:
                label = " ".join(cells[part].strip() for part in parts if part < len(cells) and cells[part].strip())
                if label:
                    add_label(known, wanted, label, path, cells[of_id])
    if not told:
        raise Unreadable(NO_NAMES.of(file=shown(path.name)), NAME_COLUMNS.of())
    return told


def add_label(known: dict[int, str], number: int, label: str, path: Path, spelled: str) -> None:
    """Keeps the name of a number. Capitals, accents and the order of its words make no other name."""
    other = known.setdefault(number, label)
    if sorted(fold(other).split()) != sorted(fold(label).split()):
        raise Unreadable(TWO_NAMES.of(file=shown(path.name), id=shown(spelled.strip()), one=shown(other),
                                      other=shown(label)), CORRECT_EITHER.of())


def number_of(text: str, thing: Thing, names: Names) -> int | None:
    """The number of the id in a cell; none where it is no id of the dossier, as a number that stands for another."""
    try:
        identifier = read_id(text.strip())
    except Unclear:
        return None
    if identifier.spelled in names.by_id[thing]:
        return names.by_id[thing][identifier.spelled]
    return None if identifier.number in names.by_number[thing] else identifier.number
