"""How the first row of a sheet names the columns of a slot."""

import re
import unicodedata
from collections.abc import Mapping, Sequence
from dataclasses import dataclass
from difflib import get_close_matches
from functools import lru_cache

from .decoding import Unreadable
from .faults import shown
from .messages import (BEGIN_WITH_NAMES, EMPTY_FILE, EXPORT_WITH_NAMES, FOR_TAKE_IN, MAY_BE, MISSING_COLUMN,
                       NAME_COLUMN, NAME_COLUMNS, NAME_OR_LEAVE, NAMED_TWICE, NEAREST, NO_SLOT, SAY_TITLE,
                       TAKE_IN_LATER)
from .slots import ANSWER_SHEET, WISHES, Column, Content, Slot
from .texts import Filled, Language, said

# Words of a title that tell nothing of which column it is.
FILLERS = frozenset(("n", "no", "num", "numero", "number", "code", "id", "identifiant", "nb", "nbre", "nombre", "of",
                     "the", "de", "du", "des", "d", "la", "le", "les", "l", "a", "au", "total", "votre", "vos", "your"))
# What a folded title says of how its cells are written, as `boursier o/n`, `taux boursiers en %`, `secteur ?`.
NOTES = {Content.FLAG: re.compile(r" (?:o/n|oui/non|y/n|yes/no|0/1|1/0|vrai/faux|true/false)$|[ :]*\?$"),
         Content.PERCENTAGE: re.compile(r" (?:en |in )?%$")}
ALIKE = 0.8
# How letters, dashes and quotes are typed for which a program may put others.
TYPED = str.maketrans({"œ": "oe", "Œ": "oe", "’": "'", "‘": "'", "“": '"', "”": '"', "„": '"', "«": '"', "»": '"',
                       **dict.fromkeys("\u2010\u2011\u2012\u2013\u2014\u2015\u2212", "-")})
PARTS = str.maketrans({letter: " " for letter in "_-.,/:°()[]'’"})


def fold(text: str) -> str:
    """A word without capitals, accents and kinds of blanks, by which words are compared."""
    if text.isascii():
        plain = text.replace("_", " ").replace("-", " ")
    else:
        joined = text.translate(TYPED).replace("_", " ").replace("-", " ")
        parted = unicodedata.normalize("NFKD", joined)
        plain = "".join(letter for letter in parted if not unicodedata.combining(letter))
    return " ".join(plain.casefold().replace("(", " ").replace(")", " ").split())


@lru_cache(maxsize=10_000)
def core(folded: str) -> str:
    """A folded title without the words that tell nothing, as `N° candidat` is `candidat`."""
    return " ".join(word for word in folded.translate(PARTS).split() if word not in FILLERS)


@dataclass(frozen=True)
class Header:
    """How a first row names a slot's columns: the place of each in a row; the width of a row; and the places of the
    columns that the slot does not have, by their titles."""

    slot: Slot
    titles: tuple[str, ...]
    places: dict[str, int]
    left_out: frozenset[int]

    @property
    def width(self) -> int:
        named = [place for place, title in enumerate(self.titles) if fold(title)]
        return named[-1] + 1

    @property
    def unnamed(self) -> list[int]:
        return [place for place in range(self.width) if not fold(self.titles[place])]

    def language(self) -> int:
        """How many titles are French, less those that are English."""
        points = 0
        for name, place in self.places.items():
            column = self.slot.column(name)
            title = fold(self.titles[place])
            is_english = title == column.own_name or title in column.english
            points += 0 if is_english and title in column.french else -1 if is_english else 1
        return points


def is_name_of(title: str, column: Column) -> bool:
    """Whether a folded title names a column, by a name of it or by the words of one that tell."""
    names = (column.own_name, *column.french, *column.english)
    note = NOTES.get(column.content)
    plain = note.sub("", title) if note and title not in names else title
    return plain in names or bool(rest := core(plain)) and rest in map(core, names)


def candidates_for(column: Column, titles: Sequence[str], chosen: Mapping[str, str]) -> list[int]:
    """The places whose folded titles name the column; the user's own choice is alone."""
    own = [place for place, title in enumerate(titles) if chosen.get(title) == column.name]
    return own or [place for place, title in enumerate(titles) if title not in chosen and is_name_of(title, column)]


def unknown_titles(slot: Slot, titles: Sequence[str], chosen: Mapping[str, str]) -> list[str]:
    """The titles that no column of the slot has, and that the user has not said what they name."""
    return [title for title in titles if (word := fold(title)) and word not in chosen and not is_known(word, slot)]


def likely_for(column: Column, titles: Sequence[str]) -> list[str]:
    """Of these titles those that are nearly a name of the column."""
    names = [core(name) for name in (column.own_name, *column.french, *column.english, *column.doubtful)]
    return [title for title in titles if get_close_matches(core(fold(title)), names, cutoff=ALIKE)]


def matched(slot: Slot, titles: Sequence[str], chosen: Mapping[str, str]) -> Header | None:
    """How the titles name the slot's columns, each once; none where they don't."""
    folded = [fold(title) for title in titles]
    places: dict[str, int] = {}
    for column in slot.columns:
        found = candidates_for(column, folded, chosen)
        if len(found) > 1:
            return None
        if not found and (not column.is_optional or likely_for(column, unknown_titles(slot, titles, chosen))):
            return None
        if found:
            places[column.name] = found[0]
    if len(set(places.values())) < len(places):
        return None
    left_out = frozenset(place for place, title in enumerate(folded) if title and place not in places.values())
    return Header(slot, tuple(titles), places, left_out)


def best_headers(slots: Sequence[Slot], titles: Sequence[str], chosen: Mapping[str, str]) -> list[Header]:
    """The slots that the titles name, of which those with the most columns are meant."""
    headers = [header for slot in slots if (header := matched(slot, titles, chosen))]
    most = max((len(header.places) for header in headers), default=0)
    return [header for header in headers if len(header.places) == most]


def score_of(slot: Slot, titles: Sequence[str], chosen: Mapping[str, str]) -> int:
    """How many of a slot's columns the titles name."""
    folded = [fold(title) for title in titles]
    return sum(bool(candidates_for(column, folded, chosen)) for column in slot.columns)


@dataclass(frozen=True)
class Parts:
    """What differs in a first row, one after another."""

    parts: tuple[Filled, ...]

    def said(self, language: Language) -> str:
        return ", ".join(said(part, language) for part in self.parts)


def differing(slots: Sequence[Slot], titles: Sequence[str], chosen: Mapping[str, str]) -> Unreadable:
    """Says how a first row differs from that of the slot that it is nearest to, and what to do about the first of
    the columns that are not there as they should be."""
    if not any(title.strip() for title in titles):
        return Unreadable(EMPTY_FILE.of(), EXPORT_WITH_NAMES.of())
    if len(slots) > 1 and is_for_take_in(titles, chosen):
        return Unreadable(FOR_TAKE_IN.of(), TAKE_IN_LATER.of())
    slot = max(slots, key=lambda slot: (score_of(slot, titles, chosen), -len(slot.columns)))
    if score_of(slot, titles, chosen) == 0:
        return Unreadable(NO_SLOT.of(names=shown(" | ".join(titles))), BEGIN_WITH_NAMES.of())
    found = [difference for column in slot.columns if (difference := difference_of(column, slot, titles, chosen))]
    parts = Parts(tuple(part for part, _ in found))
    # What an optional column may be called is a question only where no other column is missing.
    to_do = [advice for part, advice in found if part.text is not MAY_BE] + [advice for _, advice in found]
    return Unreadable(NEAREST.of(slot=slot.name, parts=parts), to_do[0] if to_do else NAME_COLUMNS.of())


def is_for_take_in(titles: Sequence[str], chosen: Mapping[str, str]) -> bool:
    """Whether they are those of a day's answers, which have no day, or tell the wish and the candidate apart. A title
    that is unknown beside a target may be that of the days."""
    header = matched(ANSWER_SHEET, titles, chosen)
    named = set(header.places) if header else set()
    is_wishes = bool(candidates_for(WISHES.column("programme"), [fold(title) for title in titles], chosen))
    if is_wishes or "target" in named and ("day" in named or unknown_titles(ANSWER_SHEET, titles, chosen)):
        return False
    return {"wish", "candidate"} <= named or "day" not in named and bool({"target", "wish", "candidate"} & named)


def difference_of(column: Column, slot: Slot, titles: Sequence[str],
                  chosen: Mapping[str, str]) -> tuple[Filled, Filled] | None:
    """What is wrong with a column, and what to do."""
    found = candidates_for(column, [fold(title) for title in titles], chosen)
    if len(found) > 1:
        named = [shown(titles[place]) for place in found]
        return (NAMED_TWICE.of(count=len(found), column=column.name, names=", ".join(named)),
                NAME_COLUMN.of(name=named[0], column=column.name))
    if not found and not column.is_optional:
        return MISSING_COLUMN.of(column=column.name), how_to_name(column, slot, titles, chosen)
    if not found and (likely := likely_for(column, unknown_titles(slot, titles, chosen))):
        return (MAY_BE.of(title=shown(likely[0]), column=column.name),
                NAME_OR_LEAVE.of(name=shown(likely[0]), column=column.name))
    return None


def how_to_name(column: Column, slot: Slot, titles: Sequence[str], chosen: Mapping[str, str]) -> Filled:
    """How to say which title a missing column has. One is named only if it is nearly a name of it, or if one title and
    one column are left: what two exchanged columns of flags say is told by nothing."""
    folded = [fold(title) for title in titles]
    missing = [other for other in slot.columns if not (other.is_optional or candidates_for(other, folded, chosen))]
    unknown = unknown_titles(slot, titles, chosen)
    likely = likely_for(column, unknown)
    if not unknown:
        return NAME_COLUMNS.of()
    if len(likely) == 1 or len(unknown) == 1 and missing == [column]:
        return NAME_COLUMN.of(name=shown((likely or unknown)[0]), column=column.name)
    return SAY_TITLE.of(column=column.name)


def is_known(title: str, slot: Slot) -> bool:
    return any(is_name_of(title, column) for column in slot.columns)
