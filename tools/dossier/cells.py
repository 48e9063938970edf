"""From the text of a cell to its value. A text with no reading, or with two, is a fault."""

import re
import unicodedata
from dataclasses import dataclass
from datetime import date
from decimal import Decimal
from enum import Enum

from .faults import shown
from .headers import fold
from .messages import (BECAME_DATE, CORRECT_DATE, CORRECT_NUMBER, CORRECT_RATE, DATE_READINGS, DIGITS_ALONE,
                       DIGITS_LOST, EMPTY, ENTER_ANEW, EXPORT_VALUES, FAR_YEAR, FILL_IN, FORMAT_NUMBER, FORMAT_TEXT,
                       FORMAT_TEXT_AGAIN, FORMULA, HIDDEN_LETTER, LEAVE_EMPTY, MEND_FORMULA, MERGED_CELL, NARROW,
                       NOT_DATE, NOT_DAY, NOT_FLAG, NOT_WHOLE, NO_DAY, OUT_OF_RANGE, PART_OF_PERCENT, RATE_READINGS,
                       SAY_ORDER, SHEET_ERROR, SIGN_RATE, THOUSANDS, TWO_WORDS, UNKNOWN_WORD, UNMERGE, WIDEN,
                       WITHOUT_POINTS, WRITE_DATE, WRITE_DAY, WRITE_FLAG, WRITE_WORD, WRITE_ZERO, ZERO_ID)
from .slots import GREATEST_NUMBER, Column, Content
from .sources import MERGED
from .texts import NoReading

BLANKS = " \t\u00a0\u2007\u2009\u202f"
PLAIN_NUMBER = re.compile(r"[0-9]+")
BLANK_NUMBER = re.compile(rf"[0-9]{{1,3}}(?:[{BLANKS}][0-9]{{3}})+")
WHOLE_TAIL = re.compile(r"(.*[0-9])[.,]0{1,2}", re.DOTALL)
THOUSANDS_OR_DECIMALS = re.compile(r"[0-9]{1,3}(?:[.,][0-9]{3})+")
LOST_DIGITS = re.compile(r"[0-9]+(?:[.,][0-9]+)?[eE][+-][0-9]+")
NUMBER_LIKE = re.compile(rf"[+-]?[0-9][0-9.,'’{BLANKS}]*|[+-][0-9.,'’{BLANKS}]+|[.,'’][0-9]+")
DAY_NUMBER = re.compile(r"[+-]?[0-9]{1,3}(?:[.,]0{1,2})?")
DECIMAL = re.compile(r"[0-9]{1,6}(?:\.[0-9]{1,20})?")
MOST_DIGITS = 1000
NARROW_COLUMN = re.compile(r"##+")
ERROR = re.compile(r"#.*|Err:[0-9]+", re.DOTALL)
MONTH = "(?:jan|feb|fev|mar|apr|avr|may|mai|jun|juin|jul|juil|aug|aou|sep|oct|nov|dec)[a-z]{0,6}"
NAMED_DATE = re.compile(rf"[0-9]{{1,2}} {MONTH}\.?(?: [0-9]{{2,4}})?|{MONTH}\.? [0-9]{{2}}")
NUMBERED_DATE = re.compile(r"[0-9]{4}[-/](?:0?[1-9]|1[0-2])[-/](?:[0-2]?[0-9]|3[01])"
                           r"|(?:[0-2]?[0-9]|3[01])[-/.](?:[0-2]?[0-9]|3[01])[-/.](?:[0-9]{2}|[0-9]{4})")
MIDNIGHT = r"(?:[ T]00:00(?::00)?)?"
ISO_DATE = re.compile(rf"([0-9]{{4}})-([0-9]{{2}})-([0-9]{{2}}){MIDNIGHT}")
PARTED_DATE = re.compile(rf"([0-9]{{1,2}})(?:[-/.](?=[^-/.]+[-/.][0-9]{{4}})|[/.](?=[^-/.]+[/.]))([0-9]{{1,2}})[-/.]"
                         rf"([0-9]{{4}}|[0-6][0-9]){MIDNIGHT}")
MONTHS = {name: number for number, names in enumerate((
    "january janvier jan janv", "february fevrier feb fev fevr", "march mars mar", "april avril apr avr", "may mai",
    "june juin jun", "july juillet jul juil", "august aout aug", "september septembre sep sept", "october octobre oct",
    "november novembre nov", "december decembre dec"), start=1) for name in names.split()}
WEEKDAYS = "|".join(("lundi", "mardi", "mercredi", "jeudi", "vendredi", "samedi", "dimanche", "monday", "tuesday",
                     "wednesday", "thursday", "friday", "saturday", "sunday"))
ANY_MONTH = "|".join(MONTHS)
WRITTEN_DATE = re.compile(rf"(?:(?:{WEEKDAYS}) )?(?:(?P<day>[0-9]{{1,2}})(?:er|st|nd|rd|th)? (?P<month>{ANY_MONTH})"
                          rf"|(?P<first_month>{ANY_MONTH}) (?P<second_day>[0-9]{{1,2}})(?:st|nd|rd|th)?)"
                          rf" (?P<year>[0-9]{{4}}|[0-6][0-9])")
EARLIEST_YEAR, LATEST_YEAR = 1900, 2299

FLAGS = {
    **dict.fromkeys(("1", "true", "vrai", "yes", "oui", "y", "o"), True),
    **dict.fromkeys(("0", "false", "faux", "no", "non", "n"), False),
}
STATUSES = {
    "waiting": ("en attente", "attente"),
    "offered": ("proposition", "propose", "proposee", "proposition d'admission", "offer"),
    "accepted": ("accepte", "acceptee"),
    "refused": ("refuse", "refusee"),
    "withdrawn": ("retire", "retiree"),
    "quit": ("demission", "demissionne"),
    "auto_refused": ("refuse automatiquement", "refusee automatiquement", "refused automatically"),
    "auto_withdrawn": ("retire automatiquement", "retiree automatiquement", "withdrawn automatically"),
    "lapsed": ("caduc", "caduque", "expire", "expiree"),
}
ANSWERS = {
    "accept": ("accepte", "accepter", "acceptation"),
    "refuse": ("refuser", "refus"),
    "withdraw": ("retire", "retirer", "retrait"),
    "quit": ("demission", "demissionne", "demissionner"),
}
# How the words are written for those who read or are to write them.
IN_ENGLISH = {
    "waiting": "waiting", "offered": "offer", "accepted": "accepted", "refused": "refused", "withdrawn": "withdrawn",
    "quit": "quit", "auto_refused": "refused automatically", "auto_withdrawn": "withdrawn automatically",
    "lapsed": "lapsed",
}
IN_FRENCH = {
    "waiting": "en attente", "offered": "proposition", "accepted": "accepté", "refused": "refusé",
    "withdrawn": "retiré", "quit": "démission", "auto_refused": "refusé automatiquement",
    "auto_withdrawn": "retiré automatiquement", "lapsed": "caduc",
    "accept": "accepter", "refuse": "refuser", "withdraw": "retirer",
}
DOUBTFUL = ("renonce", "renoncer", "renoncement", "renonciation", "give up", "gives up", "gave up", "given up")


class DateOrder(Enum):
    """How dates such as 02/06/2025 are to be read."""

    DAY_FIRST = "day-first"
    MONTH_FIRST = "month-first"


class Rates(Enum):
    """How rates without a sign are to be read: 20 is 20 % by the one, and 0.2 is 20 % by the other."""

    PERCENT = "percent"
    FRACTION = "fraction"


class Unclear(NoReading):
    """A cell without exactly one reading."""


@dataclass(frozen=True, slots=True)
class Id:
    """An id: its key, by which ids are compared, and how it was spelled."""

    key: str
    spelled: str

    @property
    def number(self) -> int | None:
        """The id as a number, where it is one that a slot can hold."""
        if not PLAIN_NUMBER.fullmatch(self.key) or len(self.key) > 10:
            return None
        value = int(self.key)
        return value if 1 <= value <= GREATEST_NUMBER else None


Value = int | bool | str | Id | None


def read_cell(text: str, column: Column, dates: DateOrder | None, rates: Rates | None = None) -> Value:
    """The value of a cell of this column. A rate of 1 has one reading by `rates` alone."""
    if text == MERGED:
        raise Unclear(MERGED_CELL.of(), UNMERGE.of())
    trimmed = text.strip(BLANKS + "\r\n")
    if trimmed == "":
        return _empty(column)
    _test_letters(trimmed)
    match column.content:
        case Content.ID | Content.TARGET:
            return read_id(trimmed)
        case Content.NUMBER:
            return _in_range(read_number(trimmed), column)
        case Content.PERCENTAGE:
            return _in_range(read_rate(trimmed, rates), column)
        case Content.FLAG:
            return read_flag(trimmed)
        case Content.STATUS:
            return read_word(trimmed, STATUSES)
        case Content.ANSWER:
            return read_word(trimmed, ANSWERS)
        case Content.DAY:
            return read_day(trimmed, column, dates)
    return read_date(trimmed, dates)


def _test_letters(text: str) -> None:
    """Refuses what stands in the place of a value, and letters by which two texts differ that look alike."""
    if not text.isprintable():
        hidden = next((letter for letter in text if not (letter.isprintable() or letter.isspace())), None)
        if hidden is not None:
            raise Unclear(HIDDEN_LETTER.of(text=shown(text), code=f"U+{ord(hidden):04X}"), ENTER_ANEW.of())
    if NARROW_COLUMN.fullmatch(text):
        raise Unclear(NARROW.of(text=shown(text)), WIDEN.of())
    if ERROR.fullmatch(text):
        raise Unclear(SHEET_ERROR.of(text=shown(text)), MEND_FORMULA.of())
    if text.startswith("="):
        raise Unclear(FORMULA.of(text=shown(text)), EXPORT_VALUES.of())


def _empty(column: Column) -> Value:
    if not column.may_be_empty:
        raise Unclear(EMPTY.of(), (WRITE_ZERO if column.name == "preference" else FILL_IN).of())
    return 0 if column.content is Content.NUMBER else None


def read_number(text: str) -> int:
    """A whole number, with blanks between thousands or with zeros after a decimal point where the sheet shows them."""
    if LOST_DIGITS.fullmatch(text):
        raise Unclear(DIGITS_LOST.of(text=text), FORMAT_NUMBER.of())
    if THOUSANDS_OR_DECIMALS.fullmatch(text):
        raise Unclear(THOUSANDS.of(text=text), WITHOUT_POINTS.of())
    tail = WHOLE_TAIL.fullmatch(text)
    whole = tail.group(1) if tail else text
    if PLAIN_NUMBER.fullmatch(whole) and len(whole.lstrip("0")) <= MOST_DIGITS:
        return int(whole.lstrip("0") or "0")
    if BLANK_NUMBER.fullmatch(whole):
        return int("".join(letter for letter in whole if letter not in BLANKS))
    raise Unclear(NOT_WHOLE.of(text=shown(text)), DIGITS_ALONE.of())


def rates_of(texts: list[str]) -> Rates | None:
    """How a column of rates is to be read: as percentages where it has a sign, or a number above 1."""
    return Rates.PERCENT if any("%" in text or _is_above_one(text) for text in texts) else None


def _is_above_one(text: str) -> bool:
    number = text.strip(BLANKS).replace(",", ".")
    return DECIMAL.fullmatch(number) is not None and float(number) > 1


def read_rate(text: str, rates: Rates | None) -> int:
    """A rate in whole per cent."""
    plain = text.removesuffix("%").rstrip(BLANKS)
    number = plain.replace(",", ".")
    if not DECIMAL.fullmatch(number):
        return read_number(plain if plain[:1].isdigit() else text)
    if plain == text and rates is None and 0 < Decimal(number) <= 1:
        raise Unclear(RATE_READINGS.of(text=shown(text)), SIGN_RATE.of())
    rate = Decimal(number) * 100 if plain == text and rates is Rates.FRACTION else Decimal(number)
    if rate != int(rate):
        raise Unclear(PART_OF_PERCENT.of(text=shown(text)), CORRECT_RATE.of())
    return int(rate)


def _in_range(value: int, column: Column) -> int:
    if not column.least <= value <= column.greatest:
        raise Unclear(OUT_OF_RANGE.of(value=value, least=column.least, greatest=column.greatest), CORRECT_NUMBER.of())
    return value


def spelled_as(text: str) -> str:
    """An id as it is kept: its letters composed, and its blanks single."""
    return " ".join((text if text.isascii() else unicodedata.normalize("NFC", text)).split())


def read_id(text: str) -> Id:
    """An id: a number, or any other text that the spreadsheet cannot have changed."""
    spelled = spelled_as(text)
    if LOST_DIGITS.fullmatch(text):
        raise Unclear(DIGITS_LOST.of(text=text), FORMAT_TEXT_AGAIN.of())
    if NUMBERED_DATE.fullmatch(text) or NAMED_DATE.fullmatch(fold(text)):
        raise Unclear(BECAME_DATE.of(text=shown(text)), FORMAT_TEXT.of())
    if not NUMBER_LIKE.fullmatch(text):
        return Id(spelled, spelled)
    value = read_number(text)
    if value == 0:
        raise Unclear(ZERO_ID.of(), LEAVE_EMPTY.of())
    return Id(str(value), spelled)


def read_flag(text: str) -> bool:
    flag = FLAGS.get(fold(text))
    if flag is None:
        raise Unclear(NOT_FLAG.of(text=shown(text)), WRITE_FLAG.of())
    return flag


def read_word(text: str, words: dict[str, tuple[str, ...]]) -> str:
    folded = fold(text)
    for word, others in words.items():
        if folded == word.replace("_", " ") or folded in others:
            return word
    choice = WRITE_WORD.of(en=", ".join(words), fr=", ".join(map(IN_FRENCH.__getitem__, words)))
    raise Unclear((TWO_WORDS if folded in DOUBTFUL else UNKNOWN_WORD).of(text=shown(text)), choice)


def read_date(text: str, order: DateOrder | None) -> str:
    """A date as YYYY-MM-DD."""
    year, month, day = parts_of_date(text, order)
    try:
        found = date(year, month, day)
    except ValueError:
        raise Unclear(NO_DAY.of(text=text), CORRECT_DATE.of()) from None
    if not EARLIEST_YEAR <= year <= LATEST_YEAR:
        raise Unclear(FAR_YEAR.of(text=text, least=EARLIEST_YEAR, greatest=LATEST_YEAR), CORRECT_DATE.of())
    return found.isoformat()


def read_day(text: str, column: Column, order: DateOrder | None) -> int | str:
    """A day as its number, or as a date."""
    if DAY_NUMBER.fullmatch(text):
        return _in_range(read_number(text), column)
    try:
        return read_date(text, order)
    except Unclear as error:
        if error.what.text is NOT_DATE:
            raise Unclear(NOT_DAY.of(text=shown(text)), WRITE_DAY.of()) from None
        raise


def parts_of_date(text: str, order: DateOrder | None) -> tuple[int, int, int]:
    """The year, the month and the day that a text names in one reading."""
    if match := ISO_DATE.fullmatch(text):
        year, month, day = map(int, match.groups())
        return year, month, day
    if match := PARTED_DATE.fullmatch(text):
        first, second = int(match[1]), int(match[2])
        day, month = _day_and_month(text, first, second, order)
        return full_year(match[3]), month, day
    if match := WRITTEN_DATE.fullmatch(fold(text).replace(",", "").replace(".", "")):
        named = match["month"] or match["first_month"]
        return full_year(match["year"]), MONTHS[named], int(match["day"] or match["second_day"])
    raise Unclear(NOT_DATE.of(text=shown(text)), WRITE_DATE.of())


def full_year(text: str) -> int:
    """A year of two digits is one of this century."""
    return int(text) + (2000 if len(text) == 2 else 0)


def _day_and_month(text: str, first: int, second: int, order: DateOrder | None) -> tuple[int, int]:
    if order is DateOrder.DAY_FIRST:
        return first, second
    if order is DateOrder.MONTH_FIRST:
        return second, first
    if first == second or second > 12:
        return (first, second) if first == second else (second, first)
    if first > 12:
        return first, second
    raise Unclear(DATE_READINGS.of(text=text), SAY_ORDER.of())
