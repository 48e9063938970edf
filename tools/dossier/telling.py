"""From the line of `explain` on standard input to plain sentences on standard output."""

import sys
from types import ModuleType

from . import words_en, words_fr
from .explanation import (AcceptedWish, BarredWish, Explanation, GoneWish, OfferedWish, SeatlessWish, UnknownWish,
                          explanation_of)
from .faults import shown
from .setting import OF_A_RUN, Setting
from .texts import Language, spaced
from .wording import Words, language_here
from .writing import write_whole

SAID, NOT_A_LINE, BAD_WORDS, NOT_READ, NOT_WRITTEN = range(5)
LANGUAGES: dict[Language, ModuleType] = {"en": words_en, "fr": words_fr}
LONGEST_LINE = 1000


class NotALine(Exception):
    """What was read instead of one line of `explain`."""


def one_line(data: bytes) -> str:
    """The one line of the input, which ends with a line feed."""
    if not data:
        raise NotALine("nothing came in; the program's own message says why")
    if len(data) > LONGEST_LINE or data.count(b"\n") > 1:
        raise NotALine("more than one line came in; tell one wish at a time")
    if not data.endswith(b"\n"):
        raise NotALine(f"the line is cut: {shown(data.decode(errors='replace'))}")
    return data[:-1].decode(errors="replace").removesuffix("\r")


def sentences(found: Explanation, setting: Setting, language: Language) -> list[str]:
    """An explanation, said to the candidate: how the wish stands, then why, then what they can do."""
    words_of = LANGUAGES[language]
    match found:
        case GoneWish():
            told = words_of.gone(found, setting)
        case OfferedWish():
            told = words_of.offered(found, setting)
        case AcceptedWish():
            told = words_of.accepted(found, setting)
        case BarredWish():
            told = words_of.barred(found, setting)
        case SeatlessWish():
            told = words_of.seatless(found, setting)
        case UnknownWish():
            told = words_of.unknown(found, setting)
    return [spaced(sentence, language) for sentence in told]


def in_words(data: bytes, language: Language) -> str:
    line = one_line(data)
    found = explanation_of(line)
    if found is None:
        raise NotALine(f"this is no line of `explain`: {shown(line)}")
    return " ".join(sentences(found, OF_A_RUN, language)) + "\n"


def words() -> Words:
    parser = Words("in_words", "Says the one line of `parcours explain` on standard input in plain sentences, in "
                   "the language of the surroundings where none is named.",
                   "Status: 0 said, 1 not one line of explain, 2 bad words, 3 not read, 4 not written.")
    parser.add_argument("language", nargs="?", choices=list(LANGUAGES), default=language_here(), help="en or fr")
    return parser


def main(arguments: list[str]) -> int:
    parser = words()
    language = parser.of(arguments).language
    if sys.stdin is None or sys.stdin.isatty():
        parser.bad("give it the line of explain on standard input")
    try:
        data = sys.stdin.buffer.read(LONGEST_LINE + 1)
    except OSError as error:
        print(f"in_words: the line could not be read: {error.strerror}", file=sys.stderr)
        return NOT_READ
    try:
        told = in_words(data, language)
    except NotALine as error:
        print(f"in_words: {error}", file=sys.stderr)
        return NOT_A_LINE
    return SAID if write_whole("in_words", told) else NOT_WRITTEN
