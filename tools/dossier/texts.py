"""Texts in two languages."""

import unicodedata
from dataclasses import dataclass, field
from typing import Literal, Protocol, runtime_checkable

Language = Literal["en", "fr"]
NO_BREAK = "\u00a0"


@dataclass(frozen=True)
class Text:
    """A text in English and French, with places for what differs from one use to another."""

    en: str
    fr: str

    def of(self, **values: object) -> "Filled":
        return Filled(self, values)


@dataclass(frozen=True)
class Filled:
    """A text with its values, of which some may be texts themselves."""

    text: Text
    values: dict[str, object] = field(default_factory=dict)

    def said(self, language: Language) -> str:
        values = {name: said(value, language) for name, value in self.values.items()}
        return spaced(getattr(self.text, language).format(**values), language)


class NoReading(Exception):
    """What has no reading, or more than one: what is wrong, and what to do."""

    def __init__(self, what: Filled, to_do: Filled):
        super().__init__(what)
        self.what = what
        self.to_do = to_do


@dataclass(frozen=True)
class Counted:
    """So many things. French has the singular for none, too."""

    count: int
    one: Text
    many: Text

    def said(self, language: Language) -> str:
        is_one = self.count == 1 or self.count == 0 and language == "fr"
        return f"{self.count} {(self.one if is_one else self.many).of().said(language)}"


@dataclass(frozen=True)
class OfName:
    """A name behind a word for `of`, which in French loses its vowel before another."""

    name: str

    def said(self, language: Language) -> str:
        if language == "en":
            return f"of {self.name}"
        begins_with_vowel = unicodedata.normalize("NFD", self.name)[:1].lower() in tuple("aeiouœæ")
        return f"d'{self.name}" if begins_with_vowel else f"de {self.name}"


@dataclass(frozen=True)
class Listed:
    """Names and texts, with commas."""

    parts: tuple[object, ...]

    def said(self, language: Language) -> str:
        return ", ".join(said(part, language) for part in self.parts)


@runtime_checkable
class Sayable(Protocol):
    """What is said in one of the languages."""

    def said(self, language: Language) -> str:
        """It in the language."""
        ...


def said(value: object, language: Language) -> str:
    """A value in the language, where it has one."""
    if isinstance(value, Text):
        return value.of().said(language)
    return value.said(language) if isinstance(value, Sayable) else str(value)


def spaced(text: str, language: Language) -> str:
    """French has blanks that do not break before colons and semicolons."""
    return text.replace(" :", NO_BREAK + ":").replace(" ;", NO_BREAK + ";") if language == "fr" else text


def joined(parts: list[str], language: Language) -> str:
    """The parts with commas, and a word before the last."""
    word = " et " if language == "fr" else " and "
    return word.join(filter(None, (", ".join(parts[:-1]), parts[-1] if parts else "")))
