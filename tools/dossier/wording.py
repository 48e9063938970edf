"""The words of a tool: its help is at most 80 columns wide, and an error in them is told with what to do."""

import argparse
import os
from collections.abc import Callable
from enum import Enum
from typing import Any, NoReturn, TypeVar

from .faults import shown
from .texts import Language

WIDTH = 80
Choice = TypeVar("Choice", bound=Enum)


def language_here() -> Language:
    """The language of the user's surroundings: French where they say so, else English."""
    named = next((os.environ[name] for name in ("LC_ALL", "LC_MESSAGES", "LANG") if os.environ.get(name)), "")
    return "fr" if named.lower().startswith("fr") else "en"


def one_of(kind: type[Choice]) -> Callable[[str], Choice]:
    """How a word is read that is one of these; any other is told with them."""
    def chosen(text: str) -> Choice:
        try:
            return kind(text)
        except ValueError:
            choices = " or ".join(str(choice.value) for choice in kind)
            raise argparse.ArgumentTypeError(f"{shown(text)} is not {choices}") from None
    return chosen


class Formatter(argparse.HelpFormatter):
    """Help of at most 80 columns, however wide the terminal is."""

    def __init__(self, prog: str):
        super().__init__(prog, width=WIDTH, max_help_position=26)


class Words(argparse.ArgumentParser):
    """The words of a tool. `help` is `--help`, and no option is known by its beginning alone."""

    def __init__(self, tool: str, description: str, epilog: str):
        super().__init__(prog=tool, description=description, epilog=epilog, allow_abbrev=False,
                         formatter_class=Formatter)
        self.no_options: frozenset[str] = frozenset()

    def of(self, arguments: list[str]) -> argparse.Namespace:
        """What the words say. Those behind `--` are no options, with whatever they begin."""
        if "--" in arguments:
            end = arguments.index("--")
            self.no_options = frozenset(arguments[end + 1:])
            arguments = arguments[:end] + arguments[end + 1:]
        return self.parse_intermixed_args(["--help"] if arguments == ["help"] else arguments)

    def _parse_optional(self, arg_string: str) -> Any:
        # (before Python 3.13 parse_intermixed_args forgets a `--` before the first name)
        return None if arg_string in self.no_options else super()._parse_optional(arg_string)

    def of_campaign(self, arguments: list[str]) -> argparse.Namespace:
        """As `of`, where --start and --term are among the words."""
        given = self.of(arguments)
        if (given.start is None) != (given.term is None):
            self.bad("--start and --term are given together or not at all")
        return given

    def bad(self, message: str) -> NoReturn:
        """Says what is wrong with the words, and ends with status 2."""
        self.error(message)
