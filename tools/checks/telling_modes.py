"""The table of modes is what the program does, and each page that lists the modes has them all."""

import re
import shutil
from pathlib import Path
from random import Random

from .harness import EXAMPLES, TOP, Ended, Tally, run, scratch
from .modes import MODES, NO_CHAIN, Mode, words_of
from .runs import BAD_WORDS, binary, file_of

READ_FAULT = 3
DEFINED = TOP / "crates/request/specs/Modes.antt"
WORDS = re.compile(r"^ {4}parcours (\w+)\b(.*)$", re.M)
# Where each mode has a line, as it is written there.
LISTED = {
    "tools/help.txt": "  parcours {} ", "tools/man/parcours.1": "{}", "tools/man/fr/parcours.1": "{}",
    "README.md": "`{}`", "LISEZMOI.md": "`{}`", "examples/README.md": "`{}`", "docs/fr/GLOSSAIRE.md": "mode `{}`",
    "docs/FORMATS.md": "    parcours {} ",
}


def check_listed(tally: Tally) -> None:
    tally.begin("the modes: where they are listed")
    tally.equal(str(DEFINED.relative_to(TOP)), re.findall(r"\(codes \"(\w+)\", ", DEFINED.read_text()), list(MODES))
    for name, written in LISTED.items():
        lines = listed_lines((TOP / name).read_text())
        missing = [mode for mode in MODES if not any(written.format(mode) in f"{line} " for line in lines)]
        tally.check(f"{name} lacks {', '.join(missing)}", missing == [])
    told = dict(WORDS.findall((TOP / "docs/FORMATS.md").read_text()))
    for name, mode in MODES.items():
        tally.equal(f"docs/FORMATS.md: the options of {name}", set(re.findall(r"--\w+", told.get(name, ""))),
                    {*mode.needs, *mode.options})


def listed_lines(page: str) -> list[str]:
    """The lines of a page that list something: rows of tables, lines that are indented, and those of a man page."""
    return [line for line in page.splitlines() if line.startswith(("|", "  ", ".B"))]


def answer(mode: Mode, folder: Path) -> Ended:
    return run(binary(), *words_of(mode, {}, (), Random(0)), folder=folder)


def check_reads(tally: Tally) -> None:
    """Each mode reads the slots of the table, in their order, and no others."""
    tally.begin("the modes: what they read and need")
    for mode in MODES.values():
        with scratch() as place:
            found = []
            for slot in mode.reads:
                ended = answer(mode, place)
                found.append((ended.status, ended.output.decode()))
                source = EXAMPLES / "two-days" / file_of(slot)
                shutil.copy(source, place) if source.exists() else (place / file_of(slot)).write_bytes(NO_CHAIN)
            expected = [(READ_FAULT, f"read fault {slot}\n") for slot in mode.reads]
            tally.equal(f"{mode.name}: its slots", found, expected)
            ended = run(binary(), *words_of(mode, {}, (), Random(0))[:1], folder=place)
            tally.equal(f"{mode.name}: what it needs", ended.status == BAD_WORDS, mode.needs != ())
            is_run = answer(mode, place).status not in (BAD_WORDS, READ_FAULT)
            tally.check(f"{mode.name}: no other slot", is_run, sorted(place.iterdir()))
