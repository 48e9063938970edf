"""The modes, by the table of `tools/modes.txt`, and whether the program at hand has them."""

import csv
import io
import subprocess
import sys
from argparse import ArgumentTypeError
from collections.abc import Iterator
from dataclasses import dataclass
from random import Random

from dossier.program import NOT_BUILT, program

from .harness import EXAMPLES, TOOLS
from .runs import BAD_WORDS, Files, Job, file_of, run_of

TABLE = TOOLS / "modes.txt"
ITEMS = {"--wish": "wishes", "--school": "schools"}
NUMBER_OF_A_SAMPLE = ("--number", "20")


@dataclass(frozen=True)
class Mode:
    """A mode with the options that it must and may have, and the slots that it reads, in order."""

    name: str
    needs: tuple[str, ...]
    options: tuple[str, ...]
    reads: tuple[str, ...]

    @property
    def files(self) -> tuple[str, ...]:
        return tuple(map(file_of, self.reads))

    @property
    def item(self) -> tuple[str, str] | None:
        """The option that names an item of a slot, and the slot."""
        return next(((option, ITEMS[option]) for option in self.needs if option in ITEMS), None)


def names_in(cell: str) -> tuple[str, ...]:
    return () if cell == "-" else tuple(cell.split(","))


def modes_of(table: str) -> Iterator[Mode]:
    for line in table.splitlines():
        if line and not line.startswith("#"):
            name, *cells = line.split()
            yield Mode(name, *map(names_in, cells))


MODES = {mode.name: mode for mode in modes_of(TABLE.read_text())}
NO_CHAIN = b"end\n"


def mode_named(name: str) -> str:
    """A word that names a mode."""
    if name not in MODES:
        raise ArgumentTypeError(f"no mode {name}; the modes are {', '.join(MODES)}")
    return name


def items(files: Files, slot: str) -> list[str]:
    """The ids of a slot's rows; the id 1 where it has none."""
    text = files.get(file_of(slot), b"").decode("latin-1").lstrip("\u00ef\u00bb\u00bf")
    return [cells[0] for cells in list(csv.reader(io.StringIO(text, newline="")))[1:] if cells] or ["1"]


def words_of(mode: Mode, files: Files, options: tuple[str, ...], by: Random) -> tuple[str, ...]:
    """The words that run the mode with these options on these slots."""
    if mode.item is None:
        return (mode.name, *(NUMBER_OF_A_SAMPLE if mode.needs else ()), *options)
    option, slot = mode.item
    return (mode.name, option, by.choice(items(files, slot)), *options)


def turned(mode: Mode, jobs: list[Job], by: Random) -> Iterator[Job]:
    """The runs of `replay` as runs of another mode; for `check`, with the chain that the program writes of them."""
    for job in jobs:
        if job.mode == "replay" and b"".join(job.files.values()):
            options = tuple(word for word in job.words if word != job.mode)
            files = {**job.files, file_of("chain"): chain_of(job)} if mode.name == "check" else job.files
            yield Job(job.title, files, words_of(mode, files, options, by))


def chain_of(job: Job) -> bytes:
    """The chain that the program writes of a run; a chain of no days where it writes none."""
    ended = run_of(Job(job.title, job.files, tuple("chain" if word == job.mode else word for word in job.words)))
    return ended.text if ended.status == 0 else NO_CHAIN


def is_known(mode: Mode) -> bool:
    """Whether the program has the mode: to a mode that it does not have it answers `bad words`."""
    files = {path.name: path.read_bytes() for path in sorted((EXAMPLES / "two-days").glob("*.csv"))}
    files[file_of("chain")] = NO_CHAIN
    ended = run_of(Job("two days", files, words_of(mode, files, (), Random(0))))
    return (ended.status, ended.text) != (BAD_WORDS, b"bad words\n")


def make_sure() -> None:
    """Ends with a message where the program is not there; the script `parcours` may have to build it first."""
    try:
        done = subprocess.run([program(), "order"], cwd=EXAMPLES / "two-groups", stdin=subprocess.DEVNULL,
                              stdout=subprocess.DEVNULL, check=False)
    except OSError as error:
        sys.exit(f"{program()} cannot be started: {error.strerror}")
    if done.returncode == NOT_BUILT:
        sys.exit(f"{program()} is not built")


def known_modes(asked: list[str]) -> list[Mode]:
    """The modes that were asked for, or all; a line says of each that the program does not have."""
    make_sure()
    found = []
    for mode in MODES.values():
        if asked and mode.name not in asked:
            continue
        if is_known(mode):
            found.append(mode)
        else:
            print(f"{mode.name}: skipped, the program answers `bad words`", flush=True)
    if not found:
        sys.exit(f"{program()} has none of the modes")
    return found
