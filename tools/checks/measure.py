"""Times each mode of the program on dossiers of national shape, at two numbers of candidates."""

import argparse
import shutil
import sys
from collections.abc import Iterator
from dataclasses import dataclass
from functools import partial
from pathlib import Path
from typing import NoReturn

from dossier.wording import Words

from .harness import TOP, run, scratch, until_told
from .modes import MODES, TABLE, Mode, make_sure
from .national import KINDS
from .timed import DONE, LEAST, MEGABYTE, Call, Measured, are_well, growth, in_turn, maker, named_program

SIZES = (10_000, 100_000)
LEAST_SIZE, MOST_SIZE, MOST_DAYS = 100, 1_000_000, 366
LONGEST = 600.0
HEAD = ("dossier", "candidates", "rows", "run", "s", "MB", "times wc -l", "s grow", "MB grow")
SET = ("GLIBC_TUNABLES", "LD_BIND_NOW")
STAND_IN = "#!/bin/sh\nprintenv " + " ".join(SET) + "\n"


@dataclass(frozen=True)
class Made:
    """A dossier that was made: of which kind, for how many candidates, how many rows it has, and the wish and the
    school that are asked for."""

    kind: str
    candidates: int
    folder: Path
    rows: int
    items: dict[str, int]
    environment: dict[str, str]


@dataclass(frozen=True)
class Task:
    """A mode, and for how many days it runs, if for any."""

    mode: Mode
    days: int | None

    @property
    def name(self) -> str:
        if self.days is None:
            return self.mode.name
        return f"{self.mode.name}{', %d days' if self.mode.name == 'check' else ' --days %d'}" % self.days

    def words(self, made: Made) -> tuple[str, ...]:
        name, item = self.mode.name, self.mode.item
        if name in ("check", "sample"):
            return ("check",) if name == "check" else (name, "--number", str(made.candidates))
        asked = (item[0], str(made.items[item[0]])) if item else ()
        return (name, *asked, *(("--days", str(self.days)) if self.days is not None else ()))


def surroundings(folder: Path) -> dict[str, str]:
    """How the script `parcours` has the C library start and allocate in this folder, asked of the script itself."""
    with scratch() as tree:
        shutil.copy(TOP / "parcours", tree)
        (tree / "tools").mkdir()
        shutil.copy(TABLE, tree / "tools")
        (tree / "installed").touch()
        (tree / "program").write_text(STAND_IN)
        (tree / "program").chmod(0o755)
        given = run(tree / "parcours", "order", folder=folder).output.decode().splitlines()
        return dict(zip(SET, given, strict=True))


def make(kind: str, candidates: int, place: Path) -> Made:
    folder = place / str(candidates)
    rows, wish, school = maker("national", kind, str(candidates), folder)
    return Made(kind, candidates, folder, rows, {"--wish": wish, "--school": school}, surroundings(folder))


def nothing(candidates: int, place: Path) -> Made:
    """What `sample` reads: no slot. Its rows are the candidates."""
    return Made("", candidates, place, candidates, {}, surroundings(place))


def seconds_of(seconds: float) -> str:
    return f"{seconds:.2f}" if seconds >= 0.1 else f"{seconds:.3f}"


def median(runs: list[Measured]) -> Measured:
    """The run of the median seconds, with the greatest memory of all; of runs of which one did not end well, that."""
    if runs[-1].status != DONE:
        return runs[-1]
    middle = sorted(runs, key=lambda one: one.seconds)[len(runs) // 2]
    return Measured(DONE, middle.seconds, max(one.memory for one in runs), middle.length, middle.checksum)


@dataclass(frozen=True)
class Row:
    """What a task took on a dossier: the program, the other one if there is one, and `wc -l` if it reads slots."""

    task: Task
    made: Made
    own: Measured
    other: Measured | None
    lines: Measured | None
    is_well: bool

    def cells(self, first: "Row") -> Iterator[str]:
        made = self.made
        yield from (made.kind, str(made.candidates), str(made.rows), f"{self.task.name}{self.own.ended}")
        yield from (seconds_of(self.own.seconds), f"{self.own.memory / MEGABYTE:.0f}")
        yield f"{self.own.seconds / max(self.lines.seconds, LEAST / 10):.1f}" if self.lines else ""
        yield from ("", "") if first is self else growth(first.own, self.own, made.rows / first.made.rows)
        if self.other:
            times = self.own.seconds / max(self.other.seconds, LEAST / 10)
            yield from (f"{seconds_of(self.other.seconds)}{self.other.ended}", f"{times:.1f}",
                        f"{self.other.memory / MEGABYTE:.0f}")


def measured(task: Task, made: Made, beside: str | None, asked: argparse.Namespace) -> Row:
    """Runs the programs and `wc -l` in turn."""
    call = partial(Call, folder=made.folder, longest=asked.longest, environment=made.environment)
    if task.mode.name == "check":
        call(("chain", "--days", str(task.days))).write_into(made.folder / "chain.txt")
    programs = [None, beside] if beside else [None]
    calls = [call(task.words(made), program=program) for program in programs]
    if task.mode.files:
        calls.append(call(("-l", *task.mode.files), program="wc"))
    found = in_turn(calls, asked.runs)
    own, *others = map(median, found)
    return Row(task, made, own, others[0] if beside else None, others[-1] if task.mode.files else None,
               are_well([one for runs in found[:len(programs)] for one in runs]))


def tasks(asked: argparse.Namespace) -> list[Task]:
    """Those that read a dossier, and then `sample`."""
    return [Task(mode, days) for mode in MODES.values() if not asked.modes or mode.name in asked.modes
            for days in (asked.days if is_of_days(mode) else [None])]


def is_of_days(mode: Mode) -> bool:
    """Whether it is run for several numbers of days: `check` by its chain, and `sample` for one day alone."""
    return mode.name == "check" or "--days" in mode.options and mode.files != ()


def told(rows: list[Row]) -> bool:
    """Prints the rows of a task at all sizes, and answers whether all runs ended well with the same text."""
    for row in rows:
        print(line(row.cells(rows[0])), flush=True)
    for row in rows:
        if not row.is_well:
            kind = f"{row.made.kind}, " if row.made.kind else ""
            print(f"FOUND {kind}{row.made.candidates} candidates, {row.task.name}: a run did not end well, or the "
                  "texts differ", flush=True)
    return all(row.is_well for row in rows)


def line(cells: tuple[str, ...] | Iterator[str]) -> str:
    return f"| {' | '.join(cells)} |"


def measure(asked: argparse.Namespace, beside: str | None) -> int:
    """Each kind of dossier has its folders for as long as it is measured."""
    make_sure()
    name = Path(beside).name if beside else ""
    head = (*HEAD, f"{name} s", "times", f"{name} MB") if beside else HEAD
    print(f"{line(head)}\n|{'---|' * len(head)}", flush=True)
    results = []
    reading = [task for task in tasks(asked) if task.mode.files]
    for kind in asked.rows if reading else ():
        with scratch() as place:
            dossiers = [make(kind, size, place) for size in asked.candidates]
            for task in reading:
                results.append(told([measured(task, made, beside, asked) for made in dossiers]))
    for task in tasks(asked):
        if not task.mode.files:
            with scratch() as place:
                results.append(told([measured(task, nothing(size, place), beside, asked)
                                     for size in asked.candidates]))
    return 0 if all(results) else 1


class OneLine(Words):
    """Words of which an error is told in one line."""

    def error(self, message: str) -> NoReturn:
        self.exit(2, f"{self.prog}: {message}; {self.prog} --help has all words\n")


def arguments() -> OneLine:
    words = OneLine("measure.sh", "Makes dossiers of national shape at two numbers of candidates, runs each mode of "
                    "the program on them, and `wc -l` of the same slots (and another program, whose text must be the "
                    "same), all in turn, and prints a table: the median of the processor seconds, the greatest peak "
                    "memory, how many times the seconds of `wc -l`, and the growth from the first number to the "
                    "second, as a power of the rows. Programs are started as the script `parcours` starts its own. A "
                    "run is never said to take less memory than this script.",
                    f"Modes: {', '.join(MODES)}. Status: 0 all texts are the same, 1 some are not or a run did not end "
                    "well, 2 bad words.")
    words.add_argument("modes", nargs="*", metavar="MODE", help="all where none is named")
    words.add_argument("--candidates", nargs=2, type=int, metavar="N", default=SIZES,
                       help=f"two numbers from {LEAST_SIZE} to {MOST_SIZE}, the lesser first ({SIZES[0]} {SIZES[1]})")
    words.add_argument("--rows", nargs="+", choices=KINDS, metavar="KIND", default=("sorted", "gaps"),
                       help="sorted, shuffled, or gaps: shuffled, with gaps in the ids (sorted gaps)")
    words.add_argument("--days", nargs="+", type=int, metavar="N", default=(3, 30), help="days of a run (3 30)")
    words.add_argument("--runs", type=int, default=5, help="runs of each program, of which the median counts (5)")
    words.add_argument("--beside", metavar="PROGRAM", help="another program to run in turn")
    words.add_argument("--longest", type=float, default=LONGEST,
                       help=f"the most seconds of a processor for a run ({LONGEST:.0f})")
    return words


def wrong(asked: argparse.Namespace) -> str | None:
    """What is wrong with the words."""
    small, large = asked.candidates
    if unknown := [name for name in asked.modes if name not in MODES]:
        return f"no mode {unknown[0]}"
    if not LEAST_SIZE <= small < large <= MOST_SIZE:
        return f"--candidates are two numbers from {LEAST_SIZE} to {MOST_SIZE}, the lesser first"
    if not all(1 <= days <= MOST_DAYS for days in asked.days):
        return f"--days are from 1 to {MOST_DAYS}"
    return None if asked.runs >= 1 and asked.longest > 0 else "--runs and --longest are above 0"


def main(words: list[str]) -> int:
    parser = arguments()
    asked = parser.of(words)
    if fault := wrong(asked):
        parser.error(fault)
    return until_told(partial(measure, asked, named_program(parser, asked.beside)))


if __name__ == "__main__":
    sys.exit(main(sys.argv[1:]))
