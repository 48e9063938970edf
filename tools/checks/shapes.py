"""Times the program on dossiers of extreme shapes, each at two sizes, and shows how its time and memory grow."""

import argparse
import sys
from dataclasses import dataclass
from functools import partial
from pathlib import Path

from dossier.wording import Words

from .harness import scratch, until_told
from .timed import DONE, MEGABYTE, Call, Measured, are_well, growth, in_turn, maker, named_program

LONGEST = 60.0
HEAD = "| shape | words | rows | text MB | program | s | MB | s grow | MB grow |"
LINE = "|---|---|---|---|---|---|---|---|---|"


@dataclass(frozen=True)
class Shape:
    """By what its dossiers are made, at which two sizes, and the words that it is run with."""

    maker: str
    sizes: tuple[int, int]
    words: tuple[str, ...] = ("replay",)
    # The words by which the program itself writes the chain that the run reads.
    chain: tuple[str, ...] = ()

    def make(self, size: int, folder: Path) -> int:
        """Writes a dossier, and answers how many rows it has."""
        [rows] = maker("shaped", self.maker, str(size), folder)
        return rows


SHAPES = {
    "quits": Shape("offers_move", (5_000, 20_000), ("replay", "--days", "2")),
    "quits-ranked": Shape("offers_move_ranked", (5_000, 20_000), ("replay", "--days", "2")),
    "one-group": Shape("one_group", (50_000, 200_000)),
    "one-group-market": Shape("one_group", (50_000, 200_000), ("market",)),
    "one-group-envy": Shape("one_group", (50_000, 200_000), ("envy",)),
    "one-school": Shape("one_school", (50_000, 200_000)),
    "one-candidate": Shape("one_candidate", (5_000, 20_000)),
    "one-claim": Shape("one_claim", (5_000, 20_000)),
    "displaced": Shape("displaced", (4_000, 16_000), ("market",)),
    "programmes-at-once": Shape("programmes_at_once", (20_000, 80_000), ("market",)),
    "cascade": Shape("cascade", (2_000, 4_000)),
    "cascade-envy": Shape("cascade", (4_000, 8_000), ("envy",)),
    "cascade-beds": Shape("cascade", (4_000, 8_000), ("beds", "--school", "1")),
    "schools-at-once": Shape("schools_at_once", (20_000, 80_000)),
    "passes": Shape("passes", (500, 2_000)),
    "idle-days": Shape("applicants", (10_000, 40_000), ("chain", "--days", "366")),
    "check-falls": Shape("schools_at_once", (20_000, 80_000), ("check",), ("chain",)),
    "check-days": Shape("applicants", (10_000, 40_000), ("check",), ("chain", "--days", "61")),
    "sorted": Shape("applicants", (25_000, 100_000)),
    "shuffled": Shape("shuffled", (25_000, 100_000)),
    "gaps": Shape("with_gaps", (25_000, 100_000)),
}


def lines(name: str, program: str, rows: list[int], found: list[Measured]) -> str:
    """A line for each size; the second one tells the growth."""
    small, large = found
    told = []
    for count, one, grow in zip(rows, found, (("", ""), growth(small, large, rows[1] / rows[0]))):
        told.append(f"| {name} | {' '.join(SHAPES[name].words)} | {count} | {one.length / MEGABYTE:.1f} "
                    f"| {program}{one.ended} | {one.seconds:.2f} | {one.memory / MEGABYTE:.0f} "
                    f"| {grow[0]} | {grow[1]} |")
    return "\n".join(told)


def quickest(calls: list[Call], runs: int) -> list[Measured]:
    """The quickest run of each call; of one that does not end well once, that run."""
    return [min(found, key=lambda run: (run.status == DONE, run.seconds)) for found in in_turn(calls, runs)]


def tried(name: str, programs: list[str | None], asked: argparse.Namespace) -> bool:
    """Measures a shape, prints its lines, and answers whether all runs ended well with the same text."""
    shape, rows, found = SHAPES[name], [], []
    with scratch() as place:
        for size in shape.sizes:
            folder = place / str(size)
            rows.append(shape.make(size, folder))
            if shape.chain:
                Call(shape.chain, folder, asked.longest).write_into(folder / "chain.txt")
            found.append(quickest([Call(shape.words, folder, asked.longest, by) for by in programs], asked.runs))
    for program, of_program in zip(programs, zip(*found)):
        print(lines(name, Path(program).name if program else "parcours", rows, list(of_program)), flush=True)
    is_well = all(map(are_well, found))
    if not is_well:
        print(f"FOUND {name}: a run did not end well, or the texts differ", flush=True)
    return is_well


def arguments() -> Words:
    words = Words("shapes.sh", "Makes dossiers of extreme shapes, each at two sizes, runs the program on them (and "
                  "another one in turn, whose text must be the same), and prints a table of processor seconds and peak "
                  "memory. The last two columns are the growth from the first size to the second, as a power of the "
                  "rows: 1 is as the rows, 2 their square. A run is never said to take less memory than this script.",
                  f"Shapes: {', '.join(SHAPES)}. Status: 0 all texts are the same, 1 some are not or a run did not end "
                  "well, 2 bad words.")
    words.add_argument("shapes", nargs="*", metavar="SHAPE", help="all where none is named")
    words.add_argument("--beside", metavar="PROGRAM", help="another program to run in turn")
    words.add_argument("--runs", type=int, default=1, help="runs of each program, of which the quickest counts (1)")
    words.add_argument("--longest", type=float, default=LONGEST,
                       help=f"the most seconds of a processor for a run ({LONGEST:.0f})")
    return words


def measure(asked: argparse.Namespace, beside: str | None) -> int:
    programs = [None, beside] if beside else [None]
    print(f"{HEAD}\n{LINE}", flush=True)
    results = [tried(name, programs, asked) for name in asked.shapes or SHAPES]
    return 0 if all(results) else 1


def main(words: list[str]) -> int:
    parser = arguments()
    asked = parser.of(words)
    unknown = [name for name in asked.shapes if name not in SHAPES]
    if unknown or asked.runs < 1 or asked.longest <= 0:
        parser.error(f"no shape {unknown[0]}" if unknown else "--runs and --longest are above 0")
    return until_told(partial(measure, asked, named_program(parser, asked.beside)))


if __name__ == "__main__":
    sys.exit(main(sys.argv[1:]))
