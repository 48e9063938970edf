"""Random dossiers, exported in four dialects and prepared back to the same slots."""

import contextlib
import csv
import io
from pathlib import Path
from random import Random

from dossier import preparing
from dossier.naming import IDS
from dossier.slots import SLOTS, Thing
from dossier.writing import csv_bytes

from .dialects import DIALECTS, Dialect, Namer, export, named, named_in_part, thing_at
from .dossiers import Cell, Dossier, random_dossier
from .harness import Tally, contents, run, scratch

DOSSIERS = 200
SEED = 20260602
NAMERS = (None, named, named_in_part)


def prepare(*words: str | Path) -> tuple[int, str, str]:
    """Runs `prepare` in this process: its status, and what it says on both outputs."""
    said, complained = io.StringIO(), io.StringIO()
    with contextlib.redirect_stdout(said), contextlib.redirect_stderr(complained):
        status = preparing.main([str(word) for word in words])
    return status, said.getvalue(), complained.getvalue()


def with_answers(random: Random, dossier: Dossier) -> Dossier:
    """The dossier with answers that name wishes and candidates; whether they fit is not asked."""
    wishes = dossier.rows["wishes"]
    for day in sorted(random.randint(1, 9) for _ in range(min(len(wishes), 4))):
        wish, candidate, *_ = random.choice(wishes)
        kind = random.choice(("accept", "refuse", "withdraw", "quit"))
        dossier.rows["answers"].append((day, kind, candidate if kind == "quit" else wish))
    return dossier


def named_back(folder: Path) -> dict[str, bytes]:
    """The prepared slots, with each number put back to its name by the table of ids."""
    with open(folder / IDS, newline="", encoding="utf-8") as file:
        names = {(thing, row["number"]): row[thing] for row in csv.DictReader(file) for thing in row if row[thing]}
    files = {}
    for slot in SLOTS:
        with open(folder / slot.file, newline="", encoding="utf-8") as file:
            header, *rows = csv.reader(file)
        columns = [slot.column(name) for name in header]
        back = [[name_of(names, thing_at(column, tuple(row)), cell) for column, cell in zip(columns, row)]
                for row in rows]
        files[slot.file] = csv_bytes(header, back)
    return files


def name_of(names: dict[tuple[str, str], str], thing: Thing | None, cell: str) -> str:
    return cell if thing is None else names.get((thing.value, cell), cell)


def named_dossier(dossier: Dossier, namer: Namer) -> dict[str, bytes]:
    """The slots of the dossier with names in place of ids."""
    def cell_of(thing: Thing | None, cell: Cell) -> Cell:
        return cell if thing is None or cell is None else namer(thing, int(cell))

    files = {}
    for slot in SLOTS:
        header = dossier.header(slot)
        columns = [slot.column(name) for name in header]
        rows = [[cell_of(thing_at(column, row), cell) for column, cell in zip(columns, row)]
                for row in dossier.rows[slot.name]]
        files[slot.file] = csv_bytes(header, [["" if cell is None else cell for cell in row] for row in rows])
    return files


def comes_back(dialect: Dialect, dossier: Dossier, random: Random, namer: Namer | None) -> tuple[bool, str]:
    """Whether the dossier, exported in the dialect, is prepared back; and what was said."""
    with scratch() as folder:
        export(dialect, dossier, folder / "exports", random, namer)
        order = ["--dates", "day-first"] if dialect.is_day_first else []
        status, said, complained = prepare(folder / "exports", folder / "slots", *order)
        if status != preparing.DONE:
            return False, complained
        if (folder / "slots" / IDS).exists():
            return named_back(folder / "slots") == named_dossier(dossier, namer or named), said
        expected = {slot.file: dossier.slot_bytes(slot) for slot in SLOTS}
        return contents(folder / "slots") == expected, said


def check_round_trips(tally: Tally) -> None:
    tally.begin(f"{DOSSIERS} random dossiers, exported in {len(DIALECTS)} dialects and prepared back")
    random = Random(SEED)
    for number in range(DOSSIERS):
        dossier = with_answers(random, random_dossier(random))
        for dialect in DIALECTS:
            holds, seen = comes_back(dialect, dossier, random, NAMERS[number % len(NAMERS)])
            tally.check(f"dossier {number} in the dialect {dialect.name}", holds, seen)


def check_acceptance(tally: Tally, program: str) -> None:
    """What is prepared is a dossier that the program accepts; and what has a fault is one that it refuses."""
    tally.begin("dossiers with one change: faults are found exactly where the program refuses")
    random = Random(SEED + 1)
    for number in range(120):
        dossier = with_answers(random, random_dossier(random))
        dossier.rows["answers"] = [row for row in dossier.rows["answers"] if row[1] == "quit"]
        change = changed(random, dossier)
        with scratch() as folder:
            dossier.write(folder / "slots")
            status, _, complained = prepare(folder / "slots", folder / "prepared", "--rates", "percent")
            ended = run(program, "replay", folder=folder / "slots")
            refused = ended.output.decode()[:80] if ended.status == 1 else "accepted"
            is_alike = ended.status < 2 and (status == preparing.FAULTY) == (ended.status == 1)
            tally.check(f"dossier {number}, {change}", is_alike, f"the program: {refused}\n{complained}")


def changed(random: Random, dossier: Dossier) -> str:
    """Changes one row of the dossier, or none, and says what was done."""
    slot = random.choice([slot for slot in SLOTS if dossier.rows[slot.name]])
    rows = dossier.rows[slot.name]
    place = random.randrange(len(rows))
    kind = random.choice(("nothing", "twice", "taken out", "swapped", "another cell", "another cell", "another cell"))
    if kind == "twice":
        rows.append(rows[place])
    elif kind == "taken out":
        rows.pop(place)
    elif kind == "swapped":
        other = random.randrange(len(rows))
        rows[place], rows[other] = rows[other], rows[place]
    elif kind == "another cell":
        column = random.randrange(len(rows[place]))
        cell = random.choice((0, 1, 5, random.choice(rows)[column]))
        rows[place] = (*rows[place][:column], cell, *rows[place][column + 1:])
        return f"{slot.name} row {place + 2} column {column + 1} is {cell}"
    return f"{slot.name} row {place + 2} {kind}"
