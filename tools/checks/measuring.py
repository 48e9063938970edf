"""What `measure.sh` measures and prints, and the dossiers of national shape that it makes."""

import csv
from collections import Counter
from pathlib import Path

from .harness import TOOLS, Ended, Tally, executable, run, scratch
from .measure import is_of_days, surroundings
from .modes import MODES
from .national import ALL_DAYS, FIRST_DAYS, KINDS
from .shaped import up_to
from .timed import maker

SIZES = ("150", "300")
BAD_WORDS = (
    ("fly",), ("--rows", "even"), ("--candidates", "300"), ("--candidates", "300", "150"),
    ("--candidates", "99", "300"), ("--candidates", "300", "1000001"), ("--candidates", "few", "many"),
    ("--days", "0"), ("--days", "367"), ("--days",), ("--runs", "0"), ("--longest", "0"), ("--fast",),
    ("--beside",), ("--beside", ""), ("--beside", "/nowhere/parcours"),
)
OTHER_TEXT = '#!/bin/sh\necho "$1"\n'
# The script `parcours` looks at 64,000 blocks of 1024 bytes.


def call(program: str, *words: str, runs: str = "1") -> Ended:
    return run(TOOLS / "measure.sh", "--candidates", *SIZES, "--runs", runs, *words, environment={"PARCOURS": program})


def table(ended: Ended) -> list[list[str]]:
    """The cells of the rows that are printed."""
    return [line.strip("| ").split("|") for line in ended.output.decode().splitlines() if line.startswith("| ")]


def runs_of(days: int) -> list[str]:
    """The modes as the table names them, two rows each."""
    named = {name: f"{name} --days {days}" for name, mode in MODES.items() if is_of_days(mode)}
    named["check"] = f"check, {days} days"
    return [named.get(name, name) for name in MODES for _ in SIZES]


def check_tables(tally: Tally, program: str) -> None:
    tally.begin("measure.sh, its table")
    ended = call(program, "--rows", "gaps", "--days", "3", "--beside", program)
    head, *rows = table(ended)
    tally.check("how it ends", (ended.status, ended.complaint) == (0, ""), ended)
    tally.equal("the titles", [title.strip() for title in head],
                ["dossier", "candidates", "rows", "run", "s", "MB", "times wc -l", "s grow", "MB grow",
                 f"{Path(program).name} s", "times", f"{Path(program).name} MB"])
    tally.equal("the runs", [row[-9].strip() for row in rows], runs_of(3))
    tally.equal("the candidates", [row[-11].strip() for row in rows], list(SIZES) * len(MODES))
    tally.check("growth is told at the second number", all(bool(row[-5].strip()) == bool(nth % 2)
                                                           for nth, row in enumerate(rows)), ended)
    tally.check("what reads slots is compared with wc", all(bool(row[-6].strip()) == (row[-9].strip() != "sample")
                                                            for row in rows), ended)


def check_found(tally: Tally, program: str) -> None:
    """Other texts and runs that fail are told."""
    tally.begin("measure.sh, what it finds")
    with scratch() as folder:
        other, fails = executable(folder / "other", OTHER_TEXT), executable(folder / "fails", "#!/bin/sh\nexit 5\n")
        for name, words in (("another text", ("--beside", other)), ("the other fails", ("--beside", fails))):
            ended = call(program, "order", "--rows", "sorted", *words, runs="2")
            found = [line for line in ended.output.decode().splitlines() if line.startswith("FOUND sorted, ")]
            tally.check(name, ended.status == 1 and len(found) == len(SIZES), ended)
        tally.check("its status is told", b" (status 5) | " in ended.output, ended)
        ended = call(fails, "sample")
        tally.check("the program fails", ended.status == 1 and b"| sample (status 5) | " in ended.output
                    and b"FOUND 150 candidates, sample: " in ended.output, ended)
        ended = call("/nowhere/parcours", "sample")
        tally.check("no program", ended.status == 1 and "cannot be started" in ended.complaint, ended)


def check_words(tally: Tally) -> None:
    tally.begin("measure.sh, words that it does not know")
    for words in BAD_WORDS:
        ended = run(TOOLS / "measure.sh", *words)
        is_line = ended.complaint.startswith("measure.sh: ") and ended.complaint.count("\n") == 1
        tally.check(" ".join(words), (ended.status, ended.output, is_line) == (2, b"", True), ended)


def check_start(tally: Tally) -> None:
    """Programs are started as the script `parcours` starts its own."""
    tally.begin("measure.sh, how it starts programs")
    with scratch() as folder:
        given = surroundings(folder)
        tally.equal("huge pages, and blocks that go back", given["GLIBC_TUNABLES"].split(":")[:2],
                    ["glibc.malloc.hugetlb=1", f"glibc.malloc.mmap_threshold={8 << 20}"])
        tally.equal("symbols are bound at once", given["LD_BIND_NOW"], "1")


def columns(folder: Path, slot: str) -> list[dict[str, str]]:
    with (folder / f"{slot}.csv").open(encoding="ascii") as file:
        return list(csv.DictReader(file))


def check_shape(tally: Tally) -> None:
    """The three kinds are one dossier, with what the nation's has."""
    tally.begin("dossiers of national shape")
    with scratch() as place:
        made = {kind: maker("national", kind, "3000", place / kind) for kind in KINDS}
        slots = {kind: {path.stem: len(columns(place / kind, path.stem)) for path in (place / kind).glob("*.csv")}
                 for kind in KINDS}
        tally.equal("rows", [rows for rows, _, _ in made.values()], [sum(slots["sorted"].values())] * len(KINDS))
        tally.check("each slot has rows, as many in each kind", all(of_kind == slots["sorted"] and all(of_kind.values())
                                                                  for of_kind in slots.values()), slots)
        for slot in ("rankings", "boarding", "wishes"):
            in_order, in_none = ((place / kind / f"{slot}.csv").read_text() for kind in KINDS[:2])
            tally.check(f"{slot}: the same rows in another order", in_order != in_none
                        and sorted(in_order.splitlines()) == sorted(in_none.splitlines()))
        check_columns(tally, place / "sorted", place / "gaps")


def check_columns(tally: Tally, folder: Path, with_gaps: Path) -> None:
    wishes = columns(folder, "wishes")
    people = {row["candidate"] for row in wishes}
    automatic = {row["candidate"] for row in wishes if row["preference"] != "0"}
    tally.check("a third rank their wishes", 0.3 < len(automatic) / len(people) < 0.37, len(automatic))
    seats = sorted(int(row["seats"]) for row in columns(folder, "programmes"))
    tally.check("programmes of very different sizes", seats[0] >= 2 and seats[-1] > 5 * seats[len(seats) // 2], seats)
    sharing = Counter(row["group"] for row in columns(folder, "programmes"))
    tally.equal("how many programmes share a group", set(sharing.values()), {1, 3})
    tally.check("wishes with boarding", 0.02 < sum(row["school"] != "" for row in wishes) / len(wishes) < 0.2)
    tally.equal("the state", {row["status"] for row in columns(folder, "state")}, {"accepted", "offered"})
    days = Counter(int(row["day"]) for row in columns(folder, "answers"))
    tally.equal("days of answers", set(days), set(up_to(ALL_DAYS)))
    tally.check("most answers in the first days", sum(days[day] for day in up_to(FIRST_DAYS)) > days.total() * 0.6, days)
    ids = [int(row["wish"]) for row in columns(with_gaps, "wishes")]
    tally.check("ids with gaps", len(set(ids)) == len(wishes) and max(ids) > 1_900_000_000 and min(ids) >= 1, len(ids))
