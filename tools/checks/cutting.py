"""A campaign that is cut at an evening, and begun again from what it left, goes on as if it had not been cut.

`check.sh cutting` cuts some dozens of random campaigns; `PYTHONPATH=tools python3 -m checks.cutting N`, at the top,
cuts as many as it is told. What the days are, the program says: once in one run of all days, and once in a run of the
days after the evening, of a folder that has

- as state what stands after `final` in the run up to that evening,
- no answer and no change of a ceiling up to that day, and the later ones dated so many days earlier,
- for each school its ceiling of that day, as its own or, as `next_day` keeps it, as a change of day 1,
- with deadlines, a start so many days later.

The text of the second must be that of the first without the days before the evening, and with the others numbered so
many days earlier. Where an answer does not fit, both are refused at it, after the same days.

The proved program `next_slot` writes the four slots of a morning that a day changes. Where it is built, or NEXT_SLOT
names it, these are compared with the slots by the rule, byte for byte, and with those that `next_day` keeps: the state
and the answers byte for byte, and of the schools and ceilings what they come to, since `next_day` leaves each school's
own ceiling as it is and keeps that of the coming day as a change of day 1.
"""

import argparse
import os
import re
import shutil
import subprocess
import sys
import time
from collections import Counter
from collections.abc import Iterator
from dataclasses import dataclass, replace
from datetime import date, timedelta
from pathlib import Path
from random import Random

from dossier.campaign import CALENDAR, next_day
from dossier.dating import Calendar, next_answers, next_ceilings
from dossier.program import program as program_named
from dossier.slots import ANSWERS, SLOTS
from dossier.stops import Stopped

from .crowded import CEILINGS, crowded_dossier, give_answers
from .dossiers import FIRST_DAY, Cell, Dossier
from .harness import EXAMPLES, TOP, Tally, scratch, tell, until_told
from .runs import Files

MOST_DAYS = 7
CAMPAIGNS = 40
BY_NEXT_DAY = 20
SEED = 50
DAILY = ("schools", "state", "ceilings", "answers")
WRITER = TOP / "crates/next_slot/out/next_slot"
# What the other two pickers pick depends on how many days and passes came before.
PICKERS = ("first", "last")
DAY = re.compile(rb"(?m)^day ([0-9]+)$")
END = re.compile(rb"(?m)^(?:final$|refused )")
UNFIT = re.compile(rb"refused answers row ([0-9]+) reason 18 ")
SEEN = ("lapse", "fall", "offer", "auto", "refused")


@dataclass(frozen=True)
class Told:
    """A text of `replay`: its call orders, each day without its number, and its end: the final state, or a refusal."""

    orders: bytes
    days: tuple[bytes, ...]
    end: bytes

    @classmethod
    def of(cls, text: bytes) -> "Told":
        found = END.search(text)
        at = found.start() if found else len(text)
        orders, *parts = DAY.split(text[:at])
        assert parts[::2] == [b"%d" % day for day in range(1, len(parts) // 2 + 1)], text
        return cls(orders, tuple(parts[1::2]), text[at:])

    def to_bytes(self) -> bytes:
        numbered = (b"day %d%s" % (number, day) for number, day in enumerate(self.days, start=1))
        return self.orders + b"".join(numbered) + self.end

    @property
    def state(self) -> bytes | None:
        """What stands after `final`."""
        return self.end.removeprefix(b"final\n") if self.end.startswith(b"final\n") else None

    def after(self, evening: int, rows: list[int]) -> "Told":
        """What is left of it after an evening, with the days of all answers; a refusal names its row of those left."""
        return replace(self, days=self.days[evening:], end=UNFIT.sub(
            lambda match: b"refused answers row %d reason 18 " % row_after(int(match[1]), evening, rows), self.end))


def row_after(row: int, evening: int, days: list[int]) -> int:
    """The number of a row of answers when those up to an evening are dropped; the header is row 1."""
    return 1 + sum(day > evening for day in days[:row - 1])


def rows_in(files: Files, slot: str) -> list[list[str]]:
    return [line.split(",") for line in files[f"{slot}.csv"].decode().splitlines()[1:]]


@dataclass(frozen=True)
class Campaign:
    """The slots of its first morning, its deadlines, and what the program tells of its first days and of all."""

    files: Files
    first: Calendar
    picker: str
    days: int
    evenings: tuple[Told, ...]
    whole: Told

    def rows(self, slot: str) -> list[list[str]]:
        return rows_in(self.files, slot)

    def after(self, evening: int) -> Told:
        return self.whole.after(evening, [int(day) for day, *_ in self.rows("answers")])

    def words(self, evening: int, days: int) -> list[str]:
        """The words of a run of the days after an evening."""
        dated = self.first.today and self.first.today + timedelta(days=evening)
        return words_of(Calendar(1, dated, self.first.term), self.picker, days)

    def cuts(self, evening: int) -> Iterator[tuple[str, Files]]:
        """The slots of the morning after an evening: by the rule, and as `next_day` keeps them where that differs."""
        state = self.evenings[evening - 1].state
        assert state is not None
        ruled = {**self.files, **self.ruled(evening), "state.csv": state}
        yield "by the rule", ruled
        kept = {**self.files, "state.csv": state}
        for _ in range(evening):
            kept |= {"answers.csv": next_answers(kept["answers.csv"]),
                     "ceilings.csv": next_ceilings(kept["ceilings.csv"])}
        if kept != ruled:
            yield "as next_day keeps it", kept

    def ruled(self, evening: int) -> Files:
        """Each school has its ceiling of that day; answers and ceilings up to it are dropped, the others are dated."""
        latest = {school: ceiling for day, school, ceiling in self.rows("ceilings") if int(day) <= evening}
        schools = [[school, beds, latest.get(school, own)] for school, beds, own in self.rows("schools")]
        dated = {slot: [[str(int(day) - evening), *cells] for day, *cells in self.rows(slot) if int(day) > evening]
                 for slot in ("ceilings", "answers")}
        return {f"{slot}.csv": slot_of(self.files[f"{slot}.csv"], rows)
                for slot, rows in {"schools": schools, **dated}.items()}


def slot_of(old: bytes, rows: list[list[str]]) -> bytes:
    """A slot with the header of another one and these rows."""
    return b"".join(line + b"\n" for line in (old.splitlines()[0], *(",".join(row).encode() for row in rows)))


def words_of(calendar: Calendar, picker: str, days: int) -> list[str]:
    return ["replay", "--days", str(days), "--picker", picker, *calendar.words()]


def write_over(folder: Path, files: Files) -> None:
    """Makes the nine slots of a folder these; thousands of folders made and deleted would take longer than all runs."""
    folder.mkdir(exist_ok=True)
    for name, text in files.items():
        (folder / name).write_bytes(text)


def replayed(program: str, folder: Path, words: list[str]) -> bytes:
    return subprocess.run([program, *words], cwd=folder, stdin=subprocess.DEVNULL, stdout=subprocess.PIPE,
                          check=False).stdout


# --- Random campaigns ----------------------------------------------------------------------------------------------

def grown(random: Random, program: str, folder: Path, dated: bool) -> Campaign:
    """A random campaign of two to seven days, run in the folder, with deadlines or without. Of the answers of each day
    nearly all fit, by the evening before; one that does not ends the campaign."""
    dossier, days = crowded_dossier(random), random.randint(2, MOST_DAYS)
    add_ceilings(random, dossier, days)
    first = Calendar(1, FIRST_DAY - timedelta(days=random.randint(0, 2)) if dated else None,
                     random.choice((0, 1, 2, 5)) if dated else None)
    picker = random.choice(PICKERS)
    files = {slot.file: dossier.slot_bytes(slot) for slot in SLOTS}
    write_over(folder, files)
    evenings: list[Told] = []
    while len(evenings) < days and (not evenings or evenings[-1].state is not None):
        day = len(evenings) + 1
        give_answers(random, dossier, day, standing(dossier, evenings, first))
        files[ANSWERS.file] = dossier.slot_bytes(ANSWERS)
        write_over(folder, files)
        evenings.append(Told.of(replayed(program, folder, words_of(first, picker, day))))
    whole = evenings[-1]
    if len(evenings) < days:
        whole = Told.of(replayed(program, folder, words_of(first, picker, days)))
    return Campaign(files, first, picker, days, tuple(evenings), whole)


def add_ceilings(random: Random, dossier: Dossier, days: int) -> None:
    """Some more changes of ceilings, on any day up to the last."""
    schools = [school for school, *_ in dossier.rows["schools"]]
    changes = [(random.randint(1, days), random.choice(schools), random.choice(CEILINGS))
               for _ in range(random.choice((0, 1, 3)))] if schools else []
    all_changes = {change[:2]: change for change in [*dossier.rows["ceilings"], *changes]}.values()
    dossier.rows["ceilings"] = sorted(all_changes, key=lambda change: int(change[0] or 0))


def standing(dossier: Dossier, evenings: list[Told], first: Calendar) -> dict[Cell, str]:
    """How each wish stands on the coming morning, as far as the evening before and the deadlines tell."""
    rows = [[str(cell or "") for cell in row] for row in dossier.rows["state"]]
    if evenings:
        rows = [line.split(",") for line in (evenings[-1].state or b"").decode().splitlines()[1:]]
    known: dict[int, str] = {}
    for wish, status, *since in rows:
        known[int(wish)] = status
        if first.today and first.term is not None and status == "offered":
            offered = date.fromisoformat(since[0]) if since and since[0] else first.today - timedelta(days=1)
            if offered + timedelta(days=first.term) < first.today + timedelta(days=len(evenings)):
                known[int(wish)] = "lapsed"
    return {wish: known.get(int(wish or 0), "waiting") for wish, *_ in dossier.rows["wishes"]}


# --- Checks --------------------------------------------------------------------------------------------------------

def cut_everywhere(tally: Tally, program: str, campaign: Campaign, name: str, place: Path) -> int:
    """Cuts a campaign at each of its evenings but the last; how many runs went on."""
    runs = 0
    for evening in range(1, min(campaign.days, len(campaign.whole.days) + 1)):
        told = campaign.evenings[evening - 1]
        if told.state is None:
            break
        tally.equal(f"{name}: the days up to evening {evening}", told.days, campaign.whole.days[:evening])
        expected = campaign.after(evening).to_bytes()
        for way, files in campaign.cuts(evening):
            write_over(place, files)
            text = replayed(program, place, campaign.words(evening, campaign.days - evening))
            tally.equal(f"{name}, cut at evening {evening}, {way}", text, expected)
            runs += 1
    return runs


def kept_everywhere(tally: Tally, program: str, campaign: Campaign, name: str, folder: Path) -> None:
    """At each evening that `next_day` comes to in the folder, what is left of the campaign is run."""
    shutil.rmtree(folder, ignore_errors=True)
    write_over(folder, campaign.files)
    for evening, told in enumerate(campaign.evenings[:campaign.days - 1], start=1):
        try:
            next_day(folder, campaign.first if evening == 1 else Calendar())
        except Stopped as stop:
            reason = told.end.partition(b" reason ")[2].decode()
            is_told = stop.status == 1 and told.state is None and reason in str(stop)
            tally.check(f"{name}: next_day is refused on day {evening} alone", is_told, stop)
            return
        state = (folder / "state.csv").read_bytes()
        tally.equal(f"{name}: next_day, the state of evening {evening}", state, told.state)
        coming = Calendar.from_bytes((folder / CALENDAR).read_bytes())
        text = replayed(program, folder, words_of(coming, campaign.picker, campaign.days - evening))
        tally.equal(f"{name}: next_day, the days after evening {evening}", text, campaign.after(evening).to_bytes())


def writer_named() -> str | None:
    """The program that writes a slot of the next morning: the one that NEXT_SLOT names, else the one built here."""
    named = os.environ.get("NEXT_SLOT")
    if named:
        return os.path.abspath(shutil.which(named) or named)
    return str(WRITER) if WRITER.exists() else None


def ended(program: str, folder: Path, words: list[str]) -> tuple[int, bytes]:
    """The status of a run, and its text."""
    done = subprocess.run([program, *words], cwd=folder, stdin=subprocess.DEVNULL, stdout=subprocess.PIPE, check=False)
    return done.returncode, done.stdout


def coming(files: Files) -> tuple[dict[str, str], list[list[str]]]:
    """What the ceilings of slots come to: those of the schools on day 1, and the later changes."""
    changes = rows_in(files, "ceilings")
    first = {school: ceiling for school, _, ceiling in rows_in(files, "schools")}
    first |= {school: ceiling for day, school, ceiling in changes if int(day) == 1}
    return first, [change for change in changes if int(change[0]) > 1]


def written_everywhere(tally: Tally, program: str, writer: str, campaign: Campaign, name: str, place: Path) -> None:
    """What is written at each evening of a campaign: the slots by the rule, and those of a folder of `next_day`."""
    shutil.rmtree(place, ignore_errors=True)
    for folder in (place, place / "first", place / "kept"):
        write_over(folder, campaign.files)
    for evening, told in enumerate(campaign.evenings, start=1):
        words = words_of(campaign.first, campaign.picker, evening)
        found = {slot: ended(writer, place / "first", [slot, *words]) for slot in DAILY}
        if told.state is None:
            refused = ended(program, place / "first", words)
            tally.check(f"{name}: refused as the run is", all(each == refused for each in found.values()), found)
            return
        tally.check(f"{name}: evening {evening} is written", all(status == 0 for status, _ in found.values()), found)
        files = {f"{slot}.csv": text for slot, (_, text) in found.items()}
        ruled = {**campaign.ruled(evening), "state.csv": told.state}
        for file, text in files.items():
            tally.equal(f"{name}: {file} of evening {evening}, by the rule", text, ruled[file])
        next_day(place / "kept", campaign.first if evening == 1 else Calendar())
        kept = {file: (place / "kept" / file).read_bytes() for file in files}
        for file in ("state.csv", "answers.csv"):
            tally.equal(f"{name}: {file} of evening {evening}, as next_day keeps it", files[file], kept[file])
        tally.equal(f"{name}: ceilings after evening {evening}", coming(files), coming(kept))


def check_written(tally: Tally, program: str, number: int = CAMPAIGNS) -> None:
    """What `next_slot` writes, at each evening of `examples/two-days` and of random campaigns."""
    writer = writer_named()
    tally.begin(f"slots of next mornings, as next_slot writes them, {number} random campaigns")
    if writer is None:
        print("skipped: next_slot is not built")
        return
    with scratch() as place:
        for each, campaign in enumerate(two_days(program, place / "slots")):
            written_everywhere(tally, program, writer, campaign, f"two-days {each}", place / "written")
        for each in range(number):
            campaign = grown(Random(SEED + each), program, place / "slots", each % 2 == 1)
            written_everywhere(tally, program, writer, campaign, f"campaign {SEED + each}", place / "written")
        other = ended(writer, place / "slots", ["wishes", "replay"]), ended(writer, place / "slots", ["state", "order"])
        tally.equal("a slot that no day changes, and a run without a morning", other, ((2, b"bad words\n"),) * 2)


def check_random(tally: Tally, program: str, number: int = CAMPAIGNS, seed: int = SEED) -> Counter:
    """Random campaigns, each cut at every evening, every second one with deadlines; one in ten by `next_day` too."""
    tally.begin(f"{number} random campaigns of up to {MOST_DAYS} days, cut at every evening")
    seen: Counter = Counter()
    with scratch() as place:
        for each in range(number):
            name = f"campaign {seed + each}"
            campaign = grown(Random(seed + each), program, place / "slots", each % 2 == 1)
            runs = cut_everywhere(tally, program, campaign, name, place / "cut")
            if each % BY_NEXT_DAY in (0, 1):
                kept_everywhere(tally, program, campaign, name, place / "kept")
            whole = campaign.whole.to_bytes()
            is_dated = campaign.first.today is not None
            seen.update({"campaigns": 1, "with deadlines": is_dated, "runs from an evening": runs})
            seen.update(word for word in SEEN if re.search(rb"(?m)^%s " % word.encode(), whole))
    missed = [word for word in SEEN if not seen[word]]
    tally.check("there are lapses, falls, offers, automatic answers and unfit answers among them", not missed, missed)
    return seen


def wrong_mornings(campaign: Campaign, evening: int) -> Iterator[tuple[str, Files, int]]:
    """Mornings that are made wrong, each with the days that its start is too early."""
    right = {**campaign.files, **campaign.ruled(evening), "state.csv": campaign.evenings[evening - 1].state or b""}
    before = campaign.ruled(evening - 1)
    state = right["state.csv"]
    yield "the ceilings of the day before", {**right, "schools.csv": before["schools.csv"]}, 0
    yield "answers and ceilings a day late", {**right, **before, "schools.csv": right["schools.csv"]}, 0
    yield "an answer dropped that was not applied", {**right, "answers.csv": next_answers(right["answers.csv"])}, 0
    yield "the start a day early", right, 1
    yield "a lapsed offer carried on", {**right, "state.csv": state.replace(b",lapsed,\n", b",offered,\n")}, 0
    yield "an offer left out", {**right, "state.csv": re.sub(rb"(?m)^[0-9]+,offered.*\n", b"", state, count=1)}, 0
    yield "an offer without its date", {**right, "state.csv": re.sub(rb"(,offered,).+\n", rb"\1\n", state)}, 0


def check_finds(tally: Tally, program: str, number: int = CAMPAIGNS) -> None:
    """Each way to make a morning wrong gives another text in some of the random campaigns."""
    tally.begin(f"wrong mornings of {number} random campaigns are found")
    found: Counter = Counter()
    with scratch() as place:
        for each in range(number):
            campaign = grown(Random(SEED + each), program, place / "slots", each % 2 == 1)
            for evening in range(1, len(campaign.whole.days)):
                expected = campaign.after(evening).to_bytes()
                for way, files, early in wrong_mornings(campaign, evening):
                    found[way] += 0
                    if not found[way]:
                        write_over(place / "cut", files)
                        words = campaign.words(evening - early, campaign.days - evening)
                        found[way] += replayed(program, place / "cut", words) != expected
    for way, times in found.items():
        tally.check(way, times > 0)


def two_days(program: str, folder: Path) -> Iterator[Campaign]:
    """`examples/two-days`, of two days and of five, without deadlines and with each of some."""
    files = {slot.file: (EXAMPLES / "two-days" / slot.file).read_bytes() for slot in SLOTS}
    for days in (2, 5):
        for term in (None, 0, 1, 2):
            write_over(folder, files)
            first = Calendar(1, None if term is None else FIRST_DAY, term)
            evenings = tuple(Told.of(replayed(program, folder, words_of(first, "first", day)))
                             for day in range(1, days + 1))
            yield Campaign(files, first, "first", days, evenings, evenings[-1])


def check_two_days(tally: Tally, program: str) -> None:
    """`examples/two-days`, of two days and of five, cut at each evening, without deadlines and with each of some."""
    tally.begin("examples/two-days, cut at each evening")
    stored = (EXAMPLES / "two-days/replay.txt").read_bytes()
    with scratch() as place:
        for campaign in two_days(program, place / "slots"):
            days, term = campaign.days, campaign.first.term
            name = f"{days} days, term {term}"
            if days == 2 and term is None:
                tally.equal(f"{name}: as it is stored", campaign.whole.to_bytes(), stored)
            runs = cut_everywhere(tally, program, campaign, name, place / "cut")
            # Under a term of 0 the answers of day 2 come too late.
            tally.equal(f"{name}: the evenings", runs, 1 if term == 0 else days - 1)
            kept_everywhere(tally, program, campaign, name, place / "kept")


def main() -> int:
    parser = argparse.ArgumentParser(prog="checks.cutting", description="Random campaigns cut at every evening.")
    parser.add_argument("number", type=int, metavar="N", help="how many")
    parser.add_argument("--seed", type=int, default=SEED)
    asked = parser.parse_args()
    os.fsync = lambda _: None
    tally, begun = Tally(), time.monotonic()
    seen = check_random(tally, program_named(), asked.number, asked.seed)
    return tell(tally, begun, seen.items())


if __name__ == "__main__":
    sys.exit(until_told(main))
