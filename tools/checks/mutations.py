"""Mutated slots: the worked dossiers with bytes, fields and rows that are flipped, dropped, doubled and swapped.

A run over them must end by itself as a run may (`judging`). With another program beside it, both must give the same
bytes and the same status. In place of random changes, each slot may be cut at each of its bytes, or the words be
changed.
"""

import argparse
from collections import Counter
from collections.abc import Callable, Iterator
from dataclasses import dataclass, field
from functools import partial
from itertools import islice
from pathlib import Path
from random import Random

from dossier.wording import Words

from .harness import scratch, shortened, until_told
from .judging import LONGEST, OF_INPUT, fault
from .modes import MODES, Mode, known_modes, mode_named, turned, words_of
from .runs import BAD_WORDS, Job, Watched, all_jobs, put, run_of, watch

MOST_FOUND = 20
OPTIONS = ("--days", "--picker", "--start", "--term", "--wish", "--school", "--number")
VALUES = ("", "0", "1", "2", "366", "367", "first", "last", "turn", "each", "2025-06-02", "2025-02-29", "1900-12-31",
          "1901-01-01", "2298-12-31", "2299-01-01", "2000000000", "2000000001", "00000000001", "-1", "+1", "1 ", "Each",
          "--days", "=", "1=1")
ODD = (b"\0", b"\r", b"\n", b"\r\n", b",", b'"', b"\xff", b"\xef\xbb\xbf", b" ", b"0", b"-1", b"2000000001",
       b"4294967296", b"99999999999999999999", b"e", b"1e9", b"quit")
Change = Callable[[bytes, Random], bytes]


def place(text: bytes, by: Random) -> int:
    return by.randrange(len(text) + 1)


def flip_a_bit(text: bytes, by: Random) -> bytes:
    at = place(text, by)
    return text[:at] + bytes(byte ^ (1 << by.randrange(8)) for byte in text[at:at + 1]) + text[at + 1:]


def drop_bytes(text: bytes, by: Random) -> bytes:
    at = place(text, by)
    return text[:at] + text[at + by.choice((1, 1, 2, 5)):]


def double_bytes(text: bytes, by: Random) -> bytes:
    at, number = place(text, by), by.choice((1, 1, 3, 20))
    return text[:at] + text[at:at + number] + text[at:]


def put_odd_bytes(text: bytes, by: Random) -> bytes:
    at = place(text, by)
    return text[:at] + by.choice(ODD) + text[at:]


def cut_off(text: bytes, by: Random) -> bytes:
    return text[:place(text, by)]


def rows_changed(change: Callable[[list[bytes], Random], None]) -> Change:
    def changed(text: bytes, by: Random) -> bytes:
        rows = text.split(b"\n")
        change(rows, by)
        return b"\n".join(rows)
    return changed


def drop_a_row(rows: list[bytes], by: Random) -> None:
    del rows[by.randrange(len(rows))]


def double_a_row(rows: list[bytes], by: Random) -> None:
    rows.insert(by.randrange(len(rows) + 1), by.choice(rows))


def swap_rows(rows: list[bytes], by: Random) -> None:
    a, b = by.randrange(len(rows)), by.randrange(len(rows))
    rows[a], rows[b] = rows[b], rows[a]


def fields_changed(change: Callable[[list[bytes], Random], None]) -> Change:
    def on_a_row(rows: list[bytes], by: Random) -> None:
        at = by.randrange(len(rows))
        mark = b"," if b"," in rows[at] else b" "
        fields = rows[at].split(mark)
        change(fields, by)
        rows[at] = mark.join(fields)
    return rows_changed(on_a_row)


def put_an_odd_field(fields: list[bytes], by: Random) -> None:
    fields[by.randrange(len(fields))] = by.choice(ODD)


def change_a_number(fields: list[bytes], by: Random) -> None:
    at = by.randrange(len(fields))
    if fields[at].isdigit():
        fields[at] = str(max(0, int(fields[at]) + by.choice((-1, 1, 1, 10, -10)))).encode()


def swap_in_a_column(rows: list[bytes], by: Random) -> None:
    """Exchanges a value of two rows below the header, which often leaves a dossier that is accepted."""
    whole = [at for at in range(1, len(rows)) if rows[at]]
    if len(whole) < 2:
        return
    a, b = by.sample(whole, 2)
    one, other = rows[a].split(b","), rows[b].split(b",")
    at = by.randrange(min(len(one), len(other)))
    one[at], other[at] = other[at], one[at]
    rows[a], rows[b] = b",".join(one), b",".join(other)


CHANGES: tuple[Change, ...] = (
    flip_a_bit, drop_bytes, double_bytes, put_odd_bytes, cut_off, rows_changed(drop_a_row), rows_changed(double_a_row),
    rows_changed(swap_rows), fields_changed(drop_a_row), fields_changed(double_a_row), fields_changed(swap_rows),
    fields_changed(put_an_odd_field), *[fields_changed(change_a_number)] * 4,
    *[rows_changed(swap_in_a_column)] * 12)


def mutated(job: Job, mode: Mode, by: Random) -> Job:
    """The job with one to three changes of the slots that its mode reads."""
    files = dict(job.files)
    for _ in range(by.choice((1, 1, 1, 2, 3))):
        name = by.choice(mode.files)
        files[name] = by.choice(CHANGES)(files.get(name, b""), by)
    return Job(job.title, files, job.words)


def cuts(job: Job, mode: Mode) -> Iterator[Job]:
    """The job with each slot that its mode reads cut at each of its bytes."""
    for name in mode.files:
        text = job.files.get(name, b"")
        for at in range(len(text)):
            yield Job(f"{job.title}, {name} cut at {at}", {**job.files, name: text[:at]}, job.words)


def reworded(job: Job, modes: list[Mode], by: Random) -> Job:
    """The job with one to three changes of its words; the modes are those that may come in."""
    words = list(job.words)
    for _ in range(by.choice((1, 1, 2, 3))):
        at = by.randrange(len(words) + 1)
        match by.randrange(5):
            case 0:
                words[at:at] = [by.choice(OPTIONS), by.choice(VALUES)]
            case 1:
                words[at:at] = [f"{by.choice(OPTIONS)}={by.choice(VALUES)}"]
            case 2:
                words[at:at + 1] = [by.choice((*VALUES, *OPTIONS, *(mode.name for mode in modes)))]
            case 3:
                del words[at:at + 1]
            case _:
                by.shuffle(words)
    return Job(job.title, job.files, tuple(words))


@dataclass
class Round:
    """The runs of one mode: how they ended, and how many showed something."""

    name: str
    asked: argparse.Namespace
    ends: Counter[str] = field(default_factory=Counter)
    found: int = 0

    @property
    def tried(self) -> int:
        return self.ends.total()

    def attempt(self, job: Job, folder: Path) -> None:
        put(job.files, folder)
        ended = watch(job.words, folder, LONGEST)
        found = fault(job, ended)
        if found is None and self.asked.beside:
            found = differs(ended, watch(job.words, folder, LONGEST, self.asked.beside))
        self.ends[OF_INPUT.get(ended.status, "else")] += 1
        if found is not None:
            self.found += 1
            kept = keep(job, Path(self.asked.keep) / f"{self.name}-{self.tried}")
            print(f"FOUND {self.name} {self.tried}: {found}; {kept}", flush=True)

    def run(self, jobs: Iterator[Job]) -> int:
        """Tries the jobs, prints a line, and answers how many showed something. Where many do, it stops early."""
        with scratch() as place:
            for job in jobs:
                self.attempt(job, place / "slots")
                if self.found == MOST_FOUND:
                    print(f"{self.name}: stopped early", flush=True)
                    break
        told = ", ".join(f"{many} {end}" for end, many in sorted(self.ends.items()))
        print(f"{self.name}: {self.tried} tried, {told or 'none'}; {self.found} found", flush=True)
        return self.found


def differs(ended: Watched, other: Watched) -> str | None:
    if (ended.status, ended.text) == (other.status, other.text):
        return None
    texts = f"{shortened(ended.text)}, beside it {shortened(other.text)}"
    return f"status {ended.status}, beside it {other.status}; {texts}"


def keep(job: Job, folder: Path) -> Path:
    """Writes a job that showed something to a folder of its own, its words one a line."""
    folder.parent.mkdir(parents=True, exist_ok=True)
    put(job.files, folder)
    (folder / "words").write_text("".join(f"{word}\n" for word in job.words))
    return folder


def jobs_of_mode(mode: Mode, worked: list[Job], by: Random) -> list[Job]:
    """The worked runs of a mode, and those of `replay` turned into runs of it."""
    if not mode.reads:
        return [Job("a sample", {}, words_of(mode, {}, ("--days", str(days)), by)) for days in (1, 2)]
    own = [job for job in worked if job.mode == mode.name]
    return own if mode.name == "replay" else own + list(turned(mode, worked, by))


def endless(mode: Mode, jobs: list[Job], by: Random) -> Iterator[Job]:
    while True:
        yield mutated(by.choice(jobs), mode, by)


def all_cuts(mode: Mode, jobs: list[Job], by: Random) -> Iterator[Job]:
    """All cuts of one job after another, by chance; those whose words are bad read no slot."""
    for job in by.sample(jobs, len(jobs)):
        if run_of(job).status != BAD_WORDS:
            yield from cuts(job, mode)


def round_of(mode: Mode, worked: list[Job], asked: argparse.Namespace) -> int:
    by = Random(f"{asked.seed} {mode.name}")
    if not mode.reads:
        print(f"{mode.name}: reads no slot", flush=True)
        return 0
    jobs = jobs_of_mode(mode, worked, by)
    tries = all_cuts(mode, jobs, by) if asked.cuts else endless(mode, jobs, by)
    return Round(mode.name, asked).run(islice(tries, asked.number))


def words_round(modes: list[Mode], worked: list[Job], asked: argparse.Namespace) -> int:
    by = Random(f"{asked.seed} words")
    jobs = [job for mode in modes for job in jobs_of_mode(mode, worked, by)]
    return Round("words", asked).run(reworded(by.choice(jobs), modes, by) for _ in range(asked.number))


def arguments() -> Words:
    words = Words(
        "mutate.sh",
        "Runs mutated slots of the worked dossiers, a line a mode. A run must end within "
        f"{LONGEST:.0f} s of a processor with a status of its input, and a line that names a slot and a row must name "
        f"one that is there. A mode that shows something {MOST_FOUND} times is left.",
        "Status: 0 nothing found, 1 something found, 2 bad words.")
    words.add_argument("modes", nargs="*", type=mode_named, metavar="MODE",
                       help=f"{', '.join(MODES)}; all where none is named")
    words.add_argument("--cuts", action="store_true",
                       help="cuts each slot that a mode reads at each byte, in place of random changes")
    words.add_argument("--words", action="store_true", help="changes the words in place of the slots")
    words.add_argument("--seed", type=int, default=1)
    words.add_argument("--number", type=int, default=2000, help="the most runs a mode, 2000 where it is not given")
    words.add_argument("--beside", metavar="PROGRAM", help="another program that must answer the same")
    words.add_argument("--keep", default="mutated", metavar="FOLDER", help="the folder for what showed something")
    return words


def attempts(given: list[str]) -> int:
    asked = arguments().of(given)
    modes, worked = known_modes(asked.modes), all_jobs()
    found = words_round(modes, worked, asked) if asked.words else sum(round_of(mode, worked, asked) for mode in modes)
    print(f"{found} found")
    return 0 if found == 0 else 1


def main(given: list[str]) -> int:
    return until_told(partial(attempts, given))
