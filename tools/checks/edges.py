"""Edges of size and odd files: what each gives in each mode, as `docs/FORMATS.md` lists it."""

import os
import threading
import time
from collections.abc import Callable, Iterator
from dataclasses import dataclass
from functools import partial
from pathlib import Path
from random import Random

from dossier.slots import SLOTS, Column, Content, Slot
from dossier.wording import Words

from .harness import EXAMPLES, Tally, contents, scratch, until_told
from .modes import MODES, NO_CHAIN, Mode, known_modes, words_of
from .runs import BAD_WORDS, Files, Watched, file_of, put, watch

LONGEST = 60.0
LONGEST_OF_LARGE = 900.0
MOST_ROWS = 16_000_000
MOST_BYTES = 1_073_741_824
DONE, REFUSED, READ_FAULT, NOT_PROVED = 0, 1, 3, 6
NOBODY = 65534
NUMBERS = (Content.ID, Content.TARGET, Content.NUMBER, Content.PERCENTAGE)
BEYOND_ALL = ("4294967295", "4294967296", "9999999999")
NO_NUMBERS = ("00000000001", "12345678901", "+1", "-1", " 1", "1 ", "1.0", "1e3", "0x1", "\u0663")
OPTION_EDGES = {
    "--days": (("1", "366", "0000000366"), ("0", "367", "00000000366", "", "-1", "1 ")),
    "--picker": (("first", "last", "turn", "each"), ("First", "best", "")),
    "--wish": (("1", "2000000000"), ("0", "2000000001", "4294967297", "")),
    "--school": (("1", "2000000000"), ("0", "2000000001", "4294967297", "")),
    "--number": (("1", "20"), ("0", "1000001", "4294967297", "")),
    "--term": (("0", "366", "0000000000"), ("367", "", "-1")),
    "--start": (("1901-01-01", "2298-12-31", "2024-02-29"),
                ("1900-12-31", "2299-01-01", "2023-02-29", "2024-13-01", "2024-1-01", "02/06/2026", "")),
}
BESIDE = {"--term": ("--start", "2025-06-02"), "--start": ("--term", "366")}


@dataclass
class Tries:
    """The edges of one topic as they are tried, counted by mode."""

    tally: Tally
    folder: Path
    topic: str
    longest: float = LONGEST

    def run(self, mode: Mode, edges: Iterator["Edge"]) -> None:
        """Tries the edges of a mode, and prints its line."""
        before = self.tally.passed, self.tally.failed
        for edge in edges:
            self.attempt(mode, edge)
        tried, found = self.tally.passed - before[0], self.tally.failed - before[1]
        print(f"  {self.topic}, {mode.name}: {tried + found} tried, {found} found", flush=True)

    def attempt(self, mode: Mode, edge: "Edge") -> Watched:
        put(edge.files, self.folder)
        edge.change(self.folder)
        ended = watch(edge.words, self.folder, self.longest, user=edge.user)
        self.tally.check(f"{mode.name}, {edge.name}", edge.gives(ended), (ended.status, ended.text[:120]))
        return ended


def unchanged(_: Path) -> None:
    """Leaves the slots as they are."""


@dataclass(frozen=True)
class Edge:
    """A dossier, what is done to its folder, the words, and what the run must give."""

    name: str
    files: Files
    words: tuple[str, ...]
    gives: Callable[[Watched], bool]
    change: Callable[[Path], None] = unchanged
    user: int | None = None


def exactly(status: int, text: str) -> Callable[[Watched], bool]:
    return lambda ended: (ended.status, ended.text) == (status, text.encode())


def is_good(ended: Watched) -> bool:
    """The words are good, whatever comes of the dossier."""
    return ended.status in (0, 1, 6, 7) and ended.text != b"bad words\n"


def dossier() -> Files:
    """A dossier with a row at least in each slot, and a chain."""
    return {**contents(EXAMPLES / "lycee/slots"), file_of("chain"): NO_CHAIN}


def words(mode: Mode, files: Files, *options: str) -> tuple[str, ...]:
    return words_of(mode, files, options, Random(mode.name))


def with_cell(files: Files, slot: Slot, place: int, text: str) -> Files:
    """The slots with another cell in the first row below a slot's header."""
    header, row, *rest = files[slot.file].decode().split("\n")
    cells = row.split(",")
    cells[place] = text
    return {**files, slot.file: "\n".join([header, ",".join(cells), *rest]).encode()}


def edges_of_numbers(mode: Mode) -> Iterator[Edge]:
    files = dossier()
    for slot in SLOTS:
        if slot.name not in mode.reads:
            continue
        for place, column in enumerate(slot.columns):
            if column.content in NUMBERS:
                yield from edges_of_column(mode, files, slot, place, column)


def edges_of_column(mode: Mode, files: Files, slot: Slot, place: int, column: Column) -> Iterator[Edge]:
    """A column's numbers at both ends of their range, beside them, and texts that are none."""
    def edge(text: str, gives: Callable[[Watched], bool]) -> Edge:
        return Edge(f"{slot.name} column {place + 1} `{text}`", with_cell(files, slot, place, text),
                    words(mode, files), gives)

    begins = f"refused {slot.name} row 2 reason"
    of_this_cell = tuple(f"{begins} {reason}".encode() for reason in ("3 NotNumber", "4 OutOfRange"))
    for inside in (str(column.least), str(column.greatest), f"{column.least:010}", f"{column.greatest:010}"):
        yield edge(inside, lambda ended: is_good(ended) and not ended.text.startswith(of_this_cell))
    outside = [str(column.greatest + 1), *BEYOND_ALL, *(["0", "0000000000"] if column.least else [])]
    for text in outside:
        yield edge(text, exactly(REFUSED, f"{begins} 4 OutOfRange {place + 1}\n"))
    may_be_empty = column.may_be_empty and column.content is Content.ID
    for text in (*NO_NUMBERS, *([] if may_be_empty else [""])):
        yield edge(text, exactly(REFUSED, f"{begins} 3 NotNumber {place + 1}\n"))


def edges_of_options(mode: Mode) -> Iterator[Edge]:
    """Each option at both ends of its range and beside them, also in the modes that do not use it."""
    files = dossier()
    for option, (good, bad) in OPTION_EDGES.items():
        plain = words(mode, files)
        if option in plain:
            at = plain.index(option)
            plain = plain[:at] + plain[at + 2:]
        for value in (*good, *bad):
            gives = is_good if value in good else exactly(BAD_WORDS, "bad words\n")
            given = (*plain, option, value, *BESIDE.get(option, ()))
            yield Edge(f"{option} `{value}`", files, given, gives)


def edges_of_words(mode: Mode) -> Iterator[Edge]:
    files = dossier()
    plain = words(mode, files)
    odd = (("",), ("\udcff",), ("--days", "\udc80"), ("--days", "\udcff1"), (f"{mode.name}\udcff",),
           ("x" * 100_000,), (f"--days={'1' * 100_000}",), tuple("x" * 5000), ("--", "--days", "1"), ("-",),
           (mode.name,), ("--beds", "1"), ("-d", "1"), ("--days",), ("--days", "1", "--days", "1"))
    yield Edge("the end of the options", files, (*plain, "--"), is_good)
    for more in odd:
        yield Edge(f"{more}"[:60], files, (*plain, *more), exactly(BAD_WORDS, "bad words\n"))


def remove(name: str, folder: Path) -> None:
    (folder / name).unlink()


def make_folder(name: str, folder: Path) -> None:
    remove(name, folder)
    (folder / name).mkdir()


def make_loop(name: str, folder: Path) -> None:
    remove(name, folder)
    (folder / name).symlink_to(name)


def forbid(name: str, folder: Path) -> None:
    folder.chmod(0o755)
    (folder / name).chmod(0)


def empty(name: str, folder: Path) -> None:
    (folder / name).write_bytes(b"")


def edges_of_files(mode: Mode, user: int | None) -> Iterator[Edge]:
    files = dossier()
    for slot in mode.reads:
        for change in (remove, make_folder, make_loop, forbid):
            if change is not forbid or user is not None or os.geteuid() != 0:
                yield Edge(f"{slot}: {change.__name__}", files, words(mode, files),
                           exactly(READ_FAULT, f"read fault {slot}\n"), partial(change, file_of(slot)),
                           user if change is forbid else None)
        refused = exactly(NOT_PROVED, "not a chain row 1 reason 3 NoEnd\n") if slot == "chain" else \
            exactly(REFUSED, f"refused {slot} row 1 reason 1 Header\n")
        yield Edge(f"{slot}: empty", files, words(mode, files), refused, partial(empty, file_of(slot)))


def another_user(folder: Path) -> int | None:
    """A user who may start the program and not read what is forbidden; none where root has no such user at hand."""
    if os.geteuid() != 0:
        return None
    put(dossier(), folder)
    folder.parent.chmod(0o755)
    folder.chmod(0o755)
    try:
        if watch(("order",), folder, LONGEST, user=NOBODY).status == DONE:
            return NOBODY
    except OSError:
        pass
    print("  unreadable slots: skipped, no other user may start the program", flush=True)
    return None


def numbers(tries: Tries, modes: list[Mode]) -> None:
    for mode in modes:
        tries.run(mode, edges_of_numbers(mode))


def options(tries: Tries, modes: list[Mode]) -> None:
    for mode in modes:
        tries.run(mode, edges_of_options(mode))


def odd_words(tries: Tries, modes: list[Mode]) -> None:
    for mode in modes:
        tries.run(mode, edges_of_words(mode))


def odd_files(tries: Tries, modes: list[Mode]) -> None:
    user = another_user(tries.folder)
    for mode in modes:
        tries.run(mode, edges_of_files(mode, user))


class Growing:
    """A file to which rows are added while the program reads it."""

    def __init__(self, name: str, begun: bytes, row: Callable[[int], str]) -> None:
        self.name, self.begun, self.row = name, begun, row
        self.writer: threading.Thread | None = None

    def rows(self, first: int, after: int) -> bytes:
        return "".join(map(self.row, range(first, after))).encode()

    def __call__(self, folder: Path) -> None:
        (folder / self.name).write_bytes(self.begun + self.rows(0, 400_000))
        self.writer = threading.Thread(target=self.grow, args=(folder / self.name,))
        self.writer.start()

    def grow(self, file: Path) -> None:
        with open(file, "ab") as to:
            for first in range(400_000, 1_000_000, 1000):
                to.write(self.rows(first, first + 1000))
                to.flush()
                time.sleep(0.001)

    def join(self) -> None:
        if self.writer is not None:
            self.writer.join()


def growing(tries: Tries, modes: list[Mode]) -> None:
    """What is there when the end of a file is met counts; the last row may be cut, and is refused then."""
    files = dossier()
    grown = {"order": Growing("rankings.csv", files["rankings.csv"], lambda at: f"1,{at + 1000},{at + 1000},0,0\n"),
             "market": Growing("rankings.csv", files["rankings.csv"], lambda at: f"1,{at + 1000},{at + 1000},0,0\n"),
             "check": Growing("chain.txt", b"", lambda at: f"day {at + 1}\npass 1\n")}
    for mode in modes:
        if mode.name in grown:
            change = grown[mode.name]
            ends = (NOT_PROVED,) if mode.name == "check" else (DONE, REFUSED)
            tries.run(mode, iter([Edge(f"{change.name} grows", files, words(mode, files),
                                       lambda ended, ends=ends: ended.status in ends, change)]))
            change.join()


def write_zeros(name: str, size: int, folder: Path) -> None:
    """A file of one record, or one line, of zero bytes; the disk keeps it as a hole."""
    with open(folder / name, "wb") as to:
        to.truncate(size)


def link_to(name: str, device: str, folder: Path) -> None:
    (folder / name).unlink()
    (folder / name).symlink_to(device)


def write_rankings(number: int, folder: Path) -> None:
    (folder / "groups.csv").write_text("group,scholar_pct,resident_pct\n1,0,0\n")
    with open(folder / "rankings.csv", "w") as to:
        to.write("group,candidate,rank,scholar,resident\n")
        for first in range(1, number + 1, 100_000):
            to.write("".join(f"1,{row},{row},0,0\n" for row in range(first, min(first + 100_000, number + 1))))


def large_edges() -> dict[str, list[Edge]]:
    files = dossier()
    too_large = exactly(REFUSED, "refused groups row 0 reason 8 TooLarge\n")

    def order(name: str, change: Callable[[Path], None], gives: Callable[[Watched], bool]) -> Edge:
        return Edge(name, files, ("order",), gives, change)

    def sample(number: int) -> Edge:
        return Edge(f"{number} candidates", {}, ("sample", "--number", str(number)), lambda ended: ended.status == DONE)

    def check(name: str, size: int, gives: Callable[[Watched], bool]) -> Edge:
        return Edge(name, files, ("check",), gives, partial(write_zeros, file_of("chain"), size))

    return {
        "order": [
            order(f"one record of {MOST_BYTES} bytes", partial(write_zeros, "groups.csv", MOST_BYTES),
                  exactly(REFUSED, "refused groups row 1 reason 1 Header\n")),
            order("one byte more", partial(write_zeros, "groups.csv", MOST_BYTES + 1), too_large),
            order("a file without end", partial(link_to, "groups.csv", "/dev/zero"), too_large),
            order(f"{MOST_ROWS} rankings", partial(write_rankings, MOST_ROWS), lambda ended: ended.status == DONE),
            order("one ranking more", partial(write_rankings, MOST_ROWS + 1),
                  exactly(REFUSED, f"refused rankings row {MOST_ROWS + 2} reason 7 TooManyRows\n"))],
        "check": [
            check(f"a chain of {MOST_BYTES} bytes", MOST_BYTES,
                  exactly(NOT_PROVED, "not a chain row 1 reason 1 NotLine\n")),
            check("one byte more", MOST_BYTES + 1, exactly(REFUSED, "refused chain row 0 reason 8 TooLarge\n"))],
        "sample": [sample(1_000_000)],
    }


def sizes(tries: Tries, modes: list[Mode]) -> None:
    """The large ones; each prints what it took."""
    tries.longest = LONGEST_OF_LARGE
    of_mode = large_edges()
    for mode in modes:
        for edge in of_mode.get(mode.name, []):
            ended = tries.attempt(mode, edge)
            print(f"  {mode.name}, {edge.name}: status {ended.status}, {ended.seconds:.1f} s, {ended.memory >> 20} MB",
                  flush=True)


TOPICS: dict[str, Callable[[Tries, list[Mode]], None]] = {
    "numbers": numbers, "options": options, "words": odd_words, "files": odd_files, "growing": growing, "sizes": sizes}


def arguments() -> Words:
    parser = Words(
        "edges.sh",
        "Tries edges of size and odd files in each mode, as docs/FORMATS.md lists them, a line a topic and "
        "mode. The topic `sizes` takes 4 GB of memory, some disk and minutes; the others a minute or two.",
        "Status: 0 nothing found, 1 something found, 2 bad words.")
    parser.add_argument("topics", nargs="*", metavar="TOPIC", help=f"{', '.join(TOPICS)}; all where none is named")
    parser.add_argument("--mode", action="append", default=[], choices=[*MODES], metavar="MODE",
                        help="this mode; may be given again")
    return parser


def attempts(given: list[str]) -> int:
    parser = arguments()
    asked = parser.of(given)
    if unknown := [name for name in asked.topics if name not in TOPICS]:
        parser.bad(f"no topic {unknown[0]}; the topics are {', '.join(TOPICS)}")
    modes = known_modes(asked.mode)
    tally = Tally()
    with scratch() as place:
        for name in asked.topics or TOPICS:
            tally.begin(name)
            tally.run(partial(TOPICS[name], Tries(tally, place / "slots", name), modes))
    print(f"{tally.passed} passed, {tally.failed} failed")
    return 0 if tally.failed == 0 else 1


def main(given: list[str]) -> int:
    return until_told(partial(attempts, given))
