"""One more day of a campaign that is kept in a folder.

The nine slots of the folder are always those of the coming day, which the program runs as its day 1. A day's
record is made in a folder of its own, `days/day-003`, which appears as a whole when the program has ended well: it
holds the report, the files that change as they were before and as they are after, and the checksums of the slots that
do not change. Only then the files change, each through a temporary one, `campaign.csv` with the number of the coming
day last. So a day that was stopped has either no record, and nothing has changed, or a whole one, from which the next
call ends it.
"""

import csv
import fcntl
import hashlib
import os
import re
import shutil
import stat
from collections.abc import Iterator
from contextlib import contextmanager, suppress
from dataclasses import dataclass
from pathlib import Path

from . import program
from .dating import Calendar, next_answers, next_ceilings
from .faults import shown
from .slots import SLOTS
from .stops import (BEGUN, BUSY, CHANGED_AFTER, CHANGED_MEANWHILE, COMING, CORRECT_ROW, DATES, DEVICE, IS_THERE,
                    NO_DEADLINES, NO_FINAL, NO_ROOM, NOT_MADE, NOT_READ, ODD_CALENDAR, ROW, Stopped)
from .texts import Filled, Listed, Text
from .writing import fresh_folder, replace_file, settle, write_file

CALENDAR = "campaign.csv"
CHANGING = ("state.csv", "answers.csv", "ceilings.csv")
LASTING = tuple(slot.file for slot in SLOTS if slot.file not in CHANGING)
CHECKSUMS = "slots.sha256"
IDS, IDS_CHECKSUM = "ids.csv", "ids.sha256"
STAGING = ".day-"
FINAL = b"final\n"
REFUSAL = re.compile(rb"refused (?P<slot>[a-z]+) row (?P<row>[0-9]+) reason .*")
MADE = Text("day {day}{dated}: offers made {offers}, lapsed {lapses}; the report is {report}",
            "jour {day}{dated} : propositions faites {offers}, caduques {lapses} ; le rapport est {report}")
BY_HAND = Text("changed since day {day}: {changed}", "changé depuis le jour {day} : {changed}")


Files = dict[str, bytes]


@dataclass(frozen=True)
class Record:
    """A day as it is kept: its report, the files that change, before and after, and what the others add up to."""

    report: bytes
    checksums: bytes
    before: Files
    after: Files


def read_files(folder: Path) -> Files:
    """The files that change from day to day, as they are; the calendar may not be there yet."""
    try:
        files = {name: (folder / name).read_bytes() for name in CHANGING}
        calendar = folder / CALENDAR
        return files | ({CALENDAR: calendar.read_bytes()} if calendar.exists() else {})
    except OSError as error:
        raise unread(error) from None


def test_file(path: Path) -> None:
    """What should be a file must not be a device or a named pipe: it would be waited for, and cannot be read twice."""
    with suppress(OSError):  # it is told where it is read
        mode = os.stat(path).st_mode
        if not (stat.S_ISREG(mode) or stat.S_ISDIR(mode)):
            raise Stopped(program.READ_FAULT, DEVICE.of(path=path))


def test_files(folder: Path) -> None:
    for name in (*(slot.file for slot in SLOTS), IDS, CALENDAR):
        test_file(folder / name)


def unread(error: OSError) -> Stopped:
    """What to say of a file that cannot be read; an error without a name is one of a file that is being written."""
    if error.filename is None:
        return Stopped(program.WRITE_FAULT, NO_ROOM.of(error=error.strerror))
    return Stopped(program.READ_FAULT, NOT_READ.of(file=error.filename, error=error.strerror))


def checksum(slot: Path) -> str:
    found = hashlib.sha256()
    with open(slot, "rb") as file:
        while block := file.read(1 << 20):
            found.update(block)
    return found.hexdigest()


def checksums(folder: Path) -> bytes:
    """A line for each slot that does not change from day to day, as `sha256sum` writes it."""
    try:
        return "".join(f"{checksum(folder / name)}  {name}\n" for name in LASTING).encode()
    except OSError as error:
        raise unread(error) from None


def ids_checksum(folder: Path) -> bytes:
    """The same line for the table of ids, where there is one."""
    ids = folder / IDS
    return f"{checksum(ids)}  {IDS}\n".encode() if ids.is_file() else b""


def slots_changed(sums: bytes, earlier: bytes) -> list[str]:
    """The slots whose line in these checksums is none of those in the earlier ones."""
    then = earlier.splitlines()
    return [line.split()[-1].decode() for line in sums.splitlines() if line not in then]


def read_calendar(data: bytes, where: Path) -> Calendar:
    """The coming day as next_day has written it there."""
    try:
        return Calendar.from_bytes(data)
    except ValueError:
        text = " | ".join(data.decode(errors="replace").splitlines())
        raise Stopped(program.READ_FAULT, ODD_CALENDAR.of(path=shown(str(where)), text=shown(text))) from None


def calendar_of(folder: Path, files: Files, asked: Calendar) -> Calendar:
    """The coming day: as kept, or the first one as the user asked for it."""
    if CALENDAR not in files:
        return asked
    kept = read_calendar(files[CALENDAR], folder / CALENDAR)
    if asked.today and (asked.today, asked.term) != (kept.today, kept.term):
        dated = COMING.of(day=kept.today, term=kept.term) if kept.today else NO_DEADLINES.of()
        raise Stopped(program.BAD_WORDS, BEGUN.of(dated=dated))
    return kept


@contextmanager
def alone(folder: Path) -> Iterator[None]:
    """Holds the folder, so that no other call runs a day in it."""
    handle = os.open(folder, os.O_RDONLY)
    try:
        fcntl.flock(handle, fcntl.LOCK_EX | fcntl.LOCK_NB)
        yield
    except BlockingIOError:
        raise Stopped(program.READ_FAULT, BUSY.of()) from None
    finally:
        os.close(handle)


def lines_of(parts: list[object]) -> Filled:
    """Texts as lines, one below the other."""
    places = "\n".join(f"{{line{number}}}" for number in range(len(parts)))
    return Text(places, places).of(**{f"line{number}": part for number, part in enumerate(parts)})


def row_of(slot: Path, number: int) -> str:
    """A row of a slot, counted as refusals count them; nothing where a cell is too long to be read."""
    with open(slot, newline="", encoding="utf-8-sig", errors="replace") as file:
        records = (cells for cells in csv.reader(file) if cells)
        with suppress(csv.Error):
            return next((shown(",".join(cells)) for place, cells in enumerate(records, start=1) if place == number), "")
    return ""


def complaint(folder: Path, status: int, report: bytes) -> Filled:
    """Why a day was not made: the program's own line, and the row that it names."""
    lines = report.splitlines()
    last = lines[-1] if lines and status in (program.REFUSED, program.BAD_WORDS, program.READ_FAULT) else b""
    parts: list[object] = [NOT_MADE.of(meaning=program.meaning(status), status=status)]
    if last:
        parts.append(last.decode(errors="replace"))
    if match := REFUSAL.fullmatch(last):
        slot = folder / f"{match['slot'].decode()}.csv"
        parts.append(ROW.of(file=slot.name, row=match["row"].decode(), cells=row_of(slot, int(match["row"]))))
        parts.append(CORRECT_ROW)
    return lines_of(parts)


def run_day(folder: Path, calendar: Calendar, output: Path) -> bytes:
    """Runs the coming day, and answers the program's text."""
    with open(output, "wb") as file:
        status = program.run(["replay", "--days", "1", *calendar.words()], folder, file)
    report = output.read_bytes()
    if status != program.DONE:
        raise Stopped(status if 0 < status < 256 else program.WRITE_FAULT, complaint(folder, status, report))
    return report


def record_of(report: bytes, sums: bytes, before: Files, calendar: Calendar) -> Record:
    """The record of a day from the program's text: the state after `final`, all else dated anew."""
    head, final, state = report.partition(b"\n" + FINAL)
    if not final:
        raise Stopped(program.WRITE_FAULT, NO_FINAL.of())
    numbered = re.sub(rb"(?m)^day 1$", b"day %d" % calendar.day, head, count=1)
    after = {
        "state.csv": state,
        "answers.csv": next_answers(before["answers.csv"]),
        "ceilings.csv": next_ceilings(before["ceilings.csv"]),
        CALENDAR: calendar.next().to_bytes(),
    }
    return Record(numbered + final + state, sums, before, after)


def write_record(folder: Path, record: Record) -> None:
    write_file(folder / "report.txt", record.report)
    write_file(folder / CHECKSUMS, record.checksums)
    for part, files in (("before", record.before), ("after", record.after)):
        (folder / part).mkdir()
        for name, data in files.items():
            write_file(folder / part / name, data)
        settle(folder / part)
    settle(folder)


def read_record(folder: Path) -> Record:
    def part(name: str) -> Files:
        return {path.name: path.read_bytes() for path in (folder / name).iterdir()}

    report, sums = ((folder / name).read_bytes() for name in ("report.txt", CHECKSUMS))
    return Record(report, sums, part("before"), part("after"))


def found_record(folder: Path, kept: Path, calendar: Calendar | None) -> Record:
    """The record that is there of the coming day, which must be of the slots as they are, and of this calendar."""
    record = read_record(kept)
    changed: list[object] = [*slots_changed(checksums(folder), record.checksums)]
    if calendar and record.after[CALENDAR] != calendar.next().to_bytes():
        changed.append(DATES)
    if changed:
        raise Stopped(program.READ_FAULT, IS_THERE.of(kept=kept, changed=Listed((*changed,)), before=kept / "before"))
    return record


def take_over(folder: Path, kept: Path, record: Record) -> None:
    """Puts the files of after the day in the place of those of before it, the calendar last."""
    now = read_files(folder)
    changed = [name for name in CHANGING if now[name] not in (record.before[name], record.after[name])]
    if changed:
        raise Stopped(program.READ_FAULT,
                      CHANGED_AFTER.of(changed=", ".join(changed), kept=kept, before=kept / "before"))
    for name in (*CHANGING, CALENDAR):
        if now.get(name) != record.after[name]:
            replace_file(folder / name, record.after[name])


def changed_by_hand(days: Path, calendar: Calendar, record: Record) -> list[object]:
    """A line on what is not as the day before left it, but for the answers and ceilings, which are there to be
    changed; no line where all is, or where the record of that day is not whole any more."""
    earlier = days / f"day-{calendar.day - 1:03}"
    try:
        then = (earlier / CHECKSUMS).read_bytes()
        left = {name: (earlier / "after" / name).read_bytes() for name in ("state.csv", CALENDAR)}
    except OSError:
        return []
    changed = slots_changed(record.checksums, then)
    changed += [name for name, data in left.items() if record.before.get(name) != data]
    return [BY_HAND.of(day=calendar.day - 1, changed=", ".join(changed))] if changed else []


def told(calendar: Calendar, report: bytes, kept: Path) -> Filled:
    """A line on the day that is done."""
    lines = report.splitlines()
    offers, lapses = (sum(line.startswith(word) for line in lines) for word in (b"offer ", b"lapse "))
    dated = f" ({calendar.today})" if calendar.today else ""
    return MADE.of(day=calendar.day, dated=dated, offers=offers, lapses=lapses, report=kept / "report.txt")


def next_day(folder: Path, asked: Calendar) -> Filled:
    """Makes the coming day, or ends the one that was stopped half way; answers a line on it, and one on what was
    changed by hand since the day before."""
    with alone(folder):
        test_files(folder)
        files = read_files(folder)
        calendar = calendar_of(folder, files, asked)
        days = folder / "days"
        days.mkdir(exist_ok=True)
        for stale in days.glob(f"{STAGING}*"):
            shutil.rmtree(stale)
        kept = days / f"day-{calendar.day:03}"
        if kept.exists():
            is_dated = CALENDAR in files or asked.today is not None
            record = found_record(folder, kept, calendar if is_dated else None)
        else:
            record = make_record(folder, files, calendar, kept)
        take_over(folder, kept, record)
        return lines_of([told(calendar, record.report, kept), *changed_by_hand(days, calendar, record)])


def make_record(folder: Path, files: Files, calendar: Calendar, kept: Path) -> Record:
    """Runs the day, and puts its record in its place."""
    with fresh_folder(STAGING, kept.parent) as staging:
        sums = checksums(folder)
        report = run_day(folder, calendar, staging / "report.txt")
        if (read_files(folder), checksums(folder)) != (files, sums):
            raise Stopped(program.READ_FAULT, CHANGED_MEANWHILE.of())
        record = record_of(report, sums, files, calendar)
        if ids := ids_checksum(folder):
            write_file(staging / IDS_CHECKSUM, ids)
        write_record(staging, record)
        os.rename(staging, kept)
        settle(kept.parent)
        return record
