"""Seven days by `next_day` against one run of seven days, and a day that is stopped at any moment."""

import os
import signal
import shutil
import subprocess
import sys
import time
from collections.abc import Callable
from datetime import date, timedelta
from pathlib import Path
from random import Random

from dossier import campaign, writing
from dossier.campaign import next_day
from dossier.dating import Calendar
from dossier.slots import ANSWERS
from dossier.stops import Stopped

from .dossiers import FIRST_DAY, Dossier, random_dossier
from .harness import EXAMPLES, TOOLS, Tally, contents, run, scratch

DAYS = 7
CAMPAIGNS = 12
SEED = 777
FITTING = {"offered": ("accept", "refuse", "quit"), "waiting": ("withdraw", "quit"), "accepted": ("refuse", "quit")}


def replayed(program: str, folder: Path, days: int, term: int | None) -> tuple[int, bytes]:
    """The status and the text of one run of the days."""
    dated = [] if term is None else ["--start", str(FIRST_DAY), "--term", str(term)]
    ended = run(program, "replay", "--days", str(days), *dated, folder=folder)
    return ended.status, ended.output


def final_state(text: bytes) -> bytes:
    return text.partition(b"\nfinal\n")[2]


def grown(program: str, random: Random, folder: Path, term: int | None) -> Dossier:
    """A dossier with answers on each day that fit on it, found by running the days one after another."""
    dossier = random_dossier(random)
    dossier.write(folder)
    for day in range(1, DAYS + 1):
        state = final_state(replayed(program, folder, day - 1, term)[1]) if day > 1 else b""
        dossier.rows["answers"] += fitting(random, dossier, state, day, term)
        (folder / ANSWERS.file).write_bytes(dossier.slot_bytes(ANSWERS))
    return dossier


def fitting(random: Random, dossier: Dossier, state: bytes, day: int, term: int | None) -> list[tuple[int, str, int]]:
    """Up to two answers of different candidates that fit on the day, by the state of the evening before."""
    candidates = {wish: candidate for wish, candidate, *_ in dossier.rows["wishes"]}
    answers = {}
    for line in random.sample(lines := state.decode().splitlines()[1:], len(lines)):
        wish, status, *since = line.split(",")
        lapses = term is not None and status == "offered" and \
            date.fromisoformat(since[0]) + timedelta(days=term) < FIRST_DAY + timedelta(days=day - 1)
        kinds = FITTING.get(status)
        if kinds and not lapses and candidates[int(wish)] not in answers:
            kind = random.choice(kinds)
            candidate = candidates[int(wish)]
            answers[candidate] = (day, kind, candidate if kind == "quit" else int(wish))
    return list(answers.values())[:random.randint(0, 2)]


def check_seven_days(tally: Tally, program: str) -> None:
    tally.begin(f"{DAYS} days in a row by next_day against one run, {CAMPAIGNS} random campaigns")
    random = Random(SEED)
    seen: set[bytes] = set()
    for number in range(CAMPAIGNS):
        term = (None, 0, 1, 3)[number % 4]
        with scratch() as place:
            folder = place / "dossier"
            grown(program, random, folder, term)
            status, text = replayed(program, folder, DAYS, term)
            tally.equal(f"campaign {number}: one run is done", status, 0)
            asked = Calendar(1, FIRST_DAY if term is not None else None, term)
            for day in range(DAYS):
                next_day(folder, asked if day == 0 else Calendar())
            name = f"campaign {number}, term {term}"
            tally.equal(f"{name}: the final state", (folder / "state.csv").read_bytes(), final_state(text))
            tally.equal(f"{name}: the days told", days_told(folder), text.partition(b"final\n")[0])
            seen.update(line.partition(b" ")[0] for line in text.splitlines())
    missed = {b"lapse", b"fall", b"offer", b"auto"} - seen
    tally.check("there are lapses, falls, offers and automatic answers among them", not missed, missed)


def days_told(folder: Path) -> bytes:
    """The text of one run of all days, put together from the reports of the days."""
    reports = [(kept / "report.txt").read_bytes() for kept in sorted((folder / "days").iterdir())]
    orders = reports[0].partition(b"day 1\n")[0]
    return orders + b"".join(report[len(orders):].partition(b"final\n")[0] for report in reports)


def check_answers_that_do_not_fit(tally: Tally) -> None:
    tally.begin("next_day, an answer that does not fit")
    with scratch() as place:
        folder = place / "dossier"
        shutil.copytree(EXAMPLES / "lycee/slots", folder)
        (folder / "answers.csv").write_text("day,kind,target\n1,accept,9\n")
        before = contents(folder)
        ended = run(TOOLS / "next_day", folder)
        tally.equal("status", ended.status, 1)
        tally.check("the row is shown", "answers.csv, row 2: 1,accept,9" in ended.complaint, ended.complaint)
        tally.equal("nothing has changed", contents(folder), before)
        (folder / "answers.csv").write_text("day,kind,target\n1,quit,2\n")
        tally.equal("mended, the day is made", run(TOOLS / "next_day", folder).status, 0)


def check_unfit_in_the_midst(tally: Tally) -> None:
    """An unfit answer on any day leaves everything as it was; without its row the day is as if it had not been."""
    tally.begin("next_day, an answer that does not fit in the midst of a campaign")
    for name, days, dated in (("lycee/slots", 3, ("--start", "2026-06-02", "--term", "1")), ("two-days", 2, ())):
        with scratch() as place:
            plain, tried = place / "plain", place / "tried"
            for folder in (plain, tried):
                shutil.copytree(EXAMPLES / name, folder)
            for day in range(1, days + 1):
                words = dated if day == 1 else ()
                answers = (tried / "answers.csv").read_text()
                header, _, rows = answers.partition("\n")
                (tried / "answers.csv").write_text(f"{header}\n1,accept,1\n1,withdraw,1\n{rows}")
                before = contents(tried)
                ended = run(TOOLS / "next_day", tried, *words)
                is_told = ended.status == 1 and "answers.csv, row " in ended.complaint
                tally.check(f"{name}, day {day}: it is refused", is_told, ended)
                tally.equal(f"{name}, day {day}: nothing has changed", contents(tried), before)
                (tried / "answers.csv").write_text(answers)
                made = [run(TOOLS / "next_day", folder, *words).status for folder in (plain, tried)]
                tally.equal(f"{name}, day {day}: mended, the day is made", made, [0, 0])
                tally.equal(f"{name}, day {day}: and as without it", contents(tried), contents(plain))


def made_anew(folder: Path, day: int) -> None:
    """Puts back what a day's record has of before it, and deletes the record, as the pages say."""
    record = folder / f"days/day-{day:03}"
    for path in (record / "before").iterdir():
        shutil.copy(path, folder)
    if not (record / "before" / campaign.CALENDAR).exists():
        (folder / campaign.CALENDAR).unlink()
    shutil.rmtree(record)


def check_each_day_anew(tally: Tally) -> None:
    """Each day of a campaign, made anew from the same slots, is the same; with a correction, as if made with it."""
    tally.begin("next_day, each day of a campaign made anew")
    with scratch() as place:
        folder = place / "dossier"
        shutil.copytree(EXAMPLES / "lycee/slots", folder)
        for day in (1, 2, 3):
            words = ("--start", "2026-06-02", "--term", "1") if day == 1 else ()
            morning = place / f"morning-{day}"
            shutil.copytree(folder, morning)
            tally.equal(f"day {day} is made", run(TOOLS / "next_day", folder, *words).status, 0)
            evening = contents(folder)
            made_anew(folder, day)
            tally.equal(f"day {day}: the slots of its morning", contents(folder), contents(morning))
            tally.equal(f"day {day}: anew", run(TOOLS / "next_day", folder, *words).status, 0)
            tally.equal(f"day {day}: it is the same", contents(folder), evening)
            corrected = place / f"corrected-{day}"
            shutil.copytree(folder, corrected)
            made_anew(corrected, day)
            for each in (corrected, morning):
                header, _, rows = (each / "answers.csv").read_text().partition("\n")
                (each / "answers.csv").write_text(f"{header}\n1,quit,2\n{rows}")
            statuses = [run(TOOLS / "next_day", each, *words).status for each in (corrected, morning)]
            tally.equal(f"day {day}: corrected", statuses, [0, 0])
            tally.equal(f"day {day}: as if made so", contents(corrected), contents(morning))


# How a file is changed in the morning of day 2, where not by an empty row more.
BY_HAND = {"answers.csv": (b"1,accept,4\n", b"1,refuse,4\n"), "ceilings.csv": (b"1,2,3\n", b"1,2,2\n"),
           campaign.CALENDAR: (b",1\n", b",5\n")}


def check_told_changes(tally: Tally) -> None:
    """What is not as the day before left it is told; answers and ceilings are there to be changed."""
    tally.begin("next_day, what is changed between two days")
    with scratch() as place:
        start = place / "start"
        shutil.copytree(EXAMPLES / "lycee/slots", start)
        ended = run(TOOLS / "next_day", start, "--start", "2026-06-02", "--term", "1")
        tally.check("nothing is told of day 1", ended.status == 0 and ended.output.count(b"\n") == 1, ended)
        for name in (*campaign.LASTING, *campaign.CHANGING, campaign.CALENDAR):
            folder = place / "dossier"
            shutil.copytree(start, folder)
            was = (folder / name).read_bytes()
            changed = was.replace(*BY_HAND[name]) if name in BY_HAND else was + b"\n"
            (folder / name).write_bytes(changed)
            ended = run(TOOLS / "next_day", folder)
            told = b"" if name in ("answers.csv", "ceilings.csv") else b"changed since day 1: %s\n" % name.encode()
            is_told = ended.status == 0 and ended.output.partition(b"\n")[2] == told
            tally.check(f"{name}: told as it should be", changed != was and is_told, ended)
            shutil.rmtree(folder)
        shutil.rmtree(start / "days/day-001")
        ended = run(TOOLS / "next_day", start)
        tally.check("no record of the day before", ended.status == 0 and ended.output.count(b"\n") == 1, ended)


def stopped_at(moment: int, action: Callable[[], object]) -> bool:
    """Runs the action in a process that ends abruptly at its step of that number; whether it came to the step."""
    process = os.fork()
    if process == 0:
        _end_at(moment, action)
    return os.waitstatus_to_exitcode(os.waitpid(process, 0)[1]) == 137


def _end_at(moment: int, action: Callable[[], object]) -> None:
    """Steps are: a file is opened, or half written; a name is made, changed or taken away; a program is run."""
    steps = 0

    def step() -> None:
        nonlocal steps
        steps += 1
        if steps == moment:
            os._exit(137)

    def watch(event: str, _: tuple[object, ...]) -> None:
        if event in ("open", "os.rename", "os.mkdir", "os.remove", "os.rmdir", "subprocess.Popen"):
            step()

    whole_write = writing.write_file

    def half_write(path: Path, data: bytes) -> None:
        path.write_bytes(data[:len(data) // 2])
        step()
        whole_write(path, data)

    writing.write_file = campaign.write_file = half_write
    sys.addaudithook(watch)
    status = 1
    try:
        action()
        status = 0
    finally:
        os._exit(status)


def day_of(folder: Path) -> int:
    calendar = folder / campaign.CALENDAR
    return Calendar.from_bytes(calendar.read_bytes()).day if calendar.exists() else 1


def check_stopped_days(tally: Tally) -> None:
    """Whenever the second day is stopped, calling again comes to what a day that was not stopped comes to."""
    tally.begin("next_day, stopped at each of its steps")
    with scratch() as place:
        start = place / "start"
        shutil.copytree(EXAMPLES / "lycee/slots", start)
        next_day(start, Calendar(1, FIRST_DAY, 1))
        expected = place / "expected"
        shutil.copytree(start, expected)
        next_day(expected, Calendar())
        moment = 0
        came = True
        while came:
            moment += 1
            folder = place / "dossier"
            shutil.copytree(start, folder)
            came = stopped_at(moment, lambda: next_day(folder, Calendar()))
            while day_of(folder) < 3:
                next_day(folder, Calendar())
            tally.equal(f"stopped at step {moment}", contents(folder), contents(expected))
            shutil.rmtree(folder)
        tally.check("there are many steps", moment > 20, moment)


def check_changes_after_a_stop(tally: Tally) -> None:
    """A slot that the user changed while a day was half made is not written over."""
    tally.begin("next_day, a slot changed after a stop")
    with scratch() as place:
        start = place / "start"
        shutil.copytree(EXAMPLES / "lycee/slots", start)
        refused = 0
        for moment in range(1, 200):
            folder = place / "dossier"
            shutil.copytree(start, folder)
            if not stopped_at(moment, lambda: next_day(folder, Calendar())):
                break
            changed = (folder / "answers.csv").read_bytes() + b"9,quit,3\n"
            (folder / "answers.csv").write_bytes(changed)
            refused += not is_kept(tally, f"changed after step {moment}", folder, changed)
            shutil.rmtree(folder)
        tally.check("some stops leave a day to be ended first", refused > 0, refused)


def is_kept(tally: Tally, name: str, folder: Path, changed: bytes) -> bool:
    """Whether the day was made with the change; else that it was refused, and the change is there."""
    try:
        next_day(folder, Calendar())
    except Stopped:
        tally.equal(name, (folder / "answers.csv").read_bytes(), changed)
        return False
    tally.check(name, b",quit,3" in (folder / "answers.csv").read_bytes())
    return True


def restored(folder: Path) -> Path:
    """A dossier whose first day was made, with the files of before that day put back."""
    shutil.copytree(EXAMPLES / "lycee/slots", folder)
    run(TOOLS / "next_day", folder)
    for path in (folder / "days/day-001/before").iterdir():
        shutil.copy(path, folder)
    (folder / campaign.CALENDAR).unlink()
    return folder


def check_days_anew(tally: Tally) -> None:
    """Who puts the slots back and corrects one of the others gets no day of before the correction."""
    tally.begin("next_day, a day that is made anew")
    with scratch() as place:
        folder = restored(place / "same")
        tally.equal("nothing is changed", run(TOOLS / "next_day", folder).status, 0)
        for name in campaign.LASTING:
            folder = restored(place / name)
            (folder / name).write_text((folder / name).read_text() + "\n")
            before = contents(folder)
            ended = run(TOOLS / "next_day", folder)
            tally.check(f"{name}: it is said", ended.status == 3 and f"{name} changed" in ended.complaint, ended)
            tally.equal(f"{name}: nothing has changed", contents(folder), before)
            shutil.rmtree(folder / "days/day-001")
            tally.equal(f"{name}: the day is made", run(TOOLS / "next_day", folder).status, 0)
        folder = restored(place / "dated")
        ended = run(TOOLS / "next_day", folder, "--start", "2026-06-02", "--term", "1")
        tally.check("other deadlines", ended.status == 3 and "the dates changed" in ended.complaint, ended)


def check_rights(tally: Tally) -> None:
    """What others may not read stays so, and a folder that is made is open to whom the user's mask lets in."""
    tally.begin("next_day, rights")
    with scratch() as place:
        folder = place / "dossier"
        shutil.copytree(EXAMPLES / "lycee/slots", folder)
        (folder / "state.csv").chmod(0o600)
        mask = os.umask(0o027)
        tally.equal("the day is made", run(TOOLS / "next_day", folder).status, 0)
        os.umask(mask)
        tally.equal("the state", (folder / "state.csv").stat().st_mode & 0o777, 0o600)
        tally.equal("the record", (folder / "days/day-001").stat().st_mode & 0o777, 0o750)
        (folder / "answers.csv").unlink()
        (folder / "answers.csv").mkdir()
        ended = run(TOOLS / "next_day", folder)
        tally.check("a slot that cannot be read", ended.status == 3 and "answers.csv" in ended.complaint, ended)


def check_last_year(tally: Tally) -> None:
    """Behind the last year in which a run may begin no day is made, and no answer of one taken in; that is told."""
    tally.begin("next_day, the end of the last year")
    with scratch() as place:
        folder = place / "dossier"
        shutil.copytree(EXAMPLES / "two-days", folder)
        (place / "sheet.csv").write_text("answer,wish\naccept,1\n")
        tally.equal("its last day", run(TOOLS / "next_day", folder, "--start", "2298-12-31", "--term", "3").status, 0)
        before = contents(folder)
        for tool, *words in (("next_day", folder), ("take_in", folder, place / "sheet.csv")):
            ended = run(TOOLS / tool, *words)
            is_told = "is 2299-01-01, and a run can only begin in the years 1901 to 2298" in ended.complaint
            tally.check(tool, ended.status == 2 and is_told and "bad words" not in ended.complaint, ended)
            tally.equal(f"{tool}: nothing has changed", contents(folder), before)


def check_killed_while_running(tally: Tally) -> None:
    tally.begin("next_day, killed while the program runs; two calls at once")
    with scratch() as place:
        folder = place / "dossier"
        shutil.copytree(EXAMPLES / "lycee/slots", folder)
        before = contents(folder)
        slow = place / "slow"
        slow.write_text("#!/bin/sh\necho half\nexec sleep 300\n")
        slow.chmod(0o755)
        environment = {**os.environ, "PARCOURS": str(slow)}
        call = subprocess.Popen([TOOLS / "next_day", folder], env=environment, start_new_session=True)
        while not list(folder.glob("days/.day-*/report.txt")):
            time.sleep(0.05)
        second = run(TOOLS / "next_day", folder)
        tally.check("a second call is refused", second.status == 3 and "another call" in second.complaint, second)
        os.killpg(call.pid, signal.SIGKILL)
        call.wait()
        tally.equal("nothing has changed", contents(folder), before)
        tally.equal("called again", run(TOOLS / "next_day", folder).status, 0)


def check_full_disk(tally: Tally) -> None:
    """However early the disk is full, the folder is as before; with room the day is made."""
    tally.begin("next_day, the disk full")
    with scratch() as place:
        start = place / "start"
        shutil.copytree(EXAMPLES / "lycee/slots", start)
        before = contents(start)
        for room in (0, 20, 60, 100, 150, 200, 250):
            folder = place / "dossier"
            shutil.copytree(start, folder)
            ended = run(TOOLS / "next_day", folder, greatest_file=room)
            is_told = ended.complaint != "" and "Traceback" not in ended.complaint
            tally.check(f"room {room}: refused with a message", ended.status != 0 and is_told, ended)
            tally.equal(f"room {room}: nothing has changed", contents(folder), before)
            tally.equal(f"room {room}: with room the day is made", run(TOOLS / "next_day", folder).status, 0)
            shutil.rmtree(folder)
