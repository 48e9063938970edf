"""Does `audit_day` see? Kept days as `next_day` leaves them pass, and each with one thing changed does not."""

import os
import shutil
import signal
import subprocess
import sys
import time
from collections.abc import Callable
from contextlib import suppress
from pathlib import Path

from .harness import EXAMPLES, TOOLS, Tally, contents, executable, run, scratch, stopped_once_begun
from .runs import put
from .samples import sample_slots

AUDIT = TOOLS / "audit_day"
MANY = 20_000  # candidates, of whom a report is tested for a second or more


def replaced(name: str, old: bytes, new: bytes) -> Callable[[Path], None]:
    """A change of a file of the campaign, which has the old bytes."""
    def change(campaign: Path) -> None:
        path = campaign / name
        text = path.read_bytes()
        assert old in text, f"{name} has no {old!r}"
        path.write_bytes(text.replace(old, new, 1))
    return change


def emptied(name: str) -> Callable[[Path], None]:
    return lambda campaign: (campaign / name).write_bytes(b"") and None


def removed(name: str) -> Callable[[Path], None]:
    def change(campaign: Path) -> None:
        path = campaign / name
        shutil.rmtree(path) if path.is_dir() else path.unlink()
    return change


# What is changed in a campaign of three days, the day that is audited, its status, and what is said.
CHANGES: tuple[tuple[Callable[[Path], None], int, int, str], ...] = (
    (replaced("days/day-001/report.txt", b"offer 7\n", b"offer 5\n"), 1, 1, "report     WRONG: line 16 is wrong"),
    (replaced("days/day-002/report.txt", b"day 2\n", b"day 3\n"), 2, 1, "report     WRONG: it has no line `day 2`"),
    (replaced("days/day-001/before/answers.csv", b"2,refuse,7\n", b"1,refuse,7\n"), 1, 1,
     "the rules give: refused answers"),
    (replaced("programmes.csv", b"20,1,1\n", b"20,1,2\n"), 2, 1, "slots      WRONG: programmes.csv"),
    (replaced("days/day-002/before/state.csv", b"8,waiting", b"8,withdrawn"), 2, 1,
     "morning    WRONG: state.csv: not as day 1 left it"),
    (replaced("days/day-001/after/campaign.csv", b"2,,", b"2,2026-06-03,1"), 2, 1,
     "morning    WRONG: campaign.csv: not as day 1 left it"),
    (replaced("days/day-002/after/campaign.csv", b"3,,", b"3,2026-06-04,1"), 2, 1, "campaign.csv is not one day on"),
    (removed("days/day-002/before/campaign.csv"), 2, 3, "before/campaign.csv"),
    (replaced("days/day-002/after/state.csv", b"5,offered", b"5,accepted"), 2, 1,
     "evening    WRONG: the state for day 3"),
    (replaced("days/day-001/after/answers.csv", b"1,refuse,7\n", b""), 1, 1, "later days WRONG: answers.csv: not what"),
    (replaced("days/day-001/after/answers.csv", b"1,refuse,7", b"1,accept,7"), 1, 1, "later days WRONG: answers.csv"),
    (replaced("days/day-001/after/ceilings.csv", b"ceiling\n", b"ceiling\n1,5,3\n"), 1, 1,
     "later days WRONG: ceilings"),
    (replaced("days/day-002/after/campaign.csv", b"3,", b"4,"), 2, 3, "says that day"),
    (replaced("days/day-002/after/campaign.csv", b"3,", b"x,"), 2, 3, "audit_day:"),
    (replaced("days/day-002/slots.sha256", b"  groups.csv", b""), 2, 3, "audit_day:"),
    (replaced("days/day-002/slots.sha256", b"groups.csv", b"../groups.csv"), 2, 3, "not one checksum of each"),
    (emptied("days/day-002/slots.sha256"), 2, 3, "not one checksum of each"),
    (emptied("days/day-002/after/campaign.csv"), 2, 3, "campaign.csv: not enough values"),
    (replaced("days/day-002/after/campaign.csv", b"3,,", b"3,0001-01-01,1"), 2, 3, "campaign.csv: date value"),
    (replaced("days/day-002/after/campaign.csv", b"3,,", b"3,2026-13-01,1"), 2, 3, "campaign.csv: month"),
    (emptied("days/day-002/report.txt"), 2, 1, "report     WRONG: it has no line `day 2`"),
    (removed("days/day-002/report.txt"), 2, 3, "report.txt"),
    (removed("days/day-001"), 2, 0, "morning    not tested: there is no record of day 1"),
    (removed("days/day-002"), 2, 3, "no such record"),
    (removed("wishes.csv"), 2, 3, "wishes.csv"),
    (removed("state.csv"), 2, 0, "slots      ok: 6"),
)


def campaign_of(folder: Path, *deadlines: str) -> None:
    shutil.copytree(EXAMPLES / "two-days", folder)
    for words in (deadlines, (), ()):
        ended = run(TOOLS / "next_day", folder, *words)
        assert ended.status == 0, ended.complaint


def check_audits(tally: Tally) -> None:
    tally.begin("audit_day: kept days, right and changed")
    with scratch() as place:
        campaign_of(place / "campaign")
        campaign_of(place / "dated", "--start", "2026-06-02", "--term", "1")
        for name, dated in (("campaign", "without deadlines"), ("dated", "2026-06-03, term 1")):
            was = contents(place / name)
            for day in (1, 2, 3):
                ended = run(AUDIT, place / name, str(day))
                said = ended.output.decode()
                tally.check(f"{name}, day {day}", ended.status == 0 and said.count(" ok: ") == (5 if day == 1 else 6)
                            and "chain      ok: proved by" in said and (day != 2 or dated in said),
                            said + ended.complaint)
            tally.equal(f"{name} is left as it was", contents(place / name), was)
        for number, (change, day, status, sentence) in enumerate(CHANGES):
            shutil.copytree(place / "campaign", place / "changed")
            change(place / "changed")
            ended = run(AUDIT, place / "changed", str(day))
            said = ended.output.decode() + ended.complaint
            tally.check(f"change {number}, {sentence}", (ended.status, sentence in said, "Traceback" in said)
                        == (status, True, False), f"status {ended.status}\n{said}")
            shutil.rmtree(place / "changed")
        check_ids(tally, place)
        check_words(tally, place / "campaign", place)


def check_ids(tally: Tally, place: Path) -> None:
    """A table of ids that was changed since the day is told: it says who is who."""
    campaign, sums = place / "named", "days/day-001/ids.sha256"
    shutil.copytree(EXAMPLES / "lycee/slots", campaign)
    assert run(TOOLS / "next_day", campaign).status == 0
    whole, ids = (campaign / sums).read_bytes(), (campaign / "ids.csv").read_bytes()
    for name, data, kept, status, sentence in (
        ("as they were", ids, whole, 0, "ids        ok: ids.csv is that of that day"),
        ("two exchanged", ids.replace(b"E01", b"x").replace(b"E02", b"E01").replace(b"x", b"E02"), whole, 1,
         "ids        WRONG: ids.csv: not the file of that day"),
        ("the table is gone", None, whole, 1, "ids        WRONG: ids.csv"),
        ("another checksum", ids, whole.replace(b"a", b"b"), 1, "ids        WRONG: ids.csv"),
        ("no checksum", ids, None, 0, "ids        not tested: the record has no checksum"),
    ):
        for path, bytes_of in ((campaign / "ids.csv", data), (campaign / sums, kept)):
            path.write_bytes(bytes_of) if bytes_of is not None else path.unlink()
        ended = run(AUDIT, campaign, "1")
        tally.check(f"ids, {name}", (ended.status, sentence in ended.output.decode()) == (status, True), ended)


def check_alone(tally: Tally) -> None:
    """`recheck` and `audit_day` need Python, the files and nothing else: neither the program, nor a kit, nor a
    repository."""
    tally.begin("recheck and audit_day, with Python alone")
    with scratch() as place:
        (place / "tools").mkdir()
        (place / "bin").mkdir()
        (place / "bin/python3").symlink_to(sys.executable)
        for name in ("recheck", "audit_day"):
            shutil.copy(TOOLS / name, place / "tools")
        for name in ("two-days", "kept"):
            shutil.copytree(EXAMPLES / name, place / name)

        def said(*words: str) -> tuple[int, str]:
            ended = run("/usr/bin/env", "-i", f"PATH={place / 'bin'}", *words, folder=place)
            return ended.status, ended.output.decode() + ended.complaint

        tally.equal("a report", said("tools/recheck", "two-days", "two-days/replay.txt"),
                    (0, "as the rules say: 2 days, 38 lines\n"))
        tally.equal("a chain", said("tools/recheck", "two-days", "two-days/chain.txt"),
                    (0, "as the rules say: 2 days, 7 lines\n"))
        for day in ("1", "2"):
            status, text = said("tools/audit_day", "kept", day)
            is_told = "report     ok: as the rules say" in text and "chain      not tested: no program is here" in text
            tally.check(f"a kept day {day}", status == 0 and is_told, text)


def has_opened(process: int, path: Path) -> bool:
    """Whether a process has a file open."""
    with suppress(OSError):
        return any(os.path.realpath(handle) == os.path.realpath(path) for handle in Path(f"/proc/{process}/fd").iterdir())
    return False


def check_stopped(tally: Tally) -> None:
    """Told to stop, they say so in a line, and nothing is left."""
    tally.begin("recheck and audit_day, told to stop")
    with scratch() as place:
        (place / "temporary").mkdir()
        campaign_of(place / "campaign")
        slow = executable(place / "slow", "#!/bin/sh\nexec sleep 60\n")
        for number in (signal.SIGINT, signal.SIGTERM):
            ended = stopped_once_begun(number, 1.5, place / "temporary", "audit_day", str(place / "campaign"), "1",
                                       PARCOURS=slow)
            tally.equal(f"audit_day, {number.name}", (ended.status, ended.complaint),
                        (128 + number, "audit_day: stopped\n"))
            tally.equal(f"audit_day, {number.name}: what is left", list((place / "temporary").iterdir()), [])
        put(sample_slots(MANY), place / "slots")
        (place / "report").write_bytes(b"order 1: 1\nrule 1: -\nday 1\n")
        with subprocess.Popen([TOOLS / "recheck", place / "slots", place / "report"], stderr=subprocess.PIPE,
                              preexec_fn=lambda: signal.signal(signal.SIGINT, signal.default_int_handler)) as call:
            while call.poll() is None and not has_opened(call.pid, place / "report"):
                time.sleep(0.01)
            call.send_signal(signal.SIGINT)
            complaint = call.communicate()[1]
        tally.equal("recheck, SIGINT", (call.returncode, complaint), (130, b"recheck: stopped\n"))


def check_words(tally: Tally, campaign: Path, place: Path) -> None:
    def says(name: str, status: int, sentence: str, *words: str | Path, program: str | None = None) -> None:
        ended = run(AUDIT, *words, environment={"PARCOURS": program} if program else None)
        said = ended.output.decode() + ended.complaint
        tally.check(name, (ended.status, sentence in said, "Traceback" in said) == (status, True, False), said)

    says("help", 0, "usage: audit_day FOLDER N", "--help")
    says("no words", 2, "usage: audit_day")
    says("day 0", 2, "numbered from 1", campaign, "0")
    says("a day that is no number", 2, "usage: audit_day", campaign, "one")
    says("no folder", 3, "no such record", place / "missing", "1")
    says("a program that is not there", 0, "chain      not tested: ", campaign, "1", program=str(place / "none"))
    for name, text in (("is none", "exit 1"), ("says nothing", "exit 0"), ("has no memory", "echo refused; exit 5"),
                       ("is killed", "echo proved 1; kill -9 $$")):
        other = executable(place / "other", f"#!/bin/sh\n{text}\n")
        says(f"a program that {name}", 0, f"chain      not tested: {other} did not", campaign, "1", program=other)
    other = executable(place / "other", "#!/bin/sh\necho not proved row 3 reason 4 StillOver 5; exit 6\n")
    says("a program that says so", 1, "chain      WRONG: ", campaign, "1", program=other)
    says("a folder to keep that cannot be made", 3, f"audit_day: {place}/none/kept: No such file", campaign, "1",
         "--keep", place / "none/kept")
    closed = subprocess.run(["/bin/sh", "-c", '{ "$0" "$1" 1; echo $? >&2; } | head -n 1', AUDIT, campaign],
                            check=False, capture_output=True, text=True)
    tally.equal("a reader that has gone", (closed.stdout.splitlines()[0].split(" of ")[0], closed.stderr),
                ("day 1", "141\n"))
    says("a folder to keep", 0, "ok", campaign, "2", "--keep", place / "kept")
    tally.check("what is kept", (place / "kept/report.txt").is_file() and (place / "kept/wishes.csv").is_file())
    says("a folder that is there", 3, "File exists", campaign, "2", "--keep", place / "kept")
