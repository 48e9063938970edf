"""Tools that are killed at many moments, or told to stop: nothing is lost, and what is half made is not there."""

import os
import shutil
import signal
import subprocess
import time
from collections.abc import Callable
from pathlib import Path

from dossier import preparing

from .days import stopped_at
from .harness import EXAMPLES, TOOLS, Ended, Tally, contents, run, scratch, stopped_once_begun
from .samples import sample_slots

MOMENTS = 12
SLOTS = EXAMPLES / "lycee/slots"


def check_steps(tally: Tally) -> None:
    """Stopped at any of its steps, `prepare` has written the folder whole, or not at all."""
    tally.begin("prepare, stopped at each of its steps")
    with scratch() as folder:
        slots = folder / "slots"
        moment = 1
        while stopped_at(moment, lambda: preparing.write_folder(slots, contents(SLOTS))):
            is_whole = slots.exists() and contents(slots) == contents(SLOTS)
            tally.check(f"stopped at step {moment}", is_whole or not slots.exists())
            shutil.rmtree(slots, ignore_errors=True)
            moment += 1
        tally.check("it has many steps", moment > 10, moment)


def ended_by(number: signal.Signals, wait: float, *words: str | Path) -> Ended:
    """Runs a tool, sends the signal to it and all that it started after so many seconds, and answers how it ended."""
    with subprocess.Popen(words, start_new_session=True, stdout=subprocess.DEVNULL, stderr=subprocess.PIPE) as call:
        try:
            complaint = call.communicate(timeout=wait)[1]
        except subprocess.TimeoutExpired:
            os.killpg(call.pid, number)
            complaint = call.communicate()[1]
    return Ended(call.returncode, b"", complaint.decode())


def moments_of(action: Callable[[], object]) -> list[float]:
    """Moments spread over the time that the action takes, and a little more."""
    begun = time.monotonic()
    action()
    whole = 1.1 * (time.monotonic() - begun)
    return [whole * moment / MOMENTS for moment in range(1, MOMENTS + 1)]


def check_prepare(tally: Tally) -> None:
    tally.begin(f"prepare, killed or stopped at {MOMENTS} moments")
    expected = sample_slots(800)
    with scratch() as place:
        exports = place / "exports"
        exports.mkdir()
        for name, data in expected.items():
            (exports / name).write_bytes(data)
        words = (TOOLS / "prepare", exports, place / "in/slots")
        (place / "in").mkdir()
        for moment in moments_of(lambda: run(TOOLS / "prepare", exports, place / "first")):
            for number in (signal.SIGKILL, signal.SIGTERM):
                ended = ended_by(number, moment, *words)
                is_there = (place / "in/slots").exists()
                is_whole = is_there and contents(place / "in/slots") == expected
                name = f"{number.name} after {moment:.2f} s, status {ended.status}"
                tally.check(f"{name}: whole, or not there", is_whole or not is_there and ended.status != 0, ended)
                if ended.status == 128 + signal.SIGTERM:
                    told = "the dossier is written whole" if is_there else "nothing is written"
                    tally.check(f"{name}: what is told", told in ended.complaint, ended)
                left = [path.name for path in (place / "in").iterdir() if path.name != "slots"]
                tally.check(f"{name}: nothing half made is left", number == signal.SIGKILL or left == [], left)
                shutil.rmtree(place / "in")
                (place / "in").mkdir()


def check_next_day(tally: Tally) -> None:
    tally.begin(f"next_day, killed or stopped at {MOMENTS} moments")
    with scratch() as place:
        once, twice = place / "once", place / "twice"
        for folder in (once, twice):
            shutil.copytree(SLOTS, folder)
        moments = moments_of(lambda: run(TOOLS / "next_day", twice))
        run(TOOLS / "next_day", once)
        run(TOOLS / "next_day", twice)
        for moment in moments:
            for number in (signal.SIGKILL, signal.SIGTERM):
                folder = place / "dossier"
                shutil.copytree(once, folder)
                ended_by(number, moment, TOOLS / "next_day", folder)
                while (folder / "campaign.csv").read_bytes() != (twice / "campaign.csv").read_bytes():
                    again = run(TOOLS / "next_day", folder)
                    if again.status != 0:
                        tally.check(f"{number.name} after {moment:.2f} s: called again", False, again)
                        break
                name = f"{number.name} after {moment:.2f} s: called again, all is as ever"
                tally.equal(name, contents(folder), contents(twice))
                shutil.rmtree(folder)


def check_sample(tally: Tally) -> None:
    tally.begin("write_sample.sh, killed")
    with scratch() as folder:
        for wait in (0.05, 0.1, 0.2, 0.3, 0.5, 0.7, 1):
            ended_by(signal.SIGKILL, wait, TOOLS / "write_sample.sh", "300000", folder / "sample")
            tally.equal(f"after {wait} s: no slot is there", contents(folder).keys(), set())
        ended_by(signal.SIGTERM, 0.5, TOOLS / "write_sample.sh", "300000", folder / "other")
        left = list((folder / "other").iterdir()) if (folder / "other").exists() else []
        tally.equal("stopped, nothing half made is left", left, [])
        tally.equal("called again", run(TOOLS / "write_sample.sh", "5", folder / "sample").status, 0)
        tally.equal("its slots", len(contents(folder / "sample")), 9)


def check_checks(tally: Tally) -> None:
    """Told to stop, a check leaves nothing in the temporary folder."""
    tally.begin("check_pages.sh, check.sh, shapes.sh and measure.sh, told to stop")
    for words in (("check_pages.sh",), ("check.sh", "answered"), ("shapes.sh",),
                  ("measure.sh", "order", "--candidates", "1000", "200000")):
        for number in (signal.SIGINT, signal.SIGTERM):
            for wait in (0, 1, 3):
                with scratch() as folder:
                    ended = stopped_once_begun(number, wait, folder, *words)
                    name = f"{' '.join(words)}, {number.name} {wait} s after its first file"
                    tally.check(f"{name}: how it ends", (ended.status, ended.complaint) == (128 + number, "stopped\n"),
                                ended)
                    tally.equal(f"{name}: what is left", list(folder.iterdir()), [])


CHECKS = (check_steps, check_prepare, check_next_day, check_sample, check_checks)
