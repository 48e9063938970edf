"""Runs that are timed: folders that another process makes, runs of programs in turn, and how what they take grows."""

import hashlib
import math
import os
import shutil
import signal
import subprocess
import sys
import tempfile
from dataclasses import dataclass
from pathlib import Path

from dossier.wording import Words
from dossier.writing import STOPS

from .harness import TOOLS
from .runs import watch_into

DONE = 0
MEGABYTE = 1 << 20
# Below so many seconds the start of a program is most of a run.
LEAST = 0.01


@dataclass(frozen=True)
class Measured:
    """How a run ended: what it took, and the length and the checksum of its text."""

    status: int
    seconds: float
    memory: int
    length: int
    checksum: str

    @property
    def ended(self) -> str:
        """What is to be said of it where it did not end well."""
        return "" if self.status == DONE else f" (status {self.status})"


@dataclass(frozen=True)
class Call:
    """What is run: words, and the program, which is that at hand where none is named."""

    words: tuple[str, ...]
    folder: Path
    longest: float
    program: str | None = None
    environment: dict[str, str] | None = None

    def measured(self) -> Measured:
        """Runs it; its text is never held whole."""
        checksum, length = hashlib.sha256(), 0
        with tempfile.TemporaryFile() as output:
            status, usage = watch_into(output, self.words, self.folder, self.longest, self.program, self.environment)
            output.seek(0)
            while piece := output.read(MEGABYTE):
                checksum.update(piece)
                length += len(piece)
        return Measured(status, usage.ru_utime + usage.ru_stime, usage.ru_maxrss * 1024, length, checksum.hexdigest())

    def write_into(self, file: Path) -> None:
        """Runs it, with its text to the file."""
        with file.open("wb") as output:
            watch_into(output, self.words, self.folder, self.longest, self.program, self.environment)


def in_turn(calls: list[Call], runs: int) -> list[list[Measured]]:
    """So many runs of each call of some, in turn; what does not end well once is run no more, and ends with that."""
    found: list[list[Measured]] = [[] for _ in calls]
    for _ in range(runs):
        for call, of_call in zip(calls, found):
            if not of_call or of_call[-1].status == DONE:
                of_call.append(call.measured())
    return found


def are_well(runs: list[Measured]) -> bool:
    """Whether all ended well, with the same text."""
    return all(run.status == DONE and run.checksum == runs[0].checksum for run in runs)


def exponent(small: float, large: float, by: float) -> str:
    """By which power of the rows something grows."""
    return f"{math.log(large / small) / math.log(by):.1f}"


def growth(small: Measured, large: Measured, by: float) -> tuple[str, str]:
    """The same of the seconds and of the memory."""
    return (exponent(max(small.seconds, LEAST), max(large.seconds, LEAST), by),
            exponent(small.memory, large.memory, by))


def maker(module: str, *words: str | Path) -> list[int]:
    """Has another process make a folder, so that this one stays small (what a run takes is never told as less than
    what this process does), and answers the numbers that it prints. A stop comes to this one alone, which ends the
    other."""
    mask, child = signal.pthread_sigmask(signal.SIG_BLOCK, STOPS), None
    try:
        # (a stop waits until it is known what is to be ended)
        child = subprocess.Popen([sys.executable, "-B", "-m", f"checks.{module}", *map(str, words)], cwd=TOOLS,
                                 stdout=subprocess.PIPE, start_new_session=True,
                                 preexec_fn=lambda: signal.pthread_sigmask(signal.SIG_SETMASK, mask))
        signal.pthread_sigmask(signal.SIG_SETMASK, mask)
        printed, _ = child.communicate()
    except BaseException:
        if child:
            child.kill()
            child.wait()
        raise
    finally:
        signal.pthread_sigmask(signal.SIG_SETMASK, mask)
    if child.returncode != 0:
        sys.exit(f"{words[-1]} could not be made")
    return [int(number) for number in printed.split()]


def named_program(parser: Words, named: str | None) -> str | None:
    """The program that is run beside, by its whole path, where one is named."""
    if named is None:
        return None
    found = shutil.which(named)
    if found is None:
        parser.error(f"{named} is no program")
    return os.path.abspath(found)
