"""Runs for the hostile rounds: dossiers with the words that they are run with, and a run that is watched."""

import math
import os
import resource
import select
import shutil
import signal
import subprocess
import tempfile
from collections.abc import Iterator
from dataclasses import dataclass
from pathlib import Path
from typing import BinaryIO

from dossier import slots
from dossier.program import program

from .harness import EXAMPLES, TOP, scratch

CASES = TOP / "crates/worked_runs/data"
SLOTS = (*(slot.name for slot in slots.SLOTS), "chain")
BAD_WORDS = 2
LONGEST_START = 60.0
# A busy machine gives a run its seconds of a processor late.
PATIENCE = 12
MARKS = {"{cr}": "\r", "{bom}": "\ufeff", "{cut}": ""}
Files = dict[str, bytes]

# A run that a signal ends leaves no core behind.
resource.setrlimit(resource.RLIMIT_CORE, (0, 0))


@dataclass(frozen=True)
class Job:
    """A dossier and the words that it is run with."""

    title: str
    files: Files
    words: tuple[str, ...]

    @property
    def mode(self) -> str:
        """The first word that is neither an option nor the value of one."""
        before = ("", *self.words)
        return next((word for earlier, word in zip(before, self.words) if not word.startswith("-")
                     and (not earlier.startswith("--") or "=" in earlier)), "none")


def file_of(slot: str) -> str:
    return "chain.txt" if slot == "chain" else f"{slot}.csv"


def text_of(lines: list[str]) -> bytes:
    """The text that stands behind bars in a file of cases."""
    text = "".join(line if line.endswith("{cut}") else line + "\n" for line in lines)
    for mark, stands_for in MARKS.items():
        text = text.replace(mark, stands_for)
    return text.encode()


def sections(file: Path) -> Iterator[tuple[str, list[str]]]:
    """The sections of a file of cases, each with the lines of its text."""
    head, lines = "", []
    for line in [*file.read_text().split("\n"), "end"]:
        if line.startswith("| ") or line == "|":
            lines.append(line[2:])
        elif line and not line.startswith("#"):
            if head:
                yield head, lines
            head, lines = line, []


def jobs_of(file: Path) -> Iterator[Job]:
    """The runs of a file of cases."""
    blank = {"chain": b"", **{path.stem: path.read_bytes() for path in (EXAMPLES / "blank").glob("*.csv")}}
    dossier, case, title = dict(blank), dict(blank), ""
    is_dossier = True
    for head, lines in sections(file):
        kind, _, rest = head.partition(" ")
        if kind == "dossier":
            dossier, is_dossier, title = dict(blank), True, rest
        elif kind == "case":
            case, is_dossier, title = dict(dossier), False, rest
        elif kind in SLOTS:
            (dossier if is_dossier else case)[kind] = text_of(lines)
        elif kind in ("words", "same"):
            yield Job(title, {file_of(slot): text for slot, text in case.items()}, tuple(rest.split()))


def all_jobs() -> list[Job]:
    """The worked runs; samples, some of which are large, are left out."""
    found = [job for file in sorted(CASES.glob("*.txt")) for job in jobs_of(file)]
    return [job for job in found if "--number" not in job.words]


@dataclass(frozen=True)
class Watched:
    """How a run ended: its status (below 0 a signal), its text, the seconds of a processor and the bytes that it
    took."""

    status: int
    text: bytes
    seconds: float
    memory: int


def binary() -> str:
    """The program itself, also where the script `parcours` is named that runs it."""
    built = Path(program()).parent / "crates/parcours/out/parcours"
    return str(built) if built.is_file() else program()


def put(files: Files, folder: Path) -> None:
    """Makes the folder hold these files alone."""
    shutil.rmtree(folder, ignore_errors=True)
    folder.mkdir()
    for name, text in files.items():
        (folder / name).write_bytes(text)


def watch(words: tuple[str, ...], folder: Path, longest: float, by: str | None = None,
          environment: dict[str, str] | None = None, user: int | None = None) -> Watched:
    """Runs the program, or another one, in the folder, as `watch_into` does."""
    with tempfile.TemporaryFile() as output:
        status, usage = watch_into(output, words, folder, longest, by, environment, user)
        output.seek(0)
        text = output.read()
    return Watched(status, text, usage.ru_utime + usage.ru_stime, usage.ru_maxrss * 1024)


def watch_into(output: BinaryIO, words: tuple[str, ...], folder: Path, longest: float, by: str | None = None,
               environment: dict[str, str] | None = None,
               user: int | None = None) -> tuple[int, resource.struct_rusage]:
    """Runs the program, or another one, in the folder, as another user where one is named, with its text to the
    output; a run that takes more than the seconds of a processor (unless it is another user's), or many times as long
    by the clock, is stopped. Answers its status (below 0 a signal) and what it took."""
    child = subprocess.Popen([by or binary(), *words], cwd=folder, stdin=subprocess.DEVNULL, stdout=output,
                             stderr=subprocess.DEVNULL, env={**os.environ, **(environment or {})},
                             start_new_session=True, user=user, extra_groups=None if user is None else ())
    if user is None:
        bound = math.ceil(longest) + 1
        resource.prlimit(child.pid, resource.RLIMIT_CPU, (bound, bound))
    status, usage = wait_for(child.pid, PATIENCE * longest)
    child.returncode = os.waitstatus_to_exitcode(status)
    return child.returncode, usage


def wait_for(child: int, longest: float) -> tuple[int, resource.struct_rusage]:
    """Waits for a child; it is killed, with all that it started, when its time is over or the wait is stopped."""
    handle = os.pidfd_open(child)
    try:
        ended, _, _ = select.select([handle], [], [], longest)
        if not ended:
            os.killpg(child, signal.SIGKILL)
    except BaseException:
        os.killpg(child, signal.SIGKILL)
        raise
    finally:
        os.close(handle)
    _, status, usage = os.wait4(child, 0)
    return status, usage


def run_of(job: Job) -> Watched:
    """How a job ends, in a folder of its own."""
    with scratch() as place:
        put(job.files, place / "slots")
        return watch(job.words, place / "slots", LONGEST_START)
