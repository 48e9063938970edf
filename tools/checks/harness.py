"""What all checks share: counting, running a tool, and folders that vanish."""

import os
import resource
import shutil
import signal
import subprocess
import sys
import tempfile
import time
import traceback
from collections.abc import Callable, Iterable, Iterator
from contextlib import contextmanager, suppress
from dataclasses import dataclass, field
from pathlib import Path

from dossier.writing import STOPS, Told, stop_cleanly, stop_no_more

TOP = Path(__file__).resolve().parents[2]
TOOLS = TOP / "tools"
EXAMPLES = TOP / "examples"
DATA = Path(__file__).resolve().parent / "data"
LONGEST_RUN = 120
IN_ENGLISH = {"LC_ALL": "C.UTF-8"}  # the surroundings, where no language is asked for
LONGEST_SHOWN = 300


@dataclass
class Tally:
    """How many checks passed, and how many failed."""

    passed: int = 0
    failed: int = 0
    topic: str = field(default="", repr=False)

    def begin(self, topic: str) -> None:
        self.topic = topic
        print(f"{topic} ..", flush=True)

    def check(self, name: str, holds: bool, seen: object = "") -> None:
        if holds:
            self.passed += 1
            return
        self.failed += 1
        print(f"FAILED {self.topic}: {name}\n{seen}".rstrip(), flush=True)

    def equal(self, name: str, found: object, expected: object) -> None:
        self.check(name, found == expected, f"  found    {shortened(found)}\n  expected {shortened(expected)}")

    def run(self, checks: Callable[[], None]) -> None:
        """Makes some checks; if they end with an error, that is one that failed."""
        try:
            checks()
        except Exception:
            self.check("it runs to its end", False, traceback.format_exc())


def tell(tally: Tally, begun: float, counts: Iterable[tuple[str, int]]) -> int:
    """Says what a longer round met, and how it ended; answers its status."""
    for kind, number in counts:
        print(f"{number:8} {kind}")
    print(f"in {time.monotonic() - begun:.0f} s\n{tally.passed} passed, {tally.failed} failed")
    return 0 if tally.failed == 0 else 1


def until_told(main: Callable[[], int]) -> int:
    """Runs checks until they end or are told to stop; either way what they run is ended, and what they and all that
    they ran left in the temporary folder vanishes, since they have a folder of their own there."""
    # (a signal waits until there is what takes the folder away)
    signal.pthread_sigmask(signal.SIG_BLOCK, STOPS)
    place = tempfile.mkdtemp(prefix="parcours-check.")
    try:
        stop_cleanly()
        signal.pthread_sigmask(signal.SIG_UNBLOCK, STOPS)
        # Some checks run the program as another user, below this folder.
        os.chmod(place, 0o711)
        os.environ["TMPDIR"] = tempfile.tempdir = place
        return main()
    except Told as stop:
        print("stopped", file=sys.stderr)
        return stop.status
    finally:
        stop_no_more()
        shutil.rmtree(place, ignore_errors=True)


def shortened(found: object) -> str:
    text = repr(found)
    return text if len(text) <= LONGEST_SHOWN else f"{text[:LONGEST_SHOWN]} .."


@dataclass(frozen=True)
class Ended:
    """How a run of a tool ended."""

    status: int
    output: bytes
    complaint: str


def run(*words: str | Path, folder: Path = TOP, given: bytes = b"", environment: dict[str, str] | None = None,
        greatest_file: int | None = None, output: int = subprocess.PIPE) -> Ended:
    """Runs a command; with a greatest size of files as a disk that is full from there on."""
    limit: Callable[[], None] | None = None
    if greatest_file is not None:
        def limit() -> None:
            resource.setrlimit(resource.RLIMIT_FSIZE, (greatest_file, greatest_file))
    with subprocess.Popen([str(word) for word in words], cwd=folder, stdin=subprocess.PIPE, stdout=output,
                          stderr=subprocess.PIPE, env={**os.environ, **IN_ENGLISH, **(environment or {})},
                          preexec_fn=limit, start_new_session=True) as call:
        try:
            told, complained = call.communicate(given, LONGEST_RUN)
        except BaseException:
            # It may have ended meanwhile, and that must not be told in place of what stops this.
            with suppress(ProcessLookupError):
                os.killpg(call.pid, signal.SIGKILL)
            raise
    return Ended(call.returncode, told or b"", complained.decode(errors="replace"))


def executable(path: Path, text: str) -> str:
    """A program of this text."""
    path.write_text(text)
    path.chmod(0o755)
    return str(path)


def stopped_once_begun(number: signal.Signals, wait: float, folder: Path, tool: str, *words: str,
                       **environment: str) -> Ended:
    """Sends the signal to a check so many seconds after it has something in this temporary folder."""
    with subprocess.Popen([TOOLS / tool, *words], cwd=folder, stdout=subprocess.PIPE, stderr=subprocess.PIPE,
                          env={**os.environ, **IN_ENGLISH, **environment, "TMPDIR": str(folder)},
                          # A shell that runs this beside others has its interrupts passed over.
                          preexec_fn=lambda: signal.signal(signal.SIGINT, signal.SIG_DFL)) as call:
        while call.poll() is None and not list(folder.iterdir()):
            time.sleep(0.01)
        time.sleep(wait)
        call.send_signal(number)
        output, complaint = call.communicate(timeout=60)
    return Ended(call.returncode, output, complaint.decode())


@contextmanager
def scratch() -> Iterator[Path]:
    """A folder for one check."""
    folder = Path(tempfile.mkdtemp(prefix="parcours-check."))
    try:
        yield folder
    finally:
        shutil.rmtree(folder, ignore_errors=True)


def contents(folder: Path) -> dict[str, bytes]:
    """All files below a folder, but hidden ones and those below hidden folders."""
    named = {path.relative_to(folder): path for path in sorted(folder.rglob("*")) if path.is_file()}
    return {str(name): path.read_bytes() for name, path in named.items()
            if not any(part.startswith(".") for part in name.parts)}
