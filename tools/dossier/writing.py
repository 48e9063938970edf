"""Writing files so that each is there as a whole, or not at all."""

import argparse
import csv
import io
import os
import shutil
import signal
import sys
import tempfile
from collections.abc import Iterable, Iterator, Mapping
from contextlib import contextmanager
from pathlib import Path
from types import FrameType


def csv_bytes(header: Iterable[str], rows: Iterable[Iterable[object]]) -> bytes:
    """A slot's file: commas, line feeds, and quotes only where they are needed."""
    text = io.StringIO(newline="")
    writer = csv.writer(text, lineterminator="\n")
    writer.writerow(header)
    writer.writerows(rows)
    return text.getvalue().encode()


def write_file(path: Path, data: bytes | Iterable[bytes], is_kept: bool = True) -> None:
    """Writes a new file, and if it is to be kept answers when the disk has it."""
    with open(path, "wb") as file:
        file.writelines([data] if isinstance(data, bytes) else data)
        file.flush()
        if is_kept:
            os.fsync(file.fileno())


def open_mode() -> int:
    """The rights that a new folder has here: all those that the user's mask leaves."""
    mask = os.umask(0o077)
    os.umask(mask)
    return 0o777 & ~mask


def settle(folder: Path) -> None:
    """Answers when the disk has the names in the folder."""
    handle = os.open(folder, os.O_RDONLY)
    try:
        os.fsync(handle)
    finally:
        os.close(handle)


def replace_file(path: Path, data: bytes) -> None:
    """Puts a file in the place of another, which is there until the new one is whole, with the same rights."""
    fresh = path.with_name(f".{path.name}.new")
    try:
        write_file(fresh, data)
        if path.exists():
            shutil.copymode(path, fresh)
        os.replace(fresh, path)
    except BaseException:
        fresh.unlink(missing_ok=True)
        raise
    settle(path.parent)


STOPS = (signal.SIGINT, signal.SIGTERM, signal.SIGHUP)


@contextmanager
def fresh_folder(prefix: str, place: Path) -> Iterator[Path]:
    """A new folder, which is taken away where what is done with it ends early. A signal to stop that comes while it is
    made waits until it would be taken away."""
    held = signal.pthread_sigmask(signal.SIG_BLOCK, STOPS)
    try:
        fresh = Path(tempfile.mkdtemp(prefix=prefix, dir=place))
    except BaseException:
        signal.pthread_sigmask(signal.SIG_SETMASK, held)
        raise
    try:
        signal.pthread_sigmask(signal.SIG_SETMASK, held)
        fresh.chmod(open_mode())
        yield fresh
    except BaseException:
        shutil.rmtree(fresh, ignore_errors=True)
        raise


class Taken(Exception):
    """While a new folder was made, something else came to stand in its place."""


def write_folder(folder: Path, files: Mapping[str, bytes | Iterable[bytes]], is_kept: bool = True) -> None:
    """Makes a folder with these files; it appears when all of them are whole. What can be made anew need not outlast a
    power cut. Raises Taken where another call made the folder meanwhile."""
    with fresh_folder(f".{folder.name}.", folder.parent) as fresh:
        for name, data in files.items():
            if is_kept:
                write_file(fresh / name, data)
            else:
                write_file(fresh / name, data, is_kept)
        settle(fresh)
        try:
            os.rename(fresh, folder)
        except OSError:
            if os.path.lexists(folder):
                raise Taken from None
            raise
    settle(folder.parent)


def named_folder(text: str) -> Path:
    """A folder as a word names it; an empty word names none."""
    if not text:
        raise argparse.ArgumentTypeError("the name of a folder is empty")
    return Path(text)


def is_folder(path: Path) -> bool:
    """Whether there is a folder that may be looked into."""
    try:
        return path.is_dir()
    except OSError:
        return False


def stop_no_more() -> None:
    """From here on no such signal ends the tool, which takes away what it made and ends."""
    for number in STOPS:
        signal.signal(number, signal.SIG_IGN)


class Told(KeyboardInterrupt):
    """The tool was told to stop, by an interrupt, an end or a hang-up."""

    def __init__(self, number: int):
        super().__init__(number)
        self.status = 128 + number


def stop_cleanly() -> None:
    """From here on a signal to stop ends the tool by `Told`, so that what is half made is taken away; a second one
    does not break that off."""
    def stop(number: int, _: FrameType | None) -> None:
        stop_no_more()
        raise Told(number)

    for number in STOPS:
        if signal.getsignal(number) is not signal.SIG_IGN:
            signal.signal(number, stop)


def write_whole(tool: str, text: str) -> bool:
    """Writes a text to standard output whole, in UTF-8, and answers whether it could. A reader that has gone has what
    they want."""
    rest = text.encode(errors="backslashreplace")
    try:
        while rest:
            rest = rest[os.write(1, rest):]
    except BrokenPipeError:
        return True
    except OSError as error:
        print(f"{tool}: the text could not be written: {error.strerror}", file=sys.stderr)
        return False
    return True


def say(tool: str, text: str) -> None:
    """Says on standard output what was done. It is done even where this cannot be said."""
    try:
        if isinstance(sys.stdout, io.TextIOWrapper):
            sys.stdout.reconfigure(errors="backslashreplace")
        print(text, flush=True)
    except OSError as error:
        os.dup2(os.open(os.devnull, os.O_WRONLY), sys.stdout.fileno())
        print(f"{tool}: it is done, but standard output cannot be written ({error.strerror}).", file=sys.stderr)
