"""The program `parcours`, as the tools run it."""

import os
import shutil
import subprocess
from pathlib import Path
from typing import IO

from .texts import Filled, Text

DONE, REFUSED, BAD_WORDS, READ_FAULT, WRITE_FAULT, NO_MEMORY = range(6)
NOT_BUILT = 125
MEANINGS = {
    REFUSED: Text("the dossier is refused", "le dossier est refusé"),
    BAD_WORDS: Text("the program does not know its words", "le programme ne connaît pas ces mots"),
    READ_FAULT: Text("a slot could not be read", "un fichier n'a pas pu être lu"),
    WRITE_FAULT: Text("its text could not be written, so it is cut", "son texte n'a pas pu être écrit en entier"),
    NO_MEMORY: Text("memory ran out", "la mémoire a manqué"),
    NOT_BUILT: Text("the program is not built, or cannot be started",
                    "le programme n'est pas construit, ou ne peut pas démarrer"),
}
STOPPED = Text("the program was stopped by the signal {signal}", "le programme a été arrêté par le signal {signal}")
ENDED_ODDLY = Text("the program ended oddly", "le programme a fini autrement que prévu")


def program() -> str:
    """The program that PARCOURS names in the environment, else the script `parcours` of this repository."""
    named = os.environ.get("PARCOURS")
    if named:
        return os.path.abspath(shutil.which(named) or named)
    return str(Path(__file__).resolve().parents[2] / "parcours")


def version() -> str:
    """What `parcours --version` says of the repository, or of the installed tree, that this tool belongs to."""
    named = {**os.environ, "LC_ALL": "C"}
    script = Path(__file__).resolve().parents[2] / "parcours"
    try:
        done = subprocess.run([script, "--version"], stdin=subprocess.DEVNULL, stdout=subprocess.PIPE, env=named,
                              check=False)
    except OSError:
        return "of an unknown version"
    return done.stdout.decode(errors="replace").strip() or "of an unknown version"


def run(words: list[str], folder: Path, output: IO[bytes]) -> int:
    """Runs the program in the folder with its text to the output, and answers its status."""
    try:
        done = subprocess.run([program(), *words], cwd=folder, stdin=subprocess.DEVNULL, stdout=output, check=False)
    except OSError:  # it is not there, may not be run, or is of another machine
        return NOT_BUILT
    return done.returncode


def meaning(status: int) -> Filled:
    return STOPPED.of(signal=-status) if status < 0 else MEANINGS.get(status, ENDED_ODDLY).of()
