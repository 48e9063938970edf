"""Builds the program of the last commit in two folders, one after the other, and compares the two byte by byte."""

import hashlib
import os
import signal
import subprocess
import sys
from contextlib import suppress
from functools import partial
from pathlib import Path

from dossier.wording import Words

from .harness import TOP, scratch, until_told

SAME, DIFFERENT, NOT_BUILT = 0, 1, 3
# Their paths differ in length too, so that a path which a build writes down is seen.
FOLDERS = ("one", "another/longer")
PROGRAM = "crates/parcours/out/parcours"
# A run that reads no slot; before it the script builds.
FIRST_RUN = ("sample", "--number", "5")


class NotBuilt(Exception):
    """Why there is no program, in one line."""


def call(words: tuple[str | Path, ...], folder: Path) -> int:
    """Runs a command, whose complaints are shown as they come; where this is stopped, so is all that it started."""
    with subprocess.Popen([str(word) for word in words], cwd=folder, stdin=subprocess.DEVNULL,
                          stdout=subprocess.DEVNULL, start_new_session=True) as child:
        try:
            return child.wait()
        except BaseException:
            # It may have ended meanwhile, and that must not be told in place of what stops this.
            with suppress(ProcessLookupError):
                os.killpg(child.pid, signal.SIGKILL)
            raise


def last_commit(top: Path) -> str:
    found = subprocess.run(["git", "-C", top, "rev-parse", "HEAD"], stdout=subprocess.PIPE,
                           stderr=subprocess.PIPE, check=False)
    if found.returncode != 0:
        said = found.stderr.decode(errors="replace").partition("\n")[0]
        raise NotBuilt(f"{top} is no checkout that git reads ({said})")
    return found.stdout.decode().strip()


def built(top: Path, commit: str, name: str) -> str:
    """The checksum of the program of a commit, which is built in a clone that goes again."""
    with scratch() as place:
        clone = place / name
        clone.parent.mkdir(exist_ok=True)
        for words in (("clone", "--quiet", "--no-checkout", top, clone),
                      ("-C", clone, "checkout", "--quiet", "--detach", commit)):
            if call(("git", *words), place) != 0:
                raise NotBuilt(f"the checkout could not be copied to {clone}")
        status = call((clone / "parcours", *FIRST_RUN), clone)
        if status != 0:
            raise NotBuilt(f"parcours {' '.join(FIRST_RUN)} ended with {status} in {clone}")
        return hashlib.sha256((clone / PROGRAM).read_bytes()).hexdigest()


def compare(top: Path) -> int:
    """Builds and compares, says what was found, and answers the status."""
    try:
        commit = last_commit(top)
        print(f"commit {commit}", flush=True)
        sums = []
        for name in FOLDERS:
            sums.append(built(top, commit, name))
            print(f"{sums[-1]}  in {name}", flush=True)
    except (NotBuilt, OSError) as why:
        print(f"build_twice.sh: not built: {why}", file=sys.stderr)
        return NOT_BUILT
    if len(set(sums)) == 1:
        print("the same program")
        return SAME
    print("not the same program")
    return DIFFERENT


def main(words: list[str]) -> int:
    Words("build_twice.sh",
          "Clones the last commit into a folder of its own, proves and builds the program there, keeps its SHA-256 sum "
          "and takes the folder away; then once more in a folder of another name. What is not committed is left out. "
          "It takes as long as two first builds, and some gigabytes in the temporary folder (TMPDIR).",
          "Status: 0 the sums are the same, 1 they are not, 2 bad words, 3 not built.").of(words)
    return until_told(partial(compare, TOP))


if __name__ == "__main__":
    sys.exit(main(sys.argv[1:]))
