"""Checks of build_twice.sh, in a repository whose builder is a stand-in."""

import shutil
import signal
from pathlib import Path

from .harness import TOOLS, Ended, Tally, run, scratch, stopped_once_begun
from .script import environment_of, make_tree
from .twice import DIFFERENT, NOT_BUILT, SAME

BUILDER = """import shutil
from pathlib import Path
top = Path(__file__).resolve().parents[1]
(top / "crates/parcours/out").mkdir(parents=True, exist_ok=True)
shutil.copy(top / "stand_in", top / "crates/parcours/out/parcours")
"""
# The program tells where it was built.
TELLING = BUILDER + 'print("#", top, file=open(top / "crates/parcours/out/parcours", "a"))\n'
UNPROVED = "raise SystemExit(1)\n"
SLOW = "import time\ntime.sleep(60)\n"


def commit(script: Path, builder: str) -> None:
    """Commits the tree with this builder."""
    (script.parent / "tools/prove.py").write_text(builder)
    for words in (("add", "--all"), ("commit", "--quiet", "--message", "One")):
        run("git", "-c", "user.name=x", "-c", "user.email=x", *words, folder=script.parent)


def checkout(place: Path) -> Path:
    """A repository of one commit, with what builds twice; answers the path of the script `parcours`."""
    script = make_tree(place)
    for name in ("checks", "dossier"):
        shutil.copytree(TOOLS / name, script.parent / "tools" / name, ignore=shutil.ignore_patterns("__pycache__"))
    shutil.copy(TOOLS / "build_twice.sh", script.parent / "tools")
    (script.parent / ".gitignore").write_text("out/\n__pycache__/\n")
    run("git", "init", "--quiet", folder=script.parent)
    commit(script, BUILDER)
    return script


def compared(script: Path, temporary: Path) -> Ended:
    return run(script.parent / "tools/build_twice.sh", folder=script.parent,
               environment={**environment_of(script), "TMPDIR": str(temporary)})


def check_twice(tally: Tally) -> None:
    tally.begin("build_twice.sh")
    with scratch() as place:
        script, temporary = checkout(place), place / "temporary"
        temporary.mkdir()

        def ends(name: str, status: int, last: str) -> None:
            ended = compared(script, temporary)
            said = (ended.complaint or ended.output.decode()).splitlines()
            tally.check(name, ended.status == status and last in said[-1], ended)
            tally.equal(f"{name}: what is left", list(temporary.iterdir()), [])

        ends("the same", SAME, "the same program")
        (script.parent / "tools/prove.py").write_text(UNPROVED)
        ends("what is not committed is left out", SAME, "the same program")
        commit(script, TELLING)
        ends("not the same", DIFFERENT, "not the same program")
        commit(script, UNPROVED)
        ends("not proved", NOT_BUILT, "sample --number 5 ended with 125")
        commit(script, SLOW)
        ended = stopped_once_begun(signal.SIGTERM, 1, temporary, str(script.parent / "tools/build_twice.sh"),
                                   PATH=environment_of(script)["PATH"])
        tally.equal("told to stop", (ended.status, ended.complaint), (143, "stopped\n"))
        tally.equal("told to stop: what is left", list(temporary.iterdir()), [])
        shutil.rmtree(script.parent / ".git")
        ends("no checkout", NOT_BUILT, "is no checkout that git reads (fatal: not a git repository")
