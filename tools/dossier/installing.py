"""Installs the program, the script, the tools, their pages and completion below a prefix, and takes them away."""

import hashlib
import os
import shutil
import subprocess
import sys
from collections.abc import Iterator
from pathlib import Path

from . import program
from .wording import Words
from .writing import Told, fresh_folder, is_folder, named_folder, say, stop_cleanly

DONE, NOT_THERE, NOT_WRITTEN = 0, 3, 4
TOP = Path(__file__).resolve().parents[2]
OWN = Path("lib/torchpoppy")
MARK = "installed"
FOLDERS = "folders"
TOOLS = ("prepare", "next_day", "take_in", "why", "tables", "in_words", "recheck", "audit_day")
PAGES = ("README.md", "LISEZMOI.md", "LICENSE", "docs", "examples")
PREFIX = Path("/usr/local")
BUILT = Path("crates/parcours/out/parcours")
NEVER = shutil.ignore_patterns("__pycache__", ".*")


class NotInstalled(Exception):
    """Why nothing is installed or taken away."""


def words() -> Words:
    parser = Words(
        "install",
        "Installs the program, the script, the tools, man pages in English and French, and completion for bash below "
        "PREFIX; what an earlier call installed there is replaced. `install uninstall PREFIX` takes it away again.",
        "Status: 0 done, 2 bad words, 3 no program, or something else is in the way, 4 not written.")
    parser.add_argument("words", nargs="*", metavar="[uninstall] [PREFIX]",
                        help="/usr/local where no prefix is named")
    return parser


def links() -> dict[Path, Path]:
    """The links that are made below the prefix, each with what it leads to there."""
    found = {Path("bin/parcours"): OWN / "parcours"}
    found |= {Path(f"bin/parcours-{tool}"): OWN / "tools" / tool for tool in TOOLS if (TOP / "tools" / tool).exists()}
    found |= {Path("share/man/man1/parcours.1"): OWN / "tools/man/parcours.1",
              Path("share/man/fr/man1/parcours.1"): OWN / "tools/man/fr/parcours.1",
              Path("share/doc/torchpoppy"): OWN / "pages"}
    names = ["parcours", *(f"parcours-{tool}" for tool in TOOLS if (TOP / "tools" / tool).exists())]
    return found | {Path("share/bash-completion/completions") / name: OWN / "tools/completion.bash" for name in names}


def own_links(prefix: Path) -> Iterator[Path]:
    """The links below the prefix that lead into what is installed there."""
    for link in links():
        path = prefix / link
        if path.is_symlink() and normal(path.parent / os.readlink(path)).is_relative_to(normal(prefix / OWN)):
            yield path


def normal(path: Path) -> Path:
    return Path(os.path.normpath(path.absolute()))


def names_another() -> bool:
    """Whether PARCOURS names a program, or a script, that is not this tree's."""
    return bool(os.environ.get("PARCOURS")) and Path(program.program()).resolve() != TOP / "parcours"


def run_by(script: Path) -> Path:
    """The program that a script `parcours` runs, in a checkout or installed; any other file is a program itself."""
    place = script.resolve().parent
    own = place / "program" if (place / MARK).exists() else place / BUILT
    return own if own.is_file() else script


def own_program() -> Path:
    """The program of this tree. In a checkout the script builds it first where its sources have changed."""
    if (TOP / MARK).exists():
        return TOP / "program"
    ended = subprocess.run([TOP / "parcours", "order"], cwd=TOP / "examples/two-groups", stdout=subprocess.DEVNULL,
                           check=False)
    if ended.returncode != program.DONE:
        raise NotInstalled("there is no program of these sources; call parcours, mend what it says, and call again.")
    return TOP / BUILT


def chosen_program() -> Path:
    """The program that is installed: the one that PARCOURS names, else that of this tree."""
    found = run_by(Path(program.program())) if names_another() else own_program()
    if not (found.is_file() and os.access(found, os.X_OK)):
        raise NotInstalled(f"there is no program {found}; build it by calling parcours, and call again.")
    return found


def version_of(installed: Path) -> str:
    """What is installed: the version, commit and kit of this tree, and the sum of the program."""
    if (TOP / MARK).exists() and not names_another():
        return (TOP / MARK).read_text()
    total = hashlib.sha256(installed.read_bytes()).hexdigest()
    remark = ", which PARCOURS named: its commit and kit are not known" if names_another() else ""
    return "".join(f"{line}\n" for line in (*program.version().splitlines()[:3], f"program {total}{remark}"))


def in_the_way(prefix: Path) -> Path | None:
    """Something at a place that is needed and that is not ours."""
    ours = set(own_links(prefix))
    home = prefix / OWN
    if os.path.lexists(home) and not (home / MARK).is_file():
        return home
    return next((prefix / link for link in links()
                 if os.path.lexists(prefix / link) and prefix / link not in ours), None)


def fill(home: Path) -> None:
    """Writes all that is installed to a folder."""
    shutil.copy(TOP / "parcours", home / "parcours")
    shutil.copy(chosen_program(), home / "program")
    (home / "tools").mkdir()
    for name in ("help.txt", "modes.txt", "version.txt", "completion.bash", "install", *TOOLS):
        if (TOP / "tools" / name).exists():
            shutil.copy(TOP / "tools" / name, home / "tools" / name)
    for name in ("dossier", "man"):
        shutil.copytree(TOP / "tools" / name, home / "tools" / name, ignore=NEVER)
    pages = TOP / "pages" if (TOP / MARK).exists() else TOP
    (home / "pages").mkdir()
    for name in PAGES:
        if (pages / name).is_dir():
            shutil.copytree(pages / name, home / "pages" / name, ignore=NEVER)
        elif (pages / name).exists():
            shutil.copy(pages / name, home / "pages" / name)
    (home / MARK).write_text(version_of(home / "program"))


def install(prefix: Path) -> str:
    if (found := in_the_way(prefix)) is not None:
        raise NotInstalled(f"{found} is there already and was not installed by this tool; name another prefix.")
    home = prefix / OWN
    made = made_folders(prefix) | missing_folders(prefix)
    home.parent.mkdir(parents=True, exist_ok=True)
    with fresh_folder(".torchpoppy.", home.parent) as fresh:
        fill(fresh)
        (fresh / FOLDERS).write_text("".join(f"{folder}\n" for folder in sorted(made)), errors="surrogateescape")
        take_away(prefix)
        os.rename(fresh, home)
    for link, target in links().items():
        path = prefix / link
        path.parent.mkdir(parents=True, exist_ok=True)
        path.symlink_to(os.path.relpath(prefix / target, path.parent))
    return f"parcours is installed in {prefix}: {prefix / 'bin'} has it and its tools."


def missing_folders(prefix: Path) -> set[str]:
    """The folders below the prefix that are not there and are to be made."""
    needed = {parent for link in (*links(), OWN) for parent in link.parents} - {Path()}
    return {str(folder) for folder in needed if not (prefix / folder).exists()}


def made_folders(prefix: Path) -> set[str]:
    """The folders that earlier calls made below the prefix."""
    kept = prefix / OWN / FOLDERS
    return set(kept.read_text(errors="surrogateescape").splitlines()) if kept.exists() else set()


def take_away(prefix: Path) -> None:
    """Takes away what was installed, and the folders that are empty then."""
    for path in list(own_links(prefix)):
        path.unlink()
    if (prefix / OWN).exists():
        shutil.rmtree(prefix / OWN)


def uninstall(prefix: Path) -> str:
    if not (prefix / OWN / MARK).is_file():
        raise NotInstalled(f"nothing is installed in {prefix}; name the prefix that it was installed in.")
    folders = made_folders(prefix)
    take_away(prefix)
    for folder in sorted(folders, key=len, reverse=True):
        if is_folder(prefix / folder) and not any((prefix / folder).iterdir()):
            (prefix / folder).rmdir()
    return f"what was installed in {prefix} is taken away."


def main(arguments: list[str]) -> int:
    parser = words()
    asked = parser.of(arguments).words
    action = uninstall if asked[:1] == ["uninstall"] else install
    rest = asked[1:] if action is uninstall else asked
    if len(rest) > 1 or "" in rest:
        parser.bad("name one prefix")
    prefix = normal(named_folder(rest[0])) if rest else default_prefix()
    try:
        stop_cleanly()
        say("install", action(prefix))
        return DONE
    except NotInstalled as error:
        print(f"install: {error}", file=sys.stderr)
        return NOT_THERE
    except OSError as error:
        print(f"install: {error.filename or prefix}: {error.strerror}; see that you may write there, and call again.",
              file=sys.stderr)
        return NOT_WRITTEN
    except Told as stop:
        print("install: stopped; call again.", file=sys.stderr)
        return stop.status


def default_prefix() -> Path:
    """The prefix that this tool was itself installed in, else the usual one."""
    return TOP.parents[1] if (TOP / MARK).exists() else PREFIX
