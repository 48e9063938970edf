"""What is installed runs without a checkout, and is taken away without a trace."""

import hashlib
import os
import shutil
from pathlib import Path

from dossier.installing import TOOLS as INSTALLED

from .harness import EXAMPLES, TOOLS, TOP, Ended, Tally, contents, run, scratch
from .runs import binary
from .script import make_tree

TOOL = TOOLS / "install"


def installed(prefix: Path, folder: Path, *words: str) -> Ended:
    """Runs a command of the installed tree, with nothing of the checkout in its surroundings."""
    environment = {"PATH": f"{prefix / 'bin'}:{os.environ['PATH']}", "PARCOURS": ""}
    return run("env", *words, folder=folder, environment=environment)


def check_installed(tally: Tally) -> None:
    tally.begin("install")
    with scratch() as place:
        prefix = place / "usr local"
        (prefix / "bin").mkdir(parents=True)
        (prefix / "bin/other").write_text("mine\n")
        for time in ("once", "once more"):
            ended = run(TOOL, prefix, environment={"PARCOURS": binary()})
            tally.equal(f"{time}: it is installed", (ended.status, ended.complaint), (0, ""))
        check_tools(tally, prefix, place)
        check_completion(tally, prefix)
        for page in ("man1/parcours.1", "fr/man1/parcours.1"):
            text = (prefix / "share/man" / page).read_text()
            missing = [name for name in INSTALLED if f".B parcours-{name}\n" not in text]
            tally.equal(f"{page}: the tools that it lacks", missing, [])
        ended = run(prefix / "lib/torchpoppy/tools/install", "uninstall")
        tally.equal("it is taken away", (ended.status, ended.complaint), (0, ""))
        left = sorted(str(path.relative_to(prefix)) for path in prefix.rglob("*"))
        tally.equal("what was there is there", left, ["bin", "bin/other"])
        check_refusals(tally, prefix)


def check_tools(tally: Tally, prefix: Path, place: Path) -> None:
    """From exports to sentences with the installed tools, from a copy of the sheets."""
    for path in (prefix / "lib").rglob("*"):
        if path.is_symlink():
            tally.check(f"{path} leads to no checkout", not path.resolve().is_relative_to(TOP), path)
    sheets = place / "sheets"
    shutil.copytree(EXAMPLES / "lycee/exports", sheets)
    for words in (("parcours-prepare", "sheets", "dossier", "--dates", "day-first"),
                  ("parcours-next_day", "dossier", "--start", "2026-06-02", "--term", "1"),
                  ("parcours-why", "dossier", "V09"), ("parcours-tables", "dossier", "tables"),
                  ("parcours", "-C", "dossier", "order"), ("parcours", "--version"), ("parcours", "help"),
                  ("parcours-in_words", "--help"), ("parcours-take_in", "--version")):
        ended = installed(prefix, place, *words)
        tally.check(" ".join(words), ended.status == 0 and ended.output != b"", ended)
    ended = run(prefix / "bin/parcours-audit_day", "dossier", "1", folder=place, environment={"PARCOURS": ""})
    proved = f"chain      ok: proved by {(prefix / 'lib/torchpoppy/program').resolve()}, "
    tally.check("audit_day, bin not on the PATH", ended.status == 0 and proved in ended.output.decode(), ended)
    tally.equal("the slots", (place / "dossier/groups.csv").read_bytes(),
                (EXAMPLES / "lycee/slots/groups.csv").read_bytes())
    lines = installed(prefix, place, "parcours", "--version").output.decode().splitlines()
    tally.equal("the version", lines[:3], run(TOP / "parcours", "--version").output.decode().splitlines())
    named = f"program {sum_of(binary())}, which PARCOURS named: its commit and kit are not known"
    tally.equal("the program", lines[3:], [named])


def sum_of(file: str | Path) -> str:
    return hashlib.sha256(Path(file).read_bytes()).hexdigest()


def check_version(tally: Tally) -> None:
    """What is installed says what it is, whatever becomes of the checkout, and is a program of its sources."""
    tally.begin("install, what --version says")
    with scratch() as place:
        script = checkout(place)
        tree, prefix, git = script.parent, place / "prefix", ("git", "-c", "user.name=x", "-c", "user.email=x")
        path = {"PATH": f"{tree / 'bin'}:{os.environ['PATH']}", "PARCOURS": ""}

        def said(*words: str | Path) -> list[str]:
            return run(*words, folder=place, environment=path).output.decode().splitlines()

        def call() -> Ended:
            return run(tree / "tools/install", prefix, environment=path)

        for words in (("init", "-q"), ("add", "."), ("commit", "-q", "-m", "One")):
            run(*git, *words, folder=tree)
        first = said("git", "-C", tree, "rev-parse", "HEAD")[0]
        tally.equal("it is installed", (call().status, call().complaint), (0, ""))
        # (the stand-in for the kit says nothing of itself)
        expected = [said(script, "--version")[0], f"commit {first}", f"program {sum_of(tree / 'stand_in')}"]
        (tree / "tools/why").write_text("changed\n")
        tally.equal("a change in the checkout", said(script, "--version")[1], f"commit {first}, and changes since")
        run(*git, "commit", "-q", "-a", "-m", "Two", folder=tree)
        second = said("git", "-C", tree, "rev-parse", "HEAD")[0]
        tally.equal("another commit of the checkout", said(script, "--version")[1], f"commit {second}")
        for words in ((prefix / "bin/parcours",), (prefix / "lib/torchpoppy/tools/install",)):
            tally.equal(f"{words[0].name}: what was installed", [line.replace("install, ", "") for line in
                                                                said(*words, "--version")], expected)
        shutil.copytree(tree, tree / "crates/within", ignore=shutil.ignore_patterns(".git", "crates"))
        tally.equal("within another checkout", said(tree / "crates/within/parcours", "--version")[1], "commit unknown")
        (tree / "crates/parcours/src/main.rt").write_text("fn main() { }\n")
        (tree / "tools/prove.py").write_text("raise SystemExit(1)\n")
        ended = call()
        is_refused = ended.status == 3 and "no program of these sources" in ended.complaint
        tally.check("sources that are not proved", is_refused, ended)
        tally.equal("what was installed is there", said(prefix / "bin/parcours", "--version")[1], f"commit {first}")


def checkout(place: Path) -> Path:
    """A repository with a stand-in for the program and the tools that are installed; answers the script's path."""
    script = make_tree(place)
    tree = script.parent
    for name in ("dossier", "man"):
        shutil.copytree(TOOLS / name, tree / "tools" / name, ignore=shutil.ignore_patterns("__pycache__"))
    for name in ("completion.bash", "install", "why"):
        shutil.copy(TOOLS / name, tree / "tools")
    shutil.copytree(EXAMPLES / "two-groups", tree / "examples/two-groups")
    (tree / ".gitignore").write_text("out/\n__pycache__/\nbuilt\n")
    return script


def check_completion(tally: Tally, prefix: Path) -> None:
    script = prefix / "share/bash-completion/completions/parcours"
    if not shutil.which("bash"):
        return
    for words, expected in (("parcours re", "replay"), ("parcours explain --w", "--wish"),
                            ("parcours -C x mar", "market"),
                            ("parcours replay --picker l", "last"), ("parcours order ", ""),
                            ("parcours check --", "--start --term"), ("parcours sample --n", "--number"),
                            ("parcours-prepare --r", "--rates")):
        parts = words.split(" ")
        function = "_parcours_tool" if "-" in parts[0] else "_parcours"
        asked = f'. "$1"; shift; COMP_WORDS=("$@"); COMP_CWORD=$(($# - 1)); {function}; echo "${{COMPREPLY[@]}}"'
        ended = run("bash", "-c", asked, "bash", script, *parts)
        tally.equal(words, (ended.output.decode().strip(), ended.complaint), (expected, ""))


def check_refusals(tally: Tally, prefix: Path) -> None:
    before = contents(prefix)
    (prefix / "bin/parcours").write_text("mine\n")
    for words, environment, status, sentence in (
        ((prefix,), {"PARCOURS": binary()}, 3, "was not installed by this tool"),
        (("uninstall", prefix), {}, 3, "nothing is installed"), (("a", "b"), {}, 2, "one prefix"),
        ((prefix / "new",), {"PARCOURS": "/nowhere"}, 3, "there is no program"),
        ((prefix / "bin/other",), {"PARCOURS": binary()}, 4, "see that you may write"),
    ):
        ended = run(TOOL, *words, environment=environment)
        is_told = sentence in ended.complaint and "Traceback" not in ended.complaint
        tally.check(f"{[str(word) for word in words]}", ended.status == status and is_told, ended)
    tally.equal("nothing is changed", contents(prefix), {**before, "bin/parcours": b"mine\n"})
