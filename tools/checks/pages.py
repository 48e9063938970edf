"""The runs in the pages: what stands behind `$` is run, and must give the bytes that stand below it.

What a page links to, file and heading, and what it names as a path of the repository, must be there; so must each
clause that PROMISES and FAILURES cite (`promises.py`). A sentence of a page has at most 25 words. What README and
LISEZMOI tell of a run is what MEASURED has of it.

A run stands in a fenced or an indented block. Each page has a copy of the repository to itself. A block begins at the
page's own folder under `examples/`, else at the top; its lines go to one shell. Of an output, a last line `..` stands
for what else there is. A line that begins with `$` and is in no such block fails.
"""

import os
import re
import shutil
import subprocess
from dataclasses import dataclass
from functools import partial
from pathlib import Path

from dossier.program import program
from dossier.wording import Words

from . import promises
from .harness import TOP, Tally, run, scratch, until_told

COPIED = ("README.md", "LISEZMOI.md", "docs", "examples", "tools")
BEFORE_COMMAND = "\x1e"
REST = ".."
INDENT = "    "
SHELL = ("sh", "-c")
LINK = re.compile(r"\]\(([^)#:]*)(?:#([^)]+))?\)")
HEADING = re.compile(r"^#+ (.*)$", re.M)
PATH = re.compile(r"`((?:crates|docs|examples|tools)/[\w./-]+)`")
CRATE_PATH = re.compile(r"`(\w+/(?:src|specs|proofs|must-fail|data)/[\w./-]+)`")
SHORT_PATH = re.compile(r"`((?:src|specs|proofs|must-fail|data)/[\w./-]+)`")
ANY_NAME = "NAME"
MOST_WORDS = 25
# What is no word of a sentence: where a link leads, code, and the marks of lists, quotes and stress.
NO_WORDS = ((r"\[([^\]]*)\]\([^)]*\)", r"\1"), (r"`[^`]*`", "X"), (r"^\s*(?:- |\d+\. )|[*_>#]", ""))
MEASURED_RUN = re.compile(r"\| `replay --days 3` \| ([\d.]+) s, ([\d.]+) s \|.*\| (\d+) MB, (\d+) MB \|")
TOLD_RUNS = {
    Path("README.md"): r"They took ([\d.]+) seconds of a processor and ([\d.]+) GB\..*? took ([\d.]+) seconds and "
                       r"([\d.]+) GB",
    Path("LISEZMOI.md"): r"y a mis ([\d,]+) secondes? de processeur et ([\d,]+) Go\..*? a mis ([\d,]+) secondes? et "
                         r"([\d,]+) Go"}
SENTENCE_END = re.compile(r"(?<=[.!?])(?:\s+|$)|(?<=[.!?]\))\s+")


@dataclass(frozen=True)
class Run:
    line: int
    command: str
    shown: str


@dataclass(frozen=True)
class Block:
    """Lines of a page, each with its number and without what marks it as one of a block."""

    lines: list[tuple[int, str]]

    def runs(self) -> list[Run]:
        found: list[Run] = []
        for number, text in self.lines:
            if text.startswith("$ "):
                found.append(Run(number, text[2:], ""))
            elif found:
                found[-1] = Run(found[-1].line, found[-1].command, f"{found[-1].shown}{text}\n")
        return found


def blocks_of(page: str) -> list[Block]:
    """The fenced blocks of a page, and the indented ones that follow an empty line."""
    blocks: list[Block] = []
    fenced: list[tuple[int, str]] | None = None
    indented: list[tuple[int, str]] = []
    is_after_empty = True
    for number, text in enumerate([*page.splitlines(), ""], start=1):
        if text.startswith("```"):
            if fenced is not None:
                blocks.append(Block(fenced))
            fenced = [] if fenced is None else None
        elif fenced is not None:
            fenced.append((number, text))
        elif text.startswith(INDENT) and (indented or is_after_empty):
            indented.append((number, text[len(INDENT):]))
        elif indented:
            blocks.append(Block(indented))
            indented = []
        is_after_empty = not text.strip()
    return blocks


def long_sentences(page: str) -> list[str]:
    """The sentences of a page with more words than they may have. In a table a semicolon parts them too."""
    found, in_code = [], False
    for line in page.splitlines():
        in_code ^= line.startswith("```")
        if in_code or line.startswith(INDENT):
            continue
        for part in re.split(r"[|;]", line) if line.startswith("|") else [line]:
            for pattern, instead in NO_WORDS:
                part = re.sub(pattern, instead, part)
            found += [sentence for sentence in SENTENCE_END.split(part)
                      if sum(any(map(str.isalpha, word)) for word in sentence.split()) > MOST_WORDS]
    return found


def outputs_of(runs: list[Run], folder: Path, environment: dict[str, str]) -> list[str]:
    """What each command of a block prints, on standard output and standard error; they run in one shell."""
    marked = (f"status=$?; printf '\\036'; (exit $status)\n{run.command}\n" for run in runs)
    ended = run(*SHELL, "exec 2>&1\n" + "".join(marked), folder=folder, environment=environment)
    outputs = ended.output.decode(errors="replace").split(BEFORE_COMMAND)[1:]
    return outputs + [""] * (len(runs) - len(outputs))


def is_as_shown(output: str, shown: str) -> bool:
    first, last = shown.rstrip("\n").rpartition("\n")[::2]
    if last != REST:
        return output == shown
    begin = f"{first}\n" if first else ""
    return output.startswith(begin) and len(output) > len(begin)


def check_links(tally: Tally, name: Path) -> str:
    """Tests the links and the paths of one page, and answers its text."""
    tally.begin(str(name))
    page = (TOP / name).read_text()
    check_paths(tally, page, (TOP / name).parent)
    check_anchors(tally, page, TOP / name)
    tally.equal(f"sentences of more than {MOST_WORDS} words", long_sentences(page), [])
    if name in TOLD_RUNS:
        check_figures(tally, page, TOLD_RUNS[name])
    if name in promises.PAGES:
        unknown = promises.unknown_names(page)
        tally.check("the crates have what it cites", not unknown, "\n".join(unknown))
    return page


def check_figures(tally: Tally, page: str, told: str) -> None:
    """The seconds and the memory of three days, by this program and by the plain one, as measured."""
    measured, found = MEASURED_RUN.search((TOP / "docs/MEASURED.md").read_text()), re.search(told, page)
    figures = [float(number) for number in measured.groups()] if measured else []
    due = [f"{figures[at] / (1 if at < 2 else 1000):.{1 if at < 2 else 2}f}" for at in (0, 2, 1, 3)] if figures else []
    tally.equal("what a run takes", [number.replace(",", ".") for number in found.groups()] if found else [], due)


def check_page(tally: Tally, name: Path) -> None:
    """Tests one page, and runs what stands in it in a copy of the repository."""
    page = check_links(tally, name)
    blocks = [block for block in blocks_of(page) if block.runs()]
    in_blocks = {run.line for block in blocks for run in block.runs()}
    for number, text in enumerate(page.splitlines(), start=1):
        if re.match(r"\s*\$ ", text) and number not in in_blocks:
            tally.check(f"line {number} stands in a block", False, text)
    if not blocks:
        return
    with scratch() as top:
        environment = copy_repository(top)
        folder = top / name.parent if name.parts[0] == "examples" else top
        for block in blocks:
            runs = block.runs()
            for each, output in zip(runs, outputs_of(runs, folder, environment), strict=True):
                seen = f"{each.shown}  but printed\n{output}"
                tally.check(f"line {each.line}: {each.command}", is_as_shown(output, each.shown), seen)


def check_paths(tally: Tally, page: str, folder: Path) -> None:
    """What the page links to, from its own folder, and the paths that it names, from the top, below `crates`, or below
    some crate."""
    paths = {folder / link for link, _ in LINK.findall(page) if link} | {TOP / path for path in PATH.findall(page)}
    paths |= {TOP / "crates" / path for path in CRATE_PATH.findall(page) if ANY_NAME not in path}
    for path in sorted(paths):
        tally.check(f"{os.path.relpath(path, TOP)} is there", path.exists())
    for path in sorted(path for path in set(SHORT_PATH.findall(page)) if ANY_NAME not in path):
        tally.check(f"some crate has {path}", any((TOP / "crates").glob(f"*/{path}")))


def check_anchors(tally: Tally, page: str, path: Path) -> None:
    """A link to a part of a page leads to a heading of it."""
    for link, anchor in sorted(set(LINK.findall(page))):
        target = path.parent / link if link else path
        if anchor and target.exists():
            tally.check(f"{link}#{anchor} is a heading", anchor in anchors_of(target.read_text()))


def anchors_of(page: str) -> set[str]:
    """What links to the headings of a page: small letters, without signs, and lines for blanks."""
    return {re.sub(r"[^\w -]", "", heading.lower()).replace(" ", "-") for heading in HEADING.findall(page)}


def copy_repository(top: Path) -> dict[str, str]:
    """Copies what pages speak of; `parcours` there, and found by its name, is the program that is tested."""
    for name in COPIED:
        if (TOP / name).is_dir():
            shutil.copytree(TOP / name, top / name, ignore=shutil.ignore_patterns("__pycache__"))
        elif (TOP / name).exists():
            shutil.copy(TOP / name, top / name)
    (top / "parcours").symlink_to(program())
    return {**os.environ, "PARCOURS": program(), "PATH": f"{top}:{os.environ['PATH']}", "LC_ALL": "C.UTF-8"}


def pages() -> list[Path]:
    found = [TOP / name for name in ("README.md", "LISEZMOI.md") if (TOP / name).exists()]
    for folder in ("docs", "examples"):
        found += sorted((TOP / folder).rglob("*.md"))
    return [page.relative_to(TOP) for page in found]


def main(given: list[str]) -> int:
    words = Words(
        "check_pages.sh",
        "Runs what stands behind $ in the README, in docs/ and in examples/, and compares what is printed with the "
        "bytes below it. They run with the program that PARCOURS names in the environment, else with the script "
        "parcours, which builds the program first where it is not built, and that takes long. What a page links to, or "
        "names as a path, must be there, and so must the clauses that PROMISES and FAILURES cite. No sentence may have "
        f"more than {MOST_WORDS} words. The last line is `N passed, M failed`.",
        "Status: 0 all passed, 1 some failed, 2 bad words.")
    words.add_argument("--links", action="store_true",
                       help="test links, paths and clauses alone, which needs no program")
    return until_told(partial(check_pages, words.of(given).links))


def check_pages(has_links_alone: bool) -> int:
    if not has_links_alone:
        # The script `parcours` says so where it has to build first: that is no part of a page.
        try:
            subprocess.run([program(), "order"], cwd=TOP / "examples/two-groups", stdout=subprocess.DEVNULL, check=True)
        except (OSError, subprocess.CalledProcessError):
            print(f"FAILED {program()} does not run\n0 passed, 1 failed")
            return 1
    tally = Tally()
    for page in pages():
        tally.run(partial(check_links if has_links_alone else check_page, tally, page))
    print(f"{tally.passed} passed, {tally.failed} failed")
    return 0 if tally.failed == 0 and tally.passed > 0 else 1
