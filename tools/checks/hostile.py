"""A hostile round of each tool: no argument, odd ones, folders missing or taken, slots and lines that are none."""

import ast
import os
import re
import shutil
import sys
from pathlib import Path

from .harness import DATA, EXAMPLES, TOOLS, Ended, Tally, contents, executable, run, scratch

BLANK = EXAMPLES / "blank"
LONG_NAME = "x" * 300
# These share nothing with the other tools, so that they can be trusted by themselves.
ALONE = ("recheck", "audit_day")

BAD_NUMBERS = ("abc", "1 000", "0", "1000001", "-5", "1e3", "", "12.0", "99999999999999999999")
BAD_WORDS = (
    ("prepare",), ("prepare", "one"), ("prepare", "a", "b", "c"), ("prepare", "a", "b", "--dates", "year-first"),
    ("prepare", "a", "b", "--date", "day-first"), ("prepare", "", "b"), ("prepare", "a", ""), ("next_day", ""),
    ("next_day",), ("next_day", "a", "b"), ("next_day", "a", "--start", "2026-06-02"), ("next_day", "a", "--term", "1"),
    *(("next_day", "a", "--start", date, "--term", "1")
      for date in ("2026-02-30", "20260602", "2026-W10-1", "1900-06-02", "soon")),
    *(("next_day", "a", "--start", "2026-06-02", "--term", term) for term in ("367", "-1", "")),
    ("in_words", "de"), ("in_words", "en", "fr"), ("in_words", "--helpp"), ("why",), ("why", "a"), ("why", "", "1"),
    ("why", "a", "fr"), ("tables",), ("tables", "a"), ("tables", "", "b"), ("tables", "a", "b", "--lang", "de"),
    ("take_in",), ("take_in", "a"), ("take_in", "a", "b", "--term", "1"), ("take_in", "a", "b", "--column", "x"),
    ("prepare", "a", "b", "--column", "x=y"), ("prepare", "a", "b", "--rates", "half"), ("install", "a", "b"),
    ("write_sample.sh",), ("write_sample.sh", "5"), ("write_sample.sh", "5", "x", "2", "y"),
    *(("write_sample.sh", number, "x") for number in BAD_NUMBERS),
    ("write_sample.sh", "5", "x", "many"), ("write_sample.sh", "5", "x", "-1"),
    ("shapes.sh", "round"), ("shapes.sh", "quits", "--runs", "0"), ("shapes.sh", "--beside"),
    ("measure.sh", "fly"), ("measure.sh", "--runs", "0"), ("measure.sh", "--candidates", "1000"),
    ("check_pages.sh", "README.md"), ("check_pages.sh", "--link"), ("edit_clauses", "--tried"),
    ("edit_clauses", "none"), ("same_lemmas.py", "--what"), ("laws_without_witness.py", "--lists"),
    ("memory_answers.py", "--list"),
    ("prove.py",), ("prove.py", "--version"), ("prove.py", "next_slot"), ("prove.py", "crates/next_slot"),
    ("break_lines.py", "none"), ("build_twice.sh", "3"), ("build_twice.sh", "--keep"),
)


def refused(tally: Tally, name: str, ended: Ended, status: int) -> None:
    """The tool ended with the status, and with a message and no trace of its own."""
    told = ended.complaint.strip() != "" and "Traceback" not in ended.complaint
    tally.check(name, ended.status == status and told, ended)


def check_words(tally: Tally) -> None:
    tally.begin("words that a tool does not know")
    for tool, *words in BAD_WORDS:
        with scratch() as folder:
            ended = run(TOOLS / tool, *words, folder=folder)
            refused(tally, f"{tool} {' '.join(words)}", ended, 2)
            # (else argparse says it, with the name of a function of this code)
            is_own = re.search("invalid (?!choice|int|float)", ended.complaint) is None
            tally.check(f"{tool} {' '.join(words)}: what is told", is_own, ended)
            tally.equal(f"{tool} {' '.join(words)}: nothing is written", list(folder.iterdir()), [])


def check_help(tally: Tally) -> None:
    """Each tool prints its help and its version, and does nothing else."""
    tally.begin("help and versions of all tools")
    tools = [path for path in sorted(TOOLS.iterdir())
             if path.is_file() and os.access(path, os.X_OK) and path.suffix != ".py"]
    tools += [TOOLS / name for name in ("prove.py", "same_lemmas.py", "laws_without_witness.py",
                                   "memory_answers.py", "break_lines.py")]
    tally.check("there are many", len(tools) > 10, tools)
    for tool in tools:
        with scratch() as folder:
            for word in ("--help", "-h") if tool.name in ALONE else ("--help", "-h", "help"):
                ended = run(*([sys.executable] if tool.suffix == ".py" else []), tool, word, folder=folder)
                told = ended.output.decode().splitlines()
                is_page = ended.status == 0 and ended.complaint == "" and tool.name in ended.output.decode()
                is_narrow = max(map(len, told), default=0) <= 80
                tally.check(f"{tool.name} {word}", is_page and is_narrow, ended)
            if tool.suffix != ".py" and tool.name not in ALONE:
                ended = run(tool, "--version", folder=folder)
                is_told = ended.output.startswith(b"%s, parcours " % tool.name.encode()) and b"commit" in ended.output
                tally.check(f"{tool.name} --version", ended.status == 0 and is_told, ended)
            tally.equal(f"{tool.name}: nothing is written", list(folder.iterdir()), [])


def check_old_python(tally: Tally) -> None:
    """A Python that is too old gets a sentence: what starts the tools knows no new word of the language."""
    tally.begin("Python that is too old")
    started = (TOOLS / "dossier/starting.py").read_text()
    ast.parse(started, feature_version=(3, 4))
    for tool in ("prepare", "next_day", "in_words", "why", "tables", "take_in", "install"):
        ast.parse((TOOLS / tool).read_text(), feature_version=(3, 4))
    old = "import sys; sys.version_info = (3, 9, 2); sys.argv = ['why', 'a']; " \
        "from dossier.starting import start; start('why', 'dossier.explaining')"
    ended = run(sys.executable, "-B", "-c", old, environment={"PYTHONPATH": str(TOOLS)})
    refused(tally, "the sentence", ended, 3)
    tally.check("what it says", "needs Python 3.10 or later, and this is 3.9" in ended.complaint, ended)


def check_folders(tally: Tally) -> None:
    tally.begin("folders that are missing or taken")
    with scratch() as folder:
        (folder / "taken").mkdir()
        (folder / "taken/groups.csv").write_text("mine\n")
        (folder / "file").write_text("mine\n")
        prepare, next_day, sample = TOOLS / "prepare", TOOLS / "next_day", TOOLS / "write_sample.sh"
        refused(tally, "prepare: no exports", run(prepare, "none", "new", folder=folder), 3)
        refused(tally, "prepare: the exports are a file", run(prepare, "file", "new", folder=folder), 3)
        refused(tally, "prepare: the new folder is taken", run(prepare, BLANK, "taken", folder=folder), 3)
        refused(tally, "prepare: a file is in its place", run(prepare, BLANK, "file", folder=folder), 3)
        refused(tally, "prepare: its parent is missing", run(prepare, BLANK, "none/new", folder=folder), 3)
        refused(tally, "prepare: a long name", run(prepare, LONG_NAME, "new", folder=folder), 3)
        refused(tally, "prepare: a long name for what is new", run(prepare, BLANK, LONG_NAME, folder=folder), 3)
        refused(tally, "next_day: a long name", run(next_day, LONG_NAME, folder=folder), 3)
        refused(tally, "prepare: no export", run(prepare, make(folder / "empty"), "new", folder=folder), 1)
        refused(tally, "next_day: no folder", run(next_day, "none", folder=folder), 3)
        refused(tally, "next_day: a file", run(next_day, "file", folder=folder), 3)
        refused(tally, "next_day: no slots", run(next_day, make(folder / "no slots"), folder=folder), 3)
        refused(tally, "write_sample.sh: slots are there", run(sample, "5", "taken", folder=folder), 1)
        refused(tally, "write_sample.sh: a file is in its place", run(sample, "5", "file", folder=folder), 1)
        refused(tally, "write_sample.sh: below a file", run(sample, "5", "file/new", folder=folder), 1)
        tally.equal("what was there is as before", contents(folder), {"taken/groups.csv": b"mine\n", "file": b"mine\n"})
        tally.equal("a folder whose name looks like an option", run(sample, "5", "-v", folder=folder).status, 0)


def check_taken_meanwhile(tally: Tally) -> None:
    """A folder that another call makes meanwhile is told as such, is left as it is, and is called nobody else's."""
    tally.begin("new folders that another call makes meanwhile")
    makes = "import os, sys; from dossier import {module} as tool, writing; rename = os.rename\n" \
        "def late(fresh, folder): os.mkdir(folder); open(f'{{folder}}/other', 'w').close(); rename(fresh, folder)\n" \
        "writing.os.rename = late; sys.exit(tool.main(sys.argv[1:]))"
    with scratch() as place:
        for tool, module, source in (("prepare", "preparing", BLANK), ("tables", "tabling", EXAMPLES / "kept")):
            ended = run(sys.executable, "-B", "-c", makes.format(module=module), source, place / tool,
                        environment={"PYTHONPATH": str(TOOLS)})
            tally.equal(tool, ended, Ended(3, b"", f"{tool}: {place / tool} is there already; name a new folder.\n"))
            tally.equal(f"{tool}: it is the other's", contents(place / tool), {"other": b""})
        tally.equal("nothing else is left", sorted(path.name for path in place.iterdir()), ["prepare", "tables"])


def check_names(tally: Tally) -> None:
    """Names that a terminal cannot show are no reason to end oddly; files of a system are passed over."""
    tally.begin("names of files that are odd")
    with scratch() as folder:
        exports = folder / "exports"
        shutil.copytree(BLANK, exports)
        (exports / "wishes.csv").rename(exports / "vœux.csv")
        for name in ("~$groups.csv", "._groups.csv", ".hidden.csv"):
            (exports / name).write_bytes(b"\0\1")
        for number, encoding in enumerate(("ascii", "latin-1", "utf-8")):
            ended = run(TOOLS / "prepare", "exports", f"new-{number}", folder=folder,
                        environment={"PYTHONIOENCODING": encoding})
            tally.check(f"a terminal of {encoding}", (ended.status, ended.complaint) == (0, ""), ended)
            tally.equal(f"a terminal of {encoding}: slots", contents(folder / f"new-{number}"), contents(BLANK))
        for tool, *words in (("next_day",), ("why", "1"), ("tables", "-tables"), ("take_in", "-dossier/answers.csv")):
            shutil.copytree(EXAMPLES / "two-days", folder / "-dossier", dirs_exist_ok=True)
            ended = run(TOOLS / tool, "--", "-dossier", *words, folder=folder)
            tally.check(f"{tool}: a name behind `--` that begins with a hyphen", ended.status == 0, ended)
        (folder / "link").symlink_to("nowhere")
        refused(tally, "a link to nothing", run(TOOLS / "prepare", "exports", "link", folder=folder), 3)


def make(folder: Path) -> Path:
    folder.mkdir()
    return folder


def check_broken_dossiers(tally: Tally) -> None:
    tally.begin("next_day, dossiers that are not as the tool left them")
    for name, text in (("campaign.csv", "day,date,term\nsoon,,\n"), ("campaign.csv", ""),
                       ("campaign.csv", "day,date,term\n2,2026-06-02,\n"), ("state.csv", "wish;status\n"),
                       ("groups.csv", ""), ("answers.csv", "day,kind,target\n1,accept\n"),
                       ("groups.csv", f"group,scholar_pct,resident_pct\n1,20,{'0' * 200_000}\n")):
        with scratch() as place:
            folder = place / "dossier"
            shutil.copytree(BLANK, folder)
            (folder / name).write_text(text)
            before = contents(folder)
            ended = run(TOOLS / "next_day", folder)
            tally.check(f"{name}: {text[:60]!r}", ended.status in (1, 3) and "Traceback" not in ended.complaint, ended)
            tally.equal(f"{name}: nothing has changed", contents(folder), before)
    with scratch() as place:
        folder = place / "dossier"
        shutil.copytree(BLANK, folder)
        for name, named in (("that is not there", "/nowhere/parcours"), ("that may not be run", str(folder / "state.csv")),
                            ("of another machine", executable(place / "other", "\x7fELF"))):
            ended = run(TOOLS / "next_day", folder, environment={"PARCOURS": named})
            refused(tally, f"a program {name}", ended, 125)


def check_pipes(tally: Tally) -> None:
    """A named pipe in the place of a file is told, and not waited for."""
    tally.begin("named pipes in the place of files")
    with scratch() as place:
        shutil.copytree(EXAMPLES / "lycee/slots", place / "dossier")
        for words in (("next_day", "dossier"), ("why", "dossier", "V01"), ("tables", "dossier", "tables"),
                      ("take_in", "dossier", EXAMPLES / "lycee/exports/reponses.csv")):
            for name in ("wishes.csv", "ids.csv", "campaign.csv"):
                path, kept = place / "dossier" / name, place / name
                if path.exists():
                    path.rename(kept)
                os.mkfifo(path)
                ended = run(TOOLS / words[0], *words[1:], folder=place)
                refused(tally, f"{words[0]}: {name}", ended, 3)
                tally.check(f"{words[0]}: {name} is told", f"{name} is no file" in ended.complaint, ended)
                path.unlink()
                if kept.exists():
                    kept.rename(path)
        os.mkfifo(place / "sheet.csv")
        for words in (("take_in", "dossier", "sheet.csv"), ("tables", "dossier", "tables", "--names", "sheet.csv")):
            ended = run(TOOLS / words[0], *words[1:], folder=place)
            tally.check(f"{words[0]}: a sheet", ended.status == 3 and "sheet.csv is no file" in ended.complaint, ended)


def check_lines(tally: Tally) -> None:
    tally.begin("in_words, what is no line of explain")
    lines = [f"{line}\n".encode() for line in (DATA / "no_lines.txt").read_text().split("\n")[:-1]]
    line = b"wish 7 gone quit day 2 pass 0"
    odd = (b"", b"\n", line, line[:-9], line + b"\n" + line + b"\n", line + b"\n\n", b"\xff\xfe\n", line * 1000,
           b"\0" * 2000)
    for given in (*lines, *odd):
        refused(tally, repr(given[:60]), run(TOOLS / "in_words", given=given), 1)
    tally.equal("a line that came through another system", run(TOOLS / "in_words", given=line + b"\r\n").status, 0)
