"""The script `parcours`, in a tree of its own with a stand-in for the program and for its builder."""

import os
import pty
import shutil
import signal
import subprocess
import time
from pathlib import Path
from random import Random

from .harness import EXAMPLES, TOOLS, TOP, Ended, Tally, run, scratch
from .modes import MODES, words_of
from .runs import binary

STAND_IN = """#!/bin/sh
case $DO in
    sleep*) : > "$0.began"; sleep "${DO#* }"; : > "$0.ended" ;;
    killed) kill -9 $$ ;;
esac
printf '[%s]' "$@"
case $DO in status*) exit "${DO#* }" ;; esac
"""
WORDS = ("sample", "--number", "5")
TOLD = b"[sample][--number][5]"
BUILDER = """import shutil, time
print("built", file=open("{top}/built", "a"))
shutil.os.makedirs("{top}/crates/parcours/out", exist_ok=True)
shutil.copy("{top}/stand_in", "{top}/crates/parcours/out/parcours")
"""
SMALL_TOOLS = ("find", "sort", "xargs", "sha256sum", "cat", "readlink", "dirname", "sleep", "setpriv")
WORDS_SEED, WORD_LISTS = 5, 120
PIECES = (
    ("--days", "2"), ("--days=1",), ("--days", "0002"), ("--picker", "each"), ("--start", "2024-02-29", "--term", "0"),
    ("--term", "366", "--start=1901-01-01"), ("--wish", "0000000007"), ("--number", "5"), ("--days", "366"),
    ("--days", "367"), ("--days",), ("--days=",), ("--picker", "any"), ("--start", "2026-02-29", "--term", "1"),
    ("--start", "2026-6-2"), ("--start", "1900-06-02", "--term=1"), ("--term", "367"), ("--wish", "0"), ("--",), ("-",),
    ("",), ("-d",), ("--help=1",), ("--Days", "1"), ("--wish", "12345678901"), ("--number", "1000001"), ("é",),
    ("--school", "2000000001"), ("--days", "--picker", "last"), ("order replay",),
)


def make_tree(folder: Path) -> Path:
    """A repository with the script, one crate, and a builder that copies the stand-in; answers the script's path."""
    top = folder / "tree"
    for name in ("src", "specs", "proofs"):
        (top / "crates/parcours" / name).mkdir(parents=True)
        (top / "crates/parcours" / name / "main.rt").write_text("fn main() {}\n")
    (top / "crates.txt").write_text("parcours\n")
    (top / "tools").mkdir()
    for name in ("help.txt", "version.txt", "modes.txt"):
        shutil.copy(TOOLS / name, top / "tools")
    (top / "tools/prove.py").write_text(BUILDER.format(top=top))
    shutil.copy(TOP / "parcours", top)
    (top / "bin").mkdir()
    for path, text in ((top / "stand_in", STAND_IN), (top / "bin/rt", "#!/bin/sh\n")):
        path.write_text(text)
        path.chmod(0o755)
    return top / "parcours"


def environment_of(script: Path) -> dict[str, str]:
    return {**os.environ, "PATH": f"{script.parent / 'bin'}:{os.environ['PATH']}"}


def call(script: Path, *words: str, do: str = "", folder: Path | None = None, path: str | None = None,
         output: int = subprocess.PIPE) -> Ended:
    """Calls the script, whose stand-in for the program does what it is told to."""
    environment = environment_of(script) if path is None else {"PATH": path}
    return run(script, *(words or WORDS), folder=folder or script.parent, environment={**environment, "DO": do},
               output=output)


def check_statuses(tally: Tally, script: Path) -> None:
    odd = ("a", "b  c", "", "*", "--days=2")
    ended = call(script, *odd)
    tally.equal("words go to the program as they are", ended.output.decode(), "".join(f"[{word}]" for word in odd))
    with scratch() as place, open(place / "text", "wb") as file:
        for status, sentence in ((0, ""), (1, ""), (2, ""), (3, "could not be read"), (4, "cut"), (5, "memory ran out"),
                                 (6, ""), (7, "")):
            ended = call(script, do=f"status {status}", output=file.fileno())
            tally.equal(f"status {status} comes back", ended.status, status)
            is_told = sentence in ended.complaint and bool(sentence) == bool(ended.complaint)
            tally.check(f"status {status} is told", is_told, ended)
    ended = call(script, do="killed")
    tally.check("killed", ended.status == 137 and "killed" in ended.complaint, ended)
    ended = call(script, do="status 4")
    tally.equal("the reader of a pipe has gone", (ended.status, ended.complaint), (-signal.SIGPIPE, ""))
    tally.equal("it was built once", (script.parent / "built").read_text().split(), ["built"])


def check_unreadable(tally: Tally, script: Path) -> None:
    """Before the run the first slot that cannot be read is told, with the system's reason."""
    with scratch() as place:
        folder = place / "dossier"
        shutil.copytree(EXAMPLES / "blank", folder)
        schools, groups = folder / "schools.csv", folder / "groups.csv"
        schools.unlink()

        def told(words: str, *parts: str) -> None:
            ended = call(script, *words.split(), do="status 3", folder=folder)
            is_told = all(part in ended.complaint for part in parts) and ended.complaint.count("\n") == 1
            tally.check(f"{words}: {', '.join(parts)}", ended.status == 3 and is_told, ended)

        told("replay", "schools.csv cannot be read", "No such file or directory")
        schools.symlink_to("schools.csv")
        told("replay", "schools.csv cannot be read", "Too many levels of symbolic links")
        schools.unlink()
        schools.mkdir()
        told("replay", "schools.csv cannot be read", "Is a directory")
        told("order", "a slot could not be read to its end")
        groups.unlink()
        told("replay", "groups.csv cannot be read")
        shutil.copy(EXAMPLES / "blank/groups.csv", folder)
        (folder / "rankings.csv").unlink()
        told("order", "rankings.csv")
        for name in ("schools.csv", "rankings.csv"):
            if (folder / name).is_dir():
                (folder / name).rmdir()
            shutil.copy(EXAMPLES / "blank" / name, folder)
        told("check", "chain.txt")
        (folder / "state.csv").unlink()
        told("market", "a slot could not be read to its end")
        told("replay", "state.csv")
        if os.geteuid() != 0:
            groups.chmod(0)
            told("order", "groups.csv", "Permission denied")
            groups.chmod(0o600)


def check_pipe(tally: Tally, script: Path) -> None:
    with scratch() as place:
        shutil.copytree(EXAMPLES / "blank", place / "dossier")
        groups = place / "dossier/groups.csv"
        groups.unlink()
        os.mkfifo(groups)
        ended = call(script, "order", folder=place / "dossier")
        tally.check("a pipe", ended.status == 0 and "groups.csv is a named pipe" in ended.complaint, ended)


def check_folder(tally: Tally, script: Path) -> None:
    """With -C it runs in another folder; in one that next_day keeps it says of which day `explain` speaks."""
    with scratch() as place:
        ended = call(script, "-C", "none", "sample", folder=place)
        is_told = ended.status == 3 and "'none' cannot be entered: No such file" in ended.complaint
        tally.check("a folder that is not there", is_told and ended.output == b"", ended)
        for words in (("-C",), ("-C", "")):
            ended = call(script, *words, folder=place)
            tally.check(f"{words}", ended.status in (2, 3) and ended.complaint != "" and not ended.output, ended)
        kept = place / "one/two"
        shutil.copytree(EXAMPLES / "blank", kept)
        words = ("explain", "--wish", "1")
        ended = call(script, "-C", "one", "-C", "two", *words, folder=place)
        tally.equal("no day was made", (ended.output, ended.complaint), (b"[explain][--wish][1]", ""))
        (kept / "campaign.csv").write_text("day,date,term\n2,,\n")
        (kept / "days").mkdir()
        ended = call(script, "-C", kept, *words, folder=place)
        tally.check("a day was made", ended.status == 0 and "still to come" in ended.complaint, ended)
        tally.equal("replay says nothing of it", call(script, "-C", kept, "replay").complaint, "")


def check_words(tally: Tally, script: Path) -> None:
    """What is wrong with the words is said exactly where the program answers `bad words`."""
    program = script.parent / "crates/parcours/out/parcours"
    stand_in = program.rename(program.with_suffix(".stand_in"))
    shutil.copy(binary(), program)
    random = Random(WORDS_SEED)
    named = [*(words_of(mode, {}, (), random) for mode in MODES.values()), ("explain",)]
    wrong = 0
    for number in range(WORD_LISTS):
        pieces = [*random.choices(named, k=random.choice((1, 1, 1, 1, 0, 2))),
                  *random.sample(PIECES, random.randint(0, 2))]
        words = [word for piece in random.sample(pieces, len(pieces)) for word in piece]
        ended = run(script, *words, folder=EXAMPLES / "two-days", environment=environment_of(script))
        is_bad = ended.output == b"bad words\n"
        wrong += is_bad
        tally.equal(f"{words}", (is_bad, ended.status == 2), ("parcours: bad words: " in ended.complaint, is_bad))
    tally.check("both are among them", 20 < wrong < WORD_LISTS - 20, wrong)
    for words, sentence in (
        (("replya",), "there is no mode 'replya'"), (("replay", "--day", "2"), "there is no option '--day'"),
        (("replay", "--days", "0"), "--days is a number from 1 to 366, and '0'"),
        (("explain",), "explain needs --wish"),
        (("replay", "--start", "2026-02-30", "--term", "1"), "'2026-02-30'"), (("replay", "--days"), "has no value"),
        (("replay", "--start", "2026-06-02"), "together"), (("replay", "chain"), "two modes"),
        (("replay", "--days", "1", "--days=1"), "given twice"),
    ):
        ended = call(script, *words, folder=EXAMPLES / "two-days")
        tally.check(f"{words}", sentence in ended.complaint and ended.status == 2, ended)
    stand_in.rename(program)


def check_small_tools(tally: Tally, script: Path) -> None:
    for missing in SMALL_TOOLS:
        with scratch() as tools:
            for tool in ("sh", *SMALL_TOOLS):
                if tool != missing:
                    (tools / tool).symlink_to(str(shutil.which(tool)))
            ended = call(script, path=str(tools))
            known = missing in ("sleep", "setpriv") and ended.complaint == ""
            tally.check(f"without {missing}: told or not needed", known or missing in ended.complaint, ended)
            tally.check(f"without {missing}: run, or not found", ended.status in (0, 125), ended)
    tally.equal("nothing was built for it", (script.parent / "built").read_text().split(), ["built"])


def check_help(tally: Tally, script: Path) -> None:
    page = (TOOLS / "help.txt").read_text()
    tally.check("at most 80 columns", max(map(len, page.splitlines())) <= 80)
    program = script.parent / "crates/parcours/out/parcours"
    hidden = program.rename(program.with_suffix(".away"))
    for words in (("--help",), ("-h",), ("help",), ("replay", "--help"), ("-C", "/", "help")):
        ended = call(script, *words)
        tally.equal(f"{words}", (ended.status, ended.output.decode(), ended.complaint), (0, page, ""))
    ended = call(script, "--version")
    kit = run("rt", "version").output if shutil.which("rt") else b""
    commit = run("git", "rev-parse", "HEAD", folder=script.parent)
    lines = ended.output.decode().splitlines()
    tally.equal("version", lines[:1], [f"parcours {(TOOLS / 'version.txt').read_text().strip()}"])
    is_whole = ended.status == 0 and len(lines) == 3 and lines[1].startswith("commit ")
    tally.check("commit and kit", is_whole, (ended, commit))
    tally.check("the script of this repository", kit in run(TOP / "parcours", "--version").output, kit)
    hidden.rename(program)
    tally.equal("nothing was built for it", (script.parent / "built").read_text().split(), ["built"])


def check_long_runs(tally: Tally, script: Path) -> None:
    """On a terminal a long run says so; elsewhere it is silent; a signal to the script ends the program."""
    ours, theirs = pty.openpty()
    environment = environment_of(script)
    environment["DO"] = "sleep 8"
    with subprocess.Popen([script, *WORDS], stdout=subprocess.PIPE, stderr=theirs, env=environment) as process:
        os.close(theirs)
        output = process.communicate()[0]
    tally.equal("the output is as it was", output, TOLD)
    tally.check("the terminal", os.read(ours, 1000).startswith(b"parcours: running for 5 s\r\n"))
    os.close(ours)
    check_quick_runs(tally, script)
    tally.equal("no terminal", call(script, do="sleep 6").complaint, "")
    for number in (signal.SIGTERM, signal.SIGKILL):
        check_signal(tally, script, number)


def check_signal(tally: Tally, script: Path, number: signal.Signals) -> None:
    """However the script ends, the program ends with it, at once."""
    began, ended = (script.parent / f"crates/parcours/out/parcours.{name}" for name in ("began", "ended"))
    for mark in (began, ended):
        mark.unlink(missing_ok=True)
    environment = {**environment_of(script), "DO": "sleep 4"}
    with subprocess.Popen([script, *WORDS], stdout=subprocess.PIPE, env=environment) as process:
        deadline = time.monotonic() + 20
        while not began.exists() and time.monotonic() < deadline:
            time.sleep(0.05)
        process.send_signal(number)
        begun = time.monotonic()
        tally.equal(f"{number.name}: stopped", process.wait(), 143 if number == signal.SIGTERM else -number)
        tally.check(f"{number.name}: at once", time.monotonic() - begun < 2)
    time.sleep(4)
    tally.check(f"{number.name}: the program did not go on", not ended.exists())


def check_long_builds(tally: Tally) -> None:
    """On a terminal a long build says so too, and nothing more once it has ended."""
    with scratch() as folder:
        script = make_tree(folder)
        script.write_text(script.read_text().replace("building 30", "building 1"))
        builder = script.parent / "tools/prove.py"
        builder.write_text(builder.read_text() + "time.sleep(2.5)\n")
        ours, theirs = pty.openpty()
        environment = environment_of(script)
        with subprocess.Popen([script, *WORDS], stdout=subprocess.PIPE, stderr=theirs, env=environment) as process:
            os.close(theirs)
            begun = time.monotonic()
            tally.equal("the output of a run that is built first", process.communicate(timeout=60)[0], TOLD)
            tally.check("its end is not held up", time.monotonic() - begun < 20)
        told = os.read(ours, 1000).decode().splitlines()
        os.close(ours)
        # A busy machine may need some seconds more.
        tally.equal("the terminal", told, [f"parcours: building for {s} s" for s in range(1, len(told) + 1)])
        tally.check("the terminal, how often", len(told) > 1, told)


def check_real_program(tally: Tally, script: Path) -> None:
    """The program itself through the script: a whole text, no slot, a disk that is full, a reader that goes."""
    program = script.parent / "crates/parcours/out/parcours"
    stand_in = program.rename(program.with_suffix(".stand_in"))
    shutil.copy(binary(), program)
    with scratch() as place:
        groups = EXAMPLES / "two-groups"
        ended = call(script, "order", folder=groups)
        tally.equal("order", (ended.status, ended.output), (0, (groups / "order.txt").read_bytes()))
        ended = call(script, "order", folder=place)
        is_told = ended.status == 3 and "groups.csv cannot be read" in ended.complaint
        tally.check("no slot", is_told and ended.output == b"read fault groups\n", ended)
        with open("/dev/full", "wb") as full:
            ended = call(script, "order", folder=groups, output=full.fileno())
        tally.check("a full disk", ended.status == 4 and "it is cut" in ended.complaint, ended)
        run(TOOLS / "write_sample.sh", "20000", place / "sample")
        piped = run("sh", "-c", f"'{script}' order | head -n 1", folder=place / "sample")
        is_quiet = piped.complaint == "" and piped.output.count(b"\n") == 1
        tally.check("a reader that goes", is_quiet and piped.output.startswith(b"order 1:"), piped.complaint)
    stand_in.rename(program)


def check_quick_runs(tally: Tally, script: Path) -> None:
    """On a terminal, runs that end at once are not held up by what would say how long they go on."""
    ours, theirs = pty.openpty()
    begun = time.monotonic()
    for _ in range(20):
        call = subprocess.run([script, *WORDS], stdout=subprocess.PIPE, stderr=theirs, env=environment_of(script),
                              timeout=60, check=False)
        tally.equal("a quick run", call.stdout, TOLD)
    tally.check("quick runs end at once", time.monotonic() - begun < 40)
    for end in (ours, theirs):
        os.close(end)


def check_changed_sources(tally: Tally, script: Path) -> None:
    (script.parent / "crates/parcours/src/main.rt").write_text("fn main() { }\n")
    ended = call(script)
    tally.equal("changed sources are built", ended.status, 0)
    tally.equal("once more", (script.parent / "built").read_text().split(), ["built"] * 2)
    tally.equal("sources as they were", (call(script).status, (script.parent / "built").read_text().split()),
                (0, ["built"] * 2))
    (script.parent / "crates/parcours/src/main.rt").write_text("fn main() {   }\n")
    os.utime(script.parent / "crates/parcours/src/main.rt", (0, 0))
    tally.equal("a source with an old time", (call(script).status, (script.parent / "built").read_text().split()),
                (0, ["built"] * 3))
    (script.parent / "crates/parcours/src/main.rt").write_text("fn main() {  }\n")
    for words, sentence in ((("replay", "--day", "2"), "bad words"), (("replay",), "cannot be read")):
        ended = call(script, *words)
        is_told = sentence in ended.complaint and "not built" in ended.complaint
        tally.check(f"{words}: nothing is built for it", ended.status == 125 and is_told and not ended.output, ended)
    (script.parent / "stand_in").unlink()
    ended = call(script)
    tally.check("a program that cannot be built", ended.status == 125 and "not built" in ended.complaint, ended)
    (script.parent / "tools/prove.py").write_text("raise SystemExit(1)\n")
    ended = call(script)
    tally.check("a crate that is not proved", ended.status == 125 and "not proved" in ended.complaint, ended)
    (script.parent / "tools/prove.py").write_text((TOOLS / "prove.py").read_text())
    for text, name in ((None, "another program that is called rt"), ("KIT = '/x'\n", "another kit")):
        if text is not None:
            (script.parent / "bin/rtlib.py").write_text(text)
        ended = call(script, *WORDS)
        is_told = "is not of a kit that this knows" in ended.complaint and "another one, or no kit" in ended.complaint
        tally.check(name, ended.status == 125 and is_told and "Traceback" not in ended.complaint, ended)
    (script.parent / "bin/rtlib.py").unlink()
    (script.parent / "tools/prove.py").write_text("import os\nos.kill(os.getpid(), 15)\n")
    ended = call(script)
    tally.check("a build that is stopped", ended.status == 125 and "was stopped" in ended.complaint, ended)
    with scratch() as tools:
        for tool in ("sh", "mkdir", "rm", *SMALL_TOOLS):
            (tools / tool).symlink_to(str(shutil.which(tool)))
        (tools / "rt").symlink_to(script.parent / "bin/rt")
        ended = call(script, path=str(tools))
        tally.check("without python3", ended.status == 125 and "python3 is missing" in ended.complaint, ended)


def check_script(tally: Tally) -> None:
    tally.begin("the script parcours")
    with scratch() as folder:
        script = make_tree(folder)
        call(script)
        for checks in (check_statuses, check_unreadable, check_pipe, check_folder, check_words, check_small_tools,
                       check_help, check_long_runs, check_real_program, check_changed_sources):
            tally.run(lambda: checks(tally, script))
    tally.run(lambda: check_long_builds(tally))
