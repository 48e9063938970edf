"""Does `recheck` see? Right reports, by every picker, pass; changed ones are refused at their line.

`check.sh` makes some hundreds of each; `python3 -m checks.rechecking --help`, in `tools`, tells the words of longer
rounds. What is right and what is wrong, the program says (`reports`).
"""

import argparse
import ast
import importlib.machinery
import importlib.util
import os
import re
import shutil
import sys
import time
from collections import Counter
from dataclasses import dataclass
from datetime import date
from pathlib import Path
from random import Random
from types import ModuleType

from dossier.program import program as program_named

from .crowded import Crowd, crowd, other_dossier
from .harness import EXAMPLES, TOOLS, Tally, run, scratch, tell, until_told
from .mutations import CHANGES
from .reports import MUTATIONS, Case, Lines, first_wrong, offer_changed, run_text, word
from .runs import all_jobs, put
from .samples import sample_slots

MODES = ("replay", "order", "chain", "market")
PICKERS = ("first", "last", "turn", "each")
SEED = 20260602
RIGHT, WRONG, UNTESTED = "right", "wrong", "untested"
Told = tuple[str, int]


def tool() -> ModuleType:
    """The tool as a module, so that thousands of reports need not start Python each."""
    loader = importlib.machinery.SourceFileLoader("recheck", str(TOOLS / "recheck"))
    spec = importlib.util.spec_from_loader("recheck", loader)
    assert spec
    module = importlib.util.module_from_spec(spec)
    loader.exec_module(module)
    return module


RECHECK = tool()


def told(folder: Path, text: bytes, words: tuple[str, ...]) -> Told:
    """What `recheck` says of a text: right with its lines, wrong with the number of the line, or untested."""
    deadlines = None
    if "--start" in words:
        start, term = (words[words.index(option) + 1] for option in ("--start", "--term"))
        deadlines = RECHECK.Deadlines(date.fromisoformat(start), int(term))
    report = folder / "report"
    report.write_bytes(text)
    try:
        return RIGHT, RECHECK.recheck(str(folder), str(report), deadlines)[1]
    except RECHECK.WrongLine as wrong:
        return WRONG, wrong.number
    except RECHECK.Untested:
        return UNTESTED, 0


class Round:
    """What was tried and what was found, over a number of dossiers from a seed."""

    def __init__(self, tally: Tally, program: str, seed: int) -> None:
        self.tally, self.program, self.seed, self.counts = tally, program, seed, Counter()

    def check(self, kind: str, name: str, holds: bool, seen: object = "") -> None:
        self.counts[kind] += 1
        self.tally.check(f"{name}: {kind}", holds, seen)

    def right_text(self, folder: Path, name: str, words: tuple[str, ...]) -> Lines:
        """The program's own text passes; its lines."""
        status, text = run_text(self.program, words, folder)
        if status > 1:
            return []
        found = told(folder, text, words)
        # In `chain` the line of an unfit answer stands without the days before it, which cannot be tested then.
        is_lone = b" reason 18 " in text and text.count(b"\n") == 1
        mode = next(each for each in words if each in MODES)
        kind = f"{mode}, as it is" + (", refused" if status == 1 else "")
        self.check(kind, name, found == (RIGHT, text.count(b"\n")) or is_lone and found[0] == UNTESTED, found)
        return text.splitlines(keepends=True)

    def changed_text(self, case: Case, name: str, kind: str, lines: Lines) -> None:
        """A changed text is refused at its first wrong line; or it passes, where nothing in it is wrong."""
        if lines == case.lines:
            return
        wrong = first_wrong(case, lines)
        found = told(case.folder, b"".join(lines), case.words)
        expected = (WRONG, wrong) if wrong else (RIGHT, len(lines))
        # A line that is none of a chain hides from the program's `check` what is wrong before it.
        holds = found == expected or bool(wrong) and found[0] == WRONG and found[1] < wrong
        self.counts["refused before its line"] += holds and found != expected
        self.check(kind + ("" if wrong else ", and right all the same"), name, holds, f"{found}, not {expected}")

    def of_crowd(self, number: int, changes: int) -> None:
        """All modes and pickers of a random dossier, and changes of its replay."""
        random = Random(self.seed + number)
        with scratch() as folder:
            slots = folder / "slots"
            asked = crowd(random, self.program, slots)
            name = f"dossier {self.seed + number}"
            for mode in ("order", "market"):
                self.changes(random, Case(slots, (mode,), self.right_text(slots, name, (mode,)), self.program), name,
                             changes // 4)
            lines: Lines = []
            for picker in random.sample(PICKERS, 2 if changes else 1):
                self.right_text(slots, name, (*asked.words("chain"), "--picker", picker))
                lines = self.right_text(slots, name, (*asked.words("replay"), "--picker", picker))
            case = Case(slots, asked.words("replay"), lines, self.program)
            self.changes(random, case, name, changes)
            for _ in range(changes // 2):
                self.of_other_dossier(random, asked, case, name)

    def changes(self, random: Random, case: Case, name: str, number: int) -> None:
        kinds = {**MUTATIONS, "an offer more or less": lambda random, _: offer_changed(random, case)}
        for _ in range(number if case.lines else 0):
            kind, change = random.choice(list(kinds.items()))
            self.changed_text(case, name, kind, change(random, case.lines))

    def of_other_dossier(self, random: Random, asked: Crowd, case: Case, name: str) -> None:
        """The report of a dossier in which one thing is changed: one offer more or less, and all that follows."""
        kind, other = other_dossier(random, asked.dossier)
        with scratch() as folder:
            other.write(folder / "other")
            status, text = run_text(self.program, (*case.words, "--picker", random.choice(PICKERS)), folder / "other")
        if status == 0:
            self.changed_text(case, name, kind, text.splitlines(keepends=True))

    def of_broken_slots(self, number: int, files: dict[str, bytes], words: tuple[str, ...]) -> None:
        """Slots with changed bytes: a refusal passes where it is the program's, and a changed line does not."""
        random = Random(self.seed + number)
        with scratch() as folder:
            for _ in range(random.choice((1, 1, 2, 3))):
                slot = random.choice([name for name in files if name != "chain.txt"])
                files = {**files, slot: random.choice(CHANGES)(files[slot], random)}
            put(files, folder / "slots")
            name = f"broken slots {self.seed + number}, {' '.join(words)}"
            lines = self.right_text(folder / "slots", name, words)
            if lines and word(lines[0]) == b"refused" and b" reason 18 " not in lines[0]:
                row = re.search(rb"\d+", lines[0])
                other = str(int(row.group()) + random.choice((-1, 1))).encode()
                line = lines[0][:row.start()] + other + lines[0][row.end():]
                self.check("another row refused", name, told(folder / "slots", line, words)[0] == WRONG, line)
                self.check("a refusal and more", name, told(folder / "slots", 2 * lines[0], words) == (WRONG, 2), line)


def check_worked(tally: Tally, program: str) -> None:
    """Each text of a worked case passes, and changed ones are refused."""
    tally.begin("recheck: the worked cases, right and changed")
    rounds = Round(tally, program, SEED)
    for number, job in enumerate(all_jobs()):
        if job.mode in MODES:
            with scratch() as folder:
                put(job.files, folder / "slots")
                lines = rounds.right_text(folder / "slots", job.title, job.words)
                if job.mode == "replay" and lines and word(lines[0]) in (b"order", b"day"):
                    rounds.changes(Random(number), Case(folder / "slots", job.words, lines, program), job.title, 4)


def check_random(tally: Tally, program: str, number: int = 80, changes: int = 8, seed: int = SEED) -> Counter:
    """Random dossiers: by every picker right, and changed."""
    tally.begin(f"recheck: {number} random dossiers, right and changed")
    rounds = Round(tally, program, seed)
    for each in range(number):
        rounds.of_crowd(each, changes)
    return rounds.counts


def check_broken(tally: Tally, program: str, number: int = 300, seed: int = SEED) -> Counter:
    """Slots that are no dossier: the first fault is the program's."""
    tally.begin(f"recheck: {number} dossiers with broken slots")
    jobs = [job for job in all_jobs() if job.mode in MODES]
    rounds = Round(tally, program, seed)
    for each in range(number):
        job = Random(seed + each).choice(jobs)
        rounds.of_broken_slots(each, job.files, job.words)
    return rounds.counts


def check_large(tally: Tally, program: str, candidates: int = 600, changes: int = 20, seed: int = SEED) -> Counter:
    """A dossier like the country's."""
    tally.begin(f"recheck: a dossier of {candidates} candidates, right and changed")
    rounds, random = Round(tally, program, seed), Random(seed)
    with scratch() as folder:
        put(sample_slots(candidates), folder / "slots")
        for picker in PICKERS:
            words = ("replay", "--days", "2", "--picker", picker)
            lines = rounds.right_text(folder / "slots", f"{candidates} candidates", words)
        rounds.changes(random, Case(folder / "slots", words[:3], lines, program), f"{candidates} candidates", changes)
    return rounds.counts


def check_length(tally: Tally) -> None:
    """An old Python reads the tool, and a person in half an hour."""
    tally.begin("recheck: how long it is")
    for name in ("recheck", "audit_day"):
        text = (TOOLS / name).read_text()
        tally.check(f"Python 3.8 reads {name}", bool(ast.parse(text, feature_version=(3, 8))))
    lines = (TOOLS / "recheck").read_text().splitlines()
    tally.check("recheck is read in half an hour", len(lines) <= 1100, f"{len(lines)} lines")
    for page, sentence in (("AUDIT_A_DAY.md", "It has {} lines."), ("fr/VERIFIER_UN_JOUR.md", "Il a {} lignes.")):
        text = (TOOLS.parent / "docs" / page).read_text()
        tally.check(f"{page} counts them", sentence.format(len(lines)) in text, f"{len(lines)} lines")
    tally.check("its lines are short", max(map(len, lines)) <= 100, max(lines, key=len))


@dataclass(frozen=True)
class Says:
    """Tests what `recheck` says in a folder, and with which status; and that it is never a traceback."""

    tally: Tally
    folder: Path

    def __call__(self, name: str, status: int, sentence: str, *words: str | Path) -> None:
        ended = run(TOOLS / "recheck", *words, folder=self.folder)
        said = ended.output.decode(errors="replace") + ended.complaint
        self.tally.check(name, ended.status == status and sentence in said and "Traceback" not in said,
                         f"status {ended.status}\n{said}")


DAYS = EXAMPLES / "two-days"


def check_words(tally: Tally) -> None:
    """Words and files that are none."""
    tally.begin("recheck: what it says of words and files")
    with scratch() as folder:
        says, days, report = Says(tally, folder), DAYS, folder / "report"
        says("help", 0, "usage: recheck", "--help")
        says("no words", 2, "usage: recheck")
        says("a word too many", 2, "usage: recheck", days, report, "more")
        says("a start alone", 2, "together", days, report, "--start", "2026-06-02")
        says("a date that is none", 2, "--start", days, report, "--start", "2026-02-30", "--term", "1")
        says("a term that is none", 2, "--term", days, report, "--start", "2026-06-02", "--term", "367")
        says("a report that is missing", 3, f"recheck: {report}: No such file or directory\n", days, report)
        says("a report that is a folder", 3, f"recheck: {folder}: Is a directory\n", days, folder)
        os.mkfifo(folder / "pipe")
        pipe = folder / "pipe"
        says("a report that is a pipe", 3, f"recheck: {pipe} is no file, but a device or a pipe", days, pipe)
        (folder / "slots").mkdir()
        os.mkfifo(folder / "slots/groups.csv")
        report.write_bytes(b"order 1: 1\nrule 1: -\n")
        says("a slot that is a pipe", 3, "groups.csv is no file, but a device or a pipe", folder / "slots", report)
        report.write_bytes(b"")
        says("a folder that is missing", 3, "No such file", folder / "missing", report)


def check_said(tally: Tally, program: str) -> None:
    """Right texts, and what is told beside a wrong line."""
    tally.begin("recheck: what it says of reports")
    with scratch() as folder:
        says, days, report = Says(tally, folder), DAYS, folder / "report"
        dated = ("replay", "--days", "2", "--start", "2026-06-02", "--term", "0")
        report.write_bytes(run_text(program, dated, days)[1])
        says("deadlines that are forgotten", 1, "were --start and --term forgotten?", days, report)
        says("deadlines that are given", 0, "as the rules say: 1 day, 21 lines", days, report, *dated[3:])
        says("a folder that next_day keeps", 1, "see audit_day", EXAMPLES / "kept", days / "replay.txt")
        says("the stored report", 0, "as the rules say: 2 days, 38 lines", days, days / "replay.txt")
        says("the stored chain", 0, "as the rules say: 2 days, 7 lines", days, days / "chain.txt")
        shutil.copytree(days, folder / "broken")
        (folder / "broken/groups.csv").write_text("group\n")
        report.write_bytes(run_text(program, ("order",), folder / "broken")[1])
        says("a refusal", 0, "as the rules say: 0 days, 1 line\n", folder / "broken", report)
        check_unread(says, program, report, folder / "broken")
        for words in (("explain", "--wish", "5"), ("explain", "--wish", "99"), ("envy",), ("beds", "--school", "5"),
                      ("check",), ("sample", "--number", "9"), ()):
            report.write_bytes(run_text(program, words, days)[1])
            says(f"a right text of {' '.join(words)} is not called wrong", 3, "this is no text of", days, report)


def check_odd_texts(tally: Tally) -> None:
    """Reports that were saved anew or cut, and texts that are none."""
    tally.begin("recheck: what it says of texts that are none")
    with scratch() as folder:
        says, days, report = Says(tally, folder), DAYS, folder / "report"
        right = (days / "replay.txt").read_bytes()
        for name, text, sentence in (("line ends of another system", right.replace(b"\n", b"\r\n"), "104\\x0d\n"),
                                     ("a blank at an end", right.replace(b"offer 7\n", b"offer 7 \n"), "7\\x20\n"),
                                     ("a mark", b"\xef\xbb\xbf" + right, "\\xef\\xbb\\xbforder 1"),
                                     ("a mark is told", b"\xef\xbb\xbf" + right, "who saved it anew?"),
                                     ("UTF-16", right.decode().encode("utf-16"), "who saved it anew?"),
                                     ("a cut within a line", right[:-4], "8,wait\n"),
                                     ("a cut is told", right[:100], "  the report ends within this line: was it cut?"),
                                     ("no line feed at the end", right[:-1], "waiting (no line feed ends it)\n")):
            report.write_bytes(text)
            says(f"what cannot be seen: {name}", 1, sentence, days, report)
        report.write_bytes((days / "chain.txt").read_bytes() + b"day 3\n")
        says("a chain, and a line behind its end", 1, "line 8 is wrong", days, report)
        for text in (b"\0", b"\xff\n", b"order\n", b"day\n", b"fall 1 2 3 4\n", b"refused\n", b"market -1\n",
                     b"final\n", b"day 1\npass 1\nfall " + b"9" * 5000 + b" 1 1 1\n", 100 * b"order "):
            report.write_bytes(text)
            says(f"the text {text[:20]!r}", 1, "the rules give", days, report)


def check_unread(says: Says, program: str, report: Path, slots: Path) -> None:
    """A refusal of one mode is right where another mode would first come to a slot that cannot be read."""
    shutil.copy(EXAMPLES / "two-days/groups.csv", slots)
    (slots / "schools.csv").write_text("school\n")
    (slots / "rankings.csv").unlink()
    report.write_bytes(run_text(program, ("replay",), slots)[1])
    says("a refusal before a slot that cannot be read", 0, "as the rules say: 0 days, 1 line\n", slots, report)
    report.write_bytes(b"refused schools row 2 reason 1 Header\n")
    says("another refusal there", 3, "rankings.csv: No such file", slots, report)


def main() -> int:
    parser = argparse.ArgumentParser(prog="checks.rechecking", description="Longer rounds of the checks of recheck.")
    parser.add_argument("--seed", type=int, default=SEED)
    parser.add_argument("--random", type=int, default=0, metavar="N", help="random dossiers")
    parser.add_argument("--changes", type=int, default=8, metavar="N", help="changed reports of each of them")
    parser.add_argument("--broken", type=int, default=0, metavar="N", help="worked dossiers with broken slots")
    parser.add_argument("--large", type=int, default=0, metavar="N", help="changed reports of a large dossier")
    parser.add_argument("--candidates", type=int, default=1000, metavar="N", help="how large it is")
    asked = parser.parse_args()
    tally, begun, program = Tally(), time.monotonic(), program_named()
    counts = check_random(tally, program, asked.random, asked.changes, asked.seed) if asked.random else Counter()
    counts += check_broken(tally, program, asked.broken, asked.seed) if asked.broken else Counter()
    counts += check_large(tally, program, asked.candidates, asked.large, asked.seed) if asked.large else Counter()
    return tell(tally, begun, sorted(counts.items()))


if __name__ == "__main__":
    sys.exit(until_told(main))
