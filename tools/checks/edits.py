"""Checks of edit_clauses, with a stand-in for rt that prints what it is given of the edits of a made-up crate."""

import os
import shutil
from pathlib import Path

from .harness import TOOLS, Ended, Tally, run, scratch

RT = '''#!/bin/sh
# Prints what is in the file `printed` of the crates named, as `rt must-fail` does.
shift
for name; do grep "^rt: must-fail $name/" printed; done
'''
SOURCE = """/// Beds that are left.
pub fn left(beds: u32) -> u32
    ensures all { result ≤ beds }
{
    beds
}

impl Model for School {
    #[tactic(auto)]
    pub(crate) fn take(&mut self) -> u32 {
        self.beds[0]
    }
}
"""
NOTE = "refused, as it must be: note: src/lib.rt:{}: it is not proved that {} (`{}"
ANSWER = "refused, as it must be: ./proofs/lib/School/take/Answers.antt:6:5: error: {}"
# Of each edit, by its name, what rt said of it, and what is to be printed.
TRIES = {
    "clause": (NOTE.format("2:1", "what the function ensures holds when it returns", "returns-clause-all`)"),
               "clause, left: ensures all"),
    "way": (NOTE.format("5:5", "what the function ensures holds when it returns", "returns-in-Some`); the"),
            "clause, left: ensures (in-Some)"),
    "need": (NOTE.format("11:9", "what `put` requires holds at this call", "put-requires`)"),
             "clause, School::take: requires of put"),
    "owner": (NOTE.format("9:5", "the `invariant` of the struct's `impl Model` holds", "invariant_of-se"),
              "clause, School::take: invariant of se .."),
    "index": (NOTE.format("11:9", "the index is below the slice's length", "bounds-take-from`)"),
              "safety, School::take: bounds-take-from"),
    "value": (ANSWER.format("`returns`: as printed, the two types differ only where one has `c.args.beds`"),
              "answer, School::take: ensures [as printed, the two types differ only where one has `c.args.beds` ..]"),
    "search": (ANSWER.format("`returns`: `search`: no proof of `r ≡ nat_lt a b` was found. Every way"),
               "answer, School::take: ensures [`search`: no proof of `r ≡ nat_lt a b` was found. Every way ..]"),
    "case": (ANSWER.format("`returns`: `omega`: the goal does not follow, and the goal fails, at x = 1"),
             "answer, School::take: ensures [`omega`: the goal does not follow, and the goal fails, at x = 1 ..]"),
    "cut": (ANSWER.format("`returns`: as printed, the two types first differ where one has `c.before.bef"),
            "cut, School::take: ensures [as printed, the two types first differ where one has `c.before.bef ..]"),
    "stale": (ANSWER.format("`returns`: record `Rattle.beds.proofs.lib.School.take.At` has another field"),
              "form, School::take: ensures [record `Rattle.beds.proofs.lib.School.take.At` has another field ..]"),
    "named": (ANSWER.format("`returns`: `c.put` is not in scope").replace(
                  "be:", "be (only because a proof file names what the edit took away):"),
              "form, School::take: ensures [`c.put` is not in scope ..]"),
    "long": ("refused, as it must be (only by a limit): src/lib.rt:2:1: error: outgrew (`returns`)",
             "limit, left: ensures"),
    "odd": ("BAD EDIT: there is no file src/odd.rt", "bad, BAD EDIT: there is no file src/odd.rt"),
    "proved": ("NOT REFUSED: the crate is still proved with this edit",
               "bad, NOT REFUSED: the crate is still proved with this edit"),
}
PRINTED = "".join(f"rt: must-fail beds/{name}.edit: {said}\n" for name, (said, _) in sorted(TRIES.items()))
SUM = "of which {} were not told of: 5 refused at a clause or a safety condition, 3 at an answer that shows the " \
    "changed value, 1 at an answer that is told only in part, 2 only for form, 1 at a limit; 2 bad"


def make_tree(folder: Path) -> None:
    """A repository with two crates, and an rt that tries the edits of the first."""
    shutil.copytree(TOOLS, folder / "tools", ignore=shutil.ignore_patterns("__pycache__", "checks"))
    for name in ("crates/beds/src", "crates/beds/must-fail", "crates/seats/must-fail", "bin"):
        (folder / name).mkdir(parents=True)
    (folder / "crates/beds/src/lib.rt").write_text(SOURCE)
    (folder / "bin/rt").write_text(RT)
    (folder / "bin/rt").chmod(0o755)
    for name in TRIES:
        (folder / f"crates/beds/must-fail/{name}.edit").write_text(f"{name}\n")
    for name in ("changed", "new"):
        (folder / f"crates/seats/must-fail/{name}.edit").write_text(f"{name}\n")
    (folder / "printed").write_text(PRINTED)


def call(folder: Path, *words: str, given: bytes = b"") -> Ended:
    return run(folder / "tools/edit_clauses", *words, folder=folder, given=given,
               environment={"PATH": f"{folder / 'bin'}:{os.environ['PATH']}"})


def is_refused(ended: Ended, status: int) -> bool:
    return ended.status == status and ended.complaint.count("\n") == 1 and not ended.output


def check_edits(tally: Tally) -> None:
    tally.begin("edit_clauses")
    with scratch() as folder:
        make_tree(folder)
        log = f"rt: beds proved\n{PRINTED}3 passed, 0 failed\n"
        (folder / "log").write_text(log)
        beds = ["beds", *(f"    {name}: {told}" for name, (_, told) in sorted(TRIES.items()))]

        def told(name: str, lines: list[str], *words: str, given: bytes = b"") -> None:
            ended = call(folder, *words, given=given)
            tally.equal(f"{name}: its end", (ended.status, ended.complaint), (0, ""))
            tally.equal(name, ended.output.decode().splitlines(), lines)

        one_crate = [*beds, f"14 edits, {SUM.format(0)}"]
        told("what was printed", one_crate, "--from", "log")
        told("what was printed of a crate", one_crate, "--from", "log", "beds")
        told("what comes in", one_crate, "--from", "-", given=log.encode())
        told("a crate that was not printed", [
            *beds, "seats", "    changed: not told", "    new: not told", f"16 edits, {SUM.format(2)}"],
            "beds", "seats", "--from", "log")
        told("tried now", [*PRINTED.splitlines(), *one_crate], "beds", "--try")
        tally.check("no edit is told of", is_refused(call(folder, "seats", "--try"), 3))
        tally.check("no such file", is_refused(call(folder, "--from", "none"), 3))
        tally.check("a file that tells of none", is_refused(call(folder, "--from", "crates/beds/src/lib.rt"), 3))
        for words in ((), ("beds",), ("none",), ("--fly",), ("",), ("../crates",), ("beds", "--earlier"), ("--from",),
                      ("--from", "log", "--try"), ("beds", "--from", "log", "--earlier")):
            ended = call(folder, *words)
            tally.check(f"bad words {words}", is_refused(ended, 2), ended)
        (folder / "bin/rt").write_text("#!/none\n")
        tally.check("an rt that does not run", is_refused(call(folder, "beds", "--try"), 3))
