"""The hostile rounds themselves: what they try on a right program, and whether they find what is wrong with others."""

import re
import shutil
import signal
import subprocess
from pathlib import Path

from .harness import TOOLS, Ended, Tally, executable, run, scratch, stopped_once_begun

WRONG = """#!/bin/sh
# A program of which each mode is wrong in its own way on most dossiers.
case $1 in
    order) echo "refused groups row 99 reason 9 Repeat 2"; exit 1 ;;
    replay) echo "refused wishes row 2 reason 9 Repeat 2"; exit 1 ;;
    chain) exit 9 ;;
    check) echo "not a chain row 1 reason 3"; exit 6 ;;
    explain) kill -11 $$ ;;
    beds) echo "refused groups row 1 reason 1 Header"; exit 0 ;;
    envy) echo "blocks 0"; echo "refused groups row 1 reason 1 Header"; exit 1 ;;
    market) echo "refused state row 1 reason 1 Header"; exit 1 ;;
    sample) echo "sample"; exit 0 ;;
esac
echo "bad words"
exit 2
"""
FINDS = {
    "order": "groups has no such row", "replay": "the other row is no earlier one", "chain": "status 9",
    "check": "status 6, and `not a chain row 1 reason 3`", "explain": "ended by the signal 11",
    "beds": "done, with the line", "envy": "2 lines beside the status 1", "market": "market does not read state",
}
SPINS = """#!/bin/sh
# A program that ends at its first two starts, and at the third works on for good.
echo >> "$STARTS"
[ "$(wc -l < "$STARTS")" -lt 3 ] || while :; do :; done
echo "order 1: 11"
"""
WITHOUT_MODES = """#!/bin/sh
case $1 in order) exec "$PROGRAM" "$@" ;; esac
echo "bad words"
exit 2
"""
CARELESS = r"""
#include <stdio.h>
#include <stdlib.h>
int main(int count, char **words) {
    char *first = malloc(100), *second = malloc(200);
    if (!first) return 5;
    if (!second) { puts("orde"); return 0; }
    puts("order");
    return 0;
}
"""


def call(tool: str, program: str, folder: Path, *words: str, **environment: str) -> Ended:
    return run(TOOLS / tool, *words, folder=folder, environment={"PARCOURS": program, **environment})


def check_small_rounds(tally: Tally, program: str) -> None:
    tally.begin("mutate.sh, edges.sh, fail_allocations.sh: small rounds of the program")
    rounds = (("mutate.sh", ("--number", "20")), ("mutate.sh", ("--cuts", "--number", "30")),
              ("mutate.sh", ("--words", "--number", "60")), ("edges.sh", ("options", "words", "--mode", "order")),
              ("edges.sh", ("files", "--mode", "replay", "--mode", "check")))
    with scratch() as folder:
        for tool, words in rounds:
            ended = call(tool, program, folder, *words)
            last = ended.output.decode().splitlines()[-1:]
            is_right = ended.status == 0 and last and re.fullmatch(r"0 found|[1-9]\d* passed, 0 failed", last[0])
            tally.check(f"{tool} {' '.join(words)}", bool(is_right), ended)
            tally.equal(f"{tool} {' '.join(words)}: nothing is left", list(folder.iterdir()), [])
        if shutil.which("cc"):
            ended = call("fail_allocations.sh", program, folder, "--every", "40")
            is_right = ended.status == 0 and ended.output.endswith(b"\n0 found\n")
            tally.check("fail_allocations.sh", is_right or "does not load" in ended.complaint, ended)


def check_finds(tally: Tally, program: str) -> None:
    tally.begin("mutate.sh and fail_allocations.sh find what is wrong")
    with scratch() as folder:
        wrong = executable(folder / "wrong", WRONG)
        ended = call("mutate.sh", wrong, folder, "--number", "5")
        told = ended.output.decode()
        for mode, what in FINDS.items():
            is_found = any(line.startswith(f"FOUND {mode} ") and what in line for line in told.splitlines())
            tally.check(f"{mode}: {what}", is_found, told)
        tally.equal("status", ended.status, 1)
        kept = folder / "mutated/explain-1"
        tally.check("the slots are kept", (kept / "words").exists() and (kept / "groups.csv").exists())
        ended = call("mutate.sh", program, folder, "order", "--number", "5", "--beside", wrong)
        tally.check("another answer than beside it", ended.status == 1 and b"beside it" in ended.output, ended)
        ended = call("mutate.sh", wrong, folder, "chain", "--number", "500")
        tally.check("it stops early", b"chain: stopped early\n" in ended.output, ended)
        if shutil.which("cc"):
            check_careless(tally, folder)


def check_endless(tally: Tally) -> None:
    """A run that takes too long is found by its own processor time, so that a busy machine fails none."""
    tally.begin("mutate.sh, a program that does not end")
    with scratch() as folder:
        spins = executable(folder / "spins", SPINS)
        # Before the first mutated run it is asked whether it is there, and whether it has the mode.
        ended = call("mutate.sh", spins, folder, "order", "--number", "1", STARTS=str(folder / "starts"))
        # A machine that is too busy to give it five seconds comes to the longest wait first.
        is_found = re.search(rb"FOUND order 1: (took [5-9]\.\d s of a processor|ended by the signal 9 )", ended.output)
        tally.check("it is found", ended.status == 1 and bool(is_found), ended)


def check_stopped(tally: Tally, program: str) -> None:
    """Told to stop, a round leaves no folder of its own, and nothing running."""
    tally.begin("mutate.sh, told to stop")
    with scratch() as folder:
        ended = stopped_once_begun(signal.SIGTERM, 2, folder, "mutate.sh", "order", "--number", "100000",
                                   PARCOURS=program)
        tally.equal("how it ends", (ended.status, ended.complaint), (143, "stopped\n"))
        tally.equal("what is left", list(folder.iterdir()), [])


def check_careless(tally: Tally, folder: Path) -> None:
    """A program that goes on with half of its text where memory runs out."""
    (folder / "careless.c").write_text(CARELESS)
    subprocess.run(["cc", "-o", folder / "careless", folder / "careless.c"], check=True)
    ended = call("fail_allocations.sh", str(folder / "careless"), folder, "order")
    is_found = ended.status == 1 and b"FOUND order" in ended.output and b"status 0, 5 bytes, of 6" in ended.output
    tally.check("half of a text with status 0", is_found, ended)


def check_unknown_modes(tally: Tally, program: str) -> None:
    tally.begin("modes that a program does not have, and programs that are not there")
    rounds = (("mutate.sh", ("order", "envy", "--number", "3"), ("chain",)),
              ("edges.sh", ("words",), ("words", "--mode", "chain")))
    with scratch() as folder:
        one_mode = executable(folder / "one_mode", WITHOUT_MODES)
        for tool, words, unknown in rounds:
            ended = call(tool, one_mode, folder, *words, PROGRAM=program)
            is_said = ended.status == 0 and b"envy: skipped, the program answers `bad words`\n" in ended.output
            tally.check(f"{tool}: a mode is skipped, and that is said", is_said, ended)
            ended = call(tool, one_mode, folder, *unknown, PROGRAM=program)
            tally.check(f"{tool}: none is left", ended.status == 1 and "none of the modes" in ended.complaint, ended)
            ended = call(tool, "/nowhere/parcours", folder, *words)
            is_said = ended.status == 1 and "cannot be started" in ended.complaint
            tally.check(f"{tool}: no program", is_said and "Traceback" not in ended.complaint, ended)
        for tool in ("mutate.sh", "edges.sh", "fail_allocations.sh"):
            tally.equal(f"{tool}: words that it does not know", call(tool, program, folder, "fly").status, 2)
            ended = call(tool, program, folder, "--help")
            tally.check(f"{tool} --help", ended.status == 0 and b"Status:" in ended.output, ended)
