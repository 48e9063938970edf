"""Runs all checks, or those of the topics named; the last line says how many passed and failed."""

import os
import resource
import subprocess
import sys
import time
from collections.abc import Callable
from functools import partial

from dossier.program import program
from dossier.wording import Words

from . import answered, auditing, building, by_rules, cutting, days, disks, edits, exporting, hostile, installing
from . import killing, lemmas, measuring, odd, rechecking, rounds, script, sheets, stored, tabled, telling_modes, whys
from . import workbooks, wrong_rules
from .harness import EXAMPLES, Tally, until_told

Checks = Callable[[Tally], None]
# The topics that run no program.
ALONE = ("sheets", "lemmas", "edits")


def topics(program: str) -> dict[str, list[Checks]]:
    """All checks by topic."""
    def given(*checks: Callable[..., None]) -> list[Checks]:
        """Checks that are told the program."""
        return [partial(check, program=program) for check in checks]

    return {
        "stored": [stored.check_prepare, stored.check_leave_out, stored.check_encodings, stored.check_ids,
                   stored.check_next_day, *given(stored.check_in_words, stored.check_sample)],
        "sheets": [sheets.check_sheets, sheets.check_headers, sheets.check_codes, sheets.check_groups_of_faults,
                   sheets.check_states, sheets.check_rates, sheets.check_flags],
        "hostile": [hostile.check_help, hostile.check_old_python, hostile.check_words, hostile.check_folders,
                    hostile.check_taken_meanwhile, hostile.check_names, hostile.check_broken_dossiers,
                    hostile.check_pipes, hostile.check_lines],
        "disks": [disks.check_full_devices, disks.check_small_disks],
        "killing": list(killing.CHECKS),
        "lemmas": [lemmas.check_same_lemmas, lemmas.check_witnesses, lemmas.check_memory_answers,
                   lemmas.check_one_run, lemmas.check_promises],
        "edits": [edits.check_edits],
        "rounds": [*given(rounds.check_small_rounds, rounds.check_finds, rounds.check_unknown_modes),
                   rounds.check_endless, *given(rounds.check_stopped)],
        "measure": [*given(measuring.check_tables, measuring.check_found), measuring.check_words,
                    measuring.check_start, measuring.check_shape],
        "audit": [auditing.check_audits, auditing.check_alone, auditing.check_stopped],
        "recheck": [rechecking.check_length, rechecking.check_words, rechecking.check_odd_texts,
                    *given(rechecking.check_said, rechecking.check_worked, rechecking.check_random,
                           rechecking.check_broken, rechecking.check_large), wrong_rules.check_wrong_rules],
        "rules": given(by_rules.check_modes),
        "odd": [odd.check_odd_campaigns],
        "script": [script.check_script, building.check_twice],
        "modes": [telling_modes.check_listed, telling_modes.check_reads],
        "exporting": [exporting.check_round_trips, *given(exporting.check_acceptance)],
        "days": [*given(days.check_seven_days), days.check_answers_that_do_not_fit, days.check_unfit_in_the_midst,
                 days.check_stopped_days, days.check_changes_after_a_stop, days.check_days_anew,
                 days.check_each_day_anew, days.check_told_changes, days.check_rights, days.check_last_year,
                 days.check_killed_while_running, days.check_full_disk],
        "cutting": given(cutting.check_two_days, cutting.check_random, cutting.check_finds, cutting.check_written),
        "installing": [installing.check_installed, installing.check_version],
        "workbooks": [workbooks.check_workbooks, workbooks.check_formulas, workbooks.check_merged,
                      workbooks.check_kinds, workbooks.check_two_sheets, workbooks.check_protected, workbooks.check_damaged],
        "answered": [answered.check_taken, answered.check_faults, answered.check_sheets, answered.check_broken_slots,
                     *given(answered.check_random)],
        "tabled": [tabled.check_lycee, tabled.check_names, tabled.check_other_wishes, tabled.check_other_ids,
                   tabled.check_long_ids, *given(tabled.check_queues), tabled.check_ids_stay],
        "whys": [whys.check_lycee, whys.check_by_hand, whys.check_lost_record, whys.check_other_wishes,
                 whys.check_offers_of_the_dossier, whys.check_answerer, whys.check_stopped,
                 *given(whys.check_campaigns)],
    }


def is_there() -> bool:
    """Whether the program runs; the script `parcours` may have to build it first."""
    try:
        done = subprocess.run([program(), "order"], cwd=EXAMPLES / "two-groups", stdout=subprocess.DEVNULL, check=False)
    except OSError:
        return False
    return done.returncode == 0


def main(given: list[str]) -> int:
    os.environ["PARCOURS"] = program()
    all_topics = topics(program())
    words = Words(
        "check.sh",
        "Runs all checks of the tools, or those of the topics named, in some minutes. They run the program that "
        "PARCOURS names in the environment, else the script parcours, which builds it first where it is not built, and "
        f"that takes long; {', '.join(ALONE)} run none. The last line is `N passed, M failed`.",
        "Status: 0 all passed, 1 some failed, 2 bad words.")
    words.add_argument("topics", nargs="*", metavar="TOPIC", help=", ".join(all_topics))
    named = words.of(given).topics
    if unknown := [name for name in named if name not in all_topics]:
        words.bad(f"no topic {unknown[0]}; the topics are {', '.join(all_topics)}")
    return until_told(partial(run_topics, named, all_topics))


def processor_seconds() -> float:
    """What these checks, and all that they ran, took of a processor."""
    used = [resource.getrusage(who) for who in (resource.RUSAGE_SELF, resource.RUSAGE_CHILDREN)]
    return sum(it.ru_utime + it.ru_stime for it in used)


def run_topics(named: list[str], all_topics: dict[str, list[Checks]]) -> int:
    if not set(named or all_topics) <= set(ALONE) and not is_there():
        print(f"FAILED {program()} does not run\n0 passed, 1 failed")
        return 1
    # What these checks write need not outlast a power cut.
    os.fsync = lambda _: None
    tally = Tally()
    begun = time.monotonic()
    for name in named or all_topics:
        started, used = time.monotonic(), processor_seconds()
        for checks in all_topics[name]:
            tally.run(partial(checks, tally))
        print(f"{name}: {time.monotonic() - started:.0f} s, {processor_seconds() - used:.0f} s of a processor")
    print(f"in {time.monotonic() - begun:.0f} s")
    print(f"{tally.passed} passed, {tally.failed} failed")
    return 0 if tally.failed == 0 else 1


if __name__ == "__main__":
    sys.exit(main(sys.argv[1:]))
