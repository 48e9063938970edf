"""Whether a run ended as a run may: a status of the program's own, in time, with a text of that status's form.

A line that names a slot and a row must name a slot that the mode reads, and a row that the slot has.
"""

import csv
import io
import re
from dataclasses import dataclass

from .modes import MODES
from .runs import Job, Watched, file_of

LONGEST = 5.0
MOST_MEMORY = 64 << 20
DONE, REFUSED, BAD_WORDS, NOT_PROVED, NO_SUCH = 0, 1, 2, 6, 7
OF_INPUT = {DONE: "done", REFUSED: "refused", BAD_WORDS: "bad words", NOT_PROVED: "not proved", NO_SUCH: "no such"}
HEADER, TOO_MANY_ROWS, TOO_LARGE, UNFIT_ANSWER = 1, 7, 8, 18

REFUSAL = re.compile(r"refused (?P<slot>[a-z]+) row (?P<row>0|[1-9]\d*) reason (?P<reason>[1-9]\d*) (?P<rest>.*)")
NO_CHAIN = re.compile(r"not a chain row (?P<row>[1-9]\d*) reason [1-4] (?:NotLine|WrongNumber|NoEnd|AfterEnd)")
NO_PROOF = re.compile(r"not proved row (?P<row>[1-9]\d*) reason [1-6] (?:[A-Z][A-Za-z]+|StillOver [1-9]\d*)")
NO_ITEM = re.compile(r"no such (?:wish|school) [1-9]\d*")
STATUS_WORD = "waiting|offered|accepted|refused|withdrawn|quit|auto_refused|auto_withdrawn|lapsed"
FIELD, EARLIER = r" (?P<field>[1-5])", r" (?P<earlier>[1-9]\d*)"
REASONS = {
    1: "Header", 2: r"FieldCount [1-9]\d*", 3: "NotNumber" + FIELD, 4: "OutOfRange" + FIELD, 5: "NotFlag" + FIELD,
    6: "NotWord" + FIELD, 7: "TooManyRows", 8: "TooLarge", 9: "Repeat" + EARLIER, 10: "Unknown" + FIELD,
    11: "RankTaken" + EARLIER, 12: "Unranked", 13: "NoBoardingRank", 14: "PreferenceMixed" + EARLIER,
    15: "PreferenceTaken" + EARLIER, 16: "TwoAccepted" + EARLIER, 17: "DayFalls",
    18: f"UnfitAnswer (?:{STATUS_WORD})", 20: "NotDate" + FIELD,
}


@dataclass(frozen=True)
class Lines:
    """A text as its lines, all of which must have an end."""

    all: list[str]
    are_whole: bool

    @classmethod
    def of(cls, text: bytes) -> "Lines":
        lines = text.decode("latin-1").split("\n")
        return cls(lines[:-1], lines[-1] == "")

    @property
    def last(self) -> str:
        return self.all[-1] if self.all else ""


def records(data: bytes) -> int:
    """How many records a slot has, its header among them; empty lines are none."""
    return sum(1 for cells in csv.reader(io.StringIO(data.decode("latin-1"), newline="")) if cells)


def fault(job: Job, ended: Watched) -> str | None:
    """What is wrong with how a run ended."""
    if ended.seconds > LONGEST:
        return f"took {ended.seconds:.1f} s of a processor"
    if ended.status < 0:
        return f"ended by the signal {-ended.status} after {ended.seconds:.1f} s of a processor"
    if ended.status not in OF_INPUT:
        return f"status {ended.status}"
    if ended.memory > MOST_MEMORY:
        return f"took {ended.memory >> 20} MB"
    return fault_of_text(job, ended.status, Lines.of(ended.text))


def fault_of_text(job: Job, status: int, lines: Lines) -> str | None:
    """What is wrong with the text beside the status."""
    if not lines.are_whole:
        return f"the last line has no end: {lines.last[:80]}"
    if status == DONE:
        return f"done, with the line `{lines.last[:80]}`" if REFUSAL.match(lines.last) else None
    if len(lines.all) != 1 and not (status == REFUSED and job.mode == "replay" and "UnfitAnswer" in lines.last):
        return f"{len(lines.all)} lines beside the status {status}"
    match status:
        case 1:
            return fault_of_refusal(job, lines.last)
        case 2:
            return None if lines.last == "bad words" else f"status 2, and `{lines.last[:80]}`"
        case 6:
            return fault_of_chain(job, lines.last)
        case _:
            return None if NO_ITEM.fullmatch(lines.last) else f"status 7, and `{lines.last[:80]}`"


def fault_of_chain(job: Job, line: str) -> str | None:
    """The row of a chain that is none may be the one below its last line; that of one that proves nothing may not."""
    last = job.files.get(file_of("chain"), b"").count(b"\n") + 1
    match = NO_CHAIN.fullmatch(line) or NO_PROOF.fullmatch(line)
    if match is None:
        return f"status 6, and `{line[:80]}`"
    if int(match["row"]) > last:
        return f"`{line}`, and the chain ends with row {last}"
    return None


def fault_of_refusal(job: Job, line: str) -> str | None:
    """The line must name a slot that is read, a reason with what belongs to it, and rows that are there."""
    match = REFUSAL.fullmatch(line)
    if match is None:
        return f"refused with the line `{line[:80]}`"
    slot, row, reason = match["slot"], int(match["row"]), int(match["reason"])
    if job.mode not in MODES or slot not in MODES[job.mode].reads:
        return f"`{line}`, and {job.mode} does not read {slot}"
    kept = re.fullmatch(REASONS.get(reason, "-"), match["rest"])
    if kept is None:
        return f"`{line}`: not what goes with the reason {reason}"
    if not is_row(reason, row, records(job.files.get(file_of(slot), b""))):
        return f"`{line}`, and {slot} has no such row"
    if "earlier" in kept.groupdict() and not 2 <= int(kept["earlier"]) < row:
        return f"`{line}`: the other row is no earlier one"
    return None


def is_row(reason: int, row: int, last: int) -> bool:
    """A file that is too large has the row 0, a header 1, and what stands below it 2 to the last."""
    if reason == TOO_LARGE:
        return row == 0
    return row == 1 if reason == HEADER else 2 <= row <= last
