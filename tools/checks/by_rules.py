"""What the program says of small random campaigns, held against the rules once more (`rules`)."""

from collections import Counter
from random import Random

from .days import DAYS, grown
from .dossiers import FIRST_DAY
from .harness import Tally, run, scratch
from .rules import Rules

CAMPAIGNS = 40
SEED = 2026


def check_modes(tally: Tally, program: str) -> None:
    """The report, and what `explain`, `envy` and `beds` say after each number of days."""
    tally.begin(f"replay, explain, envy and beds against the rules once more, {CAMPAIGNS} random campaigns")
    random = Random(SEED)
    met: Counter[str] = Counter()
    for number in range(CAMPAIGNS):
        term = (None, 0, 1, 2)[number % 4]
        days = random.randint(1, DAYS)
        dated = [] if term is None else ["--start", str(FIRST_DAY), "--term", str(term)]
        with scratch() as place:
            dossier = grown(program, random, place / "dossier", term)
            rules = Rules(dossier.rows, FIRST_DAY, term)
            lines = rules.call_orders() + [line for day in range(1, days + 1) for line in rules.run_day(day)]
            due = {("replay",): [*lines, *rules.final()], ("envy",): rules.blocks()}
            due |= {("beds", "--school", str(school)): said for school, said in rules.needs.items()}
            due |= {("explain", "--wish", str(wish)): [rules.explained(wish)] for wish in rules.wishes}
            for words, said in due.items():
                ended = run(program, *words, "--days", str(days), *dated, folder=place / "dossier")
                tally.equal(f"campaign {number}, {' '.join(words)}", (ended.status, ended.output.decode().splitlines()),
                            (0, said))
            met.update(kind_of(line) for said in due.values() for line in said)
    for kind in ("fall", "lapse", "auto", "block", "live", "gone", "noseat", "ceiling", "full"):
        tally.check(f"there is a line of the kind {kind}", met[kind] > 0, met)


def kind_of(line: str) -> str:
    """The first word of a line, of an explanation the kind of it, and of a barred wish the cause."""
    words = line.split()
    if words[0] != "wish":
        return words[0]
    return next((word for word in words if word in ("ceiling", "full")), words[2])
