"""What `why`, `tables` and `next_day` say of odd campaigns, each sentence held against the rules once more.

The dossiers have programmes without seats, schools without beds, ceilings and limits of 0, candidates who are ranked
nowhere, and ids of one digit and of ten. Their slots have marks, quotes, zeros in front, empty lines and any line end.
Candidates answer more than once on a day, and days go across the ends of February and of the year.
"""

import csv
import io
import re
from collections import Counter
from datetime import date, timedelta
from pathlib import Path
from random import Random

from dossier.campaign import next_day
from dossier.dating import Calendar
from dossier.explaining import Evening, paragraphs
from dossier.naming import names_in
from dossier.outputs import STATUSES
from dossier.records import Wish, made_days, wishes_in
from dossier.slots import ANSWERS, SLOTS
from dossier.telling import LANGUAGES
from dossier.writing import csv_bytes

from .dossiers import Dossier, Rows, add_state, ranks, random_wishes
from .harness import TOOLS, Tally, run, scratch
from .rules import LIVE, Rules

CAMPAIGNS = 12
SEED = 4
FIRST_DAYS = (date(2026, 6, 2), date(2026, 12, 30), date(2028, 2, 27), date(2027, 2, 27), date(2100, 2, 27))
NO_CEILING = 2_000_000_000
FITTING = {"offered": ("accept", "accept", "refuse", "quit"), "accepted": ("accept", "refuse", "quit"),
           "waiting": ("withdraw", "quit")}


def odd_ids(random: Random, count: int) -> list[int]:
    """Ids of one digit, of some, or of ten, with the greatest among them."""
    greatest = random.choice((count + 2, 3000, 0))
    if greatest:
        return random.sample(range(1, greatest + 1), count)
    return [*random.sample(range(1_000_000_000, 2_000_000_000), count - 1), 2_000_000_000]


def odd_dossier(random: Random, first_day: date) -> Dossier:
    groups, candidates = (odd_ids(random, random.randint(1, most)) for most in (3, 9))
    programmes = {programme: random.choice(groups) for programme in odd_ids(random, random.randint(1, 4))}
    schools = odd_ids(random, random.randint(1, 3)) if random.random() < 0.85 else []
    ranked = candidates[random.choice((0, 0, 1)) if len(candidates) > 1 else 0:]
    dossier = Dossier()
    if random.random() < 0.6:
        dossier.with_optional.add("programmes")
    limits = (0, 0, 1, 2, 5, NO_CEILING) if "programmes" in dossier.with_optional else ()
    days = sorted(random.randint(1, 8) for _ in range(random.choice((0, 3, 6))))
    changes: Rows = [(day, random.choice(schools), random.choice((0, 1, 2, 5, NO_CEILING))) for day in days if schools]
    choices = [(programme, school) for programme in programmes for school in [None, *schools]]
    dossier.rows = {
        "groups": [(group, random.choice((0, 20, 50, 100)), random.choice((0, 30, 100))) for group in groups],
        "programmes": [(programme, group, random.choice((0, 0, 1, 1, 2, 3)),
                        *([random.choice(limits)] if limits else [])) for programme, group in programmes.items()],
        "schools": [(school, random.choice((0, 1, 1, 2)), random.choice((0, 1, 3, 1500, NO_CEILING)))
                    for school in schools],
        "rankings": [(group, candidate, rank, random.randint(0, 1), random.randint(0, 1))
                     for group in groups for candidate, rank in ranks(random, ranked)],
        "boarding": [(school, candidate, rank) for school in schools for candidate, rank in ranks(random, candidates)],
        "wishes": random_wishes(random, ranked, choices, most=4, automatic=0.4),
        "ceilings": list({change[:2]: change for change in changes}.values()), "answers": []}
    add_state(random, dossier)
    if "state" in dossier.with_optional:
        dossier.rows["state"] = [(wish, status, since and str(first_day - timedelta(days=random.randint(-1, 3))))
                                 for wish, status, since in dossier.rows["state"]]
    return dossier


def dressed(random: Random, slot: bytes) -> bytes:
    """The same slot in other bytes."""
    def cell(text: str) -> str:
        zeros = "0" if text.isdigit() and 1 < len(text) < 10 and random.random() < 0.1 else ""
        return f'"{zeros}{text}"' if random.random() < 0.2 else zeros + text

    header, *rows = csv.reader(io.StringIO(slot.decode()))
    end, mark = random.choice(("\n", "\r\n", "\r")), random.choice(("", "\ufeff"))
    lines = [",".join(header), *(",".join(map(cell, row)) + random.choice(("", "", "", end)) for row in rows)]
    return (mark + end.join(lines) + random.choice(("", end))).encode()


class Told(Rules):
    """The rules, and what the last pass began with."""

    def need(self, school: int, day: int) -> list[str]:
        return []

    def run_pass(self, day: int, turn: int) -> tuple[list[str], bool]:
        self.in_opening = dict(self.status)
        self.free_in_opening = {school: self.free_beds(school) for school in self.beds}
        return super().run_pass(day, turn)

    def answers_of(self, random: Random, day: int) -> list[tuple[int, str, int]]:
        """Answers that fit, some of them given twice; tried on the statuses of the day."""
        kept, answers = (dict(self.status), dict(self.stamp)), []
        self.lapses(day)
        for _ in range(random.choice((0, 1, 2, 3, 5)) if self.wishes else 0):
            wish = random.choice(list(self.wishes))
            kind = random.choice(FITTING.get(self.status[wish], ("quit",)))
            target = self.wishes[wish].candidate if kind == "quit" else wish
            for _ in range(2 if kind == "accept" and random.random() < 0.2 else 1):
                if kind != "quit" or random.random() < 0.4:
                    answers.append((day, kind, target))
                    self.answer(*answers[-1])
        self.status, self.stamp = kept
        return answers


def sentences_of(rules: Told, number: int, day: int) -> list[str]:
    """What the English paragraph of a wish must have in it, by the rules."""
    wish, status, (changed, turn) = rules.wishes[number], rules.status[number], rules.stamp[number]

    def named(when: date | int) -> str:
        return LANGUAGES["en"].of_day(when)

    def of(number_of: int) -> date | int:
        return rules.start + timedelta(days=number_of - 1) if rules.term is not None else number_of

    when = f"on {named(of(changed))}" if changed else f"before {named(of(1))}, as the dossier says"
    if status == "offered":
        if not changed and rules.term is not None and number in rules.since:
            when = f"on {named(rules.since[number])}"
        told = [f"Wish {number} has an offer, which was made {when}."]
        if rules.term is None:
            return [*told, "Accept it or refuse it."]
        limit = rules.offer_date(number) + timedelta(days=rules.term)
        is_over = limit <= rules.start + timedelta(days=day - 1)
        return [*told, f"It was to be answered by {named(limit)}; that day is over" if is_over else
                f"Accept it or refuse it, by {named(limit)}: after that it lapses"]
    if status == "accepted":
        whose = "The automatic answerer accepted it for you" if turn else "It was accepted"
        return [f"Wish {number} is accepted: the place is yours. {whose} {when}."]
    if status != "waiting":
        return [f"Wish {number} is over.", f" {when}", {
            "refused": "Its offer was refused", "withdrawn": "You withdrew it", "quit": "You left the procedure",
            "auto_refused": "answerer gave it up", "auto_withdrawn": "answerer withdrew it",
            "lapsed": "had no answer in time, and lapsed"}[status]]
    return [f"Wish {number} is waiting: there is no offer.", *why_it_waits(rules, number, wish, day)]


def why_it_waits(rules: Told, number: int, wish: Wish, day: int) -> list[str]:
    words = rules.opening[number].split()
    if words[0] == "noseat":
        ahead, left = int(words[2]), int(words[4])
        seats = "1 seat was left" if left == 1 else f"{left or 'no'} seat{'s were' if left else ' was'} left"
        came = "1 candidate" if ahead == 1 else f"{ahead} candidates" if ahead else "nobody"
        limit = [f"you are number {words[6]}."] if len(words) > 5 else []
        bed = ["It takes a bed for you in the boarding school too.", "You need no seat if another wish gets you one in "
               "the programme by then."] if wish.school else []
        return [f"In the last pass {seats} in the programme, and {came} came before you for one.", *limit, *bed]
    school, bar, beds = wish.school or 0, rules.bars[wish.school or 0], rules.beds[wish.school or 0]
    told = [f"your rank there is {rules.rank[school, wish.candidate]}."]
    if bar == rules.ceilings(day)[school]:
        whom = f"ranked after {bar}" if bar else "in"
        return [*told, f"Boarding school {school} takes nobody {whom} on this day, by its ceiling",
                "For an offer it takes a ceiling that reaches your rank"]
    is_taken = "has no beds." if beds == 0 else "is full: its only bed is taken." if beds == 1 else \
        f"is full: all of its {beds} beds are taken."
    return [*told, f"Boarding school {school} {is_taken}",
            f"In the last pass nobody ranked after {bar} could get a bed there" if beds and bar else
            "In the last pass no bed was free"]


def is_true(rules: Told, number: int, told: str) -> bool:
    """What a sentence says of others, counted by the rules: who holds beds, and who got one."""
    wish = rules.wishes[number]
    if wish.school is None or "Boarding school" not in told:
        return True
    is_full = " is full" not in told or len(rules.live_in(school=wish.school)) >= rules.beds[wish.school]
    none_was_free = "no bed was free" not in told or rules.free_in_opening[wish.school] == 0
    match = re.search(r"nobody ranked after (\d+)", told)
    behind = {other.candidate for place, other in rules.wishes.items() if match and other.school == wish.school
              and rules.rank[wish.school, other.candidate] > int(match[1])}
    had = {other.candidate for place, other in rules.wishes.items()
           if other.school == wish.school and rules.in_opening[place] in LIVE}
    got = behind & rules.live_in(school=wish.school) - had
    return is_full and none_was_free and not got


def check_told(tally: Tally, name: str, rules: Told, day: int, folder: Path, met: Counter[str]) -> None:
    """Each wish's paragraph has what the rules give, in French the same numbers; and so has its row of the table."""
    wishes, evening = wishes_in(folder), Evening(made_days(folder), names_in(folder))
    (heading, *english), (_, *french) = (paragraphs(wishes, evening, folder, language) for language in ("en", "fr"))
    tally.check(f"{name}: the evening", f"day {day} of the campaign" in heading, heading)
    for wish, told, spoken in zip(wishes, english, french, strict=True):
        missing = [part for part in sentences_of(rules, wish.wish, day) if part not in told]
        is_right = not missing and is_true(rules, wish.wish, told)
        tally.check(f"{name}, wish {wish.wish}", is_right, (missing, told, rules.opening.get(wish.wish)))
        numbers = [sorted(re.findall(r"\d+", text.replace("1er", "1"))) for text in (told, spoken)]
        tally.equal(f"{name}, wish {wish.wish}: the numbers in French", numbers[1], numbers[0])
        met[rules.opening[wish.wish].split()[-2 if "full" in told else 0] if rules.status[wish.wish] == "waiting"
            else rules.status[wish.wish]] += 1
    run(TOOLS / "tables", folder, folder.parent / f"out-{day}", "--dialect", "plain", "--lang", "en")
    with open(folder.parent / f"out-{day}/wishes.csv", newline="") as file:
        for row in csv.DictReader(file):
            tally.equal(f"{name}, row of {row['Wish']}", list(row.values()), row_of(rules, int(row["Wish"])))


def row_of(rules: Told, number: int) -> list[str]:
    """A wish's row in the table of all, by the rules."""
    wish, status = rules.wishes[number], rules.status[number]
    dated = status == "offered" and rules.term is not None
    since = rules.offer_date(number) if dated else ""
    queue = sorted({rules.position(other.candidate, wish.programme) for place, other in rules.wishes.items()
                    if other.programme == wish.programme and rules.status[place] == "waiting"})
    own = rules.position(wish.candidate, wish.programme)
    return list(map(str, (number, wish.candidate, wish.programme, wish.school or "", wish.preference,
                          STATUSES["en"][status], since, since and since + timedelta(days=rules.term or 0), own,
                          queue.index(own) + 1 if status == "waiting" else "")))


def check_odd_campaigns(tally: Tally) -> None:
    tally.begin(f"why, tables and next_day on {CAMPAIGNS} odd campaigns, against the rules once more")
    random, met = Random(SEED), Counter[str]()
    for number in range(CAMPAIGNS):
        term, first_day = random.choice((None, 0, 1, 2, 366)), random.choice(FIRST_DAYS)
        dossier = odd_dossier(random, first_day)
        rules = Told(dossier.rows, first_day, term)
        with scratch() as place:
            folder = place / "dossier"
            dossier.write(folder)
            for slot in SLOTS:
                (folder / slot.file).write_bytes(dressed(random, (folder / slot.file).read_bytes()))
            for day in range(1, random.randint(2, 5)):
                answers = rules.answers_of(random, day)
                rules.answers = [*rules.answers, *answers]
                slot_bytes = csv_bytes(dossier.header(ANSWERS), [(1, *answer[1:]) for answer in answers])
                (folder / ANSWERS.file).write_bytes(dressed(random, slot_bytes))
                asked = Calendar(1, first_day, term) if term is not None and day == 1 else Calendar()
                told = next_day(folder, asked).said("en")
                lines = rules.run_day(day)
                counts = [sum(line.startswith(word) for line in lines) for word in ("offer ", "lapse ")]
                name = f"campaign {number}, day {day}"
                tally.check(name, f"offers made {counts[0]}, lapsed {counts[1]};" in told, (told, lines))
                check_told(tally, name, rules, day, folder, met)
    missed = {"offered", "accepted", "refused", "withdrawn", "quit", "auto_refused", "auto_withdrawn", "lapsed",
              "noseat", "barred", "full"} - set(met)
    tally.check("each status and reason is among them", not missed, (missed, met))
