"""Why wishes stand as they do: what `why` says of the last of several days is what one run of all days explains."""

import shutil
import signal
from datetime import timedelta
from pathlib import Path
from random import Random

from dossier.campaign import next_day
from dossier.dating import Calendar
from dossier.explanation import Explanation, OfferedWish, explanation_of
from dossier.records import kept_days
from dossier.setting import Deadline, Moment, Setting
from dossier.telling import LANGUAGES, sentences

from .days import DAYS, grown
from .dossiers import FIRST_DAY
from .harness import DATA, EXAMPLES, TOOLS, Ended, Tally, executable, run, scratch, stopped_once_begun

CAMPAIGNS = 6
SEED = 99
LYCEE = EXAMPLES / "lycee/slots"
DATED = ("--start", "2026-06-02", "--term", "1")


def why(folder: Path, *words: str | Path) -> Ended:
    return run(TOOLS / "why", folder, *words)


def made(place: Path, *days: tuple[str, ...]) -> Path:
    """The dossier of the lycee with these days made, each with its words."""
    folder = place / "dossier"
    shutil.copytree(LYCEE, folder)
    for words in days:
        run(TOOLS / "next_day", folder, *words)
    return folder


def check_lycee(tally: Tally) -> None:
    tally.begin("why, stored examples")
    with scratch() as place:
        folder = made(place, DATED, (), ())
        everybody = [word for number in range(1, 9) for word in ("--candidate", f"E0{number}")]
        for language in ("en", "fr"):
            ended = why(folder, *everybody, language)
            tally.equal(f"all candidates in {language}", (ended.status, ended.output.decode()),
                        (0, (DATA / f"why.{language}.txt").read_text()))
        by_id, by_number = why(folder, "V14", "v09"), why(folder, "14", "9")
        tally.equal("by ids and by numbers", by_id, by_number)
        tally.check("several wishes", by_id.output.count(b"\nWish V") == 4, by_id)
        check_refusals(tally, folder)


def check_refusals(tally: Tally, folder: Path) -> None:
    for words, status, sentence in (
        (("V99",), 1, "there is no wish V99"), (("--candidate", "E99"), 1, "no wish is of a candidate E99"),
        (("E01",), 1, "there is no wish E01 in the dossier; it has a candidate of that id"), ((), 2, "name a wish"),
        (("--candidate", "V08"), 1, "leave --candidate out"), (("fr",), 2, "name a wish"),
        (("V01", "--days", "2"), 2, "--days"),
    ):
        ended = why(folder, *words)
        tally.check(f"{words}", ended.status == status and sentence in ended.complaint and not ended.output, ended)
    tally.check("a folder without days", "no day has been made" in why(LYCEE, "V01").complaint)
    ended = run(TOOLS / "why", folder, "V01", greatest_file=10)
    is_told = ended.status == 4 and "a temporary file cannot be written" in ended.complaint
    tally.check("a full disk", is_told and not ended.output, ended)
    (folder / "days/.DS_Store").write_bytes(b"\0")
    (folder / "days/day-003 (copy)").mkdir()
    tally.equal("what else lies beside the records", why(folder, "V01").status, 0)
    report = folder / "days/day-003/report.txt"
    whole = report.read_bytes()
    report.write_text("garbage\n")
    ended = why(folder, "V14")
    tally.check("a broken record", ended.status == 3 and "is not as next_day wrote it" in ended.complaint, ended)
    report.write_bytes(whole)
    ids = (folder / "ids.csv").read_bytes()
    (folder / "ids.csv").write_bytes(ids.replace(b"E01", b"E0x").replace(b"E02", b"E01").replace(b"E0x", b"E02"))
    for tool, word in (("why", "V01"), ("tables", folder.parent / "other")):
        ended = run(TOOLS / tool, folder, word)
        tally.check(f"{tool}: ids that changed", ended.status == 3 and "ids.csv changed" in ended.complaint, ended)
    (folder / "ids.csv").write_bytes(ids)
    tally.equal("ids that were put back", why(folder, "V01").status, 0)
    (folder / "programmes.csv").write_text((folder / "programmes.csv").read_text() + "\n")
    ended = why(folder, "V01")
    tally.check("a slot that changed", ended.status == 3 and "programmes.csv changed" in ended.complaint, ended)
    (folder / "campaign.csv").unlink()
    ended = why(folder, "V01")
    tally.check("slots that were put back", ended.status == 3 and "not made to its end" in ended.complaint, ended)


def check_by_hand(tally: Tally) -> None:
    """A status that was changed by hand between two days is told as from before the second."""
    tally.begin("why, a state that was changed by hand")
    with scratch() as place:
        folder = made(place, DATED)
        state = (folder / "state.csv").read_text().replace("4,offered,2026-06-02", "4,accepted,")
        (folder / "state.csv").write_text(state)
        for _ in range(2):
            run(TOOLS / "next_day", folder)
        ended = why(folder, "V04")
        tally.check("before the day", b"It was accepted before 3 June, as the dossier says." in ended.output, ended)


def check_lost_record(tally: Tally) -> None:
    """Where the record of a day is gone, what changed on it is told as from before the next record's."""
    tally.begin("why, a record that is gone")
    with scratch() as place:
        folder = made(place, DATED, (), ())
        shutil.rmtree(folder / "days/day-002")
        ended = why(folder, "V04", "V03", "V06")
        for told in (b"accepted before 4 June, as the dossier says.", b"lapsed before 4 June, as the dossier says.",
                     b"accepted it for you on 2 June."):
            tally.check(f"{told.decode()}", told in ended.output, ended)


def check_other_wishes(tally: Tally) -> None:
    """What the record of a day says of a number is not told of somebody who had another wish on that day."""
    tally.begin("why, wishes that changed hands between two days")
    with scratch() as place:
        folder = made(place, ())
        wishes = folder / "wishes.csv"
        wishes.write_text(wishes.read_text().replace("\n1,1,1,1,0\n", "\n4,1,1,1,0\n").replace("\n4,3,", "\n1,3,"))
        run(TOOLS / "next_day", folder)
        ended = why(folder, "V06", "V07")
        for told in (b"accepted before day 2, as the dossier says.", b"gave it up before day 2, as"):
            tally.check(told.decode(), told in ended.output, ended)


def check_offers_of_the_dossier(tally: Tally) -> None:
    """An offer that came in with the dossier was made on the date that its state has, or at some time before day 1."""
    tally.begin("why, offers that came in with the dossier")
    for since, told, spoken in (
        ("2026-06-01", "on 1 June", "le 1er juin"),
        ("", "before 2 June, as the dossier says", "avant le 2 juin, d'après le dossier"),
        ("2025-12-31", "on 31 December", "le 31 décembre"), ("2026-06-04", "on 4 June", "le 4 juin"),
    ):
        with scratch() as place:
            folder = made(place)
            (folder / "state.csv").write_text(f"wish,status,since\n3,offered,{since}\n")
            for day in (1, 2):
                run(TOOLS / "next_day", folder, *(("--start", "2026-06-02", "--term", "366") if day == 1 else ()))
                is_told = f"which was made {told}." in why(folder, "V03").output.decode()
                is_spoken = f"une proposition, faite {spoken}." in why(folder, "V03", "fr").output.decode()
                tally.check(f"{since or 'no date'}, day {day}", is_told and is_spoken, why(folder, "V03"))


def check_answerer(tally: Tally) -> None:
    """Who ranks their wishes and accepted one in person is told what the automatic answerer does for them."""
    tally.begin("why, accepted in person by somebody who ranks their wishes")
    with scratch() as place:
        folder = made(place)
        (folder / "state.csv").write_text("wish,status\n6,accepted\n")
        run(TOOLS / "next_day", folder)
        for language, told in (
                ("en", "accepted before day 1, as the dossier says. There is nothing to do: of the wishes that you prefer"),
                ("fr", "Il a été accepté avant le jour 1, d'après le dossier. Il n'y a rien à faire\u00a0: parmi les vœux")):
            ended = why(folder, "V06", language)
            tally.check(language, told in ended.output.decode(), ended)


def check_stopped(tally: Tally) -> None:
    """Told to stop while the program runs, or before anything else, it says so and nothing else."""
    tally.begin("why, told to stop")
    with scratch() as place:
        folder = made(place, ())
        slow = executable(place / "slow", "#!/bin/sh\nexec sleep 60\n")
        for number in (signal.SIGTERM, signal.SIGINT):
            begun = place / "temporary"
            begun.mkdir()
            ended = stopped_once_begun(number, 0.5, begun, "why", str(folder), "V01", PARCOURS=slow)
            tally.equal(number.name, (ended.status, ended.output, ended.complaint),
                        (128 + number, b"", "why: stopped.\n"))
            tally.equal(f"{number.name}: what is left", list(begun.iterdir()), [])
            begun.rmdir()


def expected(found: Explanation, calendar: Calendar, since: str, school: object, preference: int) -> dict[str, str]:
    """The sentences of what one run of all days explains, with its days as those of the campaign."""
    def day_of(number: int) -> object:
        return calendar.today - timedelta(days=calendar.day - number) if calendar.today else number

    deadline = None
    if isinstance(found, OfferedWish) and calendar.today and calendar.term is not None:
        limit = calendar.today.fromisoformat(since) + timedelta(days=calendar.term)
        deadline = Deadline(limit, limit <= calendar.today)
    setting = Setting(moment=lambda stamp: Moment(day_of(max(stamp.day, 1)), is_before=stamp.day == 0),
                      deadline=deadline, may_lapse=calendar.today is not None, has_answerer=preference > 0,
                      has_boarding=bool(school))
    return {language: " ".join(sentences(found, setting, language)) for language in LANGUAGES}


def check_campaigns(tally: Tally, program: str) -> None:
    tally.begin(f"why after {DAYS} days against explain of one run, {CAMPAIGNS} random campaigns")
    random = Random(SEED)
    kinds = set()
    for number in range(CAMPAIGNS):
        term = (None, 0, 2)[number % 3]
        with scratch() as place:
            dossier = grown(program, random, place / "dossier", term)
            shutil.copytree(place / "dossier", place / "whole")
            for day in range(DAYS):
                is_dated = term is not None and day == 0
                next_day(place / "dossier", Calendar(1, FIRST_DAY, term) if is_dated else Calendar())
            last = kept_days(place / "dossier")[-1]
            dated = [] if term is None else ["--start", str(FIRST_DAY), "--term", str(term)]
            wishes = {str(wish): (school, int(preference)) for wish, _, _, school, preference in dossier.rows["wishes"]}
            told = {language: why(place / "dossier", *wishes, language).output.decode().split("\n\n")[1:]
                    for language in ("en", "fr")}
            for place_of, (wish, (school, preference)) in enumerate(wishes.items()):
                line = run(program, "explain", "--wish", wish, "--days", str(DAYS), *dated, folder=place / "whole")
                found = explanation_of(line.output.decode().rstrip("\n"))
                kinds.add(type(found).__name__)
                since = last.after[int(wish)].since
                for language, sentences in expected(found, last.calendar, since, school, preference).items():
                    seen = told[language][place_of].rstrip("\n").partition("\n")[2]
                    tally.equal(f"campaign {number}, wish {wish}, {language}", seen, sentences)
    tally.check("each kind of explanation is among them", len(kinds) == 5, kinds)
