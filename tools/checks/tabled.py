"""From numbers back to names: the tables of a campaign, ids that stay, and a campaign's own state prepared again."""

import csv
import io
import shutil
from pathlib import Path
from random import Random

from dossier.campaign import next_day
from dossier.dating import Calendar
from dossier.naming import IDS
from dossier.outputs import DIALECTS

from .days import DAYS, grown
from .dossiers import FIRST_DAY
from .harness import DATA, EXAMPLES, TOOLS, Ended, Tally, contents, run, scratch
from .whys import DATED, made

CAMPAIGNS = 4
SEED = 31
NAMES = "N° candidat;Nom;Prénom;Ville\r\nE01;Durand;Zoé;Lyon\r\nE08;=1+1;Léa;Nice\r\n"
LYCEE = EXAMPLES / "lycee"


def tables(folder: Path, out: Path, *words: str | Path) -> Ended:
    return run(TOOLS / "tables", folder, out, *words, environment={"LC_ALL": "C.UTF-8"})


def table_in(out: Path, name: str, dialect: str = "semicolons") -> list[dict[str, str]]:
    """The rows of a table by title."""
    how = DIALECTS[dialect]
    text = (out / name).read_bytes().removeprefix(how.mark).decode(how.codec)
    return list(csv.DictReader(io.StringIO(text, newline=""), delimiter=how.separator))


def check_lycee(tally: Tally) -> None:
    tally.begin("tables, stored examples")
    with scratch() as place:
        folder = made(place, DATED, (), ())
        (place / "names.csv").write_bytes(NAMES.encode("cp1252"))
        ended = tables(folder, place / "fr", "--lang", "fr", "--names", place / "names.csv")
        tally.equal("French: status", (ended.status, ended.complaint), (0, ""))
        tally.equal("French", contents(place / "fr"), contents(DATA / "tables-fr"))
        ended = tables(folder, place / "plain", "--dialect", "plain")
        tally.equal("plain", contents(place / "plain"), contents(DATA / "tables-plain"))
        for dialect in DIALECTS:
            tables(folder, place / dialect, "--dialect", dialect) if dialect != "plain" else None
            rows = table_in(place / dialect, "wishes.csv", dialect)
            tally.check(dialect, len(rows) == 14 and rows[13]["Answer by"] == "2026-06-05", rows)
        check_refusals(tally, folder, place)


def check_refusals(tally: Tally, folder: Path, place: Path) -> None:
    (place / "none.csv").write_text("Ville\nLyon\n")
    for words, status, sentence in (
        ((folder, place / "fr"), 3, "is there already"), ((folder, place / "no/new"), 3, "no folder to be in"),
        ((folder, place / "fr", "--lang", "fr"), 3, "est déjà là"),
        ((folder, place / "no/new", "--lang", "fr"), 3, "le dossier qui doit contenir"),
        ((folder, place / ("x" * 300), "--lang", "fr"), 4, "rien n'est écrit"),
        ((place / "no", place / "new"), 3, "there is no folder"),
        ((LYCEE / "slots", place / "new"), 3, "no day has been"),
        ((folder, place / "new", "--names", place / "none.csv"), 1, "no sheet with ids"),
        ((folder, place / "new", "--names", place / "no.csv"), 3, "no.csv"), ((folder,), 2, "usage"),
        ((folder, place / "new", "--dialect", "dots"), 2, "--dialect"),
    ):
        ended = run(TOOLS / "tables", *words)
        is_told = ended.status == status and sentence in ended.complaint
        tally.check(f"{[str(word) for word in words[1:]]}", is_told, ended)
        tally.check("nothing is written", not (place / "new").exists())
    ended = run(TOOLS / "tables", folder, place / ("x" * 300))
    is_told = ended.status == 4 and "nothing is written" in ended.complaint
    tally.check("a name that is too long", is_told, ended)
    ended = run(TOOLS / "tables", folder, place / "new", greatest_file=100)
    is_told = ended.status == 4 and "Traceback" not in ended.complaint
    tally.check("a full disk", is_told and not (place / "new").exists(), ended)


def check_names(tally: Tally) -> None:
    """A number in a sheet of names is nobody's whose id it is not, whatever number the dossier gave to that id."""
    tally.begin("tables, names of somebody else")
    with scratch() as place:
        folder = made(place, ())
        (place / "names.csv").write_text("candidate,name\n3,Somebody Else\nE03,Ada\n")
        ended = tables(folder, place / "out", "--dialect", "plain", "--names", place / "names.csv")
        rows = table_in(place / "out", "wishes.csv", "plain")
        names = {row["Candidate"]: row["Name of the candidate"] for row in rows}
        tally.check("the name is that of the id", names["E03"] == "Ada" and set(names.values()) == {"", "Ada"}, ended)
        titles = "N° candidat;Nom de naissance;Prénom(s);Nom du responsable 1;Nom établissement d'origine"
        (place / "names.csv").write_text(f"{titles}\nE03;Durand;Zoé;Martin;Lycée Nord\n")
        ended = tables(folder, place / "own", "--dialect", "plain", "--names", place / "names.csv")
        rows = table_in(place / "own", "wishes.csv", "plain")
        tally.equal("no name of others", {row["Name of the candidate"] for row in rows}, {"", "Durand Zoé"})
        told = "names.csv: names are in Nom de naissance, Prénom(s)\n"
        tally.check("where names are is said", ended.output.decode().startswith(told), ended)
        (place / "names.csv").write_text("candidate,name,surname\nE03,Zoé,Durand\nE01,Ada,\nE03,DURAND,zoe\n")
        ended = tables(folder, place / "twice", "--names", place / "names.csv")
        tally.equal("one name, spelled in two ways", ended.status, 0)
        (place / "others.csv").write_text("candidate,name\nE03,Durand\n")
        for language, told in (("en", "others.csv has two names for E03"), ("fr", "others.csv a deux noms pour E03")):
            ended = tables(folder, place / "new", "--lang", language, "--names", place / "names.csv", "--names",
                           place / "others.csv")
            is_told = ended.status == 1 and told in ended.complaint and not (place / "new").exists()
            tally.check(f"two names, {language}", is_told, ended)


def check_other_wishes(tally: Tally) -> None:
    """Whose an offer was is not told by wishes that have changed since."""
    tally.begin("tables, wishes that changed hands between two days")
    with scratch() as place:
        folder = made(place, ())
        wishes = folder / "wishes.csv"
        wishes.write_text(wishes.read_text().replace("\n2,1,1,,0\n", "\n2,2,1,,0\n").replace("\n3,2,1,,0\n", "\n"))
        state = folder / "state.csv"
        state.write_text("".join(line for line in state.read_text().splitlines(True) if not line.startswith("3,")))
        run(TOOLS / "next_day", folder)
        ended = tables(folder, place / "out", "--dialect", "plain")
        first, second = (table_in(place / "out", f"offers-of-day-00{day}.csv", "plain") for day in (1, 2))
        is_told = b"of the offers of day 1 the tables name the wish alone" in ended.output
        tally.check("of the day before, the wish alone",
                    is_told and first and all(row["Wish"] and not row["Candidate"] for row in first), ended)
        tally.check("of the day after, whose it is", all(row["Candidate"] for row in second), second)


def check_other_ids(tally: Tally) -> None:
    """What an older report numbers is not called by ids that stand for other numbers today."""
    tally.begin("tables, ids that changed between two days")
    with scratch() as place:
        folder = made(place, ())
        ids = folder / "ids.csv"
        was = ids.read_text()
        ids.write_text(was.replace("V04", "V0x").replace("V06", "V04").replace("V0x", "V06").replace(
            "Nord", "x").replace("Sud", "Nord").replace(",x,", ",Sud,"))
        run(TOOLS / "next_day", folder)
        ended = tables(folder, place / "out", "--dialect", "plain", "--lang", "en")
        told = b"of the offers and bars of day 1 the tables have the numbers of the report" in ended.output
        offers = table_in(place / "out", "offers-of-day-001.csv", "plain")
        tally.equal("offers of day 1", [row["Wish"] for row in offers], ["4", "6", "7", "11", "10"])
        bars = [(row["Day"], row["Boarding school"]) for row in table_in(place / "out", "bars.csv", "plain")]
        tally.check("the bars of day 1 by numbers, those of day 2 by ids",
                    told and set(bars) == {("1", "1"), ("1", "2"), ("2", "Nord"), ("2", "Sud")}, (ended, bars))
        ids.unlink()
        (folder / "answers.csv").write_text("day,kind,target\n")
        run(TOOLS / "next_day", folder)
        ended = tables(folder, place / "none", "--dialect", "plain", "--lang", "en")
        tally.check("no ids any more", b"of the offers and bars of day 1, 2 the tables" in ended.output, ended)


def check_long_ids(tally: Tally) -> None:
    """Ids of any length, and of letters that take four bytes each, make names of files."""
    tally.begin("tables, long ids")
    with scratch() as place:
        folder = made(place)
        ids = folder / "ids.csv"
        ids.write_text(ids.read_text().replace("MPSI", "\U0001d49c" * 90).replace("Nord", "n" * 300))
        run(TOOLS / "next_day", folder)
        ended = tables(folder, place / "out", "--lang", "en")
        names = sorted(path.name for path in (place / "out").iterdir()) if ended.status == 0 else []
        is_there = {name[:11] for name in names} >= {"boarding-sc", "programme-\U0001d49c"}
        tally.check("their files", is_there and all(len(name.encode()) < 250 for name in names), (ended, names))


def check_queues(tally: Tally, program: str) -> None:
    """A place in the waiting list never gets worse, and statuses are those of the state."""
    tally.begin(f"tables after each of {DAYS} days, {CAMPAIGNS} random campaigns")
    random = Random(SEED)
    moved = 0
    for number in range(CAMPAIGNS):
        term = (None, 1)[number % 2]
        with scratch() as place:
            grown(program, random, place / "dossier", term)
            before: dict[str, int] = {}
            for day in range(DAYS):
                next_day(place / "dossier", Calendar(1, FIRST_DAY, term) if term and day == 0 else Calendar())
                out = place / f"out-{day}"
                tables(place / "dossier", out, "--dialect", "plain")
                rows = table_in(out, "wishes.csv", "plain")
                places = {row["Wish"]: int(row["Place in the waiting list"]) for row in rows
                          if row["Place in the waiting list"]}
                worse = {wish for wish in places if wish in before and places[wish] > before[wish]}
                tally.equal(f"campaign {number}, day {day + 1}: no place is worse", worse, set())
                moved += sum(places[wish] < before.get(wish, 0) for wish in places)
                before = places
                check_state(tally, f"campaign {number}, day {day + 1}", rows, place / "dossier/state.csv", places)
    tally.check("some places are better from day to day", moved > 0, moved)


def check_state(tally: Tally, name: str, rows: list[dict[str, str]], state: Path, places: dict[str, int]) -> None:
    with open(state, newline="") as file:
        held = {row["wish"]: row["status"] for row in csv.DictReader(file)}
    words = {"offered": "offer", "auto_refused": "refused automatically", "auto_withdrawn": "withdrawn automatically"}
    tally.equal(f"{name}: statuses", {row["Wish"]: row["Status"] for row in rows},
                {wish: words.get(status, status) for wish, status in held.items()})
    tally.equal(f"{name}: who waits has a place", set(places), {wish for wish in held if held[wish] == "waiting"})


def check_ids_stay(tally: Tally) -> None:
    """With --ids, or with ids.csv among the sheets, an id keeps its number; a state of numbers is read back."""
    tally.begin("prepare, ids that stay")
    with scratch() as place:
        folder = made(place, DATED, (), ())
        exports = place / "exports"
        shutil.copytree(LYCEE / "exports", exports)
        fewer = place / "fewer"
        shutil.copytree(exports, fewer)
        wishes = (fewer / "voeux.csv").read_bytes().decode("utf-16").splitlines(True)
        (fewer / "voeux.csv").write_bytes("".join(row for row in wishes if "V13" not in row).encode("utf-16"))
        ended = run(TOOLS / "prepare", fewer, place / "without", "--ids", folder, "--dates", "day-first")
        told = "vœux, 13 numéros de 1 à 14\n" in ended.output.decode() and len(wishes) > 14
        tally.check("numbers with a gap are not told as without", told, ended)
        header, *rows = (exports / "classements.csv").read_text().split("\n")
        added = ["0;E00;CPGE;FAUX;FAUX", *(row for row in reversed(rows) if row.strip())]
        (exports / "classements.csv").write_text("\n".join([header, *added, ""]).replace("0;E00", "9;E00"))
        for name in ("state.csv", "ceilings.csv", "answers.csv"):
            shutil.copy(folder / name, exports)
        for name in ("etat.csv", "plafonds.csv", "reponses.csv"):
            (exports / name).unlink()
        refused = run(TOOLS / "prepare", exports, place / "new")
        told = refused.status == 1 and "--ids" in refused.complaint
        tally.check("numbers of a campaign without its ids", told, refused)
        for name, words in (("by the folder", ("--ids", folder)), ("by the file", ("--ids", folder / IDS)),
                            ("among the sheets", ())):
            if not words:
                shutil.copy(folder / IDS, exports)
            ended = run(TOOLS / "prepare", exports, place / "new", *words)
            tally.equal(f"{name}: status", (ended.status, ended.complaint), (0, ""))
            ids = (place / "new" / IDS).read_text()
            tally.equal(name, ids.replace("9,,,,E00,V09", "9,,,,,V09"), (folder / IDS).read_text())
            tally.equal(f"{name}: the state", (place / "new/state.csv").read_bytes(),
                        (folder / "state.csv").read_bytes())
            shutil.rmtree(place / "new")
        other = (exports / "voeux.csv").read_bytes().decode("utf-16").replace("V14", "3")
        (exports / "voeux.csv").write_bytes(other.encode("utf-16"))
        ended = run(TOOLS / "prepare", exports, place / "new", "--lang", "en")
        is_told = "has the number that an earlier dossier gave to V03" in ended.complaint
        tally.check("a number that is taken", is_told, ended)
        (exports / IDS).write_text("number;group\n")
        ended = run(TOOLS / "prepare", exports, place / "new")
        tally.check("a broken table of ids", ended.status == 3 and "no table of ids" in ended.complaint, ended)
