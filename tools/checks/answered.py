"""The answers of a day as a sheet: taken in where all of them fit, and else told, each with whose it is."""

import re
import shutil
from pathlib import Path
from random import Random

from .dossiers import FIRST_DAY, random_dossier
from .harness import EXAMPLES, TOOLS, Ended, Tally, contents, run, scratch
from .whys import DATED, made

CAMPAIGNS = 15
SEED = 41
LYCEE = EXAMPLES / "lycee/slots"
TITLES = "Date;N° candidat;Nom;N° vœu;Réponse\n"
DAY_FIRST = ("--dates", "day-first")
KINDS = {"accepter": "accept", "refuser": "refuse", "retirer": "withdraw", "démission": "quit"}


def take_in(folder: Path, sheet: str, *words: str) -> Ended:
    (folder.parent / "réponses.csv").write_bytes(sheet.encode("cp1252"))
    return run(TOOLS / "take_in", folder, folder.parent / "réponses.csv", *words)


def answers_of(folder: Path) -> list[str]:
    return (folder / "answers.csv").read_text().split()[1:]


def check_taken(tally: Tally) -> None:
    tally.begin("take_in, answers that fit")
    with scratch() as place:
        folder = made(place, DATED)
        (folder / "answers.csv").write_text("day,kind,target\n2,accept,2\n")
        sheet = (f"{TITLES}03/06/2026;E03;Léa;V04;accepter\n3 juin 2026;E06;;v10;accepte\n;E05;;;démission\n"
                 "04/06/2026;;;2;accepter\n")
        ended = take_in(folder, sheet, *DAY_FIRST)
        tally.check("taken in", ended.status == 0 and "déjà là\u00a0: 1." in ended.output.decode(), ended)
        taken = ["1,accept,4", "1,accept,10", "1,quit,5", "2,accept,2"]
        tally.equal("the slot", answers_of(folder), taken)
        tally.equal("once more", (take_in(folder, sheet, *DAY_FIRST).status, answers_of(folder)), (0, taken))
        other = "wish or candidate;answer\nV10;refuse\n"
        tally.equal("in place of others", take_in(folder, other, "--replace").status, 0)
        tally.equal("the slot then", answers_of(folder), ["1,refuse,10", "2,accept,2"])
        tally.equal("the day is made", run(TOOLS / "next_day", folder).status, 0)
        tally.equal("the next day", take_in(folder, "jour;cible;réponse\n1;E06;démission\n").status, 0)
        tally.equal("its slot", answers_of(folder), ["1,accept,2", "1,quit,6"])


def check_faults(tally: Tally) -> None:
    """All that is wrong is told at once, and nothing is changed."""
    tally.begin("take_in, answers that do not fit")
    with scratch() as place:
        folder = made(place, DATED)
        (folder / "answers.csv").write_text("day,kind,target\n")
        before = contents(folder)
        rows = (
            ("03/06/2026;E01;;V01;accepter", "V01 du candidat E01, pour MPSI, en est alors là\u00a0: en attente"),
            (";E06;;V10;retirer", "V10 du candidat E06, pour BTS CG, en est alors là\u00a0: proposition"),
            (";;;V07;accepter", "V07 du candidat E04, pour BTS CG, en est alors là\u00a0: refusé automatiquement"),
            (";E05;;V12;refuser", "le vœu V12 est du candidat E07, et non du candidat E05"),
            (";;;V99;refuser", "pas de vœu V99"),
            ("02/06/2026;;;V04;accepter", "2026-06-02 est passé\u00a0: le jour qui vient est 2026-06-03"),
            (";E99;;;démission", "aucun vœu n'est d'un candidat E99"), (";E01;;;accepter", "ne nomme pas de vœu"),
            (";;;V04;démission", "ne dit pas de qui"), (";;;V04;renonce", "se lit de deux façons"),
            ("04/07/2028;;;V04;refuser", "plus d'un an"),
            ("demain;;;V04;refuser", "demain n'est ni le numéro d'un jour, ni une date"),
            ("-1;;;V04;refuser", "-1 n'est pas un nombre entier"), ("367,0;;;V04;refuser", "367 n'est pas entre 1 et"),
        )
        ended = take_in(folder, TITLES + "".join(f"{row}\n" for row, _ in rows), *DAY_FIRST)
        for row, sentence in rows:
            tally.check(row, sentence in ended.complaint, ended.complaint)
        tally.check("status", ended.status == 1 and ended.complaint.endswith("rien n'est écrit.\n"), ended)
        tally.equal("nothing is changed", contents(folder), before)


def check_sheets(tally: Tally) -> None:
    """Sheets that name no answers, or a row of which names two that do not belong together; words and files that are
    none."""
    tally.begin("take_in, sheets that are not taken")
    with scratch() as place:
        folder = made(place, DATED)
        for sheet, words, status, sentence in (
            ("réponse;nom\naccepter;A\n", (), 1, "aucune colonne ne nomme"), ("ville\nLyon\n", (), 1, "no slot"),
            ("", (), 1, "empty"),
            ("N° de votre vœu;Votre choix;Jours\nV04;accepter;1\n", (), 1, '--leave-out "Jours"'),
            ("Vœu;Choix final;Jours\nV04;accepter;1\n", (), 1, '--column "TITLE=kind"'),
            ("Votre vœu;Votre réponse;Jours\nV99;accepter;1\n", ("--leave-out", "jours"), 1, "pas de vœu V99"),
            ("cible;réponse\nV04;accepter\n", ("--dates", "year-first"), 2, "--dates"),
            ("candidat;vœu;réponse\nE07;V08;démission\n", (), 1, "V08 est du candidat E05, et non du candidat E07"),
            ("candidat;vœu;réponse\nE07;V98;démission\n", (), 1, "pas de vœu V98"),
            ("cible;candidat;réponse\nE03;E06;démission\n", (), 1, "nomme à la fois E03 et E06"),
            ("cible;vœu;réponse\nV04;V10;accepter\n", (), 1, "nomme à la fois V04 et V10"),
        ):
            ended = take_in(folder, sheet, *words)
            tally.check(f"{sheet!r}", ended.status == status and sentence in ended.complaint, ended)
        shutil.copytree(LYCEE, place / "new")
        ended = take_in(place / "new", TITLES + "03/06/2026;E03;;V03;refuser\n", *DAY_FIRST)
        tally.check("no dates", "la campagne n'a pas de dates" in ended.complaint, ended)
        dated = (*DAY_FIRST, "--start", "2026-06-03", "--term", "5")
        ended = take_in(place / "new", TITLES + "03/06/2026;E02;;V03;refuser\n", *dated)
        tally.check("a start", ended.status == 0 and "1,refuse,3" in answers_of(place / "new"), ended)
        tally.equal("no folder", run(TOOLS / "take_in", place / "no", place / "réponses.csv").status, 3)
        tally.equal("no sheet", run(TOOLS / "take_in", folder, place / "no.csv").status, 3)
        ended = run(TOOLS / "take_in", folder, place / "réponses.csv", greatest_file=10)
        tally.check("a full disk", ended.status in (1, 3, 4) and "Traceback" not in ended.complaint, ended)


def check_broken_slots(tally: Tally) -> None:
    """A dossier that the program does not take is told with its slot and row, and left as it is."""
    tally.begin("take_in, slots that are not as the program takes them")
    for name, data, row in (
        ("wishes.csv", b"wish,candidate,programme,school,preference\nV1,1,1,,0\n", 2),
        ("wishes.csv", b"wish,candidate,programme,school\n1,1,1,\n", 1), ("wishes.csv", b"", 1),
        ("answers.csv", b"day,kind,target\n1,accept\n", 2), ("answers.csv", b"day,kind,target\n1,accept\xe9,1\n", 1),
        ("answers.csv", "day,kind,target\n".encode("utf-16"), 1), ("answers.csv", b"jour,type,cible\n", 1),
        ("answers.csv", b"day,kind,target\n1,accept,4\n1,accept,x\n", 3),
        ("answers.csv", b"day,kind,target\n1,accept," + b"1" * 200_000, 2),
    ):
        with scratch() as place:
            folder = made(place)
            (folder / name).write_bytes(data)
            before = contents(folder)
            ended = take_in(folder, "cible;réponse\nV10;accepter\n")
            told = ended.status == 3 and f"{name}, row {row}" in ended.complaint and "Traceback" not in ended.complaint
            tally.check(f"{name}: {data[:60]!r}", told and not ended.output, ended)
            tally.equal(f"{name}: nothing is changed", contents(folder), before)


def check_random(tally: Tally, program: str) -> None:
    """What is told as unfit is what must be taken out for the program to make the day, and no more."""
    tally.begin(f"take_in, random answers of {CAMPAIGNS} random dossiers")
    random = Random(SEED)
    seen = [0, 0]
    for number in range(CAMPAIGNS):
        with scratch() as place:
            dossier = random_dossier(random)
            dossier.rows["answers"] = []
            folder = place / "dossier"
            dossier.write(folder)
            wishes = dossier.rows["wishes"]
            answers = []
            for _ in range(min((0, 1, 2, 6)[number % 4], 2 * len(wishes))):
                wish, candidate, *_ = random.choice(wishes)
                kind = random.choice(("démission", "retirer", *KINDS))
                answers.append((kind, candidate if kind == "démission" else wish))
            sheet = "cible;réponse\n" + "".join(f"{target};{kind}\n" for kind, target in answers)
            ended = take_in(folder, sheet, "--start", str(FIRST_DAY), "--term", "366")
            unfit = {int(row) - 2 for row in re.findall(r"ligne (\d+)\u00a0: ", ended.complaint)}
            seen[bool(unfit)] += 1
            name = f"dossier {number}: {answers}"
            tally.equal(f"{name}: status", ended.status, 1 if unfit else 0)
            fitting = [f"1,{KINDS[kind]},{target}" for place_of, (kind, target) in enumerate(answers)
                       if place_of not in unfit]
            (folder / "answers.csv").write_text("\n".join(["day,kind,target", *fitting, ""]))
            ended = run(program, "replay", "--start", str(FIRST_DAY), "--term", "366", folder=folder)
            tally.equal(f"{name}: the others fit", ended.status, 0)
    tally.check("some fit and some do not", min(seen) > 1, seen)
