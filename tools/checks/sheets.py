"""Exports as hurried users make them: each is read in its one reading, or told as a fault."""

import shutil
from dataclasses import dataclass

from .harness import EXAMPLES, TOOLS, Tally, run, scratch

GROUPS = "group;scholar_pct;resident_pct\n"
READ = "group,scholar_pct,resident_pct\n1,2,3\n"
WORKBOOKS = (b"PK\x03\x04\x14\x00\x06\x00", b"\xd0\xcf\x11\xe0\xa1\xb1")
DAY_FIRST = ("--dates", "day-first")
GROUP_SHEETS: tuple[tuple[str, str | bytes, str], ...] = (
    ("separators at the end of each row", "group;scholar_pct;resident_pct;;\n1;2;3;;\n", READ),
    ("separators at the end of the first row alone", "group;scholar_pct;resident_pct;;\n1;2;3\n", READ),
    ("separators at the end of the other rows alone", "group;scholar_pct;resident_pct\n1;2;3;;;;\n", READ),
    ("a cell in a column without a name", "group;scholar_pct;resident_pct;;\n1;2;3;;x\n", "column without a name"),
    ("a column that is named by a dash", "group;-;scholar_pct;resident_pct\n1;a;2;3\n", "column without a name"),
    ("the same column twice", "group;scholar_pct;scholar_pct;resident_pct\n1;2;2;3\n", "2 columns are named"),
    ("the same column in two languages", "group;groupe;scholar_pct;resident_pct\n1;1;2;3\n", "2 columns are named"),
    ("a title above the names", f"Export\n\n{GROUPS}1;2;3\n", "names the columns of no slot"),
    ("the row of names twice", GROUPS + GROUPS + "1;2;3\n", "not a whole number"),
    ("200 columns more", GROUPS[:-1] + ";c" * 200 + "\n1;2;3" + ";x" * 200 + "\n", READ),
    ("each kind of line end", b"group;scholar_pct;resident_pct\r\n1;2;3\n\r2;2;3\r3;2;3",
     READ + "2,2,3\n3,2,3\n"),
    ("a byte order mark", b"\xef\xbb\xbf" + GROUPS.encode() + b"1;2;3\n", READ),
    ("two byte order marks", b"\xef\xbb\xbf" * 2 + GROUPS.encode() + b"1;2;3\n", "two byte order marks"),
    ("two exports, one below the other", f"{GROUPS}1;2;3\n\ufeff2;2;3\n", "cannot be seen (U+FEFF)"),
    ("a space of no width in an id", f"{GROUPS}7\u200b;2;3\n", "cannot be seen (U+200B)"),
    ("a soft hyphen in a number", f"{GROUPS}1;2\u00ad0;3\n", "cannot be seen (U+00AD)"),
    ("a bell in an id", f"{GROUPS}a\x07;2;3\n", "cannot be seen (U+0007)"),
    ("a line break in an id", f'{GROUPS}"A\nB";2;3\n', READ),
    ("quotes inside a cell", f'{GROUPS}A "B" C;2;3\n', READ),
    ("a quote that is not closed", f'{GROUPS}"A;2;3\n', "quotes are broken"),
    ("thin spaces between thousands", f"{GROUPS}1\u202f000;2;3\n", READ.replace("\n1,", "\n1000,")),
    ("blanks before the sign", f"{GROUPS}1;2\u00a0%;3 %\n", READ),
    ("a decimal comma", f"{GROUPS}1;2,5;3\n", "2,5 is not a whole number"),
    ("a share in place of a percentage", f"{GROUPS}1;0,2;3\n", "0,2 has two readings"),
    ("a minus sign", f"{GROUPS}1;-2;3\n", "-2 is not a whole number"),
    ("a long number", f"{GROUPS}1;{'9' * 5000};3\n", "is not a whole number"),
    ("a long remark", f"{GROUPS[:-1]};remark\n1;2;3;{'x' * 200_000}\n", READ),
    ("a long title", f"{GROUPS[:-1]};{'x' * 200_000}\n1;2;3;4\n", READ),
    ("a formula", f'{GROUPS}="007";2;3\n', "is a formula"),
    ("an error of one spreadsheet", f"{GROUPS}1;#VALEUR!;3\n", "an error of the spreadsheet"),
    ("an error of another one", f"{GROUPS}Err:502;2;3\n", "an error of the spreadsheet"),
    *(("a workbook", start + bytes(range(256)), "it is a workbook") for start in WORKBOOKS),
)


@dataclass(frozen=True)
class Sheets:
    """Exports beside those of `examples/blank`, and the words of `prepare`."""

    files: dict[str, bytes]
    words: tuple[str, ...] = ()

    def prepared(self, slot: str) -> tuple[str, str]:
        """The slot that is prepared of them, none where something is a fault, and what is complained of."""
        with scratch() as folder:
            shutil.copytree(EXAMPLES / "blank", folder / "exports")
            for name, data in self.files.items():
                (folder / "exports" / name).write_bytes(data)
            ended = run(TOOLS / "prepare", "exports", "slots", *self.words, folder=folder)
            made = folder / "slots" / slot
            return made.read_text() if made.exists() else "", ended.complaint


def check_sheets(tally: Tally) -> None:
    tally.begin("prepare, exports of hurried users")
    for name, sheet, expected in GROUP_SHEETS:
        data = sheet if isinstance(sheet, bytes) else sheet.encode()
        found, complaint = Sheets({"groups.csv": data}).prepared("groups.csv")
        if "," in expected and expected.endswith("\n"):
            tally.equal(name, (found, complaint), (expected, ""))
        else:
            is_told = expected in complaint and "Traceback" not in complaint
            tally.check(name, found == "" and is_told, complaint)


HEADERS = (
    ("groups.csv", "Code groupe;Taux min. boursiers;% secteur", "1;20 %;30 %",
     "group,scholar_pct,resident_pct\n1,20,30\n"),
    ("groups.csv", "N° du groupe;Taux de boursiers;Taux du secteur;Libellé", "1;20 %;30 %;MPSI",
     "group,scholar_pct,resident_pct\n1,20,30\n"),
    ("groups.csv", "Groupe;Taux boursiers (%);Taux secteur (en %)", "1;20;30",
     "group,scholar_pct,resident_pct\n1,20,30\n"),
    ("programmes.csv", "Code formation;Code groupe;Nb places;Intitulé;Ville", "7;1;2;MPSI;Lyon",
     "programme,group,seats\n7,1,2\n"),
    ("schools.csv", "N° internat;Nb lits;Plafond", "5;2;9", "school,beds,ceiling\n5,2,9\n"),
    ("rankings.csv", "Code groupe;N° candidat;Nom;Prénom;Rang;Boursier(e);Candidat du secteur", "1;4;A;B;1;OUI;NON",
     "group,candidate,rank,scholar,resident\n1,4,1,1,0\n"),
    ("rankings.csv", "Groupe;Candidat;Rang;Boursier (O/N);Secteur ?", "1;4;1;O;N",
     "group,candidate,rank,scholar,resident\n1,4,1,1,0\n"),
    ("rankings.csv", "Groupe;Candidat;Rang;Bourse CROUS;Secteur géo", "1;4;1;O;N", '--column "TITRE=scholar"'),
    ("rankings.csv", "Groupe;INE;Rang;Boursier;Secteur", "1;4;1;O;N", '--column "INE=candidate"'),
    ("rankings.csv", "Groupe;INE;Nom;Rang;Boursier;Secteur", "1;4;A;1;O;N", '--column "TITRE=candidate"'),
    ("boarding.csv", "Internat;Numéro de candidat;Rang internat", "5;4;1", "school,candidate,rank\n5,4,1\n"),
    ("wishes.csv", "N° vœu;N° candidat;Nom;Code formation;Internat;Ordre de préférence", "3;4;A;7;5;0",
     "wish,candidate,programme,school,preference\n3,4,7,5,0\n"),
    ("state.csv", "N° de vœu;Vœu;Statut;Depuis le", "3;3;en attente;", "2 columns"),
    ("state.csv", "N° de vœu;État du vœu;Statut;Depuis le", "3;x;en attente;", "wish,status,since\n3,waiting,\n"),
    ("state.csv", "N° de vœu;Statut;Remarque", "3;en attente;rappeler", "wish,status\n3,waiting\n"),
    ("answers.csv", "Jour;Réponse;Vœu ou candidat;Nom", "1;retirer;3;A", "day,kind,target\n1,withdraw,3\n"),
)


def check_headers(tally: Tally) -> None:
    """Titles as people write them, with names and towns beside them."""
    tally.begin("prepare, titles")
    whole = {name: f"{titles}\n{row}\n".encode() for name, titles, row, expected in HEADERS
             if expected.endswith("\n")}
    for name, titles, row, expected in HEADERS:
        found, complaint = Sheets({**whole, name: f"{titles}\n{row}\n".encode()}).prepared(name)
        told = expected in complaint.replace("2 colonnes", "2 columns")
        tally.check(f"{name}: {titles}", found == expected or not found and told, (found, complaint))
    odd = {**whole, "boarding.csv": b"Internat;Eleve n;Place au classement;Candidat\n5;4;1;Dupont\n"}
    found, complaint = Sheets(odd).prepared("boarding.csv")
    needed = "--leave-out" not in complaint and "--column" in complaint
    tally.check("no advice to leave out what is needed", found == "" and needed, complaint)
    flags = {**whole, "rankings.csv": "Groupe;Candidat;Rang;Bourse CROUS;Secteur géo\n1;4;1;O;N\n".encode()}
    _, complaint = Sheets(flags, ("--column", "Bourse CROUS=scholar")).prepared("rankings.csv")
    is_told = '--column "Secteur géo=resident"' in complaint
    tally.check("the last of two flags, which has no title yet", is_told, complaint)
    words = ("--column", "eleve n=candidate", "--column", "Place au classement=rank")
    found, complaint = Sheets(odd, words).prepared("boarding.csv")
    tally.equal("columns as the user says", found, "school,candidate,rank\n5,4,1\n")
    for title in ("Rang du dernier appelé", "rang du dernier appelé 2025"):
        last = {**whole, "programmes.csv": f"formation;groupe;places;{title}\n7;1;2;40\n".encode()}
        found, complaint = Sheets(last).prepared("programmes.csv")
        tally.check(f"{title} is no call limit", found == "" and f'--leave-out "{title}"' in complaint, complaint)
        found, complaint = Sheets(last, ("--leave-out", title)).prepared("programmes.csv")
        tally.equal(f"{title} is left out", (found, complaint), ("programme,group,seats\n7,1,2\n", ""))
    ordered = {**whole, "wishes.csv": "vœu;candidat;formation;internat;ordre\n3;4;7;5;1\n".encode()}
    found, complaint = Sheets(ordered).prepared("wishes.csv")
    is_asked = found == "" and '--column "ordre=preference"' in complaint
    tally.check("an order may be one of preference, or of the rows", is_asked, complaint)
    for titles, is_for_take_in in (
        ("Réponse;Candidat;Vœu", True), ("Réponse;Vœu", True), ("Réponse;Vœu ou candidat", True), ("kind,target", True),
        ("Jour;Réponse;Vœu", False), ("Le;Réponse;Vœu ou candidat", False)):
        found, complaint = Sheets({**whole, "answers.csv": f"{titles}\n".encode()}).prepared("answers.csv")
        is_told = ("give it to take_in" in complaint or "donnez-la à take_in" in complaint) == is_for_take_in
        tally.check(f"{titles}, a sheet for take_in", found == "" and is_told, complaint)
    found, complaint = Sheets({**whole, "names.csv": b"N candidat;Nom\n4;Dupont\n"}).prepared("boarding.csv")
    tally.check("a sheet of names beside the nine", found != "" and complaint == "", complaint)


def check_codes(tally: Tally) -> None:
    """Windows-1252 beside Mac Roman, Latin-9, and MS-DOS."""
    tally.begin("prepare, typographic letters")
    for name, text, codec, expected in (
        ("quotes and dashes", "L’Été – “Nord”", "cp1252", "L’Été – “Nord”"),
        ("an œ", "Sacré-Cœur", "cp1252", "Sacré-Cœur"),
        ("accents of a Mac", "Été", "mac-roman", ""), ("a Mac's word", "Benoît", "mac-roman", ""),
        ("Latin-9", "Sacré-Cœur", "iso8859-15", "Sacré-Cœur"), ("Latin-1", "Été", "latin-1", "Été"),
        ("MS-DOS", "Évry, l'été à Noël", "cp850", "Évry, l'été à Noël"), ("its capitals", "RENÉ", "cp850", "RENÉ"),
        ("a Mac's capital", "Pêche", "mac-roman", "Pêche"), ("a low quote within a word", "élève d‚ici", "cp1252",
                                                        "élève d‚ici"),
    ):
        data = f"school;beds;ceiling\n{text};1;1\n".encode(codec)
        found, complaint = Sheets({"schools.csv": data}).prepared("ids.csv")
        is_read = bool(expected) and expected in found
        is_told = not found and not expected and "more than one reading" in complaint
        tally.check(name, is_read or is_told, (found, complaint))


def check_groups_of_faults(tally: Tally) -> None:
    """Many rows of one fault are one, with the first three; and so is what has one cause."""
    tally.begin("prepare, faults of many rows")
    rankings = "".join(f"1;{number};{number};oui;peut-être\n" for number in range(1, 90))
    files = {"groups.csv": b"groupe;taux boursiers;taux secteur\n1;0;0\n",
             "rankings.csv": f"groupe;candidat;rang;boursier;secteur\n{rankings}".encode()}
    complaint = Sheets(files, ("--lang", "fr")).prepared("rankings.csv")[1]
    is_one = complaint.startswith("rankings.csv, 89 lignes (2, 3, 4 et d'autres)\u00a0; ligne 2\u00a0: "
                                  "1 | 1 | 1 | oui | peut-être\n")
    tally.check("89 rows", is_one and "1 faute" in complaint and complaint.count("\n") == 4, complaint)
    complaint = Sheets(files, ("--lang", "en")).prepared("rankings.csv")[1]
    tally.check("in English", complaint.startswith("rankings.csv, 89 rows (2, 3, 4 and others); row 2: "), complaint)
    files = {"boarding.csv": b"school;candidate;rank\n" + b"".join(b"Nord;%d;%d\n" % (n, n) for n in range(1, 40)),
             "ceilings.csv": b"day;school;ceiling\n1;Nord;5\n"}
    complaint = Sheets(files).prepared("boarding.csv")[1]
    tally.check("a row that is missing", complaint.endswith("\n1 fault; nothing is written.\n"), complaint)
    files["boarding.csv"] = b"school;candidate;rank\n" + b"".join(b"S%d;%d;%d\n" % (n, n, n) for n in range(1, 40))
    complaint = Sheets(files).prepared("boarding.csv")[1]
    is_one = "40 schools have no row" in complaint and "\n1 fault;" in complaint
    tally.check("many rows that are missing", is_one, complaint)


def check_states(tally: Tally) -> None:
    """Statuses and dates as spreadsheets show them."""
    tally.begin("prepare, statuses and dates")
    dossier = {
        "groups.csv": b"group,scholar_pct,resident_pct\n1,0,0\n",
        "programmes.csv": b"programme,group,seats\n1,1,1\n",
        "rankings.csv": b"group,candidate,rank,scholar,resident\n1,1,1,0,0\n",
        "wishes.csv": b"wish,candidate,programme,school,preference\n1,1,1,,0\n",
    }
    for status, since, expected in (
        ("Proposition d\u2019admission", "13/06/2026", "offered,2026-06-13"),
        ("PROPOSITION", "02/06/2026 00:00", "offered,2026-06-02"),
        ("offered", "2026-06-02 00:00:00", "offered,2026-06-02"),
        ("Accepte\u0301", "", "accepted,"), ("auto-refused", "", "auto_refused,"), ("en\u00a0attente", " ", "waiting,"),
        ("offered", "2 juin 2026", "offered,2026-06-02"),
        ("offered", "1er juin 2026", "offered,2026-06-01"), ("offered", "lundi 1 juin 26", "offered,2026-06-01"),
        ("offered", "June 2, 2026", "offered,2026-06-02"), ("offered", "02/06/26", "offered,2026-06-02"),
        ("offered", "02-06-26", "not a date in one reading"), ("offered", "02/06/99", "not a date in one reading"),
        ("offered", "2 jiun 2026", "not a date in one reading"), ("offered", "30/02/2026", "not a day of the calendar"),
        ("offered", "02/06/2026 14:30", "not a date in one reading"), ("renonc\u00e9", "", "two readings"),
        ("given up", "", "two readings"),
    ):
        state = f"wish;status;since\n1;{status};{since}\n".encode()
        found, complaint = Sheets({**dossier, "state.csv": state}, DAY_FIRST).prepared("state.csv")
        if found:
            tally.equal(f"{status} {since}", found, f"wish,status,since\n1,{expected}\n")
        else:
            tally.check(f"{status} {since}", expected in complaint, complaint)


def check_rates(tally: Tally) -> None:
    """A rate of 1 is 1 % or 100 %: it is read where its column, or the user, says which."""
    tally.begin("prepare, rates")
    for words, rates, expected in (
        ((), ("1", "0"), "1 has two readings"), ((), ("0", "1,0"), "1,0 has two readings"),
        ((), ("0,5", "0"), "0,5 has"),
        ((), ("1", "20"), "1 20"), ((), ("1", "0 %"), "1 0"), ((), ("100%", "1 %"), "100 1"), ((), ("0", "0"), "0 0"),
        (("--rates", "percent"), ("1", "0"), "1 0"), (("--rates", "fraction"), ("1", "0"), "100 0"),
        (("--rates", "fraction"), ("0,2", "0.50"), "20 50"), (("--rates", "fraction"), ("0,29", "7 %"), "29 7"),
        (("--rates", "fraction"), ("0,205", "0"), "not a whole number of per cent"),
        (("--rates", "fraction"), ("20", "0"), "2000 is not from 0 to 100"),
        (("--rates", "percent"), ("0,2", "0"), "0,2 is not a whole number of per cent"),
        ((), ("7,5 %", "20"), "7,5 % is not a whole number of per cent"), ((), ("20,000 %", "1"), "20 1"),
        ((), ("-5 %", "20"), "-5 % is not a whole number from 0 on"), ((), ("%", "20"), "% is not a whole"),
    ):
        sheet = GROUPS + "".join(f"{number};{rate};5%\n" for number, rate in enumerate(rates, start=1))
        found, complaint = Sheets({"groups.csv": sheet.encode()}, words).prepared("groups.csv")
        read = " ".join(line.split(",")[1] for line in found.splitlines()[1:])
        tally.check(f"{words} {rates}", read == expected or not found and expected in complaint, (found, complaint))


def check_flags(tally: Tally) -> None:
    tally.begin("prepare, flags")
    for flags, expected in (("VRAI;FAUX", "1,0"), ("Oui;non", "1,0"), ("TRUE;False", "1,0"), ("o;N", "1,0"),
                            ("1;0", "1,0"), ("X;", ""), (";0", ""), ("V;F", ""), ("2;0", ""), ("01;0", "")):
        rankings = f"group;candidate;rank;scholar;resident\n1;1;1;{flags}\n".encode()
        files = {"groups.csv": b"group,scholar_pct,resident_pct\n1,0,0\n", "rankings.csv": rankings}
        found = Sheets(files).prepared("rankings.csv")[0]
        row = f"group,candidate,rank,scholar,resident\n1,1,1,{expected}\n"
        tally.equal(flags, found, row if expected else "")
