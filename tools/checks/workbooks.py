"""Real workbooks: made by LibreOffice, as `.ods` and `.xlsx` and as exports of all their sheets, and prepared."""

import shutil
import zipfile
from collections import Counter
from collections.abc import Callable
from pathlib import Path
from random import Random
from xml.sax.saxutils import escape

from dossier.decoding import Unreadable
from dossier.workbooks import sheets_of_workbook

from .harness import EXAMPLES, TOOLS, Tally, contents, run, scratch

LYCEE = EXAMPLES / "lycee/slots"
SPACES = " ".join(f'xmlns:{name}="urn:oasis:names:tc:opendocument:xmlns:{of}:1.0"' for name, of in (
    ("office", "office"), ("table", "table"), ("text", "text"), ("style", "style"), ("number", "datastyle"),
    ("fo", "xsl-fo-compatible")))
STYLES = """<number:percentage-style style:name="N1"><number:number number:decimal-places="0" number:min-integer-digits="1"/>
<number:text>%</number:text></number:percentage-style>
<number:date-style style:name="N2"><number:day number:style="long"/><number:text>/</number:text>
<number:month number:style="long"/><number:text>/</number:text><number:year number:style="long"/></number:date-style>
<number:boolean-style style:name="N3"><number:boolean/></number:boolean-style>
<style:style style:name="percentage" style:family="table-cell" style:data-style-name="N1"/>
<style:style style:name="date" style:family="table-cell" style:data-style-name="N2"/>
<style:style style:name="boolean" style:family="table-cell" style:data-style-name="N3"/>"""
Cell = tuple[str, str]

SHEETS: dict[str, list[str]] = {
    "Groupes": ["Code groupe|Libellé|Taux boursiers|Taux secteur", "CPGE|Prépas|%0.2|%0", "BTS|BTS|%0|%0.4"],
    "Formations": ["Code formation|Code groupe|Nb places|Rang limite|Ville", "MPSI|CPGE|#2||Lyon", "BTS SIO|BTS|#1|#2|Lyon",
                   "BTS CG|BTS|#1||Lyon"],
    "Internats": ["Internat|Nb lits|Plafond", "Nord|#1|#1000", "Sud|#1|#2"],
    "Classements": ["Rang|N° candidat|Nom|Code groupe|Boursier|Secteur", *(
        f"#{rank}|E0{number}|Nom {number}|{group}|?{scholar}|?{resident}" for group, rows in (
            ("CPGE", ((1, 1, 0, 1), (2, 2, 0, 0), (3, 3, 1, 0), (4, 4, 0, 1), (5, 5, 0, 0))),
            ("BTS", ((1, 6, 0, 0), (2, 4, 0, 1), (3, 7, 1, 0), (4, 8, 0, 1), (5, 5, 0, 0))))
        for rank, number, scholar, resident in rows)],
    "Rangs internat": ["Internat|N° candidat|Rang internat", "Nord|E01|#2", "Nord|E03|#1", "Nord|E05|#3", "Sud|E07|#1",
                       "Sud|E08|#3"],
    "Vœux": ["N° vœu|N° candidat|Formation|Internat|Préférence", "V01|E01|MPSI|Nord|#0", "V02|E01|MPSI||#0",
             "V03|E02|MPSI||#0", "V04|E03|MPSI|Nord|#0", "V05|E04|MPSI||#1", "V06|E04|BTS SIO||#2", "V07|E04|BTS CG||#3",
             "V08|E05|MPSI|Nord|#0", "V09|E05|BTS SIO||#0", "", "V10|E06|BTS CG||#0", "V11|E06|BTS SIO||#0",
             "V12|E07|BTS CG|Sud|#0", "V13|E08|BTS SIO|Sud|#0", "V14|E08|BTS CG||#0"],
    "État": ["N° vœu|Statut|Depuis le", "V03|proposition|@2026-06-01", "V10|en attente|"],
    "Plafonds": ["Jour|Internat|Plafond", "#2|Sud|#3"],
    "Réponses": ["Jour|Réponse|Vœu ou candidat", "#2|accepter|V04", "#2|accepter|V10", "#3|accepter|V02",
                 "#3|démission|E06"],
    "Notes": ["À faire", "appeler le rectorat"],
}


def cell_of(text: str) -> str:
    """A cell of a flat workbook; the first letter says of which type it is."""
    kind, value = text[:1], text[1:]
    if kind == "%":
        return f'<table:table-cell table:style-name="percentage" office:value-type="percentage" office:value="{value}"/>'
    if kind == "#":
        return f'<table:table-cell office:value-type="float" office:value="{value}"/>'
    if kind == "?":
        flag = "true" if value == "1" else "false"
        return f'<table:table-cell table:style-name="boolean" office:value-type="boolean" office:boolean-value="{flag}"/>'
    if kind == "@":
        return f'<table:table-cell table:style-name="date" office:value-type="date" office:date-value="{value}"/>'
    return f'<table:table-cell office:value-type="string"><text:p>{escape(text)}</text:p></table:table-cell>' if text else \
        "<table:table-cell/>"


def flat_workbook() -> str:
    tables = "".join(
        f'<table:table table:name="{escape(name)}">' + "".join(
            f"<table:table-row>{''.join(map(cell_of, row.split('|')))}</table:table-row>" for row in rows) + "</table:table>"
        for name, rows in SHEETS.items())
    return (f'<?xml version="1.0" encoding="UTF-8"?><office:document {SPACES} office:version="1.3" '
            'office:mimetype="application/vnd.oasis.opendocument.spreadsheet"><office:automatic-styles>'
            f"{STYLES}</office:automatic-styles><office:body><office:spreadsheet>{tables}</office:spreadsheet>"
            "</office:body></office:document>")


def converted(place: Path, source: str, kind: str) -> bool:
    """Has LibreOffice save a workbook as another kind, in a folder of that name."""
    office = shutil.which("soffice") or ""
    ended = run(office, f"-env:UserInstallation=file://{place}/profile", "--headless", "--convert-to", kind, "--outdir",
                place / kind.partition(":")[0], place / source)
    return ended.status == 0 and (place / kind.partition(":")[0]).exists()


def check_workbooks(tally: Tally) -> None:
    tally.begin("prepare, workbooks of LibreOffice")
    if not shutil.which("soffice"):
        print("  skipped: LibreOffice is not installed")
        return
    with scratch() as place:
        (place / "lycée.fods").write_text(flat_workbook(), encoding="utf-8")
        expected = contents(LYCEE)
        for kind in ("ods", "xlsx"):
            tally.check(f"{kind}: it is made", converted(place, "lycée.fods", kind))
            ended = run(TOOLS / "prepare", place / kind, place / f"from-{kind}")
            tally.equal(f"{kind}: status", (ended.status, ended.complaint), (0, ""))
            tally.equal(f"{kind}: the slots", contents(place / f"from-{kind}"), expected)
            tally.check(f"{kind}: what is passed over", b"Notes" in ended.output and b"Ville" in ended.output, ended)
            answers = place / kind / f"lycée.{kind}"
            shutil.copytree(LYCEE, place / f"taken-{kind}")
            ended = run(TOOLS / "take_in", place / f"taken-{kind}", answers)
            tally.check(f"{kind}: its answers", ended.status == 0 and b"4" in ended.output, ended)
        check_exports(tally, place, expected)
        check_broken(tally, place)


EXCEL = "http://schemas.openxmlformats.org/spreadsheetml/2006/main"
LINKS = "http://schemas.openxmlformats.org/officeDocument/2006/relationships"
DAMAGED = 250
TITLES, NUMBERS = ("formation", "groupe", "places", "rang limite"), ("7", "1", "2")


def write_xlsx(path: Path, last: str) -> None:
    """Programmes in a workbook by hand, of which the last cell is this one."""
    titles = "".join(f'<c t="inlineStr"><is><t>{title}</t></is></c>' for title in TITLES)
    numbers = "".join(f"<c><v>{number}</v></c>" for number in NUMBERS)
    with zipfile.ZipFile(path, "w") as archive:
        archive.writestr("xl/workbook.xml", f'<workbook xmlns="{EXCEL}" xmlns:r="{LINKS}"><sheets>'
                                            '<sheet name="Formations" r:id="r1"/></sheets></workbook>')
        archive.writestr("xl/_rels/workbook.xml.rels", '<Relationships><Relationship Id="r1" '
                                                       'Target="worksheets/sheet1.xml"/></Relationships>')
        archive.writestr("xl/worksheets/sheet1.xml", f'<worksheet xmlns="{EXCEL}"><sheetData><row>{titles}</row>'
                                                     f"<row>{numbers}{last}</row></sheetData></worksheet>")


def write_ods(path: Path, last: str) -> None:
    titles, numbers = "".join(map(cell_of, TITLES)), "".join(cell_of(f"#{number}") for number in NUMBERS)
    with zipfile.ZipFile(path, "w") as archive:
        archive.writestr("content.xml", f'<office:document {SPACES}><table:table table:name="Formations">'
                                        f"<table:table-row>{titles}</table:table-row><table:table-row>{numbers}{last}"
                                        "</table:table-row></table:table></office:document>")


def check_formulas(tally: Tally) -> None:
    """A formula of which a workbook has no value is no empty cell; one whose value is an empty text is. Faults are told
    with the rows of the sheet."""
    tally.begin("prepare, workbooks by hand: formulas, and faults")
    for write, name, last, expected in (
        (write_xlsx, "x.xlsx", "<c><f>C2+1</f><v></v></c>", "=C2+1 is a formula"),
        (write_xlsx, "x.xlsx", "<c><f>C2+1</f></c>", "=C2+1 is a formula"),
        (write_xlsx, "x.xlsx", "<c><f>C2+1</f><v>3</v></c>", "7,1,2,3"),
        (write_xlsx, "x.xlsx", '<c t="str"><f>""</f><v></v></c>', "7,1,2,0"), (write_xlsx, "x.xlsx", "<c/>", "7,1,2,0"),
        (write_ods, "x.ods", '<table:table-cell table:formula="of:=[.C2]+1"/>', "=[.C2]+1 is a formula"),
        (write_ods, "x.ods", '<table:table-cell table:formula="of:=A9" office:value-type="string"/>', "7,1,2,0"),
        (write_ods, "x.ods", cell_of("#3"), "7,1,2,3"),
        (write_ods, "x.ods", cell_of("many"), "x.ods, Formations, row 2: 7 | 1 | 2 | many\n    rang limite: many is"),
        (write_xlsx, "x.xlsx", '<c t="str"><v>many</v></c>', "x.xlsx, Formations, row 2: 7 | 1 | 2 | many\n"),
    ):
        with scratch() as place:
            shutil.copytree(EXAMPLES / "blank", place / "sheets")
            (place / "sheets/programmes.csv").unlink()
            (place / "sheets/groups.csv").write_text("group,scholar_pct,resident_pct\n1,2,3\n")
            write(place / "sheets" / name, last)
            ended = run(TOOLS / "prepare", place / "sheets", place / "slots", "--lang", "en")
            made = place / "slots/programmes.csv"
            found = made.read_text() if made.exists() else ended.complaint
            tally.check(f"{name}: {last}", expected in found and made.exists() == (ended.status == 0), found)


MERGED_LINES = (("formation", "groupe", "places", "rang limite", "ville"), ("7", "1", "2", "3", "Lyon"),
                ("8", "1", "4", "", ""))


def write_merged_xlsx(path: Path, area: str) -> None:
    """Two programmes in a workbook by hand, of which these cells are merged."""
    cells = ("".join(f'<c t="str"><v>{text}</v></c>' for text in line) for line in MERGED_LINES)
    rows = "".join(f"<row>{line}</row>" for line in cells)
    write_xlsx(path, "")
    with zipfile.ZipFile(path) as archive:
        parts = {part: archive.read(part) for part in archive.namelist()}
    parts["xl/worksheets/sheet1.xml"] = (f'<worksheet xmlns="{EXCEL}"><sheetData>{rows}</sheetData><mergeCells>'
                                         f'<mergeCell ref="{area}"/></mergeCells></worksheet>').encode()
    write_parts(path, parts)


def write_merged_ods(path: Path, area: str) -> None:
    """The same; cells that are covered are written as such."""
    first, last = ((ord(name[0]) - ord("A"), int(name[1:]) - 1) for name in area.split(":"))
    rows = ""
    for number, line in enumerate(MERGED_LINES):
        rows += "<table:table-row>"
        for column, text in enumerate(line):
            cell = cell_of(text)
            if (column, number) == first:
                spans = (f'table:number-columns-spanned="{last[0] - first[0] + 1}" '
                         f'table:number-rows-spanned="{last[1] - first[1] + 1}"')
                cell = cell.replace("<table:table-cell", f"<table:table-cell {spans}", 1)
            elif first[0] <= column <= last[0] and first[1] <= number <= last[1]:
                cell = cell.replace("table:table-cell", "table:covered-table-cell")
            rows += cell
        rows += "</table:table-row>"
    with zipfile.ZipFile(path, "w") as archive:
        archive.writestr("content.xml", f'<office:document {SPACES}><table:table table:name="Formations">{rows}'
                                        "</table:table></office:document>")


def check_merged(tally: Tally) -> None:
    """A merged cell is a fault where a value is wanted of one that it covers, be that an optional one or one that has
    a text which nobody sees. Elsewhere it is none."""
    tally.begin("prepare, workbooks by hand: merged cells")
    told = "rang limite: the cell is merged with another.\n    What to do: unmerge"
    for write, name in ((write_merged_xlsx, "x.xlsx"), (write_merged_ods, "x.ods")):
        for area, expected in (("D2:D3", f"Formations, row 3: 8 | 1 | 4 |     | \n    {told}"), ("E2:E3", ""),
                               ("C2:D2", f"Formations, row 2: 7 | 1 | 2 |     | Lyon\n    {told}"),
                               ("D3:E3", ""), ("D2:D9", told)):
            with scratch() as place:
                shutil.copytree(EXAMPLES / "blank", place / "sheets")
                (place / "sheets/programmes.csv").unlink()
                (place / "sheets/groups.csv").write_text("group,scholar_pct,resident_pct\n1,2,3\n")
                write(place / "sheets" / name, area)
                ended = run(TOOLS / "prepare", place / "sheets", place / "slots", "--lang", "en", "--leave-out",
                            "ville")
                made = place / "slots/programmes.csv"
                found = made.read_bytes() if made.exists() else b""
                tally.check(f"{name}: {area}", expected in ended.complaint if expected else
                            found.endswith(b"\n7,1,2,3\n8,1,4,0\n"), (ended, found))
                tally.equal(f"{name}: {area}: status", (ended.status, made.exists()),
                            (1, False) if expected else (0, True))
    with scratch() as place:
        write_merged_xlsx(place / "x.xlsx", 'A1:XFD1048576"/><mergeCell ref="A1:E3')
        tally.equal("merged cells that overlap", what_ends(place / "x.xlsx"), "")


def with_parts(write: Callable[[Path, str], None], path: Path, changes: dict[str, tuple[str, str]]) -> None:
    """A workbook by hand, in some parts of which the first text is replaced by the second."""
    write(path, "")
    with zipfile.ZipFile(path) as archive:
        parts = {part: archive.read(part).decode() for part in archive.namelist()}
    write_parts(path, {part: text.replace(*changes.get(part, ("", ""))).encode() if part in changes else text.encode()
                       for part, text in parts.items()})


def in_ods(old: str, new: str) -> dict[str, tuple[str, str]]:
    return {"content.xml": (old, new)}


def in_xlsx(old: str, new: str) -> dict[str, tuple[str, str]]:
    return {"xl/worksheets/sheet1.xml": (old, new)}


SEVEN, SEVEN_ODS = "<c><v>7</v></c>", cell_of("#7")
OTHERS_SHEET = ('</table:table><table:table table:name="\'file:///a.ods\'#$A"><table:table-source/><table:table-row>'
                + "".join(map(cell_of, TITLES)) + "</table:table-row></table:table></office:document>")
HIDDEN_ODS = ('<style:style style:name="h" style:family="table"><style:table-properties table:display="false"/>'
              '</style:style><table:table table:style-name="h" table:name="Formations">')
FILTERED_ODS = '<table:table-row table:visibility="filter">'
COLUMNS_ODS = ('"Formations"><table:table-column table:number-columns-repeated="3"/>'
               '<table:table-column table:number-columns-repeated="1000" table:visibility="collapse"/>')
COLUMNS_XLSX = '<cols><col min="2" max="3"/><col min="4" max="16384" hidden="1"/></cols><sheetData>'
HIDDEN_SHEET, HIDDEN_ROW = "Formations (a hidden sheet)", ", Formations: read too, though hidden: 1 row\n"
HIDDEN_COLUMN = ", Formations: read too, though hidden: the columns rang limite\n"
LONG = "1234567890123456"
# What is changed in a workbook by hand, and what is then made of its second row, or told.
KINDS = (
    (write_xlsx, "x.xlsx", in_xlsx("<c><v>1</v></c>", "<c/>"), "groupe: the cell is empty"),
    (write_xlsx, "x.xlsx", in_xlsx("</c></row></sheetData>", "</c><extLst/></row></sheetData>"), "7,1,2,0"),
    (write_xlsx, "x.xlsx", in_xlsx(SEVEN, '<c t="str"><v>7_x000D_\n</v></c>'), "7,1,2,0"),
    (write_xlsx, "x.xlsx", in_xlsx(SEVEN, '<c t="inlineStr"><is><t>A_x005F_x000D_</t></is></c>'), "A_x000D_"),
    (write_xlsx, "x.xlsx", in_xlsx(SEVEN, '<c t="str"><v>A_xD83D__x001C_</v></c>'), "A_xD83D__x001C_"),
    (write_xlsx, "x.xlsx", in_xlsx("<c><v>2</v></c>", '<c t="str"><v>###</v></c>'), "too narrow"),
    (write_xlsx, "x.xlsx", {"xl/workbook.xml": ("<sheet ", '<sheet state="veryHidden" ')}, HIDDEN_SHEET),
    (write_ods, "x.ods", in_ods(SEVEN_ODS, '<table:table-cell office:value-type="string"><text:p>A<text:s/><text:span>'
                                           "B<text:tab/></text:span>C</text:p></table:table-cell>"), "A B C"),
    (write_ods, "x.ods", in_ods(SEVEN_ODS, '<table:table-cell office:value-type="string" office:string-value="7"/>'),
     "7,1,2,0"),
    (write_ods, "x.ods", in_ods("</table:table></office:document>", OTHERS_SHEET), "7,1,2,0"),
    (write_ods, "x.ods", in_ods('"Formations">', '"Formations"><table:table-source/>'), "7,1,2,0"),
    (write_ods, "x.ods", in_ods('<table:table table:name="Formations">', HIDDEN_ODS), HIDDEN_SHEET),
    (write_xlsx, "x.xlsx", in_xlsx("<row><c><v>7", '<row hidden="1"><c><v>7'), HIDDEN_ROW),
    (write_ods, "x.ods", in_ods(f"<table:table-row>{SEVEN_ODS}", f"{FILTERED_ODS}{SEVEN_ODS}"), HIDDEN_ROW),
    (write_xlsx, "x.xlsx", in_xlsx("<sheetData>", COLUMNS_XLSX), HIDDEN_COLUMN),
    (write_ods, "x.ods", in_ods('"Formations">', COLUMNS_ODS), HIDDEN_COLUMN),
    (write_xlsx, "x.xlsx", in_xlsx(SEVEN, f"<c><v>{LONG}</v></c>"), "1.23456789012346E+15 has lost digits"),
    (write_ods, "x.ods", in_ods(SEVEN_ODS, cell_of(f"#{LONG}")), "1.23456789012346E+15 has lost digits"),
    (write_xlsx, "x.xlsx", in_xlsx(SEVEN, f"<c><v>{LONG[:15]}</v></c>"), f",{LONG[:15]},"),
    (write_xlsx, "x.xlsx", in_xlsx(SEVEN, f'<c t="str"><v>{LONG}</v></c>'), f",{LONG},"),
)


def check_kinds(tally: Tally) -> None:
    """Cells without a name stand where they stand in their row, letters that are written otherwise are those letters,
    what a workbook keeps of another is no sheet of it, and a hidden sheet is told as such."""
    tally.begin("prepare, workbooks by hand: cells, letters and sheets of other kinds")
    for write, name, changes, expected in KINDS:
        with scratch() as place:
            shutil.copytree(EXAMPLES / "blank", place / "sheets")
            (place / "sheets/programmes.csv").unlink()
            (place / "sheets/groups.csv").write_text("group,scholar_pct,resident_pct\n1,2,3\n")
            with_parts(write, place / "sheets" / name, changes)
            ended = run(TOOLS / "prepare", place / "sheets", place / "slots", "--lang", "en")
            made = b"".join(contents(place / "slots").values()).decode() if ended.status == 0 else ended.complaint
            tally.check(f"{name}: {changes}", expected in made + ended.output.decode(), (ended, made))


def check_two_sheets(tally: Tally) -> None:
    """Where two sheets of a workbook may be the answers of a day, none of them is taken."""
    tally.begin("take_in, workbooks by hand: two sheets of answers")
    titles, cells = "".join(map(cell_of, ("vœu", "réponse"))), "".join(map(cell_of, ("V03", "accepter")))
    rows = f"<table:table-row>{titles}</table:table-row><table:table-row>{cells}</table:table-row></table:table>"
    for sheets, status in ((1, 0), (2, 1)):
        with scratch() as place:
            shutil.copytree(LYCEE, place / "dossier")
            tables = "".join(f'<table:table table:name="Jour {sheet + 1}">{rows}' for sheet in range(sheets))
            content = f"<office:document {SPACES}>{tables}</office:document>"
            write_parts(place / "x.ods", {"content.xml": content.encode()})
            before = contents(place / "dossier")
            ended = run(TOOLS / "take_in", place / "dossier", place / "x.ods", "--lang", "en")
            told = "x.ods, Jour 1 and x.ods, Jour 2" in ended.complaint
            tally.check(f"{sheets}: told", (ended.status, told) == (status, sheets == 2), ended)
            tally.equal(f"{sheets}: nothing is written", contents(place / "dossier") == before, sheets == 2)


def check_protected(tally: Tally) -> None:
    """A workbook with a password is told as such, with its file, and by each tool that reads sheets."""
    tally.begin("workbooks with a password")
    with scratch() as place:
        shutil.copytree(LYCEE, place / "dossier")
        tally.equal("a day is made", run(TOOLS / "next_day", place / "dossier").status, 0)
        (place / "sheets").mkdir()
        for name in ("x.xlsx", "x.ods"):
            sheet = place / "sheets" / name
            if name == "x.xlsx":
                sheet.write_bytes(b"\xd0\xcf\x11\xe0\xa1\xb1\x1a\xe1" + bytes(600))
            else:
                write_parts(sheet, {"META-INF/manifest.xml": b"<manifest:encryption-data/>", "content.xml": b"\x8f"})
            for words in (("prepare", "sheets", "new", "--lang", "en"), ("take_in", "dossier", sheet, "--lang", "en"),
                          ("tables", "dossier", "new", "--names", sheet, "--lang", "en")):
                ended = run(TOOLS / words[0], *words[1:], folder=place)
                told = (name, "it is protected by a password, or of an older kind.\n", "What to do: save it")
                is_told = all(part in ended.complaint for part in told)
                tally.check(f"{words[0]}: {name}", ended.status == 1 and is_told, ended)
            sheet.unlink()


def check_damaged(tally: Tally) -> None:
    """Workbooks with bytes that are others, in the archive and in its parts, are read or told."""
    tally.begin("prepare, workbooks with other bytes")
    random, odd = Random(1), Counter[str]()
    with scratch() as place:
        for write, name, last in ((write_xlsx, "x.xlsx", '<c t="s"><v>0</v></c>'),
                                  (write_ods, "x.ods", cell_of("@2026-06-02"))):
            path = place / name
            write(path, last)
            with zipfile.ZipFile(path) as archive:
                parts = {part: archive.read(part) for part in archive.namelist()}
            for packed in (False, True):
                for _ in range(DAMAGED):
                    damaged = {part: changed(data, random) for part, data in parts.items()} if packed else parts
                    write_parts(path, damaged)
                    if not packed:
                        path.write_bytes(changed(path.read_bytes(), random))
                    odd[what_ends(path)] += 1
        tally.equal("what else reading them ends with", [end for end in odd if end], [])


def changed(data: bytes, random: Random) -> bytes:
    """The bytes with one of them another."""
    at = random.randrange(len(data))
    return data[:at] + bytes([random.randrange(256)]) + data[at + 1:]


def write_parts(path: Path, parts: dict[str, bytes]) -> None:
    with zipfile.ZipFile(path, "w", zipfile.ZIP_DEFLATED) as archive:
        for name, data in parts.items():
            archive.writestr(name, data)


def what_ends(path: Path) -> str:
    """What ends the reading of a workbook; nothing where it is read, or told to be broken."""
    try:
        sheets_of_workbook(path)
    except Unreadable:
        pass
    except Exception as error:
        return f"{type(error).__name__}: {error}"
    return ""


def check_exports(tally: Tally, place: Path, expected: dict[str, bytes]) -> None:
    """All sheets as LibreOffice exports them: as shown, in Windows-1252 with semicolons, and as values with tabs."""
    for name, options in (("shown", "59,34,ANSI,1,,0,false,true,false,false,false,-1"),
                          ("values", "9,34,76,1,,0,false,false,false,false,false,-1")):
        made = converted(place, "ods/lycée.ods", f"csv:Text - txt - csv (StarCalc):{options}")
        tally.check(f"{name}: they are exported", made and len(list((place / "csv").iterdir())) == len(SHEETS))
        for path in (place / "csv").glob("*Notes*"):
            path.unlink()
        words = ("--dates", "month-first", "--rates", "percent" if name == "shown" else "fraction")
        ended = run(TOOLS / "prepare", place / "csv", place / f"from-{name}", *words)
        tally.equal(f"{name}: status", (ended.status, ended.complaint), (0, ""))
        if ended.status == 0:
            tally.equal(f"{name}: the slots", contents(place / f"from-{name}"), expected)
        shutil.rmtree(place / "csv")


def check_broken(tally: Tally, place: Path) -> None:
    """A workbook that is cut, or none, is told."""
    for kind in ("ods", "xlsx"):
        whole = (place / kind / f"lycée.{kind}").read_bytes()
        for size in (0, 10, len(whole) // 2, len(whole) - 1):
            (place / kind / f"lycée.{kind}").write_bytes(whole[:size])
            ended = run(TOOLS / "prepare", place / kind, place / "new")
            is_told = ended.status == 1 and "workbook" in ended.complaint and "Traceback" not in ended.complaint
            tally.check(f"{kind}: {size} bytes of it", is_told, ended)
