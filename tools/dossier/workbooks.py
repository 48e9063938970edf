"""Workbooks: the sheets of `.ods` and `.xlsx` files, which are zipped XML, with each cell read by its type."""

import errno
import re
import zipfile
import zlib
from collections.abc import Iterator
from dataclasses import dataclass, field
from datetime import datetime, timedelta
from decimal import Decimal, InvalidOperation
from pathlib import Path
from typing import NamedTuple
from xml.etree import ElementTree

from .decoding import Unreadable
from .messages import BROKEN_WORKBOOK, PROTECTED, SAVE_OPEN, SAVE_WORKBOOK
from .sources import MERGED, WorkbookSheet

WORKBOOK_ENDINGS = (".xlsx", ".xlsm", ".ods")
# A workbook repeats its last empty cells and rows up to its edge.
MOST_COLUMNS = 1000
MOST_ROWS = 17_000_000
MOST_BYTES = 1 << 31
# Of a number with more digits than these a workbook keeps the first ones alone.
MOST_DIGITS = 15
MANIFEST = "META-INF/manifest.xml"
# With these begins a workbook that is older, or that a password protects.
OF_OLE = b"\xd0\xcf\x11\xe0"

OFFICE = "{urn:oasis:names:tc:opendocument:xmlns:office:1.0}"
TABLE = "{urn:oasis:names:tc:opendocument:xmlns:table:1.0}"
TEXT = "{urn:oasis:names:tc:opendocument:xmlns:text:1.0}"
STYLE = "{urn:oasis:names:tc:opendocument:xmlns:style:1.0}"
BLANKS_OF_ODS = (f"{TEXT}s", f"{TEXT}tab", f"{TEXT}line-break")
MAIN = "{http://schemas.openxmlformats.org/spreadsheetml/2006/main}"
STRICT = "{http://purl.oclc.org/ooxml/spreadsheetml/main}"
LINK = re.compile(r"\{[^}]*\}id")
AREA = re.compile(r"([A-Z]{1,3})([1-9][0-9]{0,7}):([A-Z]{1,3})([1-9][0-9]{0,7})")
# What a formula names in another workbook is kept under such a name, which no sheet can have. A sheet that is linked
# to that of another has a name of its own.
OF_OTHERS = re.compile(r"'.*'#.*", re.DOTALL)
# How a text of an `.xlsx` has a letter that XML cannot have.
ESCAPED = re.compile(r"_x([0-9A-Fa-f]{4})_")
# What reading a workbook that is damaged ends with.
BROKEN = (zipfile.BadZipFile, zlib.error, ElementTree.ParseError, LookupError, ValueError, RuntimeError, EOFError)


def sheets_of_workbook(path: Path) -> list[WorkbookSheet]:
    """The sheets of a workbook; raises Unreadable where it is none, or is cut."""
    with open(path, "rb") as file:
        if file.read(len(OF_OLE)) == OF_OLE:
            raise Unreadable(PROTECTED.of(), SAVE_OPEN.of())
    try:
        with zipfile.ZipFile(path) as archive:
            if sum(entry.file_size for entry in archive.infolist()) > MOST_BYTES:
                raise Unreadable(BROKEN_WORKBOOK.of(why="it is too large"), SAVE_WORKBOOK.of())
            names = set(archive.namelist())
            if MANIFEST in names and b"encryption-data" in archive.read(MANIFEST):
                raise Unreadable(PROTECTED.of(), SAVE_OPEN.of())
            if "content.xml" in names:
                found = list(sheets_of_ods(archive))
            elif "xl/workbook.xml" in names:
                found = list(sheets_of_xlsx(archive))
            else:
                raise Unreadable(BROKEN_WORKBOOK.of(why="no sheet is in it"), SAVE_WORKBOOK.of())
    except BROKEN as error:
        raise Unreadable(BROKEN_WORKBOOK.of(why=error), SAVE_WORKBOOK.of()) from None
    except OSError as error:
        if error.errno != errno.EINVAL:  # so it is where a part is said to stand before the file
            raise
        raise Unreadable(BROKEN_WORKBOOK.of(why=error), SAVE_WORKBOOK.of()) from None
    return [WorkbookSheet(f"{path.name}, {sheet.name}", sheet.rows, sheet.is_hidden, sheet.hidden_rows,
                          sheet.hidden_columns) for sheet in found]


def numeral(text: str) -> str:
    """A number as a cell shows it where it is whole, and else with its decimals; with an exponent where it has lost
    digits."""
    try:
        value = Decimal(text)
        if value.is_finite() and value.adjusted() >= MOST_DIGITS:
            return f"{value:.{MOST_DIGITS - 1}E}"
        # Workbooks keep binary fractions: what is a whole number within their precision is one.
        rounded = round(value, 9).normalize()
        whole = rounded.to_integral_value()
        return str(int(whole)) if rounded == whole else format(rounded, "f")
    except (InvalidOperation, ValueError, OverflowError):
        return text


def percentage(text: str) -> str:
    try:
        return f"{numeral(str(Decimal(text) * 100))} %"
    except InvalidOperation:
        return text


def whole_rows(rows: list[list[str]]) -> list[list[str]]:
    """The rows without the empty ones at the end, all of one width."""
    while rows and not any(rows[-1]):
        rows.pop()
    width = max(map(len, rows), default=0)
    return [row if len(row) == width else row + [""] * (width - len(row)) for row in rows]


class Found(NamedTuple):
    """A sheet of a workbook: its name, its rows, whether it is hidden, and how many of its rows are that are not
    empty, and which columns."""

    name: str
    rows: list[list[str]]
    is_hidden: bool
    hidden_rows: int
    hidden_columns: frozenset[int]


class Area(NamedTuple):
    """Cells that are merged into the first of them: from a row and a column up to others, which do not belong to it."""

    top: int
    left: int
    bottom: int
    right: int


@dataclass
class Layout:
    """What a sheet tells beside the texts of its cells: what is merged, and the numbers of the rows and the places of the
    columns that are hidden."""

    areas: list[Area] = field(default_factory=list)
    hidden_rows: list[int] = field(default_factory=list)
    hidden_columns: set[int] = field(default_factory=set)

    def hide_columns(self, first: int, number: int) -> None:
        self.hidden_columns.update(range(first, min(first + number, MOST_COLUMNS)))

    def found(self, name: str, rows: list[list[str]], is_hidden: bool) -> Found:
        """The sheet of this name with these rows."""
        whole = whole_rows(rows)
        hidden = sum(number <= len(whole) and any(whole[number - 1]) for number in self.hidden_rows)
        return Found(name, without_merged(whole, self.areas), is_hidden, hidden, frozenset(self.hidden_columns))


def without_merged(rows: list[list[str]], areas: list[Area]) -> list[list[str]]:
    """Whole rows, in which each cell that a merged one covers is marked, where one of the two has a text. Which rows a
    text in merged cells is of cannot be told; an empty cell would be read as none."""
    if not areas or not rows:
        return rows
    parted = [list(row) for row in rows]
    height, width = len(rows), len(rows[0])
    left_over = height * width
    for area in areas:
        bottom, right = min(area.bottom, height), min(area.right, width)
        left_over -= max(0, bottom - area.top) * max(0, right - area.left)
        if left_over < 0:
            raise ValueError("merged cells overlap")
        for row in range(area.top, bottom):
            for column in range(area.left, right):
                if (row, column) != area[:2] and (rows[row][column] or rows[area.top][area.left]):
                    parted[row][column] = MERGED
    return parted


def sheets_of_ods(archive: zipfile.ZipFile) -> Iterator[Found]:
    """The sheets, without what the workbook keeps of the sheets of others that its formulas name."""
    with archive.open("content.xml") as file:
        name = style = ""
        rows: list[list[str]] = []
        layout = Layout()
        hiding: set[str] = set()
        is_of_others, columns = False, 0
        for event, element in ElementTree.iterparse(file, events=("start", "end")):
            if event == "start":
                if element.tag == f"{TABLE}table":
                    name, style = element.get(f"{TABLE}name", ""), element.get(f"{TABLE}style-name", "")
                    rows, layout, is_of_others, columns = [], Layout(), False, 0
            elif element.tag == f"{STYLE}style":
                hiding |= hiding_style(element)
            elif element.tag == f"{TABLE}table-source":
                is_of_others = OF_OTHERS.fullmatch(name) is not None
            elif element.tag == f"{TABLE}table-column":
                repeated = int(element.get(f"{TABLE}number-columns-repeated", "1"))
                if is_hidden_in_ods(element):
                    layout.hide_columns(columns, repeated)
                columns += repeated
            elif element.tag == f"{TABLE}table-row":
                layout.areas += areas_of_ods(element, len(rows))
                cells = cells_of_ods(element)
                repeated = int(element.get(f"{TABLE}number-rows-repeated", "1"))
                above = len(rows)
                if any(cells) or repeated < MOST_COLUMNS:
                    rows += [cells] * min(repeated, MOST_ROWS)
                if is_hidden_in_ods(element):
                    layout.hidden_rows += range(above + 1, len(rows) + 1)
                element.clear()
            elif element.tag == f"{TABLE}table":
                if not is_of_others:
                    yield layout.found(name, rows, style in hiding)
                element.clear()


def hiding_style(style: ElementTree.Element) -> set[str]:
    """The name of a style by which a sheet is not shown; of another none."""
    is_hiding = any(part.get(f"{TABLE}display") == "false" for part in style)
    return {style.get(f"{STYLE}name", "")} if is_hiding else set()


def is_hidden_in_ods(line: ElementTree.Element) -> bool:
    """Whether a row or a column is hidden, by hand or by a filter."""
    return line.get(f"{TABLE}visibility") in ("collapse", "filter")


def areas_of_ods(row: ElementTree.Element, number: int) -> Iterator[Area]:
    """What is merged from a row on that has this number, from 0 on."""
    place = 0
    for cell in row:
        if cell.tag in (f"{TABLE}table-cell", f"{TABLE}covered-table-cell"):
            rows, columns = (int(cell.get(f"{TABLE}number-{name}-spanned", "1")) for name in ("rows", "columns"))
            if rows > 1 or columns > 1:
                yield Area(number, place, number + rows, place + columns)
            place += int(cell.get(f"{TABLE}number-columns-repeated", "1"))


def cells_of_ods(row: ElementTree.Element) -> list[str]:
    cells: list[str] = []
    for cell in row:
        if cell.tag in (f"{TABLE}table-cell", f"{TABLE}covered-table-cell"):
            repeated = int(cell.get(f"{TABLE}number-columns-repeated", "1"))
            text = text_of_ods(cell)
            if text or repeated < MOST_COLUMNS:
                cells += [text] * min(repeated, MOST_COLUMNS)
    while cells and not cells[-1]:
        cells.pop()
    return cells


def text_of_ods(cell: ElementTree.Element) -> str:
    kind = cell.get(f"{OFFICE}value-type")
    match kind:
        case "float" | "currency":
            return numeral(cell.get(f"{OFFICE}value", ""))
        case "percentage":
            return percentage(cell.get(f"{OFFICE}value", ""))
        case "date":
            return cell.get(f"{OFFICE}date-value", "").removesuffix("T00:00:00")
        case "boolean":
            return cell.get(f"{OFFICE}boolean-value", "").upper()
    if kind is None and (formula := cell.get(f"{TABLE}formula")):
        return as_formula(formula.partition(":")[2])
    text = " ".join("".join(texts_of_ods(part)) for part in cell if part.tag == f"{TEXT}p").strip()
    return text or cell.get(f"{OFFICE}string-value", "").strip()


def texts_of_ods(part: ElementTree.Element) -> Iterator[str]:
    """The texts of a paragraph, in which blanks may be parts of their own."""
    if part.tag in BLANKS_OF_ODS:
        yield " "
    yield part.text or ""
    for inner in part:
        yield from texts_of_ods(inner)
        yield inner.tail or ""


def as_formula(text: str) -> str:
    """A formula of which the workbook has no value: no cell that is empty, and refused as such."""
    return f"={text.removeprefix('=')}"


def sheets_of_xlsx(archive: zipfile.ZipFile) -> Iterator[Found]:
    workbook = plain(archive.read("xl/workbook.xml"))
    links = {link.get("Id"): link.get("Target", "") for link in
             ElementTree.fromstring(archive.read("xl/_rels/workbook.xml.rels"))}
    shared = shared_texts(archive)
    kinds = kinds_of_styles(archive)
    properties = workbook.find(f"{MAIN}workbookPr")
    is_from_1904 = properties is not None and properties.get("date1904") in TRUE
    for sheet in workbook.iter(f"{MAIN}sheet"):
        target = next((links[value] for key, value in sheet.attrib.items() if LINK.fullmatch(key)), "")
        place = target.removeprefix("/") if target.startswith("/") else f"xl/{target}"
        if "worksheets/" in place:
            layout = Layout()
            rows = list(rows_of_xlsx(archive, place, shared, kinds, is_from_1904, layout))
            yield layout.found(sheet.get("name", ""), rows, sheet.get("state") in HIDDEN_STATES)


def plain(data: bytes) -> ElementTree.Element:
    """A tree whose tags are those of the usual kind of workbook, also where it is of the strict kind."""
    return ElementTree.fromstring(data.replace(STRICT[1:-1].encode(), MAIN[1:-1].encode()))


def shared_texts(archive: zipfile.ZipFile) -> list[str]:
    if "xl/sharedStrings.xml" not in archive.namelist():
        return []
    return [text_of_item(item) for item in plain(archive.read("xl/sharedStrings.xml")).iter(f"{MAIN}si")]


def text_of_item(item: ElementTree.Element) -> str:
    """The text of an item with its parts, but without what only says how it is read aloud."""
    spoken = {id(text) for part in item.iter(f"{MAIN}rPh") for text in part.iter(f"{MAIN}t")}
    return unescaped("".join(text.text or "" for text in item.iter(f"{MAIN}t") if id(text) not in spoken))


def unescaped(text: str) -> str:
    """A text with the letters that stand in it by their numbers, as `_x000D_` for the end of a line."""
    return ESCAPED.sub(letter_of, text) if "_x" in text else text


def letter_of(number: re.Match[str]) -> str:
    """The letter of a number. What is half a letter, or stands in no text, stays as it is written."""
    letter = chr(int(number[1], 16))
    is_half = "\ud800" <= letter <= "\udfff"
    return number[0] if is_half or letter < " " and letter not in "\t\n\r" else letter


HIDDEN_STATES = ("hidden", "veryHidden")
TRUE = ("1", "true")
DATE_FORMATS = {*range(14, 18), 22, *range(27, 37), *range(50, 59)}
PERCENT_FORMATS = {9, 10}


def kinds_of_styles(archive: zipfile.ZipFile) -> list[str]:
    """Of each style whether its numbers are dates, percentages, or neither."""
    if "xl/styles.xml" not in archive.namelist():
        return []
    styles = plain(archive.read("xl/styles.xml"))
    own = {int(style.get("numFmtId", "0")): kind_of_format(style.get("formatCode", ""))
           for style in styles.iter(f"{MAIN}numFmt")}
    cells = styles.find(f"{MAIN}cellXfs")
    formats = [int(style.get("numFmtId", "0")) for style in cells] if cells is not None else []
    return [own.get(number) or ("date" if number in DATE_FORMATS else "percentage" if number in PERCENT_FORMATS else "")
            for number in formats]


def kind_of_format(code: str) -> str:
    shown = re.sub(r'"[^"]*"|\\.|\[[^]]*\]|_.|\*.', "", code).lower()
    if "%" in shown:
        return "percentage"
    return "date" if re.search(r"[dy]|mm+", shown) and not re.fullmatch(r"[^dy]*[hs][^dy]*", shown) else ""


def rows_of_xlsx(archive: zipfile.ZipFile, place: str, shared: list[str], kinds: list[str],
                 is_from_1904: bool, layout: Layout) -> Iterator[list[str]]:
    """The rows, behind which it adds what is merged, and which rows and columns are hidden."""
    number = 0
    with archive.open(place) as file:
        for _, element in ElementTree.iterparse(file):
            kind = element.tag.rpartition("}")[2]
            if kind == "mergeCell" and (found := AREA.fullmatch(element.get("ref", ""))):
                left, top, right, bottom = found.groups()
                layout.areas.append(Area(int(top) - 1, column_of(left), int(bottom), column_of(right) + 1))
            if kind == "col" and element.get("hidden") in TRUE:
                first, last = int(element.get("min", "1")), int(element.get("max", "1"))
                layout.hide_columns(first - 1, last - first + 1)
            if kind != "row":
                continue
            here = int(element.get("r") or number + 1)
            if not number < here <= MOST_ROWS:
                raise ValueError(f"row {here} stands after row {number}")
            for _ in range(number + 1, here):
                yield []
            number = here
            if element.get("hidden") in TRUE:
                layout.hidden_rows.append(here)
            yield cells_of_xlsx(element, shared, kinds, is_from_1904)
            element.clear()


def cells_of_xlsx(row: ElementTree.Element, shared: list[str], kinds: list[str], is_from_1904: bool) -> list[str]:
    cells: list[str] = []
    place = -1
    for cell in row:
        if not cell.tag.endswith("}c"):
            continue
        place = column_of(cell.get("r", "")) if cell.get("r") else place + 1
        text = text_of_xlsx(cell, shared, kinds, is_from_1904)
        if text and place < MOST_COLUMNS:
            cells += [""] * (place - len(cells)) + [text]
    return cells


def column_of(name: str) -> int:
    """The place of a column by a cell's name: 0 for A1, 26 for AA1."""
    place = 0
    for letter in name.rstrip("0123456789"):
        place = 26 * place + ord(letter) - ord("A") + 1
    return place - 1


def text_of_xlsx(cell: ElementTree.Element, shared: list[str], kinds: list[str], is_from_1904: bool) -> str:
    value = next((part.text or "" for part in cell if part.tag.endswith("}v")), "")
    if not value and cell.get("t") != "str":
        for formula in (part for part in cell if part.tag.endswith("}f")):
            return as_formula(formula.text or "")
    match cell.get("t", "n"):
        case "s":
            return shared[int(value)].strip() if value else ""
        case "inlineStr":
            return unescaped("".join(text.text or "" for text in cell.iter() if text.tag.endswith("}t"))).strip()
        case "str" | "e":
            return unescaped(value).strip()
        case "b":
            return "TRUE" if value == "1" else "FALSE" if value else ""
        case "d":
            return value.removesuffix("T00:00:00")
    style = int(cell.get("s", "0"))
    kind = kinds[style] if style < len(kinds) else ""
    if not value:
        return ""
    if kind == "date":
        return date_of(value, is_from_1904)
    return percentage(value) if kind == "percentage" else numeral(value)


def date_of(text: str, is_from_1904: bool) -> str:
    """The date of a number of days; no other number is changed. Before March 1900 the count has a day that was none."""
    first = datetime(1904, 1, 1) if is_from_1904 else datetime(1899, 12, 30)
    try:
        days = float(text)
        if not is_from_1904 and days < 61:
            return text
        return (first + timedelta(seconds=round(86400 * days))).isoformat(" ").removesuffix(" 00:00:00")
    except (ValueError, OverflowError):
        return text
