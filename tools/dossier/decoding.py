"""The texts that an export's bytes may stand for."""

import re
from dataclasses import dataclass

from .messages import BROKEN_CODE, SAVE_AGAIN, TWO_MARKS, WORKBOOK_AS_EXPORT, ZERO_BYTES
from .texts import NoReading

MARKS = ((b"\xef\xbb\xbf", "utf-8", "UTF-8"), (b"\xff\xfe", "utf-16-le", "UTF-16"),
         (b"\xfe\xff", "utf-16-be", "UTF-16"))
WORKBOOKS = (b"PK\x03\x04", b"\xd0\xcf\x11\xe0")
HEAD = 1 << 18
# Quotes, dashes, the dots, the euro and the letters of "œuvre", which Windows-1252 has where Mac Roman has letters
# that French hardly needs; and the same inside a word, where they would be such letters.
TYPOGRAPHIC = b"\x80\x82\x84\x85\x8b\x8c\x91\x92\x93\x94\x95\x96\x97\x9b\x9c"
IN_WORD = re.compile(rb"[A-Za-z][\x84\x91\x93\x94\x96\x97][a-z]")
WINDOWS_ALONE = re.compile(rb"[\x80-\x9f]")
# Where Latin-9 has letters and the euro, and Latin-1 signs that stand alone.
LATIN_9_LETTERS = re.compile(rb"[A-Za-z\xc0-\xff][\xa6\xa8\xb4\xb8\xbc\xbd\xbe]"
                             rb"|[\xa6\xa8\xb4\xb8\xbc\xbd\xbe][A-Za-z\xc0-\xff]|\xa4")

# An é behind a small letter, or an É behind capitals, as MS-DOS has them: other codes have there what no word has. And
# accents as Windows-1252 has them, where MS-DOS has letters that French does not.
OF_DOS = re.compile(rb"[a-z]\x82|[A-Z]{2}\x90")
OF_WINDOWS = re.compile(rb"[a-z][\xe0-\xff]")


class Unreadable(NoReading):
    """An export without exactly one reading."""


@dataclass(frozen=True)
class Coding:
    """A way to read bytes as a text: behind a mark of so many bytes, by this codec, which has this name."""

    codec: str
    name: str
    mark: int = 0

    def head(self, data: bytes) -> str:
        """The beginning of the text, which has the first row."""
        return data[self.mark:self.mark + HEAD].decode(self.codec, "replace")


def codings_of(data: bytes) -> list[Coding]:
    """The ways to read an export's bytes, each of which reads all of them."""
    if data.startswith(WORKBOOKS):
        raise Unreadable(WORKBOOK_AS_EXPORT.of(), SAVE_AGAIN.of())
    for mark, codec, name in MARKS:
        if data.startswith(mark):
            return [_whole(data, Coding(codec, name, len(mark)))]
    if b"\0" in data:
        return [_whole(data, _wide(data))]
    try:
        data.decode("utf-8")
        return [Coding("utf-8", "UTF-8")]
    except UnicodeDecodeError:
        return _of_one_byte(data)


def _whole(data: bytes, coding: Coding) -> Coding:
    try:
        text = data[coding.mark:].decode(coding.codec)
    except UnicodeDecodeError as error:
        raise Unreadable(BROKEN_CODE.of(code=coding.name, byte=error.start + 1), SAVE_AGAIN.of()) from None
    if "\0" in text:
        raise Unreadable(ZERO_BYTES.of(), SAVE_AGAIN.of())
    if text.startswith("\ufeff"):
        raise Unreadable(TWO_MARKS.of(), SAVE_AGAIN.of())
    return coding


def _wide(data: bytes) -> Coding:
    """UTF-16 without a mark: the zero bytes of its commonest letters all stand on one side."""
    even, odd = b"\0" in data[0::2], b"\0" in data[1::2]
    if even == odd or len(data) % 2 != 0:
        raise Unreadable(ZERO_BYTES.of(), SAVE_AGAIN.of())
    return Coding("utf-16-be" if even else "utf-16-le", "UTF-16")


def _of_one_byte(data: bytes) -> list[Coding]:
    """Codes of one byte a letter. Windows-1252 wins where nothing but typographic letters tells it from Mac Roman."""
    if OF_DOS.search(data) and not OF_WINDOWS.search(data):
        return [Coding("cp850", "MS-DOS")]
    if not WINDOWS_ALONE.search(data):
        return [Coding("iso8859-15", "Latin-9") if LATIN_9_LETTERS.search(data) else Coding("latin-1", "Latin-1")]
    found = []
    for coding in (Coding("cp1252", "Windows-1252"), Coding("mac-roman", "Mac Roman")):
        try:
            data.decode(coding.codec)
            found.append(coding)
        except UnicodeDecodeError:
            pass
    return found


def is_windows(data: bytes) -> bool:
    """Whether what Windows-1252 and Mac Roman read otherwise is typographic in Windows-1252."""
    return not WINDOWS_ALONE.search(data.translate(None, TYPOGRAPHIC)) and not IN_WORD.search(data)
