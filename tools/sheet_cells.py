"""The cells of a sheet: bytes of CSV into lines of cells, each with its line in the file and its column; and the faults that name them.

CSV is read by python3's own module, strictly: a quotation mark that is not closed is a fault. Lines are counted as an editor does, so a quoted cell with a line end in it moves
the lines behind it on."""
import csv
import io
import re
import unicodedata
from dataclasses import dataclass
from typing import Iterator, List, Optional, Sequence, Tuple

MOST_BYTES = 1_000_000  # of a sheet
MOST_FAULTS = 20  # that are shown; notes too
MOST_SHOWN = 40  # characters of a cell in a fault
DELIMITERS = (",", ";", "\t")
SPACES = " \t\r\n\u00a0"  # around a cell they do not count
NUL = "\udc00"  # replaces a NUL while csv reads, which older versions refuse to; no decoded text has it
LINE_END = re.compile(r"\r\n|\r|\n")
NOT_UTF8 = re.compile("[\udc80-\udcff]")
csv.field_size_limit(MOST_BYTES + 1)


@dataclass(frozen=True)
class Cell:
    """The text of a cell, without the spaces around it, and where: lines from 1, columns from 0."""
    text: str
    line: int
    column: int


@dataclass(frozen=True)
class Row:
    """A line of cells, which begins at this line of the file."""
    texts: List[str]
    line: int

    def cell(self, column: int) -> Cell:
        """The cell of a column; behind the last one there are empty cells."""
        text = self.texts[column] if column < len(self.texts) else ""
        return Cell(text.strip(SPACES), self.line + sum(map(line_ends, self.texts[:column])), column)

    def filled(self) -> Iterator[Cell]:
        """The cells that are not empty."""
        line = self.line
        for column, text in enumerate(self.texts):
            if text.strip(SPACES):
                yield Cell(text.strip(SPACES), line, column)
            line += line_ends(text)

    def empty(self) -> bool:
        return not any(text.strip(SPACES) for text in self.texts)


@dataclass(frozen=True)
class Fault:
    """What is wrong, and where: a line, of a cell with its column."""
    line: int
    column: Optional[int]
    words: str

    def __str__(self) -> str:
        return f"{place(self.line, self.column)}: {self.words}"


class Faults:
    """The faults that were found."""

    def __init__(self) -> None:
        self.found: List[Fault] = []

    def __bool__(self) -> bool:
        return bool(self.found)

    def at(self, line: int, words: str, column: Optional[int] = None) -> None:
        self.found.append(Fault(line, column, words))

    def add(self, cell: Cell, words: str) -> None:
        self.at(cell.line, words, cell.column)

    def lines(self) -> List[str]:
        """The faults in the order of their places, 20 at most and then their number."""
        ordered = sorted(self.found, key=lambda fault: (fault.line, -1 if fault.column is None else fault.column))
        return first_lines(ordered, "faults")


class Faulty(Exception):
    """A sheet with faults."""

    def __init__(self, faults: Faults):
        super().__init__("a sheet with faults")
        self.lines = faults.lines()


class Wrong(ValueError):
    """What is wrong with the text of a cell."""


def line_ends(text: str) -> int:
    return len(LINE_END.findall(text)) if "\n" in text or "\r" in text else 0


def first_lines(found: Sequence[object], what: str) -> List[str]:
    """What was found, a line each; of more than 20 the first 20 and then how many there are."""
    lines = [str(one) for one in found[:MOST_FAULTS]]
    return lines if len(found) <= MOST_FAULTS else [*lines, f"{len(found)} {what} in all, of which these are the first {MOST_FAULTS}"]


def letters(column: int) -> str:
    """A column as a spreadsheet calls it: A to Z, AA and so on."""
    name, left = "", column + 1
    while left:
        left, digit = divmod(left - 1, 26)
        name = chr(ord("A") + digit) + name
    return name


def place(line: int, column: Optional[int]) -> str:
    return f"line {line}" if column is None else f"line {line}, column {letters(column)}"


def escaped(character: str) -> str:
    if NOT_UTF8.match(character):
        return f"\\x{ord(character) - 0xDC00:02x}"
    return character.encode("unicode_escape").decode()


def shown(text: str, most: Optional[int] = MOST_SHOWN) -> str:
    """A text as it may be shown: control characters, and those that turn the direction of writing, are escaped; a long one is cut."""
    cut = most is not None and len(text) > most
    text = text[:most] if cut else text
    if text.isprintable():
        return text + ("..." if cut else "")
    return "".join(one if one.isprintable() else escaped(one) for one in text) + ("..." if cut else "")


def normal(name: str) -> str:
    """A name in the one form of letters that can be written in several."""
    return unicodedata.normalize("NFC", name)


def decoded(data: bytes) -> str:
    """The text of a sheet. What is no UTF-8 stays as surrogates, to be found in its cell."""
    faults = Faults()
    if len(data) > MOST_BYTES:
        faults.at(1, f"more than {MOST_BYTES:,} bytes, and no sheet that is read is longer")
    elif data[:2] in (b"\xff\xfe", b"\xfe\xff") or b"\0" in data[:2]:
        faults.at(1, "UTF-16, two bytes for each character; UTF-8 was expected")
    if faults:
        raise Faulty(faults)
    return data.decode("utf-8", "surrogateescape").removeprefix("\ufeff").replace("\0", NUL)


def rows(text: str, delimiter: str) -> Tuple[List[Row], Optional[Fault]]:
    """The lines of cells by this delimiter, without empty ones, and the fault at which reading ends, if any."""
    lines = csv.reader(io.StringIO(text, newline=""), delimiter=delimiter, strict=True, skipinitialspace=True)
    found, line, has_nul = [], 1, NUL in text
    try:
        for texts in lines:
            if any(texts):
                found.append(Row([one.replace(NUL, "\0") for one in texts] if has_nul else texts, line))
            line = lines.line_num + 1
    except csv.Error:
        return found, broken(text, line, delimiter)
    return found, None


def broken(text: str, line: int, delimiter: str) -> Fault:
    """The cell that is no cell, in the row that begins at this line: its quotation marks do not pair, or something follows the second."""
    quoted = re.compile(rf' *(?:"(?:[^"]|"")*"|[^" {delimiter}\r\n][^{delimiter}\r\n]*|)(?=[{delimiter}\r\n]|\Z)')
    rest = "".join(list(io.StringIO(text, newline=""))[line - 1:])
    column = at = 0
    found = quoted.match(rest)
    while found and rest[found.end():found.end() + 1] == delimiter:
        line += line_ends(found[0])
        column, at = column + 1, found.end() + 1
        found = quoted.match(rest, at)
    closed = re.compile(r' *"(?:[^"]|"")*"').match(rest, at)
    return Fault(line, column, "something stands behind the closing quotation mark" if closed else "a quotation mark is opened and not closed")
