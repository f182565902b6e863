"""The page on a table or a sheet that is refused."""
import importlib
import re
from typing import TYPE_CHECKING, Optional

import named
import notes
import page
from notes import HEAD, RECORD
from page import Html, element, number, paragraph, section
from report_parts import footer, head_cell, refusal_words, sheet_page, verdict_header
from texts import FITS, REMEDIES, SHEET_REMEDIES

if TYPE_CHECKING:
    from sheet import Sheet


def line_words(line: int) -> str:
    """What a line of a table means."""
    if line <= HEAD:
        return ("head: the first record", "cores", "rule", "fence, cores 0 to 31", "fence, cores 32 to 63")[line - 1]
    record, field = divmod(line - HEAD - 1, RECORD)
    return f"{notes.FIELDS[field]} of record {record + 1}"


def shown_line(line: bytes, most: int = 80) -> str:
    """A line of an input of any bytes, and no more than n of them."""
    return (repr(line[:most])[2:-1] + ("\u2026" if len(line) > most else "")) if line else "(an empty line)"


def excerpt(text: bytes, said: str) -> Optional[Html]:
    lines, found = notes.lines_of(text), re.match(r"lines? (\d+)(?: and (\d+))?:", said)
    if not found or not text:
        return None
    marked = [int(line) for line in found.groups() if line]
    rows = [element("tr", element("td", f"line {line}"), element("td", element("code", shown_line(lines[line - 1], 24))), element("td", line_words(line)), class_="here" if line in marked else None)
            for line in range(max(1, marked[0] - 3), min(len(lines), marked[-1] + 3) + 1)]
    return page.wide_table([element("tr", head_cell("line"), head_cell("what stands there"), head_cell("what belongs there")), *rows], "the lines around the fault", class_="excerpt")


def refused_sheet(sheet: "Sheet", name: str, refused: int, position: int, more: Optional[Html] = None) -> str:
    """The page on a sheet that is refused: its cells instead of lines of words."""
    names, parts = named.Names(sheet), sheet_page()
    said = importlib.import_module("sheet_notes").notes_on(sheet, f"refused {refused} {position}")
    found = re.match(r"line (\d+)", said[0]) if said else None
    lead = f"Refused, number {refused}" + (f", position {names.at(position)}" if position else "") + ": the table was refused before it was judged."
    return page.document(f"{FITS['refused']} \u2013 {name}", [], verdict_header("refused", name, [lead]),
                         section("What is wrong", paragraph(refusal_words(refused, position, names), id="meaning"), *(paragraph(element("b", note[0].upper() + note[1:] + "."), id="note") for note in said), id="fault"),
                         section("What to do", paragraph(SHEET_REMEDIES.get(refused, "Look the number up in docs/NUMBERS.md."), id="remedy"), paragraph("The writer of the sheet can correct it; this page can be sent back with it.", class_="soft"), id="todo"),
                         section("The sheet", *parts.sheet_parts(sheet, int(found[1]) if found else None), id="input"), more, footer())


def refused_page(text: bytes, name: str, refused: int, position: int, more: Optional[Html] = None) -> str:
    said = notes.notes(text, f"refused {refused} {position}")
    where = [part for note in said for part in (paragraph(element("b", note[0].upper() + note[1:] + "."), id="note"), excerpt(text[:notes.MOST_BYTES + 1], note))]
    lead = f"Refused, number {refused}" + (f", position {position}" if position else "") + ": the table was refused before it was judged."
    read = text[:notes.MOST_BYTES + 1]
    return page.document(f"{FITS['refused']} \u2013 {name}", [], verdict_header("refused", name, [lead]),
                         section("What is wrong", paragraph(refusal_words(refused, position), id="meaning"), *where, id="fault"),
                         section("What to do", paragraph(REMEDIES.get(refused, "Look the number up in docs/NUMBERS.md."), id="remedy"), paragraph("The writer of the table can correct it; this page can be sent back with it.", class_="soft"), id="todo"),
                         section("The input", paragraph(f"More than the {number(notes.MOST_BYTES)} bytes that a table can have; this is its beginning.", class_="soft") if len(read) > notes.MOST_BYTES else None, element("pre", "\n".join(f"{at:>4}  {shown_line(line)}" for at, line in enumerate(notes.lines_of(read), 1)) if read else "(empty)"), id="input"), more, footer())
