"""A question on a sheet: the sheet is read once, its words become the table that the programs are asked about, and notes name its cells."""
import dataclasses
from typing import List, Tuple

import sheet
import sheet_cells
import sheet_notes
import system
from sheet_cells import Faulty
from system import Call, Declined, Mode, REFUSED, Source

TABLE = 2520  # bytes of a table that decide everything
BLOCK = 1 << 16


def bytes_of(file: str) -> bytes:
    """The bytes of a sheet; of one that is too long, enough to show this."""
    data, most = b"", sheet_cells.MOST_BYTES + 1
    try:
        source = Source(file, file)
        while len(data) < most:
            block = source.read1(min(BLOCK, most - len(data)))
            if not block:
                break
            data += block
    except Declined as declined:
        raise Declined("standard input could not be read") if file == "-" else declined
    return data


def read(file: str) -> sheet.Sheet:
    """A sheet; where it has faults they are raised."""
    data = bytes_of(file)
    try:
        return sheet.read(data)
    except Faulty as faulty:
        raise Declined(faulty.lines[0], REFUSED, faulty.lines[1:])


def reading(mode: Mode) -> Mode:
    """A mode that reads a sheet first, and prints the notes on it."""
    def answer(call: Call) -> Tuple[int, str]:
        found = read(call.file)
        say_all(found.notes)
        asked = dataclasses.replace(call, table=found.text()[:TABLE], sheet=found)
        status, first = mode(asked)
        system.LINE.clear()
        say_all(sheet_notes.notes_on(found, first, system.verdict_of(asked, first)) if first else [])
        return status, ""
    return answer


def say_all(lines: List[str]) -> None:
    for line in lines:
        system.say(line)
