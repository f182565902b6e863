"""The tables that a mode reads itself, words and sheets, and the notes on them. It decides nothing."""
import hashlib
from dataclasses import dataclass
from typing import List, Optional

import notes
import sheet_call
import sheet_notes
from sheet import Sheet, read as read_sheet
from sheet_cells import Faulty, MOST_BYTES
from system import Declined, REFUSED

NAMED = (".csv", ".tsv")  # as a sheet is


@dataclass(frozen=True)
class Input:
    """A table by its file: the words that the programs get, the sheet that they were written as, and the SHA-256 of the file, which one of more than 1,000,000 bytes has not."""
    file: str
    table: bytes
    sheet: Optional[Sheet]
    digest: Optional[str]

    def notes(self, answer: str) -> List[str]:
        """The notes beside an answer, those on the sheet first."""
        return [*self.sheet.notes, *sheet_notes.notes_on(self.sheet, answer)] if self.sheet else notes.notes(self.table, answer)

    def strict_note(self) -> Optional[str]:
        """What --strict has to say of a table that was taken; each task of a sheet is on the chain."""
        return None if self.sheet else notes.strict_note(self.table)


def read(file: str, as_sheet: bool = False) -> Input:
    """The table in a file, '-' for standard input. A sheet with faults is none."""
    data = sheet_call.bytes_of(file)
    digest = hashlib.sha256(data).hexdigest() if len(data) <= MOST_BYTES else None
    if not as_sheet and not file.lower().endswith(NAMED):
        return Input(file, data[:sheet_call.TABLE], None, digest)
    try:
        sheet = read_sheet(data)
    except Faulty as faulty:
        raise Declined(faulty.lines[0], REFUSED, faulty.lines[1:])
    return Input(file, sheet.text()[:sheet_call.TABLE], sheet, digest)
