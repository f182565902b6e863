"""The notes beside a program's answer to the words of a sheet: those of tools/notes.py, with the sheet's cells for lines of words and its names for records."""
import re
from typing import List

import notes
from sheet import Sheet, Word
from sheet_cells import place, shown
from sheet_names import moment, quoted

MOST_DIGITS = 10
FIELD = re.compile(r"\b([OvCDTw]) of record (\d+) \(position (\d+)\) is (\d+)")
MISS = re.compile(r"miss ([0-9]+) ([0-9]+)")
LINE = re.compile(r"lines? (\d+)(?: and \d+)?: ")


def word_of(sheet: Sheet, record: int, field: str) -> Word:
    return sheet.words()[notes.HEAD + notes.RECORD * (record - 1) + notes.FIELDS.index(field)]


def at(word: Word) -> str:
    return f"{place(word.cell.line, word.cell.column)}: " if word.cell else ""


def value(word: Word) -> str:
    """A word, and what was written where that differs."""
    written = word.cell.text if word.cell else word.digits
    return shown(word.digits) + (f" ({shown(written)})" if written != word.digits else "")


def too_large(sheet: Sheet) -> List[str]:
    """Why the words of a sheet are no table: numbers that no table has, or too many tasks."""
    found = []
    for index, word in enumerate(sheet.words()):
        whose = f" of {quoted(sheet.tasks[(index - notes.HEAD) // notes.RECORD].name)}" if index >= notes.HEAD else ""
        if len(word.digits) > MOST_DIGITS:
            found.append(f"{at(word)}the {word.what}{whose} is {value(word)}, more than ten digits")
        elif int(word.digits) > notes.LARGEST:
            found.append(f"{at(word)}the {word.what}{whose} is {value(word)}, and the largest number is {notes.LARGEST:,}")
    if len(sheet.tasks) > notes.MOST_RECORDS:
        found.append(f"line {sheet.tasks[notes.MOST_RECORDS].line}: {len(sheet.tasks)} tasks, at most {notes.MOST_RECORDS}")
    return found[:1]


def in_cells(note: str, sheet: Sheet) -> str:
    """A note on words as one on cells."""
    found = LINE.match(note)
    words = sheet.words()
    if found:
        note = at(words[int(found[1]) - 1]) + note[found.end():]
    note = re.sub(r"the fence \d+ has core", "the fence has core", note).replace("(its T)", "(its period)")

    def named(part: "re.Match[str]") -> str:
        word = word_of(sheet, int(part[2]), part[1])
        return f"the {word.what} of {quoted(sheet.tasks[int(part[2]) - 1].name)} (position {part[3]}) is {value(word)}"
    return FIELD.sub(named, note)


def on_a_miss(sheet: Sheet, at: int, position: int) -> List[str]:
    """Which task a miss is of, and when."""
    if not 1 <= position <= len(sheet.tasks):
        return []
    task = sheet.in_order()[position - 1]
    return [f"line {task.line}: {quoted(task.name)} (position {position}) misses its deadline at {moment(at, sheet.settings.tick)}"]


def notes_on(sheet: Sheet, answer: str, verdict: str = "") -> List[str]:
    """The notes beside this answer to the words of a sheet."""
    found = MISS.fullmatch(answer)
    if found:
        return on_a_miss(sheet, int(found[1]), int(found[2]))
    if answer.split()[:2] == ["refused", "1"]:
        return too_large(sheet)
    return [in_cells(note, sheet) for note in notes.notes(sheet.text(), answer, verdict)]
