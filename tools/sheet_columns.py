"""The columns of a sheet by their names: ours, the papers' letters and the usual words; a unit behind a name is that of the column."""
import functools
import re
from dataclasses import dataclass
from typing import Dict, List, Optional, Tuple

from sheet_cells import Cell, Faults, Row, SPACES, letters, place, shown
from sheet_times import UNITS

TIMES = ("offset", "length", "deadline", "period")
NAMES = {
    "name": ("name", "task", "task name"),
    "priority": ("priority", "prio", "position"),
    "offset": ("offset", "o", "phase", "first release"),
    "width": ("width", "v", "cores", "number of cores", "first width", "odd width", "processors"),
    "second width": ("second width", "w", "even width", "width 2"),
    "length": ("length", "c", "wcet", "execution time", "worst case execution time", "computation time"),
    "deadline": ("deadline", "d", "relative deadline"),
    "period": ("period", "t", "cycle time"),
}
FIELD = {name: field for field, names in NAMES.items() for name in names}
NEEDED = ("name", "length", "period")
# A column that is not known, has one of these words, and could be meant for a column that would else have its default: better asked than ignored.
MEANT = {"priority": {"priority", "prio"}, "offset": {"offset", "phase"}, "width": {"width", "core", "processor"}, "deadline": {"deadline"}}
MEANT_SECOND = {"second", "even"}, {"width", "core"}
LONGEST = 60  # characters: no name of a column that is known is longer
IN_BRACKETS = re.compile(r"(.*?)\s*[(\[]\s*([^()\[\]]*?)\s*[)\]]", re.S)
BEHIND = re.compile(r"(.+?)[\s_]+(?:in[\s_]+)?(ns|us|\u00b5s|\u03bcs|ms|s)", re.S)


@dataclass(frozen=True)
class Heading:
    """What a column is, and the unit of its times."""
    field: str
    unit: Optional[str] = None


@dataclass(frozen=True)
class Column:
    """A column of a sheet: where it is, and the unit of its times."""
    index: int
    unit: Optional[str]


def plain(name: str) -> str:
    """A name as it is looked up: in small letters, words apart by one space, a letter without the papers' index."""
    words = re.sub(r"[\s_\u2010-\u2013-]+", " ", name.casefold()).strip()
    return words[0] if re.fullmatch("[a-z] i", words) else words


@functools.lru_cache(maxsize=1 << 14)
def heading(text: str) -> Optional[Heading]:
    """What a cell of the header names; None where that is not known."""
    text = text.strip(SPACES)
    if len(text) > LONGEST:
        return None
    if plain(text) in FIELD:
        return Heading(FIELD[plain(text)])
    found = IN_BRACKETS.fullmatch(text) or BEHIND.fullmatch(text)
    field = FIELD.get(plain(found[1])) if found else None
    if field is None:
        return None
    inside = plain(found[2])
    if found[2] in UNITS:
        return Heading(field, found[2]) if field in TIMES else None
    known = FIELD.get(inside) == field or field in TIMES and inside in ("tick", "ticks") or "width" in field and inside == "cores"
    return Heading(field) if known else None


def fields(row: Row) -> List[str]:
    """The columns that a line names, if it is a header."""
    return [found.field for found in map(heading, row.texts) if found]


def is_header(row: Row) -> bool:
    named = fields(row)
    return "length" in named and "period" in named


def meant(text: str, named: Dict[str, Column]) -> Optional[str]:
    """The column that a name that is not known could be meant for, where no other has it."""
    words = {word.rstrip("s") for word in re.findall("[a-z]+", plain(text))}
    if "second width" not in named and all(words & some for some in MEANT_SECOND):
        return "second width"
    return next((field for field, some in MEANT.items() if field not in named and words & some), None)


def columns_of(row: Row, faults: Faults, notes: List[str]) -> Dict[str, Column]:
    """The columns that the header names."""
    named: Dict[str, Column] = {}
    strange: List[Cell] = []
    for cell in row.filled():
        found = heading(cell.text)
        if not found:
            strange.append(cell)
        elif found.field in named:
            faults.add(cell, f"'{shown(cell.text)}' is the {found.field}, and column {letters(named[found.field].index)} is that too; one column was expected")
        else:
            named[found.field] = Column(cell.column, found.unit)
    for field in NEEDED:
        if field not in named:
            faults.at(row.line, f"the header names no column for the {field}")
    for cell in strange:
        field = meant(cell.text, named)
        if field:
            faults.add(cell, f"'{shown(cell.text)}' is not known, and no other column is named {field}; {field} was expected, or a name without that word")
        else:
            notes.append(f"{place(cell.line, cell.column)}: the column '{shown(cell.text)}' is ignored")
    return named


def missing(rows: List[Row]) -> Optional[Tuple[int, str]]:
    """Where no line is a header: the line that is most like one, and what it lacks."""
    best = max(rows, key=lambda row: len(set(fields(row))), default=None)
    if best is None or len(set(fields(best))) < 2:
        return None
    return best.line, " and the ".join(field for field in ("length", "period") if field not in fields(best))
