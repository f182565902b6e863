#!/usr/bin/env python3
"""A sheet, as people write a table: sheet.py --words [FILE] prints the words of a sheet, sheet.py --sheet-of [FILE] a sheet of the words of a table.

It decides nothing. A sheet has lines of settings, a header that names its columns and then a task a line. Whole numbers without a sign go through as they are written, and the
proved program answers; times with units become ticks where that is exact. A fault of the sheet itself is shown with line and column, and then there are no words."""
import os
import sys
from dataclasses import dataclass, field
from typing import Callable, Dict, List, Optional, Tuple

import sheet_cells
from sheet_back import NoTable, sheet_of
from sheet_cells import Cell, Fault, Faults, Faulty, Row, Wrong, first_lines, letters, normal, shown
from sheet_columns import Column, columns_of, is_header, missing
from sheet_times import Form, Tick, cores_of, order, rule_of, tick_of, time_of, whole, widths_of

SETTINGS = ("cores", "rule", "fence", "tick")
NEEDED = ("cores", "rule")
WORD = 2**32
FINE, REFUSED, TROUBLE, USAGE = 0, 2, 3, 64


@dataclass(frozen=True)
class Value:
    """Digits, and the cell that gives them; without a cell they are the default of an empty one."""
    digits: str
    cell: Optional[Cell] = None


@dataclass(frozen=True)
class Task:
    """A line of the sheet below its header."""
    name: str
    line: int
    priority: Optional[Value]
    offset: Value
    width: Value
    length: Value
    deadline: Value
    period: Value
    second: Value


@dataclass(frozen=True)
class Settings:
    """The lines of a sheet above its header."""
    cores: Value
    rule: Value
    fence: int = 0  # bit c for core c
    fence_cell: Optional[Cell] = None
    tick: Optional[Tick] = None


@dataclass(frozen=True)
class Word:
    """A word of the table: its digits, what it is, and the cell that gives it, if one does."""
    digits: str
    what: str
    cell: Optional[Cell] = None


@dataclass(frozen=True)
class Sheet:
    """A sheet's content. Tasks are in the order of their lines, which is that of the records; `order` has their indices in priority order."""
    settings: Settings
    tasks: List[Task]
    order: List[int]
    notes: List[str] = field(default_factory=list)

    def words(self) -> List[Word]:
        """The words of the table, in their order: head, cores, rule, two of fence; then next, O, v, C, D, T and w of each task."""
        above = self.settings
        following = dict(zip(self.order, self.order[1:]))
        found = [Word(str(self.order[0] + 1), "head"), Word(above.cores.digits, "core count", above.cores.cell), Word(above.rule.digits, "rule", above.rule.cell)]
        found += [Word(str(bits), "fence", above.fence_cell) for bits in (above.fence % WORD, above.fence // WORD)]
        for index, task in enumerate(self.tasks):
            values = {"offset": task.offset, "width": task.width, "length": task.length, "deadline": task.deadline, "period": task.period, "second width": task.second}
            found.append(Word(str(following.get(index, -1) + 1), "next"))
            found += [Word(value.digits, what, value.cell) for what, value in values.items()]
        return found

    def text(self) -> bytes:
        """The words as the programs read them."""
        return "".join(f"{word.digits}\n" for word in self.words()).encode()

    def in_order(self) -> List[Task]:
        """The tasks by their positions, position 1 first."""
        return [self.tasks[index] for index in self.order]

    def names(self) -> List[str]:
        """The names by their positions."""
        return [task.name for task in self.in_order()]


# ---- Reading a sheet

def read(data: bytes) -> Sheet:
    """A sheet from its bytes; where it has faults they are raised."""
    faults = Faults()
    notes: List[str] = []
    text = sheet_cells.decoded(data)
    rows, at, delimiter = header_in(text, faults)
    not_utf8(text, rows, faults)
    form = Form(comma=delimiter == ";", point=delimiter == ",")
    settings, form = settings_of(rows[:at], rows[at].line, form, faults)
    columns = columns_of(rows[at], faults, notes)
    form = units_of(rows[at], columns, form, faults)
    tasks = Lines(columns, form, faults).tasks(rows[at + 1:], rows[at].line)
    unnamed(rows[at:], notes)
    if faults:
        raise Faulty(faults)
    return Sheet(settings, tasks, sorted(range(len(tasks)), key=lambda index: rank(tasks[index], index)), first_lines(notes, "notes"))


def rank(task: Task, index: int) -> Tuple[int, str]:
    return order(task.priority.digits if task.priority else str(index + 1))


def header_in(text: str, faults: Faults) -> Tuple[List[Row], int, str]:
    """The lines of cells by the delimiter with which one of them is a header, and the index of that one."""
    for delimiter in sheet_cells.DELIMITERS:
        rows, broken = sheet_cells.rows(text, delimiter)
        at = next((at for at, row in enumerate(rows) if is_header(row)), None)
        if at is not None:
            faults.found += [broken] if broken else []
            return rows, at, delimiter
    faults.found.append(no_header(text))
    raise Faulty(faults)


def no_header(text: str) -> Fault:
    """The fault of a sheet in which no line is a header: by the delimiter that occurs most, where reading ends or what is most like a header."""
    rows, broken = sheet_cells.rows(text, max(sheet_cells.DELIMITERS, key=text.count))
    near = missing(rows)
    line, words = (near[0], f"the header names no column for the {near[1]}") if near else (1, "no line names the columns length and period")
    return broken or Fault(line, None, f"{words}; a header such as name, length, period was expected, its cells apart by commas, semicolons or tabs")


def not_utf8(text: str, rows: List[Row], faults: Faults) -> None:
    """The cells that are no UTF-8."""
    if not sheet_cells.NOT_UTF8.search(text):
        return
    for row in rows:
        for cell in row.filled():
            found = sheet_cells.NOT_UTF8.search(cell.text)
            if found:
                faults.add(cell, f"byte 0x{ord(found[0]) - 0xDC00:02x} is no UTF-8; a sheet saved as UTF-8 was expected")


def unnamed(rows: List[Row], notes: List[str]) -> None:
    """The columns that have cells and no name."""
    named = {cell.column for cell in rows[0].filled()}
    seen = {column for row in rows[1:] for column, text in enumerate(row.texts) if column not in named and text.strip(sheet_cells.SPACES)}
    notes += [f"column {letters(column)} has no name in line {rows[0].line}, and is ignored" for column in sorted(seen)]


# ---- The lines of settings

def given_in(rows: List[Row], faults: Faults) -> Dict[str, List[Cell]]:
    """The cells of each setting, its key first."""
    given: Dict[str, List[Cell]] = {}
    for row in rows:
        cells = list(row.filled())
        key = cells[0].text.rstrip(" :=").casefold() if cells else None
        if key is None:
            continue
        if key not in SETTINGS:
            faults.add(cells[0], f"'{shown(cells[0].text)}' is no setting; cores, rule, fence or tick was expected, or a header that names length and period")
        elif key in given:
            faults.add(cells[0], f"{key} is given in line {given[key][0].line} already")
        else:
            given[key] = cells
    return given


def settings_of(rows: List[Row], header: int, form: Form, faults: Faults) -> Tuple[Settings, Form]:
    """The settings, and how numbers are written with the tick that they give."""
    given = given_in(rows, faults)
    for key in NEEDED:
        if key not in given:
            faults.at(header, f"no line before the header gives the {key}; a line such as {'cores, 4' if key == 'cores' else 'rule, greedy'} was expected")
    fence = fence_of(given.get("fence", []), faults)
    tick = tick_in(given.get("tick"), form, faults)
    cells = given.get("fence", [])
    settings = Settings(single(given.get("cores"), whole, faults), single(given.get("rule"), rule_of, faults), fence, cells[min(1, len(cells) - 1)] if cells else None, tick)
    return settings, Form(form.comma, form.point, tick, tick is None and "tick" in given)


def single(cells: Optional[List[Cell]], parse: Callable[[str], str], faults: Faults) -> Value:
    """The value of a setting that has one."""
    if not cells:
        return Value("0")
    if len(cells) == 1:
        faults.add(cells[0], f"{shown(cells[0].text)} has no value")
    elif len(cells) > 2:
        faults.add(cells[2], f"'{shown(cells[2].text)}' is a second value; one was expected")
    else:
        return tried(parse, cells[1], faults)
    return Value("0")


def tried(parse: Callable[[str], str], cell: Cell, faults: Faults) -> Value:
    """What a cell gives; a fault where it gives nothing."""
    try:
        return Value(parse(cell.text), cell)
    except Wrong as wrong:
        faults.add(cell, str(wrong))
        return Value("0", cell)


def fence_of(cells: List[Cell], faults: Faults) -> int:
    """The set of fenced cores, bit c for core c."""
    fence = 0
    for cell in cells[1:]:
        try:
            fence |= sum(1 << core for core in cores_of(cell.text))
        except Wrong as wrong:
            faults.add(cell, str(wrong))
    return fence


def tick_in(cells: Optional[List[Cell]], form: Form, faults: Faults) -> Optional[Tick]:
    """The length of a tick; its number and its unit may be in two cells."""
    if not cells:
        return None
    if len(cells) == 1:
        faults.add(cells[0], "tick has no value")
        return None
    try:
        return tick_of(" ".join(cell.text for cell in cells[1:]), form)
    except Wrong as wrong:
        faults.add(cells[1], str(wrong))
        return None


def units_of(header: Row, columns: Dict[str, Column], form: Form, faults: Faults) -> Form:
    """Without a tick, units of columns are faults in the header alone."""
    units = [column for column in columns.values() if column.unit]
    if not units or form.tick or form.tick_at_fault:
        return form
    for column in units:
        faults.add(header.cell(column.index), f"the unit {column.unit} is given, and no line before the header gives the tick, such as 0.25 ms")
    return Form(form.comma, form.point, None, True)


# ---- The lines of tasks

class Lines:
    """Reads the lines below the header."""

    def __init__(self, columns: Dict[str, Column], form: Form, faults: Faults):
        self.columns, self.form, self.faults = columns, form, faults
        self.names: Dict[str, int] = {}
        self.priorities: Dict[Tuple[int, str], int] = {}

    def tasks(self, rows: List[Row], header: int) -> List[Task]:
        found = [self.task(row) for row in rows if not row.empty() and not self.second_header(row)]
        if not found and not any(fault.line > header for fault in self.faults.found):
            self.faults.at(header, "no task stands below the header; one or more were expected")
        return found

    def second_header(self, row: Row) -> bool:
        if any(text[:1].isdigit() for text in row.texts) or not is_header(row):
            return False
        self.faults.add(next(row.filled()), "a second header; one was expected")
        return True

    def task(self, row: Row) -> Task:
        name = self.name(row)
        period = self.time(row, "period", None)
        width, second = self.widths(row)
        return Task(name, row.line, self.priority(row), self.time(row, "offset", Value("0")), width, self.time(row, "length", None), self.time(row, "deadline", period), period, second)

    def cell(self, row: Row, name: str) -> Optional[Cell]:
        """The cell of a column; None where there is no such column."""
        return row.cell(self.columns[name].index) if name in self.columns else None

    def name(self, row: Row) -> str:
        cell = self.cell(row, "name")
        if cell is None:
            return ""
        name = normal(cell.text)
        if not name:
            self.faults.add(cell, "the name is empty; a name was expected")
        elif name.isdigit():
            self.faults.add(cell, f"the name {shown(name)} has digits alone; a name with a letter was expected")
        elif name in self.names:
            self.faults.add(cell, f"the name '{shown(name)}' stands in line {self.names[name]} too; a name of its own was expected")
        self.names.setdefault(name, cell.line)
        return name

    def priority(self, row: Row) -> Optional[Value]:
        cell = self.cell(row, "priority")
        if cell is None:
            return None
        expected = "a whole number, 1 for the highest,"
        if not cell.text:
            self.faults.add(cell, f"the priority is empty; {expected} was expected")
            return Value("0", cell)
        value = tried(lambda text: whole(text, expected), cell, self.faults)
        key = order(value.digits)
        if value.digits == cell.text and not key[0]:
            self.faults.add(cell, f"the priority is 0; {expected} was expected")
        elif value.digits == cell.text and key in self.priorities:
            self.faults.add(cell, f"the priority {shown(cell.text)} stands in line {self.priorities[key]} too; no two are equal")
        self.priorities.setdefault(key, cell.line)
        return value

    def time(self, row: Row, name: str, empty: Optional[Value]) -> Value:
        """A time in ticks; `empty` is the value of an empty cell."""
        cell = self.cell(row, name)
        if cell is not None and cell.text:
            return tried(lambda text: time_of(text, self.form, self.columns[name].unit), cell, self.faults)
        if empty is None and cell is not None:
            self.faults.add(cell, f"the {name} is empty; a time was expected")
        return empty or Value("0", cell)

    def widths(self, row: Row) -> Tuple[Value, Value]:
        """Both widths, from one cell or two."""
        cell, other = self.cell(row, "width"), self.cell(row, "second width")
        first, second = Value("1"), None
        if cell is not None and cell.text:
            try:
                digits = widths_of(cell.text)
                first, second = Value(digits[0], cell), Value(digits[1], cell) if digits[1] else None
            except Wrong as wrong:
                self.faults.add(cell, str(wrong))
        if other is not None and other.text:
            if second:
                self.faults.add(other, f"a second width stands in column {letters(cell.column)} already")
            second = tried(lambda text: whole(text, "a whole number of cores"), other, self.faults)
        return first, second or first


# ---- The command line

def say(lines: List[str]) -> None:
    os.write(2, "".join(f"sivorandra: {line}\n" for line in lines).encode("utf-8", "backslashreplace"))


def answer(option: str, data: bytes) -> int:
    """Prints what an option asks of these bytes; the status."""
    try:
        if option == "--sheet-of":
            made, notes = sheet_of(data).encode(), []
        else:
            sheet = read(data)
            made, notes = sheet.text(), sheet.notes
    except (Faulty, NoTable) as fault:
        say(fault.lines)
        return REFUSED
    sys.stdout.buffer.write(made)
    sys.stdout.buffer.flush()
    say(notes)
    return FINE


def main() -> int:
    if len(sys.argv) not in (2, 3) or sys.argv[1] not in ("--words", "--sheet-of"):
        os.write(2, b"usage: sheet.py --words [SHEET] | --sheet-of [TABLE]\n")
        return USAGE
    name = sys.argv[2] if len(sys.argv) == 3 else "-"
    try:
        with open(0 if name == "-" else name, "rb") as file:
            data = file.read(sheet_cells.MOST_BYTES + 1)
    except OSError as error:
        say([f"{'standard input' if name == '-' else shown(name, None)} could not be read: {error.strerror}"])
        return TROUBLE
    try:
        return answer(sys.argv[1], data)
    except OSError:
        os.dup2(os.open(os.devnull, os.O_WRONLY), 1)  # what is still to be written goes nowhere
        return TROUBLE


if __name__ == "__main__":
    sys.exit(main())
