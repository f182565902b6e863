"""The part of a page that only a sheet has: the sheet as it was read."""
from typing import List, Optional, Tuple

import page
from named import cut
from page import element, listing, paragraph
from sheet import Sheet, Task, Value
from sheet_times import RULES, ranges

COLUMNS = ("line", "position", "name", "offset", "width", "second width", "length", "deadline", "period")
TIMES = ("offset", "length", "deadline", "period")
MOST_TASKS, AROUND = 64, 8  # lines of tasks that are shown, and how many before the marked one
MOST_SHOWN = 24


def settings_words(sheet: Sheet) -> str:
    """The settings as they were read."""
    above = sheet.settings
    rule = next((name for name, digits in RULES.items() if digits == above.rule.digits), None)
    fenced = {core for core in range(64) if above.fence >> core & 1}
    said = f"cores {cut(above.cores.digits, MOST_SHOWN)}, rule {rule or cut(above.rule.digits, MOST_SHOWN)}"
    return said + (f", fence {ranges(fenced)}" if fenced else ", no fence") + (f", a tick of {above.tick}" if above.tick else ", times in ticks")


def cell_words(value: Value, sheet: Sheet, is_time: bool) -> str:
    """What a cell gives: its ticks, and what was written where that differs."""
    written = value.cell.text if value.cell else ""
    said = cut(value.digits, MOST_SHOWN)
    return f"{said} ({cut(written, MOST_SHOWN)})" if is_time and written not in ("", value.digits) else said


def row_of(task: Task, position: int, sheet: Sheet, marked: Optional[int]) -> page.Html:
    values = {"offset": task.offset, "width": task.width, "second width": task.second, "length": task.length, "deadline": task.deadline, "period": task.period}
    cells = [cell_words(values[name], sheet, name in TIMES) for name in COLUMNS[3:]]
    return element("tr", *(element("td", cell) for cell in (task.line, position, cut(task.name, 40), *cells)), class_="here" if task.line == marked else None)


def shown_tasks(sheet: Sheet, marked: Optional[int]) -> Tuple[List[Tuple[int, Task]], int]:
    """The tasks that are shown, with their positions, and how many are not: around the line that is marked."""
    positions = {index: position for position, index in enumerate(sheet.order, 1)}
    at = next((index for index, task in enumerate(sheet.tasks) if task.line == marked), 0)
    since = max(0, at - AROUND) if len(sheet.tasks) > MOST_TASKS else 0
    shown = [(positions[index], sheet.tasks[index]) for index in range(since, min(len(sheet.tasks), since + MOST_TASKS))]
    return shown, len(sheet.tasks) - len(shown)


def sheet_parts(sheet: Sheet, marked: Optional[int] = None) -> List[Optional[page.Html]]:
    """The sheet as it was read: its settings, its tasks, and what was ignored."""
    shown, left = shown_tasks(sheet, marked)
    head = element("tr", *(element("th", name, scope="col") for name in COLUMNS))
    return [paragraph(f"The sheet as it was read: {settings_words(sheet)}. Times are in ticks, and behind them as they were written."),
            page.wide_table([head, *(row_of(task, position, sheet, marked) for position, task in shown)], "the sheet", class_="words sheet"),
            paragraph(f"{left:,} more tasks are not shown.", class_="soft") if left else None,
            listing([f"Note: {note}." for note in sheet.notes]) if sheet.notes else None]
