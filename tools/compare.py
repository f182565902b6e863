"""Two releases of a table beside each other: the mode of --compare, and what a page says of them.

Tasks are the same by their names where both tables are sheets, else by their positions. Verdicts, response times, slack and rows are the programs'; two rows differ where a task has other
cores. From S on rows repeat every P ticks, as the verdict says, so they are compared on beyond the horizon. The status is that of the new table."""
import functools
import itertools
import math
import time
from dataclasses import dataclass, field
from typing import Any, Callable, Dict, FrozenSet, Iterator, List, Optional, Tuple

import inputs
import programs
import system
from answers import Answers, answers_of
from inputs import Input
from printed import lines_after, row_in
from sheet_times import ranges
from system import Call, Declined, TROUBLE, Trouble
from table import FENCED, Table, Task
from texts import RULES

KEPT = 100_000  # rows of a period that are kept, and not asked for again
EVERY = 1024  # rows between two looks at the clock
FIELDS = {"offset": "O", "width": "v", "second width": "w", "length": "C", "deadline": "D", "period": "T"}


@dataclass(frozen=True)
class Pair:
    """A task by its positions in both tables, of which one may lack it."""
    old: Optional[int]
    new: Optional[int]
    called: str


@dataclass(frozen=True)
class Line:
    """A line of the comparison: what it is about, and before and after; of a sentence only `what`."""
    what: str
    old: str = ""
    new: str = ""

    def __str__(self) -> str:
        return f"{self.what}: {self.old} -> {self.new}" if self.old or self.new else self.what


@dataclass
class Compared:
    """The comparison by its parts."""
    verdict: Line
    settings: List[Line] = field(default_factory=list)
    tasks: List[Line] = field(default_factory=list)
    figures: List[Line] = field(default_factory=list)
    rows: Optional[Line] = None

    def lines(self) -> List[Line]:
        return [self.verdict, *self.settings, *self.tasks, *self.figures, *([self.rows] if self.rows else [])]


def pairs_of(old: Table, new: Table) -> List[Pair]:
    """The tasks of both: those of the new table in its order, then those that went."""
    if old.names and new.names:
        before, after = ({task.name: position for position, task in enumerate(table.names.tasks, 1)} for table in (old, new))
        pairs = [(before.get(name), position) for name, position in after.items()] + [(position, None) for name, position in before.items() if name not in after]
    else:
        pairs = [(position if position <= len(old.tasks) else None, position) for position in range(1, len(new.tasks) + 1)] + [(position, None) for position in range(len(new.tasks) + 1, len(old.tasks) + 1)]
    return [Pair(before, after, f"position {new.names.at(after) if after else old.names.at(before)}") for before, after in pairs]


def settings_lines(old: Answers, new: Answers) -> List[Line]:
    """What differs above the tasks."""
    tick = lambda side: str(side.given.sheet.settings.tick) if side.given.sheet and side.given.sheet.settings.tick else "none"
    values: Dict[str, Callable[[Answers], str]] = {"cores": lambda side: str(side.table.cores), "rule": lambda side: RULES[side.table.rule], "fence": lambda side: ranges(set(side.table.fenced)) or "none", "tick": tick}
    return [Line(name, value(old), value(new)) for name, value in values.items() if value(old) != value(new)]


def task_lines(pair: Pair, old: Table, new: Table) -> List[Line]:
    """What became of a task."""
    if pair.old is None or pair.new is None:
        return [Line(f"{pair.called} {'came' if pair.old is None else 'went'}")]
    before, after = old.tasks[pair.old - 1], new.tasks[pair.new - 1]
    moved = [Line(f"position of {new.names.name(pair.new)}", str(pair.old), str(pair.new))] if pair.old != pair.new else []
    value: Callable[[Task, str], int] = lambda task, letter: getattr(task, letter)
    return moved + [Line(f"{name} of {pair.called}", str(value(before, letter)), str(value(after, letter))) for name, letter in FIELDS.items() if value(before, letter) != value(after, letter)]


def figure_lines(pairs: List[Pair], old: Answers, new: Answers) -> List[Line]:
    """Response times and slack of each task; '-' where it is not there."""
    def figure(found: Any, position: Optional[int]) -> str:
        return "-" if position is None else str(found[position - 1] if isinstance(found, list) else found)
    return [Line(f"{what} of {pair.called}", figure(before, pair.old), figure(after, pair.new)) for what, before, after in
            (("response time", old.response_times, new.response_times), ("slack", old.slack, new.slack)) for pair in pairs]


# ---- Rows

Cells = FrozenSet[Tuple[int, int]]  # a pair's index, and a core


def rows_of(folder: str, side: Answers) -> Iterator[bytes]:
    """The rows of a table, from tick 0 on, without their ticks; of an accepted one for ever."""
    first, rows = side.verdict.first, side.verdict.rows
    since, kept = 0, []
    while True:
        with system.running(*system.asked(folder, "rows", side.given.table)) as process:
            for tick, line in zip(range(since, rows), lines_after(process.stdout, since + 1)):
                row = line.partition(b" ")[2].rstrip(b"\n")
                if tick >= first and rows - first <= KEPT and side.verdict.word != "miss":
                    kept.append(row)
                yield row
        if side.verdict.word == "miss":
            return
        while kept:
            yield from kept
        since = first


def cells_by(table: Table, pairs: List[Pair], which: str) -> Callable[[bytes], Cells]:
    """Reads a row as the cores of tasks."""
    indices = {getattr(pair, which): index for index, pair in enumerate(pairs)}

    @functools.lru_cache(1 << 16)
    def cells(row: bytes) -> Cells:
        return frozenset((indices[position], core) for core, position in enumerate(row_in(row.split(), 0, table)) if position not in (0, FENCED))
    return cells


def cores_words(cells: Cells, index: int) -> str:
    found = {core for one, core in cells if one == index}
    return f"{'cores' if len(found) > 1 else 'core'} {ranges(found)}" if found else "no core"


def row_line(folder: str, old: Answers, new: Answers, pairs: List[Pair]) -> Line:
    """The first tick in which some task has other cores, or up to which tick none has."""
    until = time.monotonic() + programs.PATIENCE
    readers = cells_by(old.table, pairs, "old"), cells_by(new.table, pairs, "new")
    accepted = [side for side in (old, new) if side.verdict.word != "miss"]
    ends = [side.verdict.first for side in (old, new) if side.verdict.word == "miss"]
    end = min(ends) if ends else max(side.verdict.first for side in accepted) + math.lcm(*(side.verdict.second for side in accepted))
    for tick, before, after in zip(itertools.count(), rows_of(folder, old), rows_of(folder, new)):
        if tick == end:
            return Line("no tick of the rows differs" if not ends else f"the rows agree up to tick {end}, of a miss")
        if tick % EVERY == 0:
            system.LINE.say(f"{tick:,} rows compared")
            if time.monotonic() > until:
                return Line(f"the rows agree up to tick {tick - 1}; others had not been looked at after {programs.PATIENCE} s")
        cells = readers[0](before), readers[1](after)
        if cells[0] != cells[1]:
            index = min(one for one, _ in cells[0] ^ cells[1])
            return Line(f"tick {tick} is the first whose row differs; {pairs[index].called}", cores_words(cells[0], index), cores_words(cells[1], index))
    if not ends:
        raise Trouble("the program's rows end before the horizon")
    return Line(f"the rows agree up to tick {end}, of a miss" if end else "there are no rows to compare")


def compared(folder: str, old: Input, new: Input) -> "Tuple[Compared, Answers]":
    """The comparison, and the answers on the new table."""
    before, after = answers_of(folder, old), answers_of(folder, new)
    found = Compared(Line("verdict", str(before.verdict), str(after.verdict)))
    if before.table and after.table:
        pairs = pairs_of(before.table, after.table)
        found.settings = settings_lines(before, after)
        found.tasks = [line for pair in pairs for line in task_lines(pair, before.table, after.table)]
        found.figures = figure_lines(pairs, before, after)
        found.rows = row_line(folder, before, after, pairs)
    return found, after


def old_of(call: Call) -> Input:
    """The old table. Where it is a sheet with faults nothing can be compared."""
    try:
        return inputs.read(call.list)
    except Declined as declined:
        name = system.shown(call.list)
        raise Declined(declined.lines[0] if declined.status == TROUBLE else f"{name}: {declined.lines[0]}", TROUBLE, [f"{name}: {line}" for line in declined.lines[1:]])


def of_call(call: Call) -> "Tuple[Compared, Answers]":
    return compared(call.programs, old_of(call), Input(call.file, call.table, call.sheet, None))


def answer(call: Call) -> Tuple[int, str]:
    found, after = of_call(call)
    system.LINE.clear()
    system.write("".join(f"{line}\n" for line in found.lines()).encode())
    return after.status, str(after.verdict)
