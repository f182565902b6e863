"""How positions and ticks are shown to a reader: as numbers, and where the table is a sheet with its names and times in its units. It is given what to show, and decides nothing."""
import unicodedata
from typing import TYPE_CHECKING, Callable, List, Optional

from system import shown

if TYPE_CHECKING:
    from sheet import Sheet, Task

MOST = 40  # characters of a name in a sentence


def breadth(words: str) -> int:
    """How many letters wide words are; those of some scripts are as wide as two."""
    return len(words) + (0 if words.isascii() else sum(unicodedata.east_asian_width(one) in "WF" for one in words))


def cut(words: str, most: int) -> str:
    """Words as they may be shown, at most n letters wide."""
    words = shown(words[:most + 1])
    if breadth(words) <= most:
        return words
    while breadth(words) >= most:
        words = words[:-1]
    return words + "\u2026"


class Names:
    """The names of a sheet by positions, and its tick; without a sheet numbers stay alone."""

    def __init__(self, sheet: "Optional[Sheet]" = None):
        self.sheet = sheet
        self.tasks: "List[Task]" = sheet.in_order() if sheet else []
        self.step = sheet.settings.tick if sheet else None

    def __bool__(self) -> bool:
        return self.sheet is not None

    def name(self, position: int, most: int = MOST) -> str:
        """The name of a position, if it has one."""
        return cut(self.tasks[position - 1].name, most) if 1 <= position <= len(self.tasks) else ""

    def at(self, position: int) -> str:
        """A position: 3, or 3 (camera)."""
        name = self.name(position)
        return f"{position} ({name})" if name else str(position)

    def tick(self, at: int, figure: Callable[[int], str] = str) -> str:
        """A tick: 160, or 160 (40 ms)."""
        return figure(at) + self.time(at)

    def time(self, *ticks: int) -> str:
        """Ticks in units, to be put behind them; of two the first of the second."""
        return f" ({' of '.join(self.step.time(count) for count in ticks)})" if self.step else ""

    def origin(self, position: int, record: int) -> str:
        """Where a task was read."""
        return f"line {self.tasks[position - 1].line} of the sheet" if self else f"record {record} of the table"


NONE = Names()
