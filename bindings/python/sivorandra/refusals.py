"""Refusals: the numbers of include/sivorandra.h by their names, and the exception that has one."""
import enum


class Number(enum.IntEnum):
    """Why a call is refused; docs/NUMBERS.md has what to do about each.

    >>> Number(9).name
    'LONG_HORIZON'
    """
    NOT_A_TABLE = 1
    BAD_CORES = 2
    BAD_RULE = 3
    NO_HEAD = 4
    NO_RECORD = 5
    RECORD_AGAIN = 6
    BAD_WIDTH = 7
    BAD_TIME = 8
    LONG_HORIZON = 9
    BAD_RANGE = 10
    SHORT_ROWS = 11
    PAST_MISS = 12
    TABLE_MISSES = 13
    NOT_A_RUN = 14
    LATE = 15
    BAD_REPORT = 16
    NO_MISS = 17
    SHORT_BUFFER = 18
    BAD_FENCE = 19
    BAD_EMPTY = 20
    NOT_FIRM = 21
    NO_POSITION = 22
    SLACK_NOT_GIVEN = 23
    BAD_ROW = 24
    DEADLINE_MISSED = 25
    PHASES_DIFFER = 26


class Refusal(Exception):
    """A call that is refused: its number, the number's name, and the position, 0 where there is none; of 24 to 26 the tick instead.

    >>> refusal = Refusal(7, 2)
    >>> refusal.number, refusal.name, refusal.position
    (7, 'BAD_WIDTH', 2)
    >>> print(refusal)
    refused 7 2 (BAD_WIDTH)
    """

    def __init__(self, number: int, position: int = 0):
        super().__init__(number, position)
        self.number, self.position = number, position

    @property
    def name(self) -> str:
        """The number's name; a later library may have numbers that are not known here."""
        return Number(self.number).name if self.number in Number._value2member_map_ else f"NUMBER_{self.number}"

    def __str__(self) -> str:
        return f"refused {self.number} {self.position} ({self.name})"


class Faulty(ValueError):
    """A sheet with faults: their lines, each with its line and column.

    >>> print(Faulty(["line 2, column B: x is no number"]))
    line 2, column B: x is no number
    """

    def __init__(self, lines: "list[str]"):
        super().__init__(lines)
        self.lines = list(lines)

    def __str__(self) -> str:
        return "\n".join(self.lines)
