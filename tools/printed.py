"""What the programs print, read: a verdict, a refusal, rows, figures, a conflict. What is none of these is an error."""
import io
import math
import time
from dataclasses import dataclass
from typing import BinaryIO, Iterator, List, Optional, Sequence, Tuple, Union

from system import Trouble
from table import FENCED, Rows, Table
from texts import VERDICTS

BLOCK = 1 << 18  # bytes of rows that are passed over at once


class TooLong(Exception):
    """What is waited for has not come in time."""


@dataclass(frozen=True)
class Verdict:
    """The word and the two numbers of a verdict's line: S and P, the tick and the position of a miss, or the number and the position of a refusal."""
    word: str
    first: int
    second: int

    @property
    def rows(self) -> int:
        """How many rows follow it."""
        return self.first + (0 if self.word == "miss" else self.second)

    def __str__(self) -> str:
        return f"{self.word} {self.first} {self.second}"


def verdict_in(line: bytes) -> Verdict:
    fields = line.split()
    if len(fields) != 3 or not (fields[1] + fields[2]).isdigit():
        raise Trouble("the program printed no verdict")
    word = fields[0].decode("ascii", "replace")
    if word not in VERDICTS and word != "refused":
        raise Trouble(f"the program's verdict is {word!r}")
    return Verdict(word, int(fields[1]), int(fields[2]))


def numbers_in(line: bytes) -> Tuple[int, int]:
    """The number and the position of a refusal."""
    fields = line.split()
    if len(fields) != 3 or fields[0] != b"refused" or not (fields[1] + fields[2]).isdigit():
        raise Trouble(f"the program answered {line!r}")
    return int(fields[1]), int(fields[2])


def next_line(source: BinaryIO) -> bytes:
    line = source.readline(4 * 64 + 8)
    if not line.endswith(b"\n"):
        raise Trouble("the program ended before its last answer")
    return line[:-1]


def lines_after(source: io.BufferedReader, count: int, until: float = math.inf) -> Iterator[bytes]:
    """The program's lines after the first n, which are skipped by whole blocks, up to a time."""
    rest = b""
    while count:
        if time.monotonic() > until:
            raise TooLong
        block = source.read1(BLOCK)
        found = block.count(b"\n")
        if not block or found >= count:
            rest = block.split(b"\n", count)[-1]
            break
        count -= found
    *lines, rest = rest.split(b"\n")
    yield from lines
    for line in source:
        yield rest + line
        rest = b""


def row_in(fields: Sequence[bytes], tick: int, table: Table) -> List[int]:
    """The positions of a row, core by core, from the fields of a line."""
    row = [int(field) for field in fields]
    strange = lambda core, number: number != FENCED if core in table.fenced else number > len(table.drawn)
    if len(row) != table.cores or any(strange(core, number) for core, number in enumerate(row)):
        raise Trouble(f"the program's row of tick {tick} is {row}")
    return [table.drawn[number - 1] if number not in (0, FENCED) else number for number in row] if table.clash else row


def rows_of(source: io.BufferedReader, start: int, end: int, table: Table, late: Optional[Tuple[int, int]] = None, until: float = math.inf) -> Tuple[Rows, int]:
    """The rows of a stretch of ticks, from the program's lines. Where `late` has a tick and a position: how many rows from this tick on have it, those before the stretch too."""
    since, position = late or (end, table.drawn[0])
    rows, had, begin = [], 0, min(start, since)
    printed = table.drawn.index(position) + 1
    inside, last = b" %d " % printed, b" %d" % printed
    for tick, line in zip(range(begin, end), lines_after(source, begin, until)):
        if tick < start:
            had += inside in line or line.rstrip().endswith(last)
            continue
        fields = line.split()
        if fields[:1] != [b"%d" % tick]:
            raise Trouble(f"the program's row of tick {tick} is {line!r}")
        rows.append(row_in(fields[1:], tick, table))
        had += tick >= since and position in rows[-1]
    if len(rows) != end - start:
        raise Trouble(f"the program's rows end before tick {end}")
    return rows, had


def figures_of(said: bytes, table: Table) -> List[int]:
    """The figures of the tasks, from the lines of `query`."""
    lines = [line.split() for line in said.splitlines()]
    if [line[0] for line in lines if len(line) == 2 and line[1].isdigit()] != [b"%d" % position for position in range(1, len(table.tasks) + 1)]:
        raise Trouble(f"the worst-case response times are {lines[:3]}")
    return [int(figure) for _, figure in lines]


def figures_in(said: bytes, table: Table) -> Union[int, List[int]]:
    """Lines of `position figure` for each position, or the number of the refusal."""
    return numbers_in(said)[0] if said.startswith(b"refused ") else figures_of(said, table)


def bounds_in(said: Optional[bytes], table: Table) -> Optional[List[int]]:
    """The bounds of the interference test, or None where the table does not pass it."""
    found = [] if said in (None, b"none\n") else figures_in(said, table)
    if isinstance(found, int):
        raise Trouble(f"the bounds are refused by {found}")
    return found or None


def clash_in(answer: str, table: Table) -> Table:
    """The table with the positions in its conflict, by `query`'s answer."""
    kept = [int(field) for field in answer.split()]
    if not kept or kept != sorted({*kept} & {*range(1, len(table.tasks) + 1)}):
        raise Trouble(f"the conflict is {answer!r}")
    return table.of_clash(kept)
