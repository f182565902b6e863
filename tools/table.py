"""A table that the program took: its cores, its tasks in the order of the chain, and the same table with another chain. It decides nothing."""
import dataclasses
from dataclasses import dataclass
from typing import TYPE_CHECKING, FrozenSet, List, Optional, Sequence

import named
from notes import HEAD, MOST_RECORDS, RECORD

if TYPE_CHECKING:
    from sheet import Sheet

FENCED = 255  # on a fenced core in every row
Rows = List[List[int]]  # of each tick the position that has each core


@dataclass(frozen=True)
class Task:
    """The words of a record but the first, by the letters of the manual."""
    O: int
    v: int
    C: int
    D: int
    T: int
    w: int


@dataclass(frozen=True)
class Table:
    """The core count, the rule, the fenced cores, and the tasks with their records' numbers; the positions in the conflict, if only these are drawn; how positions are called."""
    cores: int
    rule: int
    fenced: FrozenSet[int]
    tasks: List[Task]
    records: List[int]
    clash: Optional[List[int]] = None
    names: named.Names = named.NONE

    @property
    def drawn(self) -> Sequence[int]:
        """The positions that are drawn, in the order in which the program counts them."""
        return self.clash or range(1, len(self.tasks) + 1)

    def of_clash(self, kept: List[int]) -> "Table":
        return dataclasses.replace(self, clash=kept)


def table_of(text: bytes, sheet: "Optional[Sheet]" = None) -> Table:
    """The table that the program took, its tasks in the order of its chain."""
    words = [int(line) for line in text.split()]
    tasks, records, at = [], [], words[0]
    while at and len(tasks) < MOST_RECORDS:
        record = words[HEAD + (at - 1) * RECORD:][:RECORD]
        tasks.append(Task(*record[1:]))
        records.append(at)
        at = record[0]
    fenced = frozenset(core for core in range(words[1]) if words[3 + core // 32] >> core % 32 & 1)
    return Table(words[1], words[2], fenced, tasks, records, names=named.Names(sheet))


def relinked(text: bytes, records: Sequence[int], kept: Sequence[int]) -> bytes:
    """The words of a table whose chain has the records of these positions alone, in this order."""
    words, link = text.split(), 0
    for record in [records[position - 1] for position in kept]:
        words[link] = b"%d" % record
        link = HEAD + (record - 1) * RECORD
    words[link] = b"0"
    return b"".join(word + b"\n" for word in words)


def places(positions: int) -> List[int]:
    """The positions of a set."""
    return [place + 1 for place in range(positions.bit_length()) if positions >> place & 1]
