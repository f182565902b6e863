"""Runs, tick by tick, and plans of another planner."""
import ctypes
from dataclasses import dataclass, field
from typing import Iterable, Sequence, Tuple

from . import library
from .table import AnyTable, positions_in, set_of, words_in


@dataclass
class Run:
    """The run of a table that is accepted: in each tick jobs may end early, be empty, or their tasks be withdrawn. `words` may be stored and given back to the same version.

    >>> run = Run.start([1, 2, 4, 0, 0, 2, 0, 2, 2, 4, 4, 2, 0, 0, 1, 2, 4, 4, 1])  # two tasks on two cores under lending
    >>> run.row()
    (1, 1)
    >>> run.advance(ended=[1])  # position 1 has ended, and a tick more is reserved for it
    >>> run.tick, run.row()  # position 2 borrows one of its cores
    (1, (2, 1))
    >>> run.working()  # position 1 has cores and does not work
    (2,)
    >>> run.advance(ended=[1])
    Traceback (most recent call last):
    sivorandra.refusals.Refusal: refused 16 0 (BAD_REPORT)
    >>> run.withdraw([2])
    >>> Run(run.words, run.tick).sets()[1]
    frozenset({0})
    """
    words: Tuple[int, ...]
    tick: int = field(default=0)

    @classmethod
    def start(cls, table: AnyTable) -> "Run":
        """The run at tick 0."""
        run = (ctypes.c_uint32 * library.RUN_WORDS)()
        library.call("start", words_in(table), run)
        return cls(tuple(run))

    @property
    def cores(self) -> int:
        return self.words[1]

    @property
    def count(self) -> int:
        """How many tasks it has."""
        return self.words[2]

    def row(self, empty: Iterable[int] = ()) -> Tuple[int, ...]:
        """The row of this tick, where the jobs of these positions that are released in it are empty."""
        row = (ctypes.c_uint8 * library.ROW_BYTES)()
        library.call("row", library.words_of(self.words), set_of(empty), row)
        return tuple(row[:self.cores])

    def sets(self, empty: Iterable[int] = ()) -> Tuple["frozenset[int]", ...]:
        """The same as the cores of each position."""
        sets = (ctypes.c_uint64 * library.MOST_TASKS)()
        library.call("sets", library.words_of(self.words), set_of(empty), sets)
        return tuple(frozenset(core for core in range(64) if bits >> core & 1) for bits in sets[:self.count])

    def working(self, empty: Iterable[int] = ()) -> Tuple[int, ...]:
        """The positions whose job works in this tick: those that may be reported as ended."""
        found = (ctypes.c_uint32 * 1)()
        library.call("working", library.words_of(self.words), set_of(empty), found)
        return positions_in(found[0])

    def advance(self, ended: Iterable[int] = (), empty: Iterable[int] = ()) -> None:
        """A tick goes by: the jobs of these positions end after it, and those of the others were empty."""
        run = library.words_of(self.words)
        library.call("advance", run, set_of(ended), set_of(empty))
        self.words, self.tick = tuple(run), self.tick + 1

    def withdraw(self, positions: Iterable[int]) -> None:
        """Takes the tasks of these positions out for good, all or none."""
        run = library.words_of(self.words)
        library.call("withdraw_all", run, set_of(positions))
        self.words = tuple(run)


@dataclass
class Plan:
    """A plan of another planner: its rows are handed in from tick 0 on, up to the horizon.

    >>> plan = Plan.begin([1, 1, 1, 0, 0, 0, 0, 1, 1, 2, 2, 1])
    >>> plan.take([1]), plan.take([0])
    (False, True)
    """
    words: Tuple[int, ...]

    @classmethod
    def begin(cls, table: AnyTable) -> "Plan":
        plan = (ctypes.c_uint32 * library.PLAN_WORDS)()
        library.call("check_begin", words_in(table), plan)
        return cls(tuple(plan))

    def take(self, row: Sequence[int]) -> bool:
        """Takes the next row; whether the whole plan is accepted with it."""
        plan, cells = library.words_of(self.words), (ctypes.c_uint8 * len(row))(*row)
        case, _, _ = library.call("check_row", plan, cells)
        self.words = tuple(plan)
        return case == library.ACCEPTED
