"""Tables and verdicts, and every question on a table."""
import ctypes
import enum
import pathlib
import re
from dataclasses import dataclass, replace
from typing import FrozenSet, Iterable, List, Optional, Sequence, Tuple, Union

from . import library, sheets

HEAD_WORDS, RECORD_WORDS = 5, 7


class Rule(enum.IntEnum):
    """How cores are given out.

    >>> Rule.LIMITED.value
    2
    """
    GREEDY = 1
    LIMITED = 2
    IDLING = 3
    LENDING = 4


@dataclass(frozen=True)
class Task:
    """A task: odd jobs take `width` cores for `length` ticks, even ones `second` cores, `width` where that is None; the deadline is the period where it is None.

    >>> Task(width=2, length=2, period=5).words
    (0, 2, 2, 5, 5, 2)
    """
    width: int
    length: int
    period: int
    deadline: Optional[int] = None
    offset: int = 0
    second: Optional[int] = None
    name: str = ""

    @property
    def words(self) -> Tuple[int, int, int, int, int, int]:
        """O, v, C, D, T and w."""
        return (self.offset, self.width, self.length, self.period if self.deadline is None else self.deadline, self.period, self.width if self.second is None else self.second)


@dataclass(frozen=True)
class Verdict:
    """The verdict on a table that is not refused: 'firm' or 'full' with S and P, 'miss' with the tick and the position.

    >>> verdict = Verdict("full", 0, 5)
    >>> verdict.accepted, verdict.horizon, str(verdict)
    (True, 5, 'full 0 5')
    >>> Verdict("miss", 5, 3).tick
    5
    """
    word: str
    first: int
    second: int

    @property
    def accepted(self) -> bool:
        """Whether no deadline is ever missed at full length."""
        return self.word != "miss"

    @property
    def start(self) -> Optional[int]:
        """S, the tick from which the schedule repeats; of a miss None."""
        return self.first if self.accepted else None

    @property
    def repeat(self) -> Optional[int]:
        """P, how many ticks it takes to repeat; of a miss None."""
        return self.second if self.accepted else None

    @property
    def horizon(self) -> Optional[int]:
        """S + P; of a miss None."""
        return self.first + self.second if self.accepted else None

    @property
    def tick(self) -> Optional[int]:
        """The tick of the first miss."""
        return None if self.accepted else self.first

    @property
    def position(self) -> Optional[int]:
        """The position of the task that misses first."""
        return None if self.accepted else self.second

    def __str__(self) -> str:
        return f"{self.word} {self.first} {self.second}"


@dataclass(frozen=True)
class Table:
    """A table: its tasks in priority order, position 1 first.

    >>> a = Table(cores=3, rule=Rule.GREEDY, tasks=(Task(2, 2, 5), Task(2, 3, 5), Task(1, 4, 5)))
    >>> print(a.judge())
    full 0 5
    >>> a.response_times()
    (2, 5, 4)
    >>> a.rows(3, 5)
    [(2, 2, 3), (2, 2, 0)]
    >>> limited = a.changed(rule=Rule.LIMITED)
    >>> limited.sentence()
    'task 3 misses at tick 5 with 3 of 4 ticks; task 1 ran 2.'
    >>> limited.conflict()
    (1, 2, 3)
    """
    cores: int
    rule: int
    tasks: Tuple[Task, ...]
    fence: FrozenSet[int] = frozenset()

    @property
    def words(self) -> Tuple[int, ...]:
        """Head, cores, rule and two words of fence, then next, O, v, C, D, T and w of each task."""
        bits = sum(1 << core for core in self.fence)
        found = [1 if self.tasks else 0, self.cores, int(self.rule), bits & library.LARGEST, bits >> 32]
        for position, task in enumerate(self.tasks, 1):
            found += [position + 1 if position < len(self.tasks) else 0, *task.words]
        return tuple(found)

    @property
    def text(self) -> str:
        """The words as the programs read them, a line each.

        >>> Table(1, Rule.GREEDY, (Task(1, 1, 2),)).text.split()
        ['1', '1', '1', '0', '0', '0', '0', '1', '1', '2', '2', '1']
        """
        return "".join(f"{word}\n" for word in self.words)

    def changed(self, **fields: object) -> "Table":
        """The same table with other cores, rule, tasks or fence.

        >>> Table(1, 1, ()).changed(cores=2).cores
        2
        """
        return replace(self, **fields)  # type: ignore[arg-type]

    def with_task(self, position: int, **fields: object) -> "Table":
        """The same table with a task changed.

        >>> Table(1, 1, (Task(1, 1, 5),)).with_task(1, length=2).tasks[0].length
        2
        """
        if not 1 <= position <= len(self.tasks):
            raise IndexError(f"there is no position {position}")
        task = replace(self.tasks[position - 1], **fields)  # type: ignore[arg-type]
        return replace(self, tasks=(*self.tasks[:position - 1], task, *self.tasks[position:]))

    def judge(self) -> Verdict:
        """The verdict."""
        return judge(self)

    def response_times(self) -> Tuple[int, ...]:
        """The worst-case response time of each task."""
        return response_times(self)

    def slack(self) -> Tuple[int, ...]:
        """The slack of each task."""
        return slack(self)

    def bounds(self) -> Optional[Tuple[int, ...]]:
        """The response-time bounds of the interference test, or None."""
        return bounds(self)

    def conflict(self) -> Tuple[int, ...]:
        """The positions of a minimal set of tasks that misses."""
        return conflict(self)

    def sentence(self) -> str:
        """Why it misses."""
        return sentence(self)

    def rows(self, since: int, until: int) -> List[Tuple[int, ...]]:
        """The rows of the full-length run from a tick up to but not including another."""
        return rows(self, since, until)


AnyTable = Union[Table, Sequence[int]]


def words_in(table: AnyTable) -> library.Words:
    """The words of a table, or words as they are."""
    return library.words_of(table.words if isinstance(table, Table) else table)


def numbers_in(text: bytes) -> List[int]:
    """The words of a text, one decimal number a line. What is no such text has none, and the library refuses that."""
    lines = text.removesuffix(b"\n").split(b"\n") if text else []
    fine = len(text) <= 2519 and all(re.fullmatch(rb"[0-9]{1,10}", line) and int(line) <= library.LARGEST for line in lines)
    return [int(line) for line in lines] if fine else []


def of_words(words: Sequence[int], names: Sequence[str] = ()) -> Table:
    """The table in some words, its tasks along the chain; refused where the words are no table.

    >>> of_words([1, 1, 1, 0, 0, 0, 0, 1, 1, 2, 2, 1]).tasks
    (Task(width=1, length=1, period=2, deadline=2, offset=0, second=1, name=''),)
    >>> of_words([1, 2])
    Traceback (most recent call last):
    sivorandra.refusals.Refusal: refused 1 0 (NOT_A_TABLE)
    """
    bounds(words)  # it refuses what is no table, and looks at no tick
    tasks, at = [], words[0]
    while at:
        after, offset, width, length, deadline, period, second = words[HEAD_WORDS + RECORD_WORDS * (at - 1):][:RECORD_WORDS]
        tasks.append(Task(width, length, period, deadline, offset, second, names[len(tasks)] if names else ""))
        at = after
    bits = words[3] | words[4] << 32
    return Table(words[1], Rule(words[2]), tuple(tasks), frozenset(core for core in range(64) if bits >> core & 1))


def read(path: Union[str, pathlib.Path], sheet: Optional[bool] = None) -> Table:
    """The table in a file: a sheet where it is named .csv or .tsv, or where `sheet` is true, else words."""
    data = pathlib.Path(path).read_bytes()
    as_sheet = str(path).lower().endswith((".csv", ".tsv")) if sheet is None else sheet
    return of_sheet(data) if as_sheet else of_words(numbers_in(data))


def of_sheet(data: bytes) -> Table:
    """The table in the bytes of a sheet.

    >>> table = of_sheet(b"cores,4\\nrule,greedy\\ntick,1 ms\\nname,width,length,period\\ncamera,2,3 ms,10 ms\\n")
    >>> table.tasks[0].name, table.tasks[0].length
    ('camera', 3)
    >>> of_sheet(b"cores,4\\nrule,greedy\\nname,length,period\\ncamera,-1,5\\n")
    Traceback (most recent call last):
    sivorandra.refusals.Faulty: line 4, column B: -1 has a sign; a whole number of ticks, or a time with a unit (ns, us, ms or s), was expected
    """
    return of_words(*sheets.words_and_names(data))


def count_of(table: AnyTable) -> int:
    """How many tasks are on the chain of a table that was not refused."""
    if isinstance(table, Table):
        return len(table.tasks)
    count, at = 0, table[0]
    while at:
        count, at = count + 1, table[HEAD_WORDS + RECORD_WORDS * (at - 1)]
    return count


def judge(table: AnyTable, ticks: bool = False, events: bool = False) -> Verdict:
    """The verdict on a table; where `ticks` is true always tick by tick, else where `events` is true always event by event.

    >>> judge([1, 1, 1, 0, 0, 0, 0, 1, 1, 2, 2, 1])
    Verdict(word='firm', first=0, second=2)
    """
    case, first, second = library.call("judge_ticks" if ticks else "judge_events" if events else "judge", words_in(table))
    return Verdict(("firm", "full", "miss")[case], first, second)


def figures(name: str, table: AnyTable) -> Optional[Tuple[int, ...]]:
    """A figure for each task, position 1 first; of the bounds None where the table does not pass."""
    found = (ctypes.c_uint32 * library.MOST_TASKS)()
    _, tested, _ = library.call(name, words_in(table), found)
    return None if name == "bounds" and not tested else tuple(found[:count_of(table)])


def response_times(table: AnyTable) -> Tuple[int, ...]:
    """The worst-case response time of each task: the most ticks from a job's release to its end.

    >>> response_times([1, 1, 1, 0, 0, 0, 0, 1, 1, 2, 2, 1])
    (1,)
    """
    return figures("response_times", table) or ()


def slack(table: AnyTable) -> Tuple[int, ...]:
    """The slack of each task: the most ticks by which its length alone can grow with the table still accepted.

    >>> slack([1, 1, 1, 0, 0, 0, 0, 1, 1, 2, 2, 1])
    (1,)
    """
    return figures("slack", table) or ()


def bounds(table: AnyTable) -> Optional[Tuple[int, ...]]:
    """The response-time bounds of the interference test, or None where the table does not pass it.

    >>> bounds([1, 1, 1, 0, 0, 0, 0, 1, 1, 2, 2, 1])
    (1,)
    """
    return figures("bounds", table)


def conflict(table: AnyTable) -> Tuple[int, ...]:
    """The positions of a minimal set of tasks that misses, of a table that does.

    >>> conflict([1, 1, 1, 0, 0, 0, 0, 1, 3, 2, 2, 1])
    (1,)
    """
    kept = library.call("conflict", words_in(table))[1]
    return positions_in(kept)


def sentence(table: AnyTable) -> str:
    """Why a table misses.

    >>> sentence([1, 1, 1, 0, 0, 0, 0, 1, 3, 2, 2, 1])
    'task 1 misses at tick 2 with 2 of 3 ticks.'
    """
    buffer = (ctypes.c_uint8 * library.SENTENCE_BYTES)()
    length = library.call("sentence", words_in(table), buffer)[1]
    return bytes(buffer[:length]).decode("ascii")


def rows(table: AnyTable, since: int, until: int) -> List[Tuple[int, ...]]:
    """The rows of the full-length run from a tick up to but not including another: for each core the position, 0 idle, 255 fenced.

    >>> rows([1, 2, 1, 0, 0, 0, 0, 1, 1, 2, 2, 1], 0, 2)
    [(1, 0), (0, 0)]
    """
    cores = table.cores if isinstance(table, Table) else table[1] if len(table) > 1 else 0
    room = max(0, until - since) * (cores if 1 <= cores <= 64 else 0)
    found = (ctypes.c_uint8 * room)()
    library.call("plan", words_in(table), since, until, found)
    return [tuple(found[at:at + cores]) for at in range(0, room, cores)]


def positions_in(bits: int) -> Tuple[int, ...]:
    """The positions of a set in a word."""
    return tuple(at + 1 for at in range(bits.bit_length()) if bits >> at & 1)


def set_of(positions: Iterable[int]) -> int:
    """A set of positions as a word; one that no word holds is an error."""
    found = 0
    for position in positions:
        if not 1 <= position <= library.MOST_TASKS:
            raise ValueError(f"{position} is no position: 1 to {library.MOST_TASKS} is allowed")
        found |= 1 << position - 1
    return found
