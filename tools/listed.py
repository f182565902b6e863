"""What a list of operations does, from the answers of the program `replay`: it is fed the table and the operations, with a row asked at each tick.
A list is read on after the ticks that are drawn, to show how many there are and whether something is refused, but no more than a million lines."""
import functools
import re
import subprocess
from dataclasses import dataclass
from typing import Dict, Iterable, Iterator, List, Optional, Protocol, Set, Tuple

import system
from printed import next_line, numbers_in, row_in
from span import Asked
from system import Declined, REFUSED, Trouble
from table import FENCED, Rows, Table, places
from texts import EXPECTED, MISTAKES, RULES, stands

LINE = 60  # bytes that are read of a line of a list, and more than an operation has
PART = 200  # lines of a list that are sent at once: with a row asked after each they are fewer bytes than any pipe holds
FURTHER = 1_000_000  # lines of a list that are read after those that are drawn
SENTENCES = 3  # on refused advances, in one picture
LATE = 15  # the number of a row that is refused as a task is late
Operation = Tuple  # a letter and its numbers


class Lines(Protocol):
    """What a list is read from."""

    def readline(self, most: int) -> bytes:
        ...


@dataclass
class Job:
    """The job of a position that was released last: which it is, the ticks that it had or held, whether it ended."""
    number: int
    had: int = 0
    ended: bool = False


def operation_in(line: bytes) -> Optional[Operation]:
    """The letter and the numbers of an operation; an advance has both its sets. None where a line is no operation."""
    if not re.fullmatch(rb"([rsj]|a [0-9]{1,10})( [0-9]{1,10})?|[wW] [0-9]{1,10}", line):
        return None
    letter, *numbers = line.decode().split(" ")
    numbers = [int(number) for number in numbers] + [0] * (letter == "a" and len(numbers) == 1)
    return (letter, *numbers) if all(number < 1 << 32 for number in numbers) else None


def parts(source: Lines) -> Iterator[List[bytes]]:
    """The lines of a list, some at a time; the first that is no operation is the last, whatever comes after it."""
    part, fine = [], True
    while fine:
        line = source.readline(LINE)
        if not line:
            break
        line = line.removesuffix(b"\n")
        fine = operation_in(line) is not None
        part.append(line)
        if len(part) == PART or not fine:
            yield part
            part = []
    yield part


class Listed:
    """What a list did, from the program's answers: the rows that are drawn, and what is marked in them."""

    def __init__(self, table: Table, asked: Asked):
        self.table, self.asked = table, asked
        self.tick, self.advances, self.withdrawals, self.more = 0, 0, 0, ""
        self.jobs: Dict[int, Job] = {}  # by position
        self.positions: Set[int] = set()  # those of the tick's row
        self.rows: Rows = []
        self.held: Set[Tuple[int, int]] = set()  # tick and position
        self.ended: List[Tuple[int, int, int]] = []  # tick, position and the ticks that the job had
        self.empty: List[Tuple[int, int]] = []  # tick and position
        self.unused: List[Tuple[int, int, int]] = []  # position, first tick and last
        self.withdrawn: Set[int] = set()
        self.out: List[Tuple[int, int]] = []  # the drawn ticks in which positions were withdrawn
        self.refusals, self.questions = 0, 0  # of moves, and of rows asked
        self.marks: Dict[int, int] = {}  # the number of a refusal by its tick
        self.words: List[str] = []
        self.late: Optional[Tuple[int, int, int]] = None  # tick, position and the ticks that the job had
        self.parsed = functools.lru_cache(1024)(lambda line: row_in(line.split()[1:], self.tick, table))

    def drawn(self) -> bool:
        return self.asked.start <= self.tick < self.asked.end

    def job(self, position: int) -> Job:
        task = self.table.tasks[position - 1]
        number = (self.tick - task.O) // task.T
        if position not in self.jobs or self.jobs[position].number != number:
            self.jobs[position] = Job(number)
        return self.jobs[position]

    def hold(self) -> None:
        """The positions of the tick's row whose job has ended."""
        self.held |= {(self.tick, position) for position in self.positions if self.job(position).ended}

    def end_empty(self, positions: Iterable[int]) -> None:
        """The jobs of these positions that are released in this very tick are empty: they end before its row."""
        for position in positions:
            task = self.table.tasks[position - 1]
            if self.tick >= task.O and (self.tick - task.O) % task.T == 0 and not self.job(position).ended:
                self.job(position).ended = True
                self.rest(position, self.tick)
                if self.drawn():
                    self.empty.append((self.tick, position))

    def emptied(self, positions: Iterable[int], line: bytes) -> None:
        """The tick's row is this one, since jobs of these positions are empty."""
        if line.startswith(b"row "):
            row = self.parsed(line)
            self.positions = set(row) - {0, FENCED}
            self.end_empty(positions)
            if self.drawn():
                self.rows[-1] = row
                self.hold()

    def withdraw(self, positions: List[int], line: bytes) -> None:
        """A withdrawal that is taken stays in its tick, whose row may be another now."""
        self.withdrawn.update(positions)
        if self.drawn():
            self.out += [(self.tick, position) for position in positions]
        self.emptied(positions, line)

    def rest(self, position: int, tick: int) -> None:
        """What a job that has ended does not take of its length, from a tick on. Under idling its cells are held instead, under lending held or lent."""
        job, task = self.job(position), self.table.tasks[position - 1]
        until = min(tick + task.C - job.had, task.O + job.number * task.T + task.D)
        if RULES[self.table.rule] not in ("idling", "lending") and max(tick, self.asked.start) < min(until, self.asked.end):
            self.unused.append((position, tick, until))

    def row(self, line: bytes) -> None:
        """The row of a tick that is reached, or its refusal."""
        if line.startswith(b"row "):
            row = self.parsed(line)
            self.positions = set(row) - {0, FENCED}
            self.end_empty(sorted(self.withdrawn))
            if self.drawn():
                self.rows.append(row)
                self.hold()
            return
        number, position = numbers_in(line)
        if number != LATE:
            raise Trouble(f"the program's row of tick {self.tick} is {line!r}")
        task = self.table.tasks[position - 1]
        job = self.jobs.get(position)
        self.late = self.tick, position, job.had if job and job.number == (self.tick - task.D - task.O) // task.T else 0
        if self.drawn():
            self.marks[self.tick] = number
            self.rows.append([FENCED if core in self.table.fenced else 0 for core in range(self.table.cores)])

    def taken(self, reports: int, line: bytes) -> None:
        """An advance that is taken: a tick goes by for those in its row, the jobs that are reported end, and the next tick has this row.
        A job ends at its length too; under lending it may be in later rows and hold."""
        for position in self.positions:
            job = self.job(position)
            job.had += 1
            job.ended |= job.had == self.table.tasks[position - 1].C
        for position in places(reports):
            if position not in self.positions:
                raise Trouble(f"the program took a report for position {position} at tick {self.tick}")
            job = self.job(position)
            job.ended = True
            self.rest(position, self.tick + 1)
            if self.drawn():
                self.ended.append((self.tick, position, job.had))
        self.tick += 1
        self.row(line)

    def question(self, answer: bytes) -> None:
        """The answer to a row asked, as sets too: nothing changes, but it can be refused."""
        self.questions += answer.startswith(b"refused ")

    def refused(self, operation: str, answer: bytes) -> None:
        """A refused move. Where a task is late the row has shown it."""
        number, position = numbers_in(answer)
        self.refusals += 1
        if number != LATE:
            if self.drawn():
                self.marks[self.tick] = number
            if len(self.words) < SENTENCES:
                why = f": {MISTAKES[number]}" if number in MISTAKES else ""
                self.words.append(f"At tick {self.tick} '{operation}' is refused, number {number}{f', position {self.table.names.at(position)}' if position else ''}{why}.")

    def follow(self, name: str, source: Lines, process: subprocess.Popen) -> None:
        """The program's answer to each line of the list; they are sent in parts, with a row asked after each."""
        self.row(next_line(process.stdout))
        read = since = 0
        for part in parts(source):
            sent = [(line, operation_in(line)) for line in part]
            system.send(process, b"".join(asking(line, operation) for line, operation in sent))
            for line, operation in sent:
                read, since = read + 1, since + 1
                if operation and operation[0] in "rsj":
                    self.question(next_line(process.stdout) if asks_empties(operation) else b"")
                    continue
                left = next_line(process.stdout) if has_empties(operation) else None
                answer = next_line(process.stdout)
                if answer == b"not an operation":
                    raise Declined(f"{name}: line {read}: {stands(line)} stands there; {EXPECTED}", REFUSED)
                asked = next_line(process.stdout)
                letter, *numbers = operation
                self.advances += letter == "a"
                self.withdrawals += letter in "wW"
                if answer != b"taken":
                    self.refused(line.decode(), answer)
                elif letter in "wW":
                    self.withdraw(places(numbers[0]) if letter == "W" else [numbers[0]], asked)
                else:
                    if left:
                        self.emptied(places(numbers[1]), left)
                    self.taken(numbers[0], asked)
                    since = since if self.tick >= self.asked.end else 0
            if since >= FURTHER:
                self.more = "more than "
                return


def has_empties(operation: Optional[Operation]) -> bool:
    """Whether an operation is an advance with empty jobs."""
    return operation is not None and operation[0] == "a" and operation[2] > 0


def asks_empties(operation: Operation) -> bool:
    """Whether an operation asks the row that empty jobs leave, as sets too."""
    return operation[0] in "rsj" and any(operation[1:])


def asking(line: bytes, operation: Optional[Operation]) -> bytes:
    """What is sent for a line of a list: of a row asked nothing, unless it has empty jobs; before an advance with empty jobs the row that they leave, after a move the next row."""
    if operation and operation[0] in "rsj":
        return line + b"\n" if asks_empties(operation) else b""
    return (b"r %d\n" % operation[2] if has_empties(operation) else b"") + line + b"\nr\n"


def begun(process: subprocess.Popen, text: bytes) -> bytes:
    """What start answers to a table, of which the row of tick 0 is asked too."""
    # a line `--` in a table is none of ours, so it is made another that is no number; the last line has its newline
    text = re.sub(rb"(?m)^--$", b"---", text)
    system.send(process, text + (b"" if text.endswith(b"\n") or not text else b"\n") + b"--\nr\n")
    return system.first_line(process).removesuffix(b"\n")
