"""Plays a list of operations through the program `replay` and prints its answers with their ticks: the mode of --replay.

First start's answer and the row of tick 0; then for each line `a REPORTS EMPTIES` its answer, and where it is taken the row of the next tick. Where its empty
jobs leave another row than was shown, that row comes before the answer. A withdrawal, `w POSITION`, or `W SET` of several together, stays in its tick; where it leaves
another row, that comes after the answer. A line `r` asks what is shown already, `r EMPTIES` the row that these leave; `s` and `s EMPTIES`
ask the same as sets of cores, `j` and `j EMPTIES` who works, and both come as the program has them. It counts the ticks and nothing else, and reads a line when the one before is answered:
the list may be a pipe. Status 2: something is refused, or a line is no operation."""
import re
import subprocess
from typing import Iterable, Iterator, List, Optional, Tuple

import system
from system import Call, Declined, FINE, REFUSED, Source, Trouble
from texts import EXPECTED, stands

MOST = 60  # bytes that are read of a line, and more than an operation has
NONE = b"not an operation"


def lines_of(source: Source) -> Iterator[bytes]:
    """The lines of a list, without their ends; of one that is too long for an operation its beginning."""
    for line in iter(lambda: source.readline(MOST), b""):
        yield line.removesuffix(b"\n")


def empties_of(line: bytes) -> Optional[bytes]:
    """The set of empty jobs that an advance names, if any."""
    found = re.fullmatch(rb"a [0-9]+ 0*([1-9][0-9]*)", line)
    return found[1] if found else None


def with_end(table: bytes) -> bytes:
    """A table and the line `--` that ends it; where the table has one, it is no table with one dash either."""
    table = re.sub(rb"-+", b"-", table)
    return table + (b"\n" if table and not table.endswith(b"\n") else b"") + b"--\n"


class Session:
    """The program behind a list: each question has its answer."""

    def __init__(self, process: subprocess.Popen):
        self.process = process

    def heard(self) -> bytes:
        answer = self.process.stdout.readline().removesuffix(b"\n")
        if not answer:
            raise Trouble("the program ended without an answer")
        return answer

    def asked(self, text: bytes) -> bytes:
        system.send(self.process, text)
        return self.heard()

    def started(self, table: bytes) -> bytes:
        system.send(self.process, with_end(table))
        answer = system.first_line(self.process).removesuffix(b"\n")
        if not answer:
            raise Trouble("the program ended without an answer")
        return answer


def played(program: List[str], table: bytes, lines: Iterable[bytes], name: str) -> Iterator[bytes]:
    """The lines to be printed, each as soon as the program has printed it."""
    with system.running(program) as process:
        session = Session(process)
        tick, started = 0, session.started(table)
        if not re.fullmatch(rb"ok|refused \d+ \d+", started):
            raise Trouble(f"the program answered {started[:MOST]!r}")
        yield started
        if started != b"ok":
            return
        row = session.asked(b"r\n")
        yield b"0 " + row.removeprefix(b"row ")
        for number, line in enumerate(lines, 1):
            empties = empties_of(line)
            left = session.asked(b"r %s\n" % empties) if empties else row
            answer = left if left == NONE else session.asked(line + b"\nr\n")
            if answer == NONE:
                raise Declined(f"{name}: line {number}: {stands(line)} stands there; {EXPECTED}", REFUSED)
            if left != row and left.startswith(b"row "):
                yield b"%d %s" % (tick, left.removeprefix(b"row "))
            if not line.startswith(b"r"):
                yield b"%d %s %s" % (tick, line, answer)
            elif answer != row:
                yield b"%d %s" % (tick, answer.removeprefix(b"row "))
            before, row = row, session.heard()
            on = line.startswith(b"a") and answer == b"taken"
            tick += on
            if on or row != before:
                yield b"%d %s" % (tick, row.removeprefix(b"row "))


def answer(call: Call) -> Tuple[int, str]:
    source, status, first = system.list_of(call), FINE, ""
    for line in played(call.program("replay"), call.table, lines_of(source), source.name):
        first = first or line.decode("ascii", "replace")
        status = REFUSED if b"refused" in line else status
        system.write(line + b"\n")
    return status, first
