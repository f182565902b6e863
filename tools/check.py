"""Hands a table and a supplied plan to the program `plan_checker` and prints its answer: the mode of --check.

It reads no row: it hands the plan on as it comes, which may be a pipe, and stops where the program has answered. If the program finds a line that is no row, that line
is shown on standard error and nothing is printed. From the second second on a terminal shows how many lines have gone by. Status: 0 accepted, 1 a fault or rows
missing, 2 refused or a line that is no row."""
import collections
import select
import subprocess
from typing import List, Tuple

import system
from replay import with_end
from system import Call, Declined, FINE, MISSED, REFUSED, Source, Trouble

BLOCK = 1 << 16  # bytes that are handed on at once
BEHIND = 1 << 18  # bytes that a pipe and the program may hold unread; the lines of these are kept
MOST = 60  # bytes that are shown of a line
EXPECTED = "the tick and a number from 0 to 255 for each core, a space before each number, was expected"
STATUSES = {b"accepted": FINE, b"fault": MISSED, b"unfinished": MISSED, b"refused": REFUSED}


class Gone:
    """The bytes that went by last, with the number of the line in which they begin."""

    def __init__(self):
        self.blocks, self.held, self.first, self.lines = collections.deque(), 0, 1, 0

    def add(self, block: bytes) -> None:
        self.blocks.append(block)
        self.held += len(block)
        self.lines += block.count(b"\n")
        while self.held - len(self.blocks[0]) > BEHIND:
            dropped = self.blocks.popleft()
            self.held -= len(dropped)
            self.first += dropped.count(b"\n")

    def line(self, number: int) -> bytes:
        lines = b"".join(self.blocks).split(b"\n")
        return lines[number - self.first] if 0 <= number - self.first < len(lines) else b""


def hand_on(process: subprocess.Popen, source: Source, gone: Gone) -> None:
    """Hands the plan on until it ends or the program has answered."""
    said, plan = process.stdout.fileno(), source.fileno()
    poll = select.poll()
    poll.register(said, select.POLLIN)
    poll.register(plan, select.POLLIN)
    while said not in (events := dict(poll.poll(1000 * system.EVERY))):
        if plan in events:
            block = source.read1(BLOCK)
            if not block:
                return
            gone.add(block)
            system.send(process, block)
        system.LINE.say(f"{gone.lines:,} lines of the plan")


def answered(program: List[str], table: bytes, source: Source, gone: Gone) -> bytes:
    """The program's answer to a table and a plan."""
    with system.running(program) as process:
        system.send(process, with_end(table))
        hand_on(process, source, gone)
        try:
            process.stdin.close()
        except BrokenPipeError:  # it has answered
            pass
        answer = process.stdout.read()
        if process.wait():
            raise Trouble("the program ended without an answer")
        return answer


def no_row(name: str, number: int, line: bytes) -> str:
    """The words for a line that is no row."""
    shown = line[:MOST].decode("latin-1").encode("unicode_escape").decode() + (" .." if len(line) > MOST else "")
    stands = f"'{shown}'" + (" (Windows line ends)" if line.endswith(b"\r") else "") if line else "an empty line"
    return f"{name}: line {number}: {stands} is no row of the tick that is due; {EXPECTED}"


def answer(call: Call) -> Tuple[int, str]:
    source, gone = Source(call.list, "the plan"), Gone()
    said = answered(call.program("check"), call.table, source, gone)
    word, *numbers = said.split() or [b""]
    if word == b"unread":
        raise Declined(no_row(source.name, int(numbers[0]), gone.line(int(numbers[0]))), REFUSED)
    if word not in STATUSES:
        raise Trouble("the program ended without an answer")
    system.LINE.clear()
    system.write(said)
    return STATUSES[word], said.decode("ascii", "replace")
