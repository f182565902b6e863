"""The programs on one table, as a page asks them: each has some seconds to answer, and ends with the page."""
import contextlib
import math
import os
import subprocess
import time
from dataclasses import dataclass, field
from typing import TYPE_CHECKING, List, Optional

import system
from printed import Verdict, verdict_in
from span import Asked
from table import Table

if TYPE_CHECKING:
    from page import Html

PATIENCE = 20  # seconds that an answer is waited for, once the verdict is there; where that took long, twice as long


class Programs:
    """The programs on one table. What has not answered at `until` has not; leaving this stops all of them."""

    def __init__(self, program: List[str], text: bytes):
        self.program, self.text, self.stack = program, text, contextlib.ExitStack()
        self.notes: List[str] = []  # lines for standard error
        self.begun, self.patience, self.until = time.monotonic(), PATIENCE, math.inf

    def judged(self) -> None:
        """The verdict is there: what is asked next has this many seconds."""
        self.patience = max(PATIENCE, round(2 * (time.monotonic() - self.begun)))
        self.wait()

    def wait(self) -> None:
        """From now on what is asked has all its time."""
        self.until = time.monotonic() + self.patience

    def __enter__(self) -> "Programs":
        return self

    def __exit__(self, *_: object) -> None:
        system.LINE.clear()
        for note in self.notes:
            system.say(note)
        self.stack.close()

    @property
    def folder(self) -> str:
        return os.path.dirname(self.program[-1])

    def start(self, command: List[str], given: bytes) -> subprocess.Popen:
        """A program that has been given all that it reads, started."""
        return self.stack.enter_context(system.running(command, given))

    def heard(self, process: subprocess.Popen) -> Optional[bytes]:
        """A program's output in time, or None. A terminal shows that it is waited for."""
        process.stdin = None
        while True:
            try:
                return process.communicate(timeout=max(0.1, min(system.EVERY, self.until - time.monotonic())))[0]
            except subprocess.TimeoutExpired:
                if time.monotonic() > self.until:
                    process.kill()
                    return None
                system.LINE.say("still asking")

    def asking(self, question: str, text: Optional[bytes] = None) -> subprocess.Popen:
        """The program that a question is for, on the table or another text, started."""
        return self.start(*system.asked(self.folder, question, self.text if text is None else text))

    def verdict(self, text: bytes) -> Optional[Verdict]:
        """The verdict on another text, or None."""
        said = self.heard(self.asking("verdict", text))
        return verdict_in(said) if said else None


@dataclass(frozen=True)
class ListRead:
    """A list as it was read: its name, its lines, whether there are more, and the fault of one with a name that no task has."""
    name: str
    lines: List[bytes]
    more: bool
    unknown: Optional[str]


@dataclass(frozen=True)
class Judged:
    """A table that was judged and is no refusal: what the parts of a page on it are made from."""
    programs: Programs
    name: str
    verdict: Verdict
    table: Table
    asked: Asked = field(default_factory=Asked)
    listed: Optional[ListRead] = None
    compared: "Optional[Html]" = None

    @property
    def word(self) -> str:
        return self.verdict.word

    @property
    def first(self) -> int:
        return self.verdict.first

    @property
    def second(self) -> int:
        return self.verdict.second

    @property
    def text(self) -> bytes:
        return self.programs.text
