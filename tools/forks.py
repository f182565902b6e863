"""Several calls at once, each in a process of its own, which ends with us at the latest: system.py ends them with the programs."""
import os
import select
from dataclasses import dataclass, field
from typing import Dict, Iterator, Sequence, Tuple

import system
from system import ANSWERED, Call, FINE, MISSED, Mode, REFUSED, STRICT, Stopped, TROUBLE, USAGE


@dataclass
class Child:
    """A process that answers a call: what it has written to standard output and error so far, by the pipes that are still open."""
    process: int
    pipes: Dict[int, bytearray]
    out: bytearray = field(default_factory=bytearray)
    notes: bytearray = field(default_factory=bytearray)

    def hear(self, pipe: int) -> None:
        block = os.read(pipe, 1 << 16)
        if block:
            self.pipes[pipe] += block
        else:
            os.close(pipe)
            del self.pipes[pipe]

    def status(self) -> int:
        """The status of one that has ended."""
        got = os.waitstatus_to_exitcode(os.waitpid(self.process, 0)[1]) - ANSWERED
        system._children.remove(self.process)
        return got if got in (FINE, MISSED, REFUSED, STRICT, USAGE) else TROUBLE


def fork(mode: Mode, call: Call) -> Child:
    """Answers a call in a process of its own. A signal waits until it is known."""
    (heard, out), (noted, err) = os.pipe(), os.pipe()
    system._starting = True
    process = os.fork()
    if process == 0:
        try:
            system._running.clear()
            system._children.clear()
            system._starting = False
            os.dup2(out, 1)
            os.dup2(err, 2)
            system.LINE = system.Line()
            system.main(mode, call)
        finally:
            os._exit(ANSWERED + TROUBLE)
    system._children.append(process)
    system._starting = False
    os.close(out)
    os.close(err)
    if system._pending:
        raise Stopped
    child = Child(process, {})
    child.pipes = {heard: child.out, noted: child.notes}
    return child


def each(mode: Mode, calls: Sequence[Call], jobs: int) -> Iterator[Tuple[int, bytes, bytes]]:
    """The answers of a mode to some calls, in the order of these, as status, output and notes; so many are under way at once."""
    going: Dict[int, Child] = {}
    done: Dict[int, Tuple[int, bytes, bytes]] = {}
    begun = told = 0
    while told < len(calls):
        while begun < len(calls) and len(going) < jobs:
            going[begun] = fork(mode, calls[begun])
            begun += 1
        poll = select.poll()
        for child in going.values():
            for pipe in child.pipes:
                poll.register(pipe, select.POLLIN)
        ready_now = {pipe for pipe, _ in poll.poll(1000 * system.EVERY)}
        system.LINE.say(f"{told + len(done)} of {len(calls)} files")
        for number, child in list(going.items()):
            for pipe in ready_now & set(child.pipes):
                child.hear(pipe)
            if not child.pipes:
                done[number] = child.status(), bytes(child.out), bytes(child.notes)
                del going[number]
        while told in done:
            yield done.pop(told)
            told += 1
