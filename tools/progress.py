"""Hands an answer on to standard output as it is. From the second second on a terminal shows that a table is being judged, and then how many of the rows have gone by.

How many there will be it reads from the verdict line. The mode `judging` is silent from the first line on."""
import contextlib
import fcntl
import os
import select
from typing import Tuple

import system
from system import Call, FINE

BLOCK = 1 << 18  # bytes that are handed on at once
F_SETPIPE_SZ = 1031  # a longer pipe, fewer turns


def rows_after(line: bytes) -> int:
    """How many rows follow a verdict line."""
    fields = line.split()
    if len(fields) != 3 or fields[0] == b"refused" or not (fields[1] + fields[2]).isdigit():
        return 0
    return int(fields[1]) + (0 if fields[0] == b"miss" else int(fields[2]))


def hand_on(counting: bool, source: int = 0) -> bytes:
    """Hands on all that a descriptor gives; its first line."""
    with contextlib.suppress(OSError):
        fcntl.fcntl(source, F_SETPIPE_SZ, BLOCK)
    first, lines, total = b"", 0, None
    buffer = bytearray(BLOCK)
    while True:
        if system.ready(source, select.POLLIN, system.EVERY):
            count = os.readv(source, [buffer])
            if not count:
                return first.partition(b"\n")[0]
            if total is None:
                first += buffer[:count]
                if b"\n" in first:
                    total = rows_after(first[:first.index(b"\n")])
            lines += buffer.count(b"\n", 0, count)
            if not counting:
                system.LINE.clear()
            system.write(memoryview(buffer)[:count])
        if total is None:
            system.LINE.say("still judging")
        elif counting:
            system.LINE.say(f"{lines - 1:,} of {total:,} rows")


def judging(_call: Call) -> Tuple[int, str]:
    hand_on(False)
    return FINE, ""


def counting(_call: Call) -> Tuple[int, str]:
    hand_on(True)
    return FINE, ""
