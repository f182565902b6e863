"""Plain questions on a sheet, the words of a sheet, and a sheet of a table: the modes of a sheet that draw nothing.

The program's answer is handed on as it is; with --names each of its lines has names and times behind it. Its first line gives the status."""
import os
import re
import subprocess
from typing import Tuple

import progress
import system
from sheet_back import sheet_of as sheet_of_words
from sheet_names import behind
from system import Call, FINE, MISSED, REFUSED, Trouble

TWO = r" [0-9]+ [0-9]+"
STATUSES = {rf"(firm|full){TWO}|task .*\.|none|[1-9][0-9]*( [0-9]+)*": FINE, rf"miss{TWO}": MISSED, rf"refused{TWO}": REFUSED}


def status_of(first: str, name: str) -> int:
    """The status by the first line of an answer."""
    for lines, status in STATUSES.items():
        if re.fullmatch(lines, first):
            return status
    raise Trouble(f"{name} ended early")


def with_names(call: Call, process: subprocess.Popen) -> bytes:
    """Prints the answer with names and times behind its lines, all at once; its first line as the program printed it."""
    first = system.first_line(process)
    lines = (first + process.stdout.read()).decode("ascii", "replace").splitlines()
    names, tick = call.sheet.names(), call.sheet.settings.tick
    system.write("".join(f"{behind(line, names, tick, call.mode != 'clash')}\n" for line in lines).encode())
    return first.removesuffix(b"\n")


def answer(call: Call) -> Tuple[int, str]:
    command, given = call.asking(call.mode)
    name = os.path.basename(command[0])
    with system.running(command, given) as process:
        said = with_names(call, process) if call.names else progress.hand_on(call.mode == "rows" and not os.isatty(1), process.stdout.fileno())
        first = said.decode("ascii", "replace")
        status = status_of(first, name)
        if process.wait():
            raise Trouble(f"{name} ended early")
    return status, first


def words(call: Call) -> Tuple[int, str]:
    """All words of a sheet, whether or not a program takes them."""
    system.write(call.sheet.text())
    return FINE, ""


def sheet_of(call: Call) -> Tuple[int, str]:
    """A sheet of a table, unless the program refuses that; its bounds are asked, which show it at once."""
    with system.running(*call.asking("bounds")) as process:
        first = system.first_line(process).decode("ascii", "replace").removesuffix("\n")
    status = status_of(first, "query")
    system.write((f"{first}\n" if status == REFUSED else sheet_of_words(call.table)).encode())
    return status, first
