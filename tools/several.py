"""--json, and --verdict of several files: each file is answered in a process of its own, some at once, and a line of each is printed in the order of the files.
The status is the worst of all, in the order 3, 2, 1, 4, 0."""
import dataclasses
from typing import Tuple

import as_json
import inputs
import system
from answers import answers_of
from forks import each
from inputs import Input
from question import status_of
from system import Call, FINE, Mode, STRICT

WORST = (3, 2, 1, 4, 0)


def strictly(call: Call, given: Input, status: int) -> int:
    """The status, with --strict by the records on no chain; these are named."""
    note = given.strict_note() if call.strict and status <= 1 else None
    if note:
        system.say(note)
    return STRICT if note and status == FINE else status


def verdict(call: Call) -> Tuple[int, str]:
    """The verdict of a file, and its name."""
    given = inputs.read(call.file, call.sheets)
    with system.running(*system.asked(call.programs, "verdict", given.table)) as process:
        first = system.first_line(process).decode("ascii", "replace").removesuffix("\n")
    status = status_of(first, "verdict")
    system.write(f"{first} {system.shown(call.file)}\n".encode())
    for note in given.notes(first):
        system.say(note)
    return strictly(call, given, status), ""


def json_object(call: Call) -> Tuple[int, str]:
    """The object of a file; its notes are in it."""
    given = inputs.read(call.file, call.sheets)
    answers = answers_of(call.programs, given)
    system.write(as_json.line_of(answers))
    return strictly(call, given, answers.status), ""


def answered(mode: Mode, call: Call) -> Tuple[int, str]:
    """The answers for all files. Notes have the name of their file before them."""
    calls = [dataclasses.replace(call, file=file) for file in call.files]
    statuses = {FINE}
    for file, (status, said, noted) in zip(call.files, each(mode, calls, call.jobs)):
        system.LINE.clear()
        system.write(said)
        name = system.shown(file)
        for line in noted.decode("utf-8", "backslashreplace").splitlines():
            note = line.removeprefix("sivorandra: ")
            system.say(note if len(calls) == 1 or note.startswith(f"{name} could not") else f"{name}: {note}")
        statuses.add(status)
    return next(status for status in WORST if status in statuses), ""


def verdicts(call: Call) -> Tuple[int, str]:
    return answered(verdict, call)


def objects(call: Call) -> Tuple[int, str]:
    return answered(json_object, call)
