"""The modes that Python answers: python3 -I -S tools NOTES MODE PROGRAMS TABLE FILE LIST FROM TO SHEET NAMES STRICT JOBS FILE..

NOTES is the descriptor that notes go to, PROGRAMS the folder of the proved programs, TABLE a path to the table's bytes, FILE the table's name; what is not there is empty.
Where SHEET is not empty the table is a sheet, and FILE itself is read; where NAMES is not, names go behind the lines of an answer.
The modes of several files read all FILEs themselves; where SHEET is not empty all of them are sheets.
Until all is loaded standard error is what the front has put there: the front notes why a Python could not start."""
import importlib
import os
import sys

import system

MODES = {  # module and function
    **{mode: ("question", "answer") for mode in ("rows", "verdict", "why", "longest", "bounds", "spare", "clash")},  # of a sheet
    "words": ("question", "words"),
    "sheet-of": ("question", "sheet_of"),
    "picture": ("picture", "answer"),
    "clash picture": ("picture", "answer_clash"),
    "picture replay": ("picture", "answer_list"),
    "replay": ("replay", "answer"),
    "check": ("check", "answer"),
    "report": ("report", "answer"),
    "report replay": ("report", "answer"),
    "compare": ("compare", "answer"),
    "report compare": ("report", "answer"),
    "notes": ("notes", "answer"),
    "judging": ("progress", "judging"),
    "counting": ("progress", "counting"),
}
SEVERAL = {"verdicts": "verdicts", "json": "objects"}  # functions of the module `several`


def bytes_of(path: str) -> bytes:
    if not path:
        return b""
    with open(path, "rb") as source:
        return source.read()


def main(noted: str, mode: str, *words: str) -> None:
    programs, table, file, listed, since, until, sheet, names, strict, jobs = [*words, *[""] * 10][:10]
    name, function = MODES[mode] if mode in MODES else ("several", SEVERAL[mode])
    answer = getattr(importlib.import_module(name), function)
    if sheet and mode in MODES:
        answer = importlib.import_module("sheet_call").reading(answer)
    call = system.Call(programs, bytes_of(table), file, listed, int(since) if since else None, int(until) if until else None, mode, names=bool(names),
                       files=words[10:], sheets=bool(sheet), strict=bool(strict), jobs=int(jobs or 1))
    os.dup2(int(noted), 2)
    system.LINE = system.Line()
    system.main(answer, call)


main(*sys.argv[1:])
