"""A table and the answers on it as one JSON object on one line, by docs/sivorandra.schema.json. Every figure is a program's or the table's."""
import json
from typing import Any, Dict, List

import page
import system
from answers import Answers, NotWaited, Refused
from printed import Verdict
from texts import RULES

NUMBERS = {"firm": ("start", "period"), "full": ("start", "period"), "miss": ("tick", "position"), "refused": ("number", "position")}


def name_of(file: str) -> Any:
    """A file's name as it is; where it is no UTF-8 as it is shown. Standard input has none."""
    if file == "-":
        return None
    try:
        file.encode()
        return file
    except UnicodeEncodeError:
        return system.shown(file)


def verdict_of(verdict: Verdict) -> Dict[str, Any]:
    return {"word": verdict.word, **dict(zip(NUMBERS[verdict.word], (verdict.first, verdict.second)))}


def plain(answer: Any) -> Any:
    """An answer, or why there is none."""
    if isinstance(answer, Refused):
        return {"refused": answer.number, "position": answer.position}
    return {"not_waited_for": answer.seconds} if isinstance(answer, NotWaited) else answer


def tasks_of(answers: Answers) -> List[Dict[str, Any]]:
    table = answers.table
    if table is None:
        return []
    figure = lambda found, position: found[position - 1] if isinstance(found, list) else plain(found)
    return [{"position": position, "record": table.records[position - 1], "name": table.names.tasks[position - 1].name if table.names else None,
             "offset": task.O, "width": task.v, "length": task.C, "deadline": task.D, "period": task.T, "second_width": task.w,
             "response_time": figure(answers.response_times, position), "slack": figure(answers.slack, position)} for position, task in enumerate(table.tasks, 1)]


def line_of(answers: Answers) -> bytes:
    """The object, on one line."""
    table, verdict = answers.table, answers.verdict
    sheet = answers.given.sheet
    found = {"version": page.version(), "file": name_of(answers.given.file), "sha256": answers.given.digest, "verdict": verdict_of(verdict),
             "horizon": verdict.rows if verdict.word in ("firm", "full") else None, "sentence": plain(answers.sentence), "conflict": plain(answers.conflict),
             "cores": table.cores if table else None, "rule": RULES[table.rule] if table else None, "fence": sorted(table.fenced) if table else None,
             "tick": str(sheet.settings.tick) if sheet and sheet.settings.tick else None, "tasks": tasks_of(answers), "notes": answers.given.notes(str(verdict))}
    return json.dumps(found).encode() + b"\n"
