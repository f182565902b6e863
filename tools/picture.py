"""Draws what the program prints for a table as an SVG 1.1: the modes of --picture.

It decides nothing. The cells are the program's rows and the words are the program's verdict; releases, deadlines, the fence and the
numbers beside each task are the table's; the response times are what the program `query` beside it prints, and the job
that is marked is found by its cells. The program's output is read as a stream: only the rows that are drawn are kept, and
after the last of them the program is stopped. Of a list the rows of the list are drawn. Of a conflict only its tasks are
drawn: the program is handed the table with its chain linked over the others.
The status is 0 where nothing is refused or missed, or for a conflict, 1 for a miss, 2 for a refusal."""
import dataclasses
import io
import os
import subprocess
from typing import TYPE_CHECKING, BinaryIO, ContextManager, Dict, List, Optional, Sequence, Tuple

import named
import system
from chart import Cells, moments
from chart_kinds import Chart
from listed import LATE, Listed, begun
from printed import Verdict, clash_in, figures_of, numbers_in, rows_of, verdict_in
from span import MOST, Asked, Span, stretch
from svg import BLUE, Sheet
from system import Call, FINE, MISSED, Made, REFUSED, Trouble, running
from table import Rows, Table, relinked, table_of
from texts import REFUSALS, RULES, SHEET_REFUSALS, VERDICTS, number_of

if TYPE_CHECKING:
    from sheet import Sheet as TaskSheet

Keys = List[Tuple[str, str]]  # what a legend has: a sample's name, and its words


def about(table: Table) -> str:
    tasks = (f"{len(table.clash)} of " if table.clash else "") + number_of(len(table.tasks), "task")
    kept = f", {len(table.fenced)} of them fenced" if table.fenced else ""
    return f"{tasks} on {number_of(table.cores, 'core')}{kept}, rule {table.rule} ({RULES[table.rule]})"


def verdict_words(verdict: Verdict, table: Table) -> str:
    """A verdict in words; of a conflict it is a miss."""
    at, tick = table.names.at, table.names.tick
    if not table.clash:
        return VERDICTS[verdict.word].format(tick(verdict.first), at(verdict.second))
    *others, last = map(at, table.clash)
    positions = f"positions {', '.join(others)} and {last}" if others else f"position {last}"
    return f"The conflict of {positions} alone: position {at(verdict.second)} misses its deadline at tick {tick(verdict.first)}"


def head_lines(table: Table, *lines: str) -> List[str]:
    """The text over a picture: these lines, and the length of a tick, where the table gives it."""
    return [*lines, *([f"A tick is {table.names.step}."] if table.names.step else [])]


def refusal_lines(number: int, position: int, names: named.Names = named.NONE, unknown: str = "The program gave this number; nothing is drawn.") -> List[str]:
    """What a number means, in lines."""
    lines = {**REFUSALS, **(SHEET_REFUSALS if names else {})}.get(number, [unknown])
    return [line.format(names.at(position)) for line in lines]


def refusal(number: int, position: int, names: named.Names = named.NONE) -> Made:
    """A refusal, in words."""
    sheet = Sheet()
    title = f"Refused, number {number}" + (f", position {names.at(position)}" if position else "")
    lines = refusal_lines(number, position, names)
    sheet.text(16, 30, title, 17, font_weight="bold", id="refused")
    for k, line in enumerate(lines):
        sheet.text(16, 56 + 20 * k, line, 13)
    return Made(sheet.out(title, lines), REFUSED, f"refused {number} {position}")


def longest_jobs(figures: Sequence[int], table: Table, start: int, rows: Rows) -> Dict[int, int]:
    """Of each position the release of the first drawn job that takes just its figure from release to end, by its cells; where all of such a job is drawn."""
    found = {}
    for position, (figure, task) in enumerate(zip(figures, table.tasks), 1):
        for release in moments(task, 0, start, start + len(rows) - figure):
            cells = [position in row for row in rows[release - start:release - start + figure]]
            if sum(cells) == task.C and cells[-1]:
                found[position] = release
                break
    return found


def draw_rows(sheet: Cells, verdict: Verdict, figures: Sequence[int] = (), had: int = 0) -> Keys:
    """Draws the rows of a verdict that is no refusal: the cells, the strips, the response times, the miss with what the late job had, S and the first repeat. What the legend has more."""
    word, first, second = verdict.word, verdict.first, verdict.second
    seen, tick = word == "miss" and sheet.end == first, sheet.table.names.tick
    sheet.cells()
    sheet.strips((first, second) if seen else None)
    marked = longest_jobs(figures, sheet.table, sheet.start, sheet.rows)
    for position, figure in enumerate(figures, 1):
        sheet.longest(position, figure, marked.get(position))
    if seen:
        sheet.late(first, second, had, sheet.miss_words("miss", first, second), sheet.top - 10)
    elif word != "miss":
        sheet.mark("S", first, f"S, tick {tick(first)}", sheet.top - 26, BLUE, "6 3")
        sheet.mark("repeat", first + second, f"first repeat, S + P, tick {tick(first + second)}", sheet.top - 10, BLUE, "2 3")
    sheet.ticks()
    return [("longest", "worst case: the most ticks that a job takes from its release to its end, of its D; a bracket marks the first such job drawn")] if figures else []


def chart(verdict: Verdict, table: Table, source: io.BufferedReader, asked: Asked, answers: BinaryIO) -> Made:
    """The picture of a verdict that is no refusal, and of the rows that it needs from the program's output; `answers` is `query`'s answer to `longest`."""
    word, names = verdict.word, table.names
    verdict = dataclasses.replace(verdict, second=table.drawn[verdict.second - 1]) if word == "miss" else verdict
    span = asked.within(verdict.rows, "there are those of") if asked else stretch(verdict)
    seen = word == "miss" and span.end == verdict.first
    late = table.tasks[verdict.second - 1] if seen else None
    rows, had = rows_of(source, span.start, span.end, table, (verdict.first - late.D, verdict.second) if late else None)
    repeats = "" if word == "miss" else f"; S is {names.tick(verdict.first)}, P is {names.tick(verdict.second)}"
    head = head_lines(table, verdict_words(verdict, table), about(table) + repeats, f"{span.shown(verdict.rows)}: {span.what}.")
    figures = figures_of(answers.read(), table) if word != "miss" else []
    sheet = Chart(table, span.start, rows, head)
    sheet.legend(*draw_rows(sheet, verdict, figures, had))
    tell = [f"The late job had {had} of {late.C}{names.time(had, late.C)}."] if late else []
    tell += [f"Worst-case response times: {', '.join(f'position {names.at(position)} {figure} of {task.D}' for position, (figure, task) in enumerate(zip(figures, table.tasks), 1))}."] if figures else []
    return Made(sheet.out(head[0], head[1:] + tell), MISSED if word == "miss" else FINE, word)


def list_words(listed: Listed, ticks: str) -> Tuple[List[str], List[str]]:
    """The text over the picture of a list, and what of it is red."""
    at, tick_of = listed.table.names.at, listed.table.names.tick
    advances = number_of(listed.advances, "advance") + (f" and {number_of(listed.withdrawals, 'withdrawal')}" if listed.withdrawals else "")
    title = f"The first {advances} of a list" if listed.more else f"A list of {advances}" if listed.advances or listed.withdrawals else "A list without an advance"
    if listed.late:
        title += f": position {at(listed.late[1])} misses its deadline at tick {tick_of(listed.late[0])}"
    elif listed.refusals:
        title += f", {listed.refusals:,} refused"
    elif listed.advances + listed.withdrawals:
        title += ", all taken" if listed.advances + listed.withdrawals > 1 else ", taken"
    red = listed.words[:]
    if listed.refusals > len(red) + bool(listed.late):
        red.append(f"In all {number_of(listed.refusals, 'line')} of the list are refused." if listed.withdrawals else f"In all {number_of(listed.refusals, 'advance')} are refused.")
    if listed.late:
        tick, position, had = listed.late
        red.append(f"At tick {tick_of(tick)} the row is refused, number {LATE}, position {at(position)}: its job is due and had {had} of {listed.table.tasks[position - 1].C}.")
    if listed.questions:
        red.append(f"{number_of(listed.questions, 'question')} for a row {'is' if listed.questions == 1 else 'are'} refused; --replay shows which.")
    return head_lines(listed.table, title, about(listed.table), ticks, "These are the rows of the list, not of the full-length run."), red


def draw_listed(sheet: Cells, listed: Listed) -> Keys:
    """Draws the rows of a list and what is marked in them. What the legend has more."""
    late = listed.late if listed.late and sheet.start <= listed.late[0] <= sheet.end else None
    blank = late and late[0] < sheet.end
    sheet.cells(listed.held)
    if blank:
        sheet.blank(late[0])
    sheet.strips(late, listed.held, listed.unused)
    for tick, position, _ in listed.ended:
        sheet.ends(tick, position)
    for tick, position in listed.empty:
        sheet.empty(tick, position)
    for tick, position in listed.out:
        sheet.withdrawn(tick, position)
    if late:
        sheet.late(*late, sheet.miss_words("refused", late[0], late[1], f", number {LATE}"), sheet.top - 26)
    for tick, number in sorted(listed.marks.items()):
        sheet.refused(tick, number)
    sheet.ticks()
    return [(name, words) for name, words, there in (
        ("ends", "ends here: the list reports that the job ends in this tick", listed.ended),
        ("empty", "empty: the job is released in this tick and has nothing to do", listed.empty),
        ("out", "withdrawn: a job under way goes on, those released from then on are empty", listed.out),
        ("unused", "the rest of the job's length, which it does not take", listed.unused),
        ("held", "the job has ended: its cores are held and not used", listed.held),
        ("blank", "a tick whose row is refused", blank)) if there]


def told(listed: Listed) -> List[Tuple[int, str]]:
    """What is marked in the rows of a list, a sentence each, with its tick."""
    at = listed.table.names.at
    ends = [(tick, f"Position {at(position)} ends in tick {tick} with {had} of {listed.table.tasks[position - 1].C}.") for tick, position, had in listed.ended]
    ends += [(tick, f"The job that position {at(position)} releases in tick {tick} is empty.") for tick, position in listed.empty]
    return ends + [(tick, f"Position {at(position)} is withdrawn in tick {tick}.") for tick, position in listed.out]


def list_chart(listed: Listed) -> Made:
    """The picture of the rows of a list."""
    count = listed.tick + 1
    reached = "what the list reaches" if count <= MOST else f"the first {MOST} ticks that the list reaches"
    span = listed.asked.within(count, "the list reaches") if listed.asked else Span(0, min(MOST, count), reached)
    head, red = list_words(listed, f"{span.shown(count, listed.more)}: {span.what}.")
    sheet = Chart(listed.table, span.start, listed.rows, head, red)
    sheet.legend(*draw_listed(sheet, listed))
    return Made(sheet.out(head[0], head[1:] + red + [words for _, words in told(listed)]), REFUSED if listed.late or listed.refusals or listed.questions else FINE, "ok")


def answering(program: List[str], question: str, text: bytes) -> ContextManager[subprocess.Popen]:
    """The answer to a question on a table, of the programs beside this one."""
    return running(*system.asked(os.path.dirname(program[-1]), question, text))


def draw(program: List[str], text: bytes, asked: Asked = Asked(), table: Optional[Table] = None, sheet: "Optional[TaskSheet]" = None) -> Made:
    """The picture of a table; of the conflict in it, if `table` has one."""
    with running(program, text) as process, answering(program, "longest", text) as answers:
        verdict = verdict_in(system.first_line(process))
        if verdict.word == "refused":
            return refusal(verdict.first, verdict.second, named.Names(sheet))
        if table and verdict.word != "miss":
            raise Trouble(f"the program's verdict is {verdict.word!r}")
        return chart(verdict, table or table_of(text, sheet), process.stdout, asked, answers.stdout)


def draw_clash(program: List[str], text: bytes, answer: str, asked: Asked = Asked(), sheet: "Optional[TaskSheet]" = None) -> Made:
    """The picture of the conflict in a table by `query`'s answer."""
    if answer.startswith("refused"):
        return refusal(*numbers_in(answer.encode()), named.Names(sheet))
    table = clash_in(answer, table_of(text, sheet))
    return draw(program, relinked(text, table.records, table.clash), asked, table)._replace(status=FINE, first=answer)


def draw_list(program: List[str], text: bytes, source: system.Source, asked: Asked = Asked(), sheet: "Optional[TaskSheet]" = None) -> Made:
    """The picture of a list of operations of a table."""
    with running(program) as process:
        started = begun(process, text)
        if started != b"ok":
            return refusal(*numbers_in(started), named.Names(sheet))
        listed = Listed(table_of(text, sheet), asked)
        listed.follow(source.name, source, process)
        return list_chart(listed)


# ---- The modes

def written(made: Made) -> Tuple[int, str]:
    system.write(made.text.encode())
    return made.status, made.first


def answer(call: Call) -> Tuple[int, str]:
    return written(draw(call.program("rows"), call.table, Asked(call.since, call.until), sheet=call.sheet))


def answer_clash(call: Call) -> Tuple[int, str]:
    asked, program = Asked(call.since, call.until), call.program("rows")
    with answering(program, "clash", call.table) as clash:
        said = system.first_line(clash).decode("ascii", "replace").removesuffix("\n")
    return written(draw_clash(program, call.table, said, asked, call.sheet))


def answer_list(call: Call) -> Tuple[int, str]:
    asked = Asked(call.since, call.until)
    return written(draw_list(call.program("replay"), call.table, system.list_of(call), asked, call.sheet))
