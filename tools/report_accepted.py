"""The parts of a page on an accepted table: how close its tasks come, and how full the cores are."""
import collections
import io
from typing import List, Optional, Tuple, Union

import page
import system
from page import Html, chip, element, listing, number, paragraph, section
from printed import TooLong, lines_after, row_in
from programs import Judged
from report_parts import GREEDY, marked, task_words, ticks, waited, width_words
from svg import colour
from system import Trouble
from table import Table
from texts import NOT_OF_THE_LIST, RULES

COUNTED = 100_000  # rows in which the cells are counted


def answers_section(judged: Judged, longest: Optional[List[int]] = None, spare: Union[None, str, List[int]] = None, bounds: Optional[List[int]] = None) -> Html:
    """Of a judged table each task, and where there are figures how close it comes; `spare` has the figures, or the words why there are none."""
    programs, word, table, listed = judged.programs, judged.word, judged.table, judged.listed
    items, names = [], table.names
    in_units = lambda *counts: (element("br"), names.time(*counts)) if names.step else ()
    for position, task in enumerate(table.tasks, 1):
        fill, figures = colour(position)[0], []
        line = lambda what, drawn, *said: [element("div", element("span", what, class_="what"), drawn, element("span", *said, class_="number"))]
        if longest:
            figures += line("response time", page.bar(task.D, [(longest[position - 1], fill)]), f"{number(longest[position - 1])} of {ticks(task.D)}", *in_units(longest[position - 1], task.D))
        elif bounds:
            figures += line("bound", page.bar(task.D, [(bounds[position - 1], fill)]), f"at most {number(bounds[position - 1])} of {ticks(task.D)}", *in_units(bounds[position - 1], task.D))
        if isinstance(spare, list):
            grown = spare[position - 1]
            figures += line("length and slack", page.bar(task.D, [(task.C, fill), (grown, "spare")]), f"{number(task.C)} + {number(grown)} of slack", *in_units(grown))
        items.append(element("li", chip(position), element("div", element("b", names.name(position) or f"Position {position}"), element("span", f" position {position}, {names.origin(position, 0)}" if names else f" record {table.records[position - 1]}", class_="soft"), element("br"),
                                                          element("span", task_words(task, names), class_="soft")),
                             element("div", *figures, class_="figures") if figures else None, id=f"task-{position}"))
    inner = [element("ul", *items, class_="tasks" if longest or bounds or isinstance(spare, list) else "tasks plain")]
    if word == "miss":
        return section("The tasks", *inner, id="tasks")
    words = "The worst-case response time is the most ticks that a job of the task ever takes from its release to its end, beside its deadline. " + (
        "No job takes longer, however early jobs end." if word == "firm" else "At full length some job takes just that; where another ends early, a job of a full table can take longer.")
    inner.insert(0, paragraph(words, NOT_OF_THE_LIST if listed else None, class_="soft"))
    if longest is None:
        inner.append(waited(programs, "The question for the worst-case response times", "--longest"))
        if bounds:
            inner.insert(1, paragraph(element("b", "Shown are bounds, not worst-case response times. "), "By the interference test no full-length job takes more ticks from its release to its end than its bound; it may take fewer. ",
                                      element("code", "./sivorandra --bounds"), " prints them.", class_="note", id="bounds"))
    if spare is None:
        inner.append(waited(programs, "The question for the slack", "--spare"))
    elif isinstance(spare, list):
        inner.insert(1, paragraph("The slack is the number of ticks by which the length of one task alone can grow with the table still accepted.", class_="soft"))
    else:
        inner.append(paragraph(element("b", "Slack cannot be given for this table (number 23). "), f"{spare} Slack is given under rule 2, and under rule 1 where every job of a task takes at most as many cores as every job of the task next below it. "
                               "Elsewhere a longer job can turn a miss into an accepted table, so that no one figure would hold.", class_="note", id="no-spare"))
    return section("The tasks, and how close they come", *inner, id="tasks")


def no_slack(table: Table) -> str:
    """What of an accepted table number 23 is about: its rule, or under rule 1 the first job that takes more cores than one of the task next below."""
    if table.rule != GREEDY:
        return f"Its rule is {table.rule} ({RULES[table.rule]})."
    for position, (task, below) in enumerate(zip(table.tasks, table.tasks[1:]), 1):
        if max(task.v, task.w) > min(below.v, below.w):
            return f"Position {table.names.at(position)} takes {width_words(task)}, and position {table.names.at(position + 1)}, next below it, {width_words(below)}."
    raise Trouble("the slack is refused by 23")


def counted(judged: Judged, source: io.BufferedReader) -> Tuple[int, List["collections.Counter[int]"]]:
    """How many cells each position has in one period, core by core, from the program's rows; and from which ticks."""
    first, second, table = judged.first, judged.second, judged.table
    end = first + min(second, COUNTED)
    cells = [collections.Counter() for _ in range(table.cores)]
    lines = collections.Counter(line.split(b" ", 1)[1] for _, line in zip(range(first, end), lines_after(source, first + 1, judged.programs.until)))
    if sum(lines.values()) != end - first:
        raise Trouble(f"the program's rows end before tick {end}")
    for line, times in lines.items():
        for core, position in enumerate(row_in(line.split(), first, table)):
            cells[core][position] += times
    return end, cells


def claimed(second: int, table: Table) -> List[int]:
    """The core ticks of each position in one P by the table: of an accepted table every job has its C ticks, with v cores or w in turn, and P has P / T jobs, as many odd as even ones where the two differ."""
    return [task.C * (task.v + task.w) * (second // task.T) // 2 for task in table.tasks]


def fullness_section(judged: Judged) -> Html:
    programs, first, second, table, listed = judged.programs, judged.first, judged.second, judged.table, judged.listed
    title = "The utilization of the cores"
    process = programs.asking("rows")
    try:
        end, cells = counted(judged, process.stdout)
    except TooLong:
        end, cells = first, None
    finally:
        system.end(process)
    open_cores = [core for core in range(table.cores) if core not in table.fenced]
    length, whole = end - first, second * len(open_cores)
    where = f"tick {number(first)}" if length == 1 else f"ticks {number(first)} to {number(end - 1)}"
    if length == second:
        had, source = [sum(core[position] for core in cells) for position in range(1, len(table.tasks) + 1)], f"{where}, counted in the printed rows"
    else:
        had, source = claimed(second, table), "by the table: P / T jobs of each task, each for its C ticks at its width"
    busy = sum(had)
    share = f"{100 * busy // whole} %{' (rounded down)' if 100 * busy % whole else ''}" if 100 * busy >= whole else "Less than 1 %"
    by_core = [paragraph(f"The rows from tick {number(first)} on had not come after {programs.patience} s, so no cells were counted.", class_="note")]
    if cells:
        bars = [element("li", f"core {core}", page.bar(length, [(length - cells[core][0], "busy")]), element("span", f"{number(length - cells[core][0])} of {number(length)}")) if core in open_cores else
                element("li", f"core {core}", element("span", "fenced", class_="soft")) for core in range(table.cores)]
        by_core = [paragraph(f"Counted in the first {number(length)} printed rows from S on, {where}.", class_="soft") if length < second else None, element("ul", *bars, class_="cores")]
    return section(title, paragraph(element("b", f"{share}: "), f"tasks have {number(busy)} of {number(whole)} core ticks in one P, {source}.", " Fenced cores are left out." if table.fenced else None, NOT_OF_THE_LIST if listed else None, id="full-of"),
                   page.bar(whole, [(count, colour(position)[0]) for position, count in enumerate(had, 1)], thick=True),
                   listing([*((*marked(position, table.names), f" {number(count)}") for position, count in enumerate(had, 1)), f"idle {number(whole - busy)}"], class_="shares"),
                   element("h3", "Core by core"), *by_core, id="fullness")
