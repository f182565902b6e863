"""The parts of a page on a miss: why it misses, the rows before it, the clash."""
import dataclasses
import importlib
import io
import re
from typing import Any, List, Optional, Tuple

import named
import page
import picture
from chart_kinds import Inset
from page import Html, chip, element, listing, number, paragraph, section
from printed import TooLong, clash_in, rows_of, verdict_in
from programs import Judged, Programs
from report_parts import LIMITED, caption, core_heads, head_cell, marked, most, row_cells, rows_look, ticks, waited, width_words
from report_picture import Shown
from span import stretch
from system import Trouble
from table import relinked
from texts import SENTENCE, WORDS

ROWS = 16  # rows that are shown before a miss


def sentence_section(judged: Judged, said: str) -> Tuple[int, Html]:
    first, second, table = judged.first, judged.second, judged.table
    found = said and SENTENCE.fullmatch(said)
    if not found or (int(found[1]), int(found[2])) != (second, first):
        raise Trouble(f"the sentence is {said!r}")
    late, due, had, length = (int(field) for field in found.groups()[:4])
    others = [tuple(map(int, pair)) for pair in re.findall(r"task (\d+) ran (\d+)", found[5])]
    names = table.names
    inner = [paragraph(chip(late), f" The job of position {names.at(late)} that is due at tick {names.tick(due, number)} had {number(had)} of its {ticks(length)}{names.time(had, length)}. It takes {width_words(table.tasks[late - 1])}{', together or not at all' if max(table.tasks[late - 1].v, table.tasks[late - 1].w) > 1 else ''}.")]
    if others:
        inner += [paragraph("These tasks above it ran while it waited, each in this number of ticks:"), listing([(*marked(position, names), f" {ticks(count)}{names.time(count)}") for position, count in others], class_="shares", id="ran")]
    else:
        inner.append(paragraph("No task above it ran in a tick in which it waited."))
    if table.rule == LIMITED and late > 1:
        inner.append(paragraph("Under rule 2 the first task that does not fit in the free cores ends the choosing, so in that tick every task below it waits, even where enough cores are idle for it.", id="limited"))
    return had, why_section(judged, element("blockquote", said, id="sentence"), named_sentence(said, names), *inner)


def named_sentence(said: str, names: named.Names) -> Optional[Html]:
    """The sentence with the names of a sheet and times in its units."""
    if not names:
        return None
    telling = importlib.import_module("sheet_names")
    return element("blockquote", telling.sentence(said, names.sheet.names(), names.step), id="sentence-names")


def why_section(judged: Judged, *inner: Any) -> Html:
    """Why it misses, after what the words in it mean."""
    late, table = judged.second, judged.table
    return section("Why it misses", paragraph(f"{WORDS} Task {late} is the task at position {table.names.at(late)}.", class_="soft"), *inner, id="why")


def rows_section(judged: Judged, shown: Shown) -> Html:
    """The rows of the late job up to the miss. Where the picture shows other ticks, the program is asked again."""
    programs, first, second, table = judged.programs, judged.first, judged.second, judged.table
    start, rows = shown.span.start, shown.rows
    task, names = table.tasks[second - 1], table.names
    release = first - task.D
    since = max(release, first - ROWS)
    if rows and start <= since and start + len(rows) == first:
        rows = rows[since - start:]
    else:
        try:
            rows, _ = rows_of(rows_again(programs), since, first, table, until=programs.until)
        except TooLong:
            return section("The rows before the miss", waited(programs, "The question for the rows", "FILE"), id="rows")
    head = element("tr", head_cell("tick"), *core_heads(table), head_cell("position ", *marked(second, names), class_="word"))
    width = task.w if (release - task.O) // task.T % 2 else task.v
    beside = "waits, though it would fit"
    said = ["runs" if second in row else beside if table.rule == LIMITED and row.count(0) >= width else "waits" for row in rows]
    lines = [element("tr", element("td", number(tick)), *row_cells(row), element("td", word, class_="word")) for tick, row, word in zip(range(since, first), rows, said)]
    lines.append(element("tr", element("td", number(first)), element("td", f"position {names.at(second)} is due here and has not had its {ticks(task.C)}{names.time(task.C)}", colspan=table.cores + 1, class_="words"), class_="due"))
    what = f"The late job of position {names.at(second)} was released at tick {names.tick(release, number)}" + ("." if since == release else f"; shown are the last {ticks(first - since)}.")
    ended = paragraph(f"Where position {names.at(second)} waits though it would fit in the idle cores, a task above it that does not fit in them has ended the choosing: that is rule {LIMITED}.", id="ended") if beside in said else None
    return section("The rows before the miss", paragraph(what, class_="soft"), page.wide_table([head, *lines], "the rows before the miss", class_=rows_look(table.cores)), ended, id="rows")


def rows_again(programs: Programs) -> io.BufferedReader:
    """The rows that the program prints for this table, from tick 0 on."""
    source = programs.asking("rows").stdout
    verdict_in(source.readline(64))
    return source


def clash_section(judged: Judged, said: Optional[bytes], pictures: int) -> Tuple[List[int], Html]:
    """The tasks in the conflict, with their picture. Its positions are called as in the table."""
    programs, table = judged.programs, judged.table
    title = "The conflict"
    if said is None:
        return [], section(title, waited(programs, "The question for the conflict", "--clash"), id="clash")
    part = clash_in(said.decode("ascii", "replace"), table)
    kept = part.clash
    inner = [paragraph("Positions " if len(kept) > 1 else "Position ", *(mark for position in kept for mark in (*marked(position, table.names), " ")),
                       "are in conflict: by themselves they miss a deadline, and without any one of them the rest does not." if len(kept) > 1 else "misses a deadline by itself, without any other task.", id="kept")]
    if len(kept) == len(table.tasks):
        return kept, section(title, *inner, paragraph("These are all tasks of the table, so their picture is the one above.", class_="soft"), id="clash")
    programs.wait()
    process = programs.asking("rows", relinked(programs.text, table.records, kept))
    verdict = verdict_in(process.stdout.readline(64))
    if verdict.word != "miss" or verdict.second > len(kept):
        raise Trouble(f"the conflict is {verdict.word}")
    verdict = dataclasses.replace(verdict, second=kept[verdict.second - 1])
    span = stretch(verdict, most(table, pictures))
    try:
        rows, _ = rows_of(process.stdout, span.start, span.end, part, until=programs.until)
    except TooLong:
        return kept, section(title, *inner, waited(programs, "The picture of the conflict", "--clash --picture"), id="clash")
    sheet = Inset("c-", part, span.start, rows)
    keys = picture.draw_rows(sheet, verdict)
    inner.append(caption(span, verdict.rows, f"With these alone position {table.names.at(verdict.second)} misses its deadline at tick {table.names.tick(verdict.first, number)}. "))
    return kept, section(title, *inner, *page.charts([sheet], [f"{picture.verdict_words(verdict, part)}. {span.shown(verdict.rows)}."], None, end=True), *page.legend(sheet, keys)[:1], id="clash")
