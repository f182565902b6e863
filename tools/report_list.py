"""What a list does, on a page: beside the full-length run."""
import io
import re
from dataclasses import dataclass
from typing import Any, Dict, Iterable, List, Optional, Tuple

import page
import picture
import system
from chart_kinds import Inset
from listed import LATE, LINE, Lines, Listed, begun, operation_in
from page import Html, element, listing, number, paragraph, section
from programs import Judged, ListRead
from report_parts import NARROW, caption, core_heads, head_cell, most, row_cells, rows_look, ticks
from span import Asked, Span
from system import Declined, FINE, REFUSED, Trouble
from table import Table
from texts import LISTS, REMEDIES, number_of

LINES = 100_000  # lines of a list that are read
BEFORE, AFTER = 3, 8  # rows that are shown around a difference
SAID = 40  # sentences on what a list does


class Followed(Listed):
    """A run of a list, of which the last printed row of each tick is kept."""

    def __init__(self, table: Table, asked: Asked):
        super().__init__(table, asked)
        self.lines: Dict[int, bytes] = {}

    def row(self, line: bytes) -> None:
        super().row(line)
        self.lines[self.tick] = line

    def emptied(self, positions: Iterable[int], line: bytes) -> None:
        super().emptied(positions, line)
        if line.startswith(b"row "):
            self.lines[self.tick] = line


@dataclass
class Played:
    """A list beside the full-length run: both, the ticks that are shown, those whose rows differ with this in words, and what is wrong with the list."""
    run: Followed
    full: Followed
    span: Span
    differs: List[int]
    named: Html
    wrong: Optional[str]


def lines_of(name: str, source: Lines) -> ListRead:
    """The lines of a list, at most n, whether there are more, and the fault of one with a name that no task has. After one that is no operation nothing counts."""
    kept: List[bytes] = []
    try:
        while len(kept) < LINES:
            line = source.readline(LINE)
            if not line:
                return ListRead(name, kept, False, None)
            kept.append(line if line.endswith(b"\n") else line + b"\n")
            if operation_in(line.removesuffix(b"\n")) is None:
                return ListRead(name, kept, False, None)
        return ListRead(name, kept, bool(source.readline(1)), None)
    except Declined as declined:
        if declined.status != REFUSED:
            raise
        return ListRead(name, kept, False, str(declined))


def play(judged: Judged, lines: List[bytes], asked: Asked) -> Tuple[Followed, Optional[str]]:
    """Plays lines through the program `replay`: what became of them, and the fault of one that is no operation."""
    with system.running(system.asked(judged.programs.folder, "replay")[0]) as process:
        if begun(process, judged.text) != b"ok":
            raise Trouble("the program starts no run of a table that it accepted")
        followed, wrong = Followed(judged.table, asked), None
        try:
            followed.follow(judged.listed.name, io.BytesIO(b"".join(lines)), process)
        except Declined as declined:
            wrong = str(declined)
        return followed, wrong


def spelled(line: bytes) -> str:
    """The row of a line of the program in words."""
    return line.decode().removeprefix("row ")


def difference(run: Followed, full: Followed) -> Tuple[List[int], Html]:
    differs = [tick for tick in range(run.tick + 1) if run.lines[tick] != full.lines[tick]]
    if not differs:
        return differs, paragraph(element("b", "No difference: "), f"each row up to tick {number(run.tick)} is that of the full-length run.", id="difference")
    tick = differs[0]
    said = spelled(run.lines[tick])
    words = ["with the list the row is ", element("code", said), "."] if said.startswith("refused") else ["with the list ", element("code", said), "."]
    return differs, paragraph(element("b", f"The first difference is in tick {number(tick)}: "), "at full length the cores have ", element("code", spelled(full.lines[tick])), ", ", *words, id="difference")


def both_rows(run: Followed, full: Followed, tick: int) -> List[Html]:
    """The rows of both around a tick: beside each other, or where that is too wide for paper under each other."""
    table = run.table

    def listed(at: int) -> List[Html]:
        said = run.lines[at]
        return row_cells(run.parsed(said)) if said.startswith(b"row ") else [element("td", spelled(said), colspan=table.cores, class_="words bad")]

    at_full, gap = lambda at: row_cells(full.parsed(full.lines[at])), element("td", "", class_="gap")
    shown = range(max(0, tick - BEFORE), min(run.tick, tick + AFTER) + 1)
    line = lambda at, *cells: element("tr", element("td", number(at)), *cells, class_="differs" if run.lines[at] != full.lines[at] else None)
    name = "the rows around the first difference, "
    if 2 * table.cores > NARROW:
        tables = [(called, [element("tr", head_cell("tick"), *core_heads(table)), *(line(at, *cells(at)) for at in shown)]) for called, cells in (("at full length", at_full), ("with the list", listed))]
        return [element("h3", "Rows around it"), *(part for called, rows in tables for part in (paragraph(called.capitalize(), class_="soft"), page.wide_table(rows, name + called, class_=rows_look(table.cores))))]
    head = element("tr", head_cell("tick", rowspan=2), head_cell("at full length", colspan=table.cores, scope="colgroup"), gap, head_cell("with the list", colspan=table.cores, scope="colgroup"))
    rows = [head, element("tr", *core_heads(table), gap, *core_heads(table)), *(line(at, *at_full(at), gap, *listed(at)) for at in shown)]
    return [element("h3", "Rows around it"), page.wide_table(rows, name + "at full length and with the list", class_=rows_look(2 * table.cores))]


def list_title(run: Followed) -> str:
    """A list in words: what is in it, and what became of that."""
    count = run.advances + run.withdrawals
    parts = number_of(run.advances, "advance") + (f" and {number_of(run.withdrawals, 'withdrawal')}" if run.withdrawals else "")
    title = f"A list of {parts}" if count else "A list without an advance"
    if run.late:
        tick, position, _ = run.late
        return f"{title}: position {run.table.names.at(position)} misses its deadline at tick {run.table.names.tick(tick, number)}."
    if run.refusals:
        return f"{title}; {number(run.refusals)} of these {number_of(count, 'line')} {'is' if run.refusals == 1 else 'are'} refused." if count > 1 else f"{title}; it is refused."
    return f"{title}, {'all taken' if count > 1 else 'taken'}." if count else f"{title}."


def list_runs(judged: Judged, size: int) -> Played:
    """Plays the list, and nothing that ends early as far as it reaches."""
    listed, asked = judged.listed, judged.asked
    window = Asked(asked.since, asked.until, size)
    run, wrong = play(judged, listed.lines, window)
    zeros = [b"a 0\n"] * run.tick
    full = play(judged, zeros, window)[0]
    differs, named = difference(run, full)
    if differs and differs[0] >= size and not asked:  # the pictures are to show it
        start = max(0, differs[0] - size // 4)
        window = Asked(start, min(run.tick, start + size - 1), size)
        run, full = play(judged, listed.lines, window)[0], play(judged, zeros, window)[0]
    count = run.tick + 1
    reached = "what the list reaches" if count <= size else "around the first difference" if window else f"the first {size} ticks that the list reaches"
    span = window.within(count, "the list reaches") if asked else Span(window.start, min(window.end, count), reached)
    return Played(run, full, span, differs, named, wrong or listed.unknown)


def list_charts(judged: Judged, played: Played) -> List[Any]:
    """Both over each other."""
    run, span, count, title = played.run, played.span, played.run.tick + 1, list_title(played.run)
    sheets = [Inset("f-", judged.table, span.start, played.full.rows), Inset("l-", judged.table, span.start, run.rows)]
    keys = picture.draw_rows(sheets[0], judged.verdict) + picture.draw_listed(sheets[1], run)
    seen = [tick for tick in played.differs if span.start <= tick < span.end]
    if seen:
        sheets[1].differ(seen)
        keys.append(("differs", "over a tick: its row is not that of the full-length run"))
    if run.marks:
        keys.append(("refusal", "a red number over a tick: the number of a refusal there"))
    titles = [f"The full-length run. {span.shown(count)}.", f"{title} {span.shown(count)}."]
    return [caption(span, count, after=[" Above the full-length run, below the list's."], id="ticks"), *page.charts(sheets, titles, ["At full length", "With the list"]), *page.legend(sheets[1], keys)]


def list_section(judged: Judged) -> Tuple[Html, str, int]:
    """What the list does, the list in a line, and the status."""
    listed, played = judged.listed, list_runs(judged, most(judged.table, 2))
    run, wrong = played.run, played.wrong
    title, red = list_title(run), picture.list_words(run, "")[1]
    events = [re.sub(r" with (\d+) of (\d+)\.$", lambda found: f" with {found[1]} of its {ticks(int(found[2]))}.", words) for _, words in sorted(picture.told(run), key=lambda one: one[0])]
    numbers = sorted({*run.marks.values(), *([LATE] if run.late else [])} & set(REMEDIES))
    inner = [paragraph(LISTS, class_="soft"), paragraph(element("b", title), f" Only the first {number(len(listed.lines))} lines of it were read." if listed.more else None), played.named]
    inner += [paragraph(line, class_="bad") for line in [*red, *([wrong[0].upper() + wrong[1:] + "."] if wrong else [])]]
    judged.programs.notes.extend([wrong] if wrong else [])
    inner += [paragraph(f"Number {refused}: {REMEDIES[refused]}") for refused in numbers]
    inner += list_charts(judged, played)
    inner += both_rows(run, played.full, played.differs[0]) if played.differs else []
    inner += [element("h3", "What it says of these ticks"), listing(events[:SAID] + ([f"And {number(len(events) - SAID)} more."] if len(events) > SAID else []))] if events else []
    return section("What the list does", *inner, id="list"), title, REFUSED if run.late or run.refusals or run.questions or wrong else FINE
