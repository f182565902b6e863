"""What the parts of a page share: the cells of rows, tasks in words, the header, the facts, the table, the footer."""
import importlib
import re
from typing import Any, List, Optional, Sequence

import named
import notes
import page
from notes import HEAD, RECORD
from page import Html, chip, element, listing, number, paragraph, section
from picture import refusal_lines
from programs import Judged, Programs
from span import Span
from table import FENCED, Table, Task
from texts import FITS, PROMISES, RULES, RULE_WORDS, WORDS

SHOWN = 200  # ticks in one picture of a page, where they are not too many bytes
CELL, STRIP, JOB, BYTES = 85, 40, 190, 1_400_000  # what a tick of a core, one of a strip and a job may take, and all pictures together
GREEDY, LIMITED = 1, 2  # rules
WIDE, NARROW = 8, 40  # cores whose columns are called in full, and columns that are not very narrow on paper
LEADS = {
    "firm": ["The verdict is ", element("b", "firm"), ": every job of every task meets its deadline, however early jobs end."],
    "full": ["The verdict is ", element("b", "full"), ": every job of every task meets its deadline, as long as no job ends early."],
}


def ticks(count: int) -> str:
    return f"{number(count)} tick{'' if count == 1 else 's'}"


def most(table: Table, pictures: int) -> int:
    """How many ticks a picture of a page shows, where there are n pictures."""
    tick = CELL * table.cores + sum(STRIP + JOB / task.T for task in table.tasks)
    return min(SHOWN, int(BYTES / pictures / tick))


def head_cell(*inner: Any, **words: Any) -> Html:
    """The head of a column, and those of the columns of cores; a row's cells under them."""
    return element("th", *inner, **{"scope": "col", **words})


def core_heads(table: Table) -> List[Html]:
    return [head_cell(f"core {core}" if table.cores <= WIDE else f"c{core}") for core in range(table.cores)]


def row_cells(row: Sequence[int]) -> List[Html]:
    looks = {0: ("idle", element("span", "idle", class_="hidden")), FENCED: ("fence", element("span", "fenced", class_="hidden"))}
    return [element("td", looks.get(position, ("", position))[1], class_=looks.get(position, (f"p{position}",))[0]) for position in row]


def waited(programs: Programs, what: str, option: str) -> Html:
    return paragraph(f"{what} had not been answered after {programs.patience} s. ", element("code", f"./sivorandra {option}"), " waits for it.", class_="note")


def marked(position: int, names: named.Names) -> List[Html]:
    """A position in its colour, with its name."""
    return [chip(position), element("span", f" {names.name(position)}", class_="name")] if names else [chip(position)]


def width_words(task: Task) -> str:
    """A task in words."""
    cores = lambda count: f"{count} core{'' if count == 1 else 's'}"
    return cores(task.v) if task.v == task.w else f"{cores(task.v)} in odd jobs and {task.w} in even ones"


def task_words(task: Task, names: named.Names = named.NONE) -> str:
    every = "every tick" if task.T == 1 else f"every {ticks(task.T)}"
    return f"{width_words(task)} for {ticks(task.C)}{names.time(task.C)}, {every}{names.time(task.T)} from tick {names.tick(task.O, number)}, due {ticks(task.D)}{names.time(task.D)} after release"


def verdict_header(word: str, name: str, lead: Sequence[Any], more: Optional[str] = None, look: str = "lead") -> Html:
    return element("header", paragraph("Timing report on ", element("b", name), class_="over"),
                   element("div", page.icon(word), element("h1", FITS[word]), class_="top"), paragraph(*lead, class_="lead"), paragraph(more, class_=look) if more else None, class_=word, id="verdict")


# Where the verdict on an accepted table comes from: the test looks at no tick.
BY_TEST = ("Verdict by", "the interference test", "every job of every task ends within a bound that is no later than its deadline; no tick was simulated")
BY_SIMULATION = ("Verdict by", "simulation", "of the full-length run up to the horizon; the table does not pass the interference test, which is quicker and accepts fewer tables")


def facts(judged: Judged, bounds: Optional[List[int]] = None) -> Html:
    word, first, second, table = judged.word, judged.first, judged.second, judged.table
    tick, at = lambda count: table.names.tick(count, number), table.names.at
    fenced = f"{len(table.fenced)} of them fenced: they belong to the hydraulics" if table.fenced else "none of them fenced"
    found = [("Start of the repeat, S", tick(first), "from this tick on everything repeats"), ("Period, P", tick(second), f"it repeats every {'tick' if second == 1 else ticks(second)}"),
             ("Horizon, S + P", tick(first + second), "no deadline missed up to this tick means that none ever is")] if word != "miss" else [
             ("First miss", f"tick {tick(first)}", "the earliest; at one tick the highest in priority"), ("Late task", f"position {at(second)}", table.names.origin(second, table.records[second - 1]))]
    found += [("Tasks", len(table.tasks), "position 1 has the highest priority"), ("Cores", table.cores, fenced),
              ("Rule", f"{table.rule}, {RULES[table.rule]}", RULE_WORDS[table.rule])]
    found += [("Tick", table.names.step, "as the sheet gives it; times in brackets are ticks in its unit")] if table.names.step else []
    found += [BY_TEST if bounds else BY_SIMULATION] if word != "miss" else []
    promises = [(element("b", f"{known.capitalize()}: ", class_="good" if known == "firm" else "fair"), words, element("b", f" This table is {word}.") if known == word else None) for known, words in PROMISES.items()] + ([element("b", "This table is neither.")] if word == "miss" else [])
    return section("In short", paragraph(WORDS, class_="soft") if word != "miss" else None, element("dl", *(element("div", element("dt", what), element("dd", figure, element("small", words))) for what, figure, words in found), class_="facts"),
                   listing(promises, class_="promises"), id="short")


def off_chain(text: bytes, answer: str) -> Optional[Html]:
    """Which records of a judged table are on no chain."""
    said = notes.notes(text, answer)
    return listing([f"Note: {note}." for note in said]) if said else None


def table_section(judged: Judged) -> Html:
    text, table = judged.text, judged.table
    words = [int(line) for line in text.split()]
    fields = lambda *cells: element("tr", *(element("td", cell) for cell in cells))
    head = element("tr", *(head_cell(field) for field in ("record", "position", "next", "O", "v", "C", "D", "T", "w")))
    rows = [fields(record, table.records.index(record) + 1 if record in table.records else "\u2013", *words[HEAD + RECORD * (record - 1):HEAD + RECORD * record])
            for record in range(1, (len(words) - HEAD) // RECORD + 1)]
    sheet = sheet_page().sheet_parts(table.names.sheet) if table.names else []
    return section("The table", *sheet, paragraph(f"{'As words' if sheet else 'As it was read'}: head {words[0]}, cores {words[1]}, rule {words[2]}, fence {words[3]} and {words[4]}; then each record. O is the first release, v the cores of odd jobs and w of even ones, "
                                          "C the length, D the deadline after release, T the period."),
                   None if sheet else off_chain(text, str(judged.verdict)), page.wide_table([head, *rows], "the records", class_="words"), id="table")


def sheet_page() -> Any:
    """What only sheets need is loaded where there is one."""
    return importlib.import_module("sheet_page")


def footer() -> Html:
    return element("footer", f"Made by sivorandra {page.version()}. Every figure is what its proved programs print for this table or for the changed tables it names, the table's own, or a sum, a count or a share of these; the page decides nothing.")


def caption(span: Span, count: int, before: str = "", after: Sequence[Any] = (), **words: Any) -> Html:
    """What the ticks of a picture are, in words."""
    return paragraph(before, re.sub(r"\d{4,}", lambda found: number(int(found[0])), f"{span.shown(count)}: {span.what}."), *after, class_="soft", **words)


def rows_look(columns: int) -> str:
    """The class of a table of rows with n columns of cores: where they are many they are narrow on paper."""
    return "rows" if columns <= 2 * WIDE else "rows many" if columns <= NARROW else "rows many most"


def refusal_words(refused: int, position: int, names: named.Names = named.NONE) -> str:
    return " ".join(refusal_lines(refused, position, names, "The program gave this number."))
