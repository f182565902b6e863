"""Writes a page on a table: the modes of --report.

It decides nothing. The proved programs beside PROGRAM print the verdict, the rows, the sentence on a miss, the conflict, the response times, their bounds and the slack.
The tasks are the table's. What could be changed is the same table with one change, and the verdict on it the program's. It counts cells of printed rows, or where they are
too many the jobs of one P by the table, and no more.
What takes long is waited for some seconds; then the page shows that it is missing.
The status is 0 where nothing is refused or missed, 1 for a miss, 2 for a refusal."""
import importlib
import io
from typing import TYPE_CHECKING, List, Optional, Tuple

import page
import picture
import system
from page import Html, element, number, paragraph, section
from printed import bounds_in, figures_in, verdict_in
from programs import Judged, ListRead, Programs
from report_accepted import answers_section, fullness_section, no_slack
from report_changes import change_section
from report_compare import compare_section
from report_list import lines_of, list_section
from report_miss import clash_section, rows_section, sentence_section, why_section
from report_parts import LEADS, facts, footer, refusal_words, table_section, verdict_header, waited
from report_picture import picture_rows, picture_section
from report_refused import refused_page, refused_sheet
from span import Asked
from system import Call, FINE, MISSED, Made, REFUSED, Trouble
from table import table_of
from texts import FITS, REMEDIES

if TYPE_CHECKING:
    from sheet import Sheet


def document(judged: Judged, *parts: Optional[Html]) -> str:
    return page.document(f"{FITS[judged.word]} \u2013 {judged.name}", range(1, len(judged.table.tasks) + 1), *parts, judged.compared, table_section(judged), footer())


def no_list() -> Html:
    """A table that misses is not started, so no list is played."""
    return section("What the list does", paragraph(element("b", "Refused, number 13: "), refusal_words(13, 0).split(". ")[0] + "."), paragraph(REMEDIES[13]), id="list")


def miss_page(judged: Judged, source: io.BufferedReader) -> str:
    """The page on a miss, of which `source` prints the rows."""
    programs, names = judged.programs, judged.table.names
    why, clash = programs.asking("why"), programs.asking("clash")
    shown = picture_rows(judged, source, 2)
    said = programs.heard(why)
    had, sentence = sentence_section(judged, said.decode("ascii", "replace").removesuffix("\n")) if said else (0, why_section(judged, waited(programs, "The question why", "--why")))
    drawn = picture_section(judged, shown, had=had)
    kept, clashing = clash_section(judged, programs.heard(clash), 2)
    lead = ["The task at ", element("b", f"position {names.at(judged.second)}"), " misses its deadline at ", element("b", f"tick {names.tick(judged.first, number)}"), "."]
    return document(judged, verdict_header("miss", judged.name, lead), sentence, no_list() if judged.listed else None, facts(judged), drawn,
                    rows_section(judged, shown), clashing, change_section(judged, kept), answers_section(judged))


def accepted_page(judged: Judged, source: io.BufferedReader) -> Tuple[str, int]:
    """The page on an accepted table, of which `source` prints the rows, and the status."""
    programs, table, word = judged.programs, judged.table, judged.word
    bounds = bounds_in(programs.heard(programs.asking("bounds")), table)
    longest, spare = programs.asking("longest"), programs.asking("spare")
    shown = None if judged.listed else picture_rows(judged, source, 1)
    fullness = fullness_section(judged)
    said = programs.heard(longest)
    answers = said if said is None else figures_in(said, table)
    if isinstance(answers, int):
        raise Trouble(f"the worst-case response times are refused by {answers}")
    lead, status = None, FINE
    if shown is None:
        drawn, lead, status = list_section(judged)
    else:
        drawn = picture_section(judged, shown, answers or [])
    said = programs.heard(spare)
    room = said if said is None else figures_in(said, table)
    if isinstance(room, int):
        if room != 23:
            raise Trouble(f"the slack is refused by {room}")
        room = no_slack(table)
    changed = change_section(judged) if word == "full" else None
    return document(judged, verdict_header(word, judged.name, LEADS[word], lead, "lead" if status == FINE else "lead bad"), facts(judged, bounds), drawn,
                    answers_section(judged, answers, room, bounds), fullness, changed), status


def report(program: List[str], text: bytes, name: str, asked: Asked = Asked(), listed: Optional[ListRead] = None, sheet: "Optional[Sheet]" = None, compared: Optional[Html] = None) -> Made:
    """The page on a table; `compared` is the section on an older release of it."""
    with Programs(program, text) as programs:
        process = programs.start(program, text)
        verdict = verdict_in(system.first_line(process))
        programs.judged()
        if verdict.word == "refused":
            made = refused_sheet(sheet, name, verdict.first, verdict.second, compared) if sheet else refused_page(text, name, verdict.first, verdict.second, compared)
            return Made(made, REFUSED, str(verdict))
        judged = Judged(programs, name, verdict, table_of(text, sheet), asked, listed, compared)
        if verdict.word == "miss":
            made = miss_page(judged, process.stdout)
            return Made(made, REFUSED, "refused 13 0") if listed else Made(made, MISSED, verdict.word)
        return Made(*accepted_page(judged, process.stdout), verdict.word)


def answer(call: Call) -> Tuple[int, str]:
    """The mode: the table is called by the last part of its file's name."""
    asked, listed, compared = Asked(call.since, call.until), None, None
    name = system.shown(call.file.rpartition("/")[2]) if call.file not in ("", "-") else f"a {'sheet' if call.sheet else 'table'} without a file name"
    if call.mode == "report compare":
        compared = compare_section(importlib.import_module("compare").of_call(call)[0], call.list)
    elif call.list:
        source = system.list_of(call)
        listed = lines_of(source.name, source)
    return picture.written(report(call.program("rows"), call.table, name, asked, listed, call.sheet, compared))
