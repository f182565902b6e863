"""The picture of a page. Its rows are taken before anything is waited for."""
from dataclasses import dataclass
from typing import Optional, Sequence

import io

import page
import picture
from chart_kinds import Inset
from page import Html, element, number, paragraph, section
from printed import TooLong, rows_of
from programs import Judged
from report_parts import caption, most
from span import Asked, Span, stretch
from table import Rows


@dataclass(frozen=True)
class Shown:
    """The ticks that the picture shows, and their rows, or None where these have not come in time."""
    span: Span
    rows: Optional[Rows]


def picture_rows(judged: Judged, source: io.BufferedReader, pictures: int) -> Shown:
    """The rows of the ticks that the picture shows, of which the page has n."""
    table, asked, size = judged.table, judged.asked, most(judged.table, pictures)
    span = Asked(asked.since, asked.until, size).within(judged.verdict.rows, "there are those of") if asked else stretch(judged.verdict, size)
    try:
        return Shown(span, rows_of(source, span.start, span.end, table, until=judged.programs.until)[0])
    except TooLong:
        return Shown(span, None)


def picture_section(judged: Judged, shown: Shown, figures: Sequence[int] = (), had: int = 0) -> Html:
    """The picture, with response times, and of a miss with what the late job had."""
    verdict, table, span, count = judged.verdict, judged.table, shown.span, judged.verdict.rows
    if shown.rows is None:
        return section("The picture", paragraph(f"The program's rows of ticks {number(span.start)} to {number(span.end - 1)} had not come after {judged.programs.patience} s. ", element("code", "./sivorandra --picture"), " waits for them."), id="picture")
    sheet = Inset("t-", table, span.start, shown.rows)
    keys = picture.draw_rows(sheet, verdict, figures, had)
    title = f"{picture.verdict_words(verdict, table)}. {span.shown(count)}, core by core; below a strip for each task."
    drawn = page.charts([sheet], [title], None, end=verdict.word == "miss")
    others = (" ", element("code", "./sivorandra --report --from TICK --to TICK FILE"), " shows others.") if span.end - span.start < count else ()
    return section("The picture", caption(span, count, after=others, id="ticks"), *drawn, *page.legend(sheet, keys), id="picture")
