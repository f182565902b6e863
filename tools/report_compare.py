"""The section of a page on what changed since an older release of the table."""
from typing import List

import page
from compare import Compared, Line
from page import Html, element, listing, paragraph, section
from report_parts import head_cell
from system import shown


def changes(lines: List[Line], name: str) -> Html:
    """Lines with a before and an after, as a table."""
    head = element("tr", head_cell("what"), head_cell("before"), head_cell("now"))
    rows = [element("tr", element("td", line.what), element("td", line.old), element("td", line.new), class_="differs" if line.old != line.new else None) for line in lines]
    return page.wide_table([head, *rows], name, class_="tried")


def compare_section(found: Compared, old: str) -> Html:
    """What changed since the table of this name."""
    changed = [found.verdict, *found.settings, *(line for line in found.tasks if line.old)]
    moved = [f"{line.what[0].upper()}{line.what[1:]}." for line in found.tasks if not line.old]
    rows = str(found.rows) if found.rows else "One of the two tables is refused, so only the verdicts are compared"
    return section("What changed", paragraph("The older table is ", element("b", shown(old)), ". Tasks are the same by their names where both tables are sheets, else by their positions.", class_="soft"),
                   changes(changed, "what changed"), listing(moved) if moved else None,
                   *([element("h3", "Response times and slack"), changes(found.figures, "response times and slack")] if found.figures else []),
                   paragraph(f"{rows[0].upper()}{rows[1:]}.", id="first-difference"), id="compare")
