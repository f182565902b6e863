"""How a page looks: one HTML file that needs nothing from elsewhere and no script, and is XML too. It is given what to show, and decides nothing."""
import contextlib
import os
import re
from typing import Any, Callable, Iterable, List, Optional, Sequence, Tuple
from xml.sax.saxutils import escape, quoteattr

from chart_kinds import Inset
from svg import colour
from system import Trouble
from texts import STRIP

HERE = os.path.dirname(os.path.abspath(__file__))
POLICY = "default-src 'none'; style-src 'unsafe-inline'"  # whatever opens it fetches nothing
PHONE = 330  # pixels that a phone shows of a chart
PAPER = 700, 900  # pixels across and down that a printed sheet has for a line of a chart, A4 and Letter
ICONS = {
    "firm": "M8 26l12 12L42 12",
    "full": "M8 26l12 12L42 12M8 46h34",
    "miss": "M12 12l26 26M38 12L12 38",
    "refused": "M12 25h26",
}


class Html(str):
    """Text that is markup already."""


def version() -> str:
    """The version, from the file beside the tools or above them."""
    for place in (HERE, os.path.dirname(HERE)):
        with contextlib.suppress(OSError), open(os.path.join(place, "VERSION"), encoding="utf-8") as file:
            return file.read().strip()
    raise Trouble("VERSION is missing")


def joined(parts: Iterable[Any]) -> Html:
    return Html("".join(part if isinstance(part, Html) else escape(printable(str(part))) for part in parts if part is not None))


def element(name: str, /, *inner: Any, **words: Any) -> Html:
    """An element; `class_` is its class, and a word whose value is None is left out."""
    attributes = "".join(f" {key.rstrip('_').replace('_', '-')}={quoteattr(printable(str(value)))}" for key, value in words.items() if value is not None)
    return Html(f"<{name}{attributes}/>" if not inner else f"<{name}{attributes}>{joined(inner)}</{name}>")


def printable(text: str) -> str:
    """A text of any characters with those that no page can show written out."""
    return re.sub("[^\n -~\u00a0-\ud7ff\ue000-\ufffd\U00010000-\U0010ffff]", lambda found: found[0].encode("unicode_escape", "replace").decode(), text)


def section(title: str, *inner: Any, **words: Any) -> Html:
    return element("section", element("h2", title), *inner, **words)


def paragraph(*inner: Any, **words: Any) -> Html:
    return element("p", *inner, **words)


def listing(items: Iterable[Any], **words: Any) -> Html:
    return element("ul", *(element("li", *(item if isinstance(item, (list, tuple)) else [item])) for item in items), **words)


def chip(position: int) -> Html:
    """A position in its colour."""
    return element("span", position, class_=f"chip p{position}")


def number(count: int) -> str:
    """A number as it is read: thousands apart."""
    return f"{count:,}"


def icon(name: str) -> Html:
    return element("svg", element("path", d=ICONS[name]), class_="icon", viewBox="0 0 50 50", aria_hidden="true")


def bar(whole: int, parts: Iterable[Tuple[int, str]], thick: bool = False) -> Html:
    """A bar of `whole`, in which parts (length, class or colour) follow each other. The text beside it has the same."""
    drawn, at = [element("rect", class_="track", width=1000, height=10)], 0
    for length, look in parts:
        wide = round(1000 * length / whole, 2)
        edge = 2 if look == "spare" else 0
        if wide:
            drawn.append(element("rect", x=at, y=edge / 2, width=wide, height=10 - edge, **({"fill": look} if look.startswith("#") else {"class_": look})))
        at = round(at + wide, 2)
    return element("svg", *drawn, class_="bar thick" if thick else "bar", viewBox="0 0 1000 10", preserveAspectRatio="none", aria_hidden="true")


def view(inner: Html, left: float, wide: float, high: float, **words: Any) -> Html:
    """A part of a drawing as an SVG of its own size, or of its parent's."""
    return element("svg", Html(inner), viewBox=f"{round(left, 2)} 0 {round(wide, 2)} {round(high, 2)}", **words)


def reach(sheet: Inset) -> float:
    """How far to the right a chart goes."""
    return max(sheet.right, sheet.x(sheet.end)) + sheet.pad


def drawing(sheet: Inset, title: str, farthest: float) -> Tuple[Html, List[Html]]:
    """A chart: its names stay, its ticks are scrolled; on paper it is cut into lines. `title` is its description for screen readers."""
    high, right = sheet.bottom + 10, reach(sheet)
    names = view("".join(sheet.side), 0, sheet.NAMES, high, width=sheet.NAMES, height=high, class_="names", aria_hidden="true")
    all_ticks = element("g", Html("".join(sheet.parts)), id=f"{sheet.own}all")
    wide = right - sheet.NAMES
    ticks = view(all_ticks, sheet.NAMES, wide, high, width=round(wide, 2), height=high, class_="ticks", role="img", aria_label=title)
    return element("div", names, ticks, class_="drawing"), panes(sheet, farthest, high)


def panes(sheet: Inset, right: float, high: float) -> List[Html]:
    """The same drawing in lines for paper, each as long as the sheet is wide; where it is higher than the sheet it is made smaller, and lines are longer.
    A line goes from a numbered tick to a numbered tick, so that no number is cut; the last is as long as the others, so that nothing that ends there is."""
    across, down = PAPER
    room, step = across * max(1, high / down) - sheet.NAMES, sheet.step
    length = max(1, int((room - 2 * sheet.pad) / sheet.wide / step)) * step
    lines, tick = [], sheet.start
    while right - sheet.x(tick) + sheet.pad > room and tick < sheet.end:
        stop = (tick + length) // step * step
        lines.append((tick, sheet.x(stop) + sheet.pad))
        tick = stop
    if lines:
        tick = next((back for back in range(-(-sheet.start // step) * step, tick, step) if right - sheet.x(back) + sheet.pad <= room), tick)
    lines.append((tick, right))
    side, use, drawn = Html("".join(sheet.side)), element("use", href=f"#{sheet.own}all"), []
    for since, until in lines:
        left = sheet.x(since) - sheet.pad
        wide = round(until - left, 2)
        inside = element("svg", use, x=sheet.NAMES, y=0, width=wide, height=high, viewBox=f"{round(left, 2)} 0 {wide} {high}")
        drawn.append(element("svg", side, inside, class_="ticks", width=round(sheet.NAMES + wide, 2), height=high, viewBox=f"0 0 {round(sheet.NAMES + wide, 2)} {high}", aria_hidden="true"))
    return drawn


def charts(sheets: Sequence[Inset], titles: Sequence[str], called: Optional[Sequence[str]], end: bool = False) -> List[Optional[Html]]:
    """Charts over each other with their ticks aligned, each with its title, what they are called where they are several, and links to some ticks."""
    first, inner, printed = sheets[0], [], []
    for sheet, title, name in zip(sheets, titles, called or [None] * len(sheets)):
        shown, lines = drawing(sheet, title, max(map(reach, sheets)))
        inner += [element("div", name, class_="called") if name else None, shown]
        printed.append([element("figure", element("figcaption", name) if name else None, line) for line in lines])
    far = first.x(first.end) - first.left > first.ROOM + 1
    step = next(step for step in (k * 10 ** n for n in range(8) for k in (1, 2, 5)) if (first.end - first.start) / step <= 12)
    stops = list(range(-(-first.start // step) * step, first.end, step)) if far else []
    anchors = [element("span", "", id=f"{first.own}tick{tick}", class_="at", style=f"left:{first.x(tick):.0f}px") for tick in stops]
    links = element("nav", "Go to tick ", *(element("a", number(tick), href=f"#{first.own}tick{tick}") for tick in stops), aria_label="ticks of the picture") if stops else None
    scroller = element("div", element("div", *anchors, *inner, class_="wide"), class_="scroll chart end" if end and first.x(first.end) > PHONE else "scroll chart", tabindex=0, role="region", aria_label=" ".join(titles))
    hint = paragraph("Swipe it sideways for the rest.", class_="hint") if any(reach(sheet) > PHONE for sheet in sheets) else None
    return [links, hint, scroller, element("div", *(line for lines in zip(*printed) for line in lines), class_="panes")]


def legend(sheet: Inset, more: Sequence[Tuple[str, str]]) -> List[Html]:
    """How to read charts: what is in each of them, and these names. Samples are drawn by the chart."""
    def sample(draw: Callable[[], None]) -> Html:
        return element("svg", Html(sheet.apart(draw)), viewBox="-1 -3 30 18", aria_hidden="true")

    items = [
        (lambda: sheet.arrow("up", 14, 13), "release of a job"),
        (lambda: sheet.arrow("down", 14, 13), "its deadline"),
        (lambda: sheet.add("rect", x=0, y=2, width=28, height=8, fill="#d8d8d8"), STRIP),
        *((lambda name=name: sheet.sample(name, 0, 0), words) for name, words in sheet.named(more)),
    ]
    pairs = "Odd jobs of a task (the first, the third) may have another width than even ones." if sheet.pairs else None
    return [listing([(sample(draw), element("span", words)) for draw, words in items], class_="legend"),
            paragraph("The number in a cell is the position of the task that has the core; an empty cell is an idle core. ", pairs, class_="soft")]


def wide_table(rows: Sequence[Html], name: str, **words: Any) -> Html:
    """A table that may be wider than the page."""
    return element("div", element("table", *rows, **words), class_="scroll", tabindex=0, role="region", aria_label=name)


def colours(positions: Iterable[int]) -> str:
    """The colours of positions, for cells and chips."""
    return "".join(".p%d { background: %s; color: %s; }\n" % (position, *colour(position)) for position in positions)


def document(title: str, positions: Iterable[int], *inner: Any) -> str:
    """The whole page."""
    with open(os.path.join(HERE, "page.css"), encoding="utf-8") as file:
        style = file.read()
    head = element("head", element("meta", charset="utf-8"), element("meta", http_equiv="Content-Security-Policy", content=POLICY),
                   element("meta", name="viewport", content="width=device-width, initial-scale=1"), element("meta", name="color-scheme", content="light dark"),
                   element("title", title), element("style", Html(style + colours(positions))))
    return "<!DOCTYPE html>\n" + element("html", head, "\n", element("body", element("main", *(Html(part + "\n") for part in inner if part))), "\n", lang="en", xmlns="http://www.w3.org/1999/xhtml") + "\n"
