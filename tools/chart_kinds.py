"""The two kinds of a chart: a picture of its own, and a drawing in a page, which has the rest in its own words."""
import contextlib
import re
from typing import Any, Callable, Iterable, Iterator, List, Sequence, Tuple

from chart import Cells
from named import breadth
from svg import RED
from table import Rows, Table, Task
from texts import STRIP

MONO = {"font_size": 10, "font_family": "DejaVu Sans Mono, Menlo, Consolas, monospace", "xml:space": "preserve", "fill": "#333"}


def fields_of(task: Task) -> Tuple[str, ...]:
    """The numbers beside the strip of a task; v and w as one where they are the same."""
    return str(task.O), f"{task.v}/{task.w}" if task.v != task.w else str(task.v), str(task.C), str(task.D), str(task.T)


class Chart(Cells):
    """A chart that is a picture of its own. `head` is the text over it, the title first, and `red` what follows it in red."""

    LABEL = 24  # letters of a name beside a strip

    def __init__(self, table: Table, start: int, rows: Rows, head: Sequence[str], red: Sequence[str] = ()):
        super().__init__(table, start, rows)
        self.names = {position: f"{position} {table.names.name(position, self.LABEL)}" if table.names else f"{position} (record {table.records[position - 1]})" for position in self.drawn}
        self.box = 12 + 6 * max(map(breadth, self.names.values()))
        self.over_fields = "O", "v/w" if self.pairs else "v", "C", "D", "T"
        self.fields = {position: fields_of(self.tasks[position - 1]) for position in self.drawn}
        self.columns = [max(len(field) for field in column) + 2 for column in zip(self.over_fields, *self.fields.values())]
        self.lay_out(min(80, max(12, 960 / len(rows))), 16 + max(40, self.box + 14 + 6.1 * sum(self.columns)), 69 + 19 * (len(head) - 3 + len(red)) + 57)
        self.text(16, 28, head[0], 17, font_weight="bold")
        for k, line in enumerate([*head[1:], *red]):
            self.text(16, 50 + 19 * k, line, 13, **({"fill": RED} if k >= len(head) - 1 else {}))

    def numbered(self, fields: Sequence[str], base: float) -> None:
        """The numbers of a task beside its name."""
        self.add("text", "".join(field.rjust(width) for field, width in zip(fields, self.columns)), x=16 + self.box, y=base, **MONO)

    def heading(self) -> None:
        super().heading()
        self.numbered(self.over_fields, self.under + 38)

    def label(self, position: int, base: float, fill: str, ink: str) -> None:
        super().label(position, base, fill, ink)
        self.numbered(self.fields[position], base - 1)

    def legend(self, *more: Tuple[str, str]) -> None:
        """How to read it: what is in every picture, and a line for each of these names."""
        y = self.foot + 24
        self.arrow("up", 22, y + 2)
        self.text(30, y, "release")
        self.arrow("down", 84, y + 2)
        self.text(92, y, "deadline")
        self.add("rect", x=150, y=y - 8, width=20, height=8, fill="#d8d8d8")
        self.text(175, y, STRIP)
        self.text(16, y + 18, "The number in a cell is the position of the task that has the core; an empty cell is an idle core.")
        if self.pairs:
            y += 18
            self.text(16, y + 18, "v/w: the first, third and each odd job of the task takes v cores, each even job w.")
        for k, (name, words) in enumerate(self.named(more)):
            at = y + 27 + 18 * k
            self.sample(name, 16, at)
            self.text(50, at + 10, words)


class Inset(Cells):
    """A chart in a page, which has the rest in its own words. The names of cores and strips are a drawing of their own, `side`, that stays where the ticks are scrolled."""

    HREF = "href"
    WIDE, MOST, ROOM, NAMES, PHONE = 26, 48, 900, 58, 318  # of a tick at least and at most, of all ticks where they are few, of the names, of what a phone shows
    LABEL = 15  # letters of a name beside a strip

    def __init__(self, own: str, table: Table, start: int, rows: Rows):
        super().__init__(table, start, rows, own)
        self.pad = max(10, 4 * len(self.figure(self.end)))  # for a number under the first tick and the last
        self.side: List[str] = []
        self.NAMES = Inset.NAMES + (round(6.4 * max(breadth(table.names.name(position, self.LABEL)) for position in self.drawn)) if table.names else 0)
        self.lay_out(round(min(self.MOST, max(self.WIDE, self.ROOM / len(rows))), 2), self.NAMES + self.pad, 42)

    @contextlib.contextmanager
    def aside(self) -> Iterator[None]:
        ticks, self.parts = self.parts, self.side
        yield
        self.parts = ticks

    def apart(self, draw: Callable[[], None]) -> str:
        """What a drawing adds, apart from the chart."""
        chart, self.parts = self.parts, []
        draw()
        added, self.parts = self.parts, chart
        return "".join(added)

    def core_names(self, right: float) -> None:
        with self.aside():
            super().core_names(self.NAMES - 8)

    def heading(self) -> None:
        with self.aside():
            self.add("text", "position", x=self.NAMES - 8, y=self.under + 38, font_size=11, fill="#333", text_anchor="end")

    def label(self, position: int, base: float, fill: str, ink: str) -> None:
        with self.aside():
            self.add("rect", x=self.NAMES - 36, y=base - 12, width=28, height=14, fill=fill)
            self.add("text", str(position), x=self.NAMES - 22, y=base - 1, font_size=11, fill=ink, text_anchor="middle")
            if self.table.names:
                self.add("text", self.table.names.name(position, self.LABEL), x=self.NAMES - 41, y=base - 1, font_size=11, fill="#333", text_anchor="end")

    def worked(self, found: Iterable[Tuple[int, int]], base: float, fill: str) -> None:
        """With an edge: some colours are as light as what is behind them."""
        with self.group(stroke="#555"):
            super().worked(found, base, fill)

    def miss_words(self, what: str, tick: int, position: int, more: str = "") -> str:
        """Short, so that a phone shows it whole; the name is beside the strip."""
        return f"{what} at tick {tick}{more}, position {position}"

    def figure(self, number: int) -> str:
        """Thousands apart, as in the page's words."""
        return f"{number:,}"

    def mark(self, name: str, tick: int, words: str, y: float, ink: str, dashes: str) -> None:
        """Of a miss in a narrow picture the words are over the line, so that a phone shows them whole."""
        words = re.sub(r"\d{4,}", lambda found: self.figure(int(found[0])), words)
        at, wide = self.x(tick), breadth(words) * 12 * 0.6
        if name == "miss" and self.start <= tick <= self.end and not self.leftward(at, wide) and at + 5 + wide > self.PHONE:
            self.add("line", id=name, x1=at, x2=at, y1=y + 4, y2=self.foot + 2, stroke=ink, stroke_width=2, stroke_dasharray=dashes)
            self.text(max(self.left, self.PHONE - wide), y, words, 12, fill=ink)
        else:
            super().mark(name, tick, words, y, ink, dashes)

    def leftward(self, at: float, room: float) -> bool:
        return at + room > self.x(self.end) and at - 5 - room >= self.NAMES

    def amount(self, number: int, thing: str) -> str:
        return f"{number} {thing}{'' if number == 1 else 's'}"

    def over(self, figure: int, x: float, y: float) -> None:  # the page has it
        pass

    def beside(self, base: float, words: str, size: float, **more: Any) -> None:  # and this
        pass
