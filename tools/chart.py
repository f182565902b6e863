"""The chart of rows: cores over ticks, with a strip for each task below. It is given what to draw, and decides nothing."""
import collections
from typing import Any, Collection, Dict, Iterable, Iterator, List, Optional, Sequence, Tuple

from named import breadth
from svg import RED, Sheet, colour
from table import Rows, Table, Task

Cells_by_position = Dict[int, List[Tuple[int, int, int]]]  # first cell, core and length of each run

LOOKS = {
    "fenced": {"fill": "url(#hatch)", "stroke": "#888"},
    "ends": {"fill": "#e2e2e2"},
    "empty": {"fill": "#fff"},
    "out": {"fill": "#fff"},
    "unused": {"fill": "#fff", "stroke": "#555", "stroke_width": 1.2, "stroke_dasharray": "3 2"},
    "held": {"fill": "url(#light)", "stroke": "#888"},
    "blank": {"fill": "#f6c8c8"},
    "longest": {"fill": "#d8d8d8"},
    "differs": {"fill": RED},
    "refusal": {"fill": "#fff"},
}


def runs(line: List[int], start: int, tasks: Sequence[Task]) -> Iterator[Tuple[int, int, int]]:
    """The runs of equal positions in a line of cells, as position, first cell, length; a new job starts a new run."""
    begin = 0
    for at in range(1, len(line) + 1):
        position = line[begin]
        if at < len(line) and line[at] == position and not (position and (start + at - tasks[position - 1].O) % tasks[position - 1].T == 0):
            continue
        if position:
            yield position, begin, at - begin
        begin = at


def moments(task: Task, after: int, start: int, end: int) -> range:
    """The ticks from `start` to `end` that are `after` ticks from a release."""
    first = task.O + after
    return range(first + max(0, -(-(start - first) // task.T)) * task.T, end + 1, task.T)


class Cells(Sheet):
    """The chart of the rows from a tick on: cores over ticks, below it a strip for each position that is drawn."""

    HREF = "xlink:href"

    def __init__(self, table: Table, start: int, rows: Rows, own: str = ""):
        super().__init__(own)
        self.table, self.start, self.end, self.rows, self.drawn = table, start, start + len(rows), rows, table.drawn
        self.cores, self.tasks, self.fenced = table.cores, table.tasks, sorted(table.fenced)
        self.high = next(size for most, size in ((8, 28), (16, 20), (32, 15), (64, 12)) if self.cores <= most)
        self.strip = 24 if len(self.drawn) <= 12 else 18
        self.pairs = any(self.tasks[position - 1].v != self.tasks[position - 1].w for position in self.drawn)

    def lay_out(self, wide: float, left: float, top: float) -> None:
        """How wide a tick is, and the room on the left and on top."""
        self.wide, self.left, self.top = wide, left, top
        self.under = self.top + self.cores * self.high
        self.foot = self.under + 46 + len(self.drawn) * self.strip
        self.reach(self.x(self.end) + 12, self.foot)

    def x(self, tick: int) -> float:
        return round(self.left + (tick - self.start) * self.wide, 2)

    def base(self, position: int) -> float:
        return self.under + 46 + (self.drawn.index(position) + 1) * self.strip - 4

    def bar(self, since: int, until: int, base: float, **words: Any) -> None:
        self.add("rect", x=self.x(since), y=base - 8, width=round((until - since) * self.wide, 2), height=8, **words)

    def cells(self, held: Collection[Tuple[int, int]] = ()) -> None:
        """The cells. In the group `rows` x is the tick since the first, y the core. `held` has for a tick the positions whose job has ended and that keep their cores."""
        ticks, found = self.end - self.start, collections.defaultdict(list)
        for core in sorted(set(range(self.cores)) - set(self.fenced)):
            for position, at, length in runs([row[core] for row in self.rows], self.start, self.tasks):
                found[position].append((at, core, length))
        with self.group(id="rows", transform=f"translate({self.left} {self.top}) scale({self.wide} {self.high})"):
            self.add("title", f"from tick {self.start}, {self.amount(ticks, 'tick')}, {self.amount(self.cores, 'core')}")
            self.add("rect", width=ticks, height=self.cores, fill="#f4f4f4")
            for position in sorted(found):
                with self.group(id=f"p{position}", fill=colour(position)[0]):
                    for at, core, length in found[position]:
                        self.add("rect", x=at, y=core, width=length, height=1)
            if self.fenced:
                with self.group(id="fenced", fill="#fff"):
                    for core in self.fenced:
                        self.add("rect", x=0, y=core, width=ticks, height=1)
        self.pale(held)
        with self.group(stroke="#fff", stroke_width=0.6):
            for tick in range(self.start + 1, self.end):
                self.add("line", x1=self.x(tick), x2=self.x(tick), y1=self.top, y2=self.under)
        with self.group(stroke="#fff", stroke_width=1.2):
            for core in range(1, self.cores):
                self.add("line", x1=self.x(self.start), x2=self.x(self.end), y1=self.top + core * self.high, y2=self.top + core * self.high)
        if self.fenced:
            self.hatching("hatch")
        for core in self.fenced:  # from end to end
            self.add("rect", x=self.x(self.start), y=self.top + core * self.high, width=round(ticks * self.wide, 2), height=self.high, fill="url(#hatch)")
        self.numbers(found, held)
        self.add("rect", x=self.x(self.start), y=self.top, width=round(ticks * self.wide, 2), height=self.cores * self.high, stroke="#888", fill="none")
        self.core_names(self.left - 6)

    def core_names(self, right: float) -> None:
        with self.group(fill="#333", text_anchor="end"):
            for core in range(0, self.cores, 1 if self.high >= 15 else 4):
                self.text(right, self.top + core * self.high + self.high / 2 + 4, f"core {core}", 11, text_anchor="end")

    def numbers(self, found: "Cells_by_position", held: Collection[Tuple[int, int]]) -> None:
        """The number in each cell, or where cells are small in one of a run and in every tenth of a long one."""
        size = min(14, self.high - 2, self.wide * 0.75)
        for position in sorted(found):
            fill = colour(position)[1]
            with self.group(fill=fill, text_anchor="middle", font_size=round(size, 1)):
                for at, core, length in found[position]:
                    for cell in range(at, at + length) if self.wide >= 24 else range(at + min(5, (length - 1) // 2), at + length, 10):
                        pale = {"fill": "#000"} if fill != "#000" and (self.start + cell, position) in held else {}
                        self.add("text", str(position), x=round(self.x(self.start + cell) + self.wide / 2, 2), y=round(self.top + (core + 0.5) * self.high + size * 0.36, 2), **pale)

    def pale(self, held: Collection[Tuple[int, int]]) -> None:
        """The cells that are held, made pale and hatched."""
        if not held:
            return
        self.hatching("light")
        with self.group(id="held"):
            for tick, position in sorted(held):
                for core, having in enumerate(self.rows[tick - self.start]):
                    if having == position:
                        for fill in ({"fill": "#fff", "fill_opacity": 0.55}, {"fill": "url(#light)"}):
                            self.add("rect", x=self.x(tick), y=self.top + core * self.high, width=round(self.wide, 2), height=self.high, **fill)

    def strips(self, late: Optional[Tuple[int, ...]], held: Collection[Tuple[int, int]] = (), unused: Iterable[Tuple[int, int, int]] = ()) -> None:
        """The strips: for each task its name, the time from release to deadline, the ticks in which it runs, its releases and deadlines.
        `late` is the tick and the position of a miss; `unused` has position, first tick and last of what a job that ended early does not take."""
        self.arrows()
        self.heading()
        for position in self.drawn:
            task, base, (fill, ink) = self.tasks[position - 1], self.base(position), colour(position)
            with self.group(id=f"task{position}"):
                self.label(position, base, fill, ink)
                for due in moments(task, task.D, self.start + 1, self.end + task.D - 1):
                    self.bar(max(self.start, due - task.D), min(self.end, due), base, fill="#d8d8d8")
                self.worked([(at, length) for _, at, length in runs([position if position in row else 0 for row in self.rows], self.start, self.tasks)], base, fill)
                for tick in sorted(tick for tick, holder in held if holder == position):
                    self.bar(tick, tick + 1, base, fill="#fff", fill_opacity=0.55)
                    self.bar(tick, tick + 1, base, fill="url(#light)")
                for since, until in [(max(self.start, since), min(self.end, until)) for whose, since, until in unused if whose == position]:
                    if since < until:
                        self.bar(since, until, base, id=f"unused{position}-{since}", **LOOKS["unused"])
                if late and late[1] == position:
                    self.bar(max(self.start, late[0] - task.D), late[0], base, fill="none", stroke=RED, stroke_width=1.5)
                self.add("line", x1=self.x(self.start), x2=self.x(self.end), y1=base, y2=base, stroke="#888")
                for name, arrow, after in (("releases", "up", 0), ("deadlines", "down", task.D)):
                    with self.group(id=f"{name}{position}"):
                        for tick in moments(task, after, self.start, self.end):
                            self.arrow(arrow, self.x(tick), base)

    def worked(self, found: Iterable[Tuple[int, int]], base: float, fill: str) -> None:
        """The ticks in which a task runs, in its strip."""
        for at, length in found:
            self.bar(self.start + at, self.start + at + length, base, fill=fill)

    def heading(self) -> None:
        """The head over the strips' names, and a name."""
        self.add("text", "position", x=22, y=self.under + 38, font_size=11, fill="#333")

    def label(self, position: int, base: float, fill: str, ink: str) -> None:
        self.add("rect", x=16, y=base - 12, width=self.box, height=14, fill=fill)
        self.add("text", self.names[position], x=22, y=base - 1, font_size=11, fill=ink)

    def arrows(self) -> None:
        self.parts.append(f'<defs><path id="{self.own}up" d="M0 0V-14M-3 -9L0 -15L3 -9Z" stroke="#000" fill="#000"/>'
                          f'<path id="{self.own}down" d="M0 -14V0M-3.5 -6L0 0L3.5 -6" stroke="#000" fill="none"/></defs>')

    def arrow(self, name: str, x: float, y: float) -> None:
        self.parts.append(f'<use {self.HREF}="#{self.own}{name}" x="{x}" y="{y}"/>')

    def ends(self, tick: int, position: int) -> None:
        """Where a job ends by a report: a bar at the right end of its cells and in its strip."""
        thick, at = 3 if self.wide >= 24 else 2, self.x(tick + 1)
        with self.group(id=f"end{position}-{tick}"):
            self.add("title", f"position {self.table.names.at(position)} ends in tick {tick}")
            for core, having in enumerate(self.rows[tick - self.start]):
                if having == position:
                    self.stop(at, self.top + core * self.high + 1, self.high - 2, thick)
            self.stop(at, self.base(position) - 11, 12, thick)

    def empty(self, tick: int, position: int) -> None:
        """Where an empty job is released: a ring in its strip."""
        with self.group(id=f"empty{position}-{tick}"):
            self.add("title", f"the job that position {self.table.names.at(position)} releases in tick {tick} is empty")
            self.ring(self.x(tick) + min(8, self.wide / 2), self.base(position) - 4)

    def withdrawn(self, tick: int, position: int) -> None:
        """Where a position is withdrawn: a bar with a foot over the beginning of the tick, in its strip."""
        with self.group(id=f"out{position}-{tick}"):
            self.add("title", f"position {self.table.names.at(position)} is withdrawn in tick {tick}")
            self.gate(self.x(tick) + 1.5, self.base(position))

    def gate(self, x: float, y: float) -> None:
        self.add("path", d=f"M{round(x, 2)} {round(y - 14, 2)}v14m0 -14h7m-7 14h7", stroke="#000", stroke_width=2, fill="none")

    def ring(self, x: float, y: float) -> None:
        self.add("circle", cx=round(x, 2), cy=round(y, 2), r=4 if self.wide >= 12 else 3, fill="#fff", stroke="#000", stroke_width=1.5)

    def longest(self, position: int, figure: int, release: Optional[int]) -> None:
        """The worst-case response time of a task beside its strip, against its D; a bracket over a job with this response time."""
        base = self.base(position)
        self.beside(base, f"worst case {figure} of {self.tasks[position - 1].D}{self.table.names.time(figure, self.tasks[position - 1].D)}", 11, fill="#333", id=f"figure{position}")
        if release is not None:
            since, until = self.x(release), self.x(release + figure)
            with self.group(id=f"longest{position}"):
                self.add("title", f"the job that position {self.table.names.at(position)} releases in tick {release} ends {self.amount(figure, 'tick')} later")
                self.bracket(since, until, base - 11)
                self.over(figure, (since + until) / 2, base - 12)

    def over(self, figure: int, x: float, y: float) -> None:
        """The text over a bracket, and at the end of a strip."""
        self.add("text", str(figure), x=round(x, 2), y=y, font_size=8, text_anchor="middle", fill="#000")

    def beside(self, base: float, words: str, size: float, **more: Any) -> None:
        self.text(self.x(self.end) + 11, base - 1, words, size, **more)

    def bracket(self, since: float, until: float, y: float) -> None:
        self.add("path", d=f"M{since} {y + 3}V{y}H{until}V{y + 3}", stroke="#000", fill="none")

    def stop(self, x: float, y: float, high: float, thick: float) -> None:
        self.add("rect", x=round(x - thick - 2, 2), y=y, width=thick + 2, height=high, fill="#fff")
        self.add("rect", x=round(x - thick - 1, 2), y=y, width=thick, height=high, fill="#000")

    def mark(self, name: str, tick: int, words: str, y: float, ink: str, dashes: str) -> None:
        """A mark across chart and strips, if its tick is in the picture."""
        if self.start <= tick <= self.end:
            at = self.x(tick)
            self.add("line", id=name, x1=at, x2=at, y1=y - 8, y2=self.foot + 2, stroke=ink, stroke_width=2, stroke_dasharray=dashes)
            if self.leftward(at, breadth(words) * 12 * 0.6):
                self.text(at - 5, y, words, 12, fill=ink, text_anchor="end")
            else:
                self.text(at + 5, y, words, 12, fill=ink)

    def leftward(self, at: float, room: float) -> bool:
        """Whether words of this width go left of a mark."""
        return at + room > max(self.x(self.end), 560)

    def late(self, tick: int, position: int, had: int, words: str, y: float) -> None:
        """A miss: the line across, a cross in the strip, and what the late job had."""
        base = self.base(position)
        self.mark("miss", tick, words, y, RED, "none")
        self.add("path", id="late", d=f"M{self.x(tick) - 6} {base - 14}l12 12m0 -12l-12 12", stroke=RED, stroke_width=3, fill="none")
        self.beside(base, f"had {had} of {self.tasks[position - 1].C}{self.table.names.time(had, self.tasks[position - 1].C)}", 12, fill=RED, id="had")

    def miss_words(self, what: str, tick: int, position: int, more: str = "") -> str:
        """The text at the line of a miss."""
        return f"{what} at tick {self.table.names.tick(tick)}{more}, position {self.table.names.at(position)}"

    def refused(self, tick: int, number: int) -> None:
        """A tick at which something is refused: its number over the column."""
        self.number = number
        self.text(self.x(tick) + self.wide / 2, self.top - 8, str(number), 11 if self.wide >= 24 else 9, fill=RED, font_weight="bold", text_anchor="middle", id=f"refused-{tick}")

    def differ(self, ticks: Iterable[int]) -> None:
        """Ticks whose row is another than that of the full-length run: a band over them."""
        with self.group(id="differs"):
            for tick in ticks:
                self.add("rect", x=self.x(tick), y=self.top - 5, width=round(self.wide, 2), height=4, **LOOKS["differs"])

    def blank(self, tick: int) -> None:
        """A tick without a row."""
        self.add("rect", id="blank", x=self.x(tick), y=self.top, width=round(self.wide, 2), height=self.cores * self.high, fill_opacity=0.8, **LOOKS["blank"])

    def ticks(self) -> None:
        """The ticks' numbers, over the marks."""
        self.step = step = next(step for step in (k * 10 ** n for n in range(8) for k in (1, 2, 5)) if step * self.wide >= 7 * len(self.figure(self.end)) + 8)
        with self.group(fill="#333", text_anchor="middle", font_size=11):
            for tick in range(-(-self.start // step) * step, self.end + 1, step):
                room = 6.5 * len(self.figure(tick)) + 4
                self.add("line", x1=self.x(tick), x2=self.x(tick), y1=self.under, y2=self.under + 4, stroke="#888")
                self.add("rect", x=round(self.x(tick) - room / 2, 2), y=self.under + 5, width=round(room, 2), height=14, fill="#fff")
                self.add("text", self.figure(tick), x=self.x(tick), y=self.under + 16)

    def figure(self, number: int) -> str:
        """A number as it is written, and n things."""
        return str(number)

    def amount(self, number: int, thing: str) -> str:
        return f"{number} {thing}s"

    def sample(self, name: str, x: float, y: float) -> None:
        """The sample of a name of the legend, 28 wide and 12 high."""
        self.add("rect", x=x, y=y, width=28, height=12, **LOOKS[name])
        if name == "ends":
            self.stop(x + 28, y, 12, 3)
        if name == "empty":
            self.ring(x + 14, y + 6)
        if name == "out":
            self.gate(x + 10, y + 13)
        if name == "longest":
            self.bracket(x, x + 28, y + 1)
        if name == "refusal":
            self.add("text", str(self.number), x=x + 14, y=y + 10, font_size=11, fill=RED, font_weight="bold", text_anchor="middle")

    def named(self, more: Sequence[Tuple[str, str]]) -> List[Tuple[str, str]]:
        """The names of the legend with their words: the fence first, where there is one."""
        return [("fenced", "a fenced core: it belongs to the hydraulics, and no task has it"), *more] if self.fenced else list(more)
