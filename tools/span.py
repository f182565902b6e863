"""Which ticks are shown of those that there are, and what they are in words."""
from dataclasses import dataclass
from typing import Optional

from printed import Verdict
from system import Declined, USAGE

MOST = 100  # ticks in one picture


@dataclass(frozen=True)
class Span:
    """Ticks that are shown: the first, the one after the last, and what they are in words."""
    start: int
    end: int
    what: str

    def shown(self, count: int, more: str = "") -> str:
        """How many ticks are shown of how many."""
        length = self.end - self.start
        ticks = f"Tick {self.start}" if length == 1 else f"Ticks {self.start} to {self.end - 1}"
        if not more and length == count:
            return f"{ticks}, the only one" if count == 1 else f"{ticks}, all {count:,}"
        return f"{ticks}{', one' if length == 1 else ''} of {more}{count:,}"


def stretch(verdict: Verdict, most: int = MOST) -> Span:
    """The ticks to draw where none are asked for."""
    first, end = verdict.first, verdict.rows
    if verdict.word == "miss":
        if first <= most:
            return Span(0, first, "all ticks up to the miss")
        return Span(first - most, first, f"the last {most} ticks before the miss")
    if end <= most:
        return Span(0, end, "all ticks up to the horizon, the first repeat")
    if verdict.second <= most:
        return Span(first, end, "the first period, from S")
    return Span(first, first + most, f"the first {most} ticks of the period that starts at S; the first repeat, at tick {end}, is further on")


class Asked:
    """The ticks that are asked for, and no more than `most`: from `since` up to and including `until`, either of which may be None."""

    def __init__(self, since: Optional[int] = None, until: Optional[int] = None, most: int = MOST):
        self.since, self.until, self.most = since, until, most
        if since is not None and until is not None and until < since:
            raise Declined(f"--from {since} lies after --to {until}", USAGE)
        self.start = since if since is not None else max(0, (until or 0) - most + 1)
        self.end = min(self.start + most, until + 1 if until is not None else self.start + most)

    def __bool__(self) -> bool:
        return (self.since, self.until) != (None, None)

    def within(self, count: int, whose: str) -> Span:
        """The ticks to draw where there are rows of n ticks."""
        for name, tick in (("--from", self.since), ("--to", self.until)):
            if tick is not None and tick >= count:
                raise Declined(f"{name} {tick} is past the rows: {whose} ticks 0 to {count - 1}" if count > 1 else f"{name} {tick} is past the rows: {whose} tick 0 alone", USAGE)
        cut = self.until is not None and self.end <= self.until
        return Span(self.start, min(self.end, count), f"the first {self.most} of the {self.until + 1 - self.start:,} ticks asked for" if cut else "as asked for")
