"""The numbers of a sheet: whole ones, times with units, the length of a tick, widths and cores. Everything is exact; nothing is rounded.

A whole number stays the digits that were written: the proved program judges them."""
import re
from dataclasses import dataclass
from fractions import Fraction
from typing import Optional, Set, Tuple

import texts
from sheet_cells import Wrong, shown

UNITS = {"ns": 1, "us": 1_000, "\u00b5s": 1_000, "\u03bcs": 1_000, "ms": 1_000_000, "s": 1_000_000_000}  # in ns; both letters that look like a micro sign
LARGER = ("ns", "us", "ms", "s")
LAST_CORE = 63
LONGEST = 40  # digits of a time with a unit
UNIT_NAMES = "ns, us, ms or s"
NUMBER = re.compile(r"([0-9]+)(?:([.,])([0-9]+))?(?:[ \u00a0]*([a-z\u00b5\u03bc]+))?")
THOUSANDS = re.compile(r"[1-9][0-9]{0,2}")
RULES = {name: str(number) for number, name in texts.RULES.items()}
RANGE = re.compile(r"(?<=[0-9])(?:\.\.|-|\u2013)(?=[0-9])|(?<=[0-9])\s+(?:\.\.|-|\u2013)\s+(?=[0-9])")


@dataclass(frozen=True)
class Tick:
    """The length of a tick, in ns, and the number and the unit that were written."""
    length: Fraction
    number: Fraction
    unit: str

    def __str__(self) -> str:
        return f"{decimal(self.number)} {self.unit}"

    def time(self, ticks: int) -> str:
        """Ticks as a time: in the tick's own unit, or where that is 1,000 or more in a larger one."""
        length = ticks * self.length
        units = LARGER[LARGER.index("us" if UNITS[self.unit] == 1_000 else self.unit):]
        unit = next((unit for unit in units if length < 1_000 * UNITS[unit]), "s")
        return f"{decimal(length / UNITS[unit])} {unit}"


@dataclass(frozen=True)
class Form:
    """How numbers are written in a sheet, and its tick. A tick that is at fault itself is no reason for a fault at each time."""
    comma: bool = False  # a decimal comma is read
    point: bool = True  # a point is never taken for a separator of thousands
    tick: Optional[Tick] = None
    tick_at_fault: bool = False


def decimal(number: Fraction) -> str:
    """A number exactly: with decimals where they end, else as a fraction."""
    for places in range(60):
        if (number * 10**places).denominator == 1:
            digits = f"{int(number * 10**places):0{places + 1}d}"
            return f"{digits[:-places]}.{digits[-places:]}" if places else digits
    whole, rest = divmod(number.numerator, number.denominator)
    return f"{whole} {rest}/{number.denominator}" if whole else f"{rest}/{number.denominator}"


def unexpected(text: str, expected: str) -> Wrong:
    """What is wrong with a text that is none of what was expected."""
    if re.match("[-+\u2212][0-9]", text):
        return Wrong(f"{shown(text)} has a sign; {expected} was expected")
    return Wrong(f"'{shown(text)}' stands there; {expected} was expected")


def whole(text: str, expected: str = "a whole number") -> str:
    """The digits of a whole number without a sign."""
    if not re.fullmatch("[0-9]+", text):
        raise unexpected(text, expected)
    return text


def order(digits: str) -> Tuple[int, str]:
    """By this whole numbers of any length are compared."""
    digits = digits.lstrip("0")
    return len(digits), digits


def quantity(text: str, form: Form, unit: Optional[str], expected: str) -> Tuple[Fraction, Optional[str]]:
    """A number and its unit, which is the column's where the cell has none."""
    found = NUMBER.fullmatch(text)
    if not found or found[4] and found[4] not in UNITS:
        raise unexpected(text, expected)
    before, sign, after, own = found.groups()
    if len(before) + len(after or "") > LONGEST:
        raise Wrong(f"{shown(text)} has more than {LONGEST} digits; {expected} was expected")
    if sign == "," and not form.comma:
        raise Wrong(f"{shown(text)} has a comma; a decimal comma is read in sheets with semicolons only, and no separator of thousands anywhere")
    if sign == "." and (own or unit) and not form.point and len(after) == 3 and THOUSANDS.fullmatch(before):
        raise Wrong(f"{shown(text)} can be read in two ways; {before}{after} or {before}.{after}0 was expected")
    return Fraction(int(before + (after or "")), 10 ** len(after or "")), own or unit


def tick_of(text: str, form: Form) -> Tick:
    expected = f"a length with a unit ({UNIT_NAMES}), such as 0.25 ms,"
    number, unit = quantity(text, form, None, expected)
    if unit is None:
        raise Wrong(f"{shown(text)} has no unit; {expected} was expected")
    if not number:
        raise Wrong(f"a tick of {shown(text)} has no length; {expected} was expected")
    return Tick(number * UNITS[unit], number, unit)


def time_of(text: str, form: Form, unit: Optional[str]) -> str:
    """The digits of a time in ticks; `unit` is that of its column."""
    if unit is None and re.fullmatch("[0-9]+", text):
        return text
    expected = f"a whole number of ticks, or a time with a unit ({UNIT_NAMES}),"
    number, unit = quantity(text, form, unit, expected)
    if unit is None:
        raise Wrong(f"{shown(text)} is no whole number of ticks, and has no unit; {expected} was expected")
    if form.tick_at_fault:
        return "0"
    written = shown(text) if NUMBER.fullmatch(text)[4] else f"{shown(text)} {unit}"
    if form.tick is None:
        raise Wrong(f"{written} has a unit, and no line before the header gives the tick, such as 0.25 ms")
    ticks = number * UNITS[unit] / form.tick.length
    if ticks.denominator != 1:
        raise Wrong(f"{written} is {decimal(ticks)} ticks of {form.tick}")
    return str(ticks.numerator)


def widths_of(text: str) -> Tuple[str, Optional[str]]:
    """The digits of a width, and of the second where there are two, as 4/2."""
    first, slash, second = text.partition("/")
    expected = "a whole number of cores, or two as 4/2,"
    if slash and not all(re.fullmatch("[0-9]+", one.strip()) for one in (first, second)):
        raise unexpected(text, expected)
    return (first.strip(), second.strip()) if slash else (whole(text, expected), None)


def rule_of(text: str) -> str:
    """The digits of a rule, by its name or its number."""
    return RULES.get(text.casefold()) or whole(text, f"{', '.join(RULES)} or a number")


def core_of(digits: str) -> int:
    if order(digits) > order(str(LAST_CORE)):
        raise Wrong(f"core {shown(digits)} is above {LAST_CORE}, the last that there can be")
    return int(digits)


def cores_of(text: str) -> Set[int]:
    """The cores of a fence: numbers and ranges, `1 3 5..7`."""
    cores: Set[int] = set()
    for part in re.split(r"[\s,;]+", RANGE.sub("..", text).strip(" ,;")):
        found = re.fullmatch(r"([0-9]+)(?:\.\.([0-9]+))?", part)
        if not found:
            raise Wrong(f"'{shown(part)}' is no core and no range of cores; numbers and ranges such as 1 3 5..7 were expected")
        first, last = core_of(found[1]), core_of(found[2] or found[1])
        if last < first:
            raise Wrong(f"the range {shown(part)} ends before it begins")
        cores.update(range(first, last + 1))
    return cores


def ranges(cores: Set[int]) -> str:
    """The cores of a fence as they are written: three or more in a row as a range."""
    parts, left = [], sorted(cores)
    while left:
        run = next(k for k in range(len(left), 0, -1) if left[k - 1] == left[0] + k - 1)
        parts += [f"{left[0]}..{left[run - 1]}"] if run > 2 else [str(core) for core in left[:run]]
        left = left[run:]
    return " ".join(parts)
