"""The names of a sheet beside positions: read in the lines of a list, and put beside what the programs print. Times are in units where the sheet gives its tick."""
import re
from typing import List, Optional

from sheet_cells import Wrong, normal, shown
from sheet_times import Tick
from texts import SENTENCE

ITEM = r'(?:"(?:[^"]|"")*"|[^\s,"]+)'
SET = rf"{ITEM}(?:,{ITEM})*"
OPERATION = re.compile(rf"([aWwrs])((?: {SET}){{0,2}})", re.S)
RAN = re.compile(r"; task (\d+) ran (\d+)")
MOST_SHOWN = 60  # characters of a name


def quoted(name: str) -> str:
    """A name as a list has it: in quotation marks, unless it is one word without a comma or a quotation mark. What cannot be shown is escaped."""
    name = shown(name, MOST_SHOWN)
    if re.fullmatch(r'[^\s,"]+', name):
        return name
    doubled = name.replace('"', '""')
    return f'"{doubled}"'


def position(item: str, names: List[str]) -> int:
    """The position of a task by its name, as a list has it."""
    name = normal(item[1:-1].replace('""', '"') if item.startswith('"') else item)
    if name not in names:
        raise Wrong(f"no task has the name '{shown(name)}'")
    return names.index(name) + 1


def number_of(part: str, names: List[str], alone: bool) -> str:
    """The number for names in a list: the set of some tasks, or the position where only one is allowed. A number stays."""
    if re.fullmatch("[0-9]+", part):
        return part
    positions = [position(item, names) for item in re.findall(ITEM, part, re.S)]
    if alone and len(positions) > 1:
        raise Wrong(f"'{shown(part)}' are several tasks, and w takes one; W takes several")
    return str(positions[0] if alone else sum(1 << one - 1 for one in set(positions)))


def operation(line: str, names: List[str]) -> str:
    """A list's line with numbers for its names; what is no operation stays, and the program reports it."""
    found = OPERATION.fullmatch(line)
    if not found:
        return line
    parts = re.findall(SET, found[2], re.S)
    return " ".join([found[1], *(number_of(part, names, found[1] == "w") for part in parts)])


def time(ticks: int, tick: Optional[Tick]) -> str:
    """Ticks in units; where the sheet gives no tick, as they are."""
    return tick.time(ticks) if tick else f"{ticks} tick{'' if ticks == 1 else 's'}"


def moment(at: int, tick: Optional[Tick]) -> str:
    return tick.time(at) if tick else f"tick {at}"


def behind(line: str, names: List[str], tick: Optional[Tick], figures: bool) -> str:
    """A line of positions, or of a position and a figure, with names and the figure's time behind it. A refusal stays."""
    numbers = line.split()
    if not numbers or not all(number.isdigit() for number in numbers):
        return line
    positions = numbers[:1] if figures else numbers
    told = [quoted(names[int(one) - 1]) for one in positions if 1 <= int(one) <= len(names)]
    times = [tick.time(int(numbers[1]))] if figures and tick and len(numbers) == 2 else []
    return " ".join([line, *told, *times])


def sentence(said: str, names: List[str], tick: Optional[Tick]) -> Optional[str]:
    """The sentence on a miss with names and times in units; None where it is no such sentence."""
    found = SENTENCE.fullmatch(said)
    if not found:
        return None
    late, at, had, length = (int(found[k]) for k in range(1, 5))
    parts = [f"{quoted(names[late - 1])} misses its deadline at {moment(at, tick)} with {time(had, tick)} of {time(length, tick)}"]
    parts += [f"{quoted(names[int(one) - 1])} ran {time(int(ticks), tick)}" for one, ticks in RAN.findall(found[5])]
    return "; ".join(parts) + "."
