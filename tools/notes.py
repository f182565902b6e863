"""Shows where a refused table is at fault. For one that is not refused: the records on no chain.

It decides nothing: the number is the program's, and where the table has no such fault there is no note. Lines count from 1, so word k is on line k + 1."""
import math
from typing import TYPE_CHECKING, Iterator, List, Optional, Tuple

from texts import RULES

if TYPE_CHECKING:
    from system import Call

HEAD, RECORD = 5, 7  # words of a table and of a record
MOST_BYTES, MOST_RECORDS, LARGEST, TICKS, HORIZON = 2519, 32, 2**32 - 1, 1_000_000, 1_000_000_000
FIELDS = ("next", "O", "v", "C", "D", "T", "w")
SIGNS = {b" ": "a space", b"\t": "a tab", b"-": "a minus sign", b"+": "a plus sign", b".": "a decimal point", b",": "a comma"}
RULES_ALLOWED = ", ".join(f"{number} ({name})" for number, name in RULES.items()).replace(", 4", " or 4")
TAKEN_FOR = {b"O": 0, b"o": 0, b"l": 1, b"I": 1}  # letters that look like digits


def strange(line: bytes, at: int) -> str:
    """The text in a line at this place, the first that has no digit."""
    byte, rest = line[at:at + 1], line[at:].lstrip(b" \t")
    comment = next((mark for mark in (b"#", b"//", b";") if rest.startswith(mark)), None)
    if comment:
        return f"a comment ({comment.decode()})"
    if byte == b"\r":
        return "a carriage return (Windows line ends)" if at == len(line) - 1 else "a carriage return"
    if byte in TAKEN_FOR and all(bytes([other]) in TAKEN_FOR or other in b"0123456789\r" for other in line):
        return f"the letter {byte.decode()}, not the digit {TAKEN_FOR[byte]}"
    if byte in b".,":
        return SIGNS[byte] + (" in a number" if line[:at].isdigit() and line[at + 1:at + 2].isdigit() else "")
    if byte.isalpha():
        return f"the letter {byte.decode()}"
    return SIGNS.get(byte) or f"byte 0x{byte.hex()}" + (f" ({byte.decode()})" if 32 < byte[0] < 127 else "")


def lines_of(text: bytes) -> List[bytes]:
    lines = text.split(b"\n")
    return lines if lines[-1] else lines[:-1]  # the last line may lack its newline


def text_fault(text: bytes) -> Optional[str]:
    """The first line that is no number, and why."""
    if text.startswith(b"\xef\xbb\xbf"):
        return "line 1: a byte order mark (UTF-8)"
    if text[:2] in (b"\xff\xfe", b"\xfe\xff") or text[:2].strip(b"\0").isdigit() and b"\0" in text[:2]:
        return "line 1: UTF-16, two bytes for each character"
    for number, line in enumerate(lines_of(text), 1):
        at = next((at for at, byte in enumerate(line) if byte not in b"0123456789"), None)
        if not line:
            return f"line {number}: an empty line"
        if at is not None:
            return f"line {number}: {strange(line, at)}"
        if len(line) > 10:
            return f"line {number}: more than ten digits"
        if int(line) > LARGEST:
            return f"line {number}: {line.decode()}, and the largest number is {LARGEST:,}"
    return None


def count_fault(text: bytes) -> Optional[str]:
    """Why a text of numbers alone is no table."""
    count = len(lines_of(text))
    records, over = divmod(count - HEAD, RECORD)
    numbers = f"{count} number{'' if count == 1 else 's'}"
    if not text:
        return "an empty file"
    if len(text) > MOST_BYTES:
        return f"more than {MOST_BYTES:,} bytes, and no table is longer"
    if count < HEAD:
        return f"{numbers}, a table has at least {HEAD}"
    if records >= MOST_RECORDS and count > HEAD + RECORD * MOST_RECORDS:
        return f"{numbers}, a table has at most {HEAD + RECORD * MOST_RECORDS}" if over else f"{records} records, at most {MOST_RECORDS}"
    amount = lambda n: "one is" if n == 1 else f"{n} are"
    return f"{numbers}: {HEAD} and then {RECORD} for each record, so {amount(RECORD - over)} missing or {amount(over)} too many" if over else None


class Table:
    """The words of a text that number 1 lets through, and the walk along their chain: up to 0, to a number that is no record's, or to a record that is met again."""

    def __init__(self, text: bytes):
        self.words = [int(line) for line in lines_of(text)]
        self.head, self.cores, self.rule, low, high = self.words[:HEAD]
        self.fence = low | high << 32
        self.records = (len(self.words) - HEAD) // RECORD
        self.chain, self.met = [], self.head
        while 1 <= self.met <= self.records and self.met not in self.chain:
            self.chain.append(self.met)
            self.met = self.word(self.met, "next")

    def line(self, record: int, field: str) -> int:
        return HEAD + RECORD * (record - 1) + FIELDS.index(field) + 1

    def word(self, record: int, field: str) -> int:
        return self.words[self.line(record, field) - 1]

    def header_fault(self, number: int) -> Optional[str]:
        inside = 1 <= self.cores <= 64
        if number == 2 and not inside:
            return f"line 2: the core count is {self.cores}; 1 to 64 is allowed"
        if number == 3 and self.rule not in RULES:
            return f"line 3: the rule is {self.rule}; {RULES_ALLOWED} is allowed"
        if number == 4 and self.head == 0:
            return f"line 1: the head is 0; 1 to {self.records}, the number of the first record, is allowed"
        if number == 19 and inside and self.fence >> self.cores:
            core = next(core for core in range(self.cores, 64) if self.fence >> core & 1)
            line = 4 + core // 32
            return f"line {line}: the fence {self.words[line - 1]} has core {core}; cores 0 to {self.cores - 1} are allowed, and not all"
        if number == 19 and inside and self.fence == (1 << self.cores) - 1:
            return f"line{' 4' if self.cores <= 32 else 's 4 and 5'}: the fence has all {self.cores} cores; one must be left"
        return None

    def chain_fault(self, number: int) -> Optional[str]:
        link, line = ("the head", 1) if not self.chain else (f"next of record {self.chain[-1]}", self.line(self.chain[-1], "next"))
        if number == 5 and self.met > self.records:
            return f"line {line}: {link} is {self.met}; " + (f"the last record is {self.records}" if self.records else "there is no record")
        if number == 6 and self.met in self.chain:
            return f"line {line}: {link} is {self.met}, and record {self.met} is on the chain already; next of the last is 0"
        return None

    def task_fault(self, number: int, position: int) -> Optional[str]:
        if not 1 <= position <= len(self.chain):
            return None
        record = self.chain[position - 1]
        unfenced = sum(1 for core in range(min(self.cores, 64)) if not self.fence >> core & 1)
        period = self.word(record, "T")
        widths = [(field, 1, unfenced, " (the unfenced cores)") for field in ("v", "w")]
        limits = widths if number == 7 else [("O", 0, TICKS, ""), ("C", 1, TICKS, ""), ("T", 1, TICKS, ""), ("D", 1, period, " (its T)")]
        for field, least, most, what in limits:
            word = self.word(record, field)
            if not least <= word <= most:
                return f"line {self.line(record, field)}: {field} of record {record} (position {position}) is {word}; {least} to {most:,}{what} is allowed"
        return None

    def horizon(self) -> Tuple[int, int]:
        """S and P of the tasks on the chain, whose periods are not 0. In P a task of two widths counts with two periods."""
        start, period = 0, 1
        for record in self.chain:
            offset, every = self.word(record, "O"), self.word(record, "T")
            start = offset + max(0, -(-(start - offset) // every)) * every
            period = math.lcm(period, every if self.word(record, "v") == self.word(record, "w") else 2 * every)
        return start, period

    def horizon_fault(self) -> Optional[str]:
        if not all(self.word(record, "T") for record in self.chain) or sum(self.horizon()) <= HORIZON:
            return None
        start, period = self.horizon()
        return f"S is {start:,}, P is {period:,} and S + P is {start + period:,}; {HORIZON:,} is the most"

    def no_slack(self) -> str:
        """Why no slack is given for a table that passes."""
        order = "1 (greedy) where no width is above one of the next"
        if self.rule in (3, 4):
            return f"line 3: the rule is {self.rule}; slack is given under 2 (limited), and under {order}"
        for position, (record, below) in enumerate(zip(self.chain, self.chain[1:]), 1):
            wide = max("v", "w", key=lambda field: self.word(record, field))
            narrow = min("v", "w", key=lambda field: self.word(below, field))
            if self.rule == 1 and self.word(record, wide) > self.word(below, narrow):
                this, other = (f"{field} of record {one} (position {at}) is {self.word(one, field)}" for field, one, at in ((wide, record, position), (narrow, below, position + 1)))
                return f"line {self.line(record, wide)}: {this} and {other}; slack is given under {order}"
        return "a table that misses a deadline has no slack; --why says more"

    def loose(self) -> List[int]:
        """The records on no chain."""
        return sorted(set(range(1, self.records + 1)) - set(self.chain))

    def off_chain(self) -> Iterator[str]:
        for record in self.loose():
            yield f"lines {self.line(record, 'next')} to {self.line(record, FIELDS[-1])}: record {record} is on no chain, so it is no task"


def notes(text: bytes, answer: str, verdict: str = "") -> List[str]:
    """The notes beside this answer to a text; one on number 17 has the verdict."""
    word, number, position = (*answer.split(), "", "", "")[:3]
    number, position = (int(field) if field.isascii() and field.isdigit() else 0 for field in (number, position))
    text = text[:MOST_BYTES + 1]
    fault = text_fault(text)
    fault = f"{fault}; one decimal number a line was expected" if fault else count_fault(text)
    if word != "refused":
        return [] if fault else list(Table(text).off_chain())
    if fault or number == 1:
        return [fault] if fault and number == 1 else []
    table = Table(text)
    if number in (7, 8):
        fault = table.task_fault(number, position)
    elif number == 9:
        fault = table.horizon_fault()
    elif number == 13:
        fault = "a table that misses a deadline is not started, and has no worst-case response times; --why says more"
    elif number == 17:
        fault = f"the table has no miss: {verdict}" if verdict else "the table has no miss"
    elif number == 23:
        fault = table.no_slack()
    else:
        fault = table.header_fault(number) or table.chain_fault(number)
    return [fault] if fault else []


def strict_note(text: bytes) -> Optional[str]:
    """What --strict has to say of a table that was taken."""
    table = Table(text)
    loose, last = [str(record) for record in table.loose()], table.chain[-1]
    who = f"records {', '.join(loose)} are" if len(loose) > 1 else f"record {''.join(loose)} is"
    return f"line {table.line(last, 'next')}: next of record {last} is 0 and ends the chain; {who} on no chain (--strict)" if loose else None


def answer(call: "Call") -> Tuple[int, str]:
    """The mode of the notes alone: the program's first line is in the place of a list. The notes are printed at its end."""
    return 0, call.list
