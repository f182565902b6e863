"""A sheet of a table: the words of a table into lines of settings, a header and a task a line, in priority order. It reads what the programs take; they alone decide that."""
import csv
import io
from typing import List

import notes
from sheet_times import RULES, ranges

HEADER = ("name", "priority", "offset", "width", "second width", "length", "deadline", "period")
FIELDS = ("O", "v", "w", "C", "D", "T")  # of a record, in the order of the header


class NoTable(Exception):
    """Words that are no table, so that no sheet can be written."""

    def __init__(self, line: str):
        super().__init__(line)
        self.lines = [line]


def table_of(text: bytes) -> notes.Table:
    """The table of a text whose chain ends."""
    fault = notes.text_fault(text[:notes.MOST_BYTES + 1]) or notes.count_fault(text)
    if fault:
        raise NoTable(f"{fault}; a table was expected, one decimal number a line")
    table = notes.Table(text)
    if not table.chain or table.met != 0:
        raise NoTable(table.header_fault(4) or table.chain_fault(5) or table.chain_fault(6) or "the chain does not end")
    return table


def rows_of(table: notes.Table) -> List[List[object]]:
    rule = next((name for name, digits in RULES.items() if int(digits) == table.rule), table.rule)
    fenced = {core for core in range(64) if table.fence >> core & 1}
    above = [["cores", table.cores], ["rule", rule]] + ([["fence", ranges(fenced)]] if fenced else [])
    tasks = [[f"task {position}", position, *(table.word(record, field) for field in FIELDS)] for position, record in enumerate(table.chain, 1)]
    return [*above, list(HEADER), *tasks]


def sheet_of(text: bytes) -> str:
    """A sheet of the words of a table."""
    out = io.StringIO()
    csv.writer(out, lineterminator="\n").writerows(rows_of(table_of(text)))
    return out.getvalue()
