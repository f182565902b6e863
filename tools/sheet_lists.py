"""A list for a table that is a sheet: names in its lines become numbers as they are read, so that a reader of the list gets only numbers."""
from typing import List

from sheet_cells import Wrong
from sheet_names import operation
from system import Declined, REFUSED, Source

LONGEST = 1 << 16  # bytes of a line with names


def in_numbers(line: bytes, names: List[str]) -> bytes:
    """A line with numbers for its names; what is no text stays."""
    end = b"\n" if line.endswith(b"\n") else b""
    try:
        text = line.removesuffix(b"\n").decode()
    except UnicodeDecodeError:
        return line
    return operation(text, names).encode() + end


class NamedSource(Source):
    """A list with names, which is read as one with numbers."""

    def __init__(self, path: str, called: str, names: List[str]):
        super().__init__(path, called)
        self.names, self.line = names, 0

    def readline(self, most: int) -> bytes:
        line = super().readline(LONGEST)
        self.line += 1
        try:
            return in_numbers(line, self.names)[:most]
        except Wrong as wrong:
            raise Declined(f"{self.name}: line {self.line}: {wrong}", REFUSED)
