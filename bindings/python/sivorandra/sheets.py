"""Sheets, as people write tables: read by the modules of tools/, which are beside this file where it is installed."""
import importlib
import pathlib
import sys
import threading
from types import ModuleType
from typing import List, Tuple

from .refusals import Faulty

MODULES = ("notes", "sheet", "sheet_back", "sheet_cells", "sheet_columns", "sheet_times", "texts")
# The build backend and ./install read the line above.
_lock = threading.Lock()
_loaded: List[ModuleType] = []


def folder() -> pathlib.Path:
    """Where the modules that read sheets are."""
    here = pathlib.Path(__file__).resolve().parent
    return here / "sheet_tools" if (here / "sheet_tools").is_dir() else here.parents[2] / "tools"


def loaded() -> ModuleType:
    """The module `sheet`, under no name that a program of its own could have."""
    with _lock:
        if not _loaded:
            others = {name: sys.modules.pop(name) for name in MODULES if name in sys.modules}
            sys.path.insert(0, str(folder()))
            try:
                _loaded.append(importlib.import_module("sheet"))
            finally:
                sys.path.remove(str(folder()))
                for name in MODULES:
                    found = sys.modules.pop(name, None)
                    if found:
                        sys.modules[f"{__package__}.read_{name}"] = found
                sys.modules.update(others)
        return _loaded[0]


def words_and_names(data: bytes) -> Tuple[List[int], List[str]]:
    """The words of a sheet and the names of its tasks by positions. A number that no word holds makes no table: then there are no words."""
    sheet = loaded()
    try:
        read = sheet.read(data)
    except sheet.Faulty as faulty:
        raise Faulty(faulty.lines) from None
    digits = [word.digits for word in read.words()]
    fits = all(len(one) <= 10 and int(one) < 2**32 for one in digits)
    return [int(one) for one in digits] if fits else [], read.names()
