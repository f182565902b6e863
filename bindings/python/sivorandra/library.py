"""The shared object of the proved library, and its calls with slices as they are in include/sivorandra.h. Nothing here decides."""
import ctypes
import os
import pathlib
from typing import List, Sequence, Tuple

from .refusals import Refusal

NAME = "libsivorandra.so"
MOST_TASKS, RUN_WORDS, ROW_BYTES, SENTENCE_BYTES, FENCED = 32, 6 + 11 * 32, 64, 700, 255
PLAN_WORDS, FACT_WORDS = RUN_WORDS + 1 + 4 * MOST_TASKS, 4 + MOST_TASKS
DONE, FULL, MISS, REFUSED, ROW_REFUSED, NO_SENTENCE, ACCEPTED = 0, 1, 2, 3, 4, 5, 6
LARGEST = 2**32 - 1
Words = "ctypes.Array[ctypes.c_uint32]"


def place() -> pathlib.Path:
    """Where the library is: SIVORANDRA_LIB names its folder; else it is beside this file, or in the target folder of a clone."""
    given = os.environ.get("SIVORANDRA_LIB")
    here = pathlib.Path(__file__).resolve().parent
    clone = here.parents[2] if len(here.parents) > 2 else here
    places = [pathlib.Path(given, NAME)] if given else [here / NAME, clone / "target" / "shared" / NAME]
    for one in places:
        if one.is_file():
            return one
    raise OSError(f"{places[-1]} is missing: tools/archive makes it in a clone, and SIVORANDRA_LIB names the folder of another")


_library = ctypes.CDLL(str(place()))


def words_of(numbers: Sequence[int]) -> Words:
    """Numbers as words; one that no word holds is an error."""
    numbers = list(numbers)
    for number in numbers:
        if not 0 <= number <= LARGEST:
            raise ValueError(f"{number} is no word: 0 to {LARGEST} is allowed")
    return (ctypes.c_uint32 * len(numbers))(*numbers)


def call(name: str, *given: object) -> Tuple[int, int, int]:
    """A call whose slices are arrays, each with its length behind it: the case and the numbers of its answer. A refusal is raised."""
    answer = (ctypes.c_uint32 * 3)()
    passed: List[object] = []
    for one in (*given, answer):
        passed += [one, ctypes.c_size_t(len(one))] if isinstance(one, ctypes.Array) else [ctypes.c_uint32(one)]
    if getattr(_library, f"sivorandra_{name}")(*passed):
        raise ValueError(f"sivorandra_{name} was lent a slice that is too short, or entries that are none")
    case, first, second = answer
    if case in (REFUSED, ROW_REFUSED):
        raise Refusal(first, second)
    return case, first, second


def version() -> int:
    """The version of the library: major * 10000 + minor * 100 + patch."""
    _library.sivorandra_version.restype = ctypes.c_uint32
    return int(_library.sivorandra_version())
