"""What the programs answer to every question on a table, in the time that a page takes: the verdict, the sentence, the conflict, the response times and the slack."""
from dataclasses import dataclass
from typing import Any, Callable, List, Optional, Union

import system
from inputs import Input
from printed import Verdict, clash_in, figures_in, numbers_in, verdict_in
from programs import Programs
from system import FINE, MISSED, REFUSED, Trouble
from table import Table, table_of
from texts import SENTENCE


@dataclass(frozen=True)
class Refused:
    """A question that is refused."""
    number: int
    position: int

    def __str__(self) -> str:
        return f"refused {self.number}"


@dataclass(frozen=True)
class NotWaited:
    """A question that had no answer after some seconds."""
    seconds: int

    def __str__(self) -> str:
        return "not waited for"


Missing = Union[Refused, NotWaited]


@dataclass(frozen=True)
class Answers:
    """A table with all answers on it; of one that is refused `table` is None."""
    given: Input
    verdict: Verdict
    table: Optional[Table]
    sentence: Union[str, Missing]
    conflict: Union[List[int], Missing]
    response_times: Union[List[int], Missing]
    slack: Union[List[int], Missing]

    @property
    def status(self) -> int:
        return {"miss": MISSED, "refused": REFUSED}.get(self.verdict.word, FINE)


def sentence_in(said: bytes) -> str:
    """The sentence on a miss."""
    sentence = said.decode("ascii", "replace").removesuffix("\n")
    if not SENTENCE.fullmatch(sentence):
        raise Trouble(f"the sentence is {sentence!r}")
    return sentence


def answers_of(folder: str, given: Input) -> Answers:
    """Asks everything; what has not answered in time is not waited for."""
    with Programs(system.asked(folder, "verdict")[0], given.table) as programs:
        verdict = verdict_in(system.first_line(programs.asking("verdict")))
        programs.judged()
        table = None if verdict.word == "refused" else table_of(given.table, given.sheet)
        asked = {question: programs.asking(question) for question in ("why", "clash", "longest", "spare")}
        said = {question: programs.heard(process) for question, process in asked.items()}

        def answer(question: str, read: Callable[[bytes], Any]) -> Any:
            found = said[question]
            if found is None:
                return NotWaited(programs.patience)
            return Refused(*numbers_in(found)) if found.startswith(b"refused ") else read(found)
        figures = lambda found: figures_in(found, table)
        return Answers(given, verdict, table, answer("why", sentence_in), answer("clash", lambda found: clash_in(found.decode("ascii", "replace"), table).clash),
                       answer("longest", figures), answer("spare", figures))
