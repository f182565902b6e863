"""Typed calls of Sivorandra, a proved timing judge for tables of gang tasks.

>>> from sivorandra import Rule, Table, Task
>>> table = Table(cores=3, rule=Rule.GREEDY, tasks=(Task(width=2, length=2, period=5), Task(width=2, length=3, period=5), Task(width=1, length=4, period=5)))
>>> print(table.judge())
full 0 5

Every answer is the proved library's; a refusal is an exception with its number, name and position. No call keeps a state, so any number of threads may call at once."""
from . import library
from .refusals import Faulty, Number, Refusal
from .run import Plan, Run
from .table import Rule, Table, Task, Verdict, bounds, conflict, judge, of_sheet, of_words, read, response_times, rows, sentence, slack

VERSION = library.version()
__version__ = f"{VERSION // 10000}.{VERSION // 100 % 100}.{VERSION % 100}"
__all__ = ["Faulty", "Number", "Plan", "Refusal", "Rule", "Run", "Table", "Task", "VERSION", "Verdict", "bounds", "conflict", "judge", "of_sheet", "of_words", "read", "response_times", "rows", "sentence", "slack"]
