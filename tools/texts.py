"""The texts of pictures and pages that stand in several of these tools: the rules' names, verdicts, refusals by number and what to do about them, and the words around a list."""
import re

RULES = {1: "greedy", 2: "limited", 3: "idling", 4: "lending"}
VERDICTS = {
    "firm": "Firm: no deadline is ever missed, also when jobs end early",
    "full": "Full: no deadline is ever missed when every job takes its full length",
    "miss": "Miss: the task at position {1} misses its deadline at tick {0}",
}
REFUSALS = {
    1: ["This is no table: it is not one decimal number a line,", "or not 5 words and then at most 32 whole records of seven."],
    2: ["The core count (word 1) is not 1 to 64."],
    3: ["The rule (word 2) is not 1 to 4."],
    4: ["The head (word 0) is zero: the chain has no record."],
    5: ["Along the chain a number past the last record is met."],
    6: ["Along the chain a record is met again: it never ends."],
    7: ["A width, v or w, of the task at position {} is 0 or above the number of unfenced cores."],
    8: ["The O, C, D or T of the task at position {} is outside its limits."],
    9: ["The horizon, the last S plus P, is above 1,000,000,000 ticks."],
    13: ["The table misses a deadline at full length, so no run of it is started.", "A picture without a list shows the miss."],
    17: ["The table misses no deadline at full length, so it has no conflict.", "A picture without --clash shows its rows."],
    19: ["The fence (words 3 and 4) names a core past the count, or all cores."],
}
SHEET_REFUSALS = {  # in words of a sheet
    1: ["This is no table: a number is above 4,294,967,295, or there are more than 32 tasks."],
    2: ["The number of cores is not 1 to 64."],
    3: ["The rule is not 1 to 4."],
    7: ["A width of the task at position {} is 0 or above the number of unfenced cores."],
    8: ["The offset, length, deadline or period of the task at position {} is outside its limits."],
    19: ["The fence names a core past the count, or all cores."],
}
MISTAKES = {
    16: "it reports a position that does not exist, does not work or has no cores in this tick",
    20: "it marks a job as empty that does not exist, or was not released in this tick",
    21: "the table is not firm, so no task can be withdrawn",
    22: "there is no such position",
}
EXPECTED = "'a REPORTS', 'a REPORTS EMPTIES', 'w POSITION', 'W SET', 'r', 'r EMPTIES', 's', 's EMPTIES', 'j' or 'j EMPTIES' (numbers up to 4294967295) was expected"

RULE_WORDS = {
    1: "in priority order, a task that fits in the free cores takes them, and one that does not is skipped",
    2: "in priority order, the first task that does not fit in the free cores ends the choosing",
    3: "as greedy, but a job that ended early still claims its cores until its length is over",
    4: "as idling, but a job that ended early lends its cores to tasks below it that would otherwise wait",
}
PROMISES = {
    "firm": "no deadline is ever missed, also when any jobs end early.",
    "full": "no deadline is ever missed as long as every job takes its full length; nothing is claimed of shorter jobs, since an early end can let a wide task in and make another late.",
}
WORDS = "A tick is the unit of time, and the cores are the processor's. A task releases a job in every period. A job must have its cores, all of them together, in each of its C ticks before its deadline. Positions count by priority: position 1 is the highest."
FITS = {"firm": "It fits, for ever", "full": "It fits as long as no job ends early", "miss": "It does not fit", "refused": "It was not judged"}
STRIP = "from release to deadline; coloured where the task runs"  # of a legend
LISTS = "The list says what happened in the cab: which jobs ended early, which had nothing to do, which tasks were withdrawn."
NOT_OF_THE_LIST = " These are figures of the table, not of the list."
REMEDIES = {
    1: "Write one decimal number a line: five words, then seven for each of at most 32 records; no spaces, signs, comments or empty lines. A table made for an older version lacks words: the two of the fence, or w at the end of each record.",
    2: "Correct line 2: the number of cores is 1 to 64.",
    3: "Correct line 3: 1 is greedy, 2 limited, 3 idling, 4 lending.",
    4: "Correct line 1: it names the record with the highest priority, and records count from 1.",
    5: "A head or a next names a record that does not exist: correct it, or add the records that are missing.",
    6: "Next of the chain's last record must be 0, and no two records of the chain have the same next.",
    7: "Correct v or w, or the fence: a width is 1 up to the number of unfenced cores. For a task of one width w is v.",
    8: "O may be up to 1,000,000; C and T are 1 to 1,000,000; D is 1 to T.",
    9: "Periods that divide each other make P small, and a task whose widths differ counts with 2T; smaller offsets make S small.",
    13: "A table that misses is not started, so no list is replayed. Correct the miss first.",
    15: "This is the miss in the cab: the run stays there. It never happens to a firm table.",
    16: "Report only jobs that are in the row and have not ended.",
    19: "Correct lines 4 and 5, the low word first: bit c of line 4 is core c, bit c of line 5 core 32 + c. No fence is 0 and 0.",
    20: "Mark a job as empty in the tick of its release, not later.",
    21: "Tasks can be withdrawn only from a firm table: see the changes marked firm under 'What could be changed'.",
    22: "Positions are 1 up to the number of tasks on the chain.",
}
SHEET_REMEDIES = {  # in words of a sheet
    1: "A table has at most 32 tasks, and no number in it is above 4,294,967,295: remove tasks, or give a longer tick.",
    2: "Correct the line cores: 1 to 64.",
    3: "Correct the line rule: greedy, limited, idling or lending, or its number, 1 to 4.",
    7: "Correct the width, or the fence: a width is 1 up to the number of unfenced cores.",
    8: "In ticks an offset may be up to 1,000,000; a length and a period are 1 to 1,000,000; a deadline is 1 up to the period. A longer tick makes all of them smaller.",
    9: "Periods that divide each other make P small, and a task whose widths differ counts with two periods; smaller offsets make S small. A longer tick makes both smaller.",
    19: "Correct the line fence: it has cores of the table, counted from 0, and not all of them.",
}
SENTENCE = re.compile(r"task (\d+) misses at tick (\d+) with (\d+) of (\d+) ticks((?:; task \d+ ran \d+)*)\.")


def number_of(count: int, thing: str) -> str:
    """So many things, in words: 1 tick, 2,000 ticks."""
    return f"{count:,} {thing}{'' if count == 1 else 's'}"


def stands(line: bytes) -> str:
    """A line that is no operation, as it is shown."""
    return repr(line)[1:] + (" (Windows line ends)" if line.endswith(b"\r") else "") if line else "an empty line"
