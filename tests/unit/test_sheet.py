"""Sheets: cells and their places, times, columns, the words, names and notes, each fault with its line and column. python3 -m unittest tests/unit/test_sheet.py"""
import pathlib
import sys
import unittest
from fractions import Fraction

ROOT = pathlib.Path(__file__).resolve().parents[2]
sys.path.insert(0, str(ROOT / "tools"))
import sheet as tool  # noqa: E402
import sheet_back  # noqa: E402
import sheet_cells  # noqa: E402
import sheet_columns  # noqa: E402
import sheet_names  # noqa: E402
import sheet_notes  # noqa: E402
import sheet_times  # noqa: E402

SETTINGS = "cores,4\nrule,greedy\n"
MS = SETTINGS + "tick,0.25 ms\n"
HEADER = "name,length,period\n"
EXPECTED = "a whole number of ticks, or a time with a unit (ns, us, ms or s), was expected"


def words(text):
    data = text if isinstance(text, bytes) else text.encode()
    return [word.digits for word in tool.read(data).words()]


def faults(text):
    try:
        tool.read(text if isinstance(text, bytes) else text.encode("utf-8", "surrogateescape"))
    except sheet_cells.Faulty as faulty:
        return faulty.lines
    return []


def record(text, **_):
    """The seven words of the last task."""
    return words(text)[-7:]


class Cells(unittest.TestCase):
    def test_letters(self):
        self.assertEqual([sheet_cells.letters(k) for k in (0, 25, 26, 27, 701, 702)], ["A", "Z", "AA", "AB", "ZZ", "AAA"])

    def test_shown(self):
        self.assertEqual(sheet_cells.shown("a\n\0\x1b\u202e\u200b"), "a\\n\\x00\\x1b\\u202e\\u200b")
        self.assertEqual(sheet_cells.shown("x" * 50), "x" * 40 + "...")
        self.assertEqual(sheet_cells.shown("\udcfc"), "\\xfc")

    def test_lines_of_quoted_cells(self):
        text = MS + 'name,length,period\n"a\nb",1.3 ms,5 ms\nc,1.3 ms,5 ms\n'
        self.assertEqual(faults(text), ["line 6, column B: 1.3 ms is 5.2 ticks of 0.25 ms", "line 7, column B: 1.3 ms is 5.2 ticks of 0.25 ms"])

    def test_lines_of_a_header_with_line_ends(self):
        text = SETTINGS + '"name\nof it",length,"period\n(ticks)",task,"why\nso"\na,1,5,b,c\n'
        self.assertEqual(tool.read(text.encode()).notes, ["line 3, column A: the column 'name\\nof it' is ignored", "line 5, column E: the column 'why\\nso' is ignored"])

    def test_lines_of_every_kind_of_line_end(self):
        for end in ("\n", "\r\n", "\r"):
            text = (MS + 'name,length,period\n"a\n\nb",1,5\n\nc,x,5\n').replace("\n", end)
            self.assertEqual(faults(text), [f"line 9, column B: 'x' stands there; {EXPECTED}"])

    def test_quotation_marks(self):
        self.assertEqual(faults(SETTINGS + HEADER + 'a,1,5\nb,"1,5\n'), ["line 5, column B: a quotation mark is opened and not closed"])
        self.assertEqual(faults(SETTINGS + HEADER + '"a"b,1,5\n'), ["line 4, column A: something stands behind the closing quotation mark"])
        self.assertEqual(faults(SETTINGS + HEADER + '"a\n",1,"5"x\n'), ["line 5, column C: something stands behind the closing quotation mark"])
        self.assertEqual(faults('"cores,4\n'), ["line 1, column A: a quotation mark is opened and not closed"])
        self.assertEqual(faults('cores,4\nrule,"greedy"x\n' + HEADER + "a,1,5\n"), ["line 2, column B: something stands behind the closing quotation mark"])
        self.assertEqual(faults('"cores";4\n"rule";1\n"name";"period"\n')[0].split(";")[0], "line 3: the header names no column for the length")
        self.assertEqual(tool.read((SETTINGS + HEADER + '"a ""b"", c", "1",5\n').encode()).names(), ['a "b", c'])

    def test_size(self):
        body = (SETTINGS + HEADER + "a,1,5\n").encode()
        self.assertEqual(len(words(body + b"\n" * (1_000_000 - len(body)))), 12)
        self.assertEqual(faults(body + b"\n" * (1_000_001 - len(body))), ["line 1: more than 1,000,000 bytes, and no sheet that is read is longer"])

    def test_encodings(self):
        text = SETTINGS + HEADER + "Pflug-Hub\u00f6he,1,5\n"
        self.assertEqual(words(b"\xef\xbb\xbf" + text.encode()), words(text))
        for coding in ("utf-16", "utf-16-le", "utf-16-be"):
            self.assertEqual(faults(text.encode(coding)), ["line 1: UTF-16, two bytes for each character; UTF-8 was expected"])
        self.assertEqual(faults(text.encode("latin-1")), ["line 4, column A: byte 0xf6 is no UTF-8; a sheet saved as UTF-8 was expected"])

    def test_at_most_20_faults(self):
        for count in (20, 21, 500):
            lines = faults(SETTINGS + HEADER + "".join(f"t{k},x,5\n" for k in range(count)))
            self.assertEqual(len(lines), 20 + (count > 20))
            if count > 20:
                self.assertEqual(lines[-1], f"{count} faults in all, of which these are the first 20")


class Times(unittest.TestCase):
    form = sheet_times.Form(tick=sheet_times.Tick(Fraction(250_000), Fraction(1, 4), "ms"))

    def time(self, text, form=None, unit=None):
        try:
            return sheet_times.time_of(text, form or self.form, unit)
        except sheet_cells.Wrong as wrong:
            return str(wrong)

    def test_whole_numbers_stay_as_written(self):
        for digits in ("0", "1", "007", "99999999999", "9" * 5000):
            self.assertEqual(self.time(digits), digits)

    def test_units(self):
        for text, ticks in [("1 ms", "4"), ("1ms", "4"), ("1.5 ms", "6"), ("250 us", "1"), ("250 \u00b5s", "1"), ("250\u00a0\u03bcs", "1"), ("2 s", "8000"), ("250000 ns", "1"), ("0 ms", "0"), ("0.250000 ms", "1"), ("99999999999 s", "399999999996000")]:
            self.assertEqual(self.time(text), ticks)
        self.assertEqual(self.time("5", unit="ms"), "20")
        self.assertEqual(self.time("0.5", unit="ms"), "2")
        self.assertEqual(self.time("500 us", unit="ms"), "2")

    def test_fractions_of_a_tick(self):
        self.assertEqual(self.time("1.3 ms"), "1.3 ms is 5.2 ticks of 0.25 ms")
        self.assertEqual(self.time("1.3", unit="ms"), "1.3 ms is 5.2 ticks of 0.25 ms")
        self.assertEqual(self.time("1 ns"), "1 ns is 0.000004 ticks of 0.25 ms")
        third = sheet_times.Form(tick=sheet_times.tick_of("3 us", sheet_times.Form()))
        self.assertEqual(self.time("10 us", third), "10 us is 3 1/3 ticks of 3 us")
        self.assertEqual(self.time("1 us", third), "1 us is 1/3 ticks of 3 us")

    def test_what_is_no_time(self):
        for text in ("x", "1 min", "1 MS", "1e3", "1 000", "1'000", "0x10", ".5 ms", "1. ms", "ms", "=1+1", "1\n2", "\u0663", "1 ms ms", "\0", "1:30", "1-Jan"):
            self.assertEqual(self.time(text), f"'{sheet_cells.shown(text)}' stands there; {EXPECTED}")
        for text in ("-1", "+1", "\u22121", "-1 ms", "-0"):
            self.assertEqual(self.time(text), f"{text} has a sign; {EXPECTED}")
        self.assertEqual(self.time("1.5"), f"1.5 is no whole number of ticks, and has no unit; {EXPECTED}")
        self.assertEqual(self.time("1.0"), f"1.0 is no whole number of ticks, and has no unit; {EXPECTED}")
        self.assertEqual(self.time("1" * 41 + " ms"), f"{'1' * 40}... has more than 40 digits; {EXPECTED}")

    def test_commas(self):
        semicolons = sheet_times.Form(comma=True, point=False, tick=self.form.tick)
        self.assertEqual(self.time("1,5 ms", semicolons), "6")
        self.assertEqual(self.time("1,125 s", semicolons), "4500")
        self.assertEqual(self.time("1.5 ms", semicolons), "6")
        self.assertEqual(self.time("0.125 s", semicolons), "500")
        self.assertEqual(self.time("1.000 ms", semicolons), "1.000 ms can be read in two ways; 1000 or 1.0000 was expected")
        self.assertEqual(self.time("1.000", semicolons), f"1.000 is no whole number of ticks, and has no unit; {EXPECTED}")
        self.assertEqual(self.time("1.000", semicolons, "ms"), "1.000 can be read in two ways; 1000 or 1.0000 was expected")
        self.assertEqual(self.time("1.0000 ms", semicolons), "4")
        self.assertEqual(self.time("1.000 ms"), "4")
        self.assertEqual(self.time("1,5 ms"), "1,5 ms has a comma; a decimal comma is read in sheets with semicolons only, and no separator of thousands anywhere")
        self.assertEqual(self.time("1,000"), "1,000 has a comma; a decimal comma is read in sheets with semicolons only, and no separator of thousands anywhere")
        self.assertEqual(self.time("1.000.000 ms", semicolons), f"'1.000.000 ms' stands there; {EXPECTED}")

    def test_no_tick(self):
        self.assertEqual(self.time("1 ms", sheet_times.Form()), "1 ms has a unit, and no line before the header gives the tick, such as 0.25 ms")

    def test_time_in_units(self):
        tick = self.form.tick
        self.assertEqual([tick.time(ticks) for ticks in (0, 1, 5, 3999, 4000, 10**9)], ["0 ms", "0.25 ms", "1.25 ms", "999.75 ms", "1 s", "250000 s"])
        micro = sheet_times.tick_of("50 \u00b5s", sheet_times.Form())
        self.assertEqual(([micro.time(ticks) for ticks in (1, 20, 20_000)], str(micro)), (["50 us", "1 ms", "1 s"], "50 \u00b5s"))

    def test_widths(self):
        for text, both in [("4", ("4", None)), ("4/2", ("4", "2")), (" 4 / 2 ".strip(), ("4", "2")), ("0/99", ("0", "99"))]:
            self.assertEqual(sheet_times.widths_of(text), both)
        for text in ("4/", "/2", "4/2/1", "-4", "4/-2", "four", "2-Apr", "4.0"):
            with self.assertRaises(sheet_cells.Wrong):
                sheet_times.widths_of(text)

    def test_fences(self):
        for text, cores in [("1 3 5..7", {1, 3, 5, 6, 7}), ("5-7", {5, 6, 7}), ("5\u20137", {5, 6, 7}), ("5 - 7", {5, 6, 7}), ("1,3,5 .. 7", {1, 3, 5, 6, 7}), ("0 63", {0, 63}), ("7..7", {7}), ("3 3", {3}), ("00063", {63})]:
            self.assertEqual(sheet_times.cores_of(text), cores)
        for text in ("64", "1 64", "60..64", "9" * 5000, "7..5", "-3", "1 -3", "1..", "..3", "1...3", "5-Jul", "x", "1.5", "0x1"):
            with self.assertRaises(sheet_cells.Wrong):
                sheet_times.cores_of(text)
        for cores in (set(), {0}, {0, 1}, {0, 1, 2}, {1, 3, 5, 6, 7}, set(range(64)), {63}):
            self.assertEqual(sheet_times.cores_of(sheet_times.ranges(cores)) if cores else set(), cores)
        self.assertEqual(sheet_times.ranges({1, 3, 4, 6, 7, 8}), "1 3 4 6..8")


class Columns(unittest.TestCase):
    def test_names(self):
        for field, names in sheet_columns.NAMES.items():
            for name in names:
                for written in (name, name.upper(), name.replace(" ", "_"), name.replace(" ", "-"), f" {name.capitalize()} "):
                    self.assertEqual(sheet_columns.heading(written), sheet_columns.Heading(field), written)

    def test_units(self):
        for text, field, unit in [("period (ms)", "period", "ms"), ("Period [us]", "period", "us"), ("T (\u00b5s)", "period", "\u00b5s"), ("WCET in ms", "length", "ms"), ("deadline_ms", "deadline", "ms"),
                                  ("length (ticks)", "length", None), ("width (cores)", "width", None), ("length (C)", "length", None), ("C_i", "length", None), ("Worst-Case Execution Time (WCET)", "length", None)]:
            self.assertEqual(sheet_columns.heading(text), sheet_columns.Heading(field, unit))
        for text in ("width (ms)", "period (MS)", "period (min)", "name (ms)", "lengths", "", "x" * 500, "length (period)"):
            self.assertIsNone(sheet_columns.heading(text), text)

    def test_two_of_a_kind(self):
        self.assertEqual(faults(SETTINGS + "name,C,T,WCET\na,1,5,1\n"), ["line 3, column D: 'WCET' is the length, and column B is that too; one column was expected"])

    def test_missing(self):
        self.assertEqual(faults(SETTINGS + "length,period\n1,5\n"), ["line 3: the header names no column for the name"])
        end = "; a header such as name, length, period was expected, its cells apart by commas, semicolons or tabs"
        self.assertEqual(faults(SETTINGS + "name,length\na,1\n"), ["line 3: the header names no column for the period" + end])
        self.assertEqual(faults(SETTINGS + "name,deadline\na,1\n"), ["line 3: the header names no column for the length and the period" + end])
        for text in ("", "\n\n", SETTINGS, "1\n2\n3\n"):
            self.assertEqual(faults(text), ["line 1: no line names the columns length and period" + end])

    def test_not_known(self):
        sheet = tool.read((SETTINGS + "name,length,period,comment,\na,1,5,x,y\n").encode())
        self.assertEqual(sheet.notes, ["line 3, column D: the column 'comment' is ignored", "column E has no name in line 3, and is ignored"])
        self.assertEqual(faults(SETTINGS + "name,length,period,deadline (relative)\na,1,5,4\n"),
                         ["line 3, column D: 'deadline (relative)' is not known, and no other column is named deadline; deadline was expected, or a name without that word"])
        self.assertEqual(faults(SETTINGS + "name,length,period,deadline,deadline type\na,1,5,4,hard\n"), [])
        self.assertEqual(len(faults(SETTINGS + "name,length,period,width,width of even jobs,priority class,offset?\na,1,5,4,2,1,0\n")), 3)
        self.assertEqual(len(faults(SETTINGS + "name,length,period,core count\na,1,5,2\n")), 1)

    def test_second_header(self):
        self.assertEqual(faults(SETTINGS + HEADER + "a,1,5\nperiod,name,length\nb,1,5\n"), ["line 5, column A: a second header; one was expected"])

    def test_unit_without_tick(self):
        self.assertEqual(faults(SETTINGS + "name,length (ms),period\na,1,5\nb,1,5\n"), ["line 3, column B: the unit ms is given, and no line before the header gives the tick, such as 0.25 ms"])


class Settings(unittest.TestCase):
    body = HEADER + "a,1,5\n"

    def test_values(self):
        for lines, header in [("cores,4\nrule,2\n", ["4", "2", "0", "0"]), ("RULE,Lending\nCores:,64\nfence,0 32..33\n", ["64", "4", "1", "3"]), ("cores,0\nrule,99999999999\n", ["0", "99999999999", "0", "0"]),
                              (",cores,,4\n\nrule,idling,,,\nfence,1,3,5..7\n", ["4", "3", "234", "0"]), ("cores,4\nrule,1\nfence,\n", ["4", "1", "0", "0"]), ('cores,1\nrule,1\nfence,"63, 31"\n', ["1", "1", "2147483648", "2147483648"])]:
            self.assertEqual(words(lines + self.body)[1:5], header, lines)

    def test_faults(self):
        for lines, expected in [
            ("rule,1\n", "line 2: no line before the header gives the cores; a line such as cores, 4 was expected"),
            ("cores,4\n", "line 2: no line before the header gives the rule; a line such as rule, greedy was expected"),
            (SETTINGS + "cores,5\n", "line 3, column A: cores is given in line 1 already"),
            (SETTINGS + "speed,5\n", "line 3, column A: 'speed' is no setting; cores, rule, fence or tick was expected, or a header that names length and period"),
            ("cores\nrule,1\n", "line 1, column A: cores has no value"),
            ("cores,4,5\nrule,1\n", "line 1, column C: '5' is a second value; one was expected"),
            ("cores,-4\nrule,1\n", "line 1, column B: -4 has a sign; a whole number was expected"),
            ("cores,four\nrule,1\n", "line 1, column B: 'four' stands there; a whole number was expected"),
            ("cores,4\nrule,round robin\n", "line 2, column B: 'round robin' stands there; greedy, limited, idling, lending or a number was expected"),
            (SETTINGS + "fence,1,64\n", "line 3, column C: core 64 is above 63, the last that there can be"),
            (SETTINGS + "fence,7..5\n", "line 3, column B: the range 7..5 ends before it begins"),
            (SETTINGS + "fence,x\n", "line 3, column B: 'x' is no core and no range of cores; numbers and ranges such as 1 3 5..7 were expected"),
            (SETTINGS + "tick\n", "line 3, column A: tick has no value"),
            (SETTINGS + "tick,5\n", "line 3, column B: 5 has no unit; a length with a unit (ns, us, ms or s), such as 0.25 ms, was expected"),
            (SETTINGS + "tick,0 ms\n", "line 3, column B: a tick of 0 ms has no length; a length with a unit (ns, us, ms or s), such as 0.25 ms, was expected"),
            (SETTINGS + "tick,-1 ms\n", "line 3, column B: -1 ms has a sign; a length with a unit (ns, us, ms or s), such as 0.25 ms, was expected"),
        ]:
            self.assertEqual(faults(lines + self.body), [expected], lines)

    def test_tick_in_two_cells(self):
        self.assertEqual(record(SETTINGS + "tick,0.25,ms\n" + HEADER + "a,1 ms,5 ms\n")[3:6], ["4", "20", "20"])

    def test_a_tick_at_fault_is_told_once(self):
        self.assertEqual(len(faults(SETTINGS + "tick,1\n" + HEADER + "a,1 ms,5 ms\n")), 1)


class Tasks(unittest.TestCase):
    def test_defaults(self):
        self.assertEqual(words(SETTINGS + HEADER + "a,1,5\nb,2,6\n"), "1 4 1 0 0 2 0 1 1 5 5 1 0 0 1 2 6 6 1".split())

    def test_every_column(self):
        text = SETTINGS + "T,second width,D,name,C,priority,O,v\n10,2,9,x,3,1,7,4\n20,,,y,5,2,,\n"
        self.assertEqual(words(text), "1 4 1 0 0 2 7 4 3 9 10 2 0 0 1 5 20 20 1".split())

    def test_priorities(self):
        text = SETTINGS + "name,priority,length,period\na,30,1,5\nb,9,1,6\nc,100,1,7\n"
        self.assertEqual(words(text), "2 4 1 0 0 3 0 1 1 5 5 1 1 0 1 1 6 6 1 0 0 1 1 7 7 1".split())
        self.assertEqual(tool.read(text.encode()).names(), ["b", "a", "c"])
        self.assertEqual(faults(SETTINGS + "name,priority,length,period\na,3,1,5\nb,03,1,6\nc,,1,6\nd,0,1,6\ne,-1,1,6\n"), [
            "line 5, column B: the priority 03 stands in line 4 too; no two are equal",
            "line 6, column B: the priority is empty; a whole number, 1 for the highest, was expected",
            "line 7, column B: the priority is 0; a whole number, 1 for the highest, was expected",
            "line 8, column B: -1 has a sign; a whole number, 1 for the highest, was expected"])

    def test_widths(self):
        head = SETTINGS + "name,width,second width,length,period\n"
        self.assertEqual(record(head + "a,4/2,,1,5\n")[2::4], ["4", "2"])
        self.assertEqual(record(head + "a,4,2,1,5\n")[2::4], ["4", "2"])
        self.assertEqual(record(head + "a,,3,1,5\n")[2::4], ["1", "3"])
        self.assertEqual(record(head + "a,4,,1,5\n")[2::4], ["4", "4"])
        self.assertEqual(faults(head + "a,4/2,2,1,5\nb,x,-1,1,5\n"), [
            "line 4, column C: a second width stands in column B already",
            "line 5, column B: 'x' stands there; a whole number of cores, or two as 4/2, was expected",
            "line 5, column C: -1 has a sign; a whole number of cores was expected"])

    def test_names(self):
        self.assertEqual(faults(SETTINGS + HEADER + "a,1,5\na,1,5\n,1,5\n12,1,5\n\u0661,1,5\ne\u0301,1,5\n\u00e9,1,5\n"), [
            "line 5, column A: the name 'a' stands in line 4 too; a name of its own was expected",
            "line 6, column A: the name is empty; a name was expected",
            "line 7, column A: the name 12 has digits alone; a name with a letter was expected",
            "line 8, column A: the name \u0661 has digits alone; a name with a letter was expected",
            "line 10, column A: the name '\u00e9' stands in line 9 too; a name of its own was expected"])

    def test_hostile_names_go_through(self):
        for name in ("=cmd|' /C calc'!A0", "@SUM(1)", "<script>alert(1)</script>", "a\0b", "\u202eevil", "a\nb", "x" * 10_000, "'", "\\", "$(rm)", "%s", "{0}"):
            cell = '"' + name.replace('"', '""') + '"'
            self.assertEqual(tool.read((SETTINGS + HEADER + f"{cell},1,5\n").encode()).names(), [name])

    def test_empty_cells_and_lines(self):
        text = SETTINGS.replace("\n", ",,,\n") + ",,,\nname,length,period,\n,,,\na,1,5,\n\n , ,\t,\nb,2,6\n,,,,,,\n\n\n"
        self.assertEqual(words(text), "1 4 1 0 0 2 0 1 1 5 5 1 0 0 1 2 6 6 1".split())
        self.assertEqual(faults(SETTINGS + HEADER + "a\nb,,5\n"), ["line 4, column B: the length is empty; a time was expected", "line 4, column C: the period is empty; a time was expected",
                                                                  "line 5, column B: the length is empty; a time was expected"])
        self.assertEqual(faults(SETTINGS + HEADER), ["line 3: no task stands below the header; one or more were expected"])

    def test_33_tasks_go_through(self):
        self.assertEqual(len(words(SETTINGS + HEADER + "".join(f"t{k},1,5\n" for k in range(33)))), 236)

    def test_delimiters(self):
        text = "cores,4\nrule,greedy\ntick,0.25 ms\nname,length,period\nb,1 ms,5 ms\n"
        for delimiter in ";\t":
            self.assertEqual(words(text.replace(",", delimiter)), words(text))
        german = "cores;4\nrule;greedy\ntick;0,25 ms\nname;length;period\n\"a; b, c\";1,5 ms;5 ms\n"
        self.assertEqual(record(german)[3], "6")
        self.assertEqual(tool.read(german.encode()).names(), ["a; b, c"])


class Back(unittest.TestCase):
    def test_there_and_back(self):
        for path in sorted((ROOT / "tables").glob("*.txt")):
            text = path.read_bytes()
            try:
                made = sheet_back.sheet_of(text)
            except sheet_back.NoTable as none:
                self.assertTrue(path.name.startswith("h-"), (path.name, none))
                continue
            self.assertEqual(sheet_back.sheet_of(tool.read(made.encode()).text()), made, path.name)

    def test_form(self):
        text = b"3\n3\n1\n2\n1\n2\n0\n2\n2\n5\n5\n2\n0\n0\n2\n3\n5\n5\n1\n1\n0\n1\n4\n5\n5\n1\n"
        self.assertEqual(sheet_back.sheet_of(text), "cores,3\nrule,greedy\nfence,1 32\nname,priority,offset,width,second width,length,deadline,period\n"
                         "task 1,1,0,1,1,4,5,5\ntask 2,2,0,2,2,2,5,5\ntask 3,3,0,2,1,3,5,5\n")

    def test_what_is_no_table(self):
        for text, line in [(b"", "an empty file; a table was expected, one decimal number a line"), (b"x\n", "line 1: the letter x; a table was expected, one decimal number a line"),
                           (b"0\n3\n1\n0\n0\n", "line 1: the head is 0; 1 to 0, the number of the first record, is allowed"), (b"1\n3\n1\n0\n0\n", "line 1: the head is 1; there is no record"),
                           (b"1\n3\n1\n0\n0\n1\n0\n2\n2\n5\n5\n2\n", "line 6: next of record 1 is 1, and record 1 is on the chain already; next of the last is 0")]:
            with self.assertRaises(sheet_back.NoTable) as caught:
                sheet_back.sheet_of(text)
            self.assertEqual(caught.exception.lines, [line])


class Names(unittest.TestCase):
    names = ["camera", "row finder", "a,b", 'say "hi"']
    tick = sheet_times.tick_of("0.25 ms", sheet_times.Form())

    def test_operations(self):
        for line, expected in [("a 5", "a 5"), ("a camera", "a 1"), ('a camera,"row finder"', "a 3"), ('a "row finder" camera', "a 2 1"), ("a 0 camera", "a 0 1"), ('w "a,b"', "w 3"), ("w 3", "w 3"),
                               ('W camera,"say ""hi"""', "W 9"), ('s camera', "s 1"), ("r", "r"), ('r "camera"', "r 1"), ("a camera,camera", "a 1"), ("", ""), ("x camera", "x camera"), ("a  camera", "a  camera"), ('a "row', 'a "row'), ("a 1 2 3", "a 1 2 3")]:
            self.assertEqual(sheet_names.operation(line, self.names), expected)
        for line, wrong in [("a camera,5", "no task has the name '5'"), ("w display", "no task has the name 'display'"), ('w camera,"row finder"', "'camera,\"row finder\"' are several tasks, and w takes one; W takes several")]:
            with self.assertRaises(sheet_cells.Wrong) as caught:
                sheet_names.operation(line, self.names)
            self.assertEqual(str(caught.exception), wrong)

    def test_quoted_names_are_read_again(self):
        for at, name in enumerate(self.names, 1):
            self.assertEqual(sheet_names.operation(f"w {sheet_names.quoted(name)}", self.names), f"w {at}")

    def test_behind(self):
        for line, figures, expected in [("1 6", True, "1 6 camera 1.5 ms"), ("2 4000", True, '2 4000 "row finder" 1 s'), ("1 2", False, '1 2 camera "row finder"'), ("refused 13 0", True, "refused 13 0"), ("", True, "")]:
            self.assertEqual(sheet_names.behind(line, self.names, self.tick, figures), expected)
        self.assertEqual(sheet_names.behind("1 6", self.names, None, True), "1 6 camera")

    def test_sentence(self):
        said = "task 2 misses at tick 5 with 3 of 4 ticks; task 1 ran 2."
        self.assertEqual(sheet_names.sentence(said, self.names, self.tick), '"row finder" misses its deadline at 1.25 ms with 0.75 ms of 1 ms; camera ran 0.5 ms.')
        self.assertEqual(sheet_names.sentence(said, self.names, None), '"row finder" misses its deadline at tick 5 with 3 ticks of 4 ticks; camera ran 2 ticks.')
        self.assertIsNone(sheet_names.sentence("miss 5 2", self.names, None))


class Notes(unittest.TestCase):
    def noted(self, text, answer):
        return sheet_notes.notes_on(tool.read(text.encode()), answer)

    def test_cells(self):
        head = "cores,4\nrule,greedy\nfence,1\ntick,0.25 ms\nname,priority,width,length,deadline,period\n"
        for text, answer, note in [
            (head + "camera,2,0,1,5,5\nvalve,1,1,1,5,5\n", "refused 7 2", "line 6, column C: the width of camera (position 2) is 0; 1 to 3 (the unfenced cores) is allowed"),
            (head + "row finder,1,2/9,1,5,5\n", "refused 7 1", 'line 6, column C: the second width of "row finder" (position 1) is 9 (2/9); 1 to 3 (the unfenced cores) is allowed'),
            (head + "camera,1,1,1 ms,2 ms,1 ms\n", "refused 8 1", "line 6, column E: the deadline of camera (position 1) is 8 (2 ms); 1 to 4 (its period) is allowed"),
            (head + "camera,1,1,1,,0\n", "refused 8 1", "line 6, column F: the period of camera (position 1) is 0; 1 to 1,000,000 is allowed"),
            (head.replace("4", "0", 1) + "camera,1,1,1,,5\n", "refused 2 0", "line 1, column B: the core count is 0; 1 to 64 is allowed"),
            (head.replace("greedy", "9") + "camera,1,1,1,,5\n", "refused 3 0", "line 2, column B: the rule is 9; 1 (greedy), 2 (limited), 3 (idling) or 4 (lending) is allowed"),
            (head.replace("fence,1", "fence,1 40") + "camera,1,1,1,,5\n", "refused 19 0", "line 3, column B: the fence has core 40; cores 0 to 3 are allowed, and not all"),
            (head.replace("fence,1", "fence,0..3") + "camera,1,1,1,,5\n", "refused 19 0", "line 3, column B: the fence has all 4 cores; one must be left"),
            (head + "camera,1,1,99999999999,,5\n", "refused 1 0", "line 6, column D: the length of camera is 99999999999, more than ten digits"),
            (head + "camera,1,1,4294967296,,5\n", "refused 1 0", "line 6, column D: the length of camera is 4294967296, and the largest number is 4,294,967,295"),
            (head + "".join(f"t{k},{k + 1},1,1,,5\n" for k in range(33)), "refused 1 0", "line 38: 33 tasks, at most 32"),
            (head + "camera,1,2,1,,5\nvalve,2,1,1,,5\n", "refused 23 0", "line 6, column C: the width of camera (position 1) is 2 and the width of valve (position 2) is 1; slack is given under 1 (greedy) where no width is above one of the next"),
        ]:
            self.assertEqual(self.noted(text, answer), [note])
        self.assertEqual(self.noted(head + "camera,1,1,1,,5\n", "firm 0 5"), [])


if __name__ == "__main__":
    unittest.main()
