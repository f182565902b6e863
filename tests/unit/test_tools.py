"""Pictures and pages by their parts: tables, what programs print, the ticks that are shown, lists, texts, SVG, pages. python3 -m unittest tests/unit/test_tools.py"""
import io
import pathlib
import sys
import unittest

ROOT = pathlib.Path(__file__).resolve().parents[2]
sys.path.insert(0, str(ROOT / "tools"))
import answers  # noqa: E402
import as_json  # noqa: E402
import chart  # noqa: E402
import compare  # noqa: E402
import inputs  # noqa: E402
import listed  # noqa: E402
import notes  # noqa: E402
import page  # noqa: E402
import picture  # noqa: E402
import printed  # noqa: E402
import report_changes  # noqa: E402
import report_parts  # noqa: E402
import report_refused  # noqa: E402
import span  # noqa: E402
import svg  # noqa: E402
import system  # noqa: E402
import table as tables  # noqa: E402
import texts  # noqa: E402
from system import Declined, Trouble, USAGE  # noqa: E402

A = (ROOT / "tables" / "a.txt").read_bytes()
TABLE = tables.table_of(A)


def source(text):
    return io.BufferedReader(io.BytesIO(text))


class Tables(unittest.TestCase):
    def test_a_table(self):
        self.assertEqual((TABLE.cores, TABLE.rule, TABLE.fenced, TABLE.records), (3, 1, frozenset(), [1, 2, 3]))
        self.assertEqual(TABLE.tasks[2], tables.Task(O=0, v=1, C=4, D=5, T=5, w=1))
        self.assertEqual(list(TABLE.drawn), [1, 2, 3])
        self.assertEqual(TABLE.of_clash([2, 3]).drawn, [2, 3])

    def test_a_fence_in_both_words(self):
        self.assertEqual(tables.table_of(b"0\n40\n1\n5\n2\n").fenced, {0, 2, 33})

    def test_relinked(self):
        words = tables.relinked(A, TABLE.records, [3, 1]).split()
        self.assertEqual((words[0], words[19], words[5]), (b"3", b"1", b"0"))
        self.assertEqual([task.C for task in tables.table_of(tables.relinked(A, TABLE.records, [3, 1])).tasks], [4, 2])

    def test_sets(self):
        self.assertEqual([tables.places(one) for one in (0, 1, 6, 1 << 31)], [[], [1], [2, 3], [32]])


class Printed(unittest.TestCase):
    def test_verdicts(self):
        self.assertEqual(printed.verdict_in(b"full 0 5\n"), printed.Verdict("full", 0, 5))
        self.assertEqual([printed.Verdict(word, 3, 4).rows for word in ("firm", "full", "miss")], [7, 7, 3])
        self.assertEqual(str(printed.Verdict("miss", 3, 4)), "miss 3 4")

    def test_what_is_no_verdict(self):
        for line in (b"", b"full 0", b"full 0 x\n", b"full 0 5 1\n", b"good 0 5\n", b"\xff 0 5\n"):
            with self.assertRaises(Trouble, msg=line):
                printed.verdict_in(line)

    def test_refusals(self):
        self.assertEqual(printed.numbers_in(b"refused 7 2"), (7, 2))
        for line in (b"refused 7", b"refused x 2", b"ok", b""):
            with self.assertRaises(Trouble, msg=line):
                printed.numbers_in(line)

    def test_rows(self):
        rows = b"0 1 1 3\n1 1 1 3\n2 2 2 3\n3 2 2 3\n4 2 2 0\n"
        self.assertEqual(printed.rows_of(source(rows), 1, 3, TABLE), ([[1, 1, 3], [2, 2, 3]], 0))
        self.assertEqual(printed.rows_of(source(rows), 3, 5, TABLE, (1, 2))[1], 3)  # those before the stretch too
        for wrong in (b"0 1 1\n", b"1 1 1 3\n", b"0 1 1 4\n", b""):
            with self.assertRaises(Trouble, msg=wrong):
                printed.rows_of(source(wrong), 0, 1, TABLE)
        with self.assertRaises(printed.TooLong):
            printed.rows_of(source(rows), 3, 5, TABLE, until=0)

    def test_rows_of_a_conflict_have_its_positions(self):
        self.assertEqual(printed.rows_of(source(b"0 1 1 2\n"), 0, 1, TABLE.of_clash([2, 3]))[0], [[2, 2, 3]])

    def test_lines_after(self):
        text = b"".join(b"%d\n" % line for line in range(100_000))
        self.assertEqual(next(printed.lines_after(source(text), 99_990)).strip(), b"99990")
        self.assertEqual(list(printed.lines_after(source(b"a\nb\nc\n"), 1)), [b"b", b"c"])

    def test_figures(self):
        self.assertEqual(printed.figures_in(b"1 2\n2 4\n3 4\n", TABLE), [2, 4, 4])
        self.assertEqual(printed.figures_in(b"refused 23 0\n", TABLE), 23)
        self.assertIsNone(printed.bounds_in(b"none\n", TABLE))
        for said in (b"1 2\n2 4\n", b"1 2\n3 4\n2 4\n", b"1 x\n2 4\n3 4\n", b""):
            with self.assertRaises(Trouble, msg=said):
                printed.figures_in(said, TABLE)
        with self.assertRaises(Trouble):
            printed.bounds_in(b"refused 8 1\n", TABLE)

    def test_conflicts(self):
        self.assertEqual(printed.clash_in("1 3\n", TABLE).clash, [1, 3])
        for said in ("", "3 1", "1 1", "4"):
            with self.assertRaises(Trouble, msg=said):
                printed.clash_in(said, TABLE)


class Spans(unittest.TestCase):
    def test_where_none_are_asked(self):
        found = [span.stretch(printed.Verdict(*one)) for one in (("miss", 7, 1), ("miss", 250, 1), ("full", 3, 5), ("full", 300, 50), ("firm", 2, 500))]
        self.assertEqual([(one.start, one.end) for one in found], [(0, 7), (150, 250), (0, 8), (300, 350), (2, 102)])

    def test_asked(self):
        self.assertEqual([(one.start, one.end, bool(one)) for one in (span.Asked(), span.Asked(5), span.Asked(None, 150), span.Asked(3, 4))], [(0, 100, False), (5, 105, True), (51, 151, True), (3, 5, True)])
        self.assertEqual(span.Asked(0, 499).within(500, "there are").what, "the first 100 of the 500 ticks asked for")
        for asked in (lambda: span.Asked(4, 3), lambda: span.Asked(5).within(5, "there are"), lambda: span.Asked(None, 1).within(1, "there are")):
            with self.assertRaises(Declined) as declined:
                asked()
            self.assertEqual(declined.exception.status, USAGE)

    def test_in_words(self):
        self.assertEqual([span.Span(0, end, "").shown(count) for end, count in ((1, 1), (5, 5), (1, 9), (5, 2000))], ["Tick 0, the only one", "Ticks 0 to 4, all 5", "Tick 0, one of 9", "Ticks 0 to 4 of 2,000"])


class Lists(unittest.TestCase):
    def test_operations(self):
        for line, found in ((b"a 1", ("a", 1, 0)), (b"a 1 2", ("a", 1, 2)), (b"r", ("r",)), (b"s 4", ("s", 4)), (b"w 2", ("w", 2)), (b"W 6", ("W", 6))):
            self.assertEqual(listed.operation_in(line), found)
        for line in (b"", b"a", b"a x", b"a 1 2 3", b"w", b"w 1 2", b"a 4294967296", b"a  1", b"a 1 ", b"r\r", b"A 1"):
            self.assertIsNone(listed.operation_in(line), line)

    def test_the_first_line_that_is_no_operation_is_the_last(self):
        self.assertEqual([line for part in listed.parts(io.BytesIO(b"a 0\nx\na 0\n")) for line in part], [b"a 0", b"x"])
        self.assertEqual([len(part) for part in listed.parts(io.BytesIO(b"a 0\n" * 450))], [200, 200, 50])

    def test_what_is_sent(self):
        sent = [listed.asking(line, listed.operation_in(line)) for line in (b"a 1", b"a 1 2", b"r", b"r 2", b"s", b"w 1", b"x")]
        self.assertEqual(sent, [b"a 1\nr\n", b"r 2\na 1 2\nr\n", b"", b"r 2\n", b"", b"w 1\nr\n", b"x\nr\n"])

    def test_a_job_that_ends_early(self):
        run = listed.Listed(TABLE, span.Asked())
        run.row(b"row 1 1 3")
        run.taken(1, b"row 2 2 3")
        self.assertEqual((run.tick, run.ended, run.unused, run.rows), (1, [(0, 1, 1)], [(1, 1, 2)], [[1, 1, 3], [2, 2, 3]]))
        with self.assertRaises(Trouble):
            run.taken(1, b"row 2 2 3")  # position 1 has no core

    def test_a_late_job(self):
        run = listed.Listed(TABLE, span.Asked())
        for line in (b"row 1 1 3", b"refused 15 3"):
            run.row(line) if not run.rows else run.taken(0, line)
        self.assertEqual((run.late, run.marks), ((1, 3, 0), {1: 15}))
        with self.assertRaises(Trouble):
            run.row(b"refused 16 3")


class Texts(unittest.TestCase):
    def test_every_number_of_a_table_has_a_text_and_a_remedy(self):
        judging = {1, 2, 3, 4, 5, 6, 7, 8, 9, 19}
        self.assertLessEqual(judging | {13}, texts.REFUSALS.keys() & texts.REMEDIES.keys())
        self.assertLessEqual(texts.SHEET_REFUSALS.keys(), texts.SHEET_REMEDIES.keys())
        self.assertLessEqual(texts.MISTAKES.keys(), texts.REMEDIES.keys())

    def test_numbers_in_words(self):
        self.assertEqual([texts.number_of(count, "tick") for count in (0, 1, 2, 2000)], ["0 ticks", "1 tick", "2 ticks", "2,000 ticks"])

    def test_rules(self):
        self.assertEqual(texts.RULES.keys(), texts.RULE_WORDS.keys())
        self.assertEqual(notes.RULES_ALLOWED, "1 (greedy), 2 (limited), 3 (idling) or 4 (lending)")

    def test_a_line_that_is_no_operation(self):
        self.assertEqual([texts.stands(line) for line in (b"", b"x", b"a 1\r", b"\xff")], ["an empty line", "'x'", "'a 1\\r' (Windows line ends)", "'\\xff'"])


class Drawn(unittest.TestCase):
    def test_runs(self):
        self.assertEqual(list(chart.runs([1, 1, 0, 2, 2], 0, TABLE.tasks)), [(1, 0, 2), (2, 3, 2)])
        self.assertEqual(list(chart.runs([1, 1], 4, TABLE.tasks)), [(1, 0, 1), (1, 1, 1)])  # a new job

    def test_moments(self):
        task = tables.Task(2, 1, 1, 3, 5, 1)
        self.assertEqual([list(chart.moments(task, after, 6, 20)) for after in (0, 3)], [[7, 12, 17], [10, 15, 20]])

    def test_colours_are_read_well(self):
        for position in range(1, 33):
            fill, ink = svg.colour(position)
            light = sorted(svg.luminance(*(int(one[at:at + 2], 16) / 255 for at in (1, 3, 5))) for one in (fill, ink.replace("#000", "#000000").replace("#fff", "#ffffff")))
            self.assertGreater((light[1] + 0.05) / (light[0] + 0.05), 4.5, position)

    def test_what_is_shown_is_escaped(self):
        sheet = svg.Sheet("t-")
        sheet.add("text", "<a & b>", id="x", fill="url(#hatch)", data='"')
        self.assertEqual(sheet.parts, ["<text id=\"t-x\" fill=\"url(#t-hatch)\" data='\"'>&lt;a &amp; b&gt;</text>"])
        self.assertEqual(page.element("p", "<b>", page.Html("<b/>"), None, class_="x", id=None), '<p class="x">&lt;b&gt;<b/></p>')
        self.assertEqual(page.printable("a\0\ud800\ufffe"), "a\\x00\\ud800\\ufffe")

    def test_a_bar_of_nothing(self):
        self.assertEqual(page.bar(5, [(0, "busy")]).count("<rect"), 1)

    def test_longest_jobs(self):
        rows = [[1, 1, 3], [1, 1, 3], [2, 2, 3], [2, 2, 3], [2, 2, 0]]
        self.assertEqual(picture.longest_jobs([2, 5, 4], TABLE, 0, rows), {1: 0, 2: 0, 3: 0})


class Pages(unittest.TestCase):
    def test_orders(self):
        self.assertEqual([report_changes.order_words(order) for order in ([1, 2, 3, 4], [2, 1, 3], [4, 1, 2, 3])], ["1 to 4", "2, 1, 3", "4, 1 to 3"])

    def test_lines_of_a_table(self):
        self.assertEqual([report_refused.line_words(line) for line in (1, 3, 5, 6, 12, 13)], ["head: the first record", "rule", "fence, cores 32 to 63", "next of record 1", "w of record 1", "next of record 2"])
        self.assertEqual([report_refused.shown_line(line, 4) for line in (b"", b"12", b"\xff", b"12345")], ["(an empty line)", "12", "\\xff", "1234\u2026"])

    def test_a_task_in_words(self):
        self.assertEqual(report_parts.width_words(tables.Task(0, 1, 1, 1, 1, 2)), "1 core in odd jobs and 2 in even ones")
        self.assertEqual(report_parts.task_words(TABLE.tasks[2]), "1 core for 4 ticks, every 5 ticks from tick 0, due 5 ticks after release")

    def test_how_many_ticks_a_picture_has(self):
        self.assertEqual(report_parts.most(TABLE, 1), report_parts.SHOWN)
        wide = tables.Table(64, 1, frozenset(), TABLE.tasks * 10, [1] * 30)
        self.assertLess(report_parts.most(wide, 2), report_parts.most(wide, 1))


class Objects(unittest.TestCase):
    def test_answers_that_are_missing(self):
        self.assertEqual([as_json.plain(one) for one in (5, None, answers.Refused(23, 0), answers.NotWaited(20))], [5, None, {"refused": 23, "position": 0}, {"not_waited_for": 20}])
        self.assertEqual([str(one) for one in (answers.Refused(13, 0), answers.NotWaited(20))], ["refused 13", "not waited for"])

    def test_verdicts(self):
        self.assertEqual([as_json.verdict_of(printed.Verdict(word, 1, 2)) for word in ("firm", "miss", "refused")],
                         [{"word": "firm", "start": 1, "period": 2}, {"word": "miss", "tick": 1, "position": 2}, {"word": "refused", "number": 1, "position": 2}])

    def test_names_of_files(self):
        self.assertEqual([as_json.name_of(name) for name in ("-", "a\nb", "\udcff")], [None, "a\nb", "\\xff"])

    def test_sentences(self):
        self.assertEqual(answers.sentence_in(b"task 3 misses at tick 5 with 3 of 4 ticks.\n"), "task 3 misses at tick 5 with 3 of 4 ticks.")
        for said in (b"full 0 5\n", b"miss 5 3\n", b""):
            with self.assertRaises(Trouble):
                answers.sentence_in(said)

    def test_records_on_no_chain(self):
        loose = A.replace(b"1\n3\n1\n0\n0\n2\n", b"1\n3\n1\n0\n0\n0\n", 1)
        self.assertEqual(notes.strict_note(loose), "line 6: next of record 1 is 0 and ends the chain; records 2, 3 are on no chain (--strict)")
        self.assertIsNone(notes.strict_note(A))

    def test_one_place_names_programs(self):
        self.assertEqual(system.asked("bin", "longest", b"1\n"), (["bin/query"], b"longest\n1\n"))
        self.assertEqual(system.asked("bin", "rows", b"1\n"), (["bin/sivorandra"], b"1\n"))


class Releases(unittest.TestCase):
    def test_tasks_by_position(self):
        shorter = tables.table_of(tables.relinked(A, TABLE.records, [1, 2]))
        self.assertEqual([(pair.old, pair.new) for pair in compare.pairs_of(TABLE, shorter)], [(1, 1), (2, 2), (3, None)])
        self.assertEqual([str(line) for pair in compare.pairs_of(shorter, TABLE) for line in compare.task_lines(pair, shorter, TABLE)], ["position 3 came"])

    def test_lines(self):
        self.assertEqual([str(line) for line in (compare.Line("x"), compare.Line("x", "1", "2"))], ["x", "x: 1 -> 2"])

    def test_cores(self):
        read = compare.cells_by(TABLE, compare.pairs_of(TABLE, TABLE), "new")
        self.assertEqual(sorted(read(b"1 1 3")), [(0, 0), (0, 1), (2, 2)])
        self.assertEqual([compare.cores_words(read(b"1 1 3"), index) for index in (0, 1, 2)], ["cores 0 1", "no core", "core 2"])
        with self.assertRaises(Trouble):
            read(b"1 1 9")

    def test_a_table_by_its_file(self):
        given = inputs.read(str(ROOT / "tables" / "a.txt"))
        self.assertEqual((given.table, given.sheet, len(given.digest)), ((ROOT / "tables" / "a.txt").read_bytes(), None, 64))
        self.assertEqual(inputs.read(str(ROOT / "examples" / "cab.csv")).sheet.names()[3], "camera")
        with self.assertRaises(Declined):
            inputs.read(str(ROOT / "nosuch"))


if __name__ == "__main__":
    unittest.main()
