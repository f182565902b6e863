"""Sheets through ./sivorandra, for tests/outside/sheet: every mode, each fault, names behind lines, in lists, in pictures and on pages, and names that are hostile."""
import os
import pathlib
import re
import subprocess
import tempfile
import xml.etree.ElementTree as ElementTree

from oracle import ROOT, check, compare, program, stdout_of, table

FIRST = str(ROOT / "sivorandra")
CAB = ROOT / "examples" / "cab.csv"
WORK = pathlib.Path(tempfile.mkdtemp())
TOP, BODY = b"cores,4\nrule,greedy\ntick,0.25 ms\n", b"name,priority,offset,width,length,deadline,period\n"
QUESTIONS = ["", "--verdict", "--why", "--longest", "--bounds", "--spare", "--clash"]
MISS = b"cores,3\nrule,greedy\nfence,2\ntick,0.25 ms\n" + BODY + b'"row finder",2,0,2,5 ms,5 ms,5 ms\nsteering loop,1,0,1,2 ms,5 ms,10 ms\ncamera,4,0,1,1 ms,100 ms,100 ms\n"a ""b"", c",3,1 ms,1,0.25 ms,20 ms,20 ms\n'
HOSTILE = ["<script>alert(1)</script>", "</text><script>", "&amp; \"x\" 'y'", "]]><!--", "\x1b[31mred", "a\0b", "\u202egnp.exe", "\u2066x\u2069", "two\nlines", "x" * 3000, "=cmd|'/C calc'!A0", "\u6f22\u5b57" * 20, "e\u0301" * 9,
           "$(reboot)`id`", "%s%n{0}{position}", "\ufffe\U000e0001", "\u2028", "position 1"]


def run(*words, text=b"", **more):
    made = subprocess.run([FIRST, *map(str, words)], **{"input": text, **more}, capture_output=True, timeout=120)
    return made.returncode, made.stdout, made.stderr


def saved(name, data):
    path = WORK / name
    path.write_bytes(data)
    return path


def words_of(data):
    status, output, _ = run("--words", "-", text=data)
    assert status == 0
    return output


def noted(error):
    """Whether this is notes alone, lines of printable words."""
    return all(line.startswith("sivorandra: ") and line.isprintable() for line in error.decode("utf-8", "replace").split("\n")[:-1])


# ---- Questions: a sheet's answer is that of its words

def questions():
    for called, data in [("cab", CAB.read_bytes()), ("miss", MISS), ("a", run("--sheet-of", ROOT / "tables" / "a.txt")[1]), ("refused", MISS.replace(b"2,0,2,5 ms", b"2,0,9,5 ms"))]:
        words, upper = saved(f"{called}.txt", words_of(data)), saved(f"{called.upper()}.CSV", data)
        files = [saved(f"{called}.csv", data), upper, saved(f"{called}.Tsv", data)]
        for mode in QUESTIONS:
            expected = run(*mode.split(), words)
            for file in files:
                compare(f"{called} {mode} {file.name}", data, expected[:2], run(*mode.split(), file)[:2])
            for how in ["--sheet"], ["--sheet", "-"], ["--sheet", "/dev/stdin"]:
                compare(f"{called} {mode} {how}", data, expected[:2], run(*mode.split(), *how, text=data)[:2])
            compare(f"{called} {mode}, another name", data, expected[:2], run("--sheet", *mode.split(), saved("supplier.dat", data))[:2])
            status, _, error = run(*mode.split(), files[0])
            check(f"{called} {mode}: notes", noted(error) and bool(error) == (status == 2 or called == "miss" and mode in ("", "--verdict")), error)
        plan, moves = saved("plan", run(words)[1]), saved("list", b"a 1\na 0 0\ns\n")
        for mode in (["--check", plan], ["--replay", moves]):
            compare(f"{called} {mode[0]}", data, run(*mode, words)[:2], run(*mode, files[0])[:2])
        for mode in ("--picture", "--report", "--clash --picture", f"--picture --replay {moves}", f"--report --replay {moves}"):
            sheet, plain = run(*mode.split(), files[0]), run(*mode.split(), words)
            compare(f"{called} {mode}: the status", data, plain[0], sheet[0])
            ElementTree.fromstring(sheet[1].decode().replace("<!DOCTYPE html>\n", ""))
            cells = [re.findall(r'<rect x="\d+" y="\d+" width="\d+" height="1"/>', made[1].decode()) for made in (plain, sheet)]
            compare(f"{called} {mode}: the cells", data, *cells)
    compare("a row too many", b"", b"refused 1 0\n", run("--sheet", text=TOP + BODY + b"".join(b"t%d,%d,0,1,1,5,5\n" % (k, k + 1) for k in range(33)))[1])


def notes():
    cells = [("a width of 0", MISS.replace(b"2,0,2,5 ms", b"2,0,0,5 ms"), b"refused 7 2\n", "line 6, column D: the width of \"row finder\" (position 2) is 0; 1 to 2 (the unfenced cores) is allowed"),
             ("33 tasks", TOP + BODY + b"".join(b"t%d,%d,0,1,1,5,5\n" % (k, k + 1) for k in range(33)), b"refused 1 0\n", "line 37: 33 tasks, at most 32"),
             ("a rule", MISS.replace(b"rule,greedy", b"rule,9"), b"refused 3 0\n", "line 2, column B: the rule is 9; 1 (greedy), 2 (limited), 3 (idling) or 4 (lending) is allowed"),
             ("a deadline", MISS.replace(b"5 ms,5 ms\n", b"6 ms,5 ms\n"), b"refused 8 2\n", "line 6, column F: the deadline of \"row finder\" (position 2) is 24 (6 ms); 1 to 20 (its period) is allowed")]
    for name, data, answer, note in cells:
        for mode in "", "--verdict", "--longest":
            compare(f"{name} {mode}", data, (2, answer, f"sivorandra: {note}\n".encode()), run(*mode.split(), "--sheet", text=data))
        for mode in "--picture", "--report":
            status, output, error = run(mode, "--sheet", text=data)
            compare(f"{name} {mode}", data, (2, f"sivorandra: {note}\n".encode()), (status, error))
            check(f"{name} {mode}: no line of words is named", b"word 1" not in output and b"words 3 and 4" not in output, output[-2000:])
        page = run("--report", "--sheet", text=data)[1].decode()
        check(f"{name}: the page has the note", f"{note[0].upper()}{note[1:]}.".replace('"', "&quot;") in page or f"{note[0].upper()}{note[1:]}." in page, page[-3000:])
    compare("a miss", MISS, (1, b"miss 20 2\n", b'sivorandra: line 6: "row finder" (position 2) misses its deadline at 5 ms\n'), run("--verdict", "--sheet", text=MISS))
    ignored = CAB.read_bytes().replace(b"deadline,period\n", b"deadline,period,Comment\n")
    compare("an ignored column", ignored, (0, b"firm 1000 1600\n", b"sivorandra: line 6, column H: the column 'Comment' is ignored\n"), run("--verdict", "--sheet", text=ignored))


# ---- Faults: status 2, nothing on standard output, in every mode

def faults(known):
    moves, plan = saved("list", b"a 0\n"), saved("plan", b"0 0\n")
    modes = [*QUESTIONS, "--words", "--picture", "--clash --picture", "--report", f"--replay {moves}", f"--picture --replay {moves}", f"--report --replay {moves}", f"--check {plan}", "--longest --names"]
    for at, (name, data, expected) in enumerate(known):
        for mode in modes if at < 2 else [modes[at % len(modes)]]:
            status, output, error = run(*mode.split(), "--sheet", text=data)
            check(f"{name} {mode}: status 2, nothing on standard output, notes", (status, output) == (2, b"") and error and noted(error), f"{status} {output[:100]} {error[:300]}")
            if expected:
                compare(f"{name} {mode}", data[:200], f"sivorandra: {expected}\n", error.decode())
    compare("a sheet without an end", b"", (2, b"sivorandra: line 1: more than 1,000,000 bytes, and no sheet that is read is longer\n"), run("--sheet", input=None, stdin=open("/dev/zero", "rb"))[::2])
    largest = TOP + BODY + b"a,1,0,1,1,5,5\n" + b"\n" * (1_000_000 - len(TOP + BODY) - 14)
    compare("a sheet of 1,000,000 bytes", b"", (0, b"firm 0 5\n", b""), run("--verdict", "--sheet", text=largest))
    compare("one byte more", b"", 2, run("--verdict", "--sheet", text=largest + b"\n")[0])
    many = TOP + BODY + b"".join(b"t%d,%d,0,1,1,5,5\n" % (k, k + 1) for k in range(30_000))
    compare("30,000 tasks", b"", (2, b"refused 1 0\n", b"sivorandra: line 37: 30000 tasks, at most 32\n"), run("--sheet", text=many))
    page = run("--report", "--sheet", text=many)
    check("30,000 tasks: a page that is not large", page[0] == 2 and len(page[1]) < 100_000, f"{page[0]} {len(page[1])}")


def unread():
    for file, error in [("/nosuch.csv", "/nosuch.csv could not be read: No such file or directory"), ("/nosuch\x1b.csv", "/nosuch\\x1b.csv could not be read: No such file or directory")]:
        compare(f"{file!r}", b"", (3, b"", f"sivorandra: {error}\n".encode()), run(file))
    folder = WORK / "folder.csv"
    folder.mkdir()
    for mode in "", "--words", "--picture":
        compare(f"a folder {mode}", b"", (3, b"", f"sivorandra: {folder} could not be read: Is a directory\n".encode()), run(*mode.split(), folder))
        for how in "<&-", "</":
            made = subprocess.run(["bash", "-c", f"'{FIRST}' {mode} --sheet {how}"], capture_output=True)
            compare(f"{mode} {how}", b"", (3, b"", b"sivorandra: standard input could not be read\n"), (made.returncode, made.stdout, made.stderr))
        for how in ">&-", "> /dev/full":
            made = subprocess.run(["bash", "-c", f"'{FIRST}' {mode} '{CAB}' {how}"], capture_output=True)
            compare(f"{mode} {how}", b"", (3, b"", b"sivorandra: standard output could not be written\n"), (made.returncode, made.stdout, made.stderr))
    bare = WORK / "bare"
    bare.mkdir()
    for command in "bash cat dirname env find head readlink".split():
        found = subprocess.run(["which", command], capture_output=True, text=True).stdout.strip()
        if found:
            (bare / command).symlink_to(found)
    without = dict(os.environ, PATH=str(bare))
    compare("no python3", b"", (3, b"", b"sivorandra: python3 is missing, which sheets need; README.md, 'What is needed'\n"), run("--verdict", CAB, env=without))
    compare("no python3, words", b"", (0, b"full 0 5\n", b""), run("--verdict", ROOT / "tables" / "a.txt", env=without))
    for words in ["--names", "--names --longest tables/a.txt", "--names --why --sheet", "--names --clash --picture --sheet", "--sheet --sheet", "--words --verdict", "--words --sheet-of", "--sheet-of --sheet", "--sheet-of a b", "--words --names", "--sheet --help", "--names --version", "--words --from 1", "--replay - --sheet", "--sheet-of --names"]:
        status, output, error = run(*words.split(), text=CAB.read_bytes(), cwd=ROOT)
        check(f"wrong: {words}", (status, output) == (64, b"") and error.startswith(b"sivorandra: ") and b"\nusage: " in error, f"{status} {output[:100]} {error}")


# ---- Names

def behind():
    cab = [b"steering loop", b"valve control", b"GNSS", b"camera", b"row finder", b"display", b"logging"]
    for mode in "--longest", "--spare":
        plain, named = (run(mode, *more, CAB)[1].splitlines() for more in ((), ("--names",)))
        for line, told, name in zip(plain, named, cab):
            shown = b'"%s"' % name if b" " in name else name
            quarter = int(line.split()[1])
            compare(f"{mode} --names", line, b"%s %s %s ms" % (line, shown, b"%g" % (quarter / 4)), told)
        compare(f"{mode} --names: a line a task", b"", 7, len(named))
    compare("--clash --names", MISS, (0, b'1 2 "steering loop" "row finder"\n', b""), run("--clash", "--names", "--sheet", text=MISS))
    compare("--bounds --names, none", b"", (0, b"none\n", b""), run("--bounds", "--names", CAB))
    passes = b"cores,2\nrule,greedy\ntick,1 us\n" + BODY + b"a,1,0,1,1,9,9\nb c,2,0,1,2,9,9\n"
    plain, named = (run("--bounds", *more, "--sheet", text=passes)[1].splitlines() for more in ((), ("--names",)))
    compare("--bounds --names", passes, [b"%s %s %s us" % (line, name, line.split()[1]) for line, name in zip(plain, (b"a", b'"b c"'))], named)
    compare("--bounds --names: a line a task", passes, 2, len(named))
    untimed = passes.replace(b"tick,1 us\n", b"")
    compare("--longest --names without a tick", untimed, (0, b'1 1 a\n2 2 "b c"\n', b""), run("--longest", "--names", "--sheet", text=untimed))
    refused = run("--longest", "--names", "--sheet", text=MISS)
    compare("a refusal has no names", MISS, (2, b"refused 13 0\n"), refused[:2])


def there_and_back():
    for path in sorted((ROOT / "tables").glob("*.txt")):
        verdict = stdout_of([program("query")], b"bounds\n" + path.read_bytes()[:2520])
        status, output, error = run("--sheet-of", path)
        if verdict.startswith(b"refused"):
            compare(f"--sheet-of {path.name}", b"", (2, verdict), (status, output))
            check(f"--sheet-of {path.name}: a note", error and noted(error), error)
            continue
        again = run("--sheet-of", "-", text=words_of(output))
        compare(f"--sheet-of {path.name}: there and back", b"", (0, output), again[:2])
    compare("--sheet-of a table with the name of a sheet", b"", 0, run("--sheet-of", saved("words.csv", table("a.txt")))[0])


def lists():
    words = saved("miss.txt", words_of(CAB.read_bytes()))
    for named, numbers in [(b'a camera,"steering loop"\na 0 0\nw display\nW "row finder",logging\nr\ns\n', b"a 9\na 0 0\nw 6\nW 80\nr\ns\n"), (b"a 1 0\na camera\n", b"a 1 0\na 8\n"), (b'a "valve control" 0\n', b"a 2 0\n")]:
        expected = run("--replay", saved("numbers", numbers), words)
        compare("a list with names", named, expected[:2], run("--replay", saved("named", named), CAB)[:2])
        compare("a list with names, from standard input", named, expected[:2], run("--replay", "-", CAB, text=named)[:2])
        for mode in "--picture", "--report":
            made = [run(mode, "--replay", saved("the list", moves), CAB) for moves in (named, numbers)]
            compare(f"{mode}: a list with names", named, *made)
    for line, note in [(b"a cmaera", "no task has the name 'cmaera'"), (b"w camera,display", "'camera,display' are several tasks, and w takes one; W takes several"), (b"a \xff", None), (b'a "camera', None), (b"a camera\r", None), ("a \u202ex".encode(), None)]:
        data = b"a 0\n" + line + b"\na 0\n"
        for mode in "--replay", "--picture --replay":
            status, output, error = run(*mode.split(), "-", CAB, text=data)
            check(f"{mode} {line}: 2 and a note", status == 2 and noted(error) and b"line 2: " in error and (b"taken" in output or mode != "--replay"), f"{status} {output[-100:]} {error}")
            if note:
                compare(f"{mode} {line}", data, f"sivorandra: the list: line 2: {note}\n", error.decode())
        status, output, error = run("--report", "--replay", "-", CAB, text=data)
        check(f"a page with {line}", status == 2 and noted(error) and b"line 2: " in error and b"What the list does" in output, f"{status} {error}")
    compare("names stand for nothing where the table is words", b"", 2, run("--replay", "-", words, text=b"a camera\n")[0])


def drawn():
    picture, page = run("--picture", "--sheet", text=MISS)[1].decode(), run("--report", "--sheet", text=MISS)[1].decode()
    for words in ("Miss: the task at position 2 (row finder) misses its deadline at tick 20 (5 ms)", "A tick is 0.25 ms.", ">1 steering loop<", ">2 row finder<", ">4 camera<", "had 16 of 20 (4 ms of 5 ms)" if "had 16" in picture else "had "):
        check(f"a picture says {words}", words in picture, picture[:1500])
    for words in ("position 2 (row finder)", "tick 20 (5 ms)", "0.25 ms", "line 6 of the sheet", ">row finder</b>", "position 1, line 7 of the sheet", "without position 1 (steering loop)", "The sheet as it was read: cores 3, rule greedy, fence 2, a tick of 0.25 ms"):
        check(f"a page says {words}", words in page, page[-6000:])
    said = run("--why", "--sheet", text=MISS)[1].decode().strip()
    sentences = re.findall(r'<blockquote id="(sentence(?:-names)?)">(.*?)</blockquote>', page)
    compare("the sentence as it is", MISS, ("sentence", said), sentences[0])
    check("and below it with names", sentences[1][0] == "sentence-names" and sentences[1][1].startswith('"row finder" misses its deadline at 5 ms with ') and "steering loop" in sentences[1][1], sentences)
    accepted = run("--report", CAB)[1].decode()
    for words in ("steering loop", "1,000 (250 ms)", "(1.5 ms of 5 ms)", "(3.5 ms)", "48 (12 ms)", "row finder"):
        check(f"the page of the cab says {words}", words in accepted, "")
    clash = run("--clash", "--picture", "--sheet", text=MISS)[1].decode()
    check("the clash by names", "The conflict of positions 1 (steering loop) and 2 (row finder) alone" in clash, clash[:600])


def hostile():
    """Names of any characters: what is printed is well formed, runs nothing, and hides nothing."""
    marks = re.compile("[\x00-\x08\x0b-\x1f\x7f\u2028\u2029\u202a-\u202e\u2066-\u2069\ufffe\U000e0001]")
    for at, name in enumerate(HOSTILE):
        quoted = '"' + name.replace('"', '""') + '"'
        for kind, rest in ("accepted", ",1,0,1,1,5,5\n"), ("miss", ",1,0,1,9,5,5\n"), ("refused", ",1,0,0,1,5,5\n"):
            data = TOP + BODY + (quoted + rest).encode() + b"b,2,0,1,1,5,5\n"
            for mode in "--picture", "--report", "--clash --picture":
                status, output, error = run(*mode.split(), "--sheet", text=data)
                text = output.decode()
                tree = ElementTree.fromstring(text.replace("<!DOCTYPE html>\n", ""))
                tags = {element.tag.rpartition("}")[2] for element in tree.iter()}
                check(f"name {at}, {kind} {mode}: no script, no raw marks", status in (0, 1, 2) and "script" not in tags and not marks.search(text) and noted(error), f"{status} {tags} {marks.findall(text)} {error[:300]}")
                check(f"name {at}, {kind} {mode}: it is not long", len(text) < 200_000, len(text))
            for mode in "--verdict", "--longest --names", "--clash --names":
                status, output, error = run(*mode.split(), "--sheet", text=data)
                check(f"name {at}, {kind} {mode}: it can be shown", status in (0, 1, 2) and not marks.search(output.decode()) and output.endswith(b"\n") and noted(error), f"{status} {output[:200]} {error[:300]}")
            if kind == "accepted" and "\n" not in name:
                compare(f"name {at} in a list", data, b"0 a 1 taken", run("--replay", "-", saved("hostile.csv", data), text=f"a {quoted}\n".encode())[1].splitlines()[2])


def through_the_front(known):
    for part in questions, notes, unread, behind, there_and_back, lists, drawn, hostile:
        part()
    faults(known)
