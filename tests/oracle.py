"""What the outside tests share: paths, the simulator by another hand, the vectors, and the count that is the last line of each."""
import contextlib
import os
import pathlib
import re
import subprocess
import sys
import tempfile

ROOT = pathlib.Path(__file__).resolve().parents[1]
MOST_SHOWN = 300  # bytes of anything that a failing test shows
BLOCK = 1 << 16
MOST_WORDS = 229  # of a table
STAGE = "114"  # the last request that changes what is read or printed
passed = failed = 0


def program(name):
    return str(ROOT / "target" / "bin" / name)


def table(name):
    return (ROOT / "tables" / name).read_bytes()


def stdout_of(command, text):
    return subprocess.run(command, input=text, capture_output=True, timeout=60).stdout


def first_line(command, text):
    """The first line that a command prints for a text. It is stopped there, even if rows follow."""
    with subprocess.Popen(command, stdin=subprocess.PIPE, stdout=subprocess.PIPE) as process:
        process.stdin.write(text)
        process.stdin.close()
        return process.stdout.readline()


def text_of(words):
    """Words as a table's text."""
    return b"".join(b"%d\n" % word for word in words)


def words_of(text):
    """The words of a table's text; none where it is no text of a table."""
    lines = text.removesuffix(b"\n").split(b"\n") if text else []
    if len(lines) > MOST_WORDS or not all(re.fullmatch(rb"[0-9]{1,10}", line) and int(line) < 2**32 for line in lines):
        return []
    return [int(line) for line in lines]


class Library:
    """The calls of a program of tests/library over the Rust bindings, built in a folder: a line asks, a line answers."""

    def __init__(self, work, name):
        subprocess.run([str(ROOT / "tools" / "archive")], check=True)
        build = ["rustc", "--edition", "2021", "-D", "warnings", "-L", f"native={ROOT / 'target' / 'staticlib'}"]
        subprocess.run([*build, "--crate-type", "rlib", "--crate-name", "sivorandra", "--cfg", 'feature="std"', "--out-dir", work, str(ROOT / "bindings" / "rust" / "src" / "lib.rs")], check=True)
        subprocess.run([*build, "--extern", f"sivorandra={work}/libsivorandra.rlib", "-o", f"{work}/calls", str(ROOT / "tests" / "library" / f"{name}.rs")], check=True)
        self.run = subprocess.Popen([f"{work}/calls"], stdin=subprocess.PIPE, stdout=subprocess.PIPE)

    def call(self, *words):
        self.run.stdin.write(b" ".join(word if isinstance(word, bytes) else b"%d" % word for word in words) + b"\n")
        self.run.stdin.flush()
        return self.run.stdout.readline()


@contextlib.contextmanager
def simulator():
    """The first words of a command of tests/gangsim.rs, built: its path, and the last request that it is to follow."""
    with tempfile.TemporaryDirectory() as work:
        built = os.path.join(work, "gangsim")
        subprocess.run(["rustc", "--edition", "2021", "-O", "-o", built, str(ROOT / "tests" / "gangsim.rs")], check=True, stderr=subprocess.DEVNULL)
        yield [built, "--stage", STAGE]


def vectors(*kinds):
    """The name, the input and the output of each vector of these kinds."""
    folder = ROOT / "tests" / "vectors"
    for line in (folder / "INDEX").read_text().splitlines():
        name, its = line.split()[:2]
        if its in kinds:
            yield f"vector {name}", (folder / f"{name}.in").read_bytes(), (folder / f"{name}.out").read_bytes()


def cut(text):
    """A text as a failing test shows it: at most 300 bytes."""
    shown = repr(text[:MOST_SHOWN]) if isinstance(text, (bytes, str)) else repr(text)[:MOST_SHOWN]
    return shown + (f" and {len(text) - MOST_SHOWN} more" if isinstance(text, (bytes, str)) and len(text) > MOST_SHOWN else "")


def difference(expected, got):
    """Where two texts first differ: the number of the line, and that line of each."""
    if not (isinstance(expected, bytes) and isinstance(got, bytes)):
        return f"expected {cut(expected)}, got {cut(got)}"
    at = 0
    while at < min(len(expected), len(got)) and expected[at:at + BLOCK] == got[at:at + BLOCK]:
        at += BLOCK
    at += len(os.path.commonprefix([expected[at:at + BLOCK], got[at:at + BLOCK]]))
    start = expected.rfind(b"\n", 0, at) + 1
    line = expected.count(b"\n", 0, at) + 1
    lines = [cut(text[start:].split(b"\n", 1)[0]) if start < len(text) else "the end" for text in (expected, got)]
    return f"line {line}: expected {lines[0]}, got {lines[1]}"


def check(name, holds, why=""):
    global passed, failed
    if holds:
        passed += 1
    else:
        failed += 1
        print(f"{name}: {why if len(why) <= 12 * MOST_SHOWN else cut(why)}")


def compare(name, text, expected, got):
    check(name, expected == got, f"{difference(expected, got)}, for {cut(text)}")


def case(answer):
    """The case of an answer's first line: its word, and the number of a refusal."""
    return b" ".join(answer.split()[: 2 if answer.startswith(b"refused") else 1]).decode()


def occur(cases, words, more=""):
    """Prints how often each case came, and checks that each word did."""
    print("answers: " + ", ".join(f"{word} {count}" for word, count in sorted(cases.items())) + more)
    for word in words:
        check(f"the answer {word} occurs", cases[word] > 0, "not once")


def finish():
    print(f"{passed} passed, {failed} failed")
    sys.exit(failed != 0)
