"""What the measurements share: programs built, heavy tables, and the least processor time of several runs."""
import contextlib
import os
import pathlib
import resource
import subprocess
import sys
import tempfile

HERE = pathlib.Path(__file__).resolve().parent
ROOT = HERE.parent


def program(name):
    """A program of this repository, proved and built where it is missing."""
    path = ROOT / "target" / "bin" / name
    if not path.exists():
        subprocess.run([str(ROOT / "tools" / "build")], check=True)
    return str(path)


def rust(source, work, *more):
    """A plain Rust program, built with optimisation."""
    path = os.path.join(work, source.stem)
    subprocess.run(["rustc", "--edition", "2021", "-O", "-o", path, str(source), *more], check=True, stderr=subprocess.DEVNULL)
    return path


def library():
    """The library to link, proved and built where it is missing or older than the sources."""
    subprocess.run([str(ROOT / "tools" / "archive")], check=True)
    return str(ROOT / "target" / "staticlib" / "libsivorandra.a")


@contextlib.contextmanager
def heavy(*parts):
    """The simulator and the baseline, and the paths of the heavy tables, in a temporary folder; in folders beside them the tables of other parts. `three` gives the path of the simulator's own form of one."""
    with tempfile.TemporaryDirectory() as work:
        gangsim, baseline = rust(HERE / "simulator.rs", work), rust(HERE / "baseline.rs", work)
        tables = pathlib.Path(work) / "tables"
        subprocess.run([sys.executable, str(HERE / "tables.py"), str(tables), gangsim, baseline, *parts], check=True)
        yield gangsim, baseline, sorted(tables.glob("*.txt"))


def three(path):
    """The table of the same tasks on just the unfenced cores, with three header words and records of six: what the simulator reads, and the format before there was a fence."""
    return path.parent / "three" / path.name


def six(path):
    """The same table with records of six words, the format before second widths."""
    return path.parent / "six" / path.name


def spent():
    """The processor time of the programs that have ended, user and system."""
    children = resource.getrusage(resource.RUSAGE_CHILDREN)
    return children.ru_utime + children.ru_stime


def run(command, path, out):
    before = spent()
    with open(path, "rb") as table:
        said = subprocess.run(command, stdin=table, stdout=out, check=True).stdout
    return spent() - before, said


def best(runs, command, path, out=subprocess.DEVNULL):
    """The least processor time of a command on a table, and its output."""
    return min((run(command, path, out) for _ in range(runs)), key=lambda pair: pair[0])


def row(*cells):
    """A line of a table in Markdown."""
    print("| " + " | ".join(f"{cell:.2f}" if isinstance(cell, float) else cell for cell in cells) + " |", flush=True)


def head(*cells):
    row(*cells)
    row(*("---" for _ in cells))
