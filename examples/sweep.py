"""How much faster may the camera run before the table misses? Sweeps the period of a task of a sheet, and draws the response times where matplotlib is there.

    python3 examples/sweep.py [SHEET [TASK]]
"""
import pathlib
import sys

HERE = pathlib.Path(__file__).resolve().parent
sys.path[1:1] = [str(HERE.parent / path) for path in ("bindings/python", "share/sivorandra/python")]  # of a clone and of a package, where it is not installed
import sivorandra  # noqa: E402


def swept(table: sivorandra.Table, position: int):
    """Shorter and shorter periods down to the first that misses: each with its verdict, or its refusal, and the response times."""
    deadline = table.tasks[position - 1].words[3]
    for period in range(table.tasks[position - 1].period, 0, -4):
        changed = table.with_task(position, period=period, deadline=min(period, deadline))
        try:
            verdict = changed.judge()
        except sivorandra.Refusal as refusal:
            yield period, refusal, None
            continue
        yield period, verdict, changed.response_times() if verdict.accepted else None
        if not verdict.accepted:
            return


def main(sheet: str = str(HERE / "cab.csv"), name: str = "camera") -> None:
    table = sivorandra.read(sheet)
    position = [task.name for task in table.tasks].index(name) + 1
    found = list(swept(table, position))
    for period, verdict, times in found:
        print(f"period {period}: {verdict}" + (f", response times {times}" if times else ""))
    fits = [(period, times) for period, _, times in found if times]
    print(f"{name} may run every {fits[-1][0]} ticks, not only every {fits[0][0]}")
    try:
        from matplotlib import pyplot
    except ImportError:
        return
    for task, times in zip(table.tasks, zip(*(times for _, times in fits))):
        pyplot.plot([period for period, _ in fits], times, marker=".", label=task.name)
    pyplot.xlabel(f"period of {name}, in ticks")
    pyplot.ylabel("response times, in ticks")
    pyplot.legend(loc="center left", bbox_to_anchor=(1, 0.5))
    pyplot.savefig("sweep.svg", bbox_inches="tight")


main(*sys.argv[1:])
