#!/usr/bin/env python3
"""Tables for measuring, all accepted.

    bench/tables.py DIR GANGSIM BASELINE [pairs box longer more]

DIR/RULE-KIND.txt: heavy ones of 32 tasks, 64 cores and a horizon of up to 10,000,000, for each rule with short, long and mixed periods and with slow ones, of 10,000 ticks and more. 'early' in a name:
deadlines come before the period's end. 'fenced': 10 of the cores are. Their tasks have one width. The reference simulator picks one that fits. It reads tables of three header words and records of six,
from before there was a fence: it has the same tasks on just the unfenced cores, in DIR/three/. DIR/six/ has their form from before second widths.

The other folders are made if they are named. DIR/pairs/: the same with a second width for every third task, so with twice the horizon, which the baseline picks. DIR/box/: 30 tasks with periods of 500 to 20,000 ticks and a horizon near 1,000,000,000, which the baseline picks.
DIR/longer/: one table, and the same with all its numbers of ticks times 10 and times 100. DIR/more/: 27 tasks, and up to three more of which each multiplies P.
"""
import math
import pathlib
import random
import subprocess
import sys

CORES = 64
FENCE = 1 | 7 << 12 | 1 << 31 | 1 << 32 | 7 << 45 | 1 << 63  # 10 cores, of both words
SHORT = [8, 10, 16, 20, 25, 32, 40, 50, 64, 80, 100, 125, 128, 160, 200, 250, 320, 400, 500]
LONG = [1000, 1250, 1600, 2000, 2500, 3200, 4000, 5000, 6250, 8000, 10000, 12500, 15625, 16000, 20000, 25000,
        31250, 40000, 50000, 62500, 78125, 100000, 125000, 156250]
SLOW = [period for period in LONG if period >= 10_000]
# The periods of a kind, and two that make P some millions.
POOLS = {"short": (SHORT, [128, 78125]), "long": (LONG, [128, 78125]), "mixed": (SHORT + LONG, [128, 78125]), "slow": (SLOW, [16000, 78125])}
BOX = 980_179_200  # 2^8 3^2 5^2 7 11 13 17
LIMIT = 1_000_000_000
LOAD = 0.55  # of the cores' time, at most


def divisors(whole, least, most):
    return [period for period in range(least, most + 1) if whole % period == 0]


def task(rng, period, count, early, offset=0):
    """A task (O, v, C, D, T, w) of one width; `count` of them load the cores to a third."""
    width = rng.randint(1, 12)
    length = max(1, int(period * CORES * LOAD / count / width * rng.uniform(0.4, 0.9)))
    deadline = rng.randint(-(-3 * period // 4), period) if early else period
    return (offset, width, min(length, deadline), deadline, period, width)


def paired(made, seed):
    """The same with a second width, not much wider, for every third task."""
    rng = random.Random(seed)
    return [(*one[:5], rng.randint(1, one[1] + 2)) if at % 3 == 0 else one for at, one in enumerate(made)]


def heavy(kind, early, seed):
    """Tasks in priority order with a hyperperiod of 5 to 10 million."""
    rng = random.Random(seed)
    pool, always = POOLS[kind]
    while True:
        periods = sorted([rng.choice(pool) for _ in range(30)] + always)
        if 5_000_000 <= math.lcm(*periods) <= 10_000_000:
            return [task(rng, period, 32, early) for period in periods]


def box(early, seed):
    """30 tasks with periods of 500 to 20,000, as many short as long ones, and a hyperperiod near 1,000,000,000."""
    rng = random.Random(seed)
    found = divisors(BOX, 500, 20_000)
    while True:
        periods = sorted(rng.choice(found) for _ in range(30))
        if math.lcm(*periods) == BOX:
            return [task(rng, period, 30, early, rng.randint(0, period)) for period in periods]


def longer(seed):
    """30 tasks with periods of up to 10,000, and the same with all numbers times 10 and times 100."""
    rng = random.Random(seed)
    found = divisors(BOX // 100, 100, 10_000)
    while True:
        periods = sorted(rng.choice(found) for _ in range(30))
        if math.lcm(*periods) == BOX // 100:
            break
    made = [task(rng, period, 30, rng.random() < 0.5) for period in periods]
    return {f"times {times}": [(O * times, v, C * times, D * times, T * times, w) for O, v, C, D, T, w in made] for times in (1, 10, 100)}


def more(seed):
    """27 tasks with periods of 500 to 20,000 whose hyperperiod is 403,200, and one, two and three more, of which each multiplies it."""
    rng = random.Random(seed)
    whole = BOX // (11 * 13 * 17)
    found = divisors(whole, 500, 20_000)
    while True:
        periods = sorted(rng.choice(found) for _ in range(27))
        if math.lcm(*periods) == whole:
            break
    made = [task(rng, period, 30, False) for period in periods] + [task(rng, prime * 960, 30, False) for prime in (11, 13, 17)]
    return {f"{count} tasks": made[:count] for count in range(27, 31)}


def words(made, *header, record=7):
    """The text of a table of these tasks: the head, the rest of its header, the records of a given length."""
    numbers = [1, *header]
    for at, task in enumerate(made):
        numbers += [at + 2 if at + 1 < len(made) else 0, *task[:record - 1]]
    return "".join(f"{n}\n" for n in numbers)


def fits(command, text):
    said = subprocess.run(command, input=text.encode(), capture_output=True, check=True).stdout
    return said.startswith((b"firm", b"full"))


def first_that(found, seeds=300):
    """The result of the first seed that gives one."""
    for seed in range(seeds):
        answer = found(seed)
        if answer is not None:
            return answer
    sys.exit("no table fits")


def write_heavy(folder, gangsim):
    for other in ("three", "six"):
        (folder / other).mkdir(parents=True, exist_ok=True)
    for rule in (1, 2, 3):
        for kind in POOLS:
            for name, early, fence in ((f"{rule}-{kind}", False, 0), (f"{rule}-{kind}-early", True, 0), (f"{rule}-{kind}-fenced", False, FENCE)):
                if fence and kind == "slow":
                    continue

                def found(seed):
                    made = heavy(kind, early, seed)
                    text = words(made, CORES - fence.bit_count(), rule, record=6)
                    return (made, text) if fits([gangsim, "verdict"], text) else None

                made, text = first_that(found)
                header = CORES, rule, fence % 2**32, fence // 2**32
                (folder / "three" / f"{name}.txt").write_text(text)
                (folder / "six" / f"{name}.txt").write_text(words(made, *header, record=6))
                (folder / f"{name}.txt").write_text(words(made, *header))


def write_pairs(folder, baseline):
    folder.mkdir(parents=True, exist_ok=True)
    for rule in (1, 2, 3):
        for kind in POOLS:

            def found(seed):
                text = words(paired(heavy(kind, False, seed), seed), CORES, rule, 0, 0)
                return text if fits([baseline, "jump"], text) else None

            (folder / f"{rule}-{kind}-pairs.txt").write_text(first_that(found))


def write_boxes(folder, baseline):
    folder.mkdir(parents=True, exist_ok=True)
    for rule in (1, 2, 3):
        for early in (False, True):

            def found(seed):
                text = words(box(early, seed), CORES, rule, 0, 0)
                return text if fits([baseline, "jump"], text) else None

            (folder / f"{rule}-box{'-early' if early else ''}.txt").write_text(first_that(found))


def write_family(folder, baseline, family):
    """Several tables of one seed, all accepted."""
    folder.mkdir(parents=True, exist_ok=True)

    def found(seed):
        texts = {name: words(made, CORES, 1, 0, 0) for name, made in family(seed).items()}
        return texts if all(fits([baseline, "jump"], text) for text in texts.values()) else None

    for at, (name, text) in enumerate(first_that(found).items()):
        (folder / f"{at}-{name.replace(' ', '-')}.txt").write_text(text)


def main():
    folder, gangsim, baseline, *parts = pathlib.Path(sys.argv[1]), *sys.argv[2:]
    write_heavy(folder, gangsim)
    if "pairs" in parts:
        write_pairs(folder / "pairs", baseline)
    if "box" in parts:
        write_boxes(folder / "box", baseline)
    for name, family in (("longer", longer), ("more", more)):
        if name in parts:
            write_family(folder / name, baseline, family)


if __name__ == "__main__":
    main()
