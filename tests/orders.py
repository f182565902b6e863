"""The search for an order of priorities by another hand, from the text of docs/SCOPE.md, with a simulator of its own: tick by tick, the full-length run alone.
Run as a program it prints figures: for how many random tables that miss in their own order one is found, in how many judgings, and what an exhaustive search finds."""
import itertools
import math
import random
import statistics
import sys

import tables

GREEDY, LIMITED = 1, 2
MOST_JUDGINGS, MOST_HORIZON = 200, 1_000_000_000
FIRM, FULL, MISS, REFUSED, NONE = "firm", "full", "miss", "refused", "none"


class Orders:
    """A table to which no number applies, and orders of its tasks. A task is O, v, C, D, T and w; an order is a list of places."""

    def __init__(self, words):
        self.tasks = [words[at + 1:at + tables.RECORD] for at in tables.chain_of(words)]
        self.cores, self.rule = words[1] - tables.fence_of(words).bit_count(), words[2]
        self.cycles = [task[4] * (1 if task[1] == task[5] else 2) for task in self.tasks]

    def verdict(self, order):
        """The verdict on the table in an order; beside a miss the counts of the tasks above that ran while the late job waited."""
        tasks = [self.tasks[place] for place in order]
        start = 0
        for offset, _, _, _, period, _ in tasks:
            start = max(offset, offset + -(-(start - offset) // period) * period)
        hyperperiod = math.lcm(*self.cycles)
        if start + hyperperiod > MOST_HORIZON:
            return (REFUSED, 9, 0), None
        left, jobs = [0] * len(tasks), [0] * len(tasks)
        rows = []
        for tick in range(start + hyperperiod + 1):
            for place, (offset, _, length, deadline, period, _) in enumerate(tasks):
                if left[place] and tick == offset + (jobs[place] - 1) * period + deadline:
                    waited = [row for row in rows[tick - deadline:] if place not in row]
                    return (MISS, tick, place + 1), [sum(above in row for row in waited) for above in range(place)]
            for place, (offset, _, length, _, period, _) in enumerate(tasks):
                if tick >= offset and (tick - offset) % period == 0:
                    left[place] = length
                    jobs[place] += 1
            free, row = self.cores, set()
            for place, (_, odd, _, _, _, even) in enumerate(tasks):
                if left[place]:
                    width = odd if jobs[place] % 2 else even
                    if width <= free:
                        free -= width
                        row.add(place)
                    elif self.rule == LIMITED:
                        break
            for place in row:
                left[place] -= 1
            rows.append(row)
        rising = all(max(a[1], a[5]) <= min(b[1], b[5]) for a, b in zip(tasks, tasks[1:]))
        return (FIRM if self.rule != GREEDY or rising else FULL, start, hyperperiod), None

    def sorted_orders(self):
        """The five that are tried first; Python's sort keeps the order of equal tasks."""
        places = range(len(self.tasks))
        keys = [
            lambda task: 0,
            lambda task: task[3],
            lambda task: max(task[3] - task[2], -1),
            lambda task: (max(task[1], task[5]), min(task[1], task[5]), task[3]),
            lambda task: (-max(task[1], task[5]), task[3]),
        ]
        return [sorted(places, key=lambda place: key(self.tasks[place])) for key in keys]

    def search(self, most=MOST_JUDGINGS):
        """The first order tried that is Firm, else the first that is accepted, with its verdict; or none. And the number of judgings."""
        full, latest = None, None
        for number, order in enumerate(self.sorted_orders()[:most], 1):
            verdict, ran = self.verdict(order)
            if verdict[0] == FIRM:
                return verdict, order, number
            if verdict[0] == FULL and full is None:
                full = verdict, order
            if verdict[0] == MISS and (latest is None or verdict[1] > latest[0][1]):
                latest = verdict, order, ran
        made = min(most, 5)
        if full or latest is None:
            return (*full, made) if full else ((NONE, made), None, made)
        (_, _, position), order, ran = latest
        kept, power = order, 1
        for number in itertools.count(1):
            if made == most or not any(ran):
                break
            order = list(order)
            order.insert(ran.index(max(ran)), order.pop(position - 1))
            if order == kept:
                break
            verdict, ran = self.verdict(order)
            made += 1
            if verdict[0] in (FIRM, FULL):
                return verdict, order, made
            if verdict[0] == REFUSED:
                break
            position = verdict[2]
            if number == power:
                kept, power = order, 2 * power
        return (NONE, made), None, made


def lines_of(words):
    """What is printed: the verdict's line and the positions, or `none` and the number of orders tried."""
    verdict, order, _ = Orders(words).search()
    lines = " ".join(map(str, verdict)) + "\n"
    return (lines + " ".join(str(place + 1) for place in order) + "\n" if order else lines).encode()


def late(rng, count):
    """The words of a random table at 50 to 90 percent load that misses in its own order."""
    while True:
        cores, load, shares, tasks = rng.randint(2, 6), rng.uniform(0.5, 0.9), [rng.expovariate(1) for _ in range(count)], []
        for share in shares:
            period, width = rng.choice([4, 5, 6, 8, 10, 12, 15, 20]), rng.randint(1, cores)
            second = rng.randint(1, cores) if rng.random() < 0.1 else width
            length = round(share / sum(shares) * load * cores * period * 2 / (width + second))
            deadline = rng.randint(period - period // 4, period) if rng.random() < 0.3 else period
            tasks.append([rng.choice([0, rng.randint(0, period)]), width, max(1, min(length, deadline)), deadline, period, second])
        words = tables.linked(rng, cores, 0, tasks)
        if Orders(words).verdict(range(count))[0][0] == MISS:
            return words


def main():
    rng = random.Random(45)
    found, judgings, few, exists, missed = 0, [], 0, 0, 0
    for _ in range(1000):
        words = late(rng, rng.randint(2, 10))
        orders = Orders(words)
        verdict, _, made = orders.search()
        if verdict[0] != NONE:
            found += 1
            judgings.append(made)
        if len(orders.tasks) <= 6:
            few += 1
            fits = verdict[0] != NONE or any(orders.verdict(order)[0][0] in (FIRM, FULL) for order in itertools.permutations(range(len(orders.tasks))))
            exists += fits
            missed += fits and verdict[0] == NONE
    print(f"{found} of 1000 found, judgings median {statistics.median(judgings)}, most {max(judgings)}; of {few} with up to 6 tasks {exists} have one, {missed} not found")


if __name__ == "__main__":
    sys.exit(main())
