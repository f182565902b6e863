"""The interference test by another hand, from the text of docs/SCOPE.md, 'Beyond the scope', and tables at a load. A task is O, v, C, D, T and w."""
import tables

LIMITED = 2
TRIES, HALVINGS = 21, 20  # windows tried for each task at most


class Tried:
    """The windows of the tasks above, and how many windows were tried for each task."""

    def __init__(self, cores, rule, tasks):
        self.cores, self.rule, self.tasks, self.bounds, self.tries = cores, rule, tasks, [], []

    def passes(self, place, window):
        """Whether a window of a task passes: within the deadline, and the tasks above can't keep a job waiting in L - C + 1 of its ticks."""
        self.tries[-1] += 1
        _, v, length, deadline, _, w = self.tasks[place]
        if not length <= window <= deadline:
            return False
        refused = max(max(task[1], task[5]) for task in (self.tasks[:place + 1] if self.rule == LIMITED else [self.tasks[place]]))
        waits, given = window + 1 - length, 0
        for (_, v, length, _, period, w), end in zip(self.tasks, self.bounds):
            span = window + end - length
            all_jobs, every_second = (span // apart * length + min(length, span % apart) for apart in (period, 2 * period))
            given += min(v, w) * min(waits, all_jobs) + abs(v - w) * min(waits, every_second)
        return given < waits * (self.cores + 1 - refused)

    def bound(self, place):
        """A window of a task that passes, or D + 1: doubles the ticks of waiting until one passes, then halves."""
        _, _, length, deadline, _, _ = self.tasks[place]
        self.tries.append(0)
        window = length
        while not self.passes(place, window):
            if deadline <= window:
                window = deadline + 1
                break
            window = min(deadline, window + window + 1 - length)
        low, high = length, window
        while low < high:
            middle = (low + high) // 2
            low, high = (low, middle) if self.passes(place, middle) else (middle + 1, high)
        return high

    def test(self):
        """The bound of each task, or None if the table does not pass."""
        for place, task in enumerate(self.tasks):
            bound = self.bound(place)
            if bound > task[3]:
                return None
            self.bounds.append(bound)
        return self.bounds


def tested(words):
    """The test of a table's words, to which no number applies."""
    tasks = [words[at + 1:at + tables.RECORD] for at in tables.chain_of(words)]
    return Tried(words[1] - tables.fence_of(words).bit_count(), words[2], tasks)


def loaded(rng, cores, count, load, periods, pairs=0.0, rule=None, early=0.3):
    """The words of tasks with periods from a list that load the cores to this share of their ticks; short periods first. Some have two widths."""
    shares = [rng.expovariate(1) for _ in range(count)]
    tasks = []
    for period, share in zip(sorted(rng.choice(periods) for _ in range(count)), shares):
        width = rng.randint(1, max(1, cores // 2))
        second = rng.randint(1, max(1, cores // 2)) if rng.random() < pairs else width
        length = round(share / sum(shares) * load * cores * period * 2 / (width + second))
        deadline = rng.randint(period - period // 4, period) if rng.random() < early else period
        tasks.append([rng.choice([0, rng.randint(0, period)]), width, max(1, min(length, deadline)), deadline, period, second])
    return tables.linked(rng, cores, 0, tasks, rule)
