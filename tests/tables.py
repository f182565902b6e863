"""Random tables as text: small and tight, all rules, with a fence and without, a third of them with tasks of two widths, permuted records, records off the chain, every number 1 to 9 and 19,
faults of the text; and for tests without rows tables with long periods and a horizon of up to 1,000,000,000. A task is O, v, C, D, T and w."""
import math
import random

HEAD, RECORD = 5, 7  # words
LENDING = 4  # the last rule
WORD = 2**32
LIMIT = 1_000_000_000  # no horizon is larger
# Pairs of periods whose least common multiple falls short of the limit by less than the largest offset.
NEAR = [(1000, 999_999), (999_999, 1000), (1001, 999_000), (31_250, 31_999), (39_999, 25_000), (15_625, 63_999)]
# Numbers with many divisors, hyperperiods of tables with long periods: some millions of ticks, and up to the limit.
SOME_MILLIONS = [720_720, 1_081_080, 1_441_440, 2_162_160, 3_603_600]
UP_TO_THE_LIMIT = [73_513_440, 367_567_200, 735_134_400, 931_170_240, 980_179_200]


def task(rng, cores):
    period = rng.choice([1, 2, 3, 4, 5, 6, 8, 10, 12])
    deadline = rng.randint(1, period)
    width = rng.randint(1, cores)
    return [rng.choice([0, 0, 0, 1, 2, 5]), width, rng.randint(1, max(1, deadline)), deadline, period, width]


def some_pairs(rng, tasks, cores):
    """Some of the tasks, or one of them, get any second width."""
    for task in rng.choice([tasks, rng.sample(tasks, (len(tasks) + 1) // 2), [rng.choice(tasks)]]):
        task[5] = rng.randint(1, cores)


def monotonic_pairs(rng, tasks, cores):
    """No width of a task is above one of the next: firm under every rule, if no deadline is missed."""
    widths = sorted(rng.randint(1, cores) for _ in range(2 * len(tasks)))
    for at, task in enumerate(tasks):
        task[2], (task[1], task[5]) = (task[2] + 1) // 2, rng.sample(widths[2 * at:2 * at + 2], 2)


def crossing_pairs(rng, tasks, cores):
    """First widths rise and so do second ones, or first ones rise and second ones fall: under rule 1 mostly full and not firm."""
    first, second = (sorted(rng.randint(1, cores) for _ in tasks) for _ in range(2))
    for task, odd, even in zip(tasks, first, rng.choice([second, second[::-1]])):
        task[1], task[2], task[5] = odd, (task[2] + 1) // 2, even


def second_half(rng, tasks, cores):
    """Tasks of width 1 that run in every tick, with the same jobs in the same ticks; the second width of the lowest may be too wide: then it misses in the second half of 2T."""
    period = rng.randint(1, 6)
    del tasks[cores:]
    tasks[:] = [[0, 1, period, period, period, 1] for _ in tasks]
    tasks[-1][5] = rng.randint(cores - len(tasks) + 1, cores)


def with_pairs(rng, tasks, cores):
    """Every third table has tasks of two widths."""
    if rng.random() < 1 / 3:
        rng.choice([some_pairs, some_pairs, monotonic_pairs, crossing_pairs, second_half])(rng, tasks, cores)
    return tasks


def two_words(fence):
    """A set of cores as two words, the low one first."""
    return [fence % WORD, fence // WORD]


def fence_of(words):
    return words[3] + words[4] * WORD


def unfenced(words):
    """How many cores below the count are outside the fence."""
    return sum(1 for core in range(words[1]) if not fence_of(words) >> core & 1)


def fence(rng, cores):
    """A set of cores, not all of them: none, any, one, all but one, or those of one word alone."""
    all_cores = (1 << cores) - 1
    one = 1 << rng.randrange(cores)
    some = rng.choice([0, 0, rng.getrandbits(cores), rng.getrandbits(cores), rng.getrandbits(cores) & rng.getrandbits(cores),
                       one, all_cores ^ one, rng.getrandbits(cores) % WORD, rng.getrandbits(cores) // WORD * WORD])
    return some if some != all_cores else 0


def fence_leaving(rng, usable, cores):
    """A fence that leaves this many cores."""
    return sum(1 << core for core in rng.sample(range(cores), cores - usable))


def cores_and_fence(rng, usable):
    """A core count and a fence that leaves `usable` cores, or some of all 64: every second table has no fence."""
    if rng.random() < 0.5:
        return usable, 0
    cores = rng.choice([usable, min(64, usable + rng.randint(1, 4)), rng.randint(usable, 64), 64])
    return cores, fence(rng, cores) if usable == 64 else fence_leaving(rng, usable, cores)


def linked(rng, cores, fenced, tasks, rule=None):
    """The words of these tasks in priority order under a rule, any where none is given, with their records permuted and some more off the chain."""
    on, off = len(tasks), rng.randint(0, min(2, 32 - len(tasks)))
    places = list(range(1, on + off + 1))
    rng.shuffle(places)
    chain, records = places[:on], {}
    for at, number in enumerate(chain):
        records[number] = [chain[at + 1] if at + 1 < on else 0, *tasks[at]]
    for number in places[on:]:
        records[number] = [rng.randint(0, WORD - 1) for _ in range(RECORD)]
    words = [chain[0], cores, rule or rng.randint(1, LENDING), *two_words(fenced)]
    for number in sorted(records):
        words += records[number]
    return words


def numbers(rng):
    """The words of a table within the limits."""
    cores, fenced = cores_and_fence(rng, rng.choice([1, 2, 2, 3, 4, 6, 8, 64]))
    usable = cores - fenced.bit_count()
    return linked(rng, cores, fenced, with_pairs(rng, [task(rng, usable) for _ in range(rng.randint(1, 6))], usable))


def not_sustainable(rng):
    """The words of three greedy tasks so tight that an early end can make another late: the second is too wide beside the first, the third is not. In every second table even jobs of the
    first and third may be narrower, and the second's have another width."""
    cores, long, short = rng.randint(2, 5), rng.randint(2, 6), rng.randint(1, 3)
    first, period, third = rng.randint(1, cores - 1), long + short + rng.randint(0, 2), rng.randint(1, long)
    widths = [(first, rng.randint(1, first)), [rng.randint(cores - first + 1, cores) for _ in range(2)], sorted((rng.randint(1, cores - first) for _ in range(2)), reverse=True)]
    if rng.random() < 0.5:
        widths = [(width, width) for width, _ in widths]
    among = rng.choice([cores, cores + 1, 35, 64])
    words = [1, among, 1, *two_words(fence_leaving(rng, cores, among))]
    for following, (odd, even), length, deadline in zip((2, 3, 0), widths, (long, short, third), (rng.randint(long, period), period, third + rng.randint(0, short - 1))):
        words += [following, 0, odd, length, deadline, period, even]
    return words


def waiting(rng, rule=LENDING):
    """The words of tasks that mostly fit and wait for those above them, so that under lending some task can borrow: in any order, the wide ones first, or the narrow ones.
    In every third table some have two widths."""
    cores, period, count = rng.choice([1, 2, 3, 4, 6]), rng.choice([4, 6, 8, 9, 12]), rng.randint(2, 8)
    widest = -(-cores // rng.choice([1, 1, 2]))
    tasks = []
    for _ in range(count):
        width, every = rng.randint(1, widest), rng.choice([period, period, period, 2 * period])
        deadline = rng.choice([every, every, rng.randint((every + 1) // 2, every)])
        longest = period * cores // (count * widest)
        tasks.append([rng.choice([0, 0, 0, rng.randint(0, period)]), width, rng.randint(1, max(1, min(longest, deadline))), deadline, every, width])
    order = rng.choice([-1, 0, 1])
    tasks.sort(key=lambda task: order * task[1])
    if rng.random() < 1 / 3:
        some_pairs(rng, tasks, cores)
    return linked(rng, *cores_and_fence(rng, cores), tasks, rule)


def long_task(rng, usable, whole, periods, load, early):
    """A task with a long period and this share of the cores' time; at times with two widths, where that leaves the hyperperiod as it is."""
    period = rng.choice(periods)
    deadline = rng.randint(period // 2, period) if early else period
    width = rng.randint(1, usable)
    length = int(period * usable / width * load)
    offset = rng.choice([0, 0, rng.randint(1, period), rng.randint(1, 1_000_000)])
    second = rng.randint(1, usable) if whole % (2 * period) == 0 and rng.random() < 0.3 else width
    return [offset, width, max(1, min(length, deadline)), deadline, period, second]


def long_periods(rng, hyperperiods):
    """The words of a table with periods of 10,000 ticks and more; in every second one deadlines come before the period's end."""
    cores, fenced = cores_and_fence(rng, rng.choice([1, 2, 4, 8, 64]))
    whole = rng.choice(hyperperiods)
    periods = [whole // k for k in range(-(-whole // 1_000_000), whole // 10_000 + 1) if whole % k == 0]
    count, load, early = rng.choice([1, 2, 4, 8, 16, 32]), rng.choice([0.3, 0.5, 0.7, 0.9, 1.0]), rng.random() < 0.5
    return linked(rng, cores, fenced, [long_task(rng, cores - fenced.bit_count(), whole, periods, load / count * rng.uniform(0.5, 1.5), early) for _ in range(count)])


def late_miss(rng):
    """The words of a table of two tasks that cannot run together and have no slack; their periods share no factor, so they are active together late, if at all before the horizon.
    Where the first has two widths they can, with every second job of it."""
    cores, fenced = cores_and_fence(rng, rng.choice([1, 3, 64]))
    usable = cores - fenced.bit_count()
    first, second = rng.choice([*NEAR, (997, 1009), (9973, 10_007), (10_007, 99_991)])
    room = rng.randint(0, 2)
    widths = [usable, usable]
    if first % 2 == 0 and rng.random() < 0.5:
        first, widths[rng.randrange(2)] = first // 2, max(1, usable - 1)
    tasks = [[rng.randint(0, first), widths[0], 1 + room, 1 + room, first, widths[1]], [rng.randint(0, second), 1, 1, 1 + room // 2, second, 1]]
    return linked(rng, cores, fenced, tasks)


def chain_of(words):
    """Where the records on the chain of a table within the limits begin, by position."""
    found, number = [], words[0]
    while number:
        found.append(HEAD + RECORD * (number - 1))
        number = words[found[-1]]
    return found


def stretched(words, times):
    """The same table with all offsets, lengths, deadlines and periods multiplied: so are the ticks of its verdict."""
    words = list(words)
    for place in chain_of(words):
        for at in (1, 3, 4, 5):
            words[place + at] *= times
    return words


def about_the_limit(rng, words):
    """The words with such periods and offsets that the horizon is the limit, or one or some ticks more or less. A task of two widths has half the period, or one width where that is odd."""
    pair = rng.choice(NEAR)
    places = chain_of(words)
    for at, place in enumerate(places):
        words[place + 1], words[place + 5] = 0, pair[at % 2]
        if pair[at % 2] % 2:
            words[place + 6] = words[place + 2]
        elif words[place + 6] != words[place + 2]:
            words[place + 5] //= 2
    words[places[-1] + 1] = LIMIT - math.lcm(*pair) + rng.choice([-1, 0, 0, 0, 1, 1, 1, 1000])


def late_at_once(words):
    """The first task misses its first deadline, so that few rows come before it."""
    first = chain_of(words)[0]
    words[first + 4] = min(words[first + 4], 12)
    words[first + 1], words[first + 3] = 0, words[first + 4] + 1


def with_fault(rng, words, printed):
    """The words with one change that a number from 1 to 9, or 19, may refuse. If rows are printed, no more than some millions follow."""
    words = list(words)
    kind = rng.randint(0, 12)
    records = (len(words) - HEAD) // RECORD
    record = HEAD + RECORD * rng.randrange(records)
    if kind == 0:
        del words[rng.randint(0, len(words) - 1):]
    elif kind == 1:
        words += [0] * rng.choice([1, RECORD, RECORD * 32])
    elif kind == 2:
        words[1] = rng.choice([0, 65, WORD - 1])
    elif kind == 3:
        words[2] = rng.choice([0, LENDING + 1, 9])
    elif kind == 4:
        words[0] = rng.choice([0, 33, records + 1])
    elif kind == 5:
        words[record] = rng.choice([rng.randint(0, 40), rng.randint(1, records)])
    elif kind == 6:
        words[record + rng.randint(1, 6)] = rng.choice([0, 1, 1000000, 1000001, WORD - 1])
    elif kind == 7:
        periods = rng.choice([[999983, 999979], [64, 15625]] if printed else [[999983, 999979], [128, 78125], [999983, 128, 64], [999979, 250]])
        for at in range(HEAD, len(words), RECORD):
            words[at + 5] = rng.choice(periods)
            words[at + 4] = min(words[at + 4], words[at + 5])
    elif kind == 12:
        about_the_limit(rng, words)
        if printed:
            late_at_once(words)
    elif kind == 8:
        words[record + rng.choice([2, 6])] = rng.choice([0, unfenced(words), unfenced(words) + 1, words[1]])
    elif kind in (9, 10):
        all_cores = (1 << words[1]) - 1
        words[3:5] = two_words(rng.choice([all_cores, all_cores ^ 1, all_cores >> 1, (all_cores + 1) % 2**64, fence_of(words) | 1 << rng.randrange(64), 2**64 - 1, rng.getrandbits(64)]))
        if kind == 10:  # beside another fault, which a number before 19 or after it turns down
            at = rng.choice([0, 1, 2, record, record + 2, record + 3, record + 6])
            words[at] = rng.choice([0, 33, 65])
    else:
        words[rng.randrange(len(words))] = rng.randint(0, WORD - 1)
    return words


def text(rng, words):
    """One number a line; now and then a fault of the text."""
    lines = [str(w) for w in words]
    if rng.random() < 0.1 and lines:
        at = rng.randrange(len(lines))
        lines[at] = rng.choice(["", "x", "-1", "+1", " 1", "1 ", "4294967296", "00000000001", "0000000001", "1\r", "\x00"])
    joined = "\n".join(lines)
    return joined + rng.choice(["\n", "\n", "\n", "", "\n\n"]) if lines else rng.choice(["", "\n"])


def random_text(seed, printed=True):
    rng = random.Random(seed)
    words = numbers(rng)
    if rng.random() < 0.4:
        words = with_fault(rng, words, printed)
    return text(rng, words)
