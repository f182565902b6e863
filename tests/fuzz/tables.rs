//! Random tables: small and tight ones, wide ones, long ones, with a fence and without, a third of them with tasks of two widths, with permuted records, records off the chain,
//! and faults for each number 1 to 9 and 19.
use crate::rng::Rng;
use sivorandra::{TABLE_HEAD_WORDS as HEAD, TABLE_RECORD_WORDS as RECORD};

/// A task: O, v, C, D, T, w.
type Task = [u32; 6];

/// A task of one width.
const fn one([o, v, c, d, t]: [u32; 5]) -> Task {
    [o, v, c, d, t, v]
}

/// A task that takes at most about 1/`share` of its deadline.
fn task(rng: &mut Rng, cores: u32, periods: &[u32], share: u32) -> Task {
    let period = rng.pick(periods);
    let deadline = if rng.once_in(3) { period } else { rng.from(1.max(period / 2), period) };
    let most = (deadline / share).max(1) + u32::from(rng.once_in(20));
    let length = rng.from(1, most);
    let offset = if rng.once_in(2) { 0 } else { rng.from(0, 2 * period) };
    one([offset, rng.from(1, cores), length, deadline, period])
}

/// At most `most` tasks.
fn tasks(rng: &mut Rng, most: u32, cores: u32, periods: &[u32], share: u32) -> Vec<Task> {
    let count = rng.from(1, most);
    (0..count).map(|_| task(rng, cores, periods, share)).collect()
}

/// Second widths for some of the tasks of every third table: any; such that no task is wider than the next; such that both widths rise and cross; or for the lowest alone.
fn pair(rng: &mut Rng, cores: u32, tasks: &mut [Task]) {
    if !rng.once_in(3) {
        return;
    }
    let count = tasks.len();
    let rising = |rng: &mut Rng, many: usize| {
        let mut widths: Vec<u32> = (0..many).map(|_| rng.from(1, cores)).collect();
        widths.sort();
        widths
    };
    match rng.below(5) {
        0 | 1 => tasks.iter_mut().for_each(|task| task[5] = if rng.once_in(2) { rng.from(1, cores) } else { task[1] }),
        2 => {
            let widths = rising(rng, 2 * count);
            for (task, two) in tasks.iter_mut().zip(widths.chunks(2)) {
                let at = rng.below(2);
                (task[1], task[5]) = (two[at], two[1 - at]);
            }
        }
        3 => {
            let (first, second) = (rising(rng, count), rising(rng, count));
            for (at, task) in tasks.iter_mut().enumerate() {
                (task[1], task[5]) = (first[at], second[at]);
            }
        }
        _ => tasks[count - 1][5] = rng.from(1, cores),
    }
}

/// The set of the cores below a count.
fn all_of(cores: u32) -> u64 {
    if cores < 64 { (1 << cores) - 1 } else { u64::MAX }
}

/// A core count and a fence that leaves `left` cores; every second table has no fence.
fn among(rng: &mut Rng, left: u32) -> (u32, u64) {
    if left == 64 || rng.once_in(2) {
        return (left, 0);
    }
    let any = rng.from(left + 1, 64);
    let cores = rng.pick(&[left + 1, (left + 32).min(64), any, 64]);
    let mut fenced: Vec<u32> = (0..cores).collect();
    rng.shuffle(&mut fenced);
    (cores, fenced[left as usize..].iter().fold(0, |fence, core| fence | 1 << core))
}

/// The fence of a table's words, and how many of its cores are outside.
pub fn fence_of(words: &[u32]) -> (u64, u32) {
    let fence = u64::from(words[3]) | u64::from(words[4]) << 32;
    (fence, (all_of(words[1]) & !fence).count_ones())
}

fn set_fence(words: &mut [u32], fence: u64) {
    (words[3], words[4]) = (fence as u32, (fence >> 32) as u32);
}

/// The words of the tasks in priority order on these cores, of which some may be fenced, in records of any order, with others off the chain.
fn words(rng: &mut Rng, left: u32, rule: u32, mut tasks: Vec<Task>) -> Vec<u32> {
    pair(rng, left, &mut tasks);
    linked(rng, left, rule, &tasks)
}

fn linked(rng: &mut Rng, left: u32, rule: u32, tasks: &[Task]) -> Vec<u32> {
    let (cores, fence) = among(rng, left);
    let off = if rng.once_in(2) { 0 } else { rng.below(3).min(32 - tasks.len()) };
    let mut places: Vec<usize> = (1..=tasks.len() + off).collect();
    rng.shuffle(&mut places);
    let mut words = vec![places[0] as u32, cores, rule, 0, 0];
    set_fence(&mut words, fence);
    words.extend((0..RECORD * places.len()).map(|_| rng.word()));
    for (at, task) in tasks.iter().enumerate() {
        let record = &mut words[HEAD + RECORD * (places[at] - 1)..][..RECORD];
        record[0] = if at + 1 < tasks.len() { places[at + 1] as u32 } else { 0 };
        record[1..].copy_from_slice(task);
    }
    words
}

/// A fault that one of 1 to 9, or 19, may refuse.
fn add_fault(rng: &mut Rng, words: &mut Vec<u32>) {
    let records = words.len().saturating_sub(HEAD) / RECORD;
    if records == 0 {
        return;
    }
    let record = HEAD + RECORD * rng.below(records);
    match rng.below(13) {
        0 => words.truncate(rng.below(words.len())),
        1 => {
            let room = 32usize.saturating_sub(records);
            let more = rng.pick(&[1, RECORD - 1, RECORD, RECORD * room, RECORD * (room + 1), RECORD * 32, RECORD * 1000]);
            words.extend((0..more).map(|_| rng.word()));
        }
        2 => words[1] = rng.pick(&[0, 65, 64, u32::MAX]),
        3 => words[2] = rng.pick(&[0, 5, 9, u32::MAX]),
        4 => words[0] = rng.pick(&[0, 0, 33, records as u32 + 1, u32::MAX]),
        5 => words[record] = rng.from(0, records as u32 + 1),
        6 => words[record] = rng.pick(&[33, u32::MAX, 1 << 31]),
        7 => {
            let left = fence_of(words).1;
            words[record + rng.pick(&[2, 6])] = rng.pick(&[0, 1, left, left + 1, words[1], words[1].wrapping_add(1), u32::MAX]);
        }
        8 => words[record + 1 + rng.below(6)] = rng.pick(&[0, 1, 1_000_000, 1_000_001, u32::MAX]),
        9 => words[record + 4] = words[record + 5].wrapping_add(rng.from(0, 1)),
        10 | 11 => {
            let (all, fence, any) = (all_of(words[1]), fence_of(words).0, rng.next());
            let one = 1 << rng.below(64);
            let next = 1u64.checked_shl(words[1]).unwrap_or(0);
            set_fence(words, rng.pick(&[all, all >> 1, all & !1, all | next, next, fence | next, one, fence | one, fence.rotate_left(32), u64::MAX, any]));
        }
        _ => {
            let at = rng.below(words.len());
            words[at] = rng.word();
        }
    }
}

/// A horizon at or about 10,000,000; mostly with a task that misses at once, so that the run is short.
fn long_or_late(rng: &mut Rng) -> (u32, Vec<Task>) {
    let (first, second) = rng.pick(&[(128, 78_125), (1_000_000, 10), (1_000_000, 625_000), (999_983, 999_979), (3, 999_999), (9, 1_000_000), (11, 909_091), (10, 1_000_000)]);
    let offset = rng.pick(&[0, 0, 1, 1_000_000]);
    let length = if rng.once_in(400) { 1 } else { 4 };
    (4, vec![one([offset, 2, 1, first.min(3), first]), one([0, 1, length, second.min(3), second])])
}

/// A horizon of 1,000,000,000, or one tick more or less, with a task that misses at once. Without a fault: the simulator takes too long for a table that does not miss.
fn at_the_limit(rng: &mut Rng) -> Vec<u32> {
    // the least common multiple falls short of the limit by the first period; a task of two widths has half of it
    let (first, second) = rng.pick(&[(1_000, 999_999), (31_250, 31_999), (25_000, 39_999), (15_625, 63_999)]);
    let offset = rng.from(first - 1, first + 1);
    let rule = rng.from(1, 4);
    let late = if first % 2 == 0 && rng.once_in(2) { [0, 2, 4, 3, first / 2, rng.pick(&[1, 3])] } else { one([0, 2, 4, 3, first]) };
    linked(rng, 4, rule, &[late, one([offset, 1, 1, 3, second])])
}

/// A horizon from some thousands to a million.
fn long(rng: &mut Rng) -> (u32, Vec<Task>) {
    let periods = rng.pick(&[[1000, 1024, 400, 625], [997, 500, 100, 20], [9973, 90, 30, 9], [640, 729, 80, 27]]);
    let cores = rng.pick(&[1, 3, 8, 64]);
    (cores, tasks(rng, 32, cores, &periods, 12))
}

/// As the scope's example B: the second task is too wide beside the first, the third is not, and has little room once the first ends early.
fn not_sustainable(rng: &mut Rng) -> (u32, Vec<Task>) {
    let cores = rng.from(2, 5);
    let first = rng.from(1, cores - 1);
    let (long, short) = (rng.from(2, 6), rng.from(1, 3));
    let period = long + short + rng.from(0, 2);
    let third = rng.from(1, long);
    let room = third + rng.from(0, short - 1);
    let wide = rng.from(cores - first + 1, cores);
    let narrow = rng.from(1, cores - first);
    let offset = rng.from(0, 2);
    let mut tasks = vec![one([offset, first, long, rng.from(long, period), period]), one([offset, wide, short, period, period]), one([offset, narrow, third, room, period])];
    if rng.once_in(3) {
        tasks.push(one([rng.from(0, 5), rng.from(1, cores), 1, 2 * period, 2 * period]));
    }
    (cores, tasks)
}

/// Tasks of one period that mostly fit and wait for those above them: if these end early and lend, a task can borrow.
fn waiting(rng: &mut Rng) -> (u32, Vec<Task>) {
    let (cores, period, count) = (rng.from(1, 6), rng.pick(&[4, 6, 8, 12]), rng.from(2, 8));
    let longest = (period / count).max(1);
    let one = |_| {
        let every = period * rng.pick(&[1, 1, 1, 2]);
        let deadline = if rng.once_in(3) { rng.from(every.div_ceil(2), every) } else { every };
        one([if rng.once_in(4) { rng.from(0, period) } else { 0 }, rng.from(1, cores), rng.from(1, longest.min(deadline)), deadline, every])
    };
    (cores, (0..count).map(one).collect())
}

/// Any table: about one in four has a fault.
pub fn any(rng: &mut Rng) -> Vec<u32> {
    const SMALL: [u32; 10] = [1, 2, 3, 4, 5, 6, 8, 10, 12, 15];
    let (cores, tasks) = match rng.below(1000) {
        0 => long(rng),
        1..=9 => return at_the_limit(rng),
        10..=19 => long_or_late(rng),
        20..=89 => {
            let cores = rng.pick(&[8, 16, 33, 63, 64]);
            (cores, tasks(rng, 32, (cores / 4).max(1), &[8, 12, 16, 24, 48], 4))
        }
        90..=199 => not_sustainable(rng),
        200..=349 => waiting(rng),
        350..=549 => {
            let cores = rng.pick(&[1, 2, 3, 4, 8]);
            (cores, tasks(rng, 8, cores, &[4, 6, 8, 12, 24], 3))
        }
        550..=774 => {
            let cores = rng.from(1, 4);
            (cores, tasks(rng, 4, cores, &SMALL, 2))
        }
        _ => {
            let cores = rng.pick(&[1, 2, 2, 3, 4, 6, 64]);
            (cores, tasks(rng, 6, cores, &SMALL, 1))
        }
    };
    let rule = rng.pick(&[1, 1, 2, 3, 4, 4]);
    let mut words = words(rng, cores, rule, tasks);
    if rng.once_in(4) {
        add_fault(rng, &mut words);
        if rng.once_in(4) {
            add_fault(rng, &mut words);
        }
    }
    words
}

/// A table of at most 4 tasks, without a fault.
pub fn small(rng: &mut Rng) -> Vec<u32> {
    let (cores, tasks) = if rng.once_in(2) {
        not_sustainable(rng)
    } else if rng.once_in(3) {
        let (cores, mut tasks) = waiting(rng);
        tasks.truncate(4);
        (cores, tasks)
    } else {
        let (cores, count) = (rng.from(1, 3), rng.from(1, 4));
        let one = |_| {
            let period = rng.from(2, 8);
            let deadline = rng.from(1.max(period / 2), period);
            one([rng.pick(&[0, 0, 1, 3]), rng.from(1, cores), rng.from(1, deadline.min(5)), deadline, period])
        };
        (cores, (0..count).map(one).collect())
    };
    let rule = rng.from(1, 4);
    words(rng, cores, rule, tasks)
}
