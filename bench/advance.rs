// Nanoseconds an advance at 1, 8 and 32 tasks: the proved library beside the simulator's book and beside plain Rust of the same step, by value and in place.
// All get the same table and entries in one run. Their answers and last rows must be equal. The best of several times counts.
//
// The library's advance is timed inside `sivorandra_replay`, which moves a run by value through the list. Its row is timed through `sivorandra_row`, which reads
// the run from its words first. So the sum is an upper bound for an advance with its row.
//
// The simulator has no fence, no second width, no empty jobs, no withdrawals and no lending, and reads three header words and records of six. It gets the same tasks, whose widths are equal, on
// just the unfenced cores, where every answer is the same. The entries are advances without empty jobs. It is not timed under rule 4, which has lines of its own.

use std::hint::black_box;

const TICKS: usize = 50_000;
const RUNS: usize = 5;
/// The words of a table before its records, and of a record.
const HEAD: usize = 5;
const RECORD: usize = 7;
/// The words of a run: rule, cores, count, fence and withdrawn set, and eleven for each of the 32 places.
const RUN_WORDS: usize = 6 + 11 * 32;
const LENDING: u32 = 4;
/// An entry of a list in words: 0, reports, empties.
type Entry = [u32; 3];
/// 10 of 64 cores, of both words.
const FENCE: u64 = 1 | 7 << 12 | 1 << 31 | 1 << 32 | 7 << 45 | 1 << 63;

extern "C" {
    fn clock_gettime(clock: i32, time: *mut [i64; 2]) -> i32;
    fn sivorandra_judge(words: *const u32, words_len: usize, answer: *mut u32, answer_len: usize) -> u32;
    fn sivorandra_replay(words: *const u32, words_len: usize, entries: *const u32, entries_len: usize, numbers: *mut u32, numbers_len: usize, row: *mut u8, row_len: usize, answer: *mut u32, answer_len: usize) -> u32;
    fn sivorandra_start(words: *const u32, words_len: usize, run: *mut u32, run_len: usize, answer: *mut u32, answer_len: usize) -> u32;
    fn sivorandra_row(run: *const u32, run_len: usize, empties: u32, row: *mut u8, row_len: usize, answer: *mut u32, answer_len: usize) -> u32;
    fn sivorandra_advance(run: *mut u32, run_len: usize, reports: u32, empties: u32, answer: *mut u32, answer_len: usize) -> u32;
}

#[allow(dead_code)]
mod simulator {
    include!("simulator.rs");

    /// The book's answers to a list of entries without empty jobs, and the row of every tick where `rows` is set.
    pub fn advances(words: &[u32], list: &[super::Entry], rows: bool, numbers: &mut [u32]) {
        let table = Table::check(words).ok().expect("a table");
        let mut book = Book { ledger: Ledger::new(&table) };
        for (number, &[_, bits, _]) in numbers.iter_mut().zip(list) {
            if rows {
                std::hint::black_box(book.row().is_ok());
            }
            *number = book.advance(u64::from(bits)).map_or_else(|r| r.number * 256 + r.position as u32, |()| 0);
        }
    }
}

// Plain Rust of the run in the cab: the same records, the same numbers 14, 15, 20 and 16, the same moves.

/// Ticks left; since the release, had and reserved; since the release and reserved; since the release.
#[derive(Clone, Copy)]
enum Phase {
    Coming(u32),
    Working(u32, u32, u32),
    Holding(u32, u32),
    Resting(u32),
}
use Phase::*;

#[derive(Clone, Copy)]
struct Task {
    offset: u32,
    width: u32,
    length: u32,
    deadline: u32,
    period: u32,
    second: u32,
    even: bool,
    phase: Phase,
}

#[derive(Clone, Copy)]
struct Run {
    rule: u32,
    cores: u32,
    fence: u64,
    withdrawn: u32,
    count: usize,
    tasks: [Task; 32],
}

/// The tasks that have cores reserved, have work, and borrow.
struct Tick {
    granted: u32,
    working: u32,
    served: u32,
}

impl Task {
    fn in_limits(&self, rule: u32, unfenced: u32) -> bool {
        let numbers = (1..=unfenced).contains(&self.width) && (1..=unfenced).contains(&self.second) && self.offset <= 1_000_000 && (1..=1_000_000).contains(&self.length) && (1..=1_000_000).contains(&self.period) && (1..=self.period).contains(&self.deadline);
        numbers
            && match self.phase {
                Coming(left) => (1..=self.offset).contains(&left) && !self.even,
                Working(z, had, reserved) => z <= self.deadline && had < self.length && had <= z && if rule == LENDING { reserved <= had } else { reserved == had },
                Holding(z, reserved) => rule >= 3 && z < self.deadline && reserved < self.length && reserved <= z,
                Resting(z) => 1 <= z && z < self.period,
            }
    }

    /// The width of its job.
    fn wide(&self) -> u32 {
        if self.even { self.second } else { self.width }
    }

    fn rested(&self, z: u32) -> Phase {
        if z == self.period { Working(0, 0, 0) } else { Resting(z) }
    }

    fn held(&self, z: u32, reserved: u32) -> Phase {
        if reserved == self.length || z == self.deadline { self.rested(z) } else { Holding(z, reserved) }
    }

    /// An empty job of this tick holds under rules 3 and 4, and else claims nothing.
    fn seen(&self, rule: u32, empty: bool) -> Phase {
        match self.phase {
            Working(0, ..) if empty && rule >= 3 => Holding(0, 0),
            Working(0, ..) if empty => Resting(0),
            phase => phase,
        }
    }

    fn next(&self, rule: u32, empty: bool, given: bool, lent: bool, reported: bool) -> Phase {
        match self.seen(rule, empty) {
            Coming(1) => Working(0, 0, 0),
            Coming(left) => Coming(left - 1),
            Working(z, had, reserved) if !given && !lent => Working(z + 1, had, reserved),
            Working(z, had, reserved) if !reported && had + 1 < self.length => Working(z + 1, had + 1, reserved + u32::from(given)),
            Working(z, _, reserved) if rule >= 3 => self.held(z + 1, reserved + u32::from(given)),
            Working(z, ..) => self.rested(z + 1),
            Holding(z, reserved) => self.held(z + 1, reserved + u32::from(given)),
            Resting(z) => self.rested(z + 1),
        }
    }
}

impl Run {
    fn start(words: &[u32]) -> Run {
        let unused = Task { offset: 0, width: 0, length: 0, deadline: 0, period: 0, second: 0, even: false, phase: Resting(0) };
        let fence = u64::from(words[3]) | u64::from(words[4]) << 32;
        let mut run = Run { rule: words[2], cores: words[1], fence, withdrawn: 0, count: 0, tasks: [unused; 32] };
        let mut record = words[0] as usize;
        while record != 0 {
            let at = HEAD + RECORD * (record - 1);
            let offset = words[at + 1];
            let phase = if offset == 0 { Working(0, 0, 0) } else { Coming(offset) };
            let (width, second) = (words[at + 2], words[at + 6]);
            run.tasks[run.count] = Task { offset, width, length: words[at + 3], deadline: words[at + 4], period: words[at + 5], second, even: false, phase };
            run.count += 1;
            record = words[at] as usize;
        }
        run
    }

    /// 14, 15 and 20, else which tasks have cores or borrow.
    fn tick(&self, empties: u32) -> Result<Tick, u32> {
        if !(1..=32).contains(&self.count) || !(1..=64).contains(&self.cores) || !(1..=LENDING).contains(&self.rule) {
            return Err(14 * 256);
        }
        let all = u64::MAX >> (64 - self.cores);
        if self.fence & !all != 0 || self.fence == all || u64::from(self.withdrawn) >> self.count != 0 {
            return Err(14 * 256);
        }
        let unfenced = (all & !self.fence).count_ones();
        let (mut claiming, mut working, mut released, mut late) = (0u32, 0u32, 0u32, 0);
        for (place, task) in self.tasks[..self.count].iter().enumerate() {
            if !task.in_limits(self.rule, unfenced) {
                return Err(14 * 256);
            }
            match task.phase {
                Working(z, ..) => {
                    working |= 1 << place;
                    claiming |= 1 << place;
                    released |= u32::from(z == 0) << place;
                    if z == task.deadline && late == 0 {
                        late = place as u32 + 1;
                    }
                }
                Holding(..) => claiming |= 1 << place,
                _ => {}
            }
        }
        if late != 0 {
            return Err(15 * 256 + late);
        }
        if empties & !released != 0 {
            return Err(20 * 256);
        }
        let empty = released & (empties | self.withdrawn);
        working &= !empty;
        if self.rule < 3 {
            claiming &= !empty;
        }
        let (mut granted, mut free) = (0, unfenced);
        while claiming != 0 {
            let place = claiming.trailing_zeros();
            claiming &= claiming - 1;
            let width = self.tasks[place as usize].wide();
            if width <= free {
                free -= width;
                granted |= 1 << place;
            } else if self.rule == 2 {
                break;
            }
        }
        let served = if self.rule == LENDING { self.lend(granted & !working, working & !granted, |_, _| {}) } else { 0 };
        Ok(Tick { granted, working, served })
    }

    /// The tasks that borrow. Each holder, by priority, lends to waiting tasks below it that fit in what it has left. `each` gets the holder and the borrower.
    fn lend(&self, mut holders: u32, mut waiting: u32, mut each: impl FnMut(usize, usize)) -> u32 {
        let mut served = 0;
        while holders != 0 && waiting != 0 {
            let holder = holders.trailing_zeros() as usize;
            holders &= holders - 1;
            let mut room = self.tasks[holder].wide();
            let mut below = waiting & !(u32::MAX >> (31 - holder));
            while below != 0 && room > 0 {
                let place = below.trailing_zeros() as usize;
                below &= below - 1;
                let width = self.tasks[place].wide();
                if width <= room {
                    room -= width;
                    served |= 1 << place;
                    each(holder, place);
                }
            }
            waiting &= !served;
        }
        served
    }

    fn step(&mut self, reports: u32, empties: u32) -> u32 {
        let tick = match self.tick(empties) {
            Ok(tick) => tick,
            Err(number) => return number,
        };
        if reports & !((tick.granted | tick.served) & tick.working) != 0 {
            return 16 * 256;
        }
        let (rule, empty) = (self.rule, empties | self.withdrawn);
        for (place, task) in self.tasks[..self.count].iter_mut().enumerate() {
            let next = task.next(rule, empty >> place & 1 != 0, tick.granted >> place & 1 != 0, tick.served >> place & 1 != 0, reports >> place & 1 != 0);
            task.even ^= matches!(next, Working(0, ..)) && !matches!(task.phase, Coming(_));
            task.phase = next;
        }
        0
    }

    #[inline(never)]
    fn advance_in_place(&mut self, reports: u32, empties: u32) -> u32 {
        self.step(reports, empties)
    }

    #[inline(never)]
    fn advance(mut self, reports: u32, empties: u32) -> (u32, Run) {
        let number = self.step(reports, empties);
        (number, self)
    }

    fn fill_row(&self, empties: u32, row: &mut [u8; 64]) -> u32 {
        row.fill(0);
        let tick = match self.tick(empties) {
            Ok(tick) => tick,
            Err(number) => return number,
        };
        if self.fence != 0 {
            self.fill_around_fence(tick.granted, row);
        } else {
            self.fill_unfenced(tick.granted, row);
        }
        if tick.served != 0 {
            // a borrower takes the lowest cores that still show the holder
            self.lend(tick.granted & !tick.working, tick.working & !tick.granted, |holder, place| {
                let unlent = row.iter_mut().filter(|core| **core == holder as u8 + 1);
                unlent.take(self.tasks[place].wide() as usize).for_each(|core| *core = place as u8 + 1);
            });
        }
        0
    }

    /// The row without a fence, task by task.
    fn fill_unfenced(&self, granted: u32, row: &mut [u8; 64]) {
        let mut core = 0;
        for (place, task) in self.tasks[..self.count].iter().enumerate() {
            if granted >> place & 1 != 0 {
                let end = core + task.wide() as usize;
                row[core..end].fill(place as u8 + 1);
                core = end;
            }
        }
    }

    /// The row with 255 on fenced cores, core by core.
    fn fill_around_fence(&self, granted: u32, row: &mut [u8; 64]) {
        for core in 0..self.cores as usize {
            row[core] = if self.fence >> core & 1 != 0 { 255 } else { 0 };
        }
        let mut free = u64::MAX >> (64 - self.cores) & !self.fence;
        for (place, task) in self.tasks[..self.count].iter().enumerate() {
            if granted >> place & 1 != 0 {
                for _ in 0..task.wide() {
                    row[free.trailing_zeros() as usize & 63] = place as u8 + 1;
                    free &= free - 1;
                }
            }
        }
    }

    #[inline(never)]
    fn row_in_place(&self, empties: u32, row: &mut [u8; 64]) -> u32 {
        self.fill_row(empties, row)
    }

    #[inline(never)]
    fn row(self, empties: u32) -> (u32, [u8; 64]) {
        let mut row = [0; 64];
        (self.fill_row(empties, &mut row), row)
    }
}

/// A random number generator that is good enough for tables.
struct Rng(u64);

impl Rng {
    fn below(&mut self, n: u32) -> u32 {
        self.0 = self.0.wrapping_mul(6364136223846793005).wrapping_add(1442695040888963407);
        ((self.0 >> 33) % u64::from(n)) as u32
    }
}

/// The words of a table of `count` tasks on 64 cores that the judge calls Firm, with a short horizon.
fn table(count: u32, rule: u32, fence: u64) -> Vec<u32> {
    let mut rng = Rng(u64::from(count));
    loop {
        let mut words = vec![1, 64, rule, fence as u32, (fence >> 32) as u32];
        let mut widths: Vec<u32> = (0..count).map(|_| 1 + rng.below(128 / count.max(4))).collect();
        widths.sort();
        for (place, width) in (1..).zip(widths) {
            let period = [8, 10, 16, 20, 40, 80][rng.below(6) as usize];
            let length = period / 2 + rng.below(period / 2);
            words.extend([if place < count { place + 1 } else { 0 }, rng.below(4), width, length, period, period, width]);
        }
        let mut answer = [0; 3];
        unsafe { sivorandra_judge(words.as_ptr(), words.len(), answer.as_mut_ptr(), 3) };
        if answer[0] == 0 {
            return words;
        }
    }
}

/// The table with just its unfenced cores, as the simulator reads it.
fn for_simulator(words: &[u32]) -> Vec<u32> {
    let fenced = words[3].count_ones() + words[4].count_ones();
    let records = words[HEAD..].chunks(RECORD).flat_map(|record| &record[..RECORD - 1]);
    [words[0], words[1] - fenced, words[2]].iter().chain(records).copied().collect()
}

/// Accepted entries: now and then a job that works in the tick ends early.
fn entries(words: &[u32]) -> Vec<Entry> {
    let (mut rng, mut run) = (Rng(1), Run::start(words));
    let mut list = Vec::with_capacity(TICKS);
    for _ in 0..TICKS {
        let tick = run.tick(0).expect("a firm table");
        let ended = (tick.granted | tick.served) & tick.working & if rng.below(4) == 0 { 1 << rng.below(32) } else { 0 };
        assert_eq!(run.step(ended, 0), 0);
        list.push([0, ended, 0]);
    }
    list
}

/// The least of several times, in nanoseconds of this thread per tick.
fn best(mut work: impl FnMut()) -> f64 {
    let now = || unsafe {
        let mut time = [0; 2];
        clock_gettime(3, &mut time);
        time[0] as f64 * 1e9 + time[1] as f64
    };
    (0..RUNS).map(|_| (now(), work(), now())).map(|(from, (), to)| to - from).fold(f64::MAX, f64::min) / TICKS as f64
}

/// Times of one table: advances without rows and with them, by the library, the simulator, where it has the rule, and Rust by value and in place. Last: the library's advance on a run kept in words.
fn times(words: &[u32], list: &[Entry]) -> [f64; 9] {
    let mut answer = [0; 3];
    let (mut numbers, mut row, mut others) = (vec![1; TICKS], [0; 64], vec![1; TICKS]);
    let ours = best(|| unsafe {
        sivorandra_replay(words.as_ptr(), words.len(), list.as_ptr().cast(), 3 * list.len(), numbers.as_mut_ptr(), TICKS, row.as_mut_ptr(), 64, answer.as_mut_ptr(), 3);
    });
    let (mut simulator, mut simulator_row) = (f64::NAN, f64::NAN);
    if words[2] != LENDING {
        let three = for_simulator(words);
        simulator = best(|| simulator::advances(&three, list, false, &mut others));
        assert_eq!(numbers, others);
        simulator_row = best(|| simulator::advances(&three, list, true, &mut others));
    }

    let mut last = Run::start(words);
    let value = best(|| {
        let mut run = Run::start(words);
        for (number, &[_, reports, empties]) in others.iter_mut().zip(list) {
            (*number, run) = run.advance(reports, empties);
        }
        last = run;
    });
    assert_eq!(numbers, others);
    assert_eq!(last.row(0), (0, row));
    let value_row = best(|| {
        let mut run = Run::start(words);
        for (number, &[_, reports, empties]) in others.iter_mut().zip(list) {
            black_box(run.row(empties));
            (*number, run) = run.advance(reports, empties);
        }
    });
    let place = best(|| {
        let mut run = Run::start(words);
        for (number, &[_, reports, empties]) in others.iter_mut().zip(list) {
            *number = run.advance_in_place(reports, empties);
        }
        last = run;
    });
    assert_eq!(numbers, others);
    let mut shown = [0; 64];
    let place_row = best(|| {
        let mut run = Run::start(words);
        for (number, &[_, reports, empties]) in others.iter_mut().zip(list) {
            run.row_in_place(empties, &mut shown);
            *number = run.advance_in_place(reports, empties);
        }
    });
    black_box(shown);

    let mut kept = [0; RUN_WORDS];
    let mut keep = |rows: bool| {
        best(|| unsafe {
            sivorandra_start(words.as_ptr(), words.len(), kept.as_mut_ptr(), RUN_WORDS, answer.as_mut_ptr(), 3);
            for &[_, reports, empties] in list {
                if rows {
                    sivorandra_row(kept.as_ptr(), RUN_WORDS, empties, shown.as_mut_ptr(), 64, answer.as_mut_ptr(), 3);
                }
                sivorandra_advance(kept.as_mut_ptr(), RUN_WORDS, reports, empties, answer.as_mut_ptr(), 3);
            }
        })
    };
    let words_alone = keep(false);
    let ours_row = ours + keep(true) - words_alone;
    [ours, simulator, value, place, ours_row, simulator_row, value_row, place_row, words_alone]
}

/// The lines of one table size: the mean over rules.
fn lines(name: &str, count: u32, fence: u64, rules: &[u32]) {
    let mut mean = [0.0; 9];
    for &rule in rules {
        let words = table(count, rule, fence);
        let list = entries(&words);
        for (sum, time) in mean.iter_mut().zip(times(&words, &list)) {
            *sum += time / rules.len() as f64;
        }
    }
    let known = |text: String| if text.starts_with("NaN") { String::new() } else { text };
    for (what, at) in [("advance", 0), ("advance with its row", 4)] {
        let [ours, simulator, value, place] = [mean[at], mean[at + 1], mean[at + 2], mean[at + 3]];
        let beside = [known(format!("{simulator:.0} ns")), known(format!("{:.2}", ours / simulator))];
        println!("| {name} | {what} | {ours:.0} ns | {} | {value:.0} ns | {place:.0} ns | {} | {:.2} | {:.2} |", beside[0], beside[1], ours / value, ours / place);
    }
    let ours = mean[8];
    println!("| {name} | advance of a run kept in words | {ours:.0} ns | | | | {} | {:.2} | {:.2} |", known(format!("{:.2}", ours / mean[1])), ours / mean[2], ours / mean[3]);
}

fn main() {
    println!("| tasks | | library | simulator | Rust by value | Rust in place | library / simulator | library / by value | library / in place |");
    println!("| --- | --- | --- | --- | --- | --- | --- | --- | --- |");
    for (count, fence) in [(1, 0), (8, 0), (32, 0), (32, FENCE)] {
        lines(&format!("{count}{}", if fence == 0 { "" } else { ", fenced" }), count, fence, &[1, 2, 3]);
    }
    for count in [8, 32] {
        lines(&format!("{count}, lending"), count, 0, &[LENDING]);
    }
}
