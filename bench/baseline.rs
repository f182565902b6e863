// A fast baseline: a plain Rust judge written for speed by the judges' own methods, to be measured beside them. Not proved; bench/verdict checks it against the simulator.
//
// The full-length run tick by tick on sets of 32 bits. Releases and deadlines are handled only at the next event. The choice is kept while the claimants and their widths are unchanged.
// With the word `jump` it simulates event by event: while no job is due and none ends, every tick is as the one before. It skips the deadline of a job that has ended.

use std::io::Read;

#[derive(Clone, Copy, Default)]
pub struct Task {
    pub offset: u32,
    pub width: u32,
    pub length: u32,
    pub deadline: u32,
    pub period: u32,
    /// The width of every even job.
    pub second: u32,
}

impl Task {
    fn widest(&self) -> u32 {
        self.width.max(self.second)
    }

    fn narrowest(&self) -> u32 {
        self.width.min(self.second)
    }

    /// The ticks after which its releases and widths repeat.
    fn cycle(&self) -> u64 {
        u64::from(self.period) << u32::from(self.width != self.second)
    }
}

pub struct Table {
    /// The cores outside the fence.
    pub cores: u32,
    pub rule: u32,
    pub tasks: Vec<Task>,
    pub s: u64,
    pub p: u64,
}

type Refusal = (u32, usize);

const MOST_HORIZON: u64 = 1_000_000_000;

/// Words before the records, of a record, and of all of them.
const HEAD: usize = 5;
const RECORD: usize = 7;
const MOST_WORDS: usize = HEAD + RECORD * 32;

pub fn numbers(text: &[u8]) -> Option<Vec<u32>> {
    let mut numbers = Vec::with_capacity(MOST_WORDS);
    if text.is_empty() {
        return Some(numbers);
    }
    for line in text.strip_suffix(b"\n").unwrap_or(text).split(|&b| b == b'\n') {
        if line.is_empty() || line.len() > 10 || !line.iter().all(u8::is_ascii_digit) || numbers.len() == MOST_WORDS {
            return None;
        }
        let value = line.iter().fold(0u64, |n, &digit| n * 10 + u64::from(digit - b'0'));
        numbers.push(u32::try_from(value).ok()?);
    }
    Some(numbers)
}

fn gcd(a: u64, b: u64) -> u64 {
    if b == 0 { a } else { gcd(b, a % b) }
}

pub fn load(text: &[u8]) -> Result<Table, Refusal> {
    let words = numbers(text).ok_or((1, 0))?;
    if words.len() < HEAD || (words.len() - HEAD) % RECORD != 0 {
        return Err((1, 0));
    }
    let (head, cores, rule) = (words[0] as usize, words[1], words[2]);
    if !(1..=64).contains(&cores) {
        return Err((2, 0));
    }
    if !(1..=4).contains(&rule) {
        return Err((3, 0));
    }
    let (all, fence) = (u64::MAX >> (64 - cores), u64::from(words[3]) | u64::from(words[4]) << 32);
    if fence & !all != 0 || fence == all {
        return Err((19, 0));
    }
    let cores = (all & !fence).count_ones();
    if head == 0 {
        return Err((4, 0));
    }
    let (mut tasks, mut met, mut number) = (Vec::with_capacity(32), 0u64, head);
    while number != 0 {
        if number > (words.len() - HEAD) / RECORD {
            return Err((5, 0));
        }
        if met >> number & 1 != 0 {
            return Err((6, 0));
        }
        met |= 1 << number;
        let record = &words[HEAD + RECORD * (number - 1)..][..RECORD];
        tasks.push(Task { offset: record[1], width: record[2], length: record[3], deadline: record[4], period: record[5], second: record[6] });
        number = record[0] as usize;
    }
    for (place, task) in tasks.iter().enumerate() {
        if task.narrowest() < 1 || task.widest() > cores {
            return Err((7, place + 1));
        }
        let limit = 1..=1_000_000;
        if task.offset > 1_000_000 || !limit.contains(&task.length) || !limit.contains(&task.period) || !(1..=task.period).contains(&task.deadline) {
            return Err((8, place + 1));
        }
    }
    let (mut s, mut p) = (0, 1);
    for task in &tasks {
        let (offset, period) = (u64::from(task.offset), u64::from(task.period));
        s = offset + s.max(offset).abs_diff(offset).div_ceil(period) * period;
        p = p / gcd(p, task.cycle()) * task.cycle();
        if p > MOST_HORIZON {
            return Err((9, 0));
        }
    }
    if s + p > MOST_HORIZON {
        return Err((9, 0));
    }
    Ok(Table { cores, rule, tasks, s, p })
}

pub fn choose(table: &Table, width: &[u32; 32], mut claiming: u32) -> u32 {
    let (mut free, mut granted) = (table.cores, 0);
    while claiming != 0 && free > 0 {
        let place = claiming.trailing_zeros();
        claiming &= claiming - 1;
        if width[place as usize & 31] <= free {
            free -= width[place as usize & 31];
            granted |= 1 << place;
        } else if table.rule == 2 {
            break;
        }
    }
    granted
}

/// Tick and position of the first miss up to and including the horizon.
pub fn first_miss<const JUMP: bool>(table: &Table) -> Option<(u32, usize)> {
    let count = table.tasks.len();
    let mut tasks = [Task::default(); 32];
    tasks[..count].copy_from_slice(&table.tasks);
    let mut width = tasks.map(|task| task.second); // of the newest job; before the first release the second one, which the first changes
    let change = tasks.map(|task| task.width ^ task.second);
    let length = tasks.map(|task| task.length);
    let deadline = tasks.map(|task| task.deadline);
    let period = tasks.map(|task| task.period);
    let mut left = [0u32; 32]; // ticks owed; 0: not claiming
    let mut event = [u32::MAX; 32]; // the deadline while claiming, else the next release
    let mut next = [0u32; 32]; // the next release
    for place in 0..count {
        event[place] = tasks[place].offset;
    }
    let end = (table.s + table.p) as u32;
    let (mut tick, mut next_event, mut claiming, mut chosen, mut granted, mut changed) = (0, 0, 0u32, 0, 0u32, 0);
    loop {
        if tick == next_event {
            let mut due = 0u32;
            for place in 0..32 {
                due |= u32::from(event[place] == tick) << place;
            }
            while due != 0 {
                let place = due.trailing_zeros() as usize & 31;
                due &= due - 1;
                if left[place] > 0 {
                    return Some((tick, place + 1));
                }
                left[place] = length[place];
                event[place] = tick + deadline[place];
                next[place] = tick + period[place];
                claiming |= 1 << place;
                width[place] ^= change[place];
                changed |= change[place];
            }
            next_event = event.iter().fold(u32::MAX, |a, &b| a.min(b));
        }
        if tick == end {
            return None;
        }
        if claiming != chosen || changed != 0 {
            (chosen, changed) = (claiming, 0);
            granted = choose(table, &width, claiming);
        }
        let mut ticks = 1;
        if JUMP {
            ticks = next_event.min(end) - tick;
            let mut rest = granted;
            while rest != 0 {
                ticks = ticks.min(left[rest.trailing_zeros() as usize & 31]);
                rest &= rest - 1;
            }
        }
        let mut rest = granted;
        while rest != 0 {
            let place = rest.trailing_zeros() as usize & 31;
            rest &= rest - 1;
            left[place] -= ticks;
            if left[place] == 0 {
                claiming &= !(1 << place);
                event[place] = next[place];
            }
        }
        tick += ticks;
    }
}

/// The verdict's line, tick by tick or event by event.
pub fn verdict(table: &Table, jump: bool) -> String {
    let miss = if jump { first_miss::<true>(table) } else { first_miss::<false>(table) };
    let firm = table.rule != 1 || table.tasks.windows(2).all(|pair| pair[0].widest() <= pair[1].narrowest());
    match miss {
        Some((tick, position)) => format!("miss {tick} {position}"),
        None => format!("{} {} {}", if firm { "firm" } else { "full" }, table.s, table.p),
    }
}

fn main() {
    let mut text = Vec::new();
    std::io::stdin().lock().read_to_end(&mut text).expect("standard input can be read");
    match load(&text) {
        Ok(table) => println!("{}", verdict(&table, std::env::args().nth(1).as_deref() == Some("jump"))),
        Err((number, position)) => println!("refused {number} {position}"),
    }
}
