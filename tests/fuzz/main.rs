//! The library beside the simulator by another hand. `fuzz` runs a fixed seed; `fuzz --long SECONDS` goes on with new seeds until then;
//! `fuzz --seed N` begins with the seed N, which a difference prints. The last line is 'N passed, M failed'.
mod calls;
mod empty_slices;
mod exhaustive;
mod fences;
mod hand_built_runs;
mod lending;
mod random;
mod rng;
mod simulator;
mod sustainability;
mod tables;
mod vectors;

use calls::Checked;
use simulator::Answer;
use sivorandra::{Entry, Verdict};
use std::collections::HashSet;
use std::sync::atomic::{AtomicU64, Ordering};
use std::time::{Duration, Instant, SystemTime, UNIX_EPOCH};

const FIXED_SEED: u64 = 1;
/// Batches of a run with a fixed seed.
const BATCHES: u64 = 125;
/// What a batch has: random tables, random runs built by hand, small tables searched.
const TABLES: u64 = 1_000;
const RUNS: u64 = 1_000;
const SEARCHES: u64 = 2;
const THREADS: usize = 2;
/// Differences beyond these are counted and not printed.
const MOST_PRINTED: u64 = 20;
/// The fewest small tables searched.
const FEWEST_SEARCHED: usize = 200;
/// The fewest pairs of lists compared in which the first has no longer job: those on firm tables, and those on full tables in which it is behind.
const FEWEST_SUSTAINED: u64 = 100_000;
const FEWEST_BEHIND: u64 = 1_000;
/// The fewest tables with a fence that are not refused, also with one in the second word, also with one that leaves one core.
const FEWEST_FENCED: u64 = 1_000;
/// The fewest tables with tasks of two widths that are firm, full, miss, and miss with an even job of such a task.
const FEWEST_PAIRS: u64 = 1_000;
/// The numbers that the calls tried here can return; 17 and 18 are the sentence's.
const NUMBERS: [usize; 20] = [1, 2, 3, 4, 5, 6, 7, 8, 9, 10, 11, 12, 13, 14, 15, 16, 19, 20, 21, 22];
const LAST: usize = 22;
/// The fewest accepted advances with an empty job.
const FEWEST_EMPTY: u64 = 100_000;
/// The fewest accepted withdrawals, and the fewest of several positions.
const FEWEST_WITHDRAWN: u64 = 10_000;
const FEWEST_TOGETHER: u64 = 10_000;

/// The fewest tables under lending that are not refused; the fewest accepted advances with a borrower, also with a borrower reported.
const FEWEST_LENDING: u64 = 10_000;
const FEWEST_BORROWED: u64 = 5_000;
/// The fewest rows shown as sets, and the fewest with a borrower.
const FEWEST_SETS: u64 = 100_000;

/// Counts of the library's answers.
#[derive(Default)]
pub struct Counts {
    passed: u64,
    failed: u64,
    firm: u64,
    full: u64,
    miss: u64,
    /// Tables that are not refused and have a fence; of these, those with a fence in the second word, and those with one core left.
    fenced: u64,
    second: u64,
    alone: u64,
    /// Tables with a task of two widths: firm ones, full ones, those that miss, and of these those whose late job is an even one of such a task.
    pairs: [u64; 4],
    numbers: [u64; LAST + 1],
    tables: u64,
    plans: u64,
    replays: u64,
    /// Replays that end in a missed deadline.
    late: u64,
    advances: u64,
    /// Accepted advances with an empty job, and withdrawals, of one position and of several together.
    empty: u64,
    withdrawn: u64,
    together: u64,
    /// Tables under lending that are not refused; accepted advances with a borrower, and those with a borrower reported.
    lending: u64,
    borrowed: u64,
    borrower_reported: u64,
    /// Rows that are shown as sets, and those with a borrower.
    sets: u64,
    lent_sets: u64,
    runs: u64,
    nodes: u64,
    /// Nodes at which a deadline is missed.
    ends: u64,
    /// Pairs of lists in which the first has no longer job: on firm tables, where it must be behind on none, and on full ones and under lending, where it is behind.
    sustained: u64,
    behind: u64,
    behind_by_lending: u64,
    searched: HashSet<Vec<u32>>,
}

impl Counts {
    pub fn answer(&mut self, answer: &Answer<()>) {
        if let Err(refusal) = answer {
            self.numbers[(refusal.number() as usize).min(LAST)] += 1;
        }
    }

    /// An entry of a list, its tick's borrowers, and its answer.
    pub fn entered(&mut self, entry: Entry, borrowers: u32, answer: &Answer<()>) {
        self.answer(answer);
        match entry {
            Entry::Withdraw { .. } => self.withdrawn += u64::from(answer.is_ok()),
            Entry::WithdrawAll { set } => self.together += u64::from(answer.is_ok() && set.count_ones() > 1),
            Entry::Advance { empties, reports } => {
                self.advances += 1;
                self.empty += u64::from(answer.is_ok() && empties != 0);
                if answer.is_ok() {
                    self.borrowing(borrowers, reports);
                }
            }
            other => panic!("no such entry: {other:?}"),
        }
    }

    /// A row as sets, and the borrowers of its tick.
    pub fn asked(&mut self, borrowers: u32, answer: &Answer<()>) {
        self.answer(answer);
        self.sets += u64::from(answer.is_ok());
        self.lent_sets += u64::from(borrowers != 0);
    }

    /// An accepted advance: the borrowers, and the tasks reported.
    pub fn borrowing(&mut self, borrowers: u32, reports: u32) {
        self.borrowed += u64::from(borrowers != 0);
        self.borrower_reported += u64::from(borrowers & reports != 0);
    }

    pub fn verdict(&mut self, verdict: &Answer<Verdict>) {
        match verdict {
            Ok(Verdict::Firm { .. }) => self.firm += 1,
            Ok(Verdict::Full { .. }) => self.full += 1,
            Ok(Verdict::Miss { .. }) => self.miss += 1,
            Err(_) => self.answer(&verdict.map(|_| ())),
        }
    }

    /// Of a table that is not refused: whether a task has two widths, and whether the late job is an even one of such a task.
    pub fn pairs(&mut self, (pairs, late_even): (bool, bool), verdict: Answer<Verdict>) {
        let at = match verdict {
            Ok(Verdict::Firm { .. }) => 0,
            Ok(Verdict::Full { .. }) => 1,
            _ => 2,
        };
        self.pairs[at] += u64::from(pairs);
        self.pairs[3] += u64::from(late_even);
    }

    fn count(&mut self, tried: Checked<()>) {
        match tried {
            Ok(()) => self.passed += 1,
            Err(why) => {
                self.failed += 1;
                if self.failed <= MOST_PRINTED {
                    println!("fuzz: {why}");
                }
            }
        }
    }

    fn add(&mut self, other: Counts) {
        let numbers = self.numbers.iter_mut().zip(other.numbers);
        numbers.for_each(|(here, there)| *here += there);
        self.pairs.iter_mut().zip(other.pairs).for_each(|(here, there)| *here += there);
        self.passed += other.passed;
        self.failed += other.failed;
        self.firm += other.firm;
        self.full += other.full;
        self.miss += other.miss;
        self.fenced += other.fenced;
        self.second += other.second;
        self.alone += other.alone;
        self.tables += other.tables;
        self.plans += other.plans;
        self.replays += other.replays;
        self.late += other.late;
        self.advances += other.advances;
        self.empty += other.empty;
        self.withdrawn += other.withdrawn;
        self.together += other.together;
        self.lending += other.lending;
        self.borrowed += other.borrowed;
        self.borrower_reported += other.borrower_reported;
        self.sets += other.sets;
        self.lent_sets += other.lent_sets;
        self.runs += other.runs;
        self.nodes += other.nodes;
        self.ends += other.ends;
        self.sustained += other.sustained;
        self.behind += other.behind;
        self.behind_by_lending += other.behind_by_lending;
        self.searched.extend(other.searched);
    }

    fn batch(&mut self, first: u64) {
        for seed in first..first + TABLES {
            let tried = random::case(seed, self);
            self.count(tried);
            self.tables += 1;
        }
        for seed in first..first + RUNS {
            let tried = hand_built_runs::case(seed, self);
            self.count(tried);
            self.runs += 1;
        }
        for seed in first..first + SEARCHES {
            let tried = exhaustive::case(seed, self);
            self.count(tried);
        }
    }
}

/// The seed to begin with, and how long to go on; by default the fixed number of batches.
fn arguments() -> Option<(u64, Option<Duration>)> {
    let words: Vec<String> = std::env::args().skip(1).collect();
    let words: Vec<&str> = words.iter().map(String::as_str).collect();
    match words[..] {
        [] => Some((FIXED_SEED, None)),
        ["--seed", seed] => Some((seed.parse().ok()?, None)),
        ["--long", seconds] => {
            let now = SystemTime::now().duration_since(UNIX_EPOCH).ok()?;
            Some((now.as_micros() as u64, Some(Duration::from_secs(seconds.parse().ok()?))))
        }
        _ => None,
    }
}

fn main() {
    let Some((seed, long)) = arguments() else {
        println!("usage: fuzz [--long SECONDS | --seed N]");
        println!("0 passed, 1 failed");
        std::process::exit(2);
    };
    println!("fuzz: seed {seed}");
    simulator::begin();
    let begun = Instant::now();
    let mut counts = Counts::default();
    let fixed = [vectors::all(), empty_slices::all(), hand_built_runs::all(&mut counts)].concat();
    for (what, is_run) in [("plan", false), ("run", true)] {
        if !fixed.iter().any(|(name, _)| name.starts_with("vector") && name.ends_with("a run") == is_run) {
            counts.count(Err(format!("no {what} vector")));
        }
    }
    for (name, tried) in fixed {
        counts.count(tried.map_err(|why| format!("{name}: {why}")));
    }
    let next = AtomicU64::new(0);
    let work = || {
        let mut counts = Counts::default();
        loop {
            let batch = next.fetch_add(1, Ordering::Relaxed);
            if long.map_or(batch >= BATCHES, |long| begun.elapsed() >= long) {
                return counts;
            }
            counts.batch(seed.wrapping_add(batch * TABLES));
        }
    };
    std::thread::scope(|scope| {
        let threads: Vec<_> = (0..THREADS).map(|_| scope.spawn(work)).collect();
        for thread in threads {
            match thread.join() {
                Ok(theirs) => counts.add(theirs),
                Err(_) => counts.count(Err("a thread stopped".into())),
            }
        }
    });
    let Counts { tables, firm, full, miss, fenced, second, alone, plans, replays, late, advances, empty, withdrawn, together, runs, nodes, ends, sustained, behind, behind_by_lending, .. } = counts;
    let Counts { lending, borrowed, borrower_reported, sets, lent_sets, .. } = counts;
    println!("fuzz: {tables} tables (firm {firm}, full {full}, miss {miss}), {plans} plans, {replays} replays ({late} to a missed deadline), {advances} advances ({empty} taken with an empty job), {withdrawn} withdrawals and {together} of several positions together taken, {runs} runs built by hand");
    println!("fuzz: {} small tables searched, {nodes} nodes ({ends} at a missed deadline)", counts.searched.len());
    println!("fuzz: {sustained} pairs of lists of firm tables with no longer job in the first, which is behind on none; {behind} of full tables, where it is behind, and {behind_by_lending} under lending");
    println!("fuzz: {lending} of the tables that are not refused are under lending; {borrowed} advances are taken in which somebody borrows, {borrower_reported} with a borrower reported");
    println!("fuzz: {sets} rows are shown as sets, in {lent_sets} of them somebody borrows");
    println!("fuzz: {fenced} of the tables that are not refused have a fence, {second} of them in the second word, {alone} that leaves one core");
    let [pairs_firm, pairs_full, pairs_miss, late_even] = counts.pairs;
    println!("fuzz: tables with a task of two widths: firm {pairs_firm}, full {pairs_full}, miss {pairs_miss}, {late_even} of them with an even job of such a task");
    let often: Vec<String> = NUMBERS.map(|number| format!("{number}: {}", counts.numbers[number])).to_vec();
    println!("fuzz: numbers among the answers: {}", often.join(", "));
    if long.is_none() {
        for number in NUMBERS {
            let seen = counts.numbers[number] > 0;
            counts.count(if seen { Ok(()) } else { Err(format!("{number} was never answered")) });
        }
        for (what, seen) in [("", fenced), (" in the second word", second), (" that leaves one core", alone)] {
            counts.count(if seen >= FEWEST_FENCED { Ok(()) } else { Err(format!("only {seen} tables with a fence{what}")) });
        }
        for (what, seen) in ["are firm", "are full", "miss", "miss with an even job"].into_iter().zip(counts.pairs) {
            counts.count(if seen >= FEWEST_PAIRS { Ok(()) } else { Err(format!("only {seen} tables with two widths {what}")) });
        }
        counts.count(if empty >= FEWEST_EMPTY { Ok(()) } else { Err(format!("only {empty} advances taken with an empty job")) });
        for (what, seen, fewest) in [("tables under lending", lending, FEWEST_LENDING), ("advances with a borrower", borrowed, FEWEST_BORROWED), ("advances with a borrower reported", borrower_reported, FEWEST_BORROWED)] {
            counts.count(if seen >= fewest { Ok(()) } else { Err(format!("only {seen} {what}")) });
        }
        for (what, seen, fewest) in [("rows shown as sets", sets, FEWEST_SETS), ("rows shown as sets in which somebody borrows", lent_sets, FEWEST_BORROWED)] {
            counts.count(if seen >= fewest { Ok(()) } else { Err(format!("only {seen} {what}")) });
        }
        counts.count(if withdrawn >= FEWEST_WITHDRAWN { Ok(()) } else { Err(format!("only {withdrawn} withdrawals taken")) });
        counts.count(if together >= FEWEST_TOGETHER { Ok(()) } else { Err(format!("only {together} withdrawals of several positions together taken")) });
        let searched = counts.searched.len();
        counts.count(if searched >= FEWEST_SEARCHED { Ok(()) } else { Err(format!("only {searched} small tables")) });
        counts.count(if sustained >= FEWEST_SUSTAINED { Ok(()) } else { Err(format!("only {sustained} pairs of lists of firm tables with no longer job in the first")) });
        counts.count(if behind >= FEWEST_BEHIND { Ok(()) } else { Err(format!("only {behind} pairs of lists of full tables with no longer job in the first, which is behind")) });
    }
    println!("fuzz: {:.0} s", begun.elapsed().as_secs_f64());
    println!("{} passed, {} failed", counts.passed, counts.failed);
    std::process::exit(i32::from(counts.failed != 0));
}
