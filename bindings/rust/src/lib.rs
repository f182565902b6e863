//! Safe functions over Sivorandra, a proved timing judge for tables of gang tasks.
//!
//! # The run loop
//!
//! ```
//! use sivorandra::{link, Record, Refusal, Run, LENDING};
//!
//! # fn without_work(tick: u32) -> u32 { if tick == 5 { 0b010 } else { 0 } }
//! # fn dispatch(_: &[u64; 32], _: u32, tick: u32) -> u32 { (tick == 0) as u32 }
//! fn cab() -> Result<(), Refusal> {
//!     // offset, width of odd jobs, length, deadline, period, width of even jobs; position 1 first
//!     let records = [[0, 2, 2, 5, 5, 2], [0, 2, 3, 5, 5, 2], [0, 1, 4, 5, 5, 1]].map(Record::from);
//!     let mut run = Run::start(link(3, LENDING, 0, &records, &[0, 1, 2])?.words())?;
//!     for tick in 0..12 {
//!         let empties = without_work(tick); // of the jobs that are released now: those with no work
//!         let sets = run.sets(empties)?; // sets[0]: the cores of position 1, core 0 the lowest bit
//!         let working = run.working(empties)?; // the positions whose job is to run now
//!         let ended = dispatch(&sets, working, tick); // the tick passes; which of them have ended?
//!         run.advance(ended & working, empties)?; // a refusal leaves the run as it was
//!         if tick == 7 {
//!             run.withdraw(3)?; // all later jobs of position 3 are empty
//!         }
//!     }
//!     Ok(())
//! }
//! # cab().unwrap();
//! ```
//!
//! - A set of positions has bit 0 for position 1, the highest priority. A job may be empty only in the tick in which it is released.
//! - A position can have cores and not be in `working`: its job has ended and holds them, under rules 3 and 4. A report on it is refused.
//! - A start takes a table that is firm or full; [`judge`] says which. In a firm one no job is ever late. In a full one a job that ends early or is empty can make another
//!   late: [`Refusal::Late`], after which the run stays in its tick for good.
//! - A refusal leaves the run as it was. `{refusal}` prints its sentence and number; `number()` and `position()` return them. [`Refusal::BadEmpty`] and [`Refusal::BadReport`]
//!   are mistakes in the two sets: correct them, and call again. [`Refusal::NotFirm`] and [`Refusal::NoPosition`] refuse a withdrawal. `#![deny(unused_must_use)]` makes a
//!   refusal that is overlooked an error.
//! - `examples/run_loop.rs` is the whole program, and `examples/judge.rs` judges a file.
//!
//! # Linking
//!
//! With cargo the build script finds libsivorandra.a (`tools/archive` makes it; SIVORANDRA_LIB names the folder of another); with rustc alone:
//! `rustc --edition 2021 --cfg 'feature="std"' --crate-type rlib --crate-name sivorandra -L native=target/staticlib bindings/rust/src/lib.rs`
//!
//! The library runs on x86-64 Linux today, since the toolchain writes no other archive. Nothing known in the sources stands against another machine, and it was not tried.
//!
//! # Memory
//!
//! Without its default feature `std` the crate is `no_std` and takes no memory from the heap. With it there are also `replay` and `sentence`, which return some. No function has a state
//! of its own: any number of threads may call at once. `include/sivorandra.h` has what a call costs in time and stack.
#![no_std]
#![warn(missing_docs)]
#![deny(unsafe_op_in_unsafe_fn)]

#[cfg(feature = "std")]
extern crate std;

mod refusal;
mod table;

pub use refusal::Refusal;
pub use table::{link, Record, Table};

use core::fmt;
#[cfg(feature = "std")]
use std::{string::String, vec, vec::Vec};

/// The version that these bindings are for: major * 10000 + minor * 100 + patch. `version` is that of the library that is linked.
pub const VERSION: u32 = 2700;

/// The most tasks on a chain, and the most records of a table.
pub const MOST_TASKS: usize = 32;
/// The most cores.
pub const MOST_CORES: usize = 64;
/// The most that O may be.
pub const MOST_OFFSET: u32 = 1_000_000;
/// The most that C may be.
pub const MOST_LENGTH: u32 = 1_000_000;
/// The most that T may be; D is at most T.
pub const MOST_PERIOD: u32 = 1_000_000;
/// The largest horizon, S + P, that a table may have: 9 refuses a larger one.
pub const MOST_HORIZON: u32 = 1_000_000_000;

/// The rule by which a task that fits takes cores, and a task that does not fit is skipped.
pub const GREEDY: u32 = 1;
/// The rule by which the first task that does not fit ends the choosing.
pub const LIMITED: u32 = 2;
/// The rule that is greedy, but a job that ended early still claims its cores until it has claimed C ticks or is due.
pub const IDLING: u32 = 3;
/// The rule that reserves cores as idling gives them, and a job that ended early, or is empty, lends those that are reserved for it: of the tasks below, in order, each that works,
/// has none reserved and has borrowed none in this tick takes the lowest of them that are not lent yet, if its width fits in these.
///
/// ```
/// use sivorandra::{Refusal, Run, LENDING};
///
/// // two cores wanted at position 1, one at position 2
/// let mut run = Run::start(&[1, 2, LENDING, 0, 0, 2, 0, 2, 2, 4, 4, 2, 0, 0, 1, 2, 4, 4, 1])?;
/// run.advance(1, 0)?; // position 1 has ended, and a tick more is reserved for it
/// assert_eq!(run.row(0)?[..run.cores()], [2, 1]); // position 2 borrows one core of two
/// assert_eq!(run.advance(1, 0), Err(Refusal::BadReport)); // a lender does not work
/// run.advance(2, 0)?; // a borrower does
/// # Ok::<(), Refusal>(())
/// ```
pub const LENDING: u32 = 4;

/// The words of a table in front of its records: head, cores, rule, and the fence, the set of cores that no task may use, its low word first:
/// bit c of the low word is core c, bit c of the high word core 32 + c.
pub const TABLE_HEAD_WORDS: usize = 5;
/// The words of a record: next, O, v, C, D, T, w. Odd jobs take v cores, even ones w; where the two differ the task counts with 2T in P.
///
/// ```
/// use sivorandra::{judge, plan, Verdict};
///
/// // four cores on one job, two on the next
/// let table = [1, 4, 1, 0, 0, 0, 0, 4, 1, 1, 1, 2];
/// assert_eq!(judge(&table)?, Verdict::Firm { start: 0, period: 2 });
/// let mut rows = [0; 8];
/// plan(&table, 0, 2, &mut rows)?;
/// assert_eq!(rows, [1, 1, 1, 1, 1, 1, 0, 0]);
/// # Ok::<(), sivorandra::Refusal>(())
/// ```
pub const TABLE_RECORD_WORDS: usize = 7;
/// The most words of a table.
pub const TABLE_WORDS: usize = TABLE_HEAD_WORDS + TABLE_RECORD_WORDS * MOST_TASKS;

/// The words of a run in front of its places: rule, cores, count, the fence, its low word first, and the set of withdrawn positions.
pub const RUN_HEAD_WORDS: usize = 6;
/// The words of a place: O, v, C, D, T, w, the parity of its job (0 odd, 1 even; it changes at each release but the first), the kind of its phase and three numbers, 0 for one that it
/// does not have. 0 Coming: the ticks left to its first release. 1 Working: the ticks since its release, those that its job has had, and those reserved for it; the last two are equal
/// but under lending, where a lent tick is had and not reserved. 2 Holding, under idling and lending: the ticks since its release, and those reserved. 3 Resting: the ticks since its
/// release.
pub const RUN_PLACE_WORDS: usize = 11;
/// The words that a run takes: it has 32 places, of which the first count are used.
pub const RUN_WORDS: usize = RUN_HEAD_WORDS + RUN_PLACE_WORDS * MOST_TASKS;

/// The words of a note of a supplied plan: the kind of the phase that is noted and its three numbers, as a place has them.
pub const NOTE_WORDS: usize = 4;
/// The words that a supplied plan takes: those of its run, its tick, and a note for each place.
pub const PLAN_WORDS: usize = RUN_WORDS + 1 + NOTE_WORDS * MOST_TASKS;

/// The bytes of a run's row: core 0 first, the position, which is the borrower's on a lent core, 0 for idle, or `FENCED`.
pub const ROW_BYTES: usize = MOST_CORES;
/// What a row has on a fenced core.
pub const FENCED: u8 = 255;
/// The sets of a row: one of each position.
pub const SETS: usize = MOST_TASKS;

/// The words of an entry of a list.
#[cfg(feature = "std")]
const ENTRY_WORDS: usize = 3;

/// No sentence is longer: a buffer of this size is never refused with 18.
pub const SENTENCE_BYTES: usize = 700;
/// The words of facts in front of the counts: position, tick, ticks had, and C.
const FACT_HEAD_WORDS: usize = 4;

/// The verdict on a table that is not refused. It is displayed as the program prints it.
///
/// ```
/// use sivorandra::Verdict;
///
/// assert_eq!(Verdict::Firm { start: 0, period: 5 }.to_string(), "firm 0 5");
/// assert_eq!(Verdict::Miss { tick: 5, position: 3 }.to_string(), "miss 5 3");
/// ```
#[derive(Clone, Copy, Debug, PartialEq, Eq, Hash)]
pub enum Verdict {
    /// No deadline is ever missed, not even where jobs end early.
    Firm {
        /// The tick from which the schedule repeats: S.
        start: u32,
        /// How many ticks it takes to repeat: P.
        period: u32,
    },
    /// No deadline is ever missed at full length.
    Full {
        /// The tick from which the schedule repeats: S.
        start: u32,
        /// How many ticks it takes to repeat: P.
        period: u32,
    },
    /// The first deadline that is missed, and the position of its task.
    Miss {
        /// The tick of the deadline.
        tick: u32,
        /// The position of the task, from 1.
        position: u32,
    },
}

impl fmt::Display for Verdict {
    fn fmt(&self, out: &mut fmt::Formatter<'_>) -> fmt::Result {
        match self {
            Verdict::Firm { start, period } => write!(out, "firm {start} {period}"),
            Verdict::Full { start, period } => write!(out, "full {start} {period}"),
            Verdict::Miss { tick, position } => write!(out, "miss {tick} {position}"),
        }
    }
}

/// An entry of a list, which `replay` applies to a run.
///
/// ```
/// use sivorandra::{replay, Entry};
///
/// // in tick 0 the job of position 1 is empty, and in tick 1 that of position 2 ends
/// let table = [1, 3, 1, 0, 0, 2, 0, 2, 2, 5, 5, 2, 3, 0, 2, 3, 5, 5, 2, 0, 0, 1, 4, 5, 5, 1];
/// let list = [Entry::Advance { reports: 0, empties: 1 }, Entry::Advance { reports: 2, empties: 0 }];
/// assert_eq!(replay(&table, &list)?.row?[..3], [3, 0, 0]);
///
/// // under rule 2 two of four tasks that share one core are withdrawn, and then one that does not exist
/// let turns = [1, 1, 2, 0, 0, 2, 0, 1, 1, 4, 4, 1, 3, 0, 1, 1, 4, 4, 1, 4, 0, 1, 1, 4, 4, 1, 0, 0, 1, 1, 4, 4, 1];
/// let out = replay(&turns, &[Entry::WithdrawAll { set: 0b101 }, Entry::WithdrawAll { set: 0b10010 }])?;
/// assert_eq!(out.answers, [Ok(()), Err(sivorandra::Refusal::NoPosition)]);
/// assert_eq!(out.row?[..1], [2]);
/// # Ok::<(), sivorandra::Refusal>(())
/// ```
#[cfg(feature = "std")]
#[derive(Clone, Copy, Debug, PartialEq, Eq, Hash)]
#[non_exhaustive]
pub enum Entry {
    /// One tick, as `Run::advance` moves a run.
    Advance {
        /// Bit p: the job of position p + 1 ends after this tick.
        reports: u32,
        /// Bit p: the job of position p + 1, released in this tick, is empty.
        empties: u32,
    },
    /// A task withdrawn, as by `Run::withdraw`; no tick passes.
    Withdraw {
        /// The position, from 1.
        position: u32,
    },
    /// Several tasks withdrawn together, or none, as by `Run::withdraw_all`; no tick passes.
    WithdrawAll {
        /// Bit p: position p + 1.
        set: u32,
    },
}

#[cfg(feature = "std")]
impl Entry {
    fn words(self) -> [u32; ENTRY_WORDS] {
        match self {
            Entry::Advance { reports, empties } => [0, reports, empties],
            Entry::Withdraw { position } => [1, position, 0],
            Entry::WithdrawAll { set } => [2, set, 0],
        }
    }
}

/// A whole list of entries: the answer to each, and the row after the last.
///
/// ```
/// use sivorandra::{replay, Entry, Refusal};
///
/// let table = [1, 3, 1, 0, 0, 2, 0, 2, 2, 5, 5, 2, 3, 0, 2, 3, 5, 5, 2, 0, 0, 1, 4, 5, 5, 1];
/// let replay = replay(&table, &[2, 1].map(|reports| Entry::Advance { reports, empties: 0 }))?;
/// assert_eq!(replay.answers, [Err(Refusal::BadReport), Ok(())]);
/// assert_eq!(replay.row?[..3], [2, 2, 3]);
/// # Ok::<(), Refusal>(())
/// ```
#[cfg(feature = "std")]
#[derive(Clone, Debug, PartialEq, Eq)]
pub struct Replay {
    /// The answer to each entry of the list.
    pub answers: Vec<Result<(), Refusal>>,
    /// The row of the tick after the last of them, with no empty job.
    pub row: Result<[u8; ROW_BYTES], Refusal>,
}

/// A run in the cab. Its words can be kept anywhere and read back by the version that wrote them: words that are no run are refused with 14. Places past the count are neither
/// read nor changed.
///
/// ```
/// use sivorandra::Run;
///
/// let table = [1, 3, 1, 0, 0, 2, 0, 2, 2, 5, 5, 2, 3, 0, 2, 3, 5, 5, 2, 0, 0, 1, 4, 5, 5, 1];
/// let mut run = Run::start(&table)?;
/// assert_eq!(run.row(0)?[..run.cores()], [1, 1, 3]);
/// run.advance(1, 0)?; // the job of position 1 ends after this tick
/// assert_eq!(run.row(0)?[..run.cores()], [2, 2, 3]);
/// # Ok::<(), sivorandra::Refusal>(())
/// ```
#[derive(Clone, Debug, PartialEq, Eq)]
pub struct Run {
    words: [u32; RUN_WORDS],
}

/// A plan that another planner makes for a table, taken row by row. Its words can be kept anywhere and read back by the version that wrote them: words that are no plan's are refused
/// with 14. A plan that is accepted, repeated from the last S on, meets every deadline at every tick.
///
/// ```
/// use sivorandra::{Refusal, RowAnswer, SuppliedPlan, LIMITED};
///
/// // by this rule a deadline is missed; the supplied plan misses none
/// let table = [1, 3, LIMITED, 0, 0, 2, 0, 2, 2, 5, 5, 2, 3, 0, 2, 3, 5, 5, 2, 0, 0, 1, 4, 5, 5, 1];
/// let mut plan = SuppliedPlan::begin(&table)?;
/// for row in [[1, 1, 3], [1, 1, 3], [2, 2, 3], [2, 2, 3]] {
///     assert_eq!(plan.check_row(&row)?, RowAnswer::Taken);
/// }
/// assert_eq!(plan.check_row(&[0, 0, 0]), Err(Refusal::DeadlineMissed { tick: 5 }));
/// assert_eq!(plan.check_row(&[2, 2, 0])?, RowAnswer::Accepted); // a refusal leaves the plan as it is
/// # Ok::<(), Refusal>(())
/// ```
#[derive(Clone, Debug, PartialEq, Eq)]
pub struct SuppliedPlan {
    words: [u32; PLAN_WORDS],
}

/// The answer to a row of a supplied plan that is not refused.
///
/// ```
/// use sivorandra::{RowAnswer, SuppliedPlan};
///
/// let mut plan = SuppliedPlan::begin(&[1, 1, 1, 0, 0, 0, 0, 1, 1, 2, 2, 1])?;
/// assert_eq!([plan.check_row(&[0])?, plan.check_row(&[1])?], [RowAnswer::Taken, RowAnswer::Accepted]);
/// # Ok::<(), sivorandra::Refusal>(())
/// ```
#[derive(Clone, Copy, Debug, PartialEq, Eq, Hash)]
pub enum RowAnswer {
    /// The row is taken, and there are more to come.
    Taken,
    /// The row is taken as the last, and the whole plan is accepted.
    Accepted,
}

/// The facts of a miss that a sentence contains.
///
/// ```
/// let facts = sivorandra::facts_of(b"task 3 misses at tick 5 with 3 of 4 ticks; task 1 ran 2.").expect("a sentence");
/// assert_eq!((facts.position, facts.tick, facts.had, facts.length), (3, 5, 3, 4));
/// assert_eq!(facts.ran[..2], [2, 0]);
/// ```
#[derive(Clone, Copy, Debug, PartialEq, Eq, Hash)]
pub struct Facts {
    /// The position of the late task.
    pub position: u32,
    /// The tick of the miss.
    pub tick: u64,
    /// The ticks that its job had ..
    pub had: u64,
    /// .. out of C.
    pub length: u64,
    /// In how many of its waiting ticks the task at position p + 1 ran; 0 for one that is not named.
    pub ran: [u64; MOST_TASKS],
}

#[link(name = "sivorandra", kind = "static")]
extern "C" {
    fn sivorandra_version() -> u32;
    fn sivorandra_judge(words: *const u32, words_len: usize, answer: *mut u32, answer_len: usize) -> u32;
    fn sivorandra_judge_ticks(words: *const u32, words_len: usize, answer: *mut u32, answer_len: usize) -> u32;
    fn sivorandra_judge_events(words: *const u32, words_len: usize, answer: *mut u32, answer_len: usize) -> u32;
    fn sivorandra_plan(words: *const u32, words_len: usize, a: u32, b: u32, rows: *mut u8, rows_len: usize, answer: *mut u32, answer_len: usize) -> u32;
    #[cfg(feature = "std")]
    fn sivorandra_replay(
        words: *const u32,
        words_len: usize,
        entries: *const u32,
        entries_len: usize,
        numbers: *mut u32,
        numbers_len: usize,
        row: *mut u8,
        row_len: usize,
        answer: *mut u32,
        answer_len: usize,
    ) -> u32;
    fn sivorandra_start(words: *const u32, words_len: usize, run: *mut u32, run_len: usize, answer: *mut u32, answer_len: usize) -> u32;
    fn sivorandra_row(run: *const u32, run_len: usize, empties: u32, row: *mut u8, row_len: usize, answer: *mut u32, answer_len: usize) -> u32;
    fn sivorandra_sets(run: *const u32, run_len: usize, empties: u32, sets: *mut u64, sets_len: usize, answer: *mut u32, answer_len: usize) -> u32;
    fn sivorandra_working(run: *const u32, run_len: usize, empties: u32, set: *mut u32, set_len: usize, answer: *mut u32, answer_len: usize) -> u32;
    fn sivorandra_withdraw(run: *mut u32, run_len: usize, position: u32, answer: *mut u32, answer_len: usize) -> u32;
    fn sivorandra_withdraw_all(run: *mut u32, run_len: usize, set: u32, answer: *mut u32, answer_len: usize) -> u32;
    fn sivorandra_sentence(words: *const u32, words_len: usize, buffer: *mut u8, buffer_len: usize, answer: *mut u32, answer_len: usize) -> u32;
    fn sivorandra_facts(bytes: *const u8, bytes_len: usize, facts: *mut u64, facts_len: usize, answer: *mut u32, answer_len: usize) -> u32;
    fn sivorandra_advance(run: *mut u32, run_len: usize, reports: u32, empties: u32, answer: *mut u32, answer_len: usize) -> u32;
    fn sivorandra_response_times(words: *const u32, words_len: usize, figures: *mut u32, figures_len: usize, answer: *mut u32, answer_len: usize) -> u32;
    fn sivorandra_conflict(words: *const u32, words_len: usize, answer: *mut u32, answer_len: usize) -> u32;
    fn sivorandra_slack(words: *const u32, words_len: usize, figures: *mut u32, figures_len: usize, answer: *mut u32, answer_len: usize) -> u32;
    fn sivorandra_bounds(words: *const u32, words_len: usize, figures: *mut u32, figures_len: usize, answer: *mut u32, answer_len: usize) -> u32;
    fn sivorandra_check_begin(words: *const u32, words_len: usize, plan: *mut u32, plan_len: usize, answer: *mut u32, answer_len: usize) -> u32;
    fn sivorandra_check_row(plan: *mut u32, plan_len: usize, row: *const u8, row_len: usize, answer: *mut u32, answer_len: usize) -> u32;
}

/// The three words of an answer: every slice that these functions lend is long enough.
fn ask(call: impl FnOnce(*mut u32, usize) -> u32) -> [u32; 3] {
    let mut answer = [0; 3];
    let value = call(answer.as_mut_ptr(), answer.len());
    assert_eq!(value, 0, "a lent slice is too short");
    answer
}

/// The number that is given in an answer.
fn given([case, first, second]: [u32; 3]) -> Result<u32, Refusal> {
    match case {
        0 => Ok(first),
        _ => Err(Refusal::new(first, second)),
    }
}

fn done(answer: [u32; 3]) -> Result<(), Refusal> {
    given(answer).map(|_| ())
}

/// A figure for each task.
fn figures(call: impl FnOnce(*mut u32, usize, *mut u32, usize) -> u32) -> Result<[u32; MOST_TASKS], Refusal> {
    let mut figures = [0; MOST_TASKS];
    done(ask(|answer, len| call(figures.as_mut_ptr(), figures.len(), answer, len)))?;
    Ok(figures)
}

fn verdict([case, first, second]: [u32; 3]) -> Result<Verdict, Refusal> {
    match case {
        0 => Ok(Verdict::Firm { start: first, period: second }),
        1 => Ok(Verdict::Full { start: first, period: second }),
        2 => Ok(Verdict::Miss { tick: first, position: second }),
        _ => Err(Refusal::new(first, second)),
    }
}

/// The version of the library that is linked: major * 10000 + minor * 100 + patch. Keep it beside the words of a run.
///
/// ```
/// assert_eq!(sivorandra::version(), sivorandra::VERSION);
/// ```
pub fn version() -> u32 {
    unsafe { sivorandra_version() }
}

/// The verdict on a table's words: by the interference test where the table passes it, else event by event or tick by tick, whichever is faster.
///
/// ```
/// use sivorandra::{judge, Refusal, Verdict};
///
/// let mut table = [1, 3, 1, 0, 0, 2, 0, 2, 2, 5, 5, 2, 3, 0, 2, 3, 5, 5, 2, 0, 0, 1, 4, 5, 5, 1];
/// assert_eq!(judge(&table), Ok(Verdict::Full { start: 0, period: 5 }));
/// table[2] = sivorandra::LIMITED;
/// assert_eq!(judge(&table), Ok(Verdict::Miss { tick: 5, position: 3 }));
/// table[2] = 5;
/// assert_eq!(judge(&table), Err(Refusal::BadRule));
/// ```
pub fn judge(words: &[u32]) -> Result<Verdict, Refusal> {
    verdict(ask(|answer, len| unsafe { sivorandra_judge(words.as_ptr(), words.len(), answer, len) }))
}

/// The same verdict, always tick by tick, for comparison with the others.
///
/// ```
/// use sivorandra::{judge, judge_ticks};
///
/// let table = [1, 3, 1, 0, 0, 2, 0, 2, 2, 5, 5, 2, 3, 0, 2, 3, 5, 5, 2, 0, 0, 1, 4, 5, 5, 1];
/// assert_eq!(judge_ticks(&table), judge(&table));
/// ```
pub fn judge_ticks(words: &[u32]) -> Result<Verdict, Refusal> {
    verdict(ask(|answer, len| unsafe { sivorandra_judge_ticks(words.as_ptr(), words.len(), answer, len) }))
}

/// The same verdict, always event by event, for comparison with the others.
///
/// ```
/// use sivorandra::{judge, judge_events};
///
/// let table = [1, 3, 1, 0, 0, 2, 0, 2, 2, 5, 5, 2, 3, 0, 2, 3, 5, 5, 2, 0, 0, 1, 4, 5, 5, 1];
/// assert_eq!(judge_events(&table), judge(&table));
/// ```
pub fn judge_events(words: &[u32]) -> Result<Verdict, Refusal> {
    verdict(ask(|answer, len| unsafe { sivorandra_judge_events(words.as_ptr(), words.len(), answer, len) }))
}

/// Writes rows `a` up to but not including `b` of the full-length run into `rows`, one byte a core, fenced ones too.
///
/// ```
/// use sivorandra::{plan, Refusal};
///
/// let table = [1, 3, 1, 0, 0, 2, 0, 2, 2, 5, 5, 2, 3, 0, 2, 3, 5, 5, 2, 0, 0, 1, 4, 5, 5, 1];
/// let mut rows = [0; 6];
/// plan(&table, 3, 5, &mut rows)?;
/// assert_eq!(rows, [2, 2, 3, 2, 2, 0]);
/// assert_eq!(plan(&table, 3, 6, &mut rows), Err(Refusal::BadRange));
/// # Ok::<(), Refusal>(())
/// ```
pub fn plan(words: &[u32], a: u32, b: u32, rows: &mut [u8]) -> Result<(), Refusal> {
    done(ask(|answer, len| unsafe { sivorandra_plan(words.as_ptr(), words.len(), a, b, rows.as_mut_ptr(), rows.len(), answer, len) }))
}

/// Writes the miss of a table's words as a sentence at the front of `buffer`, and returns its length. A refusal leaves the buffer as found: 17 where the table has no miss, 18 where
/// the buffer is shorter than the sentence.
///
/// ```
/// use sivorandra::{sentence_in, Refusal, SENTENCE_BYTES};
///
/// let table = [1, 3, 2, 0, 0, 2, 0, 2, 2, 5, 5, 2, 3, 0, 2, 3, 5, 5, 2, 0, 0, 1, 4, 5, 5, 1];
/// let mut buffer = [0; SENTENCE_BYTES];
/// let length = sentence_in(&table, &mut buffer)?;
/// assert_eq!(&buffer[..length], b"task 3 misses at tick 5 with 3 of 4 ticks; task 1 ran 2.");
/// assert_eq!(sentence_in(&table, &mut buffer[..10]), Err(Refusal::ShortBuffer));
/// # Ok::<(), Refusal>(())
/// ```
pub fn sentence_in(words: &[u32], buffer: &mut [u8]) -> Result<usize, Refusal> {
    given(ask(|answer, len| unsafe { sivorandra_sentence(words.as_ptr(), words.len(), buffer.as_mut_ptr(), buffer.len(), answer, len) })).map(|length| length as usize)
}

/// The miss of a table's words in a sentence; 17 where the table has no miss.
///
/// ```
/// use sivorandra::{sentence, Refusal, GREEDY};
///
/// let mut table = [1, 3, 2, 0, 0, 2, 0, 2, 2, 5, 5, 2, 3, 0, 2, 3, 5, 5, 2, 0, 0, 1, 4, 5, 5, 1];
/// assert_eq!(sentence(&table)?, "task 3 misses at tick 5 with 3 of 4 ticks; task 1 ran 2.");
/// table[2] = GREEDY;
/// assert_eq!(sentence(&table), Err(Refusal::NoMiss));
/// # Ok::<(), Refusal>(())
/// ```
#[cfg(feature = "std")]
pub fn sentence(words: &[u32]) -> Result<String, Refusal> {
    let mut buffer = [0; SENTENCE_BYTES];
    let length = sentence_in(words, &mut buffer)?;
    Ok(buffer[..length].iter().map(|&byte| byte as char).collect())
}

/// The facts of a sentence, parsed; none where the bytes are no sentence.
///
/// ```
/// use sivorandra::facts_of;
///
/// assert_eq!(facts_of(b"task 1 misses at tick 1 with 1 of 2 ticks.").map(|facts| facts.tick), Some(1));
/// assert_eq!(facts_of(b"task 1 misses at tick 1 with 1 of 2 ticks"), None);
/// ```
pub fn facts_of(bytes: &[u8]) -> Option<Facts> {
    let mut words = [0; FACT_HEAD_WORDS + MOST_TASKS];
    let [case, ..] = ask(|answer, len| unsafe { sivorandra_facts(bytes.as_ptr(), bytes.len(), words.as_mut_ptr(), words.len(), answer, len) });
    let mut ran = [0; MOST_TASKS];
    ran.copy_from_slice(&words[FACT_HEAD_WORDS..]);
    (case == 0).then_some(Facts { position: words[0] as u32, tick: words[1], had: words[2], length: words[3], ran })
}

/// The worst-case response time of each task of a table's words: the most ticks from a job's release to its end, that of position 1 first, and 0 past the last task. No full-length job
/// ever takes longer and some full-length job takes exactly that; in a run of a firm table no job takes longer, however early jobs end. 13 where the table misses.
///
/// ```
/// use sivorandra::{response_times, Refusal, LIMITED};
///
/// let mut table = [1, 3, 1, 0, 0, 2, 0, 2, 2, 5, 5, 2, 3, 0, 2, 3, 5, 5, 2, 0, 0, 1, 4, 5, 5, 1];
/// assert_eq!(response_times(&table)?[..4], [2, 5, 4, 0]);
/// table[2] = LIMITED;
/// assert_eq!(response_times(&table), Err(Refusal::TableMisses));
/// # Ok::<(), Refusal>(())
/// ```
pub fn response_times(words: &[u32]) -> Result<[u32; MOST_TASKS], Refusal> {
    figures(|figures, most, answer, len| unsafe { sivorandra_response_times(words.as_ptr(), words.len(), figures, most, answer, len) })
}

/// A conflict of a table's words, which misses, a minimal set of tasks that misses: the set of the positions kept, bit p for position p + 1. From the lowest priority upward a task is
/// dropped if some task remains and the remaining tasks still miss, in whole passes until one drops nothing. The tasks kept still miss, and without any one of them the rest does not,
/// or is empty. 17 where the table has no miss.
///
/// ```
/// use sivorandra::{conflict, Refusal, GREEDY};
///
/// let mut table = [1, 2, 2, 0, 0, 2, 0, 1, 3, 3, 4, 1, 3, 0, 2, 1, 4, 4, 2, 0, 0, 1, 2, 2, 4, 1];
/// assert_eq!(conflict(&table)?, 0b110); // positions 2 and 3
/// table[2] = GREEDY;
/// assert_eq!(conflict(&table), Err(Refusal::NoMiss));
/// # Ok::<(), Refusal>(())
/// ```
pub fn conflict(words: &[u32]) -> Result<u32, Refusal> {
    given(ask(|answer, len| unsafe { sivorandra_conflict(words.as_ptr(), words.len(), answer, len) }))
}

/// The slack of each task of a table's words: the largest number of ticks by which its C alone can grow with the table still accepted, that of position 1 first, and 0 past the
/// last task. Every smaller growth is accepted too, and one tick more misses, or takes C past `MOST_LENGTH`. 23 where the table is not accepted under rule 2, nor under rule 1 with no
/// width of a task above one of the next.
///
/// ```
/// use sivorandra::{judge, slack, Refusal, Verdict, IDLING};
///
/// let mut table = [1, 1, 2, 0, 0, 2, 0, 1, 1, 4, 4, 1, 0, 0, 1, 1, 3, 4, 1];
/// assert_eq!(slack(&table)?[..3], [1, 1, 0]);
/// table[8] = 3; // two ticks more
/// assert_eq!(judge(&table)?, Verdict::Miss { tick: 3, position: 2 });
/// table[2] = IDLING;
/// assert_eq!(slack(&table), Err(Refusal::SlackNotGiven));
/// # Ok::<(), Refusal>(())
/// ```
pub fn slack(words: &[u32]) -> Result<[u32; MOST_TASKS], Refusal> {
    figures(|figures, most, answer, len| unsafe { sivorandra_slack(words.as_ptr(), words.len(), figures, most, answer, len) })
}

/// The response-time bounds of a table's words, by the interference test, without simulation. `Some`: the table passes, so it never misses a deadline, and at full length
/// no job of a task takes more ticks from release to end than the task's bound, that of position 1 first, and 0 past the last task. `None`: the table does not pass, and may be
/// accepted all the same; `judge` decides. A bound is at least the figure of `response_times`, and at most D.
///
/// ```
/// use sivorandra::{bounds, judge, Refusal, Verdict};
///
/// let mut table = [1, 1, 2, 0, 0, 2, 0, 1, 1, 4, 4, 1, 0, 0, 1, 1, 3, 4, 1];
/// assert_eq!(bounds(&table)?.map(|bounds| [bounds[0], bounds[1], bounds[2]]), Some([1, 2, 0]));
/// table[16] = 1; // the deadline of position 2
/// assert_eq!(bounds(&table)?, None);
/// assert_eq!(judge(&table)?, Verdict::Miss { tick: 1, position: 2 });
/// # Ok::<(), Refusal>(())
/// ```
pub fn bounds(words: &[u32]) -> Result<Option<[u32; MOST_TASKS]>, Refusal> {
    let mut found = [0; MOST_TASKS];
    let passes = given(ask(|answer, len| unsafe { sivorandra_bounds(words.as_ptr(), words.len(), found.as_mut_ptr(), found.len(), answer, len) }))?;
    Ok((passes == 1).then_some(found))
}

/// Starts a run, applies the entries of a list to it, and asks for its row with no empty job.
///
/// ```
/// use sivorandra::{replay, Entry, Refusal};
///
/// // position 1 ends early, the wide task at position 2 goes first, and position 3 is late
/// let table = [1, 2, 1, 0, 0, 2, 0, 1, 3, 3, 4, 1, 3, 0, 2, 1, 4, 4, 2, 0, 0, 1, 2, 2, 4, 1];
/// let replay = replay(&table, &[1, 0].map(|reports| Entry::Advance { reports, empties: 0 }))?;
/// assert_eq!(replay.answers, [Ok(()), Ok(())]);
/// assert_eq!(replay.row, Err(Refusal::Late { position: 3 }));
/// # Ok::<(), Refusal>(())
/// ```
#[cfg(feature = "std")]
pub fn replay(words: &[u32], list: &[Entry]) -> Result<Replay, Refusal> {
    let entries: Vec<u32> = list.iter().flat_map(|entry| entry.words()).collect();
    let mut numbers = vec![0; list.len()];
    let mut row = [0; ROW_BYTES];
    let [case, number, position] = ask(|answer, len| unsafe {
        sivorandra_replay(words.as_ptr(), words.len(), entries.as_ptr(), entries.len(), numbers.as_mut_ptr(), numbers.len(), row.as_mut_ptr(), row.len(), answer, len)
    });
    let answers = numbers.iter().map(|&n| if n == 0 { Ok(()) } else { Err(Refusal::new(n / 256, n % 256)) }).collect();
    match case {
        0 => Ok(Replay { answers, row: Ok(row) }),
        4 => Ok(Replay { answers, row: Err(Refusal::new(number, position)) }),
        _ => Err(Refusal::new(number, position)),
    }
}

impl Run {
    /// The run of a table's words as it starts.
    ///
    /// ```
    /// use sivorandra::{Refusal, Run};
    ///
    /// let late = [1, 1, 1, 0, 0, 0, 0, 1, 2, 1, 1, 1]; // C is above D
    /// assert_eq!(Run::start(&late), Err(Refusal::TableMisses));
    /// ```
    pub fn start(words: &[u32]) -> Result<Run, Refusal> {
        let mut run = [0; RUN_WORDS];
        done(ask(|answer, len| unsafe { sivorandra_start(words.as_ptr(), words.len(), run.as_mut_ptr(), run.len(), answer, len) }))?;
        Ok(Run { words: run })
    }

    /// A run from any words: words that are no run are refused with 14 by `row`, `sets`, `working`, `advance` and the withdrawals.
    ///
    /// ```
    /// use sivorandra::{Refusal, Run, RUN_WORDS};
    ///
    /// let run = Run::from_words([0; RUN_WORDS]);
    /// assert_eq!(run.row(0), Err(Refusal::NotARun));
    /// ```
    pub fn from_words(words: [u32; RUN_WORDS]) -> Run {
        Run { words }
    }

    /// The run's words.
    ///
    /// ```
    /// use sivorandra::Run;
    ///
    /// let run = Run::start(&[1, 3, 1, 0, 0, 0, 0, 2, 2, 5, 5, 2])?;
    /// assert_eq!(Run::from_words(*run.words()), run);
    /// # Ok::<(), sivorandra::Refusal>(())
    /// ```
    pub fn words(&self) -> &[u32; RUN_WORDS] {
        &self.words
    }

    /// The core count, fenced ones too: the number of bytes of a row that are cores. For words that are no run it is the word in its place.
    ///
    /// ```
    /// let run = sivorandra::Run::start(&[1, 3, 1, 0, 0, 0, 0, 2, 2, 5, 5, 2])?;
    /// assert_eq!(run.cores(), 3);
    /// # Ok::<(), sivorandra::Refusal>(())
    /// ```
    pub fn cores(&self) -> usize {
        self.words[1] as usize
    }

    /// How many tasks the run has, at positions 1 to this. For words that are no run it is the word in its place.
    ///
    /// ```
    /// let run = sivorandra::Run::start(&[1, 3, 1, 0, 0, 0, 0, 2, 2, 5, 5, 2])?;
    /// assert_eq!(run.tasks(), 1);
    /// # Ok::<(), sivorandra::Refusal>(())
    /// ```
    pub fn tasks(&self) -> usize {
        self.words[2] as usize
    }

    /// The set of withdrawn positions, bit p for position p + 1. For words that are no run it is the word in its place.
    ///
    /// ```
    /// let mut run = sivorandra::Run::start(&[1, 3, 1, 0, 0, 0, 0, 2, 2, 5, 5, 2])?;
    /// run.withdraw(1)?;
    /// assert_eq!(run.withdrawn(), 1);
    /// # Ok::<(), sivorandra::Refusal>(())
    /// ```
    pub fn withdrawn(&self) -> u32 {
        self.words[5]
    }

    /// The row of the present tick, where bit p of `empties` is set if the job of position p + 1, released in this tick, is empty. The run stays as it is: `advance` needs
    /// the same set.
    ///
    /// ```
    /// use sivorandra::{Refusal, Run};
    ///
    /// let mut run = Run::start(&[1, 3, 1, 0, 0, 0, 0, 2, 2, 5, 5, 2])?;
    /// assert_eq!(run.row(0)?[..run.cores()], [1, 1, 0]);
    /// assert_eq!(run.row(1)?[..run.cores()], [0, 0, 0]);
    /// run.advance(0, 0)?;
    /// assert_eq!(run.row(1), Err(Refusal::BadEmpty)); // the job was released a tick ago
    /// # Ok::<(), Refusal>(())
    /// ```
    pub fn row(&self, empties: u32) -> Result<[u8; ROW_BYTES], Refusal> {
        let mut row = [0; ROW_BYTES];
        done(ask(|answer, len| unsafe { sivorandra_row(self.words.as_ptr(), self.words.len(), empties, row.as_mut_ptr(), row.len(), answer, len) }))?;
        Ok(row)
    }

    /// The row of the present tick as sets of cores, that of position 1 first: core c is bit c. Held cores are in the holder's set, lent ones in the borrower's, fenced ones in none.
    /// No two overlap, and each has as many cores as its job's width, or none; but a holder that lends has the cores that it has not lent. Sets past the count are 0. It has `row`'s numbers.
    ///
    /// ```
    /// use sivorandra::{Refusal, Run, LENDING};
    ///
    /// // two cores wanted at position 1, one at position 2; of five cores 1 and 3 are fenced
    /// let mut run = Run::start(&[1, 5, LENDING, 0b01010, 0, 2, 0, 2, 2, 4, 4, 2, 0, 0, 1, 2, 4, 4, 1])?;
    /// assert_eq!(run.sets(0)?[..3], [0b00101, 0b10000, 0]);
    /// assert_eq!(run.sets(4), Err(Refusal::BadEmpty)); // there is no position 3
    ///
    /// // position 1 has ended, and lends one core of two
    /// let mut run = Run::start(&[1, 2, LENDING, 0, 0, 2, 0, 2, 2, 4, 4, 2, 0, 0, 1, 2, 4, 4, 1])?;
    /// run.advance(1, 0)?;
    /// assert_eq!(run.sets(0)?[..2], [0b10, 0b01]);
    /// # Ok::<(), Refusal>(())
    /// ```
    pub fn sets(&self, empties: u32) -> Result<[u64; SETS], Refusal> {
        let mut sets = [0; SETS];
        done(ask(|answer, len| unsafe { sivorandra_sets(self.words.as_ptr(), self.words.len(), empties, sets.as_mut_ptr(), sets.len(), answer, len) }))?;
        Ok(sets)
    }

    /// The set of the positions whose job works in the present tick, bit p for position p + 1: it has cores, its own or lent ones, and has not ended. These are the positions that a report
    /// may name; one that holds cores or lends them is not among them. It has `row`'s numbers.
    ///
    /// ```
    /// use sivorandra::{Refusal, Run, LENDING};
    ///
    /// // two cores wanted at position 1, one at position 2
    /// let mut run = Run::start(&[1, 2, LENDING, 0, 0, 2, 0, 2, 2, 4, 4, 2, 0, 0, 1, 2, 4, 4, 1])?;
    /// assert_eq!(run.working(0)?, 0b01);
    /// assert_eq!(run.working(0b01)?, 0b10); // the job of position 1 is empty, and lends its cores
    /// run.advance(0b01, 0)?; // it has ended
    /// assert_eq!(run.sets(0)?[..2], [0b10, 0b01]); // position 1 holds a core ..
    /// assert_eq!(run.working(0)?, 0b10); // .. and does not work
    /// assert_eq!(run.working(0b100), Err(Refusal::BadEmpty)); // there is no position 3
    /// # Ok::<(), Refusal>(())
    /// ```
    pub fn working(&self, empties: u32) -> Result<u32, Refusal> {
        let mut set = 0;
        done(ask(|answer, len| unsafe { sivorandra_working(self.words.as_ptr(), self.words.len(), empties, &mut set, 1, answer, len) }))?;
        Ok(set)
    }

    /// Moves the run by one tick. Bit p of `reports` is set if the job of position p + 1 ends after this tick, bit p of `empties` if it is released in this tick and empty. A
    /// refusal leaves the run as it is.
    ///
    /// ```
    /// use sivorandra::{Refusal, Run};
    ///
    /// let mut run = Run::start(&[1, 3, 1, 0, 0, 0, 0, 2, 2, 5, 5, 2])?;
    /// assert_eq!(run.advance(2, 0), Err(Refusal::BadReport)); // there is no position 2
    /// assert_eq!(run.advance(1, 1), Err(Refusal::BadReport)); // an empty job does not work
    /// run.advance(1, 0)?;
    /// assert_eq!(run.row(0)?[..run.cores()], [0, 0, 0]);
    /// # Ok::<(), Refusal>(())
    /// ```
    pub fn advance(&mut self, reports: u32, empties: u32) -> Result<(), Refusal> {
        done(ask(|answer, len| unsafe { sivorandra_advance(self.words.as_mut_ptr(), self.words.len(), reports, empties, answer, len) }))
    }

    /// Withdraws the task of a position, from 1, from the run for good, at any time. A job of it that was released before this tick goes on; one released in this tick, and all
    /// later ones, are empty, with or without their bit. A refusal leaves the run as it is: 21 where the table is not firm by its rule and widths, 22 where there is no such
    /// position; 15 is not checked.
    ///
    /// ```
    /// use sivorandra::{Refusal, Run};
    ///
    /// let mut run = Run::start(&[1, 3, 1, 0, 0, 0, 0, 2, 2, 5, 5, 2])?;
    /// run.advance(0, 0)?;
    /// run.withdraw(1)?;
    /// assert_eq!(run.row(0)?[..run.cores()], [1, 1, 0]); // the job of tick 0 goes on
    /// for _ in 1..5 {
    ///     run.advance(0, 0)?;
    /// }
    /// assert_eq!(run.row(0)?[..run.cores()], [0, 0, 0]); // that of tick 5 is empty
    /// assert_eq!(run.withdraw(2), Err(Refusal::NoPosition));
    ///
    /// // greedy, and the wider task first: the others would not be safe
    /// let mut full = Run::start(&[1, 3, 1, 0, 0, 2, 0, 2, 2, 5, 5, 2, 0, 0, 1, 4, 5, 5, 1])?;
    /// assert_eq!(full.withdraw(1), Err(Refusal::NotFirm));
    /// # Ok::<(), Refusal>(())
    /// ```
    pub fn withdraw(&mut self, position: u32) -> Result<(), Refusal> {
        done(ask(|answer, len| unsafe { sivorandra_withdraw(self.words.as_mut_ptr(), self.words.len(), position, answer, len) }))
    }

    /// Withdraws the tasks of a set of positions together, as `withdraw` does one; bit p of `set` is position p + 1. It withdraws all of them, or in a refusal none, and leaves
    /// the run that single withdrawals leave, in any order. 14, 21 and 22 in this order, for the empty set too; 22 where a bit is past the count.
    ///
    /// ```
    /// use sivorandra::{Refusal, Run, LIMITED};
    ///
    /// // three tasks that share one core
    /// let mut run = Run::start(&[1, 1, LIMITED, 0, 0, 2, 0, 1, 1, 3, 3, 1, 3, 0, 1, 1, 3, 3, 1, 0, 0, 1, 1, 3, 3, 1])?;
    /// assert_eq!(run.withdraw_all(0b1001), Err(Refusal::NoPosition)); // there is no position 4, so no task is withdrawn
    /// assert_eq!(run.withdrawn(), 0);
    /// let mut single = run.clone();
    /// single.withdraw(3)?;
    /// single.withdraw(1)?;
    /// run.withdraw_all(0b101)?;
    /// assert_eq!(run, single);
    /// assert_eq!(run.row(0)?[..run.cores()], [2]);
    ///
    /// // greedy, and the wider task first: the empty set is refused too
    /// let mut full = Run::start(&[1, 3, 1, 0, 0, 2, 0, 2, 2, 5, 5, 2, 0, 0, 1, 4, 5, 5, 1])?;
    /// assert_eq!(full.withdraw_all(0), Err(Refusal::NotFirm));
    /// # Ok::<(), Refusal>(())
    /// ```
    pub fn withdraw_all(&mut self, set: u32) -> Result<(), Refusal> {
        done(ask(|answer, len| unsafe { sivorandra_withdraw_all(self.words.as_mut_ptr(), self.words.len(), set, answer, len) }))
    }
}

impl SuppliedPlan {
    /// The plan of a table's words as it begins, at tick 0, whatever the table's verdict.
    ///
    /// ```
    /// use sivorandra::{Refusal, SuppliedPlan};
    ///
    /// assert_eq!(SuppliedPlan::begin(&[]), Err(Refusal::NotATable));
    /// assert!(SuppliedPlan::begin(&[1, 1, 1, 0, 0, 0, 0, 1, 2, 1, 1, 1]).is_ok()); // C is above D, and so 25 will come
    /// ```
    pub fn begin(words: &[u32]) -> Result<SuppliedPlan, Refusal> {
        let mut plan = [0; PLAN_WORDS];
        done(ask(|answer, len| unsafe { sivorandra_check_begin(words.as_ptr(), words.len(), plan.as_mut_ptr(), plan.len(), answer, len) }))?;
        Ok(SuppliedPlan { words: plan })
    }

    /// A plan from any words: words that are no plan are refused with 14 by `take`. Words of a note that are no phase are kept, and agree with no phase (26).
    ///
    /// ```
    /// use sivorandra::{Refusal, SuppliedPlan, PLAN_WORDS};
    ///
    /// let mut plan = SuppliedPlan::from_words([0; PLAN_WORDS]);
    /// assert_eq!(plan.check_row(&[0]), Err(Refusal::NotARun));
    /// ```
    pub fn from_words(words: [u32; PLAN_WORDS]) -> SuppliedPlan {
        SuppliedPlan { words }
    }

    /// The plan's words.
    ///
    /// ```
    /// use sivorandra::SuppliedPlan;
    ///
    /// let plan = SuppliedPlan::begin(&[1, 3, 1, 0, 0, 0, 0, 2, 2, 5, 5, 2])?;
    /// assert_eq!(SuppliedPlan::from_words(*plan.words()), plan);
    /// # Ok::<(), sivorandra::Refusal>(())
    /// ```
    pub fn words(&self) -> &[u32; PLAN_WORDS] {
        &self.words
    }

    /// The core count, fenced ones too: the number of bytes of a row. For words that are no plan it is the word in its place.
    ///
    /// ```
    /// let plan = sivorandra::SuppliedPlan::begin(&[1, 3, 1, 0, 0, 0, 0, 2, 2, 5, 5, 2])?;
    /// assert_eq!(plan.cores(), 3);
    /// # Ok::<(), sivorandra::Refusal>(())
    /// ```
    pub fn cores(&self) -> usize {
        self.words[1] as usize
    }

    /// The tick whose row is next: the number of rows taken.
    ///
    /// ```
    /// let mut plan = sivorandra::SuppliedPlan::begin(&[1, 3, 1, 0, 0, 0, 0, 2, 2, 5, 5, 2])?;
    /// plan.check_row(&[1, 0, 1])?;
    /// assert_eq!(plan.tick(), 1);
    /// # Ok::<(), sivorandra::Refusal>(())
    /// ```
    pub fn tick(&self) -> u32 {
        self.words[RUN_WORDS]
    }

    /// Takes the row of the present tick, a byte a core: the position that has it, 0 for idle, or `FENCED`. A refusal leaves the plan as it is, so that another row can be tried: 10
    /// past the horizon, 11 where the row has not a byte for each core, 24 to 26 with their tick.
    ///
    /// ```
    /// use sivorandra::{Refusal, SuppliedPlan};
    ///
    /// let mut plan = SuppliedPlan::begin(&[1, 3, 1, 0, 0, 0, 0, 2, 2, 5, 5, 2])?;
    /// assert_eq!(plan.check_row(&[1, 1]), Err(Refusal::ShortRows));
    /// assert_eq!(plan.check_row(&[1, 0, 0]), Err(Refusal::BadRow { tick: 0 })); // the job has two cores
    /// plan.check_row(&[0, 1, 1])?;
    /// # Ok::<(), Refusal>(())
    /// ```
    pub fn check_row(&mut self, row: &[u8]) -> Result<RowAnswer, Refusal> {
        let [case, number, tick] = ask(|answer, len| unsafe { sivorandra_check_row(self.words.as_mut_ptr(), self.words.len(), row.as_ptr(), row.len(), answer, len) });
        match case {
            0 => Ok(RowAnswer::Taken),
            6 => Ok(RowAnswer::Accepted),
            _ => Err(Refusal::new(number, tick)),
        }
    }
}
