//! The C functions, each with its lent slices inside larger ones: nothing around them may change.
use crate::simulator::{phase_at, Answer, RESTING};
use crate::rng::Rng;
use sivorandra::{Entry, Refusal, Run, Verdict, ROW_BYTES, RUN_WORDS, SETS};
use std::fmt::Debug;

extern "C" {
    fn sivorandra_judge(words: *const u32, words_len: usize, answer: *mut u32, answer_len: usize) -> u32;
    fn sivorandra_judge_ticks(words: *const u32, words_len: usize, answer: *mut u32, answer_len: usize) -> u32;
    fn sivorandra_plan(words: *const u32, words_len: usize, a: u32, b: u32, rows: *mut u8, rows_len: usize, answer: *mut u32, answer_len: usize) -> u32;
    fn sivorandra_replay(words: *const u32, words_len: usize, entries: *const u32, entries_len: usize, numbers: *mut u32, numbers_len: usize, row: *mut u8, row_len: usize, answer: *mut u32, answer_len: usize) -> u32;
    fn sivorandra_start(words: *const u32, words_len: usize, run: *mut u32, run_len: usize, answer: *mut u32, answer_len: usize) -> u32;
    fn sivorandra_row(run: *const u32, run_len: usize, empties: u32, row: *mut u8, row_len: usize, answer: *mut u32, answer_len: usize) -> u32;
    fn sivorandra_sets(run: *const u32, run_len: usize, empties: u32, sets: *mut u64, sets_len: usize, answer: *mut u32, answer_len: usize) -> u32;
    fn sivorandra_withdraw(run: *mut u32, run_len: usize, position: u32, answer: *mut u32, answer_len: usize) -> u32;
    fn sivorandra_withdraw_all(run: *mut u32, run_len: usize, set: u32, answer: *mut u32, answer_len: usize) -> u32;
    fn sivorandra_advance(run: *mut u32, run_len: usize, reports: u32, empties: u32, answer: *mut u32, answer_len: usize) -> u32;
}

/// What is wrong, in words.
pub type Checked<T> = Result<T, String>;

/// Fails unless both are the same.
pub fn same<T: PartialEq + Debug>(what: &str, expected: T, got: T) -> Checked<()> {
    if expected == got {
        return Ok(());
    }
    Err(format!("{what}: expected {expected:?}, got {got:?}"))
}

/// Fails unless both runs have the same words.
pub fn same_run(what: &str, expected: &[u32; RUN_WORDS], got: &[u32; RUN_WORDS]) -> Checked<()> {
    match (0..RUN_WORDS).find(|&at| expected[at] != got[at]) {
        None => Ok(()),
        Some(at) => Err(format!("{what}: word {at} of the run: expected {}, got {}", expected[at], got[at])),
    }
}

/// The run that a refused start hands out: all zeros, every phase Resting(0).
pub const NO_RUN: [u32; RUN_WORDS] = {
    let mut words = [0; RUN_WORDS];
    let mut place = 0;
    while phase_at(place) < RUN_WORDS {
        words[phase_at(place)] = RESTING;
        place += 1;
    }
    words
};

const GUARD: usize = 24;

/// A slice to lend, with other elements before and behind it.
pub struct Guarded<T> {
    found: Vec<T>,
    now: Vec<T>,
}

impl<T: Copy + PartialEq + Debug> Guarded<T> {
    pub fn new(len: usize, mut one: impl FnMut() -> T) -> Guarded<T> {
        let found: Vec<T> = (0..len + 2 * GUARD).map(|_| one()).collect();
        Guarded { now: found.clone(), found }
    }

    pub fn len(&self) -> usize {
        self.found.len() - 2 * GUARD
    }

    pub fn lent(&mut self) -> &mut [T] {
        let end = self.now.len() - GUARD;
        &mut self.now[GUARD..end]
    }

    /// Fails unless the first elements are these and all others are unchanged. From now on the contents count as found.
    pub fn holds(&mut self, what: &str, first: &[T]) -> Checked<()> {
        self.found[GUARD..][..first.len()].copy_from_slice(first);
        if self.found == self.now {
            return Ok(());
        }
        let at = (0..self.found.len()).find(|&at| self.found[at] != self.now[at]).unwrap_or(0);
        Err(format!("{what}: element {} of {} is {:?} and not {:?}", at as i64 - GUARD as i64, self.len(), self.now[at], self.found[at]))
    }

    pub fn as_found(&mut self, what: &str) -> Checked<()> {
        self.holds(what, &[])
    }

    fn as_found_if(&mut self, short: bool, what: &str) -> Checked<()> {
        if short { self.as_found(what) } else { Ok(()) }
    }
}

impl Guarded<u8> {
    pub fn bytes(rng: &mut Rng, len: usize) -> Guarded<u8> {
        let mut left = 0;
        Guarded::new(len, || {
            left = if left < 256 { rng.next() } else { left >> 8 };
            left as u8
        })
    }
}

impl Guarded<u32> {
    pub fn words(rng: &mut Rng, len: usize) -> Guarded<u32> {
        Guarded::new(len, || rng.word())
    }
}

impl Guarded<u64> {
    pub fn longs(rng: &mut Rng, len: usize) -> Guarded<u64> {
        Guarded::new(len, || rng.next())
    }
}

/// The answer's three words; at times first with no room for them, where the call itself checks that nothing changes. Fails unless the words behind them stay.
fn ask(rng: &mut Rng, mut call: impl FnMut(&mut [u32]) -> Checked<u32>) -> Checked<[u32; 3]> {
    if rng.once_in(16) {
        let len = rng.below(3);
        let mut answer = Guarded::words(rng, len);
        same("the value with a short answer", 1, call(answer.lent())?)?;
        answer.as_found("a short answer")?;
    }
    let len = 3 + rng.below(3);
    let mut answer = Guarded::words(rng, len);
    same("the value", 0, call(answer.lent())?)?;
    let three = [answer.lent()[0], answer.lent()[1], answer.lent()[2]];
    answer.holds("the answer", &three)?;
    Ok(three)
}

/// Done or refused, by start, row, sets, advance and plan.
fn done(three: [u32; 3]) -> Checked<Answer<()>> {
    match three {
        [0, 0, 0] => Ok(Ok(())),
        [3, number, position] => Ok(Err(Refusal::new(number, position))),
        other => Err(format!("the answer is {other:?}")),
    }
}

/// What a judge returns: the event-driven one, or the tick judge.
pub fn judge(rng: &mut Rng, words: &[u32], by_ticks: bool) -> Checked<Answer<Verdict>> {
    let call = if by_ticks { sivorandra_judge_ticks } else { sivorandra_judge };
    let three = ask(rng, |answer| Ok(unsafe { call(words.as_ptr(), words.len(), answer.as_mut_ptr(), answer.len()) }))?;
    match three {
        [0, start, period] => Ok(Ok(Verdict::Firm { start, period })),
        [1, start, period] => Ok(Ok(Verdict::Full { start, period })),
        [2, tick, position] => Ok(Ok(Verdict::Miss { tick, position })),
        [3, number, position] => Ok(Err(Refusal::new(number, position))),
        other => Err(format!("the answer is {other:?}")),
    }
}

/// What plan returns. It leaves the rows expected; a refusal changes nothing.
pub fn plan(rng: &mut Rng, words: &[u32], a: u32, b: u32, len: usize, expected: &Answer<Vec<u8>>) -> Checked<Answer<()>> {
    let mut rows = Guarded::bytes(rng, len);
    let three = ask(rng, |answer| {
        let value = unsafe { sivorandra_plan(words.as_ptr(), words.len(), a, b, rows.lent().as_mut_ptr(), len, answer.as_mut_ptr(), answer.len()) };
        rows.as_found_if(value == 1, "the rows")?;
        Ok(value)
    })?;
    let got = done(three)?;
    same("plan", expected.as_ref().map(|_| ()).map_err(|refusal| *refusal), got)?;
    rows.holds("the rows", expected.as_deref().unwrap_or(&[]))?;
    Ok(got)
}

/// An advance that only reports.
pub const fn reported(reports: u32) -> Entry {
    Entry::Advance { reports, empties: 0 }
}

/// An entry on a run, from Rust.
pub fn enter(run: &mut Run, entry: Entry) -> Answer<()> {
    match entry {
        Entry::Advance { reports, empties } => run.advance(reports, empties),
        Entry::Withdraw { position } => run.withdraw(position),
        Entry::WithdrawAll { set } => run.withdraw_all(set),
        other => panic!("no such entry: {other:?}"),
    }
}

/// The three words of an entry.
fn in_words(entry: &Entry) -> [u32; 3] {
    match *entry {
        Entry::Advance { reports, empties } => [0, reports, empties],
        Entry::Withdraw { position } => [1, position, 0],
        Entry::WithdrawAll { set } => [2, set, 0],
        other => panic!("no such entry: {other:?}"),
    }
}

/// Words that are no list of entries: some are missing or too many, an entry has another first word, or the last of a withdrawal is not 0.
fn with_fault(rng: &mut Rng, entries: &[u32]) -> Vec<u32> {
    let mut words = entries.to_vec();
    if words.is_empty() || rng.once_in(3) {
        words.extend([0; 2].iter().take(1 + rng.below(2)));
    } else if rng.once_in(2) {
        words.truncate(words.len() - 1 - rng.below(2));
    } else {
        let at = 3 * rng.below(words.len() / 3);
        (words[at], words[at + 2]) = rng.pick(&[(1, 1), (1, u32::MAX), (2, 1), (2, u32::MAX), (3, 0), (256, 0), (u32::MAX, 0)]);
    }
    words
}

/// What replay returns for the last row or the start. It leaves the answers and the row expected; a refused start changes nothing.
pub fn replay(rng: &mut Rng, words: &[u32], list: &[Entry], expected: &Answer<(Vec<u32>, Answer<[u8; ROW_BYTES]>)>) -> Checked<()> {
    let entries: Vec<u32> = list.iter().flat_map(in_words).collect();
    let (numbers_len, row_len) = (list.len() + rng.below(3), ROW_BYTES + rng.below(3));
    let (mut numbers, mut row) = (Guarded::words(rng, numbers_len), Guarded::bytes(rng, row_len));
    let mut call = |entries: &[u32], numbers_len: usize, row_len: usize, answer: &mut [u32]| {
        let (into, last) = (numbers.lent().as_mut_ptr(), row.lent().as_mut_ptr());
        let value = unsafe { sivorandra_replay(words.as_ptr(), words.len(), entries.as_ptr(), entries.len(), into, numbers_len, last, row_len, answer.as_mut_ptr(), answer.len()) };
        numbers.as_found_if(value == 1, "the answers")?;
        row.as_found_if(value == 1, "the last row")?;
        Ok(value)
    };
    if expected.is_ok() && rng.once_in(16) {
        // no room for the answers, or for the row
        let for_numbers = rng.once_in(2) && !list.is_empty();
        let lens = if for_numbers { (rng.below(list.len()), row_len) } else { (numbers_len, rng.below(ROW_BYTES)) };
        let mut answer = Guarded::words(rng, 3);
        same("the value with a short slice", 1, call(&entries, lens.0, lens.1, answer.lent())?)?;
        answer.as_found("the answer to a short slice")?;
    }
    if expected.is_ok() && rng.once_in(16) {
        let none = with_fault(rng, &entries);
        let mut answer = Guarded::words(rng, 3);
        same("the value with words that are no list", 1, call(&none, numbers_len, row_len, answer.lent())?)?;
        answer.as_found("the answer to words that are no list")?;
    }
    let three = ask(rng, |answer| call(&entries, numbers_len, row_len, answer))?;
    let (case, answers, bytes): (_, &[u32], &[u8]) = match expected {
        Ok((answers, Ok(row))) => ([0, 0, 0], answers, row),
        Ok((answers, Err(refusal))) => ([4, refusal.number(), refusal.position()], answers, &[0; ROW_BYTES]),
        Err(refusal) => ([3, refusal.number(), refusal.position()], &[], &[]),
    };
    same("replay", case, three)?;
    numbers.holds("the answers", answers)?;
    row.holds("the last row", bytes)
}

/// A run in words, with a row's bytes and its sets as buffers.
pub struct RunBuffer {
    run: Guarded<u32>,
    row: Guarded<u8>,
    sets: Guarded<u64>,
}

impl RunBuffer {
    /// The run of a table as it starts, or the run of all zeros.
    pub fn start(rng: &mut Rng, words: &[u32], expected: Answer<[u32; RUN_WORDS]>) -> Checked<(RunBuffer, Answer<()>)> {
        let len = RUN_WORDS + rng.below(3);
        let mut run = Guarded::words(rng, len);
        let mut call = |len: usize, answer: &mut [u32]| {
            let value = unsafe { sivorandra_start(words.as_ptr(), words.len(), run.lent().as_mut_ptr(), len, answer.as_mut_ptr(), answer.len()) };
            run.as_found_if(value == 1, "the run")?;
            Ok(value)
        };
        if rng.once_in(64) {
            let mut answer = Guarded::words(rng, 3);
            same("the value with a short run", 1, call(rng.below(RUN_WORDS), answer.lent())?)?;
            answer.as_found("the answer to a short run")?;
        }
        let got = done(ask(rng, |answer| call(len, answer))?)?;
        same("start", expected.map(|_| ()), got)?;
        run.holds("the started run", &expected.unwrap_or(NO_RUN))?;
        Ok((RunBuffer { run, row: Guarded::bytes(rng, ROW_BYTES + 2), sets: Guarded::longs(rng, SETS + 2) }, got))
    }

    /// A run built by hand.
    pub fn from(rng: &mut Rng, words: &[u32; RUN_WORDS]) -> RunBuffer {
        let mut run = Guarded::words(rng, RUN_WORDS + 1);
        run.lent()[..RUN_WORDS].copy_from_slice(words);
        run.found = run.now.clone();
        RunBuffer { run, row: Guarded::bytes(rng, ROW_BYTES + 2), sets: Guarded::longs(rng, SETS + 2) }
    }

    pub fn row(&mut self, rng: &mut Rng, empties: u32, expected: Answer<[u8; ROW_BYTES]>) -> Checked<Answer<()>> {
        let RunBuffer { run, row, .. } = self;
        let three = ask(rng, |answer| {
            let value = unsafe { sivorandra_row(run.lent().as_ptr(), run.len(), empties, row.lent().as_mut_ptr(), row.len(), answer.as_mut_ptr(), answer.len()) };
            row.as_found_if(value == 1, "the row")?;
            Ok(value)
        })?;
        let got = done(three)?;
        same("row", expected.map(|_| ()), got)?;
        row.holds("the row", &expected.unwrap_or([0; ROW_BYTES]))?;
        run.as_found("the run whose row is asked")?;
        Ok(got)
    }

    /// The row as sets, from C and from Rust.
    pub fn sets(&mut self, rng: &mut Rng, empties: u32, expected: Answer<[u64; SETS]>) -> Checked<Answer<()>> {
        let RunBuffer { run, sets, .. } = self;
        let three = ask(rng, |answer| {
            let value = unsafe { sivorandra_sets(run.lent().as_ptr(), run.len(), empties, sets.lent().as_mut_ptr(), sets.len(), answer.as_mut_ptr(), answer.len()) };
            sets.as_found_if(value == 1, "the sets")?;
            Ok(value)
        })?;
        let got = done(three)?;
        same("sets", expected.map(|_| ()), got)?;
        sets.holds("the sets", &expected.unwrap_or([0; SETS]))?;
        run.as_found("the run whose sets are asked")?;
        let words = run.lent()[..RUN_WORDS].try_into().map_err(|_| "too few words")?;
        same("sets in Rust", expected, Run::from_words(words).sets(empties))?;
        Ok(got)
    }

    /// An entry, which leaves the run expected, or in a refusal unchanged.
    pub fn enter(&mut self, rng: &mut Rng, entry: Entry, expected: Answer<[u32; RUN_WORDS]>) -> Checked<Answer<()>> {
        let run = &mut self.run;
        let three = ask(rng, |answer| {
            let (words, len) = (run.lent().as_mut_ptr(), run.len());
            let value = match entry {
                Entry::Advance { reports, empties } => unsafe { sivorandra_advance(words, len, reports, empties, answer.as_mut_ptr(), answer.len()) },
                Entry::Withdraw { position } => unsafe { sivorandra_withdraw(words, len, position, answer.as_mut_ptr(), answer.len()) },
                Entry::WithdrawAll { set } => unsafe { sivorandra_withdraw_all(words, len, set, answer.as_mut_ptr(), answer.len()) },
                other => panic!("no such entry: {other:?}"),
            };
            run.as_found_if(value == 1, "the run")?;
            Ok(value)
        })?;
        let got = done(three)?;
        same(&format!("{entry:?}"), expected.map(|_| ()), got)?;
        run.holds("the run after it", expected.as_ref().map_or(&[][..], |words| &words[..]))?;
        Ok(got)
    }

    /// Row, sets, advance and withdrawals of too few words for a run, which 14 refuses; a row into too few bytes, and into too few sets.
    pub fn cut(&mut self, rng: &mut Rng) -> Checked<()> {
        let RunBuffer { run, row, sets } = self;
        let (words, bytes, few) = (rng.below(RUN_WORDS), rng.below(ROW_BYTES), rng.below(SETS));
        let mut answer = [0; 3];
        same("the value of a row of too few words", 0, unsafe { sivorandra_row(run.lent().as_ptr(), words, 0, row.lent().as_mut_ptr(), row.len(), answer.as_mut_ptr(), 3) })?;
        same("a row of too few words", [3, 14, 0], answer)?;
        row.holds("the row of too few words", &[0; ROW_BYTES])?;
        answer = [0; 3];
        same("the value of the sets of too few words", 0, unsafe { sivorandra_sets(run.lent().as_ptr(), words, 0, sets.lent().as_mut_ptr(), sets.len(), answer.as_mut_ptr(), 3) })?;
        same("the sets of too few words", [3, 14, 0], answer)?;
        sets.holds("the sets of too few words", &[0; SETS])?;
        answer = [0; 3];
        same("the value of an advance of too few words", 0, unsafe { sivorandra_advance(run.lent().as_mut_ptr(), words, 0, 0, answer.as_mut_ptr(), 3) })?;
        same("an advance of too few words", [3, 14, 0], answer)?;
        answer = [0; 3];
        same("the value of a withdrawal from too few words", 0, unsafe { sivorandra_withdraw(run.lent().as_mut_ptr(), words, 1, answer.as_mut_ptr(), 3) })?;
        same("a withdrawal from too few words", [3, 14, 0], answer)?;
        answer = [0; 3];
        same("the value of a set withdrawn from too few words", 0, unsafe { sivorandra_withdraw_all(run.lent().as_mut_ptr(), words, 1, answer.as_mut_ptr(), 3) })?;
        same("a set withdrawn from too few words", [3, 14, 0], answer)?;
        run.as_found("too few words")?;
        answer = [7; 3];
        same("the value of a row in too few bytes", 1, unsafe { sivorandra_row(run.lent().as_ptr(), run.len(), 0, row.lent().as_mut_ptr(), bytes, answer.as_mut_ptr(), 3) })?;
        same("the answer to too few bytes", [7; 3], answer)?;
        row.as_found("too few bytes")?;
        same("the value of too few sets", 1, unsafe { sivorandra_sets(run.lent().as_ptr(), run.len(), 0, sets.lent().as_mut_ptr(), few, answer.as_mut_ptr(), 3) })?;
        same("the answer to too few sets", [7; 3], answer)?;
        sets.as_found("too few sets")
    }
}
