//! The simulator by another hand, unchanged, and its use by the tests: the answers are those of its book, which keeps jobs and no phases,
//! and the words of a run those of its run, which keeps phases. The two must agree.
#![allow(dead_code)]

include!("../gangsim.rs");

use sivorandra::{Entry as Asked, Refusal as Refused, Verdict as Judged, ROW_BYTES, RUN_HEAD_WORDS, RUN_PLACE_WORDS, RUN_WORDS, SETS};

/// The last request that the project has.
const REQUEST: u32 = 114;

/// Lets the simulator read tables as the last request does.
pub fn begin() {
    STAGE.store(REQUEST, Ordering::Relaxed);
}

pub type Answer<T> = Result<T, Refused>;

fn refusal_of(refusal: Refusal) -> Refused {
    Refused::new(refusal.number, refusal.place as u32)
}

/// The numbers of a table's text.
pub fn numbers(text: &[u8]) -> Answer<Vec<u32>> {
    read_numbers(text).map_err(refusal_of)
}

/// A table that passed 1 to 9, and its verdict.
pub struct Known {
    table: Table,
    verdict: Verdict,
}

pub fn read(words: &[u32]) -> Answer<Known> {
    let table = Table::check(words).map_err(refusal_of)?;
    let verdict = judge(&table);
    Ok(Known { table, verdict })
}

impl Known {
    pub fn verdict(&self) -> Judged {
        match self.verdict {
            Verdict::Firm { s, p } => Judged::Firm { start: s as u32, period: p as u32 },
            Verdict::Full { s, p } => Judged::Full { start: s as u32, period: p as u32 },
            Verdict::Miss { tick, position } => Judged::Miss { tick: tick as u32, position: position as u32 },
        }
    }

    pub fn cores(&self) -> usize {
        self.table.cores as usize
    }

    /// Whether a task has two widths, and whether the late job is an even one of it.
    pub fn pairs(&self) -> (bool, bool) {
        let two = |task: &Task| task.width != task.width2;
        let late_even = match self.verdict {
            Verdict::Miss { tick, position } => {
                let task = &self.table.tasks[position as usize - 1];
                two(task) && (tick - task.deadline - task.offset) / task.period % 2 == 1
            }
            _ => false,
        };
        (self.table.tasks.iter().any(two), late_even)
    }

    pub fn horizon(&self) -> u32 {
        self.table.horizon() as u32
    }

    /// Rows a up to b, one byte a core, into a buffer of `bytes`.
    pub fn plan(&self, a: u32, b: u32, bytes: usize) -> Answer<Vec<u8>> {
        check_plan(&self.table, a.into(), b.into(), bytes as u64).map_err(refusal_of)?;
        let mut rows = Vec::new();
        each_row(&self.table, a.into(), b.into(), |_, row| rows.extend_from_slice(row));
        Ok(rows)
    }

    pub fn start(&self) -> Answer<ReferenceRun> {
        match self.verdict {
            Verdict::Miss { .. } => Err(Refused::TableMisses),
            _ => Ok(ReferenceRun { book: Some(Book::begin(&self.table)), run: Run::begin(&self.table) }),
        }
    }

    /// The table with just its unfenced cores: its words, and the places of these cores.
    pub fn just_unfenced(words: &[u32]) -> (Vec<u32>, Vec<usize>) {
        let fence = fence_in(&words[3..]);
        let free: Vec<usize> = (0..words[1] as usize).filter(|&core| !bit(fence, core)).collect();
        let mut just = words.to_vec();
        just[1] = free.len() as u32;
        just[3..5].fill(0);
        (just, free)
    }
}

/// Two words as a set of cores, the low word first.
fn fence_in(words: &[u32]) -> u64 {
    u64::from(words[0]) | u64::from(words[1]) << 32
}

/// A place's index in the words of a run: O, v, C, D, T, w, the parity of its job, and its phase.
pub const fn place_at(place: usize) -> usize {
    RUN_HEAD_WORDS + RUN_PLACE_WORDS * place
}

/// The index of its phase: its kind and its three numbers.
pub const fn phase_at(place: usize) -> usize {
    place_at(place) + 7
}

/// The index of the withdrawn set in a run's words.
pub const WITHDRAWN: usize = 5;

/// The kinds.
pub const COMING: u32 = 0;
pub const WORKING: u32 = 1;
pub const HOLDING: u32 = 2;
pub const RESTING: u32 = 3;

/// A list of entries so far: the book, where the run was started, and the run.
pub struct ReferenceRun {
    book: Option<Book>,
    run: Run,
}

impl Clone for ReferenceRun {
    fn clone(&self) -> Self {
        let copy = |book: &Book| Book { table: book.table.clone(), t: book.t, jobs: book.jobs.clone(), empty_from: book.empty_from.clone() };
        ReferenceRun { book: self.book.as_ref().map(copy), run: self.run.clone() }
    }
}

impl ReferenceRun {
    pub fn row(&self, empties: u32) -> Answer<[u8; ROW_BYTES]> {
        let row = self.run.row(empties.into()).map_err(refusal_of);
        if let Some(book) = &self.book {
            let by_book = book.row(empties.into()).map_err(refusal_of).map(|cores| {
                let mut row = [0; ROW_BYTES];
                row[..cores.len()].copy_from_slice(&cores);
                row
            });
            assert_eq!(by_book, row, "the simulator's book and its run have different rows");
        }
        row
    }

    /// The row as sets, by the cores that the book gives and lends and by those of the run. As bytes they are the row.
    pub fn sets(&self, empties: u32) -> Answer<[u64; SETS]> {
        let sets = self.run.sets(empties.into()).map_err(refusal_of);
        if let Some(book) = &self.book {
            assert_eq!(book.sets(empties.into()).map_err(refusal_of), sets, "the simulator's book and its run have different sets");
        }
        let bytes = sets.map(|sets| bytes_of(&sets, self.run.fence, self.run.cores as usize));
        assert_eq!(self.row(empties), bytes, "the simulator's row is not that of its sets");
        sets
    }

    pub fn enter(&mut self, entry: Asked) -> Answer<()> {
        let (next, by_book) = match entry {
            Asked::Advance { reports, empties } => {
                let (reports, empties) = (reports.into(), empties.into());
                (self.run.advance(reports, empties), self.book.as_mut().map(|book| book.advance(reports, empties)))
            }
            Asked::Withdraw { position } => (self.run.withdraw(position.into()), self.book.as_mut().map(|book| book.withdraw(position.into()))),
            Asked::WithdrawAll { set } => (self.run.withdraw_set(set.into()), self.book.as_mut().map(|book| book.withdraw_set(set.into()))),
            other => panic!("no such entry: {other:?}"),
        };
        let next = next.map_err(refusal_of);
        if let Some(by_book) = by_book {
            let by_book = by_book.map_err(refusal_of);
            assert_eq!(by_book, next.as_ref().map(|_| ()).map_err(|refusal| *refusal), "the simulator's book and its run have different answers");
        }
        self.run = next?;
        Ok(())
    }

    /// The number of positions.
    pub fn count(&self) -> u32 {
        self.run.count as u32
    }

    /// The set of withdrawn positions.
    pub fn withdrawn(&self) -> u32 {
        self.run.withdrawn as u32
    }

    /// The set of positions whose job may be empty: it is released in this tick.
    pub fn may_be_empty(&self) -> u32 {
        (0..self.run.n()).filter(|&place| self.run.phases[place] == FRESH).fold(0, |set, place| set | 1 << place)
    }

    /// The set of positions that may be reported with these empty jobs; none if these are refused or a deadline is missed.
    pub fn may_report(&self, empties: u32) -> u32 {
        let Ok(tick) = self.run.tick(empties.into()) else { return 0 };
        let may = |place: usize| matches!(tick.phases[place], Phase::Working { .. }) && tick.sets[place] != 0;
        (0..self.run.n()).filter(|&place| may(place)).fold(0, |set, place| set | 1 << place)
    }

    /// The set of positions that borrow in the tick of an advance; none if its empty jobs or a missed deadline refuse it, and in a withdrawal.
    pub fn borrowers(&self, entry: Asked) -> u32 {
        let Asked::Advance { empties, .. } = entry else { return 0 };
        let Ok(tick) = self.run.tick(empties.into()) else { return 0 };
        (0..self.run.n()).filter(|&place| tick.served[place]).fold(0, |set, place| set | 1 << place)
    }

    /// The words of the run; past the count those of `before`.
    pub fn words(&self, before: &[u32; RUN_WORDS]) -> [u32; RUN_WORDS] {
        encoded(&self.run, before)
    }
}

/// The bytes of sets of cores: the position that has the core, 255 on a fenced one, 0 past the core count.
pub fn bytes_of(sets: &[u64; SETS], fence: u64, cores: usize) -> [u8; ROW_BYTES] {
    let mut row = [0; ROW_BYTES];
    for (core, byte) in row.iter_mut().enumerate().take(cores) {
        let owners: Vec<usize> = (0..SETS).filter(|&place| bit(sets[place], core)).collect();
        *byte = match (bit(fence, core), &owners[..]) {
            (false, []) => 0,
            (false, [place]) => *place as u8 + 1,
            (true, []) => FENCED,
            other => panic!("core {core} is fenced and in a set, or in two: {other:?}"),
        };
    }
    row
}

/// The words of a run; past the count those of `before`.
fn encoded(run: &Run, before: &[u32; RUN_WORDS]) -> [u32; RUN_WORDS] {
    let mut words = *before;
    words[..RUN_HEAD_WORDS].copy_from_slice(&[run.rule, run.cores, run.count as u32, run.fence as u32, (run.fence >> 32) as u32, run.withdrawn as u32]);
    for place in 0..run.n().min(PLACES) {
        let task = &run.tasks[place];
        let (kind, first, second, third) = match run.phases[place] {
            Phase::Coming(left) => (COMING, left, 0, 0),
            Phase::Working { z, had, reserved } => (WORKING, z, had, reserved),
            Phase::Holding { z, u } => (HOLDING, z, u, 0),
            Phase::Resting(z) => (RESTING, z, 0, 0),
        };
        let now = [task.offset, task.width, task.length, task.deadline, task.period, task.width2, run.even[place].into(), kind.into(), first, second, third];
        for (at, number) in now.into_iter().enumerate() {
            words[place_at(place) + at] = number as u32;
        }
    }
    words
}

/// The run in words with these parities and phases below the count; past it zeros and Resting(0).
fn decoded(words: &[u32; RUN_WORDS]) -> Run {
    let mut run = Run::zeros();
    (run.rule, run.cores, run.count, run.fence, run.withdrawn) = (words[0], words[1], words[2].into(), fence_in(&words[3..]), words[5].into());
    for place in 0..run.n().min(PLACES) {
        let [offset, width, length, deadline, period, width2, even, kind, first, second, third] = std::array::from_fn(|at| u64::from(words[place_at(place) + at]));
        run.tasks[place] = Task { offset, width, length, deadline, period, width2 };
        run.even[place] = even == 1;
        run.phases[place] = match kind as u32 {
            COMING => Phase::Coming(first),
            WORKING => Phase::Working { z: first, had: second, reserved: third },
            HOLDING => Phase::Holding { z: first, u: second },
            _ => Phase::Resting(first),
        };
    }
    run
}

/// A run built by hand whose words are a run: whether 14 refuses it, and the list that begins with it.
pub fn built(words: &[u32; RUN_WORDS]) -> (bool, ReferenceRun) {
    let run = decoded(words);
    (run.check14().is_err(), ReferenceRun { book: None, run })
}

/// The text before the line `--`, and the operations after it.
pub fn split(text: &[u8]) -> (Vec<u8>, Vec<String>) {
    split_input(text)
}

/// A run built by hand, as text: its words, and the operations after it.
pub fn built_from(text: &[u8], none: &[u32; RUN_WORDS]) -> ([u32; RUN_WORDS], Vec<String>) {
    let (before, operations) = split_input(text);
    (encoded(&state_from(&before).run, none), operations)
}

/// The run in words, as text.
pub fn text_of(words: &[u32; RUN_WORDS]) -> String {
    run_text(&decoded(words))
}
