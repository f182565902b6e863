//! The lists of one small table beside each other, at one tick: the progress of each job in each of them, by the library's runs.
use crate::simulator::{phase_at, place_at, WITHDRAWN, WORKING};
use crate::calls::Checked;
use crate::Counts;
use sivorandra::{Entry, RUN_WORDS};

/// The most lists compared at one tick, each with each.
const MOST_LISTS: usize = 100;

/// A job's progress: the ticks had, and whether it has ended.
#[derive(Clone, Copy, Default, PartialEq)]
struct Line {
    had: u32,
    ended: bool,
}

impl Line {
    /// Longer than the same job in another list: it has ended there, and has had more ticks here, or as many without ending.
    fn longer(&self, other: &Line) -> bool {
        other.ended && (self.had > other.had || self.had == other.had && !self.ended)
    }

    /// Behind the same job in another list: only the other has finished it, or neither has and it has had fewer ticks here.
    fn behind(&self, other: &Line) -> bool {
        !self.ended && (other.ended || self.had < other.had)
    }
}

/// The ticks that a list takes: a withdrawal takes none.
pub fn ticks(entries: &[Entry]) -> usize {
    entries.iter().filter(|entry| matches!(entry, Entry::Advance { .. })).count()
}

/// A list of accepted entries, and the jobs after it: `per_place` of each place, future ones too.
#[derive(Clone)]
pub struct List {
    pub entries: Vec<Entry>,
    per_place: usize,
    jobs: Vec<Line>,
}

impl List {
    /// The empty list, of a table whose lists grow to `ticks`.
    pub fn empty(run: &[u32; RUN_WORDS], ticks: usize) -> List {
        let per_place = ticks + 1;
        List { entries: Vec::new(), per_place, jobs: vec![Line::default(); per_place * run[2] as usize] }
    }

    /// The list with one entry more, which took the run from `before` to `after`.
    pub fn with(&self, entry: Entry, before: &[u32; RUN_WORDS], after: &[u32; RUN_WORDS]) -> List {
        let mut next = self.clone();
        let tick = ticks(&self.entries) as u32;
        next.entries.push(entry);
        let Entry::Advance { empties, .. } = entry else { return next };
        for place in 0..before[2] as usize {
            let (task, phase) = (&before[place_at(place)..][..5], &before[phase_at(place)..][..3]);
            if phase[0] != WORKING {
                continue;
            }
            let number = (tick - phase[1] - task[0]) / task[4];
            let then = &after[phase_at(place)..][..3];
            let goes_on = then[0] == WORKING && then[1] == phase[1] + 1;
            let empty = phase[1] == 0 && (empties | before[WITHDRAWN]) >> place & 1 == 1;
            let line = match (empty, goes_on) {
                (true, _) => Line { had: 0, ended: true },
                (_, true) => Line { had: then[2], ended: false },
                (_, false) => Line { had: phase[2] + 1, ended: true },
            };
            next.jobs[self.per_place * place + number as usize] = line;
        }
        next
    }

    /// Whether both sets of every entry of the list are empty.
    fn full_length(&self) -> bool {
        self.entries.iter().all(|&entry| entry == Entry::Advance { reports: 0, empties: 0 })
    }

    /// The first job that passes the test beside the same job of another list.
    fn some(&self, other: &List, test: impl Fn(&Line, &Line) -> bool) -> Option<usize> {
        self.jobs.iter().zip(&other.jobs).position(|(here, there)| test(here, there))
    }

    /// A job of this list beside that of another, in words.
    fn named(&self, other: &List, job: usize) -> String {
        format!("job {} of position {} after {:?} beside {:?}", job % self.per_place + 1, job / self.per_place + 1, self.entries, other.entries)
    }
}

/// The lists of one tick beside the full-length one: no job is longer, and on a firm table none is behind.
fn compare_with_full(firm: bool, lists: &[List]) -> Checked<()> {
    let full = lists.iter().find(|list| list.full_length()).ok_or("no list is the full-length one")?;
    for list in lists {
        if let Some(job) = list.some(full, Line::longer) {
            return Err(format!("longer than at full length: {}", list.named(full, job)));
        }
        if let Some(job) = list.some(full, Line::behind).filter(|_| firm) {
            return Err(format!("behind the full-length run: {}", list.named(full, job)));
        }
    }
    Ok(())
}

/// The lists of one tick, or some of them, each with each: on a firm table a list that has no longer job is behind on none, except under lending, where a wider borrower
/// may run in place of another.
pub fn compare(firm: bool, lending: bool, lists: &[List], counts: &mut Counts) -> Checked<()> {
    compare_with_full(firm, lists)?;
    let chosen: Vec<&List> = lists.iter().step_by(lists.len().div_ceil(MOST_LISTS).max(1)).collect();
    for a in &chosen {
        for b in &chosen {
            // two lists with the same jobs show little
            if b.full_length() || a.jobs == b.jobs || a.some(b, Line::longer).is_some() {
                continue;
            }
            match a.some(b, Line::behind) {
                None => counts.sustained += u64::from(firm && !lending),
                Some(_) if lending => counts.behind_by_lending += 1,
                Some(job) if firm => return Err(format!("no job is longer, and one is behind: {}", a.named(b, job))),
                Some(_) => counts.behind += 1,
            }
        }
    }
    Ok(())
}
