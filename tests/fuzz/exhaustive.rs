//! Every way to end jobs early, to have empty ones and to withdraw a task, within the first ticks of a small table: the run in words beside the book.
use crate::simulator::{self, ReferenceRun, Answer};
use crate::calls::{self, same, same_run, Checked};
use crate::lending::LENDING;
use crate::sustainability::{self, List};
use crate::rng::Rng;
use crate::tables;
use crate::Counts;
use sivorandra::{Entry, Refusal, Run, Verdict};

/// A table is searched for as many ticks, from the fewest to the most, as give at most the most nodes. One with too few is left out.
const FEWEST_TICKS: usize = 4;
const MOST_TICKS: usize = 12;
const FEWEST_NODES: u64 = 200;
const MOST_NODES: u64 = 20_000;
/// At most this many tasks are withdrawn.
const MOST_WITHDRAWN: u32 = 1;

/// All subsets of a set.
fn subsets(set: u32) -> impl Iterator<Item = u32> {
    let mut next = Some(set);
    std::iter::from_fn(move || {
        let one = next?;
        next = if one == 0 { None } else { Some((one - 1) & set) };
        Some(one)
    })
}

/// The positions that are withdrawn.
fn withdrawals(firm: bool, reference: &ReferenceRun) -> std::ops::RangeInclusive<u32> {
    if firm && reference.withdrawn().count_ones() < MOST_WITHDRAWN { 1..=reference.count() } else { 1..=0 }
}

/// The nodes below this one by the book alone, counted up to a limit.
fn nodes(firm: bool, reference: &ReferenceRun, ticks: usize, limit: u64) -> u64 {
    let mut count = 1;
    if ticks == 0 {
        return count;
    }
    for position in withdrawals(firm, reference) {
        let mut next = reference.clone();
        if count <= limit && next.enter(Entry::Withdraw { position }).is_ok() {
            count += nodes(firm, &next, ticks, limit - count.min(limit));
        }
    }
    for empties in subsets(reference.may_be_empty()) {
        for reports in subsets(reference.may_report(empties)) {
            let mut next = reference.clone();
            if count <= limit && next.enter(Entry::Advance { reports, empties }).is_ok() {
                count += nodes(firm, &next, ticks - 1, limit - count.min(limit));
            }
        }
    }
    count
}

/// For how many ticks the table is searched, if it is.
fn depth(firm: bool, reference: &ReferenceRun) -> Option<usize> {
    let mut found = None;
    for ticks in FEWEST_TICKS..=MOST_TICKS {
        match nodes(firm, reference, ticks, MOST_NODES) {
            size if size > MOST_NODES => break,
            size if size >= FEWEST_NODES => found = Some(ticks),
            _ => (),
        }
    }
    found
}

struct Search {
    firm: bool,
    ticks: usize,
    /// The list that is being tried, and all lists so far, by their ticks.
    list: Vec<Entry>,
    lists: Vec<Vec<List>>,
}

impl Search {
    fn visit(&mut self, run: &Run, reference: &ReferenceRun, list: List, counts: &mut Counts) -> Checked<()> {
        counts.nodes += 1;
        let tick = sustainability::ticks(&self.list);
        same_run("the run", &reference.words(run.words()), run.words())?;
        let row = reference.row(0);
        same("row", row, run.row(0))?;
        counts.answer(&row.map(|_| ()));
        if self.firm {
            same("the row of a firm table is shown", Ok(()), row.map(|_| ()))?;
        }
        if row.is_err() {
            counts.ends += 1;
            self.lists[tick].push(list);
            let mut next = run.clone();
            same("advance of a run that has missed", row.map(|_| ()), next.advance(0, 0))?;
            return same_run("a run that has missed", run.words(), next.words());
        }
        if tick < self.ticks {
            self.withdraw(run, reference, &list, counts)?;
            let sets = 0..2 << run.words()[2];
            for empties in sets.clone() {
                same(&format!("row with {empties} empty"), reference.row(empties), run.row(empties))?;
                same(&format!("sets with {empties} empty"), reference.sets(empties), run.sets(empties))?;
                let fits = empties & !reference.may_be_empty() == 0;
                let may = reference.may_report(empties);
                for reports in sets.clone().take(if fits { sets.len() } else { 2 }) {
                    let answer = match (fits, reports & !may) {
                        (false, _) => Err(Refusal::BadEmpty),
                        (true, 0) => Ok(()),
                        (true, _) => Err(Refusal::BadReport),
                    };
                    self.enter(run, reference, &list, Entry::Advance { reports, empties }, answer, counts)?;
                }
            }
        }
        self.lists[tick].push(list);
        Ok(())
    }

    /// Each position withdrawn, and those past the count: 21 on a table that is not firm, else 22 for these. Once a task is withdrawn, no other is tried here.
    fn withdraw(&mut self, run: &Run, reference: &ReferenceRun, list: &List, counts: &mut Counts) -> Checked<()> {
        for position in [0, reference.count() + 1, 33, u32::MAX] {
            let refusal = if self.firm { Refusal::NoPosition } else { Refusal::NotFirm };
            self.enter(run, reference, list, Entry::Withdraw { position }, Err(refusal), counts)?;
        }
        for position in 1..=reference.count() {
            let entry = Entry::Withdraw { position };
            if !self.firm {
                self.enter(run, reference, list, entry, Err(Refusal::NotFirm), counts)?;
            } else if run.withdrawn() >> (position - 1) & 1 == 1 {
                let mut again = run.clone();
                same("once more", Ok(()), again.withdraw(position))?;
                same_run("once more is the same as once", run.words(), again.words())?;
            } else if withdrawals(self.firm, reference).contains(&position) {
                self.enter(run, reference, list, entry, Ok(()), counts)?;
            }
        }
        (0..2 << reference.count()).chain([1 << 31, u32::MAX]).try_for_each(|set| self.together(run, reference.count(), set))
    }

    /// Several positions withdrawn together, beside each alone from the last on: all, or none if one is past the count or the table is not firm.
    fn together(&self, run: &Run, count: u32, set: u32) -> Checked<()> {
        let expected = match (self.firm, set >> count) {
            (false, _) => Err(Refusal::NotFirm),
            (true, 0) => Ok(()),
            (true, _) => Err(Refusal::NoPosition),
        };
        let (mut all, mut each) = (run.clone(), run.clone());
        same(&format!("{set} together"), expected, all.withdraw_all(set))?;
        if expected.is_ok() {
            (1..=count).rev().filter(|position| set >> (position - 1) & 1 == 1).try_for_each(|position| same("one of them", Ok(()), each.withdraw(position)))?;
        }
        same_run(&format!("{set} together"), each.words(), all.words())
    }

    /// An entry with its expected answer and, if it is accepted, all that follows.
    fn enter(&mut self, run: &Run, reference: &ReferenceRun, list: &List, entry: Entry, expected: Answer<()>, counts: &mut Counts) -> Checked<()> {
        let mut next = run.clone();
        let answer = calls::enter(&mut next, entry);
        counts.answer(&answer);
        same(&format!("{entry:?}"), expected, answer)?;
        if answer.is_err() {
            return same_run("a refused run", run.words(), next.words());
        }
        if let Entry::Advance { reports, .. } = entry {
            counts.borrowing(reference.borrowers(entry), reports);
        }
        self.list.push(entry);
        let mut book = reference.clone();
        same("the book's answer", Ok(()), book.enter(entry))?;
        self.visit(&next, &book, list.with(entry, run.words(), next.words()), counts)?;
        self.list.pop();
        Ok(())
    }
}

/// Searches the next table from the seed on that start accepts and that has few enough nodes. The error gives the difference.
pub fn case(seed: u64, counts: &mut Counts) -> Checked<()> {
    let mut rng = Rng::new(seed);
    loop {
        let words = tables::small(&mut rng);
        let Ok(known) = simulator::read(&words) else { continue };
        let firm = match known.verdict() {
            Verdict::Firm { .. } => true,
            Verdict::Full { .. } => false,
            Verdict::Miss { .. } => continue,
        };
        let Ok(reference) = known.start() else { continue };
        let Some(ticks) = depth(firm, &reference) else { continue };
        let mut list = Vec::new();
        let searched = (|| {
            let run = Run::start(&words).map_err(|refusal| format!("start: {refusal:?}"))?;
            let mut search = Search { firm, ticks, list: Vec::new(), lists: vec![Vec::new(); ticks + 1] };
            let visited = search.visit(&run, &reference, List::empty(run.words(), ticks), counts);
            list = search.list;
            visited?;
            search.lists.iter().try_for_each(|lists| sustainability::compare(firm, words[2] == LENDING, lists, counts))
        })();
        counts.searched.insert(words.clone());
        return searched.map_err(|why| format!("seed {seed}, small table: {why}\n  table {words:?}\n  list {list:?}"));
    }
}
