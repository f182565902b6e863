//! Both verdicts, plan, replay and the run in words beside the simulator, on one random table.
use crate::simulator::{self, ReferenceRun, Known, Answer};
use crate::calls::{self, reported, same, RunBuffer, Guarded, Checked};
use crate::lending::{IDLING, LENDING};
use crate::rng::Rng;
use crate::tables;
use crate::Counts;
use sivorandra::{Entry, Refusal, Replay, Run, Verdict, FENCED, ROW_BYTES};

/// The most entries of a list.
const MOST_ENTRIES: u32 = 60;
/// The most rows of a long table.
const MOST_ROWS: u32 = 2_000;

fn code(answer: &Answer<()>) -> u32 {
    answer.map_or_else(|refusal| refusal.number() * 256 + refusal.position(), |()| 0)
}

/// Rows to ask for and a buffer's length, mostly valid.
fn asked(rng: &mut Rng, known: &Answer<Known>) -> (u32, u32, usize) {
    let (cores, horizon, miss) = match known {
        Ok(known) => match known.verdict() {
            Verdict::Miss { tick, .. } => (known.cores(), known.horizon(), tick),
            _ => (known.cores(), known.horizon(), known.horizon()),
        },
        Err(_) => (rng.below(65), rng.from(0, 30), rng.from(0, 30)),
    };
    let b = match rng.below(12) {
        0 => horizon + 1,
        1 => miss + 1,
        2 => miss,
        3 => horizon,
        4 => rng.word(),
        5 => rng.from(0, horizon),
        _ => rng.from(0, miss),
    };
    let a = match rng.below(10) {
        0 => b,
        1 => b.saturating_add(1),
        2 => rng.word(),
        3 => 0,
        _ => rng.from(b.saturating_sub(MOST_ROWS), b),
    };
    let need = (b.saturating_sub(a) as usize * cores).min(MOST_ROWS as usize * 64);
    let len = match rng.below(8) {
        0 => need.saturating_sub(1),
        1 => rng.below(need + 1),
        2 => 0,
        3 => need,
        _ => need + rng.below(20),
    };
    (a, b, len)
}

fn compare_plans(rng: &mut Rng, counts: &mut Counts, words: &[u32], known: &Answer<Known>) -> Checked<()> {
    let times = if known.as_ref().is_ok_and(|known| known.horizon() < 1_000) { 3 } else { 1 };
    for _ in 0..times {
        let (a, b, len) = asked(rng, known);
        let expected = known.as_ref().map_err(|refusal| *refusal).and_then(|known| known.plan(a, b, len));
        let got = calls::plan(rng, words, a, b, len, &expected).map_err(|why| format!("plan {a} {b} into {len} bytes: {why}"))?;
        counts.plans += 1;
        counts.answer(&got);
        let mut rows = Guarded::bytes(rng, len);
        same("plan in Rust", got, sivorandra::plan(words, a, b, rows.lent()))?;
        rows.holds("the rows in Rust", expected.as_deref().unwrap_or(&[]))?;
    }
    Ok(())
}

/// A set of reports, or of empty jobs: mostly of those that may be in it, and at times of others.
fn any_of(rng: &mut Rng, may: u32, often: u32) -> u32 {
    match rng.below(40) {
        0 => rng.word(),
        1 => u32::MAX,
        2 => may | 1 << rng.below(32),
        3 => 1 << rng.below(8),
        4 => may,
        _ => (0..32).filter(|_| rng.once_in(often)).fold(0, |set, place| set | 1 << place) & may,
    }
}

/// A set of empty jobs, none in every second one.
fn empties(rng: &mut Rng, reference: &ReferenceRun, often: u32) -> u32 {
    if rng.once_in(2) { 0 } else { any_of(rng, reference.may_be_empty(), often) }
}

/// A position, mostly a valid one.
fn position(rng: &mut Rng, count: u32) -> u32 {
    if rng.once_in(8) { rng.pick(&[0, count + 1, 33, 1 << 31, u32::MAX]) } else { rng.from(1, count) }
}

/// A set of positions, mostly of valid ones.
fn positions(rng: &mut Rng, count: u32) -> u32 {
    let all = u32::MAX >> (32 - count);
    match rng.below(8) {
        0 => 0,
        1 => all,
        2 => rng.word(),
        3 => rng.word() & all | 1 << rng.below(32),
        _ => rng.word() & all,
    }
}

/// The withdrawal of a position, or of several together.
pub fn withdrawal(rng: &mut Rng, count: u32) -> Entry {
    if rng.once_in(2) { Entry::Withdraw { position: position(rng, count) } } else { Entry::WithdrawAll { set: positions(rng, count) } }
}

/// The next entry: in few lists, and now and then, a withdrawal.
fn entry(rng: &mut Rng, reference: &ReferenceRun, often: u32) -> Entry {
    if rng.once_in(8 * often) {
        return withdrawal(rng, reference.count());
    }
    let empties = empties(rng, reference, often);
    Entry::Advance { reports: any_of(rng, reference.may_report(empties), often), empties }
}

/// A list of entries through the run in words, step by step, and then as a whole.
fn compare_runs(rng: &mut Rng, counts: &mut Counts, words: &[u32], known: &Answer<Known>, list: &mut Vec<Entry>) -> Checked<()> {
    let mut begun = known.as_ref().map_err(|refusal| *refusal).and_then(Known::start);
    let mut held = calls::NO_RUN;
    let first = begun.as_ref().map(|reference| reference.words(&held)).map_err(|refusal| *refusal);
    let (mut buffer, started) = RunBuffer::start(rng, words, first)?;
    counts.answer(&started);
    same("start in Rust", first, Run::start(words).map(|run| *run.words()))?;
    let often = rng.pick(&[1, 2, 4, 16]);
    let length = rng.from(0, MOST_ENTRIES);
    let mut expected = Vec::new();
    let unmade = Refusal::NotARun;
    let mut row: Answer<[u8; ROW_BYTES]> = Err(unmade);
    for at in 0..=length {
        let others = begun.as_ref().map_or(at, |reference| empties(rng, reference, often));
        for set in [others, 0] {
            row = begun.as_ref().map_or(Err(unmade), |reference| reference.row(set));
            let shown = buffer.row(rng, set, row).map_err(|why| format!("after {at} entries, with the empty jobs {set}: {why}"))?;
            counts.answer(&shown);
            let sets = begun.as_ref().map_or(Err(unmade), |reference| reference.sets(set));
            let shown = buffer.sets(rng, set, sets).map_err(|why| format!("after {at} entries, as sets with the empty jobs {set}: {why}"))?;
            counts.asked(begun.as_ref().map_or(0, |reference| reference.borrowers(Entry::Advance { reports: 0, empties: set })), &shown);
        }
        if at == length || (begun.is_err() && at == 2) {
            break;
        }
        let next = begun.as_ref().map_or(reported(at), |reference| entry(rng, reference, often));
        list.push(next);
        let borrowers = begun.as_ref().map_or(0, |reference| reference.borrowers(next));
        let answer = begun.as_mut().map_or(Err(unmade), |reference| reference.enter(next));
        if let (Ok(reference), Ok(())) = (&begun, answer) {
            held = reference.words(&held);
        }
        let taken = buffer.enter(rng, next, answer.map(|()| held)).map_err(|why| format!("entry {at}: {why}"))?;
        counts.entered(next, borrowers, &taken);
        expected.push(answer);
    }
    if rng.once_in(8) {
        buffer.cut(rng)?;
    }
    let whole = begun.as_ref().map(|_| (expected.iter().map(code).collect(), row)).map_err(|refusal| *refusal);
    calls::replay(rng, words, list, &whole)?;
    counts.replays += 1;
    counts.late += u64::from(row.is_err() && begun.is_ok());
    let bound = begun.as_ref().map(|_| Replay { answers: expected, row }).map_err(|refusal| *refusal);
    same("replay in Rust", bound, sivorandra::replay(words, list))
}

/// A table that passes 9 has the verdict of the one with just its unfenced cores. Its first rows are those of that one, spread over these cores with 255 between.
fn compare_unfenced(counts: &mut Counts, words: &[u32], verdict: Answer<Verdict>) -> Checked<()> {
    let (just, free) = Known::just_unfenced(words);
    if just == words {
        return Ok(());
    }
    counts.fenced += 1;
    counts.second += u64::from(words[4] != 0);
    counts.alone += u64::from(free.len() == 1);
    same("the verdict with just the unfenced cores", verdict, sivorandra::judge(&just))?;
    let last = match verdict {
        Ok(Verdict::Firm { start, period } | Verdict::Full { start, period }) => start + period,
        Ok(Verdict::Miss { tick, .. }) => tick,
        Err(_) => 0,
    };
    let (ticks, cores) = (last.min(20), words[1] as usize);
    let (mut rows, mut others) = (vec![1; ticks as usize * cores], vec![1; ticks as usize * free.len()]);
    same("the rows", Ok(()), sivorandra::plan(words, 0, ticks, &mut rows))?;
    same("the rows with just the unfenced cores", Ok(()), sivorandra::plan(&just, 0, ticks, &mut others))?;
    for (tick, (row, other)) in rows.chunks(cores).zip(others.chunks(free.len())).enumerate() {
        let mut spread = vec![FENCED; cores];
        free.iter().zip(other).for_each(|(&core, &position)| spread[core] = position);
        same(&format!("the row of tick {tick} beside that with just the unfenced cores"), &spread[..], row)?;
    }
    Ok(())
}

/// At full length a table under lending has the verdict of the one under idling, and its first rows.
fn compare_idling(counts: &mut Counts, words: &[u32], known: &Known) -> Checked<()> {
    if words[2] != LENDING {
        return Ok(());
    }
    counts.lending += 1;
    let mut idling = words.to_vec();
    idling[2] = IDLING;
    same("the verdict under idling", Ok(known.verdict()), sivorandra::judge(&idling))?;
    let ticks = match known.verdict() {
        Verdict::Miss { tick, .. } => tick,
        _ => known.horizon(),
    };
    let ticks = ticks.min(20);
    let (mut rows, mut others) = (vec![1; ticks as usize * known.cores()], vec![2; ticks as usize * known.cores()]);
    same("the rows", Ok(()), sivorandra::plan(words, 0, ticks, &mut rows))?;
    same("the rows under idling", Ok(()), sivorandra::plan(&idling, 0, ticks, &mut others))?;
    same("rows under lending beside those under idling", others, rows)
}

/// One random table; the error gives the difference.
pub fn case(seed: u64, counts: &mut Counts) -> Checked<()> {
    let mut rng = Rng::new(seed);
    let words = tables::any(&mut rng);
    let mut list = Vec::new();
    compare(&mut rng, counts, &words, &mut list).map_err(|why| format!("seed {seed}: {why}\n  table {words:?}\n  list {list:?}"))
}

fn compare(rng: &mut Rng, counts: &mut Counts, words: &[u32], list: &mut Vec<Entry>) -> Checked<()> {
    let known = simulator::read(words);
    let expected = known.as_ref().map(Known::verdict).map_err(|refusal| *refusal);
    let got = calls::judge(rng, words, false)?;
    same("verdict", expected, got)?;
    same("verdict in Rust", expected, sivorandra::judge(words))?;
    same("verdict tick by tick", expected, calls::judge(rng, words, true)?)?;
    same("verdict tick by tick in Rust", expected, sivorandra::judge_ticks(words))?;
    counts.verdict(&got);
    if let Ok(known) = &known {
        counts.pairs(known.pairs(), got);
        compare_unfenced(counts, words, got)?;
        compare_idling(counts, words, known)?;
    }
    compare_plans(rng, counts, words, &known)?;
    compare_runs(rng, counts, words, &known, list)
}
