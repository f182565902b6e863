//! Lending in runs built by hand: the limits of the reserved count, moves of one task whose counts differ, borrowers and holders.
use crate::simulator::{COMING, HOLDING, RESTING, WORKING};
use crate::calls::{same, same_run, Checked};
use crate::hand_built_runs::{odd, place_of, run, Place};
use sivorandra::{Refusal, Run};

/// The rules under which a job that has ended holds; under the last it lends.
pub const IDLING: u32 = 3;
pub const LENDING: u32 = 4;

/// The kind and the three numbers of a phase.
type Phase = [u32; 4];

/// The limits of the reserved count under a rule: phases by their kind and three numbers, of a task with C 4, D 6 and T 8.
pub fn limits() -> Vec<(&'static str, u32, Phase, Phase)> {
    let mut limits = vec![
        ("reserved at most had", LENDING, [WORKING, 3, 2, 2], [WORKING, 3, 2, 3]),
        ("reserved at most had, that is z", LENDING, [WORKING, 3, 3, 3], [WORKING, 3, 3, 4]),
        ("reserved at most had, that is 0", LENDING, [WORKING, 3, 0, 0], [WORKING, 3, 0, 1]),
        ("reserved at most had, at the release", LENDING, [WORKING, 0, 0, 0], [WORKING, 0, 0, 1]),
        ("reserved from 0 on", LENDING, [WORKING, 3, 2, 0], [WORKING, 3, 2, u32::MAX]),
        ("had at most z, where less is reserved", LENDING, [WORKING, 2, 2, 0], [WORKING, 2, 3, 0]),
        ("had at most z, where as many as z are reserved", LENDING, [WORKING, 2, 2, 2], [WORKING, 2, 3, 2]),
        ("had below C, where less is reserved", LENDING, [WORKING, 5, 3, 0], [WORKING, 5, 4, 0]),
        ("had below C, where as many as may be are reserved", LENDING, [WORKING, 5, 3, 3], [WORKING, 5, 4, 3]),
        ("Working z at most D, where less is reserved", LENDING, [WORKING, 6, 3, 1], [WORKING, 7, 3, 1]),
        ("Holding under lending", LENDING, [HOLDING, 5, 3, 0], [HOLDING, 6, 3, 0]),
        ("Holding under lending from 0 on", LENDING, [HOLDING, 0, 0, 0], [HOLDING, 0, 1, 0]),
        ("Holding under lending, reserved at most z", LENDING, [HOLDING, 2, 2, 0], [HOLDING, 2, 3, 0]),
        ("Holding under lending, reserved below C", LENDING, [HOLDING, 5, 3, 0], [HOLDING, 5, 4, 0]),
    ];
    for rule in 1..=3 {
        limits.extend([
            ("as many are reserved as had, not fewer", rule, [WORKING, 3, 2, 2], [WORKING, 3, 2, 1]),
            ("as many are reserved as had, not more", rule, [WORKING, 3, 2, 2], [WORKING, 3, 2, 3]),
            ("as many are reserved as had, not none", rule, [WORKING, 3, 1, 1], [WORKING, 3, 1, 0]),
            ("as many are reserved as had, that is 0", rule, [WORKING, 3, 0, 0], [WORKING, 3, 0, 1]),
        ]);
    }
    for rule in [IDLING, LENDING] {
        limits.push(("Holding has no third number", rule, [HOLDING, 3, 1, 0], [HOLDING, 3, 1, 1]));
        limits.push(("Holding has no third number, far", rule, [HOLDING, 3, 0, 0], [HOLDING, 3, 0, u32::MAX]));
    }
    for rule in 1..=LENDING {
        limits.push(("Coming has no third number", rule, [COMING, 1, 0, 0], [COMING, 1, 0, 1]));
        limits.push(("Resting has no third number", rule, [RESTING, 1, 0, 0], [RESTING, 1, 0, 1]));
    }
    limits
}

/// One task alone under lending, with C 4 and D 6: T, the phase, the reports, and the phase one tick on. Work ends by ticks had, a hold by reserved ticks.
pub fn moves() -> Vec<(&'static str, u32, Phase, u32, Phase)> {
    vec![
        ("a tick of its own is had and reserved", 8, [WORKING, 2, 2, 0], 0, [WORKING, 3, 3, 1]),
        ("a tick of its own is had and reserved, where none was lent", 8, [WORKING, 2, 1, 1], 0, [WORKING, 3, 2, 2]),
        ("work ends by ticks had, and holds", 8, [WORKING, 4, 3, 1], 0, [HOLDING, 5, 2, 0]),
        ("work ends by ticks had, and holds, where none was reserved", 8, [WORKING, 4, 3, 0], 0, [HOLDING, 5, 1, 0]),
        ("work ends by ticks had, and rests where all were reserved", 8, [WORKING, 4, 3, 3], 0, [RESTING, 5, 0, 0]),
        ("work ends by ticks had at D, and rests", 8, [WORKING, 5, 3, 1], 0, [RESTING, 6, 0, 0]),
        ("work ends by ticks had at D = T, and works again", 6, [WORKING, 5, 3, 1], 0, [WORKING, 0, 0, 0]),
        ("reported work holds with what is reserved", 8, [WORKING, 3, 2, 0], 1, [HOLDING, 4, 1, 0]),
        ("reported work holds with what is reserved, where as much is had", 8, [WORKING, 3, 2, 2], 1, [HOLDING, 4, 3, 0]),
        ("reported work rests where all is reserved", 8, [WORKING, 4, 3, 3], 1, [RESTING, 5, 0, 0]),
        ("reported work holds where its length is had", 8, [WORKING, 4, 3, 2], 1, [HOLDING, 5, 3, 0]),
        ("reported work rests at D", 8, [WORKING, 5, 2, 0], 1, [RESTING, 6, 0, 0]),
        ("a hold goes on", 8, [HOLDING, 2, 1, 0], 0, [HOLDING, 3, 2, 0]),
        ("a hold goes on from 0 and 0", 8, [HOLDING, 0, 0, 0], 0, [HOLDING, 1, 1, 0]),
        ("a hold ends at C", 8, [HOLDING, 3, 3, 0], 0, [RESTING, 4, 0, 0]),
        ("a hold ends at D", 8, [HOLDING, 5, 1, 0], 0, [RESTING, 6, 0, 0]),
        ("a hold ends at D = T", 6, [HOLDING, 5, 1, 0], 0, [WORKING, 0, 0, 0]),
        ("work at D is late", 8, [WORKING, 5, 2, 1], 0, [WORKING, 6, 3, 2]),
        ("a rest ends at T", 8, [RESTING, 7, 0, 0], 0, [WORKING, 0, 0, 0]),
    ]
}

/// Under lending the first holds and the others wait: the cores, the holder's width and phase, the widths of the others, the row, borrowers, and the holder's phase one tick on.
/// A borrower has one tick more and none more reserved. Only it may be reported.
pub fn one_lends() -> Checked<()> {
    let task = |v: u32| [5, v, 4, 6, 8];
    let (before, waiting) = ([HOLDING, 2, 1, 0], [WORKING, 2, 1, 0]);
    let goes_on = [HOLDING, 3, 2, 0];
    for (name, cores, width, holder, others, row, borrowers, then) in [
        ("one borrower", 2, 2, before, vec![1], vec![2, 1], 0b10, goes_on),
        ("a borrower of all", 2, 2, before, vec![2], vec![2, 2], 0b10, goes_on),
        ("two borrowers", 3, 3, before, vec![1, 2], vec![2, 3, 3], 0b110, goes_on),
        ("one that does not fit is passed over", 3, 2, before, vec![3, 2], vec![3, 3, 0], 0b100, goes_on),
        ("one that does not fit in what is left", 3, 3, before, vec![2, 2, 1], vec![2, 2, 4], 0b1010, goes_on),
        ("nobody fits", 2, 1, before, vec![2, 2], vec![1, 0], 0, goes_on),
        ("an empty hold lends", 2, 2, [HOLDING, 0, 0, 0], vec![1, 1], vec![2, 3], 0b110, [HOLDING, 1, 1, 0]),
        ("the last reserved tick is lent", 2, 2, [HOLDING, 3, 3, 0], vec![1], vec![2, 1], 0b10, [RESTING, 4, 0, 0]),
        ("the tick before D is lent", 2, 2, [HOLDING, 5, 1, 0], vec![2], vec![2, 2], 0b10, [RESTING, 6, 0, 0]),
        ("a job that is at rest lends nothing, and the next has its own cores", 2, 2, [RESTING, 2, 0, 0], vec![2], vec![2, 2], 0, [RESTING, 3, 0, 0]),
    ] {
        let places: Vec<Place> = std::iter::once((width, holder)).chain(others.iter().map(|&v| (v, waiting))).map(|(v, phase)| place_of(task(v), v, 0, phase)).collect();
        let words = run(LENDING, cores, &places);
        let mut held = Run::from_words(words);
        let shown = held.row(0).map(|row| row[..row.len().min(cores as usize)].to_vec());
        same(name, Ok(row), shown)?;
        let own = if holder[0] == RESTING { 0b10 } else { 0 };
        for position in 0..=places.len() {
            let may = (borrowers | own) >> position & 1 == 1;
            same(&format!("{name}, a report on position {}", position + 1), if may { Ok(()) } else { Err(Refusal::BadReport) }, Run::from_words(words).advance(1 << position, 0))?;
        }
        same(name, Ok(()), held.advance(0, 0))?;
        let next = |place: usize| match place {
            0 => then,
            _ if own >> place & 1 == 1 => [WORKING, 3, 2, 1],
            _ => [WORKING, 3, 1 + (borrowers >> place & 1), 0],
        };
        let after: Vec<Place> = places.iter().enumerate().map(|(place, one)| place_of(task(one[1]), one[1], 0, next(place))).collect();
        same_run(name, &run(LENDING, cores, &after), held.words())?;
    }
    Ok(())
}

/// Two holders and the tasks that wait below them, on some cores: a borrower has one holder only and once, one between the two can have only the first, and a holder
/// without cores lends nothing.
pub fn two_lend() -> Checked<()> {
    let holds = |v: u32| odd([5, v, 4, 6, 8, HOLDING, 2, 1]);
    let waits = |v: u32| place_of([5, v, 4, 6, 8], v, 0, [WORKING, 2, 1, 0]);
    for (name, cores, places, row) in [
        ("fed by one only", 2, vec![holds(1), holds(1), waits(2)], [1, 2, 0, 0]),
        ("served once", 2, vec![holds(1), holds(1), waits(1)], [3, 2, 0, 0]),
        ("one from each", 2, vec![holds(1), holds(1), waits(1), waits(1)], [3, 4, 0, 0]),
        ("the second has what the first has not", 3, vec![holds(1), holds(2), waits(2), waits(1)], [4, 3, 3, 0]),
        ("one between the two", 3, vec![holds(2), waits(2), holds(1), waits(1)], [2, 2, 4, 0]),
        ("nothing from below", 2, vec![holds(1), waits(2), holds(1), waits(1)], [4, 3, 0, 0]),
        ("a holder without cores", 2, vec![holds(2), holds(1), waits(1), waits(1), waits(1)], [3, 4, 0, 0]),
        ("four cores", 4, vec![holds(2), holds(2), waits(3), waits(1), waits(2)], [4, 1, 5, 5]),
    ] {
        same(name, Ok(row), Run::from_words(run(LENDING, cores, &places)).row(0).map(|row| [row[0], row[1], row[2], row[3]]))?;
    }
    Ok(())
}
