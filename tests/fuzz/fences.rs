//! Fences of runs built by hand: 14 for each core and each count, and the rows with 255.
use crate::simulator::{HOLDING, RESTING, WORKING};
use crate::calls::{same, RunBuffer, Checked};
use crate::hand_built_runs::{fenced, odd, Place, Words, NOT_A_RUN, PLAIN};
use crate::rng::Rng;
use sivorandra::{Refusal, Run, ROW_BYTES, RUN_HEAD_WORDS};

/// A fence that leaves a core, and how many it leaves.
pub fn any(rng: &mut Rng, cores: u32) -> (u32, u64) {
    let all = u64::MAX >> (64 - cores);
    let one = 1 << rng.below(cores as usize);
    let (some, few) = (rng.next() & all, rng.next() & rng.next() & all);
    let fence = rng.pick(&[some & !one, few, all & !one, one]);
    let fence = if fence == all { 0 } else { fence };
    ((all & !fence).count_ones(), fence)
}

/// A task of this width, between two jobs.
const fn wide(width: u32) -> Place {
    odd([5, width, 4, 6, 8, RESTING, 1, 0])
}

/// A task whose even jobs have this width, between two jobs.
const fn second(width: u32) -> Place {
    [5, 1, 4, 6, 8, width, 0, RESTING, 1, 0, 0]
}

/// Each limit by name, a run inside and a run outside.
pub fn limits() -> Vec<(String, Words, Words)> {
    let mut limits = vec![
        ("a fence in both words".into(), fenced(1, 64, 1 << 63 | 1, &[PLAIN]), fenced(1, 63, 1 << 63 | 1, &[PLAIN])),
        ("the low word first".into(), fenced(1, 34, 1 | 1 << 33, &[PLAIN]), fenced(1, 33, 1 | 1 << 33, &[PLAIN])),
        ("a fence far".into(), fenced(1, 2, 0, &[PLAIN]), fenced(1, 2, u64::MAX, &[PLAIN])),
        ("width 3 of 64 cores, 61 of them fenced".into(), fenced(3, 64, !(0b111 << 40), &[PLAIN, wide(3)]), fenced(3, 64, !(0b11 << 40), &[PLAIN, wide(3)])),
        ("the width of the last place".into(), fenced(1, 4, 0b0010, &[PLAIN, PLAIN, wide(3)]), fenced(1, 4, 0b1010, &[PLAIN, PLAIN, wide(3)])),
        ("the second width of the last place".into(), fenced(1, 4, 0b0010, &[PLAIN, second(3)]), fenced(1, 4, 0b1010, &[PLAIN, second(3)])),
    ];
    for core in 0..64 {
        let cores = (core + 2).min(64);
        let one = |cores: u32, width: u32| fenced(1, cores, 1 << core, &[wide(width)]);
        limits.push((format!("no fence past the cores: core {core}"), one(cores, 1), one(core, 1)));
        limits.push((format!("width at most the {} cores beside core {core}", cores - 1), one(cores, cores - 1), one(cores, cores)));
        let all = u64::MAX >> (63 - core);
        let left = |fence: u64| fenced(2, core + 1, fence, &[wide(1)]);
        limits.push((format!("not all of {} cores: the highest left", core + 1), left(all >> 1), left(all)));
        limits.push((format!("not all of {} cores: the lowest left", core + 1), left(all & !1), left(all)));
    }
    limits
}

/// The row of a fenced run: 255 on fenced cores, 0 past the count, all zeros in a refusal. Its sets have no fenced core. An advance keeps the fence.
pub fn rows() -> Checked<()> {
    let two = odd([0, 2, 4, 6, 8, WORKING, 1, 1]);
    let late = odd([5, 1, 4, 6, 8, WORKING, 6, 1]);
    let four_or_two = |even| [0, 4, 4, 6, 8, 2, even, WORKING, 1, 1, 1];
    let (holds, waits) = (odd([0, 3, 4, 6, 8, HOLDING, 1, 1]), odd([0, 2, 4, 6, 8, WORKING, 1, 0]));
    for (name, words, cores) in [
        ("the lowest cores outside", fenced(1, 6, 0b010110, &[two, PLAIN]), &[1, 255, 255, 1, 255, 2][..]),
        ("an idle core among fenced ones", fenced(2, 5, 0b10101, &[PLAIN]), &[255, 1, 255, 0, 255]),
        ("nobody claims", fenced(3, 4, 0b1001, &[wide(1)]), &[255, 0, 0, 255]),
        ("the second does not fit and ends the choosing", fenced(2, 5, 0b00110, &[two, two, PLAIN]), &[1, 255, 255, 1, 0]),
        ("the second does not fit and is passed over", fenced(1, 5, 0b00110, &[two, two, PLAIN]), &[1, 255, 255, 1, 3]),
        ("an odd job", fenced(1, 6, 0b000110, &[four_or_two(0), PLAIN]), &[1, 255, 255, 1, 1, 1]),
        ("an even job", fenced(1, 6, 0b000110, &[four_or_two(1), PLAIN]), &[1, 255, 255, 1, 2, 0]),
        ("a borrower on the lowest cores of the holder", fenced(4, 6, 0b010010, &[holds, waits]), &[2, 255, 2, 1, 255, 0]),
    ] {
        let mut row = [0; ROW_BYTES];
        row[..cores.len()].copy_from_slice(cores);
        let mut held = Run::from_words(words);
        same(name, Ok(row), held.row(0))?;
        let set_of = |place: usize| (0..cores.len()).filter(|&core| usize::from(cores[core]) == place + 1).fold(0, |set, core| set | 1 << core);
        same(name, Ok(std::array::from_fn(set_of)), held.sets(0))?;
        same(name, Ok(()), held.advance(0, 0))?;
        same("the head of the run one tick on", &words[..RUN_HEAD_WORDS], &held.words()[..RUN_HEAD_WORDS])?;
    }
    let mut rng = Rng::new(1);
    let halves = std::array::from_fn(|core| if core < 32 { 1 } else { 255 });
    for (words, row) in [
        (fenced(1, 64, u64::MAX << 32, &[odd([0, 32, 4, 6, 8, WORKING, 1, 1])]), Ok(halves)),
        (fenced(1, 3, 0b010, &[late]), Err(Refusal::Late { position: 1 })),
        (fenced(1, 3, 0b111, &[PLAIN]), Err(NOT_A_RUN)),
        (fenced(5, 3, 0b010, &[PLAIN]), Err(NOT_A_RUN)),
    ] {
        let _ = RunBuffer::from(&mut rng, &words).row(&mut rng, 0, row)?;
    }
    Ok(())
}
