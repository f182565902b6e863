//! The row of a run as sets of cores: its bytes are those of the sets and the fence, and no two sets overlap.
use sivorandra::{Refusal, Run, FENCED, GREEDY, IDLING, LENDING, LIMITED, ROW_BYTES, SETS};

/// The bytes of a row from its sets, the fence and the core count alone.
fn bytes_of(sets: &[u64; SETS], fence: u64, cores: usize) -> [u8; ROW_BYTES] {
    std::array::from_fn(|core| {
        let has = |set: u64| set >> core & 1 == 1;
        match sets.iter().position(|&set| has(set)) {
            _ if core >= cores => 0,
            _ if has(fence) => FENCED,
            found => found.map_or(0, |at| at as u8 + 1),
        }
    })
}

/// The row and the sets of a run with these empty jobs: both refused with one number, or the bytes of the row are those of the sets.
fn same(run: &Run, fence: u64, empties: u32) -> Result<[u64; SETS], Refusal> {
    let (row, sets) = (run.row(empties), run.sets(empties));
    assert_eq!(row, sets.map(|sets| bytes_of(&sets, fence, run.cores())));
    for (at, set) in sets.iter().flatten().enumerate() {
        assert_eq!(set & fence, 0);
        assert_eq!(set >> (run.cores() - 1) >> 1, 0);
        assert!(sets.iter().flatten().skip(at + 1).all(|other| set & other == 0));
    }
    sets
}

/// A table of four tasks under a rule, on six cores or on six that are spread over the word. The third does not fit beside the first two, and may borrow some of the first's cores.
fn table(rule: u32, fence: u64) -> Vec<u32> {
    let cores = if fence == 0 { 6 } else { 64 };
    let tasks = [[2, 0, 3, 3, 8, 8, 4], [3, 0, 2, 3, 8, 8, 2], [4, 0, 2, 2, 8, 8, 2], [0, 2, 1, 2, 8, 8, 2]];
    [&[1, cores, rule, fence as u32, (fence >> 32) as u32][..], tasks.as_flattened()].concat()
}

#[test]
fn bytes_are_those_of_the_sets() {
    let spread = !(1 | 1 << 5 | 3 << 31 | 3 << 62);
    let mut lent = 0;
    for rule in [GREEDY, LIMITED, IDLING, LENDING] {
        for fence in [0, spread] {
            for list in 0..64 {
                let mut run = Run::start(&table(rule, fence)).expect("an accepted table");
                for tick in 0..16 {
                    let all: Vec<_> = (0..16).map(|empties| same(&run, fence, empties)).collect();
                    let Ok(sets) = all[0] else { break };
                    // of three, or of four
                    lent += usize::from(matches!(sets[0].count_ones(), 1 | 2));
                    // one of those that have cores ends its job, where it may
                    let ends = 1 << ((list + tick) % 5);
                    if list >> (tick % 6) & 1 == 0 || run.advance(ends, 0).is_err() {
                        run.advance(0, 0).expect("an advance that reports nobody");
                    }
                }
            }
        }
    }
    assert!(lent > 20, "the first task lent some of its cores only {lent} times");
}

#[test]
fn a_refused_row_has_no_sets() {
    let run = Run::start(&table(LENDING, 0)).expect("an accepted table");
    assert_eq!(run.sets(16), Err(Refusal::BadEmpty));
    let mut words = *run.words();
    words[0] = 5;
    assert_eq!(Run::from_words(words).sets(16), Err(Refusal::NotARun));
    words[0] = LENDING;
    words[14] = 8; // the first task's release is eight ticks ago
    assert_eq!(Run::from_words(words).sets(16), Err(Refusal::Late { position: 1 }));
}
