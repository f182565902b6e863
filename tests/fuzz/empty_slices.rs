//! Empty slices lent from Rust, whose pointers are not NULL (tests/library/hostile.c lends NULL).
use crate::calls::{same, Checked};
use sivorandra::{judge, judge_ticks, plan, replay, Refusal, Replay, Run, ROW_BYTES};

/// Example A, whose first row has position 1 on cores 0 and 1 and position 3 on core 2.
const TABLE: [u32; 26] = [1, 3, 1, 0, 0, 2, 0, 2, 2, 5, 5, 2, 3, 0, 2, 3, 5, 5, 2, 0, 0, 1, 4, 5, 5, 1];

fn refused<T>(number: u32) -> Result<T, Refusal> {
    Err(Refusal::new(number, 0))
}

/// Each call by name, and whether its answer is right.
pub fn all() -> Vec<(String, Checked<()>)> {
    let mut row = [0; ROW_BYTES];
    row[..3].copy_from_slice(&[1, 1, 3]);
    let tried = [
        same("judge of no words", refused(1), judge(&[])),
        same("judge_ticks of no words", refused(1), judge_ticks(&[])),
        same("plan of no words", refused(1), plan(&[], 0, 0, &mut [])),
        same("no rows of a plan", Ok(()), plan(&TABLE, 0, 0, &mut [])),
        same("one row of a plan into no bytes", refused(11), plan(&TABLE, 0, 1, &mut [])),
        same("replay of no words", refused(1), replay(&[], &[])),
        same("replay of no entries", Ok(Replay { answers: vec![], row: Ok(row) }), replay(&TABLE, &[])),
        same("start of no words", refused(1), Run::start(&[])),
    ];
    tried.into_iter().map(|tried| ("empty slices".into(), tried)).collect()
}
