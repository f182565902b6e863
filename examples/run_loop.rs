//! A run in the cab from Rust: twelve ticks of three tasks on three cores under rule 4, lending.
//! It is examples/run_loop.c again, and prints the same, but for the words of a refusal.
//! `cargo run --manifest-path bindings/rust/Cargo.toml --example run_loop`
use sivorandra::{link, Record, Refusal, Run, LENDING, SETS};
use std::process::exit;

const TICKS: u32 = 12;

/// Offset, width of odd jobs, length, deadline, period, width of even jobs.
const RECORDS: [[u32; 6]; 3] = [[0, 2, 2, 5, 5, 2], [0, 2, 3, 5, 5, 2], [0, 1, 4, 5, 5, 1]];

/// What happens in the cab; sets of positions, bit 0 for position 1.
fn without_work(tick: u32) -> u32 {
    if tick == 5 {
        0b010
    } else {
        0
    }
}

fn ended_in(tick: u32) -> u32 {
    match tick {
        0 => 0b001,
        4 => 0b100,
        _ => 0,
    }
}

fn switched_off_after(tick: u32) -> Option<u32> {
    (tick == 7).then_some(3)
}

/// What to do at a refusal: nothing where the loop can go on, else the status of the program.
fn refused(tick: u32, what: &str, refusal: Refusal) -> Result<(), i32> {
    println!("tick {tick}: {what} is refused, number {}: {refusal}", refusal.number());
    match refusal {
        Refusal::BadReport => Ok(()),   // 16: advance with the reports that are in `working`
        Refusal::BadEmpty => Ok(()),    // 20: ask again without the jobs that are not released now
        Refusal::NotFirm => Ok(()),     // 21: this table loses no task while it runs
        Refusal::NoPosition => Ok(()),  // 22: there is no such task; the run is as it was
        Refusal::Late { .. } => Err(1), // 15: the position has missed its deadline: stop the machine
        _ => Err(2),                    // 14: this is no run, and 1 to 13, 19: no table to start
    }
}

/// The tick passes: each position that works runs on its cores. Which jobs have ended?
fn dispatch(tick: u32, sets: &[u64; SETS], working: u32) -> u32 {
    print!("tick {tick}:");
    for (place, set) in sets.iter().enumerate().filter(|(_, set)| **set != 0) {
        print!(" position {} {} {set};", place + 1, if working >> place & 1 == 1 { "works on" } else { "holds" });
    }
    println!();
    ended_in(tick)
}

fn cab() -> Result<(), i32> {
    let table = link(3, LENDING, 0, &RECORDS.map(Record::from), &[0, 1, 2]);
    let mut run = match table.and_then(|table| Run::start(table.words())) {
        Ok(run) => run,
        Err(refusal) => return refused(0, "the start", refusal).and(Err(2)),
    };
    for tick in 0..TICKS {
        let mut empties = without_work(tick);
        if let Err(refusal) = run.sets(empties) {
            refused(tick, "the row", refusal)?;
            empties = 0;
        }
        let asked = run.sets(empties).and_then(|sets| Ok((sets, run.working(empties)?)));
        let (sets, working) = match asked {
            Ok(asked) => asked,
            Err(refusal) => return refused(tick, "the row", refusal).and(Err(2)),
        };

        let reports = dispatch(tick, &sets, working);
        if let Err(refusal) = run.advance(reports, empties) {
            refused(tick, "the advance", refusal)?;
            run.advance(reports & working, empties).or_else(|refusal| refused(tick, "the advance", refusal))?;
        }
        if let Some(position) = switched_off_after(tick) {
            run.withdraw(position).or_else(|refusal| refused(tick, "the withdrawal", refusal))?;
        }
    }
    Ok(())
}

fn main() {
    if let Err(status) = cab() {
        exit(status);
    }
}
