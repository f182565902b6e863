//! The functions of Rust for tests/outside/layers, printed as plain.c prints the plain calls.
use sivorandra::{bounds, conflict, judge, judge_events, judge_ticks, plan, replay, response_times, sentence, slack, Entry, Refusal, RowAnswer, Run, SuppliedPlan, Verdict, PLAN_WORDS, RUN_WORDS};
use std::fmt::Display;
use std::io::{stdin, BufRead};

/// The rows that are asked of a plan.
const TICKS: usize = 4;

fn refused(refusal: Refusal) -> String {
    format!("refused {} {}", refusal.number(), refusal.position() + refusal.tick())
}

fn told<Value>(result: Result<Value, Refusal>, shown: impl FnOnce(Value) -> String) -> String {
    result.map_or_else(refused, shown)
}

fn list<Number: Display>(numbers: &[Number]) -> String {
    numbers.iter().map(|number| format!(" {number}")).collect()
}

/// The case of a call that writes some numbers, and these; zeros in a refusal.
fn figures<Number: Display + Default + Copy, const N: usize>(result: Result<[Number; N], Refusal>) -> String {
    told(result, |_| "done 0 0".into()) + &list(&result.unwrap_or([Number::default(); N]))
}

fn mix(run: &[u32; RUN_WORDS]) -> String {
    format!(" run {}", run.iter().fold(2166136261u32, |sum, word| (sum ^ word).wrapping_mul(16777619)))
}

/// The advances and withdrawals of a list.
fn entries_of(operations: &str) -> Vec<Entry> {
    let mut parts = operations.split_whitespace();
    let mut entries = Vec::new();
    while let Some(letter) = parts.next() {
        let mut number = || parts.next().expect("a number").parse::<u32>().expect("a number");
        let first = number();
        match letter {
            "a" => entries.push(Entry::Advance { reports: first, empties: number() }),
            "w" => entries.push(Entry::Withdraw { position: first }),
            "W" => entries.push(Entry::WithdrawAll { set: first }),
            _ => (),
        }
    }
    entries
}

fn ask(words: &[u32], operations: &str) {
    let verdict = judge(words);
    for verdict in [verdict, judge_ticks(words), judge_events(words)] {
        println!("{}", told(verdict, |verdict| verdict.to_string()));
    }
    println!("{}", told(sentence(words), |text| format!("done {} 0 '{text}'", text.len())) + if matches!(verdict, Ok(Verdict::Miss { .. })) { "" } else { " ''" });
    println!("{}", figures(response_times(words)));
    let tested = bounds(words);
    let passes = matches!(tested, Ok(Some(_)));
    let case = told(tested, |_| if passes { "done 1 0" } else { "not-passed 0 0" }.into());
    println!("{case}{}", list(&tested.unwrap_or(None).unwrap_or([0; 32])));
    let kept = conflict(words);
    println!("{} {}", told(kept, |kept| format!("done {kept} 0")), kept.unwrap_or(0));
    println!("{}", figures(slack(words)));
    let mut rows = [0; TICKS * 64];
    println!("{}{}", told(plan(words, 0, TICKS as u32, &mut rows), |()| "done 0 0".into()), list(&rows));
    let begun = SuppliedPlan::begin(words);
    println!("{}", told(begun.clone().map(|_| ()), |()| "done 0 0".into()));
    let cores = words.get(1).filter(|&&cores| cores <= 64).map_or(0, |&cores| cores as usize);
    let mut supplied = begun.unwrap_or(SuppliedPlan::from_words([0; PLAN_WORDS]));
    for tick in 0..TICKS {
        let answer = supplied.check_row(&rows[tick * cores..(tick + 1) * cores]);
        println!("{}", told(answer, |answer| if answer == RowAnswer::Accepted { "accepted 0 0" } else { "done 0 0" }.into()));
    }
    let entries = entries_of(operations);
    let replayed = replay(words, &entries);
    let (numbers, row): (Vec<u32>, [u8; 64]) = match &replayed {
        Ok(replay) => (replay.answers.iter().map(|answer| answer.map_or_else(|refusal| refusal.number() * 256 + refusal.position(), |()| 0)).collect(), replay.row.unwrap_or([0; 64])),
        Err(_) => (vec![0; entries.len()], [0; 64]),
    };
    let last = replayed.and_then(|replay| Ok(replay.row));
    println!("{}{}", told(last, |row| row.map_or_else(|refusal| format!("row-{}", refused(refusal)), |_| "done 0 0".into())), list(&numbers));
    println!("{}", list(&row));
    let mut run = match Run::start(words) {
        Ok(run) => run,
        Err(refusal) => {
            println!("{}", refused(refusal)); // no run is left here
            return;
        }
    };
    println!("done 0 0{}", mix(run.words()));
    let mut parts = operations.split_whitespace();
    while let Some(letter) = parts.next() {
        let mut number = || parts.next().expect("a number").parse::<u32>().expect("a number");
        let first = number();
        let answer = match letter {
            "q" => {
                println!("{}", figures(run.row(first)));
                println!("{}", figures(run.sets(first)));
                println!("{} {}", told(run.working(first), |_| "done 0 0".into()), run.working(first).unwrap_or(0));
                continue;
            }
            "a" => run.advance(first, number()),
            "w" => run.withdraw(first),
            "W" => run.withdraw_all(first),
            _ => {
                let mut words = *run.words();
                words[first as usize % RUN_WORDS] ^= 5;
                run = Run::from_words(words);
                Ok(())
            }
        };
        println!("{}{}", told(answer, |()| "done 0 0".into()), mix(run.words()));
    }
}

fn main() {
    for line in stdin().lock().lines() {
        let line = line.expect("a line");
        let (table, operations) = line.split_once('|').expect("a bar");
        let words: Vec<u32> = table.split_whitespace().map(|word| word.parse().expect("a word")).collect();
        ask(&words, operations);
        println!(".");
    }
}
