//! Calls of the library for tests/outside/plan-check: each line of standard input is one, and one line answers it. `begin WORDS` and `state WORDS` set the plan, `own WORDS` gives the bytes of the
//! rows of our own plan up to the horizon, `row BYTES` checks a row, and `words` gives the words of the plan.
use sivorandra::{judge, plan, Refusal, RowAnswer, SuppliedPlan, Verdict, PLAN_WORDS};
use std::io::{self, BufRead, Write};

/// 24 to 26 are faults, with their tick.
fn refused(refusal: Refusal) -> String {
    match refusal.number() {
        number @ 24..=26 => format!("fault {number} {}", refusal.tick()),
        number => format!("refused {number} {}", refusal.position()),
    }
}

fn listed<T: ToString>(numbers: &[T]) -> String {
    numbers.iter().map(T::to_string).collect::<Vec<_>>().join(" ")
}

/// The rows of the whole plan of a table that does not miss; nothing where it does or is refused.
fn own(words: &[u32]) -> Vec<u8> {
    let (Ok(Verdict::Firm { start, period }) | Ok(Verdict::Full { start, period })) = judge(words) else { return Vec::new() };
    let mut rows = vec![0; (start + period) as usize * words[1] as usize];
    plan(words, 0, start + period, &mut rows).expect("rows up to the horizon");
    rows
}

fn main() -> io::Result<()> {
    let mut out = io::stdout().lock();
    let mut state = SuppliedPlan::from_words([0; PLAN_WORDS]);
    for line in io::stdin().lock().lines() {
        let line = line?;
        let (call, rest) = line.split_once(' ').unwrap_or((&line, ""));
        let words: Vec<u32> = rest.split_whitespace().map(|word| word.parse().expect("a number")).collect();
        let answer = match call {
            "begin" => SuppliedPlan::begin(&words).map_or_else(refused, |begun| {
                state = begun;
                "ok".to_string()
            }),
            "state" => {
                state = SuppliedPlan::from_words(words.try_into().expect("the words of a plan"));
                "ok".to_string()
            }
            "own" => listed(&own(&words)),
            "row" => match state.check_row(&words.iter().map(|&byte| byte as u8).collect::<Vec<_>>()) {
                Ok(RowAnswer::Taken) => "taken".to_string(),
                Ok(RowAnswer::Accepted) => "accepted".to_string(),
                Err(refusal) => refused(refusal),
            },
            "words" => listed(state.words()),
            _ => panic!("no such call: {line}"),
        };
        writeln!(out, "{answer}")?;
        out.flush()?;
    }
    Ok(())
}
